/* A node of several: its workers replicate a map with those of all other nodes, over the bridge.

   Each worker sends its messages 0, 1, .. to the end, paced, and applies all that it hears. Each
   looks whether it is given each number of each worker of each node once, in order, and its own
   messages as it put them. At each checkpoint the maps of all workers of the node are compared.
   The first worker writes its map and the place of the checkpoint into a file, from which the node
   goes on when it is started again: whole or not at all, since it is renamed there. Without a file
   it reads the stream from the start. */
#include "bridge.h"
#include "engine.h"
#include <errno.h>
#include <fcntl.h>
#include <inttypes.h>
#include <pthread.h>
#include <signal.h>
#include <stdio.h>
#include <stdlib.h>
#include <string.h>
#include <unistd.h>

enum { KEYS = 256, CHECKPOINTS = 64, NODE_OPTIONS = 6, BURST = 16 };

/* What all workers of all nodes have alike. */
struct replica {
    uint64_t values[KEYS];
    uint64_t next[BRIDGE_MOST_NODES][BRIDGE_MOST_WORKERS]; /* the number that comes next */
    uint64_t items;
};

struct state {
    char magic[8];
    uint64_t check; /* of what follows */
    struct bridge_place place;
    struct replica replica;
};

struct node {
    struct bridge_options bridge_options;
    uint64_t nodes, messages, bytes, pace, burst;
    char file[201];
    struct bridge *bridge;
    struct state *state; /* where it began; then the first worker's, to write */
    uint64_t life;       /* differs from life to life: it is in each message */
    pthread_mutex_t lock;
    uint64_t checkpoints[CHECKPOINTS]; /* under `lock`: places, and checksums of the maps there */
    uint64_t checks[CHECKPOINTS];
};

struct worker {
    struct node *node;
    size_t number;
    struct replica replica;
    uint64_t start; /* the first number that it sends in this life */
    bool started;
    int failed;
    int64_t due; /* when it sends again, in milliseconds */
};

static volatile sig_atomic_t asked_to_end;

static void ask_to_end(int sign) {
    (void)sign;
    asked_to_end = 1;
}

static int64_t now(void) {
    struct timespec at;
    clock_gettime(CLOCK_MONOTONIC, &at);
    return (int64_t)at.tv_sec * 1000 + at.tv_nsec / 1000000;
}

static uint64_t mixed(uint64_t number) {
    number = (number ^ number >> 30) * 0xbf58476d1ce4e5b9u;
    number = (number ^ number >> 27) * 0x94d049bb133111ebu;
    return number ^ number >> 31;
}

/* The message of this number: what it does, a key, a value, and zeros. */
static void make(const struct worker *worker, uint64_t number, struct bridge_message *message) {
    const struct node *node = worker->node;
    uint64_t dice =
        mixed(node->life ^ node->bridge_options.node << 56 ^ worker->number << 48 ^ number);
    memset(message, 0, sizeof *message);
    message->length = (uint8_t)node->bytes;
    message->bytes[0] = dice & 3 ? 'a' : 's';
    message->bytes[1] = (uint8_t)(dice >> 8);
    for (int i = 0; i < 8; i++) message->bytes[2 + i] = (uint8_t)(mixed(dice) >> (8 * i));
}

/* Adding and setting do not commute, so equal maps show one order. */
static void apply(struct replica *replica, const struct bridge_item *item) {
    uint64_t value = 0, *at = &replica->values[item->bytes[1]];
    for (int i = 8; i > 0; i--) value = value << 8 | item->bytes[1 + i];
    *at = item->bytes[0] == 's' ? value : *at * 31 + value;
    replica->next[item->node][item->sender]++;
    replica->items++;
}

static int wrong(struct worker *worker, const struct bridge_item *item, const char *how) {
    say("node %" PRIu64 ": worker %zu: number %" PRIu64 " of worker %u of node %u %s",
        worker->node->bridge_options.node, worker->number, item->number, item->sender, item->node,
        how);
    return worker->failed = 3;
}

/* Looks at an item before it is applied. */
static int look(struct worker *worker, const struct bridge_item *item) {
    const struct node *node = worker->node;
    uint64_t next = worker->replica.next[item->node][item->sender];
    struct bridge_message own;
    if (item->number < next) return wrong(worker, item, "came TWICE");
    if (item->number > next) return wrong(worker, item, "came, and one before it is LOST");
    if (item->node != node->bridge_options.node || item->sender != worker->number) return 0;
    if (!worker->started || item->number < worker->start) return 0;
    make(worker, item->number, &own);
    if (own.length == item->length && !memcmp(own.bytes, item->bytes, own.length)) return 0;
    return wrong(worker, item, "CHANGED");
}

static uint64_t check_of(const void *bytes, size_t length) {
    return entry_check(bytes, length);
}

/* Compares the map with those of the other workers at the same checkpoint. */
static void compare(struct worker *worker, uint64_t place) {
    struct node *node = worker->node;
    uint64_t check = check_of(&worker->replica, sizeof worker->replica);
    size_t at = place % CHECKPOINTS;
    pthread_mutex_lock(&node->lock);
    if (node->checkpoints[at] == place && node->checks[at] != check) {
        say("node %" PRIu64 ": worker %zu: its map DIFFERS from another's at entry %" PRIu64,
            node->bridge_options.node, worker->number, place);
        worker->failed = 3;
    }
    node->checkpoints[at] = place;
    node->checks[at] = check;
    pthread_mutex_unlock(&node->lock);
}

static bool write_all(int file, const void *bytes, size_t length) {
    for (size_t at = 0; at < length;) {
        ssize_t wrote = write(file, (const char *)bytes + at, length - at);
        if (wrote < 0) return false;
        at += (size_t)wrote;
    }
    return fsync(file) == 0;
}

/* Writes the state beside the file, and renames it there. */
static bool save(const char *path, struct state *state) {
    char beside[210];
    snprintf(beside, sizeof beside, "%s.new", path);
    memcpy(state->magic, "KBNODE1", 8);
    state->check = check_of(&state->place, sizeof *state - offsetof(struct state, place));
    int file = open(beside, O_WRONLY | O_CREAT | O_TRUNC, 0600);
    if (file < 0) return false;
    bool good = write_all(file, state, sizeof *state);
    good = close(file) == 0 && good;
    return good && rename(beside, path) == 0;
}

/* Reads the state, if the file is there. */
static enum bridge_code load(const char *path, struct state *state, struct bridge_fault *fault) {
    int file = open(path, O_RDONLY);
    if (file < 0 && errno == ENOENT) return BRIDGE_OK;
    if (file < 0) return fault_set(fault, BRIDGE_NO_FILE, "%s: %s", path, strerror(errno));
    ssize_t many = read(file, state, sizeof *state);
    close(file);
    uint64_t check = check_of(&state->place, sizeof *state - offsetof(struct state, place));
    if (many != (ssize_t)sizeof *state || memcmp(state->magic, "KBNODE1", 8) ||
        state->check != check) {
        return fault_set(fault, BRIDGE_BAD_PLACE, "%s is no whole state of a node", path);
    }
    return BRIDGE_OK;
}

static void heard_checkpoint(struct worker *worker, const struct bridge_item *checkpoint) {
    struct node *node = worker->node;
    compare(worker, checkpoint->number);
    if (worker->number || !*node->file ||
        !bridge_checkpoint(node->bridge, checkpoint, &node->state->place))
        return;
    node->state->replica = worker->replica;
    if (save(node->file, node->state)) return;
    say("node %" PRIu64 ": %s: %s: the place before it stays", node->bridge_options.node,
        node->file, strerror(errno));
}

/* Applies all that is there. False: the bridge has ended. */
static bool hear(struct worker *worker) {
    struct bridge_item item;
    for (;;) {
        switch (bridge_hear(worker->node->bridge, worker->number, &item)) {
        case BRIDGE_NOTHING: return true;
        case BRIDGE_ENDED: return false;
        case BRIDGE_CHECKPOINT: heard_checkpoint(worker, &item); break;
        case BRIDGE_ITEM:
            if (look(worker, &item)) return false;
            apply(&worker->replica, &item);
            break;
        }
    }
}

/* Sends some of what is left to send, when it is time. Whether it did. */
static bool send_some(struct worker *worker) {
    struct node *node = worker->node;
    struct bridge_message messages[BURST];
    uint64_t next;
    size_t many = 0;
    if (now() < worker->due || !bridge_next_number(node->bridge, worker->number, &next))
        return false;
    if (!worker->started) worker->start = next;
    worker->started = true;
    for (; many < node->burst && next + many < node->messages; many++) {
        make(worker, next + many, &messages[many]);
    }
    if (!many) return false;
    if (bridge_send(node->bridge, worker->number, messages, many, NULL) != BRIDGE_SENT)
        return false;
    worker->due = node->pace ? now() + (int64_t)node->pace : 0;
    return true;
}

static bool is_done(const struct worker *worker) {
    const struct node *node = worker->node;
    for (uint64_t n = 0; n < node->nodes; n++) {
        for (uint64_t w = 0; w < node->bridge_options.workers; w++) {
            if (worker->replica.next[n][w] < node->messages) return false;
        }
    }
    return true;
}

static void *work(void *given) {
    struct worker *worker = given;
    unsigned step = 0;
    while (!is_done(worker) && !asked_to_end && !worker->failed) {
        uint64_t items = worker->replica.items;
        if (!hear(worker)) break;
        if (send_some(worker) || worker->replica.items > items) step = 0;
        else bridge_idle(&step);
    }
    if (worker->failed) bridge_stop(worker->node->bridge);
    return NULL;
}

/* Prints what the workers came to. */
static int result(const struct node *node, const struct worker *workers) {
    const struct bridge_fault *fault = bridge_ended_by(node->bridge);
    for (uint64_t i = 0; i < node->bridge_options.workers; i++) {
        if (workers[i].failed) return workers[i].failed;
    }
    if (fault) return 1;
    if (asked_to_end)
        return printf("node %" PRIu64 ": ended when asked\n", node->bridge_options.node), 0;
    for (uint64_t i = 1; i < node->bridge_options.workers; i++) {
        if (!memcmp(&workers[i].replica, &workers[0].replica, sizeof workers[0].replica)) continue;
        return fprintf(stderr, "node %" PRIu64 ": the maps of its workers DIFFER\n",
                       node->bridge_options.node),
               3;
    }
    printf("node %" PRIu64 ": %" PRIu64 " equal maps %016" PRIx64 ", %" PRIu64 " items applied\n",
           node->bridge_options.node, node->bridge_options.workers,
           check_of(&workers[0].replica, sizeof workers[0].replica), workers[0].replica.items);
    return 0;
}

static int run(struct node *node, struct worker *workers) {
    struct bridge_fault fault;
    pthread_t threads[BRIDGE_MOST_WORKERS];
    uint64_t many = 0;
    if (bridge_open(&node->bridge, &node->bridge_options, &node->state->place, &fault) !=
        BRIDGE_OK) {
        return fprintf(stderr, "node: %s: %s\n", fault_name(fault.code), fault.text), 1;
    }
    /* All begin with the map of the file, before the first of them writes another one. */
    for (uint64_t i = 0; i < node->bridge_options.workers; i++) {
        workers[i].node = node;
        workers[i].number = i;
        workers[i].replica = node->state->replica;
    }
    for (; many < node->bridge_options.workers; many++) {
        if (pthread_create(&threads[many], NULL, work, &workers[many])) break;
    }
    bool all = many == node->bridge_options.workers;
    if (!all) bridge_stop(node->bridge);
    for (uint64_t i = 0; i < many; i++) pthread_join(threads[i], NULL);
    int status = all ? result(node, workers) : (fprintf(stderr, "node: a thread was refused\n"), 1);
    bridge_close(node->bridge);
    engine_end();
    return status;
}

#define A_NUMBER(field, from, to_, says)                                                           \
    {                                                                                              \
        .name = #field, .meaning = says, .kind = OPTION_NUMBER, .to = &node->field, .least = from, \
        .most = to_                                                                                \
    }

static void list_options(struct node *node, struct option *options) {
    const struct option own[NODE_OPTIONS] = {
        A_NUMBER(nodes, 1, BRIDGE_MOST_NODES, "nodes that send, numbered from 0 on"),
        A_NUMBER(messages, 1, 1000000000000, "messages of each worker of each node"),
        A_NUMBER(bytes, 10, BRIDGE_MOST_BYTES, "bytes of a message"),
        A_NUMBER(pace, 0, 60000, "milliseconds from batch to batch of a worker"),
        A_NUMBER(burst, 1, BURST, "messages of a batch"),
        {.name = "file",
         .meaning = "where the node keeps its place and its map",
         .kind = OPTION_TEXT,
         .to = node->file,
         .most = 200},
    };
    bridge_options_list(&node->bridge_options, options);
    memcpy(options + BRIDGE_OPTIONS, own, sizeof own);
}

int main(int words, char **word) {
    static struct node node = {
        .nodes = 3, .messages = 10000, .bytes = 24, .burst = 8, .lock = PTHREAD_MUTEX_INITIALIZER};
    static struct worker workers[BRIDGE_MOST_WORKERS];
    static struct state state;
    struct option options[BRIDGE_OPTIONS + NODE_OPTIONS];
    struct sigaction ends = {.sa_handler = ask_to_end};
    struct bridge_fault fault;
    bridge_options_usual(&node.bridge_options);
    list_options(&node, options);
    if (options_help(words, word)) {
        printf("usage: node [--OPTION VALUE]..\n\n");
        options_print(options, BRIDGE_OPTIONS + NODE_OPTIONS);
        return 0;
    }
    enum bridge_code code =
        options_read(options, BRIDGE_OPTIONS + NODE_OPTIONS, words, word, &fault);
    node.state = &state;
    if (code == BRIDGE_OK && node.bridge_options.node >= node.nodes) {
        code = fault_set(&fault, BRIDGE_OUT_OF_RANGE, "node is below nodes, which is %" PRIu64,
                         node.nodes);
    }
    if (code == BRIDGE_OK && *node.file) code = load(node.file, &state, &fault);
    if (code != BRIDGE_OK)
        return fprintf(stderr, "node: %s: %s\n", fault_name(code), fault.text), 2;
    node.life = mixed((uint64_t)time(NULL) << 20 ^ (uint64_t)getpid());
    sigaction(SIGTERM, &ends, NULL);
    sigaction(SIGINT, &ends, NULL);
    return run(&node, workers);
}
