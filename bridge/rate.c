/* What the bridge costs beside the engine alone: the same client, entries of the same bytes, as
   many of them under way, heard by as many threads of one process.

   `engine` appends ready entries by one thread, and reads them by as many as there are workers,
   each with a connection of its own. `bridge` is a node whose workers send and hear: each item goes
   through both of its buses too. Each prints a line: items, items of an entry, bytes of an item,
   seconds, items a second, and from sending an item to hearing it the time of half of them and that
   of all but a hundredth, in microseconds. With `--pace` each thread that sends begins a batch in
   so many milliseconds. */
#include "bridge.h"
#include "engine.h"
#include <inttypes.h>
#include <pthread.h>
#include <stdio.h>
#include <stdlib.h>
#include <string.h>
#include <unistd.h>

enum { RATE_OPTIONS = 4, TIMES = 65536 };

struct rate {
    struct bridge_options options;
    uint64_t messages, bytes, pace, burst;
    struct bridge *bridge;
    uint64_t times[TIMES]; /* in nanoseconds, of some items */
    uint64_t timed;
};

struct worker {
    struct rate *rate;
    size_t number;
    uint64_t heard;
    bool failed;
};

static uint64_t nanoseconds(void) {
    struct timespec now;
    clock_gettime(CLOCK_MONOTONIC, &now);
    return (uint64_t)now.tv_sec * 1000000000 + (uint64_t)now.tv_nsec;
}

static int fails(const struct bridge_fault *fault) {
    fprintf(stderr, "rate: %s: %s\n", fault_name(fault->code), fault->text);
    exit(1);
}

static void pause_for(uint64_t milliseconds) {
    struct timespec pause = {(time_t)(milliseconds / 1000), (long)(milliseconds % 1000) * 1000000};
    if (milliseconds) nanosleep(&pause, NULL);
}

/* Notes when the item that has this time was heard: of the first worker alone, so no lock. */
static void note_time(struct rate *rate, const uint8_t *bytes) {
    uint64_t sent;
    memcpy(&sent, bytes, sizeof sent);
    if (rate->timed < TIMES) rate->times[rate->timed++] = nanoseconds() - sent;
}

static int lower(const void *a, const void *b) {
    uint64_t left = *(const uint64_t *)a, right = *(const uint64_t *)b;
    return left < right ? -1 : left > right;
}

static void print(struct rate *rate, const char *name, uint64_t items, double each, uint64_t took) {
    qsort(rate->times, rate->timed, sizeof *rate->times, lower);
    double middle = rate->timed ? (double)rate->times[rate->timed / 2] / 1000 : 0;
    double late = rate->timed ? (double)rate->times[rate->timed * 99 / 100] / 1000 : 0;
    printf("%s %" PRIu64 " %.1f %" PRIu64 " %.3f %.0f %.0f %.0f\n", name, items, each, rate->bytes,
           (double)took / 1e9, (double)items * 1e9 / (double)took, middle, late);
}

/* Reads as many entries as are appended. */
static void *read_all(void *given) {
    struct worker *worker = given;
    struct rate *rate = worker->rate;
    struct engine_link *link;
    struct engine_entry entry;
    struct bridge_fault fault;
    uint64_t entries = rate->messages / rate->options.batch, many = 0;
    if (!engine_connect(&link, &rate->options, "reader", &fault)) fails(&fault);
    if (!engine_read_from(link, 1, &fault)) fails(&fault);
    while (many < entries) {
        enum engine_read read = engine_next(link, 100, &entry, &fault);
        if (read == ENGINE_BROKEN) fails(&fault);
        if (read != ENGINE_ENTRY) continue;
        if (!worker->number && many % (entries / TIMES + 1) == 0)
            note_time(rate, entry.bytes + ENTRY_HEAD + ENTRY_ITEM_HEAD);
        many++;
        engine_release(&entry);
    }
    engine_close(link);
    return NULL;
}

/* Appends entries that are made beforehand, but for the time that is written into each. */
static void append_all(struct rate *rate, struct engine_link *link, uint8_t *bytes, size_t length) {
    struct bridge_fault fault;
    uint64_t entries = rate->messages / rate->options.batch, stored = 0, place;
    for (uint64_t i = 0; i < entries; i++) {
        uint64_t now = nanoseconds();
        memcpy(bytes + ENTRY_HEAD + ENTRY_ITEM_HEAD, &now, sizeof now);
        if (!engine_append(link, bytes, length, &fault)) fails(&fault);
        pause_for(rate->pace);
        unsigned step = 0;
        if (!engine_stored(link, &stored, &place, &fault)) fails(&fault);
        while (i + 1 - stored >= rate->options.window) {
            bridge_idle(&step);
            if (!engine_stored(link, &stored, &place, &fault)) fails(&fault);
        }
    }
    while (stored < entries) {
        if (!engine_stored(link, &stored, &place, &fault)) fails(&fault);
    }
}

/* Makes an entry, and gives its length. */
static size_t make_entry(const struct rate *rate, uint8_t *bytes) {
    uint8_t message[BRIDGE_MOST_BYTES] = {0};
    size_t length = ENTRY_HEAD;
    entry_head(bytes, 0, 1, 0, (uint16_t)rate->options.batch);
    for (uint64_t i = 0; i < rate->options.batch; i++) {
        struct entry_item item = {i, 0, (uint8_t)rate->bytes, message};
        length += entry_put(bytes + length, &item);
    }
    return length;
}

/* Starts a thread for each worker. */
static void start(struct rate *rate, struct worker *workers, pthread_t *threads,
                  void *(*does)(void *)) {
    for (uint64_t i = 0; i < rate->options.workers; i++) {
        workers[i].rate = rate;
        workers[i].number = i;
        if (pthread_create(&threads[i], NULL, does, &workers[i])) exit(1);
    }
}

static void join(const struct rate *rate, const pthread_t *threads) {
    for (uint64_t i = 0; i < rate->options.workers; i++) pthread_join(threads[i], NULL);
}

static void run_engine(struct rate *rate) {
    static uint8_t bytes[ENTRY_MOST];
    static struct worker readers[BRIDGE_MOST_WORKERS];
    pthread_t threads[BRIDGE_MOST_WORKERS];
    struct engine_link *link;
    struct engine_stream stream;
    struct bridge_fault fault;
    size_t length = make_entry(rate, bytes);
    if (!engine_connect(&link, &rate->options, "writer", &fault)) fails(&fault);
    if (!engine_stream(link, true, &stream, &fault)) fails(&fault);
    start(rate, readers, threads, read_all);
    pause_for(200);
    uint64_t began = nanoseconds();
    append_all(rate, link, bytes, length);
    uint64_t appended = nanoseconds() - began;
    join(rate, threads);
    uint64_t took = nanoseconds() - began;
    uint64_t items = rate->messages / rate->options.batch * rate->options.batch;
    printf("appended %.0f items a second\n", (double)items * 1e9 / (double)appended);
    print(rate, "engine", items, (double)rate->options.batch, took);
    engine_close(link);
}

/* So many messages ahead for each worker that the window is what bounds the entries under way. */
static void fill_window(struct bridge_options *options) {
    uint64_t ahead = options->window * options->batch / options->workers;
    options->ahead = ahead < 16 ? 16 : ahead > 8192 ? 8192 : ahead;
}

/* Hears what is there; of the first worker's own items some are timed. */
static bool hear(struct worker *worker) {
    struct rate *rate = worker->rate;
    struct bridge_item item;
    uint64_t each = rate->messages / rate->options.workers / TIMES + 1;
    for (;;) {
        switch (bridge_hear(rate->bridge, worker->number, &item)) {
        case BRIDGE_ITEM:
            worker->heard++;
            if (worker->number || item.sender || item.number % each) break;
            note_time(rate, item.bytes);
            break;
        case BRIDGE_CHECKPOINT: break;
        case BRIDGE_NOTHING: return true;
        case BRIDGE_ENDED: return false;
        }
    }
}

static void *work(void *given) {
    struct worker *worker = given;
    struct rate *rate = worker->rate;
    struct bridge_message messages[16];
    uint64_t own = rate->messages / rate->options.workers, all = own * rate->options.workers, next;
    uint64_t due = 0;
    unsigned step = 0;
    memset(messages, 0, sizeof messages);
    for (size_t i = 0; i < 16; i++) messages[i].length = (uint8_t)rate->bytes;
    while (worker->heard < all) {
        uint64_t before = worker->heard, now = nanoseconds();
        if (!hear(worker)) worker->failed = true;
        if (worker->failed) break;
        bool sent = false;
        if (now >= due && bridge_next_number(rate->bridge, worker->number, &next) && next < own) {
            uint64_t many = own - next < rate->burst ? own - next : rate->burst;
            for (uint64_t i = 0; i < many; i++) memcpy(messages[i].bytes, &now, sizeof now);
            sent = bridge_send(rate->bridge, worker->number, messages, many, NULL) == BRIDGE_SENT;
            if (sent) due = now + rate->pace * 1000000;
        }
        if (sent || worker->heard > before) step = 0;
        else bridge_idle(&step);
    }
    return NULL;
}

static void run_bridge(struct rate *rate) {
    static struct worker workers[BRIDGE_MOST_WORKERS];
    pthread_t threads[BRIDGE_MOST_WORKERS];
    struct bridge_fault fault;
    struct bridge_shown shown;
    uint64_t number;
    fill_window(&rate->options);
    if (bridge_open(&rate->bridge, &rate->options, NULL, &fault) != BRIDGE_OK) fails(&fault);
    while (!bridge_next_number(rate->bridge, 0, &number)) pause_for(1);
    uint64_t began = nanoseconds();
    start(rate, workers, threads, work);
    join(rate, threads);
    uint64_t took = nanoseconds() - began;
    bridge_show(rate->bridge, &shown);
    if (workers[0].failed) exit(1);
    print(rate, "bridge", workers[0].heard, (double)shown.items_sent / (double)shown.entries_sent,
          took);
    bridge_close(rate->bridge);
}

#define A_NUMBER(field, from, to_, says)                                                           \
    {                                                                                              \
        .name = #field, .meaning = says, .kind = OPTION_NUMBER, .to = &rate->field, .least = from, \
        .most = to_                                                                                \
    }

static void list_options(struct rate *rate, struct option *options) {
    const struct option own[RATE_OPTIONS] = {
        A_NUMBER(messages, 1, 1000000000, "items in all"),
        A_NUMBER(bytes, 8, BRIDGE_MOST_BYTES, "bytes of an item"),
        A_NUMBER(pace, 0, 1000, "milliseconds from batch to batch"),
        A_NUMBER(burst, 1, 16, "messages that a worker sends at once"),
    };
    bridge_options_usual(&rate->options);
    rate->options.report = 0;
    bridge_options_list(&rate->options, options);
    memcpy(options + BRIDGE_OPTIONS, own, sizeof own);
}

int main(int words, char **word) {
    static struct rate rate = {.messages = 1000000, .bytes = 24, .burst = 16};
    struct option options[BRIDGE_OPTIONS + RATE_OPTIONS];
    struct bridge_fault fault;
    list_options(&rate, options);
    bool engine = words > 1 && !strcmp(word[1], "engine");
    if (options_help(words, word) || (!engine && (words < 2 || strcmp(word[1], "bridge")))) {
        printf("usage: rate engine|bridge [--OPTION VALUE]..\n\n");
        options_print(options, BRIDGE_OPTIONS + RATE_OPTIONS);
        return 2;
    }
    if (options_read(options, BRIDGE_OPTIONS + RATE_OPTIONS, words - 1, word + 1, &fault))
        fails(&fault);
    if (engine) run_engine(&rate);
    else run_bridge(&rate);
    engine_end();
    return 0;
}
