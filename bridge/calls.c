/* Tests of the calls, over an engine: what is refused changes nothing, and what ends a bridge says
   so; where it ends a send says whether its batch may be on its way; who does not hear is told that
   there is no room; and what is shown, and where a bridge goes on. usage: calls ADDRESS. Prints
   each that failed. */
#include "inside.h"
#include <errno.h>
#include <stdio.h>
#include <stdlib.h>
#include <string.h>
#include <time.h>

static unsigned checked, failed;

static void check(bool good, const char *what) {
    checked++;
    if (good) return;
    failed++;
    printf("FAILED: %s\n", what);
}

/* Of the blocks, or threads, that the bridge and its buses ask for from now on, the one of this
   number is refused; 0: none. The linker has them ask here (--wrap), not the engine's client. */
static atomic_long until_block, until_thread;

static bool refuses(atomic_long *until) {
    return atomic_load(until) > 0 && atomic_fetch_sub(until, 1) == 1;
}

typedef void *runs(void *);
void *__real_malloc(size_t size);
void *__real_calloc(size_t many, size_t size);
int __real_pthread_create(pthread_t *to, const pthread_attr_t *how, runs *does, void *of);
void *__wrap_malloc(size_t size);
void *__wrap_calloc(size_t many, size_t size);
int __wrap_pthread_create(pthread_t *to, const pthread_attr_t *how, runs *does, void *of);

void *__wrap_malloc(size_t size) {
    return refuses(&until_block) ? NULL : __real_malloc(size);
}

void *__wrap_calloc(size_t many, size_t size) {
    return refuses(&until_block) ? NULL : __real_calloc(many, size);
}

int __wrap_pthread_create(pthread_t *to, const pthread_attr_t *how, runs *does, void *of) {
    return refuses(&until_thread) ? EAGAIN : __real_pthread_create(to, how, does, of);
}

static struct bridge_options usual(const char *address, const char *stream) {
    struct bridge_options options;
    bridge_options_usual(&options);
    snprintf(options.engine, sizeof options.engine, "%s", address);
    snprintf(options.stream, sizeof options.stream, "%s", stream);
    options.report = 0;
    options.workers = 1;
    options.window = 1;
    options.log_words = 4096;
    return options;
}

static struct bridge *opened_at(const struct bridge_options *options,
                                const struct bridge_place *from) {
    struct bridge *bridge = NULL;
    struct bridge_fault fault;
    if (bridge_open(&bridge, options, from, &fault) == BRIDGE_OK) return bridge;
    printf("%s: %s\n", fault_name(fault.code), fault.text);
    check(false, "a bridge opens");
    return NULL;
}

static struct bridge *opened(const char *address, const char *stream, uint64_t workers,
                             uint64_t ahead) {
    struct bridge_options options = usual(address, stream);
    options.workers = workers;
    options.ahead = ahead;
    return opened_at(&options, NULL);
}

/* Waits until the number of a worker's next message is told. */
static uint64_t number_of(struct bridge *bridge, size_t worker) {
    uint64_t number = UINT64_MAX;
    unsigned step = 0;
    while (!bridge_next_number(bridge, worker, &number) && !bridge_ended_by(bridge)) {
        bridge_idle(&step);
    }
    return number;
}

/* Whether the next item of the first worker has this number. */
static bool hears(struct bridge *bridge, uint64_t number) {
    struct bridge_item item;
    unsigned step = 0;
    for (;;) {
        switch (bridge_hear(bridge, 0, &item)) {
        case BRIDGE_ITEM: return item.number == number;
        case BRIDGE_NOTHING: bridge_idle(&step); break;
        case BRIDGE_CHECKPOINT: break;
        case BRIDGE_ENDED: return false;
        }
    }
}

/* Whether the items of these numbers come next. */
static bool hears_all(struct bridge *bridge, uint64_t number, uint64_t end) {
    while (number < end && hears(bridge, number)) number++;
    return number == end;
}

/* Where there is no engine a bridge opens, and takes nothing. */
static void check_absent(void) {
    struct bridge_options options = usual("nats://127.0.0.1:1", "absent");
    struct bridge_message message = {.length = BRIDGE_MOST_BYTES + 1};
    struct bridge_item item;
    struct bridge *bridge = NULL;
    struct bridge_fault fault;
    uint64_t number = 7;
    options.batch = BRIDGE_MOST_BATCH + 1;
    check(bridge_open(&bridge, &options, NULL, &fault) == BRIDGE_OUT_OF_RANGE && !bridge,
          "options that are out of range open none");
    options.batch = 1;
    bridge = opened_at(&options, NULL);
    if (!bridge) return;
    check(!bridge_next_number(bridge, 0, &number), "no number is told yet");
    check(bridge_send(bridge, 0, &message, 0, &number) == BRIDGE_TOO_MANY, "none, before all else");
    check(bridge_send(bridge, 0, &message, 1, &number) == BRIDGE_NOT_YET, "nothing is taken yet");
    check(bridge_hear(bridge, 0, &item) == BRIDGE_NOTHING && number == 7, "and nothing is there");
    bridge_stop(bridge);
    check(bridge_send(bridge, 0, &message, 1, &number) == BRIDGE_STOPPED, "nor once it ended");
    check(bridge_hear(bridge, 0, &item) == BRIDGE_ENDED, "who hears is told so");
    check(!bridge_ended_by(bridge), "and by no fault");
    bridge_close(bridge);
}

static void check_refusals(const char *address) {
    static struct bridge_message messages[17];
    struct bridge *bridge = opened(address, "refusals", 1, 16);
    uint64_t number = 7, next = 7;
    if (!bridge) return;
    check(number_of(bridge, 0) == 0, "a worker begins with number 0");
    check(bridge_send(bridge, 0, messages, 0, &number) == BRIDGE_TOO_MANY, "none");
    check(bridge_send(bridge, 0, messages, 17, &number) == BRIDGE_TOO_MANY, "17");
    messages[1].length = BRIDGE_MOST_BYTES + 1;
    check(bridge_send(bridge, 0, messages, 2, &number) == BRIDGE_TOO_LONG, "49 bytes");
    check(number == 7 && !bridge_ended_by(bridge), "which change nothing, and end nothing");
    messages[1].length = BRIDGE_MOST_BYTES;
    check(bridge_send(bridge, 0, messages, 16, &number) == BRIDGE_SENT && number == 0, "16");
    check(bridge_send(bridge, 0, messages, 1, &number) == BRIDGE_FULL, "more than `ahead`");
    check(bridge_next_number(bridge, 0, &next) && next == 16, "their numbers are 0 to 15");
    check(hears_all(bridge, 0, 16), "all are heard");
    check(bridge_send(bridge, 0, messages, 1, NULL) == BRIDGE_SENT, "there is room again");
    bridge_stop(bridge);
    check(bridge_send(bridge, 0, messages, 1, &number) == BRIDGE_STOPPED, "what has ended");
    check(bridge_send(bridge, 0, messages, 17, &number) == BRIDGE_TOO_MANY, "17, at all times");
    check(!bridge_next_number(bridge, 0, &next), "it tells no number");
    bridge_close(bridge);
}

/* A worker that does not hear: both rings of its node fill up, and it is told so. Once it hears
   again all that was sent comes, each once. */
static void check_pressure(const char *address) {
    struct bridge_message message = {.length = BRIDGE_MOST_BYTES};
    struct bridge *bridge = opened(address, "pressure", 1, 8192);
    struct timespec pause = {0, 1000000};
    uint64_t sent = 0, number = 0, next = 0;
    if (!bridge) return;
    number_of(bridge, 0);
    for (unsigned full = 0; full < 300;) {
        enum bridge_sent code = bridge_send(bridge, 0, &message, 1, &number);
        full = code == BRIDGE_FULL ? full + 1 : 0;
        if (code == BRIDGE_FULL) nanosleep(&pause, NULL);
        else check(code == BRIDGE_SENT && number == sent++, "numbers follow");
    }
    check(sent > 900 && sent < 2000, "a node has room, and is full before `ahead` is");
    check(!bridge_ended_by(bridge), "which does not end it");
    check(hears_all(bridge, 0, sent), "all that was sent is heard");
    check(bridge_next_number(bridge, 0, &next) && next == sent, "and no more was");
    check(bridge_send(bridge, 0, &message, 1, &number) == BRIDGE_SENT, "it goes on");
    check(number == sent && hears(bridge, sent), "and is heard");
    bridge_close(bridge);
}

static void *stop_soon(void *bridge) {
    struct timespec pause = {0, 30000000};
    nanosleep(&pause, NULL);
    bridge_stop(bridge);
    return NULL;
}

/* Bridges that are stopped while they send: what the stream has then is all that was SENT and
   heard, and nothing that was refused. */
static void check_stops(const char *address) {
    struct bridge_message message = {.length = 1};
    uint64_t sure = 0, number = 0, next = 0;
    for (unsigned i = 0; i < 10; i++) {
        pthread_t stops;
        struct bridge *bridge = opened(address, "stops", 1, 8192);
        unsigned step = 0;
        if (!bridge) return;
        while (!bridge_next_number(bridge, 0, &next)) {
            struct bridge_item item;
            if (bridge_hear(bridge, 0, &item) == BRIDGE_NOTHING) bridge_idle(&step);
        }
        check(next >= sure, "what was heard stays");
        check(next <= number + 1, "nothing is there that was refused");
        if (pthread_create(&stops, NULL, stop_soon, bridge)) return check(false, "a thread");
        enum bridge_sent sent = BRIDGE_SENT;
        while (sent == BRIDGE_SENT || sent == BRIDGE_FULL) {
            struct bridge_item item;
            uint64_t own;
            sent = bridge_send(bridge, 0, &message, 1, &own);
            if (sent == BRIDGE_SENT || sent == BRIDGE_MAYBE_SENT) number = own;
            if (bridge_hear(bridge, 0, &item) == BRIDGE_ITEM && item.number >= next) {
                sure = item.number + 1;
            }
        }
        check(sent == BRIDGE_STOPPED || sent == BRIDGE_MAYBE_SENT, "it is stopped");
        pthread_join(stops, NULL);
        bridge_close(bridge);
    }
}

/* What the last send of a worker is answered, where the bridge is stopped while another worker is
   within its turns: it has taken the page, or keeps a row that is due later. *next is its number
   before. */
static enum bridge_sent sent_behind(const char *address, bool has_page, uint64_t *next) {
    struct bridge_message message = {.length = 1};
    struct bridge *bridge = opened(address, "behind", 2, 64);
    enum bridge_sent sent = BRIDGE_SENT;
    uint32_t code = KIOSKBASIL_GOING;
    pthread_t stops;
    if (!bridge) return BRIDGE_NOT_YET;
    *next = number_of(bridge, 0);
    kioskbasil_put(&bridge->senders[1], "", 0, NULL);
    for (uint32_t i = 0; i < (has_page ? 100 : 2) && code == KIOSKBASIL_GOING; i++) {
        code = kioskbasil_turn(&bridge->senders[1], i, NULL);
    }
    bool stopped = !pthread_create(&stops, NULL, stop_soon, bridge);
    check(stopped, "a thread");
    while (stopped && sent == BRIDGE_SENT) sent = bridge_send(bridge, 0, &message, 1, NULL);
    if (stopped) pthread_join(stops, NULL);
    bridge_close(bridge);
    return sent;
}

/* Where the machine is so busy that it is stopped before the row is due, it is tried again. */
static void check_behind(const char *address) {
    uint64_t before = 0, after = 0;
    enum bridge_sent sent = BRIDGE_STOPPED;
    for (int i = 0; i < 20 && sent == BRIDGE_STOPPED; i++) {
        sent = sent_behind(address, false, &before);
    }
    check(sent == BRIDGE_MAYBE_SENT, "a batch may be on its way, and it is told so");
    check(sent_behind(address, true, &before) == BRIDGE_STOPPED, "one that was not sent");
    check(sent_behind(address, true, &after) == BRIDGE_STOPPED, "and again");
    check(before == after, "is not in the stream");
}

/* Hears the checkpoints of the places 1 to 21, and between them the items 0 to 19: each place
   counts what was heard before it, and the last 16 are kept. That of place 10 to *tenth. */
static void hear_places(struct bridge *bridge, struct bridge_place *tenth) {
    static struct bridge_place place;
    struct bridge_item item = {.node = 1, .sender = 1, .length = 1};
    unsigned step = 0;
    for (uint64_t number = 1, heard = 0; number <= 21;) {
        enum bridge_heard kind = bridge_hear(bridge, 0, &item);
        if (kind == BRIDGE_NOTHING) bridge_idle(&step);
        if (kind == BRIDGE_ENDED) return check(false, "it goes on");
        if (kind == BRIDGE_ITEM) check(item.number == heard++, "the items in their order");
        if (kind != BRIDGE_CHECKPOINT) continue;
        check(item.number == number && !item.node && !item.sender && !item.length, "a checkpoint");
        bool kept = bridge_checkpoint(bridge, &item, &place);
        check(kept == (number > 5), "the last 16 places are kept");
        if (kept) {
            check(place.place == number && place.nodes[0].epoch == 1, "a place is what it says");
            check(heard == number - 1 && place.nodes[0].next[0] == heard, "and counts the items");
        }
        if (number++ == 10) *tenth = place;
    }
}

/* 20 entries of one item each behind the begin: what is shown, and where a bridge goes on. */
static void check_places(const char *address) {
    static struct bridge_message messages[16];
    static struct bridge_place tenth;
    struct bridge_options options = usual(address, "places");
    struct bridge_shown shown = {.place = 0};
    uint64_t number = 0;
    unsigned step = 0;
    options.batch = options.checkpoint = 1;
    struct bridge *bridge = opened_at(&options, NULL);
    if (!bridge) return;
    number_of(bridge, 0);
    bridge_send(bridge, 0, messages, 16, NULL);
    check(bridge_send(bridge, 0, messages, 4, &number) == BRIDGE_SENT && number == 16, "20");
    while ((shown.place < 21 || shown.in_flight) && !bridge_ended_by(bridge)) {
        bridge_idle(&step);
        bridge_show(bridge, &shown);
    }
    check(shown.slowest == 0 && shown.behind == 0 && shown.epoch == 1, "what is shown");
    check(shown.entries_sent == 20 && shown.items_sent == 20, "of what was sent");
    check(shown.items == 20 && shown.passed == 0, "which all counts");
    hear_places(bridge, &tenth);
    bridge_show(bridge, &shown);
    check(shown.slowest == 20, "what the slowest has heard");
    bridge_close(bridge);
    bridge = opened_at(&options, &tenth);
    if (!bridge) return;
    check(number_of(bridge, 0) == 20, "numbers go on in the next life");
    check(hears_all(bridge, 9, 20), "which goes on behind its place");
    bridge_close(bridge);
}

/* A worker's bus whose tenures are used up ends its bridge: here one of three is put there. */
static void check_spent(const char *address) {
    const kioskbasil_sizes sizes = {.rounds = 1, .rows = 3, .log_words = 4096};
    struct bridge_message message = {.length = 1};
    struct bridge_item item;
    kioskbasil_receiver receiver = KIOSKBASIL_NONE;
    enum bridge_sent sent = BRIDGE_SENT;
    struct bridge *bridge = opened(address, "spent", 1, 64);
    if (!bridge) return;
    number_of(bridge, 0);
    kioskbasil_free_sender(&bridge->senders[0]);
    uint32_t code = kioskbasil_open(&sizes, &bridge->senders[0], 1, &receiver, 1);
    check(code == KIOSKBASIL_OK, "a bus opens");
    for (int i = 0; i < 4 && sent == BRIDGE_SENT; i++) {
        sent = bridge_send(bridge, 0, &message, 1, NULL);
    }
    check(sent == BRIDGE_STOPPED, "a bus that is used up takes nothing");
    const struct bridge_fault *fault = bridge_ended_by(bridge);
    check(fault && fault->code == BRIDGE_BUS_REFUSES && strstr(fault->text, "2^40 tenures"),
          "and its node says so");
    check(bridge_hear(bridge, 0, &item) == BRIDGE_ENDED, "and ends");
    bridge_close(bridge);
    kioskbasil_free_receiver(&receiver);
}

/* Each block or each thread is refused in turn: then no bridge opens, or it ends, by this fault;
   and at last, where none is refused, it goes on. How many there were, and *opens of them before
   it was open. */
static long refused(const char *address, atomic_long *until, enum bridge_code by, long *opens) {
    struct bridge_options options = usual(address, "refused");
    for (long at = 1; at < 500; at++) {
        struct bridge *bridge = NULL;
        struct bridge_fault fault = {BRIDGE_OK, ""};
        atomic_store(until, at);
        enum bridge_code code = bridge_open(&bridge, &options, NULL, &fault);
        check((code == BRIDGE_OK) == (bridge != NULL), "a bridge or a fault");
        *opens += code != BRIDGE_OK;
        if (bridge && number_of(bridge, 0) == UINT64_MAX) fault = *bridge_ended_by(bridge);
        if (bridge) bridge_close(bridge);
        bool none = atomic_exchange(until, 0) > 0;
        check(fault.code == (none ? BRIDGE_OK : by), "it is named");
        if (none) return at - 1;
    }
    return 0;
}

static void check_refused(const char *address) {
    long opens = 0, many = refused(address, &until_thread, BRIDGE_NO_THREAD, &opens);
    check(many == 2 && opens == 2, "two threads");
    opens = 0;
    many = refused(address, &until_block, BRIDGE_NO_MEMORY, &opens);
    check(opens > 3 && many > opens + 4, "blocks, also once it is open");
}

int main(int words, char **word) {
    if (words != 2) return fprintf(stderr, "usage: calls ADDRESS\n"), 2;
    check_absent();
    check_refusals(word[1]);
    check_pressure(word[1]);
    check_stops(word[1]);
    check_behind(word[1]);
    check_places(word[1]);
    check_spent(word[1]);
    check_refused(word[1]);
    engine_end();
    printf("%u checks, %u failed\n", checked, failed);
    return failed > 0;
}
