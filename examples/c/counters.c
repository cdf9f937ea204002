/* Three threads replicate 1,000 counters over a ring, a bus without end: each draws changes of
   its own, sends them, and makes those that it hears, its own too. All hear one order, so all
   replicas go through the same states. `counters` makes 200,010 changes, and `counters 3600` goes
   on for so many seconds. */
#include "kioskbasil.h"
#include "waiting.h"
#include <errno.h>
#include <pthread.h>
#include <stdatomic.h>
#include <stdio.h>
#include <stdlib.h>
#include <string.h>

/* CHANGES are those of each worker where no time is given. */
enum { WORKERS = 3, COUNTERS = 1000, CHANGES = 66670, BATCH = 10 };

/* It adds to three times a counter, so that changes in another order leave other counters. */
struct change {
    uint32_t at;
    uint32_t amount;
};

struct replica {
    uint64_t counters[COUNTERS];
    uint64_t made;  /* how many changes were made */
    uint64_t order; /* a hash of all of them, in their order */
};

struct worker {
    int number;
    kioskbasil_sender *sender;
    kioskbasil_receiver *receiver;
    struct replica replica;
    uint64_t dice; /* the generator of its changes */
    uint64_t seed; /* that of its votes */
    uint64_t sent;
    uint64_t full; /* how often it was answered FULL */
    bool sends;    /* it has changes to send still */
    bool is_full;  /* its last turn found no room */
};

/* What the workers share. */
static struct bell bell = BELL_NEW;
static long seconds = -1; /* for how long they send; below 0 where no time is given */
static struct timespec begin;
static atomic_int sending = WORKERS; /* how many have changes to send still */
static atomic_bool failed;           /* one has failed, and all are to stop */

/* Says what failed, and tells all workers to stop; the bell wakes those that sleep. False. */
static bool fail(const struct worker *w, const char *what, const char *why) {
    fprintf(stderr, "counters: worker %d: %s: %s\n", w->number, what, why);
    atomic_store(&failed, true);
    bell_ring(&bell);
    return false;
}

static bool goes_on(void *none) {
    (void)none;
    return !atomic_load(&failed);
}

static bool has_more(const struct worker *w) {
    struct timespec now;
    if (seconds < 0) return w->sent < CHANGES;
    clock_gettime(CLOCK_MONOTONIC, &now);
    return now.tv_sec - begin.tv_sec - (now.tv_nsec < begin.tv_nsec) < seconds;
}

/* Draws changes and puts them. */
static uint32_t put_changes(struct worker *w) {
    uint32_t code = KIOSKBASIL_OK;
    for (int i = 0; i < BATCH && code == KIOSKBASIL_OK; i++) {
        struct change change;
        change.at = next_word(&w->dice) % COUNTERS;
        change.amount = (uint32_t)w->dice;
        code = kioskbasil_put(w->sender, &change, sizeof change, NULL);
        w->sent++;
    }
    return code;
}

/* Fills the batch, if it is empty and there are changes left. The last worker that has none lets
   an end mark wait. */
static bool fill(struct worker *w) {
    uint32_t code = KIOSKBASIL_OK;
    if (!w->sends || w->is_full) return true;
    w->sends = has_more(w);
    if (w->sends) code = put_changes(w);
    else if (atomic_fetch_sub(&sending, 1) == 1) code = kioskbasil_close(w->sender);
    return code == KIOSKBASIL_OK || fail(w, "fill", kioskbasil_text(code));
}

/* Sends what waits. It waits for other senders, and not for room: for that it has to hear. */
static bool send_changes(struct worker *w) {
    uint32_t code = send_while(w->sender, &w->seed, NULL, &bell, goes_on, NULL);
    w->is_full = code == KIOSKBASIL_FULL;
    if (w->is_full) {
        w->full++;
        code = kioskbasil_has_room(w->sender);
        if (!kioskbasil_refused(code)) return true;
    }
    if (code == KIOSKBASIL_DELIVERED || code == KIOSKBASIL_IDLE || code == KIOSKBASIL_CLOSED)
        return true;
    return goes_on(NULL) && fail(w, "send", kioskbasil_text(code));
}

/* Whether it has nothing to do but to hear. Each FULL takes a tenure, so after it no turn is taken
   before a look has found room. */
static bool only_hears(void *given) {
    struct worker *w = given;
    if (!goes_on(NULL)) return false;
    return w->is_full ? kioskbasil_has_room(w->sender) == KIOSKBASIL_FULL : !w->sends;
}

/* Makes the change that is next in the order. False where it is none. */
static bool make(struct replica *replica, const kioskbasil_item *item) {
    struct change change;
    if (item->length != sizeof change) return false;
    memcpy(&change, item->bytes, sizeof change);
    if (change.at >= COUNTERS) return false;
    replica->counters[change.at] = 3 * replica->counters[change.at] + change.amount;
    replica->made++;
    uint64_t words[4] = {item->sender, item->number, change.at, change.amount};
    for (int i = 0; i < 4; i++)
        replica->order = (replica->order ^ words[i]) * UINT64_C(0x100000001b3);
    return true;
}

/* Makes the changes that are there, and waits for more while it has nothing else to do. False
   where the order has ended, or it is to stop. */
static bool hear_changes(struct worker *w) {
    kioskbasil_item items[16];
    size_t many = 0;
    do {
        uint32_t code = hear_while(w->receiver, items, 16, &many, &bell, only_hears, w);
        for (size_t i = 0; i < many; i++)
            if (!make(&w->replica, &items[i])) return fail(w, "hear", "a change that is none");
        if (code == KIOSKBASIL_END) return false;
    } while (many > 0);
    return goes_on(NULL);
}

/* Sends and hears up to the end of the order. One that stops before may have begun a tenure, which
   it finishes. */
static void *work(void *given) {
    struct worker *w = given;
    while (fill(w) && send_changes(w) && hear_changes(w)) {}
    finish_sender(w->sender, NULL, &bell);
    return NULL;
}

/* Has the workers work, each in a thread of its own, until all have ended. */
static void work_all(struct worker workers[WORKERS]) {
    pthread_t threads[WORKERS];
    int started = 0;
    while (started < WORKERS && goes_on(NULL)) {
        if (!pthread_create(&threads[started], NULL, work, &workers[started])) started++;
        else fail(&workers[started], "start", "no thread");
    }
    for (int i = 0; i < started; i++) pthread_join(threads[i], NULL);
}

/* Has the workers work over a ring, and gives that up. What failed, or OK. */
static uint32_t run(struct worker workers[WORKERS]) {
    kioskbasil_sizes sizes = {.rounds = 2, .rows = 8, .log_words = 32768};
    kioskbasil_sender senders[WORKERS] = {KIOSKBASIL_NONE};
    kioskbasil_receiver receivers[WORKERS] = {KIOSKBASIL_NONE};
    kioskbasil_left left;
    uint32_t code = kioskbasil_open_ring(&sizes, senders, WORKERS, receivers, WORKERS);
    if (code != KIOSKBASIL_OK) return code;
    clock_gettime(CLOCK_MONOTONIC, &begin);
    for (int i = 0; i < WORKERS; i++) {
        workers[i].number = i;
        workers[i].sender = &senders[i];
        workers[i].receiver = &receivers[i];
        workers[i].dice = UINT64_C(0x9e3779b97f4a7c15) + (uint64_t)i;
        workers[i].seed = (uint64_t)i + 1;
        workers[i].sends = true;
    }
    work_all(workers);
    code = kioskbasil_end(senders, WORKERS, receivers, WORKERS, NULL, 0, &left);
    bell_free(&bell);
    return code;
}

/* Compares the replicas, and prints that they are equal. The status of the program. */
static int compare(const struct worker workers[WORKERS]) {
    const struct replica *first = &workers[0].replica;
    uint64_t sent = 0, full = 0;
    for (int i = 0; i < WORKERS; i++) {
        if (memcmp(&workers[i].replica, first, sizeof *first))
            return fprintf(stderr, "counters: two replicas differ\n"), 1;
        sent += workers[i].sent;
        full += workers[i].full;
    }
    if (sent != first->made) return fprintf(stderr, "counters: changes are lost\n"), 1;
    printf("%d replicas: all equal, after %llu changes; full %llu times\n", WORKERS,
           (unsigned long long)sent, (unsigned long long)full);
    return 0;
}

/* Takes the seconds from a word of the command line. */
static bool take_seconds(const char *word) {
    char *end;
    errno = 0;
    seconds = strtol(word, &end, 10);
    return end != word && *end == '\0' && errno == 0 && seconds >= 0;
}

int main(int argc, char **argv) {
    static struct worker workers[WORKERS];
    if (argc > 2 || (argc == 2 && !take_seconds(argv[1])))
        return fprintf(stderr, "usage: counters [SECONDS], a whole number\n"), 2;
    uint32_t code = run(workers);
    if (atomic_load(&failed)) return 1;
    if (code != KIOSKBASIL_OK) return fprintf(stderr, "counters: %s\n", kioskbasil_text(code)), 1;
    return compare(workers);
}
