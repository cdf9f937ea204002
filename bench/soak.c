/* A soak of a bus without end: workers that each send and hear, over one ring that is passed over
   many times.

   Each message is 0 to 7 words long, by a generator, and begins with a count of its sender's own
   where it has room. A replica is a hash of all that its receiver was given, in order: sender,
   number and bytes. It has to be equal for all, and each sender's numbers have to follow one
   another. One worker may let its receiver leave after a third of all messages, and one may not
   hear for 0.2 s at the half. The memory of the process is looked at once all workers have heard a
   tenth, and at the end.

   usage: soak MESSAGES WORKERS WORDS [leave] [sleep]
   Prints one line, and ends with status 1 where something is not as it has to be. */
#include "kioskbasil.h"
#include "waiting.h"
#include <pthread.h>
#include <stdatomic.h>
#include <stdio.h>
#include <stdlib.h>
#include <string.h>

enum { MOST = 8, LONGEST = 7 };

static struct bell bell = BELL_NEW;
static atomic_int at_work, warm;
static atomic_llong memory_before;
static int workers, leaves, sleeps;
static uint64_t each, all, words, batch; /* batch: the most messages that one may have */

struct worker {
    kioskbasil_sender *sender;
    kioskbasil_receiver *receiver;
    int number;
    uint64_t dice, hash, hash_at_third, heard, full, next[MOST];
    int has_left, is_warm;
    char failed[80];
};

static uint64_t draw(uint64_t *dice) {
    *dice ^= *dice << 13, *dice ^= *dice >> 7, *dice ^= *dice << 17;
    return *dice;
}

static uint64_t mixed(uint64_t hash, uint64_t value) {
    hash = (hash ^ value) * UINT64_C(0x100000001b3);
    return hash ^ hash >> 29;
}

/* What the process has in memory of its own, in KiB. */
static long long memory(void) {
    char line[128];
    long long kib = 0;
    FILE *status = fopen("/proc/self/status", "r");
    while (status && fgets(line, sizeof line, status)) sscanf(line, "RssAnon: %lld", &kib);
    if (status) fclose(status);
    return kib;
}

static void fail(struct worker *w, const char *why) {
    if (!w->failed[0]) snprintf(w->failed, sizeof w->failed, "%s", why);
}

static void apply(struct worker *w, const kioskbasil_item *item) {
    const uint8_t *bytes = item->bytes;
    if (item->sender >= (unsigned)workers || item->number != w->next[item->sender]++)
        fail(w, "a number does not follow");
    w->hash = mixed(mixed(w->hash, item->sender), item->number);
    for (size_t at = 0; at < item->length; at++) w->hash = mixed(w->hash, bytes[at]);
    if (++w->heard == all / 3) w->hash_at_third = w->hash;
    if (w->heard == all / 10 && !w->is_warm) {
        w->is_warm = 1;
        if (atomic_fetch_add(&warm, 1) == workers - 1) atomic_store(&memory_before, memory());
    }
}

/* Hears what is there; where there is nothing it waits, if it is to. The last code. */
static uint32_t hear(struct worker *w, bool waits) {
    kioskbasil_item items[16];
    size_t many;
    uint32_t code = KIOSKBASIL_END;
    if (w->has_left) return code;
    do {
        code = waits ? hear_some(w->receiver, items, 16, &many, &bell)
                     : hear_now(w->receiver, items, 16, &many, &bell);
        for (size_t i = 0; i < many; i++) apply(w, &items[i]);
        if (many && sleeps && w->number == 1 && w->heard >= all / 2 && w->heard < all / 2 + many) {
            struct timespec fifth = {0, 200000000};
            nanosleep(&fifth, NULL);
        }
        if (leaves && w->number == workers - 1 && w->heard >= all / 3) {
            kioskbasil_free_receiver(w->receiver);
            bell_ring(&bell);
            w->has_left = 1;
            return KIOSKBASIL_END;
        }
        waits = false;
    } while (code == KIOSKBASIL_GOING);
    return code;
}

/* Sends what waits, and hears while there is no room for it. The last code. */
static uint32_t send_and_hear(struct worker *w) {
    uint32_t code;
    while ((code = send_batch(w->sender, &w->dice, NULL, &bell)) == KIOSKBASIL_FULL) {
        struct waiter waiter = {0, 0, 0};
        w->full++;
        while (kioskbasil_has_room(w->sender) == KIOSKBASIL_FULL) {
            hear(w, false);
            wait_for(&bell, &waiter);
        }
    }
    return code;
}

/* Puts messages until the batch has no room for more words than half a ring, or for one more. */
static uint64_t fill(struct worker *w, uint64_t count) {
    uint64_t longest = 1 + 8 * batch, room = words / 2 < longest ? words / 2 : longest, put = 0;
    for (room -= 1; put < batch && count + put < each; put++) {
        uint64_t bytes[LONGEST], length = draw(&w->dice) % (LONGEST * 8 + 1);
        if (1 + (length + 7) / 8 > room) break;
        room -= 1 + (length + 7) / 8;
        bytes[0] = count + put;
        for (int at = 1; at < LONGEST; at++) bytes[at] = draw(&w->dice);
        if (kioskbasil_put(w->sender, bytes, length, NULL) != KIOSKBASIL_OK)
            fail(w, "a put is refused");
    }
    return put;
}

static void *work(void *given) {
    struct worker *w = given;
    for (uint64_t count = 0; count < each && !w->failed[0];) {
        count += fill(w, count);
        uint32_t code = send_and_hear(w);
        if (code != KIOSKBASIL_DELIVERED && code != KIOSKBASIL_IDLE) fail(w, kioskbasil_text(code));
        hear(w, false);
    }
    if (atomic_fetch_sub(&at_work, 1) == 1) {
        if (kioskbasil_close(w->sender) != KIOSKBASIL_OK || send_and_hear(w) != KIOSKBASIL_CLOSED)
            fail(w, "the order is not closed");
    }
    while (!w->failed[0] && hear(w, true) != KIOSKBASIL_END) {
    }
    return NULL;
}

static double seconds(void) {
    struct timespec now;
    clock_gettime(CLOCK_MONOTONIC, &now);
    return (double)now.tv_sec + 1e-9 * (double)now.tv_nsec;
}

int main(int argc, char **argv) {
    static struct worker w[MOST];
    static kioskbasil_sender senders[MOST];
    static kioskbasil_receiver receivers[MOST];
    pthread_t threads[MOST];
    if (argc < 4) return fprintf(stderr, "usage: soak MESSAGES WORKERS WORDS [leave] [sleep]\n"), 2;
    workers = atoi(argv[2]), words = strtoull(argv[3], NULL, 10);
    if (workers < 1 || workers > MOST) return fprintf(stderr, "soak: 1 to %d workers\n", MOST), 2;
    each = strtoull(argv[1], NULL, 10) / (uint64_t)workers, all = each * (uint64_t)workers;
    for (int at = 4; at < argc; at++)
        leaves |= !strcmp(argv[at], "leave"), sleeps |= !strcmp(argv[at], "sleep");
    batch = (words - 1) / 8 < KIOSKBASIL_MOST_MESSAGES ? (words - 1) / 8 : KIOSKBASIL_MOST_MESSAGES;
    kioskbasil_sizes sizes = {.rounds = 1, .rows = 8, .log_words = words, .batch = batch};
    uint32_t code =
        kioskbasil_open_ring(&sizes, senders, (size_t)workers, receivers, (size_t)workers);
    if (code != KIOSKBASIL_OK) return fprintf(stderr, "soak: %s\n", kioskbasil_text(code)), 1;
    atomic_store(&at_work, workers);
    memory();
    double begun = seconds();
    for (int i = 0; i < workers; i++) {
        w[i].sender = &senders[i], w[i].receiver = &receivers[i], w[i].number = i,
        w[i].dice = (uint64_t)i + 88172645463325252u;
        if (pthread_create(&threads[i], NULL, work, &w[i]))
            return fprintf(stderr, "soak: no thread\n"), 1;
    }
    for (int i = 0; i < workers; i++) pthread_join(threads[i], NULL);
    double took = seconds() - begun;
    long long before = atomic_load(&memory_before), after = memory();
    int bad = 0;
    uint64_t full = 0;
    for (int i = 0; i < workers; i++) {
        full += w[i].full;
        if (w[i].failed[0]) bad = 1, fprintf(stderr, "soak: worker %d: %s\n", i, w[i].failed);
        if (w[i].hash_at_third != w[0].hash_at_third)
            bad = 1, fprintf(stderr, "soak: worker %d heard another order in its first third\n", i);
        if (w[i].has_left) continue;
        if (w[i].hash != w[0].hash)
            bad = 1, fprintf(stderr, "soak: worker %d heard another order\n", i);
        if (w[i].heard != all)
            bad = 1,
            fprintf(stderr, "soak: worker %d heard %llu\n", i, (unsigned long long)w[i].heard);
    }
    if (leaves && !w[workers - 1].has_left) bad = 1, fprintf(stderr, "soak: nobody left\n");
    if (after > before + 256)
        bad = 1, fprintf(stderr, "soak: memory grew from %lld to %lld KiB\n", before, after);
    kioskbasil_left left;
    code = kioskbasil_end(
        senders, (size_t)workers, receivers, (size_t)(workers - leaves), NULL, 0, &left);
    if (code != KIOSKBASIL_OK) return fprintf(stderr, "soak: %s\n", kioskbasil_text(code)), 1;
    printf("%llu words: %llu messages of %d workers in %.1f s, %.0f a second; %.0f times over, "
           "Full %llu, in %llu tenures; %s%s%s; %lld KiB, then %lld\n",
        (unsigned long long)words, (unsigned long long)all, workers, took, (double)all / took,
        (double)left.words / (double)words, (unsigned long long)full,
        (unsigned long long)left.tenures, bad ? "DIFFERENT" : "equal", leaves ? ", one left" : "",
        sleeps ? ", one slept" : "", before, after);
    return bad;
}
