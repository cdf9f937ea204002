/* Three senders and three receivers on a ring that has numbers for SEATS receivers, the others of
   which were given up at the start. Each receiver hears all; the last one stands still for SLOW
   nanoseconds behind each item. Prints the nanoseconds an item, from when all threads are up to the
   last item. Status 1 where a receiver heard anything but each item once, in each sender's order.

   usage: seats SEATS WORDS MESSAGES SLOW      bench/seats builds it, and says what it measures. */
#include "kioskbasil.h"
#include <pthread.h>
#include <sched.h>
#include <stdio.h>
#include <stdlib.h>
#include <time.h>

enum { SENDERS = 3, HEARERS = 3, THREADS = SENDERS + HEARERS, BATCH = 16 };

static kioskbasil_sender senders[SENDERS];
static kioskbasil_receiver receivers[KIOSKBASIL_MOST_RECEIVERS];
static uint64_t messages, slow;
static pthread_barrier_t up;

static uint64_t now(void) {
    struct timespec time;
    clock_gettime(CLOCK_MONOTONIC, &time);
    return (uint64_t)time.tv_sec * 1000000000 + (uint64_t)time.tv_nsec;
}

static void want(bool holds, const char *what) {
    if (holds) return;
    fprintf(stderr, "seats: %s\n", what);
    exit(1);
}

/* Sends what waits. After FULL it looks until there is room. */
static void send_batch(kioskbasil_sender *sender, uint64_t *dice) {
    for (;;) {
        *dice = *dice * UINT64_C(6364136223846793005) + 1442695040888963407;
        uint32_t code = kioskbasil_turns(sender, (uint32_t)(*dice >> 32), NULL);
        want(!kioskbasil_refused(code), kioskbasil_text(code));
        if (code == KIOSKBASIL_DELIVERED) return;
        if (code == KIOSKBASIL_GOING) continue;
        do {
            sched_yield();
        } while (code == KIOSKBASIL_FULL && kioskbasil_has_room(sender) == code);
    }
}

static void *send(void *own) {
    kioskbasil_sender *sender = own;
    uint64_t dice = (uint64_t)(sender - senders);
    pthread_barrier_wait(&up);
    for (uint64_t sent = 0; sent < messages;) {
        for (int many = 0; many < BATCH && sent < messages; many++, sent++)
            want(kioskbasil_put(sender, &sent, sizeof sent, NULL) == KIOSKBASIL_OK, "put");
        send_batch(sender, &dice);
    }
    return NULL;
}

static void *hear(void *own) {
    kioskbasil_receiver *receiver = own;
    bool is_slow = slow && receiver == &receivers[HEARERS - 1];
    uint64_t next[SENDERS] = {0};
    pthread_barrier_wait(&up);
    for (uint64_t heard = 0; heard < SENDERS * messages;) {
        kioskbasil_item items[BATCH];
        size_t found;
        uint32_t code = kioskbasil_hear(receiver, items, BATCH, &found);
        want(!kioskbasil_refused(code), kioskbasil_text(code));
        for (size_t i = 0; i < found; i++) {
            want(items[i].number == next[items[i].sender]++, "another order");
            for (uint64_t end = is_slow ? now() + slow : 0; end && now() < end;) {}
        }
        heard += found;
        if (!found) sched_yield();
    }
    return NULL;
}

int main(int count, char **words) {
    if (count != 5) return 2;
    kioskbasil_sizes sizes = {.rounds = 2, .rows = 8, .batch = BATCH};
    pthread_t threads[THREADS];
    size_t seats = strtoul(words[1], NULL, 10);
    sizes.log_words = strtoul(words[2], NULL, 10);
    messages = strtoul(words[3], NULL, 10);
    slow = strtoul(words[4], NULL, 10);
    want(seats >= HEARERS && seats <= KIOSKBASIL_MOST_RECEIVERS, "3 to 64 seats");
    uint32_t code = kioskbasil_open_ring(&sizes, senders, SENDERS, receivers, seats);
    want(code == KIOSKBASIL_OK, kioskbasil_text(code));
    for (size_t i = HEARERS; i < seats; i++) kioskbasil_free_receiver(&receivers[i]);
    pthread_barrier_init(&up, NULL, THREADS + 1);
    for (int i = 0; i < SENDERS; i++) pthread_create(&threads[i], NULL, send, &senders[i]);
    for (int i = 0; i < HEARERS; i++)
        pthread_create(&threads[SENDERS + i], NULL, hear, &receivers[i]);
    pthread_barrier_wait(&up);
    uint64_t began = now();
    for (int i = 0; i < THREADS; i++) pthread_join(threads[i], NULL);
    printf("%llu\n", (unsigned long long)((now() - began) / (SENDERS * messages)));
    return 0;
}
