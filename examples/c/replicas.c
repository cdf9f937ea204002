/* Three threads replicate 50 counters, which have names of up to 100 bytes: each adds to them, and
   reads its replica, until a flag stops all. Two of them begin late. */
#include "replica.h"
#include <stdatomic.h>
#include <stdio.h>
#include <stdlib.h>

enum { WORKERS = 3, COUNTERS = 50, NAME = 100 };

struct counters { uint64_t at[COUNTERS]; char names[COUNTERS][NAME + 4]; };
struct add { uint64_t amount; char name[NAME + 4]; }; /* with zeros behind the name */
static atomic_bool stop;

/* The counter of this name, 0 where it is new; the last one has all further names. */
static uint64_t *counter(struct counters *counters, const char *name) {
    int at = 0;
    while (at < COUNTERS - 1 && counters->names[at][0] && strcmp(counters->names[at], name)) at++;
    strcpy(counters->names[at], name);
    return &counters->at[at];
}

/* It adds to three times a counter, so that adds in another order leave other counters. */
static void apply(void *state, uint32_t from, const uint8_t *operation, size_t length, void *sum) {
    struct add add;
    uint64_t *at;
    (void)from;
    if (length != sizeof add) return;
    memcpy(&add, operation, sizeof add);
    at = counter(state, add.name);
    *at = 3 * *at + add.amount;
    if (sum) *(uint64_t *)sum = *at;
}

static void *work(void *given) {
    struct kioskbasil_replica *replica = given;
    int64_t begin = replica_clock() + replica->number * INT64_C(250000000);
    uint64_t dice = replica->number + 1, sum = 0;
    uint32_t code = KIOSKBASIL_OK;
    /* Who begins late hears until then. */
    while (!code && replica_clock() < begin) code = replica_hear_timeout(replica, NULL, 10);
    for (uint64_t i = 0; !code && !atomic_load(&stop); i++) {
        struct add add = {i, ""};
        sprintf(add.name, "%0*u", NAME, next_word(&dice) % COUNTERS);
        if (i % 100) code = replica_submit(replica, &add, sizeof add, NULL);
        else code = replica_execute(replica, &add, sizeof add, &sum);
        /* What is executed is the last one applied. */
        if (!code && i % 100 == 0 && sum != *counter(replica->state, add.name)) abort();
    }
    if (!code) code = replica_finish(replica);
    if (code) fprintf(stderr, "worker %u: %s\n", replica->number, replica_text(code));
    replica_free(replica);
    return code ? NULL : replica;
}

int main(void) {
    static struct counters counters[WORKERS];
    static struct kioskbasil_replica replicas[WORKERS];
    static struct kioskbasil_replicas shared;
    kioskbasil_sizes sizes = {.rounds = 2, .rows = 8, .log_words = 32768};
    pthread_t threads[WORKERS];
    if (replicas_open(&shared, &sizes, replicas, WORKERS, apply)) return 1;
    for (int i = 0; i < WORKERS; i++) replicas[i].state = &counters[i];
    for (int i = 0; i < WORKERS; i++) pthread_create(&threads[i], NULL, work, &replicas[i]);
    sleep(1);
    atomic_store(&stop, true);
    for (int i = 0; i < WORKERS; i++) {
        void *done;
        pthread_join(threads[i], &done);
        if (!done || memcmp(&counters[i], counters, sizeof *counters)) return 1;
    }
    printf("%d replicas of %d counters: all equal\n", WORKERS, COUNTERS);
}
