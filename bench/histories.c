/* As bench/histories.rattle, by examples/c/replica.h: bench/histories builds it, and says what it
   prints. */
#include "replica.h"
#include <stdio.h>
#include <stdlib.h>

enum { KEYS = 4, WORKERS = KIOSKBASIL_MOST_RECEIVERS, LONGEST = 120 };
enum mode { RIGHT, STALE, ELSEWHERE, LOST };

/* A call of a worker. What it puts is 0 of a read. */
struct call {
    int64_t begin, end;
    uint64_t put, answer;
    unsigned key;
};

struct worker {
    struct kioskbasil_replica *replica;
    uint64_t registers[KEYS]; /* its state */
    uint64_t answers[KEYS];   /* what each key's last swap of this worker answered */
    uint64_t dice;
    enum mode mode;
    unsigned long many;
    struct call *calls;
};

/* The swap of the value of a key: 9 to 120 bytes, of which those behind the value go by it. Gives
   how many. */
static size_t operation_of(uint8_t *operation, unsigned key, uint64_t value) {
    size_t length = 9 + (value * UINT64_C(0x9e3779b97f4a7c15) >> 32) % (LONGEST - 8);
    operation[0] = (uint8_t)key;
    memcpy(operation + 1, &value, sizeof value);
    for (size_t at = 9; at < length; at++) operation[at] = (uint8_t)(value + at);
    return length;
}

/* Swaps the value of a key for another one, and answers the value before. */
static void apply(void *state, uint32_t from, const uint8_t *operation, size_t length,
                  void *answer) {
    uint64_t *registers = state, *value = &registers[operation[0]], before = *value;
    uint8_t wanted[LONGEST];
    (void)from;
    memcpy(value, operation + 1, sizeof *value);
    if (length != operation_of(wanted, operation[0], *value)) abort();
    if (memcmp(operation, wanted, length)) abort();
    if (answer) memcpy(answer, &before, sizeof before);
}

static uint32_t swap_value(struct worker *w, struct call *call) {
    uint64_t before = w->answers[call->key];
    uint8_t operation[LONGEST];
    size_t length = operation_of(operation, call->key, call->put);
    uint32_t code;
    if (w->mode == LOST && next_word(&w->dice) % 50 == 0) {
        call->answer = w->registers[call->key];
        return KIOSKBASIL_OK;
    }
    code = replica_execute(w->replica, operation, length, &call->answer);
    w->answers[call->key] = call->answer;
    if (w->mode == ELSEWHERE && next_word(&w->dice) % 50 == 0) call->answer = before;
    return code;
}

static uint32_t read_value(struct worker *w, struct call *call) {
    uint32_t code = w->mode == STALE ? (uint32_t)KIOSKBASIL_OK : replica_latest(w->replica);
    call->answer = w->registers[call->key];
    return code;
}

static void *work(void *given) {
    struct worker *w = given;
    uint32_t code = KIOSKBASIL_OK;
    for (unsigned long count = 0; count < w->many && code == KIOSKBASIL_OK; count++) {
        struct call *call = &w->calls[count];
        call->key = next_word(&w->dice) % KEYS;
        if (next_word(&w->dice) % 2) call->put = 1 + count * 64 + w->replica->number;
        call->begin = replica_clock();
        code = call->put ? swap_value(w, call) : read_value(w, call);
        call->end = replica_clock();
        if (next_word(&w->dice) % 64 == 0) {
            struct timespec pause = {0, (long)(next_word(&w->dice) % 200000)};
            nanosleep(&pause, NULL);
        }
    }
    if (code == KIOSKBASIL_OK) code = replica_finish(w->replica);
    if (code != KIOSKBASIL_OK) fprintf(stderr, "histories: %s\n", replica_text(code));
    return code == KIOSKBASIL_OK ? w : NULL;
}

static void print(unsigned long worker, const struct call *call) {
    printf("%lu %lld %lld %u ", worker, (long long)call->begin, (long long)call->end, call->key);
    if (call->put) printf("swap %llu ", (unsigned long long)call->put);
    else printf("read ");
    printf("%llu\n", (unsigned long long)call->answer);
}

int main(int argc, char **argv) {
    static const char *modes[] = {"right", "stale", "elsewhere", "lost"};
    static struct kioskbasil_replicas shared;
    static struct kioskbasil_replica replicas[WORKERS];
    static struct worker w[WORKERS];
    kioskbasil_sizes sizes = {.rounds = 2, .rows = 8, .log_words = 65536};
    pthread_t threads[WORKERS];
    unsigned long workers = argc == 5 ? strtoul(argv[1], NULL, 10) : 0, mode = 0;
    bool all = true;
    while (workers && mode < 4 && strcmp(argv[4], modes[mode])) mode++;
    if (!workers || workers > WORKERS || mode == 4)
        return fprintf(stderr, "usage: histories WORKERS CALLS SEED MODE\n"), 2;
    if (replicas_open(&shared, &sizes, replicas, workers, apply) != KIOSKBASIL_OK) return 1;
    for (unsigned long i = 0; i < workers; i++) {
        w[i].replica = &replicas[i];
        w[i].mode = (enum mode)mode;
        w[i].many = strtoul(argv[2], NULL, 10);
        w[i].calls = calloc(w[i].many, sizeof *w[i].calls);
        w[i].dice = (strtoul(argv[3], NULL, 10) * 64 + i + 1) * UINT64_C(0x9e3779b97f4a7c15);
        replicas[i].state = w[i].registers;
        if (!w[i].calls || pthread_create(&threads[i], NULL, work, &w[i])) return 1;
    }
    for (unsigned long i = 0; i < workers; i++) {
        void *done = NULL;
        pthread_join(threads[i], &done);
        all = all && done;
        for (unsigned long at = 0; done && at < w[i].many; at++) print(i, &w[i].calls[at]);
        free(w[i].calls);
    }
    bell_free(&shared.bell);
    return all ? 0 : 1;
}
