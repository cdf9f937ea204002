// Bare atomic steps on one word, sequentially consistent, for comparison. For each sort: the nanoseconds of a step, timed as
// `bench_turns turns` times a turn, and those of one of a million in a row.
#include <stdatomic.h>
#include <stdint.h>
#include <stdio.h>
#include <time.h>
enum { LOAD, STORE, FETCH_ADD, COMPARE_EXCHANGE, SWAP, SORTS, ROW = 1000000 };
static const char *name[SORTS] = { "load", "store", "fetch_add", "compare_exchange", "swap" };
static _Atomic uint64_t word;
static uint64_t found;
static uint64_t now(void) {
    struct timespec t;
    clock_gettime(CLOCK_MONOTONIC, &t);
    return (uint64_t)t.tv_sec * 1000000000 + (uint64_t)t.tv_nsec;
}
static inline void step(int sort, uint64_t i) {
    uint64_t last = i - 1;
    switch (sort) {
    case LOAD: found += atomic_load(&word); break;
    case STORE: atomic_store(&word, i); break;
    case FETCH_ADD: found += atomic_fetch_add(&word, 1); break;
    case COMPARE_EXCHANGE: found += atomic_compare_exchange_strong(&word, &last, i); break;
    case SWAP: found += atomic_exchange(&word, i); break;
    }
}
static double alone(int sort) {
    uint64_t kept = 0, timed = 0, nothing = 0;
    for (uint64_t i = 0; i < ROW; i++) {
        uint64_t before = now(), between = now();
        step(sort, i);
        uint64_t after = now();
        if (after - between > 1000 || between - before > 1000) continue;
        kept++; timed += after - between; nothing += between - before;
    }
    return ((double)timed - (double)nothing) / (double)kept;
}
static double in_a_row(int sort) {
    uint64_t before = now();
    for (uint64_t i = 0; i < ROW; i++) step(sort, i);
    return (double)(now() - before) / ROW;
}
int main(void) {
    for (int sort = 0; sort < SORTS; sort++) {
        in_a_row(sort);
        printf("%s %.1f %.1f\n", name[sort], alone(sort), in_a_row(sort));
    }
    return found == 1;
}
