/* Tests of replicas in C, examples/c/replica.h. bench/embed builds and runs it. Prints what failed,
   and `N passed, M failed` last. Whoever lost a wake-up sleeps for 200 s here, and 100 s are too
   long for any of its parts.

   usage: replica [TURNS]      A worker stops at each of so many turns, 20 if left out. */
#define BELL_LONGEST_SLEEP 200000
#define BELL_LONGEST_ASKED_SLEEP BELL_LONGEST_SLEEP
#include "expect.h"
#include "replica.h"
#include <stdatomic.h>
#include <stdio.h>
#include <stdlib.h>

enum { MOST = 8, OPERATIONS = 4096, TOO_LONG = 100 };

/* How long operations are. */
static const size_t lengths[] = {0, 1, 55, 56, 102, 110, 879, 880, 30, 440};
enum { LENGTHS = sizeof lengths / sizeof *lengths };

/* How long the shortest ring is: a batch of 64 messages has room. */
enum { SHORTEST = 513 };

/* An operation: of a worker and of a number among its own ones. */
struct operation {
    size_t length;
    uint8_t bytes[KIOSKBASIL_MOST_LONG_BYTES];
};

/* What a replica has applied: whose operation stands at each place, and how many each has. */
struct book {
    uint32_t many;
    uint32_t from[OPERATIONS];
    uint32_t next[MOST];
    uint32_t faults;
};

static struct kioskbasil_replicas shared;
static struct kioskbasil_replica replicas[MOST];
static struct book books[MOST];

/* Every second one has one of the lengths above, and the others any. */
static struct operation operation_of(uint32_t worker, uint32_t count) {
    struct operation operation = {.length = lengths[(count / 2 * 7 + worker) % LENGTHS]};
    if (count % 2)
        operation.length = (count * 367 + worker * 101) % (KIOSKBASIL_MOST_LONG_BYTES + 1);
    for (size_t i = 0; i < operation.length; i++)
        operation.bytes[i] = (uint8_t)(count + worker + i);
    return operation;
}

/* It answers its place. */
static void apply(void *state, uint32_t from, const uint8_t *bytes, size_t length, void *answer) {
    struct book *book = state;
    struct operation operation = operation_of(from, book->next[from]++);
    if (length != operation.length || memcmp(operation.bytes, bytes, length)) book->faults++;
    book->from[book->many] = from;
    if (answer) *(uint32_t *)answer = book->many;
    book->many++;
}

static uint32_t open_all(size_t workers, uint64_t log_words) {
    kioskbasil_sizes sizes = {.rounds = 1, .rows = 8, .log_words = log_words};
    uint32_t code = replicas_open(&shared, &sizes, replicas, workers, apply);
    memset(books, 0, sizeof books);
    for (size_t i = 0; i < workers && code == KIOSKBASIL_OK; i++) replicas[i].state = &books[i];
    return code;
}

static void free_all(size_t workers) {
    for (size_t i = 0; i < workers; i++) replica_free(&replicas[i]);
    bell_free(&shared.bell);
}

static double now(void) {
    return (double)replica_clock() / 1e9;
}

static uint32_t execute(struct kioskbasil_replica *r, uint32_t count, uint32_t *place) {
    struct operation operation = operation_of(r->number, count);
    return replica_execute(r, operation.bytes, operation.length, place);
}

/* How the first worker of a run ends: it finishes; it is stopped at this ask and goes on, and then
   leaves by calls that are stopped there; it is stopped there and given up; or it is given up after
   so many calls. */
enum ending { FINISHES, GOES_ON, STOPS, LEAVES };
static enum ending ending;
static unsigned turn, turns = 20;

static bool so_often(void *given) {
    unsigned *asked = given;
    return ++*asked <= turn;
}

struct done {
    uint32_t code, faults;
};

/* Executes 30 operations, each of which has to be the last one applied. */
static struct done execute_all(struct kioskbasil_replica *r) {
    const struct book *book = r->state;
    struct done done = {KIOSKBASIL_OK, 0};
    for (uint32_t count = 0; count < 30 && done.code == KIOSKBASIL_OK; count++) {
        uint32_t place = UINT32_MAX;
        done.code = execute(r, count, &place);
        if (place + 1 != book->many || book->from[place] != r->number) done.faults++;
        if (book->next[r->number] != count + 1) done.faults++;
    }
    return done;
}

/* The first worker, which is told to stop at one of its turns. */
static struct done work_first(struct kioskbasil_replica *r) {
    struct done done = {KIOSKBASIL_OK, 0};
    unsigned asked = 0;
    for (uint32_t count = 0; count < 30 && done.code == KIOSKBASIL_OK; count++) {
        struct operation it = operation_of(0, count);
        if (ending == LEAVES && count == turn) break;
        if (count % 3 == 2)
            done.code = replica_submit_while(r, it.bytes, it.length, NULL, so_often, &asked);
        else
            done.code = replica_execute_while(r, it.bytes, it.length, NULL, so_often, &asked);
    }
    if (done.code == REPLICA_STOPPED) done.code = KIOSKBASIL_OK;
    if (ending == STOPS || ending == LEAVES) replica_free(r);
    return done;
}

/* Leaves by calls that are told to stop, until one of them is OK. */
static uint32_t leave_bit_by_bit(struct kioskbasil_replica *r) {
    for (;; sched_yield()) {
        unsigned asked = 0;
        uint32_t code = replica_leave_while(r, so_often, &asked);
        if (code != REPLICA_STOPPED && code != REPLICA_MISSING) return code;
        if (code == REPLICA_STOPPED) continue; /* it may put operations still */
        if (replica_submit(r, NULL, 0, NULL) != KIOSKBASIL_CLOSED) return code;
    }
}

static void *work(void *given) {
    struct kioskbasil_replica *r = given;
    bool is_first = ending != FINISHES && r->number == 0;
    struct done *done = calloc(1, sizeof *done);
    if (!done) abort();
    *done = is_first ? work_first(r) : execute_all(r);
    if (r->sender.live && done->code == KIOSKBASIL_OK && is_first) done->code = leave_bit_by_bit(r);
    if (r->sender.live && done->code == KIOSKBASIL_OK) done->code = replica_finish(r);
    return done;
}

/* All execute at once over a ring: none hangs, and who has finished has the same book. */
static void run(size_t workers, uint64_t log_words) {
    pthread_t threads[MOST];
    struct book *last = &books[workers - 1];
    double begin = now();
    EXPECT(open_all(workers, log_words), KIOSKBASIL_OK);
    for (size_t i = 0; i < workers; i++) pthread_create(&threads[i], NULL, work, &replicas[i]);
    for (size_t i = 0; i < workers; i++) {
        void *given = NULL;
        struct done *done;
        pthread_join(threads[i], &given);
        done = given;
        EXPECT(done->code, KIOSKBASIL_OK);
        EXPECT(done->faults + books[i].faults, 0);
        free(done);
    }
    for (size_t i = ending == STOPS || ending == LEAVES; i < workers; i++)
        EXPECT(memcmp(&books[i], last, sizeof *last), 0);
    if (ending == FINISHES) EXPECT(last->many, 30 * workers);
    EXPECT(now() - begin < TOO_LONG, true);
    free_all(workers);
}

static void runs(void) {
    ending = FINISHES;
    run(1, SHORTEST);
    run(3, SHORTEST);
    run(8, SHORTEST);
    run(8, 600);
    for (ending = GOES_ON; ending <= LEAVES; ending++) {
        for (turn = 0; turn < turns; turn++) {
            run(3, SHORTEST);
            run(8, SHORTEST);
        }
    }
}

/* Of each length one, after each number of messages that wait: it is whole, answers its place, and
   has the number of its last piece. */
static void of_each_length(void) {
    enum { MESSAGES = KIOSKBASIL_MOST_MESSAGES };
    static struct operation it;
    uint64_t number = 0, next = 0;
    EXPECT(open_all(1, SHORTEST), KIOSKBASIL_OK);
    for (uint32_t count = 0; count < MESSAGES * LENGTHS; count++) {
        uint32_t place = UINT32_MAX;
        it = operation_of(0, count);
        next += long_pieces(it.length);
        if (count % (MESSAGES + 1) < count / LENGTHS) {
            EXPECT(replica_submit(&replicas[0], it.bytes, it.length, &number), KIOSKBASIL_OK);
            EXPECT(number, next - 1);
            continue;
        }
        EXPECT(replica_execute(&replicas[0], it.bytes, it.length, &place), KIOSKBASIL_OK);
        EXPECT(place, count);
        EXPECT(books[0].many, count + 1);
    }
    EXPECT(replica_finish(&replicas[0]), KIOSKBASIL_OK);
    EXPECT(books[0].many, MESSAGES * LENGTHS);
    EXPECT(books[0].faults, 0);
    free_all(1);
}

static void codes(void) {
    static const uint8_t long_one[881] = {0};
    uint64_t number = 9;
    size_t many = 9;
    EXPECT(open_all(0, SHORTEST), KIOSKBASIL_BAD_SENDERS);
    EXPECT(open_all(KIOSKBASIL_MOST_RECEIVERS + 1, SHORTEST), KIOSKBASIL_BAD_RECEIVERS);
    EXPECT(open_all(2, 15), KIOSKBASIL_BAD_LOG_WORDS);
    EXPECT(open_all(2, 16), KIOSKBASIL_SHORT_RING);
    EXPECT(open_all(2, SHORTEST - 1), KIOSKBASIL_SHORT_RING);
    EXPECT(open_all(2, SHORTEST), KIOSKBASIL_OK);
    EXPECT(replica_submit(&replicas[0], long_one, 881, &number), KIOSKBASIL_PUT_TOO_LONG);
    EXPECT(replica_execute(&replicas[0], long_one, 881, NULL), KIOSKBASIL_PUT_TOO_LONG);
    EXPECT(replica_submit(&replicas[0], NULL, 1, &number), KIOSKBASIL_NULL);
    EXPECT(number, 9);
    EXPECT(replica_submit(&replicas[0], NULL, 0, &number), KIOSKBASIL_OK);
    EXPECT(number, 0);
    EXPECT(replica_latest(&replicas[1]), KIOSKBASIL_OK);
    EXPECT(books[1].many, 0);
    EXPECT(replica_flush(&replicas[0]), KIOSKBASIL_OK);
    EXPECT(books[1].many, 0);
    EXPECT(replica_latest(&replicas[1]), KIOSKBASIL_OK);
    EXPECT(books[1].many, 1);
    EXPECT(replica_hear(&replicas[1], &many), KIOSKBASIL_OK);
    EXPECT(many, 0);
    replica_free(&replicas[1]);
    EXPECT(replica_hear(&replicas[1], &many), KIOSKBASIL_EMPTY_HANDLE);
    EXPECT(replica_latest(&replicas[1]), KIOSKBASIL_EMPTY_HANDLE);
    EXPECT(execute(&replicas[1], 0, NULL), KIOSKBASIL_EMPTY_HANDLE);
    EXPECT(replica_finish(&replicas[1]), KIOSKBASIL_EMPTY_HANDLE);
    EXPECT(replica_leave(&replicas[1]), KIOSKBASIL_EMPTY_HANDLE);
    EXPECT(replica_finish(&replicas[0]), KIOSKBASIL_OK);
    EXPECT(replica_leave(&replicas[0]), KIOSKBASIL_EMPTY_HANDLE);
    EXPECT(execute(&replicas[0], 0, NULL), KIOSKBASIL_EMPTY_HANDLE);
    EXPECT(strcmp(replica_text(REPLICA_STOPPED), "told to stop, or its time is over"), 0);
    EXPECT(strcmp(replica_text(REPLICA_MISSING), "a worker has not left"), 0);
    EXPECT(strcmp(replica_text(KIOSKBASIL_SPENT), "spent"), 0);
    EXPECT(books[1].faults + books[0].faults, 0);
    free_all(2);
}

/* A replica that is kept and not asked fills the ring: a call with a time ends by that time, and
   what it has put is sent later, once. */
static void times(void) {
    double begin, least = TOO_LONG;
    uint32_t count = 0, many;
    size_t heard = 0;
    bool early = false;
    EXPECT(open_all(2, SHORTEST), KIOSKBASIL_OK);
    for (;; count++) {
        struct operation it = operation_of(0, count);
        if (replica_execute_timeout(&replicas[0], it.bytes, it.length, NULL, 30)) break;
    }
    many = books[0].many;
    EXPECT(many, count);
    /* On a busy machine some of them take longer. */
    for (int i = 0; i < 50 && least >= 0.09; i++) {
        double took;
        begin = now();
        EXPECT(replica_flush_timeout(&replicas[0], 30), REPLICA_STOPPED);
        took = now() - begin;
        early = early || took < 0.03;
        if (took < least) least = took;
    }
    EXPECT(early, false);
    EXPECT(least < 0.09, true);
    EXPECT(books[0].many, many);
    EXPECT(replica_hear_timeout(&replicas[1], &heard, 30), KIOSKBASIL_OK);
    EXPECT(heard, many);
    EXPECT(replica_hear_timeout(&replicas[1], &heard, 30), KIOSKBASIL_OK);
    EXPECT(heard, 0);
    EXPECT(replica_flush(&replicas[0]), KIOSKBASIL_OK);
    EXPECT(replica_hear_timeout(&replicas[1], &heard, 8000), KIOSKBASIL_OK);
    EXPECT(heard, 1);
    EXPECT(replica_finish_timeout(&replicas[0], 30), REPLICA_MISSING);
    EXPECT(replicas[0].missing, 1);
    EXPECT(replica_finish(&replicas[1]), KIOSKBASIL_OK);
    EXPECT(books[1].many, count + 1);
    free_all(2);
}

/* A leave that misses a worker keeps the replica: it puts nothing more and reads on, and a further
   call goes on. */
static void leaves_one_by_one(void) {
    size_t heard = 0;
    EXPECT(open_all(2, SHORTEST), KIOSKBASIL_OK);
    EXPECT(execute(&replicas[0], 0, NULL), KIOSKBASIL_OK);
    EXPECT(replica_leave_timeout(&replicas[0], 0), REPLICA_MISSING);
    EXPECT(replica_leave_timeout(&replicas[0], 30), REPLICA_MISSING);
    EXPECT(replicas[0].missing, 1);
    EXPECT(execute(&replicas[0], 1, NULL), KIOSKBASIL_CLOSED);
    EXPECT(replica_submit(&replicas[0], NULL, 0, NULL), KIOSKBASIL_CLOSED);
    EXPECT(replica_flush(&replicas[0]), KIOSKBASIL_OK);
    for (uint32_t count = 0; count < 40; count++) {
        EXPECT(execute(&replicas[1], count, NULL), KIOSKBASIL_OK);
        if (count % 2) EXPECT(replica_latest(&replicas[0]), KIOSKBASIL_OK);
        else EXPECT(replica_hear(&replicas[0], &heard), KIOSKBASIL_OK);
        EXPECT(books[0].many, count + 2);
    }
    EXPECT(replica_leave(&replicas[1]), KIOSKBASIL_OK);
    EXPECT(replica_leave(&replicas[0]), KIOSKBASIL_OK);
    EXPECT(replica_leave_timeout(&replicas[1], 0), KIOSKBASIL_OK);
    EXPECT(replica_hear(&replicas[0], &heard), KIOSKBASIL_OK);
    EXPECT(heard, 0);
    EXPECT(replica_finish(&replicas[0]), KIOSKBASIL_OK);
    EXPECT(memcmp(&books[0], &books[1], sizeof *books), 0);
    free_all(2);
}

/* The ring is full with operations that wait, since the second does not hear: a leave is stopped
   before its mark was taken, and then the worker may put operations still. */
static void leaves_a_full_ring(void) {
    uint32_t code, next = 0;
    EXPECT(open_all(2, SHORTEST), KIOSKBASIL_OK);
    do {
        struct operation it = operation_of(0, next);
        code = replica_submit_timeout(&replicas[0], it.bytes, it.length, NULL, 0);
    } while (code == KIOSKBASIL_OK && ++next);
    EXPECT(code, REPLICA_STOPPED);
    EXPECT(replica_leave_timeout(&replicas[0], 0), REPLICA_STOPPED);
    EXPECT(replica_leave_timeout(&replicas[0], 30), REPLICA_STOPPED);
    while (replica_flush_timeout(&replicas[0], 0)) replica_hear(&replicas[1], NULL);
    struct operation last = operation_of(0, next);
    EXPECT(replica_submit(&replicas[0], last.bytes, last.length, NULL), KIOSKBASIL_OK);
    do {
        replica_hear(&replicas[1], NULL);
        code = replica_leave_timeout(&replicas[0], 0);
    } while (code == REPLICA_STOPPED || (code == REPLICA_MISSING && !replicas[0].missing));
    EXPECT(code, REPLICA_MISSING);
    EXPECT(replica_finish(&replicas[1]), KIOSKBASIL_OK);
    EXPECT(replica_leave(&replicas[0]), KIOSKBASIL_OK);
    EXPECT(books[0].many, next + 1);
    EXPECT(memcmp(&books[0], &books[1], sizeof *books), 0);
    EXPECT(books[0].faults, 0);
    free_all(2);
}

/* So many operations, of three words each, leave one word of the ring, and a leave mark takes two.
   So the first has not left itself until the second hears. */
static void leaves_without_room(void) {
    enum { MANY = SHORTEST / 3 };
    size_t heard = 0;
    EXPECT(open_all(2, 3 * MANY + 1), KIOSKBASIL_OK);
    for (int i = 0; i < MANY; i++)
        EXPECT(replica_execute(&replicas[0], NULL, 0, NULL), KIOSKBASIL_OK);
    for (unsigned milliseconds = 0; milliseconds < 20; milliseconds += 10) {
        EXPECT(replica_leave_timeout(&replicas[0], milliseconds), REPLICA_MISSING);
        EXPECT(replicas[0].missing, 0);
        EXPECT(replica_submit(&replicas[0], NULL, 0, NULL), KIOSKBASIL_CLOSED);
    }
    EXPECT(replica_hear(&replicas[1], &heard), KIOSKBASIL_OK);
    EXPECT(heard, MANY);
    EXPECT(replica_leave_timeout(&replicas[0], 0), REPLICA_MISSING);
    EXPECT(replicas[0].missing, 1);
    EXPECT(replica_leave(&replicas[1]), KIOSKBASIL_OK);
    EXPECT(replica_leave(&replicas[0]), KIOSKBASIL_OK);
    EXPECT(books[0].many, MANY);
    free_all(2);
}

static atomic_bool stop;

static bool goes_on(void *none) {
    (void)none;
    return !atomic_load(&stop);
}

/* Sleeps until there is an operation, and then until it is told to stop. */
static void *wait_twice(void *given) {
    struct kioskbasil_replica *r = given;
    size_t first = 0, second = 9;
    uint32_t code = replica_hear_while(r, &first, NULL, NULL);
    if (code == KIOSKBASIL_OK) code = replica_hear_while(r, &second, goes_on, NULL);
    return code == KIOSKBASIL_OK && first == 1 && second == 0 ? given : NULL;
}

static void woken(void) {
    struct timespec pause = {0, 30000000};
    double begin = now();
    pthread_t thread;
    void *done = NULL;
    EXPECT(open_all(2, SHORTEST), KIOSKBASIL_OK);
    pthread_create(&thread, NULL, wait_twice, &replicas[1]);
    nanosleep(&pause, NULL);
    EXPECT(execute(&replicas[0], 0, NULL), KIOSKBASIL_OK);
    nanosleep(&pause, NULL);
    atomic_store(&stop, true);
    bell_ring(&shared.bell);
    pthread_join(thread, &done);
    EXPECT(done != NULL, true);
    EXPECT(now() - begin < TOO_LONG, true);
    free_all(2);
}

int main(int argc, char **argv) {
    if (argc > 1) turns = (unsigned)atoi(argv[1]);
    codes();
    of_each_length();
    times();
    leaves_one_by_one();
    leaves_a_full_ring();
    leaves_without_room();
    woken();
    runs();
    printf("replica: %ld passed, %ld failed\n", passed, failed);
    return failed != 0;
}
