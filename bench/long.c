/* Tests of long messages in C, examples/c/long.h. bench/embed builds and runs it. Prints what
   failed, and `N passed, M failed` last. Whoever lost a wake-up sleeps for 200 s here, and 100 s
   are too long for any of its parts. */
#define BELL_LONGEST_SLEEP 200000
#include "expect.h"
#include "long.h"
#include <stdatomic.h>
#include <stdlib.h>

enum { SENDERS = 3, RECEIVERS = 2, MESSAGES = 300, TOO_LONG = 100 };

static kioskbasil_sender s[SENDERS];
static kioskbasil_receiver r[RECEIVERS];
static struct kioskbasil_long heard[RECEIVERS];
static struct bell bell;

/* A ring with batches of 16 messages, where it has room for the longest. */
static void open_bus(size_t senders, size_t receivers, uint64_t log_words) {
    static const struct bell new_bell = BELL_NEW;
    kioskbasil_sizes sizes = {.rounds = 1, .rows = 8, .log_words = log_words, .batch = 16};
    sizes.ring = log_words >= 129, sizes.again = true;
    bell = new_bell;
    memset(heard, 0, sizeof heard);
    EXPECT(kioskbasil_open(&sizes, s, senders, r, receivers), KIOSKBASIL_OK);
}

static void free_bus(void) {
    for (int i = 0; i < SENDERS; i++) kioskbasil_free_sender(&s[i]);
    for (int i = 0; i < RECEIVERS; i++) kioskbasil_free_receiver(&r[i]);
    bell_free(&bell);
}

static void send(kioskbasil_sender *sender) {
    uint64_t seed = 7;
    EXPECT(send_batch(sender, &seed, NULL, &bell), KIOSKBASIL_DELIVERED);
}

/* The message of this number of a sender, of so many bytes. */
static const uint8_t *bytes_of(uint32_t sender, uint64_t number, size_t length) {
    static _Thread_local uint8_t bytes[KIOSKBASIL_MOST_LONG_BYTES + 1];
    for (size_t i = 0; i < length; i++) bytes[i] = (uint8_t)((i + number) ^ sender);
    return bytes;
}

static size_t length_of(uint64_t number) {
    return number * 367 % (KIOSKBASIL_MOST_LONG_BYTES + 1);
}

/* Each length, one after another; and what is refused. */
static void lengths(void) {
    uint64_t number = 9, next = 0;
    open_bus(1, 1, 129);
    for (size_t length = 0; length <= KIOSKBASIL_MOST_LONG_BYTES; length++) {
        const uint8_t *bytes = bytes_of(0, length, length);
        next += long_pieces(length);
        EXPECT(kioskbasil_put_long(&s[0], bytes, length, &number), KIOSKBASIL_OK);
        EXPECT(number, next - 1);
        EXPECT(kioskbasil_try_long(&r[0], &heard[0], &bell), KIOSKBASIL_EMPTY);
        send(&s[0]);
        EXPECT(kioskbasil_next_long(&r[0], &heard[0], &bell), KIOSKBASIL_ITEM);
        EXPECT(heard[0].length, length);
        EXPECT(heard[0].number, next - 1);
        EXPECT(memcmp(heard[0].bytes, bytes, length), 0);
    }
    EXPECT(kioskbasil_put_long(&s[0], bytes_of(0, 0, 881), 881, NULL), KIOSKBASIL_PUT_TOO_LONG);
    EXPECT(kioskbasil_put_long(&s[0], NULL, 1, NULL), KIOSKBASIL_NULL);
    EXPECT(kioskbasil_put_long(NULL, "x", 1, NULL), KIOSKBASIL_NULL);
    EXPECT(kioskbasil_put_long(&s[1], "x", 1, NULL), KIOSKBASIL_EMPTY_HANDLE);
    EXPECT(kioskbasil_try_long(NULL, &heard[0], NULL), KIOSKBASIL_NULL);
    EXPECT(kioskbasil_try_long(&r[0], NULL, NULL), KIOSKBASIL_NULL);
    EXPECT(kioskbasil_next_long(&r[1], &heard[1], NULL), KIOSKBASIL_EMPTY_HANDLE);
    EXPECT(kioskbasil_put_long(&s[0], NULL, 0, &number), KIOSKBASIL_OK);
    EXPECT(number, next);
    EXPECT(strcmp(kioskbasil_text(KIOSKBASIL_NOT_LONG), "no long message"), 0);
    free_bus();
}

/* Of several causes the first, and nothing is changed. */
static void refusals(void) {
    kioskbasil_sender_shown shown;
    const uint8_t *bytes = bytes_of(0, 0, 881);
    open_bus(2, 1, 128);
    EXPECT(kioskbasil_put_long(&s[0], bytes, 56, NULL), KIOSKBASIL_OK);
    EXPECT(kioskbasil_put_long(&s[0], bytes, 880, NULL), KIOSKBASIL_PUT_BATCH_FULL);
    EXPECT(kioskbasil_put_long(&s[0], bytes, 881, NULL), KIOSKBASIL_PUT_TOO_LONG);
    while (kioskbasil_turn(&s[0], 0, NULL) != KIOSKBASIL_OWN) {
    }
    EXPECT(kioskbasil_put_long(&s[0], bytes, 1, NULL), KIOSKBASIL_PUT_BUSY);
    EXPECT(kioskbasil_put_long(&s[0], bytes, 880, NULL), KIOSKBASIL_PUT_BUSY);
    EXPECT(kioskbasil_put_long(&s[0], bytes, 881, NULL), KIOSKBASIL_PUT_BUSY);
    send(&s[0]);
    EXPECT(kioskbasil_show_sender(&s[0], &shown), KIOSKBASIL_OK);
    EXPECT(shown.next_number, 2);
    EXPECT(kioskbasil_put_long(&s[0], bytes, 880, NULL), KIOSKBASIL_OK);
    EXPECT(kioskbasil_has_room(&s[0]), KIOSKBASIL_NEVER_FITS);
    EXPECT(kioskbasil_close(&s[1]), KIOSKBASIL_OK);
    EXPECT(kioskbasil_put_long(&s[1], bytes, 880, NULL), KIOSKBASIL_PUT_CLOSED);
    EXPECT(kioskbasil_put_long(&s[1], bytes, 881, NULL), KIOSKBASIL_PUT_CLOSED);
    free_bus();
}

/* What is no long message is given as it is, and what stands behind it is heard. */
static void no_pieces(void) {
    static const struct { uint8_t follow; size_t length; } put[][3] = {
        {{0, 0}}, {{16, 1}}, {{98, 6}}, {{1, 3}}, {{15, 56}}, {{2, 56}, {1, 56}},
        {{2, 56}, {2, 56}, {2, 56}}, {{1, 56}, {0, 0}},
    };
    static const size_t many[] = {1, 1, 1, 1, 1, 2, 3, 2};
    for (size_t i = 0; i < sizeof many / sizeof *many; i++) {
        open_bus(2, 1, 4096);
        for (size_t at = 0; at < many[i]; at++) {
            uint8_t bytes[56] = {put[i][at].follow};
            EXPECT(kioskbasil_put(&s[0], bytes, put[i][at].length, NULL), KIOSKBASIL_OK);
        }
        send(&s[0]);
        EXPECT(kioskbasil_put_long(&s[1], bytes_of(1, 0, 880), 880, NULL), KIOSKBASIL_OK);
        send(&s[1]);
        EXPECT(kioskbasil_put(&s[0], "\1", 1, NULL), KIOSKBASIL_OK);
        send(&s[0]);
        for (size_t at = 0; at < many[i]; at++) {
            EXPECT(kioskbasil_try_long(&r[0], &heard[0], &bell), KIOSKBASIL_NOT_LONG);
            EXPECT(heard[0].length, put[i][at].length);
            EXPECT(heard[0].number, at);
            if (heard[0].length) EXPECT(heard[0].bytes[0], put[i][at].follow);
        }
        EXPECT(kioskbasil_try_long(&r[0], &heard[0], &bell), KIOSKBASIL_ITEM);
        EXPECT(memcmp(heard[0].bytes, bytes_of(1, 0, 880), 880), 0);
        EXPECT(kioskbasil_try_long(&r[0], &heard[0], &bell), KIOSKBASIL_NOT_LONG);
        EXPECT(kioskbasil_try_long(&r[0], &heard[0], &bell), KIOSKBASIL_EMPTY);
        free_bus();
    }
}

/* Pieces of two senders are not joined, nor are 17, nor one behind another that is too short. */
static void not_joined(void) {
    const uint8_t piece[56] = {1};
    open_bus(2, 1, 4096);
    EXPECT(kioskbasil_put(&s[0], piece, 56, NULL), KIOSKBASIL_OK);
    send(&s[0]);
    EXPECT(kioskbasil_put_long(&s[1], "x", 1, NULL), KIOSKBASIL_OK);
    send(&s[1]);
    EXPECT(kioskbasil_try_long(&r[0], &heard[0], &bell), KIOSKBASIL_NOT_LONG);
    EXPECT(kioskbasil_try_long(&r[0], &heard[0], &bell), KIOSKBASIL_ITEM);
    EXPECT(heard[0].sender, 1);
    free_bus();
    open_bus(1, 1, 4096);
    for (int follow = 16; follow >= 0; follow--) {
        const uint8_t one[56] = {(uint8_t)follow};
        EXPECT(kioskbasil_put(&s[0], one, 56, NULL), KIOSKBASIL_OK);
        if (follow % 16 == 0) send(&s[0]);
    }
    EXPECT(kioskbasil_put(&s[0], "\1ab", 3, NULL), KIOSKBASIL_OK);
    EXPECT(kioskbasil_put(&s[0], "\0a", 2, NULL), KIOSKBASIL_OK);
    send(&s[0]);
    EXPECT(kioskbasil_try_long(&r[0], &heard[0], &bell), KIOSKBASIL_NOT_LONG);
    EXPECT(kioskbasil_try_long(&r[0], &heard[0], &bell), KIOSKBASIL_ITEM);
    EXPECT(heard[0].length, 880);
    EXPECT(kioskbasil_try_long(&r[0], &heard[0], &bell), KIOSKBASIL_NOT_LONG);
    EXPECT(kioskbasil_try_long(&r[0], &heard[0], &bell), KIOSKBASIL_ITEM);
    EXPECT(heard[0].length, 1);
    free_bus();
}

/* A message that is not whole waits for the next item, and is told at the end. */
static void not_whole(void) {
    const uint8_t piece[56] = {1};
    uint64_t seed = 7;
    open_bus(1, 1, 4096);
    EXPECT(kioskbasil_put(&s[0], piece, 56, NULL), KIOSKBASIL_OK);
    send(&s[0]);
    EXPECT(kioskbasil_try_long(&r[0], &heard[0], &bell), KIOSKBASIL_EMPTY);
    EXPECT(kioskbasil_put(&s[0], "\0ab", 3, NULL), KIOSKBASIL_OK);
    EXPECT(kioskbasil_put(&s[0], piece, 56, NULL), KIOSKBASIL_OK);
    send(&s[0]);
    EXPECT(kioskbasil_try_long(&r[0], &heard[0], &bell), KIOSKBASIL_ITEM);
    EXPECT(heard[0].length, 57);
    EXPECT(kioskbasil_try_long(&r[0], &heard[0], &bell), KIOSKBASIL_EMPTY);
    EXPECT(end_order(&s[0], &seed, &bell), KIOSKBASIL_CLOSED);
    EXPECT(kioskbasil_next_long(&r[0], &heard[0], &bell), KIOSKBASIL_NOT_LONG);
    EXPECT(heard[0].length, 56);
    for (int i = 0; i < 2; i++)
        EXPECT(kioskbasil_next_long(&r[0], &heard[0], &bell), KIOSKBASIL_END);
    free_bus();
}

/* ---- threads */

static void *sends(void *given) {
    size_t at = (size_t)((kioskbasil_sender *)given - s);
    uint64_t seed = at + 1;
    uint32_t code = KIOSKBASIL_DELIVERED;
    for (uint64_t i = 0; i < MESSAGES; i++) {
        const uint8_t *bytes = bytes_of((uint32_t)at, i, length_of(i));
        while (kioskbasil_put_long(&s[at], bytes, length_of(i), NULL) != KIOSKBASIL_OK)
            code = send_when_room(&s[at], &seed, NULL, &bell, NULL, NULL);
        if (code != KIOSKBASIL_DELIVERED) return NULL;
    }
    code = send_when_room(&s[at], &seed, NULL, &bell, NULL, NULL);
    return code == KIOSKBASIL_DELIVERED ? given : NULL;
}

static atomic_bool stop;

static bool goes_on(void *none) {
    (void)none;
    return !atomic_load(&stop);
}

/* Hears all of each sender in its order, and is told to stop then. */
static void *hears(void *given) {
    size_t at = (size_t)((kioskbasil_receiver *)given - r);
    struct kioskbasil_long *it = &heard[at];
    uint64_t next[SENDERS] = {0};
    for (int i = 0; i < SENDERS * MESSAGES; i++) {
        uint64_t *number;
        if (kioskbasil_next_long(&r[at], it, &bell) != KIOSKBASIL_ITEM) return NULL;
        number = &next[it->sender];
        if (it->length != length_of(*number)) return NULL;
        if (memcmp(it->bytes, bytes_of(it->sender, *number, it->length), it->length)) return NULL;
        ++*number;
    }
    if (kioskbasil_next_long_while(&r[at], it, &bell, goes_on, NULL) != KIOSKBASIL_EMPTY)
        return NULL;
    return given;
}

static void run(uint64_t log_words) {
    pthread_t sending[SENDERS], hearing[RECEIVERS];
    struct timespec begin, end;
    void *done;
    clock_gettime(CLOCK_MONOTONIC, &begin);
    open_bus(SENDERS, RECEIVERS, log_words);
    atomic_store(&stop, false);
    for (int i = 0; i < RECEIVERS; i++) pthread_create(&hearing[i], NULL, hears, &r[i]);
    for (int i = 0; i < SENDERS; i++) pthread_create(&sending[i], NULL, sends, &s[i]);
    for (int i = 0; i < SENDERS; i++) {
        pthread_join(sending[i], &done);
        EXPECT(done != NULL, true);
    }
    atomic_store(&stop, true);
    bell_ring(&bell);
    for (int i = 0; i < RECEIVERS; i++) {
        pthread_join(hearing[i], &done);
        EXPECT(done != NULL, true);
    }
    clock_gettime(CLOCK_MONOTONIC, &end);
    EXPECT(end.tv_sec - begin.tv_sec < TOO_LONG, true);
    free_bus();
}

int main(void) {
    lengths();
    refusals();
    no_pieces();
    not_joined();
    not_whole();
    run(129);
    run(4096);
    printf("long: %ld passed, %ld failed\n", passed, failed);
    return failed != 0;
}
