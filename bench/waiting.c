/* Tests of the calls that wait, examples/c/waiting.h, and of the sums of include/kioskbasil.h.
   bench/embed builds and runs it. Prints what failed, and `N passed, M failed` last. Whoever lost a
   wake-up sleeps for 20 s here, but in a call that asks a function, and 10 s are too long for any
   wait. */
#define BELL_LONGEST_SLEEP 20000
#include "expect.h"
#include "kioskbasil.h"
#include "waiting.h"
#include <errno.h>
#include <poll.h>
#include <pthread.h>
#include <stdatomic.h>
#include <stdio.h>
#include <stdlib.h>
#include <sys/resource.h>

enum { TOO_LONG = 10 };

/* A bus of two senders and two receivers, with its bell. */
struct bus {
    kioskbasil_sender s[2];
    kioskbasil_receiver r[2];
    struct bell bell;
    atomic_bool stop;
    atomic_int asked; /* how often a go_on was asked */
};

static void open_bus(struct bus *bus, uint64_t rows) {
    static const struct bus none = {.bell = BELL_NEW};
    kioskbasil_sizes sizes = {.rounds = 1, .rows = rows, .log_words = 4096, .again = true};
    *bus = none;
    EXPECT(kioskbasil_open(&sizes, bus->s, 2, bus->r, 2), KIOSKBASIL_OK);
}

static void free_bus(struct bus *bus) {
    for (int i = 0; i < 2; i++) kioskbasil_free_sender(&bus->s[i]);
    for (int i = 0; i < 2; i++) kioskbasil_free_receiver(&bus->r[i]);
    bell_free(&bus->bell);
}

static void pause_for(long milliseconds) {
    struct timespec pause = {milliseconds / 1000, milliseconds % 1000 * 1000000};
    nanosleep(&pause, NULL);
}

static double now(void) {
    struct timespec t;
    clock_gettime(CLOCK_MONOTONIC, &t);
    return (double)t.tv_sec + (double)t.tv_nsec / 1e9;
}

static bool goes_on(void *given) {
    struct bus *bus = given;
    atomic_fetch_add(&bus->asked, 1);
    return !atomic_load(&bus->stop);
}

static void tell_to_stop(struct bus *bus) {
    atomic_store(&bus->stop, true);
    bell_ring(&bus->bell);
}

/* Takes turns by hand up to this answer. */
static void turn_to(kioskbasil_sender *sender, uint32_t wanted) {
    uint32_t code;
    do code = kioskbasil_turn(sender, 0, NULL);
    while (code != wanted && (code == KIOSKBASIL_GOING || code == KIOSKBASIL_OWN));
    EXPECT(code, wanted);
}

static bool is_readable(int descriptor, int milliseconds) {
    struct pollfd polled = {descriptor, POLLIN, 0};
    return poll(&polled, 1, milliseconds) == 1;
}

/* ---- threads that wait, each for one answer */
struct waits {
    struct bus *bus;
    int number;
    uint32_t code;
    size_t many;
    kioskbasil_item items[4];
    double longest; /* of its waits for an item, in seconds */
};

static void *hears(void *given) {
    struct waits *me = given;
    me->code = hear_some(&me->bus->r[me->number], me->items, 4, &me->many, &me->bus->bell);
    return NULL;
}

static void *hears_while(void *given) {
    struct waits *me = given;
    me->code = hear_while(&me->bus->r[me->number], me->items, 4, &me->many, &me->bus->bell, goes_on,
                          me->bus);
    return NULL;
}

static void *sends(void *given) {
    struct waits *me = given;
    uint64_t seed = 7;
    me->code = send_batch(&me->bus->s[me->number], &seed, NULL, &me->bus->bell);
    return NULL;
}

static void *sends_while(void *given) {
    struct waits *me = given;
    uint64_t seed = 7;
    me->code = send_while(&me->bus->s[me->number], &seed, NULL, &me->bus->bell, goes_on, me->bus);
    return NULL;
}

static pthread_t start(void *(*what)(void *), struct waits *waits) {
    pthread_t thread;
    if (pthread_create(&thread, NULL, what, waits)) exit(2);
    pause_for(30);
    return thread;
}

/* Waits for a thread that is to end soon. */
static void join(pthread_t thread) {
    double begun = now();
    pthread_join(thread, NULL);
    EXPECT(now() - begun < TOO_LONG, true);
}

/* Two receivers that sleep are woken by a message, and by the end of the order. */
static void woken_receivers(void) {
    struct bus bus;
    uint64_t seed = 1;
    open_bus(&bus, 8);
    for (int end = 0; end < 2; end++) {
        struct waits waits[2] = {{.bus = &bus, .number = 0}, {.bus = &bus, .number = 1}};
        pthread_t threads[2];
        for (int i = 0; i < 2; i++) threads[i] = start(hears, &waits[i]);
        if (end) {
            EXPECT(end_order(&bus.s[1], &seed, &bus.bell), KIOSKBASIL_CLOSED);
        } else {
            EXPECT(kioskbasil_put(&bus.s[0], "hello", 5, NULL), KIOSKBASIL_OK);
            EXPECT(send_batch(&bus.s[0], &seed, NULL, &bus.bell), KIOSKBASIL_DELIVERED);
        }
        for (int i = 0; i < 2; i++) {
            join(threads[i]);
            EXPECT(waits[i].code, end ? KIOSKBASIL_END : KIOSKBASIL_EMPTY);
            EXPECT(waits[i].many, !end);
        }
    }
    free_bus(&bus);
}

/* A sender that sleeps while another holds the page is woken once that is back, and a receiver
   hears both. It may be told to stop before, and goes on then. */
static void woken_sender(void) {
    struct bus bus;
    struct waits sending = {.bus = &bus, .number = 0}, hearing = {.bus = &bus, .number = 0};
    open_bus(&bus, 8);
    for (int i = 0; i < 2; i++) EXPECT(kioskbasil_put(&bus.s[i], "x", 1, NULL), KIOSKBASIL_OK);
    turn_to(&bus.s[1], KIOSKBASIL_OWN);
    pthread_t thread = start(sends_while, &sending);
    while (atomic_load(&bus.asked) < WAITING_YIELDS + 2) pause_for(1); /* it sleeps from there on */
    int asked = atomic_load(&bus.asked);
    double begun = now();
    pause_for(30);
    EXPECT(atomic_load(&bus.asked) <= asked + 3 + (now() - begun) * 100, true);
    tell_to_stop(&bus);
    join(thread);
    EXPECT(sending.code, KIOSKBASIL_WAITING);
    thread = start(sends, &sending);
    turn_to(&bus.s[1], KIOSKBASIL_DELIVERED);
    bell_ring(&bus.bell);
    join(thread);
    EXPECT(sending.code, KIOSKBASIL_DELIVERED);
    hears(&hearing);
    EXPECT(hearing.many, 2);
    EXPECT(hearing.items[0].sender, 1);
    free_bus(&bus);
}

/* A receiver that sleeps is told to stop, and hears on later. One that is told so at first looks
   at the bus once. */
static void stopped_receiver(void) {
    struct bus bus;
    struct waits hearing = {.bus = &bus, .number = 1};
    uint64_t seed = 1;
    open_bus(&bus, 8);
    pthread_t thread = start(hears_while, &hearing);
    tell_to_stop(&bus);
    join(thread);
    EXPECT(hearing.code, KIOSKBASIL_EMPTY);
    EXPECT(hearing.many, 0);
    EXPECT(kioskbasil_put(&bus.s[0], "x", 1, NULL), KIOSKBASIL_OK);
    EXPECT(send_batch(&bus.s[0], &seed, NULL, NULL), KIOSKBASIL_DELIVERED);
    atomic_store(&bus.asked, 0);
    hears_while(&hearing);
    EXPECT(hearing.many, 1);
    EXPECT(atomic_load(&bus.asked), 0);
    hears_while(&hearing);
    EXPECT(hearing.code, KIOSKBASIL_EMPTY);
    EXPECT(atomic_load(&bus.asked), 1);
    free_bus(&bus);
}

/* A sender shows its presence and stops. The other one, which holds the page, does not sleep until
   a ring: it sends once the first one goes on. A receiver that sleeps is told of its message before
   that. */
static void behind_another(void) {
    struct bus bus;
    struct waits sending = {.bus = &bus, .number = 0}, hearing = {.bus = &bus, .number = 0};
    uint64_t seed = 1;
    open_bus(&bus, 2);
    EXPECT(kioskbasil_put(&bus.s[1], "late", 4, NULL), KIOSKBASIL_OK);
    for (int i = 0; i < 3; i++) EXPECT(kioskbasil_turn(&bus.s[1], 0, NULL), KIOSKBASIL_GOING);
    EXPECT(kioskbasil_put(&bus.s[0], "x", 1, NULL), KIOSKBASIL_OK);
    EXPECT(send_now(&bus.s[0], &seed, NULL, &bus.bell), KIOSKBASIL_DELIVERED);
    hears(&hearing);
    pthread_t heard = start(hears, &hearing);
    EXPECT(kioskbasil_put(&bus.s[0], "y", 1, NULL), KIOSKBASIL_OK);
    pthread_t thread = start(sends, &sending);
    join(heard);
    EXPECT(hearing.many, 1);
    EXPECT(hearing.items[0].bytes[0], 'y');
    uint32_t code;
    do code = kioskbasil_turns(&bus.s[1], next_word(&seed), NULL);
    while (code == KIOSKBASIL_GOING);
    join(thread);
    EXPECT(sending.code, KIOSKBASIL_DELIVERED);
    free_bus(&bus);
}

/* ---- calls that wait for so long at most, and calls that ask a function */

enum calls { HEAR, SEND, SEND_WHEN_ROOM, CALLS };

/* Until when a function says yes. */
static bool is_before(void *given) { return now() < *(const double *)given; }

/* What the call of this kind answers that waits for so long, by its time or by a function. */
static uint32_t wait_so_long(struct bus *bus, enum calls call, bool asks, unsigned milliseconds) {
    struct bell *bell = &bus->bell;
    kioskbasil_item items[4];
    uint64_t seed = 5;
    size_t many = 0;
    double end = now() + milliseconds / 1e3;
    switch (call) {
    case HEAR:
        return asks ? hear_while(&bus->r[1], items, 4, &many, bell, is_before, &end)
                    : hear_timeout(&bus->r[1], items, 4, &many, bell, milliseconds);
    case SEND:
        return asks ? send_while(&bus->s[0], &seed, NULL, bell, is_before, &end)
                    : send_timeout(&bus->s[0], &seed, NULL, bell, milliseconds);
    default:
        return asks ? send_when_room(&bus->s[0], &seed, NULL, bell, is_before, &end)
                    : send_when_room_timeout(&bus->s[0], &seed, NULL, bell, milliseconds);
    }
}

/* It answers so, never before its time, and at one of 20 tries soon behind that: a sleep of 0.1 s in
   place of 1 or 20 ms is too late, and one of 0.2 s in place of 150 ms. */
static void ends_in_time(struct bus *bus, enum calls call, uint32_t wanted) {
    static const unsigned times[] = {1, 20, 150};
    for (int kind = 0; kind < 6; kind++) {
        unsigned time = times[kind / 2];
        double took = TOO_LONG;
        for (int tries = 0; tries < 20 && took >= time / 1e3 + 0.04; tries++) {
            double begun = now();
            EXPECT(wait_so_long(bus, call, kind % 2, time), wanted);
            took = now() - begun;
            EXPECT(took >= time / 1e3, true);
        }
        EXPECT(took < time / 1e3 + 0.04, true);
    }
}

/* A receiver to which nothing comes, and a sender that waits for the page, which loses nothing. */
static void bounded_waits(void) {
    struct bus bus;
    struct waits hearing = {.bus = &bus, .number = 0};
    uint64_t seed = 1;
    open_bus(&bus, 8);
    for (int i = 0; i < 2; i++) EXPECT(kioskbasil_put(&bus.s[i], "x", 1, NULL), KIOSKBASIL_OK);
    turn_to(&bus.s[1], KIOSKBASIL_OWN);
    ends_in_time(&bus, HEAR, KIOSKBASIL_EMPTY);
    ends_in_time(&bus, SEND, KIOSKBASIL_WAITING);
    EXPECT(finish_sender(&bus.s[0], NULL, &bus.bell), KIOSKBASIL_OK);
    turn_to(&bus.s[1], KIOSKBASIL_DELIVERED);
    EXPECT(send_timeout(&bus.s[0], &seed, NULL, &bus.bell, 10000), KIOSKBASIL_DELIVERED);
    hears(&hearing);
    EXPECT(hearing.many, 2);
    free_bus(&bus);
}

/* A sender that is behind another one, whose time is over there: it keeps nobody once it has let
   go. */
static void bounded_behind(void) {
    struct bus bus;
    struct waits hearing = {.bus = &bus, .number = 0};
    uint64_t seed = 1;
    open_bus(&bus, 2);
    EXPECT(kioskbasil_put(&bus.s[1], "late", 4, NULL), KIOSKBASIL_OK);
    for (int i = 0; i < 3; i++) EXPECT(kioskbasil_turn(&bus.s[1], 0, NULL), KIOSKBASIL_GOING);
    EXPECT(kioskbasil_put(&bus.s[0], "x", 1, NULL), KIOSKBASIL_OK);
    EXPECT(send_now(&bus.s[0], &seed, NULL, &bus.bell), KIOSKBASIL_DELIVERED);
    EXPECT(kioskbasil_put(&bus.s[0], "y", 1, NULL), KIOSKBASIL_OK);
    ends_in_time(&bus, SEND, KIOSKBASIL_BEHIND);
    while (kioskbasil_turns(&bus.s[1], next_word(&seed), NULL) == KIOSKBASIL_GOING) {}
    EXPECT(finish_sender(&bus.s[0], NULL, &bus.bell), KIOSKBASIL_DELIVERED);
    EXPECT(send_timeout(&bus.s[1], &seed, NULL, &bus.bell, 10000), KIOSKBASIL_DELIVERED);
    hears(&hearing);
    EXPECT(hearing.many, 3);
    free_bus(&bus);
}

/* A sender that waits for the room of a ring, which comes within its time at last. */
static void bounded_room(void) {
    struct bus bus;
    kioskbasil_item items[4];
    kioskbasil_sizes sizes = {.rounds = 1, .rows = 8, .log_words = 17, .ring = true, .batch = 2};
    uint64_t seed = 1;
    size_t many;
    uint8_t long_one[56] = {0};
    open_bus(&bus, 8);
    free_bus(&bus);
    bus.bell = (struct bell)BELL_NEW;
    EXPECT(kioskbasil_open(&sizes, bus.s, 2, bus.r, 1), KIOSKBASIL_OK);
    EXPECT(kioskbasil_put(&bus.s[0], long_one, 56, NULL), KIOSKBASIL_OK);
    EXPECT(send_now(&bus.s[0], &seed, NULL, &bus.bell), KIOSKBASIL_DELIVERED);
    EXPECT(kioskbasil_put(&bus.s[0], long_one, 56, NULL), KIOSKBASIL_OK);
    ends_in_time(&bus, SEND_WHEN_ROOM, KIOSKBASIL_FULL);
    EXPECT(hear_timeout(&bus.r[0], items, 4, &many, &bus.bell, 10000), KIOSKBASIL_EMPTY);
    EXPECT(many, 1);
    EXPECT(send_when_room_timeout(&bus.s[0], &seed, NULL, &bus.bell, 10000), KIOSKBASIL_DELIVERED);
    free_bus(&bus);
}

/* What comes before the time is over is given, and so is the end. */
static void *hears_in_time(void *given) {
    struct waits *me = given;
    me->code = hear_timeout(&me->bus->r[me->number], me->items, 4, &me->many, &me->bus->bell, 20000);
    return NULL;
}

static void what_comes_in_time(void) {
    struct bus bus;
    struct waits hearing = {.bus = &bus, .number = 0};
    uint64_t seed = 1;
    open_bus(&bus, 8);
    pthread_t thread = start(hears_in_time, &hearing);
    EXPECT(kioskbasil_put(&bus.s[0], "x", 1, NULL), KIOSKBASIL_OK);
    EXPECT(send_batch(&bus.s[0], &seed, NULL, &bus.bell), KIOSKBASIL_DELIVERED);
    join(thread);
    EXPECT(hearing.many, 1);
    thread = start(hears_in_time, &hearing);
    EXPECT(end_order(&bus.s[0], &seed, &bus.bell), KIOSKBASIL_CLOSED);
    join(thread);
    EXPECT(hearing.code, KIOSKBASIL_END);
    free_bus(&bus);
}

/* Each descriptor says of each ring that comes after its hush, and no other. */
static void descriptors(void) {
    struct bus bus;
    uint64_t seed = 1;
    open_bus(&bus, 8);
    int one = bell_descriptor(&bus.bell), two = bell_descriptor(&bus.bell);
    EXPECT(one >= 0 && two >= 0 && one != two, true);
    bell_hush(&bus.bell, one), bell_hush(&bus.bell, two);
    EXPECT(is_readable(one, 0) || is_readable(two, 0), false);
    for (int i = 0; i < 3; i++) {
        EXPECT(kioskbasil_put(&bus.s[0], "x", 1, NULL), KIOSKBASIL_OK);
        EXPECT(send_now(&bus.s[0], &seed, NULL, &bus.bell), KIOSKBASIL_DELIVERED);
        EXPECT(is_readable(one, 0) && is_readable(two, 0), true);
        bell_hush(&bus.bell, one);
        EXPECT(is_readable(one, 0), false);
        EXPECT(is_readable(two, 0), true);
        bell_hush(&bus.bell, two);
        EXPECT(is_readable(two, 0), false);
    }
    close(one);
    bell_ring(&bus.bell);
    EXPECT(is_readable(two, 0), true);
    close(two);
    bell_ring(&bus.bell);
    free_bus(&bus);
}

/* A loop that sends waits for the bell while another holds the page. */
static void loop_that_sends(void) {
    struct bus bus;
    struct waits other = {.bus = &bus, .number = 1};
    uint64_t seed = 1;
    open_bus(&bus, 8);
    int descriptor = bell_descriptor(&bus.bell);
    for (int i = 0; i < 2; i++) EXPECT(kioskbasil_put(&bus.s[i], "x", 1, NULL), KIOSKBASIL_OK);
    turn_to(&bus.s[1], KIOSKBASIL_OWN);
    bell_hush(&bus.bell, descriptor);
    EXPECT(send_now(&bus.s[0], &seed, NULL, &bus.bell), KIOSKBASIL_WAITING);
    EXPECT(is_readable(descriptor, 0), false);
    pthread_t thread = start(sends, &other);
    EXPECT(is_readable(descriptor, 10000), true);
    join(thread);
    EXPECT(other.code, KIOSKBASIL_DELIVERED);
    bell_hush(&bus.bell, descriptor);
    EXPECT(send_now(&bus.s[0], &seed, NULL, &bus.bell), KIOSKBASIL_DELIVERED);
    close(descriptor);
    free_bus(&bus);
}

/* A loop whose sender is behind another one rings once, and not at each of its further calls. */
static void loop_behind(void) {
    struct bus bus;
    uint64_t seed = 1;
    uint32_t code;
    open_bus(&bus, 2);
    int descriptor = bell_descriptor(&bus.bell);
    EXPECT(kioskbasil_put(&bus.s[1], "late", 4, NULL), KIOSKBASIL_OK);
    for (int i = 0; i < 3; i++) EXPECT(kioskbasil_turn(&bus.s[1], 0, NULL), KIOSKBASIL_GOING);
    for (int i = 0; i < 2; i++) {
        bell_hush(&bus.bell, descriptor);
        EXPECT(kioskbasil_put(&bus.s[0], "x", 1, NULL), KIOSKBASIL_OK);
        code = send_now(&bus.s[0], &seed, NULL, &bus.bell);
        EXPECT(code, i ? KIOSKBASIL_BEHIND : KIOSKBASIL_DELIVERED);
        EXPECT(is_readable(descriptor, 0), true);
    }
    bell_hush(&bus.bell, descriptor);
    for (int i = 0; i < 3; i++)
        EXPECT(send_now(&bus.s[0], &seed, NULL, &bus.bell), KIOSKBASIL_BEHIND);
    EXPECT(is_readable(descriptor, 0), false);
    do code = kioskbasil_turns(&bus.s[1], next_word(&seed), NULL);
    while (code == KIOSKBASIL_GOING);
    EXPECT(send_now(&bus.s[0], &seed, NULL, &bus.bell), KIOSKBASIL_DELIVERED);
    EXPECT(is_readable(descriptor, 0), true);
    close(descriptor);
    free_bus(&bus);
}

/* A sender takes turns by hand up to its page, which wants no ring, and goes on by a call: behind
   another one its message stands in the order, and that call tells so, once, whichever it is. */
static void behind_by_hand(bool lets_go) {
    struct bus bus;
    uint64_t seed = 1;
    size_t many = 0;
    kioskbasil_item items[4];
    open_bus(&bus, 2);
    int descriptor = bell_descriptor(&bus.bell);
    EXPECT(kioskbasil_put(&bus.s[1], "late", 4, NULL), KIOSKBASIL_OK);
    for (int i = 0; i < 3; i++) EXPECT(kioskbasil_turn(&bus.s[1], 0, NULL), KIOSKBASIL_GOING);
    EXPECT(kioskbasil_put(&bus.s[0], "a", 1, NULL), KIOSKBASIL_OK);
    EXPECT(send_batch(&bus.s[0], &seed, NULL, &bus.bell), KIOSKBASIL_DELIVERED);
    bell_hush(&bus.bell, descriptor);
    EXPECT(hear_now(&bus.r[0], items, 4, &many, &bus.bell), KIOSKBASIL_EMPTY);
    EXPECT(kioskbasil_put(&bus.s[0], "b", 1, NULL), KIOSKBASIL_OK);
    turn_to(&bus.s[0], KIOSKBASIL_OWN);
    EXPECT(is_readable(descriptor, 0), false);
    for (int call = 0; call < 3; call++) {
        uint32_t code = lets_go ? finish_sender(&bus.s[0], NULL, &bus.bell)
                                : send_now(&bus.s[0], &seed, NULL, &bus.bell);
        EXPECT(code, KIOSKBASIL_BEHIND);
        EXPECT(is_readable(descriptor, 0), call == 0);
        bell_hush(&bus.bell, descriptor);
    }
    EXPECT(hear_now(&bus.r[0], items, 4, &many, &bus.bell), KIOSKBASIL_EMPTY);
    EXPECT(many, 1);
    while (kioskbasil_turns(&bus.s[1], next_word(&seed), NULL) == KIOSKBASIL_GOING) {}
    EXPECT(send_now(&bus.s[0], &seed, NULL, &bus.bell), KIOSKBASIL_DELIVERED);
    EXPECT(is_readable(descriptor, 0), true);
    close(descriptor);
    free_bus(&bus);
}

/* Where there is one descriptor too few, errno says so, and a later call gives one. */
static void no_descriptor(void) {
    struct bell bell = BELL_NEW;
    struct rlimit before, few;
    int next = dup(0);
    close(next);
    EXPECT(next > 0 && getrlimit(RLIMIT_NOFILE, &before) == 0, true);
    few = before, few.rlim_cur = (rlim_t)next + 1;
    EXPECT(setrlimit(RLIMIT_NOFILE, &few), 0);
    errno = 0;
    int descriptor = bell_descriptor(&bell), why = errno;
    EXPECT(setrlimit(RLIMIT_NOFILE, &before), 0);
    EXPECT(descriptor < 0, true);
    EXPECT(why, EMFILE);
    descriptor = bell_descriptor(&bell);
    EXPECT(descriptor, next);
    close(descriptor);
    bell_free(&bell);
}

/* Many rings and many sleeps, none of which may be missed: two threads play a ball, each of whose
   moves both hear. */
enum { MOVES = 4000 };

static void *plays(void *given) {
    struct waits *me = given;
    uint64_t seed = 3 + (uint64_t)me->number;
    kioskbasil_sender *sender = &me->bus->s[me->number];
    for (int move = 0; move < MOVES; move++) {
        if (move % 2 == me->number) {
            me->code |= kioskbasil_put(sender, "ball", 4, NULL);
            me->code |= send_batch(sender, &seed, NULL, &me->bus->bell) ^ KIOSKBASIL_DELIVERED;
        }
        double begun = now();
        hear_some(&me->bus->r[me->number], me->items, 1, &me->many, &me->bus->bell);
        if (now() - begun > me->longest) me->longest = now() - begun;
        me->code |= me->items[0].sender ^ (uint32_t)move % 2;
    }
    return NULL;
}

static void ball_games(void) {
    struct bus bus;
    struct waits players[2] = {{.bus = &bus, .number = 0}, {.bus = &bus, .number = 1}};
    pthread_t threads[2];
    kioskbasil_sizes sizes = {.rounds = 1, .rows = 4, .log_words = 65536, .again = true};
    open_bus(&bus, 8);
    EXPECT(kioskbasil_open(&sizes, bus.s, 2, bus.r, 2), KIOSKBASIL_OK);
    for (int i = 0; i < 2; i++) threads[i] = start(plays, &players[i]);
    for (int i = 0; i < 2; i++) {
        pthread_join(threads[i], NULL);
        EXPECT(players[i].code, KIOSKBASIL_OK);
        EXPECT(players[i].longest < TOO_LONG, true);
    }
    free_bus(&bus);
}

/* The sums, at borders too. */
static void sums(void) {
    EXPECT(kioskbasil_tenures_needed(3, 100), 22);
    EXPECT(kioskbasil_words_needed(3, 100, 8), 623);
    EXPECT(kioskbasil_tenures_needed(0, 5), 1);
    EXPECT(kioskbasil_words_needed(0, UINT64_MAX, UINT64_MAX), 2);
    EXPECT(kioskbasil_words_needed(1, 0, 56), 2);
    EXPECT(kioskbasil_words_needed(1, 17, 0), 21);
    EXPECT(kioskbasil_words_needed(1, 1, 57), 12);
    EXPECT(kioskbasil_tenures_needed(1, UINT64_MAX), (UINT64_C(1) << 60) + 1);
    EXPECT(kioskbasil_tenures_needed(16, UINT64_MAX), UINT64_MAX);
    EXPECT(kioskbasil_tenures_needed(UINT64_MAX, 1), UINT64_MAX);
    EXPECT(kioskbasil_tenures_needed(UINT64_MAX - 1, 1), UINT64_MAX);
    EXPECT(kioskbasil_tenures_needed(UINT64_MAX - 2, 1), UINT64_MAX - 1);
    EXPECT(kioskbasil_words_needed(2, UINT64_MAX / 8, 56), UINT64_MAX);
    EXPECT(kioskbasil_room_to_close(4096, 4), 4096 - 2 - 4 * 129);
    EXPECT(kioskbasil_room_to_close(131, 1), 0);
    EXPECT(kioskbasil_room_to_close(132, 1), 1);
    EXPECT(kioskbasil_room_to_close(0, 0), 0);
    EXPECT(kioskbasil_room_to_close(UINT64_MAX, UINT64_MAX), 0);
}

int main(void) {
    woken_receivers();
    woken_sender();
    stopped_receiver();
    behind_another();
    bounded_waits();
    bounded_behind();
    bounded_room();
    what_comes_in_time();
    descriptors();
    loop_that_sends();
    loop_behind();
    behind_by_hand(false);
    behind_by_hand(true);
    no_descriptor();
    ball_games();
    sums();
    printf("waiting: %ld passed, %ld failed\n", passed, failed);
    return failed != 0;
}
