/* What waiting costs in C: bench/rest_outside builds and runs it. `rest_outside SECONDS` prints for
   each kind of thread that waits so long, NAME MILLISECONDS of its processor time, and then for each
   kind of receiver that sleeps, NAME MEDIAN and NINETIETH, the microseconds from before a message is
   sent until it is heard. */
#include "kioskbasil.h"
#include "waiting.h"
#include <poll.h>
#include <stdio.h>
#include <stdlib.h>

enum { RECEIVERS = 2, MESSAGES = 1000 };

static kioskbasil_sender senders[2] = {KIOSKBASIL_NONE};
static kioskbasil_receiver receivers[RECEIVERS] = {KIOSKBASIL_NONE};
static struct bell bell = BELL_NEW;
static double took[RECEIVERS][MESSAGES];

static void die(const char *why) {
    fprintf(stderr, "rest_outside: %s\n", why);
    exit(2);
}

static double read_clock(clockid_t clock) {
    struct timespec t;
    if (clock_gettime(clock, &t)) die("no clock");
    return (double)t.tv_sec * 1e6 + (double)t.tv_nsec / 1e3;
}

static void pause_for(double seconds) {
    struct timespec pause = {(time_t)seconds, (long)((seconds - (double)(time_t)seconds) * 1e9)};
    nanosleep(&pause, NULL);
}

/* Takes in when the items were sent; how many messages there were by now. */
static size_t take_in(double *heard, size_t before, const kioskbasil_item *items, size_t many) {
    for (size_t i = 0; i < many; i++) {
        double sent;
        memcpy(&sent, items[i].bytes, sizeof sent);
        if (before + i < MESSAGES) heard[before + i] = read_clock(CLOCK_MONOTONIC) - sent;
    }
    return before + many;
}

/* A receiver that sleeps in hear_some, up to the end. */
static void *sleeps(void *given) {
    kioskbasil_item items[8];
    uint32_t code;
    size_t many, heard = 0;
    (void)given;
    do {
        code = hear_some(&receivers[0], items, 8, &many, &bell);
        heard = take_in(took[0], heard, items, many);
    } while (code != KIOSKBASIL_END);
    return NULL;
}

/* A receiver in an event loop, up to the end. */
static void *polls(void *given) {
    kioskbasil_item items[8];
    struct pollfd polled = {bell_descriptor(&bell), POLLIN, 0};
    uint32_t code;
    size_t many, heard = 0;
    (void)given;
    if (polled.fd < 0) die("no descriptor");
    for (;;) {
        bell_hush(&bell, polled.fd);
        do {
            code = kioskbasil_hear(&receivers[1], items, 8, &many);
            heard = take_in(took[1], heard, items, many);
        } while (code == KIOSKBASIL_GOING);
        if (code == KIOSKBASIL_END) break;
        poll(&polled, 1, -1);
    }
    close(polled.fd);
    return NULL;
}

/* A sender that waits for the page. */
static void *waits(void *given) {
    uint64_t seed = 2;
    (void)given;
    double sent = read_clock(CLOCK_MONOTONIC);
    kioskbasil_put(&senders[1], &sent, sizeof sent, NULL);
    if (send_batch(&senders[1], &seed, NULL, &bell) != KIOSKBASIL_DELIVERED) die("not sent");
    return NULL;
}

static pthread_t start(void *(*what)(void *)) {
    pthread_t thread;
    if (pthread_create(&thread, NULL, what, NULL)) die("no thread");
    return thread;
}

static int compare(const void *a, const void *b) {
    double one = *(const double *)a, other = *(const double *)b;
    return (one > other) - (one < other);
}

/* Prints what processor time each thread took while nothing came. */
static void print_idle(const pthread_t *threads, double seconds) {
    static const char *const names[] = {"C:receiver", "C:event_loop", "C:sender"};
    clockid_t clocks[3];
    double before[3];
    pause_for(0.1);
    for (int i = 0; i < 3; i++) {
        if (pthread_getcpuclockid(threads[i], &clocks[i])) die("no clock of a thread");
        before[i] = read_clock(clocks[i]);
    }
    pause_for(seconds);
    for (int i = 0; i < 3; i++)
        printf("idle %s %.2f\n", names[i], (read_clock(clocks[i]) - before[i]) / 1e3);
}

int main(int count, char **words) {
    static const char *const names[] = {"C:receiver", "C:event_loop"};
    kioskbasil_sizes sizes = {.rounds = 1, .rows = 8, .log_words = 65536, .again = true};
    uint64_t seed = 1;
    pthread_t threads[3];
    if (kioskbasil_open(&sizes, senders, 2, receivers, RECEIVERS)) die("no bus");
    kioskbasil_put(&senders[0], "holds it", 8, NULL);
    while (kioskbasil_turn(&senders[0], 0, NULL) != KIOSKBASIL_OWN) {}
    threads[0] = start(sleeps), threads[1] = start(polls), threads[2] = start(waits);
    print_idle(threads, count > 1 ? atof(words[1]) : 10);
    if (send_batch(&senders[0], &seed, NULL, &bell) != KIOSKBASIL_DELIVERED) die("not sent");
    pthread_join(threads[2], NULL);
    for (int i = 2; i < MESSAGES; i++) {
        pause_for(0.003);
        double sent = read_clock(CLOCK_MONOTONIC);
        kioskbasil_put(&senders[0], &sent, sizeof sent, NULL);
        if (send_batch(&senders[0], &seed, NULL, &bell) != KIOSKBASIL_DELIVERED) die("not sent");
    }
    if (end_order(&senders[0], &seed, &bell) != KIOSKBASIL_CLOSED) die("no end");
    for (int i = 0; i < 2; i++) {
        pthread_join(threads[i], NULL);
        qsort(took[i] + 2, MESSAGES - 2, sizeof(double), compare);
        printf("wake %s %.1f %.1f\n", names[i], took[i][MESSAGES / 2], took[i][MESSAGES * 9 / 10]);
    }
    return 0;
}
