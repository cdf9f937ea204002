/* An event loop of poll(2) with a bus among what it waits for: it sends the lines that come over a
   pipe, and prints the messages of the order, while another thread sends too. Once it has heard all
   of them it closes. The loop waits in poll alone. The log is a ring of 16 words, and a batch has
   one message. */
#include "kioskbasil.h"
#include "waiting.h"
#include <errno.h>
#include <poll.h>
#include <pthread.h>
#include <stdio.h>
#include <string.h>
#include <unistd.h>

enum { LINES = 3, TICKS = 5, PAUSE = 20000000 };

static struct bell bell = BELL_NEW;

static void pause_a_little(void) {
    struct timespec pause = {0, PAUSE};
    nanosleep(&pause, NULL);
}

/* A thread that only sends, by calls that wait, for room too. */
static void *tick(void *given) {
    kioskbasil_sender *sender = given;
    uint64_t seed = 2;
    for (int i = 0; i < TICKS; i++) {
        pause_a_little();
        if (kioskbasil_put(sender, "tick", 4, NULL) != KIOSKBASIL_OK) return sender;
        if (send_when_room(sender, &seed, NULL, &bell, NULL, NULL) != KIOSKBASIL_DELIVERED)
            return sender;
    }
    return NULL;
}

/* A thread that knows nothing of the bus, and writes lines to a pipe. */
static void *write_lines(void *given) {
    for (int i = 0; i < LINES; i++) {
        pause_a_little();
        if (write(*(int *)given, "line", 4) != 4) break;
    }
    return NULL;
}

/* Prints what is there, and counts it; the last code. Of a ring it rings: a sender may wait for the
   room, also that of this loop. */
static uint32_t print_items(kioskbasil_receiver *receiver, size_t *heard) {
    kioskbasil_item items[16];
    size_t many;
    uint32_t code;
    do {
        code = hear_now(receiver, items, 16, &many, &bell);
        for (size_t i = 0; i < many; i++)
            printf("%d: %.*s\n", items[i].sender, items[i].length, (char *)items[i].bytes);
        *heard += many;
    } while (code == KIOSKBASIL_GOING);
    return code;
}

/* Sends what waits, and waits for nothing. After FULL it takes no turn before a look has found room,
   since each FULL takes a tenure. That the order has ended meanwhile is heard. */
static uint32_t send_if_room(kioskbasil_sender *sender, uint64_t *seed, uint32_t sent) {
    if (sent == KIOSKBASIL_FULL && kioskbasil_has_room(sender) == KIOSKBASIL_FULL) return sent;
    return send_now(sender, seed, NULL, &bell);
}

/* Takes a line and puts it. The code: OK also where a signal came first, since the line is there
   still; EMPTY where there is none. */
static uint32_t take_line(kioskbasil_sender *sender, int lines) {
    char line[4];
    ssize_t many = read(lines, line, sizeof line);
    if (many < 0 && errno == EINTR) return KIOSKBASIL_OK;
    if (many != sizeof line) return KIOSKBASIL_EMPTY;
    return kioskbasil_put(sender, line, sizeof line, NULL);
}

/* Waits in poll for the bell and for lines, until the order has ended: END. A signal that comes
   meanwhile has it look once more. */
static uint32_t loop(kioskbasil_sender *sender, kioskbasil_receiver *receiver, int lines) {
    struct pollfd polled[2] = {{bell_descriptor(&bell), POLLIN, 0}, {lines, POLLIN, 0}};
    uint32_t sent = KIOSKBASIL_IDLE, code = KIOSKBASIL_EMPTY;
    uint64_t seed = 1;
    size_t heard = 0;
    while (polled[0].fd >= 0) {
        bell_hush(&bell, polled[0].fd);
        code = print_items(receiver, &heard);
        if (code != KIOSKBASIL_EMPTY) break;
        if (heard == LINES + TICKS) kioskbasil_close(sender); /* refused where it waits already */
        sent = send_if_room(sender, &seed, sent);
        if (kioskbasil_refused(code = sent)) break;
        /* A line is taken once the one before is sent, so that its put is not refused. Behind another
           sender there is no ring. */
        polled[1].fd = sent == KIOSKBASIL_IDLE || sent == KIOSKBASIL_DELIVERED ? lines : -1;
        if (poll(polled, 2, sent == KIOSKBASIL_BEHIND ? 1 : -1) < 0) {
            if (errno == EINTR) continue;
            break;
        }
        if (polled[1].fd >= 0 && polled[1].revents & POLLIN &&
            (code = take_line(sender, lines)) != KIOSKBASIL_OK)
            break;
    }
    if (polled[0].fd >= 0) close(polled[0].fd);
    return code;
}

/* What a loop does that has failed: else the other thread would wait for its page, or for room that
   its receiver keeps, and main for that thread. */
static void give_up(kioskbasil_sender *sender, kioskbasil_receiver *receiver) {
    free_receiver(receiver, &bell);
    while (finish_sender(sender, NULL, &bell) == KIOSKBASIL_BEHIND) pause_a_little();
}

int main(void) {
    kioskbasil_sizes sizes = {.rounds = 2, .rows = 8, .log_words = 16, .ring = true, .batch = 1};
    kioskbasil_sender senders[2] = {KIOSKBASIL_NONE};
    kioskbasil_receiver receivers[1] = {KIOSKBASIL_NONE};
    kioskbasil_left left;
    pthread_t ticking, writing;
    void *failed;
    int ends[2];
    uint32_t code = kioskbasil_open(&sizes, senders, 2, receivers, 1);
    if (code != KIOSKBASIL_OK) return fprintf(stderr, "eventloop: %s\n", kioskbasil_text(code)), 1;
    if (pipe(ends) || pthread_create(&ticking, NULL, tick, &senders[1]) ||
        pthread_create(&writing, NULL, write_lines, &ends[1]))
        return fprintf(stderr, "eventloop: no pipe, or no thread\n"), 1;
    code = loop(&senders[0], receivers, ends[0]);
    if (code != KIOSKBASIL_END) give_up(&senders[0], receivers);
    pthread_join(ticking, &failed);
    pthread_join(writing, NULL);
    if (failed || code != KIOSKBASIL_END) return fprintf(stderr, "eventloop: no end\n"), 1;
    code = kioskbasil_end(senders, 2, receivers, 1, NULL, 0, &left);
    bell_free(&bell);
    if (code != KIOSKBASIL_OK || left.counts[0] != LINES || left.counts[1] != TICKS)
        return fprintf(stderr, "eventloop: messages are lost\n"), 1;
    printf("an event loop took %d lines and %d ticks\n", LINES, TICKS);
    return 0;
}
