/* Calls that wait, over kioskbasil.h, to be copied or installed: no call of the library waits.
   That they end is not promised. They are for Linux: with -std=c11 build with
   -D_POSIX_C_SOURCE=200809L too, or take -std=gnu11.

   Each bus has a bell, which its threads share: a thread that waits sleeps until it rings. The calls
   below ring it. So all threads of a bus give them the same bell, or all give NULL: then
   who waits looks again every 0.1 ms. No thread is cancelled (pthread_cancel) in any of these. */
#ifndef KIOSKBASIL_WAITING_H
#define KIOSKBASIL_WAITING_H

#include "kioskbasil.h"
#include <pthread.h>
#include <sched.h>
#include <sys/epoll.h>
#include <sys/eventfd.h>
#include <time.h>
#include <unistd.h>

#if defined __STRICT_ANSI__ && !defined _POSIX_C_SOURCE && !defined _GNU_SOURCE
#error "waiting.h wants POSIX: build with -std=gnu11, or with -D_POSIX_C_SOURCE=200809L"
#endif

/* ---- the bell: a count of its rings, which tells who listened whether it has rung since */

/* A thread sleeps so many milliseconds at most, by the clock of the day: who is to ring may be
   stopped before it does. Another number may be defined before this file is included. */
#ifndef BELL_LONGEST_SLEEP
#define BELL_LONGEST_SLEEP 100
#endif

/* The same of a call that asks a go_on between its sleeps. */
#ifndef BELL_LONGEST_ASKED_SLEEP
#define BELL_LONGEST_ASKED_SLEEP 10
#endif

/* It starts as BELL_NEW, and its place stays the same. Its fields are of these functions alone. */
struct bell {
    uint64_t rings; /* twice as many as it rang, and 1 more where somebody listens */
    pthread_mutex_t lock;
    pthread_cond_t rang;
    int event; /* what the descriptors watch; -1 where there is none */
    uint64_t told;                   /* its rings with that by which a sender told of its BEHIND */
    const kioskbasil_sender *teller; /* that sender */
};

#define BELL_NEW {0, PTHREAD_MUTEX_INITIALIZER, PTHREAD_COND_INITIALIZER, -1, 0, NULL}

/* Rings: whoever listens looks at the bus again. Only these need it: who takes turns by hand, once
   one was answered DELIVERED, LEFT, CLOSED, FULL or BEHIND; who hears a ring by kioskbasil_hear or
   kioskbasil_hear_once; who gives a receiver of a ring up by kioskbasil_free_receiver, or is
   answered IN_USE by kioskbasil_end; and who makes a go_on say no. Where a call of this file goes on
   with turns that were taken by hand, it rings. It is not for signal handlers. */
static inline void bell_ring(struct bell *bell) {
    int event;
    if (!(__atomic_fetch_add(&bell->rings, 2, __ATOMIC_SEQ_CST) & 1)) return;
    pthread_mutex_lock(&bell->lock);
    __atomic_fetch_and(&bell->rings, ~UINT64_C(1), __ATOMIC_SEQ_CST);
    event = bell->event;
    pthread_mutex_unlock(&bell->lock);
    pthread_cond_broadcast(&bell->rang);
    if (event >= 0) eventfd_write(event, 1);
}

/* Listens. What it gives is for bell_sleep, after one more look at the bus that found nothing. */
static inline uint64_t bell_listen(struct bell *bell) {
    return __atomic_or_fetch(&bell->rings, 1, __ATOMIC_SEQ_CST);
}

/* Sleeps until the bell has rung since bell_listen gave `heard`, for so many nanoseconds at most, and
   no longer than for BELL_LONGEST_SLEEP. */
static inline void bell_sleep_for(struct bell *bell, uint64_t heard, int64_t most) {
    const int64_t longest = INT64_C(1000000) * BELL_LONGEST_SLEEP;
    struct timespec end;
    int status = clock_gettime(CLOCK_REALTIME, &end);
    most = most < 0 ? 0 : most < longest ? most : longest;
    end.tv_sec += (time_t)(most / 1000000000);
    end.tv_nsec += (long)(most % 1000000000);
    if (end.tv_nsec >= 1000000000) {
        end.tv_nsec -= 1000000000;
        end.tv_sec++;
    }
    pthread_mutex_lock(&bell->lock);
    while (!status && bell_listen(bell) == heard)
        status = pthread_cond_timedwait(&bell->rang, &bell->lock, &end);
    pthread_mutex_unlock(&bell->lock);
}

/* Sleeps until the bell has rung since bell_listen gave `heard`, for BELL_LONGEST_SLEEP at most. */
static inline void bell_sleep(struct bell *bell, uint64_t heard) {
    bell_sleep_for(bell, heard, INT64_MAX);
}

/* A descriptor for an event loop, each of which wants its own: poll says POLLIN of it once the bell
   has rung since the last bell_hush. close gives it up. -1 where there is none, and errno says
   why. examples/c/eventloop.c is a loop. */
static inline int bell_descriptor(struct bell *bell) {
    struct epoll_event rings;
    int descriptor = epoll_create1(EPOLL_CLOEXEC), event;
    if (descriptor < 0) return -1;
    pthread_mutex_lock(&bell->lock);
    if (bell->event < 0) bell->event = eventfd(0, EFD_CLOEXEC | EFD_NONBLOCK);
    event = bell->event;
    pthread_mutex_unlock(&bell->lock);
    memset(&rings, 0, sizeof rings);
    rings.events = EPOLLIN | EPOLLET; /* so each descriptor sees each ring, and none reads `event` */
    if (event >= 0 && !epoll_ctl(descriptor, EPOLL_CTL_ADD, event, &rings)) return descriptor;
    close(descriptor);
    return -1;
}

/* What a loop does before it looks at the bus: hush, look until nothing is there, poll. */
static inline void bell_hush(struct bell *bell, int descriptor) {
    struct epoll_event rang;
    epoll_wait(descriptor, &rang, 1, 0);
    bell_listen(bell);
}

/* Gives up what the bell took, once nobody uses it any more. */
static inline void bell_free(struct bell *bell) {
    if (bell->event >= 0) close(bell->event);
    bell->event = -1;
    pthread_cond_destroy(&bell->rang);
    pthread_mutex_destroy(&bell->lock);
}

/* ---- how a thread waits between two looks that find nothing */

enum { WAITING_SPINS = 6, WAITING_YIELDS = 64, WAITING_NAP = 100000, WAITING_DOUBLED = 7 };

/* How many looks for room there are between two turns, at the least and at the most. */
enum { LEAST_LOOKS = 64, MOST_LOOKS = 4096 };

/* It starts as zeros. */
struct waiter {
    unsigned step;
    unsigned naps;
    uint64_t heard;
};

/* Sleeps for 0.1 ms, doubled so often. */
static inline void take_nap(unsigned doubled) {
    struct timespec pause = {0, (long)WAITING_NAP << doubled};
    nanosleep(&pause, NULL);
}

/* Spins, and later yields. False says that it has done so often enough. */
static inline bool back_off(unsigned *step) {
    if (*step < WAITING_SPINS) {
        volatile unsigned spin = 0;
        while (spin < 1u << *step) spin = spin + 1;
    } else if (*step < WAITING_YIELDS) {
        sched_yield();
    } else {
        return false;
    }
    (*step)++;
    return true;
}

/* Waits for the bell: backs off, then listens, so that the caller looks once more, then sleeps, for
   so many nanoseconds at most. True says that it has slept and no ring came. */
static inline bool wait_up_to(struct bell *bell, struct waiter *waiter, int64_t most) {
    uint64_t before = waiter->heard;
    if (back_off(&waiter->step)) return false;
    if (!bell) {
        take_nap(0);
        return false;
    }
    if (before) bell_sleep_for(bell, before, most);
    waiter->heard = bell_listen(bell);
    return waiter->heard == before;
}

/* As wait_up_to, for BELL_LONGEST_SLEEP at most. */
static inline bool wait_for(struct bell *bell, struct waiter *waiter) {
    return wait_up_to(bell, waiter, INT64_MAX);
}

/* Waits for a sender that is in the middle of its turns, behind which no ring comes: backs off, and
   then sleeps for 0.1 ms, 0.2 ms and so on up to 12.8 ms, for so many nanoseconds at most. */
static inline void wait_behind_up_to(struct waiter *waiter, int64_t most) {
    struct timespec pause = {0, (long)WAITING_NAP << waiter->naps};
    if (back_off(&waiter->step)) return;
    if (pause.tv_nsec > most) pause.tv_nsec = most < 0 ? 0 : (long)most;
    nanosleep(&pause, NULL);
    if (waiter->naps < WAITING_DOUBLED) waiter->naps++;
}

/* As wait_behind_up_to, for 12.8 ms at most. */
static inline void wait_behind(struct waiter *waiter) { wait_behind_up_to(waiter, INT64_MAX); }

/* A turn got somewhere, and the call waits on for the same thing: it spins no more than it has spun,
   and counts its yields anew. */
static inline void carry_on(struct waiter *waiter) {
    if (waiter->step > WAITING_SPINS) waiter->step = WAITING_SPINS;
    waiter->heard = 0;
}

/* ---- whom a call asks whether to go on, and until when it waits */

struct patience {
    bool (*go_on)(void *given); /* or NULL */
    void *given;
    int64_t end; /* by waiting_clock; INT64_MAX where it waits for good */
};

/* Nanoseconds of the clock that is not set. */
static inline int64_t waiting_clock(void) {
    struct timespec now = {0, 0};
    clock_gettime(CLOCK_MONOTONIC, &now);
    return (int64_t)now.tv_sec * 1000000000 + now.tv_nsec;
}

/* It goes on as long as the function says yes, or for good without one. */
static inline struct patience patience_asking(bool (*go_on)(void *given), void *given) {
    struct patience patience = {go_on, given, INT64_MAX};
    return patience;
}

/* It goes on for so long. */
static inline struct patience patience_up_to(unsigned milliseconds) {
    struct patience patience = {NULL, NULL, waiting_clock() + (int64_t)milliseconds * 1000000};
    return patience;
}

/* How many nanoseconds the call may sleep now. 0 says that it is told to stop, or that its time is
   over. */
static inline int64_t patience_left(const struct patience *patience) {
    int64_t left = INT64_MAX;
    if (patience->end != INT64_MAX) left = patience->end - waiting_clock();
    if (left <= 0 || (patience->go_on && !patience->go_on(patience->given))) return 0;
    if (patience->go_on && left > INT64_C(1000000) * BELL_LONGEST_ASKED_SLEEP)
        left = INT64_C(1000000) * BELL_LONGEST_ASKED_SLEEP;
    return left;
}

/* ---- senders */

/* The next word of a generator (xorshift), for votes. Its seed is not 0. */
static inline uint32_t next_word(uint64_t *seed) {
    *seed ^= *seed << 13;
    *seed ^= *seed >> 7;
    *seed ^= *seed << 17;
    return (uint32_t)(*seed >> 32);
}

/* After such an answer there may be something for others: items, the end, or the page. */
static inline bool is_news(uint32_t code) {
    return code == KIOSKBASIL_DELIVERED || code == KIOSKBASIL_LEFT || code == KIOSKBASIL_CLOSED ||
           code == KIOSKBASIL_FULL || code == KIOSKBASIL_BEHIND;
}

/* Rings for an answer of a sender, where others may find something. At BEHIND its message may stand in
   the order: that is told once, and again only where another ring came between. So it is told of
   a tenure that was begun by hand too, and a loop that asks again and again wakes nobody. */
static inline void ring_for(struct bell *bell, const kioskbasil_sender *sender, uint32_t code) {
    uint64_t rings;
    if (!bell || !is_news(code)) return;
    if (code == KIOSKBASIL_BEHIND) {
        rings = __atomic_load_n(&bell->rings, __ATOMIC_SEQ_CST) | 1;
        if (__atomic_load_n(&bell->told, __ATOMIC_RELAXED) == rings &&
            __atomic_load_n(&bell->teller, __ATOMIC_RELAXED) == sender)
            return;
        __atomic_store_n(&bell->teller, sender, __ATOMIC_RELAXED);
        __atomic_store_n(&bell->told, rings + 2, __ATOMIC_RELAXED);
    }
    bell_ring(bell);
}

/* What send_while and send_timeout do. */
static inline uint32_t send_by(kioskbasil_sender *sender, uint64_t *seed,
                               kioskbasil_turn_answer *answer, struct bell *bell,
                               const struct patience *patience) {
    struct waiter waiter = {0, 0, 0};
    for (;;) {
        uint32_t code = kioskbasil_turns(sender, next_word(seed), answer);
        int64_t most;
        ring_for(bell, sender, code);
        switch (code) {
        case KIOSKBASIL_WAITING:
        case KIOSKBASIL_BEHIND:
            most = patience_left(patience);
            if (!most) return code;
            if (code == KIOSKBASIL_WAITING) wait_up_to(bell, &waiter, most);
            else wait_behind_up_to(&waiter, most);
            break;
        case KIOSKBASIL_GOING:
        case KIOSKBASIL_LOST:
        case KIOSKBASIL_OWN:
            carry_on(&waiter);
            break;
        default:
            return code;
        }
    }
}

/* As send_batch, but it can be told to stop: each time a turn answers WAITING or BEHIND it asks
   go_on(given), and answers so where that says no. The batch is kept, and a later call goes on with
   it. After BEHIND this sender holds the page, for which all others wait: so call again soon, or
   call finish_sender. A sleeping call asks every 10 ms, and once the bell rings: so whoever makes
   go_on say no rings it, and need not wait. */
static inline uint32_t send_while(kioskbasil_sender *sender, uint64_t *seed,
                                  kioskbasil_turn_answer *answer, struct bell *bell,
                                  bool (*go_on)(void *given), void *given) {
    struct patience patience = patience_asking(go_on, given);
    return send_by(sender, seed, answer, bell, &patience);
}

/* As send_batch, but it waits for so long at most: WAITING or BEHIND say that its time is over. It
   leaves what send_while leaves that is told to stop. */
static inline uint32_t send_timeout(kioskbasil_sender *sender, uint64_t *seed,
                                    kioskbasil_turn_answer *answer, struct bell *bell,
                                    unsigned milliseconds) {
    struct patience patience = patience_up_to(milliseconds);
    return send_by(sender, seed, answer, bell, &patience);
}

/* Turns, until there is nothing more to do, or nothing more that can be done: KIOSKBASIL_DELIVERED,
   LEFT, IDLE, FULL, CLOSED or SPENT; or a refusal. Between turns that answer WAITING or BEHIND it
   waits. */
static inline uint32_t send_batch(kioskbasil_sender *sender, uint64_t *seed,
                                  kioskbasil_turn_answer *answer, struct bell *bell) {
    return send_while(sender, seed, answer, bell, NULL, NULL);
}

/* A go_on that says no. */
static inline bool no_waiting(void *given) {
    (void)given;
    return false;
}

/* As send_batch, but it waits for nothing, as an event loop wants it: also WAITING, and then the
   bell will ring; or BEHIND, after which it is to be called again within a millisecond or so. After
   FULL of a ring the bell rings once a receiver has passed words or is given up, if all hear by
   hear_now or one of the calls over it: so hear, and call again once kioskbasil_has_room says OK.
   After FULL of another bus nothing follows. */
static inline uint32_t send_now(kioskbasil_sender *sender, uint64_t *seed,
                                kioskbasil_turn_answer *answer, struct bell *bell) {
    return send_while(sender, seed, answer, bell, no_waiting, NULL);
}

/* Waits for room, after FULL: KIOSKBASIL_OK, or FULL where it is told to stop, or its time is over.
   A look does not see that the order has ended, so it is OK also after `most` looks, and after
   BELL_LONGEST_SLEEP in which no ring came: the next turn sees it. */
static inline uint32_t wait_for_room(kioskbasil_sender *sender, struct bell *bell,
                                     struct waiter *waiter, unsigned most,
                                     const struct patience *patience) {
    const int64_t longest = INT64_C(1000000) * BELL_LONGEST_SLEEP;
    int64_t slept = 0;
    for (unsigned looks = 0;; looks++) {
        int64_t left = patience_left(patience);
        if (!left) return KIOSKBASIL_FULL;
        if (kioskbasil_has_room(sender) == KIOSKBASIL_OK) {
            carry_on(waiter);
            return KIOSKBASIL_OK;
        }
        if (left > longest) left = longest;
        slept = wait_up_to(bell, waiter, left) ? slept + left : 0;
        if (looks == most || slept >= longest) return KIOSKBASIL_OK;
    }
}

/* What send_when_room and send_when_room_timeout do. */
static inline uint32_t send_when_room_by(kioskbasil_sender *sender, uint64_t *seed,
                                         kioskbasil_turn_answer *answer, struct bell *bell,
                                         const struct patience *patience) {
    struct waiter waiter = {0, 0, 0};
    uint32_t code = kioskbasil_has_room(sender);
    if (kioskbasil_refused(code)) return code;
    for (unsigned most = LEAST_LOOKS;; most = most < MOST_LOOKS ? 2 * most : most) {
        code = send_by(sender, seed, answer, bell, patience);
        if (code != KIOSKBASIL_FULL) return code;
        if (wait_for_room(sender, bell, &waiter, most, patience) != KIOSKBASIL_OK) return code;
    }
}

/* As send_while, but of a ring it goes on after FULL: it waits for room, and sends again. It asks
   go_on(given) then too, before each look for room, and answers FULL where that says no. Now and
   then it takes a turn all the same, since the order may have ended: after 64 looks, then 128, and
   so on up to 4,096, and after 0.1 s of sleep in which no ring came. A batch that is longer than
   the log is answered KIOSKBASIL_NEVER_FITS before the first turn. Of a bus that is no ring there
   is no more room after FULL: it goes on until go_on says no, or another sender ends the order.

   It is for threads that only send: who has to hear too goes by send_now, and hears while that
   answers FULL. */
static inline uint32_t send_when_room(kioskbasil_sender *sender, uint64_t *seed,
                                      kioskbasil_turn_answer *answer, struct bell *bell,
                                      bool (*go_on)(void *given), void *given) {
    struct patience patience = patience_asking(go_on, given);
    return send_when_room_by(sender, seed, answer, bell, &patience);
}

/* As send_when_room, but it waits for so long at most: WAITING, BEHIND or FULL say that its time is
   over. */
static inline uint32_t send_when_room_timeout(kioskbasil_sender *sender, uint64_t *seed,
                                              kioskbasil_turn_answer *answer, struct bell *bell,
                                              unsigned milliseconds) {
    struct patience patience = patience_up_to(milliseconds);
    return send_when_room_by(sender, seed, answer, bell, &patience);
}

/* Closes, and sends that: KIOSKBASIL_CLOSED where the order has ended then; else why not. Where that
   is FULL of a ring, hear, and send what waits; who only sends goes by send_when_room. CLOSE_CLOSED
   says that a close or a leave was accepted before, or that this sender knows already that another
   has ended the order: send_batch goes on with what waits, and answers CLOSED then. A sender that
   does not know of the end yet is answered CLOSED here. */
static inline uint32_t end_order(kioskbasil_sender *sender, uint64_t *seed, struct bell *bell) {
    uint32_t code = kioskbasil_close(sender);
    return code == KIOSKBASIL_OK ? send_batch(sender, seed, NULL, bell) : code;
}

/* Leaves, and sends that: KIOSKBASIL_LEFT where it has left then; else why not. */
static inline uint32_t leave_order(kioskbasil_sender *sender, uint64_t *seed, struct bell *bell) {
    uint32_t code = kioskbasil_leave(sender);
    return code == KIOSKBASIL_OK ? send_batch(sender, seed, NULL, bell) : code;
}

/* As kioskbasil_finish, and rings. */
static inline uint32_t finish_sender(kioskbasil_sender *sender, kioskbasil_turn_answer *answer,
                                     struct bell *bell) {
    uint32_t code = kioskbasil_finish(sender, answer);
    ring_for(bell, sender, code);
    return code;
}

/* As kioskbasil_free_sender, and rings. It ends no order: end_order does. */
static inline uint32_t free_sender(kioskbasil_sender *sender, struct bell *bell) {
    uint32_t code = kioskbasil_free_sender(sender);
    ring_for(bell, sender, code);
    return code;
}

/* ---- receivers */

/* As kioskbasil_hear, and rings where the receiver has passed words of a ring: a sender may wait for
   their room. */
static inline uint32_t hear_now(kioskbasil_receiver *receiver, kioskbasil_item *items, size_t room,
                                size_t *many, struct bell *bell) {
    kioskbasil_receiver_shown before = {0, 0, false, 0}, after = before;
    uint32_t code;
    if (bell) kioskbasil_show_receiver(receiver, &before);
    code = kioskbasil_hear(receiver, items, room, many);
    if (bell) kioskbasil_show_receiver(receiver, &after);
    if (after.passed != before.passed) bell_ring(bell);
    return code;
}

/* As kioskbasil_free_receiver, and rings: of a ring it leaves, and others may have room. */
static inline void free_receiver(kioskbasil_receiver *receiver, struct bell *bell) {
    kioskbasil_free_receiver(receiver);
    if (bell) bell_ring(bell);
}

/* What hear_while and hear_timeout do. */
static inline uint32_t hear_by(kioskbasil_receiver *receiver, kioskbasil_item *items, size_t room,
                               size_t *many, struct bell *bell, const struct patience *patience) {
    struct waiter waiter = {0, 0, 0};
    for (;;) {
        uint32_t code = hear_now(receiver, items, room, many, bell);
        int64_t most;
        if (code != KIOSKBASIL_EMPTY || *many > 0) return code;
        most = patience_left(patience);
        if (!most) return code;
        wait_up_to(bell, &waiter, most);
    }
}

/* As hear_some, but it can be told to stop: each time nothing is there it asks go_on(given), and
   answers KIOSKBASIL_EMPTY, with *many 0, where that says no. It asks as send_while does. */
static inline uint32_t hear_while(kioskbasil_receiver *receiver, kioskbasil_item *items,
                                  size_t room, size_t *many, struct bell *bell,
                                  bool (*go_on)(void *given), void *given) {
    struct patience patience = patience_asking(go_on, given);
    return hear_by(receiver, items, room, many, bell, &patience);
}

/* As hear_some, but it waits for so long at most: then it answers KIOSKBASIL_EMPTY, with *many
   0. */
static inline uint32_t hear_timeout(kioskbasil_receiver *receiver, kioskbasil_item *items,
                                    size_t room, size_t *many, struct bell *bell,
                                    unsigned milliseconds) {
    struct patience patience = patience_up_to(milliseconds);
    return hear_by(receiver, items, room, many, bell, &patience);
}

/* Hears until there is an item or the end: KIOSKBASIL_GOING or EMPTY with *many above 0, or END,
   with *many items before it. There is room for one item at least: with none it answers GOING, with
   *many 0, for good. After GOING the frame of the last item may be held: the next call passes it. */
static inline uint32_t hear_some(kioskbasil_receiver *receiver, kioskbasil_item *items, size_t room,
                                 size_t *many, struct bell *bell) {
    return hear_while(receiver, items, room, many, bell, NULL, NULL);
}
#endif
