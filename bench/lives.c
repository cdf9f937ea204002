/* Random lives of small rings, each with threads that only send, only hear, or do both, and with
   event loops. All sleep until the bell rings, however long that is: a ring that nobody gives has
   its life hang. Senders take turns by hand now and then, and let go or go on by a call; some
   handles are given up. All receivers have to hear one order, each item once and as it was put, and
   each sender was told of just what stands in it.

   Receivers fork. Others are given up at the start or later, so that their numbers are free. The
   maker's thread goes on with both or with the fork alone, or a thread starts late with the fork.
   What the maker had heard, and then what the fork hears, has to be that order too.

   Each life is a process of its own, which has to end within SECONDS. One that fails says its seed,
   by which `lives 1 SEED` lives it again, and of a life that hangs where each thread is.

   usage: lives LIVES [SEED [SECONDS]]      bench/lives builds it. Last line: N passed, M failed. */
#define BELL_LONGEST_SLEEP 100000000 /* 28 hours */
#define BELL_LONGEST_ASKED_SLEEP BELL_LONGEST_SLEEP
#include "kioskbasil.h"
#include "waiting.h"
#include <poll.h>
#include <stdarg.h>
#include <stdatomic.h>
#include <stdio.h>
#include <stdlib.h>
#include <string.h>
#include <sys/mman.h>
#include <sys/wait.h>

enum { SENDERS = 24, RECEIVERS = 5, SEATS = KIOSKBASIL_MOST_RECEIVERS, LATE = 40 };
enum { PARTS = SENDERS + SEATS + LATE, EARS = 2, ITEMS = 4096, ROOM = 40 };

/* A receiver, and what it and its makers before it have heard. */
struct ear {
    kioskbasil_receiver receiver;
    size_t above; /* how many numbers are above its own; 0 of a fork, whose number is not told */
    size_t place; /* how many items */
    uint64_t next[SENDERS];
};

/* A thread with its handles. */
enum kind { SENDS, HEARS, WORKS, LOOPS };

struct part {
    enum kind kind;
    kioskbasil_sender *sender; /* NULL where it only hears */
    struct ear ears[EARS];
    size_t many_ears; /* 0 where it only sends, or has given them up */
    uint64_t dice, seed;
    uint64_t left;   /* how many items it is to put still */
    uint64_t forks;  /* it forks once in so many looks; never where it is 0 */
    bool is_late;    /* it starts with a fork, while the others are at work */
    bool closes;     /* its close waits, or was answered */
    bool is_done;    /* it sends nothing more */
    bool is_full;    /* its last turn found no room */
    uint32_t code;   /* the last answer to a turn */
    const char *at;  /* where it is, to be told if it hangs */
};

/* What the process of a life has. */
static struct bell bell = BELL_NEW;
static kioskbasil_sizes sizes;
static kioskbasil_sender senders[SENDERS];
static kioskbasil_receiver receivers[SEATS];
static struct part parts[PARTS];
static pthread_t threads[PARTS];
static size_t many_senders, many_receivers;
static bool gives_up;               /* handles may be given up before the end */
static atomic_size_t many_parts;    /* who starts one stands before it, and is joined first */
static atomic_int late;             /* 1 more than the threads that may start still */
static atomic_int sending, hearing; /* who has not let go: the last sender closes, one ear stays */
static atomic_ulong told[SENDERS];  /* the number behind those that the sender was told of */
static pthread_mutex_t ordering = PTHREAD_MUTEX_INITIALIZER;
static uint64_t order[ITEMS]; /* number and sender of each item, as one receiver heard them */
static size_t heard;
static size_t taken; /* how many numbers were taken where a fork found none, at the least */
static uint64_t life_seed;

/* What all lives share. */
static struct figures {
    atomic_ulong items, full, behind, by_hand, given_up, forks, no_seat;
} *figures;

static uint64_t mixed(uint64_t x) {
    x = (x ^ x >> 30) * UINT64_C(0xbf58476d1ce4e5b9);
    x = (x ^ x >> 27) * UINT64_C(0x94d049bb133111eb);
    return x ^ x >> 31;
}

/* A number below `below`. */
static uint64_t draw(uint64_t *dice, uint64_t below) {
    *dice ^= *dice << 13, *dice ^= *dice >> 7, *dice ^= *dice << 17;
    return (*dice * UINT64_C(0x9e3779b97f4a7c15) >> 11) % below;
}

static bool one_in(struct part *p, uint64_t many) { return draw(&p->dice, many) == 0; }

/* Says what is wrong, and ends the process of this life. */
static void wrong(const char *what, ...) {
    va_list values;
    va_start(values, what);
    fprintf(stderr, "life %llu: ", (unsigned long long)life_seed);
    vfprintf(stderr, what, values);
    fputc('\n', stderr);
    va_end(values);
    _exit(1);
}

/* ---- items: their bytes follow from number and sender */

static uint64_t item_of(uint64_t number, uint64_t sender) { return mixed(number << 8 | sender); }

static uint8_t byte_of(uint64_t item, size_t at) { return (uint8_t)mixed(item + at); }

/* Puts up to as many items as a batch may have, where none waits. */
static void put_some(struct part *p) {
    kioskbasil_sender_shown shown = {0};
    uint64_t limit = sizes.batch ? sizes.batch : KIOSKBASIL_MOST_MESSAGES;
    uint64_t most = 1 + draw(&p->dice, limit);
    kioskbasil_show_sender(p->sender, &shown);
    if (shown.pending) return;
    for (uint64_t i = 0; i < most && p->left; i++) {
        uint8_t bytes[KIOSKBASIL_MOST_BYTES];
        uint64_t item = item_of(shown.next_number + i, shown.number), number;
        size_t length = item % (KIOSKBASIL_MOST_BYTES + 1);
        for (size_t at = 0; at < length; at++) bytes[at] = byte_of(item, at);
        uint32_t code = kioskbasil_put(p->sender, bytes, length, &number);
        if (code != KIOSKBASIL_OK) wrong("put: %s", kioskbasil_text(code));
        if (number != shown.next_number + i) wrong("put: not the number that was shown");
        p->left--;
    }
}

/* Compares an item with what was put, and with what other receivers heard at this place. */
static void take(struct ear *ear, const kioskbasil_item *it) {
    uint64_t item = item_of(it->number, it->sender), named = it->number << 8 | it->sender;
    if (it->sender >= many_senders || it->number != ear->next[it->sender]++)
        wrong("number %llu of sender %u does not follow", (unsigned long long)it->number,
              it->sender);
    if (it->length != item % (KIOSKBASIL_MOST_BYTES + 1)) wrong("another length");
    for (size_t at = 0; at < KIOSKBASIL_MOST_BYTES; at++)
        if (it->bytes[at] != (at < it->length ? byte_of(item, at) : 0)) wrong("other bytes");
    pthread_mutex_lock(&ordering);
    if (ear->place == ITEMS) wrong("more items than were put");
    if (ear->place == heard) order[heard++] = named;
    if (order[ear->place++] != named) wrong("another order");
    pthread_mutex_unlock(&ordering);
}

static void take_all(struct ear *ear, const kioskbasil_item *items, size_t many) {
    for (size_t i = 0; i < many; i++) take(ear, &items[i]);
}

/* ---- senders */

/* Notes the answer to a turn. */
static void note(struct part *p, uint32_t code, const kioskbasil_turn_answer *answer) {
    p->code = code;
    p->is_full = code == KIOSKBASIL_FULL;
    switch (code) {
    case KIOSKBASIL_DELIVERED:
        if (atomic_exchange(&told[p->sender - senders], answer->last + 1) != answer->first)
            wrong("told of other numbers than follow");
        break;
    case KIOSKBASIL_FULL: atomic_fetch_add(&figures->full, 1); break;
    case KIOSKBASIL_BEHIND: atomic_fetch_add(&figures->behind, 1); break;
    case KIOSKBASIL_CLOSED: p->is_done = true; break;
    default:
        if (code > KIOSKBASIL_OWN) wrong("a turn: %s", kioskbasil_text(code));
    }
}

/* Takes some turns by hand, and rings as the header says. Then it lets go, or leaves what it has
   begun to the call that comes next. */
static void take_turns(struct part *p) {
    kioskbasil_turn_answer answer;
    uint32_t code;
    for (uint64_t turns = draw(&p->dice, 12); turns && !p->is_done; turns--) {
        code = one_in(p, 2) ? kioskbasil_turn(p->sender, next_word(&p->seed), &answer)
                            : kioskbasil_turns(p->sender, next_word(&p->seed), &answer);
        if (is_news(code)) bell_ring(&bell);
        note(p, code, &answer);
        atomic_fetch_add(&figures->by_hand, 1);
        if (code == KIOSKBASIL_OWN && one_in(p, 2)) return;
        if (one_in(p, 32)) take_nap((unsigned)draw(&p->dice, 4)); /* another is behind it then */
    }
    if (p->is_done || one_in(p, 2)) return;
    while ((code = finish_sender(p->sender, &answer, &bell)) != KIOSKBASIL_OK) {
        note(p, code, &answer);
        if (code != KIOSKBASIL_BEHIND) break;
        take_nap(0);
    }
}

/* Gives its sender up. */
static void give_sender_up(struct part *p) {
    kioskbasil_turn_answer answer;
    uint32_t code;
    while ((code = finish_sender(p->sender, &answer, &bell)) == KIOSKBASIL_BEHIND) take_nap(0);
    if (code != KIOSKBASIL_OK) note(p, code, &answer);
    free_sender(p->sender, &bell);
    atomic_fetch_add(&figures->given_up, 1);
    p->is_done = true;
}

/* Once all that it is to put is sent, it is done; the last one closes. */
static void close_or_end(struct part *p) {
    kioskbasil_sender_shown shown = {0};
    kioskbasil_show_sender(p->sender, &shown);
    if (shown.pending || p->left || p->closes) return;
    if (atomic_fetch_sub(&sending, 1) > 1) {
        p->is_done = true;
        return;
    }
    uint32_t code = kioskbasil_close(p->sender);
    if (code == KIOSKBASIL_CLOSE_BUSY) atomic_fetch_add(&sending, 1);
    else if (code != KIOSKBASIL_OK) wrong("close: %s", kioskbasil_text(code));
    else p->closes = true;
}

/* Puts, or closes, unless it has done so. */
static void fill(struct part *p) {
    if (p->left) put_some(p);
    else close_or_end(p);
}

/* Whether another sender is there that may close, so that this one may go. */
static bool lets_go(atomic_int *who) {
    int many = atomic_load(who);
    return many > 1 && atomic_compare_exchange_strong(who, &many, many - 1);
}

static bool goes_on(void *given) { return !one_in(given, 64); }

/* A thread that only sends. */
static void send_all(struct part *p) {
    kioskbasil_turn_answer answer;
    while (!p->is_done) {
        p->at = "puts";
        fill(p);
        if (p->is_done) return;
        if (gives_up && !p->closes && one_in(p, 150) && lets_go(&sending)) {
            p->at = "gives its sender up";
            give_sender_up(p);
            return;
        }
        p->at = "takes turns by hand";
        if (one_in(p, 4)) take_turns(p);
        if (p->is_done) return;
        p->at = "sends when there is room";
        bool asks = one_in(p, 3);
        note(p, send_when_room(p->sender, &p->seed, &answer, &bell, asks ? goes_on : NULL, p),
             &answer);
    }
}

/* ---- receivers */

static void *live(void *given);

/* Has a thread start with an ear, which is moved. */
static void start_late(struct part *maker, struct ear *ear) {
    size_t at = atomic_fetch_add(&many_parts, 1);
    struct part *p = &parts[at];
    p->kind = (enum kind)(HEARS + draw(&maker->dice, 3));
    p->dice = draw(&maker->dice, UINT64_MAX) | 1, p->forks = maker->forks;
    p->is_late = p->is_done = true;
    p->at = "begins late";
    p->ears[p->many_ears++] = *ear;
    if (pthread_create(&threads[at], NULL, live, p)) wrong("no thread");
}

/* A fork found no number that is free: where none is given up, those above stay taken. So it tries
   less often. */
static void note_no_seat(struct part *p, const struct ear *maker) {
    p->forks += 16;
    atomic_fetch_add(&figures->no_seat, 1);
    pthread_mutex_lock(&ordering);
    if (taken <= maker->above) taken = maker->above + 1;
    pthread_mutex_unlock(&ordering);
}

/* Forks one of its ears. It keeps the fork beside that or in its place, or has a thread start with
   it. */
static void fork_ear(struct part *p) {
    struct ear *maker = &p->ears[draw(&p->dice, p->many_ears)];
    struct ear joined = {.receiver = KIOSKBASIL_NONE, .place = maker->place};
    bool keeps = p->many_ears < EARS && one_in(p, 2);
    if (!keeps && !lets_go(&late)) return;
    memcpy(joined.next, maker->next, sizeof joined.next);
    uint32_t code = kioskbasil_fork(&maker->receiver, &joined.receiver);
    if (code == KIOSKBASIL_NO_SEAT) {
        if (!keeps) atomic_fetch_add(&late, 1);
        note_no_seat(p, maker);
        return;
    }
    if (code != KIOSKBASIL_OK) wrong("fork: %s", kioskbasil_text(code));
    if ((size_t)atomic_fetch_add(&hearing, 1) >= many_receivers) wrong("more ears than numbers");
    atomic_fetch_add(&figures->forks, 1);
    if (!keeps) {
        start_late(p, &joined);
    } else if (gives_up && one_in(p, 2) && lets_go(&hearing)) {
        free_receiver(&maker->receiver, &bell);
        atomic_fetch_add(&figures->given_up, 1);
        *maker = joined;
    } else {
        p->ears[p->many_ears++] = joined;
    }
}

/* Gives one of its ears up; the other one is the first then. */
static void give_ear_up(struct part *p) {
    struct ear *ear = &p->ears[draw(&p->dice, p->many_ears)];
    if (one_in(p, 3)) take_nap(5); /* until senders sleep that wait for its room */
    free_receiver(&ear->receiver, &bell);
    atomic_fetch_add(&figures->given_up, 1);
    *ear = p->ears[--p->many_ears];
    p->ears[p->many_ears].receiver = (kioskbasil_receiver)KIOSKBASIL_NONE;
}

/* Now and then forks an ear or gives one up, or changes which one is the first. */
static void change_ears(struct part *p) {
    if (p->forks && one_in(p, p->forks)) fork_ear(p);
    if (p->many_ears == EARS && one_in(p, 8)) {
        struct ear first = p->ears[0];
        p->ears[0] = p->ears[1], p->ears[1] = first;
    }
    if (!gives_up || !one_in(p, p->many_ears == EARS ? 60 : 200)) return;
    if ((p->kind == HEARS || p->many_ears == EARS) && lets_go(&hearing)) give_ear_up(p);
}

/* Hears what is there with its second ear. The first one may wait then. */
static bool hear_second(void *given) {
    struct part *p = given;
    kioskbasil_item items[ROOM];
    uint32_t code = KIOSKBASIL_GOING;
    size_t many;
    while (p->many_ears == EARS && code == KIOSKBASIL_GOING) {
        code = hear_now(&p->ears[1].receiver, items, 1 + draw(&p->dice, ROOM), &many, &bell);
        take_all(&p->ears[1], items, many);
    }
    return true;
}

/* Hears to the end. */
static void hear_rest(struct part *p) {
    kioskbasil_item items[ROOM];
    size_t many;
    for (size_t i = 0; i < p->many_ears; i++) {
        p->at = i ? "hears the rest with its second ear" : "hears the rest";
        while (hear_some(&p->ears[i].receiver, items, ROOM, &many, &bell) != KIOSKBASIL_END)
            take_all(&p->ears[i], items, many);
        take_all(&p->ears[i], items, many);
    }
}

/* A thread that only hears. */
static void hear_all(struct part *p) {
    kioskbasil_item items[ROOM];
    uint32_t code;
    size_t many;
    do {
        p->at = "hears";
        code = hear_while(&p->ears[0].receiver, items, 1 + draw(&p->dice, ROOM), &many, &bell,
                          p->many_ears == EARS ? hear_second : NULL, p);
        take_all(&p->ears[0], items, many);
        change_ears(p);
        if (one_in(p, 300)) take_nap((unsigned)draw(&p->dice, 6));
    } while (code != KIOSKBASIL_END && p->many_ears);
}

/* ---- who sends and hears */

/* Whether it has nothing to do but to hear. */
static bool only_hears(void *given) {
    struct part *p = given;
    hear_second(p);
    return p->is_full ? kioskbasil_has_room(p->sender) == KIOSKBASIL_FULL : p->is_done;
}

/* As examples/c/counters.c goes. */
static void work(struct part *p) {
    kioskbasil_turn_answer answer;
    kioskbasil_item items[ROOM];
    size_t many;
    for (;;) {
        p->at = "puts";
        if (!p->is_done && !p->is_full) fill(p);
        if (!p->is_done && one_in(p, 6)) take_turns(p);
        if (!p->is_done) {
            p->at = "sends";
            note(p, send_while(p->sender, &p->seed, &answer, &bell, NULL, NULL), &answer);
        }
        do {
            p->at = "hears while it has nothing else to do";
            change_ears(p);
            uint32_t code =
                hear_while(&p->ears[0].receiver, items, 16, &many, &bell, only_hears, p);
            take_all(&p->ears[0], items, many);
            if (code == KIOSKBASIL_END) return;
        } while (many > 0);
    }
}

/* What a loop sends before it waits. Whether it is to look once more before that. */
static bool send_in_loop(struct part *p) {
    kioskbasil_turn_answer answer;
    if (p->is_done) return false;
    if (p->code == KIOSKBASIL_IDLE || p->code == KIOSKBASIL_DELIVERED) fill(p);
    if (p->is_done) return false;
    if (p->is_full && kioskbasil_has_room(p->sender) == KIOSKBASIL_FULL) return false;
    if (one_in(p, 8)) take_turns(p);
    if (p->is_done) return false;
    note(p, send_now(p->sender, &p->seed, &answer, &bell), &answer);
    return p->code == KIOSKBASIL_DELIVERED;
}

/* As examples/c/eventloop.c goes: it polls without a bound, but behind another sender. */
static void loop(struct part *p) {
    kioskbasil_item items[ROOM];
    struct pollfd polled = {bell_descriptor(&bell), POLLIN, 0};
    uint32_t code;
    size_t many;
    if (polled.fd < 0) wrong("no descriptor");
    p->code = KIOSKBASIL_IDLE;
    for (;;) {
        p->at = "looks";
        bell_hush(&bell, polled.fd);
        do {
            change_ears(p);
            code = hear_now(&p->ears[0].receiver, items, 16, &many, &bell);
            take_all(&p->ears[0], items, many);
        } while (code == KIOSKBASIL_GOING);
        hear_second(p);
        if (code == KIOSKBASIL_END) break;
        bool looks = send_in_loop(p);
        p->at = "polls";
        if (!looks) poll(&polled, 1, !p->is_done && p->code == KIOSKBASIL_BEHIND ? 1 : -1);
    }
    close(polled.fd);
}

static void *live(void *given) {
    static void (*const ways[])(struct part *) = {send_all, hear_all, work, loop};
    struct part *p = given;
    if (p->is_late && one_in(p, 2)) take_nap((unsigned)draw(&p->dice, 5));
    ways[p->kind](p);
    hear_rest(p);
    p->at = "has ended";
    return NULL;
}

/* ---- a life */

/* Gives all receivers up but so many, at random. */
static void free_some(uint64_t *dice, size_t stay) {
    for (size_t i = 0; i < many_receivers; i++)
        if (draw(dice, many_receivers - i) < stay) stay--;
        else free_receiver(&receivers[i], &bell);
}

/* Moves a receiver that an opening gave into an ear. */
static void deal_ear(struct part *p, size_t number) {
    struct ear *ear = &p->ears[p->many_ears++];
    ear->receiver = receivers[number], ear->above = many_receivers - 1 - number;
    receivers[number] = (kioskbasil_receiver)KIOSKBASIL_NONE;
}

/* Opens a ring of random sizes, and deals its handles out. */
static void open_life(uint64_t *dice) {
    size_t s = 0, r = 0, ears = 1 + draw(dice, draw(dice, 40) ? RECEIVERS : SEATS);
    many_senders = 1 + draw(dice, draw(dice, 10) ? 6 : SENDERS);
    many_receivers = ears + draw(dice, draw(dice, 10) ? 6 : SEATS);
    if (many_receivers > SEATS) many_receivers = SEATS;
    sizes.rounds = 1 + draw(dice, 2), sizes.rows = 2 + draw(dice, 1 + draw(dice, 4));
    sizes.ring = true;
    sizes.log_words = draw(dice, 4) ? 129 + draw(dice, 172) : 16 + draw(dice, 40);
    if (!draw(dice, 6)) sizes.log_words = 513 + draw(dice, 172);
    sizes.batch = (sizes.log_words - 1) / 8;
    if (!draw(dice, 3)) sizes.batch = 1 + draw(dice, sizes.batch);
    if (sizes.batch > KIOSKBASIL_MOST_MESSAGES) sizes.batch = 0;
    uint64_t each = 1 + draw(dice, 3000 / (1 + many_receivers / 8) / many_senders);
    gives_up = draw(dice, 2);
    uint64_t forks = draw(dice, 4) ? 4 + draw(dice, 160) / (1 + many_receivers / 4) : 0;
    uint32_t code = kioskbasil_open(&sizes, senders, many_senders, receivers, many_receivers);
    if (code != KIOSKBASIL_OK) wrong("open: %s", kioskbasil_text(code));
    free_some(dice, ears);
    atomic_store(&sending, (int)many_senders);
    atomic_store(&hearing, (int)ears);
    atomic_store(&late, 1 + LATE);
    while (s < many_senders || ears) {
        struct part *p = &parts[many_parts++];
        p->kind = s == many_senders ? HEARS : ears == 0 ? SENDS : (enum kind)draw(dice, 4);
        p->dice = draw(dice, UINT64_MAX) | 1, p->seed = draw(dice, UINT64_MAX) | 1;
        p->left = each, p->forks = forks, p->at = "begins";
        if (p->kind != HEARS) p->sender = &senders[s++];
        if (p->kind == SENDS) continue;
        while (!receivers[r].live) r++;
        deal_ear(p, r), ears--;
    }
}

/* Joins the threads, also those that start meanwhile. Where one does not end in time it says where
   all are. */
static void join_all(time_t seconds) {
    struct timespec end;
    clock_gettime(CLOCK_REALTIME, &end);
    end.tv_sec += seconds;
    for (size_t i = 0; i < atomic_load(&many_parts); i++) {
        if (!pthread_timedjoin_np(threads[i], NULL, &end)) continue;
        for (size_t k = 0; k < atomic_load(&many_parts); k++) {
            struct part *p = &parts[k];
            fprintf(stderr, "  thread %zu, which %s: answered %s, %llu items left", k, p->at,
                    kioskbasil_text(p->code), (unsigned long long)p->left);
            for (size_t e = 0; e < p->many_ears; e++)
                fprintf(stderr, ", %zu heard", p->ears[e].place);
            fputc('\n', stderr);
        }
        wrong("HANG: %zu senders, %d of %zu receivers, %llu words, %llu rows, batches of %llu",
              many_senders, atomic_load(&hearing), many_receivers,
              (unsigned long long)sizes.log_words, (unsigned long long)sizes.rows,
              (unsigned long long)sizes.batch);
    }
}

/* All receivers that hear to the end have heard all. They go back to where an opening put them; how
   many they are. */
static size_t all_heard(void) {
    size_t many = 0;
    for (size_t i = 0; i < many_parts; i++)
        for (size_t e = 0; e < parts[i].many_ears; e++) {
            struct ear *ear = &parts[i].ears[e];
            if (ear->place != heard)
                wrong("ear %zu of thread %zu heard %zu items of %zu", e, i, ear->place, heard);
            receivers[many++] = ear->receiver;
            ear->receiver = (kioskbasil_receiver)KIOSKBASIL_NONE;
        }
    if (!gives_up && many < taken) wrong("a fork found no number, and one was free");
    return many;
}

/* Ends the bus. It leaves what was heard, and what senders were told of. */
static void end_life(void) {
    uint64_t counts[SENDERS] = {0};
    size_t many = all_heard();
    kioskbasil_left left;
    for (size_t i = 0; i < heard; i++) counts[order[i] & 255]++;
    uint32_t code = kioskbasil_end(senders, many_senders, receivers, many, NULL, 0, &left);
    if (code != KIOSKBASIL_OK) wrong("end: %s", kioskbasil_text(code));
    for (size_t i = 0; i < many_senders; i++)
        if (left.counts[i] != counts[i] || atomic_load(&told[i]) != counts[i])
            wrong("sender %zu was told of %lu items; %llu stand, and %llu were heard", i,
                  atomic_load(&told[i]), (unsigned long long)left.counts[i],
                  (unsigned long long)counts[i]);
    bell_free(&bell);
    atomic_fetch_add(&figures->items, heard);
}

/* Lives once, in a process of its own. Whether all was well. */
static bool lives_well(uint64_t seed, time_t seconds) {
    int status;
    pid_t child = fork();
    if (child < 0) return perror("lives: no process"), false;
    if (child > 0) return waitpid(child, &status, 0) == child && status == 0;
    uint64_t dice = mixed(seed) | 1;
    life_seed = seed;
    open_life(&dice);
    for (size_t i = 0, many = many_parts; i < many; i++)
        if (pthread_create(&threads[i], NULL, live, &parts[i])) wrong("no thread");
    join_all(seconds);
    end_life();
    exit(0);
}

int main(int argc, char **argv) {
    uint64_t lives = argc > 1 ? strtoull(argv[1], NULL, 10) : 0, passed = 0;
    uint64_t seed = argc > 2 ? strtoull(argv[2], NULL, 10) : 1;
    time_t seconds = argc > 3 ? atol(argv[3]) : 120;
    if (!lives || argc > 4)
        return fprintf(stderr, "usage: lives LIVES [SEED [SECONDS]]\n"), 2;
    figures = mmap(NULL, sizeof *figures, PROT_READ | PROT_WRITE, MAP_SHARED | MAP_ANONYMOUS,
                   -1, 0);
    if (figures == MAP_FAILED) return perror("lives: no memory"), 1;
    for (uint64_t i = 0; i < lives; i++) passed += lives_well(seed + i, seconds);
    printf("%lu items, Full %lu, Behind %lu, %lu turns by hand, %lu handles given up, ",
           figures->items, figures->full, figures->behind, figures->by_hand, figures->given_up);
    printf("%lu forks, NO_SEAT %lu\n", figures->forks, figures->no_seat);
    printf("%llu passed, %llu failed\n", (unsigned long long)passed,
           (unsigned long long)(lives - passed));
    return passed != lives;
}
