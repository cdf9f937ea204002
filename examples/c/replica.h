/* Replicas: a state that workers replicate, with a call for each operation. It stands on long.h and
   waiting.h, and builds as these do. Copy the three side by side, or install a release: there they
   are kioskbasil_replica.h, kioskbasil_long.h and kioskbasil_waiting.h.

   Each worker has a replica: a sender, a receiver, a state of the caller's, and a callback that
   applies an operation to it. Operations of all workers go to all replicas in one order, and each
   applies all of them. So a worker reads memory of its own. No call but replicas_open takes
   memory.

   A worker that is kept and not asked holds the others up once the ring is full: it calls
   replica_hear now and then, or replica_hear_timeout where it has nothing else to do. One that
   fails calls replica_free. Between two calls a replica keeps nobody waiting.

   At the end replica_finish leaves, hears up to where all have left, and gives the replica up.
   replica_leave leaves it open: where that is stopped a further call goes on.

   One thread at a time has a replica. The callback looks at nothing but its arguments, so that
   equal states stay equal, and it always returns. */
#ifndef KIOSKBASIL_REPLICA_H
#define KIOSKBASIL_REPLICA_H

#include "long.h"

/* What a call answers beside KIOSKBASIL_OK, KIOSKBASIL_CLOSED (the order has ended, or this worker
   has left or has begun to), KIOSKBASIL_SPENT, KIOSKBASIL_PUT_TOO_LONG (more than 880 bytes) and
   KIOSKBASIL_EMPTY_HANDLE. */
enum {
    REPLICA_STOPPED = 96, /* told to stop, or its time is over; what was put waits still */
    REPLICA_MISSING = 97  /* the same of leave and finish, before the worker `missing` has left */
};

/* Applies the operation of these bytes, at most 880, of the worker of this number. `answer` is
   NULL, or what the call of replica_execute was given. */
typedef void replica_apply(void *state, uint32_t from, const uint8_t *operation, size_t length,
                           void *answer);

/* What the replicas of a bus have together. Its place stays the same, and its fields are of the
   functions below alone, but for the bell. */
struct kioskbasil_replicas {
    struct bell bell; /* whoever makes a go_on say no rings it */
    size_t workers;
    uint8_t before[128]; /* `published` has cache lines of its own */
    uint64_t published;  /* a length that the log has had */
    uint8_t behind[128];
    uint64_t left[KIOSKBASIL_MOST_SENDERS]; /* 1 more than a length with all of one that has left */
};

/* A replica. `state` is the caller's to set and to read; its other fields are the functions'. */
struct kioskbasil_replica {
    kioskbasil_sender sender;
    kioskbasil_receiver receiver;
    replica_apply *apply;
    void *state;
    struct kioskbasil_replicas *shared;
    struct kioskbasil_long heard; /* the operation that was applied last, and what is at hand */
    uint64_t read, passed; /* words that it had read, and passed, when it last asked the bus */
    uint64_t seed;
    uint32_t number;
    uint32_t waits;   /* how many messages wait */
    uint32_t missing; /* after REPLICA_MISSING: the first worker that has not left; it may be this
                         one, or may wait itself for another that does not hear */
    bool is_leaving;  /* its leave mark was taken */
    bool leaves;      /* that mark waits */
    bool is_full;     /* its last turn found no room */
};

/* ---- how a call waits */

/* Whom a call asks, and until when it waits. */
struct replica_patience {
    bool (*go_on)(void *given); /* or NULL */
    void *given;
    int64_t end; /* by replica_clock; INT64_MAX where it waits for good */
    struct waiter waiter;
};

/* Nanoseconds of the clock that is not set. */
static inline int64_t replica_clock(void) {
    struct timespec now;
    clock_gettime(CLOCK_MONOTONIC, &now);
    return (int64_t)now.tv_sec * 1000000000 + now.tv_nsec;
}

static inline struct replica_patience replica_asking(bool (*go_on)(void *given), void *given) {
    struct replica_patience patience;
    memset(&patience, 0, sizeof patience);
    patience.go_on = go_on;
    patience.given = given;
    patience.end = INT64_MAX;
    return patience;
}

static inline struct replica_patience replica_up_to(unsigned milliseconds) {
    struct replica_patience patience = replica_asking(NULL, NULL);
    patience.end = replica_clock() + (int64_t)milliseconds * 1000000;
    return patience;
}

/* Behind a round that did not come to what is waited for: false where it is told to stop, or its
   time is over. Else it rests, where the round did nothing. */
static inline bool replica_goes_on(struct kioskbasil_replica *r, struct replica_patience *patience,
                                   bool moved) {
    int64_t most = patience->go_on ? INT64_C(1000000) * BELL_LONGEST_ASKED_SLEEP : INT64_MAX;
    if (patience->end != INT64_MAX) {
        most = patience->end - replica_clock();
        if (most <= 0) return false;
    }
    if (patience->go_on && !patience->go_on(patience->given)) return false;
    if (moved) carry_on(&patience->waiter);
    else wait_up_to(&r->shared->bell, &patience->waiter, most);
    return true;
}

/* ---- what replicas tell one another beside the bus */

/* The log has so many words. Whoever has sent an operation, or has taken one out of the bus, says
   so before its call returns. */
static inline void replica_publish(struct kioskbasil_replicas *shared, uint64_t words) {
    uint64_t seen = __atomic_load_n(&shared->published, __ATOMIC_SEQ_CST);
    while (seen < words && !__atomic_compare_exchange_n(&shared->published, &seen, words, false,
                                                        __ATOMIC_SEQ_CST, __ATOMIC_SEQ_CST)) {
    }
}

/* Words of the log up to its last frame. */
static inline uint64_t replica_sent_up_to(struct kioskbasil_replica *r) {
    kioskbasil_sender_shown shown;
    memset(&shown, 0, sizeof shown);
    kioskbasil_show_sender(&r->sender, &shown);
    return shown.words;
}

/* This worker has left, and all of it stands in the log now. The first such word counts. */
static inline void replica_note_left(struct kioskbasil_replica *r) {
    uint64_t words = replica_sent_up_to(r), none = 0;
    replica_publish(r->shared, words);
    __atomic_compare_exchange_n(&r->shared->left[r->number], &none, words + 1, false,
                                __ATOMIC_SEQ_CST, __ATOMIC_SEQ_CST);
}

/* All workers have left, and the log has all of them in *words; else r->missing is the first that
   has not. */
static inline bool replica_have_all_left(struct kioskbasil_replica *r, uint64_t *words) {
    *words = 0;
    for (size_t i = 0; i < r->shared->workers; i++) {
        uint64_t left = __atomic_load_n(&r->shared->left[i], __ATOMIC_SEQ_CST);
        r->missing = (uint32_t)i;
        if (!left) return false;
        if (left - 1 > *words) *words = left - 1;
    }
    r->missing = r->number;
    return true;
}

/* ---- sending */

/* Nothing waits to be sent. */
static inline bool replica_has_sent(const struct kioskbasil_replica *r) {
    return !r->waits && !r->leaves;
}

/* Puts an operation into the batch: OK, or IDLE where that is to be sent first, since it has not so
   many messages left.

   No worker fails or leaves between two pieces: a put takes no turn, and the batch is one frame of
   the order. All pieces stand in it, or none does. */
static inline uint32_t replica_put(struct kioskbasil_replica *r, const void *operation,
                                   size_t length, uint64_t *number) {
    uint32_t code, pieces;
    if (!r->sender.live) return KIOSKBASIL_EMPTY_HANDLE;
    if (!operation && length) return KIOSKBASIL_NULL;
    if (length > KIOSKBASIL_MOST_LONG_BYTES) return KIOSKBASIL_PUT_TOO_LONG;
    pieces = (uint32_t)long_pieces(length);
    if (r->waits + pieces > KIOSKBASIL_MOST_MESSAGES) return KIOSKBASIL_IDLE;
    code = long_put_pieces(&r->sender, operation, length, number);
    if (code == KIOSKBASIL_OK) r->waits += pieces;
    return code == KIOSKBASIL_PUT_CLOSED ? (uint32_t)KIOSKBASIL_CLOSED : code;
}

/* Takes turns towards sending what waits, as many as wait for nobody; but that it takes the rest of
   a tenure that it has begun. OK, CLOSED or SPENT. */
static inline uint32_t replica_send(struct kioskbasil_replica *r, bool *moved) {
    struct waiter waiter = {0, 0, 0};
    uint32_t code;
    if (replica_has_sent(r)) return KIOSKBASIL_OK;
    if (r->is_full && kioskbasil_has_room(&r->sender) == KIOSKBASIL_FULL) return KIOSKBASIL_OK;
    r->is_full = false;
    code = send_now(&r->sender, &r->seed, NULL, &r->shared->bell);
    while (code == KIOSKBASIL_BEHIND) {
        wait_behind(&waiter);
        code = finish_sender(&r->sender, NULL, &r->shared->bell);
    }
    switch (code) {
    case KIOSKBASIL_DELIVERED:
        r->waits = 0;
        replica_publish(r->shared, replica_sent_up_to(r));
        *moved = true;
        return KIOSKBASIL_OK;
    case KIOSKBASIL_LEFT:
        r->leaves = false;
        replica_note_left(r);
        bell_ring(&r->shared->bell);
        *moved = true;
        return KIOSKBASIL_OK;
    case KIOSKBASIL_FULL:
        r->is_full = true;
        return KIOSKBASIL_OK;
    case KIOSKBASIL_CLOSED:
    case KIOSKBASIL_SPENT:
        return code;
    default:
        return kioskbasil_refused(code) ? code : (uint32_t)KIOSKBASIL_OK;
    }
}

/* ---- hearing */

/* It has applied all of so many words of the log. */
static inline bool replica_has_applied(const struct kioskbasil_replica *r, uint64_t words) {
    return r->heard.given == r->heard.many && r->read >= words;
}

/* Takes the next operation that is there. */
static inline bool replica_next(struct kioskbasil_replica *r) {
    kioskbasil_receiver_shown shown;
    if (long_is_due(&r->heard)) {
        long_fill(&r->receiver, &r->heard, NULL);
        if (kioskbasil_show_receiver(&r->receiver, &shown) != KIOSKBASIL_OK) return false;
        r->read = shown.place;
        replica_publish(r->shared, r->read);
        if (shown.passed != r->passed) bell_ring(&r->shared->bell);
        r->passed = shown.passed;
    }
    return long_take(&r->heard) == KIOSKBASIL_ITEM;
}

/* The order has ended, and all of it was applied. */
static inline bool replica_has_ended(const struct kioskbasil_replica *r) {
    return r->heard.has_ended && r->heard.given == r->heard.many;
}

/* Applies the operation that was taken last. */
static inline void replica_apply_it(struct kioskbasil_replica *r, void *answer) {
    const struct kioskbasil_long *it = &r->heard;
    r->apply(r->state, it->sender, it->bytes, it->length, answer);
}

/* Applies what has come; *many (which may be NULL) says how many operations that were. It waits for
   nobody. OK, CLOSED or EMPTY_HANDLE. */
static inline uint32_t replica_hear(struct kioskbasil_replica *r, size_t *many) {
    size_t heard = 0;
    if (many) *many = 0;
    if (!r->receiver.live) return KIOSKBASIL_EMPTY_HANDLE;
    for (; replica_next(r); heard++) replica_apply_it(r, NULL);
    if (many) *many = heard;
    return replica_has_ended(r) ? KIOSKBASIL_CLOSED : KIOSKBASIL_OK;
}

/* Applies what is there up to its own operation of this number: *found where that was there. */
static inline uint32_t replica_hear_own(struct kioskbasil_replica *r, uint64_t number, void *answer,
                                        bool *found, bool *moved) {
    while (replica_next(r)) {
        *moved = true;
        *found = r->heard.sender == r->number && r->heard.number == number;
        replica_apply_it(r, *found ? answer : NULL);
        if (*found) return KIOSKBASIL_OK;
    }
    return replica_has_ended(r) ? KIOSKBASIL_CLOSED : KIOSKBASIL_OK;
}

/* Has `state` show all that any worker was answered or has seen before this call: each operation
   whose execute had returned, or that a flush had sent, or that any replica had applied. Maybe it
   has more. It waits for nobody. Where there is nothing new it costs one load. */
static inline uint32_t replica_latest(struct kioskbasil_replica *r) {
    uint64_t words;
    if (!r->receiver.live) return KIOSKBASIL_EMPTY_HANDLE;
    words = __atomic_load_n(&r->shared->published, __ATOMIC_SEQ_CST);
    while (!replica_has_applied(r, words)) {
        if (replica_next(r)) replica_apply_it(r, NULL);
        else if (replica_has_ended(r)) break;
    }
    return KIOSKBASIL_OK;
}

/* ---- calls that wait: each has a form that asks go_on(given) where nothing more can be done for
   now, and stops where that says no, and one that stops after so many milliseconds. Whoever makes
   go_on say no rings the bell.

   A _while asks only where it would wait: so look at the flag in your loop too. */

/* Takes turns towards sending what waits, and applies what is there. */
static inline uint32_t replica_round(struct kioskbasil_replica *r, bool *moved) {
    size_t heard = 0;
    uint32_t code = replica_send(r, moved);
    if (code == KIOSKBASIL_OK) code = replica_hear(r, &heard);
    if (heard) *moved = true;
    return code;
}

static inline uint32_t replica_hear_by(struct kioskbasil_replica *r, size_t *many,
                                       struct replica_patience patience) {
    size_t heard = 0;
    for (;;) {
        uint32_t code = replica_hear(r, &heard);
        if (many) *many = heard;
        if (code != KIOSKBASIL_OK || heard || !replica_goes_on(r, &patience, false)) return code;
    }
}

/* As replica_hear, but it waits until there is an operation at least. */
static inline uint32_t replica_hear_while(struct kioskbasil_replica *r, size_t *many,
                                          bool (*go_on)(void *given), void *given) {
    return replica_hear_by(r, many, replica_asking(go_on, given));
}

static inline uint32_t replica_hear_timeout(struct kioskbasil_replica *r, size_t *many,
                                            unsigned milliseconds) {
    return replica_hear_by(r, many, replica_up_to(milliseconds));
}

static inline uint32_t replica_send_all(struct kioskbasil_replica *r,
                                        struct replica_patience *patience) {
    while (!replica_has_sent(r)) {
        bool moved = false;
        uint32_t code = replica_round(r, &moved);
        if (code != KIOSKBASIL_OK) return code;
        if (!replica_has_sent(r) && !replica_goes_on(r, patience, moved)) return REPLICA_STOPPED;
    }
    return KIOSKBASIL_OK;
}

static inline uint32_t replica_submit_by(struct kioskbasil_replica *r, const void *operation,
                                         size_t length, uint64_t *number,
                                         struct replica_patience *patience) {
    for (;;) {
        uint32_t code = replica_put(r, operation, length, number);
        if (code != KIOSKBASIL_IDLE) return code;
        code = replica_send_all(r, patience);
        if (code != KIOSKBASIL_OK) return code;
    }
}

/* Puts an operation of at most 880 bytes into the batch, and gives its number in *number (which may
   be NULL). It is sent with what comes later: by flush, execute, leave, finish, or where the batch
   has no room for the next one. What it answers nobody is told. After REPLICA_STOPPED it is not
   put, so the call may be repeated.

   A batch has room for 64 operations of up to 55 bytes; a longer one counts for each 55 bytes
   begun. Numbers rise by as much: an operation has that of its last piece. */
static inline uint32_t replica_submit_while(struct kioskbasil_replica *r, const void *operation,
                                            size_t length, uint64_t *number,
                                            bool (*go_on)(void *given), void *given) {
    struct replica_patience patience = replica_asking(go_on, given);
    return replica_submit_by(r, operation, length, number, &patience);
}

static inline uint32_t replica_submit_timeout(struct kioskbasil_replica *r, const void *operation,
                                              size_t length, uint64_t *number,
                                              unsigned milliseconds) {
    struct replica_patience patience = replica_up_to(milliseconds);
    return replica_submit_by(r, operation, length, number, &patience);
}

static inline uint32_t replica_submit(struct kioskbasil_replica *r, const void *operation,
                                      size_t length, uint64_t *number) {
    return replica_submit_while(r, operation, length, number, NULL, NULL);
}

/* Sends what waits, and applies what comes until then. */
static inline uint32_t replica_flush_while(struct kioskbasil_replica *r,
                                           bool (*go_on)(void *given), void *given) {
    struct replica_patience patience = replica_asking(go_on, given);
    return replica_send_all(r, &patience);
}

static inline uint32_t replica_flush_timeout(struct kioskbasil_replica *r, unsigned milliseconds) {
    struct replica_patience patience = replica_up_to(milliseconds);
    return replica_send_all(r, &patience);
}

static inline uint32_t replica_flush(struct kioskbasil_replica *r) {
    return replica_flush_while(r, NULL, NULL);
}

static inline uint32_t replica_execute_by(struct kioskbasil_replica *r, const void *operation,
                                          size_t length, void *answer,
                                          struct replica_patience patience) {
    uint64_t number = 0;
    uint32_t code = replica_submit_by(r, operation, length, &number, &patience);
    while (code == KIOSKBASIL_OK) {
        bool found = false, moved = false;
        code = replica_send(r, &moved);
        if (code == KIOSKBASIL_OK) code = replica_hear_own(r, number, answer, &found, &moved);
        if (found || code != KIOSKBASIL_OK) break;
        if (!replica_goes_on(r, &patience, moved)) code = REPLICA_STOPPED;
    }
    return code;
}

/* Executes an operation of at most 880 bytes: it is OK once this replica has applied it, by a
   callback that was given `answer`, at its place in the order. It is the last one applied then.
   After REPLICA_STOPPED do not repeat the call: the operation may be put, and may stand in the
   order already. It is sent with whatever is sent next, and its callback is given NULL. */
static inline uint32_t replica_execute_while(struct kioskbasil_replica *r, const void *operation,
                                             size_t length, void *answer,
                                             bool (*go_on)(void *given), void *given) {
    return replica_execute_by(r, operation, length, answer, replica_asking(go_on, given));
}

static inline uint32_t replica_execute_timeout(struct kioskbasil_replica *r, const void *operation,
                                               size_t length, void *answer,
                                               unsigned milliseconds) {
    return replica_execute_by(r, operation, length, answer, replica_up_to(milliseconds));
}

static inline uint32_t replica_execute(struct kioskbasil_replica *r, const void *operation,
                                       size_t length, void *answer) {
    return replica_execute_while(r, operation, length, answer, NULL, NULL);
}

/* ---- the begin and the end */

/* Opens a bus with a replica for each worker, in the order of their numbers, and the callback of
   all. Its log is a ring with batches of 64 messages, whatever `sizes` says of these. Set the
   `state` of each then, to equal ones.
   KIOSKBASIL_OK, or what kioskbasil_open answers.

   Usual sizes are {.rounds = 2, .rows = 8, .log_words = 32768}. There are 1 to 8 rounds, 2 to 8
   rows and 513 to 65,536 words. `{0}` is refused, as KIOSKBASIL_BAD_ROUNDS: a 0 stands for no usual
   size. */
static inline uint32_t replicas_open(struct kioskbasil_replicas *shared,
                                     const kioskbasil_sizes *sizes,
                                     struct kioskbasil_replica *replicas, size_t workers,
                                     replica_apply *apply) {
    kioskbasil_sender senders[KIOSKBASIL_MOST_SENDERS] = {KIOSKBASIL_NONE};
    kioskbasil_receiver receivers[KIOSKBASIL_MOST_RECEIVERS] = {KIOSKBASIL_NONE};
    kioskbasil_sizes ring = *sizes;
    uint32_t code;
    memset(shared, 0, sizeof *shared);
    ring.ring = true;
    ring.batch = KIOSKBASIL_MOST_MESSAGES;
    if (workers > KIOSKBASIL_MOST_RECEIVERS) return KIOSKBASIL_BAD_RECEIVERS;
    code = kioskbasil_open(&ring, senders, workers, receivers, workers);
    if (code != KIOSKBASIL_OK) return code;
    pthread_mutex_init(&shared->bell.lock, NULL);
    pthread_cond_init(&shared->bell.rang, NULL);
    shared->bell.event = -1;
    shared->workers = workers;
    for (size_t i = 0; i < workers; i++) {
        struct kioskbasil_replica *r = &replicas[i];
        memset(r, 0, sizeof *r);
        r->sender = senders[i];
        r->receiver = receivers[i];
        r->apply = apply;
        r->shared = shared;
        r->seed = UINT64_C(0x9e3779b97f4a7c15) * (i + 1);
        r->number = (uint32_t)i;
    }
    return KIOSKBASIL_OK;
}

/* Gives a replica up, also one that is given up already, or is zeros: it leaves, and nobody waits
   for it. What it had not sent is lost. Its state stays as it is. Behind the last one bell_free
   gives up what the bell took. */
static inline void replica_free(struct kioskbasil_replica *r) {
    if (!r->sender.live) return;
    replica_note_left(r);
    free_sender(&r->sender, &r->shared->bell);
    free_receiver(&r->receiver, &r->shared->bell);
}

/* Sends what waits, and then lets a leave mark wait, unless it was taken before. */
static inline uint32_t replica_begin_leave(struct kioskbasil_replica *r,
                                           struct replica_patience *patience) {
    uint32_t code;
    if (!r->sender.live) return KIOSKBASIL_EMPTY_HANDLE;
    if (r->is_leaving) return KIOSKBASIL_OK;
    code = replica_send_all(r, patience);
    if (code != KIOSKBASIL_OK) return code;
    if (kioskbasil_leave(&r->sender) != KIOSKBASIL_OK) return KIOSKBASIL_CLOSED;
    r->is_leaving = r->leaves = true;
    return KIOSKBASIL_OK;
}

static inline uint32_t replica_leave_by(struct kioskbasil_replica *r,
                                        struct replica_patience patience) {
    uint64_t words;
    uint32_t code = replica_begin_leave(r, &patience);
    while (code == KIOSKBASIL_OK) {
        bool moved = false;
        code = replica_round(r, &moved);
        if (code != KIOSKBASIL_OK) break;
        if (replica_have_all_left(r, &words) && replica_has_applied(r, words)) break;
        if (!replica_goes_on(r, &patience, moved)) code = REPLICA_MISSING;
    }
    return code;
}

/* Sends what waits, leaves, and applies all operations of all workers, up to where all have left.
   So the states of all that are answered OK are equal. A worker whose replica is given up has left.
   One whose replica is kept and does not call this has not, and this waits for it.

   Told to stop it is REPLICA_MISSING, and `missing` says whom it waited for. Or it is
   REPLICA_STOPPED, if an operation of its own waits still: then it has not begun to leave. A
   further call goes on.

   The replica is kept: replica_free gives it up. After OK and REPLICA_MISSING submit and execute
   are KIOSKBASIL_CLOSED. But it has to hear as before, and `state`, hear and latest work on. */
static inline uint32_t replica_leave_while(struct kioskbasil_replica *r,
                                           bool (*go_on)(void *given), void *given) {
    return replica_leave_by(r, replica_asking(go_on, given));
}

static inline uint32_t replica_leave_timeout(struct kioskbasil_replica *r, unsigned milliseconds) {
    return replica_leave_by(r, replica_up_to(milliseconds));
}

static inline uint32_t replica_leave(struct kioskbasil_replica *r) {
    return replica_leave_while(r, NULL, NULL);
}

/* As replica_leave_while, but that it gives the replica up then, whatever the answer. So what waits
   after REPLICA_STOPPED is lost. */
static inline uint32_t replica_finish_while(struct kioskbasil_replica *r,
                                            bool (*go_on)(void *given), void *given) {
    uint32_t code = replica_leave_while(r, go_on, given);
    replica_free(r);
    return code;
}

static inline uint32_t replica_finish_timeout(struct kioskbasil_replica *r, unsigned milliseconds) {
    uint32_t code = replica_leave_timeout(r, milliseconds);
    replica_free(r);
    return code;
}

static inline uint32_t replica_finish(struct kioskbasil_replica *r) {
    return replica_finish_while(r, NULL, NULL);
}

/* A code in words. */
static inline const char *replica_text(uint32_t code) {
    if (code == REPLICA_STOPPED) return "told to stop, or its time is over";
    if (code == REPLICA_MISSING) return "a worker has not left";
    if (code == KIOSKBASIL_CLOSED) return "the order has ended, or this worker has left it";
    if (code == KIOSKBASIL_PUT_TOO_LONG) return "an operation of more than 880 bytes";
    return kioskbasil_text(code);
}
#endif
