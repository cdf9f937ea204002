/* What the uplink, the downlink and the calls of a bridge share. */
#ifndef BRIDGE_INSIDE_H
#define BRIDGE_INSIDE_H

#include "bridge.h"
#include "engine.h"
#include "rings.h"
#include <pthread.h>

enum { CHECKPOINTS = 16, CHECKPOINT_NODE = 255, HEARD_ROOM = 32 };

/* What a worker has fetched from its bus and not yet been given, and how far it is. Its own. */
struct fetched {
    uint64_t seed; /* of its votes */
    bool waits;    /* a batch of it waits for room */
    kioskbasil_item items[HEARD_ROOM];
    size_t many;
    size_t at;
    bool told;      /* its number when the stream had told that */
    uint64_t sent;  /* the number behind the last that it sent */
    uint64_t heard; /* and behind the last of its own that it heard since then */
    atomic_uint_fast64_t given;
};

struct bridge {
    struct bridge_options options;
    uint64_t process; /* the name of this process in its begins */
    bool make;        /* the stream may be made */
    atomic_bool stop;
    atomic_bool is_open; /* the bus of what workers send is: the stream has told their numbers */
    kioskbasil_sender senders[BRIDGE_MOST_WORKERS]; /* of it, each its worker's */
    kioskbasil_receiver sent;                       /* the uplink's */
    kioskbasil_sender gives;                        /* the downlink's */
    kioskbasil_receiver receivers[BRIDGE_MOST_WORKERS]; /* of what it gives, each its worker's */
    struct fetched fetched[BRIDGE_MOST_WORKERS];
    pthread_mutex_t lock;
    pthread_cond_t told;    /* that an entry was heard */
    pthread_cond_t ends;    /* that the bridge stops */
    struct bridge_node own; /* these under `lock`: of this node, as far as the stream was heard, */
    uint64_t place;         /* which is up to here, */
    uint64_t check;         /* and what is kept of the entry of that place */
    bool failed;
    struct bridge_fault fault;
    struct bridge_place *checkpoints; /* the last CHECKPOINTS */
    uint64_t taken;
    atomic_uint_fast64_t entries_sent, items_sent, in_flight, behind, items, passed;
    struct bridge_place *here; /* the downlink's */
    pthread_t threads[3];
    int started;
};

/* Milliseconds of a clock that does not go back. */
int64_t bridge_now(void);

static inline bool bridge_stops(struct bridge *bridge) {
    return atomic_load_explicit(&bridge->stop, memory_order_relaxed);
}

/* Ends the bridge by this fault. */
void bridge_fail(struct bridge *bridge, const struct bridge_fault *fault);

/* Says why a link is broken and for what it waits, and pauses, each time for longer. Where the
   fault is final it ends the bridge. */
void bridge_pause(struct bridge *bridge, const char *link, const struct bridge_fault *fault,
                  const char *kept, uint64_t *pause);

/* Looks at the stream, and whether it is one of this version: by its first entry. */
bool bridge_look(struct bridge *bridge, struct engine_link *link, struct engine_stream *stream,
                 struct bridge_fault *fault);

/* Waits for one of the two for at most so many milliseconds. Under `lock`. */
void bridge_await(struct bridge *bridge, pthread_cond_t *what, int64_t milliseconds);

/* What is kept of an entry, to know it again. */
static inline uint64_t check_of(enum entry_kind kind, const struct entry *entry,
                                const struct engine_entry *read) {
    return kind == ENTRY_GOOD ? entry->check : entry_check(read->bytes, read->length);
}

void *uplink_run(void *bridge);
void *downlink_run(void *bridge);

#endif
