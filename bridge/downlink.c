/* The downlink: reads the stream in its order, and sends what counts of it into the bus that the
   workers hear. */
#include "inside.h"
#include <stdio.h>
#include <string.h>

enum { QUIET = 4 };

struct downlink {
    struct bridge *bridge;
    struct engine_link *link;
    struct bridge_place *here;
    uint64_t seed;             /* of its votes */
    size_t many;               /* messages that wait with its sender */
    uint64_t since_checkpoint; /* entries */
    bool again;                /* the entry of this place is read once more */
    int64_t shorter;           /* since when the stream is shorter than what was heard; or 0 */
    bool has_begun;            /* a begin of this process was read */
    uint64_t pause;
};

/* Sends what waits, and waits until all workers have passed so much that there is room. */
static bool flush(struct downlink *down, struct bridge_fault *fault) {
    struct bridge *bridge = down->bridge;
    if (!down->many) return true;
    uint32_t code = ring_send_all(&bridge->gives, &down->seed, &bridge->stop);
    if (code != KIOSKBASIL_DELIVERED) return ring_ends(code, "the workers", fault), false;
    down->many = 0;
    return true;
}

/* Puts a message into the batch: whose it is, its number, and its bytes. */
static bool give(struct downlink *down, uint8_t node, const struct entry_item *item,
                 struct bridge_fault *fault) {
    uint8_t bytes[ENTRY_ITEM_HEAD + BRIDGE_MOST_BYTES] = {node, item->sender};
    number_write(bytes + 2, item->number);
    if (item->length) memcpy(bytes + ENTRY_ITEM_HEAD, item->bytes, item->length);
    kioskbasil_put(&down->bridge->gives, bytes, (size_t)ENTRY_ITEM_HEAD + item->length, NULL);
    down->many++;
    return down->many < KIOSKBASIL_MOST_MESSAGES || flush(down, fault);
}

/* Keeps the place for who wants to start here again, and gives the workers a checkpoint. */
static bool checkpoint(struct downlink *down, struct bridge_fault *fault) {
    struct bridge *bridge = down->bridge;
    struct entry_item item = {.number = down->here->place};
    if (++down->since_checkpoint < bridge->options.checkpoint) return true;
    down->since_checkpoint = 0;
    pthread_mutex_lock(&bridge->lock);
    bridge->checkpoints[bridge->taken++ % CHECKPOINTS] = *down->here;
    pthread_mutex_unlock(&bridge->lock);
    return give(down, CHECKPOINT_NODE, &item, fault) && flush(down, fault);
}

/* Tells the uplink how far the stream was heard. */
static void tell(struct downlink *down) {
    struct bridge *bridge = down->bridge;
    pthread_mutex_lock(&bridge->lock);
    bridge->place = down->here->place;
    bridge->check = down->here->check;
    bridge->own = down->here->nodes[bridge->options.node];
    pthread_cond_broadcast(&bridge->told);
    pthread_mutex_unlock(&bridge->lock);
}

/* Whether a begin of this node is another process's, behind one of this process. */
static bool is_taken(struct downlink *down, const struct entry *entry, struct bridge_fault *fault) {
    struct bridge *bridge = down->bridge;
    if (entry->node != bridge->options.node) return false;
    if (entry->epoch == bridge->process) down->has_begun = true;
    if (!down->has_begun || entry->epoch == bridge->process) return false;
    fault_set(fault, BRIDGE_TAKEN_OVER, "another process has begun as node %u, at entry %llu",
              entry->node, (unsigned long long)down->here->place);
    return true;
}

/* Takes an entry that was read, and gives its items on if it counts. */
static bool take_read(struct downlink *down, const struct entry *entry,
                      struct bridge_fault *fault) {
    struct entry_item item;
    enum entry_fate fate = place_take(down->here, entry);
    if (fate == FATE_BEGINS) return !is_taken(down, entry, fault);
    if (fate == FATE_STRANGE) {
        fault_set(fault, BRIDGE_STREAM_CHANGED,
                  "entry %llu of node %u follows on nothing that this stream has: the engine has "
                  "shown that node another",
                  (unsigned long long)down->here->place, entry->node);
        return false;
    }
    if (fate != FATE_COUNTS) {
        atomic_fetch_add(&down->bridge->passed, 1);
        return true;
    }
    for (size_t i = 0, at = 0; i < entry->count; i++) {
        at = entry_item(entry, at, &item);
        if (!give(down, entry->node, &item, fault)) return false;
    }
    atomic_fetch_add_explicit(&down->bridge->items, entry->count, memory_order_relaxed);
    return true;
}

/* Whether the stream is too short for what it has shown. An engine of several that is new at it may
   not have all of it for a moment, so it is given `wait`. */
static bool is_shorter(struct downlink *down, uint64_t last, uint64_t place,
                       struct bridge_fault *fault) {
    if (last >= place) return down->shorter = 0, false;
    if (!down->shorter) down->shorter = bridge_now();
    bool final = bridge_now() - down->shorter > (int64_t)down->bridge->options.wait;
    fault_set(fault, final ? BRIDGE_STREAM_CHANGED : BRIDGE_ENGINE_REFUSES,
              "the stream has entries up to %llu, and those up to %llu were heard",
              (unsigned long long)last, (unsigned long long)place);
    return true;
}

/* Says that the stream has no entry of this place, where it has later ones. It is asked once more,
   since the entry may have come between the two questions. */
static void is_gone(struct downlink *down, uint64_t place, struct bridge_fault *fault) {
    struct engine_stream stream;
    struct engine_entry entry;
    bool there;
    if (!engine_stream(down->link, false, &stream, fault)) return;
    if (is_shorter(down, stream.last, place, fault)) return;
    if (!engine_get(down->link, place, &entry, &there, fault)) return;
    engine_release(&entry);
    fault_set(fault, there ? BRIDGE_ENGINE_REFUSES : BRIDGE_STREAM_CHANGED,
              there ? "entry %llu of the stream was not there, and is"
                    : "entry %llu of the stream is gone",
              (unsigned long long)place);
}

/* Asks for the entry by itself, and takes what comes, where that is whole or is what was read. So
   what is damaged on its way is not taken for what the stream has. */
static bool read_again(struct downlink *down, struct engine_entry *read,
                       struct bridge_fault *fault) {
    struct engine_entry again;
    struct entry entry;
    bool there;
    unsigned long long place = read->place;
    if (!engine_get(down->link, place, &again, &there, fault)) return false;
    if (!there) return is_gone(down, place, fault), false;
    bool same = again.length == read->length && !memcmp(again.bytes, read->bytes, again.length);
    again.behind = read->behind;
    engine_release(read);
    *read = again;
    if (same) return true;
    say("node %llu: entry %llu came as other bytes than the stream has: it was read again",
        (unsigned long long)down->bridge->options.node, place);
    if (entry_read(&entry, again.bytes, again.length) == ENTRY_GOOD) return true;
    fault_set(fault, BRIDGE_ENGINE_REFUSES, "entry %llu was read twice, and as two things", place);
    return false;
}

/* Whether the entry of this place is the one that was there before. */
static bool is_same(struct downlink *down, uint64_t check, struct bridge_fault *fault) {
    down->again = false;
    if (check == down->here->check) return true;
    fault_set(fault, BRIDGE_STREAM_CHANGED,
              "entry %llu of the stream is not the one that was heard",
              (unsigned long long)down->here->place);
    return false;
}

/* Says what the stream has in place of an entry. */
static void pass_over(struct downlink *down, enum entry_kind kind) {
    unsigned long long node = down->bridge->options.node, place = down->here->place;
    atomic_fetch_add(&down->bridge->passed, 1);
    if (kind == ENTRY_DAMAGED) {
        say("node %llu: %s: entry %llu fails its checksum, also read again: passed over", node,
            fault_name(BRIDGE_DAMAGED_ENTRY), place);
    } else {
        say("node %llu: entry %llu is no entry of a bridge: passed over", node, place);
    }
}

/* Where another entry came than the one that is due: whether the stream has that one still. */
static void skipped(struct downlink *down, uint64_t due, uint64_t place,
                    struct bridge_fault *fault) {
    struct engine_entry entry;
    bool there;
    if (!engine_get(down->link, due, &entry, &there, fault)) return;
    if (!there) return is_gone(down, due, fault);
    engine_release(&entry);
    fault_set(fault, BRIDGE_ENGINE_REFUSES, "entry %llu came in place of entry %llu",
              (unsigned long long)place, (unsigned long long)due);
}

static bool take(struct downlink *down, struct engine_entry *read, struct bridge_fault *fault) {
    struct entry entry;
    bool again = down->again;
    uint64_t due = down->here->place + !again;
    if (read->place != due) return skipped(down, due, read->place, fault), false;
    enum entry_kind kind = entry_read(&entry, read->bytes, read->length);
    if (kind != ENTRY_GOOD || (again && entry.check != down->here->check)) {
        if (!read_again(down, read, fault)) return false;
        kind = entry_read(&entry, read->bytes, read->length);
    }
    if (again) return is_same(down, check_of(kind, &entry, read), fault);
    if (kind == ENTRY_NEWER) {
        fault_set(fault, BRIDGE_NEWER_VERSION, "entry %llu is of a later version of the bridge",
                  (unsigned long long)read->place);
        return false;
    }
    down->pause = 0;
    down->here->place = read->place;
    down->here->check = check_of(kind, &entry, read);
    if (kind != ENTRY_GOOD) pass_over(down, kind);
    else if (!take_read(down, &entry, fault)) return false;
    tell(down);
    return checkpoint(down, fault);
}

/* Takes the entry that is due, which the engine's client has kept to itself. */
static bool take_unseen(struct downlink *down, struct bridge_fault *fault) {
    struct engine_entry read;
    bool there;
    uint64_t due = down->here->place + !down->again;
    if (!engine_get(down->link, due, &read, &there, fault)) return false;
    if (!there) return is_gone(down, due, fault), false;
    bool good = take(down, &read, fault);
    engine_release(&read);
    return good;
}

/* Begins to read behind the place that was heard. */
static bool begin(struct downlink *down, struct bridge_fault *fault) {
    struct engine_stream stream;
    struct bridge *bridge = down->bridge;
    unsigned long long place = down->here->place;
    bool looked = engine_connect(&down->link, &bridge->options, "downlink", fault) &&
                  bridge_look(bridge, down->link, &stream, fault);
    if (!looked) return down->shorter = 0, false; /* `wait` is given anew */
    if (is_shorter(down, stream.last, place, fault)) return false;
    if (stream.first > (place ? place : 1)) {
        fault_set(fault, BRIDGE_STREAM_CHANGED,
                  "the stream begins at entry %llu, and those up to %llu were heard",
                  (unsigned long long)stream.first, place);
        return false;
    }
    atomic_store(&bridge->behind, stream.last - place);
    down->again = place > 0;
    return engine_read_from(down->link, place ? place : 1, fault);
}

/* Where there is no entry: gives on what was read, and looks again after a moment, for longer and
   longer. So a stream that is busy is read in bulk. Once it is quiet the next call of the engine
   waits. */
static bool rest(struct downlink *down, unsigned *step, struct bridge_fault *fault) {
    if (!flush(down, fault)) return false;
    if (*step < QUIET) bridge_idle(step);
    return true;
}

/* Reads until the link is broken or the bridge stops. */
static void serve(struct downlink *down, struct bridge_fault *fault) {
    struct engine_entry read;
    unsigned step = QUIET;
    bool good = begin(down, fault);
    while (good && !bridge_stops(down->bridge)) {
        int64_t wait = down->many || step < QUIET ? 0 : 100;
        switch (engine_next(down->link, wait, &read, fault)) {
        case ENGINE_ENTRY:
            step = 0;
            atomic_store_explicit(&down->bridge->behind, read.behind, memory_order_relaxed);
            good = take(down, &read, fault);
            engine_release(&read);
            break;
        case ENGINE_UNSEEN: good = take_unseen(down, fault); break;
        case ENGINE_NOTHING: good = rest(down, &step, fault); break;
        case ENGINE_BROKEN: good = false; break;
        }
    }
    engine_close(down->link);
    down->link = NULL;
}

void *downlink_run(void *given) {
    struct bridge *bridge = given;
    struct downlink down = {.bridge = bridge, .here = bridge->here, .seed = 1};
    struct bridge_fault fault = {BRIDGE_OK, ""};
    char kept[80];
    while (!bridge_stops(bridge)) {
        serve(&down, &fault);
        if (bridge_stops(bridge) || !flush(&down, &fault)) break;
        snprintf(kept, sizeof kept, "%llu entries heard", (unsigned long long)down.here->place);
        bridge_pause(bridge, "downlink", &fault, kept, &down.pause);
    }
    if (fault_is_final(fault.code)) bridge_fail(bridge, &fault);
    return NULL;
}
