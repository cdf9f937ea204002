/* The uplink: hears what the workers of this node send, and appends it to the stream.

   It keeps each entry until its own downlink has heard that it counts. Whatever goes wrong, it
   begins a new epoch, in which it sends all entries anew that it still has: nothing of an older
   epoch counts any more, so none can count twice. */
#include "inside.h"
#include <stdio.h>
#include <stdlib.h>
#include <string.h>

enum { LOOK_EACH = 16 /* entries appended between two looks at what was stored and heard */ };

struct kept {
    uint8_t *bytes;
    size_t length;
    uint16_t count;
    uint8_t sender; /* of its last item, and the number of that */
    uint64_t number;
};

struct uplink {
    struct bridge *bridge;
    struct engine_link *link;
    struct kept *kept; /* a ring of `window`; those of the epoch are numbered from `base` on */
    uint8_t *bytes;
    uint64_t first;
    uint64_t many;
    uint64_t base;
    uint64_t epoch;
    uint64_t batch;   /* items of an entry, as many as the engine takes in any case */
    uint64_t stored;  /* entries of this link that the engine has stored */
    uint64_t sent;    /* entries of this epoch */
    int64_t progress; /* when an entry was last stored or heard, or the first one was kept */
    int64_t began;    /* when this epoch began */
    uint64_t pause;
};

static struct kept *kept_at(struct uplink *up, uint64_t i) {
    return &up->kept[(up->first + i) % up->bridge->options.window];
}

static void drop_first(struct uplink *up) {
    up->first++;
    up->many--;
    up->base++;
    up->pause = 0;
    up->progress = bridge_now();
}

/* The bytes and the number of what is kept, for who waits. */
static uint64_t items_kept(struct uplink *up) {
    uint64_t items = 0;
    for (uint64_t i = 0; i < up->many; i++) items += kept_at(up, i)->count;
    return items;
}

/* What the stream says of this node, and how far it was heard. */
static struct bridge_node own(struct uplink *up, uint64_t *place) {
    pthread_mutex_lock(&up->bridge->lock);
    struct bridge_node node = up->bridge->own;
    *place = up->bridge->place;
    pthread_mutex_unlock(&up->bridge->lock);
    return node;
}

/* Waits until the downlink has heard the entry of this place. */
static bool await(struct uplink *up, uint64_t place, struct bridge_fault *fault) {
    struct bridge *bridge = up->bridge;
    int64_t said = bridge_now();
    uint64_t many, last;
    bool good = true;
    pthread_mutex_lock(&bridge->lock);
    while (good && bridge->place < place && !bridge_stops(bridge)) {
        bridge_await(bridge, &bridge->told, 100);
        unsigned long long at = bridge->place;
        pthread_mutex_unlock(&bridge->lock);
        good = engine_stored(up->link, &many, &last, fault);
        if (bridge_now() - said > (int64_t)bridge->options.wait) {
            said = bridge_now();
            say("node %llu: uplink: waits for the downlink, which has heard entry %llu of %llu",
                (unsigned long long)bridge->options.node, at, (unsigned long long)place);
        }
        pthread_mutex_lock(&bridge->lock);
    }
    pthread_mutex_unlock(&bridge->lock);
    return good && !bridge_stops(bridge);
}

/* Opens the bus of what workers send, with the numbers that the stream has told. */
static bool open_bus(struct uplink *up, const struct bridge_node *node,
                     struct bridge_fault *fault) {
    struct bridge *bridge = up->bridge;
    if (ring_open(bridge->options.log_words, node->next, bridge->senders, bridge->options.workers,
                  &bridge->sent, 1, "the uplink", fault) != BRIDGE_OK)
        return false;
    atomic_store(&bridge->is_open, true);
    return true;
}

static bool append(struct uplink *up, uint64_t i, struct bridge_fault *fault) {
    struct bridge *bridge = up->bridge;
    struct kept *kept = kept_at(up, i);
    entry_head(kept->bytes, (uint8_t)bridge->options.node, up->epoch, up->base + i, kept->count);
    entry_seal(kept->bytes, kept->length);
    if (!i || up->stored == up->sent) up->progress = bridge_now();
    up->sent++;
    atomic_fetch_add_explicit(&bridge->entries_sent, 1, memory_order_relaxed);
    atomic_fetch_add_explicit(&bridge->items_sent, kept->count, memory_order_relaxed);
    return engine_append(up->link, kept->bytes, kept->length, fault);
}

/* Sets how many items an entry has. False: one that is kept is longer than the engine takes. So no
   epoch begins in which nothing could follow but what is refused. */
static bool fits(struct uplink *up, uint64_t room, struct bridge_fault *fault) {
    uint64_t most = (room - ENTRY_HEAD) / (ENTRY_ITEM_HEAD + BRIDGE_MOST_BYTES);
    uint64_t batch = up->bridge->options.batch;
    if (most < batch && up->batch != most) {
        say("node %llu: uplink: the engine takes entries of %llu bytes: they have %llu items, and "
            "not %llu",
            (unsigned long long)up->bridge->options.node, (unsigned long long)room,
            (unsigned long long)most, (unsigned long long)batch);
    }
    up->batch = most < batch ? most : batch;
    for (uint64_t i = 0; i < up->many; i++) {
        if (kept_at(up, i)->length <= room) continue;
        fault_set(fault, BRIDGE_ENGINE_REFUSES, "an entry has %zu bytes, and it takes %llu",
                  kept_at(up, i)->length, (unsigned long long)room);
        return false;
    }
    return true;
}

/* Looks at the stream, and whether it has the last entry that was heard before. If not it is
   another one, in which nothing is begun, or it will be whole: which of both, the downlink finds.
   That hears on meanwhile, so its place is read first. */
static bool look_at_known(struct uplink *up, struct engine_stream *stream,
                          struct bridge_fault *fault) {
    struct engine_entry read;
    struct entry entry;
    bool there;
    pthread_mutex_lock(&up->bridge->lock);
    unsigned long long place = up->bridge->place;
    uint64_t check = up->bridge->check;
    pthread_mutex_unlock(&up->bridge->lock);
    if (!bridge_look(up->bridge, up->link, stream, fault)) return false;
    if (stream->last < place) {
        fault_set(fault, BRIDGE_ENGINE_REFUSES,
                  "the stream has entries up to %llu, and those up to %llu were heard",
                  (unsigned long long)stream->last, place);
        return false;
    }
    if (!place) return true;
    if (!engine_get(up->link, place, &read, &there, fault)) return false;
    enum entry_kind kind = there ? entry_read(&entry, read.bytes, read.length) : ENTRY_NONE;
    bool same = there && check_of(kind, &entry, &read) == check;
    engine_release(&read);
    if (same) return true;
    fault_set(fault, BRIDGE_ENGINE_REFUSES, "entry %llu is not the one that was heard", place);
    return false;
}

/* Begins an epoch: an entry of its own, once all entries of this node before it were heard. */
static bool begin_epoch(struct uplink *up, struct bridge_fault *fault) {
    struct bridge *bridge = up->bridge;
    struct engine_stream stream;
    uint8_t begins[ENTRY_HEAD];
    uint64_t last;
    if (!engine_connect(&up->link, &bridge->options, "uplink", fault)) return false;
    if (!look_at_known(up, &stream, fault)) return false;
    if (!fits(up, stream.room, fault)) return false;
    if (!engine_last_own(up->link, &stream, &last, fault) || !await(up, last, fault)) return false;
    entry_begin(begins, (uint8_t)bridge->options.node, bridge->process,
                (uint16_t)bridge->options.workers);
    if (!engine_append_after(up->link, last, begins, sizeof begins, &up->epoch, fault))
        return false;
    return await(up, up->epoch, fault);
}

/* Goes on behind what counts: drops what was heard, and sends the rest anew. */
static bool go_on(struct uplink *up, struct bridge_fault *fault) {
    uint64_t place;
    struct bridge_node node = own(up, &place);
    if (node.epoch < up->epoch) {
        fault_set(fault, BRIDGE_ENGINE_REFUSES, "the begin at entry %llu came to it damaged",
                  (unsigned long long)up->epoch);
        return false;
    }
    if (node.epoch != up->epoch) {
        bool own = node.process == up->bridge->process;
        fault_set(fault, own ? BRIDGE_ENGINE_REFUSES : BRIDGE_TAKEN_OVER, "%s, at entry %llu",
                  own ? "a begin of it came again" : "another process has begun as this node",
                  (unsigned long long)node.epoch);
        return false;
    }
    if (!atomic_load(&up->bridge->is_open) && !open_bus(up, &node, fault)) return false;
    while (up->many && kept_at(up, 0)->number < node.next[kept_at(up, 0)->sender]) drop_first(up);
    up->base = 0;
    up->sent = up->stored = 0;
    up->progress = up->began = bridge_now();
    bool good = true;
    for (uint64_t i = 0; i < up->many && good; i++) good = append(up, i, fault);
    return good;
}

/* Hears what the workers have sent, and makes an entry of it. False: there is nothing. */
static bool gather(struct uplink *up) {
    struct bridge *bridge = up->bridge;
    kioskbasil_item items[BRIDGE_MOST_BATCH];
    struct kept *kept = kept_at(up, up->many);
    size_t many = 0, at = ENTRY_HEAD;
    kioskbasil_hear(&bridge->sent, items, up->batch, &many);
    for (size_t i = 0; i < many; i++) {
        struct entry_item item = {items[i].number, items[i].sender, items[i].length,
                                  items[i].bytes};
        at += entry_put(kept->bytes + at, &item);
        kept->sender = item.sender;
        kept->number = item.number;
    }
    kept->length = at;
    kept->count = (uint16_t)many;
    if (many) up->many++;
    return many > 0;
}

/* Looks at what was stored and heard. False: the link is broken, or an entry is missing. */
static bool look(struct uplink *up, struct bridge_fault *fault) {
    const struct bridge_options *options = &up->bridge->options;
    uint64_t stored, last, place;
    bool good = engine_stored(up->link, &stored, &last, fault);
    struct bridge_node node = own(up, &place);
    if (stored != up->stored) up->progress = bridge_now();
    up->stored = stored;
    while (node.epoch == up->epoch && up->many && up->base < node.entries) drop_first(up);
    atomic_store_explicit(&up->bridge->in_flight, up->many, memory_order_relaxed);
    if (bridge_now() - up->began > (int64_t)options->pause) up->pause = 0;
    uint64_t counted = node.epoch == up->epoch ? node.entries : 0;
    if (good && place >= last && counted < up->stored) {
        fault_set(fault, BRIDGE_ENGINE_REFUSES,
                  "entry %llu was stored, and one of this node up to it does not count",
                  (unsigned long long)last);
        return false;
    }
    if (!good || !up->many || bridge_now() - up->progress <= (int64_t)options->wait) return good;
    if (up->stored == up->sent) return true; /* the downlink is slow, which is no fault */
    fault_set(fault, BRIDGE_ENGINE_SILENT, "%llu entries are not answered",
              (unsigned long long)(up->sent - up->stored));
    return false;
}

/* Appends what is there, up to LOOK_EACH entries, and gives how many. No longer good: the link is
   broken. */
static unsigned append_some(struct uplink *up, bool *good, struct bridge_fault *fault) {
    unsigned many = 0;
    while (*good && many < LOOK_EACH && up->many < up->bridge->options.window && gather(up)) {
        *good = append(up, up->many - 1, fault);
        many++;
    }
    return many;
}

/* Appends until the link is broken or the bridge stops. */
static void serve(struct uplink *up, struct bridge_fault *fault) {
    unsigned step = 0;
    bool good = begin_epoch(up, fault) && go_on(up, fault);
    while (good && !bridge_stops(up->bridge)) {
        good = look(up, fault);
        if (append_some(up, &good, fault)) {
            step = 0;
        } else if (good) {
            if (up->many && step > 3) step = 3;
            bridge_idle(&step);
        }
    }
    engine_close(up->link);
    up->link = NULL;
}

/* Takes the memory for all that is kept. */
static bool make(struct uplink *up) {
    uint64_t window = up->bridge->options.window;
    size_t each = ENTRY_HEAD + up->bridge->options.batch * (ENTRY_ITEM_HEAD + BRIDGE_MOST_BYTES);
    up->kept = calloc(window, sizeof *up->kept);
    up->bytes = malloc(window * each);
    if (!up->kept || !up->bytes) return false;
    for (uint64_t i = 0; i < window; i++) up->kept[i].bytes = up->bytes + i * each;
    return true;
}

void *uplink_run(void *given) {
    struct bridge *bridge = given;
    struct uplink up = {.bridge = bridge};
    struct bridge_fault fault = {BRIDGE_OK, ""};
    char kept[80];
    if (!make(&up)) {
        fault_set(&fault, BRIDGE_NO_MEMORY, "for %llu entries",
                  (unsigned long long)bridge->options.window);
        bridge_fail(bridge, &fault);
    }
    while (!bridge_stops(bridge)) {
        serve(&up, &fault);
        if (bridge_stops(bridge)) break;
        snprintf(kept, sizeof kept, "%llu entries with %llu items kept",
                 (unsigned long long)up.many, (unsigned long long)items_kept(&up));
        bridge_pause(bridge, "uplink", &fault, kept, &up.pause);
    }
    free(up.kept);
    free(up.bytes);
    return NULL;
}
