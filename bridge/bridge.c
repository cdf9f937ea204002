/* Opening, the calls of workers, and the end. */
#include "inside.h"
#include <fcntl.h>
#include <stdio.h>
#include <stdlib.h>
#include <string.h>
#include <time.h>
#include <unistd.h>

int64_t bridge_now(void) {
    struct timespec now;
    clock_gettime(CLOCK_MONOTONIC, &now);
    return (int64_t)now.tv_sec * 1000 + now.tv_nsec / 1000000;
}

void bridge_idle(unsigned *step) {
    struct timespec pause = {0, 20000 << *step};
    nanosleep(&pause, NULL);
    if (*step < 5) (*step)++;
}

void bridge_await(struct bridge *bridge, pthread_cond_t *what, int64_t milliseconds) {
    struct timespec until;
    clock_gettime(CLOCK_MONOTONIC, &until);
    int64_t nanoseconds = until.tv_nsec + milliseconds % 1000 * 1000000;
    until.tv_sec += milliseconds / 1000 + nanoseconds / 1000000000;
    until.tv_nsec = nanoseconds % 1000000000;
    pthread_cond_timedwait(what, &bridge->lock, &until);
}

void bridge_fail(struct bridge *bridge, const struct bridge_fault *fault) {
    pthread_mutex_lock(&bridge->lock);
    if (!bridge->failed) {
        bridge->failed = true;
        bridge->fault = *fault;
        say("node %llu: %s: %s: this node ends", (unsigned long long)bridge->options.node,
            fault_name(fault->code), fault->text);
    }
    pthread_mutex_unlock(&bridge->lock);
    bridge_stop(bridge);
}

static const char *awaited(enum bridge_code code) {
    switch (code) {
    case BRIDGE_ENGINE_ABSENT: return "the engine";
    case BRIDGE_ENGINE_SILENT: return "an answer of the engine";
    case BRIDGE_ENGINE_REFUSES: return "the engine to take entries";
    case BRIDGE_STREAM_ABSENT: return "the stream";
    default: return "nothing";
    }
}

void bridge_pause(struct bridge *bridge, const char *link, const struct bridge_fault *fault,
                  const char *kept, uint64_t *pause) {
    if (fault_is_final(fault->code)) {
        bridge_fail(bridge, fault);
        return;
    }
    *pause = *pause ? 2 * *pause : 100;
    if (*pause > bridge->options.pause) *pause = bridge->options.pause;
    say("node %llu: %s: %s: %s; waits for %s, %s, next try in %llu ms",
        (unsigned long long)bridge->options.node, link, fault_name(fault->code), fault->text,
        awaited(fault->code), kept, (unsigned long long)*pause);
    int64_t until = bridge_now() + (int64_t)*pause;
    pthread_mutex_lock(&bridge->lock);
    while (bridge_now() < until && !bridge_stops(bridge))
        bridge_await(bridge, &bridge->ends, until - bridge_now());
    pthread_mutex_unlock(&bridge->lock);
}

bool bridge_look(struct bridge *bridge, struct engine_link *link, struct engine_stream *stream,
                 struct bridge_fault *fault) {
    struct engine_entry first;
    bool there;
    pthread_mutex_lock(&bridge->lock);
    uint64_t heard = bridge->place;
    pthread_mutex_unlock(&bridge->lock);
    /* One that was removed under its nodes they do not make anew, to go on in it as they did. */
    if (!engine_stream(link, bridge->make && !heard, stream, fault)) return false;
    if (!stream->last) return true;
    if (!engine_get(link, 1, &first, &there, fault)) return false;
    bool older = there && entry_is_of_version_1(first.bytes, first.length);
    engine_release(&first);
    if (!older) return true;
    fault_set(fault, BRIDGE_OLDER_VERSION,
              "the stream %s is of version 1 of the bridge, and this is version %d: it stays as it "
              "is; give all nodes another stream, and no file of this one",
              bridge->options.stream, ENTRY_VERSION);
    return false;
}

/* A name for this process that no other has, as far as the system's dice go. */
static uint64_t process_name(void) {
    uint64_t name = 0;
    int dice = open("/dev/urandom", O_RDONLY);
    if (dice < 0 || read(dice, &name, sizeof name) != sizeof name) {
        name = (uint64_t)getpid() << 40 ^ (uint64_t)bridge_now() << 20 ^ (uint64_t)time(NULL);
    }
    if (dice >= 0) close(dice);
    return name;
}

static void report(struct bridge *bridge) {
    struct bridge_shown shown;
    bridge_show(bridge, &shown);
    say("node %llu: sent %llu items in %llu entries, %llu in flight; heard entry %llu, %llu "
        "behind; "
        "%llu items counted, the slowest worker has heard %llu; %llu entries passed over; epoch "
        "%llu",
        (unsigned long long)bridge->options.node, (unsigned long long)shown.items_sent,
        (unsigned long long)shown.entries_sent, (unsigned long long)shown.in_flight,
        (unsigned long long)shown.place, (unsigned long long)shown.behind,
        (unsigned long long)shown.items, (unsigned long long)shown.slowest,
        (unsigned long long)shown.passed, (unsigned long long)shown.epoch);
}

static void *report_run(void *given) {
    struct bridge *bridge = given;
    int64_t each = (int64_t)bridge->options.report * 1000, next = bridge_now() + each;
    while (!bridge_stops(bridge)) {
        pthread_mutex_lock(&bridge->lock);
        while (bridge_now() < next && !bridge_stops(bridge)) {
            bridge_await(bridge, &bridge->ends, next - bridge_now());
        }
        pthread_mutex_unlock(&bridge->lock);
        if (!bridge_stops(bridge)) report(bridge);
        next += each;
    }
    return NULL;
}

static enum bridge_code start(struct bridge *bridge, struct bridge_fault *fault) {
    void *(*const runs[3])(void *) = {downlink_run, uplink_run, report_run};
    int many = bridge->options.report ? 3 : 2;
    for (int i = 0; i < many; i++) {
        if (pthread_create(&bridge->threads[i], NULL, runs[i], bridge)) {
            return fault_set(fault, BRIDGE_NO_THREAD, "a thread was refused");
        }
        bridge->started++;
    }
    return BRIDGE_OK;
}

static void make_locks(struct bridge *bridge) {
    pthread_condattr_t clock;
    pthread_mutex_init(&bridge->lock, NULL);
    pthread_condattr_init(&clock);
    pthread_condattr_setclock(&clock, CLOCK_MONOTONIC);
    pthread_cond_init(&bridge->told, &clock);
    pthread_cond_init(&bridge->ends, &clock);
    pthread_condattr_destroy(&clock);
}

/* Sets the place from which the stream is read. */
static enum bridge_code begin_at(struct bridge *bridge, const struct bridge_place *from,
                                 struct bridge_fault *fault) {
    bridge->checkpoints = calloc(CHECKPOINTS, sizeof *bridge->checkpoints);
    bridge->here = calloc(1, sizeof *bridge->here);
    if (!bridge->checkpoints || !bridge->here) {
        return fault_set(fault, BRIDGE_NO_MEMORY, "for a place");
    }
    if (from) *bridge->here = *from;
    bridge->make = bridge->options.create && !bridge->here->place;
    bridge->place = bridge->here->place;
    bridge->check = bridge->here->check;
    bridge->own = bridge->here->nodes[bridge->options.node];
    return BRIDGE_OK;
}

enum bridge_code bridge_open(struct bridge **to, const struct bridge_options *options,
                             const struct bridge_place *from, struct bridge_fault *fault) {
    struct bridge_options checked = *options;
    enum bridge_code code = bridge_options_check(&checked, fault);
    if (code != BRIDGE_OK) return code;
    struct bridge *bridge = calloc(1, sizeof *bridge);
    if (!bridge) return fault_set(fault, BRIDGE_NO_MEMORY, "for a bridge");
    bridge->options = checked;
    bridge->process = process_name();
    make_locks(bridge);
    for (size_t i = 0; i < BRIDGE_MOST_WORKERS; i++) bridge->fetched[i].seed = i + 1;
    code = begin_at(bridge, from, fault);
    if (code == BRIDGE_OK) {
        code = ring_open(checked.log_words, NULL, &bridge->gives, 1, bridge->receivers,
                         checked.workers, "the workers", fault);
    }
    if (code == BRIDGE_OK) code = start(bridge, fault);
    if (code != BRIDGE_OK) return bridge_close(bridge), code;
    *to = bridge;
    return BRIDGE_OK;
}

/* The number of the next message of a worker, whose bus is open. */
static uint64_t next_number(struct bridge *bridge, size_t worker) {
    kioskbasil_sender_shown shown = {.next_number = 0};
    kioskbasil_show_sender(&bridge->senders[worker], &shown);
    return shown.next_number;
}

bool bridge_next_number(struct bridge *bridge, size_t worker, uint64_t *number) {
    if (!atomic_load(&bridge->is_open) || bridge_stops(bridge)) return false;
    *number = next_number(bridge, worker);
    return true;
}

/* Sends what waits with a worker's sender. FULL: it waits on. */
static enum bridge_sent send_waiting(struct bridge *bridge, size_t worker) {
    struct fetched *own = &bridge->fetched[worker];
    struct bridge_fault fault;
    uint32_t code = ring_send(&bridge->senders[worker], &own->seed, &bridge->stop);
    own->waits = code == KIOSKBASIL_FULL;
    if (code == KIOSKBASIL_DELIVERED) return BRIDGE_SENT;
    if (own->waits) return BRIDGE_FULL;
    if (ring_ends(code, "the uplink", &fault)) bridge_fail(bridge, &fault);
    return code == KIOSKBASIL_BEHIND ? BRIDGE_MAYBE_SENT : BRIDGE_STOPPED;
}

/* Whether this worker may send so many messages now. */
static enum bridge_sent may_send(struct bridge *bridge, size_t worker,
                                 const struct bridge_message *messages, size_t many) {
    struct fetched *own = &bridge->fetched[worker];
    if (!many || many > BRIDGE_MOST_SEND) return BRIDGE_TOO_MANY;
    if (bridge_stops(bridge)) return BRIDGE_STOPPED;
    if (!atomic_load(&bridge->is_open)) return BRIDGE_NOT_YET;
    for (size_t i = 0; i < many; i++) {
        if (messages[i].length > BRIDGE_MOST_BYTES) return BRIDGE_TOO_LONG;
    }
    own->sent = next_number(bridge, worker);
    if (!own->told) own->heard = own->sent;
    own->told = true;
    if (own->sent - own->heard + many > bridge->options.ahead) return BRIDGE_FULL;
    return own->waits ? BRIDGE_FULL : BRIDGE_SENT;
}

/* Sends what waits of a worker, once there is room. */
static void go_on(struct bridge *bridge, size_t worker) {
    if (!bridge->fetched[worker].waits) return;
    if (kioskbasil_has_room(&bridge->senders[worker]) == KIOSKBASIL_OK)
        send_waiting(bridge, worker);
}

enum bridge_sent bridge_send(struct bridge *bridge, size_t worker,
                             const struct bridge_message *messages, size_t many, uint64_t *number) {
    uint64_t own;
    go_on(bridge, worker);
    enum bridge_sent may = may_send(bridge, worker, messages, many);
    if (may != BRIDGE_SENT) return may;
    for (size_t i = 0; i < many; i++) {
        kioskbasil_put(&bridge->senders[worker], messages[i].bytes, messages[i].length,
                       i || !number ? &own : number);
    }
    may = send_waiting(bridge, worker);
    return may == BRIDGE_FULL ? BRIDGE_SENT : may;
}

enum bridge_heard bridge_hear(struct bridge *bridge, size_t worker, struct bridge_item *item) {
    struct fetched *fetched = &bridge->fetched[worker];
    if (bridge_stops(bridge)) return BRIDGE_ENDED;
    go_on(bridge, worker);
    if (fetched->at == fetched->many) {
        fetched->at = 0;
        kioskbasil_hear(&bridge->receivers[worker], fetched->items, HEARD_ROOM, &fetched->many);
        if (!fetched->many) return BRIDGE_NOTHING;
    }
    const kioskbasil_item *from = &fetched->items[fetched->at++];
    memset(item, 0, sizeof *item);
    item->number = number_read(from->bytes + 2);
    if (from->bytes[0] == CHECKPOINT_NODE) return BRIDGE_CHECKPOINT;
    item->node = from->bytes[0];
    item->sender = from->bytes[1];
    item->length = (uint8_t)(from->length - ENTRY_ITEM_HEAD);
    memcpy(item->bytes, from->bytes + ENTRY_ITEM_HEAD, item->length);
    if (item->node == bridge->options.node && item->sender == worker && fetched->told) {
        fetched->heard = item->number + 1;
    }
    atomic_fetch_add_explicit(&fetched->given, 1, memory_order_relaxed);
    return BRIDGE_ITEM;
}

bool bridge_checkpoint(struct bridge *bridge, const struct bridge_item *checkpoint,
                       struct bridge_place *to) {
    bool found = false;
    pthread_mutex_lock(&bridge->lock);
    for (uint64_t i = 0; i < CHECKPOINTS && i < bridge->taken && !found; i++) {
        found = bridge->checkpoints[i].place == checkpoint->number;
        if (found) *to = bridge->checkpoints[i];
    }
    pthread_mutex_unlock(&bridge->lock);
    return found;
}

const struct bridge_fault *bridge_ended_by(struct bridge *bridge) {
    pthread_mutex_lock(&bridge->lock);
    const struct bridge_fault *fault = bridge->failed ? &bridge->fault : NULL;
    pthread_mutex_unlock(&bridge->lock);
    return fault;
}

void bridge_show(struct bridge *bridge, struct bridge_shown *shown) {
    uint64_t slowest = UINT64_MAX;
    for (size_t i = 0; i < bridge->options.workers; i++) {
        uint64_t given = atomic_load(&bridge->fetched[i].given);
        if (given < slowest) slowest = given;
    }
    *shown = (struct bridge_shown){.entries_sent = atomic_load(&bridge->entries_sent),
                                   .items_sent = atomic_load(&bridge->items_sent),
                                   .in_flight = atomic_load(&bridge->in_flight),
                                   .behind = atomic_load(&bridge->behind),
                                   .items = atomic_load(&bridge->items),
                                   .passed = atomic_load(&bridge->passed),
                                   .slowest = slowest};
    pthread_mutex_lock(&bridge->lock);
    shown->place = bridge->place;
    shown->epoch = bridge->own.epoch;
    pthread_mutex_unlock(&bridge->lock);
}

void bridge_stop(struct bridge *bridge) {
    pthread_mutex_lock(&bridge->lock);
    atomic_store(&bridge->stop, true);
    pthread_cond_broadcast(&bridge->told);
    pthread_cond_broadcast(&bridge->ends);
    pthread_mutex_unlock(&bridge->lock);
}

void bridge_close(struct bridge *bridge) {
    bridge_stop(bridge);
    for (int i = 0; i < bridge->started; i++) pthread_join(bridge->threads[i], NULL);
    for (size_t i = 0; i < BRIDGE_MOST_WORKERS; i++) {
        kioskbasil_free_sender(&bridge->senders[i]);
        kioskbasil_free_receiver(&bridge->receivers[i]);
    }
    kioskbasil_free_receiver(&bridge->sent);
    kioskbasil_free_sender(&bridge->gives);
    pthread_cond_destroy(&bridge->told);
    pthread_cond_destroy(&bridge->ends);
    pthread_mutex_destroy(&bridge->lock);
    free(bridge->checkpoints);
    free(bridge->here);
    free(bridge);
}
