/* A bridge: the workers of many nodes hear one order, which an engine keeps.

   Each node is a process with a bus for what its workers send, and another one for what they hear.
   Its uplink hears the first and appends all of it to the engine's stream. Its downlink reads the
   stream and sends what counts into the second. So each worker of each node is given the same
   items in the same order: each item of each worker once, in the order of its numbers.

   What was sent is kept by the stream once it was heard. What a node sent and did not hear may be
   lost with it: on its next start bridge_next_number says from where on to send again.

   A worker hears on, whatever it waits for: one that does not hear holds up all of its node. */
#ifndef BRIDGE_H
#define BRIDGE_H

#include "entries.h"
#include "options.h"

struct bridge;

enum bridge_heard { BRIDGE_NOTHING, BRIDGE_ITEM, BRIDGE_CHECKPOINT, BRIDGE_ENDED };
enum bridge_sent {
    BRIDGE_SENT,
    BRIDGE_NOT_YET,
    BRIDGE_FULL,
    BRIDGE_TOO_LONG,
    BRIDGE_TOO_MANY,
    BRIDGE_STOPPED,
    BRIDGE_MAYBE_SENT
};

/* What a worker heard. Of a checkpoint all but `number`, which is its place, is 0. */
struct bridge_item {
    uint64_t number;
    uint8_t node;
    uint8_t sender;
    uint8_t length;
    uint8_t bytes[BRIDGE_MOST_BYTES];
};

/* A message of at most BRIDGE_MOST_BYTES. */
struct bridge_message {
    uint8_t length;
    uint8_t bytes[BRIDGE_MOST_BYTES];
};

/* Opens a bridge, which goes on behind this place, or from the start of the stream where `from` is
   NULL. It connects by itself, and tries again for good. The options are copied.
   BRIDGE_OK; of the options BRIDGE_OUT_OF_RANGE or BRIDGE_BAD_TEXT; BRIDGE_BUS_REFUSES,
   BRIDGE_NO_MEMORY or BRIDGE_NO_THREAD. Where it is refused *to stays as it was. */
enum bridge_code bridge_open(struct bridge **to, const struct bridge_options *options,
                             const struct bridge_place *from, struct bridge_fault *fault);

/* The calls below that name a worker are made by one thread at a time for each. Its number is below
   `workers`, which nothing checks. The others may be made by any thread.

   The number that the next message of this worker gets. False: the stream has not told it yet, so
   hear on meanwhile; or the bridge has ended. */
bool bridge_next_number(struct bridge *bridge, size_t worker, uint64_t *number);

/* Sends 1 to 16 messages, and waits for no other worker's hearing. The number of the first in
   *number, which may be NULL. Where the bus of the node has no room they wait, and go out by a
   later bridge_hear or bridge_send of this worker. It is refused, and then nothing was sent:
   TOO_MANY, for none and for more than 16; STOPPED, where the bridge has ended; NOT_YET, before
   bridge_next_number has answered; TOO_LONG, for a message of more than BRIDGE_MOST_BYTES; FULL,
   where messages of this worker wait, or it would have sent more than `ahead` that it has not
   heard. Where several hold it answers the first of these. After NOT_YET and FULL hear on, and send
   again.
   MAYBE_SENT: the bridge has ended while the batch was on its way. Whether the stream has it is
   told by bridge_next_number on the next start. */
enum bridge_sent bridge_send(struct bridge *bridge, size_t worker,
                             const struct bridge_message *messages, size_t many, uint64_t *number);

/* The next item or checkpoint of this worker. It waits for none. Where messages of this worker wait
   and there is room, it sends them first. So it may wait for other workers that are within a send,
   as bridge_send does. ENDED: the bridge has. */
enum bridge_heard bridge_hear(struct bridge *bridge, size_t worker, struct bridge_item *item);

/* The place of a checkpoint that was just heard, to be kept beside the state that the worker has
   then. False: it is gone, since the worker is many checkpoints behind; the next one serves. */
bool bridge_checkpoint(struct bridge *bridge, const struct bridge_item *checkpoint,
                       struct bridge_place *to);

/* For a worker that has nothing to do: pauses, for longer from call to call, for 0.02 to 0.64 ms.
   *step is 0 after it had something to do. */
void bridge_idle(unsigned *step);

/* Why the bridge has ended; NULL where it has not, or by bridge_stop. */
const struct bridge_fault *bridge_ended_by(struct bridge *bridge);

/* How it goes. */
struct bridge_shown {
    uint64_t entries_sent;
    uint64_t items_sent;
    uint64_t in_flight; /* entries */
    uint64_t place;     /* entries of the stream that were heard */
    uint64_t behind;    /* entries that the stream had more */
    uint64_t items;     /* that counted, since the bridge was opened */
    uint64_t passed;    /* entries that did not count */
    uint64_t slowest;   /* items that the slowest worker has heard */
    uint64_t epoch;
};
void bridge_show(struct bridge *bridge, struct bridge_shown *shown);

/* From now on no call waits: bridge_hear answers ENDED, bridge_send STOPPED or what goes before it,
   and bridge_next_number false. */
void bridge_stop(struct bridge *bridge);

/* Stops it, and gives all up. No thread is in a call of it. It waits until what the engine was
   asked is answered, or has failed by `wait`. When all bridges are closed engine_end
   (engine.h) gives up what the engine's client keeps. */
void bridge_close(struct bridge *bridge);

#endif
