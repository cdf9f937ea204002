/* The engine: a log that others run and that keeps one order of entries, numbered 1, 2, .. without
   a gap. engine.c stands over NATS JetStream, and no other file names it.

   A link is a connection. Once a call answers false it is broken: close it, and make another. Each
   link is one thread's. */
#ifndef BRIDGE_ENGINE_H
#define BRIDGE_ENGINE_H

#include "faults.h"
#include "options.h"
#include <stdbool.h>

struct engine_link;

/* What the engine has. */
struct engine_stream {
    uint64_t first; /* the lowest place that it still has */
    uint64_t last;  /* the highest place; 0: nothing was appended yet */
    uint64_t room;  /* bytes of the longest entry that it takes, of which ENGINE_LEAST are sure */
};

/* An entry of one item fits in so many bytes, and so does a begin with what goes before it. */
enum { ENGINE_LEAST = 128 };

struct engine_entry {
    uint64_t place;
    uint64_t behind; /* entries that the stream has behind it */
    const uint8_t *bytes;
    size_t length;
    void *held; /* the engine's */
};

enum engine_read { ENGINE_ENTRY, ENGINE_UNSEEN, ENGINE_NOTHING, ENGINE_BROKEN };

/* Connects. False: ENGINE_ABSENT or NO_MEMORY. */
bool engine_connect(struct engine_link **to, const struct bridge_options *options, const char *name,
                    struct bridge_fault *fault);

/* Looks at the stream, and makes it where it is not there and `make` says so. False: what it waits
   for, or WRONG_STREAM where it does not keep all entries. */
bool engine_stream(struct engine_link *link, bool make, struct engine_stream *stream,
                   struct bridge_fault *fault);

/* Asks for the entry of one place by itself, of a stream that has entries, on another way than that
   on which they are read. *there is false where the stream has none of this place. It is given back
   by engine_release. */
bool engine_get(struct engine_link *link, uint64_t place, struct engine_entry *entry, bool *there,
                struct bridge_fault *fault);

/* The place of the last entry of this node, in a stream that was just looked at; 0 where there is
   none. */
bool engine_last_own(struct engine_link *link, const struct engine_stream *stream, uint64_t *place,
                     struct bridge_fault *fault);

/* Appends an entry if `after` is still the place of the last one of this node, and waits for its
   place. */
bool engine_append_after(struct engine_link *link, uint64_t after, const uint8_t *bytes,
                         size_t length, uint64_t *place, struct bridge_fault *fault);

/* Gives an entry to the engine, and waits for nothing. */
bool engine_append(struct engine_link *link, const uint8_t *bytes, size_t length,
                   struct bridge_fault *fault);

/* How many of the entries that were given the engine has stored, and the last place that it told;
   false once it has refused one or the link is gone. */
bool engine_stored(struct engine_link *link, uint64_t *many, uint64_t *place,
                   struct bridge_fault *fault);

/* Begins to read at this place, from 1 on. */
bool engine_read_from(struct engine_link *link, uint64_t place, struct bridge_fault *fault);

/* The next entry, if it comes within so many milliseconds. It is given back by engine_release.
   UNSEEN: there is one, and the engine's client has kept it to itself: engine_get asks for it. */
enum engine_read engine_next(struct engine_link *link, int64_t milliseconds,
                             struct engine_entry *entry, struct bridge_fault *fault);
void engine_release(struct engine_entry *entry);

void engine_close(struct engine_link *link);

/* Once, when all links are closed. */
void engine_end(void);

#endif
