/* Long messages, of 0 to 880 bytes: each is cut into pieces that stand side by side in one frame.
   It stands on waiting.h, and builds as that does. Copy it beside that, or install a release, where
   it is kioskbasil_long.h.

   A piece is a message of the bus. Its first byte says how many pieces follow it, and behind that
   it has 55 bytes, the last piece at most 55. Who sends long messages to a bus sends no others. A
   ring for them has batches of 16 messages or more. */
#ifndef KIOSKBASIL_LONG_H
#define KIOSKBASIL_LONG_H

#include "waiting.h"

enum {
    KIOSKBASIL_PIECE_BYTES = KIOSKBASIL_MOST_BYTES - 1,
    KIOSKBASIL_MOST_PIECES = 16,
    KIOSKBASIL_MOST_LONG_BYTES = KIOSKBASIL_MOST_PIECES * KIOSKBASIL_PIECE_BYTES, /* 880 */
    KIOSKBASIL_LONG_ITEMS = 32 /* how many items cross the border at once */
};

/* What a receiver hears. It starts as zeros, each receiver has its own, and its place stays the
   same. Its first fields are set by a call that answers ITEM or NOT_LONG, and its other ones are
   the functions'. */
struct kioskbasil_long {
    uint64_t number; /* of the last piece, as kioskbasil_put_long gave it */
    uint32_t sender;
    size_t length;
    const uint8_t *bytes; /* where they lie up to the next call */
    kioskbasil_item items[KIOSKBASIL_LONG_ITEMS];
    size_t given, many;
    bool has_ended; /* no item follows those that are at hand */
    uint8_t joined[KIOSKBASIL_MOST_LONG_BYTES];
};

/* ---- sending */

/* How many pieces a message of so many bytes has. An empty one has one too. */
static inline size_t long_pieces(size_t length) {
    return length ? 1 + (length - 1) / KIOSKBASIL_PIECE_BYTES : 1;
}

/* Puts the pieces of a message of at most 880 bytes, for which the batch has room. A put takes no
   step, so where the first one is OK all are. */
static inline uint32_t long_put_pieces(kioskbasil_sender *sender, const void *bytes, size_t length,
                                       uint64_t *number) {
    const uint8_t *rest = (const uint8_t *)bytes;
    uint32_t code = KIOSKBASIL_OK;
    for (size_t left = long_pieces(length); left && code == KIOSKBASIL_OK; left--) {
        size_t many = length < KIOSKBASIL_PIECE_BYTES ? length : (size_t)KIOSKBASIL_PIECE_BYTES;
        uint8_t piece[KIOSKBASIL_MOST_BYTES];
        piece[0] = (uint8_t)(left - 1);
        if (many) memcpy(piece + 1, rest, many);
        code = kioskbasil_put(sender, piece, 1 + many, number);
        if (many) rest += many;
        length -= many;
    }
    return code;
}

/* Puts a message of at most 880 bytes, and gives the number of its last piece in *number (which may
   be NULL). Where a batch of the bus may have 16 messages or more, all pieces are put, or none: so
   they come into the order in one frame. All 16 pieces of 880 bytes take 129 words of the log: give
   one that is no ring so many. Takes no step.
   KIOSKBASIL_OK, or PUT_CLOSED, PUT_BUSY, PUT_TOO_LONG (more than 880 bytes) or PUT_BATCH_FULL (the
   pieces and what waits are more than 16 messages: send the batch first), the first whose cause
   holds; or EMPTY_HANDLE or NULL. Unless it is OK nothing is changed.
   Of a ring with fewer than 16 messages in a batch it does not know: there PUT_BATCH_FULL may come
   behind pieces that were put. So a caller sees to it before that long_pieces(length) and what
   waits are not more than a batch may have. */
static inline uint32_t kioskbasil_put_long(kioskbasil_sender *sender, const void *bytes,
                                           size_t length, uint64_t *number) {
    static const uint8_t none[KIOSKBASIL_MOST_BYTES + 1] = {0};
    kioskbasil_sender_shown shown;
    uint32_t code = kioskbasil_show_sender(sender, &shown);
    if (code != KIOSKBASIL_OK) return code;
    if (!bytes && length) return KIOSKBASIL_NULL;
    if (length <= KIOSKBASIL_MOST_LONG_BYTES &&
        shown.pending + long_pieces(length) <= KIOSKBASIL_MOST_PIECES)
        return long_put_pieces(sender, bytes, length, number);
    code = kioskbasil_put(sender, none, sizeof none, NULL);
    if (code != KIOSKBASIL_PUT_TOO_LONG || length > KIOSKBASIL_MOST_LONG_BYTES) return code;
    return KIOSKBASIL_PUT_BATCH_FULL;
}

/* ---- hearing */

/* What the items at hand begin with: ITEM, and *pieces says of how many pieces a whole message is;
   EMPTY, where the rest of one is not there yet, or nothing is; or NOT_LONG. */
static inline uint32_t long_begun(const struct kioskbasil_long *it, size_t *pieces) {
    const kioskbasil_item *first = &it->items[it->given];
    size_t there = it->many - it->given, all;
    if (!there) return KIOSKBASIL_EMPTY;
    if (!first->length || first->bytes[0] >= KIOSKBASIL_MOST_PIECES) return KIOSKBASIL_NOT_LONG;
    all = 1 + (size_t)first->bytes[0];
    for (size_t i = 0; i < all && i < there; i++) {
        const kioskbasil_item *item = &first[i];
        if (item->sender != first->sender || !item->length || item->bytes[0] != all - 1 - i)
            return KIOSKBASIL_NOT_LONG;
        if (i + 1 < all && item->length < KIOSKBASIL_MOST_BYTES) return KIOSKBASIL_NOT_LONG;
    }
    *pieces = all;
    return there < all ? KIOSKBASIL_EMPTY : KIOSKBASIL_ITEM;
}

/* The bus is to be asked: there is no whole message at hand. The pieces of one stand in one frame,
   so where one is there all are; but some of them may be in the bus still. */
static inline bool long_is_due(const struct kioskbasil_long *it) {
    size_t pieces;
    return !it->has_ended && long_begun(it, &pieces) == KIOSKBASIL_EMPTY;
}

/* Takes items out of the bus, behind those that are at hand. What kioskbasil_hear answers. */
static inline uint32_t long_fill(kioskbasil_receiver *receiver, struct kioskbasil_long *it,
                                 struct bell *bell) {
    size_t left = it->many - it->given, more = 0;
    uint32_t code;
    memmove(it->items, it->items + it->given, left * sizeof *it->items);
    it->given = 0;
    it->many = left;
    code = hear_now(receiver, it->items + left, KIOSKBASIL_LONG_ITEMS - left, &more, bell);
    it->many += more;
    it->has_ended = code == KIOSKBASIL_END;
    return code;
}

/* Takes the next message that is at hand: ITEM, NOT_LONG, EMPTY or END. */
static inline uint32_t long_take(struct kioskbasil_long *it) {
    const kioskbasil_item *item = &it->items[it->given];
    size_t pieces = 1;
    uint32_t code = long_begun(it, &pieces);
    if (code == KIOSKBASIL_EMPTY) {
        if (!it->has_ended) return KIOSKBASIL_EMPTY;
        if (it->given == it->many) return KIOSKBASIL_END;
        code = KIOSKBASIL_NOT_LONG;
    }
    if (code == KIOSKBASIL_NOT_LONG) pieces = 1;
    it->given += pieces;
    it->sender = item->sender;
    it->number = item[pieces - 1].number;
    it->length = item->length;
    it->bytes = item->bytes;
    if (code == KIOSKBASIL_NOT_LONG) return code;
    it->length--;
    it->bytes++;
    if (pieces == 1) return code;
    it->length = 0;
    it->bytes = it->joined;
    for (size_t i = 0; i < pieces; i++) {
        size_t many = item[i].length - 1u;
        memcpy(it->joined + it->length, item[i].bytes + 1, many);
        it->length += many;
    }
    return code;
}

/* The next long message that is there, in *it: ITEM; EMPTY where there is nothing more by now; END
   at the end and ever after; or NOT_LONG, and then *it has the item as it is, so nothing is lost.
   That is never so where all send by kioskbasil_put_long. A message of which pieces are missing
   waits for what follows it in the order, so all receivers hear the same. Waits for nothing. */
static inline uint32_t kioskbasil_try_long(kioskbasil_receiver *receiver,
                                           struct kioskbasil_long *it, struct bell *bell) {
    if (!receiver || !it) return KIOSKBASIL_NULL;
    if (long_is_due(it)) {
        uint32_t code = long_fill(receiver, it, bell);
        if (kioskbasil_refused(code)) return code;
    }
    return long_take(it);
}

/* As kioskbasil_next_long, but it can be told to stop, as hear_while: it is EMPTY then. */
static inline uint32_t kioskbasil_next_long_while(kioskbasil_receiver *receiver,
                                                  struct kioskbasil_long *it, struct bell *bell,
                                                  bool (*go_on)(void *given), void *given) {
    struct waiter waiter = {0, 0, 0};
    for (;;) {
        uint32_t code = kioskbasil_try_long(receiver, it, bell);
        if (code != KIOSKBASIL_EMPTY || (go_on && !go_on(given))) return code;
        wait_for(bell, &waiter);
    }
}

/* As kioskbasil_try_long, but it waits while nothing is there. */
static inline uint32_t kioskbasil_next_long(kioskbasil_receiver *receiver,
                                            struct kioskbasil_long *it, struct bell *bell) {
    return kioskbasil_next_long_while(receiver, it, bell, NULL, NULL);
}
#endif
