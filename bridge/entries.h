/* Entries of the stream as bytes, and which of them count.

   A node begins with an entry of its own, `begin`, whose place in the stream is its epoch. Entries
   of items say the node, the epoch and their number in it, from 0 on. An entry of items counts if
   its epoch is that of its node's last begin, and its number is the next one. So what counts of an
   epoch is a beginning of what was sent in it, and nothing of it counts once another has begun. All
   that read the stream find the same, by its bytes alone.

   In bytes, lowest first: the 8 of ENTRY_MAGIC; 8 of a checksum of all that follows; a version. So
   much has each version of the bridge, also a later one. Then 'b' or 'i'; the node; 8 of the epoch,
   or of a begin those that name the process; 8 of the number; 2 that count the items, or the
   workers of a begin. Then each item: its sender, its length, 6 bytes of its number, and its bytes.

   Anybody may put other messages on the stream. One without the magic is no entry, whatever
   follows. One that has it and fails its checksum is damaged. Only where the checksum holds its
   version is believed. */
#ifndef BRIDGE_ENTRIES_H
#define BRIDGE_ENTRIES_H

#include "bounds.h"
#include <stdbool.h>
#include <stddef.h>
#include <stdint.h>

/* It begins as an entry of version 1 did, which had 'K' and its version alone, so that nodes of
   that version end by it. The last byte is one that no text has. */
#define ENTRY_MAGIC "KBridge\xf5"

enum {
    ENTRY_VERSION = 2,
    ENTRY_CHECKED = 16, /* where that begins of which the checksum is */
    ENTRY_HEAD = 37,
    ENTRY_ITEM_HEAD = 8,
    ENTRY_MOST = ENTRY_HEAD + BRIDGE_MOST_BATCH * (ENTRY_ITEM_HEAD + BRIDGE_MOST_BYTES)
};

struct entry {
    bool begins;
    uint8_t node;
    uint64_t epoch; /* where it begins, the name of the process */
    uint64_t number;
    uint64_t check;       /* its checksum */
    uint16_t count;       /* of items, or of workers where it begins */
    const uint8_t *bytes; /* of the items */
    size_t length;
};

struct entry_item {
    uint64_t number;
    uint8_t sender;
    uint8_t length;
    const uint8_t *bytes;
};

/* GOOD alone says that there is an entry. NONE: it has no magic. DAMAGED: its checksum does not
   hold. NEWER: it holds, and the version is a later one. BAD: it holds, and nobody writes such. */
enum entry_kind { ENTRY_GOOD, ENTRY_NONE, ENTRY_DAMAGED, ENTRY_NEWER, ENTRY_BAD };

/* Reads the head, and looks whether all items are there and each is one. */
enum entry_kind entry_read(struct entry *entry, const uint8_t *bytes, size_t length);

/* Whether this is a whole begin of version 1, by which each stream of that version begins. */
bool entry_is_of_version_1(const uint8_t *bytes, size_t length);

/* The item behind `at`, from 0 on, and where the next is. The entry was read. */
size_t entry_item(const struct entry *entry, size_t at, struct entry_item *item);

/* Writes a begin with its checksum; ENTRY_HEAD bytes. */
void entry_begin(uint8_t *bytes, uint8_t node, uint64_t process, uint16_t workers);

/* Writes the head of an entry of items; `count` of them stand behind it. */
void entry_head(uint8_t *bytes, uint8_t node, uint64_t epoch, uint64_t number, uint16_t count);

/* Writes an item, and gives how many bytes it takes. Its number is below 2^48. */
size_t entry_put(uint8_t *bytes, const struct entry_item *item);

/* Writes the checksum, once all else is written. */
void entry_seal(uint8_t *bytes, size_t length);

/* Six bytes of a number below 2^48. */
void number_write(uint8_t *bytes, uint64_t number);
uint64_t number_read(const uint8_t *bytes);

/* A checksum of bytes, and of how many they are. It goes by words of eight bytes, the last filled
   up with zeros, as FNV-1a does by bytes, and has the high half of each sum meet the low one. Bytes
   that differ within one word have different ones. */
uint64_t entry_check(const uint8_t *bytes, size_t length);

/* Of a node, what the stream says up to some place. */
struct bridge_node {
    uint64_t epoch;                     /* the place of its last begin; 0: none */
    uint64_t process;                   /* who began it */
    uint64_t entries;                   /* of this epoch that count */
    uint64_t workers;                   /* the most that it had */
    uint64_t next[BRIDGE_MOST_WORKERS]; /* the number of the next item of each worker */
};

/* A place of the stream, with all that decides what counts behind it. Zeros are the start. */
struct bridge_place {
    uint64_t place; /* entries of the stream so far */
    uint64_t check; /* of the last one */
    struct bridge_node nodes[BRIDGE_MOST_NODES];
};

/* STRANGE: it names an epoch of its node that this stream has not, or is the next of its epoch, and
   its numbers do not follow. A node writes such a one only where it was shown another stream. */
enum entry_fate { FATE_COUNTS, FATE_BEGINS, FATE_OLD, FATE_GAP, FATE_BAD, FATE_STRANGE };

/* Takes the entry that stands at place->place, which is one more than before, and says what becomes
   of it. Only of FATE_COUNTS are its items given on. */
enum entry_fate place_take(struct bridge_place *place, const struct entry *entry);

#endif
