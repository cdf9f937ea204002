#include "entries.h"
#include <string.h>

static void write_low(uint8_t *bytes, uint64_t number, int many) {
    for (int i = 0; i < many; i++) bytes[i] = (uint8_t)(number >> (8 * i));
}

static uint64_t read_low(const uint8_t *bytes, int many) {
    uint64_t number = 0;
    for (int i = many; i > 0; i--) number = number << 8 | bytes[i - 1];
    return number;
}

void number_write(uint8_t *bytes, uint64_t number) {
    write_low(bytes, number, 6);
}

uint64_t number_read(const uint8_t *bytes) {
    return read_low(bytes, 6);
}

static uint64_t word_of(const uint8_t *bytes) {
    return (uint64_t)bytes[0] | (uint64_t)bytes[1] << 8 | (uint64_t)bytes[2] << 16 |
           (uint64_t)bytes[3] << 24 | (uint64_t)bytes[4] << 32 | (uint64_t)bytes[5] << 40 |
           (uint64_t)bytes[6] << 48 | (uint64_t)bytes[7] << 56;
}

static uint64_t check_more(uint64_t check, uint64_t word) {
    check = (check ^ word) * 1099511628211u;
    return check ^ check >> 32;
}

uint64_t entry_check(const uint8_t *bytes, size_t length) {
    uint64_t check = 14695981039346656037u;
    size_t at = 0;
    for (; length - at >= 8; at += 8) check = check_more(check, word_of(bytes + at));
    if (at < length) check = check_more(check, read_low(bytes + at, (int)(length - at)));
    return check_more(check, length);
}

/* Whether `count` items fill these bytes, each of a worker that can be and of a length that is
   served. */
static bool are_items(const uint8_t *bytes, size_t length, size_t count) {
    size_t at = 0;
    for (size_t i = 0; i < count; i++) {
        if (length - at < ENTRY_ITEM_HEAD) return false;
        if (bytes[at] >= BRIDGE_MOST_WORKERS || bytes[at + 1] > BRIDGE_MOST_BYTES) return false;
        if (length - at - ENTRY_ITEM_HEAD < bytes[at + 1]) return false;
        at += (size_t)ENTRY_ITEM_HEAD + bytes[at + 1];
    }
    return at == length;
}

/* Reads an entry of this version whose checksum holds. */
static bool read_rest(struct entry *entry, const uint8_t *bytes, size_t length) {
    if (length < ENTRY_HEAD || bytes[16] != ENTRY_VERSION) return false;
    entry->begins = bytes[17] == 'b';
    entry->node = bytes[18];
    entry->epoch = read_low(bytes + 19, 8);
    entry->number = read_low(bytes + 27, 8);
    entry->count = (uint16_t)read_low(bytes + 35, 2);
    entry->bytes = bytes + ENTRY_HEAD;
    entry->length = length - ENTRY_HEAD;
    if (entry->node >= BRIDGE_MOST_NODES || entry->count == 0) return false;
    if (entry->begins) return entry->length == 0 && entry->count <= BRIDGE_MOST_WORKERS;
    if (bytes[17] != 'i' || entry->count > BRIDGE_MOST_BATCH) return false;
    return are_items(entry->bytes, entry->length, entry->count);
}

enum entry_kind entry_read(struct entry *entry, const uint8_t *bytes, size_t length) {
    if (length < 8 || memcmp(bytes, ENTRY_MAGIC, 8)) return ENTRY_NONE;
    if (length <= ENTRY_CHECKED) return ENTRY_DAMAGED;
    entry->check = word_of(bytes + 8);
    if (entry->check != entry_check(bytes + ENTRY_CHECKED, length - ENTRY_CHECKED)) {
        return ENTRY_DAMAGED;
    }
    if (bytes[16] > ENTRY_VERSION) return ENTRY_NEWER;
    return read_rest(entry, bytes, length) ? ENTRY_GOOD : ENTRY_BAD;
}

bool entry_is_of_version_1(const uint8_t *bytes, size_t length) {
    return length == 22 && !memcmp(bytes, "K\1b", 3) && bytes[3] < BRIDGE_MOST_NODES &&
           bytes[20] >= 1 && bytes[20] <= BRIDGE_MOST_WORKERS && bytes[21] == 0;
}

size_t entry_item(const struct entry *entry, size_t at, struct entry_item *item) {
    const uint8_t *bytes = entry->bytes + at;
    item->sender = bytes[0];
    item->length = bytes[1];
    item->number = number_read(bytes + 2);
    item->bytes = bytes + ENTRY_ITEM_HEAD;
    return at + ENTRY_ITEM_HEAD + item->length;
}

void entry_head(uint8_t *bytes, uint8_t node, uint64_t epoch, uint64_t number, uint16_t count) {
    memcpy(bytes, ENTRY_MAGIC, 8);
    bytes[16] = ENTRY_VERSION;
    bytes[17] = 'i';
    bytes[18] = node;
    write_low(bytes + 19, epoch, 8);
    write_low(bytes + 27, number, 8);
    write_low(bytes + 35, count, 2);
}

void entry_seal(uint8_t *bytes, size_t length) {
    write_low(bytes + 8, entry_check(bytes + ENTRY_CHECKED, length - ENTRY_CHECKED), 8);
}

void entry_begin(uint8_t *bytes, uint8_t node, uint64_t process, uint16_t workers) {
    entry_head(bytes, node, process, 0, workers);
    bytes[17] = 'b';
    entry_seal(bytes, ENTRY_HEAD);
}

size_t entry_put(uint8_t *bytes, const struct entry_item *item) {
    bytes[0] = item->sender;
    bytes[1] = item->length;
    number_write(bytes + 2, item->number);
    memcpy(bytes + ENTRY_ITEM_HEAD, item->bytes, item->length);
    return (size_t)ENTRY_ITEM_HEAD + item->length;
}

/* Whether each item is the next of its worker; if so these go on. */
static bool numbers_follow(struct bridge_node *node, const struct entry *entry) {
    uint64_t next[BRIDGE_MOST_WORKERS];
    struct entry_item item;
    memcpy(next, node->next, sizeof next);
    for (size_t i = 0, at = 0; i < entry->count; i++) {
        at = entry_item(entry, at, &item);
        if (item.sender >= node->workers || item.number != next[item.sender]) return false;
        next[item.sender]++;
    }
    memcpy(node->next, next, sizeof next);
    return true;
}

enum entry_fate place_take(struct bridge_place *place, const struct entry *entry) {
    struct bridge_node *node = &place->nodes[entry->node];
    if (entry->begins) {
        node->epoch = place->place;
        node->process = entry->epoch;
        node->entries = 0;
        if (entry->count > node->workers) node->workers = entry->count;
        return FATE_BEGINS;
    }
    if (!entry->epoch) return FATE_BAD;
    if (entry->epoch > node->epoch) return FATE_STRANGE;
    if (entry->epoch != node->epoch) return FATE_OLD;
    if (entry->number != node->entries) return FATE_GAP;
    if (!numbers_follow(node, entry)) return FATE_STRANGE;
    node->entries++;
    return FATE_COUNTS;
}
