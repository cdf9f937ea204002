/* Tests of what needs no engine: options, entries and what counts of them, and rings. Prints how
   many checks there were, and each that failed; ends above 0 where one did. */
#include "entries.h"
#include "options.h"
#include "rings.h"
#include "waiting.h"
#include <pthread.h>
#include <stdatomic.h>
#include <stdio.h>
#include <stdlib.h>
#include <string.h>
#include <unistd.h>

static unsigned checked, failed;

static void check(bool good, const char *what) {
    checked++;
    if (good) return;
    failed++;
    printf("FAILED: %s\n", what);
}

/* What the options of this file and these words are answered. */
static enum bridge_code answered(const char *text, int words, char **word,
                                 struct bridge_options *to) {
    struct option list[BRIDGE_OPTIONS];
    struct bridge_fault fault = {BRIDGE_OK, ""};
    char path[] = "/tmp/bridge-options-XXXXXX", *all[16] = {"checks", "--options", path};
    int at = text ? 3 : 1, file = mkstemp(path);
    if (file < 0 || (text && write(file, text, strlen(text)) < 0)) return BRIDGE_NO_FILE;
    close(file);
    for (int i = 0; i < words; i++) all[at + i] = word[i];
    bridge_options_usual(to);
    bridge_options_list(to, list);
    enum bridge_code code = options_read(list, BRIDGE_OPTIONS, at + words, all, &fault);
    unlink(path);
    if (code != BRIDGE_OK && !*fault.text) return BRIDGE_OK;
    return code;
}

struct refused {
    enum bridge_code code;
    const char *text;
    char *word[4];
};

static void check_row(struct refused *row, size_t i) {
    struct bridge_options options;
    int words = 0;
    char what[80];
    while (words < 4 && row->word[words]) words++;
    enum bridge_code code = answered(row->text, words, row->word, &options);
    snprintf(what, sizeof what, "options %zu: %s, not %s", i, fault_name(row->code),
             fault_name(code));
    check(code == row->code, what);
    if (i == 0) check(options.window == 7 && options.node == 63, "options are read");
    if (i == 0) check(!strcmp(options.stream, "a-b_C9"), "a text is read");
    if (i == 1) check(options.node == 6, "the command line goes before the file");
    if (i == 2) check(!options.create, "no is read");
}

/* Options that a program has set by itself. */
static void check_ranges(void) {
    struct bridge_options options;
    struct bridge_fault fault;
    bridge_options_usual(&options);
    check(bridge_options_check(&options, &fault) == BRIDGE_OK, "the usual options are in range");
    options.batch = BRIDGE_MOST_BATCH + 1;
    check(bridge_options_check(&options, &fault) == BRIDGE_OUT_OF_RANGE, "a batch out of range");
    check(!strcmp(fault.text, "batch is 1 to 256, and not 257 (a program)"), "which says so");
    bridge_options_usual(&options);
    memset(options.stream, 's', sizeof options.stream);
    check(bridge_options_check(&options, &fault) == BRIDGE_OUT_OF_RANGE, "a text without an end");
    strcpy(options.stream, "a.b");
    check(bridge_options_check(&options, &fault) == BRIDGE_BAD_TEXT, "a name that no stream has");
    options.stream[0] = 0;
    check(bridge_options_check(&options, &fault) == BRIDGE_OUT_OF_RANGE, "a stream without a name");
}

#define TWENTY "...................."
#define EIGHTY TWENTY TWENTY TWENTY TWENTY
#define A_HUNDRED EIGHTY TWENTY

static void check_options(void) {
    static struct refused rows[] = {
        {BRIDGE_OK, "window = 7 # seven\n\n# more\n stream=a-b_C9\n", {"--node", "63"}},
        {BRIDGE_OK, "node = 5\n", {"--node", "6"}},
        {BRIDGE_OK, "create = no", {NULL}},
        {BRIDGE_NO_SUCH_OPTION, "windows = 7\n", {NULL}},
        {BRIDGE_NO_SUCH_OPTION, NULL, {"--windows", "7"}},
        {BRIDGE_NO_SUCH_OPTION, NULL, {"window", "7"}},
        {BRIDGE_NO_VALUE, NULL, {"--window"}},
        {BRIDGE_NO_VALUE, "window =\n", {NULL}},
        {BRIDGE_GIVEN_TWICE, "window = 7\nwindow = 7\n", {NULL}},
        {BRIDGE_GIVEN_TWICE, NULL, {"--window", "7", "--window", "7"}},
        {BRIDGE_NOT_A_NUMBER, NULL, {"--window", "seven"}},
        {BRIDGE_NOT_A_NUMBER, NULL, {"--window", "-1"}},
        {BRIDGE_NOT_A_NUMBER, NULL, {"--window", "7x"}},
        {BRIDGE_NOT_A_NUMBER, NULL, {"--window", ""}},
        {BRIDGE_OUT_OF_RANGE, NULL, {"--window", "0"}},
        {BRIDGE_OUT_OF_RANGE, NULL, {"--window", "1025"}},
        {BRIDGE_OUT_OF_RANGE, NULL, {"--node", "18446744073709551616"}},
        {BRIDGE_OUT_OF_RANGE, NULL, {"--workers", "9"}},
        {BRIDGE_OUT_OF_RANGE, NULL, {"--log_words", "65537"}},
        {BRIDGE_OUT_OF_RANGE, NULL, {"--stream", "abcdefghijklmnopqrstuvwxyz01234567"}},
        {BRIDGE_BAD_TEXT, NULL, {"--stream", "a.b"}},
        {BRIDGE_BAD_TEXT, "create = perhaps\n", {NULL}},
        {BRIDGE_OUT_OF_RANGE, NULL, {"--engine", ""}},
        {BRIDGE_BAD_LINE, "window 7\n", {NULL}},
        {BRIDGE_OK, "# 398 characters" A_HUNDRED A_HUNDRED A_HUNDRED EIGHTY "..\n", {NULL}},
        {BRIDGE_BAD_LINE, "# 399 characters" A_HUNDRED A_HUNDRED A_HUNDRED EIGHTY "...\n", {NULL}},
        {BRIDGE_GIVEN_TWICE, NULL, {"--options", "/dev/null", "--options", "/dev/null"}},
        {BRIDGE_NO_FILE, NULL, {"--options", "/"}},
        {BRIDGE_NO_FILE, NULL, {"--options", "/nowhere/at/all"}},
    };
    for (size_t i = 0; i < sizeof rows / sizeof *rows; i++) check_row(&rows[i], i);
}

/* Writes an entry of items of one worker, from this number on; its length. */
static size_t make_entry(uint8_t *bytes, uint8_t node, uint64_t epoch, uint64_t number,
                         uint64_t from, uint16_t many) {
    uint8_t message[BRIDGE_MOST_BYTES];
    size_t length = ENTRY_HEAD;
    memset(message, 7, sizeof message);
    entry_head(bytes, node, epoch, number, many);
    for (uint16_t i = 0; i < many; i++) {
        struct entry_item item = {from + i, 1, (uint8_t)(i % (BRIDGE_MOST_BYTES + 1)), message};
        length += entry_put(bytes + length, &item);
    }
    entry_seal(bytes, length);
    return length;
}

/* Entries that are cut, have more behind them, or other bits. */
static void check_damage(uint8_t *bytes, size_t length) {
    struct entry entry;
    for (size_t cut = 0; cut < length; cut += 1 + cut / 50) {
        enum entry_kind kind = entry_read(&entry, bytes, cut);
        check(kind == (cut < 8 ? ENTRY_NONE : ENTRY_DAMAGED), "an entry that is cut is damaged");
    }
    bytes[length] = 0;
    check(entry_read(&entry, bytes, length + 1) == ENTRY_DAMAGED, "one with a zero behind it too");
    for (size_t bit = 0; bit < 8 * length; bit += 1 + bit / 500) {
        bytes[bit / 8] ^= (uint8_t)(1 << bit % 8);
        enum entry_kind kind = entry_read(&entry, bytes, length);
        check(kind == (bit < 64 ? ENTRY_NONE : ENTRY_DAMAGED), "and one of which a bit is another");
        bytes[bit / 8] ^= (uint8_t)(1 << bit % 8);
    }
    check(entry_read(&entry, bytes, length) == ENTRY_GOOD, "it is whole again");
}

/* A version is believed where the checksum holds, and what has no magic has none. */
static void check_versions(uint8_t *bytes, size_t length) {
    static const char *const strays[] = {"hello", "Key=1", "K\2", "K\377\377", "KBridg", ""};
    uint8_t old[22] = {'K', 1, 'b', 63, [20] = 8};
    struct entry entry;
    bytes[16] = ENTRY_VERSION + 1;
    check(entry_read(&entry, bytes, length) == ENTRY_DAMAGED, "a version that is not checked");
    entry_seal(bytes, ENTRY_CHECKED + 1);
    check(entry_read(&entry, bytes, ENTRY_CHECKED + 1) == ENTRY_NEWER, "a later one, that is");
    bytes[16] = ENTRY_VERSION - 1;
    entry_seal(bytes, length);
    check(entry_read(&entry, bytes, length) == ENTRY_BAD, "one that never was");
    for (size_t i = 0; i < sizeof strays / sizeof *strays; i++) {
        enum entry_kind kind = entry_read(&entry, (const uint8_t *)strays[i], strlen(strays[i]));
        check(kind == ENTRY_NONE, "what has no magic is no entry");
    }
    check(entry_is_of_version_1(old, sizeof old), "a begin of version 1");
    check(entry_read(&entry, old, sizeof old) == ENTRY_NONE, "which is no entry");
    old[20] = 9;
    check(!entry_is_of_version_1(old, sizeof old), "what is no begin of version 1");
}

/* An entry whose checksum holds, and of which one byte is what nobody writes. Of two items, without
   bytes and of one, are 17 bytes behind the head. */
static void check_bad(uint8_t *bytes) {
    static const struct {
        size_t at;
        uint8_t byte;
        const char *what;
    } rows[] = {
        {17, 'x', "another kind"},     {18, BRIDGE_MOST_NODES, "a node that cannot be"},
        {17, 'b', "a begin of items"}, {35, 0, "no items"},
        {35, 1, "more than one item"}, {35, 3, "fewer than three items"},
        {36, 1, "fewer than 258"},     {ENTRY_HEAD, BRIDGE_MOST_WORKERS, "a worker that cannot be"},
        {38, 1, "a longer first item"}, {46, 0, "a byte behind the last item"},
        {46, 2, "a byte too few"},     {46, BRIDGE_MOST_BYTES + 1, "49 bytes"},
    };
    struct entry entry;
    for (size_t i = 0; i < sizeof rows / sizeof *rows; i++) {
        size_t length = make_entry(bytes, 1, 9, 0, 0, 2);
        check(entry_read(&entry, bytes, length) == ENTRY_GOOD && length == 54, "two items");
        bytes[rows[i].at] = rows[i].byte;
        entry_seal(bytes, length);
        check(entry_read(&entry, bytes, length) == ENTRY_BAD, rows[i].what);
    }
    for (uint16_t workers = 0; workers <= BRIDGE_MOST_WORKERS + 1; workers++) {
        entry_begin(bytes, 63, 5, workers);
        bool good = workers > 0 && workers <= BRIDGE_MOST_WORKERS;
        check(entry_read(&entry, bytes, ENTRY_HEAD) == (good ? ENTRY_GOOD : ENTRY_BAD), "a begin");
    }
    size_t length = make_entry(bytes, 1, 9, 0, 0, BRIDGE_MOST_BATCH + 1);
    check(entry_read(&entry, bytes, length) == ENTRY_BAD, "257 items");
}

/* Random bytes behind a head. What is taken for an entry has its items just within its bytes. */
static void check_random(uint8_t *bytes) {
    struct entry entry;
    struct entry_item item;
    uint64_t seed = 5;
    unsigned good = 0, wrong = 0;
    for (int i = 0; i < 200000; i++) {
        size_t many = ENTRY_HEAD + next_word(&seed) % 40;
        for (size_t j = 0; j < many; j++) bytes[j] = (uint8_t)next_word(&seed) & 15;
        entry_head(bytes, (uint8_t)(next_word(&seed) % 70), 1, 0, next_word(&seed) % 4);
        entry_seal(bytes, many);
        enum entry_kind kind = entry_read(&entry, bytes, many);
        wrong += kind != ENTRY_GOOD && kind != ENTRY_BAD;
        if (kind != ENTRY_GOOD) continue;
        size_t at = 0;
        for (size_t j = 0; j < entry.count; j++) at = entry_item(&entry, at, &item);
        wrong += at != entry.length || at + ENTRY_HEAD != many;
        good++;
    }
    check(good > 500, "some random bytes are entries");
    check(wrong == 0, "whose items fill them");
}

static void check_entries(void) {
    static uint8_t bytes[ENTRY_MOST + 1];
    struct entry entry;
    struct entry_item item;
    size_t length = make_entry(bytes, 9, 1u << 20, 77, (1ull << 48) - 300, 256), at = 0;
    check(entry_read(&entry, bytes, length) == ENTRY_GOOD, "an entry is read");
    check(entry.node == 9 && entry.epoch == 1u << 20 && entry.number == 77 && !entry.begins,
          "its head");
    for (uint64_t i = 0; i < 256; i++) {
        at = entry_item(&entry, at, &item);
        check(item.number == (1ull << 48) - 300 + i && item.length == i % 49, "its items");
    }
    check(at == entry.length, "all its bytes");
    check_damage(bytes, length);
    check_versions(bytes, length);
    check_bad(bytes);
    check_random(bytes);
}

/* What becomes of an entry at the next place. */
static enum entry_fate fate(struct bridge_place *place, const uint8_t *bytes, size_t length) {
    struct entry entry;
    if (entry_read(&entry, bytes, length) != ENTRY_GOOD) return FATE_BAD;
    place->place++;
    return place_take(place, &entry);
}

static enum entry_fate fate_of(struct bridge_place *place, uint64_t epoch, uint64_t number,
                               uint64_t from) {
    uint8_t bytes[ENTRY_MOST];
    return fate(place, bytes, make_entry(bytes, 2, epoch, number, from, 3));
}

static void check_counting(void) {
    static struct bridge_place place;
    uint8_t begins[ENTRY_HEAD];
    entry_begin(begins, 2, 42, 4);
    check(fate_of(&place, 0, 0, 0) == FATE_BAD, "nothing counts before a begin");
    check(fate(&place, begins, ENTRY_HEAD) == FATE_BEGINS, "a begin");
    check(place.nodes[2].epoch == 2 && place.nodes[2].process == 42, "its place is the epoch");
    check(fate_of(&place, 1, 0, 0) == FATE_OLD, "an epoch before it");
    check(fate_of(&place, 3, 0, 0) == FATE_STRANGE, "one that has not begun");
    check(fate_of(&place, 2, 1, 0) == FATE_GAP, "an entry behind one that is missing");
    check(fate_of(&place, 2, 0, 1) == FATE_STRANGE, "numbers that do not follow");
    check(fate_of(&place, 2, 0, 0) == FATE_COUNTS, "the first");
    check(fate_of(&place, 2, 0, 0) == FATE_GAP, "the first again");
    check(fate_of(&place, 2, 1, 3) == FATE_COUNTS, "the second");
    check(fate(&place, begins, ENTRY_HEAD) == FATE_BEGINS, "another begin");
    check(fate_of(&place, 2, 2, 6) == FATE_OLD, "the old epoch is over");
    check(fate_of(&place, place.nodes[2].epoch, 0, 0) == FATE_STRANGE, "its items are there");
    check(fate_of(&place, place.nodes[2].epoch, 0, 6) == FATE_COUNTS, "numbers go on");
    check(place.nodes[2].next[1] == 9 && place.nodes[2].entries == 1, "what is known then");
}

enum { SENDERS = 3, RECEIVERS = 2, EACH = 40000 };

/* A sender was refused, so that receivers do not wait for what it has not sent. */
static atomic_bool is_refused;

struct ends {
    kioskbasil_sender *sender;
    kioskbasil_receiver *receiver;
    size_t number;
    uint64_t order[SENDERS * EACH]; /* of a receiver: sender and number */
    uint64_t heard;
    bool good;
};

static void *send_numbers(void *given) {
    struct ends *own = given;
    uint8_t bytes[56] = {0};
    uint64_t seed = own->number + 1, sent = 0, number = 0;
    own->good = true;
    while (sent < EACH && own->good) {
        size_t many = 1 + next_word(&seed) % 16;
        if (many > EACH - sent) many = EACH - sent;
        for (size_t i = 0; i < many; i++) {
            kioskbasil_put(own->sender, bytes, next_word(&seed) % 57, i ? NULL : &number);
        }
        uint32_t code = ring_send_all(own->sender, &seed, &is_refused);
        own->good = code == KIOSKBASIL_DELIVERED && number == 1000 * own->number + sent;
        sent += many;
    }
    if (!own->good) atomic_store(&is_refused, true);
    return NULL;
}

static void *hear_numbers(void *given) {
    struct ends *own = given;
    kioskbasil_item items[64];
    struct waiter waiter = {0, 0, 0};
    while (own->heard < SENDERS * EACH && !atomic_load(&is_refused)) {
        size_t many = 0;
        kioskbasil_hear(own->receiver, items, 64, &many);
        if (many) waiter.step = 0;
        else wait_for(NULL, &waiter);
        for (size_t i = 0; i < many; i++) {
            own->order[own->heard++] = (uint64_t)items[i].sender << 48 | items[i].number;
        }
    }
    return NULL;
}

/* Whether an order has each number of each sender once, in order. */
static bool is_order(const struct ends *own) {
    uint64_t next[SENDERS];
    for (uint64_t i = 0; i < SENDERS; i++) next[i] = 1000 * i;
    for (uint64_t i = 0; i < own->heard; i++) {
        uint64_t sender = own->order[i] >> 48;
        if ((own->order[i] & ((1ull << 48) - 1)) != next[sender]++) return false;
    }
    return true;
}

static void check_rings(void) {
    static struct ends ends[SENDERS + RECEIVERS];
    pthread_t threads[SENDERS + RECEIVERS];
    kioskbasil_sender senders[SENDERS] = {KIOSKBASIL_NONE};
    kioskbasil_receiver receivers[RECEIVERS] = {KIOSKBASIL_NONE};
    const uint64_t next[SENDERS] = {0, 1000, 2000};
    struct bridge_fault fault;
    check(ring_open(4096, next, senders, SENDERS, receivers, RECEIVERS, "a test", &fault) ==
              BRIDGE_OK,
          "a ring opens");
    for (size_t i = 0; i < SENDERS + RECEIVERS; i++) {
        if (i < SENDERS) ends[i].sender = &senders[i];
        else ends[i].receiver = &receivers[i - SENDERS];
        ends[i].number = i;
        pthread_create(&threads[i], NULL, i < SENDERS ? send_numbers : hear_numbers, &ends[i]);
    }
    for (size_t i = 0; i < SENDERS + RECEIVERS; i++) pthread_join(threads[i], NULL);
    for (size_t i = 0; i < SENDERS; i++) check(ends[i].good, "a sender's numbers go on");
    const struct ends *first = &ends[SENDERS], *second = &ends[SENDERS + 1];
    check(first->heard == SENDERS * EACH && is_order(first), "each number once, round and round");
    check(!memcmp(first->order, second->order, sizeof first->order),
          "two receivers hear one order");
    for (size_t i = 0; i < SENDERS; i++) kioskbasil_free_sender(&senders[i]);
    for (size_t i = 0; i < RECEIVERS; i++) kioskbasil_free_receiver(&receivers[i]);
}

/* What is full while a receiver does not hear, goes on once it does, and ends if it is stopped. */
static void check_full(void) {
    kioskbasil_sender sender = KIOSKBASIL_NONE;
    kioskbasil_receiver receiver = KIOSKBASIL_NONE;
    kioskbasil_item items[16];
    struct bridge_fault fault;
    atomic_bool stop = false;
    uint8_t bytes[56] = {0};
    uint64_t seed = 1;
    uint32_t code = KIOSKBASIL_DELIVERED;
    size_t sent = 0, many;
    check(ring_open(4096, NULL, &sender, 1, &receiver, 1, "a test", &fault) == BRIDGE_OK, "a ring");
    for (; code == KIOSKBASIL_DELIVERED; sent++) {
        kioskbasil_put(&sender, bytes, 56, NULL);
        code = ring_send(&sender, &seed, &stop);
    }
    check(code == KIOSKBASIL_FULL && sent > 400, "a ring has room, and is full");
    check(!ring_ends(code, "a test", &fault), "which does not end it");
    for (int i = 0; i < 2; i++) kioskbasil_hear(&receiver, items, 16, &many);
    check(ring_send_all(&sender, &seed, &stop) == KIOSKBASIL_DELIVERED, "there is room again");
    while (code == KIOSKBASIL_DELIVERED || code == KIOSKBASIL_FULL) {
        kioskbasil_put(&sender, bytes, 56, NULL);
        code = ring_send(&sender, &seed, &stop);
        if (code == KIOSKBASIL_FULL) break;
    }
    atomic_store(&stop, true);
    check(ring_send_all(&sender, &seed, &stop) == KIOSKBASIL_FULL, "what is stopped does not wait");
    kioskbasil_free_sender(&sender);
    kioskbasil_free_receiver(&receiver);
}

/* A send that is told to stop while another sender is within its turns. Where that one has taken
   the page, the batch is not in the order; where it keeps a row that is due, the batch is. */
static void check_stopped(bool has_page) {
    kioskbasil_sender senders[2] = {KIOSKBASIL_NONE, KIOSKBASIL_NONE};
    kioskbasil_receiver receiver = KIOSKBASIL_NONE;
    kioskbasil_item items[32];
    struct bridge_fault fault;
    atomic_bool stop = true;
    uint64_t seed = 1;
    uint32_t code = KIOSKBASIL_GOING;
    size_t sent = 0, many = 0;
    check(ring_open(4096, NULL, senders, 2, &receiver, 1, "a test", &fault) == BRIDGE_OK, "a ring");
    kioskbasil_put(&senders[1], "", 0, NULL);
    for (int i = 0; i < (has_page ? 100 : 2) && code == KIOSKBASIL_GOING; i++) {
        code = kioskbasil_turn(&senders[1], next_word(&seed), NULL);
    }
    check(code == (has_page ? KIOSKBASIL_OWN : KIOSKBASIL_GOING), "a sender is within its turns");
    do {
        kioskbasil_put(&senders[0], "", 0, NULL);
        code = ring_send(&senders[0], &seed, &stop);
    } while (code == KIOSKBASIL_DELIVERED && ++sent < 30);
    check(code == (has_page ? KIOSKBASIL_WAITING : KIOSKBASIL_BEHIND), "another one is stopped");
    check(has_page ? sent == 0 : sent < 8, "at once, or once a row is due again");
    check(!ring_ends(code, "a test", &fault), "which does not end the ring");
    ring_send(&senders[1], &seed, &stop);
    check(ring_send(&senders[0], &seed, &stop) == KIOSKBASIL_DELIVERED, "it goes on later");
    ring_send(&senders[1], &seed, &stop);
    kioskbasil_hear(&receiver, items, 32, &many);
    check(many == sent + 2, "and each batch is in the order once");
    for (int i = 0; i < 2; i++) kioskbasil_free_sender(&senders[i]);
    kioskbasil_free_receiver(&receiver);
}

/* Tenures that are used up, here those of a bus that has three. */
static void check_spent(void) {
    kioskbasil_sender sender = KIOSKBASIL_NONE;
    kioskbasil_receiver receiver = KIOSKBASIL_NONE;
    const kioskbasil_sizes sizes = {.rounds = 1, .rows = 3, .log_words = 4096};
    struct bridge_fault fault = {BRIDGE_OK, ""};
    atomic_bool stop = false;
    uint64_t seed = 1;
    uint32_t code = KIOSKBASIL_DELIVERED;
    check(kioskbasil_open(&sizes, &sender, 1, &receiver, 1) == KIOSKBASIL_OK, "a bus opens");
    for (int i = 0; i < 4 && code == KIOSKBASIL_DELIVERED; i++) {
        kioskbasil_put(&sender, "", 0, NULL);
        code = ring_send(&sender, &seed, &stop);
    }
    check(ring_ends(code, "a test", &fault) && fault.code == BRIDGE_BUS_REFUSES &&
              strstr(fault.text, "has used all of its 2^40 tenures: start the node again"),
          "tenures that are used up end a ring, which says so");
    kioskbasil_free_sender(&sender);
    kioskbasil_free_receiver(&receiver);
}

int main(void) {
    check_options();
    check_ranges();
    check_entries();
    check_counting();
    check_rings();
    check_full();
    check_stopped(true);
    check_stopped(false);
    check_spent();
    printf("%u checks, %u failed\n", checked, failed);
    return failed > 0;
}
