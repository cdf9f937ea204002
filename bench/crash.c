/* The program in C that bench/crash kills, as crash.rs is that in Rust: each goes on from what
   the other has left, and both say the same of a file.

   `crash run FOLDER SEED` recovers what the journals of a folder say, prints `recovered COUNT
   HASH`, and has four workers send messages over a ring, each with a copy of the state, while a
   thread records all frames in a next journal. For each message of its own that is on disk a
   worker prints `durable SENDER NUMBER HASH`, with its state's hash at that place. It goes on
   until it is killed, or until its file fails: then it says so, and ends with 1. By every second
   seed what is written waits in memory for a sync, so that a kill loses it.

   `crash read FILE..` prints of each file what the reader says of it, and `crash copies` of each
   journal that standard input has, behind its length as eight bytes. `crash again FILE TO`
   writes the frames of a file into a new one. */
#include <inttypes.h>
#include <stdlib.h>
#include <unistd.h>

static ssize_t cached_write(int file, const void *bytes, size_t many);
static int cached_sync(int file);
#define write cached_write
#define fsync cached_sync
#define fdatasync cached_sync
#include "journal.h"
#undef write
#undef fdatasync

enum { WORKERS = 4, MOST_UNSAID = 256, LINE = 64, ITEMS = 32 };

/* ---- numbers that look random, by Marsaglia's xorshift */

static uint64_t below(uint64_t *dice, uint64_t many) {
    *dice ^= *dice << 13;
    *dice ^= *dice >> 7;
    *dice ^= *dice << 17;
    return (*dice >> 11) % many;
}

/* ---- a file behind a cache that a kill loses: what is written reaches it by a sync, and some
   before */

static struct {
    bool is_used;
    uint64_t dice;
    uint8_t kept[1 << 22];
    size_t many;
} cache;

/* Takes so many bytes of the cache to the file. What that has taken is there once, also where it
   takes no more. */
static bool flush(int file, size_t many) {
    while (many) {
        ssize_t more = write(file, cache.kept, many);
        if (more < 0) return false;
        many -= (size_t)more;
        cache.many -= (size_t)more;
        memmove(cache.kept, cache.kept + more, cache.many);
    }
    return true;
}

static ssize_t cached_write(int file, const void *bytes, size_t many) {
    if (!cache.is_used) return write(file, bytes, many);
    if (cache.many + many > sizeof cache.kept && !flush(file, cache.many)) return -1;
    memcpy(cache.kept + cache.many, bytes, many);
    cache.many += many;
    if (below(&cache.dice, 4) == 0 && !flush(file, (size_t)below(&cache.dice, cache.many + 1)))
        return -1;
    return (ssize_t)many;
}

static int cached_sync(int file) {
    if (cache.is_used) {
        struct timespec pause = {0, (long)below(&cache.dice, 3000) * 1000};
        nanosleep(&pause, NULL);
        if (!flush(file, cache.many)) return -1;
    }
    return fdatasync(file);
}

/* ---- what is replicated: how many messages there were, and a hash of all in their order */

struct state {
    uint64_t count, hash;
};

static const struct state none = {0, UINT64_C(0xcbf29ce484222325)};

static void mix(uint64_t *hash, uint64_t word) {
    *hash = (*hash ^ word) * UINT64_C(0x100000001b3);
}

static void apply(struct state *state, const kioskbasil_item *item) {
    state->count++;
    mix(&state->hash, item->sender);
    mix(&state->hash, item->number);
    mix(&state->hash, item->length);
    for (size_t i = 0; i < item->length; i++) mix(&state->hash, item->bytes[i]);
}

static void apply_frame(void *state, const struct kioskbasil_frame *frame) {
    for (size_t i = 0; i < frame->many; i++) apply(state, &frame->items[i]);
}

/* ---- a run */

struct worker {
    kioskbasil_sender sender;
    kioskbasil_receiver receiver;
    struct state state;
    uint64_t dice;
    uint32_t number;
    struct { uint64_t number, hash; } unsaid[MOST_UNSAID]; /* its messages that are applied */
    size_t many;
};

static struct kioskbasil_journal journal;
static struct worker workers[WORKERS];
static kioskbasil_receiver ear;
static struct bell bell = BELL_NEW;
static char path[JOURNAL_MOST_PATH];
static bool is_made;

/* The first thread that says why the program ends is the only one. */
static pthread_mutex_t ends = PTHREAD_MUTEX_INITIALIZER;

/* Ends the program with what the file could not. */
static void stop(void) {
    struct kioskbasil_safe safe = kioskbasil_journal_safe(&journal);
    const char *done = strcmp(journal.fault.call, "write") ? "synced" : "written";
    if (!is_made) done = "made";
    pthread_mutex_lock(&ends);
    fprintf(stderr, "crash: %s is not %s: %s (os error %d); safe are %" PRIu64, path, done,
            strerror(journal.fault.why), journal.fault.why, safe.frames);
    fprintf(stderr, " frames, up to place %" PRIu64 " and byte %" PRIu64 "\n", safe.place,
            safe.bytes);
    exit(1);
}

static void fail(const char *what, const char *why) {
    pthread_mutex_lock(&ends);
    fprintf(stderr, "crash: %s: %s\n", what, why);
    exit(1);
}

/* Applies what is there. Says whether there was something. */
static bool hear(struct worker *it) {
    kioskbasil_item items[ITEMS];
    size_t many = 0;
    hear_now(&it->receiver, items, ITEMS, &many, &bell);
    for (size_t i = 0; i < many; i++) {
        apply(&it->state, &items[i]);
        if (items[i].sender != it->number) continue;
        it->unsaid[it->many].number = items[i].number;
        it->unsaid[it->many++].hash = it->state.hash;
    }
    return many > 0;
}

static void hear_or_yield(struct worker *it) {
    if (!hear(it)) sched_yield();
}

/* Sends a batch of random messages, and hears up to the last of them. */
static void send_some(struct worker *it) {
    uint64_t last = 0;
    for (uint64_t left = 1 + below(&it->dice, 6); left; left--) {
        uint8_t message[KIOSKBASIL_MOST_BYTES];
        size_t length = (size_t)below(&it->dice, KIOSKBASIL_MOST_BYTES + 1);
        for (size_t i = 0; i < length; i++) message[i] = (uint8_t)below(&it->dice, 256);
        if (kioskbasil_put(&it->sender, message, length, &last)) fail("a put", "refused");
    }
    for (;;) {
        uint32_t code = send_now(&it->sender, &it->dice, NULL, &bell);
        if (code == KIOSKBASIL_DELIVERED) break;
        if (code == KIOSKBASIL_FULL)
            while (kioskbasil_has_room(&it->sender) != KIOSKBASIL_OK) hear_or_yield(it);
        else if (code != KIOSKBASIL_WAITING && code != KIOSKBASIL_BEHIND)
            fail("not sent", kioskbasil_text(code));
        else hear_or_yield(it);
    }
    while (!it->many || it->unsaid[it->many - 1].number < last) hear_or_yield(it);
}

/* Says what it has sent, once that is on disk. */
static void say(struct worker *it) {
    char text[MOST_UNSAID * LINE];
    int length = 0;
    kioskbasil_sender_shown shown;
    kioskbasil_show_sender(&it->sender, &shown);
    if (kioskbasil_journal_wait(&journal, shown.words)) stop();
    for (size_t i = 0; i < it->many; i++)
        length += sprintf(text + length, "durable %u %" PRIu64 " %016" PRIx64 "\n", it->number,
                          it->unsaid[i].number, it->unsaid[i].hash);
    it->many = 0;
    /* By one write, which a pipe takes whole. */
    if (write(STDOUT_FILENO, text, (size_t)length) < 0) fail("standard output", strerror(errno));
}

static void *work(void *given) {
    struct worker *it = given;
    for (;; say(it))
        for (uint64_t left = 1 + below(&it->dice, 5); left; left--) send_some(it);
    return it;
}

/* Records by one sync behind each frame, by one for those that are there, or by one a
   millisecond. */
static void *record(void *given) {
    static struct kioskbasil_frames frames;
    uint32_t code = KIOSKBASIL_OK;
    bool is_timed = journal.policy == JOURNAL_EVERY;
    while (code == KIOSKBASIL_OK || code == KIOSKBASIL_EMPTY) {
        if (is_timed) code = kioskbasil_journal_record_timeout(&journal, &ear, &frames, &bell, 1);
        else code = kioskbasil_journal_record_while(&journal, &ear, &frames, &bell, NULL, NULL);
        for (int more = 1; !is_timed && code == KIOSKBASIL_OK && more < 50; more++)
            if (kioskbasil_journal_record(&journal, &ear, &frames, &bell)) break;
        if (!is_timed || code == KIOSKBASIL_EMPTY) kioskbasil_journal_sync(&journal);
    }
    free_receiver(&ear, &bell);
    return given;
}

/* What the journals of a folder say; `path` is the file in which to go on. */
static struct state recover(const char *folder, kioskbasil_left *page) {
    static struct kioskbasil_journal_reader reader;
    struct state state = none;
    page->ended = true;
    for (unsigned number = 0;; number++) {
        uint32_t code;
        snprintf(path, sizeof path, "%s/journal.%u", folder, number);
        if (access(path, F_OK)) return state;
        code = kioskbasil_journal_recover(&reader, path, apply_frame, &state);
        if (code != KIOSKBASIL_OK) fail(path, kioskbasil_journal_text(code));
        code = kioskbasil_journal_page(&reader, page);
        if (code != KIOSKBASIL_OK) fail(path, kioskbasil_journal_text(code));
    }
}

/* Makes the next journal; with the cache by a file of its own. */
static void begin_journal(const kioskbasil_left *page, uint64_t seed, uint64_t *dice) {
    enum kioskbasil_sync_policy policy = (enum kioskbasil_sync_policy)below(dice, 3);
    struct kioskbasil_journal_header header;
    char begun[JOURNAL_MOST_PATH + 4];
    uint32_t code;
    int file;
    kioskbasil_journal_header_after(&header, WORKERS, page);
    if (seed % 2 == 0) {
        code = kioskbasil_journal_create(&journal, path, &header, policy, 1);
    } else {
        cache.is_used = true;
        cache.dice = below(dice, UINT64_MAX) | 1;
        snprintf(begun, sizeof begun, "%s.new", path);
        file = open(begun, O_WRONLY | O_CREAT | O_TRUNC, 0666);
        if (file < 0) fail(begun, strerror(errno));
        code = kioskbasil_journal_on(&journal, file, &header, policy, 1);
        if (code == KIOSKBASIL_OK && rename(begun, path)) fail(begun, strerror(errno));
    }
    if (code != KIOSKBASIL_OK) stop();
    is_made = true;
}

static void run(const char *folder, uint64_t seed) {
    static const uint64_t words[] = {64, 256, 4096, 65536};
    kioskbasil_sizes sizes = {.rounds = 2, .rows = 8, .ring = true};
    kioskbasil_sender senders[WORKERS] = {KIOSKBASIL_NONE};
    kioskbasil_receiver receivers[WORKERS + 1] = {KIOSKBASIL_NONE};
    kioskbasil_left page = {0};
    pthread_t thread;
    uint64_t dice = (seed * UINT64_C(0x9e3779b97f4a7c15)) | 1;
    struct state state = recover(folder, &page);
    printf("recovered %" PRIu64 " %016" PRIx64 "\n", state.count, state.hash);
    fflush(stdout);
    begin_journal(&page, seed, &dice);
    sizes.log_words = words[below(&dice, 4)];
    if (sizes.log_words < 513) sizes.batch = (sizes.log_words - 1) / 8;
    if (kioskbasil_open_after(&sizes, &page, senders, WORKERS, receivers, WORKERS + 1))
        fail("the bus", "not opened");
    ear = receivers[WORKERS];
    pthread_create(&thread, NULL, record, NULL);
    for (uint32_t i = 0; i < WORKERS; i++) {
        struct worker *it = &workers[i];
        it->sender = senders[i];
        it->receiver = receivers[i];
        it->state = state;
        it->number = i;
        it->dice = below(&dice, UINT64_MAX) | 1;
        pthread_create(&thread, NULL, work, it);
    }
    pthread_join(thread, NULL);
}

/* ---- what the reader says of files */

static struct kioskbasil_journal_reader reader;

/* Prints what the reader says that was opened with this code. */
static void tell(uint32_t code) {
    static const char *const ends[] = {"whole", "torn", "damaged"};
    struct state state = none;
    uint64_t hash = none.hash, frames = 0, words[JOURNAL_WORDS];
    kioskbasil_left page = {0};
    memcpy(page.next, reader.header.first, sizeof page.next); /* no file stands before it */
    for (; code == KIOSKBASIL_OK; frames += code == KIOSKBASIL_OK) {
        code = kioskbasil_journal_read(&reader);
        if (code != KIOSKBASIL_OK) break;
        size_t many = kioskbasil_frame_words(&reader.frame, words);
        for (size_t i = 0; i < many; i++) mix(&hash, words[i]);
        apply_frame(&state, &reader.frame);
    }
    kioskbasil_journal_done(&reader);
    switch (code) {
    case KIOSKBASIL_END: break;
    case JOURNAL_OTHER_MAGIC: puts("OtherMagic"); return;
    case JOURNAL_OTHER_VERSION: puts("OtherVersion"); return;
    case JOURNAL_TORN_HEADER: puts("TornHeader"); return;
    case JOURNAL_DAMAGED_HEADER: puts("DamagedHeader"); return;
    default: puts(kioskbasil_journal_text(code)); return;
    }
    printf("%s %" PRIu64 " page %s frames %" PRIu64 " %016" PRIx64 " place %" PRIu64,
           ends[reader.end - JOURNAL_WHOLE], reader.whole,
           kioskbasil_journal_page(&reader, &page) ? "no" : "yes", frames, hash, reader.log.place);
    printf(" state %" PRIu64 " %016" PRIx64 " next", state.count, state.hash);
    for (size_t i = 0; i < reader.log.senders; i++) printf(" %" PRIu64, reader.log.next[i]);
    puts("");
}

/* Reads each journal that standard input has, through a file of no name. */
static int read_copies(void) {
    static uint8_t bytes[1 << 24];
    uint8_t length[8];
    FILE *file = tmpfile();
    if (!file) return 1;
    while (fread(length, 8, 1, stdin)) {
        size_t many = (size_t)journal_word(length);
        int copy = fileno(file);
        if (many > sizeof bytes || fread(bytes, 1, many, stdin) != many) return 1;
        if (ftruncate(copy, 0) || pwrite(copy, bytes, many, 0) != (ssize_t)many) return 1;
        if (lseek(copy, 0, SEEK_SET)) return 1;
        tell(kioskbasil_journal_open_on(&reader, dup(copy)));
    }
    return fclose(file);
}

/* Writes the frames of a file into a new one. */
static int write_again(const char *from, const char *to) {
    uint32_t code = kioskbasil_journal_open(&reader, from);
    if (code) return 1;
    if (kioskbasil_journal_create(&journal, to, &reader.header, JOURNAL_NEVER, 0)) return 1;
    while ((code = kioskbasil_journal_read(&reader)) == KIOSKBASIL_OK)
        if (kioskbasil_journal_write(&journal, &reader.frame)) return 1;
    kioskbasil_journal_done(&reader);
    return code != KIOSKBASIL_END || kioskbasil_journal_close(&journal);
}

int main(int many, char **words) {
    const char *name = many > 1 ? words[1] : "";
    if (many == 4 && !strcmp(name, "run")) return run(words[2], strtoull(words[3], NULL, 10)), 1;
    if (many == 4 && !strcmp(name, "again")) return write_again(words[2], words[3]);
    if (many == 2 && !strcmp(name, "copies")) return read_copies();
    if (many > 1 && !strcmp(name, "read")) {
        for (int i = 2; i < many; i++) tell(kioskbasil_journal_open(&reader, words[i]));
        return 0;
    }
    fputs("usage: crash run FOLDER SEED | crash read FILE.. | crash copies | crash again FILE TO\n",
          stderr);
    return 2;
}
