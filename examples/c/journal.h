/* Journals: the frames of a log on disk, each with a checksum, in the order of the log. It
   stands on waiting.h, and builds as that does. Copy it beside that, or install a release, where
   it is kioskbasil_journal.h. docs/FORMATS.md has the bytes, which the Rust crate and `bus
   journal` read and write too. No call takes memory.

   A receiver of its own hears the bus by whole frames, and a journal appends each to a file.
   After a crash kioskbasil_journal_recover gives all whole frames back, and says how the file
   ends behind them. kioskbasil_journal_page makes of that the page with which the next bus goes
   on.

   A sitting has a file of its own, since a next bus begins its log and its tenures anew. So a
   program reads all its files in their order, and begins one more: examples/c/journal.c does.
   Nothing appends to a file that was closed. Where a write has failed, or a file is too long, the
   same bus goes on in a next one by kioskbasil_journal_next_header.

   One program at a time has a folder of journals, and nothing locks it. A second one would read a
   file that the first still writes, and give its numbers again. Whoever makes the folder syncs
   the one above it: a new folder may be lost in a crash, with all that is in it.

   Behind a sync a frame is on disk, and only then: kioskbasil_journal_safe and _wait tell up to
   where. So who answers somebody waits for that place before. What was not synced may be lost in
   a crash, and its numbers are given again then. One sync may serve many frames.

   A ring waits for the receiver that records, as for each, so a slow disk holds the senders up
   once the ring is full. Where recording has failed give its receiver up, so that the bus goes
   on: _wait tells the workers.

   All of this is tested, and not proved. That the file system keeps what was synced is trusted,
   and that SHA-256 tells bytes apart. */
#ifndef KIOSKBASIL_JOURNAL_H
#define KIOSKBASIL_JOURNAL_H

#include "waiting.h"
#include <errno.h>
#include <fcntl.h>
#include <stdio.h>
#include <sys/stat.h>

/* What a call answers beside the codes of kioskbasil.h, and how a file ends. */
enum {
    JOURNAL_FAILED = 112,         /* a call of the system failed: `fault` says which */
    JOURNAL_NOT_NEXT = 113,       /* the frame is not the next of the log; nothing was written */
    JOURNAL_CLOSED = 114,         /* the journal was closed before */
    JOURNAL_BAD_HEADER = 115,     /* create: a number of the header is out of its range */
    JOURNAL_OTHER_MAGIC = 116,    /* the file does not begin as a journal does */
    JOURNAL_OTHER_VERSION = 117,  /* it is a journal of another version */
    JOURNAL_TORN_HEADER = 118,    /* it ends within its header */
    JOURNAL_DAMAGED_HEADER = 119, /* its header says what none does, or its checksum fails */
    JOURNAL_NOT_READ = 120,       /* page: the file was not read to its end */
    JOURNAL_WHOLE = 121,          /* nothing stands behind the last whole record */
    JOURNAL_TORN = 122,   /* less than a record does, zeros at the end not counted: what a crash
                             within a write leaves, and also damage of a head that tells of more
                             bytes than there are */
    JOURNAL_DAMAGED = 123, /* anything else does: bytes have changed, or a record is missing. Of
                              page and repair also: it looks torn, and hides a whole record */
    JOURNAL_CHANGED = 124, /* repair: the file has other bytes than were read, since somebody
                              writes it */
    JOURNAL_GAP = 125      /* page: its first numbers are not those of the page before: a file
                              is missing or comes twice, or two programs ran at once */
};

enum {
    JOURNAL_WORDS = 1 + KIOSKBASIL_MOST_MESSAGES * (1 + KIOSKBASIL_MOST_BYTES / 8), /* 513 */
    JOURNAL_MOST_RECORD = 8 * (JOURNAL_WORDS + 1),
    JOURNAL_INPUT = 4 * JOURNAL_MOST_RECORD,
    JOURNAL_MOST_PATH = 4096,
    JOURNAL_MOST_TAIL = 64 /* behind a path while its file is made */
};

/* When kioskbasil_journal_write syncs. */
enum kioskbasil_sync_policy {
    JOURNAL_EACH_FRAME, /* behind each frame */
    JOURNAL_EVERY,      /* behind a frame, if the last sync is so many milliseconds ago. Where no
                           frame follows, the last ones wait for kioskbasil_journal_sync */
    JOURNAL_NEVER       /* by kioskbasil_journal_sync alone */
};

/* A frame of the order: what one sender has sent in one tenure. */
struct kioskbasil_frame {
    uint64_t tenure;
    uint64_t place; /* of its first word in the log */
    uint32_t what;  /* KIOSKBASIL_ITEM; or LEAVE: its owner has left; or END: the order has ended */
    uint8_t owner;
    size_t many; /* items: 1 to 64, and none of a leave or the end */
    kioskbasil_item items[KIOSKBASIL_MOST_MESSAGES];
};

/* A receiver that hears by frames. It starts as zeros, and each receiver has its own. `frame` is
   the one that was heard last; the other fields are the functions'. */
struct kioskbasil_frames {
    struct kioskbasil_frame frame;
    bool is_begun; /* the head of the next one was heard behind it */
    uint8_t owner;
    uint64_t tenure, place;
};

/* What a journal begins with. */
struct kioskbasil_journal_header {
    size_t senders;                          /* 1 to 64 */
    uint64_t most;                           /* messages of a batch, 1 to 64; here 64 */
    uint64_t place;                          /* in the log, of the file's first word; below 2^63 */
    uint64_t first[KIOSKBASIL_MOST_SENDERS]; /* the first number of each sender */
};

/* Where a log has come to. */
struct kioskbasil_journal_log {
    size_t senders;
    uint64_t most;
    uint64_t place;                         /* behind its last frame */
    uint64_t tenures;                       /* one above the tenure of that */
    uint64_t next[KIOSKBASIL_MOST_SENDERS]; /* the number that the next item of each would have */
    bool left[KIOSKBASIL_MOST_SENDERS];     /* who has left */
    bool ended;                             /* the order has ended */
};

/* Which call of the system has failed. */
struct kioskbasil_fault {
    const char *call; /* its name; "create" where the file is there already */
    int why;          /* errno */
    uint64_t byte;    /* of the file: where a write or read stopped, or what a sync was to reach */
};

/* Up to where a log is known to be on disk, in one file. */
struct kioskbasil_safe {
    uint64_t place;  /* all words of the log before it, from the place of the header on */
    uint64_t frames; /* how many these are */
    uint64_t bytes;  /* of the file, with its header; 0 of one that was not made */
};

/* A journal that is written. One thread at a time writes, and others may ask _safe and _wait. Its
   place stays the same, also for these. `fault` may be read after JOURNAL_FAILED, and the other
   fields are the functions'. */
struct kioskbasil_journal {
    struct kioskbasil_fault fault;
    int file;
    enum kioskbasil_sync_policy policy;
    int64_t every, synced_at; /* nanoseconds */
    struct kioskbasil_journal_log log;
    struct kioskbasil_safe written;
    uint8_t record[JOURNAL_MOST_RECORD];
    pthread_mutex_t lock;
    pthread_cond_t changed;
    struct kioskbasil_safe safe;
    uint32_t code; /* what each further call answers, once it is not OK */
};

/* A journal that is read. These may be looked at: */
struct kioskbasil_journal_reader {
    struct kioskbasil_journal_header header;
    struct kioskbasil_frame frame;     /* the last one */
    struct kioskbasil_journal_log log; /* behind that */
    uint32_t end;    /* 0, or behind the last whole record JOURNAL_WHOLE, TORN or DAMAGED */
    uint64_t whole;  /* bytes of header and whole records: there begins what is torn or damaged */
    uint64_t version;              /* of JOURNAL_OTHER_VERSION */
    struct kioskbasil_fault fault; /* of JOURNAL_FAILED */
    /* These are the functions'. */
    bool hides; /* it looks torn, and a whole record stands there */
    uint32_t code;
    int file;
    uint64_t taken;     /* bytes that were read */
    size_t begin, many; /* those of `input` that were not looked at yet */
    uint8_t input[JOURNAL_INPUT];
};

/* ---- frames */

/* The word with which a mark says what it says. */
static inline uint64_t journal_mark(uint32_t what) {
    return UINT64_C(3) << 62 | (what == KIOSKBASIL_LEAVE);
}

/* The bytes of an item that word number `at` has, the highest first. */
static inline uint64_t journal_data(const kioskbasil_item *item, size_t at) {
    uint64_t word = 0;
    for (size_t i = 8 * at; i < 8 * at + 8; i++)
        word = word << 8 | (i < item->length ? item->bytes[i] : 0u);
    return word;
}

/* Writes the words of a frame, as they stand in the log, and gives how many they are: at most 513.
   Its items are 64 at most, of 56 bytes at most. */
static inline size_t kioskbasil_frame_words(const struct kioskbasil_frame *frame,
                                            uint64_t *words) {
    size_t many = 1;
    if (frame->what != KIOSKBASIL_ITEM) words[many++] = journal_mark(frame->what);
    for (size_t i = 0; i < frame->many; i++) {
        const kioskbasil_item *item = &frame->items[i];
        words[many++] = UINT64_C(2) << 62 | (uint64_t)item->length << 54 | item->number;
        for (size_t at = 0; 8 * at < item->length; at++) words[many++] = journal_data(item, at);
    }
    words[0] = UINT64_C(1) << 62 | (uint64_t)frame->owner << 54 | (uint64_t)(many - 1) << 40 |
               frame->tenure;
    return many;
}

/* A frame is whole. */
static inline uint32_t journal_heard(struct kioskbasil_frames *it, uint32_t what) {
    it->frame.tenure = it->tenure;
    it->frame.owner = it->owner;
    it->frame.place = it->place;
    it->frame.what = what;
    it->is_begun = false;
    return KIOSKBASIL_OK;
}

/* The head of the next frame was heard. */
static inline void journal_begin_frame(kioskbasil_receiver *receiver, struct kioskbasil_frames *it,
                                       const kioskbasil_heard *heard) {
    kioskbasil_receiver_shown shown = {0, 0, false, 0};
    kioskbasil_show_receiver(receiver, &shown);
    it->is_begun = true;
    it->tenure = heard->tenure;
    it->owner = heard->owner;
    it->place = shown.place - 1;
}

/* Takes turns up to a whole frame: behind its items those that are answered GOING, which pass it,
   and the head of the next one, or EMPTY. */
static inline uint32_t journal_hear(kioskbasil_receiver *receiver, struct kioskbasil_frames *it) {
    struct kioskbasil_frame *frame = &it->frame;
    kioskbasil_heard heard;
    frame->many = 0;
    for (;;) {
        uint32_t code = kioskbasil_hear_once(receiver, &heard);
        if (code == KIOSKBASIL_HEAD && it->is_begun) {
            journal_heard(it, KIOSKBASIL_ITEM);
            journal_begin_frame(receiver, it, &heard);
            return KIOSKBASIL_OK;
        }
        if (code == KIOSKBASIL_HEAD) {
            frame->many = 0;
            journal_begin_frame(receiver, it, &heard);
        } else if (code == KIOSKBASIL_ITEM) {
            if (frame->many < KIOSKBASIL_MOST_MESSAGES) frame->items[frame->many++] = heard.item;
        } else if (code == KIOSKBASIL_LEAVE) {
            frame->many = 0;
            if (it->is_begun) return journal_heard(it, code);
        } else if (code != KIOSKBASIL_GOING) {
            if (!it->is_begun || kioskbasil_refused(code)) return code;
            return journal_heard(it, frame->many ? (uint32_t)KIOSKBASIL_ITEM : code);
        }
    }
}

/* The next whole frame that is there, in it->frame: OK; EMPTY where there is nothing more by
   now; END once the order has ended and all was given, of which the last frame tells. Waits for
   nothing, and rings where the receiver has passed words of a ring.

   Who hears by frames hears by frames alone, from the first item on. A frame of which another
   call has taken the head or an item is passed over. */
static inline uint32_t kioskbasil_try_frame(kioskbasil_receiver *receiver,
                                            struct kioskbasil_frames *it, struct bell *bell) {
    kioskbasil_receiver_shown before = {0, 0, false, 0}, after;
    uint32_t code;
    if (!receiver || !it) return KIOSKBASIL_NULL;
    code = kioskbasil_show_receiver(receiver, &before);
    if (code != KIOSKBASIL_OK) return code;
    if (before.place != it->place + 1) it->is_begun = false; /* another call has gone on */
    code = journal_hear(receiver, it);
    after = before;
    kioskbasil_show_receiver(receiver, &after);
    if (bell && after.passed != before.passed) bell_ring(bell);
    return code;
}

/* ---- SHA-256, as FIPS 180-4 has it */

struct journal_sha {
    uint32_t state[8];
    uint64_t length;
    uint8_t block[64];
};

static inline uint32_t journal_turned(uint32_t word, unsigned by) {
    return word >> by | word << (32 - by);
}

/* The words of a block, and those that are made of them. */
static inline void journal_schedule(const uint8_t *block, uint32_t *words) {
    for (size_t i = 0; i < 16; i++)
        words[i] = (uint32_t)block[4 * i] << 24 | (uint32_t)block[4 * i + 1] << 16 |
                   (uint32_t)block[4 * i + 2] << 8 | block[4 * i + 3];
    for (size_t i = 16; i < 64; i++) {
        uint32_t early = words[i - 15], late = words[i - 2];
        uint32_t low = journal_turned(early, 7) ^ journal_turned(early, 18) ^ early >> 3;
        uint32_t high = journal_turned(late, 17) ^ journal_turned(late, 19) ^ late >> 10;
        words[i] = words[i - 16] + low + words[i - 7] + high;
    }
}

/* Mixes a block into the state. */
static inline void journal_mix(uint32_t *state, const uint8_t *block) {
    /* The first 32 bits of the fractions of the cube roots of the first 64 primes. */
    static const uint32_t rounds[64] = {
        0x428a2f98, 0x71374491, 0xb5c0fbcf, 0xe9b5dba5, 0x3956c25b, 0x59f111f1, 0x923f82a4,
        0xab1c5ed5, 0xd807aa98, 0x12835b01, 0x243185be, 0x550c7dc3, 0x72be5d74, 0x80deb1fe,
        0x9bdc06a7, 0xc19bf174, 0xe49b69c1, 0xefbe4786, 0x0fc19dc6, 0x240ca1cc, 0x2de92c6f,
        0x4a7484aa, 0x5cb0a9dc, 0x76f988da, 0x983e5152, 0xa831c66d, 0xb00327c8, 0xbf597fc7,
        0xc6e00bf3, 0xd5a79147, 0x06ca6351, 0x14292967, 0x27b70a85, 0x2e1b2138, 0x4d2c6dfc,
        0x53380d13, 0x650a7354, 0x766a0abb, 0x81c2c92e, 0x92722c85, 0xa2bfe8a1, 0xa81a664b,
        0xc24b8b70, 0xc76c51a3, 0xd192e819, 0xd6990624, 0xf40e3585, 0x106aa070, 0x19a4c116,
        0x1e376c08, 0x2748774c, 0x34b0bcb5, 0x391c0cb3, 0x4ed8aa4a, 0x5b9cca4f, 0x682e6ff3,
        0x748f82ee, 0x78a5636f, 0x84c87814, 0x8cc70208, 0x90befffa, 0xa4506ceb, 0xbef9a3f7,
        0xc67178f2};
    uint32_t words[64], at[8];
    journal_schedule(block, words);
    memcpy(at, state, sizeof at);
    for (size_t i = 0; i < 64; i++) {
        uint32_t a = at[0], e = at[4];
        uint32_t high = journal_turned(e, 6) ^ journal_turned(e, 11) ^ journal_turned(e, 25);
        uint32_t low = journal_turned(a, 2) ^ journal_turned(a, 13) ^ journal_turned(a, 22);
        uint32_t chosen = (e & at[5]) ^ (~e & at[6]);
        uint32_t most = (a & at[1]) ^ (a & at[2]) ^ (at[1] & at[2]);
        uint32_t first = at[7] + high + chosen + rounds[i] + words[i];
        memmove(at + 1, at, 7 * sizeof *at);
        at[4] += first;
        at[0] = first + low + most;
    }
    for (size_t i = 0; i < 8; i++) state[i] += at[i];
}

static inline void journal_sha_begin(struct journal_sha *sha) {
    /* The same of the square roots of the first 8 primes. */
    static const uint32_t begin[8] = {0x6a09e667, 0xbb67ae85, 0x3c6ef372, 0xa54ff53a,
                                      0x510e527f, 0x9b05688c, 0x1f83d9ab, 0x5be0cd19};
    memcpy(sha->state, begin, sizeof begin);
    sha->length = 0;
}

static inline void journal_sha_add(struct journal_sha *sha, const uint8_t *bytes, size_t many) {
    while (many) {
        size_t filled = (size_t)(sha->length % 64);
        size_t more = many < 64 - filled ? many : 64 - filled;
        memcpy(sha->block + filled, bytes, more);
        if (filled + more == 64) journal_mix(sha->state, sha->block);
        sha->length += more;
        bytes += more;
        many -= more;
    }
}

/* Writes a word as eight bytes, the highest first. */
static inline void journal_put_word(uint8_t *bytes, uint64_t word) {
    for (unsigned i = 0; i < 8; i++) bytes[i] = (uint8_t)(word >> (56 - 8 * i));
}

static inline uint64_t journal_word(const uint8_t *bytes) {
    uint64_t word = 0;
    for (unsigned i = 0; i < 8; i++) word = word << 8 | bytes[i];
    return word;
}

/* The digest of all bytes that were added. */
static inline void journal_sha_end(struct journal_sha *sha, uint8_t *digest) {
    uint64_t bits = 8 * sha->length;
    size_t filled = (size_t)(sha->length % 64);
    sha->block[filled] = 0x80;
    memset(sha->block + filled + 1, 0, 63 - filled);
    if (filled >= 56) {
        journal_mix(sha->state, sha->block);
        memset(sha->block, 0, 64);
    }
    journal_put_word(sha->block + 56, bits);
    journal_mix(sha->state, sha->block);
    for (unsigned i = 0; i < 32; i++)
        digest[i] = (uint8_t)(sha->state[i / 4] >> (24 - 8 * (i % 4)));
}

/* ---- bytes of headers and records */

/* The checksum of these bytes, behind a place where they are a record's. It ends with no zero. */
static inline void journal_checksum(const uint64_t *place, const uint8_t *bytes, size_t many,
                                    uint8_t *sum) {
    struct journal_sha sha;
    uint8_t digest[32];
    journal_sha_begin(&sha);
    if (place) {
        journal_put_word(digest, *place);
        journal_sha_add(&sha, digest, 8);
    }
    journal_sha_add(&sha, bytes, many);
    journal_sha_end(&sha, digest);
    memcpy(sum, digest, 8);
    sum[7] |= 3;
}

/* The checksum at the end of these bytes holds. */
static inline bool journal_has_checksum(const uint64_t *place, const uint8_t *bytes, size_t many) {
    uint8_t sum[8];
    journal_checksum(place, bytes, many - 8, sum);
    return !memcmp(sum, bytes + many - 8, 8);
}

/* How many bytes the header has of a bus of so many senders. */
static inline size_t journal_header_length(size_t senders) { return 48 + 8 * senders; }

/* The header of the log of a bus of so many senders that was opened after this page, from its
   first word on. KIOSKBASIL_OK, or BAD_SENDERS where they are not 1 to 64. */
static inline uint32_t kioskbasil_journal_header_after(struct kioskbasil_journal_header *header,
                                                       size_t senders,
                                                       const kioskbasil_left *page) {
    if (!header || !page) return KIOSKBASIL_NULL;
    if (!senders || senders > KIOSKBASIL_MOST_SENDERS) return KIOSKBASIL_BAD_SENDERS;
    memset(header, 0, sizeof *header);
    header->senders = senders;
    header->most = KIOSKBASIL_MOST_MESSAGES;
    memcpy(header->first, page->next, senders * sizeof *header->first);
    return KIOSKBASIL_OK;
}

static inline bool journal_is_header(const struct kioskbasil_journal_header *header) {
    return header->senders >= 1 && header->senders <= KIOSKBASIL_MOST_SENDERS &&
           header->most >= 1 && header->most <= KIOSKBASIL_MOST_MESSAGES &&
           header->place >> 63 == 0;
}

/* Writes a header, and gives how many bytes it has. */
static inline size_t journal_put_header(const struct kioskbasil_journal_header *header,
                                        uint8_t *bytes) {
    size_t length = journal_header_length(header->senders);
    memcpy(bytes, "KIOSKLOG", 8);
    journal_put_word(bytes + 8, 1);
    journal_put_word(bytes + 16, header->senders);
    journal_put_word(bytes + 24, header->most);
    journal_put_word(bytes + 32, header->place);
    for (size_t i = 0; i < header->senders; i++)
        journal_put_word(bytes + 40 + 8 * i, header->first[i]);
    journal_checksum(NULL, bytes, length - 8, bytes + length - 8);
    return length;
}

/* The header of so many bytes. False where it says what none does. */
static inline bool journal_take_header(struct kioskbasil_journal_header *header,
                                       const uint8_t *bytes, size_t length) {
    header->senders = (length - 48) / 8;
    header->most = journal_word(bytes + 24);
    header->place = journal_word(bytes + 32);
    for (size_t i = 0; i < header->senders; i++)
        header->first[i] = journal_word(bytes + 40 + 8 * i);
    return journal_is_header(header) && journal_has_checksum(NULL, bytes, length);
}

/* ---- with which frames a log goes on */

/* The log of a file that has its header alone. */
static inline void journal_begin_log(struct kioskbasil_journal_log *log,
                                     const struct kioskbasil_journal_header *header) {
    memset(log, 0, sizeof *log);
    log->senders = header->senders;
    log->most = header->most;
    log->place = header->place;
    memcpy(log->next, header->first, header->senders * sizeof *log->next);
}

/* How many bytes the record has with whose head these begin. 0 where that is no head. */
static inline size_t journal_record_length(const struct kioskbasil_journal_log *log,
                                           const uint8_t *bytes, size_t many) {
    uint64_t head = many < 8 ? 0 : journal_word(bytes), count = head >> 40 & 0x3fff;
    if (head >> 62 != 1 || (head >> 54 & 0xff) >= log->senders) return 0;
    return count && count <= 8 * log->most ? 8 * ((size_t)count + 2) : 0;
}

/* The message that so many words begin with; gives how many it has, or 0 where it is bad. */
static inline size_t journal_take_item(kioskbasil_item *item, const uint8_t *bytes, size_t words) {
    uint64_t word = journal_word(bytes);
    size_t length = (size_t)(word >> 54 & 0xff), data = (length + 7) / 8;
    if (word >> 62 != 2 || length > KIOSKBASIL_MOST_BYTES || word >> 48 & 0x3f) return 0;
    if (data >= words) return 0;
    for (size_t i = length; i < 8 * data; i++)
        if (bytes[8 + i]) return 0;
    memset(item, 0, sizeof *item);
    item->number = word & ((UINT64_C(1) << 48) - 1);
    item->length = (uint8_t)length;
    memcpy(item->bytes, bytes + 8, length);
    return 1 + data;
}

/* What so many words behind a head say. False where they are bad. */
static inline bool journal_take_body(struct kioskbasil_frame *frame, const uint8_t *bytes,
                                     size_t words) {
    uint64_t first = journal_word(bytes);
    frame->what = KIOSKBASIL_ITEM;
    frame->many = 0;
    if (words == 1 && first >> 62 == 3) {
        frame->what = first & 1 ? KIOSKBASIL_LEAVE : KIOSKBASIL_END;
        return first == journal_mark(frame->what);
    }
    while (words) {
        kioskbasil_item *item = &frame->items[frame->many];
        size_t taken = 0;
        if (frame->many < KIOSKBASIL_MOST_MESSAGES) taken = journal_take_item(item, bytes, words);
        if (!taken) return false;
        item->sender = frame->owner;
        frame->many++;
        bytes += 8 * taken;
        words -= taken;
    }
    return true;
}

/* The frame of a record of so many bytes, of which journal_record_length has said how many. False
   where its checksum fails, or the log does not go on with it. */
static inline bool journal_take_record(const struct kioskbasil_journal_log *log,
                                       const uint8_t *record, size_t length,
                                       struct kioskbasil_frame *frame) {
    uint64_t head = journal_word(record);
    if (!journal_has_checksum(&log->place, record, length)) return false;
    frame->owner = (uint8_t)(head >> 54);
    frame->tenure = head & ((UINT64_C(1) << 40) - 1);
    frame->place = log->place;
    if (log->ended || log->left[frame->owner] || frame->tenure < log->tenures) return false;
    return journal_take_body(frame, record + 8, length / 8 - 2);
}

/* The log goes on with this frame, which has so many words. */
static inline void journal_take(struct kioskbasil_journal_log *log,
                                const struct kioskbasil_frame *frame, size_t words) {
    log->place += words;
    log->tenures = frame->tenure + 1;
    if (frame->what == KIOSKBASIL_LEAVE) log->left[frame->owner] = true;
    if (frame->what == KIOSKBASIL_END) log->ended = true;
    for (size_t i = 0; i < frame->many; i++) {
        uint64_t *next = &log->next[frame->owner];
        if (frame->items[i].number >= *next) *next = frame->items[i].number + 1;
    }
}

/* The frame is the next of the log, by its own fields. */
static inline bool journal_is_next(const struct kioskbasil_journal_log *log,
                                   const struct kioskbasil_frame *frame) {
    bool is_mark = frame->what == KIOSKBASIL_LEAVE || frame->what == KIOSKBASIL_END;
    if (log->ended || frame->place != log->place || frame->owner >= log->senders) return false;
    if (log->left[frame->owner] || frame->tenure < log->tenures) return false;
    if (frame->tenure >> 40) return false;
    if (is_mark) return !frame->many;
    if (frame->what != KIOSKBASIL_ITEM || !frame->many) return false;
    if (frame->many > KIOSKBASIL_MOST_MESSAGES) return false;
    for (size_t i = 0; i < frame->many; i++) {
        const kioskbasil_item *item = &frame->items[i];
        if (item->number != log->next[frame->owner] + i || item->number >> 48) return false;
        if (item->sender != frame->owner || item->length > KIOSKBASIL_MOST_BYTES) return false;
    }
    return true;
}

/* Writes the record of a frame, and gives how many words that has: 0 where it is not the next. */
static inline size_t journal_put_record(const struct kioskbasil_journal_log *log,
                                        const struct kioskbasil_frame *frame, uint8_t *record) {
    uint64_t words[JOURNAL_WORDS];
    size_t many;
    if (!journal_is_next(log, frame)) return 0;
    many = kioskbasil_frame_words(frame, words);
    if (many - 1 > 8 * log->most) return 0;
    for (size_t i = 0; i < many; i++) journal_put_word(record + 8 * i, words[i]);
    journal_checksum(&log->place, record, 8 * many, record + 8 * many);
    return many;
}

/* A whole record of a later place stands in these bytes, which look torn. So they are no torn
   end: a head was damaged, and tells of too many bytes. */
static inline bool journal_has_record_in(const struct kioskbasil_journal_log *log,
                                         const uint8_t *rest, size_t many) {
    for (size_t at = 8; at < many; at += 8) {
        size_t length = journal_record_length(log, rest + at, many - at);
        if (!length || length > many - at) continue;
        /* As many words stand before it, less the checksums of one record or more. */
        for (uint64_t words = 1; words < at / 8; words++) {
            uint64_t place = log->place + words;
            if (journal_has_checksum(&place, rest + at, length)) return true;
        }
    }
    return false;
}

/* ---- calls of the system */

static inline void journal_note(struct kioskbasil_fault *fault, const char *call, uint64_t byte) {
    fault->call = call;
    fault->why = errno;
    fault->byte = byte;
}

static inline int journal_open_file(const char *path, int how) {
    int file;
    do file = open(path, how | O_CLOEXEC, 0666);
    while (file < 0 && errno == EINTR);
    return file;
}

/* Writes all of these bytes, or as many as it can: *done says how many. */
static inline bool journal_write_all(int file, const uint8_t *bytes, size_t many, size_t *done) {
    for (*done = 0; *done < many;) {
        ssize_t more = write(file, bytes + *done, many - *done);
        if (more > 0) *done += (size_t)more;
        else if (!more) errno = EIO;
        if (more <= 0 && errno != EINTR) return false;
    }
    return true;
}

/* Brings a file to disk, by fsync or by this other function. */
static inline bool journal_sync_file(int file, int (*sync)(int file)) {
    int status;
    do status = sync(file);
    while (status && errno == EINTR);
    return !status;
}

/* ---- writing */

/* The journal writes no more; whoever waits is told. */
static inline uint32_t journal_stop(struct kioskbasil_journal *it, uint32_t code) {
    pthread_mutex_lock(&it->lock);
    it->code = code;
    pthread_mutex_unlock(&it->lock);
    pthread_cond_broadcast(&it->changed);
    return code;
}

static inline uint32_t journal_fail(struct kioskbasil_journal *it, const char *call,
                                    uint64_t byte) {
    journal_note(&it->fault, call, byte);
    return journal_stop(it, JOURNAL_FAILED);
}

/* All that was written is on disk; whoever waits is told. */
static inline void journal_raise(struct kioskbasil_journal *it) {
    pthread_mutex_lock(&it->lock);
    it->safe = it->written;
    pthread_mutex_unlock(&it->lock);
    pthread_cond_broadcast(&it->changed);
}

/* A write has failed, behind so many bytes. What was written whole before is brought to disk by
   one sync, so that a next file may begin behind it. Nothing more is asked of the file. */
static inline uint32_t journal_fail_write(struct kioskbasil_journal *it, size_t done) {
    journal_note(&it->fault, "write", it->written.bytes + done);
    if (it->written.bytes != it->safe.bytes && journal_sync_file(it->file, fdatasync))
        journal_raise(it);
    return journal_stop(it, JOURNAL_FAILED);
}

/* A journal on this file, which is -1 where there is none yet, with its header in `record`, of so
   many bytes. What is no header is refused for good: no call does anything then but close. */
static inline uint32_t journal_begin(struct kioskbasil_journal *it, int file,
                                     const struct kioskbasil_journal_header *header,
                                     enum kioskbasil_sync_policy policy, unsigned milliseconds) {
    pthread_condattr_t clock;
    memset(it, 0, sizeof *it);
    it->file = file;
    it->policy = policy;
    it->every = (int64_t)milliseconds * 1000000;
    pthread_mutex_init(&it->lock, NULL);
    pthread_condattr_init(&clock);
    pthread_condattr_setclock(&clock, CLOCK_MONOTONIC);
    pthread_cond_init(&it->changed, &clock);
    pthread_condattr_destroy(&clock);
    if (!header) return journal_stop(it, KIOSKBASIL_NULL);
    if (!journal_is_header(header)) return journal_stop(it, JOURNAL_BAD_HEADER);
    journal_begin_log(&it->log, header);
    it->written.place = header->place;
    it->written.bytes = journal_put_header(header, it->record);
    it->synced_at = waiting_clock();
    return KIOSKBASIL_OK;
}

/* Writes the header, and brings it to disk. */
static inline uint32_t journal_write_header(struct kioskbasil_journal *it) {
    size_t done;
    if (!journal_write_all(it->file, it->record, (size_t)it->written.bytes, &done))
        return journal_fail(it, "write", done);
    if (!journal_sync_file(it->file, fsync)) return journal_fail(it, "fsync", it->written.bytes);
    return KIOSKBASIL_OK;
}

/* Brings the folder of a path to disk, so that the file is found there. It writes into `path`. */
static inline uint32_t journal_sync_folder(struct kioskbasil_journal *it, char *path) {
    char *slash = strrchr(path, '/');
    bool is_synced;
    int folder;
    if (slash == path) slash++;
    if (slash) *slash = 0;
    folder = journal_open_file(slash ? path : ".", O_RDONLY);
    if (folder < 0) return journal_fail(it, "open", it->written.bytes);
    is_synced = journal_sync_file(folder, fsync);
    if (!is_synced) journal_fail(it, "fsync", it->written.bytes);
    close(folder);
    return it->code;
}

/* Makes a file that nobody else has, under a name of its own, which it writes into `begun`. */
static inline uint32_t journal_open_new(struct kioskbasil_journal *it, const char *path,
                                        char *begun, size_t room) {
    errno = ENAMETOOLONG;
    if (strlen(path) + JOURNAL_MOST_TAIL > room) return journal_fail(it, "open", 0);
    for (unsigned number = 0; it->file < 0; number++) {
        snprintf(begun, room, "%s.%ld.%u.new", path, (long)getpid(), number);
        it->file = journal_open_file(begun, O_WRONLY | O_CREAT | O_EXCL);
        if (it->file < 0 && errno != EEXIST) return journal_fail(it, "open", 0);
    }
    return KIOSKBASIL_OK;
}

/* Writes the header to the file that was made, and gives it its name, unless that is there. */
static inline uint32_t journal_place(struct kioskbasil_journal *it, const char *begun,
                                     const char *path) {
    uint32_t code = journal_write_header(it);
    if (code != KIOSKBASIL_OK || !link(begun, path)) return code;
    if (errno == EEXIST) return journal_fail(it, "create", 0);
    return journal_fail(it, "link", it->written.bytes);
}

/* Makes the file, which is there whole under its name, or not at all. */
static inline uint32_t journal_make(struct kioskbasil_journal *it, const char *path) {
    char begun[JOURNAL_MOST_PATH];
    uint32_t code = journal_open_new(it, path, begun, sizeof begun);
    if (code != KIOSKBASIL_OK) return code;
    code = journal_place(it, begun, path);
    unlink(begun);
    return code == KIOSKBASIL_OK ? journal_sync_folder(it, begun) : code;
}

/* Makes a file with this header, and brings it to disk under its name: a crash leaves a whole
   header, or no file of this name. Until then its name is PATH.PROCESS.NUMBER.new, which a crash
   may leave behind; then it is given its own by a hard link. So a file that is there is never
   replaced, nor one that another program makes meanwhile. The folder is synced, and not the one
   above it. `milliseconds` are of JOURNAL_EVERY alone.
   KIOSKBASIL_OK, JOURNAL_BAD_HEADER, or JOURNAL_FAILED: a file of this name is there (EEXIST),
   or it could not be made. Where the sync of the folder failed it stays, without a frame: so a
   further try is answered EEXIST. Unless it is OK no file is open, and each wait answers why. */
static inline uint32_t kioskbasil_journal_create(struct kioskbasil_journal *it, const char *path,
                                                 const struct kioskbasil_journal_header *header,
                                                 enum kioskbasil_sync_policy policy,
                                                 unsigned milliseconds) {
    uint32_t code;
    if (!it) return KIOSKBASIL_NULL;
    code = journal_begin(it, -1, path ? header : NULL, policy, milliseconds);
    if (code != KIOSKBASIL_OK) return code;
    code = journal_make(it, path);
    if (code == KIOSKBASIL_OK) {
        journal_raise(it);
    } else if (it->file >= 0) {
        close(it->file);
        it->file = -1;
    }
    return code;
}

/* As create, of a file that is open for writing and empty: it writes the header and syncs. Unless
   `it` is NULL the file is the journal's then, whatever the answer: kioskbasil_journal_close
   closes it. */
static inline uint32_t kioskbasil_journal_on(struct kioskbasil_journal *it, int file,
                                             const struct kioskbasil_journal_header *header,
                                             enum kioskbasil_sync_policy policy,
                                             unsigned milliseconds) {
    uint32_t code;
    if (!it) return KIOSKBASIL_NULL;
    code = journal_begin(it, file, header, policy, milliseconds);
    if (code == KIOSKBASIL_OK) code = journal_write_header(it);
    if (code == KIOSKBASIL_OK) journal_raise(it);
    return code;
}

/* Brings all frames that were written to disk; where they are, it does nothing.
   KIOSKBASIL_OK; JOURNAL_FAILED, also of an earlier call: then it is not known which frames behind
   `safe` are on disk, and no further sync would tell; or JOURNAL_CLOSED. */
static inline uint32_t kioskbasil_journal_sync(struct kioskbasil_journal *it) {
    if (!it) return KIOSKBASIL_NULL;
    if (it->code != KIOSKBASIL_OK) return it->code;
    if (it->written.bytes != it->safe.bytes) {
        if (!journal_sync_file(it->file, fdatasync))
            return journal_fail(it, "fdatasync", it->written.bytes);
        journal_raise(it);
    }
    it->synced_at = waiting_clock();
    return KIOSKBASIL_OK;
}

/* Appends the record of a frame, by one write unless the system takes it in parts, and syncs as
   the policy says. OK says that it is written, and kioskbasil_journal_safe what is on disk.
   JOURNAL_NOT_NEXT where the log does not go on with it: nothing was written, and the journal
   goes on. JOURNAL_FAILED where the write or the sync failed, also of an earlier call: the frame
   may be lost, a part of its record may stand there, which readers find torn, and this journal
   writes no more. Behind a write that failed those before it are synced once. Or
   JOURNAL_CLOSED. */
static inline uint32_t kioskbasil_journal_write(struct kioskbasil_journal *it,
                                                const struct kioskbasil_frame *frame) {
    size_t words, done;
    bool is_due;
    if (!it || !frame) return KIOSKBASIL_NULL;
    if (it->code != KIOSKBASIL_OK) return it->code;
    words = journal_put_record(&it->log, frame, it->record);
    if (!words) return JOURNAL_NOT_NEXT;
    if (!journal_write_all(it->file, it->record, 8 * (words + 1), &done))
        return journal_fail_write(it, done);
    journal_take(&it->log, frame, words);
    it->written.place = it->log.place;
    it->written.frames++;
    it->written.bytes += done;
    is_due = it->policy == JOURNAL_EACH_FRAME;
    if (it->policy == JOURNAL_EVERY) is_due = waiting_clock() - it->synced_at >= it->every;
    return is_due ? kioskbasil_journal_sync(it) : (uint32_t)KIOSKBASIL_OK;
}

/* Hears the next whole frame that is there, and writes it: it is in frames->frame then. By
   JOURNAL_EACH_FRAME it is on disk before this gives it.
   KIOSKBASIL_OK; EMPTY or END, as kioskbasil_try_frame; or what kioskbasil_journal_write answers.
   Behind a write that has failed frames->frame is not recorded, and a next file begins with it.
   Behind a sync that has failed it is in the file, and maybe not on disk. By JOURNAL_NOT_NEXT it is
   not recorded. A journal that had failed before hears nothing. */
static inline uint32_t kioskbasil_journal_record(struct kioskbasil_journal *it,
                                                 kioskbasil_receiver *receiver,
                                                 struct kioskbasil_frames *frames,
                                                 struct bell *bell) {
    uint32_t code;
    if (!it) return KIOSKBASIL_NULL;
    if (it->code != KIOSKBASIL_OK) return it->code;
    code = kioskbasil_try_frame(receiver, frames, bell);
    return code == KIOSKBASIL_OK ? kioskbasil_journal_write(it, &frames->frame) : code;
}

static inline uint32_t journal_record_by(struct kioskbasil_journal *it,
                                         kioskbasil_receiver *receiver,
                                         struct kioskbasil_frames *frames, struct bell *bell,
                                         const struct patience *patience) {
    struct waiter waiter = {0, 0, 0};
    for (;;) {
        uint32_t code = kioskbasil_journal_record(it, receiver, frames, bell);
        int64_t most;
        if (code != KIOSKBASIL_EMPTY) return code;
        most = patience_left(patience);
        if (!most) return code;
        wait_up_to(bell, &waiter, most);
    }
}

/* As kioskbasil_journal_record, but that it waits while there is no frame. Each time it asks
   go_on(given), which may be NULL, and answers EMPTY where that says no, as hear_while. */
static inline uint32_t kioskbasil_journal_record_while(struct kioskbasil_journal *it,
                                                       kioskbasil_receiver *receiver,
                                                       struct kioskbasil_frames *frames,
                                                       struct bell *bell,
                                                       bool (*go_on)(void *given), void *given) {
    struct patience patience = patience_asking(go_on, given);
    return journal_record_by(it, receiver, frames, bell, &patience);
}

/* The same, for so long at most: EMPTY then. By JOURNAL_EVERY sync there. */
static inline uint32_t kioskbasil_journal_record_timeout(struct kioskbasil_journal *it,
                                                         kioskbasil_receiver *receiver,
                                                         struct kioskbasil_frames *frames,
                                                         struct bell *bell,
                                                         unsigned milliseconds) {
    struct patience patience = patience_up_to(milliseconds);
    return journal_record_by(it, receiver, frames, bell, &patience);
}

/* Up to where the log is known to be on disk. Any thread may ask. */
static inline struct kioskbasil_safe kioskbasil_journal_safe(struct kioskbasil_journal *it) {
    struct kioskbasil_safe safe;
    pthread_mutex_lock(&it->lock);
    safe = it->safe;
    pthread_mutex_unlock(&it->lock);
    return safe;
}

/* All words before this place are on disk. Of a file that was not made none are. */
static inline bool journal_is_safe(const struct kioskbasil_journal *it, uint64_t place) {
    return it->safe.bytes && it->safe.place >= place;
}

static inline uint32_t journal_wait_until(struct kioskbasil_journal *it, uint64_t place,
                                          const struct timespec *end) {
    uint32_t code = KIOSKBASIL_OK;
    int status = 0;
    if (!it) return KIOSKBASIL_NULL;
    pthread_mutex_lock(&it->lock);
    while (!journal_is_safe(it, place) && it->code == KIOSKBASIL_OK && !status) {
        if (end) status = pthread_cond_timedwait(&it->changed, &it->lock, end);
        else pthread_cond_wait(&it->changed, &it->lock);
    }
    if (!journal_is_safe(it, place)) code = it->code ? it->code : (uint32_t)KIOSKBASIL_WAITING;
    pthread_mutex_unlock(&it->lock);
    return code;
}

/* Waits until all words of the log before this place are on disk: behind DELIVERED that is
   `words` of kioskbasil_show_sender. Any thread may.
   KIOSKBASIL_OK; JOURNAL_FAILED where the journal fails before, or was not made, and
   JOURNAL_CLOSED where it is closed before. That a thread records the frames meanwhile is the
   caller's word: else it waits for good. */
static inline uint32_t kioskbasil_journal_wait(struct kioskbasil_journal *it, uint64_t place) {
    return journal_wait_until(it, place, NULL);
}

/* The same, for so long at most: KIOSKBASIL_WAITING says that its time is over. */
static inline uint32_t kioskbasil_journal_wait_timeout(struct kioskbasil_journal *it,
                                                       uint64_t place, unsigned milliseconds) {
    int64_t at = waiting_clock() + (int64_t)milliseconds * 1000000;
    struct timespec end = {(time_t)(at / 1000000000), (long)(at % 1000000000)};
    return journal_wait_until(it, place, &end);
}

/* The header of a next file for the same log, which goes on behind the frames that were written:
   where one file grows too long, or a write has failed. It syncs this one before, unless that has
   failed: so all before a next file is on disk, and a wait on that may say so.
   KIOSKBASIL_OK; JOURNAL_FAILED where frames that were written may not be on disk, since a sync
   has failed: then nothing goes on from this file but what is read back of it; or
   JOURNAL_CLOSED where they were not synced before it was closed. */
static inline uint32_t kioskbasil_journal_next_header(struct kioskbasil_journal *it,
                                                      struct kioskbasil_journal_header *header) {
    uint32_t code = header ? kioskbasil_journal_sync(it) : (uint32_t)KIOSKBASIL_NULL;
    if (!it || !header) return KIOSKBASIL_NULL;
    if (!it->safe.bytes || it->safe.bytes != it->written.bytes) return code;
    memset(header, 0, sizeof *header);
    header->senders = it->log.senders;
    header->most = KIOSKBASIL_MOST_MESSAGES;
    header->place = it->log.place;
    memcpy(header->first, it->log.next, sizeof header->first);
    return KIOSKBASIL_OK;
}

/* Closes the file. It syncs nothing: call kioskbasil_journal_sync before. Who waits for a place
   that is not on disk is told. KIOSKBASIL_OK; why it had failed or was refused before; or
   JOURNAL_FAILED by close itself. */
static inline uint32_t kioskbasil_journal_close(struct kioskbasil_journal *it) {
    uint32_t code;
    int status;
    if (!it) return KIOSKBASIL_NULL;
    code = it->code;
    status = it->file < 0 ? 0 : close(it->file);
    it->file = -1; /* it is closed also where that was interrupted */
    if (status && errno != EINTR && code == KIOSKBASIL_OK)
        code = journal_fail(it, "close", it->written.bytes);
    if (code == KIOSKBASIL_OK) journal_stop(it, JOURNAL_CLOSED);
    return code == JOURNAL_CLOSED ? (uint32_t)KIOSKBASIL_OK : code;
}

/* ---- reading */

static inline bool journal_read_failed(struct kioskbasil_journal_reader *it, const char *call,
                                       uint64_t byte) {
    journal_note(&it->fault, call, byte);
    it->code = JOURNAL_FAILED;
    return false;
}

/* Reads into these bytes what one read gives: how many they are, 0 at the end of the file, or -1
   where it failed. */
static inline ssize_t journal_read_some(struct kioskbasil_journal_reader *it, uint8_t *bytes,
                                        size_t room) {
    ssize_t more;
    do more = read(it->file, bytes, room);
    while (more < 0 && errno == EINTR);
    if (more < 0) journal_read_failed(it, "read", it->taken);
    else it->taken += (uint64_t)more;
    return more;
}

/* Reads on until so many bytes are at hand, or all that are left. False where that failed. */
static inline bool journal_fill(struct kioskbasil_journal_reader *it, size_t many) {
    if (!it->many) it->begin = 0;
    if (it->begin + many > sizeof it->input) {
        memmove(it->input, it->input + it->begin, it->many);
        it->begin = 0;
    }
    while (it->many < many) {
        size_t end = it->begin + it->many;
        ssize_t more = journal_read_some(it, it->input + end, sizeof it->input - end);
        if (more < 0) return false;
        if (!more) break;
        it->many += (size_t)more;
    }
    return true;
}

/* Takes so many bytes, of the header or of a whole record. */
static inline void journal_step(struct kioskbasil_journal_reader *it, size_t length) {
    it->begin += length;
    it->many -= length;
    it->whole += length;
}

/* Reads the header: KIOSKBASIL_OK, or the first fault that holds. */
static inline uint32_t journal_read_header(struct kioskbasil_journal_reader *it) {
    const uint8_t *bytes = it->input;
    uint64_t senders;
    size_t length;
    if (!journal_fill(it, 24)) return JOURNAL_FAILED;
    if (memcmp(bytes, "KIOSKLOG", it->many < 8 ? it->many : 8)) return JOURNAL_OTHER_MAGIC;
    it->version = it->many < 16 ? 1 : journal_word(bytes + 8);
    if (it->version != 1) return JOURNAL_OTHER_VERSION;
    if (it->many < 24) return JOURNAL_TORN_HEADER;
    senders = journal_word(bytes + 16);
    if (!senders || senders > KIOSKBASIL_MOST_SENDERS) return JOURNAL_DAMAGED_HEADER;
    length = journal_header_length((size_t)senders);
    if (!journal_fill(it, length)) return JOURNAL_FAILED;
    if (it->many < length) return JOURNAL_TORN_HEADER;
    if (!journal_take_header(&it->header, bytes, length)) return JOURNAL_DAMAGED_HEADER;
    journal_begin_log(&it->log, &it->header);
    journal_step(it, length);
    return KIOSKBASIL_OK;
}

/* Gives the file up. The frames and numbers that were read stay. */
static inline void kioskbasil_journal_done(struct kioskbasil_journal_reader *it) {
    if (it->file >= 0) close(it->file);
    it->file = -1;
}

/* Reads the header of a journal from a file or a pipe, from the first byte that that gives on.
   It is the reader's then, and kioskbasil_journal_done closes it.
   KIOSKBASIL_OK; JOURNAL_OTHER_MAGIC, OTHER_VERSION, TORN_HEADER or DAMAGED_HEADER; or
   JOURNAL_FAILED. Unless it is OK the file is closed, but where `it` is NULL. */
static inline uint32_t kioskbasil_journal_open_on(struct kioskbasil_journal_reader *it, int file) {
    if (!it) return KIOSKBASIL_NULL;
    memset(it, 0, offsetof(struct kioskbasil_journal_reader, input));
    it->file = file;
    it->code = journal_read_header(it);
    if (it->code != KIOSKBASIL_OK) kioskbasil_journal_done(it);
    return it->code;
}

/* Opens a file in this way, and reads its header. */
static inline uint32_t journal_open_how(struct kioskbasil_journal_reader *it, const char *path,
                                        int how) {
    int file;
    if (!it || !path) return KIOSKBASIL_NULL;
    file = journal_open_file(path, how);
    if (file >= 0) return kioskbasil_journal_open_on(it, file);
    memset(it, 0, offsetof(struct kioskbasil_journal_reader, input));
    it->file = -1;
    journal_read_failed(it, "open", 0);
    return JOURNAL_FAILED;
}

/* Opens a journal, and reads its header. It syncs nothing, as kioskbasil_journal_recover does.
   What kioskbasil_journal_open_on answers. */
static inline uint32_t kioskbasil_journal_open(struct kioskbasil_journal_reader *it,
                                               const char *path) {
    return journal_open_how(it, path, O_RDONLY);
}

/* How many bytes stand up to the last that is not zero. */
static inline size_t journal_written(const uint8_t *bytes, size_t many) {
    while (many && !bytes[many - 1]) many--;
    return many;
}

/* Reads what is left, and says how the journal ends. `length` is that of the record with whose
   head the rest begins, or 0. */
static inline uint32_t journal_find_end(struct kioskbasil_journal_reader *it, size_t length) {
    const uint8_t *rest = it->input + it->begin;
    uint64_t many = it->many, written = journal_written(rest, it->many);
    uint8_t part[4096];
    for (;;) {
        ssize_t more = journal_read_some(it, part, sizeof part);
        size_t last = more > 0 ? journal_written(part, (size_t)more) : 0;
        if (more < 0) return JOURNAL_FAILED;
        if (!more) break;
        if (last) written = many + last;
        many += (uint64_t)more;
    }
    if (!many) {
        it->end = JOURNAL_WHOLE;
    } else if (written < 8 || written < length) {
        it->end = JOURNAL_TORN;
        it->hides = journal_has_record_in(&it->log, rest, (size_t)written);
    } else {
        it->end = JOURNAL_DAMAGED;
    }
    return KIOSKBASIL_END;
}

/* The next frame, in it->frame: KIOSKBASIL_OK. Or END behind the last whole record: it->end says
   how the file ends there, and it->whole at which byte. Or JOURNAL_FAILED, or why it was not
   opened. Unless it is OK it->frame stays the last one. */
static inline uint32_t kioskbasil_journal_read(struct kioskbasil_journal_reader *it) {
    struct kioskbasil_frame frame;
    size_t length;
    if (!it) return KIOSKBASIL_NULL;
    if (it->code != KIOSKBASIL_OK) return it->code;
    if (it->end) return KIOSKBASIL_END;
    if (!journal_fill(it, 8)) return JOURNAL_FAILED;
    length = journal_record_length(&it->log, it->input + it->begin, it->many);
    if (length) {
        if (!journal_fill(it, length)) return JOURNAL_FAILED;
        if (it->many >= length &&
            journal_take_record(&it->log, it->input + it->begin, length, &frame)) {
            journal_take(&it->log, &frame, length / 8 - 1);
            journal_step(it, length);
            it->frame = frame;
            return KIOSKBASIL_OK;
        }
    }
    return journal_find_end(it, length);
}

/* Reads a whole journal, and calls each(given, frame) for each frame in order; `each` may be NULL.
   It syncs the file before. So what it gives is on disk, and a next file that goes on from it does
   not outlive it, unless a sync of this file had failed before: the system may then take for
   written what is not. Then the file is closed.
   KIOSKBASIL_OK, also of a file that is torn or damaged behind its header: it->end says so. Else
   JOURNAL_FAILED, or what kioskbasil_journal_open answers. */
static inline uint32_t kioskbasil_journal_recover(
    struct kioskbasil_journal_reader *it, const char *path,
    void (*each)(void *given, const struct kioskbasil_frame *frame), void *given) {
    uint32_t code = kioskbasil_journal_open(it, path);
    if (code != KIOSKBASIL_OK) return code;
    if (!journal_sync_file(it->file, fsync)) journal_read_failed(it, "fsync", 0);
    while ((code = kioskbasil_journal_read(it)) == KIOSKBASIL_OK)
        if (each) each(given, &it->frame);
    kioskbasil_journal_done(it);
    return code == KIOSKBASIL_END ? (uint32_t)KIOSKBASIL_OK : code;
}

/* The page with which the next bus goes on (kioskbasil_open_after), of a journal that was read
   to its end. `page` has that of the files before: before the first, `kioskbasil_left page =
   {.ended = true};`. Where no file stands before it and it does not begin at 0, set `next` to
   header.first before. Of the senders of this file it sets `next`; `bases`, to the header's first
   numbers; and `gone`, to who has left in it, all of whom a next bus has again. Where the file
   goes on in the log of the one before, `bases` stay, and so does who has left there. The numbers
   of other senders stay: they are those of an earlier file. `ended` is set, since the next bus
   begins an order of its own: whether the end mark was recorded says it->log.ended. All else
   stays. Behind a torn end the numbers are those behind the last whole frame: so what nobody was
   told to be on disk may be lost, and its numbers are given again.

   KIOSKBASIL_OK; or the first that holds: why it was not read; JOURNAL_NOT_READ; JOURNAL_DAMAGED,
   where whole frames may be missing; JOURNAL_GAP where header.first has other numbers than `next`
   of the page before, also in the same log; KIOSKBASIL_NUMBERS_USED where a number is
   2^48 - 65,536 or more. Unless it is OK the page stays as it was. */
static inline uint32_t kioskbasil_journal_page(const struct kioskbasil_journal_reader *it,
                                               kioskbasil_left *page) {
    const uint64_t numbers = (UINT64_C(1) << 48) - 65536;
    bool goes_on = it && it->header.place; /* in the log of the file before */
    if (!it || !page) return KIOSKBASIL_NULL;
    if (it->code != KIOSKBASIL_OK) return it->code;
    if (!it->end) return JOURNAL_NOT_READ;
    if (it->end == JOURNAL_DAMAGED || it->hides) return JOURNAL_DAMAGED;
    if (memcmp(it->header.first, page->next, it->header.senders * sizeof *page->next))
        return JOURNAL_GAP;
    for (size_t i = 0; i < it->log.senders; i++)
        if (it->log.next[i] >= numbers) return KIOSKBASIL_NUMBERS_USED;
    for (size_t i = 0; i < it->log.senders; i++) {
        page->next[i] = it->log.next[i];
        if (!goes_on) page->bases[i] = it->header.first[i];
        page->gone[i] = it->log.left[i] || (goes_on && page->gone[i]);
    }
    page->ended = true;
    return KIOSKBASIL_OK;
}

/* Cuts the file at it->whole, unless it is whole, and brings it to disk. */
static inline uint32_t journal_cut(struct kioskbasil_journal_reader *it, uint64_t *cut) {
    struct stat found;
    if (fstat(it->file, &found)) journal_read_failed(it, "fstat", it->whole);
    else if ((uint64_t)found.st_size != it->taken) it->code = JOURNAL_CHANGED;
    else if (it->end == JOURNAL_TORN && ftruncate(it->file, (off_t)it->whole))
        journal_read_failed(it, "ftruncate", it->whole);
    else if (!journal_sync_file(it->file, fsync)) journal_read_failed(it, "fsync", it->whole);
    else if (cut) *cut = it->taken - it->whole;
    return it->code;
}

/* Cuts what is torn behind the last whole record, and nothing else, and syncs the file. *cut,
   which may be NULL, says how many bytes: 0 of a file that ends whole. Nobody has to call it:
   who reads passes over what is torn, and the next sitting has a file of its own. Nobody may be
   writing the file: a record that comes between the last look and the cut is lost.
   KIOSKBASIL_OK; JOURNAL_DAMAGED, also where it looks torn and a whole record stands behind, and
   then it->whole is the byte, and the file as it was; JOURNAL_CHANGED where it has another size
   than was read, and it is not cut; JOURNAL_FAILED; or what kioskbasil_journal_open answers. */
static inline uint32_t kioskbasil_journal_repair(struct kioskbasil_journal_reader *it,
                                                 const char *path, uint64_t *cut) {
    uint32_t code = journal_open_how(it, path, O_RDWR);
    if (cut) *cut = 0;
    if (code != KIOSKBASIL_OK) return code;
    while ((code = kioskbasil_journal_read(it)) == KIOSKBASIL_OK) {
    }
    if (code == KIOSKBASIL_END) {
        bool is_damaged = it->end == JOURNAL_DAMAGED || it->hides;
        code = is_damaged ? (uint32_t)JOURNAL_DAMAGED : journal_cut(it, cut);
    }
    kioskbasil_journal_done(it);
    return code;
}

/* A code in words. */
static inline const char *kioskbasil_journal_text(uint32_t code) {
    switch (code) {
    case JOURNAL_FAILED: return "the file failed";
    case JOURNAL_NOT_NEXT: return "the frame is not the next of the log";
    case JOURNAL_CLOSED: return "the journal was closed";
    case JOURNAL_BAD_HEADER: return "no journal has such a header";
    case JOURNAL_OTHER_MAGIC: return "no journal";
    case JOURNAL_OTHER_VERSION: return "a journal of another version";
    case JOURNAL_TORN_HEADER: return "the journal ends within its header";
    case JOURNAL_DAMAGED_HEADER: return "the header of the journal is damaged";
    case JOURNAL_NOT_READ: return "the journal was not read to its end";
    case JOURNAL_WHOLE: return "the journal is whole";
    case JOURNAL_TORN: return "the journal is torn";
    case JOURNAL_DAMAGED: return "the journal is damaged";
    case JOURNAL_CHANGED: return "the journal changed while it was read";
    case JOURNAL_GAP: return "the journal does not go on from the page before";
    default: return kioskbasil_text(code);
    }
}

/* What has failed, in words, such as `write at byte 88: No space left on device`. */
static inline const char *kioskbasil_fault_text(const struct kioskbasil_fault *fault, char *text,
                                                size_t room) {
    snprintf(text, room, "%s at byte %llu: %s", fault->call ? fault->call : "nothing",
             (unsigned long long)fault->byte, strerror(fault->why));
    return text;
}
#endif
