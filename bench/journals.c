/* Tests of journals in C, examples/c/journal.h. bench/embed builds and runs it; bench/crash
   compares its reader with two others. Each call of the system may be counted, cut short or made
   to fail here. Prints what failed, and `N passed, M failed` last. Whoever lost a wake-up sleeps
   for 200 s here. */
#define BELL_LONGEST_SLEEP 200000
#include "expect.h"
#include <errno.h>
#include <fcntl.h>
#include <stdatomic.h>
#include <stdbool.h>
#include <stdlib.h>
#include <sys/stat.h>
#include <unistd.h>

/* ---- the calls of the system */

enum call { OPEN, WRITE, FSYNC, FDATASYNC, LINK, READ, FSTAT, FTRUNCATE, CLOSE, CALLS };

static const char *const names[] = {"open", "write", "fsync", "fdatasync", "link",
                                    "read", "fstat", "ftruncate", "close"};

static struct {
    uint64_t counts[CALLS];
    enum call call; /* which fails, */
    uint64_t from;  /* from which of its calls on; 0 for none, */
    bool once;      /* only that one, */
    int why;        /* and by which errno */
    bool no_sync;   /* each fdatasync fails too */
    const char *grows; /* the file of this name, by a byte behind the last read of it */
    size_t most;    /* bytes of a read or write; 0 where there is no such limit */
    enum call order[16]; /* the first calls, */
    size_t many;         /* and how many there were */
} seam;

static bool fails(enum call call) {
    uint64_t count = ++seam.counts[call];
    bool is_due = seam.from && call == seam.call && count >= seam.from;
    if (seam.many < sizeof seam.order / sizeof *seam.order) seam.order[seam.many] = call;
    seam.many++;
    if (!is_due || (seam.once && count > seam.from)) return false;
    errno = seam.why;
    return true;
}

static size_t cut_short(size_t many) { return seam.most && seam.most < many ? seam.most : many; }

static int seam_open(const char *path, int how, mode_t mode) {
    return fails(OPEN) ? -1 : open(path, how, mode);
}
static ssize_t seam_write(int file, const void *bytes, size_t many) {
    return fails(WRITE) ? -1 : write(file, bytes, cut_short(many));
}
static ssize_t seam_read(int file, void *bytes, size_t many) {
    ssize_t more = fails(READ) ? -1 : read(file, bytes, cut_short(many));
    if (!more && seam.grows) {
        int other = open(seam.grows, O_WRONLY | O_APPEND);
        EXPECT(write(other, "x", 1), 1);
        close(other);
    }
    return more;
}
/* No sync is done: nothing here looks at a disk. */
static int seam_fsync(int file) { return fails(FSYNC) || file < 0 ? -1 : 0; }
static int seam_fdatasync(int file) {
    return fails(FDATASYNC) || seam.no_sync || file < 0 ? -1 : 0;
}
static int seam_link(const char *from, const char *to) {
    return fails(LINK) ? -1 : link(from, to);
}
static int seam_fstat(int file, struct stat *found) {
    return fails(FSTAT) ? -1 : fstat(file, found);
}
static int seam_ftruncate(int file, off_t size) {
    return fails(FTRUNCATE) ? -1 : ftruncate(file, size);
}
static int seam_close(int file) {
    int status = close(file);
    return fails(CLOSE) ? -1 : status;
}

#define open seam_open
#define write seam_write
#define read seam_read
#define fsync seam_fsync
#define fdatasync seam_fdatasync
#define link seam_link
#define fstat seam_fstat
#define ftruncate seam_ftruncate
#define close seam_close
#include "journal.h"
#undef open
#undef write
#undef read
#undef fsync
#undef fdatasync
#undef link
#undef fstat
#undef ftruncate
#undef close

/* Has no call fail, and counts anew. */
static void heal(void) { memset(&seam, 0, sizeof seam); }

static void break_call(enum call call, uint64_t from, bool once, int why) {
    seam.call = call;
    seam.from = from;
    seam.once = once;
    seam.why = why;
}

/* ---- a folder, files, and frames */

enum { FRAMES = 6, LEAST_RUN = 400 };

static char folder[64], path[128], next_path[128];
static struct kioskbasil_frame frames[FRAMES];
static struct kioskbasil_journal journal;
static struct kioskbasil_journal_reader reader;
static const kioskbasil_left first_page = {.ended = true};

static void put_file(const char *at, const void *bytes, size_t many) {
    int file;
    unlink(at); /* a file that is cut to nothing and written anew may be brought to disk at once */
    file = open(at, O_WRONLY | O_CREAT | O_TRUNC, 0666);
    EXPECT(file >= 0 && write(file, bytes, many) == (ssize_t)many && !close(file), true);
}

/* The bytes of a file, and how many there are; at most 64 KiB. */
static const uint8_t *file_bytes(const char *at, size_t *many) {
    static uint8_t bytes[1 << 16];
    int file = open(at, O_RDONLY);
    ssize_t there = read(file, bytes, sizeof bytes);
    close(file);
    *many = there < 0 ? 0 : (size_t)there;
    return bytes;
}

static size_t file_size(const char *at) {
    struct stat found;
    return stat(at, &found) ? 0 : (size_t)found.st_size;
}

static struct kioskbasil_journal_header header_of(size_t senders) {
    struct kioskbasil_journal_header header;
    EXPECT(kioskbasil_journal_header_after(&header, senders, &first_page), KIOSKBASIL_OK);
    return header;
}

static uint32_t create(size_t senders, enum kioskbasil_sync_policy policy) {
    struct kioskbasil_journal_header header = header_of(senders);
    unlink(path);
    return kioskbasil_journal_create(&journal, path, &header, policy, 0);
}

static void send(kioskbasil_sender *sender) {
    uint64_t seed = 7;
    kioskbasil_turn_answer answer;
    EXPECT(send_batch(sender, &seed, &answer, NULL), KIOSKBASIL_DELIVERED);
}

/* Frames of two senders, of one to three messages whose lengths differ. */
static void make_frames(void) {
    kioskbasil_sizes sizes = {.rounds = 2, .rows = 64, .log_words = 1024};
    kioskbasil_sender s[2] = {KIOSKBASIL_NONE};
    kioskbasil_receiver r[1] = {KIOSKBASIL_NONE};
    struct kioskbasil_frames heard = {0};
    uint8_t bytes[KIOSKBASIL_MOST_BYTES];
    EXPECT(kioskbasil_open(&sizes, s, 2, r, 1), KIOSKBASIL_OK);
    for (size_t i = 0; i < FRAMES; i++) {
        memset(bytes, (int)i, sizeof bytes);
        for (size_t many = 0; many <= i % 3; many++) kioskbasil_put(&s[i % 2], bytes, 11 * i, NULL);
        send(&s[i % 2]);
        EXPECT(kioskbasil_try_frame(r, &heard, NULL), KIOSKBASIL_OK);
        EXPECT(heard.frame.many, 1 + i % 3);
        frames[i] = heard.frame;
    }
    EXPECT(kioskbasil_try_frame(r, &heard, NULL), KIOSKBASIL_EMPTY);
    kioskbasil_free_sender(&s[0]);
    kioskbasil_free_sender(&s[1]);
    kioskbasil_free_receiver(r);
}

static bool is_same(const struct kioskbasil_frame *a, const struct kioskbasil_frame *b) {
    uint64_t one[JOURNAL_WORDS], other[JOURNAL_WORDS];
    size_t many = kioskbasil_frame_words(a, one);
    return a->place == b->place && many == kioskbasil_frame_words(b, other) &&
           !memcmp(one, other, many * sizeof *one);
}

/* Counts the frames of a journal that are those above, from this one on, up to one that is not. */
struct counted {
    size_t first, many;
};

static void count(void *given, const struct kioskbasil_frame *frame) {
    struct counted *counted = given;
    size_t at = counted->first + counted->many;
    if (at < FRAMES && is_same(frame, &frames[at])) counted->many++;
    else counted->many = FRAMES + 1;
}

/* How many of these frames a file has, which it has to say is so. */
static size_t recovered(const char *at, size_t first) {
    struct counted counted = {first, 0};
    EXPECT(kioskbasil_journal_recover(&reader, at, count, &counted), KIOSKBASIL_OK);
    return counted.many;
}

/* ---- SHA-256 */

static void digest(const uint8_t *bytes, size_t many, size_t part, const char *wanted) {
    struct journal_sha sha;
    uint8_t made[32];
    char text[65];
    journal_sha_begin(&sha);
    for (size_t at = 0; at < many; at += part)
        journal_sha_add(&sha, bytes + at, many - at < part ? many - at : part);
    journal_sha_end(&sha, made);
    for (size_t i = 0; i < 32; i++) sprintf(text + 2 * i, "%02x", made[i]);
    EXPECT(strcmp(text, wanted), 0);
}

/* Vectors of FIPS 180-4 and of NIST's examples, and those around the ends of blocks by Python's
   hashlib, of bytes that count up. */
static void vectors(void) {
    static const struct { size_t length; const char *wanted; } counts[] = {
        {55, "463eb28e72f82e0a96c0a4cc53690c571281131f672aa229e0d45ae59b598b59"},
        {56, "da2ae4d6b36748f2a318f23e7ab1dfdf45acdc9d049bd80e59de82a60895f562"},
        {63, "29af2686fd53374a36b0846694cc342177e428d1647515f078784d69cdb9e488"},
        {64, "fdeab9acf3710362bd2658cdc9a29e8f9c757fcf9811603a8c447cd1d9151108"},
        {65, "4bfd2c8b6f1eec7a2afeb48b934ee4b2694182027e6d0fc075074f2fabb31781"},
    };
    static uint8_t bytes[1000000];
    const char *abc = "ba7816bf8f01cfea414140de5dae2223b00361a396177a9cb410ff61f20015ad";
    digest(bytes, 0, 1, "e3b0c44298fc1c149afbf4c8996fb92427ae41e4649b934ca495991b7852b855");
    digest((const uint8_t *)"abc", 3, 3, abc);
    digest((const uint8_t *)"abc", 3, 2, abc);
    digest((const uint8_t *)"abcdbcdecdefdefgefghfghighijhijkijkljklmklmnlmnomnopnopq", 56, 56,
           "248d6a61d20638b8e5c026930c3e6039a33ce45964ff2167f6ecedd419db06c1");
    for (size_t i = 0; i < 65; i++) bytes[i] = (uint8_t)i;
    for (size_t i = 0; i < 5; i++) digest(bytes, counts[i].length, 1 + i, counts[i].wanted);
    memset(bytes, 'a', sizeof bytes);
    digest(bytes, sizeof bytes, 1001,
           "cdc76e5c9914fb9281a1c7e284d73e67f1809a48a497200e046d39ccc7112cd0");
}

/* ---- writing */

/* The bytes of a header and of one record, as they were worked out from docs/FORMATS.md. */
static void bytes_are_these(void) {
    static const uint64_t wanted[] = {
        0x4b494f534b4c4f47, 1, 1, 64, 0, 0, 0x7bf888e657c2e37b,
        0x4000020000000000, 0x8040000000000000, 0x6100000000000000, 0x2d3c62919a3485bf};
    struct kioskbasil_frame frame = {0, 0, KIOSKBASIL_ITEM, 0, 1, {{0, 0, 1, "a"}}};
    struct kioskbasil_safe safe;
    const uint8_t *bytes;
    size_t many;
    EXPECT(create(1, JOURNAL_EACH_FRAME), KIOSKBASIL_OK);
    EXPECT(kioskbasil_journal_write(&journal, &frame), KIOSKBASIL_OK);
    safe = kioskbasil_journal_safe(&journal);
    EXPECT(safe.place, 3);
    EXPECT(safe.frames, 1);
    EXPECT(safe.bytes, 88);
    EXPECT(kioskbasil_journal_close(&journal), KIOSKBASIL_OK);
    bytes = file_bytes(path, &many);
    EXPECT(many, sizeof wanted);
    for (size_t i = 0; i < many / 8; i++) EXPECT(journal_word(bytes + 8 * i), wanted[i]);
}

/* Nothing is written of a frame that is not the next, and the journal goes on. */
static void other_frames(void) {
    struct kioskbasil_frame wrong[12];
    size_t size;
    EXPECT(create(2, JOURNAL_EACH_FRAME), KIOSKBASIL_OK);
    EXPECT(kioskbasil_journal_write(&journal, &frames[1]), JOURNAL_NOT_NEXT);
    EXPECT(kioskbasil_journal_write(&journal, &frames[0]), KIOSKBASIL_OK);
    EXPECT(kioskbasil_journal_write(&journal, &frames[0]), JOURNAL_NOT_NEXT);
    for (size_t i = 0; i < 12; i++) wrong[i] = frames[1];
    wrong[0].owner = 2;
    wrong[1].owner = 0;
    wrong[2].tenure = frames[0].tenure;
    wrong[3].tenure = UINT64_C(1) << 40;
    wrong[4].place++;
    wrong[5].many = 0;
    wrong[6].many = KIOSKBASIL_MOST_MESSAGES + 1;
    wrong[7].items[1].number++;
    wrong[8].items[0].sender = 0;
    wrong[9].items[1].length = 57;
    wrong[10].what = KIOSKBASIL_LEAVE;
    wrong[11].what = KIOSKBASIL_HEAD;
    size = file_size(path);
    for (size_t i = 0; i < 12; i++)
        EXPECT(kioskbasil_journal_write(&journal, &wrong[i]), JOURNAL_NOT_NEXT);
    EXPECT(file_size(path), size);
    EXPECT(kioskbasil_journal_write(&journal, &frames[1]), KIOSKBASIL_OK);
    EXPECT(kioskbasil_journal_close(&journal), KIOSKBASIL_OK);
    EXPECT(recovered(path, 0), 2);
}

/* Nothing of who has left is the next, and nothing behind the end. */
static void marks(void) {
    struct kioskbasil_frame mark = frames[0];
    kioskbasil_left page = first_page;
    mark.what = KIOSKBASIL_LEAVE;
    mark.many = 0;
    EXPECT(create(2, JOURNAL_NEVER), KIOSKBASIL_OK);
    EXPECT(kioskbasil_journal_write(&journal, &mark), KIOSKBASIL_OK);
    mark.what = KIOSKBASIL_END;
    mark.place += 2;
    mark.tenure++;
    EXPECT(kioskbasil_journal_write(&journal, &mark), JOURNAL_NOT_NEXT);
    mark.owner = 1;
    EXPECT(kioskbasil_journal_write(&journal, &mark), KIOSKBASIL_OK);
    mark.place += 2;
    mark.tenure++;
    EXPECT(kioskbasil_journal_write(&journal, &mark), JOURNAL_NOT_NEXT);
    EXPECT(kioskbasil_journal_close(&journal), KIOSKBASIL_OK);
    EXPECT(kioskbasil_journal_recover(&reader, path, NULL, NULL), KIOSKBASIL_OK);
    EXPECT(reader.end, JOURNAL_WHOLE);
    EXPECT(reader.log.left[0] && !reader.log.left[1] && reader.log.ended, true);
    EXPECT(kioskbasil_journal_page(&reader, &page), KIOSKBASIL_OK);
    EXPECT(page.gone[0] && !page.gone[1] && page.ended, true);
}

/* A header that allows batches of one message takes no frame of more than eight words. */
static void small_batches(void) {
    struct kioskbasil_journal_header header = header_of(2);
    header.most = 1;
    unlink(path);
    EXPECT(kioskbasil_journal_create(&journal, path, &header, JOURNAL_NEVER, 0), KIOSKBASIL_OK);
    EXPECT(kioskbasil_journal_write(&journal, &frames[0]), KIOSKBASIL_OK);
    EXPECT(kioskbasil_journal_write(&journal, &frames[1]), KIOSKBASIL_OK);
    EXPECT(kioskbasil_journal_write(&journal, &frames[2]), JOURNAL_NOT_NEXT);
    EXPECT(kioskbasil_journal_close(&journal), KIOSKBASIL_OK);
    EXPECT(recovered(path, 0), 2);
    EXPECT(reader.end == JOURNAL_WHOLE && reader.header.most == 1, true);
}

/* The longest frames of a ring are heard whole, recorded, and given back. */
static void full_batches(void) {
    enum { MANY = KIOSKBASIL_MOST_MESSAGES };
    static struct kioskbasil_frames heard;
    struct kioskbasil_journal_header header = header_of(1);
    kioskbasil_sizes sizes = {.rounds = 2, .rows = 8, .log_words = JOURNAL_WORDS, .ring = true};
    kioskbasil_sender s[1] = {KIOSKBASIL_NONE};
    kioskbasil_receiver r[1] = {KIOSKBASIL_NONE};
    uint8_t bytes[KIOSKBASIL_MOST_BYTES];
    unlink(path);
    EXPECT(kioskbasil_open(&sizes, s, 1, r, 1), KIOSKBASIL_OK);
    EXPECT(kioskbasil_journal_create(&journal, path, &header, JOURNAL_NEVER, 0), KIOSKBASIL_OK);
    for (uint64_t round = 0; round < 3; round++) {
        for (int i = 0; i < MANY; i++) {
            memset(bytes, i, sizeof bytes);
            EXPECT(kioskbasil_put(&s[0], bytes, sizeof bytes, NULL), KIOSKBASIL_OK);
        }
        send(&s[0]);
        EXPECT(kioskbasil_try_frame(r, &heard, NULL), KIOSKBASIL_OK);
        EXPECT(heard.frame.many, MANY);
        EXPECT(heard.frame.place, round * JOURNAL_WORDS);
        EXPECT(kioskbasil_journal_write(&journal, &heard.frame), KIOSKBASIL_OK);
    }
    EXPECT(kioskbasil_journal_close(&journal), KIOSKBASIL_OK);
    EXPECT(file_size(path), 56 + 3 * JOURNAL_MOST_RECORD);
    EXPECT(kioskbasil_journal_recover(&reader, path, NULL, NULL), KIOSKBASIL_OK);
    EXPECT(reader.end == JOURNAL_WHOLE && reader.header.most == MANY, true);
    EXPECT(reader.log.next[0], 3 * MANY);
    EXPECT(is_same(&reader.frame, &heard.frame), true);
    for (int i = 0; i < MANY; i++) {
        memset(bytes, i, sizeof bytes);
        EXPECT(memcmp(reader.frame.items[i].bytes, bytes, sizeof bytes), 0);
    }
    kioskbasil_free_sender(&s[0]);
    kioskbasil_free_receiver(r);
}

/* How often each policy syncs: six frames, and a sync behind them. */
static void policies(void) {
    static const struct { enum kioskbasil_sync_policy policy; unsigned every; uint64_t syncs; }
    wanted[] = {{JOURNAL_EACH_FRAME, 0, 6}, {JOURNAL_NEVER, 0, 0}, {JOURNAL_EVERY, 600000, 0},
                {JOURNAL_EVERY, 0, 6}};
    struct kioskbasil_journal_header header = header_of(2);
    for (size_t i = 0; i < 4; i++) {
        unlink(path);
        EXPECT(kioskbasil_journal_create(&journal, path, &header, wanted[i].policy,
                                         wanted[i].every), KIOSKBASIL_OK);
        heal();
        for (size_t at = 0; at < FRAMES; at++)
            EXPECT(kioskbasil_journal_write(&journal, &frames[at]), KIOSKBASIL_OK);
        EXPECT(seam.counts[WRITE], FRAMES); /* each frame is one write */
        EXPECT(seam.counts[FDATASYNC], wanted[i].syncs);
        EXPECT(kioskbasil_journal_safe(&journal).frames, wanted[i].syncs);
        EXPECT(kioskbasil_journal_sync(&journal), KIOSKBASIL_OK);
        EXPECT(kioskbasil_journal_sync(&journal), KIOSKBASIL_OK);
        EXPECT(seam.counts[FDATASYNC], wanted[i].syncs ? FRAMES : 1);
        EXPECT(kioskbasil_journal_safe(&journal).bytes, file_size(path));
        EXPECT(kioskbasil_journal_wait(&journal, journal.log.place), KIOSKBASIL_OK);
        EXPECT(kioskbasil_journal_wait_timeout(&journal, journal.log.place + 1, 1),
               KIOSKBASIL_WAITING);
        EXPECT(kioskbasil_journal_close(&journal), KIOSKBASIL_OK);
        EXPECT(kioskbasil_journal_wait(&journal, journal.log.place + 1), JOURNAL_CLOSED);
        EXPECT(kioskbasil_journal_write(&journal, &frames[0]), JOURNAL_CLOSED);
        EXPECT(kioskbasil_journal_close(&journal), KIOSKBASIL_OK);
    }
}

/* ---- calls that fail in turn */

/* Makes a journal, and writes these frames with a sync behind each second one, up to the first
   error. */
static uint32_t record_all(enum kioskbasil_sync_policy policy) {
    uint32_t code = create(2, policy);
    for (size_t at = 0; at < FRAMES && code == KIOSKBASIL_OK; at++) {
        code = kioskbasil_journal_write(&journal, &frames[at]);
        if (code == KIOSKBASIL_OK && at % 2) code = kioskbasil_journal_sync(&journal);
    }
    return code;
}

/* Of a journal that has failed: each further call says so, and asks nothing of the system. What is
   safe is there, and the whole file is a front of the frames. */
static void is_over(enum call call) {
    struct kioskbasil_fault fault = journal.fault;
    struct kioskbasil_safe safe = kioskbasil_journal_safe(&journal);
    bool has_file = !access(path, F_OK);
    EXPECT(strcmp(fault.call, names[call]), 0);
    EXPECT(fault.why, ENOSPC);
    if (has_file && call == WRITE) EXPECT(fault.byte, file_size(path));
    /* What was whole before a failed write is on disk. */
    if (has_file && call == WRITE) EXPECT(safe.bytes, journal.written.bytes);
    if (call == FDATASYNC) EXPECT(fault.byte, file_size(path));
    heal();
    for (size_t at = 0; at < FRAMES; at++)
        EXPECT(kioskbasil_journal_write(&journal, &frames[at]), JOURNAL_FAILED);
    EXPECT(kioskbasil_journal_sync(&journal), JOURNAL_FAILED);
    EXPECT(kioskbasil_journal_record(&journal, NULL, NULL, NULL), JOURNAL_FAILED);
    EXPECT(kioskbasil_journal_wait(&journal, safe.place),
           safe.bytes ? (uint32_t)KIOSKBASIL_OK : (uint32_t)JOURNAL_FAILED);
    EXPECT(kioskbasil_journal_wait(&journal, safe.place + 1), JOURNAL_FAILED);
    for (int i = 0; i < CALLS; i++) EXPECT(seam.counts[i], 0);
    EXPECT(kioskbasil_journal_close(&journal), JOURNAL_FAILED);
    EXPECT(memcmp(&fault, &journal.fault, sizeof fault), 0);
    if (!has_file) return;
    EXPECT(recovered(path, 0) >= safe.frames && reader.end != JOURNAL_DAMAGED, true);
    EXPECT(reader.whole >= safe.bytes && reader.log.place >= safe.place, true);
}

/* Whichever call fails, once or for good, it is the last of its journal, but for one sync of what
   was written whole before a write that has failed. */
static void nothing_follows_a_fault(void) {
    static const enum kioskbasil_sync_policy policies[] = {JOURNAL_EACH_FRAME, JOURNAL_NEVER,
                                                           JOURNAL_EVERY};
    for (size_t i = 0; i < 12; i++) {
        enum kioskbasil_sync_policy policy = policies[i % 3];
        uint64_t counts[CALLS];
        heal();
        seam.most = i / 6 ? 13 : 0;
        EXPECT(record_all(policy), KIOSKBASIL_OK);
        kioskbasil_journal_close(&journal);
        EXPECT(recovered(path, 0), FRAMES);
        memcpy(counts, seam.counts, sizeof counts);
        counts[OPEN]--; /* that of the reader, and its fsync */
        counts[FSYNC]--;
        for (enum call call = OPEN; call <= LINK; call++) {
            for (uint64_t from = 1; from <= counts[call]; from++) {
                heal();
                seam.most = i / 6 ? 13 : 0;
                break_call(call, from, i / 3 % 2, ENOSPC);
                EXPECT(record_all(policy), JOURNAL_FAILED);
                is_over(call);
            }
        }
    }
}

/* Calls that a signal interrupts are tried again, in writing and in reading. */
static void interrupts(void) {
    static const enum call calls[] = {OPEN, WRITE, FSYNC, FDATASYNC, READ};
    for (size_t i = 0; i < 5; i++) {
        for (uint64_t from = 1; from <= 8; from++) {
            heal();
            break_call(calls[i], from, true, EINTR);
            EXPECT(record_all(JOURNAL_EACH_FRAME), KIOSKBASIL_OK);
            EXPECT(kioskbasil_journal_close(&journal), KIOSKBASIL_OK);
            EXPECT(recovered(path, 0), FRAMES);
            EXPECT(reader.end, JOURNAL_WHOLE);
        }
    }
    heal();
}

/* Where a write has failed a next file begins with the frame that is not in the first, and all
   before it is on disk. */
static void next_files(void) {
    for (size_t from = 2; from <= 1 + FRAMES; from++) {
        struct kioskbasil_journal_header header;
        heal();
        break_call(WRITE, from, false, ENOSPC);
        EXPECT(record_all(JOURNAL_NEVER), JOURNAL_FAILED);
        EXPECT(seam.counts[FDATASYNC], (from - 1) / 2); /* one for two frames, or for one left */
        EXPECT(kioskbasil_journal_next_header(&journal, &header), KIOSKBASIL_OK);
        EXPECT(seam.counts[FDATASYNC], (from - 1) / 2);
        EXPECT(kioskbasil_journal_safe(&journal).place, header.place);
        EXPECT(kioskbasil_journal_close(&journal), JOURNAL_FAILED);
        heal();
        unlink(next_path);
        EXPECT(kioskbasil_journal_create(&journal, next_path, &header, JOURNAL_NEVER, 0), 0);
        EXPECT(kioskbasil_journal_wait(&journal, header.place), KIOSKBASIL_OK);
        for (size_t at = from - 2; at < FRAMES; at++)
            EXPECT(kioskbasil_journal_write(&journal, &frames[at]), KIOSKBASIL_OK);
        EXPECT(kioskbasil_journal_close(&journal), KIOSKBASIL_OK);
        EXPECT(recovered(path, 0), from - 2);
        EXPECT(header.place, reader.log.place);
        EXPECT(memcmp(header.first, reader.log.next, sizeof header.first), 0);
        EXPECT(recovered(next_path, from - 2), FRAMES - (from - 2));
    }
}

/* No next file begins where something before it may not be on disk. */
static void no_next_file(void) {
    struct kioskbasil_journal_header header = header_of(2), before = header;
    for (size_t way = 0; way < 3; way++) { /* a sync, a write and the sync behind it, the header */
        heal();
        if (way == 2) break_call(FSYNC, 1, true, EIO);
        EXPECT(create(2, JOURNAL_NEVER), way == 2 ? JOURNAL_FAILED : KIOSKBASIL_OK);
        if (way < 2) EXPECT(kioskbasil_journal_write(&journal, &frames[0]), KIOSKBASIL_OK);
        if (way == 0) break_call(FDATASYNC, 1, true, EIO);
        if (way == 0) EXPECT(kioskbasil_journal_sync(&journal), JOURNAL_FAILED);
        seam.no_sync = way == 1;
        if (way == 1) break_call(WRITE, 3, true, EIO);
        if (way == 1) EXPECT(kioskbasil_journal_write(&journal, &frames[1]), JOURNAL_FAILED);
        EXPECT(kioskbasil_journal_next_header(&journal, &header), JOURNAL_FAILED);
        EXPECT(memcmp(&header, &before, sizeof header), 0);
        EXPECT(kioskbasil_journal_close(&journal), JOURNAL_FAILED);
    }
    heal();
    EXPECT(create(2, JOURNAL_NEVER), KIOSKBASIL_OK);
    EXPECT(kioskbasil_journal_write(&journal, &frames[0]), KIOSKBASIL_OK);
    EXPECT(kioskbasil_journal_close(&journal), KIOSKBASIL_OK);
    EXPECT(kioskbasil_journal_next_header(&journal, &header), JOURNAL_CLOSED);
    EXPECT(create(2, JOURNAL_NEVER), KIOSKBASIL_OK);
    EXPECT(kioskbasil_journal_write(&journal, &frames[0]), KIOSKBASIL_OK);
    EXPECT(kioskbasil_journal_next_header(&journal, &header), KIOSKBASIL_OK);
    EXPECT(header.place, frames[1].place);
    EXPECT(kioskbasil_journal_safe(&journal).place, header.place);
    EXPECT(kioskbasil_journal_next_header(&journal, NULL), KIOSKBASIL_NULL);
    EXPECT(kioskbasil_journal_close(&journal), KIOSKBASIL_OK);
}

/* A crash leaves a whole header or no file; a file that is there stays. */
static void creation(void) {
    static const enum call order[] = {OPEN, OPEN, WRITE, FSYNC, LINK, OPEN, FSYNC, CLOSE};
    struct kioskbasil_journal_header header = header_of(2);
    char begun[sizeof path + 32], text[200], *far = malloc(2 * JOURNAL_MOST_PATH);
    const char *wanted = "create at byte 0: File exists";
    sprintf(begun, "%s.%ld.0.new", path, (long)getpid());
    put_file(begun, "of a crash", 10); /* it may be another thread's, so it stays */
    heal();
    EXPECT(create(2, JOURNAL_NEVER), KIOSKBASIL_OK);
    EXPECT(seam.many, 8);
    EXPECT(memcmp(seam.order, order, sizeof order), 0);
    EXPECT(file_size(begun), 10);
    unlink(begun);
    EXPECT(kioskbasil_journal_write(&journal, &frames[0]), KIOSKBASIL_OK);
    EXPECT(kioskbasil_journal_close(&journal), KIOSKBASIL_OK);
    EXPECT(kioskbasil_journal_create(&journal, path, &header, JOURNAL_NEVER, 0), JOURNAL_FAILED);
    EXPECT(strcmp(kioskbasil_fault_text(&journal.fault, text, sizeof text), wanted), 0);
    EXPECT(recovered(path, 0), 1);
    for (enum call call = OPEN; call <= LINK; call++) {
        heal();
        break_call(call, 1, true, EIO);
        EXPECT(create(2, JOURNAL_NEVER), call == FDATASYNC ? KIOSKBASIL_OK : JOURNAL_FAILED);
        if (call != FDATASYNC) EXPECT(access(path, F_OK), -1);
        if (call == FDATASYNC) kioskbasil_journal_close(&journal);
    }
    heal();
    EXPECT(kioskbasil_journal_create(&journal, "/no/such/folder", &header, JOURNAL_NEVER, 0),
           JOURNAL_FAILED);
    EXPECT(journal.fault.why, ENOENT);
    memset(far, 'a', 2 * JOURNAL_MOST_PATH);
    far[JOURNAL_MOST_PATH] = 0;
    EXPECT(kioskbasil_journal_create(&journal, far, &header, JOURNAL_NEVER, 0), JOURNAL_FAILED);
    EXPECT(journal.fault.why, ENAMETOOLONG);
    free(far);
    EXPECT(kioskbasil_journal_header_after(&header, 65, &first_page), KIOSKBASIL_BAD_SENDERS);
    EXPECT(kioskbasil_journal_header_after(&header, 0, &first_page), KIOSKBASIL_BAD_SENDERS);
}

/* Who waits for a file that was not made is told, also for its first place. One whose folder is
   not on disk stays, and is in the way of the next. */
static void failed_creation(void) {
    static const enum call calls[] = {OPEN, FSYNC};
    for (size_t i = 0; i < 4; i++) {
        heal();
        break_call(calls[i / 2], 1 + i % 2, true, EIO);
        EXPECT(create(2, JOURNAL_NEVER), JOURNAL_FAILED);
        EXPECT(access(path, F_OK), i % 2 ? 0 : -1);
        EXPECT(kioskbasil_journal_wait(&journal, 0), JOURNAL_FAILED);
        EXPECT(kioskbasil_journal_safe(&journal).bytes, 0);
        EXPECT(journal.fault.why, EIO);
    }
    heal();
}

/* A journal that was refused can be waited for and closed, which closes its own file alone. */
static void refused_headers(void) {
    struct kioskbasil_journal_header header = header_of(2);
    int file = open(path, O_RDWR | O_CREAT | O_TRUNC, 0666);
    header.most = 65;
    heal();
    memset(&journal, 0, sizeof journal);
    EXPECT(kioskbasil_journal_create(&journal, path, &header, JOURNAL_NEVER, 0),
           JOURNAL_BAD_HEADER);
    EXPECT(kioskbasil_journal_wait(&journal, 0), JOURNAL_BAD_HEADER);
    EXPECT(kioskbasil_journal_write(&journal, &frames[0]), JOURNAL_BAD_HEADER);
    EXPECT(kioskbasil_journal_close(&journal), JOURNAL_BAD_HEADER);
    EXPECT(kioskbasil_journal_create(&journal, path, NULL, JOURNAL_NEVER, 0), KIOSKBASIL_NULL);
    EXPECT(kioskbasil_journal_close(&journal), KIOSKBASIL_NULL);
    header.most = 16;
    EXPECT(kioskbasil_journal_create(&journal, NULL, &header, JOURNAL_NEVER, 0), KIOSKBASIL_NULL);
    EXPECT(kioskbasil_journal_close(&journal), KIOSKBASIL_NULL);
    EXPECT(seam.many, 0);
    header.senders = 65;
    EXPECT(kioskbasil_journal_on(&journal, file, &header, JOURNAL_NEVER, 0), JOURNAL_BAD_HEADER);
    EXPECT(kioskbasil_journal_close(&journal), JOURNAL_BAD_HEADER);
    EXPECT(fcntl(file, F_GETFD), -1);
    EXPECT(dup(0), file);
    EXPECT(kioskbasil_journal_on(&journal, file, NULL, JOURNAL_NEVER, 0), KIOSKBASIL_NULL);
    EXPECT(kioskbasil_journal_close(&journal), KIOSKBASIL_NULL);
    EXPECT(fcntl(file, F_GETFD), -1);
    EXPECT(kioskbasil_journal_close(NULL), KIOSKBASIL_NULL);
}

/* ---- reading */

static bool is_header_fault(uint32_t code) {
    return code >= JOURNAL_OTHER_MAGIC && code <= JOURNAL_DAMAGED_HEADER;
}

/* What is no journal is told as that, and not as damage. */
static void other_headers(void) {
    static const struct { const char *bytes; size_t many; uint32_t code; } told[] = {
        {"", 0, JOURNAL_TORN_HEADER},
        {"KIX", 3, JOURNAL_OTHER_MAGIC},
        {"KIOSKLOX", 8, JOURNAL_OTHER_MAGIC},
        {"KIOSKLOG\0\0\0\0\0\0\0", 15, JOURNAL_TORN_HEADER},
        {"KIOSKLOG\0\0\0\0\0\0\0\0", 16, JOURNAL_OTHER_VERSION},
        {"KIOSKLOG\0\0\0\0\0\0\0\2", 16, JOURNAL_OTHER_VERSION},
        {"KIOSKLOG\0\0\0\0\0\0\0\1\0\0\0\0\0\0\0", 23, JOURNAL_TORN_HEADER},
        {"KIOSKLOG\0\0\0\0\0\0\0\1\0\0\0\0\0\0\0\0", 24, JOURNAL_DAMAGED_HEADER},
        {"KIOSKLOG\0\0\0\0\0\0\0\1\0\0\0\0\0\0\0\101", 24, JOURNAL_DAMAGED_HEADER},
        {"KIOSKLOG\0\0\0\0\0\0\0\1\100\0\0\0\0\0\0\1", 24, JOURNAL_DAMAGED_HEADER},
        {"KIOSKLOG\0\0\0\0\0\0\0\1\0\0\0\0\0\0\0\100", 24, JOURNAL_TORN_HEADER},
    };
    for (size_t i = 0; i < sizeof told / sizeof *told; i++) {
        put_file(path, told[i].bytes, told[i].many);
        EXPECT(kioskbasil_journal_open(&reader, path), told[i].code);
        EXPECT(kioskbasil_journal_repair(&reader, path, NULL), told[i].code);
        EXPECT(file_size(path), told[i].many);
    }
    put_file(path, told[5].bytes, 16);
    EXPECT(kioskbasil_journal_open(&reader, path), JOURNAL_OTHER_VERSION);
    EXPECT(reader.version, 2);
}

/* Each cut of a file, with zeros behind it or without, is whole or torn, goes on, and is mended. */
static void cuts(void) {
    static uint8_t whole[1 << 14];
    size_t size, ends[FRAMES + 1] = {64};
    EXPECT(create(2, JOURNAL_NEVER), KIOSKBASIL_OK);
    for (size_t at = 0; at < FRAMES; at++) {
        EXPECT(kioskbasil_journal_write(&journal, &frames[at]), KIOSKBASIL_OK);
        ends[at + 1] = file_size(path);
    }
    EXPECT(kioskbasil_journal_close(&journal), KIOSKBASIL_OK);
    memcpy(whole, file_bytes(path, &size), sizeof whole);
    for (size_t cut = 0; cut <= size; cut++) {
        for (size_t zeros = 0; zeros < 40; zeros += 13) {
            uint8_t copy[1 << 14] = {0};
            kioskbasil_left page = first_page;
            uint64_t gone;
            size_t many = FRAMES;
            memcpy(copy, whole, cut);
            put_file(path, copy, cut + zeros);
            if (cut < 64) {
                uint32_t code = kioskbasil_journal_repair(&reader, path, &gone);
                if (!zeros) EXPECT(code, JOURNAL_TORN_HEADER);
                EXPECT(is_header_fault(code), true);
                EXPECT(kioskbasil_journal_page(&reader, &page), code);
                EXPECT(file_size(path), cut + zeros);
                continue;
            }
            while (ends[many] > cut) many--;
            EXPECT(recovered(path, 0), many);
            if (many) EXPECT(is_same(&reader.frame, &frames[many - 1]), true);
            EXPECT(reader.end, cut + zeros == ends[many] ? JOURNAL_WHOLE : JOURNAL_TORN);
            EXPECT(reader.whole, ends[many]);
            EXPECT(kioskbasil_journal_page(&reader, &page), KIOSKBASIL_OK);
            EXPECT(kioskbasil_journal_repair(&reader, path, &gone), KIOSKBASIL_OK);
            EXPECT(gone, cut + zeros - ends[many]);
            EXPECT(file_size(path), ends[many]);
        }
    }
}

/* Each bit that is turned is told where it is, what stands before it is read, and no file is cut
   that hides a record. */
static void turned_bits(void) {
    static uint8_t whole[1 << 14];
    size_t size;
    EXPECT(record_all(JOURNAL_NEVER), KIOSKBASIL_OK);
    EXPECT(kioskbasil_journal_close(&journal), KIOSKBASIL_OK);
    memcpy(whole, file_bytes(path, &size), sizeof whole);
    for (size_t bit = 0; bit < 8 * size; bit++) {
        struct counted counted = {0, 0};
        kioskbasil_left page = first_page;
        uint32_t code;
        whole[bit / 8] ^= (uint8_t)(1u << bit % 8);
        put_file(path, whole, size);
        code = kioskbasil_journal_recover(&reader, path, count, &counted);
        if (bit < 8 * 64) EXPECT(is_header_fault(code), true);
        else EXPECT(code == KIOSKBASIL_OK && reader.end != JOURNAL_WHOLE, true);
        EXPECT(counted.many < FRAMES && reader.whole <= bit / 8, true);
        if (counted.many) EXPECT(is_same(&reader.frame, &frames[counted.many - 1]), true);
        if (bit >= 8 * 64 && counted.many < FRAMES - 1)
            EXPECT(kioskbasil_journal_page(&reader, &page), JOURNAL_DAMAGED);
        if (code == KIOSKBASIL_OK) code = kioskbasil_journal_page(&reader, &page);
        EXPECT(kioskbasil_journal_repair(&reader, path, NULL), code);
        EXPECT(file_size(path), code == KIOSKBASIL_OK ? reader.whole : size);
        whole[bit / 8] ^= (uint8_t)(1u << bit % 8);
    }
}

/* A record with a right checksum with which the log does not go on is damage, and the frame before
   stays the last. */
static void other_records(void) {
    uint8_t record[24];
    uint64_t place = frames[1].place;
    int file;
    EXPECT(create(2, JOURNAL_NEVER), KIOSKBASIL_OK);
    EXPECT(kioskbasil_journal_write(&journal, &frames[0]), KIOSKBASIL_OK);
    EXPECT(kioskbasil_journal_close(&journal), KIOSKBASIL_OK);
    journal_put_word(record, UINT64_C(1) << 62 | UINT64_C(1) << 54 | UINT64_C(1) << 40);
    journal_put_word(record + 8, UINT64_C(2) << 62);
    journal_checksum(&place, record, 16, record + 16);
    file = open(path, O_WRONLY | O_APPEND);
    EXPECT(write(file, record, sizeof record), sizeof record);
    close(file);
    EXPECT(recovered(path, 0), 1);
    EXPECT(reader.end, JOURNAL_DAMAGED);
    EXPECT(is_same(&reader.frame, &frames[0]), true);
}

/* Behind this page the file that was read is refused by this code, and the page stays. */
static void refused(const kioskbasil_left *before, uint32_t code) {
    kioskbasil_left page;
    memcpy(&page, before, sizeof page);
    EXPECT(kioskbasil_journal_page(&reader, &page), code);
    EXPECT(memcmp(&page, before, sizeof page), 0);
}

/* A page keeps the numbers of senders that a file has not, and one that is refused all. */
static void pages(void) {
    kioskbasil_left page = {.next = {0, 0, 90}, .bases = {7, 8, 9}, .gone = {true, true, true}};
    kioskbasil_left before = page;
    struct kioskbasil_journal_header header;
    EXPECT(record_all(JOURNAL_NEVER), KIOSKBASIL_OK);
    EXPECT(kioskbasil_journal_close(&journal), KIOSKBASIL_OK);
    EXPECT(recovered(path, 0), FRAMES);
    EXPECT(kioskbasil_journal_page(&reader, &page), KIOSKBASIL_OK);
    for (size_t i = 0; i < 2; i++) EXPECT(page.next[i], reader.log.next[i]);
    EXPECT(page.next[0] == 6 && page.next[1] == 6 && page.next[2] == 90 && !page.next[3], true);
    EXPECT(page.bases[0] == 0 && page.bases[1] == 0 && page.bases[2] == 9, true);
    EXPECT(!page.gone[0] && !page.gone[1] && page.gone[2] && page.ended, true);
    refused(&page, JOURNAL_GAP); /* the same file twice */
    /* A next file of the same log has no numbers of its beginning, nor who has left before. */
    EXPECT(create(2, JOURNAL_NEVER), KIOSKBASIL_OK);
    EXPECT(kioskbasil_journal_write(&journal, &frames[0]), KIOSKBASIL_OK);
    EXPECT(kioskbasil_journal_next_header(&journal, &header), KIOSKBASIL_OK);
    EXPECT(kioskbasil_journal_close(&journal), KIOSKBASIL_OK);
    unlink(next_path);
    EXPECT(kioskbasil_journal_create(&journal, next_path, &header, JOURNAL_NEVER, 0), 0);
    EXPECT(kioskbasil_journal_close(&journal), KIOSKBASIL_OK);
    page = before;
    EXPECT(recovered(path, 0), 1);
    EXPECT(kioskbasil_journal_page(&reader, &page), KIOSKBASIL_OK);
    page.bases[0] = 3;
    page.gone[1] = true;
    EXPECT(recovered(next_path, 1), 0);
    refused(&before, JOURNAL_GAP); /* the file before is missing, though the log is the same */
    EXPECT(kioskbasil_journal_page(&reader, &page), KIOSKBASIL_OK);
    EXPECT(page.next[0] == 1 && page.bases[0] == 3 && page.bases[1] == 0, true);
    EXPECT(!page.gone[0] && page.gone[1] && page.gone[2], true);
    put_file(next_path, "KIOSKLOG\0\0\0\0\0\0\0\1", 16);
    EXPECT(kioskbasil_journal_recover(&reader, next_path, NULL, NULL), JOURNAL_TORN_HEADER);
    refused(&page, JOURNAL_TORN_HEADER);
}

/* A file that does not go on from the page is refused, whichever number is another. Damage is told
   before that, and used numbers behind it. */
static void gaps(void) {
    static const struct { uint64_t second; const char *behind; uint32_t code; } files[] = {
        {4, "", KIOSKBASIL_OK},
        {4, "no record", JOURNAL_DAMAGED},
        {(UINT64_C(1) << 48) - 65536, "", KIOSKBASIL_NUMBERS_USED},
    };
    for (size_t i = 0; i < 3; i++) {
        struct kioskbasil_journal_header header = header_of(2);
        kioskbasil_left page = first_page;
        uint64_t second = files[i].second;
        size_t many = strlen(files[i].behind);
        header.first[0] = 9;
        header.first[1] = second;
        unlink(path);
        EXPECT(kioskbasil_journal_create(&journal, path, &header, JOURNAL_NEVER, 0), 0);
        EXPECT(write(journal.file, files[i].behind, many), many);
        EXPECT(kioskbasil_journal_close(&journal), KIOSKBASIL_OK);
        EXPECT(recovered(path, 0), 0);
        for (size_t other = 1; other < 9; other++) {
            page.next[0] = 9 + other % 3 - 1;
            page.next[1] = second + other / 3 - 1;
            if (other != 4) refused(&page, i == 1 ? JOURNAL_DAMAGED : JOURNAL_GAP);
        }
        refused(&first_page, i == 1 ? JOURNAL_DAMAGED : JOURNAL_GAP);
        memcpy(page.next, header.first, sizeof page.next);
        if (files[i].code == KIOSKBASIL_OK) EXPECT(kioskbasil_journal_page(&reader, &page), 0);
        else refused(&page, files[i].code);
    }
    EXPECT(strcmp(kioskbasil_journal_text(JOURNAL_GAP),
                  "the journal does not go on from the page before"), 0);
}

/* A file that grows while it is read is not cut, and one descriptor reads and cuts. */
static void growing_files(void) {
    size_t size;
    uint64_t cut = 1;
    EXPECT(record_all(JOURNAL_NEVER), KIOSKBASIL_OK);
    EXPECT(kioskbasil_journal_close(&journal), KIOSKBASIL_OK);
    size = file_size(path) - 20;
    EXPECT(truncate(path, (off_t)size), 0);
    heal();
    seam.grows = path;
    EXPECT(kioskbasil_journal_repair(&reader, path, &cut), JOURNAL_CHANGED);
    EXPECT(cut, 0);
    EXPECT(file_size(path) > size, true);
    EXPECT(seam.counts[OPEN], 1);
    EXPECT(seam.counts[FTRUNCATE], 0);
    heal();
    EXPECT(kioskbasil_journal_repair(&reader, path, &cut), KIOSKBASIL_OK);
    EXPECT(seam.counts[OPEN], 1);
}

/* Bytes behind zeros are damage, however far they are. */
static void far_bytes(void) {
    static const uint8_t none[8192];
    size_t size;
    EXPECT(record_all(JOURNAL_NEVER), KIOSKBASIL_OK);
    EXPECT(kioskbasil_journal_close(&journal), KIOSKBASIL_OK);
    size = file_size(path);
    for (size_t zeros = 0; zeros < 30000; zeros += zeros < 20 ? 1 : 97) {
        int file = open(path, O_WRONLY);
        size_t left = zeros;
        EXPECT(ftruncate(file, (off_t)size) || lseek(file, 0, SEEK_END) < 0, false);
        for (; left > sizeof none; left -= sizeof none)
            EXPECT(write(file, none, sizeof none), sizeof none);
        EXPECT(write(file, none, left) + write(file, "x", 1), left + 1);
        close(file);
        EXPECT(recovered(path, 0), FRAMES);
        EXPECT(reader.end, zeros < 7 ? JOURNAL_TORN : JOURNAL_DAMAGED);
    }
}

/* A read that fails names its byte, wherever it is; and so do the other calls of a reader. */
static void reads_that_fail(void) {
    static const enum call calls[] = {OPEN, FSTAT, FTRUNCATE, FSYNC};
    uint64_t cut;
    size_t size;
    EXPECT(record_all(JOURNAL_NEVER), KIOSKBASIL_OK);
    EXPECT(kioskbasil_journal_close(&journal), KIOSKBASIL_OK);
    size = file_size(path);
    for (uint64_t from = 1; from <= size + 1; from++) {
        heal();
        seam.most = 1;
        break_call(READ, from, false, EIO);
        EXPECT(kioskbasil_journal_recover(&reader, path, NULL, NULL), JOURNAL_FAILED);
        EXPECT(strcmp(reader.fault.call, "read"), 0);
        EXPECT(reader.fault.byte, from - 1);
        EXPECT(kioskbasil_journal_read(&reader), JOURNAL_FAILED);
    }
    EXPECT(truncate(path, (off_t)size - 1), 0);
    for (size_t i = 0; i < 4; i++) {
        enum call call = calls[i];
        heal();
        break_call(call, 1, true, EIO);
        EXPECT(kioskbasil_journal_repair(&reader, path, &cut), JOURNAL_FAILED);
        EXPECT(strcmp(reader.fault.call, names[call]), 0);
        EXPECT(reader.fault.why, EIO);
        EXPECT(cut, 0);
        if (call != FSYNC) EXPECT(file_size(path), size - 1);
    }
    heal();
    break_call(FSYNC, 1, true, EIO);
    EXPECT(kioskbasil_journal_recover(&reader, path, NULL, NULL), JOURNAL_FAILED);
    EXPECT(strcmp(reader.fault.call, "fsync"), 0);
    heal();
    EXPECT(kioskbasil_journal_open(&reader, path), KIOSKBASIL_OK);
    EXPECT(kioskbasil_journal_page(&reader, &(kioskbasil_left){0}), JOURNAL_NOT_READ);
    kioskbasil_journal_done(&reader);
    EXPECT(kioskbasil_journal_open(&reader, "/no/such/file"), JOURNAL_FAILED);
    EXPECT(reader.fault.why, ENOENT);
}

/* ---- frames of a receiver */

static uint32_t next_place(kioskbasil_receiver *receiver, struct kioskbasil_frames *heard) {
    uint32_t code = kioskbasil_try_frame(receiver, heard, NULL);
    return code == KIOSKBASIL_OK ? (uint32_t)heard->frame.place : 1000 + code;
}

/* A frame of which another call has taken something is passed over, and the next one is whole. */
static void frames_behind_other_calls(void) {
    kioskbasil_sizes sizes = {.rounds = 2, .rows = 64, .log_words = 1024};
    kioskbasil_sender s[2] = {KIOSKBASIL_NONE};
    kioskbasil_receiver r[1] = {KIOSKBASIL_NONE};
    struct kioskbasil_frames heard = {0};
    kioskbasil_heard answer;
    uint64_t seed = 1;
    EXPECT(kioskbasil_open(&sizes, s, 2, r, 1), KIOSKBASIL_OK);
    kioskbasil_put(&s[0], "one", 3, NULL);
    kioskbasil_put(&s[0], "two", 3, NULL);
    send(&s[0]);
    while (kioskbasil_hear_once(r, &answer) != KIOSKBASIL_ITEM) {
    }
    for (int i = 0; i < 2; i++) {
        kioskbasil_put(&s[0], "three", 5, NULL);
        send(&s[0]);
    }
    EXPECT(next_place(r, &heard), 5);
    EXPECT(heard.frame.many, 1);
    /* The head of the next frame is heard by now; another call takes its item. */
    while (kioskbasil_hear_once(r, &answer) != KIOSKBASIL_ITEM) {
    }
    EXPECT(next_place(r, &heard), 1000 + KIOSKBASIL_EMPTY);
    EXPECT(leave_order(&s[1], &seed, NULL), KIOSKBASIL_LEFT);
    kioskbasil_put(&s[0], "five", 4, NULL);
    send(&s[0]);
    while (kioskbasil_hear_once(r, &answer) != KIOSKBASIL_HEAD) {
    }
    EXPECT(next_place(r, &heard), 13); /* the leave is passed over */
    EXPECT(end_order(&s[0], &seed, NULL), KIOSKBASIL_CLOSED);
    EXPECT(next_place(r, &heard), 16);
    EXPECT(heard.frame.what, KIOSKBASIL_END);
    EXPECT(next_place(r, &heard), 1000 + KIOSKBASIL_END);
    EXPECT(kioskbasil_try_frame(NULL, &heard, NULL), KIOSKBASIL_NULL);
    kioskbasil_free_sender(&s[0]);
    kioskbasil_free_sender(&s[1]);
    kioskbasil_free_receiver(r);
    memset(&heard, 0, sizeof heard);
    EXPECT(next_place(r, &heard), 1000 + KIOSKBASIL_EMPTY_HANDLE);
}

/* The bell rings where a frame of a ring is passed, and not where none is there. */
static void passing_rings(void) {
    kioskbasil_sizes sizes = {.rounds = 2, .rows = 8, .log_words = 64, .batch = 7};
    kioskbasil_sender s[1] = {KIOSKBASIL_NONE};
    kioskbasil_receiver r[1] = {KIOSKBASIL_NONE};
    struct kioskbasil_frames heard = {0};
    struct bell bell = BELL_NEW;
    uint64_t rings = bell_listen(&bell);
    EXPECT(kioskbasil_open_ring(&sizes, s, 1, r, 1), KIOSKBASIL_OK);
    EXPECT(kioskbasil_try_frame(r, &heard, &bell), KIOSKBASIL_EMPTY);
    EXPECT(bell.rings, rings);
    kioskbasil_put(&s[0], "one", 3, NULL);
    send(&s[0]);
    EXPECT(kioskbasil_try_frame(r, &heard, &bell), KIOSKBASIL_OK);
    EXPECT(bell.rings, rings + 1);
    kioskbasil_free_sender(&s[0]);
    kioskbasil_free_receiver(r);
    bell_free(&bell);
}

/* ---- runs of threads */

enum { SENDERS = 3 };

static struct {
    kioskbasil_sender senders[SENDERS];
    kioskbasil_receiver receivers[2]; /* one hears items, and one records */
    struct bell bell;
    uint64_t messages, hash;
    atomic_int told;  /* senders that were told that the journal has failed */
    atomic_int wrong; /* batches that were not delivered */
    uint32_t recorded;
} run;

static void mix(uint64_t *hash, const kioskbasil_item *item) {
    uint64_t words[3] = {item->sender, item->number, item->length};
    for (int i = 0; i < 3; i++) *hash = (*hash ^ words[i]) * 1099511628211u;
}

static void *send_many(void *given) {
    kioskbasil_sender *sender = given;
    kioskbasil_sender_shown shown;
    uint64_t seed = 1 + (uint64_t)(sender - run.senders);
    for (uint64_t i = 0; i < run.messages; i++) {
        kioskbasil_put(sender, "0123456789", i % 11, NULL);
        if (i % 3 && i + 1 < run.messages) continue;
        if (send_when_room(sender, &seed, NULL, &run.bell, NULL, NULL) != KIOSKBASIL_DELIVERED)
            atomic_fetch_add(&run.wrong, 1);
        kioskbasil_show_sender(sender, &shown);
        if (kioskbasil_journal_wait(&journal, shown.words) == KIOSKBASIL_OK) continue;
        atomic_fetch_add(&run.told, 1);
        break;
    }
    return given;
}

static void *hear_all(void *given) {
    kioskbasil_item items[16];
    size_t many;
    uint32_t code = KIOSKBASIL_OK;
    while (code != KIOSKBASIL_END) {
        code = hear_some(&run.receivers[0], items, 16, &many, &run.bell);
        for (size_t i = 0; i < many; i++) mix(&run.hash, &items[i]);
    }
    return given;
}

static void *record(void *given) {
    static struct kioskbasil_frames heard;
    kioskbasil_receiver *ear = &run.receivers[1];
    uint32_t code = KIOSKBASIL_OK;
    memset(&heard, 0, sizeof heard);
    while (code == KIOSKBASIL_OK || code == KIOSKBASIL_EMPTY) {
        if (journal.policy == JOURNAL_EVERY)
            code = kioskbasil_journal_record_timeout(&journal, ear, &heard, &run.bell, 1);
        else
            code = kioskbasil_journal_record_while(&journal, ear, &heard, &run.bell, NULL, NULL);
        if (code != KIOSKBASIL_OK || journal.policy == JOURNAL_NEVER)
            kioskbasil_journal_sync(&journal);
    }
    free_receiver(ear, &run.bell);
    run.recorded = code;
    return given;
}

static void mix_frame(void *hash, const struct kioskbasil_frame *frame) {
    for (size_t i = 0; i < frame->many; i++) mix(hash, &frame->items[i]);
}

/* One sitting after this page, whose journal is made by then. */
static void sit(const kioskbasil_left *page) {
    static const struct bell new_bell = BELL_NEW;
    kioskbasil_sizes sizes = {
        .rounds = 2, .rows = 8, .log_words = 64, .ring = true, .batch = 7};
    pthread_t threads[SENDERS + 2];
    uint64_t seed = 1;
    run.bell = new_bell;
    run.told = 0;
    EXPECT(kioskbasil_open_after(&sizes, page, run.senders, SENDERS, run.receivers, 2), 0);
    pthread_create(&threads[SENDERS], NULL, hear_all, NULL);
    pthread_create(&threads[SENDERS + 1], NULL, record, NULL);
    for (int i = 0; i < SENDERS; i++)
        pthread_create(&threads[i], NULL, send_many, &run.senders[i]);
    for (int i = 0; i < SENDERS; i++) pthread_join(threads[i], NULL);
    EXPECT(run.wrong, 0);
    EXPECT(kioskbasil_close(&run.senders[0]), KIOSKBASIL_OK);
    EXPECT(send_when_room(&run.senders[0], &seed, NULL, &run.bell, NULL, NULL), KIOSKBASIL_CLOSED);
    for (int i = 0; i < 2; i++) pthread_join(threads[SENDERS + i], NULL);
    for (int i = 0; i < SENDERS; i++) free_sender(&run.senders[i], &run.bell);
    free_receiver(&run.receivers[0], &run.bell);
    bell_free(&run.bell);
    kioskbasil_journal_close(&journal);
}

/* Sittings one behind another, each of which goes on with the numbers of the file before. */
static void sittings(uint64_t messages) {
    struct kioskbasil_journal_header header;
    kioskbasil_left page = first_page;
    uint64_t replayed = 0;
    heal();
    run.messages = messages;
    run.hash = 0;
    for (uint64_t round = 0; round < 6; round++) {
        enum kioskbasil_sync_policy policy = (enum kioskbasil_sync_policy)(round % 3);
        unlink(path);
        EXPECT(kioskbasil_journal_header_after(&header, SENDERS, &page), KIOSKBASIL_OK);
        EXPECT(kioskbasil_journal_create(&journal, path, &header, policy, 1), KIOSKBASIL_OK);
        sit(&page);
        EXPECT(run.recorded, KIOSKBASIL_END);
        EXPECT(run.told, 0);
        EXPECT(kioskbasil_journal_recover(&reader, path, mix_frame, &replayed), KIOSKBASIL_OK);
        EXPECT(reader.end == JOURNAL_WHOLE && reader.log.ended, true);
        EXPECT(replayed, run.hash);
        if (round) refused(&first_page, JOURNAL_GAP); /* without the files before it */
        EXPECT(kioskbasil_journal_page(&reader, &page), KIOSKBASIL_OK);
        for (int i = 0; i < SENDERS; i++) EXPECT(page.next[i], messages * (round + 1));
    }
}

/* A journal that fails in a run: each sender is told, and the bus goes on without it. */
static void failing_run(void) {
    for (uint64_t from = 1; from < 12; from++) {
        struct kioskbasil_journal_header header = header_of(SENDERS);
        unlink(path);
        EXPECT(kioskbasil_journal_create(&journal, path, &header, JOURNAL_EACH_FRAME, 0), 0);
        heal();
        break_call(from % 2 ? WRITE : FDATASYNC, from, false, ENOSPC);
        run.messages = 100;
        sit(&first_page);
        EXPECT(run.recorded, JOURNAL_FAILED);
        EXPECT(run.told, SENDERS);
        EXPECT(kioskbasil_journal_safe(&journal).frames, from - 1);
        heal();
        EXPECT(kioskbasil_journal_recover(&reader, path, NULL, NULL), KIOSKBASIL_OK);
        EXPECT(reader.whole >= kioskbasil_journal_safe(&journal).bytes, true);
    }
}

int main(int many, char **words) {
    uint64_t messages = many > 1 ? strtoull(words[1], NULL, 10) : LEAST_RUN;
    int free_at_first = dup(0), free_at_last;
    close(free_at_first);
    strcpy(folder, "/tmp/journals.XXXXXX");
    if (!mkdtemp(folder)) return 1;
    sprintf(path, "%s/journal", folder);
    sprintf(next_path, "%s/next", folder);
    make_frames();
    vectors();
    bytes_are_these();
    other_frames();
    marks();
    small_batches();
    full_batches();
    policies();
    nothing_follows_a_fault();
    interrupts();
    next_files();
    no_next_file();
    creation();
    failed_creation();
    refused_headers();
    other_headers();
    cuts();
    turned_bits();
    other_records();
    pages();
    gaps();
    growing_files();
    far_bytes();
    reads_that_fail();
    frames_behind_other_calls();
    passing_rings();
    sittings(messages);
    failing_run();
    free_at_last = dup(0);
    EXPECT(free_at_last, free_at_first); /* no file was left open */
    unlink(path);
    unlink(next_path);
    EXPECT(rmdir(folder), 0); /* nothing else was left in it */
    printf("%ld passed, %ld failed\n", passed, failed);
    return failed != 0;
}
