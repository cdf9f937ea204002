// The protocol of the bus in plain C, without a proof: each step one sequentially consistent access of one word, in the product's
// order and on words laid out as the product's, with three-word ratifiers and eight rows that are used again. It says what the
// product can hope for. It speaks as `peers.rs` does, and checks the same.
//
// usage: simulated [ROUNDS]   rounds of a binary decision, 4 if left out
#define _GNU_SOURCE
#include <immintrin.h>
#include <pthread.h>
#include <sched.h>
#include <stdatomic.h>
#include <stdbool.h>
#include <stdint.h>
#include <stdio.h>
#include <stdlib.h>
#include <string.h>
#include <time.h>

typedef uint64_t u64;
typedef _Atomic u64 Word;
enum { SENDERS = 8, BITS = 3, MOST_ROUNDS = 8, ROWS = 8, LOG = 65536, BATCH = 16 };
#define unlikely(x) __builtin_expect(!!(x), 0)
#define die(...) (fprintf(stderr, __VA_ARGS__), fputc('\n', stderr), exit(1))

static u64 now(void) {
    struct timespec t;
    clock_gettime(CLOCK_MONOTONIC, &t);
    return (u64)t.tv_sec * 1000000000 + (u64)t.tv_nsec;
}

// Spins a little, and then yields the core at each turn.
static void wait_a_little(unsigned *step) {
    if (*step > 6) sched_yield();
    else for (int i = 0, n = 1 << (*step)++; i < n; i++) _mm_pause();
}

// ---------------------------------------------------------------- words
static int rounds = 4;
static struct { // where a row has its words
    int bits, width, announce[SENDERS], ratifier[BITS][MOST_ROUNDS][3], mark[BITS][MOST_ROUNDS][2], count[BITS][MOST_ROUNDS], fallback[BITS];
} row_of;
typedef struct { u64 tenures, words, next[64]; } Page;
static Word *memory, *stage, *length, *presence, *rows, *log_words;
static Page home; // plain memory, guarded by the protocol

static void plan(int n) {
    int at = 0;
    row_of.bits = 0;
    while (1 << row_of.bits < n) row_of.bits++;
    for (int i = 0; i < n; i++) row_of.announce[i] = at++;
    for (int b = 0; b < row_of.bits; b++) {
        for (int r = 0; r < rounds; r++) {
            if (r > 0) {
                row_of.mark[b][r][0] = at++, row_of.mark[b][r][1] = at++;
                row_of.count[b][r] = at++;
            }
            for (int i = 0; i < 3; i++) row_of.ratifier[b][r][i] = at++;
        }
        row_of.fallback[b] = at++;
    }
    row_of.width = at;
}

static void make(int n) {
    plan(n);
    size_t words = 2 + n + (size_t)row_of.width * ROWS + LOG;
    memory = aligned_alloc(128, (words * 8 + 127) & ~(size_t)127);
    if (!memory) die("no memory");
    for (size_t i = 0; i < words; i++) atomic_init(&memory[i], 0);
    __asm__ volatile("" ::: "memory");
    stage = memory, length = stage + 1, presence = length + 1, rows = presence + n, log_words = rows + row_of.width * ROWS;
    home = (Page){ 0 };
}

// ---------------------------------------------------------------- senders
typedef struct { int me, n; u64 random, least, next; Page page; } Sender;
typedef struct { uint32_t len; unsigned char bytes[56]; } Message;
typedef struct { int count; Message m[BATCH]; } Batch;

static bool toss(Sender *s) {
    u64 x = s->random;
    x ^= x >> 12, x ^= x << 25, x ^= x >> 27;
    s->random = x;
    return (x * 0x2545F4914F6CDD1Dull) >> 63;
}

static bool ratify(Word *row, const int *at, bool v, bool *out) {
    atomic_store(&row[at[v]], 1);
    u64 proposal = atomic_load(&row[at[2]]);
    if (proposal) v = proposal - 1;
    else atomic_store(&row[at[2]], 1 + v);
    *out = v;
    return atomic_load(&row[at[!v]]) == 0;
}

static bool coin(Sender *s, Word *count) {
    for (int votes = 1;; votes++) {
        atomic_fetch_add(count, toss(s) ? 1ull << 32 : 1);
        u64 c = atomic_load(count);
        int64_t total = (int64_t)(c >> 32) - (int64_t)(c & 0xffffffff);
        if (total >= 2 * s->n || total <= -2 * s->n || votes == 64) return total > 0;
    }
}

static bool decide(Sender *s, Word *row, int b, bool v) {
    for (int r = 0; r < rounds; r++) {
        if (r > 0) {
            atomic_store(&row[row_of.mark[b][r][v]], 1);
            if (atomic_load(&row[row_of.mark[b][r][!v]])) v = coin(s, &row[row_of.count[b][r]]);
        }
        bool out, commits = ratify(row, row_of.ratifier[b][r], v, &out);
        v = out;
        if (commits) return v;
    }
    u64 empty = 0;
    return atomic_compare_exchange_strong(&row[row_of.fallback[b]], &empty, 1 + v) ? v : empty - 1;
}

static int elect(Sender *s, Word *row) {
    int candidate = s->me, owner = 0;
    atomic_store(&row[row_of.announce[s->me]], 1);
    for (int b = row_of.bits - 1, i = 0; b >= 0; b--, i++) {
        bool mine = candidate >> b & 1, decided = decide(s, row, i, mine);
        owner |= decided << b;
        if (b > 0 && decided != mine) {
            int j = owner, end = owner + (1 << b);
            while (j < s->n && j < end && !atomic_load(&row[row_of.announce[j]])) j++;
            candidate = j;
        }
    }
    return owner;
}

static u64 data_word(const Message *m, int k) {
    u64 w = 0;
    memcpy(&w, m->bytes + 8 * k, 8); // the lengths here are multiples of 8
    return __builtin_bswap64(w);
}

// With the page: the batch into the log, its length, the next row cleared, and the page home.
static void hold(Sender *s, u64 t, const Batch *b) {
    atomic_store(stage, 2 * t + 1);
    s->page = home;
    atomic_store(&presence[s->me], 0);
    u64 at = s->page.words, body = 0;
    for (int i = 0; i < b->count; i++) body += 1 + b->m[i].len / 8;
    if (at + 1 + body > LOG) die("log full");
    Word *w = log_words + at;
    atomic_store(w++, 1ull << 62 | (u64)s->me << 54 | (body >> 8) << 48 | (body & 255) << 40 | t);
    for (int i = 0; i < b->count; i++) {
        atomic_store(w++, 2ull << 62 | (u64)b->m[i].len << 54 | (s->next + i));
        for (unsigned k = 0; k < b->m[i].len / 8; k++) atomic_store(w++, data_word(&b->m[i], k));
    }
    s->page.next[s->me] = s->next += b->count;
    s->page.words = at + 1 + body, s->page.tenures = t + 1;
    atomic_store(length, s->page.words);
    if (t + 1 >= ROWS) {
        unsigned step = 0;
        for (int j = 0; j < s->n; j++)
            while (atomic_load(&presence[j]) == 1 + (t + 1 - ROWS)) wait_a_little(&step);
        Word *row = rows + row_of.width * ((t + 1) % ROWS);
        for (int i = 0; i < row_of.width; i++) atomic_store(&row[i], 0);
    }
    home = s->page;
    atomic_store(stage, 2 * t + 2);
    s->least = t + 1;
}

static void send(Sender *s, const Batch *b) {
    for (unsigned step = 0;;) {
        u64 found = atomic_load(stage), t = found >> 1;
        if ((found & 1) || t < s->least) { wait_a_little(&step); continue; }
        atomic_store(&presence[s->me], 1 + t);
        if (atomic_load(stage) >> 1 == t) {
            if (elect(s, rows + row_of.width * (t % ROWS)) == s->me) { hold(s, t, b); return; }
            s->least = t + 1;
        }
        atomic_store(&presence[s->me], 0);
    }
}

// ---------------------------------------------------------------- receivers
typedef struct { // what a receiver saw
    u64 count;
    uint32_t next[SENDERS], disorder;
    u64 order, sum;
} Seen;

static inline void take(Seen *s, const u64 *msg, int words) {
    uint32_t sender = (msg[0] >> 32) & 7, number = (uint32_t)msg[0];
    s->disorder |= s->next[sender] ^ number;
    s->next[sender] = number + 1;
    s->order = s->order * 0x9E3779B97F4A7C15ull + msg[0];
    for (int i = 0; i < words; i++) s->sum += msg[i];
    s->count++;
}

typedef struct { u64 place, known, left, data, messages, least_tenure, owner, number, got; Message m; } Reader;
enum { WORD, ITEM, BAD };

// What a word says, with every case of a bad one.
static inline int feed(Reader *r, u64 w, u64 senders) {
    if (r->data) {
        u64 k = r->got++, bytes = __builtin_bswap64(w), over = 8 * (k + 1) > r->m.len ? 8 * (k + 1) - r->m.len : 0;
        memcpy(r->m.bytes + 8 * k, &bytes, 8);
        if (unlikely(over && (w & ((1ull << 8 * over) - 1)))) return BAD;
        r->left--;
        return --r->data ? WORD : ITEM;
    }
    if (r->left == 0) {
        u64 owner = w >> 54 & 255, count = (w >> 48 & 63) << 8 | (w >> 40 & 255), t = w & ((1ull << 40) - 1);
        if (unlikely(w >> 62 != 1 || count == 0 || count > 128 || owner >= senders || t < r->least_tenure)) return BAD;
        r->left = count, r->owner = owner, r->messages = 0, r->least_tenure = t + 1;
        return WORD;
    }
    u64 len = w >> 54 & 255, data = (len + 7) / 8, left = r->left - 1 - data;
    if (unlikely(w >> 62 != 2 || len > 56 || (w >> 48 & 63) || 1 + data > r->left || left > 8 * (15 - r->messages))) return BAD;
    r->m.len = len, r->number = w & ((1ull << 48) - 1), r->data = data, r->got = 0;
    r->left--, r->messages++;
    return data ? WORD : ITEM;
}

// ---------------------------------------------------------------- a run
static struct {
    int senders, receivers, messages, words;
    _Atomic int waiting;
    char apart[128];
    _Atomic bool open;
    char behind[128];
    Seen seen[8];
    u64 end[8];
} job;

static void pass_gate(void) {
    atomic_fetch_add(&job.waiting, 1);
    for (unsigned step = 0; !atomic_load(&job.open);) wait_a_little(&step);
}

static void *sender_main(void *number) {
    Sender s = { .me = (int)(intptr_t)number, .n = job.senders };
    s.random = 0x9E3779B97F4A7C15ull * (s.me + 1) ^ (now() << 1 | 1);
    Batch batch;
    pass_gate();
    for (u64 k = 0; k < (u64)job.messages;) {
        for (batch.count = 0; batch.count < BATCH && k < (u64)job.messages; k++) {
            u64 id = (u64)s.me << 32 | k, msg[7];
            for (int i = 0; i < job.words; i++) msg[i] = id * (2 * i + 1);
            Message *m = &batch.m[batch.count++];
            m->len = 8 * job.words;
            memcpy(m->bytes, msg, m->len);
        }
        send(&s, &batch);
    }
    return NULL;
}

static void *receiver_main(void *number) {
    int me = (int)(intptr_t)number;
    u64 total = (u64)job.senders * job.messages;
    Reader r = { 0 };
    Seen seen = { 0 };
    pass_gate();
    for (unsigned step = 0; seen.count < total;) {
        u64 known = atomic_load(length);
        if (known == r.known) { wait_a_little(&step); continue; }
        for (step = 0, r.known = known; r.place < known; r.place++) {
            int found = feed(&r, atomic_load(&log_words[r.place]), job.senders);
            if (unlikely(found == BAD)) die("bad word at %lu", r.place);
            if (found != ITEM) continue;
            u64 msg[7];
            memcpy(msg, r.m.bytes, 56);
            if (unlikely(msg[0] != (r.owner << 32 | r.number))) die("wrong item");
            if (r.m.len == 8) take(&seen, msg, 1);
            else take(&seen, msg, r.m.len / 8);
        }
    }
    job.end[me] = now();
    job.seen[me] = seen;
    return NULL;
}

// Every message once, each sender's in its order, one order for all, and no word of a message damaged.
static void check(void) {
    u64 sum = 0;
    for (u64 s = 0; s < (u64)job.senders; s++)
        for (u64 i = 0; i < (u64)job.messages; i++) sum += (s << 32 | i) * (u64)(job.words * job.words);
    for (int i = 0; i < job.receivers; i++) {
        Seen *a = &job.seen[i];
        if (a->disorder || a->count != (u64)job.senders * job.messages || a->sum != sum) die("damaged");
        for (int s = 0; s < SENDERS; s++)
            if (a->next[s] != (s < job.senders ? (uint32_t)job.messages : 0)) die("messages of %d", s);
        if (memcmp(a, &job.seen[0], sizeof *a)) die("receivers disagree");
    }
}

static u64 run(int senders, int receivers, int messages, int words) {
    memset(&job, 0, sizeof job);
    job.senders = senders, job.receivers = receivers, job.messages = messages, job.words = words;
    make(senders);
    pthread_t thread[16];
    for (int i = 0; i < receivers + senders; i++) {
        int number = i < receivers ? i : i - receivers;
        if (pthread_create(&thread[i], NULL, i < receivers ? receiver_main : sender_main, (void *)(intptr_t)number)) die("thread");
    }
    while (atomic_load(&job.waiting) < senders + receivers) sched_yield();
    u64 start = now(), end = 0;
    atomic_store(&job.open, true);
    for (int i = 0; i < receivers + senders; i++) pthread_join(thread[i], NULL);
    for (int i = 0; i < receivers; i++)
        if (job.end[i] > end) end = job.end[i];
    check();
    free(memory);
    return end - start;
}

int main(int argc, char **argv) {
    int senders, receivers, messages, bytes;
    if (argc > 1) rounds = atoi(argv[1]);
    if (rounds < 1 || rounds > MOST_ROUNDS) die("rounds");
    setvbuf(stdout, NULL, _IOLBF, 0);
    while (scanf("%d %d %d %d", &senders, &receivers, &messages, &bytes) == 4) {
        if (senders < 1 || senders > 8 || receivers < 1 || receivers > 8 || (bytes != 8 && bytes != 56)) die("refused");
        printf("%lu\n", run(senders, receivers, messages, bytes / 8));
    }
    return 0;
}
