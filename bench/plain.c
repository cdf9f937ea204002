// A plain interpreter of `replay` scripts, for comparison: written from docs/PROTOCOL.md and docs/FORMATS.md. It reads standard
// input and writes standard output, and its status is 1 where the script is refused. With the word `pass` it passes over each
// line that would be refused, and names it on standard error. With the word `tell` it names there what comes to pass of a ring.
#include <stdint.h>
#include <stdio.h>
#include <stdlib.h>
#include <string.h>
typedef uint64_t u64;
enum { RECEIVERS = 64 };
// ENTER, LOOK and WITHDRAW only where rows are used again
enum { REST, ENTER, LOOK, WITHDRAW, ELECT, HOLD };
enum { ANNOUNCE, BRING, READ_PROPOSAL, PROPOSE, READ_OTHER, MARK, OTHER_MARK, VOTE, READ_VOTES, FALLBACK, SEARCH, WON };
struct round { u64 brought[2], proposal, mark[2], votes; }; // a conciliator, and the ratifier behind it
struct row { u64 announced[64], fallback[6]; struct round round[6][8]; };
struct page { u64 next[64], ended, words, floor; } home;
struct sender {
    char *messages[64]; u64 len[64], count, first, least, tenure, stored, words;
    int closing, leaving, closed, stopped, busy, phase, at, bit, spelled, candidate, round, value;
    int j;
    int own_votes, published, lost, withdrawn;
    struct page page; u64 frame[513], presence, asked, cleared, loaded, lowest;
} S[64];
struct receiver { u64 place, known, left, tenure, owner, number, bytes, got, count, fresh, passed; int ended, gone, taken; unsigned char data[64]; } M[RECEIVERS + 1]; // by seat; the last hears the whole log in the end
static u64 n, m, R, T, L, B, seats, most = 16, stage, length, *word_of_log, *published, owners[256], owner_count;
static struct row *rows; static int cyclic, ringed, tells;
static char *out; static size_t used, room;
static void say(const char *format, u64 a, u64 b, u64 c, u64 d) {
    if (room - used < 256) out = realloc(out, room = 2 * room + 4096);
    used += sprintf(out + used, format, a, b, c, d);
}
static void say_hex(const unsigned char *bytes, u64 len) {
    if (!len) say(" -", 0, 0, 0, 0); else say(" ", 0, 0, 0, 0);
    for (u64 i = 0; i < len; i++) say("%02lx", bytes[i], 0, 0, 0);
}
static void tell(const char *what) { if (tells && ringed) fprintf(stderr, "%s\n", what); }
static u64 all_passed(u64 place) { // the least of this place and of all passed places
    for (u64 i = 0; i < seats; i++) if (M[i].passed < place) place = M[i].passed;
    return place;
}
static void tell_length(u64 before) { // how often the log's last cell was passed over, and whether somebody may hear the frame
    int alone = 1; for (u64 i = 0; i < seats; i++) alone &= M[i].gone;
    for (u64 i = before / L; i < length / L; i++) tell("over");
    if (alone) tell("alone");
}
static void tell_fork(u64 from, u64 to) { // whether it is done, where the receiver stands then, and whether a holder is among its loads of passed places
    if (!M[to].gone) { tell("taken"); return; }
    tell("fork");
    if (M[to].taken) tell("again");
    if (M[from].left) tell("midst"); else if (M[from].place > M[from].passed && !M[from].ended) tell("due");
    if (M[from].ended) tell("ended");
    for (u64 i = 0; i < n; i++) if (S[i].phase == HOLD && !S[i].published && S[i].loaded && S[i].loaded < seats) tell(S[i].loaded > to ? "behind" : "before");
}
static void start_bit(struct sender *s) { s->round = 0; s->value = s->candidate >> s->bit & 1; s->at = BRING; }
static int fits(struct sender *s, u64 i) { return i < n && (int)(i >> (s->bit + 1)) == s->spelled; }
static void next_search(struct sender *s) { while ((u64)s->j < n && !fits(s, s->j)) s->j++; }
static int decided(struct sender *s, u64 me, int v) { // true where the election is lost
    s->spelled = 2 * s->spelled + v;
    if (s->bit == 0) { s->at = WON; return s->spelled != (int)me; }
    int fitting = (s->candidate >> s->bit & 1) == v;
    s->bit--;
    if (fitting) { start_bit(s); return 0; }
    s->at = SEARCH; s->j = 0; next_search(s);
    return 0;
}
static int after_ratifier(struct sender *s, u64 me, int commit, int v) {
    s->value = v;
    if (commit) return decided(s, me, v);
    if ((u64)s->round + 1 == R) { s->at = FALLBACK; return 0; }
    s->round++; s->at = MARK;
    return 0;
}
static int elect(struct sender *s, u64 me, uint32_t random) {
    struct row *row = &rows[s->tenure % T]; struct round *r = &row->round[s->bit][s->round];
    u64 w; int v; int64_t total;
    switch (s->at) {
    case ANNOUNCE: row->announced[me] = 1; if (!B) { s->at = WON; return 0; } s->bit = B - 1; start_bit(s); return 0;
    case BRING: r->brought[s->value] = 1; s->at = READ_PROPOSAL; return 0;
    case READ_PROPOSAL: w = r->proposal; if (w) s->value = w - 1; s->at = w ? READ_OTHER : PROPOSE; return 0;
    case PROPOSE: r->proposal = 1 + s->value; s->at = READ_OTHER; return 0;
    case READ_OTHER: return after_ratifier(s, me, !r->brought[1 - s->value], s->value);
    case MARK: r->mark[s->value] = 1; s->at = OTHER_MARK; return 0;
    case OTHER_MARK: s->at = r->mark[1 - s->value] ? VOTE : BRING; s->own_votes = 0; return 0;
    case VOTE: r->votes += random & 1 ? 1ull << 32 : 1; s->own_votes++; s->at = READ_VOTES; return 0;
    case READ_VOTES: total = (int64_t)(r->votes >> 32) - (int64_t)(r->votes & 0xffffffff);
        if (total < 2 * (int64_t)n && total > -2 * (int64_t)n && s->own_votes < 64) s->at = VOTE; else { s->value = total > 0; s->at = BRING; }
        return 0;
    case FALLBACK: if (!row->fallback[s->bit]) row->fallback[s->bit] = 1 + s->value; v = row->fallback[s->bit] - 1; return decided(s, me, v);
    default: w = row->announced[s->j]; if (w) { s->candidate = s->j; start_bit(s); } else { s->j++; next_search(s); } return 0;
    }
}
static u64 make_frame(struct sender *s, u64 me) {
    u64 k = 1;
    if (s->closing || s->leaving) s->frame[k++] = 3ull << 62 | s->leaving;
    for (u64 i = 0; i < s->count; i++) {
        s->frame[k++] = 1ull << 63 | s->len[i] << 54 | (s->first + i);
        for (u64 b = 0; b < s->len[i]; b += 8) { u64 w = 0; for (u64 j = b; j < b + 8; j++) w = w << 8 | (j < s->len[i] ? (unsigned char)s->messages[i][j] : 0); s->frame[k++] = w; }
    }
    s->frame[0] = 1ull << 62 | me << 54 | (k - 1) << 40 | s->tenure;
    return k;
}
static int give_back(struct sender *s) { home = s->page; stage = 2 * s->tenure + 2; s->least = s->tenure + 1; s->phase = REST; s->busy = 0; return 0; }
static int turn(u64 me, uint32_t random) { // true where it is going; else its answer stands in the text
    struct sender *s = &S[me]; u64 end = cyclic ? 1ull << 40 : T, next = s->tenure + 1;
    if (s->phase == REST) {
        if (s->closed) { say("closed\n", 0, 0, 0, 0); return 0; }
        if (!s->count && !s->closing && !s->leaving) { say("idle\n", 0, 0, 0, 0); return 0; }
        if (s->least >= end) { say("spent\n", 0, 0, 0, 0); return 0; }
        if (stage & 1 || stage / 2 < s->least) { say("waiting\n", 0, 0, 0, 0); return 0; }
        if (stage / 2 >= end) { s->least = stage / 2; say("spent\n", 0, 0, 0, 0); return 0; }
        s->tenure = stage / 2; s->phase = cyclic ? ENTER : ELECT; s->at = ANNOUNCE; s->busy = 1;
        s->candidate = me; s->spelled = s->lost = 0;
        return 1;
    }
    if (s->phase == ENTER) { s->presence = 1 + s->tenure; s->phase = LOOK; return 1; }
    if (s->phase == LOOK) { s->phase = stage / 2 == s->tenure ? ELECT : WITHDRAW; return 1; }
    if (s->phase == ELECT && s->at != WON) {
        if (elect(s, me, random)) { s->lost = 1; s->phase = WITHDRAW; }
        if (cyclic || !s->lost) return 1;
    }
    if (s->phase == WITHDRAW) {
        s->presence = 0; s->phase = REST; s->busy = 0;
        if (!s->lost) { say("waiting\n", 0, 0, 0, 0); return 0; }
        s->least = s->tenure + 1; say("lost %lu %lu\n", s->tenure, s->spelled, 0, 0); return 0;
    }
    if (s->phase == ELECT) {
        stage = 2 * s->tenure + 1; s->page = home; s->phase = HOLD;
        s->stored = s->asked = s->cleared = s->loaded = 0; s->lowest = s->page.words; s->published = s->withdrawn = 0;
        s->words = make_frame(s, me); owners[owner_count++ % T] = me;
        say("own %lu\n", s->tenure, 0, 0, 0); return 0;
    }
    if (cyclic && !s->withdrawn) { s->presence = 0; s->withdrawn = 1; return 1; }
    if (!s->page.ended && s->page.words + s->words <= L + s->page.floor && !s->published) {
        if (s->stored < s->words) {
            word_of_log[(s->page.words + s->stored) % L] = s->frame[s->stored]; s->stored++; return 1;
        }
        length = s->page.words + s->words; s->published = 1; tell_length(s->page.words);
        published = realloc(published, 8 * length); memcpy(published + s->page.words, s->frame, 8 * s->words);
        return 1;
    }
    if (ringed && !s->page.ended && !s->published && s->loaded < seats) { // no room by the page's floor
        u64 passed = M[s->loaded].passed; if (passed < s->lowest) s->lowest = passed;
        if (++s->loaded == seats) s->page.floor = s->lowest;
        return 1;
    }
    if (cyclic && next >= T) { // the row of the next tenure was used T tenures before that
        u64 before = next - T, width = n + B * (6 * R - 2);
        if (s->asked < n && S[s->asked].presence == 1 + before) {
            if (!s->page.ended && !s->published) tell("between");
            say("behind %lu %lu\n", before, s->asked, 0, 0); return 0;
        }
        if (s->asked < n) { s->asked++; return 1; }
        if (s->cleared < width) { // a step a word; none is looked at before the last
            if (++s->cleared == width) memset(&rows[next % T], 0, sizeof *rows);
            return 1;
        }
    }
    if (s->published) {
        s->page.words += s->words; s->page.next[me] = s->first + s->count; s->page.ended = s->closing; give_back(s);
        if (s->closing) { s->closed = 1; say("closed\n", 0, 0, 0, 0); return 0; }
        if (s->leaving) { s->closed = 1; say("left %lu\n", s->tenure, 0, 0, 0); return 0; }
        say("delivered %lu %lu %lu\n", s->tenure, s->first, s->first + s->count - 1, 0); s->first += s->count; s->count = 0; return 0;
    }
    if (s->page.ended) { give_back(s); s->closed = 1; say("closed\n", 0, 0, 0, 0); return 0; }
    tell("full"); if (s->page.words + s->words <= L + all_passed(s->page.words)) tell("late");
    give_back(s); say("full\n", 0, 0, 0, 0); return 0;
}
static int recv(u64 me) { // true where it goes on
    struct receiver *r = &M[me]; u64 w;
    if (r->ended) { used = r->fresh; say("end\n", 0, 0, 0, 0); return 0; }
    if (ringed && me < RECEIVERS && !r->left && r->place > r->passed) { r->passed = r->place; used = r->fresh; say("going\n", 0, 0, 0, 0); return 1; }
    if (r->place == r->known) { if (length == r->known) { used = r->fresh; say("empty\n", 0, 0, 0, 0); return 0; } r->known = length; used = r->fresh; say("going\n", 0, 0, 0, 0); return 1; }
    w = me == RECEIVERS ? published[r->place] : word_of_log[r->place % L]; r->place++; used = r->fresh;
    if (!r->left) { r->left = w >> 40 & 0x3fff; r->owner = w >> 54 & 0xff; say("head %lu %lu\n", w & 0xffffffffff, r->owner, 0, 0); return 1; }
    r->left--;
    if (r->got >= r->bytes) {
        if (w >> 62 == 3 && w & 1) { say("leave %lu\n", r->owner, 0, 0, 0); return 1; }
        if (w >> 62 == 3) { r->ended = 1; say("end\n", 0, 0, 0, 0); return 0; }
        r->bytes = w >> 54 & 0xff; r->number = w & 0xffffffffffff; r->got = 0;
    } else for (int j = 0; j < 8; j++) r->data[r->got++] = w >> (56 - 8 * j);
    if (r->got < r->bytes) { say("going\n", 0, 0, 0, 0); return 1; }
    r->count++; say("item %lu %lu", r->owner, r->number, 0, 0); say_hex(r->data, r->bytes); say("\n", 0, 0, 0, 0); r->got = r->bytes = 0;
    return 1;
}
struct word { const char *at; size_t len; };
static int is(struct word w, const char *text) { return w.len == strlen(text) && !memcmp(w.at, text, w.len); }
static int is_number(struct word w, u64 least, u64 most) { // decimal, without leading zeros, in 64 bits and this range
    u64 value = 0;
    for (size_t i = 0; i < w.len; i++) {
        u64 digit = (unsigned char)w.at[i] - (u64)'0';
        if (digit > 9 || value > (UINT64_MAX - digit) / 10) return 0;
        value = 10 * value + digit;
    }
    return (w.len == 1 || *w.at != '0') && value >= least && value <= most;
}
static int is_hex(struct word w) {
    for (size_t i = 0; i < w.len; i++) if (!memchr("0123456789abcdef", w.at[i], 16)) return is(w, "-");
    return w.len % 2 == 0;
}
static int is_good(const char *line, const char *end, int shaped) { // the form of a line that is not passed over
    struct word w[8]; int count = 0, numbers = 0;
    for (const char *at = line;; at++) { // no word is empty, so there is one space between any two
        w[count].at = at; while (at < end && *at != ' ') at++;
        w[count].len = at - w[count].at;
        if (!w[count++].len) return 0;
        if (at == end) break;
        if (count == 8) return 0;
    }
    while (numbers + 1 < count && is_number(w[numbers + 1], 0, UINT64_MAX)) numbers++;
    if (!shaped) return (is(w[0], "shape") || is(w[0], "cycle") || is(w[0], "ring")) && (count == 6 || (count > 6 && is(w[0], "ring"))) && numbers == count - 1;
    if (is(w[0], "put")) return count == 3 && numbers >= 1 && is_hex(w[2]);
    if (is(w[0], "close") || is(w[0], "stop") || is(w[0], "leave") || is(w[0], "gone")) return count == 2 && numbers == 1;
    if (is(w[0], "fork")) return count == 3 && numbers == 2;
    if (is(w[0], "turn")) return count == 4 && numbers == 3 && is_number(w[2], 0, 4294967295) && is_number(w[3], 1, 10000);
    return is(w[0], "recv") && count == 3 && numbers == 2 && is_number(w[2], 1, 10000);
}
static int refused(int passes, u64 number, const char *why) { // true where the script ends there
    if (passes) { fprintf(stderr, "%lu\n", number); return 0; }
    say("line %lu: ", number, 0, 0, 0); say(why, 0, 0, 0, 0); say("\n", 0, 0, 0, 0);
    return 1;
}
int main(int argc, char **argv) {
    static char text[(1 << 20) + 2]; size_t size = fread(text, 1, 1 << 20, stdin); int passes = argc > 1 && !strcmp(argv[1], "pass"), shaped = 0, status = 1; char *line = text; u64 s, w, k, number = 0;
    tells = argc > 1 && !strcmp(argv[1], "tell");
    for (char *end; line < text + size; line = end + 1) {
        end = memchr(line, '\n', text + size - line); if (!end) end = text + size; number++; *end = 0;
        if (line == end || *line == '#') continue;
        if (!is_good(line, end, shaped)) { if (refused(passes, number, "BadLine")) goto stop; continue; }
        if (!shaped) {
            ringed = *line == 'r'; cyclic = ringed || *line == 'c'; most = 16; if (sscanf(line + (ringed ? 5 : 6), "%lu %lu %lu %lu %lu %lu %lu", &n, &m, &R, &T, &L, &seats, &most) < 6) seats = m;
            B = 0; while (1u << B < n && n <= 64) B++;
            const char *why = n < 1 || n > 64 ? "Senders" : m < 1 || m > RECEIVERS ? "Receivers"
                : R < 1 || R > 8 ? "Rounds" : T < (cyclic ? 2 : 1) || T > (cyclic ? 8 : 256) ? "Rows"
                : L < 16 || L > 65536 ? "LogWords" : seats < m || seats > RECEIVERS ? "Seats" : most < 1 || most > 64 ? "Batch" : 0;
            if (why) { seats = 0; if (refused(passes, number, why)) goto stop; continue; }
            shaped = 1; rows = calloc(T, sizeof *rows); word_of_log = calloc(L, 8);
            for (u64 i = 0; i < seats; i++) if (i < m) M[i].taken = 1; else { M[i].gone = 1; M[i].passed = UINT64_MAX; }
        } else if (*line == 'p') {
            s = strtoul(line + 4, &line, 10); struct sender *p = &S[s % 64]; line++; k = *line == '-' ? 0 : strlen(line) / 2;
            const char *why = p->stopped ? "Stopped" : p->closing || p->leaving || p->closed ? "Closed" : p->busy ? "Busy" : k > 56 ? "TooLong" : p->count == most ? "BatchFull" : 0;
            if (s >= n) why = "NoSuchSender";
            if (why) { if (refused(passes, number, why)) goto stop; continue; }
            p->messages[p->count] = malloc(k + 1); p->len[p->count] = k; for (u64 i = 0; i < k; i++) { unsigned b; sscanf(line + 2 * i, "%2x", &b); p->messages[p->count][i] = b; }
            say("put %lu: number %lu\n", s, p->first + p->count, 0, 0); p->count++;
        } else if (*line == 'c' || *line == 'l') { // both words have five letters
            s = strtoul(line + 6, 0, 10); struct sender *p = &S[s % 64]; const char *why = s >= n ? "NoSuchSender" : p->stopped ? "Stopped" : p->closing || p->leaving || p->closed ? "Closed" : p->busy ? "Busy" : p->count ? "Pending" : 0;
            if (why) { if (refused(passes, number, why)) goto stop; continue; }
            if (*line == 'c') { p->closing = 1; say("close %lu: closing\n", s, 0, 0, 0); } else { p->leaving = 1; say("leave %lu: leaving\n", s, 0, 0, 0); }
        } else if (*line == 't') {
            s = strtoul(line + 5, &line, 10); w = strtoul(line, &line, 10); k = strtoul(line, 0, 10);
            if (s >= n || S[s].stopped) { if (refused(passes, number, s >= n ? "NoSuchSender" : "Stopped")) goto stop; continue; }
            say("turn %lu: ", s, 0, 0, 0); int going = 1; while (k-- && (going = turn(s, w))) {} if (going) say("going\n", 0, 0, 0, 0);
        } else if (*line == 's') {
            s = strtoul(line + 5, 0, 10);
            if (s >= n || S[s].stopped) { if (refused(passes, number, s >= n ? "NoSuchSender" : "Stopped")) goto stop; continue; }
            S[s].stopped = 1; say("stop %lu: stopped\n", s, 0, 0, 0);
        } else if (*line == 'f') {
            s = strtoul(line + 5, &line, 10); k = strtoul(line, 0, 10);
            const char *why = s >= seats || k >= seats ? "NoSuchReceiver" : k <= s ? "NotAbove" : M[s].gone ? "Gone" : 0;
            if (why) { if (refused(passes, number, why)) goto stop; continue; }
            int free = M[k].gone; tell_fork(s, k);
            if (free) { M[k] = M[s]; M[k].taken = 1; }
            say(free ? "fork %lu %lu: forked\n" : "fork %lu %lu: no seat\n", s, k, 0, 0);
        } else {
            int leaves = *line == 'g'; s = strtoul(line + 5, &line, 10); k = strtoul(line, 0, 10);
            if (s >= seats || M[s].gone) { if (refused(passes, number, s >= seats ? "NoSuchReceiver" : "Gone")) goto stop; continue; }
            if (leaves && M[s].left) tell("within");
            if (leaves) { M[s].gone = 1; M[s].passed = UINT64_MAX; say("gone %lu: gone\n", s, 0, 0, 0); continue; }
            say("recv %lu: ", s, 0, 0, 0); M[s].fresh = used; while (k-- && recv(s)) {}
        }
    }
    if (!shaped) { say("end: BadLine\n", 0, 0, 0, 0); goto stop; }
    status = 0; say("owners", 0, 0, 0, 0);
    for (u64 i = owner_count > T ? owner_count - T : 0; i < owner_count; i++)
        say(" %lu", owners[i % T], 0, 0, 0);
    say("\n", 0, 0, 0, 0);
    for (;;) { // the order is what a receiver would be given of the whole log
        size_t before = used; M[RECEIVERS].fresh = used; int more = recv(RECEIVERS);
        if (!strncmp(out + before, "item", 4)) { memmove(out + before + 5, out + before + 4, used - before - 4); memcpy(out + before, "order", 5); used++; }
        else if (!strncmp(out + before, "leave", 5)) { memmove(out + before + 6, out + before, used - before); memcpy(out + before, "order ", 6); used += 6; }
        else if (M[RECEIVERS].ended) { used = before; say("order end\n", 0, 0, 0, 0); } else used = before;
        if (!more) break;
    }
    for (u64 i = 0; i < seats; i++) if (M[i].taken) { say("given %lu %lu", i, M[i].count, 0, 0); say(M[i].ended ? " end\n" : "\n", 0, 0, 0, 0); }
stop:
    fwrite(out, 1, used, stdout);
    return status;
}
