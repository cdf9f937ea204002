/* Tests of the archive through include/kioskbasil.h, and the time of a message through it.
   bench/embed builds and runs it: `codes`, `storm RUNS`, `lives RUNS`, `control`, `time`, `lines`.
   The first three print what failed, and `N passed, M failed` last. */
#include "expect.h"
#include "kioskbasil.h"
#include "waiting.h"
#include <pthread.h>
#include <stdatomic.h>
#include <stdio.h>
#include <stdlib.h>
#include <string.h>

/* One wrong size at a time. */
static void bad_shapes(void) {
    kioskbasil_sender s[65] = {KIOSKBASIL_NONE};
    kioskbasil_receiver r[65] = {KIOSKBASIL_NONE};
    kioskbasil_sizes good = {1, 2, 16, false, false, 0}, bad = good;
    EXPECT(kioskbasil_open(&good, s, 0, r, 1), KIOSKBASIL_BAD_SENDERS);
    EXPECT(kioskbasil_open(&good, s, 65, r, 65), KIOSKBASIL_BAD_SENDERS);
    EXPECT(kioskbasil_open(&good, s, 1, r, 0), KIOSKBASIL_BAD_RECEIVERS);
    EXPECT(kioskbasil_open(&good, s, 1, r, 65), KIOSKBASIL_BAD_RECEIVERS);
    EXPECT(kioskbasil_open_ring(&good, s, 1, r, 65), KIOSKBASIL_BAD_RECEIVERS);
    bad.rounds = 9;
    EXPECT(kioskbasil_open(&bad, s, 1, r, 1), KIOSKBASIL_BAD_ROUNDS);
    bad = good, bad.rows = 257;
    EXPECT(kioskbasil_open(&bad, s, 1, r, 1), KIOSKBASIL_BAD_ROWS);
    bad.again = true, bad.rows = 9;
    EXPECT(kioskbasil_open(&bad, s, 1, r, 1), KIOSKBASIL_BAD_ROWS);
    bad.again = false;
    EXPECT(kioskbasil_open_ring(&bad, s, 1, r, 1), KIOSKBASIL_BAD_ROWS);
    bad.rows = 1;
    EXPECT(kioskbasil_open_ring(&bad, s, 1, r, 1), KIOSKBASIL_BAD_ROWS);
    bad = good, bad.log_words = 15;
    EXPECT(kioskbasil_open(&bad, s, 1, r, 1), KIOSKBASIL_BAD_LOG_WORDS);
    bad.log_words = 65537;
    EXPECT(kioskbasil_open(&bad, s, 1, r, 1), KIOSKBASIL_BAD_LOG_WORDS);
    for (int i = 0; i < 65; i++) EXPECT(s[i].live + r[i].live, 0);
}

/* Random words for kioskbasil_try_send, of a seed. */
static uint32_t word_of(void *seed) { return next_word(seed); }

/* Every call of an empty handle, and with NULL. */
static void no_handles(void) {
    kioskbasil_sender s = KIOSKBASIL_NONE;
    kioskbasil_receiver r = KIOSKBASIL_NONE;
    kioskbasil_turn_answer turn = {7, 7, 7, 7};
    kioskbasil_sender_shown sender;
    kioskbasil_receiver_shown receiver;
    kioskbasil_heard heard;
    kioskbasil_item item;
    kioskbasil_left left;
    kioskbasil_sizes sizes = {1, 2, 16, false, false, 0};
    kioskbasil_sender other = KIOSKBASIL_NONE;
    kioskbasil_receiver ear = KIOSKBASIL_NONE;
    int32_t order = 7;
    uint64_t number = 7;
    size_t many = 7;
    EXPECT(kioskbasil_put(&s, "x", 1, &number), KIOSKBASIL_EMPTY_HANDLE);
    EXPECT(number, 7);
    EXPECT(kioskbasil_carry(&s, &other), KIOSKBASIL_EMPTY_HANDLE);
    EXPECT(kioskbasil_carry(&s, &s), KIOSKBASIL_EMPTY_HANDLE);
    EXPECT(kioskbasil_tell(&r, &s), KIOSKBASIL_EMPTY_HANDLE);
    EXPECT(kioskbasil_meet(&r, &ear, &order), KIOSKBASIL_EMPTY_HANDLE);
    EXPECT(kioskbasil_meet(&r, &r, &order), KIOSKBASIL_EMPTY_HANDLE);
    EXPECT(order, 7);
    EXPECT(kioskbasil_fork(&r, &ear), KIOSKBASIL_EMPTY_HANDLE);
    EXPECT(kioskbasil_fork(&r, &r), KIOSKBASIL_EMPTY_HANDLE);
    EXPECT(kioskbasil_close(&s), KIOSKBASIL_EMPTY_HANDLE);
    EXPECT(kioskbasil_leave(&s), KIOSKBASIL_EMPTY_HANDLE);
    EXPECT(kioskbasil_turn(&s, 1, &turn), KIOSKBASIL_EMPTY_HANDLE);
    EXPECT(kioskbasil_turns(&s, 1, &turn), KIOSKBASIL_EMPTY_HANDLE);
    EXPECT(kioskbasil_finish(&s, &turn), KIOSKBASIL_EMPTY_HANDLE);
    EXPECT(turn.tenure, 7);
    EXPECT(kioskbasil_show_sender(&s, &sender), KIOSKBASIL_EMPTY_HANDLE);
    EXPECT(kioskbasil_hear_once(&r, &heard), KIOSKBASIL_EMPTY_HANDLE);
    EXPECT(kioskbasil_hear(&r, &item, 1, &many), KIOSKBASIL_EMPTY_HANDLE);
    EXPECT(many, 7);
    EXPECT(kioskbasil_show_receiver(&r, &receiver), KIOSKBASIL_EMPTY_HANDLE);
    EXPECT(kioskbasil_end(&s, 1, &r, 1, NULL, 0, &left), KIOSKBASIL_EMPTY_HANDLE);
    EXPECT(kioskbasil_free_sender(&s), KIOSKBASIL_OK);
    kioskbasil_free_receiver(&r);
    EXPECT(kioskbasil_free_sender(NULL), KIOSKBASIL_OK);
    EXPECT(kioskbasil_finish(NULL, &turn), KIOSKBASIL_NULL);
    kioskbasil_free_receiver(NULL);
    EXPECT(s.live + r.live, 0);
    EXPECT(kioskbasil_open(NULL, &s, 1, &r, 1), KIOSKBASIL_NULL);
    EXPECT(kioskbasil_open(&sizes, NULL, 1, &r, 1), KIOSKBASIL_NULL);
    EXPECT(kioskbasil_open(&sizes, &s, 1, NULL, 1), KIOSKBASIL_NULL);
    EXPECT(kioskbasil_open_ring(NULL, &s, 1, &r, 1), KIOSKBASIL_NULL);
    EXPECT(kioskbasil_open_ring(&sizes, &s, 1, NULL, 1), KIOSKBASIL_NULL);
    EXPECT(kioskbasil_has_room(&s), KIOSKBASIL_EMPTY_HANDLE);
    EXPECT(kioskbasil_has_room(NULL), KIOSKBASIL_NULL);
    EXPECT(kioskbasil_try_send(&s, word_of, &number, &turn), KIOSKBASIL_EMPTY_HANDLE);
    EXPECT(kioskbasil_try_send(&s, NULL, &number, &turn), KIOSKBASIL_NULL);
    EXPECT(kioskbasil_try_send(NULL, word_of, &number, &turn), KIOSKBASIL_NULL);
    EXPECT(kioskbasil_put(NULL, "x", 1, &number), KIOSKBASIL_NULL);
    EXPECT(kioskbasil_put(&s, NULL, 1, &number), KIOSKBASIL_NULL);
    EXPECT(kioskbasil_close(NULL), KIOSKBASIL_NULL);
    EXPECT(kioskbasil_leave(NULL), KIOSKBASIL_NULL);
    EXPECT(kioskbasil_carry(NULL, &s), KIOSKBASIL_NULL);
    EXPECT(kioskbasil_carry(&s, NULL), KIOSKBASIL_NULL);
    EXPECT(kioskbasil_tell(NULL, &s), KIOSKBASIL_NULL);
    EXPECT(kioskbasil_tell(&r, NULL), KIOSKBASIL_NULL);
    EXPECT(kioskbasil_meet(NULL, &r, &order), KIOSKBASIL_NULL);
    EXPECT(kioskbasil_meet(&r, NULL, &order), KIOSKBASIL_NULL);
    EXPECT(kioskbasil_fork(NULL, &r), KIOSKBASIL_NULL);
    EXPECT(kioskbasil_fork(&r, NULL), KIOSKBASIL_NULL);
    EXPECT(ear.live, 0);
    EXPECT(kioskbasil_turn(NULL, 1, &turn), KIOSKBASIL_NULL);
    EXPECT(kioskbasil_turns(NULL, 1, &turn), KIOSKBASIL_NULL);
    EXPECT(kioskbasil_show_sender(&s, NULL), KIOSKBASIL_NULL);
    EXPECT(kioskbasil_hear_once(&r, NULL), KIOSKBASIL_NULL);
    EXPECT(kioskbasil_hear(&r, NULL, 1, &many), KIOSKBASIL_NULL);
    EXPECT(kioskbasil_show_receiver(NULL, &receiver), KIOSKBASIL_NULL);
    EXPECT(kioskbasil_end(&s, 1, &r, 1, NULL, 1, &left), KIOSKBASIL_NULL);
    EXPECT(kioskbasil_open_after(&sizes, NULL, &s, 1, &r, 1), KIOSKBASIL_NULL);
    EXPECT(kioskbasil_senders_page(&s, 1, &left), KIOSKBASIL_EMPTY_HANDLE);
    EXPECT(kioskbasil_senders_page(NULL, 1, &left), KIOSKBASIL_NULL);
    EXPECT(kioskbasil_senders_page(&s, 0, &left), KIOSKBASIL_NULL);
    EXPECT(kioskbasil_senders_page(&s, 1, NULL), KIOSKBASIL_NULL);
    for (uint32_t code = 0; code <= KIOSKBASIL_SHORT_RING + 1; code++) {
        int named = code <= KIOSKBASIL_NOT_LONG ||
                    (code >= KIOSKBASIL_BAD_SENDERS && code <= KIOSKBASIL_SHORT_RING);
        EXPECT(strcmp(kioskbasil_text(code), "no code of this version") != 0, named);
        EXPECT(kioskbasil_refused(code), code >= 32);
    }
}

/* One sender and one receiver, call by call. */
static void one_sender(bool again) {
    kioskbasil_sender s[1] = {KIOSKBASIL_NONE};
    kioskbasil_receiver r[2] = {KIOSKBASIL_NONE};
    kioskbasil_sizes sizes = {1, again ? 2 : 3, 64, again, false, 0};
    kioskbasil_turn_answer turn;
    kioskbasil_sender_shown sender;
    kioskbasil_receiver_shown receiver;
    kioskbasil_heard heard;
    kioskbasil_item items[8];
    kioskbasil_left left;
    uint8_t big[57];
    uint64_t number = 7, seed = 1, log[4] = {9, 9, 9, 9};
    size_t many = 7;
    for (int i = 0; i < 57; i++) big[i] = (uint8_t)(200 - i);
    memset(items, 7, sizeof items);
    EXPECT(kioskbasil_open(&sizes, s, 1, r, 2), KIOSKBASIL_OK);
    EXPECT(kioskbasil_turn(s, 1, &turn), KIOSKBASIL_IDLE);
    EXPECT(kioskbasil_put(s, big, 57, &number), KIOSKBASIL_PUT_TOO_LONG);
    EXPECT(number, 7);
    EXPECT(kioskbasil_put(s, big, 56, &number), KIOSKBASIL_OK);
    EXPECT(number, 0);
    EXPECT(kioskbasil_put(s, NULL, 0, NULL), KIOSKBASIL_OK);
    EXPECT(kioskbasil_put(s, "hi", 2, &number), KIOSKBASIL_OK);
    EXPECT(number, 2);
    EXPECT(kioskbasil_close(s), KIOSKBASIL_CLOSE_PENDING);
    EXPECT(kioskbasil_show_sender(s, &sender), KIOSKBASIL_OK);
    EXPECT(sender.pending, 3);
    EXPECT(sender.next_number, 3);
    EXPECT(sender.number, 0);
    EXPECT(sender.is_closed, false);
    EXPECT(kioskbasil_hear(r, items, 8, &many), KIOSKBASIL_EMPTY);
    EXPECT(many, 0);
    EXPECT(send_batch(s, &seed, &turn, NULL), KIOSKBASIL_DELIVERED);
    EXPECT(turn.tenure, 0);
    EXPECT(turn.first, 0);
    EXPECT(turn.last, 2);
    EXPECT(kioskbasil_hear(r, items, 2, &many), KIOSKBASIL_GOING);
    EXPECT(many, 2);
    EXPECT(items[0].length, 56);
    EXPECT(memcmp(items[0].bytes, big, 56), 0);
    EXPECT(items[1].length, 0);
    EXPECT(items[2].length, 7);
    EXPECT(kioskbasil_hear(r, items, 8, &many), KIOSKBASIL_EMPTY);
    EXPECT(many, 1);
    EXPECT(items[0].number, 2);
    EXPECT(items[0].sender, 0);
    EXPECT(memcmp(items[0].bytes, "hi\0", 3), 0);
    for (int i = 0; i < 16; i++) EXPECT(kioskbasil_put(s, "x", 1, NULL), KIOSKBASIL_OK);
    EXPECT(kioskbasil_put(s, "x", 1, NULL), KIOSKBASIL_PUT_BATCH_FULL);
    do {
        EXPECT(kioskbasil_turn(s, 0, &turn) < KIOSKBASIL_EMPTY, 1);
        kioskbasil_show_sender(s, &sender);
    } while (kioskbasil_put(s, "x", 1, NULL) != KIOSKBASIL_PUT_BUSY && sender.pending);
    EXPECT(kioskbasil_close(s), KIOSKBASIL_CLOSE_BUSY);
    EXPECT(send_batch(s, &seed, &turn, NULL), KIOSKBASIL_DELIVERED);
    EXPECT(turn.last, 18);
    EXPECT(kioskbasil_close(s), KIOSKBASIL_OK);
    EXPECT(kioskbasil_close(s), KIOSKBASIL_CLOSE_CLOSED);
    EXPECT(kioskbasil_put(s, "x", 1, NULL), KIOSKBASIL_PUT_CLOSED);
    EXPECT(send_batch(s, &seed, NULL, NULL), KIOSKBASIL_CLOSED);
    uint32_t code, heads = 0, found = 0;
    while ((code = kioskbasil_hear_once(r, &heard)) != KIOSKBASIL_END) {
        if (code == KIOSKBASIL_HEAD) heads++;
        if (code == KIOSKBASIL_ITEM) found++, EXPECT(heard.item.bytes[0], 'x');
    }
    EXPECT(found, 16);
    EXPECT(heads >= 1, 1);
    EXPECT(kioskbasil_hear(r, items, 8, &many), KIOSKBASIL_END);
    EXPECT(kioskbasil_show_receiver(r, &receiver), KIOSKBASIL_OK);
    EXPECT(receiver.has_ended, true);
    EXPECT(receiver.place, receiver.known);
    EXPECT(kioskbasil_end(s, 1, r, 1, NULL, 0, &left), KIOSKBASIL_IN_USE);
    EXPECT(r[0].live, 0);
    EXPECT(kioskbasil_end(NULL, 0, r + 1, 1, log, 2, &left), KIOSKBASIL_OK);
    EXPECT(left.counts[0], 19);
    EXPECT(left.bases[0], 0);
    EXPECT(left.next[0], 19);
    EXPECT(left.words, receiver.known);
    EXPECT(left.ended, true);
    EXPECT(log[0] != 9 && log[2] == 9, 1);
}

/* Full, spent, and a sender whose page is given back at the end. */
static void ends(void) {
    kioskbasil_sender s[1] = {KIOSKBASIL_NONE};
    kioskbasil_receiver r[1] = {KIOSKBASIL_NONE};
    kioskbasil_sizes sizes = {1, 1, 16, false, false, 0};
    kioskbasil_left left;
    uint64_t seed = 5;
    uint8_t big[56] = {0};
    EXPECT(kioskbasil_open(&sizes, s, 1, r, 1), KIOSKBASIL_OK);
    for (int i = 0; i < 4; i++) EXPECT(kioskbasil_put(s, big, 56, NULL), KIOSKBASIL_OK);
    EXPECT(send_batch(s, &seed, NULL, NULL), KIOSKBASIL_FULL);
    EXPECT(send_batch(s, &seed, NULL, NULL), KIOSKBASIL_SPENT);
    EXPECT(kioskbasil_open(&sizes, s, 1, r, 1), KIOSKBASIL_OK);
    EXPECT(kioskbasil_put(s, "x", 1, NULL), KIOSKBASIL_OK);
    while (kioskbasil_turn(s, 3, NULL) != KIOSKBASIL_OWN) {}
    EXPECT(kioskbasil_end(s, 1, r, 1, NULL, 0, &left), KIOSKBASIL_OK);
    EXPECT(left.counts[0], 1);
    EXPECT(s[0].live + r[0].live, 0);
}

/* The last of as many senders as there can be. */
static void last_sender(void) {
    kioskbasil_sender s[KIOSKBASIL_MOST_SENDERS] = {KIOSKBASIL_NONE};
    kioskbasil_receiver r[1] = {KIOSKBASIL_NONE};
    kioskbasil_sizes sizes = {1, 1, 64, false, false, 0};
    kioskbasil_left left;
    uint64_t seed = 3, log[3] = {0};
    EXPECT(kioskbasil_open(&sizes, s, KIOSKBASIL_MOST_SENDERS, r, 1), KIOSKBASIL_OK);
    EXPECT(kioskbasil_put(&s[63], "b", 1, NULL), KIOSKBASIL_OK);
    EXPECT(send_batch(&s[63], &seed, NULL, NULL), KIOSKBASIL_DELIVERED);
    EXPECT(kioskbasil_end(s, KIOSKBASIL_MOST_SENDERS, r, 1, log, 3, &left), KIOSKBASIL_OK);
    EXPECT(left.counts[62], 0);
    EXPECT(left.counts[63], 1);
    EXPECT(left.words, 3);
    EXPECT(log[0], 0x4fc0020000000000);
}

/* Puts a message by this sender, which gets this number, and sends it. */
static void send_one(kioskbasil_sender *s, uint64_t wanted, uint64_t *seed) {
    uint64_t number = 7;
    EXPECT(kioskbasil_put(s, "x", 1, &number), KIOSKBASIL_OK);
    EXPECT(number, wanted);
    EXPECT(send_batch(s, seed, NULL, NULL), KIOSKBASIL_DELIVERED);
}

/* A sitting after another: the numbers go on, and the counts begin anew. */
static void two_sittings(bool again, bool then) {
    kioskbasil_sender s[2] = {KIOSKBASIL_NONE};
    kioskbasil_receiver r[1] = {KIOSKBASIL_NONE};
    kioskbasil_sizes sizes = {1, 4, 64, again, false, 0};
    kioskbasil_left left, high;
    kioskbasil_item items[4];
    uint64_t seed = 11;
    size_t many = 0;
    EXPECT(kioskbasil_open(&sizes, s, 2, r, 1), KIOSKBASIL_OK);
    send_one(&s[1], 0, &seed);
    EXPECT(kioskbasil_end(s, 2, r, 1, NULL, 0, &left), KIOSKBASIL_OK);
    EXPECT(left.ended, false);
    EXPECT(kioskbasil_open_after(&sizes, &left, s, 2, r, 1), KIOSKBASIL_NOT_ENDED);
    EXPECT(kioskbasil_open(&sizes, s, 2, r, 1), KIOSKBASIL_OK);
    send_one(&s[1], 0, &seed);
    send_one(&s[1], 1, &seed);
    EXPECT(end_order(&s[0], &seed, NULL), KIOSKBASIL_CLOSED);
    EXPECT(kioskbasil_end(s, 2, r, 1, NULL, 0, &left), KIOSKBASIL_OK);
    high = left, high.next[63] = (UINT64_C(1) << 48) - 65536;
    EXPECT(kioskbasil_open_after(&sizes, &high, s, 2, r, 1), KIOSKBASIL_NUMBERS_USED);
    EXPECT(kioskbasil_open_after(&sizes, &high, s, 0, r, 1), KIOSKBASIL_BAD_SENDERS);
    EXPECT(s[0].live + s[1].live + r[0].live, 0);
    high.next[63]--;
    EXPECT(kioskbasil_open_after(&sizes, &high, s, 2, r, 1), KIOSKBASIL_OK);
    sizes.again = then;
    EXPECT(kioskbasil_open_after(&sizes, &left, s, 2, r, 1), KIOSKBASIL_OK);
    send_one(&s[1], 2, &seed);
    send_one(&s[0], 0, &seed);
    EXPECT(kioskbasil_hear(r, items, 4, &many), KIOSKBASIL_EMPTY);
    EXPECT(many, 2);
    EXPECT(items[0].number, 2);
    EXPECT(items[1].number, 0);
    EXPECT(end_order(&s[1], &seed, NULL), KIOSKBASIL_CLOSED);
    EXPECT(kioskbasil_end(s, 2, r, 1, NULL, 0, &left), KIOSKBASIL_OK);
    for (int i = 0; i < KIOSKBASIL_MOST_SENDERS; i++) {
        EXPECT(left.counts[i], i < 2);
        EXPECT(left.bases[i], i == 1 ? 2 : 0);
        EXPECT(left.next[i], left.bases[i] + left.counts[i]);
    }
    EXPECT(left.ended, true);
}

/* How many words of the log the receiver knows, and how many it has read. */
static void expect_known(int line, kioskbasil_receiver *r, uint64_t known, uint64_t place) {
    kioskbasil_receiver_shown shown = {0, 0, false, 0};
    expect(line, "show_receiver", kioskbasil_show_receiver(r, &shown), KIOSKBASIL_OK);
    expect(line, "known", shown.known, known);
    expect(line, "place", shown.place, place);
}
#define EXPECT_KNOWN(receiver, known, place) expect_known(__LINE__, receiver, known, place)

/* How many messages wait with the sender. */
static uint64_t pending(kioskbasil_sender *s) {
    kioskbasil_sender_shown shown = {99, 0, 0, 0, 0, false, false};
    kioskbasil_show_sender(s, &shown);
    return shown.pending;
}

/* Several turns in one call: those of a sender alone go on up to its page, and then up to its
   delivery, or end after so many more. */
static void several_turns(bool again) {
    kioskbasil_sender s[2] = {KIOSKBASIL_NONE};
    kioskbasil_receiver r[1] = {KIOSKBASIL_NONE};
    kioskbasil_sizes sizes = {4, 8, 256, again, false, 0};
    kioskbasil_turn_answer turn = {7, 7, 7, 7};
    EXPECT(kioskbasil_open(&sizes, s, 2, r, 1), KIOSKBASIL_OK);
    EXPECT(kioskbasil_turns(s, 0, &turn), KIOSKBASIL_IDLE);
    EXPECT(turn.tenure + turn.first + turn.last + turn.sender, 0);
    for (int i = 0; i < 3; i++) EXPECT(kioskbasil_put(s, "x", 1, NULL), KIOSKBASIL_OK);
    EXPECT(kioskbasil_turns(s, 0, &turn), KIOSKBASIL_OWN);
    EXPECT(turn.tenure, 0);
    EXPECT(kioskbasil_put(&s[1], "x", 1, NULL), KIOSKBASIL_OK);
    EXPECT(kioskbasil_turns(&s[1], 0, NULL), KIOSKBASIL_WAITING);
    EXPECT(bus_c_turns(s, 0, 2, &turn), KIOSKBASIL_GOING);
    EXPECT(bus_c_turns(s, 0, 0, &turn), KIOSKBASIL_GOING);
    EXPECT(kioskbasil_turns(s, 0, &turn), KIOSKBASIL_DELIVERED);
    EXPECT(turn.first, 0);
    EXPECT(turn.last, 2);
    for (int i = 0; i < 2; i++) kioskbasil_free_sender(&s[i]);
    kioskbasil_free_receiver(r);
}

/* They stop before each turn that uses a random word, and nowhere else with GOING. Two senders take
   some single turns each, so that they have to vote in some of these sittings. */
static void turns_that_vote(bool again) {
    kioskbasil_sizes sizes = {4, 8, 256, again, false, 0};
    kioskbasil_sender_shown shown;
    uint64_t seed = 37, votes = 0;
    for (int sitting = 0; sitting < 300; sitting++) {
        kioskbasil_sender s[2] = {KIOSKBASIL_NONE};
        kioskbasil_receiver r[1] = {KIOSKBASIL_NONE};
        uint32_t code[2] = {KIOSKBASIL_GOING, KIOSKBASIL_GOING};
        EXPECT(kioskbasil_open(&sizes, s, 2, r, 1), KIOSKBASIL_OK);
        for (int i = 0; i < 2; i++) EXPECT(kioskbasil_put(&s[i], "x", 1, NULL), KIOSKBASIL_OK);
        for (uint32_t i = 0, single = next_word(&seed) % 64; i < 10000; i++) {
            int who = i < single ? (int)(next_word(&seed) & 1) : (int)(i & 1);
            if (code[who] == KIOSKBASIL_DELIVERED) continue;
            code[who] = i < single ? kioskbasil_turn(&s[who], next_word(&seed), NULL)
                                   : kioskbasil_turns(&s[who], next_word(&seed), NULL);
            if (i < single || code[who] != KIOSKBASIL_GOING) continue;
            kioskbasil_show_sender(&s[who], &shown);
            EXPECT(shown.wants_word, true);
            votes++;
        }
        for (int i = 0; i < 2; i++) EXPECT(code[i], KIOSKBASIL_DELIVERED);
        for (int i = 0; i < 2; i++) kioskbasil_free_sender(&s[i]);
        kioskbasil_free_receiver(r);
    }
    EXPECT(votes > 0, true);
}

/* A receiver is told by a sender, and knows what that has published; two receivers meet. */
static void telling(bool again) {
    kioskbasil_sender s[2] = {KIOSKBASIL_NONE};
    kioskbasil_receiver r[2] = {KIOSKBASIL_NONE};
    kioskbasil_sizes sizes = {1, 8, 64, again, false, 0};
    kioskbasil_item items[4];
    uint64_t seed = 23;
    int32_t order = 7;
    size_t many = 0;
    EXPECT(kioskbasil_open(&sizes, s, 2, r, 2), KIOSKBASIL_OK);
    EXPECT(kioskbasil_meet(&r[0], &r[1], &order), KIOSKBASIL_OK);
    EXPECT(order, 0);
    EXPECT(kioskbasil_tell(&r[0], &s[0]), KIOSKBASIL_OK);
    EXPECT_KNOWN(&r[0], 0, 0);
    send_one(&s[1], 0, &seed);
    EXPECT_KNOWN(&r[0], 0, 0);
    EXPECT(kioskbasil_tell(&r[0], &s[1]), KIOSKBASIL_OK);
    EXPECT_KNOWN(&r[0], 3, 0);
    EXPECT_KNOWN(&r[1], 0, 0);
    EXPECT(kioskbasil_hear(&r[0], items, 4, &many), KIOSKBASIL_EMPTY);
    EXPECT(many, 1);
    send_one(&s[0], 0, &seed);
    EXPECT(kioskbasil_meet(&r[0], &r[1], &order), KIOSKBASIL_OK);
    EXPECT((uint32_t)order, 1);
    EXPECT_KNOWN(&r[0], 6, 3);
    EXPECT_KNOWN(&r[1], 6, 0);
    EXPECT(kioskbasil_meet(&r[1], &r[0], &order), KIOSKBASIL_OK);
    EXPECT((uint32_t)order, (uint32_t)-1);
    EXPECT(kioskbasil_meet(&r[1], &r[0], NULL), KIOSKBASIL_OK);
    order = 7;
    EXPECT(kioskbasil_meet(&r[1], &r[1], &order), KIOSKBASIL_OK);
    EXPECT(order, 0);
    EXPECT(kioskbasil_meet(&r[1], &r[1], NULL), KIOSKBASIL_OK);
    EXPECT_KNOWN(&r[1], 6, 0);
    for (int i = 0; i < 2; i++) {
        EXPECT(kioskbasil_hear(&r[i], items, 4, &many), KIOSKBASIL_EMPTY);
        EXPECT(many, i + 1);
    }
    EXPECT(items[0].sender, 1);
    EXPECT(items[1].sender, 0);
    EXPECT(kioskbasil_meet(&r[0], &r[1], &order), KIOSKBASIL_OK);
    EXPECT(order, 0);
    for (int i = 0; i < 2; i++) kioskbasil_free_sender(&s[i]), kioskbasil_free_receiver(&r[i]);
}

/* Two handles of which one is empty, or that are of two buses: they are refused, and nothing of
   either is changed. */
static void apart(bool again) {
    kioskbasil_sender s[2] = {KIOSKBASIL_NONE}, none = KIOSKBASIL_NONE;
    kioskbasil_receiver r[2] = {KIOSKBASIL_NONE}, deaf = KIOSKBASIL_NONE;
    kioskbasil_sizes sizes = {1, 8, 64, again, false, 0};
    uint64_t seed = 29;
    int32_t order = 7;
    for (int i = 0; i < 2; i++) EXPECT(kioskbasil_open(&sizes, &s[i], 1, &r[i], 1), KIOSKBASIL_OK);
    for (int i = 0; i < 2; i++) send_one(&s[i], 0, &seed);
    EXPECT(kioskbasil_put(&s[0], "y", 1, NULL), KIOSKBASIL_OK);
    for (int i = 0; i < 2; i++) {
        EXPECT(kioskbasil_tell(&r[i], &s[1 - i]), KIOSKBASIL_OTHER_BUS);
        EXPECT(kioskbasil_meet(&r[i], &r[1 - i], &order), KIOSKBASIL_OTHER_BUS);
        EXPECT(kioskbasil_meet(&r[i], &r[1 - i], NULL), KIOSKBASIL_OTHER_BUS);
        EXPECT(kioskbasil_tell(&r[i], &none), KIOSKBASIL_EMPTY_HANDLE);
        EXPECT(kioskbasil_tell(&deaf, &s[i]), KIOSKBASIL_EMPTY_HANDLE);
        EXPECT(kioskbasil_meet(&r[i], &deaf, &order), KIOSKBASIL_EMPTY_HANDLE);
        EXPECT(kioskbasil_meet(&deaf, &r[i], &order), KIOSKBASIL_EMPTY_HANDLE);
        EXPECT(kioskbasil_carry(&s[i], &none), KIOSKBASIL_EMPTY_HANDLE);
        EXPECT(kioskbasil_carry(&none, &s[i]), KIOSKBASIL_EMPTY_HANDLE);
    }
    EXPECT(order, 7);
    EXPECT(none.live + deaf.live, 0);
    for (int i = 0; i < 2; i++) {
        EXPECT_KNOWN(&r[i], 0, 0);
        EXPECT(pending(&s[i]), 1 - i);
        EXPECT(kioskbasil_tell(&r[i], &s[i]), KIOSKBASIL_OK);
        EXPECT_KNOWN(&r[i], 3, 0);
        kioskbasil_free_sender(&s[i]), kioskbasil_free_receiver(&r[i]);
    }
}

/* What a sender has not sent goes on with another one, or is refused there as a put would be. */
static void carrying(bool again) {
    kioskbasil_sender s[3] = {KIOSKBASIL_NONE}, new[2] = {KIOSKBASIL_NONE};
    kioskbasil_receiver r[1] = {KIOSKBASIL_NONE}, ear[1] = {KIOSKBASIL_NONE};
    kioskbasil_sizes sizes = {1, 8, 64, again, false, 0};
    kioskbasil_item items[4];
    kioskbasil_left left, over;
    uint64_t seed = 31, number = 0;
    size_t many = 0;
    EXPECT(kioskbasil_open(&sizes, s, 3, r, 1), KIOSKBASIL_OK);
    send_one(&s[0], 0, &seed);
    EXPECT(kioskbasil_put(&s[0], "two", 3, &number), KIOSKBASIL_OK);
    EXPECT(kioskbasil_put(&s[0], "three", 5, &number), KIOSKBASIL_OK);
    EXPECT(number, 2);
    EXPECT(kioskbasil_carry(&s[0], &s[0]), KIOSKBASIL_OK);
    EXPECT(pending(&s[0]), 2);
    EXPECT(kioskbasil_carry(&s[1], &s[0]), KIOSKBASIL_OK);
    EXPECT(pending(&s[0]), 2);
    for (int i = 0; i < 15; i++) EXPECT(kioskbasil_put(&s[2], "x", 1, NULL), KIOSKBASIL_OK);
    EXPECT(kioskbasil_carry(&s[0], &s[2]), KIOSKBASIL_PUT_BATCH_FULL);
    EXPECT(pending(&s[2]), 15);
    EXPECT(kioskbasil_turn(&s[2], 0, NULL), KIOSKBASIL_GOING);
    EXPECT(kioskbasil_carry(&s[0], &s[2]), KIOSKBASIL_PUT_BATCH_FULL);
    EXPECT(kioskbasil_put(&s[1], "x", 1, NULL), KIOSKBASIL_OK);
    EXPECT(kioskbasil_turn(&s[1], 0, NULL), KIOSKBASIL_GOING);
    EXPECT(kioskbasil_carry(&s[0], &s[1]), KIOSKBASIL_PUT_BUSY);
    EXPECT(send_batch(&s[1], &seed, NULL, NULL), KIOSKBASIL_DELIVERED);
    EXPECT(end_order(&s[1], &seed, NULL), KIOSKBASIL_CLOSED);
    EXPECT(kioskbasil_carry(&s[0], &s[1]), KIOSKBASIL_PUT_CLOSED);
    EXPECT(send_batch(&s[0], &seed, NULL, NULL), KIOSKBASIL_CLOSED);
    EXPECT(pending(&s[0]), 2);

    /* The old sender keeps its bus. So the next one goes on after what all senders tell. */
    EXPECT(kioskbasil_senders_page(s, 3, &left), KIOSKBASIL_UNANSWERED);
    EXPECT(send_batch(&s[2], &seed, NULL, NULL), KIOSKBASIL_CLOSED);
    EXPECT(kioskbasil_senders_page(s, 2, &left), KIOSKBASIL_UNANSWERED);
    EXPECT(kioskbasil_senders_page(s + 1, 2, &left), KIOSKBASIL_UNANSWERED);
    EXPECT(kioskbasil_senders_page(s, 3, &left), KIOSKBASIL_OK);
    EXPECT(kioskbasil_open_after(&sizes, &left, new, 2, ear, 1), KIOSKBASIL_OK);
    EXPECT(kioskbasil_carry(&s[0], &new[0]), KIOSKBASIL_OK);
    EXPECT(pending(&s[0]), 2);
    EXPECT(pending(&new[0]), 2);
    EXPECT(kioskbasil_end(s, 3, r, 1, NULL, 0, &over), KIOSKBASIL_OK);
    EXPECT(memcmp(over.next, left.next, sizeof left.next), 0);
    EXPECT(memcmp(over.bases, left.bases, sizeof left.bases), 0);
    EXPECT(left.ended, true);
    EXPECT(kioskbasil_put(&new[0], "four", 4, &number), KIOSKBASIL_OK);
    EXPECT(number, 3);
    EXPECT(send_batch(&new[0], &seed, NULL, NULL), KIOSKBASIL_DELIVERED);
    EXPECT(kioskbasil_hear(ear, items, 4, &many), KIOSKBASIL_EMPTY);
    EXPECT(many, 3);
    for (size_t i = 0; i < many; i++) EXPECT(items[i].number, i + 1);
    EXPECT(memcmp(items[0].bytes, "two", 4), 0);
    EXPECT(memcmp(items[1].bytes, "three", 6), 0);
    EXPECT(kioskbasil_end(new, 2, ear, 1, NULL, 0, &over), KIOSKBASIL_OK);
    EXPECT(over.next[0], 4);
}

/* A message that is carried out of a later sitting, of a sender that sent nothing there, keeps its
   number; and so does the next one of a sender that the sitting between did not have. */
static void carrying_later(bool again) {
    kioskbasil_sender s[3] = {KIOSKBASIL_NONE}, t[2] = {KIOSKBASIL_NONE}, u[3] = {KIOSKBASIL_NONE};
    kioskbasil_receiver r[1] = {KIOSKBASIL_NONE}, q[1] = {KIOSKBASIL_NONE};
    kioskbasil_receiver v[1] = {KIOSKBASIL_NONE};
    kioskbasil_sizes sizes = {1, 8, 64, again, false, 0};
    kioskbasil_item items[4];
    kioskbasil_left left, over;
    uint64_t seed = 43, number = 0;
    size_t many = 0;
    EXPECT(kioskbasil_open(&sizes, s, 3, r, 1), KIOSKBASIL_OK);
    for (int i = 0; i < 3; i++) send_one(&s[i], 0, &seed);
    EXPECT(end_order(&s[0], &seed, NULL), KIOSKBASIL_CLOSED);
    EXPECT(kioskbasil_end(s, 3, r, 1, NULL, 0, &left), KIOSKBASIL_OK);
    EXPECT(kioskbasil_open_after(&sizes, &left, t, 2, q, 1), KIOSKBASIL_OK);
    send_one(&t[0], 1, &seed);
    EXPECT(kioskbasil_put(&t[1], "late", 4, &number), KIOSKBASIL_OK);
    EXPECT(number, 1);
    EXPECT(end_order(&t[0], &seed, NULL), KIOSKBASIL_CLOSED);
    memset(&left, 7, sizeof left);
    over = left;
    EXPECT(kioskbasil_senders_page(t, 2, &left), KIOSKBASIL_UNANSWERED);
    EXPECT(memcmp(&over, &left, sizeof left), 0);
    EXPECT(send_batch(&t[1], &seed, NULL, NULL), KIOSKBASIL_CLOSED);
    EXPECT(kioskbasil_senders_page(t, 2, &left), KIOSKBASIL_OK);
    for (int i = 0; i < KIOSKBASIL_MOST_SENDERS; i++) {
        EXPECT(left.bases[i], i < 3);
        EXPECT(left.next[i], i == 0 ? 2 : i < 3);
        EXPECT(left.counts[i] + left.gone[i], 0);
    }
    EXPECT(kioskbasil_open_after(&sizes, &left, u, 3, v, 1), KIOSKBASIL_OK);
    EXPECT(kioskbasil_carry(&t[1], &u[1]), KIOSKBASIL_OK);
    EXPECT(kioskbasil_end(t, 2, q, 1, NULL, 0, &over), KIOSKBASIL_OK);
    EXPECT(memcmp(over.next, left.next, sizeof left.next), 0);
    EXPECT(send_batch(&u[1], &seed, NULL, NULL), KIOSKBASIL_DELIVERED);
    send_one(&u[2], 1, &seed);
    EXPECT(kioskbasil_hear(v, items, 4, &many), KIOSKBASIL_EMPTY);
    EXPECT(many, 2);
    EXPECT(items[0].number, 1);
    EXPECT(memcmp(items[0].bytes, "late", 5), 0);
    for (int i = 0; i < 3; i++) kioskbasil_free_sender(&u[i]);
    kioskbasil_free_receiver(v);
}

/* Senders that have all left have not ended the order, and handles of two buses have no page. */
static void no_page(bool again) {
    kioskbasil_sender s[2] = {KIOSKBASIL_NONE};
    kioskbasil_receiver r[2] = {KIOSKBASIL_NONE};
    kioskbasil_sizes sizes = {1, 8, 64, again, false, 0};
    kioskbasil_left left;
    uint64_t seed = 47;
    EXPECT(kioskbasil_open(&sizes, s, 2, r, 1), KIOSKBASIL_OK);
    for (int i = 0; i < 2; i++) EXPECT(leave_order(&s[i], &seed, NULL), KIOSKBASIL_LEFT);
    EXPECT(kioskbasil_senders_page(s, 2, &left), KIOSKBASIL_NOT_ENDED);
    kioskbasil_free_sender(&s[1]);
    EXPECT(kioskbasil_senders_page(s, 2, &left), KIOSKBASIL_EMPTY_HANDLE);
    kioskbasil_free_sender(&s[0]), kioskbasil_free_receiver(&r[0]);
    kioskbasil_sender two[4] = {KIOSKBASIL_NONE}, mixed[2];
    for (int i = 0; i < 2; i++) {
        EXPECT(kioskbasil_open(&sizes, two + 2 * i, 2, &r[i], 1), KIOSKBASIL_OK);
        for (int j = 0; j < 2; j++) send_one(&two[2 * i + j], 0, &seed);
        EXPECT(end_order(&two[2 * i], &seed, NULL), KIOSKBASIL_CLOSED);
    }
    mixed[0] = two[0], mixed[1] = two[3];
    two[0] = two[3] = (kioskbasil_sender)KIOSKBASIL_NONE;
    for (int answered = 0; answered < 2; answered++) {
        EXPECT(kioskbasil_senders_page(mixed, 2, &left), KIOSKBASIL_OTHER_BUS);
        EXPECT(end_order(&mixed[1], &seed, NULL),
               answered ? KIOSKBASIL_CLOSE_CLOSED : KIOSKBASIL_CLOSED);
    }
    for (int i = 0; i < 4; i++) kioskbasil_free_sender(&two[i]);
    for (int i = 0; i < 2; i++) kioskbasil_free_sender(&mixed[i]), kioskbasil_free_receiver(&r[i]);
}

/* While a sender has begun a tenure nothing is carried from it, be its message heard already or not;
   before and behind that it is. The other batch is full, which is refused later. */
static void carrying_within_a_tenure(bool again) {
    kioskbasil_sender s[1] = {KIOSKBASIL_NONE}, full[1] = {KIOSKBASIL_NONE};
    kioskbasil_receiver r[1] = {KIOSKBASIL_NONE}, ear[1] = {KIOSKBASIL_NONE};
    kioskbasil_sizes sizes = {1, 8, 64, again, false, 0};
    kioskbasil_item items[4];
    size_t many = 0;
    int out = 0, heard_while_out = 0;
    EXPECT(kioskbasil_open(&sizes, s, 1, r, 1), KIOSKBASIL_OK);
    EXPECT(kioskbasil_open(&sizes, full, 1, ear, 1), KIOSKBASIL_OK);
    for (int i = 0; i < 16; i++) EXPECT(kioskbasil_put(full, "x", 1, NULL), KIOSKBASIL_OK);
    EXPECT(kioskbasil_put(s, "y", 1, NULL), KIOSKBASIL_OK);
    EXPECT(kioskbasil_carry(s, full), KIOSKBASIL_PUT_BATCH_FULL);
    uint32_t code;
    while ((code = kioskbasil_turn(s, 0, NULL)) != KIOSKBASIL_DELIVERED) {
        kioskbasil_hear(r, items, 4, &many);
        out |= code == KIOSKBASIL_OWN;
        heard_while_out |= many > 0;
        EXPECT(kioskbasil_carry(s, full), KIOSKBASIL_PUT_BUSY);
        EXPECT(pending(s), 1);
        EXPECT(pending(full), 16);
    }
    EXPECT(out + heard_while_out, 2);
    EXPECT(kioskbasil_carry(s, full), KIOSKBASIL_OK);
    EXPECT(pending(full), 16);
    kioskbasil_free_sender(s), kioskbasil_free_sender(full);
    kioskbasil_free_receiver(r), kioskbasil_free_receiver(ear);
}

/* A sender that has taken so many turns of a tenure is Busy, and then is given up, which sends its
   message: so that goes out once. */
static void carried_once(bool again) {
    for (int turns = 1; turns < 6; turns++) {
        kioskbasil_sender s[1] = {KIOSKBASIL_NONE}, t[1] = {KIOSKBASIL_NONE};
        kioskbasil_receiver r[1] = {KIOSKBASIL_NONE}, q[1] = {KIOSKBASIL_NONE};
        kioskbasil_sizes sizes = {1, 8, 64, again, false, 0};
        kioskbasil_item items[4];
        size_t many = 0;
        uint64_t seed = 1;
        EXPECT(kioskbasil_open(&sizes, s, 1, r, 1), KIOSKBASIL_OK);
        EXPECT(kioskbasil_open(&sizes, t, 1, q, 1), KIOSKBASIL_OK);
        EXPECT(kioskbasil_put(s, "y", 1, NULL), KIOSKBASIL_OK);
        for (int i = 0; i < turns; i++) kioskbasil_turn(s, 0, NULL);
        EXPECT(kioskbasil_carry(s, t), KIOSKBASIL_PUT_BUSY);
        EXPECT(kioskbasil_free_sender(s), KIOSKBASIL_DELIVERED);
        EXPECT(send_batch(t, &seed, NULL, NULL), KIOSKBASIL_IDLE);
        kioskbasil_hear(r, items, 4, &many);
        EXPECT(many, 1);
        kioskbasil_hear(q, items, 4, &many);
        EXPECT(many, 0);
        kioskbasil_free_sender(t), kioskbasil_free_receiver(r), kioskbasil_free_receiver(q);
    }
}

/* A sender that lets go after each of its turns, alone and where the other one has begun too: that
   one sends, and ends the order. */
static void letting_go(bool again) {
    kioskbasil_sizes sizes = {1, again ? 2 : 8, 64, again, false, 0};
    for (int turns = 0; turns < 400; turns++) {
        kioskbasil_sender s[2] = {KIOSKBASIL_NONE};
        kioskbasil_receiver r[1] = {KIOSKBASIL_NONE};
        kioskbasil_turn_answer answer = {7, 7, 7, 7};
        kioskbasil_left left;
        uint64_t seed = 53;
        EXPECT(kioskbasil_open(&sizes, s, 2, r, 1), KIOSKBASIL_OK);
        for (int i = 0; i < 2; i++) EXPECT(kioskbasil_put(&s[i], "x", 1, NULL), KIOSKBASIL_OK);
        for (int i = 0; i < turns % 20; i++) kioskbasil_turn(&s[0], (uint32_t)i, NULL);
        for (int i = 0; i < turns / 20; i++) kioskbasil_turn(&s[1], (uint32_t)i, NULL);
        uint32_t code = kioskbasil_finish(&s[0], &answer);
        EXPECT(code == KIOSKBASIL_OK || code == KIOSKBASIL_DELIVERED || code == KIOSKBASIL_LOST
                   || code == KIOSKBASIL_WAITING, true);
        EXPECT(answer.tenure, code == KIOSKBASIL_OK ? 7 : 0);
        EXPECT(kioskbasil_finish(&s[0], NULL), KIOSKBASIL_OK);
        uint64_t sent = 1 - pending(&s[0]);
        EXPECT(kioskbasil_free_sender(&s[0]), KIOSKBASIL_OK);
        code = send_batch(&s[1], &seed, NULL, NULL);
        EXPECT(code == KIOSKBASIL_DELIVERED || code == KIOSKBASIL_IDLE, true);
        EXPECT(end_order(&s[1], &seed, NULL), KIOSKBASIL_CLOSED);
        EXPECT(kioskbasil_end(&s[1], 1, r, 1, NULL, 0, &left), KIOSKBASIL_OK);
        EXPECT(left.counts[0], sent);
        EXPECT(left.counts[1] + left.ended, 2);
    }
}

/* Of two senders the first is behind the second, and takes its page with it. At the end both take
   their turns first. */
static void letting_go_behind(bool given_up) {
    kioskbasil_sender s[2] = {KIOSKBASIL_NONE};
    kioskbasil_receiver r[1] = {KIOSKBASIL_NONE};
    kioskbasil_sizes sizes = {1, 2, 64, true, false, 0};
    kioskbasil_turn_answer answer;
    kioskbasil_left left;
    uint64_t seed = 59;
    EXPECT(kioskbasil_open(&sizes, s, 2, r, 1), KIOSKBASIL_OK);
    for (int i = 0; i < 2; i++) EXPECT(kioskbasil_put(&s[i], "x", 1, NULL), KIOSKBASIL_OK);
    for (int i = 0; i < 3; i++) EXPECT(kioskbasil_turn(&s[1], 0, NULL), KIOSKBASIL_GOING);
    EXPECT(send_batch(&s[0], &seed, NULL, NULL), KIOSKBASIL_DELIVERED);
    EXPECT(kioskbasil_put(&s[0], "y", 1, NULL), KIOSKBASIL_OK);
    while (kioskbasil_turn(&s[0], 3, NULL) != KIOSKBASIL_OWN) {}
    EXPECT(kioskbasil_finish(&s[0], &answer), KIOSKBASIL_BEHIND);
    EXPECT(answer.sender, 1);
    if (given_up) {
        EXPECT(kioskbasil_free_sender(&s[0]), KIOSKBASIL_BEHIND);
        EXPECT(kioskbasil_end(&s[1], 1, r, 1, NULL, 0, &left), KIOSKBASIL_PAGE_OUT);
        return;
    }
    EXPECT(kioskbasil_end(s, 2, r, 1, NULL, 0, &left), KIOSKBASIL_OK);
    EXPECT(left.counts[0], 2);
    EXPECT(left.counts[1], 0);
}

/* A sender shows its presence and stops. The other one is answered BEHIND, its message is heard
   already, and it cannot be sent a second time: not by another bus, nor by another sender. What its
   words say tells it: they have grown since it was put. */
static void behind(void) {
    kioskbasil_sender s[2] = {KIOSKBASIL_NONE}, t[2] = {KIOSKBASIL_NONE};
    kioskbasil_receiver r[1] = {KIOSKBASIL_NONE}, q[1] = {KIOSKBASIL_NONE};
    kioskbasil_sizes sizes = {1, 2, 4096, true, false, 0};
    kioskbasil_sender_shown before, after;
    kioskbasil_item items[16];
    uint64_t seed = 5;
    size_t many = 0, put = 0;
    uint32_t code = KIOSKBASIL_IDLE;
    EXPECT(kioskbasil_open(&sizes, s, 2, r, 1), KIOSKBASIL_OK);
    EXPECT(kioskbasil_open(&sizes, t, 2, q, 1), KIOSKBASIL_OK);
    EXPECT(kioskbasil_put(&s[1], "late", 4, NULL), KIOSKBASIL_OK);
    for (int i = 0; i < 3; i++) EXPECT(kioskbasil_turn(&s[1], 0, NULL), KIOSKBASIL_GOING);
    while (code != KIOSKBASIL_BEHIND && put < 4) {
        put++;
        kioskbasil_show_sender(&s[0], &before);
        EXPECT(kioskbasil_put(&s[0], "x", 1, NULL), KIOSKBASIL_OK);
        do code = kioskbasil_turns(&s[0], next_word(&seed), NULL);
        while (code == KIOSKBASIL_GOING || code == KIOSKBASIL_OWN);
    }
    EXPECT(code, KIOSKBASIL_BEHIND);
    kioskbasil_show_sender(&s[0], &after);
    EXPECT(after.pending, 1);
    EXPECT(after.words, before.words + 3);
    EXPECT(kioskbasil_carry(&s[0], &t[0]), KIOSKBASIL_PUT_BUSY);
    EXPECT(kioskbasil_carry(&s[0], &s[1]), KIOSKBASIL_PUT_BUSY);
    EXPECT(pending(&t[0]), 0);
    EXPECT(send_batch(&t[0], &seed, NULL, NULL), KIOSKBASIL_IDLE);
    EXPECT(kioskbasil_hear(r, items, 16, &many), KIOSKBASIL_EMPTY);
    EXPECT(many, put);
    EXPECT(kioskbasil_hear(q, items, 16, &many), KIOSKBASIL_EMPTY);
    EXPECT(many, 0);
    do code = kioskbasil_turns(&s[1], next_word(&seed), NULL);
    while (code == KIOSKBASIL_GOING);
    EXPECT(send_batch(&s[0], &seed, NULL, NULL), KIOSKBASIL_DELIVERED);
    EXPECT(kioskbasil_carry(&s[0], &t[0]), KIOSKBASIL_OK);
    EXPECT(pending(&t[0]), 0);
    for (int i = 0; i < 2; i++) kioskbasil_free_sender(&s[i]), kioskbasil_free_sender(&t[i]);
    kioskbasil_free_receiver(r), kioskbasil_free_receiver(q);
}

/* A bus is opened by handles of another one, which is given up; one that is refused leaves it. */
static void reopening(void) {
    kioskbasil_sender s[2] = {KIOSKBASIL_NONE};
    kioskbasil_receiver r[2] = {KIOSKBASIL_NONE};
    kioskbasil_sizes good = {1, 2, 16, true, false, 0}, bad = {0, 2, 16, true, false, 0};
    kioskbasil_sender_shown shown;
    kioskbasil_left left;
    uint64_t seed = 3;
    for (int i = 0; i < 3; i++) {
        EXPECT(kioskbasil_open(&good, s, 2, r, 2), KIOSKBASIL_OK);
        send_one(&s[0], 0, &seed);
        EXPECT(kioskbasil_open(&bad, s, 2, r, 2), KIOSKBASIL_BAD_ROUNDS);
    }
    kioskbasil_show_sender(&s[0], &shown);
    EXPECT(shown.words, 3);
    EXPECT(kioskbasil_end(s, 2, r, 2, NULL, 0, &left), KIOSKBASIL_OK);
    EXPECT(left.counts[0], 1);
}

/* Of the growths of memory that follow this one is refused, counted from 1; 0 where none is. */
static long refused;

void *__real_malloc(size_t size);
void *__real_realloc(void *old, size_t size);
void *__wrap_malloc(size_t size);
void *__wrap_realloc(void *old, size_t size);

void *__wrap_malloc(size_t size) {
    return refused > 0 && --refused == 0 ? NULL : __real_malloc(size);
}

void *__wrap_realloc(void *old, size_t size) {
    return refused > 0 && --refused == 0 ? NULL : __real_realloc(old, size);
}

/* Each growth of memory for a bus, or for one after this sitting, is refused in turn: then none is
   made, and all handles stay empty. One that is refused may be made good by a smaller one: then
   the bus is there. */
static void no_memory(kioskbasil_sizes sizes, const kioskbasil_left *left) {
    kioskbasil_sender s[3] = {KIOSKBASIL_NONE};
    kioskbasil_receiver r[2] = {KIOSKBASIL_NONE};
    kioskbasil_left over;
    uint32_t code = KIOSKBASIL_NO_MEMORY;
    long many = 0, none = 0;
    for (bool all = false; !all; many++) {
        refused = many + 1;
        code = left ? kioskbasil_open_after(&sizes, left, s, 3, r, 2)
                    : kioskbasil_open(&sizes, s, 3, r, 2);
        all = refused > 0;
        refused = 0;
        if (code == KIOSKBASIL_OK) {
            EXPECT(kioskbasil_end(s, 3, r, 2, NULL, 0, &over), KIOSKBASIL_OK);
        } else {
            none++;
            EXPECT(code, KIOSKBASIL_NO_MEMORY);
        }
        EXPECT(s[0].live + s[1].live + s[2].live + r[0].live + r[1].live, 0);
    }
    EXPECT(code, KIOSKBASIL_OK);
    EXPECT(none > 6, true);
}

/* Memory for a fork is refused: the handle stays empty, and the number is free again. */
static void no_memory_to_fork(bool ring) {
    kioskbasil_sender s[1] = {KIOSKBASIL_NONE};
    kioskbasil_receiver r[2] = {KIOSKBASIL_NONE};
    kioskbasil_sizes sizes = {1, 4, 64, true, ring, ring ? 7 : 0};
    kioskbasil_left left;
    EXPECT(kioskbasil_open(&sizes, s, 1, r, 2), KIOSKBASIL_OK);
    kioskbasil_free_receiver(&r[1]);
    for (int i = 0; i < 3; i++) {
        refused = 1;
        EXPECT(kioskbasil_fork(&r[0], &r[1]), KIOSKBASIL_NO_MEMORY);
        EXPECT(refused, 0);
        EXPECT(r[1].live, 0);
    }
    EXPECT(kioskbasil_fork(&r[0], &r[1]), KIOSKBASIL_OK);
    EXPECT(kioskbasil_end(s, 1, r, 2, NULL, 0, &left), KIOSKBASIL_OK);
}

/* A sender leaves: nothing of it follows, the other goes on, and the order and its end say so. In
   the next sitting it is there. */
static void leaving(bool again) {
    kioskbasil_sender s[2] = {KIOSKBASIL_NONE};
    kioskbasil_receiver r[2] = {KIOSKBASIL_NONE};
    kioskbasil_sizes sizes = {1, 8, 64, again, false, 0};
    kioskbasil_turn_answer turn;
    kioskbasil_heard heard;
    kioskbasil_item items[4];
    kioskbasil_left left;
    uint64_t seed = 17, log[9];
    size_t many = 0;
    EXPECT(kioskbasil_open(&sizes, s, 2, r, 2), KIOSKBASIL_OK);
    EXPECT(kioskbasil_put(&s[0], "x", 1, NULL), KIOSKBASIL_OK);
    EXPECT(kioskbasil_leave(&s[0]), KIOSKBASIL_CLOSE_PENDING);
    EXPECT(kioskbasil_turn(&s[0], 0, NULL), KIOSKBASIL_GOING);
    EXPECT(kioskbasil_leave(&s[0]), KIOSKBASIL_CLOSE_BUSY);
    EXPECT(send_batch(&s[0], &seed, NULL, NULL), KIOSKBASIL_DELIVERED);
    EXPECT(kioskbasil_leave(&s[0]), KIOSKBASIL_OK);
    EXPECT(kioskbasil_leave(&s[0]), KIOSKBASIL_CLOSE_CLOSED);
    EXPECT(kioskbasil_close(&s[0]), KIOSKBASIL_CLOSE_CLOSED);
    EXPECT(kioskbasil_put(&s[0], "x", 1, NULL), KIOSKBASIL_PUT_CLOSED);
    memset(&turn, 7, sizeof turn);
    EXPECT(send_batch(&s[0], &seed, &turn, NULL), KIOSKBASIL_LEFT);
    EXPECT(turn.tenure, 1);
    EXPECT(turn.first + turn.last + turn.sender, 0);
    EXPECT(send_batch(&s[0], &seed, NULL, NULL), KIOSKBASIL_CLOSED);
    EXPECT(kioskbasil_put(&s[0], "x", 1, NULL), KIOSKBASIL_PUT_CLOSED);
    EXPECT(leave_order(&s[0], &seed, NULL), KIOSKBASIL_CLOSE_CLOSED);
    send_one(&s[1], 0, &seed);
    EXPECT(end_order(&s[1], &seed, NULL), KIOSKBASIL_CLOSED);
    EXPECT(kioskbasil_hear(r, items, 4, &many), KIOSKBASIL_END);
    EXPECT(many, 2);
    EXPECT(items[0].sender, 0);
    EXPECT(items[1].sender, 1);
    uint32_t code, said = 0, leaves = 0;
    while ((code = kioskbasil_hear_once(&r[1], &heard)) != KIOSKBASIL_END) {
        if (code == KIOSKBASIL_ITEM) EXPECT(heard.item.sender, said++);
        if (code != KIOSKBASIL_LEAVE) continue;
        leaves++;
        EXPECT(heard.owner, 0);
        EXPECT(heard.tenure, 0);
        EXPECT(said, 1);
    }
    EXPECT(said, 2);
    EXPECT(leaves, 1);
    EXPECT(kioskbasil_end(s, 2, r, 2, log, 9, &left), KIOSKBASIL_OK);
    EXPECT(log[4], 0xc000000000000001);
    for (int i = 0; i < KIOSKBASIL_MOST_SENDERS; i++) {
        EXPECT(left.gone[i], i == 0);
        EXPECT(left.counts[i], i < 2);
    }
    EXPECT(left.ended, true);
    EXPECT(kioskbasil_open_after(&sizes, &left, s, 2, r, 1), KIOSKBASIL_OK);
    send_one(&s[0], 1, &seed);
    EXPECT(leave_order(&s[1], &seed, NULL), KIOSKBASIL_LEFT);
    EXPECT(kioskbasil_end(s, 2, r, 1, NULL, 0, &left), KIOSKBASIL_OK);
    EXPECT(left.gone[0], false);
    EXPECT(left.gone[1], true);
}

/* Puts a message of 56 bytes, which takes 8 words, and a frame of it 9. */
static void put_long(kioskbasil_sender *s) {
    uint8_t big[56] = {1};
    EXPECT(kioskbasil_put(s, big, 56, NULL), KIOSKBASIL_OK);
}

/* A ring of 16 words is full, is heard, and has room again, many times over. */
static void ring_again(void) {
    kioskbasil_sender s[2] = {KIOSKBASIL_NONE};
    kioskbasil_receiver r[2] = {KIOSKBASIL_NONE};
    kioskbasil_sizes sizes = {1, 2, 16, false, false, 1};
    kioskbasil_receiver_shown shown;
    kioskbasil_turn_answer turn;
    kioskbasil_item items[4];
    kioskbasil_left left;
    uint64_t seed = 61, log[16] = {0};
    size_t many = 0;
    EXPECT(kioskbasil_open_ring(&sizes, s, 2, r, 2), KIOSKBASIL_OK);
    EXPECT(kioskbasil_try_send(s, word_of, &seed, &turn), KIOSKBASIL_IDLE);
    for (uint64_t round = 0; round < 300; round++) {
        kioskbasil_sender *who = &s[round % 2];
        put_long(who);
        EXPECT(kioskbasil_has_room(who), KIOSKBASIL_OK);
        EXPECT(kioskbasil_try_send(who, word_of, &seed, &turn), KIOSKBASIL_DELIVERED);
        EXPECT(turn.tenure, 3 * round);
        EXPECT(turn.last, round - round % 2);
        put_long(who);
        for (int i = 0; i < 2; i++) {
            EXPECT(kioskbasil_has_room(who), KIOSKBASIL_FULL);
            if (i == 0) EXPECT(kioskbasil_try_send(who, word_of, &seed, NULL), KIOSKBASIL_FULL);
            EXPECT(kioskbasil_show_receiver(&r[i], &shown), KIOSKBASIL_OK);
            EXPECT(shown.passed, 18 * round);
            EXPECT(kioskbasil_hear(&r[i], items, 4, &many), KIOSKBASIL_EMPTY);
            EXPECT(many, 1);
            kioskbasil_show_receiver(&r[i], &shown);
            EXPECT(shown.passed, 18 * round + 9);
        }
        EXPECT(kioskbasil_has_room(who), KIOSKBASIL_OK);
        EXPECT(send_now(who, &seed, NULL, NULL), KIOSKBASIL_DELIVERED);
        for (int i = 0; i < 2 && round < 299; i++)
            EXPECT(kioskbasil_hear(&r[i], items, 4, &many), KIOSKBASIL_EMPTY);
    }
    EXPECT(end_order(s, &seed, NULL), KIOSKBASIL_CLOSED);
    kioskbasil_free_sender(&s[0]), kioskbasil_free_sender(&s[1]), kioskbasil_free_receiver(&r[1]);
    EXPECT(kioskbasil_end(NULL, 0, r, 1, log, 16, &left), KIOSKBASIL_OK);
    EXPECT(left.words, 300 * 18 + 2);
    EXPECT(left.floor, 299 * 18 + 9);
    EXPECT(left.counts[0] + left.counts[1], 600);
    EXPECT(left.ended, true);
    EXPECT(log[0] != 0 && log[10] != 0 && log[11] == 0, 1);
    sizes.batch = 0;
    EXPECT(kioskbasil_open_after(&sizes, &left, s, 1, r, 1), KIOSKBASIL_OK);
    send_one(s, left.next[0], &seed);
    sizes.ring = true, sizes.batch = 1;
    EXPECT(kioskbasil_open_after(&sizes, &left, s, 1, r, 1), KIOSKBASIL_OK);
    for (uint64_t i = 0; i < 40; i++) {
        send_one(s, left.next[0] + i, &seed);
        EXPECT(kioskbasil_hear(r, items, 4, &many), KIOSKBASIL_EMPTY);
    }
    for (uint64_t batch = 1; batch <= KIOSKBASIL_MOST_MESSAGES; batch++) {
        sizes.batch = batch, sizes.log_words = 1 + 8 * batch < 16 ? 16 : 1 + 8 * batch;
        left.next[63] = (UINT64_C(1) << 48) - batch * ((UINT64_C(1) << 40) + 1);
        EXPECT(kioskbasil_open_after(&sizes, &left, s, 1, r, 1), KIOSKBASIL_NUMBERS_USED);
        left.next[63]--;
        EXPECT(kioskbasil_open_after(&sizes, &left, s, 1, r, 1), KIOSKBASIL_OK);
    }
    left.next[63]++, sizes.log_words--;
    EXPECT(kioskbasil_open_after(&sizes, &left, s, 1, r, 1), KIOSKBASIL_SHORT_RING);
    sizes.batch = 65;
    EXPECT(kioskbasil_open_after(&sizes, &left, s, 1, r, 1), KIOSKBASIL_BAD_BATCH);
    kioskbasil_free_sender(s), kioskbasil_free_receiver(r);
}

/* Puts as many of the longest messages as a batch of such a bus takes, and one more. A batch of a
   ring has room, and it is heard as it was put. */
static void batch_of(kioskbasil_sizes sizes, uint64_t limit) {
    kioskbasil_sender s[1] = {KIOSKBASIL_NONE};
    kioskbasil_receiver r[1] = {KIOSKBASIL_NONE};
    static kioskbasil_item items[KIOSKBASIL_MOST_MESSAGES + 1];
    kioskbasil_turn_answer turn;
    uint64_t seed = 89, number = 0;
    size_t many = 0;
    uint8_t big[56];
    EXPECT(kioskbasil_open(&sizes, s, 1, r, 1), KIOSKBASIL_OK);
    for (uint64_t i = 0; i < limit; i++) {
        memset(big, (int)i, sizeof big);
        EXPECT(kioskbasil_put(s, big, 56, &number), KIOSKBASIL_OK);
        EXPECT(number, i);
    }
    EXPECT(kioskbasil_put(s, NULL, 0, &number), KIOSKBASIL_PUT_BATCH_FULL);
    EXPECT(pending(s), limit);
    if (sizes.log_words < 1 + 8 * limit) {
        EXPECT(kioskbasil_has_room(s), KIOSKBASIL_NEVER_FITS);
        EXPECT(send_when_room(s, &seed, NULL, NULL, NULL, NULL), KIOSKBASIL_NEVER_FITS);
        EXPECT(kioskbasil_try_send(s, word_of, &seed, NULL), KIOSKBASIL_NEVER_FITS);
        EXPECT(send_batch(s, &seed, NULL, NULL), KIOSKBASIL_FULL);
        EXPECT(pending(s), limit);
    } else {
        EXPECT(kioskbasil_has_room(s), KIOSKBASIL_OK);
        EXPECT(kioskbasil_try_send(s, word_of, &seed, &turn), KIOSKBASIL_DELIVERED);
        EXPECT(turn.last, limit - 1);
        EXPECT(kioskbasil_hear(r, items, limit + 1, &many), KIOSKBASIL_EMPTY);
        EXPECT(many, limit);
        for (uint64_t i = 0; i < many; i++) {
            memset(big, (int)i, sizeof big);
            EXPECT(items[i].number, i);
            EXPECT(memcmp(items[i].bytes, big, 56), 0);
        }
    }
    kioskbasil_free_sender(s), kioskbasil_free_receiver(r);
}

/* Which batches a bus may have, and how long a ring has to be for them. */
static void batches(void) {
    static const struct { bool ring; uint64_t batch, words; uint32_t code; } opened[] = {
        {true, 0, 513, KIOSKBASIL_OK}, {true, 0, 512, KIOSKBASIL_SHORT_RING},
        {true, 64, 513, KIOSKBASIL_OK}, {true, 64, 512, KIOSKBASIL_SHORT_RING},
        {true, 63, 505, KIOSKBASIL_OK}, {true, 63, 504, KIOSKBASIL_SHORT_RING},
        {true, 17, 137, KIOSKBASIL_OK}, {true, 17, 136, KIOSKBASIL_SHORT_RING},
        {true, 16, 129, KIOSKBASIL_OK}, {true, 16, 128, KIOSKBASIL_SHORT_RING},
        {true, 2, 17, KIOSKBASIL_OK}, {true, 2, 16, KIOSKBASIL_SHORT_RING},
        {true, 1, 16, KIOSKBASIL_OK}, {true, 1, 15, KIOSKBASIL_BAD_LOG_WORDS},
        {true, 65, 65536, KIOSKBASIL_BAD_BATCH}, {true, 65, 16, KIOSKBASIL_BAD_BATCH},
        {true, UINT64_MAX, 65536, KIOSKBASIL_BAD_BATCH}, {true, 65, 15, KIOSKBASIL_BAD_LOG_WORDS},
        {false, 0, 16, KIOSKBASIL_OK}, {false, 16, 16, KIOSKBASIL_OK},
        {false, 16, 65536, KIOSKBASIL_OK}, {false, 17, 65536, KIOSKBASIL_BAD_BATCH},
        {false, 15, 65536, KIOSKBASIL_BAD_BATCH}, {false, 1, 16, KIOSKBASIL_BAD_BATCH},
        {false, 64, 65536, KIOSKBASIL_BAD_BATCH}, {false, 65, 65536, KIOSKBASIL_BAD_BATCH},
    };
    kioskbasil_sender s[1] = {KIOSKBASIL_NONE};
    kioskbasil_receiver r[1] = {KIOSKBASIL_NONE};
    for (size_t i = 0; i < sizeof opened / sizeof *opened; i++) {
        bool ring = opened[i].ring;
        kioskbasil_sizes sizes = {1, 2, opened[i].words, !ring, ring, opened[i].batch};
        EXPECT(kioskbasil_open(&sizes, s, 1, r, 1), opened[i].code);
        EXPECT(s[0].live, opened[i].code == KIOSKBASIL_OK);
        kioskbasil_free_sender(s), kioskbasil_free_receiver(r);
        sizes.ring = false;
        if (ring) EXPECT(kioskbasil_open_ring(&sizes, s, 1, r, 1), opened[i].code);
        kioskbasil_free_sender(s), kioskbasil_free_receiver(r);
    }
    batch_of((kioskbasil_sizes){1, 2, 513, false, true, 0}, KIOSKBASIL_MOST_MESSAGES);
    batch_of((kioskbasil_sizes){1, 2, 65536, false, true, 0}, KIOSKBASIL_MOST_MESSAGES);
    for (uint64_t batch = 1; batch <= KIOSKBASIL_MOST_MESSAGES; batch++) {
        uint64_t words = 1 + 8 * batch < 16 ? 16 : 1 + 8 * batch;
        batch_of((kioskbasil_sizes){1, 2, words, false, true, batch}, batch);
    }
    for (int again = 0; again < 2; again++) {
        batch_of((kioskbasil_sizes){1, 2, 129, again, false, 0}, KIOSKBASIL_LOG_MESSAGES);
        batch_of((kioskbasil_sizes){1, 2, 65536, again, false, 16}, KIOSKBASIL_LOG_MESSAGES);
        batch_of((kioskbasil_sizes){1, 2, 128, again, false, 0}, KIOSKBASIL_LOG_MESSAGES);
        batch_of((kioskbasil_sizes){1, 2, 16, again, false, 0}, KIOSKBASIL_LOG_MESSAGES);
    }
}

/* As many receivers as there can be: the last one alone holds a frame up, until it has heard. */
static void ring_of_most(void) {
    enum { LAST = KIOSKBASIL_MOST_RECEIVERS - 1 };
    kioskbasil_sender s[1] = {KIOSKBASIL_NONE};
    kioskbasil_receiver r[LAST + 1] = {KIOSKBASIL_NONE};
    kioskbasil_sizes sizes = {1, 2, 16, false, false, 1};
    kioskbasil_item items[4];
    kioskbasil_left left;
    uint64_t seed = 71;
    size_t many = 0;
    EXPECT(kioskbasil_open_ring(&sizes, s, 1, r, LAST + 1), KIOSKBASIL_OK);
    put_long(s);
    EXPECT(send_batch(s, &seed, NULL, NULL), KIOSKBASIL_DELIVERED);
    put_long(s);
    for (int i = 0; i <= LAST; i++) {
        EXPECT(kioskbasil_has_room(s), KIOSKBASIL_FULL);
        if (i == LAST) EXPECT(send_batch(s, &seed, NULL, NULL), KIOSKBASIL_FULL);
        EXPECT(kioskbasil_hear(&r[i], items, 4, &many), KIOSKBASIL_EMPTY);
        EXPECT(many, 1);
    }
    EXPECT(kioskbasil_has_room(s), KIOSKBASIL_OK);
    EXPECT(send_batch(s, &seed, NULL, NULL), KIOSKBASIL_DELIVERED);
    EXPECT(kioskbasil_hear(&r[LAST], items, 4, &many), KIOSKBASIL_EMPTY);
    EXPECT(items[0].number, 1);
    EXPECT(kioskbasil_end(s, 1, r, LAST + 1, NULL, 0, &left), KIOSKBASIL_OK);
    EXPECT(left.words, 18);
    EXPECT(left.floor, 9);
    for (int i = 0; i <= LAST; i++) EXPECT(r[i].live, 0);
}

/* A receiver that is given up lets the others go on, and so does one by which a bus was not ended. */
static void ring_left(bool by_end) {
    kioskbasil_sender s[1] = {KIOSKBASIL_NONE};
    kioskbasil_receiver r[2] = {KIOSKBASIL_NONE};
    kioskbasil_sizes sizes = {1, 8, 17, true, true, 2};
    kioskbasil_item items[4];
    kioskbasil_left left;
    uint64_t seed = 67;
    size_t many = 0;
    EXPECT(kioskbasil_open(&sizes, s, 1, r, 2), KIOSKBASIL_OK);
    put_long(s);
    EXPECT(send_batch(s, &seed, NULL, NULL), KIOSKBASIL_DELIVERED);
    put_long(s);
    EXPECT(kioskbasil_hear(&r[0], items, 4, &many), KIOSKBASIL_EMPTY);
    EXPECT(send_batch(s, &seed, NULL, NULL), KIOSKBASIL_FULL);
    EXPECT(kioskbasil_has_room(s), KIOSKBASIL_FULL);
    if (by_end) EXPECT(kioskbasil_end(NULL, 0, &r[1], 1, NULL, 0, &left), KIOSKBASIL_IN_USE);
    else kioskbasil_free_receiver(&r[1]);
    EXPECT(kioskbasil_has_room(s), KIOSKBASIL_OK);
    EXPECT(send_batch(s, &seed, NULL, NULL), KIOSKBASIL_DELIVERED);
    for (int i = 0; i < 2; i++) put_long(s);
    EXPECT(kioskbasil_has_room(s), KIOSKBASIL_FULL);
    EXPECT(send_batch(s, &seed, NULL, NULL), KIOSKBASIL_FULL);
    EXPECT(kioskbasil_hear(&r[0], items, 4, &many), KIOSKBASIL_EMPTY);
    EXPECT(kioskbasil_has_room(s), KIOSKBASIL_OK);
    EXPECT(pending(s), 2);
    EXPECT(kioskbasil_end(s, 1, r, 1, NULL, 0, &left), KIOSKBASIL_OK);
    EXPECT(left.words, 18);
    EXPECT(left.floor, 18);
    EXPECT(left.counts[0], 2);
}

/* Hears one item of each, which is the same, with this number, and compares all that they show. */
static void hear_alike(kioskbasil_receiver *r, int count, uint64_t number) {
    kioskbasil_receiver_shown first, shown;
    kioskbasil_item items[2];
    size_t many = 0;
    for (int i = 0; i < count; i++) {
        EXPECT(kioskbasil_hear(&r[i], items, 2, &many), KIOSKBASIL_EMPTY);
        EXPECT(many, 1);
        EXPECT(items[0].number, number);
        EXPECT(kioskbasil_show_receiver(&r[i], i ? &shown : &first), KIOSKBASIL_OK);
        if (i) EXPECT(shown.place == first.place && shown.passed == first.passed, true);
    }
}

/* Receivers join a ring of three, of which the last two were given up at the start: by a fork, by a
   fork of that, and no third one. All hear the same from there on, over more than the ring's length.
   One that is given up frees its number. */
static void forks_of_a_ring(void) {
    kioskbasil_sender s[1] = {KIOSKBASIL_NONE};
    kioskbasil_receiver r[3] = {KIOSKBASIL_NONE}, more = KIOSKBASIL_NONE;
    kioskbasil_sizes sizes = {1, 2, 16, false, false, 1};
    kioskbasil_left left;
    uint64_t seed = 73;
    EXPECT(kioskbasil_open_ring(&sizes, s, 1, r, 3), KIOSKBASIL_OK);
    EXPECT(kioskbasil_fork(&r[0], &more), KIOSKBASIL_NO_SEAT);
    kioskbasil_free_receiver(&r[1]), kioskbasil_free_receiver(&r[2]);
    for (uint64_t i = 0; i < 5; i++) send_one(s, i, &seed), hear_alike(r, 1, i);
    EXPECT(kioskbasil_fork(&r[0], &r[1]), KIOSKBASIL_OK);
    EXPECT(kioskbasil_fork(&r[0], &r[1]), KIOSKBASIL_USED_HANDLE);
    EXPECT(kioskbasil_fork(&r[1], &r[1]), KIOSKBASIL_USED_HANDLE);
    for (uint64_t i = 5; i < 10; i++) send_one(s, i, &seed), hear_alike(r, 2, i);
    EXPECT(kioskbasil_fork(&r[1], &r[2]), KIOSKBASIL_OK);
    for (int i = 0; i < 3; i++) EXPECT(kioskbasil_fork(&r[i], &more), KIOSKBASIL_NO_SEAT);
    EXPECT(more.live, 0);
    for (uint64_t i = 10; i < 30; i++) send_one(s, i, &seed), hear_alike(r, 3, i);
    /* The one in the middle is given up, and its number is taken again: by the first, not the last. */
    kioskbasil_free_receiver(&r[1]);
    EXPECT(kioskbasil_fork(&r[2], &r[1]), KIOSKBASIL_NO_SEAT);
    EXPECT(kioskbasil_fork(&r[0], &r[1]), KIOSKBASIL_OK);
    for (uint64_t i = 30; i < 40; i++) send_one(s, i, &seed), hear_alike(r, 3, i);
    /* A fork that does not hear holds the ring up, until it is given up. */
    for (uint64_t i = 40; i < 45; i++) send_one(s, i, &seed), hear_alike(r, 2, i);
    put_long(s);
    EXPECT(send_batch(s, &seed, NULL, NULL), KIOSKBASIL_FULL);
    kioskbasil_free_receiver(&r[2]);
    EXPECT(send_batch(s, &seed, NULL, NULL), KIOSKBASIL_DELIVERED);
    hear_alike(r, 2, 45);
    EXPECT(end_order(s, &seed, NULL), KIOSKBASIL_CLOSED);
    EXPECT(kioskbasil_end(s, 1, r, 2, NULL, 0, &left), KIOSKBASIL_OK);
    EXPECT(left.counts[0], 46);
    EXPECT(r[0].live + r[1].live + r[2].live, 0);
}

/* A fork within a frame of which its maker has heard the half, and after the end. */
static void forks_within_a_frame(bool ring) {
    kioskbasil_sender s[1] = {KIOSKBASIL_NONE};
    kioskbasil_receiver r[4] = {KIOSKBASIL_NONE};
    kioskbasil_sizes sizes = {1, 8, 25, true, ring, ring ? 3 : 0};
    kioskbasil_heard heard;
    kioskbasil_item items[4];
    kioskbasil_left left;
    uint64_t seed = 79;
    size_t many = 0;
    EXPECT(kioskbasil_open(&sizes, s, 1, r, 4), KIOSKBASIL_OK);
    kioskbasil_free_receiver(&r[2]), kioskbasil_free_receiver(&r[3]);
    for (int i = 0; i < 3; i++) EXPECT(kioskbasil_put(s, "abc", 3, NULL), KIOSKBASIL_OK);
    EXPECT(send_batch(s, &seed, NULL, NULL), KIOSKBASIL_DELIVERED);
    do EXPECT(kioskbasil_hear_once(&r[0], &heard) != KIOSKBASIL_END, true);
    while (heard.item.length == 0);
    EXPECT(kioskbasil_fork(&r[0], &r[2]), KIOSKBASIL_OK);
    for (int i = 0; i < 3; i++) {
        EXPECT(kioskbasil_hear(&r[i], items, 4, &many), KIOSKBASIL_EMPTY);
        EXPECT(many, i == 1 ? 3 : 2);
        EXPECT(items[many - 1].number, 2);
    }
    EXPECT(end_order(s, &seed, NULL), KIOSKBASIL_CLOSED);
    for (int i = 0; i < 3; i++) EXPECT(kioskbasil_hear(&r[i], items, 4, &many), KIOSKBASIL_END);
    EXPECT(kioskbasil_fork(&r[2], &r[3]), KIOSKBASIL_OK);
    EXPECT(kioskbasil_hear(&r[3], items, 4, &many), KIOSKBASIL_END);
    EXPECT(many, 0);
    EXPECT(kioskbasil_end(s, 1, r, 3, NULL, 0, &left), KIOSKBASIL_IN_USE);
    kioskbasil_free_receiver(&r[3]);
}

/* Of a bus that is no ring a fork is never refused a number, not of more than it was opened with. */
static void forks_without_end(bool again) {
    enum { MANY = KIOSKBASIL_MOST_RECEIVERS + 6 };
    kioskbasil_sender s[1] = {KIOSKBASIL_NONE};
    kioskbasil_receiver r[MANY] = {KIOSKBASIL_NONE};
    kioskbasil_sizes sizes = {1, 8, 64, again, false, 0};
    kioskbasil_left left;
    uint64_t seed = 83;
    EXPECT(kioskbasil_open(&sizes, s, 1, r, 1), KIOSKBASIL_OK);
    send_one(s, 0, &seed), hear_alike(r, 1, 0);
    for (int i = 1; i < MANY; i++) EXPECT(kioskbasil_fork(&r[i / 2], &r[i]), KIOSKBASIL_OK);
    send_one(s, 1, &seed), hear_alike(r, MANY, 1);
    EXPECT(kioskbasil_end(s, 1, r, MANY, NULL, 0, &left), KIOSKBASIL_OK);
    EXPECT(left.counts[0], 2);
}

/* ---- many short runs of four senders and four receivers, each in a thread of its own; in some the
   first sender that is done leaves, in some there is no bell, and in some the log is a ring of 64 to
   127 words, which is used again many times */
enum { SIDES = 4, MESSAGES = 24 };

struct side {
    kioskbasil_sender *sender;
    kioskbasil_receiver *receiver;
    struct bell *bell;
    uint64_t seed;
    atomic_int *left;
    bool leaves;
    kioskbasil_item heard[SIDES * MESSAGES + 1];
    size_t many;
    uint32_t last;
};

static void *send_side(void *given) {
    struct side *me = given;
    kioskbasil_sender_shown shown;
    kioskbasil_show_sender(me->sender, &shown);
    for (int i = 0; i < MESSAGES;) {
        uint8_t message[56];
        size_t length = (size_t)(i * 7 % 57);
        memset(message, shown.number * 64 + i, sizeof message);
        if (kioskbasil_put(me->sender, message, length, NULL) == KIOSKBASIL_OK) i++;
        if (i % 5 == 0 || i == MESSAGES)
            me->last = send_when_room(me->sender, &me->seed, NULL, me->bell, NULL, NULL);
    }
    int still = atomic_fetch_sub(me->left, 1);
    if (still == 1) me->last = end_order(me->sender, &me->seed, me->bell);
    else if (still == SIDES && me->leaves) me->last = leave_order(me->sender, &me->seed, me->bell);
    if (me->last == KIOSKBASIL_FULL)
        me->last = send_when_room(me->sender, &me->seed, NULL, me->bell, NULL, NULL);
    return NULL;
}

static void *hear_side(void *given) {
    struct side *me = given;
    size_t many;
    do {
        size_t room = SIDES * MESSAGES + 1 - me->many;
        me->last = hear_some(me->receiver, me->heard + me->many, room < 7 ? room : 7, &many,
                             me->bell);
        me->many += many;
    } while (me->last != KIOSKBASIL_END && me->many <= SIDES * MESSAGES);
    return NULL;
}

static int storm(unsigned run) {
    kioskbasil_sender s[SIDES] = {KIOSKBASIL_NONE};
    kioskbasil_receiver r[SIDES] = {KIOSKBASIL_NONE};
    bool ring = run % 3 == 1, again = run % 2;
    uint64_t rows = again || ring ? 2 + run % 7 : 64, words = ring ? 64 + run % 64 : 1024;
    kioskbasil_sizes sizes = {1 + run % 4, rows, words, again, ring, ring ? (words - 1) / 8 : 0};
    static struct side sides[2 * SIDES];
    struct bell bell = BELL_NEW;
    atomic_int left = SIDES;
    pthread_t threads[2 * SIDES];
    kioskbasil_left ended;
    int bad = kioskbasil_open(&sizes, s, SIDES, r, SIDES) != KIOSKBASIL_OK;
    memset(sides, 0, sizeof sides);
    for (int i = 0; i < 2 * SIDES; i++) {
        struct side *side = &sides[i];
        side->left = &left, side->seed = run * 16 + i + 1, side->leaves = run % 3 == 2;
        side->bell = run % 5 ? &bell : NULL;
        if (i < SIDES) side->sender = &s[i]; else side->receiver = &r[i - SIDES];
        if (pthread_create(&threads[i], NULL, i < SIDES ? send_side : hear_side, side)) exit(2);
    }
    for (int i = 0; i < 2 * SIDES; i++) pthread_join(threads[i], NULL);
    uint64_t next[SIDES] = {0};
    const struct side *first = &sides[SIDES];
    for (int i = SIDES; i < 2 * SIDES; i++) {
        bad |= sides[i].many != SIDES * MESSAGES || sides[i].last != KIOSKBASIL_END;
        bad |= memcmp(sides[i].heard, first->heard, first->many * sizeof *first->heard) != 0;
    }
    for (size_t i = 0; i < first->many && !bad; i++) {
        const kioskbasil_item *item = &first->heard[i];
        bad |= item->sender >= SIDES || item->number != next[item->sender]++;
        bad |= item->length != item->number * 7 % 57;
        uint8_t byte = (uint8_t)(item->sender * 64 + item->number);
        for (int b = 0; b < 56; b++) bad |= item->bytes[b] != (b < item->length ? byte : 0);
    }
    bad |= kioskbasil_end(s, SIDES, r, SIDES, NULL, 0, &ended) != KIOSKBASIL_OK;
    bad |= ended.words - ended.floor > words || (ended.floor > 0) != ring;
    for (int i = 0; i < SIDES; i++) {
        bad |= ended.counts[i] != MESSAGES;
        bad |= ended.gone[i] != (sides[i].last == KIOSKBASIL_LEFT);
    }
    return bad;
}

/* ---- many buses of random life: senders and receivers that take random turns, and are given up or
   end the bus at any moment */
enum { LIVES = 5, EARS = 3, FREED = 99 };

struct life {
    kioskbasil_sender *sender;
    kioskbasil_receiver *receiver;
    uint64_t seed;
    uint32_t last;
    kioskbasil_left left;
};

static void *send_life(void *given) {
    struct life *me = given;
    uint8_t message[57] = {0};
    for (uint32_t turns = next_word(&me->seed) % 400; turns > 0; turns--) {
        uint32_t word = next_word(&me->seed);
        if (word % 3 == 0) kioskbasil_put(me->sender, message, word / 3 % 57, NULL);
        if (word % 97 == 0) kioskbasil_leave(me->sender);
        if (word % 197 == 0) kioskbasil_close(me->sender);
        if (word % 2) kioskbasil_turn(me->sender, word, NULL);
        else kioskbasil_turns(me->sender, word, NULL);
    }
    kioskbasil_free_sender(me->sender);
    return NULL;
}

static void *hear_life(void *given) {
    struct life *me = given;
    kioskbasil_item items[9];
    kioskbasil_heard heard;
    size_t many;
    for (uint32_t turns = next_word(&me->seed) % 300; turns > 0; turns--) {
        uint32_t word = next_word(&me->seed);
        if (word % 5) kioskbasil_hear(me->receiver, items, word / 5 % 10, &many);
        else kioskbasil_hear_once(me->receiver, &heard);
    }
    me->last = FREED;
    if (next_word(&me->seed) % 2) {
        uint64_t log[512];
        me->last = kioskbasil_end(NULL, 0, me->receiver, 1, log, 512, &me->left);
    }
    kioskbasil_free_receiver(me->receiver);
    return NULL;
}

static int lives(unsigned run) {
    kioskbasil_sender s[LIVES] = {KIOSKBASIL_NONE};
    kioskbasil_receiver r[EARS] = {KIOSKBASIL_NONE};
    bool ring = run % 3 == 1;
    uint64_t words = ring ? 16 + run % 256 : 512, batch = ring ? (words - 1) / 8 : 0;
    kioskbasil_sizes sizes = {1 + run % 4, 2 + run % 7, words, run % 2, ring, batch};
    static struct life all[LIVES + EARS];
    pthread_t threads[LIVES + EARS];
    int bad = kioskbasil_open(&sizes, s, LIVES, r, EARS) != KIOSKBASIL_OK, last = 0;
    memset(all, 0, sizeof all);
    for (int i = 0; i < LIVES + EARS; i++) {
        struct life *life = &all[i];
        life->seed = run * 31 + i + 1;
        if (i < LIVES) life->sender = &s[i]; else life->receiver = &r[i - LIVES];
        if (pthread_create(&threads[i], NULL, i < LIVES ? send_life : hear_life, life)) exit(2);
    }
    for (int i = 0; i < LIVES + EARS; i++) pthread_join(threads[i], NULL);
    for (int i = LIVES; i < LIVES + EARS; i++) {
        uint32_t code = all[i].last;
        last += code == KIOSKBASIL_OK || code == KIOSKBASIL_PAGE_OUT;
        bad |= code != KIOSKBASIL_OK && code != KIOSKBASIL_PAGE_OUT && code != KIOSKBASIL_IN_USE &&
               code != FREED;
        for (int n = 0; n < LIVES && code == KIOSKBASIL_OK; n++)
            bad |= all[i].left.next[n] != all[i].left.counts[n] ||
                   all[i].left.words - all[i].left.floor > sizes.log_words;
    }
    return bad || last > 1;
}

/* ---- what the thread sanitizer has to report: two threads that use one handle */
static kioskbasil_receiver shared[1];

static void *hear_shared(void *given) {
    kioskbasil_item items[4];
    size_t many;
    for (int i = 0; i < 20000; i++) kioskbasil_hear(shared, items, 4, &many);
    return given;
}

static void control(void) {
    kioskbasil_sender s[1] = {KIOSKBASIL_NONE};
    kioskbasil_sizes sizes = {1, 2, 64, true, false, 0};
    pthread_t threads[2];
    if (kioskbasil_open(&sizes, s, 1, shared, 1)) exit(2);
    for (int i = 0; i < 2; i++) pthread_create(&threads[i], NULL, hear_shared, NULL);
    for (int i = 0; i < 2; i++) pthread_join(threads[i], NULL);
}

/* ---- the time of a message: one thread puts batches of 16, sends and hears them */
static double now(void) {
    struct timespec t;
    clock_gettime(CLOCK_PROCESS_CPUTIME_ID, &t);
    return (double)t.tv_sec * 1e9 + (double)t.tv_nsec;
}

static void timing(void) {
    double whole = 0, calls = 0;
    uint64_t messages = 0, turns = 0, seed = 1;
    kioskbasil_item items[32];
    for (int sitting = 0; sitting < 200; sitting++) {
        kioskbasil_sender s[1] = {KIOSKBASIL_NONE};
        kioskbasil_receiver r[1] = {KIOSKBASIL_NONE};
        kioskbasil_sizes sizes = {1, 8, 65536, true, false, 0};
        if (kioskbasil_open(&sizes, s, 1, r, 1)) exit(2);
        double begun = now();
        for (int batch = 0; batch < 1900; batch++) {
            size_t many = 0;
            for (int i = 0; i < 16; i++) kioskbasil_put(s, "8 bytes!", 8, NULL);
            if (send_batch(s, &seed, NULL, NULL) != KIOSKBASIL_DELIVERED) exit(2);
            kioskbasil_hear(r, items, 32, &many);
            messages += many;
        }
        whole += now() - begun;
        begun = now();
        for (int i = 0; i < 100000; i++) kioskbasil_turn(s, 1, NULL);
        calls += now() - begun, turns += 100000;
        kioskbasil_free_sender(s);
        kioskbasil_free_receiver(r);
    }
    printf("C: %.1f ns a message of 8 bytes, put, sent in batches of 16 and heard in one thread "
           "(%llu messages); %.1f ns an idle turn\n",
           whole / (double)messages, (unsigned long long)messages, calls / (double)turns);
}

/* ---- runs as those of `bus_bench lines`: one for each line of the input, SENDERS RECEIVERS
   MESSAGES BYTES and ROUNDS (4 if left out). Prints the nanoseconds from the opening of a gate, at
   which all threads wait, to the last item of the last receiver. Waits as the proved library does,
   by 1, 2, 4, .. 64 pauses of the processor and then by yielding. */
struct race {
    atomic_int waiting;
    atomic_bool open;
    uint64_t messages;
    uint64_t items;
    size_t bytes;
};

struct racer {
    struct race *race;
    kioskbasil_sender *sender;
    kioskbasil_receiver *receiver;
    uint64_t seed;
    uint64_t sum;   /* of the words of its items */
    uint64_t order; /* a hash of the senders and numbers of its items, in their order */
    uint64_t next[KIOSKBASIL_MOST_SENDERS];
    double done;
};

static double clock_now(void) {
    struct timespec t;
    clock_gettime(CLOCK_MONOTONIC, &t);
    return (double)t.tv_sec * 1e9 + (double)t.tv_nsec;
}

static void die(const char *why) {
    fprintf(stderr, "embed: %s\n", why);
    exit(2);
}

static void pause_once(void) {
#if defined __x86_64__ || defined __i386__
    __builtin_ia32_pause();
#else
    atomic_signal_fence(memory_order_seq_cst);
#endif
}

static void wait_a_little(unsigned *step) {
    if (*step > 6) sched_yield();
    else for (unsigned spin = 0, most = 1u << (*step)++; spin < most; spin++) pause_once();
}

static void pass_gate(struct race *race) {
    unsigned step = 0;
    atomic_fetch_add(&race->waiting, 1);
    while (!atomic_load(&race->open)) wait_a_little(&step);
}

static void *send_all(void *given) {
    struct racer *me = given;
    uint8_t message[56] = {0};
    pass_gate(me->race);
    for (uint64_t number = 0; number < me->race->messages;) {
        uint64_t end = number + 16 < me->race->messages ? number + 16 : me->race->messages;
        for (; number < end; number++) {
            memcpy(message, &number, sizeof number);
            if (kioskbasil_put(me->sender, message, me->race->bytes, NULL)) die("a put is refused");
        }
        for (unsigned step = 0;;) {
            uint32_t code = kioskbasil_turns(me->sender, next_word(&me->seed), NULL);
            if (code == KIOSKBASIL_DELIVERED) break;
            if (code == KIOSKBASIL_WAITING || code == KIOSKBASIL_BEHIND) wait_a_little(&step);
            else if (code < KIOSKBASIL_GOING || code > KIOSKBASIL_OWN) die(kioskbasil_text(code));
        }
    }
    return NULL;
}

static void take_item(struct racer *me, const kioskbasil_item *item) {
    uint64_t words[7];
    memcpy(words, item->bytes, sizeof words);
    for (int i = 0; i < 7; i++) me->sum += words[i];
    if (item->number != me->next[item->sender]++ || words[0] != item->number) die("another item");
    if (item->length != me->race->bytes) die("another length");
    me->order = me->order * UINT64_C(0x9E3779B97F4A7C15) + (item->number << 8 | item->sender);
}

static void *hear_all(void *given) {
    struct racer *me = given;
    kioskbasil_item items[32];
    unsigned step = 0;
    pass_gate(me->race);
    for (uint64_t heard = 0; heard < me->race->items;) {
        size_t many = 0;
        uint32_t code = kioskbasil_hear(me->receiver, items, 32, &many);
        if (code != KIOSKBASIL_EMPTY && code != KIOSKBASIL_GOING) die(kioskbasil_text(code));
        for (size_t i = 0; i < many; i++) take_item(me, &items[i]);
        heard += many;
        if (many) step = 0;
        else wait_a_little(&step);
    }
    me->done = clock_now();
    return NULL;
}

/* A run; 0 where the sizes are not those of a bus. */
static double race(size_t senders, size_t receivers, uint64_t messages, size_t bytes,
                   uint64_t rounds) {
    kioskbasil_sender s[KIOSKBASIL_MOST_SENDERS] = {KIOSKBASIL_NONE};
    kioskbasil_receiver r[KIOSKBASIL_MOST_RECEIVERS] = {KIOSKBASIL_NONE};
    kioskbasil_sizes sizes = {rounds, 8, 65536, true, false, 0};
    struct race race = {.messages = messages, .items = messages * senders, .bytes = bytes};
    static struct racer racers[KIOSKBASIL_MOST_SENDERS + KIOSKBASIL_MOST_RECEIVERS];
    pthread_t threads[KIOSKBASIL_MOST_SENDERS + KIOSKBASIL_MOST_RECEIVERS];
    kioskbasil_left left;
    unsigned step = 0;
    double last = 0;
    if (bytes < 8 || kioskbasil_open(&sizes, s, senders, r, receivers)) return 0;
    memset(racers, 0, sizeof racers);
    for (size_t i = 0; i < senders + receivers; i++) {
        struct racer *racer = &racers[i];
        racer->race = &race, racer->seed = i + 1;
        if (i < senders) racer->sender = &s[i];
        else racer->receiver = &r[i - senders];
        if (pthread_create(&threads[i], NULL, i < senders ? send_all : hear_all, racer))
            die("no thread");
    }
    while (atomic_load(&race.waiting) < (int)(senders + receivers)) wait_a_little(&step);
    double opened = clock_now();
    atomic_store(&race.open, true);
    for (size_t i = 0; i < senders + receivers; i++) pthread_join(threads[i], NULL);
    for (size_t i = senders; i < senders + receivers; i++) {
        if (racers[i].order != racers[senders].order) die("receivers disagree");
        if (racers[i].sum != senders * (messages * (messages - 1) / 2)) die("another sum");
        if (racers[i].done > last) last = racers[i].done;
    }
    if (kioskbasil_end(s, senders, r, receivers, NULL, 0, &left)) die("no end");
    for (size_t i = 0; i < senders; i++) if (left.counts[i] != messages) die("another count");
    return last - opened;
}

static void lines(void) {
    unsigned long long senders, receivers, messages, bytes, rounds;
    char line[200];
    while (fgets(line, sizeof line, stdin)) {
        rounds = 4;
        if (sscanf(line, "%llu %llu %llu %llu %llu", &senders, &receivers, &messages, &bytes,
                   &rounds) < 4)
            die("not four numbers");
        if (senders > KIOSKBASIL_MOST_SENDERS || receivers > KIOSKBASIL_MOST_RECEIVERS)
            die("too many");
        double took = race(senders, receivers, messages, bytes, rounds);
        if (took == 0) die("no bus of these sizes");
        printf("%.0f\n", took);
        fflush(stdout);
    }
}

int main(int count, char **words) {
    const char *what = count > 1 ? words[1] : "codes";
    if (!strcmp(what, "time")) return timing(), 0;
    if (!strcmp(what, "lines")) return lines(), 0;
    if (!strcmp(what, "control")) return control(), 0;
    if (!strcmp(what, "storm") || !strcmp(what, "lives")) {
        long runs = count > 2 ? atol(words[2]) : 1000;
        for (long run = 0; run < runs; run++) {
            int differs = what[0] == 's' ? storm((unsigned)run) : lives((unsigned)run);
            if (differs) failed++, fprintf(stderr, "%s %ld differs\n", what, run);
            else passed++;
        }
    } else {
        bad_shapes();
        no_handles();
        one_sender(false);
        one_sender(true);
        ends();
        last_sender();
        for (int kinds = 0; kinds < 4; kinds++) two_sittings(kinds & 1, kinds & 2);
        leaving(false);
        leaving(true);
        for (int again = 0; again < 2; again++) {
            several_turns(again), turns_that_vote(again);
            telling(again), apart(again), carrying(again), carrying_later(again), no_page(again);
            carrying_within_a_tenure(again), carried_once(again);
        }
        behind();
        ring_again(), ring_of_most(), ring_left(false), ring_left(true), batches();
        forks_of_a_ring();
        for (int i = 0; i < 2; i++) {
            forks_within_a_frame(i == 1), forks_without_end(i == 1), no_memory_to_fork(i == 1);
        }
        for (int i = 0; i < 2; i++) letting_go(i == 1), letting_go_behind(i == 1);
        reopening();
        kioskbasil_left ended = {.ended = true};
        no_memory((kioskbasil_sizes){1, 4, 64, true, true, 7}, NULL);
        for (int again = 0; again < 2; again++) {
            kioskbasil_sizes sizes = {1, 4, 64, again, false, 0};
            no_memory(sizes, NULL), no_memory(sizes, &ended);
        }
    }
    printf("%s: %ld passed, %ld failed\n", what, passed, failed);
    return failed != 0;
}
