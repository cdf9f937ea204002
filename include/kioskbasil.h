/* kioskbasil.h: the broadcast bus of Kioskbasil for C and C++.
 *
 * A bus puts the messages of up to 64 senders into one order, which up to 64 receivers hear, each
 * all of it. No call waits or starts a thread. Only kioskbasil_open, kioskbasil_open_ring,
 * kioskbasil_open_after and kioskbasil_fork take memory. A call that is to wait is a loop of the
 * caller's: examples/c/waiting.h, in a release kioskbasil_waiting.h, has the usual ones. There each
 * bus has a bell, by which threads sleep and event loops are woken.
 *
 * STOPS. The election of the next sender is wait-free: each takes a stated number of its own turns.
 * The append is not, since the sender that is elected holds the page as one holds a lock: if its
 * thread is killed there, or never comes back, all others are answered KIOSKBASIL_WAITING for good.
 * A thread that goes another way lets go by kioskbasil_finish, or by kioskbasil_free_sender.
 *
 * RINGS. Who sends and hears must hear while it is answered KIOSKBASIL_FULL. A bus whose sizes have
 * `ring` (kioskbasil_open_ring) uses the words of its log again, so it is not over when that is
 * full. A word is used again once all receivers have passed it. Until then there is no room, and
 * KIOSKBASIL_FULL is for now: the batch is kept, and is to be tried again by a later call. So a
 * receiver goes on hearing, or is given up by kioskbasil_free_receiver: then it leaves, and nothing
 * waits for it. One that does neither keeps all senders without room for good. A worker goes by a
 * loop of send_while and hear_while of examples/c/waiting.h, as in examples/c/counters.c. Each FULL
 * takes a tenure, so after it ask kioskbasil_has_room while you hear, until that is OK.
 *
 * BATCHES. Messages of one sender that wait are its batch, which comes into the order as one frame.
 * A batch of a ring has 64 messages at most, or fewer where its sizes say so (`batch`), and one of
 * another bus 16. Where it may have B messages a ring has 1 + 8 B words or more, which are 513 for
 * 64, so each batch fits. A log that is no ring may be shorter than a batch, which then is FULL for
 * good, and its sender neither sends, closes nor leaves. So give it 129 words or more, or count the
 * words of a batch before each put: 1, and of each message 1 and one for each 8 bytes begun.
 * kioskbasil_has_room tells it after the put.
 *
 * The functions bus_c_.. are those of the archive (crates/bus_c), whose contracts say what each
 * does. kioskbasil_version() tells whether this archive is proved against them. The functions
 * kioskbasil_.. stand in this header: they look for NULL and call those. A program calls
 * kioskbasil_.. alone.
 *
 * HANDLES. A kioskbasil_sender or kioskbasil_receiver is the caller's. It starts as
 * KIOSKBASIL_NONE, which is all zeros, and kioskbasil_open, kioskbasil_open_ring or
 * kioskbasil_open_after fills it, or kioskbasil_fork one of a receiver. It is given up by
 * kioskbasil_free_.., which leaves it empty. A call of an empty handle answers
 * KIOSKBASIL_EMPTY_HANDLE and changes nothing, but for kioskbasil_end; giving up an empty handle is
 * allowed and does nothing. A call changes no handle but those that it is given.
 *
 * TWO HANDLES. kioskbasil_tell, kioskbasil_meet and kioskbasil_senders_page want handles of one
 * bus, and answer KIOSKBASIL_OTHER_BUS for those of two. This header sees it by where their buses
 * lie, and says it to the archive, whose proof rests on that: no proved code can compare the
 * places of two buses.
 *
 * THREADS. Different handles may be used by different threads at once, also of one bus. Each handle
 * is given to one call at a time. It goes to another thread by the start or the join of a thread,
 * or by a lock. No call is made from a signal handler, or in the child of a fork.
 *
 * STACK. kioskbasil_open, kioskbasil_open_ring and kioskbasil_open_after take up to 37 KiB of
 * stack, so a thread with 32 KiB cannot open; kioskbasil_senders_page takes up to 8 KiB, any other
 * call 5. It was measured on an archive that is built without a proof (./quick), beyond what a
 * thread takes that does nothing.
 *
 * MEMORY. The archive asks memory of three functions, rattle_alloc, rattle_realloc and
 * rattle_dealloc. examples/c/heap.c has them, with what each has to keep: link it once. In a
 * release libkioskbasil.a has them.
 *
 * WHAT IS TRUSTED OF THE CALLER. Nothing checks that
 *   - a handle starts as zeros, and is not written or copied while it is not empty (moving it and
 *     then zeroing the old one is allowed);
 *   - `again` and `ring` of a kioskbasil_sizes, and `ended` and each of `gone` of a
 *     kioskbasil_left, are 0 or 1;
 *   - a handle is given to one call at a time, as said above, and to one place of a call but where
 *     that says otherwise;
 *   - a pointer that is not NULL points to what its type says, as many of them as the call says,
 *     aligned, that no other pointer of the same call points into and no other thread uses
 *     meanwhile;
 *   - malloc, realloc and free are those of the C library, or as good.
 *
 * ROOM FOR MORE. Answers above KIOSKBASIL_LEAVE, refusals above KIOSKBASIL_SHORT_RING, further
 * calls, and further fields at the ends of structs may come. So a program is compiled with the
 * header that its archive came with, and anew where it was compiled with an older one: this header
 * has four such fields, `ring`, `batch`, `passed` and `floor`. So start each struct as zeros
 * (`= {0}`).
 */
#ifndef KIOSKBASIL_H
#define KIOSKBASIL_H

#include <stdbool.h>
#include <stddef.h>
#include <stdint.h>
#include <string.h>

#ifdef __cplusplus
extern "C" {
#endif

/* The version, and what is known of the proof of the archive that this header came with. In a
 * release KIOSKBASIL_PROOF begins with `proved` or with `NOT PROVED`, and names the kit; dist/pack
 * writes it. A clone does not know: `rt lib` proves what it builds, and ./quick does not. */
#define KIOSKBASIL_VERSION "0.1.0"
#define KIOSKBASIL_PROOF "of a clone: whether the archive is proved is not known"

/* Both, as one text: "0.1.0, proved, ..". */
static inline const char *kioskbasil_version(void) {
  return KIOSKBASIL_VERSION ", " KIOSKBASIL_PROOF;
}

enum {
  KIOSKBASIL_MOST_SENDERS = 64,
  KIOSKBASIL_MOST_RECEIVERS = 64,
  KIOSKBASIL_MOST_BYTES = 56,
  KIOSKBASIL_MOST_MESSAGES = 64, /* of a batch of a ring */
  KIOSKBASIL_LOG_MESSAGES = 16   /* of a batch of another bus */
};

/* What a call answers: done, an answer of a sender or of a receiver, or a refusal. */
enum kioskbasil_code {
  KIOSKBASIL_OK = 0,
  /* of a turn of a sender */
  KIOSKBASIL_IDLE = 1,      /* nothing was pending; no step was taken */
  KIOSKBASIL_WAITING = 2,   /* another holds the page, or no new tenure is open; rows used again
                               also: it came too late for the tenure that it had seen */
  KIOSKBASIL_GOING = 3,     /* a step was taken, and more are to come; also of a receiver */
  KIOSKBASIL_LOST = 4,      /* the election of .tenure chose .sender; the batch waits for another */
  KIOSKBASIL_OWN = 5,       /* it has taken the page of .tenure */
  KIOSKBASIL_DELIVERED = 6, /* its messages from .first to .last stand in the order, in the frame
                               of .tenure */
  KIOSKBASIL_FULL = 7,      /* its frame does not fit the log; the batch is kept. Of a ring it is to
                               be tried again */
  KIOSKBASIL_CLOSED = 8,    /* the order has ended, by this sender or another, or this sender had
                               left */
  KIOSKBASIL_SPENT = 9,     /* no tenure is left to this sender: all have ended, or it lost the last
                               one, whose owner may still end the order; the batch is kept */
  KIOSKBASIL_BEHIND = 10,   /* rows used again: this sender holds the page, and .sender keeps the
                               row of .tenure, which is to be used next. Its messages may stand in
                               the order already: they are not carried until it gives it back */
  /* of a turn of a receiver */
  KIOSKBASIL_EMPTY = 11,    /* it has read all up to the length that it found */
  KIOSKBASIL_HEAD = 12,     /* a frame of .owner begins, of the tenure .tenure */
  KIOSKBASIL_ITEM = 13,     /* the next message of the order, in .item */
  KIOSKBASIL_END = 14,      /* the order has ended, and all of it was given; so it answers for
                               good */
  /* of leaving */
  KIOSKBASIL_LEFT = 15,     /* of a sender: it has left, by its frame of .tenure */
  KIOSKBASIL_LEAVE = 16,    /* of a receiver: .owner has left, and nothing of it follows */
  /* of long messages, in examples/c/long.h alone */
  KIOSKBASIL_NOT_LONG = 17, /* the next item is no long message */
  /* refusals */
  KIOSKBASIL_BAD_SENDERS = 32,    /* open: not 1 to 64 senders */
  KIOSKBASIL_BAD_RECEIVERS = 33,  /* open: not 1 to 64 receivers */
  KIOSKBASIL_BAD_ROUNDS = 34,     /* open: not 1 to 8 rounds */
  KIOSKBASIL_BAD_ROWS = 35,       /* open: not 1 to 256 rows; used again, not 2 to 8 */
  KIOSKBASIL_BAD_LOG_WORDS = 36,  /* open: not 16 to 65,536 words */
  KIOSKBASIL_NO_MEMORY = 37,      /* open, fork: memory was refused */
  KIOSKBASIL_PUT_CLOSED = 38,     /* put, carry: a close or a leave was accepted, or the order is
                                     known to have ended */
  KIOSKBASIL_PUT_BUSY = 39,       /* put, carry: the batch is on its way; carry: the sender that is
                                     carried from has begun a tenure */
  KIOSKBASIL_PUT_TOO_LONG = 40,   /* put: more than 56 bytes; kioskbasil_put_long: more than 880 */
  KIOSKBASIL_PUT_BATCH_FULL = 41, /* put, carry: more messages would wait than a batch of the bus
                                     may have */
  KIOSKBASIL_CLOSE_CLOSED = 42,   /* close, leave: one was accepted, or the order is known to have
                                     ended */
  KIOSKBASIL_CLOSE_BUSY = 43,     /* close, leave: the batch is on its way */
  KIOSKBASIL_CLOSE_PENDING = 44,  /* close, leave: messages wait */
  KIOSKBASIL_IN_USE = 45,         /* end: other handles have the bus still */
  KIOSKBASIL_PAGE_OUT = 46,       /* end: a sender that took the page has not given it back */
  KIOSKBASIL_EMPTY_HANDLE = 47,   /* the handle is empty */
  KIOSKBASIL_NULL = 48,           /* a pointer is NULL; of this header alone */
  KIOSKBASIL_NOT_ENDED = 49,      /* open_after, senders_page: the order of the bus before has not
                                     ended */
  KIOSKBASIL_NUMBERS_USED = 50,   /* open_after: a next number is 2^48 - 65,536 or more; of a ring
                                     with batches of B messages 2^48 - B * (2^40 + 1) or more */
  KIOSKBASIL_OTHER_BUS = 51,      /* tell, meet, senders_page: the handles are of two buses */
  KIOSKBASIL_UNANSWERED = 52,     /* senders_page: a sender was not answered CLOSED or LEFT yet, or
                                     the handles are not those of all senders in their order */
  KIOSKBASIL_NEVER_FITS = 53,     /* has_room, try_send: the batch is longer than the log, which is
                                     no ring */
  KIOSKBASIL_NO_SEAT = 54,        /* fork: of a ring, each number above the receiver's own was
                                     taken when it was tried */
  KIOSKBASIL_USED_HANDLE = 55,    /* fork: the handle that is to be filled is not empty */
  KIOSKBASIL_BAD_BATCH = 56,      /* open: of a ring not 1 to 64 messages of a batch, else not 16 */
  KIOSKBASIL_SHORT_RING = 57      /* open: the log of a ring has fewer words than its longest frame,
                                     which is 1 + 8 B for batches of B messages: 513 for 64 */
};

/* A code of 32 or more says that nothing was done, but of three calls. After IN_USE and PAGE_OUT of
 * kioskbasil_end all its handles are empty, and where the first receiver was empty the others are
 * given up. Before NEVER_FITS of kioskbasil_try_send turns were taken, and the batch is kept.
 * Before NO_MEMORY of kioskbasil_fork a number may have been taken, and given up. */
static inline bool kioskbasil_refused(uint32_t code) { return code >= 32; }

/* Handles. Their fields are the library's. */
typedef struct kioskbasil_sender {
  void *at;
  uint32_t live;
} kioskbasil_sender;

typedef struct kioskbasil_receiver {
  void *at;
  uint32_t live;
} kioskbasil_receiver;

#define KIOSKBASIL_NONE {0, 0}

/* The sizes of a bus, but for the numbers of its senders and receivers. It starts as zeros
 * (`= {0}`), so that a field which is not set says no. */
typedef struct kioskbasil_sizes {
  uint64_t rounds;    /* rounds of one binary decision: 1 to 8; any is safe, 2 are usual */
  uint64_t rows;      /* tenures of the sitting, 1 to 256; where rows are used again 2 to 8; a batch
                         takes one, a close and a leave too */
  uint64_t log_words; /* words of the whole order, of a ring those that stand at once; 16 to 65,536,
                         of a ring with batches of B messages 1 + 8 B or more: a batch takes 1, a
                         message 1 and one for each 8 bytes begun, a close or a leave 2 */
  bool again;         /* 0 or 1: rows of words are used again, up to 2^40 tenures */
  bool ring;          /* 0 or 1: the words of the log are used again, and so are the rows, whatever
                         `again` says */
  uint64_t batch;     /* messages of one batch, at most: of a ring 1 to 64, and else 16. 0 says the
                         most, which are 64 of a ring and 16 of another bus */
} kioskbasil_sizes;

/* What an answer to a turn of a sender says beside its code; 0 where that says nothing. */
typedef struct kioskbasil_turn_answer {
  uint64_t tenure;
  uint64_t first;
  uint64_t last;
  uint8_t sender;
} kioskbasil_turn_answer;

/* A message of the order. */
typedef struct kioskbasil_item {
  uint64_t number;                      /* among the messages of its sender, from its base on */
  uint8_t sender;
  uint8_t length;                       /* at most 56 */
  uint8_t bytes[KIOSKBASIL_MOST_BYTES]; /* zeros behind its bytes */
} kioskbasil_item;

/* What an answer to a turn of a receiver says beside its code; 0 where that says nothing. */
typedef struct kioskbasil_heard {
  uint64_t tenure;
  uint8_t owner;
  kioskbasil_item item;
} kioskbasil_heard;

/* What a sender shows. */
typedef struct kioskbasil_sender_shown {
  uint64_t pending;     /* messages in its batch, at most as many as that may have */
  uint64_t next_number; /* the number that its next message gets */
  uint64_t words;       /* the last length of the log that it has stored */
  uint64_t turns_left;  /* turns of its election, at most; 0 where none is begun */
  uint8_t number;       /* its own number, from 0 on */
  bool is_closed;       /* it sends nothing more; false as long as its close or leave waits: so it
                           is leaving while its leave was OK and this is false */
  bool wants_word;      /* its next turn uses its random word */
} kioskbasil_sender_shown;

/* What a receiver shows. */
typedef struct kioskbasil_receiver_shown {
  uint64_t known;  /* words of the log that it knows */
  uint64_t place;  /* words of the log that it has read */
  bool has_ended;  /* the end was among its answers */
  uint64_t passed; /* of a ring: words that may be used again, as far as this one is concerned; 0
                      of another bus. So it shows who is behind. It passes a frame once it is asked
                      again behind the frame's last item */
} kioskbasil_receiver_shown;

/* What a bus leaves behind, beside the words of its log. It is plain numbers, which may be copied
 * and kept. */
typedef struct kioskbasil_left {
  uint64_t counts[KIOSKBASIL_MOST_SENDERS]; /* items of each sender in the order */
  uint64_t bases[KIOSKBASIL_MOST_SENDERS];  /* the number of its first item: 0 after
                                               kioskbasil_open */
  uint64_t next[KIOSKBASIL_MOST_SENDERS];   /* the number that its next item would have: its base
                                               and its count */
  uint64_t words;                           /* words of the whole order */
  uint64_t tenures;                         /* tenures that have ended */
  bool ended;                               /* the order has ended */
  bool gone[KIOSKBASIL_MOST_SENDERS];       /* each sender has left in the order */
  uint64_t floor;                           /* of a ring: from which of them on they stand; 0 of
                                               another bus */
} kioskbasil_left;

/* ---- the archive */
uint32_t bus_c_open(const kioskbasil_sizes *sizes,
                    kioskbasil_sender *senders, size_t sender_count,
                    kioskbasil_receiver *receivers, size_t receiver_count);
uint32_t bus_c_open_after(const kioskbasil_sizes *sizes, const kioskbasil_left *left,
                          kioskbasil_sender *senders, size_t sender_count,
                          kioskbasil_receiver *receivers, size_t receiver_count);
uint32_t bus_c_put(kioskbasil_sender *sender, const uint8_t *bytes, size_t length,
                   uint64_t *number);
uint32_t bus_c_close(kioskbasil_sender *sender);
uint32_t bus_c_leave(kioskbasil_sender *sender);
uint32_t bus_c_carry(kioskbasil_sender *sender, kioskbasil_sender *next);
uint32_t bus_c_turn(kioskbasil_sender *sender, uint32_t word, kioskbasil_turn_answer *answer);
uint32_t bus_c_turns(kioskbasil_sender *sender, uint32_t word, uint64_t more,
                     kioskbasil_turn_answer *answer);
uint32_t bus_c_sender(kioskbasil_sender *sender, kioskbasil_sender_shown *shown);
uint32_t bus_c_sender_bus(kioskbasil_sender *sender, const uint8_t **place);
uint32_t bus_c_begin_page(kioskbasil_sender *sender, uint64_t senders, kioskbasil_left *left);
uint32_t bus_c_note_sender(kioskbasil_sender *sender, uint64_t number, kioskbasil_left *left);
uint32_t bus_c_finish(kioskbasil_sender *sender, kioskbasil_turn_answer *answer);
uint32_t bus_c_has_room(kioskbasil_sender *sender);
void bus_c_free_sender(kioskbasil_sender *sender);
uint32_t bus_c_hear_once(kioskbasil_receiver *receiver, kioskbasil_heard *answer);
uint32_t bus_c_hear(kioskbasil_receiver *receiver, kioskbasil_item *items, size_t room,
                    uint64_t looks, size_t *many);
uint32_t bus_c_receiver(kioskbasil_receiver *receiver, kioskbasil_receiver_shown *shown);
uint32_t bus_c_receiver_bus(kioskbasil_receiver *receiver, const uint8_t **place);
uint32_t bus_c_tell(kioskbasil_receiver *receiver, kioskbasil_sender *sender, bool of_one_bus);
uint32_t bus_c_meet(kioskbasil_receiver *receiver, kioskbasil_receiver *other, bool of_one_bus,
                    int32_t *order);
uint32_t bus_c_fork(kioskbasil_receiver *receiver, kioskbasil_receiver *joined);
void bus_c_free_receiver(kioskbasil_receiver *receiver);
uint32_t bus_c_end(kioskbasil_receiver *receiver, uint64_t *log, size_t room,
                   kioskbasil_left *left);

/* ---- what a sitting takes of a bus that is no ring; sums of this header alone, which answer
 * UINT64_MAX where 64 bits cannot count it */
static inline uint64_t kioskbasil_plus(uint64_t a, uint64_t b) {
  return a > UINT64_MAX - b ? UINT64_MAX : a + b;
}

static inline uint64_t kioskbasil_times(uint64_t a, uint64_t b) {
  return b && a > UINT64_MAX / b ? UINT64_MAX : a * b;
}

static inline uint64_t kioskbasil_batches(uint64_t messages) {
  return messages / KIOSKBASIL_LOG_MESSAGES + (messages % KIOSKBASIL_LOG_MESSAGES != 0);
}

/* How many tenures a sitting takes in which each of so many senders sends so many messages, in
 * batches of 16 of which the last may be smaller, and one closes: the `rows` of its sizes, where
 * rows are not used again. A leave takes one more. */
static inline uint64_t kioskbasil_tenures_needed(uint64_t senders, uint64_t messages) {
  return kioskbasil_plus(kioskbasil_times(senders, kioskbasil_batches(messages)), 1);
}

/* How many words of the log such a sitting takes where each message has so many bytes: the
 * `log_words` of its sizes, at least 16. A leave takes two more. */
static inline uint64_t kioskbasil_words_needed(uint64_t senders, uint64_t messages,
                                               uint64_t bytes) {
  uint64_t each = 1 + bytes / 8 + (bytes % 8 != 0);
  uint64_t words = kioskbasil_plus(kioskbasil_batches(messages), kioskbasil_times(messages, each));
  return kioskbasil_plus(kioskbasil_times(senders, words), 2);
}

/* How many words of a log of so many may be in use when one of so many senders begins a batch or a
 * leave, so that the end mark still fits, whatever the others do; 0 where there is no such number.
 * So each sender looks at its own `words` (kioskbasil_show_sender) right before it puts or leaves,
 * and begins nothing above this number. Of a ring there is no such number, and none is needed: its
 * end mark fits once the receivers have passed. */
static inline uint64_t kioskbasil_room_to_close(uint64_t log_words, uint64_t senders) {
  uint64_t kept = kioskbasil_plus(2, kioskbasil_times(senders, 129));
  return log_words > kept ? log_words - kept : 0;
}

/* Opens a bus of these sizes, with as many senders and receivers as there are handles, and fills
 * these in the order of their numbers. What a handle held is given up, without the turns of
 * kioskbasil_finish. All memory is taken here.
 * KIOSKBASIL_OK, or BAD_SENDERS, BAD_RECEIVERS, BAD_ROUNDS, BAD_ROWS, BAD_LOG_WORDS, BAD_BATCH,
 * SHORT_RING or NO_MEMORY, the first whose cause holds, and then no handle is changed. */
static inline uint32_t kioskbasil_open(const kioskbasil_sizes *sizes,
                                       kioskbasil_sender *senders, size_t sender_count,
                                       kioskbasil_receiver *receivers, size_t receiver_count) {
  if (!sizes || !senders || !receivers) return KIOSKBASIL_NULL;
  return bus_c_open(sizes, senders, sender_count, receivers, receiver_count);
}

/* The same of a bus whose log is a ring, whatever sizes->ring and sizes->again say: its words and
 * its rows are used again. The rule of RINGS, above, is for all that hear it. */
static inline uint32_t kioskbasil_open_ring(const kioskbasil_sizes *sizes,
                                            kioskbasil_sender *senders, size_t sender_count,
                                            kioskbasil_receiver *receivers,
                                            size_t receiver_count) {
  kioskbasil_sizes ring;
  if (!sizes || !senders || !receivers) return KIOSKBASIL_NULL;
  ring = *sizes;
  ring.ring = true;
  return bus_c_open(&ring, senders, sender_count, receivers, receiver_count);
}

/* Opens the next sitting, as kioskbasil_open: a bus whose senders go on with the next numbers of
 * the bus that left *left. Nothing else of that bus is carried over: its log and its tenures are
 * not, and a message that waited in a batch has to be put anew, as kioskbasil_carry does. The sizes
 * and the numbers of handles may be others, and either bus may be a ring, use its rows again, or
 * neither. *left is only read, and may be used for more buses than one.
 * KIOSKBASIL_OK, or what kioskbasil_open refuses; where the sizes are good NOT_ENDED if left->ended
 * is false, else NUMBERS_USED if one of the 64 next numbers is 2^48 - 65,536 or more, or of a ring
 * with batches of B messages 2^48 - B * (2^40 + 1) or more, else NO_MEMORY; the first whose cause
 * holds, and then no handle is changed.
 * Nothing checks that kioskbasil_end filled *left: the numbers go on from left->next, whatever it
 * has. left->ended and each of left->gone have to be 0 or 1, and no handle may lie inside *left.
 * Who had left is there again. */
static inline uint32_t kioskbasil_open_after(const kioskbasil_sizes *sizes,
                                             const kioskbasil_left *left,
                                             kioskbasil_sender *senders, size_t sender_count,
                                             kioskbasil_receiver *receivers,
                                             size_t receiver_count) {
  if (!sizes || !left || !senders || !receivers) return KIOSKBASIL_NULL;
  return bus_c_open_after(sizes, left, senders, sender_count, receivers, receiver_count);
}

/* Appends a message of at most 56 bytes to the sender's batch. Takes no step. A batch comes into
 * the order as one frame, with nothing of another sender in between. What is longer goes by
 * kioskbasil_put_long of examples/c/long.h, in a release kioskbasil_long.h.
 * KIOSKBASIL_OK, and its number among the messages of this sender, from its base on, in *number
 * (which may be NULL); or PUT_CLOSED, PUT_BUSY, PUT_TOO_LONG or PUT_BATCH_FULL, the first whose
 * cause holds, and then nothing is changed. `bytes` may be NULL where `length` is 0. */
static inline uint32_t kioskbasil_put(kioskbasil_sender *sender, const void *bytes, size_t length,
                                      uint64_t *number) {
  uint64_t own = 0;
  uint8_t none = 0;
  if (!sender || (!bytes && length)) return KIOSKBASIL_NULL;
  return bus_c_put(sender, bytes ? (const uint8_t *)bytes : &none, length, number ? number : &own);
}

/* Lets an end mark wait, which ends the order once turns have sent it. Takes no step.
 * KIOSKBASIL_OK, or CLOSE_CLOSED, CLOSE_BUSY or CLOSE_PENDING, the first whose cause holds, and
 * then nothing is changed. */
static inline uint32_t kioskbasil_close(kioskbasil_sender *sender) {
  if (!sender) return KIOSKBASIL_NULL;
  return bus_c_close(sender);
}

/* Lets a leave mark wait, which says in the order that this sender has left once turns have sent
 * it: that is answered KIOSKBASIL_LEFT, and nothing of this sender follows. The others go on. It is
 * there again in a next sitting. Where the order has ended before, turns answer CLOSED and there is
 * no mark. Takes no step.
 * KIOSKBASIL_OK, or CLOSE_CLOSED, CLOSE_BUSY or CLOSE_PENDING, the first whose cause holds, and
 * then nothing is changed. */
static inline uint32_t kioskbasil_leave(kioskbasil_sender *sender) {
  if (!sender) return KIOSKBASIL_NULL;
  return bus_c_leave(sender);
}

/* Puts the messages that wait in the batch of `sender` into that of `next`, in their order and
 * behind what waits there; they wait with `sender` too. So what was not sent in one sitting goes on
 * in the next: if it is put first into the next sender of this number, each message gets the number
 * that it was answered before. `next` may be of any bus. Takes no step.
 * PUT_BUSY while `sender` has begun a tenure, as it has after BEHIND, and `next` is another handle:
 * its messages may stand in the order already, or come into it by kioskbasil_finish. Else
 * KIOSKBASIL_OK where none waits; PUT_BATCH_FULL where they do not fit beside what waits there;
 * PUT_CLOSED or PUT_BUSY as a put into `next` would be; or KIOSKBASIL_OK. Unless it is OK nothing is
 * changed. EMPTY_HANDLE where either is empty. One handle may be given twice: its messages wait
 * there already, and it is OK and changes nothing. */
static inline uint32_t kioskbasil_carry(kioskbasil_sender *sender, kioskbasil_sender *next) {
  kioskbasil_sender_shown own;
  if (!sender || !next) return KIOSKBASIL_NULL;
  if (sender == next) return bus_c_sender(sender, &own);
  return bus_c_carry(sender, next);
}

/* One turn: at most one step on one word of the bus. `word` is a random word, which a vote of a
 * coin uses; other steps do not look at it. No word, however bad, breaks what is promised; bad ones
 * cost steps.
 * The answer, IDLE to BEHIND or LEFT, and what it says in *answer (which may be NULL). */
static inline uint32_t kioskbasil_turn(kioskbasil_sender *sender, uint32_t word,
                                       kioskbasil_turn_answer *answer) {
  kioskbasil_turn_answer own;
  if (!sender) return KIOSKBASIL_NULL;
  return bus_c_turn(sender, word, answer ? answer : &own);
}

/* A turn with this random word, and then turns that use none, up to the first that is not answered
 * GOING: so the border is crossed once for many of them. The answer of the last turn, and what it
 * says in *answer (which may be NULL). GOING says that the next turn uses a random word: call again
 * with another. It waits for nobody. */
static inline uint32_t kioskbasil_turns(kioskbasil_sender *sender, uint32_t word,
                                        kioskbasil_turn_answer *answer) {
  kioskbasil_turn_answer own;
  if (!sender) return KIOSKBASIL_NULL;
  return bus_c_turns(sender, word, UINT64_MAX, answer ? answer : &own);
}

/* Looks whether a batch that waits has room: one load of the length, and of a ring one of each
 * receiver's passed place. It is no turn, and changes nothing.
 * KIOSKBASIL_OK where it had room by these words, FULL where it had none, NEVER_FITS where it is
 * longer than the log; or EMPTY_HANDLE. OK is no promise: another sender may take that room first.
 * Of a bus that is no ring FULL is for good. It says nothing of use where nothing waits, or after
 * BEHIND, and it does not see that the order has ended: a turn does. */
static inline uint32_t kioskbasil_has_room(kioskbasil_sender *sender) {
  if (!sender) return KIOSKBASIL_NULL;
  return bus_c_has_room(sender);
}

/* Turns, until there is nothing more to do, or nothing more that can be done without another: it
 * waits for nobody. Each random word is asked of word(given).
 * The last answer, and what it says in *answer (which may be NULL):
 * - DELIVERED or LEFT: it stands in the order.
 * - IDLE, CLOSED or SPENT: there is nothing more to do, or nothing more that can be done.
 * - FULL: there was no room. Of a ring the receivers have to hear before a later call finds some,
 *   and each FULL takes a tenure: so hear until kioskbasil_has_room is OK, or the order has ended.
 * - NEVER_FITS in place of FULL: the batch is longer than the log, so this is for good.
 * - WAITING: another sender has to go on first.
 * - BEHIND: the same, but this sender holds the page, for which all others wait, and its batch may
 *   be in the order already. So hear, do not wait, and come back; and send it by no other way.
 * Unless it is DELIVERED or LEFT the batch is kept, and a later call goes on with it. */
static inline uint32_t kioskbasil_try_send(kioskbasil_sender *sender,
                                           uint32_t (*word)(void *given), void *given,
                                           kioskbasil_turn_answer *answer) {
  uint32_t code;
  if (!sender || !word) return KIOSKBASIL_NULL;
  do {
    code = kioskbasil_turns(sender, word(given), answer);
  } while (code == KIOSKBASIL_GOING || code == KIOSKBASIL_LOST || code == KIOSKBASIL_OWN);
  if (code == KIOSKBASIL_FULL && bus_c_has_room(sender) == KIOSKBASIL_NEVER_FITS)
    code = KIOSKBASIL_NEVER_FITS;
  return code;
}

/* What the sender shows. Takes no step, and changes nothing. */
static inline uint32_t kioskbasil_show_sender(kioskbasil_sender *sender,
                                              kioskbasil_sender_shown *shown) {
  if (!sender || !shown) return KIOSKBASIL_NULL;
  return bus_c_sender(sender, shown);
}

/* What a sitting leaves whose order has ended, by all senders of its bus, in their order, once
 * each was answered CLOSED or LEFT. They stay as they are: so open the next sitting after *left,
 * carry to it what waits with them, and give them up then. It has for each sender left->next, the
 * number with which that goes on, left->bases, and that the order has ended. left->counts, words,
 * tenures and gone are 0: these senders do not tell them.
 * KIOSKBASIL_OK; or NULL where there is no sender, EMPTY_HANDLE, OTHER_BUS, UNANSWERED or NOT_ENDED
 * (none of them has closed it), and then *left is not changed. */
static inline uint32_t kioskbasil_senders_page(kioskbasil_sender *senders, size_t sender_count,
                                               kioskbasil_left *left) {
  const uint8_t *first = NULL, *other = NULL;
  kioskbasil_left made;
  uint32_t code;
  if (!senders || !sender_count || !left) return KIOSKBASIL_NULL;
  memset(&made, 0, sizeof made);
  bus_c_sender_bus(&senders[0], &first);
  code = bus_c_begin_page(&senders[0], sender_count, &made);
  for (size_t i = 0; i < sender_count && code == KIOSKBASIL_OK; i++) {
    code = bus_c_sender_bus(&senders[i], &other);
    if (code == KIOSKBASIL_OK && other != first) code = KIOSKBASIL_OTHER_BUS;
    if (code == KIOSKBASIL_OK) code = bus_c_note_sender(&senders[i], i, &made);
  }
  if (code == KIOSKBASIL_OK && !made.ended) code = KIOSKBASIL_NOT_ENDED;
  if (code == KIOSKBASIL_OK) *left = made;
  return code;
}

/* The turns that are left of the tenure that the sender has begun, so that no other waits for it:
 * for a thread that fails or turns to something else after GOING, OWN or BEHIND. It begins no
 * tenure, waits for nobody, and takes at most the words of a frame, of a row and of its election,
 * the presences, and a few turns more. Its votes go by a generator of the handle's own.
 * KIOSKBASIL_OK where it had begun none, and then no turn is taken and *answer is not changed. Else
 * the answer of the last turn, and what that says in *answer (which may be NULL): DELIVERED or LEFT;
 * LOST, WAITING (it came too late for the tenure) or FULL, and its batch is kept; CLOSED; or BEHIND,
 * where another sender's pin is in the way: it holds the page still, and may be asked again. */
static inline uint32_t kioskbasil_finish(kioskbasil_sender *sender,
                                         kioskbasil_turn_answer *answer) {
  kioskbasil_turn_answer own;
  if (!sender) return KIOSKBASIL_NULL;
  return bus_c_finish(sender, answer ? answer : &own);
}

/* Gives the handle up, after the turns of kioskbasil_finish; it is empty then. What did not come
 * into the order goes with it. That ends no order, also not of the last one: a receiver goes on
 * answering EMPTY. kioskbasil_close and the turns behind it end the order.
 * What kioskbasil_finish answers, or KIOSKBASIL_OK for an empty handle or NULL. After BEHIND the
 * page is out: all others are answered WAITING or BEHIND for good, and kioskbasil_end answers
 * PAGE_OUT. So where rows are used again, ask kioskbasil_finish as long as it answers that, while
 * the other sender goes on. */
static inline uint32_t kioskbasil_free_sender(kioskbasil_sender *sender) {
  uint32_t code = kioskbasil_finish(sender, NULL);
  if (kioskbasil_refused(code)) return KIOSKBASIL_OK;
  bus_c_free_sender(sender);
  return code;
}

/* One turn: one load, or of a ring, behind a whole frame, one store by which its words may be used
 * again. The answer, EMPTY, HEAD, ITEM, LEAVE, END or GOING, and what it says in *answer. */
static inline uint32_t kioskbasil_hear_once(kioskbasil_receiver *receiver,
                                            kioskbasil_heard *answer) {
  if (!receiver || !answer) return KIOSKBASIL_NULL;
  return bus_c_hear_once(receiver, answer);
}

/* Turns up to the first that is answered EMPTY or END, which is the answer, or GOING where there is
 * no more room. Items are written to items[0], items[1], .. in their order, and how many they are
 * to *many. Places behind these are not changed. Of a ring: after GOING the frame of the last item
 * may not be passed yet, and the next call passes it. That a sender has left is passed over, as the
 * heads of frames are: whoever wants to know at which place of the order calls
 * kioskbasil_hear_once, and kioskbasil_end says it of the whole. */
static inline uint32_t kioskbasil_hear(kioskbasil_receiver *receiver, kioskbasil_item *items,
                                       size_t room, size_t *many) {
  if (!receiver || !items || !many) return KIOSKBASIL_NULL;
  return bus_c_hear(receiver, items, room, UINT64_MAX, many);
}

/* What the receiver shows. Takes no step, and changes nothing. */
static inline uint32_t kioskbasil_show_receiver(kioskbasil_receiver *receiver,
                                                kioskbasil_receiver_shown *shown) {
  if (!receiver || !shown) return KIOSKBASIL_NULL;
  return bus_c_receiver(receiver, shown);
}

/* A sender tells a receiver of its bus of the log: from then on the receiver knows all that the
 * sender has published. Three loads; the sender stays as it was.
 * KIOSKBASIL_OK; or EMPTY_HANDLE, or OTHER_BUS, and then nothing is changed. */
static inline uint32_t kioskbasil_tell(kioskbasil_receiver *receiver, kioskbasil_sender *sender) {
  const uint8_t *hears = NULL, *sends = NULL;
  if (!receiver || !sender) return KIOSKBASIL_NULL;
  bus_c_receiver_bus(receiver, &hears);
  bus_c_sender_bus(sender, &sends);
  return bus_c_tell(receiver, sender, hears == sends);
}

/* Two receivers of one bus meet: from then on both know the log up to the length that is loaded.
 * How their places compare is written to *order (which may be NULL): -1 where `receiver` has read
 * fewer words than `other`, 0 where they have read as many, 1 where it has read more. Three loads.
 * KIOSKBASIL_OK; or EMPTY_HANDLE, or OTHER_BUS, and then nothing is changed. One receiver may be
 * given twice: that is OK with the order 0, and changes nothing else. */
static inline uint32_t kioskbasil_meet(kioskbasil_receiver *receiver, kioskbasil_receiver *other,
                                       int32_t *order) {
  const uint8_t *hears = NULL, *theirs = NULL;
  int32_t own = 0;
  if (!receiver || !other) return KIOSKBASIL_NULL;
  if (receiver == other) {
    kioskbasil_receiver_shown shown;
    uint32_t code = bus_c_receiver(receiver, &shown);
    if (code == KIOSKBASIL_OK && order) *order = 0;
    return code;
  }
  bus_c_receiver_bus(receiver, &hears);
  bus_c_receiver_bus(other, &theirs);
  return bus_c_meet(receiver, other, hears == theirs, order ? order : &own);
}

/* Fills `joined`, which is empty, with another receiver of the same bus, which goes on from where
 * `receiver` stands: it hears just what `receiver` will hear. Both are of one thread during the
 * call; then each goes where it likes.
 * Of a ring it has the lowest number above that of `receiver` that is free, as one is whose
 * receiver has left. Each is tried by one step, up to the first that is free. So a program keeps
 * numbers for later: it opens a ring with more receivers than it needs, and gives the last ones up
 * at the start. Of another bus there is always one more.
 * KIOSKBASIL_OK; EMPTY_HANDLE; USED_HANDLE where `joined` is not empty; NO_SEAT where each such
 * number was taken when it was tried; NO_MEMORY, and then a number that it took is free again.
 * Unless it is OK `joined` is as it was, and `receiver` hears on as before. */
static inline uint32_t kioskbasil_fork(kioskbasil_receiver *receiver,
                                       kioskbasil_receiver *joined) {
  if (!receiver || !joined) return KIOSKBASIL_NULL;
  if (receiver == joined) {
    kioskbasil_receiver_shown shown;
    uint32_t code = bus_c_receiver(receiver, &shown);
    if (code == KIOSKBASIL_OK) code = KIOSKBASIL_USED_HANDLE;
    return code;
  }
  return bus_c_fork(receiver, joined);
}

/* Gives the handle up; it is empty then. Of a ring the receiver leaves, by one store: no sender
 * waits for it any more, and its number is free for kioskbasil_fork. */
static inline void kioskbasil_free_receiver(kioskbasil_receiver *receiver) {
  if (receiver) bus_c_free_receiver(receiver);
}

/* Ends the bus. Each sender takes the turns of kioskbasil_finish. Then it gives up all these
 * handles, which have to be all that are left of one bus, those of kioskbasil_fork too, and ends
 * the bus by the first receiver: all handles are empty then, whatever the answer but NULL, which
 * changes nothing.
 * KIOSKBASIL_OK: the first words of the log stand in `log`, as many as it has room for (`log` may
 * be NULL where `room` is 0; docs/FORMATS.md says what they are), and the rest in *left. Of a ring
 * they are the words from left->floor on, which is not past what the first receiver has passed, and
 * there are left->words - left->floor of them; the counts are of the whole order. IN_USE: other
 * handles had the bus still, and the bus goes with the last of them (of a ring this receiver has
 * left). PAGE_OUT: a sender that took the page had been given up before, and not given it back, and
 * the bus is gone. EMPTY_HANDLE: the first receiver was empty. */
static inline uint32_t kioskbasil_end(kioskbasil_sender *senders, size_t sender_count,
                                      kioskbasil_receiver *receivers, size_t receiver_count,
                                      uint64_t *log, size_t room, kioskbasil_left *left) {
  uint64_t none = 0;
  if ((!senders && sender_count) || !receivers || !receiver_count) return KIOSKBASIL_NULL;
  if ((!log && room) || !left) return KIOSKBASIL_NULL;
  for (size_t i = 0; i < sender_count; i++) kioskbasil_finish(&senders[i], NULL);
  for (size_t i = 0; i < sender_count; i++) kioskbasil_free_sender(&senders[i]);
  for (size_t i = 1; i < receiver_count; i++) bus_c_free_receiver(&receivers[i]);
  return bus_c_end(&receivers[0], log ? log : &none, log ? room : 0, left);
}

/* A code in words. */
static inline const char *kioskbasil_text(uint32_t code) {
  switch (code) {
  case KIOSKBASIL_OK: return "done";
  case KIOSKBASIL_IDLE: return "idle";
  case KIOSKBASIL_WAITING: return "waiting";
  case KIOSKBASIL_GOING: return "going";
  case KIOSKBASIL_LOST: return "lost";
  case KIOSKBASIL_OWN: return "own";
  case KIOSKBASIL_DELIVERED: return "delivered";
  case KIOSKBASIL_FULL: return "full";
  case KIOSKBASIL_CLOSED: return "closed";
  case KIOSKBASIL_SPENT: return "spent";
  case KIOSKBASIL_BEHIND: return "behind";
  case KIOSKBASIL_EMPTY: return "empty";
  case KIOSKBASIL_HEAD: return "head";
  case KIOSKBASIL_ITEM: return "item";
  case KIOSKBASIL_END: return "end";
  case KIOSKBASIL_LEFT: return "left";
  case KIOSKBASIL_LEAVE: return "leave";
  case KIOSKBASIL_NOT_LONG: return "no long message";
  case KIOSKBASIL_BAD_SENDERS: return "a bus has 1 to 64 senders";
  case KIOSKBASIL_BAD_RECEIVERS: return "a bus has 1 to 64 receivers";
  case KIOSKBASIL_BAD_ROUNDS: return "a bus has 1 to 8 rounds";
  case KIOSKBASIL_BAD_ROWS: return "a bus has 1 to 256 rows, used again 2 to 8";
  case KIOSKBASIL_BAD_LOG_WORDS: return "a log has 16 to 65,536 words";
  case KIOSKBASIL_NO_MEMORY: return "memory was refused";
  case KIOSKBASIL_PUT_CLOSED: return "no message is taken: closed";
  case KIOSKBASIL_PUT_BUSY: return "no message is taken: the batch is on its way";
  case KIOSKBASIL_PUT_TOO_LONG: return "no message is taken: more than 56 bytes, of a long one 880";
  case KIOSKBASIL_PUT_BATCH_FULL: return "no message is taken: more would wait than a batch has";
  case KIOSKBASIL_CLOSE_CLOSED: return "no close or leave is taken: closed";
  case KIOSKBASIL_CLOSE_BUSY: return "no close or leave is taken: the batch is on its way";
  case KIOSKBASIL_CLOSE_PENDING: return "no close or leave is taken: messages wait";
  case KIOSKBASIL_IN_USE: return "other handles have the bus still";
  case KIOSKBASIL_PAGE_OUT: return "a sender has not given the page back";
  case KIOSKBASIL_EMPTY_HANDLE: return "the handle is empty";
  case KIOSKBASIL_NULL: return "a pointer is NULL";
  case KIOSKBASIL_NOT_ENDED: return "the order of the bus before has not ended";
  case KIOSKBASIL_NUMBERS_USED: return "the numbers of a sender are used up";
  case KIOSKBASIL_OTHER_BUS: return "the handles are of two buses";
  case KIOSKBASIL_UNANSWERED: return "a sender was not answered that the order has ended";
  case KIOSKBASIL_NEVER_FITS: return "the batch is longer than the log";
  case KIOSKBASIL_NO_SEAT: return "each number above the receiver's own was taken";
  case KIOSKBASIL_USED_HANDLE: return "the handle is not empty";
  case KIOSKBASIL_BAD_BATCH: return "a batch has 1 to 64 messages, without a ring 16";
  case KIOSKBASIL_SHORT_RING:
    return "a ring shorter than its longest frame: one word, and eight a message";
  default: return "no code of this version";
  }
}

#ifdef __cplusplus
}
#endif
#endif
