/* The protocol of docs/PROTOCOL.md in Promela, for SPIN: a second opinion. It shares no line with the program or its proofs.
 *
 * How to read it. A process is a `do` over what its next step may be, and `k` is the kind of that step, by its name in
 * docs/PROTOCOL.md. The branch of a kind is one turn: one LOAD, STORE, ADD or EXCHANGE of one shared word, and what the process
 * makes of it by itself. It is a `d_step`, but for `Vote`, which is `atomic` since a vote is a free choice: SPIN tries every
 * sequence of coins. So nobody comes into a turn, and SPIN tries every order of turns. What is put, a stop, `Spent` without a
 * step, and `Done` have branches too, which touch no shared word. Behind each `assert` stands the claim that it is of, by its
 * name in README.md. Ghosts are read by claims alone.
 *
 * The shape, by -D:
 *   SENDERS 1 to 4, RECEIVERS 0 to 2, ROUNDS of a decision, TENURES, LOG_WORDS
 *   ROWS           so many rows are used again; left out: a row for each tenure
 *   RING           the words of the log are used again too: the log is a ring of LOG_WORDS cells. With receivers; ROWS is 2 if left out
 *   GONE           with RING: mask of receivers that may leave for good at any moment; not with NEXT_SITTING
 *   VOTES          own votes in one coin, and BARRIER (the program: 64, and 2 * SENDERS)
 *   MESSAGES       of each sender, each of them a frame of two words, put once the one before is delivered
 *   CLOSER         this sender closes behind its messages; with CLOSE_LAST behind everybody's
 *   CLOSE_ANY      each sender may close in place of any of its messages
 *   LEAVERS        mask of senders that leave behind their messages; with CLOSE_ANY that may leave in place of any
 *   NEXT_SITTING   once the order has ended, a second sitting goes on with the numbers of its page
 *   STOPPERS       mask of senders that may stop for good before any step; STOP_AT: before a step of this kind alone
 *   COUNT_TURNS    own turns of an election are counted, and held against MOST_TURNS
 *   COME_ROUND     tenures are counted modulo TENURES, so that there is no last one
 *   ENDLESS        with COME_ROUND: senders without end, and no log
 *   CLAIMS         with the formulas at the end; WITHOUT_CASE: three_cases without the first, second or third of its cases
 *   LOSSES         with ENDLESS: losses of sender 1 are noted
 *   HARM           without the claims on who stands in which row, on the row that opens, and of a ring on room, floors and passed
 *                  words, so that a wrong protocol shows what follows from that
 *   SHORTEST       for a search by breadth, which finds a shortest trail
 *   TELL, WIDE     for ./run and ./compare: a line for each step; counters with room for 64 votes
 *   NAP_AT         for ./compare: a sender may sleep before such a step
 * and WRONG_..: one change each, of a protocol that is wrong or looks wrong.
 */

#ifndef SENDERS
#define SENDERS 2
#endif
#ifndef RECEIVERS
#define RECEIVERS 1
#endif
#ifndef ROUNDS
#define ROUNDS 1
#endif
#ifndef MESSAGES
#define MESSAGES 1
#endif
#ifndef TENURES
#define TENURES 4
#endif
#ifndef VOTES
#define VOTES 2
#endif
#ifndef BARRIER
#define BARRIER 2
#endif
#ifndef LOG_WORDS
#define LOG_WORDS 16
#endif
#if defined(RING) && !defined(ROWS)
#define ROWS 2
#endif
#ifdef ROWS
#define AGAIN                /* rows are used again */
#else
#define ROWS TENURES
#endif
#if SENDERS == 1
#define BITS 0               /* of an owner's number */
#elif SENDERS == 2
#define BITS 1
#else
#define BITS 2
#endif

/* ------------------------------------------------------------------ the words */

#ifdef WIDE
#define WORD int
#define HEADS 65536          /* what one head adds to a counter */
#define TAG 1048576
#define OWNER 1024
#else
#define WORD byte
#define HEADS 16
#define TAG 64
#define OWNER 16
#endif

byte stage;                  /* 2t: tenure t is open; 2t+1: it is held */
byte length;                 /* how many log words are published */
WORD log_words[LOG_WORDS];   /* 0: never stored */
#ifdef AGAIN
byte presence[SENDERS];      /* 0, or 1+t */
#endif
#ifdef RING
byte passed[RECEIVERS];      /* the place before which it has heard all words, or PAST_ALL: it has left */
#define PAST_ALL 255
#define CELL(p) ((p)%LOG_WORDS)                /* where the log word of place p is */
#else
#define CELL(p) (p)
#endif

/* The row of a tenure: the announcements, and for each bit of an owner's number, the lowest first, one decision:
 * the ratifier of round 1 (input 0, input 1, proposal); for each further round a conciliator (mark 0, mark 1, counter)
 * and a ratifier; the fallback word. */
#define DECISION               (6*ROUNDS-2)
#define ROW                    (SENDERS + BITS*DECISION)
#define ROW_AT(t)              (((t)%ROWS)*ROW)
#define ANNOUNCEMENT(t,s)      (ROW_AT(t)+(s))
#define BIT_AT(t,b)            (ROW_AT(t)+SENDERS+(b)*DECISION)
#define INPUT(t,b,r,v)         (BIT_AT(t,b)+6*((r)-1)+(v))
#define PROPOSAL(t,b,r)        (BIT_AT(t,b)+6*((r)-1)+2)
#define MARK(t,b,r,v)          (BIT_AT(t,b)+6*((r)-1)-3+(v))
#define COUNTER(t,b,r)         (BIT_AT(t,b)+6*((r)-1)-1)
#define FALLBACK(t,b)          (BIT_AT(t,b)+6*ROUNDS-3)
WORD row_words[ROWS*ROW];

/* Words of the log. A frame is two words: a head, and a message, an end mark or a leave mark. */
#define FRAME 2
#define HEAD(o,t)     (TAG + OWNER*(o) + (t))
#define MESSAGE(n)    (2*TAG + (n))
#define END_MARK      (3*TAG)
#define LEAVE_MARK    (3*TAG + 1)
#define IS_HEAD(x)    ((x) >= TAG && (x) < 2*TAG)
#define IS_MESSAGE(x) ((x) >= 2*TAG && (x) < 3*TAG)
#define OWNER_OF(x)   (((x) % TAG) / OWNER)
#define TENURE_OF(x)  ((x) % OWNER)
#define NUMBER_OF(x)  ((x) % TAG)

/* The page in its slot: each sender's next number, whether the order has ended, the words of the log, and of a ring its floor. It is
 * no word: it moves with the steps TakePage and GivePageBack, and while a sender has it the slot is blank. */
bit  home = 1;
byte page_next[SENDERS];
bit  page_ended;
byte page_words;
#ifdef RING
byte page_floor;
#endif

/* ------------------------------------------------------------------ ghosts */

byte elected[TENURES+1];     /* 1 + whom those who saw the election of t end found */
byte announced[TENURES];     /* mask of who announced in t */
byte holders, holder;        /* how many have the page; 1 + who */
bit  taken;                  /* the page was taken in the tenure of the stage */
byte stands[SENDERS];        /* 1+t: it stands in t */
#ifdef NEXT_SITTING
#define ENTRIES (2*TENURES)
#elif defined(RING)
#define ENTRIES (SENDERS*(MESSAGES+1))         /* tenures may come round */
#else
#define ENTRIES TENURES
#endif
#define LEFT 128
byte order[ENTRIES];         /* the one order: 1 + 16*sender + number, or LEFT + sender */
byte entries;                /* .. and its length */
bit  ended, after_end;       /* it has ended; something was published behind the end */
bit  has_left[SENDERS];      /* its leave mark stands in the order */
byte has_put[SENDERS];       /* how many messages it has put, those of earlier sittings counted */
bit  has_stopped[SENDERS];
byte senders_done;           /* they have ended, left or stopped */
byte receivers_done;         /* they were given the end, or have left */
#ifdef RING
byte place_in[LOG_WORDS];    /* 1 + the place whose word stands in this cell */
#endif
#ifdef ENDLESS
bit  flip, flips[SENDERS];   /* changes with each delivery; with each of this sender */
bit  lost;                   /* changes with each Lost of sender 1 */
#endif
#ifdef NEXT_SITTING
bit  sitting, last_sitting;
byte base[SENDERS];          /* the numbers with which this sitting began */
#endif

byte least[SENDERS];         /* the first tenure that it may enter. A sender's own: no other reads it */
#ifdef SHORTEST
WORD x; int sum;
#else
hidden WORD x;               /* what one step makes use of, and nothing keeps */
hidden int sum;
#endif

/* ------------------------------------------------------------------ the steps on words */

#define me _pid
#define listener (_pid-SENDERS)
#ifdef TELL
#define SAY(...) printf(__VA_ARGS__)
#else
#define SAY(...) skip
#endif

#define LOAD_STAGE          x = stage; SAY("STEP sender %d %e stage 0 %d %d\n", me, k, x, x)
#define STORE_STAGE(y)      SAY("STEP sender %d %e stage 0 %d %d\n", me, k, stage, y); stage = y
#define LOAD_ROW(p)         x = row_words[p]; SAY("STEP sender %d %e row %d %d %d\n", me, k, p, x, x)
#define STORE_ROW(p,y)      SAY("STEP sender %d %e row %d %d %d\n", me, k, p, row_words[p], y); row_words[p] = y
#define ADD_ROW(p,y)        SAY("STEP sender %d %e row %d %d %d\n", me, k, p, row_words[p], row_words[p]+y); row_words[p] = row_words[p]+y
#define EXCHANGE_ROW(p,y)   SAY("STEP sender %d %e row %d %d %d\n", me, k, p, row_words[p], (row_words[p] == 0 -> y : row_words[p])); \
                            if :: row_words[p] == 0 -> row_words[p] = y :: else fi; x = row_words[p]
#define LOAD_PRESENCE(s)    x = presence[s]; SAY("STEP sender %d %e presence %d %d %d\n", me, k, s, x, x)
#define STORE_PRESENCE(y)   SAY("STEP sender %d %e presence %d %d %d\n", me, k, me, presence[me], y); presence[me] = y
#define STORE_LOG(p,y)      SAY("STEP sender %d %e log %d %d %d\n", me, k, CELL(p), log_words[CELL(p)], y); log_words[CELL(p)] = y
#define STORE_LENGTH(y)     SAY("STEP sender %d %e length 0 %d %d\n", me, k, length, y); length = y
#define LOAD_PASSED(r)      x = passed[r]; SAY("STEP sender %d %e passed %d %d %d\n", me, k, r, x, x)
#define HEAR_LENGTH         SAY("STEP receiver %d LoadLength length 0 %d %d\n", listener, length, length)
#define HEAR_LOG(p)         x = log_words[CELL(p)]; SAY("STEP receiver %d LoadLogWord log %d %d %d\n", listener, CELL(p), x, x)
#define STORE_PASSED(y)     SAY("STEP receiver %d StorePassed passed %d %d %d\n", listener, listener, passed[listener], y); \
                            passed[listener] = y

mtype = { LoadStage, Announce, WriteFirst, ReadFirst, WriteSecond, ReadSecond, SetMark, ReadOtherMark, Vote, ReadVotes,
          Fallback, ReadAnnouncement, TakePage, StoreLogWord, StoreLength, GivePageBack,
          Enter, LoadStageAgain, Withdraw, ReadPresence, ClearRow,
          ReadPassed,                                                    /* LoadLength, LoadLogWord, StorePassed are a receiver's */
          Put, Done, TestHome, Nap,                                      /* no steps: nothing put yet; at rest; of wrong protocols */
          Message, EndMark, LeaveMark,                                   /* what waits to be sent */
          Invalidated, Lost, Took, Delivered, Full, Ended }              /* how its tenure goes on or ends */

/* ------------------------------------------------------------------ tenures and shapes */

#ifdef COME_ROUND
#define NEXT(t)   (((t)+1)%TENURES)
#define PAST(s)   (least[me] == 1 + (s)/2)     /* tenures come round: past is the last one alone */
#define OLD(t)    (((t)+1+TENURES-ROWS)%TENURES)
#define REUSES(t) 1
#define SPENT(s)  0
#define NONE_LEFT 0
#else
#define NEXT(t)   ((t)+1)
#define PAST(s)   ((s)/2 < least[me])
#define OLD(t)    ((t)+1-ROWS)                 /* the tenure that had the row of t+1 before */
#define REUSES(t) ((t)+1 >= ROWS)
#define SPENT(s)  ((s)/2 >= TENURES)
#define NONE_LEFT (least[me] >= TENURES)
#endif

#ifdef CLOSER
#define CLOSES(s) ((s) == CLOSER)
#else
#define CLOSES(s) 0
#endif
#ifdef LEAVERS
#define LEAVES(s) ((LEAVERS >> (s)) & 1)
#else
#define LEAVES(s) 0
#endif
#ifdef CLOSE_LAST
#define MAY_GO (waits != EndMark || senders_done == SENDERS-1)
#else
#define MAY_GO 1
#endif
#ifdef NEXT_SITTING
#define MINE   (MESSAGES * (1 + mine))         /* how many messages it has sent once this sitting is over */
#else
#define MINE   MESSAGES
#endif

/* The bound S of docs/PROTOCOL.md with the votes of this model, and three turns more where rows are used again. */
#define S_BOUND (2 + BITS*(4*ROUNDS + (ROUNDS-1)*(2 + VOTES*2) + 1 + SENDERS))
#ifndef MOST_TURNS
#ifdef AGAIN
#define MOST_TURNS (S_BOUND + 3)
#else
#define MOST_TURNS S_BOUND
#endif
#endif
#ifdef COUNT_TURNS
#define TURN turns++; assert(turns <= MOST_TURNS)            /* claim: most turns */
#define NO_TURNS turns = 0
#else
#define TURN skip
#define NO_TURNS skip
#endif

/* The claims of rows used again. IN_ROW, at each step of an election of t: who takes it stands in t, and so do all that stand in
 * a tenure of the same row. ROW_EMPTY: nobody stands in a tenure of this row. */
#if defined(HARM) || !defined(AGAIN)
#define IN_ROW TURN
#define ROW_EMPTY(row) 1
#else
#define ELSEWHERE(s,row) (stands[s] == 0 || (stands[s]-1)%ROWS != (row)%ROWS)
#define FITS(s) (ELSEWHERE(s,t) || stands[s] == 1+t)
#if SENDERS == 1
#define ROW_FITS 1
#define ROW_EMPTY(row) ELSEWHERE(0,row)
#elif SENDERS == 2
#define ROW_FITS (FITS(0) && FITS(1))
#define ROW_EMPTY(row) (ELSEWHERE(0,row) && ELSEWHERE(1,row))
#elif SENDERS == 3
#define ROW_FITS (FITS(0) && FITS(1) && FITS(2))
#define ROW_EMPTY(row) (ELSEWHERE(0,row) && ELSEWHERE(1,row) && ELSEWHERE(2,row))
#else
#define ROW_FITS (FITS(0) && FITS(1) && FITS(2) && FITS(3))
#define ROW_EMPTY(row) (ELSEWHERE(0,row) && ELSEWHERE(1,row) && ELSEWHERE(2,row) && ELSEWHERE(3,row))
#endif
#define IN_ROW TURN; assert(stands[me] == 1+t && ROW_FITS)   /* claim: in its row */
#endif

/* The claims of a ring. ALL_PASSED: each receiver that has not left has passed all words before place p. MAY_RISE: the page's floor
 * from f to p. MAY_PASS: this receiver all words before p. */
#ifdef RING
#ifdef HARM
#define ALL_PASSED(p) 1
#define MAY_RISE(f,p) 1
#define MAY_PASS(p)   1
#else
#if RECEIVERS == 1
#define ALL_PASSED(p) (passed[0] >= (p))
#else
#define ALL_PASSED(p) (passed[0] >= (p) && passed[1] >= (p))
#endif
#define MAY_RISE(f,p) ((f) <= (p) && (p) <= length && ALL_PASSED(p))
#define MAY_PASS(p)   (passed[listener] < (p) && (p) <= place && (p)%FRAME == 0)
#endif
#endif

/* Of wrong protocols: where one of these stands in place of the right one. */
#ifdef WRONG_LENGTH_FIRST
#define FIRST_OF_FRAME StoreLength
#else
#define FIRST_OF_FRAME StoreLogWord
#endif
#ifdef WRONG_NO_FIRST_WRITE
#define FIRST_OF_RATIFIER ReadFirst
#else
#define FIRST_OF_RATIFIER WriteFirst
#endif
#ifdef WRONG_APPENDS_TO_ENDED
#define KNOWS_END 0
#else
#define KNOWS_END own_ended
#endif
#ifdef WRONG_CLEARS_UNASKED
#define FIRST_OF_RECLAIM ClearRow
#else
#define FIRST_OF_RECLAIM ReadPresence
#endif
#ifdef WRONG_CLEARS_LESS
#define LAST_CLEARED (ROW-1)
#else
#define LAST_CLEARED ROW
#endif
#ifdef WRONG_ASKS_OWN_TENURE
#define ASKED(t) (t)
#else
#define ASKED(t) OLD(t)
#endif
#ifdef WRONG_ROOM_ONE_MORE
#define ROOM (LOG_WORDS+1)
#else
#define ROOM LOG_WORDS
#endif
#ifdef WRONG_OLD_LENGTH
#define BEGINS old_words
#else
#define BEGINS own_words
#endif
#ifdef WRONG_STORES_FIRST
#define BEHIND_ROOM StoreLength
#else
#define BEHIND_ROOM FIRST_OF_FRAME
#endif
#ifdef WRONG_TAKES_GREATEST
#define LOWEST_AT_FIRST 0
#define IS_LOWER(p) ((p) > lowest)
#else
#define LOWEST_AT_FIRST own_words
#define IS_LOWER(p) ((p) < lowest)
#endif
#ifdef WRONG_SKIPS_RECEIVER
#define LAST_LOADED (RECEIVERS-1)
#else
#define LAST_LOADED RECEIVERS
#endif
#ifdef WRONG_PASSES_KNOWN
#define HEARD known
#else
#define HEARD place
#endif
#ifdef WRONG_PASSES_WITHIN
#define FRAME_IS_HEARD 1
#else
#define FRAME_IS_HEARD !inside
#endif
#ifdef WRONG_LEAVES_WITHOUT_STORE
#define PASSED_AT_LAST passed[listener]
#else
#define PASSED_AT_LAST PAST_ALL
#endif

#ifdef RING
#define HAS_ROOM (BEGINS + FRAME <= ROOM + own_floor)                    /* the frame fits */
#define PASSES   (FRAME_IS_HEARD && place > passed[listener])            /* StorePassed is due */
#define LISTENS  (!over && !PASSES)
#else
#define LISTENS  !over
#endif

/* ------------------------------------------------------------------ what a sender does between its steps */

/* What it forgets with a tenure, so that equal states are one. */
inline forget() {
    t = 0; b = 0; r = 0; candidate = 0; v = 0; i = 0; votes = 0; owner = 0; ending = 0; NO_TURNS
#ifdef RING
    ; lowest = 0
#endif
}

inline rest() { waits = 0; k = Done; senders_done++ }

/* A message is put as soon as the one before is delivered; behind the last one a close or a leave, if it has one.
 * With CLOSE_ANY what is put is a choice, which is made at Put. */
inline put_next() {
    if
#ifdef ENDLESS
    :: true -> waits = Message; k = LoadStage
#elif defined(CLOSE_ANY)
    :: true -> waits = 0; k = Put
#else
    :: next < MINE -> put_message()
    :: next >= MINE && CLOSES(me) -> waits = EndMark; k = LoadStage; SAY("CLOSE %d\n", me)
    :: next >= MINE && !CLOSES(me) && LEAVES(me) -> waits = LeaveMark; k = LoadStage; SAY("LEAVE %d\n", me)
    :: else -> rest()
#endif
    fi
}

inline put_message() {
    has_put[me] = next+1; waits = Message; k = LoadStage; SAY("PUT %d\n", me)
}

/* A bit of the owner's number is decided: y. */
inline decided(y) {
    owner = owner | ((y) << b);
    if
    :: b == 0 ->                                            /* the last one: the bits spell the owner */
        assert(owner < SENDERS && ((announced[t] >> owner) & 1));   /* claim: announced */
        assert(elected[t] == 0 || elected[t] == 1+owner);   /* claim: one owner */
        elected[t] = 1+owner;
        if
        :: owner == me -> k = TakePage
        :: else -> least[me] = t+1; lose()
        fi
#ifdef WRONG_KEEPS_CANDIDATE
    :: else -> next_bit()
#else
    :: b > 0 && ((candidate >> b) & 1) == (y) -> next_bit()
#ifdef WRONG_UNANNOUNCED
    :: else -> candidate = owner; next_bit()
#else
    :: else -> i = owner; k = ReadAnnouncement              /* the lowest number that fits all bits so far */
#endif
#endif
    fi
}

inline next_bit() { b--; r = 1; v = (candidate >> b) & 1; k = FIRST_OF_RATIFIER }

inline lose() {
#ifdef LOSSES
    if :: me == 1 -> lost = 1-lost :: else fi;
#endif
#if defined(AGAIN) && !defined(WRONG_LOSER_STAYS)
    ending = Lost; k = Withdraw
#else
    SAY("ANSWER lost %d %d\n", t, owner);
    stands[me] = 0; forget(); k = LoadStage
#endif
}

#ifdef RING
/* Its frame fits by the floor of its page, or all passed words are loaded. */
inline look_for_room() {
    i = 0;
    if
    :: HAS_ROOM -> k = BEHIND_ROOM
    :: else -> lowest = LOWEST_AT_FIRST; k = ReadPassed
    fi
}
#endif

/* It has the page: its frame is stored, or none is begun. */
inline begin_frame() {
    i = 0;
    if
#ifdef ENDLESS
    :: true -> ending = Delivered; end_frame()
#else
    :: KNOWS_END -> ending = Ended; end_frame()
#ifdef WRONG_STORES_FIRST
    :: !KNOWS_END -> k = FIRST_OF_FRAME
#elif defined(RING)
    :: !KNOWS_END -> look_for_room()
#else
    :: !KNOWS_END && own_words + FRAME <= LOG_WORDS -> k = FIRST_OF_FRAME
    :: !KNOWS_END && own_words + FRAME > LOG_WORDS -> ending = Full; end_frame()
#endif
#endif
    fi
}

/* The frame is whole, or none was begun: the row of t+1 is made ready, if it was used before, and the page goes back. */
inline end_frame() {
    i = 0;
#if defined(AGAIN) && !defined(WRONG_CLEARS_LATE)
    if :: REUSES(t) -> k = FIRST_OF_RECLAIM :: else -> k = GivePageBack fi
#else
    k = GivePageBack
#endif
}

/* The page is back. */
inline leave_tenure() {
    least[me] = t+1;
    if
#ifdef ENDLESS
    :: true -> flip = 1-flip; flips[me] = 1-flips[me]; forget(); put_next()
#else
    :: ending == Delivered && waits == Message ->
        SAY("ANSWER delivered %d %d %d\n", t, next, next);
#ifndef WRONG_SENDS_AGAIN
        next++;
#endif
        forget(); put_next()
    :: ending == Delivered && waits == LeaveMark ->
        SAY("ANSWER left %d\n", t);
        forget();
#ifdef WRONG_SENDS_AFTER_LEAVING
        waits = 0; k = Put
#else
        rest()
#endif
    :: ending == Full -> SAY("ANSWER full\n"); forget(); k = LoadStage              /* the batch is kept, and tried again */
    :: ending == Ended || (ending == Delivered && waits == EndMark) -> SAY("ANSWER closed\n"); forget(); rest()
#endif
    fi
}

/* ------------------------------------------------------------------ a sender */

active [SENDERS] proctype Sender() {
    mtype k = Put;                              /* the kind of its next step */
    byte t, b, r;                               /* its tenure; the bit and the round of its election */
    byte candidate, owner;                      /* its candidate; the bits of the owner that are decided */
    byte v;                                     /* the bit that it brings or prefers */
    byte i, votes;                              /* whose turn it is in a list; its own votes in a coin */
    mtype ending;                               /* how its tenure goes on or ends */
    byte next; mtype waits;                     /* the number of its next message; what waits to be sent */
    byte own_next[SENDERS]; bit own_ended; byte own_words;       /* the page, while it has it */
#ifdef RING
    byte own_floor, lowest;                     /* the page's; the lowest of its words and of the passed words that it has loaded */
#ifdef WRONG_OLD_LENGTH
    byte old_words;                             /* the length as it was when it last had the page */
#endif
#endif
#ifdef COUNT_TURNS
    byte turns;
#endif
#ifdef NEXT_SITTING
    bit mine;
#endif
#ifdef NAP_AT
    byte naps;
#endif

    do
    /* What is put first: no step on a word. */
#ifdef CLOSE_ANY
    :: d_step { k == Put && next < MINE -> put_message() }
    :: d_step { k == Put -> waits = EndMark; k = LoadStage; SAY("CLOSE %d\n", me) }
    :: d_step { k == Put && LEAVES(me) -> waits = LeaveMark; k = LoadStage; SAY("LEAVE %d\n", me) }
#else
    :: d_step { k == Put -> put_next() }
#endif
#ifdef WRONG_LEAVES_EARLY
    :: d_step { k == LoadStage && waits == Message && LEAVES(me) -> waits = LeaveMark; SAY("LEAVE %d\n", me) }
#endif

    /* It stops for good. */
#ifdef STOPPERS
#ifdef STOP_AT
    :: d_step { ((STOPPERS >> me) & 1) && k == STOP_AT -> has_stopped[me] = 1; forget(); rest(); SAY("STOP %d\n", me) }
#else
    :: d_step { ((STOPPERS >> me) & 1) && k != Put && k != Done -> has_stopped[me] = 1; forget(); rest(); SAY("STOP %d\n", me) }
#endif
#endif

    /* Spent, without a step: no tenure is left to it. */
    :: d_step { k == LoadStage && MAY_GO && NONE_LEFT -> SAY("REST %d\nANSWER spent\n", me); least[me] = 0; rest() }

    :: d_step { k == LoadStage && MAY_GO && !NONE_LEFT ->
        LOAD_STAGE;
        if
        :: (x & 1) || PAST(x) -> SAY("ANSWER waiting\n")
        :: !((x & 1) || PAST(x)) && SPENT(x) -> SAY("ANSWER spent\n"); least[me] = 0; rest()
        :: else ->
            t = x/2;
#ifndef AGAIN
            k = Announce
#elif defined(WRONG_ENTERS_LATE)
            k = LoadStageAgain
#else
            k = Enter
#endif
        fi }

#ifdef AGAIN
    :: d_step { k == Enter ->
        STORE_PRESENCE(1+t); TURN;
#if defined(WRONG_NO_SECOND_LOOK) || defined(WRONG_ENTERS_LATE)
        stands[me] = 1+t; k = Announce                      /* it takes itself for one that stands in t */
#else
        k = LoadStageAgain
#endif
        }
    :: d_step { k == LoadStageAgain ->
        LOAD_STAGE; TURN;
        if
#ifdef WRONG_ENTERS_LATE
        :: x/2 == t -> k = Enter
#else
        :: x/2 == t -> stands[me] = 1+t; k = Announce
#endif
        :: else -> ending = Invalidated; k = Withdraw
        fi }
    :: d_step { k == Withdraw ->
        STORE_PRESENCE(0); TURN;
        stands[me] = 0;
        if
        :: ending == Invalidated -> SAY("ANSWER waiting\n"); forget(); k = LoadStage
        :: ending == Lost -> SAY("ANSWER lost %d %d\n", t, owner); forget(); k = LoadStage
        :: ending == Took -> ending = 0; NO_TURNS; begin_frame()
        fi }
#endif

    /* -- the election of tenure t */
    :: d_step { k == Announce ->
        IN_ROW;
        STORE_ROW(ANNOUNCEMENT(t,me), 1);
        announced[t] = announced[t] | (1 << me);
#if SENDERS == 1
        assert(elected[t] == 0);                            /* claim: one owner */
        elected[t] = 1; k = TakePage
#else
        candidate = me; owner = 0; b = BITS; next_bit()
#ifdef WRONG_TESTS_HOME
        ; k = TestHome
#endif
#endif
        }

#if SENDERS > 1
    /* A ratifier, ThreeWord: it brings v, and from ReadFirst on v is what it prefers. */
    :: d_step { k == WriteFirst ->
        IN_ROW;
        STORE_ROW(INPUT(t,b,r,v), 1);
        k = ReadFirst }
    :: d_step { k == ReadFirst ->
        IN_ROW;
        LOAD_ROW(PROPOSAL(t,b,r));
        if
        :: x == 0 -> k = WriteSecond
#ifdef WRONG_ADOPTS_OWN_VALUE
        :: else -> k = ReadSecond
#else
        :: else -> v = x-1; k = ReadSecond
#endif
        fi }
    :: d_step { k == WriteSecond ->
        IN_ROW;
        STORE_ROW(PROPOSAL(t,b,r), 1+v);
        k = ReadSecond }
    :: d_step { k == ReadSecond ->
        IN_ROW;
        LOAD_ROW(INPUT(t,b,r,1-v));
        if
        :: x == 0 -> x = v; decided(x)                      /* commit v */
        :: x != 0 && r < ROUNDS -> r++; k = SetMark         /* adopt v, and on to the next round */
        :: x != 0 && r >= ROUNDS -> k = Fallback
        fi }
#if ROUNDS > 1
    /* A conciliator, with its coin. */
    :: d_step { k == SetMark ->
        IN_ROW;
        STORE_ROW(MARK(t,b,r,v), 1);
        k = ReadOtherMark }
    :: d_step { k == ReadOtherMark ->
        IN_ROW;
        LOAD_ROW(MARK(t,b,r,1-v));
        if
        :: x == 0 -> k = FIRST_OF_RATIFIER
        :: else -> votes = 0; v = 0; k = Vote
        fi }
    :: atomic { k == Vote ->                                /* the random bit is a choice, and so no d_step */
        IN_ROW;
        if
        :: ADD_ROW(COUNTER(t,b,r), HEADS)
        :: ADD_ROW(COUNTER(t,b,r), 1)
        fi;
        d_step { votes++; k = ReadVotes } }
    :: d_step { k == ReadVotes ->
        IN_ROW;
        LOAD_ROW(COUNTER(t,b,r));
        sum = x / HEADS - x % HEADS;
        if
        :: sum >= BARRIER || sum <= -BARRIER || votes >= VOTES -> v = (sum > 0 -> 1 : 0); votes = 0; k = FIRST_OF_RATIFIER
        :: else -> k = Vote
        fi }
#endif
    :: d_step { k == Fallback ->
        IN_ROW;
#ifdef WRONG_FALLBACK_STORE
        STORE_ROW(FALLBACK(t,b), 1+v); x = 1+v;
#else
        EXCHANGE_ROW(FALLBACK(t,b), 1+v);
#endif
        x = x-1; decided(x) }
#if BITS > 1
    /* A new candidate: the first announced one of the senders that fit the bits decided so far. */
    :: d_step { k == ReadAnnouncement ->
        IN_ROW;
        assert(i < SENDERS && (i >> b) == (owner >> b));    /* claim: a candidate is found */
        LOAD_ROW(ANNOUNCEMENT(t,i));
        if
        :: x != 0 -> candidate = i; i = 0; next_bit()
        :: else -> i++
        fi }
#endif
#ifdef WRONG_TESTS_HOME
    /* No election: it looks whether the page is home, and takes it with its next step. */
    :: d_step { k == TestHome -> if :: home -> k = TakePage :: else fi }
#endif
#endif

    /* -- with the page */
    :: d_step { k == TakePage ->
        TURN;
#ifdef WRONG_TESTS_HOME
        elected[t] = 1+me;                                  /* it takes itself for the owner */
#endif
        assert(elected[t] == 1+me && ((announced[t] >> me) & 1));   /* claim: one owner */
        assert(home && holders == 0 && !taken);             /* claim: one taker */
        assert(stage == 2*t);                               /* claim: one taker */
#ifdef WRONG_NO_ODD_STAGE
        SAY("STEP sender %d TakePage stage 0 %d %d\n", me, stage, stage);
#else
        STORE_STAGE(2*t+1);
#endif
        home = 0; holders++; holder = 1+me; taken = 1;
        x = 0; do :: x < SENDERS -> own_next[x] = page_next[x]; page_next[x] = 0; x++ :: else -> break od;
        own_ended = page_ended; own_words = page_words; page_ended = 0; page_words = 0;
#ifdef RING
        own_floor = page_floor; page_floor = 0;
        assert(MAY_RISE(0,own_floor));                      /* claim: floor behind all */
#endif
        v = 0; candidate = 0; owner = 0; b = 0; r = 0; i = 0;
        SAY("ANSWER own %d\n", t);
#if defined(AGAIN) && !defined(WRONG_HOLDER_STAYS)
        ending = Took; k = Withdraw
#else
        stands[me] = 0; NO_TURNS; begin_frame()
#endif
        }

#ifdef RING
    /* Its frame does not fit: it loads each passed word once. With the last one the floor of its page rises. */
    :: d_step { k == ReadPassed ->
        LOAD_PASSED(i);
        if :: IS_LOWER(x) -> lowest = x :: else fi;
        i++;
        if
        :: i == LAST_LOADED ->
            assert(MAY_RISE(own_floor,lowest));             /* claim: floor behind all */
            own_floor = lowest; lowest = 0; i = 0;
            if :: HAS_ROOM -> k = BEHIND_ROOM :: else -> ending = Full; end_frame() fi
        :: else
        fi }
#endif

#ifndef ENDLESS
    :: d_step { k == StoreLogWord ->
        assert(holders == 1 && holder == 1+me);             /* claim: one taker */
#ifdef RING
        assert(ALL_PASSED(own_words+i+1-LOG_WORDS));        /* claim: room */
        place_in[CELL(own_words+i)] = 1+own_words+i;
#endif
        x = (i == 0 -> HEAD(me,t) : (waits == EndMark -> END_MARK : (waits == LeaveMark -> LEAVE_MARK : MESSAGE(next))));
        STORE_LOG(own_words+i, x);
        i++;
        if
#ifdef WRONG_LENGTH_FIRST
        :: i == FRAME -> own_words = own_words + FRAME; ending = Delivered; end_frame()
#elif defined(WRONG_STORES_FIRST)
        :: i == FRAME -> look_for_room()
#else
        :: i == FRAME -> k = StoreLength
#endif
        :: else
        fi }
    :: d_step { k == StoreLength ->
        if :: ended -> after_end = 1 :: else fi;
        assert(!ended);                                     /* claim: nothing after the end */
        assert(!has_left[me]);                              /* claim: nothing after leaving */
        assert(length == own_words);                        /* claim: one order */
        STORE_LENGTH(own_words+FRAME);
        if
        :: waits == Message ->
            assert(own_next[me] == next);                   /* claim: each once */
            order[entries] = 1 + 16*me + own_next[me]; entries++; own_next[me]++
        :: waits == LeaveMark ->
            assert(own_next[me] == has_put[me]);            /* claim: who left has sent all */
            order[entries] = LEFT + me; entries++; has_left[me] = 1
        :: waits == EndMark -> ended = 1; own_ended = 1
        fi;
#ifdef WRONG_LENGTH_FIRST
        i = 0; k = StoreLogWord
#else
        own_words = own_words + FRAME; ending = Delivered; end_frame()
#endif
        }
#endif

#ifdef AGAIN
    :: d_step { k == ReadPresence ->
        LOAD_PRESENCE(i);
        if
        :: x == 1 + ASKED(t) -> SAY("ANSWER behind %d %d\n", OLD(t), i)     /* and the same is asked again */
        :: else -> i++; if :: i == SENDERS -> i = 0; k = ClearRow :: else fi
        fi }
    :: d_step { k == ClearRow ->
        x = NEXT(t);
        assert(ROW_EMPTY(x));                               /* claim: no row is cleared under a sender */
        STORE_ROW(ROW_AT(x)+i, 0);
        i++;
        if
#ifdef WRONG_CLEARS_LATE
        :: i == LAST_CLEARED -> i = 0; leave_tenure()
#else
        :: i == LAST_CLEARED -> i = 0; k = GivePageBack
#endif
        :: else
        fi }
#endif

    :: d_step { k == GivePageBack ->
        assert(!home && holders == 1 && stage/2 == t);      /* claim: one taker */
        STORE_STAGE(2*NEXT(t));
        home = 1; holders--; holder = 0; taken = 0;
        x = 0; do :: x < SENDERS -> page_next[x] = own_next[x]; own_next[x] = 0; x++ :: else -> break od;
#ifdef WRONG_OLD_LENGTH
        old_words = own_words;
#endif
        page_ended = own_ended; page_words = own_words; own_ended = 0; own_words = 0;
#ifdef RING
        page_floor = own_floor; own_floor = 0;
#endif
#ifdef COME_ROUND
        elected[OLD(t)] = 0; announced[OLD(t)] = 0;         /* nobody stands in a tenure so old, so nobody asks */
        x = 0; do :: x < SENDERS -> if :: least[x] == 1 + NEXT(t) -> least[x] = 0 :: else fi; x++ :: else -> break od;
#endif
#if defined(AGAIN) && !defined(WRONG_CLEARS_LATE) && !defined(HARM)
        x = 0;
        do
        :: x < ROW -> assert(row_words[ROW_AT(NEXT(t))+x] == 0); x++      /* claim: the row that opens is clean */
        :: else -> break
        od;
#endif
#if defined(AGAIN) && defined(WRONG_CLEARS_LATE)
        if :: REUSES(t) -> i = 0; k = FIRST_OF_RECLAIM :: else -> leave_tenure() fi
#else
        leave_tenure()
#endif
        }

#ifdef NAP_AT
    :: d_step { k == NAP_AT && naps == 0 -> k = Nap; naps = 81 }
    :: d_step { k == Nap && naps > 1 -> naps-- }
    :: d_step { k == Nap && naps == 1 -> naps = 0; k = NAP_AT }
#endif
#ifdef NEXT_SITTING
    /* It is there again in the next sitting. What was put and not sent is put first, with the number that it had. */
    :: d_step { k == Done && sitting != mine ->
        mine = sitting;
        assert(next == base[me]);                           /* claim: numbers go on */
        put_next() }
    :: k == Done && last_sitting && sitting == mine -> break
#else
    :: k == Done -> break
#endif
    od
}

/* ------------------------------------------------------------------ a receiver */

#if RECEIVERS > 0
inline be_over() {
#if defined(CLOSE_LAST) && !defined(STOPPERS)
    x = 0; do :: x < SENDERS -> assert(heard[x] == MINE); x++ :: else -> break od;        /* claim: the end comes behind all */
#endif
    hear_no_more()
}

inline hear_no_more() {
    x = 0; do :: x < SENDERS -> gone[x] = 0; x++ :: else -> break od;
    receivers_done++; known = 0; place = 0; owner = 0; above = 0; inside = 0; over = 1
}

active [RECEIVERS] proctype Receiver() {
    byte known, place;           /* the length that it knows; its place */
    bit  inside;                 /* a head was read, and the rest of its frame is due */
    byte owner, above;           /* of the frame; 1 + the tenure of the last head */
    byte heard[SENDERS], count;  /* items that it was given of each, and entries of all: those of earlier sittings counted */
    bit  gone[SENDERS];          /* it was told that this sender has left */
    bit  over;                   /* it was given the end, or has left */
#ifdef NEXT_SITTING
    bit mine;
#endif

    do
#ifdef RING
    /* StorePassed */
    :: d_step { !over && PASSES ->
        assert(MAY_PASS(HEARD));                            /* claim: passes what it heard */
        STORE_PASSED(HEARD) }
#ifdef GONE
    /* It leaves for good: its last step, also within a frame. */
    :: d_step { !over && passed[listener] != PAST_ALL && ((GONE >> listener) & 1) ->
        SAY("GONE %d %d %d\n", listener, passed[listener], PASSED_AT_LAST);
        passed[listener] = PASSED_AT_LAST;
#ifndef WRONG_HEARS_ON
        x = 0; do :: x < SENDERS -> heard[x] = 0; x++ :: else -> break od;
        count = 0; hear_no_more()
#endif
        }
#endif
#endif
    /* LoadLength */
    :: d_step { LISTENS && place == known ->
        HEAR_LENGTH;
        assert(length >= known);                            /* claim: one order */
#ifdef WRONG_READS_PAST
        known = length + 1 }
#else
        if :: length == known -> SAY("ANSWER empty\n") :: else -> known = length fi }
#endif
    /* LoadLogWord */
    :: d_step { LISTENS && place < known ->
#ifdef RING
        assert(place_in[CELL(place)] == 1+place);           /* claim: the word of its place */
#endif
        HEAR_LOG(place);
        place++;
        if
        :: !inside ->
            assert(IS_HEAD(x) && OWNER_OF(x) < SENDERS);    /* claim: words are a log */
            owner = OWNER_OF(x);
            assert(!gone[owner]);                           /* claim: nothing after leaving */
#ifndef COME_ROUND
            assert(TENURE_OF(x) + 1 > above);               /* claim: words are a log */
            above = TENURE_OF(x) + 1;
#endif
            inside = 1;
            SAY("ANSWER head %d %d\n", TENURE_OF(x), owner)
        :: inside && x == END_MARK ->
            assert(ended && count == entries);              /* claim: the end comes behind all */
            SAY("ANSWER end\n");
            be_over()
        :: inside && x == LEAVE_MARK ->
            assert(count < entries && order[count] == LEFT + owner);      /* claim: one order */
            SAY("ANSWER leave %d\n", owner);
            gone[owner] = 1; count++; owner = 0; inside = 0
        :: else ->
            assert(IS_MESSAGE(x));                          /* claim: words are a log */
            assert(heard[owner] == NUMBER_OF(x));           /* claim: each once */
            assert(count < entries && order[count] == 1 + 16*owner + NUMBER_OF(x));       /* claim: one order */
            SAY("ANSWER item %d %d\n", owner, NUMBER_OF(x));
            heard[owner]++; count++; owner = 0; inside = 0
        fi }
#ifdef NEXT_SITTING
    :: d_step { over && sitting != mine -> over = 0; mine = sitting }
    :: over && last_sitting && sitting == mine -> break
#else
    :: over -> break
#endif
    od
}
#endif

/* ------------------------------------------------------------------ the next sitting */

#ifdef NEXT_SITTING
/* Once all have given up and every receiver was given the end, a bus is opened after the page: all words are 0 again, and nothing is
 * carried over but the next number of each sender. A page whose order has not ended is refused. */
active proctype Opener() {
    do
    :: d_step { sitting == 0 && senders_done == SENDERS && receivers_done == RECEIVERS && home && page_ended ->
        x = 0;
        do
        :: x < SENDERS ->
#ifdef WRONG_NUMBERS_ANEW
            page_next[x] = 0;
#endif
            base[x] = page_next[x]; has_put[x] = page_next[x]; SAY("BASE %d %d\n", x, base[x]);
#ifdef AGAIN
            presence[x] = 0;
#endif
            has_left[x] = 0; stands[x] = 0; least[x] = 0; x++
        :: else -> break
        od;
        x = 0; do :: x < LOG_WORDS -> log_words[x] = 0; x++ :: else -> break od;
        sum = 0; do :: sum < ROWS*ROW -> row_words[sum] = 0; sum++ :: else -> break od;
        x = 0; do :: x < TENURES -> elected[x] = 0; announced[x] = 0; x++ :: else -> break od;
        elected[TENURES] = 0; stage = 0; length = 0; page_words = 0; page_ended = 0; ended = 0;
#ifdef RING
        x = 0; do :: x < RECEIVERS -> passed[x] = 0; x++ :: else -> break od;
        x = 0; do :: x < LOG_WORDS -> place_in[x] = 0; x++ :: else -> break od;
        page_floor = 0;
#endif
        senders_done = 0; receivers_done = 0; sitting = 1; SAY("SITTING\n") }
    :: d_step { senders_done == SENDERS && (sitting == 1 || !home || !page_ended) -> last_sitting = 1 }; break
    od
}
#endif

/* ------------------------------------------------------------------ claims of whole runs */

#ifdef CLAIMS
ltl one_place   { [] (home + holders == 1) }                  /* the page is in one place */
ltl stage_tells { [] ((stage & 1) == holders) }               /* it is out just where the stage is odd */
ltl close_ends  { [] !after_end }                             /* nothing after the end */
ltl close_stays { [] ((ended && home) -> page_ended) }        /* the page says so */
#ifdef ENDLESS
ltl goes_on       { ([]<> flip) && ([]<> !flip) }             /* somebody delivers again and again */
ltl each_goes_on  { ([]<> flips[1]) && ([]<> !flips[1]) }     /* sender 1 does: refuted, it may starve */
ltl not_by_losing { !(([]<> lost) && ([]<> !lost) && ([] !flips[1])) }     /* refuted too: it plays on and on, and loses */
#else
/* The three cases of a sender that has stopped: it was agreed on for the tenure that is open; it has the page; (rows used again) its
 * presence names the tenure whose row a holder is to clear. WITHOUT_CASE leaves one of them out, and then three_cases is refuted. */
#ifndef WITHOUT_CASE
#define WITHOUT_CASE 0
#endif
#define AGREED_ON(s)   (WITHOUT_CASE != 1 && !(stage & 1) && elected[stage/2] == 1+s)
#define HAS_PAGE(s)    (WITHOUT_CASE != 2 && holder == 1+s)
#ifdef AGAIN
#define BARS_ROW(s)    (WITHOUT_CASE != 3 && (stage & 1) && REUSES(stage/2) && presence[s] == 1 + OLD(stage/2))
#else
#define BARS_ROW(s)    0
#endif
#define CASE(s)        (has_stopped[s] && (AGREED_ON(s) || HAS_PAGE(s) || BARS_ROW(s)))
#if SENDERS == 1
#define CASES CASE(0)
#elif SENDERS == 2
#define CASES (CASE(0) || CASE(1))
#elif SENDERS == 3
#define CASES (CASE(0) || CASE(1) || CASE(2))
#else
#define CASES (CASE(0) || CASE(1) || CASE(2) || CASE(3))
#endif
#define ALL_DONE (receivers_done == RECEIVERS && senders_done == SENDERS)
ltl all_end     { <> ALL_DONE }                               /* all is sent and heard */
ltl three_cases { (<> ALL_DONE) || (<> [] CASES) }            /* the others go on but in three cases */
#endif
#endif
