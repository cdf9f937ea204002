//! Senders.

use crate::errors::{CloseError, NeverFits, PutError, SendError, TrySendError, Unsent};
use crate::raw;
use crate::shared::Shared;
use crate::waiting::{nap, BackOff, Polled, Sleeper, Words, LEAST_LOOKS, MOST_LOOKS};
use crate::{Bell, Shape, Waiting};
use std::sync::Arc;
use std::task::{Context, Poll};
use std::time::Duration;
use std::{fmt, mem, ptr};

/// The answer to a turn of a sender.
#[derive(Clone, Copy, Debug, PartialEq, Eq)]
pub enum Turn {
    /// Nothing was pending.
    Idle,
    /// Another holds the page, or no new tenure is open. Where rows are used again also: it came
    /// too late for the tenure that it had seen.
    Waiting,
    /// A step was taken, and more are to come.
    Going,
    /// The election of this tenure chose another sender.
    Lost {
        /// The tenure that is lost.
        tenure: u64,
        /// The sender that it chose.
        owner: u8,
    },
    /// It has taken the page of this tenure.
    Own {
        /// The tenure whose page it has.
        tenure: u64,
    },
    /// Its messages with these numbers stand in the order.
    Delivered {
        /// The tenure of their frame.
        tenure: u64,
        /// The number of the first of them.
        first: u64,
        /// The number of the last of them.
        last: u64,
    },
    /// Its leave mark stands in the order, by its frame of this tenure: it has left.
    Left {
        /// The tenure of that frame.
        tenure: u64,
    },
    /// Its frame does not fit the log. The batch is kept. Of a ring it is to be tried again, once
    /// the receivers have heard; each `Full` takes a tenure, so look by `has_room` first. A batch
    /// longer than the log is `Full` for good.
    Full,
    /// The order has ended, or this sender had left.
    Closed,
    /// No tenure is left to this sender: all have ended, or it lost the last one, whose owner may
    /// still end the order. The batch is kept.
    Spent,
    /// Where rows are used again: this sender holds the page, and `sender` keeps the row of that
    /// tenure, which is to be used next. Its messages may stand in the order already, so nothing is
    /// carried from it until it has given the page back.
    Behind {
        /// The tenure whose row is to be used next.
        tenure: u64,
        /// The sender that keeps it.
        sender: u8,
    },
}

impl Turn {
    fn of(code: u32, told: raw::TurnAnswer) -> Turn {
        let tenure = told.tenure;
        match code {
            1 => Turn::Idle,
            2 => Turn::Waiting,
            3 => Turn::Going,
            4 => Turn::Lost {
                tenure,
                owner: told.sender,
            },
            5 => Turn::Own { tenure },
            6 => Turn::Delivered {
                tenure,
                first: told.first,
                last: told.last,
            },
            7 => Turn::Full,
            8 => Turn::Closed,
            9 => Turn::Spent,
            10 => Turn::Behind {
                tenure,
                sender: told.sender,
            },
            15 => Turn::Left { tenure },
            _ => unreachable!("the archive answered {code}"),
        }
    }
}

impl fmt::Display for Turn {
    fn fmt(&self, f: &mut fmt::Formatter<'_>) -> fmt::Result {
        match self {
            Turn::Idle => f.write_str("idle"),
            Turn::Waiting => f.write_str("waiting"),
            Turn::Going => f.write_str("going"),
            Turn::Lost { tenure, owner } => write!(f, "lost {tenure} {owner}"),
            Turn::Own { tenure } => write!(f, "own {tenure}"),
            Turn::Delivered {
                tenure,
                first,
                last,
            } => write!(f, "delivered {tenure} {first} {last}"),
            Turn::Left { tenure } => write!(f, "left {tenure}"),
            Turn::Full => f.write_str("full"),
            Turn::Closed => f.write_str("closed"),
            Turn::Spent => f.write_str("spent"),
            Turn::Behind { tenure, sender } => write!(f, "behind {tenure} {sender}"),
        }
    }
}

/// A sender of a bus. It may go to another thread, and one thread at a time has it.
///
/// One that is dropped within a tenure, also by a panic or by an error on its way up, first takes the
/// turns that are left of it, as `finish` does. Where another sender's pin is in the way these are
/// kept: the other handles of the bus take them, at the first of their turns that finds that other
/// one gone on or dropped. If that one never comes back, all others wait for good, as they do where
/// a thread is killed within a tenure.
///
/// Dropping senders ends no order, also of the last one, but after `end_with_senders`.
pub struct Sender {
    raw: raw::RawSender,
    random: Words,
    number: u8,
    /// Its batch has so many messages at most.
    most: u64,
    /// A close of it was taken.
    closes: bool,
    /// A leave of it was taken.
    leaves: bool,
    /// It was answered `Left`.
    has_left: bool,
    /// Its last turn was one of a tenure that goes on.
    is_within: bool,
    /// How many of its last turns answered `Behind`.
    behind: u32,
    bell: Bell,
    shared: Arc<Shared>,
    waiting: Waiting,
    sleeper: Sleeper,
}

impl fmt::Debug for Sender {
    fn fmt(&self, f: &mut fmt::Formatter<'_>) -> fmt::Result {
        f.debug_struct("Sender")
            .field("number", &self.number)
            .finish_non_exhaustive()
    }
}

impl Drop for Sender {
    fn drop(&mut self) {
        let raw = mem::replace(&mut self.raw, raw::RawSender::NONE);
        self.shared.give_up(raw, self.has_left, &mut self.random);
        self.bell.ring_in_drop();
    }
}

impl Sender {
    pub(crate) fn of_raw(
        raw: raw::RawSender,
        shape: &Shape,
        bell: &Bell,
        shared: &Arc<Shared>,
    ) -> Sender {
        let mut sender = Sender {
            raw,
            random: Words::new(),
            number: 0,
            most: shape.most_messages(),
            closes: false,
            leaves: false,
            has_left: false,
            is_within: false,
            behind: 0,
            bell: bell.clone(),
            shared: shared.clone(),
            waiting: Waiting::default(),
            sleeper: Sleeper::default(),
        };
        sender.number = sender.shown().number;
        sender
    }

    fn shown(&mut self) -> raw::SenderShown {
        let mut shown = raw::SenderShown::default();
        // SAFETY: the handle is this value's own, and the pointers are of values of this function.
        unsafe { raw::bus_c_sender(&mut self.raw, &mut shown) };
        shown
    }

    /// Its number, from 0 on.
    pub fn number(&self) -> u8 {
        self.number
    }

    /// How many messages wait in its batch, at most `batch_limit`.
    pub fn pending(&mut self) -> u64 {
        self.shown().pending
    }

    /// How many messages its batch has at most: as the shape of its bus says, 1 to 64, where that
    /// is a ring, and else 16.
    ///
    /// ```
    /// # use kioskbasil::{Bus, PutError, Shape, LOG_MESSAGES, MOST_MESSAGES};
    /// let (senders, _receivers) = Bus::open(Shape::of(1, 1))?;
    /// assert_eq!(senders[0].batch_limit(), LOG_MESSAGES as u64);
    /// let (senders, _receivers) = Bus::open_ring(Shape::of(1, 1))?;
    /// assert_eq!(senders[0].batch_limit(), MOST_MESSAGES as u64);
    /// let (mut senders, _receivers) = Bus::open_ring(Shape { batch: 1, ..Shape::of(1, 1) })?;
    /// assert_eq!((senders[0].put(b"one"), senders[0].batch_limit()), (Ok(0), 1));
    /// assert_eq!(senders[0].put(b"two"), Err(PutError::BatchFull));
    /// # Ok::<(), kioskbasil::OpenError>(())
    /// ```
    #[inline]
    pub fn batch_limit(&self) -> u64 {
        self.most
    }

    /// The number that its next message gets.
    pub fn next_number(&mut self) -> u64 {
        self.shown().next_number
    }

    /// The number of the first message that waits in its batch, or else of the next one.
    pub fn goes_on_from(&mut self) -> u64 {
        let shown = self.shown();
        shown.next_number - shown.pending
    }

    /// The last length of the log, in words, that it has stored; 0 before the first. Its batch
    /// stands in the order once this is greater than it was when the batch was begun, also where the
    /// answer has not come yet.
    ///
    /// ```
    /// # use kioskbasil::{Bus, Shape};
    /// let (mut senders, _receivers) = Bus::open(Shape::of(1, 1))?;
    /// senders[0].put(b"8 bytes!")?;
    /// assert_eq!(senders[0].words(), 0);
    /// senders[0].send_all(["x"])?;
    /// assert_eq!(senders[0].words(), 6);
    /// # Ok::<(), Box<dyn std::error::Error>>(())
    /// ```
    pub fn words(&mut self) -> u64 {
        self.shown().words
    }

    /// It sends nothing more. False as long as its close or leave waits to be sent.
    pub fn is_closed(&mut self) -> bool {
        self.shown().is_closed
    }

    /// It has asked to leave, and its leave mark waits to be sent.
    ///
    /// ```
    /// # use kioskbasil::{Bus, Shape, Turn};
    /// let (mut senders, _receivers) = Bus::open(Shape::of(1, 1))?;
    /// senders[0].leave()?;
    /// assert!(senders[0].is_leaving() && !senders[0].is_closed());
    /// assert!(matches!(senders[0].send(), Turn::Left { .. }));
    /// assert!(!senders[0].is_leaving() && senders[0].is_closed());
    /// # Ok::<(), Box<dyn std::error::Error>>(())
    /// ```
    pub fn is_leaving(&mut self) -> bool {
        self.leaves && !self.is_closed()
    }

    /// A close of it was taken, be it sent or not.
    pub fn has_closed(&self) -> bool {
        self.closes
    }

    /// A turn of it was answered `Left`.
    pub(crate) fn has_left(&self) -> bool {
        self.has_left
    }

    /// How many turns its election takes at most, with the one that takes the page; 0 where none is
    /// begun.
    ///
    /// ```
    /// # use kioskbasil::{Bus, Shape, Turn};
    /// let (mut senders, _receivers) = Bus::open(Shape { rounds: 1, ..Shape::of(2, 1) })?;
    /// senders[0].put(b"x")?;
    /// assert_eq!(senders[0].turns_left(), 0);
    /// while senders[0].turns_left() == 0 {
    ///     assert_eq!(senders[0].turn(0), Turn::Going);
    /// }
    /// assert_eq!(senders[0].turns_left(), 9);
    /// # Ok::<(), Box<dyn std::error::Error>>(())
    /// ```
    pub fn turns_left(&mut self) -> u64 {
        self.shown().turns_left
    }

    /// The bell of its bus.
    pub fn bell(&self) -> &Bell {
        &self.bell
    }

    /// Sets how the calls wait that send; at first by `Waiting::Sleep`.
    pub fn set_waiting(&mut self, waiting: Waiting) {
        self.waiting = waiting;
    }

    /// Has the order of its bus end with its senders, whichever of them this is called of: once
    /// each was dropped or has left, each receiver is told the end behind the last item, as it is
    /// behind a close. Else dropping senders ends no order.
    ///
    /// The drop of the last one waits for nobody. It puts the end mark into the log if nothing waits
    /// in its batch, there is room for two words, and a tenure is left; `Ended::ended` says whether
    /// it stands there, so that a next sitting can go on. Messages that were put and not sent are
    /// lost, as with each drop. A sender that is kept, or forgotten (`mem::forget`), or whose thread
    /// never comes back, keeps the order open.
    ///
    /// ```
    /// use kioskbasil::{Bus, Shape};
    ///
    /// let (senders, mut receivers) = Bus::open_ring(Shape::of(3, 1))?;
    /// senders[0].end_with_senders();
    /// for mut sender in senders {
    ///     std::thread::spawn(move || sender.send_all(["hello"]));
    /// }
    /// assert_eq!(receivers[0].by_ref().count(), 3);
    /// # Ok::<(), kioskbasil::OpenError>(())
    /// ```
    pub fn end_with_senders(&self) {
        self.shared.end_with_senders();
        self.bell.ring();
    }

    /// Its next turn uses its random word.
    pub fn wants_word(&mut self) -> bool {
        self.shown().wants_word
    }

    /// Appends a message of at most 56 bytes to its batch, and gives its number. Takes no step. A
    /// batch comes into the order as one frame, with nothing of another sender in between. What is
    /// longer goes by `put_long`.
    ///
    /// ```
    /// # use kioskbasil::{Bus, PutError, Shape};
    /// let (mut senders, _receivers) = Bus::open(Shape::of(1, 1))?;
    /// assert_eq!(senders[0].put(b"hello"), Ok(0));
    /// assert_eq!(senders[0].put(&[0; 57]), Err(PutError::TooLong));
    /// # Ok::<(), kioskbasil::OpenError>(())
    /// ```
    #[inline]
    pub fn put(&mut self, message: &[u8]) -> Result<u64, PutError> {
        let mut number = 0;
        // SAFETY: as in `shown`; a slice's pointer is never null.
        match unsafe { raw::bus_c_put(&mut self.raw, message.as_ptr(), message.len(), &mut number) }
        {
            0 => Ok(number),
            code => Err(PutError::of_code(code)),
        }
    }

    /// Puts the messages that wait in its batch into that of `next`, in their order and behind what
    /// waits there; they wait here too. `next` may be of any bus. Takes no step. So what was not
    /// sent goes on with another sender: put first into the sender of this number of a next
    /// sitting, each message gets the number that it was answered before.
    ///
    /// It gives `Busy` while this sender has begun a tenure, as it has after `Turn::Behind`: its
    /// messages may stand in the order already, or come into it by `finish`. Else it is Ok where
    /// none waits, `BatchFull` where they do not fit beside what waits there, and otherwise what a
    /// put gives. An error changes nothing.
    ///
    /// ```
    /// use kioskbasil::{Bus, PutError, Shape};
    ///
    /// let (mut senders, _receivers) = Bus::open(Shape::of(2, 1))?;
    /// let (mut others, mut receivers) = Bus::open(Shape::of(1, 1))?;
    /// senders[0].put(b"one")?;
    /// senders[1].end_order()?;
    /// assert!(senders[0].send_all(["two"]).is_err());
    /// senders[0].carry_to(&mut others[0])?;
    /// others[0].send_all(["three"])?;
    /// assert_eq!(&receivers[0].next_item().unwrap()[..], b"one");
    /// others[0].end_order()?;
    /// assert_eq!(senders[0].carry_to(&mut others[0]), Err(PutError::Closed));
    /// # Ok::<(), Box<dyn std::error::Error>>(())
    /// ```
    pub fn carry_to(&mut self, next: &mut Sender) -> Result<(), PutError> {
        // SAFETY: as in `shown`; two borrows are of two handles.
        match unsafe { raw::bus_c_carry(&mut self.raw, &mut next.raw) } {
            0 => Ok(()),
            code => Err(PutError::of_code(code)),
        }
    }

    /// Where its bus lies.
    pub(crate) fn bus_place(&mut self) -> *const u8 {
        let mut place = ptr::null();
        // SAFETY: as in `shown`.
        unsafe { raw::bus_c_sender_bus(&mut self.raw, &mut place) };
        place
    }

    pub(crate) fn raw(&mut self) -> &mut raw::RawSender {
        &mut self.raw
    }

    /// Lets an end mark wait, which ends the order once it is sent. Takes no step.
    pub fn close(&mut self) -> Result<(), CloseError> {
        // SAFETY: as in `shown`.
        match unsafe { raw::bus_c_close(&mut self.raw) } {
            0 => {
                self.closes = true;
                Ok(())
            }
            code => Err(CloseError::of_code(code)),
        }
    }

    /// Lets a leave mark wait, which says in the order that this sender has left, once it is sent:
    /// then `send` gives `Left`, and nothing of this sender follows. The others go on, and in a
    /// next sitting it is there again. Takes no step.
    ///
    /// ```
    /// use kioskbasil::{Bus, CloseError, Heard, PutError, Shape, Turn};
    ///
    /// let (mut senders, mut receivers) = Bus::open(Shape::of(2, 1))?;
    /// senders[0].send_all(["my last"])?;
    /// senders[0].leave()?;
    /// assert_eq!(senders[0].put(b"more"), Err(PutError::Closed));
    /// assert_eq!(senders[0].send(), Turn::Left { tenure: 1 });
    /// assert_eq!(senders[0].leave(), Err(CloseError::Closed));
    /// senders[1].send_all(["I stay"])?;
    /// let mut heard = Vec::new();
    /// loop {
    ///     match receivers[0].turn() {
    ///         Heard::Item(item) => heard.push(item.sender),
    ///         Heard::Leave(sender) => assert_eq!((sender, &heard[..]), (0, &[0][..])),
    ///         Heard::Empty => break,
    ///         _ => {}
    ///     }
    /// }
    /// assert_eq!(heard, [0, 1]);
    /// senders[1].end_order()?;
    /// assert_eq!(Bus::end(senders, receivers)?.left[..2], [true, false]);
    /// # Ok::<(), Box<dyn std::error::Error>>(())
    /// ```
    pub fn leave(&mut self) -> Result<(), CloseError> {
        // SAFETY: as in `shown`.
        match unsafe { raw::bus_c_leave(&mut self.raw) } {
            0 => {
                self.leaves = true;
                Ok(())
            }
            code => Err(CloseError::of_code(code)),
        }
    }

    /// One turn: at most one step on one word of the bus, but where a sender was dropped behind
    /// this one: then it also takes the turns that are left of that. `word` is the random word of a
    /// vote.
    pub fn turn(&mut self, word: u32) -> Turn {
        let mut told = raw::TurnAnswer::default();
        // SAFETY: as in `shown`.
        let code = unsafe { raw::bus_c_turn(&mut self.raw, word, &mut told) };
        self.answered(Turn::of(code, told))
    }

    /// Rings where this may be news to others: the page is back, or items are there. The holder of
    /// the page has given them at its first `Behind`.
    fn answered(&mut self, turn: Turn) -> Turn {
        self.behind = match turn {
            Turn::Behind { .. } => self.behind.saturating_add(1),
            _ => 0,
        };
        self.is_within = matches!(turn, Turn::Going | Turn::Own { .. } | Turn::Behind { .. });
        if matches!(turn, Turn::Left { .. }) && !self.has_left {
            self.has_left = true;
            self.shared.note_left();
        }
        if turn == Turn::Closed && !self.has_left {
            self.shared.note_end();
        }
        let is_news = match turn {
            Turn::Delivered { .. } | Turn::Left { .. } | Turn::Full | Turn::Closed => true,
            Turn::Behind { .. } => self.behind == 1,
            _ => false,
        };
        // Behind this one another may have been dropped.
        let is_back = self.shared.finish();
        if is_news || is_back {
            self.bell.ring();
        }
        turn
    }

    /// A turn with this random word, and then turns that use none, up to the first that does not
    /// answer `Going`, which is the answer. `Going` says that the next turn uses a random word. It
    /// waits for nobody.
    ///
    /// ```
    /// use kioskbasil::{Bus, Shape, Turn};
    ///
    /// let (mut senders, _receivers) = Bus::open(Shape::of(1, 1))?;
    /// senders[0].put(b"alone")?;
    /// assert_eq!(senders[0].turns(0), Turn::Own { tenure: 0 });
    /// assert!(matches!(senders[0].turns(0), Turn::Delivered { .. }));
    /// # Ok::<(), Box<dyn std::error::Error>>(())
    /// ```
    pub fn turns(&mut self, word: u32) -> Turn {
        let mut told = raw::TurnAnswer::default();
        // SAFETY: as in `shown`.
        let code = unsafe { raw::bus_c_turns(&mut self.raw, word, u64::MAX, &mut told) };
        self.answered(Turn::of(code, told))
    }

    /// The turns that are left of the tenure that it has begun, so that no other sender waits for
    /// it. None where it has begun none, and then no turn is taken.
    ///
    /// Else it is the answer of the last turn: Delivered or Left; Lost, Waiting (it came too late for
    /// the tenure) or Full, and the batch is kept; or Closed. Or it is Behind, where another sender's
    /// pin is in the way: it holds the page still, and may be asked again. It begins no tenure, and
    /// waits for nobody.
    ///
    /// ```
    /// use kioskbasil::{Bus, Shape, Turn};
    ///
    /// let (mut senders, _receivers) = Bus::open(Shape::of(1, 1))?;
    /// senders[0].put(b"begun")?;
    /// assert_eq!(senders[0].finish(), None);
    /// assert_eq!(senders[0].turn(0), Turn::Going);
    /// let (tenure, first, last) = (0, 0, 0);
    /// assert_eq!(senders[0].finish(), Some(Turn::Delivered { tenure, first, last }));
    /// # Ok::<(), Box<dyn std::error::Error>>(())
    /// ```
    pub fn finish(&mut self) -> Option<Turn> {
        let mut told = raw::TurnAnswer::default();
        // SAFETY: as in `shown`.
        match unsafe { raw::bus_c_finish(&mut self.raw, &mut told) } {
            0 => None,
            code => Some(self.answered(Turn::of(code, told))),
        }
    }

    /// Its last turn answered `Behind`.
    pub(crate) fn is_behind(&self) -> bool {
        self.behind > 0
    }

    /// As `finish`, but that it waits while another sender's pin is in the way: no tenure is begun
    /// when it returns.
    pub(crate) fn settle(&mut self) -> Option<Turn> {
        let mut back_off = BackOff::new(self.waiting);
        loop {
            match self.finish() {
                Some(Turn::Behind { .. }) => back_off.wait_behind(self.behind),
                last => return last,
            }
        }
    }

    /// Turns until Idle, Delivered, Left, Full, Closed or Spent. It waits while another sender has
    /// to go on first.
    #[must_use = "Full and Spent send nothing"]
    pub fn send(&mut self) -> Turn {
        loop {
            let back_off = BackOff::new(self.waiting);
            if let Some(last) = self.send_by(back_off, || true) {
                return last;
            }
        }
    }

    /// As `send`, but that it can be told to stop: each time a turn answers `Waiting` or `Behind`
    /// it asks `go_on`, and gives None where that says no. The batch is kept, and any later turn
    /// goes on with it. After `Behind` this sender holds the page, for which all others wait: so go
    /// on soon, or call `finish`, which also tells which it was. A call that sleeps asks every 10
    /// ms, and once the bell rings: so whoever makes `go_on` say no rings it, and need not wait.
    ///
    /// ```
    /// use kioskbasil::{Bus, Shape, Turn};
    ///
    /// let (mut senders, _receivers) = Bus::open(Shape::of(2, 1))?;
    /// let (anna, bert) = senders.split_at_mut(1);
    /// bert[0].put(b"b")?;
    /// while bert[0].turn(0) != (Turn::Own { tenure: 0 }) {}
    /// anna[0].put(b"a")?;
    /// assert_eq!(anna[0].send_while(|| false), None);
    /// assert_eq!(anna[0].pending(), 1);
    /// assert!(matches!(bert[0].send(), Turn::Delivered { .. }));
    /// assert!(matches!(anna[0].send(), Turn::Delivered { .. }));
    /// # Ok::<(), Box<dyn std::error::Error>>(())
    /// ```
    #[must_use = "None says that it was told to stop; Full and Spent send nothing"]
    pub fn send_while(&mut self, go_on: impl FnMut() -> bool) -> Option<Turn> {
        self.send_by(BackOff::asked(self.waiting), go_on)
    }

    /// As `send`, but that it waits for so long at most, and then gives None. It leaves what
    /// `send_while` leaves that is told to stop: the batch is kept, and any later turn goes on with
    /// it. Whoever does not soon go on calls `finish`: after a `Behind` this sender holds the page,
    /// for which all others wait. `finish` gives None where it does not.
    ///
    /// ```
    /// use kioskbasil::{Bus, Shape, Turn};
    /// use std::time::Duration;
    ///
    /// let (mut senders, _receivers) = Bus::open(Shape::of(2, 1))?;
    /// let (anna, bert) = senders.split_at_mut(1);
    /// bert[0].put(b"b")?;
    /// while bert[0].turn(0) != (Turn::Own { tenure: 0 }) {}
    /// anna[0].put(b"a")?;
    /// assert_eq!(anna[0].send_timeout(Duration::from_millis(5)), None);
    /// assert_eq!((anna[0].finish(), anna[0].pending()), (None, 1));
    /// # Ok::<(), Box<dyn std::error::Error>>(())
    /// ```
    #[must_use = "None says that its time is over; Full and Spent send nothing"]
    pub fn send_timeout(&mut self, time: Duration) -> Option<Turn> {
        self.send_by(BackOff::up_to(self.waiting, time), || true)
    }

    fn send_by(&mut self, mut back_off: BackOff, mut go_on: impl FnMut() -> bool) -> Option<Turn> {
        loop {
            let word = self.random.next();
            match self.turns(word) {
                Turn::Waiting | Turn::Behind { .. } if back_off.is_over() || !go_on() => {
                    return None;
                }
                Turn::Waiting => {
                    back_off.wait(&self.bell, usize::from(self.number));
                }
                Turn::Behind { .. } => back_off.wait_behind(self.behind),
                Turn::Going | Turn::Lost { .. } | Turn::Own { .. } => back_off.carry_on(),
                last => return Some(last),
            }
        }
    }

    /// As `send`, but it waits for nobody: where another sender has to go on first, or there is no
    /// room, that is an error, the batch is kept, and a later call goes on with it. So a worker that
    /// sends and hears goes by a loop of `try_send` and of what hears.
    ///
    /// After `Behind` this sender holds the page, for which all others wait, and its batch may stand
    /// in the order already. So hear what there is, by a call that waits for nothing, and come back.
    ///
    /// ```
    /// use kioskbasil::{Bus, Shape, TrySendError, Turn};
    ///
    /// let (mut senders, mut receivers) = Bus::open_ring(Shape {
    ///     log_words: 16,
    ///     batch: 1,
    ///     ..Shape::of(1, 1)
    /// })?;
    /// for number in 0..100 {
    ///     senders[0].put(&[0; 40])?;
    ///     let turn = loop {
    ///         match senders[0].try_send() {
    ///             Ok(turn) => break turn,
    ///             Err(TrySendError::Full) => while receivers[0].try_item().is_some() {},
    ///             Err(why) => return Err(why.into()),
    ///         }
    ///     };
    ///     assert!(matches!(turn, Turn::Delivered { last, .. } if last == number));
    /// }
    /// # Ok::<(), Box<dyn std::error::Error>>(())
    /// ```
    #[must_use = "an error sends nothing, and neither does Spent"]
    pub fn try_send(&mut self) -> Result<Turn, TrySendError> {
        match self.send_while(|| false) {
            Some(Turn::Full) if self.has_room().is_err() => Err(TrySendError::NeverFits),
            Some(Turn::Full) => Err(TrySendError::Full),
            Some(last) => Ok(last),
            None if self.behind > 0 => Err(TrySendError::Behind),
            None => Err(TrySendError::Waiting),
        }
    }

    /// Whether a batch that waits had room, by a look at the length of the log and, of a ring, at the
    /// passed places of all receivers. It is no turn. True is no promise: another sender may take
    /// that room first. Of a bus that is no ring false is for good. It says nothing of use where
    /// nothing waits, or after `Behind`, and it does not see that the order has ended: a turn does.
    ///
    /// ```
    /// use kioskbasil::{Bus, NeverFits, Shape, Turn};
    ///
    /// let shape = Shape { log_words: 16, batch: 1, ..Shape::of(1, 1) };
    /// let (mut senders, mut receivers) = Bus::open_ring(shape)?;
    /// senders[0].send_all([[0; 56]])?;
    /// senders[0].put(&[1; 56])?;
    /// assert_eq!((senders[0].has_room(), senders[0].send()), (Ok(false), Turn::Full));
    /// while receivers[0].try_item().is_some() {}
    /// assert_eq!(senders[0].has_room(), Ok(true));
    ///
    /// let (mut senders, _receivers) = Bus::open(Shape { batch: 0, ..shape })?;
    /// senders[0].put(&[1; 56])?;
    /// senders[0].put(&[2; 56])?;
    /// assert_eq!(senders[0].has_room(), Err(NeverFits));
    /// # Ok::<(), Box<dyn std::error::Error>>(())
    /// ```
    pub fn has_room(&mut self) -> Result<bool, NeverFits> {
        // SAFETY: as in `shown`.
        match unsafe { raw::bus_c_has_room(&mut self.raw) } {
            0 => Ok(true),
            7 => Ok(false),
            53 => Err(NeverFits),
            code => unreachable!("the archive answered {code}"),
        }
    }

    /// As `send_while`, but that it goes on after `Full`: it waits for room, and sends again. Before
    /// each look for room it asks `go_on` too. So it never gives `Full`. Where the order ends
    /// meanwhile it takes a turn, which says so. Now and then it takes one all the same: after 64
    /// looks, then 128, and so on up to 4,096, and after it has slept for 0.1 s. A batch
    /// that is longer than the log is an error before the first turn. Of a bus that is no ring there
    /// is no more room after `Full`, and the call goes on until it is told to stop, or another sender
    /// ends the order.
    ///
    /// It is for threads that only send: one that has to hear too hears while there is no room, as
    /// with `try_send`.
    ///
    /// ```
    /// use kioskbasil::{Bus, Shape, Turn};
    ///
    /// let shape = Shape { log_words: 16, batch: 1, ..Shape::of(1, 1) };
    /// let (mut senders, mut receivers) = Bus::open_ring(shape)?;
    /// let (mut sender, mut receiver) = (senders.remove(0), receivers.remove(0));
    /// let hears = std::thread::spawn(move || receiver.by_ref().count());
    /// for _ in 0..1000 {
    ///     sender.put(b"8 bytes!")?;
    ///     assert!(matches!(sender.send_when_room(|| true)?, Some(Turn::Delivered { .. })));
    /// }
    /// sender.close()?;
    /// assert_eq!(sender.send_when_room(|| true), Ok(Some(Turn::Closed)));
    /// assert_eq!(hears.join().unwrap(), 1000);
    /// # Ok::<(), Box<dyn std::error::Error>>(())
    /// ```
    #[must_use = "None says that it was told to stop; Spent sends nothing"]
    pub fn send_when_room(
        &mut self,
        go_on: impl FnMut() -> bool,
    ) -> Result<Option<Turn>, NeverFits> {
        self.send_when_room_by(BackOff::asked(self.waiting), go_on)
    }

    /// As `send_when_room`, but that it waits for so long at most, and then gives None. It leaves
    /// what `send_timeout` leaves.
    ///
    /// ```
    /// use kioskbasil::{Bus, Shape};
    /// use std::time::Duration;
    ///
    /// let shape = Shape { log_words: 16, batch: 1, ..Shape::of(1, 1) };
    /// let (mut senders, mut receivers) = Bus::open_ring(shape)?;
    /// senders[0].send_all([[0; 56]])?;
    /// senders[0].put(&[1; 56])?;
    /// let time = Duration::from_millis(5);
    /// assert_eq!(senders[0].send_when_room_timeout(time), Ok(None));
    /// while receivers[0].try_item().is_some() {}
    /// assert!(matches!(senders[0].send_when_room_timeout(time), Ok(Some(_))));
    /// # Ok::<(), Box<dyn std::error::Error>>(())
    /// ```
    #[must_use = "None says that its time is over; Spent sends nothing"]
    pub fn send_when_room_timeout(&mut self, time: Duration) -> Result<Option<Turn>, NeverFits> {
        self.send_when_room_by(BackOff::up_to(self.waiting, time), || true)
    }

    fn send_when_room_by(
        &mut self,
        mut back_off: BackOff,
        mut go_on: impl FnMut() -> bool,
    ) -> Result<Option<Turn>, NeverFits> {
        self.has_room()?;
        let mut most = LEAST_LOOKS;
        loop {
            match self.send_by(back_off.afresh(), &mut go_on) {
                Some(Turn::Full) => {}
                last => return Ok(last),
            }
            if !self.wait_for_room(&mut back_off, most, &mut go_on)? {
                return Ok(None);
            }
            most = (2 * most).min(MOST_LOOKS);
        }
    }

    /// Looks until there is room, or the order is known to have ended, or for so many times, or until
    /// it has slept for 0.1 s. False where it is told to stop, or its time is over.
    fn wait_for_room(
        &mut self,
        back_off: &mut BackOff,
        most: u32,
        mut go_on: impl FnMut() -> bool,
    ) -> Result<bool, NeverFits> {
        for _ in 0..most {
            if back_off.is_over() || !go_on() {
                return Ok(false);
            }
            if self.has_room()? || self.shared.has_ended() {
                back_off.carry_on();
                break;
            }
            if back_off.wait(&self.bell, usize::from(self.number)) {
                break;
            }
        }
        Ok(true)
    }

    /// As `send`, for tasks: where another sender has to go on first, the task is woken once it may
    /// have done so. `Full` is an answer, and no ring need follow it: a task that waits for room goes
    /// by `poll_send_when_room`. Do not poll this again at once, since each `Full` takes a tenure.
    ///
    /// No ring follows where a turn answers `Behind`. Then the task is woken at once, the first 63
    /// times. From then on a thread of the operating system is started, which sleeps in its place
    /// for 0.1 ms, 0.2 ms and so on up to 12.8 ms, and wakes it. A sender has one such thread at
    /// most, however often it is polled, and the waker of the last poll is woken.
    pub fn poll_send(&mut self, context: &mut Context<'_>) -> Poll<Turn> {
        let mut listens = false;
        loop {
            let word = self.random.next();
            match self.turns(word) {
                Turn::Waiting if listens => return Poll::Pending,
                Turn::Waiting => {
                    let place = usize::from(self.number);
                    self.bell.listen(place, context.waker());
                    listens = true;
                }
                Turn::Behind { .. } => {
                    let nap = nap(self.behind);
                    self.sleeper.wake_after(nap, context.waker());
                    return Poll::Pending;
                }
                Turn::Going | Turn::Lost { .. } | Turn::Own { .. } => {}
                last => return Poll::Ready(last),
            }
        }
    }

    /// As `send`, for tasks. `Full` is an answer: `send_when_room_async` waits for room.
    ///
    /// Where the future is dropped the batch is kept, and any later turn goes on with it. It keeps
    /// nobody waiting meanwhile, but where the last turn answered `Behind`. Which it was `finish`
    /// tells: None after `Waiting`, where the batch does not stand in the order, and Some after
    /// `Behind`. So whoever drops the future and does not soon go on calls `finish`, until it gives
    /// something else than `Behind`.
    ///
    /// ```
    /// use kioskbasil::{Bus, Shape, Turn};
    /// use std::future::Future;
    /// use std::task::Context;
    /// # use std::sync::Arc;
    /// # struct Nobody;
    /// # impl std::task::Wake for Nobody {
    /// #     fn wake(self: Arc<Self>) {}
    /// # }
    /// # let waker = std::task::Waker::from(Arc::new(Nobody));
    ///
    /// let (mut senders, _receivers) = Bus::open(Shape::of(2, 1))?;
    /// let (anna, bert) = senders.split_at_mut(1);
    /// bert[0].put(b"b")?;
    /// while bert[0].turn(0) != (Turn::Own { tenure: 0 }) {}
    /// anna[0].put(b"a")?;
    /// let mut sends = Box::pin(anna[0].send_async());
    /// assert!(sends.as_mut().poll(&mut Context::from_waker(&waker)).is_pending());
    /// drop(sends);
    /// assert_eq!((anna[0].finish(), anna[0].pending()), (None, 1));
    /// # Ok::<(), Box<dyn std::error::Error>>(())
    /// ```
    #[allow(unused_attributes)] // before Rust 1.67 the next one said nothing of an async function
    #[must_use = "Full and Spent send nothing"]
    pub async fn send_async(&mut self) -> Turn {
        Polled(|context: &mut Context<'_>| self.poll_send(context)).await
    }

    /// Ready once what waits has room, by a look (`has_room`), or once a turn has something else to
    /// do or to tell: the order has ended, or nothing waits, or a tenure that was begun goes on.
    /// It takes no turn. Else the task is woken where a receiver passes words or is dropped, and
    /// where the order ends. Of a bus that is no ring there is no more room once there was none.
    ///
    /// It is no promise that the next turn finds room: another sender may take that first.
    pub fn poll_room(&mut self, context: &mut Context<'_>) -> Poll<Result<(), NeverFits>> {
        for listens in [false, true] {
            if self.is_turn_due()? {
                return Poll::Ready(Ok(()));
            }
            if !listens {
                let place = usize::from(self.number);
                self.bell.listen(place, context.waker());
            }
        }
        Poll::Pending
    }

    /// A turn is not known to be answered `Full`.
    fn is_turn_due(&mut self) -> Result<bool, NeverFits> {
        let shown = self.shown();
        let mark_waits = (self.closes || self.leaves) && !shown.is_closed;
        let waits = shown.pending > 0 || mark_waits;
        if self.is_within || !waits {
            return Ok(true);
        }
        Ok(self.has_room()? || self.shared.has_ended())
    }

    /// Waits for room, for tasks, as `poll_room` says. Nothing is lost where the future is dropped.
    ///
    /// ```
    /// # use kioskbasil::{NeverFits, Sender, Turn};
    /// async fn send_in_order(sender: &mut Sender) -> Result<Turn, NeverFits> {
    ///     loop {
    ///         sender.room_async().await?;
    ///         match sender.send_async().await {
    ///             Turn::Full => {}
    ///             last => return Ok(last),
    ///         }
    ///     }
    /// }
    /// ```
    pub async fn room_async(&mut self) -> Result<(), NeverFits> {
        Polled(|context: &mut Context<'_>| self.poll_room(context)).await
    }

    /// As `poll_send`, but that it waits for room too, so it never gives `Full`. It looks for room
    /// before each tenure, and takes none while there is none. So `Closed` comes also where the order
    /// ends while it waits. A batch that is longer than the log is an error before the first turn.
    ///
    /// **A task that hears a ring too does both in one poll**: it hears all that there is, until
    /// `poll_item` is pending, and then polls this. That ends, and no wake-up is missed: what the
    /// task has heard keeps no room from it, and where another receiver does, that one wakes the task
    /// as soon as it has heard or is dropped. So the two calls may also stand in two futures of one
    /// task that are polled in turn, as `join` does. A task that awaits room and does not hear
    /// meanwhile may wait for itself for good.
    ///
    /// ```
    /// # use kioskbasil::{Item, NeverFits, Receiver, Sender, Turn};
    /// use std::task::{Context, Poll};
    ///
    /// /// Sends what waits, and hears meanwhile.
    /// fn poll_work(
    ///     sender: &mut Sender,
    ///     receiver: &mut Receiver,
    ///     heard: &mut Vec<Item>,
    ///     context: &mut Context<'_>,
    /// ) -> Poll<Result<Turn, NeverFits>> {
    ///     while let Poll::Ready(Some(item)) = receiver.poll_item(context) {
    ///         heard.push(item);
    ///     }
    ///     sender.poll_send_when_room(context)
    /// }
    /// ```
    ///
    /// `std::future::poll_fn`, which Rust has since 1.64, makes a future of it.
    ///
    /// Of a sink it is what flushes: `put` is what takes a message, and `BatchFull` says that one is
    /// to flush first.
    pub fn poll_send_when_room(
        &mut self,
        context: &mut Context<'_>,
    ) -> Poll<Result<Turn, NeverFits>> {
        while self.poll_room(context)?.is_ready() {
            match self.poll_send(context) {
                Poll::Ready(Turn::Full) => {}
                other => return other.map(Ok),
            }
        }
        Poll::Pending
    }

    /// As `send_when_room`, for tasks that only send: it waits for room by `poll_send_when_room`,
    /// where a task that hears too finds its way. Where the future is dropped it is as with
    /// `send_async`.
    ///
    /// ```
    /// # async fn send(mut sender: kioskbasil::Sender) -> Result<(), Box<dyn std::error::Error>> {
    /// for number in 0..1000u64 {
    ///     sender.put(&number.to_le_bytes())?;
    ///     sender.send_when_room_async().await?;
    /// }
    /// sender.close()?;
    /// sender.send_when_room_async().await?;
    /// # Ok(())
    /// # }
    /// ```
    #[allow(unused_attributes)] // as at `send_async`
    #[must_use = "Spent sends nothing"]
    pub async fn send_when_room_async(&mut self) -> Result<Turn, NeverFits> {
        Polled(|context: &mut Context<'_>| self.poll_send_when_room(context)).await
    }

    /// What the last answer says of what waited, be it messages or a mark.
    fn sent_off(&mut self, last: Turn) -> Result<(), SendError> {
        match last {
            Turn::Closed if self.pending() == 0 => Ok(()),
            Turn::Full | Turn::Closed | Turn::Spent => Err(SendError::Turn(last)),
            _ => Ok(()),
        }
    }

    fn send_off(&mut self) -> Result<(), SendError> {
        let last = self.send();
        self.sent_off(last)
    }

    async fn send_off_async(&mut self) -> Result<(), SendError> {
        let last = self.send_async().await;
        self.sent_off(last)
    }

    /// Sends what waits, a close or a leave too, and then these, in their order, in batches of at
    /// most `batch_limit`. Ok says that nothing waits any more. It does not wait for room: of a
    /// ring, after `Full`, hear and go on with the messages behind `put`.
    ///
    /// ```
    /// use kioskbasil::{Bus, SendError, Shape, Turn};
    ///
    /// let mut shape = Shape::of(2, 1);
    /// shape.log_words = 16;
    /// let (mut senders, _receivers) = Bus::open(shape)?;
    /// senders[0].send_all([&[1; 56][..], &[2; 40]])?;
    /// senders[1].leave()?;
    /// let nothing: [&str; 0] = [];
    /// assert_eq!(senders[1].send_all(nothing).unwrap_err().why, SendError::Turn(Turn::Full));
    /// # Ok::<(), Box<dyn std::error::Error>>(())
    /// ```
    pub fn send_all<M: AsRef<[u8]>>(
        &mut self,
        messages: impl IntoIterator<Item = M>,
    ) -> Result<(), Unsent> {
        let mut put = 0;
        self.send_off().map_err(|why| Unsent { put, why })?;
        for message in messages {
            if is_full(put, self.most) {
                self.send_off().map_err(|why| Unsent { put, why })?;
            }
            let taken = self.put(message.as_ref()).map_err(SendError::Put);
            taken.map_err(|why| Unsent { put, why })?;
            put += 1;
        }
        self.send_off().map_err(|why| Unsent { put, why })
    }

    /// As `send_all`, for tasks. Where the future is dropped the batch keeps what it has, and the
    /// messages behind are not put.
    pub async fn send_all_async<M: AsRef<[u8]>>(
        &mut self,
        messages: impl IntoIterator<Item = M>,
    ) -> Result<(), Unsent> {
        let mut put = 0;
        self.send_off_async()
            .await
            .map_err(|why| Unsent { put, why })?;
        for message in messages {
            if is_full(put, self.most) {
                self.send_off_async()
                    .await
                    .map_err(|why| Unsent { put, why })?;
            }
            let taken = self.put(message.as_ref()).map_err(SendError::Put);
            taken.map_err(|why| Unsent { put, why })?;
            put += 1;
        }
        self.send_off_async()
            .await
            .map_err(|why| Unsent { put, why })
    }

    /// Closes, and sends that: Ok where the order has ended then, also by another sender, and nothing
    /// waits with this one. After an error `Close` nothing has changed. After `Turn` the close waits,
    /// and another call goes on with it; so it does where `close` was called before. But after
    /// `Turn(Turn::Closed)` another sender has ended the order, and messages wait that are not sent
    /// any more: `carry_to` takes them along.
    ///
    /// ```
    /// use kioskbasil::{Bus, SendError, Shape, Turn};
    ///
    /// let mut shape = Shape::of(2, 1);
    /// shape.log_words = 16;
    /// let (mut senders, _receivers) = Bus::open(shape)?;
    /// senders[0].send_all([&[1; 56][..], &[2; 40]])?;
    /// for _ in 0..2 {
    ///     assert_eq!(senders[1].end_order(), Err(SendError::Turn(Turn::Full)));
    /// }
    /// # Ok::<(), Box<dyn std::error::Error>>(())
    /// ```
    pub fn end_order(&mut self) -> Result<(), SendError> {
        self.begin_to_end()?;
        let last = self.send();
        self.ended_by(last)
    }

    /// As `end_order`, for tasks. Where the future is dropped the close waits, and another call
    /// goes on with it.
    pub async fn end_order_async(&mut self) -> Result<(), SendError> {
        self.begin_to_end()?;
        let last = self.send_async().await;
        self.ended_by(last)
    }

    /// Lets a close wait. Where the order has ended, as some sender was told, turns tell this one
    /// so, whatever it waits for and knows.
    fn begin_to_end(&mut self) -> Result<(), SendError> {
        if self.closes {
            return Ok(());
        }
        match self.close() {
            Err(why) if !self.shared.has_ended() => Err(SendError::Close(why)),
            _ => Ok(()),
        }
    }

    fn ended_by(&mut self, last: Turn) -> Result<(), SendError> {
        match last {
            Turn::Closed if self.pending() == 0 => Ok(()),
            other => Err(SendError::Turn(other)),
        }
    }
}

/// After so many messages, put one by one and sent off where the batch was full, which has so many
/// at most, it is full again.
fn is_full(put: usize, most: u64) -> bool {
    put > 0 && put as u64 % most == 0
}
