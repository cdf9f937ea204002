//! A broadcast bus between threads, over the archive of `crates/bus_c`. `VERSION` says whether the
//! archive that is linked is proved.
//!
//! Up to 64 senders put messages of up to 56 bytes, or of up to 880 by `put_long`. All of them stand
//! in one order, and each of up to 64 receivers hears all of it. A call that takes turns, as
//! `try_send` and `try_item`, waits for no turn of another sender or receiver. `send`, `send_all`,
//! `end_order` and `next_item` go on as long as it takes; that they end is not promised. A thread
//! that waits sleeps until the `Bell` of its bus rings (`Waiting`). `send_while` and
//! `next_item_while` can be told to stop, and `send_timeout` and `next_item_timeout` wait for so
//! long at most. In async code `send_async`, `send_all_async`, `end_order_async` and
//! `next_item_async` wait in any executor, and `send_when_room_async` waits for room too.
//!
//! Behind a turn that is news to others its call rings. Where somebody listens it takes the mutex of
//! the bell, and then calls the wakers. Another handle notes its waker under that mutex, and may take
//! memory meanwhile. So a thread that is stopped there stops those that ring. The turns that are left
//! of a sender that was dropped behind another one are taken under a mutex too.
//!
//! **Who sends and hears a ring must hear while it is answered `Full`.** The log of a ring
//! (`Bus::open_ring`) is used again, so it serves on when it is full: `Full` is to be tried again,
//! and the batch is kept. `try_send` waits for nobody, and `send_when_room` is for threads that only
//! send. What a task does that sends and hears stands at `Sender::poll_send_when_room`. A ring has
//! room for its longest batch, or is refused. In a log that is no ring a batch that is longer is
//! `Full` for good, and its sender then neither sends, closes nor leaves: give it 129 words or
//! more, or count the words of a batch before each put.
//!
//! A receiver joins while the bus runs by `Receiver::fork` of another.
//!
//! Dropping senders ends no order: `Sender::end_order` does, or the last drop after
//! `Sender::end_with_senders`.
//!
//! The election of the next sender is wait-free: each takes a stated number of its own turns. The
//! append is not, since the sender that is elected holds the page as one holds a lock. If it stops
//! there, all others wait for good.
//!
//! ```
//! use kioskbasil::{Bus, Shape};
//!
//! let (mut senders, mut receivers) = Bus::open(Shape::of(2, 1))?;
//! let (mut anna, mut bert) = (senders.remove(0), senders.remove(0));
//! let berts = std::thread::spawn(move || bert.send_all(["from bert"]).map(|()| bert));
//! anna.send_all(["hello", "world"])?;
//! let bert = berts.join().unwrap()?;
//! anna.end_order()?;
//! let mut heard = 0;
//! while let Some(item) = receivers[0].next_item() {
//!     println!("{} says {:?}", item.sender, String::from_utf8_lossy(&item));
//!     heard += 1;
//! }
//! assert_eq!(heard, 3);
//! let ended = Bus::end([anna, bert], receivers)?;
//! assert_eq!(ended.counts[..2], [2, 1]);
//! # Ok::<(), Box<dyn std::error::Error>>(())
//! ```
//!
//! Who replicates a state between workers takes `replica`, whose calls do all of that: `execute` puts
//! an operation, and gives what it answers at its place in the order. Who wants the order on disk
//! hears it by frames, and records them in a `journal`.
//!
//! What is proved is said of the archive's functions (`crates/bus_c`). Trusted besides are this
//! crate, which has the `unsafe` code so that its users need none, the compilers and the C library.

mod bell;
mod errors;
pub mod journal;
mod long;
mod raw;
mod receivers;
pub mod replica;
mod senders;
mod shared;
mod sizes;
mod waiting;

pub use bell::Bell;
pub use errors::{
    CloseError, EndError, ForkError, NeverFits, NumbersError, OpenError, OtherBus, PageError,
    PutError, SendError, TrySendError, Unsent,
};
pub use long::{LongItem, NextLong, NotLong, PutLongError, MOST_LONG_BYTES};
pub use receivers::{Body, Frame, Heard, Item, Next, NextFrame, NextItems, Receiver};
pub use senders::{Sender, Turn};
pub use sizes::{room_to_close, tenures_needed, words_needed};
pub use waiting::Waiting;

use shared::Shared;
use std::sync::Arc;

/// The version, and whether the archive that is linked is proved: `0.1.0, proved, ..` or `0.1.0, NOT
/// PROVED, ..`. Of the archive that the variable KIOSKBASIL_ARCHIVE names it is not known.
pub const VERSION: &str = concat!(env!("CARGO_PKG_VERSION"), ", ", env!("KIOSKBASIL_PROOF"));

/// Senders of a bus: at most 64.
pub const MOST_SENDERS: usize = 64;

/// Receivers of a bus: at most 64.
pub const MOST_RECEIVERS: usize = 64;

/// Bytes of a message: at most 56.
pub const MOST_BYTES: usize = 56;

/// Messages that wait in a batch: at most 64.
pub const MOST_MESSAGES: usize = 64;

/// Messages that wait in a batch of a bus whose log is no ring: at most 16.
pub const LOG_MESSAGES: usize = 16;

/// From this number on no next sitting goes on: 65,536 words of a log may take as many numbers.
const END_OF_NUMBERS: u64 = (1 << 48) - 65_536;

/// The sizes of a bus.
#[derive(Clone, Copy, Debug, PartialEq, Eq)]
pub struct Shape {
    /// 1 to 64 (`MOST_SENDERS`).
    pub senders: usize,
    /// 1 to 64 (`MOST_RECEIVERS`).
    pub receivers: usize,
    /// Rounds of one binary decision: 1 to 8. Any number is safe, and 2 are usual.
    pub rounds: u64,
    /// Tenures of the sitting: 1 to 256; where rows are used again 2 to 8. A batch takes one, a
    /// close and a leave too.
    pub rows: u64,
    /// Words of the whole order, of a ring those that stand at once: 16 to 65,536, and of a ring
    /// with batches of B messages 1 + 8 B at least. A batch takes 1, a message 1 and one for each 8
    /// bytes begun, a close or a leave 2. So a full batch of 16 messages of 56 bytes has 129, and
    /// one of 64 has 513.
    pub log_words: u64,
    /// Rows of words are used again, by up to 2^40 tenures.
    pub again: bool,
    /// The log is a ring (`Bus::open_ring`): its words are used again, and so are its rows, whatever
    /// `again` says.
    pub ring: bool,
    /// Messages of one batch: of a ring 1 to 64, else 16. 0, as `Shape::of` has it, says the most:
    /// 64 of a ring, 16 else.
    pub batch: u64,
}

impl Shape {
    /// So many senders and so many receivers, with 2 rounds, 8 rows that are used again, the
    /// longest log, and batches of the most messages.
    pub fn of(senders: usize, receivers: usize) -> Shape {
        Shape {
            senders,
            receivers,
            rounds: 2,
            rows: 8,
            log_words: 65_536,
            again: true,
            ring: false,
            batch: 0,
        }
    }

    /// As many receivers as senders, and else as `of`. So are replicas opened, of which each
    /// worker has one (`replica::Replicas::open`).
    ///
    /// ```
    /// # use kioskbasil::Shape;
    /// assert_eq!(Shape::of_workers(3), Shape::of(3, 3));
    /// ```
    pub fn of_workers(workers: usize) -> Shape {
        Shape::of(workers, workers)
    }

    /// How many messages a batch has at most.
    fn most_messages(&self) -> u64 {
        match (self.batch, self.ring) {
            (0, true) => MOST_MESSAGES as u64,
            (0, false) => LOG_MESSAGES as u64,
            (batch, _) => batch,
        }
    }
}

/// With which numbers the next sitting goes on, and whether the order before it has ended. It is
/// made of what a bus left behind, by `Bus::senders_page` while the senders are kept, or of numbers
/// that a program has kept in a way of its own.
#[derive(Clone, Copy, Debug, PartialEq, Eq)]
pub struct Page {
    next: [u64; MOST_SENDERS],
    has_ended: bool,
}

impl Page {
    /// The page of what a bus left behind. So `Bus::open_after` takes an `Ended` too.
    pub fn after(ended: &Ended) -> Page {
        Page {
            next: ended.next,
            has_ended: ended.ended,
        }
    }

    /// A page of the number that the next item of each sender would have, from sender 0 on; those
    /// that are not named begin with 0. So a program goes on that has kept the numbers in a file.
    /// That they are those of an order that has ended is the caller's word: where another number is
    /// given, two items may have one number.
    ///
    /// Each number is below 2^48 - 65,536. A ring with batches of B messages goes on below 2^48 -
    /// B * (2^40 + 1) alone, which `Bus::open_after` tells.
    ///
    /// ```
    /// use kioskbasil::{Bus, NumbersError, Page, Shape};
    ///
    /// let page = Page::from_numbers(&[7, 0])?;
    /// let (mut senders, _receivers) = Bus::open_after(Shape::of(2, 1), page)?;
    /// assert_eq!(senders[0].put(b"goes on"), Ok(7));
    /// assert_eq!(Page::from_numbers(&[1 << 48]), Err(NumbersError::Numbers));
    /// # Ok::<(), Box<dyn std::error::Error>>(())
    /// ```
    pub fn from_numbers(next: &[u64]) -> Result<Page, NumbersError> {
        if next.is_empty() || next.len() > MOST_SENDERS {
            return Err(NumbersError::Senders);
        }
        if next.iter().any(|&number| number >= END_OF_NUMBERS) {
            return Err(NumbersError::Numbers);
        }
        let mut page = Page {
            next: [0; MOST_SENDERS],
            has_ended: true,
        };
        page.next[..next.len()].copy_from_slice(next);
        Ok(page)
    }

    /// The number that the next item of each sender would have.
    pub fn next_numbers(&self) -> &[u64; MOST_SENDERS] {
        &self.next
    }

    /// The order before has ended. No bus goes on from a page that says no.
    pub fn has_ended(&self) -> bool {
        self.has_ended
    }
}

impl From<&Ended> for Page {
    /// As `Page::after`.
    fn from(ended: &Ended) -> Page {
        Page::after(ended)
    }
}

/// What a bus leaves behind, for reading. Who goes on with numbers of its own makes a `Page`.
#[derive(Clone, Debug, PartialEq, Eq)]
#[non_exhaustive]
pub struct Ended {
    /// The words of its log; of a ring those that stand, from `floor` on.
    pub log: Vec<u64>,
    /// Of a ring: how many words of the order do not stand any more. 0 of another bus.
    pub floor: u64,
    /// How many items of each sender the whole order has.
    pub counts: [u64; MOST_SENDERS],
    /// The number of each sender's first item: 0 after `Bus::open`.
    pub bases: [u64; MOST_SENDERS],
    /// The number that the next item of each sender would have: its base and its count.
    pub next: [u64; MOST_SENDERS],
    /// How many tenures have ended.
    pub tenures: u64,
    /// The order has ended: the end mark stands in it.
    pub ended: bool,
    /// Which senders have left.
    pub left: [bool; MOST_SENDERS],
}

/// How a bus is opened and ended. Its handles have it together.
#[derive(Debug)]
pub enum Bus {}

impl Bus {
    /// Opens a bus: a handle for each of its senders and receivers, in the order of their numbers.
    ///
    /// ```
    /// use kioskbasil::{Bus, OpenError, Shape};
    ///
    /// assert_eq!(Bus::open(Shape::of(65, 1)).unwrap_err(), OpenError::Senders);
    /// ```
    pub fn open(shape: Shape) -> Result<(Vec<Sender>, Vec<Receiver>), OpenError> {
        Bus::opened(shape, None)
    }

    /// Opens a bus whose log is a ring: its words are used again once all receivers have passed
    /// them, so it is not over when they are full. **Who sends and hears must hear while it is
    /// answered `Full`**: that says that there is no room by now, and the batch is kept. A receiver
    /// that is not needed any more is dropped: it leaves. One that neither hears nor is dropped
    /// keeps all senders without room for good.
    ///
    /// Its log is as long as its longest batch at least: 1 + 8 B words for batches of B messages,
    /// so 513 where `batch` is 0 or 64. Else the answer is `ShortRing`.
    ///
    /// It is `open` with `ring` set in the shape; with that `open_after` opens one too.
    ///
    /// ```
    /// use kioskbasil::{Bus, SendError, Shape, TrySendError, Turn};
    ///
    /// // A worker: it sends, and hears meanwhile.
    /// let shape = Shape { log_words: 17, batch: 2, ..Shape::of(1, 1) };
    /// let (mut senders, mut receivers) = Bus::open_ring(shape)?;
    /// let (sender, receiver) = (&mut senders[0], &mut receivers[0]);
    /// let mut heard = Vec::new();
    /// for number in 0..1000u64 {
    ///     sender.put(&number.to_le_bytes())?;
    ///     loop {
    ///         match sender.try_send() {
    ///             Ok(Turn::Delivered { .. }) => break,
    ///             Ok(other) => return Err(SendError::Turn(other).into()),
    ///             // A turn for nothing takes a tenure: it looks for room while it hears.
    ///             Err(TrySendError::Full) => while !sender.has_room()? && !receiver.has_ended() {
    ///                 if receiver.hear(&mut heard) == 0 { std::thread::yield_now(); }
    ///             },
    ///             Err(TrySendError::NeverFits) => return Err(TrySendError::NeverFits.into()),
    ///             Err(_) => if receiver.hear(&mut heard) == 0 { std::thread::yield_now(); },
    ///         }
    ///     }
    /// }
    /// receiver.hear(&mut heard);
    /// assert_eq!(heard.len(), 1000);
    /// assert!(heard.iter().all(|item| item[..] == item.number.to_le_bytes()));
    /// # Ok::<(), Box<dyn std::error::Error>>(())
    /// ```
    pub fn open_ring(shape: Shape) -> Result<(Vec<Sender>, Vec<Receiver>), OpenError> {
        Bus::open(Shape {
            ring: true,
            ..shape
        })
    }

    /// Opens the next sitting: a bus whose senders go on with the next numbers of the bus that left
    /// this, once its order has ended. Nothing else of it is carried over, and the shape may be
    /// another.
    ///
    /// ```
    /// use kioskbasil::{Bus, Shape};
    ///
    /// let (mut senders, receivers) = Bus::open(Shape::of(1, 1))?;
    /// senders[0].send_all(["one", "two"])?;
    /// senders[0].end_order()?;
    /// let ended = Bus::end(senders, receivers)?;
    /// let (mut senders, _receivers) = Bus::open_after(Shape::of(1, 1), &ended)?;
    /// assert_eq!(senders[0].put(b"three"), Ok(2));
    /// # Ok::<(), Box<dyn std::error::Error>>(())
    /// ```
    pub fn open_after(
        shape: Shape,
        before: impl Into<Page>,
    ) -> Result<(Vec<Sender>, Vec<Receiver>), OpenError> {
        let page = before.into();
        let left = raw::Left {
            next: page.next,
            ended: page.has_ended,
            ..raw::Left::NONE
        };
        Bus::opened(shape, Some(&left))
    }

    /// The page of a sitting whose order has ended, by all senders of its bus, in their order, once
    /// each was answered `Closed` or `Left`. They stay as they are: so open the next sitting after
    /// it, and carry to that what waits with them.
    ///
    /// ```
    /// use kioskbasil::{Bus, PageError, Shape, Turn};
    ///
    /// let (mut senders, _receivers) = Bus::open(Shape::of(2, 1))?;
    /// assert_eq!(senders[0].put(b"late"), Ok(0));
    /// senders[1].end_order()?;
    /// assert_eq!(Bus::senders_page(&mut senders), Err(PageError::Unanswered));
    /// assert_eq!(senders[0].send(), Turn::Closed);
    /// let page = Bus::senders_page(&mut senders)?;
    /// let (mut after, mut receivers) = Bus::open_after(Shape::of(2, 1), page)?;
    /// senders[0].carry_to(&mut after[0])?;
    /// after[0].send_all(["more"])?;
    /// assert_eq!(receivers[0].next_item().map(|item| item.number), Some(0));
    /// # Ok::<(), Box<dyn std::error::Error>>(())
    /// ```
    pub fn senders_page<'a>(
        senders: impl IntoIterator<Item = &'a mut Sender>,
    ) -> Result<Page, PageError> {
        let mut senders: Vec<_> = senders.into_iter().collect();
        let many = senders.len() as u64;
        let first = senders.first_mut().ok_or(PageError::NotEnded)?;
        let place = first.bus_place();
        let mut left = raw::Left::NONE;
        // SAFETY: the handle is that of a `Sender`, and the pointer is of a value of this function.
        match unsafe { raw::bus_c_begin_page(first.raw(), many, &mut left) } {
            0 => {}
            code => return Err(PageError::of_code(code)),
        }
        for (number, sender) in senders.into_iter().enumerate() {
            if sender.bus_place() != place {
                return Err(PageError::OtherBus);
            }
            // SAFETY: as above.
            match unsafe { raw::bus_c_note_sender(sender.raw(), number as u64, &mut left) } {
                0 => {}
                code => return Err(PageError::of_code(code)),
            }
        }
        if !left.ended {
            return Err(PageError::NotEnded);
        }
        Ok(Page {
            next: left.next,
            has_ended: left.ended,
        })
    }

    fn opened(
        shape: Shape,
        before: Option<&raw::Left>,
    ) -> Result<(Vec<Sender>, Vec<Receiver>), OpenError> {
        if shape.senders == 0 || shape.senders > MOST_SENDERS {
            return Err(OpenError::Senders);
        }
        if shape.receivers == 0 || shape.receivers > MOST_RECEIVERS {
            return Err(OpenError::Receivers);
        }
        let sizes = raw::Sizes {
            rounds: shape.rounds,
            rows: shape.rows,
            log_words: shape.log_words,
            again: shape.again,
            ring: shape.ring,
            batch: shape.batch,
        };
        let mut senders = [raw::RawSender::NONE; MOST_SENDERS];
        let mut receivers = [raw::RawReceiver::NONE; MOST_RECEIVERS];
        let (sending, hearing) = (senders.as_mut_ptr(), receivers.as_mut_ptr());
        let (many, ears) = (shape.senders, shape.receivers);
        // SAFETY: the pointers lead to so many empty handles of this function.
        let code = unsafe {
            match before {
                None => raw::bus_c_open(&sizes, sending, many, hearing, ears),
                Some(left) => raw::bus_c_open_after(&sizes, left, sending, many, hearing, ears),
            }
        };
        if code != 0 {
            return Err(OpenError::of_code(code));
        }
        let (bell, shared) = (Bell::default(), Arc::new(Shared::of(many)));
        let senders = senders.into_iter().take(many);
        let receivers = receivers.into_iter().take(ears).enumerate();
        Ok((
            senders
                .map(|raw| Sender::of_raw(raw, &shape, &bell, &shared))
                .collect(),
            receivers
                .map(|(number, raw)| Receiver::of_raw(raw, number, &shape, &bell, &shared))
                .collect(),
        ))
    }

    /// Ends a bus by all handles that are left of it. Each sender takes the turns that are left of
    /// its tenure first.
    ///
    /// ```
    /// use kioskbasil::{Bus, EndError, Shape};
    ///
    /// let (senders, mut receivers) = Bus::open(Shape::of(1, 2))?;
    /// let kept = receivers.pop();
    /// assert_eq!(Bus::end(senders, receivers).unwrap_err(), EndError::InUse);
    /// # drop(kept);
    /// # Ok::<(), kioskbasil::OpenError>(())
    /// ```
    pub fn end(
        senders: impl IntoIterator<Item = Sender>,
        receivers: impl IntoIterator<Item = Receiver>,
    ) -> Result<Ended, EndError> {
        senders.into_iter().for_each(drop);
        let mut receivers = receivers.into_iter();
        let last = receivers.next().ok_or(EndError::NoReceiver)?;
        receivers.for_each(drop);
        last.end()
    }
}
