//! A state that workers replicate: one call for each operation.
//!
//! Each worker has a `Replica`, which is a state with a sender and a receiver of one bus.
//! Operations of all workers, each of 0 to 880 bytes, go to all replicas in one order, and each
//! applies all of them. So a worker reads memory of its own. `execute` gives what an operation
//! answers, `state` what is applied by now, and `latest` all that any worker was answered before.
//!
//! ```
//! use kioskbasil::replica::{Replica, ReplicaError, Replicas, State};
//! use kioskbasil::Shape;
//! use std::thread;
//!
//! /// A counter: an operation adds its bytes to it, and answers what it is then.
//! #[derive(PartialEq, Debug)]
//! struct Counter(u64);
//!
//! impl State for Counter {
//!     type Answer = u64;
//!     fn apply(&mut self, _from: u32, operation: &[u8]) -> u64 {
//!         self.0 += operation.iter().map(|byte| u64::from(*byte)).sum::<u64>();
//!         self.0
//!     }
//! }
//!
//! fn work(mut replica: Replica<Counter>) -> Result<Counter, ReplicaError> {
//!     for _ in 0..100 {
//!         replica.submit(&[1])?;
//!         let then = replica.execute(&[2])?;
//!         assert!(replica.latest()?.0 >= then);
//!     }
//!     replica.finish()
//! }
//!
//! let replicas = Replicas::open(Shape::of_workers(3), || Counter(0))?;
//! let workers: Vec<_> = replicas.into_iter().map(|it| thread::spawn(|| work(it))).collect();
//! for worker in workers {
//!     assert_eq!(worker.join().unwrap(), Ok(Counter(900)));
//! }
//! # Ok::<(), Box<dyn std::error::Error>>(())
//! ```
//!
//! **A worker that is kept and not asked** holds the others up once the ring is full: so it calls
//! `hear` now and then, or `hear_timeout` where it has nothing else to do. One that is dropped
//! holds up nobody.
//!
//! **The end.** `finish` gives the state once all workers have left. It is `leave` and then
//! `into_state`. A `leave_timeout` that comes to `MissingWorker` keeps the replica, and a further
//! call goes on.
//!
//! **Panics.** Where `apply` panics the replica is poisoned: it leaves the bus at once, its state
//! stays as the panic left it, and each later call but `state` and `into_state` answers
//! `Poisoned`. The operation stands in the order, so each replica comes to it: where it panics in
//! one for what it is, it does in all. The others go on, and for their `leave` and `finish` the
//! poisoned one has left.
//!
//! **A run on disk.** `Replicas::open_recorded` gives one more receiver, whose frames a thread
//! writes to a `journal`. Behind `execute` a worker waits until its operation is on disk:
//! `watch.wait(replica.words())?`. After a crash `replay` makes the first state of the next
//! sitting, which goes on with the journal's numbers. An operation on which `apply` panics stands
//! in the journal, and panics again there: so refuse what is wrong by an answer.

mod calls;
mod errors;
mod replaying;
mod seat;
mod tasks;
#[cfg(test)]
mod tests;
mod told;

pub use errors::ReplicaError;
pub use replaying::replay;

use crate::{Bell, Bus, OpenError, Page, Receiver, Sender, Shape, Waiting, MOST_MESSAGES};
use seat::Seat;
use std::fmt;
use std::sync::Arc;
use told::Told;

/// What is replicated. Replicas are equal where `apply` gives the same on equal states: it may
/// look at nothing but its arguments.
pub trait State {
    /// What an operation answers.
    type Answer;

    /// Applies the operation of these bytes, at most 880, of the worker of this number.
    fn apply(&mut self, from: u32, operation: &[u8]) -> Self::Answer;
}

/// How replicas are opened.
#[derive(Debug)]
pub enum Replicas {}

impl Replicas {
    /// Opens a bus with a replica for each of its senders, in the order of their numbers:
    /// `Shape::of_workers(3)` is for three. Its log is a ring with batches of 64 messages, and it
    /// has as many receivers as senders, whatever `shape` says of these. So the log has 513 words
    /// or more. All first states are to be equal.
    ///
    /// An `OpenError` where `shape` is of no bus, or memory was refused.
    pub fn open<S: State>(
        shape: Shape,
        first: impl FnMut() -> S,
    ) -> Result<Vec<Replica<S>>, OpenError> {
        let (senders, receivers) = Bus::open_ring(Shape {
            receivers: shape.senders,
            batch: MOST_MESSAGES as u64,
            ..shape
        })?;
        Ok(seated(senders, receivers, first))
    }

    /// As `open`, over a bus that goes on with the numbers of this page, and with one more
    /// receiver, which hears whole frames for a journal (`Receiver::next_frame`). The page is that
    /// of the last sitting's journal, and of the first sitting `Page::from_numbers(&[0])`. All
    /// first states are what `replay` makes of the journals before.
    ///
    /// That receiver is given None once each replica has left, was dropped or is poisoned, and all
    /// was recorded. So join its thread behind that. A replica that is kept and has not left keeps
    /// it waiting. If the receiver is kept and not asked it stops all workers once the ring is
    /// full. If it is dropped nothing more is recorded, and the workers go on.
    ///
    /// As of `open`, and `OpenError::NotEnded` or `Numbers` where the page does not fit. 64
    /// workers are `Receivers`: at most 63 are recorded.
    ///
    /// ```
    /// use kioskbasil::journal::{self, Header, Journal, JournalError, SyncPolicy};
    /// use kioskbasil::replica::{replay, Replicas, State};
    /// use kioskbasil::{Page, Shape};
    ///
    /// #[derive(Clone)]
    /// struct Sum(u64);
    /// impl State for Sum {
    ///     type Answer = u64;
    ///     fn apply(&mut self, _from: u32, operation: &[u8]) -> u64 {
    ///         self.0 += u64::from(operation[0]);
    ///         self.0
    ///     }
    /// }
    ///
    /// let (shape, page) = (Shape::of_workers(2), Page::from_numbers(&[0])?);
    /// let (mut replicas, mut ear) = Replicas::open_recorded(shape, &page, || Sum(0))?;
    /// let header = Header::after(2, &page)?;
    /// let mut journal = Journal::on(Vec::new(), header, SyncPolicy::EachFrame)?;
    /// let watch = journal.watch();
    /// let records = std::thread::spawn(move || {
    ///     while let Some(frame) = ear.next_frame() {
    ///         journal.write(&frame)?;
    ///     }
    ///     Ok::<_, JournalError>(journal.into_file())
    /// });
    /// let sum = replicas[1].execute(&[7])?;
    /// watch.wait(replicas[1].words())?;
    /// println!("{sum} is on disk");
    /// drop(replicas);
    ///
    /// // The next sitting.
    /// let read = journal::read_from(&records.join().unwrap()?[..])?;
    /// let (page, mut sum) = (read.page()?, Sum(0));
    /// replay(&mut sum, read.frames())?;
    /// let (mut replicas, _ear) = Replicas::open_recorded(shape, &page, || sum.clone())?;
    /// assert_eq!((replicas[1].submit(&[1]), replicas[1].execute(&[1])), (Ok(1), Ok(9)));
    /// # Ok::<(), Box<dyn std::error::Error>>(())
    /// ```
    pub fn open_recorded<S: State>(
        shape: Shape,
        page: &Page,
        first: impl FnMut() -> S,
    ) -> Result<(Vec<Replica<S>>, Receiver), OpenError> {
        let shape = Shape {
            receivers: shape.senders.saturating_add(1),
            ring: true,
            batch: MOST_MESSAGES as u64,
            ..shape
        };
        let (senders, mut receivers) = Bus::open_after(shape, *page)?;
        senders[0].end_with_senders();
        let recorder = receivers.remove(shape.senders);
        let replicas = seated(senders, receivers, first);
        Ok((replicas, recorder))
    }
}

/// A replica for each sender, with the receiver of its number.
fn seated<S: State>(
    senders: Vec<Sender>,
    receivers: Vec<Receiver>,
    mut first: impl FnMut() -> S,
) -> Vec<Replica<S>> {
    let told = Arc::new(Told::of(senders.len()));
    let pairs = senders.into_iter().zip(receivers);
    let replicas = pairs.map(|(sender, receiver)| Replica {
        number: u32::from(sender.number()),
        bell: sender.bell().clone(),
        waiting: Waiting::default(),
        seat: Some(Seat::new(sender, receiver, &told)),
        words: 0,
        state: first(),
    });
    replicas.collect()
}

/// A worker's replica of a state, with the sender and the receiver by which it takes part. It may
/// go to another thread, and one thread at a time has it.
///
/// Between two calls it keeps nobody waiting, and so it is behind one that panics: no tenure stays
/// begun. One that is dropped leaves: what it had not sent is lost, and `leave` and `finish` of
/// the others wait for it no more.
pub struct Replica<S: State> {
    number: u32,
    bell: Bell,
    waiting: Waiting,
    /// None where it is poisoned.
    seat: Option<Seat>,
    /// All that it has applied stands in so many words of the log.
    words: u64,
    state: S,
}

impl<S: State> fmt::Debug for Replica<S> {
    fn fmt(&self, f: &mut fmt::Formatter<'_>) -> fmt::Result {
        f.debug_struct("Replica")
            .field("number", &self.number)
            .finish_non_exhaustive()
    }
}

/// An operation that a replica has applied.
#[derive(Clone, Copy, Debug, PartialEq, Eq)]
pub struct Applied<A> {
    /// The worker whose operation it was.
    pub from: u32,
    /// Its number among the operations of that worker, as `submit` gave it.
    pub number: u64,
    /// What it answered in this replica.
    pub answer: A,
}

impl<S: State> Replica<S> {
    /// The number of its worker, from 0 on.
    pub fn number(&self) -> u32 {
        self.number
    }

    /// The state by all that it has applied so far. In a poisoned replica it is as the panic left
    /// it.
    #[inline]
    pub fn state(&self) -> &S {
        &self.state
    }

    /// How many words of the log its state has: all that it has applied stands in these. Behind
    /// `execute` they end with that operation's frame; else there may be more of them, with
    /// operations that it applies next.
    ///
    /// What `execute` answers, and what a state shows, stands in the order. In a crash it may be
    /// lost all the same, until a journal has it on disk (`Replicas::open_recorded`). So who tells
    /// somebody of it waits before: `watch.wait(replica.words())?` returns once all of these words
    /// are on disk (`journal::Watch`). The worker hears nothing meanwhile, which holds the others
    /// up where the ring is full.
    #[inline]
    pub fn words(&self) -> u64 {
        self.words
    }

    /// The bell of its bus. Whoever makes a closure say no rings it, so that who sleeps asks.
    pub fn bell(&self) -> &Bell {
        &self.bell
    }

    /// Sets how its calls wait; at first by `Waiting::Sleep`.
    pub fn set_waiting(&mut self, waiting: Waiting) {
        self.waiting = waiting;
        if let Some(seat) = &mut self.seat {
            seat.sender.set_waiting(waiting);
            seat.receiver.set_waiting(waiting);
        }
    }

    fn seat(&mut self) -> Result<&mut Seat, ReplicaError> {
        self.seat.as_mut().ok_or(ReplicaError::Poisoned)
    }
}
