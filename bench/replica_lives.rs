//! Random lives of replicas, for bench/rust_lives.rs.

use crate::{locked, say, so_often, survived, then_panics, Dice, Survived};
use kioskbasil::replica::{replay, Replica, ReplicaError, Replicas, State};
use kioskbasil::{Frame, OpenError, Page, Receiver, Shape, Waiting, MOST_LONG_BYTES};
use std::future::Future;
use std::iter;
use std::panic;
use std::pin::Pin;
use std::sync::atomic::{AtomicU64, Ordering::SeqCst};
use std::sync::{Arc, Mutex};
use std::task::{Context, Poll, Wake, Waker};
use std::thread::{self, Thread};
use std::time::Duration;

/// What the replicas of a life share.
#[derive(Default)]
struct Shared {
    /// The order as far as anybody has applied it: the workers and tags of operations.
    order: Mutex<Vec<(u32, u64)>>,
    /// How long the order is that somebody was answered or has seen.
    seen: AtomicU64,
}

/// What one replica has applied.
struct Book {
    shared: Arc<Shared>,
    /// How many operations, and of each worker 1 more than the last tag.
    applied: usize,
    next: [u64; 8],
    last: (u32, u64),
    panics_at: Option<usize>,
}

/// How many bits of a tag say how long its operation is.
const LENGTH_BITS: u32 = 10;

/// An operation: a tag, and bytes that go by it.
fn operation(worker: u32, tag: u64) -> Vec<u8> {
    let length = tag % (1 << LENGTH_BITS);
    let filler = (8..length).map(|at| (tag + at) as u8 ^ worker as u8);
    tag.to_le_bytes().into_iter().chain(filler).collect()
}

impl State for Book {
    /// Its place in the order.
    type Answer = usize;

    fn apply(&mut self, from: u32, bytes: &[u8]) -> usize {
        if self.panics_at == Some(self.applied) {
            panic::resume_unwind(Box::new(Survived));
        }
        let tag = u64::from_le_bytes(bytes[..8].try_into().unwrap());
        assert_eq!(bytes, operation(from, tag), "the bytes");
        let next = &mut self.next[from as usize];
        assert!(tag >= *next, "an operation twice, or too late");
        *next = tag + 1;
        let (name, mut order) = ((from, tag), locked(&self.shared.order));
        match order.get(self.applied) {
            Some(first) => assert_eq!(*first, name, "two orders"),
            None => order.push(name),
        }
        self.last = name;
        self.applied += 1;
        self.applied - 1
    }
}

/// Wakes a thread that polls.
struct Unparks(Thread);

impl Wake for Unparks {
    fn wake(self: Arc<Self>) {
        self.0.unpark();
    }
}

/// Polls a future so many times at most; between two it sleeps until it is woken, or not at all.
fn polled<T>(future: impl Future<Output = T>, most: u64, sleeps: bool) -> Option<T> {
    let mut future: Pin<Box<dyn Future<Output = T> + '_>> = Box::pin(future);
    let waker = Waker::from(Arc::new(Unparks(thread::current())));
    for _ in 0..most {
        if let Poll::Ready(made) = future.as_mut().poll(&mut Context::from_waker(&waker)) {
            return Some(made);
        }
        if sleeps {
            thread::park();
        }
    }
    None
}

struct Worker {
    replica: Replica<Book>,
    shared: Arc<Shared>,
    dice: Dice,
    tag: u64,
    /// The number of what it has submitted last.
    number: Option<u64>,
    /// Tags that are put for sure and not sent for sure, and those that are sent.
    put: Vec<u64>,
    sent: Vec<u64>,
}

impl Worker {
    fn next(&mut self) -> (u64, Vec<u8>) {
        let most = self.dice.of_these(&[9, 55, 120, MOST_LONG_BYTES as u64]);
        let length = 8 + self.dice.below(most - 7);
        self.tag = ((self.tag >> LENGTH_BITS) + 1) << LENGTH_BITS | length;
        (self.tag, operation(self.replica.number(), self.tag))
    }

    /// One that is longer than any may be is refused, and changes nothing.
    fn put_too_long(&mut self) {
        let bytes = [0; MOST_LONG_BYTES + 1];
        assert_eq!(self.replica.submit(&bytes), Err(ReplicaError::TooLong));
        assert_eq!(self.replica.execute(&bytes), Err(ReplicaError::TooLong));
    }

    fn pause(&mut self) -> Duration {
        Duration::from_micros(self.dice.below(300))
    }

    /// What a call came to that executes. None where it panicked in its closure.
    fn executed(&mut self, tag: u64, told: Option<Result<usize, ReplicaError>>) {
        match told {
            Some(Ok(place)) => {
                let book = self.replica.state();
                assert_eq!(book.applied, place + 1, "it is not the last one");
                assert_eq!(book.last, (self.replica.number(), tag), "another answer");
                self.shared.seen.fetch_max(place as u64 + 1, SeqCst);
                self.put.push(tag);
                self.has_flushed();
            }
            Some(Err(why)) => assert_eq!(why, ReplicaError::Stopped),
            None => self.is_poisoned_or_goes_on(),
        }
    }

    /// Behind a panic that was survived: of its closure, or of `apply`, which ends its work.
    fn is_poisoned_or_goes_on(&mut self) {
        if self.replica.hear() == Err(ReplicaError::Poisoned) {
            panic::resume_unwind(Box::new(Survived));
        }
    }

    fn has_flushed(&mut self) {
        self.sent.append(&mut self.put);
    }

    fn submitted(&mut self, tag: u64, told: Option<Result<u64, ReplicaError>>) {
        match told {
            Some(Ok(number)) => {
                assert!(Some(number) > self.number, "a number twice");
                self.number = Some(number);
                self.put.push(tag);
            }
            Some(Err(why)) => assert_eq!(why, ReplicaError::Stopped),
            None => self.is_poisoned_or_goes_on(),
        }
    }

    fn execute(&mut self) {
        let ((tag, bytes), pause) = (self.next(), self.pause());
        let (asks, replica) = (1 + self.dice.below(6), &mut self.replica);
        let told = match self.dice.below(8) {
            0 => Some(replica.execute_while(&bytes, so_often(asks))),
            1 => survived(|| replica.execute_while(&bytes, then_panics(asks))),
            2 => Some(replica.execute_timeout(&bytes, pause)),
            3 => polled(replica.execute_async(&bytes), asks, false),
            4 => polled(replica.execute_async(&bytes), u64::MAX, true),
            _ => Some(replica.execute(&bytes)),
        };
        self.executed(tag, told);
    }

    fn submit(&mut self) {
        let ((tag, bytes), pause) = (self.next(), self.pause());
        let (asks, replica) = (1 + self.dice.below(6), &mut self.replica);
        let told = match self.dice.below(6) {
            0 => Some(replica.submit_while(&bytes, so_often(asks))),
            1 => survived(|| replica.submit_while(&bytes, then_panics(asks))),
            2 => Some(replica.submit_timeout(&bytes, pause)),
            _ => Some(replica.submit(&bytes)),
        };
        self.submitted(tag, told);
    }

    fn flush(&mut self) {
        let (pause, asks) = (self.pause(), 1 + self.dice.below(6));
        let replica = &mut self.replica;
        let told = match self.dice.below(5) {
            0 => replica.flush_while(so_often(asks)),
            1 => replica.flush_timeout(pause),
            2 => polled(replica.flush_async(), asks, false).unwrap_or(Err(ReplicaError::Stopped)),
            _ => replica.flush(),
        };
        match told {
            Ok(()) => self.has_flushed(),
            Err(why) => assert_eq!(why, ReplicaError::Stopped),
        }
    }

    fn read(&mut self) {
        let (pause, asks) = (self.pause(), 1 + self.dice.below(6));
        let due = self.shared.seen.load(SeqCst);
        match self.dice.below(6) {
            0 => drop(self.replica.hear().unwrap()),
            1 => drop(self.replica.hear_while(so_often(asks)).unwrap()),
            2 => drop(self.replica.hear_timeout(pause).unwrap()),
            3 => drop(polled(self.replica.next_applied_async(), asks, false)),
            _ => {
                let latest = self.replica.latest().unwrap().applied as u64;
                assert!(latest >= due, "a stale read");
            }
        }
        let applied = self.replica.state().applied as u64;
        self.shared.seen.fetch_max(applied, SeqCst);
    }

    /// So many calls.
    fn work(&mut self, calls: u64) {
        for _ in 0..calls {
            match self.dice.below(10) {
                0..=3 => self.execute(),
                4..=6 => self.submit(),
                7 => self.flush(),
                8 => self.read(),
                _ if self.dice.one_in(4) => self.put_too_long(),
                _ => {
                    let all = [
                        Waiting::Spin,
                        Waiting::Yield,
                        Waiting::Sleep,
                        Waiting::Sleep,
                    ];
                    self.replica.set_waiting(self.dice.of_these(&all));
                    thread::sleep(self.pause());
                }
            }
        }
    }

    /// The calls of its life, and how it ends: all that it has applied, if it has finished, and the
    /// tags of what it is sure to have sent.
    fn live(mut self, calls: u64) -> (Option<usize>, u32, Vec<u64>) {
        let number = self.replica.number();
        if survived(|| self.work(calls)).is_none() {
            let poisoned = Err(ReplicaError::Poisoned);
            assert_eq!(self.replica.hear(), poisoned, "it is not poisoned");
            thread::sleep(self.pause());
            return (None, number, self.sent);
        }
        if self.dice.one_in(3) {
            return self.leave_and_end();
        }
        let (pause, asks) = (self.pause(), 1 + self.dice.below(60));
        let replica = self.replica;
        let told = match self.dice.below(8) {
            0 => return (None, number, self.sent),
            1 => {
                thread::spawn(move || drop(replica));
                return (None, number, self.sent);
            }
            2 => survived(|| replica.finish_while(so_often(asks))),
            3 => survived(|| replica.finish_while(then_panics(asks))),
            4 => survived(|| replica.finish_timeout(pause)),
            _ => survived(|| replica.finish()),
        };
        let mut sent = self.sent;
        let finished = match told {
            Some(Ok(book)) => {
                sent.append(&mut self.put);
                Some(book.applied)
            }
            Some(Err(ReplicaError::Stopped | ReplicaError::MissingWorker(_))) | None => None,
            Some(Err(why)) => panic!("finish: {why}"),
        };
        (finished, number, sent)
    }

    /// As `live`, by calls that leave, and then the state.
    fn leave_and_end(mut self) -> (Option<usize>, u32, Vec<u64>) {
        let (number, most) = (self.replica.number(), [1, 2, 11, u64::MAX]);
        let most = self.dice.of_these(&most);
        let has_left = survived(|| self.leave(most));
        if has_left.is_none() {
            let poisoned = Err(ReplicaError::Poisoned);
            assert_eq!(self.replica.hear(), poisoned, "it is not poisoned");
        }
        let applied = self.replica.into_state().applied;
        let finished = (has_left == Some(true)).then(|| applied);
        (finished, number, self.sent)
    }

    /// Leaves by so many calls at most, most of which are told to stop. Behind some that are stopped
    /// before its mark was taken it puts more. Says whether one was Ok.
    fn leave(&mut self, most: u64) -> bool {
        let (mut is_leaving, mut puts) = (false, self.dice.below(5));
        for _ in 0..most {
            let (pause, asks) = (self.pause(), 1 + self.dice.below(6));
            let replica = &mut self.replica;
            let told = match self.dice.below(6) {
                0 => Some(replica.leave_while(so_often(asks))),
                1 => survived(|| replica.leave_while(then_panics(asks))),
                2 if most < u64::MAX => Some(replica.leave()),
                _ => Some(replica.leave_timeout(pause)),
            };
            match told {
                Some(Ok(())) => {
                    self.has_flushed();
                    assert_eq!(self.replica.hear(), Ok(0), "there is more than all");
                    return true;
                }
                Some(Err(ReplicaError::Stopped)) => {
                    assert!(!is_leaving, "its mark is lost");
                    if puts > 0 {
                        self.submit();
                        puts -= 1;
                    }
                }
                Some(Err(ReplicaError::MissingWorker(_))) => {
                    is_leaving = true;
                    self.is_leaving();
                }
                Some(Err(why)) => panic!("leave: {why}"),
                None => self.is_poisoned_or_goes_on(),
            }
        }
        false
    }

    /// Behind a leave whose mark was taken: it has sent all, puts nothing more, and reads.
    fn is_leaving(&mut self) {
        self.has_flushed();
        let (_, bytes) = self.next();
        assert_eq!(self.replica.submit(&bytes), Err(ReplicaError::Ended));
        assert_eq!(self.replica.execute(&bytes), Err(ReplicaError::Ended));
        if self.dice.one_in(4) {
            self.read();
        }
    }
}

/// Opens replicas, and where they are recorded the receiver for that.
fn opened(
    shape: Shape,
    is_recorded: bool,
    first: impl FnMut() -> Book,
) -> Result<(Vec<Replica<Book>>, Option<Receiver>), OpenError> {
    if !is_recorded {
        return Ok((Replicas::open(shape, first)?, None));
    }
    let page = Page::from_numbers(&[0, 7]).unwrap();
    let (replicas, ear) = Replicas::open_recorded(shape, &page, first)?;
    Ok((replicas, Some(ear)))
}

/// All frames, up to the end.
fn record(mut ear: Receiver) -> Vec<Frame> {
    iter::from_fn(|| ear.next_frame()).collect()
}

/// A life of replicas; how many operations it had.
pub fn life(dice: &mut Dice) -> usize {
    let shape = Shape {
        rounds: 1 + dice.below(3),
        rows: 2 + dice.below(7),
        log_words: dice.of_these(&[513, 514, 520, 600, 1024, 4096]),
        ..Shape::of(1 + dice.below(8) as usize, 1)
    };
    let (calls, panics) = (dice.below(150), dice.one_in(3));
    let is_recorded = dice.one_in(2);
    say(format!(
        "{shape:?}, calls {calls}, panics {panics}, recorded {is_recorded}"
    ));
    let shared = Arc::<Shared>::default();
    let first = || Book {
        shared: shared.clone(),
        applied: 0,
        next: [0; 8],
        last: (0, 0),
        panics_at: None,
    };
    let made = opened(shape, is_recorded, || {
        let panics_at = Some(dice.below(200) as usize).filter(|_| panics && dice.one_in(2));
        Book {
            panics_at,
            ..first()
        }
    });
    let start = |replica| {
        let worker = Worker {
            replica,
            shared: shared.clone(),
            dice: dice.other(),
            tag: 0,
            number: None,
            put: Vec::new(),
            sent: Vec::new(),
        };
        thread::spawn(move || worker.live(calls))
    };
    let (replicas, ear) = made.unwrap();
    let records = ear.map(|ear| thread::spawn(|| record(ear)));
    let threads: Vec<_> = replicas.into_iter().map(start).collect();
    let ended: Vec<_> = threads.into_iter().map(|it| it.join().unwrap()).collect();
    if let Some(records) = records {
        let (frames, mut book) = (records.join().unwrap(), first());
        replay(&mut book, &frames).unwrap();
        let applied = locked(&shared.order).len();
        assert_eq!(book.applied, applied, "an operation is not recorded");
    }
    let order = locked(&shared.order);
    for (finished, number, sent) in ended {
        assert!(
            finished.map_or(true, |applied| applied == order.len()),
            "one has less"
        );
        if finished.is_some() {
            let mut own = order.iter().filter(|it| it.0 == number).map(|it| it.1);
            let is_there = |tag: &u64| own.any(|it| it == *tag);
            assert!(sent.iter().all(is_there), "an operation is lost");
        }
    }
    order.len()
}
