//! A replica whose sender is behind another one, which no public call makes for sure; and those
//! that leave.

use super::{Replica, ReplicaError, Replicas, State};
use crate::{Shape, Turn};
use std::future::Future;
use std::panic::{self, AssertUnwindSafe};
use std::pin::Pin;
use std::sync::atomic::{AtomicUsize, Ordering};
use std::sync::Arc;
use std::task::{Context, Poll, Wake, Waker};
use std::thread;
use std::time::Duration;

const A_WHILE: Duration = Duration::from_millis(30);

/// How many operations one replica has applied, and at which it panics.
struct Count {
    applied: Arc<AtomicUsize>,
    panics_at: Option<usize>,
}

impl State for Count {
    type Answer = usize;

    fn apply(&mut self, _from: u32, _operation: &[u8]) -> usize {
        let before = self.applied.load(Ordering::SeqCst);
        if self.panics_at == Some(before) {
            panic!("asked to");
        }
        self.applied.store(before + 1, Ordering::SeqCst);
        before
    }
}

/// Two replicas over two rows. The second shows its presence in the first tenure and stops there;
/// the first has sent since, so that what it sends next finds it behind.
fn one_behind_another(panics_at: Option<usize>) -> (Replica<Count>, Replica<Count>) {
    let shape = Shape {
        rows: 2,
        rounds: 1,
        ..Shape::of(2, 2)
    };
    let first = || Count {
        applied: Arc::default(),
        panics_at: None,
    };
    let mut replicas = Replicas::open(shape, first).unwrap();
    let (mut anna, mut bert) = (replicas.remove(0), replicas.remove(0));
    anna.state.panics_at = panics_at;
    let seat = bert.seat().unwrap();
    assert_eq!(seat.put(b"late"), Ok(Some(0)));
    for _ in 0..3 {
        assert_eq!(seat.sender.turn(0), Turn::Going);
    }
    assert_eq!(anna.execute(b"y").unwrap(), 0);
    (anna, bert)
}

/// Waits until the operation of the first that is behind stands in the order.
fn hears_it(bert: &mut Replica<Count>) {
    while bert.state.applied.load(Ordering::SeqCst) < 2 {
        bert.hear_timeout(A_WHILE).unwrap();
    }
    thread::sleep(A_WHILE);
}

/// Has the second go on, and finds that it waits for nobody then.
fn goes_on(bert: &mut Replica<Count>) -> usize {
    bert.execute(b"last").unwrap()
}

#[test]
fn a_call_applies_nothing_and_does_not_return_while_it_is_behind() {
    let (mut anna, mut bert) = one_behind_another(None);
    let applied = anna.state.applied.clone();
    let executes = thread::spawn(move || {
        let place = anna.execute(b"z").unwrap();
        assert_eq!(anna.seat().unwrap().sender.finish(), None);
        place
    });
    hears_it(&mut bert);
    assert_eq!(applied.load(Ordering::SeqCst), 1);
    assert!(!executes.is_finished());
    assert_eq!(bert.seat().unwrap().send(), Ok(false));
    assert_eq!((executes.join().unwrap(), goes_on(&mut bert)), (1, 3));
}

#[test]
fn a_panic_of_apply_finds_no_tenure_begun() {
    let (mut anna, mut bert) = one_behind_another(Some(1));
    let executes = thread::spawn(move || {
        let fails = AssertUnwindSafe(|| anna.execute(b"z"));
        assert!(panic::catch_unwind(fails).is_err());
        anna
    });
    hears_it(&mut bert);
    assert_eq!(goes_on(&mut bert), 3);
    let mut anna = executes.join().unwrap();
    assert!(anna.seat().is_err());
    assert_eq!(goes_on(&mut bert), 4);
}

/// A replica leaves by calls that are told to stop at once, until one of them is Ok.
fn leaves_bit_by_bit(replica: &mut Replica<Count>) {
    loop {
        match replica.leave_while(|| false) {
            Ok(()) => return,
            Err(ReplicaError::MissingWorker(_)) => thread::yield_now(),
            Err(why) => panic!("leave: {why}"),
        }
    }
}

/// Two replicas over a ring of so many words.
fn two(log_words: u64) -> (Replica<Count>, Replica<Count>) {
    let shape = Shape {
        log_words,
        ..Shape::of_workers(2)
    };
    let first = || Count {
        applied: Arc::default(),
        panics_at: None,
    };
    let mut replicas = Replicas::open(shape, first).unwrap();
    (replicas.remove(0), replicas.remove(0))
}

fn applied(replica: &Replica<Count>) -> usize {
    replica.state().applied.load(Ordering::SeqCst)
}

const MISSES_BERT: Result<(), ReplicaError> = Err(ReplicaError::MissingWorker(1));

#[test]
fn all_leave_and_have_the_same() {
    let (anna, bert) = two(513);
    let works = |mut replica: Replica<Count>| {
        for _ in 0..50 {
            replica.submit(b"x").unwrap();
            replica.execute(b"y").unwrap();
        }
        replica.submit(b"z").unwrap();
        assert_eq!((replica.leave(), applied(&replica)), (Ok(()), 202));
        assert_eq!((replica.leave(), replica.hear()), (Ok(()), Ok(0)));
        replica.into_state().applied.load(Ordering::SeqCst)
    };
    let other = thread::spawn(move || works(bert));
    assert_eq!((works(anna), other.join().unwrap()), (202, 202));
}

#[test]
fn a_further_leave_goes_on_where_a_worker_was_missing() {
    let (mut anna, mut bert) = two(513);
    anna.submit(b"x").unwrap();
    assert_eq!(anna.leave_while(|| false), MISSES_BERT);
    assert_eq!(anna.leave_timeout(A_WHILE), MISSES_BERT);
    assert_eq!(bert.execute(b"y").unwrap(), 1);
    let leaves = thread::spawn(move || {
        thread::sleep(A_WHILE);
        (bert.leave(), applied(&bert))
    });
    assert_eq!((anna.leave(), applied(&anna)), (Ok(()), 2));
    assert_eq!(leaves.join().unwrap(), (Ok(()), 2));
    assert_eq!(anna.finish().unwrap().applied.load(Ordering::SeqCst), 2);
}

/// It hears, and is read, but it puts nothing more. What others put it has still to hear.
#[test]
fn one_that_has_left_puts_nothing_and_reads_on() {
    let (mut anna, mut bert) = two(513);
    assert_eq!(anna.execute(b"x").unwrap(), 0);
    assert_eq!(anna.leave_while(|| false), MISSES_BERT);
    assert_eq!(anna.submit(b"y"), Err(ReplicaError::Ended));
    assert_eq!(anna.execute(b"y").err(), Some(ReplicaError::Ended));
    let waker = Waker::from(Arc::new(Nobody));
    let mut context = Context::from_waker(&waker);
    let mut future = Box::pin(anna.execute_async(b"y"));
    let polled = future.as_mut().poll(&mut context);
    assert_eq!(polled, Poll::Ready(Err(ReplicaError::Ended)));
    drop(future);
    assert_eq!(anna.submit(&[0; 881]), Err(ReplicaError::TooLong));
    assert_eq!((anna.flush(), applied(&anna)), (Ok(()), 1));
    for count in 1..100 {
        assert_eq!(bert.execute(b"z").unwrap(), count);
        match count % 3 {
            0 => assert_eq!(anna.hear(), Ok(1)),
            1 => drop(anna.latest().unwrap()),
            _ => assert!(anna.poll_applied(&mut context).is_ready()),
        }
        assert_eq!(applied(&anna), count + 1);
    }
    assert_eq!((bert.leave(), anna.leave()), (Ok(()), Ok(())));
    assert_eq!((applied(&anna), applied(&bert)), (100, 100));
}

/// The ring is full with an operation that waits. So the leave is stopped before its mark was
/// taken, and operations can be put still. One that is stopped in `submit` is not put.
#[test]
fn a_further_leave_goes_on_where_an_operation_waited() {
    let (mut anna, mut bert) = two(513);
    let mut put = 0;
    while anna.submit_while(b"operate", || false).is_ok() {
        put += 1;
    }
    for _ in 0..3 {
        let stopped = Err(ReplicaError::Stopped);
        assert_eq!(anna.leave_timeout(Duration::ZERO), stopped);
        assert_eq!(anna.leave_while(|| false), stopped);
        let submitted = anna.submit_timeout(b"operate", Duration::ZERO);
        assert_eq!(submitted, Err(ReplicaError::Stopped));
    }
    let hears = thread::spawn(move || {
        while applied(&bert) < put {
            bert.hear_timeout(A_WHILE).unwrap();
        }
        bert
    });
    assert_eq!(anna.flush(), Ok(()));
    let mut bert = hears.join().unwrap();
    assert_eq!(anna.submit(b"operate"), Ok(put as u64));
    let leaves = thread::spawn(move || (bert.leave(), applied(&bert)));
    assert_eq!((anna.leave(), applied(&anna)), (Ok(()), put + 1));
    assert_eq!(leaves.join().unwrap(), (Ok(()), put + 1));
}

/// So many operations by themselves, each of three words, leave one word of a ring of 514.
const ALL_BUT_A_WORD: usize = 171;

/// The operations leave one word of the ring, and a leave mark takes two. So the first has not left
/// itself, as long as the second does not hear.
#[test]
fn a_further_leave_goes_on_where_the_mark_had_no_room() {
    let (mut anna, mut bert) = two(514);
    for count in 0..ALL_BUT_A_WORD {
        assert_eq!(anna.execute(b"operate").unwrap(), count);
    }
    for _ in 0..3 {
        let misses_anna = Err(ReplicaError::MissingWorker(0));
        assert_eq!(anna.leave_while(|| false), misses_anna);
        assert_eq!(anna.submit(b"operate"), Err(ReplicaError::Ended));
    }
    assert_eq!(
        (bert.hear(), anna.leave_while(|| false)),
        (Ok(ALL_BUT_A_WORD), MISSES_BERT)
    );
    assert_eq!(bert.execute(b"operate").unwrap(), ALL_BUT_A_WORD);
    let leaves = thread::spawn(move || leaves_bit_by_bit(&mut bert));
    leaves_bit_by_bit(&mut anna);
    leaves.join().unwrap();
    assert_eq!(applied(&anna), ALL_BUT_A_WORD + 1);
}

/// `into_state` without a leave, or in the middle of one, leaves as a drop does.
#[test]
fn a_state_may_be_taken_before_all_have_left() {
    for leaves in [false, true] {
        let (mut anna, mut bert) = two(514);
        for _ in 0..ALL_BUT_A_WORD {
            anna.execute(b"operate").unwrap();
        }
        if leaves {
            assert!(anna.leave_while(|| false).is_err());
        }
        let state = anna.into_state();
        assert_eq!(state.applied.load(Ordering::SeqCst), ALL_BUT_A_WORD);
        assert_eq!((bert.leave(), applied(&bert)), (Ok(()), ALL_BUT_A_WORD));
    }
    let (mut anna, bert) = two(513);
    drop(bert);
    anna.state.panics_at = Some(1);
    anna.submit(b"x").unwrap();
    anna.submit(b"y").unwrap();
    assert!(panic::catch_unwind(AssertUnwindSafe(|| anna.leave())).is_err());
    assert_eq!(anna.leave(), Err(ReplicaError::Poisoned));
    assert_eq!(anna.into_state().applied.load(Ordering::SeqCst), 1);
}

struct Panics;

impl Wake for Panics {
    fn wake(self: Arc<Self>) {
        panic!("asked to");
    }
}

/// The answer that it has left is lost there, and is told by the next turn.
#[test]
fn a_further_leave_goes_on_where_a_waker_panics() {
    let (mut anna, mut bert) = two(513);
    let waker = Waker::from(Arc::new(Panics));
    assert!(bert
        .poll_applied(&mut Context::from_waker(&waker))
        .is_pending());
    let leaves = AssertUnwindSafe(|| anna.leave_while(|| false));
    assert!(panic::catch_unwind(leaves).is_err());
    assert_eq!(anna.leave_while(|| false), MISSES_BERT);
    assert_eq!((bert.leave(), anna.leave()), (Ok(()), Ok(())));
}

struct Nobody;

impl Wake for Nobody {
    fn wake(self: Arc<Self>) {}
}

#[test]
fn the_drop_of_a_future_takes_the_rest_of_its_tenure() {
    let (mut anna, mut bert) = one_behind_another(None);
    let applied = anna.state.applied.clone();
    let drops = thread::spawn(move || {
        let waker = Waker::from(Arc::new(Nobody));
        let mut future: Pin<Box<dyn Future<Output = _> + '_>> = Box::pin(anna.execute_async(b"z"));
        for _ in 0..3 {
            let polled = future.as_mut().poll(&mut Context::from_waker(&waker));
            assert!(polled.is_pending());
        }
        drop(future);
        assert_eq!(anna.seat().unwrap().sender.finish(), None);
        anna
    });
    thread::sleep(A_WHILE);
    assert_eq!(
        (applied.load(Ordering::SeqCst), drops.is_finished()),
        (1, false)
    );
    assert_eq!(goes_on(&mut bert), 3);
    let mut anna = drops.join().unwrap();
    assert_eq!(anna.execute(b"again").unwrap(), 4);
}
