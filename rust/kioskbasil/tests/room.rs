//! Tasks that wait for the room of a ring: each is woken, and none sleeps for good. A task that is
//! not woken for some seconds is a failure here.

mod common;

use common::ring;
use kioskbasil::{Bus, Item, NeverFits, Receiver, Sender, Shape, Turn};
use std::future::Future;
use std::pin::Pin;
use std::sync::atomic::{AtomicUsize, Ordering};
use std::sync::Arc;
use std::task::{Context, Poll, Wake, Waker};
use std::thread::{self, Thread};
use std::time::{Duration, Instant};

const A_WHILE: Duration = Duration::from_millis(30);
const LONGEST: Duration = Duration::from_secs(5);

/// A thread that a task runs on, and how often the task was woken.
struct Runs(Thread, AtomicUsize);

impl Wake for Runs {
    fn wake(self: Arc<Self>) {
        self.1.fetch_add(1, Ordering::SeqCst);
        self.0.unpark();
    }
}

/// Runs a task here, and gives what it came to, and how often it was woken.
fn counted<T>(work: impl Future<Output = T>) -> (T, usize) {
    let mut work: Pin<Box<dyn Future<Output = T> + '_>> = Box::pin(work);
    let runs = Arc::new(Runs(thread::current(), AtomicUsize::new(0)));
    let waker = Waker::from(runs.clone());
    loop {
        let before = runs.1.load(Ordering::SeqCst);
        if let Poll::Ready(it) = work.as_mut().poll(&mut Context::from_waker(&waker)) {
            return (it, runs.1.load(Ordering::SeqCst));
        }
        let asleep = Instant::now();
        while runs.1.load(Ordering::SeqCst) == before {
            assert!(asleep.elapsed() < LONGEST, "nothing wakes this task");
            thread::park_timeout(LONGEST);
        }
    }
}

/// Runs a task here.
fn run<T>(work: impl Future<Output = T>) -> T {
    counted(work).0
}

/// The future of what is polled by a function.
struct Polled<F>(F);

impl<T, F: FnMut(&mut Context<'_>) -> Poll<T> + Unpin> Future for Polled<F> {
    type Output = T;

    fn poll(mut self: Pin<&mut Self>, context: &mut Context<'_>) -> Poll<T> {
        (self.0)(context)
    }
}

fn is_delivered(sent: Result<Turn, NeverFits>) -> bool {
    matches!(sent, Ok(Turn::Delivered { .. }))
}

/// Sends what waits, and hears meanwhile, in one task.
async fn send_and_hear(
    sender: &mut Sender,
    receiver: &mut Receiver,
    heard: &mut Vec<Item>,
) -> Result<Turn, NeverFits> {
    Polled(|context: &mut Context<'_>| {
        while let Poll::Ready(Some(item)) = receiver.poll_item(context) {
            heard.push(item);
        }
        sender.poll_send_when_room(context)
    })
    .await
}

/// A task sends and hears a ring. It has heard all that there is, and another receiver is behind:
/// it waits for the room that this one makes, and hears nothing then.
#[test]
fn a_task_that_sends_and_hears_is_woken_by_another_that_hears() {
    let (mut senders, mut receivers) = ring(1, 2, 16);
    let (mut sender, mut other) = (senders.remove(0), receivers.remove(1));
    let mut own = receivers.remove(0);
    thread::scope(|scope| {
        scope.spawn(move || {
            for _ in 0..6 {
                thread::sleep(A_WHILE);
                while other.try_item().is_some() {}
            }
        });
        let mut heard = Vec::new();
        run(async {
            for message in 0..6 {
                sender.put(&[message; 40]).unwrap();
                let sent = send_and_hear(&mut sender, &mut own, &mut heard).await;
                assert!(is_delivered(sent));
            }
        });
        own.hear(&mut heard);
        let messages: Vec<u8> = heard.iter().map(|item| item[0]).collect();
        assert_eq!(messages, [0, 1, 2, 3, 4, 5]);
    });
}

/// The same by two futures of one task, which are polled in turn. In the end the sender closes.
#[test]
fn a_task_sends_in_one_future_and_hears_in_another() {
    let (mut senders, mut receivers) = ring(1, 2, 16);
    let (mut sender, mut other) = (senders.remove(0), receivers.remove(1));
    let mut own = receivers.remove(0);
    thread::scope(|scope| {
        scope.spawn(move || {
            for _ in 0..7 {
                thread::sleep(A_WHILE);
                while other.try_item().is_some() {}
            }
        });
        let mut sends = Box::pin(async {
            for message in 0..6 {
                sender.put(&[message; 40]).unwrap();
                assert!(is_delivered(sender.send_when_room_async().await));
            }
            sender.close().unwrap();
            assert_eq!(sender.send_when_room_async().await, Ok(Turn::Closed));
        });
        let mut hears = Box::pin(async {
            let mut heard = Vec::new();
            while let Some(item) = own.next_item_async().await {
                heard.push(item[0]);
            }
            heard
        });
        let mut is_sent = false;
        let heard = run(Polled(|context: &mut Context<'_>| {
            is_sent = is_sent || sends.as_mut().poll(context).is_ready();
            match hears.as_mut().poll(context) {
                Poll::Ready(heard) if is_sent => Poll::Ready(heard),
                Poll::Ready(_) => panic!("the end before it was told to the sender"),
                Poll::Pending => Poll::Pending,
            }
        }));
        assert_eq!(heard, [0, 1, 2, 3, 4, 5]);
    });
}

/// Tasks that each send and hear a small ring, on threads of their own, up to the end.
#[test]
fn workers_in_tasks_over_a_ring() {
    const WORKERS: usize = 3;
    const MANY: u64 = 500;
    let (senders, receivers) = ring(WORKERS, WORKERS, 17);
    let done = AtomicUsize::new(0);
    let work = |mut sender: Sender, mut receiver: Receiver| {
        run(async {
            let mut heard = Vec::new();
            for number in 0..MANY {
                sender.put(&number.to_le_bytes()).unwrap();
                let sent = send_and_hear(&mut sender, &mut receiver, &mut heard).await;
                assert!(is_delivered(sent));
            }
            if done.fetch_add(1, Ordering::SeqCst) == WORKERS - 1 {
                sender.close().unwrap();
                let sent = send_and_hear(&mut sender, &mut receiver, &mut heard).await;
                assert_eq!(sent, Ok(Turn::Closed));
            }
            while let Some(item) = receiver.next_item_async().await {
                heard.push(item);
            }
            heard
        })
    };
    let heard: Vec<Vec<Item>> = thread::scope(|scope| {
        let start = |(sender, receiver)| scope.spawn(move || work(sender, receiver));
        let pairs = senders.into_iter().zip(receivers);
        let working: Vec<_> = pairs.map(start).collect();
        working.into_iter().map(|it| it.join().unwrap()).collect()
    });
    assert_eq!(heard[0].len() as u64, WORKERS as u64 * MANY);
    assert!(heard.iter().all(|items| *items == heard[0]));
}

/// A message whose frame has 9 words.
const FRAME: [u8; 56] = [1; 56];

/// A ring of one word less than two such frames have. What waits with its first sender has no room.
fn full(senders: usize, receivers: usize) -> (Vec<Sender>, Vec<Receiver>) {
    let (mut all, ears) = ring(senders, receivers, 17);
    all[0].send_all([FRAME]).unwrap();
    all[0].put(&FRAME).unwrap();
    assert_eq!((all[0].send(), all[0].has_room()), (Turn::Full, Ok(false)));
    (all, ears)
}

/// A task that only sends is woken by a receiver that passes, and by one that is dropped. It takes
/// no turn meanwhile.
#[test]
fn a_receiver_that_passes_or_is_dropped_wakes_a_task() {
    for is_dropped in [false, true] {
        let (mut senders, mut receivers) = full(1, 2);
        while receivers[0].try_item().is_some() {}
        thread::scope(|scope| {
            let sends = scope.spawn(|| counted(senders[0].send_when_room_async()));
            thread::sleep(A_WHILE);
            if is_dropped {
                drop(receivers.remove(1));
            } else {
                while receivers[1].try_item().is_some() {}
            }
            let (sent, woken) = sends.join().unwrap();
            assert!(is_delivered(sent) && woken <= 1);
        });
    }
}

/// The order ends while a task waits for room that never comes: no receiver passes the end mark.
/// The sender that ends it does so by a call, or by its drop, or it is dropped behind another one.
#[test]
fn the_end_wakes_a_task_that_waits_for_room() {
    for by_drop in [false, true] {
        let (mut senders, mut receivers) = ring(2, 1, 17);
        let (mut closes, mut waits) = (senders.remove(1), senders.remove(0));
        closes.send_all([[0; 8]]).unwrap();
        // A frame of the whole log: 1 word, 8, and 8.
        waits.put(&[1; 56]).unwrap();
        waits.put(&[2; 56]).unwrap();
        thread::scope(|scope| {
            let sends = scope.spawn(|| run(waits.send_when_room_async()));
            thread::sleep(A_WHILE);
            closes.close().unwrap();
            if by_drop {
                assert_eq!(closes.turn(0), Turn::Going);
                drop(closes);
            } else {
                assert_eq!(closes.send(), Turn::Closed);
            }
            assert_eq!(receivers[0].by_ref().count(), 1);
            assert_eq!(sends.join().unwrap(), Ok(Turn::Closed));
        });
        assert_eq!(waits.pending(), 2);
        // It is told again, also by the calls that wait for room alone.
        assert_eq!(run(waits.room_async()), Ok(()));
        assert_eq!(run(waits.send_when_room_async()), Ok(Turn::Closed));
    }
}

/// The end mark stands in the order, and its sender was dropped behind another one. Once that one
/// has gone on, a third one is told that waits for room.
#[test]
fn an_end_that_was_let_go_wakes_a_task() {
    let shape = Shape {
        rounds: 1,
        rows: 2,
        log_words: 17,
        batch: 2,
        ..Shape::of(3, 1)
    };
    let (mut senders, _receivers) = Bus::open_ring(shape).unwrap();
    let (mut waits, mut late) = (senders.remove(2), senders.remove(1));
    let mut closes = senders.remove(0);
    late.put(b"late").unwrap();
    for _ in 0..3 {
        assert_eq!(late.turn(0), Turn::Going);
    }
    closes.send_all(["a"]).unwrap();
    waits.put(&[1; 56]).unwrap();
    waits.put(&[2; 56]).unwrap();
    assert_eq!(waits.has_room(), Ok(false));
    thread::scope(|scope| {
        let sends = scope.spawn(|| run(waits.send_when_room_async()));
        thread::sleep(A_WHILE);
        closes.close().unwrap();
        assert_eq!(closes.send_while(|| false), None);
        drop(closes);
        thread::sleep(A_WHILE);
        while late.turns(1) == Turn::Going {}
        assert_eq!(sends.join().unwrap(), Ok(Turn::Closed));
    });
}

/// Two tasks wait for the same room: one takes it, and the other waits on, and takes no turn for
/// nothing again and again.
#[test]
fn two_tasks_that_wait_for_room_do_not_wake_each_other_for_good() {
    let (mut senders, mut receivers) = full(2, 1);
    senders[1].put(&FRAME).unwrap();
    thread::scope(|scope| {
        let sending: Vec<_> = senders
            .iter_mut()
            .map(|sender| scope.spawn(move || counted(sender.send_when_room_async())))
            .collect();
        let (mut heard, begin) = (0, Instant::now());
        while heard < 3 {
            assert!(begin.elapsed() < LONGEST);
            thread::sleep(A_WHILE);
            while receivers[0].try_item().is_some() {
                heard += 1;
            }
        }
        for sent in sending {
            let (sent, woken) = sent.join().unwrap();
            assert!(is_delivered(sent) && woken < 12, "woken {woken} times");
        }
    });
}

#[test]
fn a_batch_that_never_fits_is_told_to_a_task() {
    let shape = Shape {
        log_words: 16,
        ..Shape::of(1, 1)
    };
    let (mut senders, mut receivers) = Bus::open(shape).unwrap();
    while senders[0].put(&[0; 56]).is_ok() {}
    assert_eq!(run(senders[0].room_async()), Err(NeverFits));
    assert_eq!(run(senders[0].send_when_room_async()), Err(NeverFits));
    assert_eq!((senders[0].pending(), receivers[0].try_item()), (16, None));
}

/// A future that is dropped while it waits leaves the batch. A sender with which nothing waits, or
/// one within a tenure, does not wait for room.
#[test]
fn a_task_gives_up_waiting_for_room() {
    let (mut senders, mut receivers) = full(2, 1);
    let runs = Arc::new(Runs(thread::current(), AtomicUsize::new(0)));
    let waker = Waker::from(runs.clone());
    let mut context = Context::from_waker(&waker);
    let (one, two) = senders.split_at_mut(1);
    let (one, two) = (&mut one[0], &mut two[0]);
    assert_eq!(one.poll_room(&mut context), Poll::Pending);
    assert_eq!(one.poll_send_when_room(&mut context), Poll::Pending);
    assert_eq!((one.pending(), one.finish()), (1, None));
    assert_eq!(runs.1.load(Ordering::SeqCst), 0);

    assert_eq!(two.poll_room(&mut context), Poll::Ready(Ok(())));
    let idle = two.poll_send_when_room(&mut context);
    assert_eq!(idle, Poll::Ready(Ok(Turn::Idle)));
    two.put(&FRAME).unwrap();
    assert_eq!(two.poll_room(&mut context), Poll::Pending);
    assert_eq!(two.turn(0), Turn::Going);
    assert_eq!(two.poll_room(&mut context), Poll::Ready(Ok(())));
    assert_eq!(two.poll_send_when_room(&mut context), Poll::Pending);
    assert_eq!(two.finish(), None);

    while receivers[0].try_item().is_some() {}
    assert!(matches!(one.send(), Turn::Delivered { first: 1, .. }));
}
