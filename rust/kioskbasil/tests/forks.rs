//! Receivers that join while the bus runs: each is given just what its maker is given from there on.

mod common;

use common::{bus, in_time, ring, Count};
use kioskbasil::{Body, Bus, EndError, ForkError, Item, Next, Receiver, Sender, Turn};
use std::sync::atomic::Ordering;
use std::sync::Arc;
use std::task::{Context, Poll, Waker};
use std::thread;
use std::time::Duration;

const A_WHILE: Duration = Duration::from_millis(30);

/// A ring with one sender and one receiver, and so many numbers that are free.
fn ring_with_free(free: usize, log_words: u64) -> (Sender, Receiver) {
    let (mut senders, mut receivers) = ring(1, 1 + free, log_words);
    receivers.truncate(1);
    (senders.remove(0), receivers.remove(0))
}

/// Sends messages of these numbers, each in a batch of its own, and waits for room.
fn send_each(sender: &mut Sender, numbers: impl Iterator<Item = u64>) {
    for number in numbers {
        assert_eq!(sender.put(&number.to_le_bytes()), Ok(number));
        let sent = sender.send_when_room(|| true);
        assert!(matches!(sent, Ok(Some(Turn::Delivered { .. }))));
    }
}

/// A worker: the state is the sum of all numbers that it was given.
struct Worker {
    receiver: Receiver,
    sum: u64,
    many: u64,
}

impl Worker {
    /// Applies what it is given next; false at the end.
    fn apply(&mut self) -> bool {
        let item = self.receiver.next_item();
        if let Some(item) = &item {
            assert_eq!(item[..], self.many.to_le_bytes());
            self.sum += item.number;
            self.many += 1;
        }
        item.is_some()
    }

    /// A copy of its state, and a receiver that goes on from there.
    fn another(&mut self) -> Result<Worker, ForkError> {
        Ok(Worker {
            receiver: self.receiver.fork()?,
            ..*self
        })
    }

    fn run(mut self) -> (u64, u64) {
        while self.apply() {}
        (self.many, self.sum)
    }
}

/// Workers that start late, by a copy of another's state, and end where that ends. The ring goes
/// round many times meanwhile.
#[test]
fn late_workers() {
    const MANY: u64 = 2000;
    let states = in_time(|| {
        let (mut sender, receiver) = ring_with_free(3, 32);
        let sending = thread::spawn(move || {
            send_each(&mut sender, 0..MANY);
            sender.end_order().unwrap();
        });
        let (sum, many) = (0, 0);
        let mut first = Worker {
            receiver,
            sum,
            many,
        };
        let mut late = Vec::new();
        for at in 1..=3 {
            while first.many < at * 500 {
                assert!(first.apply());
            }
            let worker = first.another().unwrap();
            assert_eq!(first.another().is_err(), at == 3);
            late.push(thread::spawn(move || worker.run()));
        }
        let mut states = vec![first.run()];
        states.extend(late.into_iter().map(|worker| worker.join().unwrap()));
        sending.join().unwrap();
        states
    });
    assert_eq!(states, [(MANY, MANY * (MANY - 1) / 2); 4]);
}

/// Monitors that look for a while and are dropped, again and again: each takes the number anew.
#[test]
fn monitors_come_and_go() {
    const MANY: u64 = 500;
    in_time(|| {
        let (mut sender, mut receiver) = ring_with_free(1, 16);
        for number in 0..MANY {
            send_each(&mut sender, number..=number);
            let mut monitor = receiver.fork().unwrap();
            assert_eq!(receiver.fork().unwrap_err(), ForkError::NoSeat);
            assert_eq!(monitor.fork().unwrap_err(), ForkError::NoSeat);
            assert_eq!(monitor.try_item(), receiver.try_item());
            assert_eq!(
                (monitor.place(), monitor.passed()),
                (receiver.place(), receiver.passed())
            );
        }
        // One that is kept and not asked holds the ring up behind five frames, until it is dropped.
        let monitor = receiver.fork().unwrap();
        thread::scope(|scope| {
            let sending = scope.spawn(|| send_each(&mut sender, MANY..MANY + 20));
            for number in MANY..MANY + 5 {
                assert_eq!(receiver.next_item().unwrap().number, number);
            }
            assert_eq!(receiver.next_item_timeout(A_WHILE), Next::Stopped);
            drop(monitor);
            while receiver.next_item().unwrap().number < MANY + 19 {}
            sending.join().unwrap();
        });
    });
}

/// What waits in the batch of its maker it is given too, and each is of its own from there on.
#[test]
fn items_at_hand_are_given_to_both() {
    for (mut sender, mut receiver) in [ring_with_free(1, 1024), {
        let (mut senders, mut receivers) = bus(1, 1, 8);
        (senders.remove(0), receivers.remove(0))
    }] {
        sender.send_all((0..40u8).map(|i| [i])).unwrap();
        for number in 0..5 {
            assert_eq!(receiver.try_item().unwrap().number, number);
        }
        let mut joined = receiver.fork().unwrap();
        let rest: Vec<Item> = std::iter::from_fn(|| receiver.try_item()).collect();
        assert_eq!(rest.len(), 35);
        let mut same = Vec::new();
        assert_eq!(joined.hear(&mut same), 35);
        assert_eq!(rest, same);
        sender.put_long(&[7; 500]).unwrap();
        assert!(matches!(sender.send(), Turn::Delivered { .. }));
        assert_eq!(joined.try_long().unwrap().unwrap().len(), 500);
        assert_eq!(receiver.try_long().unwrap().unwrap().len(), 500);
        sender.end_order().unwrap();
        assert!(receiver.next_item().is_none());
        drop(joined);
        let mut late = receiver.fork().unwrap();
        assert!(late.has_ended() && late.next_item().is_none());
    }
}

/// Who hears by frames is forked with the head that it has heard, and misses no frame.
#[test]
fn frames_of_a_fork() {
    let (mut sender, mut receiver) = ring_with_free(1, 64);
    sender.send_all(["a", "b"]).unwrap();
    sender.send_all(["c"]).unwrap();
    sender.send_all(["d"]).unwrap();
    assert_eq!(receiver.try_frame().unwrap().items().len(), 2);
    let mut joined = receiver.fork().unwrap();
    for text in [b"c", b"d"] {
        let frame = joined.try_frame().unwrap();
        assert_eq!(frame.items()[0][..], text[..]);
        assert_eq!(receiver.try_frame(), Some(frame));
    }
    sender.end_order().unwrap();
    assert_eq!(joined.try_frame().unwrap().body, Body::End);
    assert_eq!(receiver.try_frame().unwrap().body, Body::End);
}

/// A task that polls a receiver, and tasks that poll its forks: one message wakes each of them.
#[test]
fn tasks_are_woken_each() {
    let (mut sender, receiver) = ring_with_free(3, 64);
    let mut receivers = vec![receiver];
    for at in 0..3 {
        let joined = receivers[at].fork().unwrap();
        receivers.push(joined);
    }
    let woken: Vec<Arc<Count>> = (0..4).map(|_| Arc::default()).collect();
    let wakers: Vec<Waker> = woken.iter().map(|w| Waker::from(w.clone())).collect();
    for round in 0..30 {
        for (receiver, waker) in receivers.iter_mut().zip(&wakers) {
            assert!(receiver
                .poll_item(&mut Context::from_waker(waker))
                .is_pending());
        }
        send_each(&mut sender, round..=round);
        for ((receiver, waker), woken) in receivers.iter_mut().zip(&wakers).zip(&woken) {
            assert!(woken.0.swap(0, Ordering::SeqCst) > 0);
            match receiver.poll_item(&mut Context::from_waker(waker)) {
                Poll::Ready(Some(item)) => assert_eq!(item.number, round),
                other => panic!("{other:?}"),
            }
        }
    }
}

/// Of a bus that is no ring a fork is never refused a number, and the bus ends by all that are left.
#[test]
fn forks_of_a_bus_that_is_no_ring() {
    let (mut senders, mut receivers) = bus(1, 1, 8);
    senders[0].send_all(["one"]).unwrap();
    assert!(receivers[0].next_item().is_some());
    for at in 0..100 {
        let joined = receivers[at / 2].fork().unwrap();
        receivers.push(joined);
    }
    senders[0].send_all(["two"]).unwrap();
    senders[0].end_order().unwrap();
    for receiver in &mut receivers {
        assert_eq!(receiver.next_item().unwrap()[..], b"two"[..]);
        assert_eq!(receiver.next_item(), None);
    }
    let late = receivers[7].fork().unwrap();
    assert_eq!(late.end().unwrap_err(), EndError::InUse);
    let ended = Bus::end(senders, receivers).unwrap();
    assert_eq!((ended.counts[0], ended.ended), (2, true));
}

#[test]
fn faults_say_why() {
    assert_eq!(
        ForkError::NoSeat.to_string(),
        "each number above the receiver's own was taken"
    );
    assert_eq!(ForkError::NoMemory.to_string(), "memory was refused");
}
