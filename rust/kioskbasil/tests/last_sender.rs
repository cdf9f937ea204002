//! An order that ends with its senders: receivers are told so, whatever the last one left behind.

mod common;

use kioskbasil::{Bus, Heard, Item, Next, Receiver, Sender, Shape, Turn};
use std::collections::hash_map::RandomState;
use std::future::Future;
use std::hash::{BuildHasher, Hasher};
use std::panic::{self, AssertUnwindSafe};
use std::sync::Arc;
use std::task::{Context, Poll, Wake, Waker};
use std::thread::{self, Thread};
use std::time::Duration;

const A_WHILE: Duration = Duration::from_millis(30);
const LONG: Duration = Duration::from_secs(20);

/// A ring whose order ends with its senders.
fn ring(senders: usize, receivers: usize, log_words: u64) -> (Vec<Sender>, Vec<Receiver>) {
    let opened = common::ring(senders, receivers, log_words);
    opened.0[0].end_with_senders();
    opened
}

/// What a receiver is given up to the end, which has to come soon.
fn heard(receiver: &mut Receiver) -> Vec<Item> {
    let mut items = Vec::new();
    loop {
        match receiver.next_item_timeout(LONG) {
            Next::Item(item) => items.push(item),
            Next::End => return items,
            Next::Stopped => panic!("no end after {} items", items.len()),
        }
    }
}

#[test]
fn dropping_senders_ends_no_order_of_itself() {
    let (mut senders, mut receivers) = Bus::open(Shape::of(2, 1)).unwrap();
    senders[0].send_all(["a"]).unwrap();
    drop(senders);
    assert!(matches!(
        receivers[0].next_item_timeout(LONG),
        Next::Item(_)
    ));
    assert_eq!(receivers[0].next_item_timeout(A_WHILE), Next::Stopped);
    assert!(!receivers[0].has_ended());
    assert!(!receivers.remove(0).end().unwrap().ended);
}

/// Receivers that sleep are woken by the end, and the next sitting goes on.
#[test]
fn the_last_sender_that_is_dropped_ends_the_order() {
    for shape in [
        Shape::of(3, 2),
        Shape {
            ring: true,
            ..Shape::of(3, 2)
        },
    ] {
        let (senders, mut receivers) = Bus::open(shape).unwrap();
        senders[1].end_with_senders();
        thread::scope(|scope| {
            let hearing: Vec<_> = receivers
                .iter_mut()
                .map(|receiver| scope.spawn(|| heard(receiver)))
                .collect();
            for mut sender in senders {
                scope.spawn(move || {
                    thread::sleep(A_WHILE);
                    sender.send_all([b"one", b"two"]).unwrap();
                });
            }
            for heard in hearing {
                assert_eq!(heard.join().unwrap().len(), 6);
            }
        });
        let ended = Bus::end([], receivers).unwrap();
        assert_eq!((ended.ended, &ended.next[..3]), (true, &[2, 2, 2][..]));
        Bus::open_after(shape, &ended).unwrap();
    }
}

#[test]
fn a_bus_that_is_ended_by_its_handles_has_the_mark() {
    let (mut senders, receivers) = ring(2, 1, 4096);
    senders[0].send_all(["a"]).unwrap();
    assert!(Bus::end(senders, receivers).unwrap().ended);
    // So has one whose last sender has a close that waits.
    let (mut senders, receivers) = ring(1, 1, 4096);
    senders[0].close().unwrap();
    assert!(Bus::end(senders, receivers).unwrap().ended);
}

/// A panic drops the last one, in the middle of its tenure too.
#[test]
fn a_panic_of_the_last_sender_ends_the_order() {
    for turns in [0, 1, 4] {
        let (mut senders, mut receivers) = ring(1, 1, 4096);
        let mut sender = senders.remove(0);
        let fault = panic::catch_unwind(AssertUnwindSafe(move || {
            sender.send_all(["a"]).unwrap();
            sender.put(b"b").unwrap();
            for _ in 0..turns {
                sender.turn(0);
            }
            panic!("a fault of the program's own, which is to be seen");
        }));
        assert!(fault.is_err());
        let messages = heard(&mut receivers[0]).len();
        // What it had begun comes into the order, and so does the mark then.
        assert_eq!(messages, if turns > 0 { 2 } else { 1 });
        let ended = receivers.remove(0).end().unwrap();
        assert_eq!(ended.ended, turns > 0);
    }
}

#[test]
fn senders_that_have_left_are_gone() {
    let (mut senders, mut receivers) = ring(2, 1, 4096);
    let (anna, bert) = senders.split_at_mut(1);
    anna[0].send_all(["a"]).unwrap();
    anna[0].leave().unwrap();
    assert!(matches!(anna[0].send(), Turn::Left { .. }));
    assert!(matches!(
        receivers[0].next_item_timeout(LONG),
        Next::Item(_)
    ));
    assert_eq!(receivers[0].next_item_while(|| false), Next::Stopped);
    thread::scope(|scope| {
        let hears = scope.spawn(|| heard(&mut receivers[0]));
        thread::sleep(A_WHILE);
        bert[0].leave().unwrap();
        assert!(matches!(bert[0].send(), Turn::Left { .. }));
        assert!(hears.join().unwrap().is_empty());
    });
    assert!(receivers[0].has_ended());
}

/// Who has left and is dropped then counts once.
#[test]
fn one_that_has_left_counts_once() {
    let (mut senders, mut receivers) = ring(2, 1, 4096);
    let mut anna = senders.remove(0);
    anna.leave().unwrap();
    assert!(matches!(anna.send(), Turn::Left { .. }));
    drop(anna);
    assert_eq!(receivers[0].next_item_while(|| false), Next::Stopped);
    senders[0].send_all(["b"]).unwrap();
    drop(senders);
    assert_eq!(heard(&mut receivers[0]).len(), 1);
    assert!(receivers.remove(0).end().unwrap().ended);
}

/// There is no room for the mark, since a receiver is behind: each is told the end all the same.
#[test]
fn an_end_without_room() {
    let (mut senders, mut receivers) = ring(1, 2, 17);
    let mut sender = senders.remove(0);
    sender.send_all([[1; 56]]).unwrap();
    sender.put(&[2; 40]).unwrap();
    assert!(matches!(sender.send(), Turn::Delivered { .. }));
    sender.put(&[3; 56]).unwrap();
    assert_eq!(sender.send(), Turn::Full);
    drop(sender);
    for receiver in &mut receivers {
        assert_eq!(heard(receiver).len(), 2);
        assert_eq!(receiver.next_item(), None);
    }
    receivers.remove(1);
    assert!(!receivers.remove(0).end().unwrap().ended);
}

/// All tenures are spent.
#[test]
fn an_end_without_a_tenure() {
    let shape = Shape {
        rows: 1,
        again: false,
        ..Shape::of(1, 1)
    };
    let (mut senders, mut receivers) = Bus::open(shape).unwrap();
    senders[0].end_with_senders();
    senders[0].send_all(["a"]).unwrap();
    drop(senders);
    assert_eq!(heard(&mut receivers[0]).len(), 1);
}

/// The last but one is dropped behind the last one, which is dropped in the middle of its tenure.
#[test]
fn an_end_behind_another() {
    let shape = Shape {
        rounds: 1,
        rows: 2,
        ..Shape::of(2, 1)
    };
    let (mut senders, mut receivers) = Bus::open(shape).unwrap();
    senders[0].end_with_senders();
    senders[1].put(b"late").unwrap();
    for _ in 0..3 {
        assert_eq!(senders[1].turn(0), Turn::Going);
    }
    senders[0].send_all(["a"]).unwrap();
    senders[0].put(b"b").unwrap();
    assert_eq!(senders[0].send_timeout(A_WHILE), None);
    drop(senders.remove(0));
    assert_eq!(receivers[0].try_items().len(), 2);
    drop(senders);
    // Its message came too late, and waits with it: so there is no mark.
    assert!(heard(&mut receivers[0]).is_empty());
    assert!(!receivers.remove(0).end().unwrap().ended);
}

/// A turn by hand is told the end, behind the items.
#[test]
fn turns_by_hand_are_told_the_end() {
    let (mut senders, mut receivers) = ring(1, 1, 4096);
    senders[0].send_all(["a"]).unwrap();
    senders[0].put(b"lost").unwrap();
    drop(senders);
    let mut items = 0;
    loop {
        match receivers[0].turn() {
            Heard::Item(_) => items += 1,
            Heard::End => break,
            Heard::Empty => panic!("no end"),
            _ => {}
        }
    }
    assert_eq!((items, receivers[0].turn()), (1, Heard::End));
    assert!(receivers[0].has_ended());
}

struct Unparks(Thread);

impl Wake for Unparks {
    fn wake(self: Arc<Self>) {
        self.0.unpark();
    }
}

/// A task that waits is woken by the drop of the last sender.
#[test]
fn a_task_is_told_the_end() {
    let (mut senders, mut receivers) = ring(1, 1, 4096);
    senders[0].send_all(["a"]).unwrap();
    let last = senders.remove(0);
    thread::spawn(move || {
        thread::sleep(A_WHILE);
        drop(last);
    });
    let waker = Waker::from(Arc::new(Unparks(thread::current())));
    for is_there in [true, false] {
        let mut hears = Box::pin(receivers[0].next_item_async());
        loop {
            match hears.as_mut().poll(&mut Context::from_waker(&waker)) {
                Poll::Ready(item) => break assert_eq!(item.is_some(), is_there),
                Poll::Pending => thread::park_timeout(LONG),
            }
        }
    }
}

/// Small numbers that nobody foresees.
struct Dice(u64);

impl Dice {
    fn new() -> Dice {
        Dice(RandomState::new().build_hasher().finish() | 1)
    }

    fn below(&mut self, many: u64) -> u64 {
        self.0 ^= self.0 << 13;
        self.0 ^= self.0 >> 7;
        self.0 ^= self.0 << 17;
        (self.0 >> 32) % many
    }
}

/// A sender that sends, takes turns by hand, leaves, or is dropped anywhere. How many of its
/// messages were delivered, as far as it knows.
fn live(mut sender: Sender, mut dice: Dice) -> u64 {
    let mut delivered = 0;
    for _ in 0..dice.below(8) {
        if sender.put(b"12345678").is_err() {
            break;
        }
        if dice.below(8) == 0 {
            for _ in 0..dice.below(30) {
                sender.turn(dice.below(2) as u32);
            }
            break;
        }
        if let Ok(Some(Turn::Delivered { last, .. })) = sender.send_when_room(|| true) {
            delivered = last + 1;
        }
    }
    if dice.below(3) == 0 && sender.leave().is_ok() {
        let _ = sender.send_when_room(|| true);
    }
    delivered
}

/// Lives of small rings whose senders are dropped anywhere: each receiver is told the end behind
/// the same items, which have all that was delivered.
#[test]
fn lives_end_with_their_senders() {
    for _ in 0..150 {
        let mut dice = Dice::new();
        let (many, ears) = (1 + dice.below(4) as usize, 1 + dice.below(3) as usize);
        let (senders, mut receivers) = ring(many, ears, 16 + dice.below(40));
        thread::scope(|scope| {
            let hearing: Vec<_> = receivers
                .iter_mut()
                .map(|receiver| scope.spawn(|| heard(receiver)))
                .collect();
            let sending: Vec<_> = senders
                .into_iter()
                .map(|sender| scope.spawn(|| live(sender, Dice::new())))
                .collect();
            let sent: Vec<u64> = sending.into_iter().map(|it| it.join().unwrap()).collect();
            let heard: Vec<Vec<Item>> = hearing.into_iter().map(|it| it.join().unwrap()).collect();
            assert!(heard.iter().all(|items| *items == heard[0]));
            for (number, least) in sent.iter().enumerate() {
                let of_it = heard[0]
                    .iter()
                    .filter(|item| usize::from(item.sender) == number);
                assert!(of_it.count() as u64 >= *least);
            }
        });
        Bus::end([], receivers).unwrap();
    }
}
