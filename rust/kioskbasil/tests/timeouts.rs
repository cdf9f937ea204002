//! Calls that wait for so long at most, and calls that ask a closure: each ends in time where
//! nothing comes, and loses nothing. A machine with other work may be late, so the best of several
//! tries counts.

mod common;

use common::bus;
use kioskbasil::replica::{Replicas, State};
use kioskbasil::{Bus, Next, NextItems, Receiver, Sender, Shape, Turn, Waiting};
use std::thread;
use std::time::{Duration, Instant};

const TIMES: [u64; 3] = [1, 20, 150];
const TRIES: u32 = 20;
/// A sleep of 0.1 s in place of 1 or 20 ms is too late, and one of 0.2 s in place of 150 ms.
const LATE: Duration = Duration::from_millis(40);
const LONG: Duration = Duration::from_secs(20);

/// Takes turns by hand until the page is taken.
fn take_page(sender: &mut Sender) {
    sender.put(b"holds it").unwrap();
    while !matches!(sender.turn(0), Turn::Own { .. }) {}
}

/// The call never ends before its time, and at one of its tries soon behind that.
fn ends_in_time(name: &str, mut call: impl FnMut(Duration)) {
    for time in TIMES.map(Duration::from_millis) {
        let mut took = || {
            let begin = Instant::now();
            call(time);
            begin.elapsed()
        };
        let is_right = |took: Duration| {
            assert!(took >= time, "{name}: {took:?} in place of {time:?}");
            took < time + LATE
        };
        assert!((0..TRIES).any(|_| is_right(took())), "{name}: {time:?}");
    }
}

/// A closure that says no behind this time.
fn up_to(time: Duration) -> impl FnMut() -> bool {
    let end = Instant::now() + time;
    move || Instant::now() < end
}

#[test]
fn receivers_wait_for_so_long() {
    let (_senders, mut receivers) = bus(1, 1, 8);
    let receiver = &mut receivers[0];
    for waiting in [Waiting::Sleep, Waiting::Yield] {
        receiver.set_waiting(waiting);
        ends_in_time("next_item_timeout", |time| {
            assert_eq!(receiver.next_item_timeout(time), Next::Stopped);
        });
    }
    receiver.set_waiting(Waiting::Sleep);
    ends_in_time("next_items_timeout", |time| {
        assert_eq!(receiver.next_items_timeout(time), NextItems::Stopped);
    });
    ends_in_time("next_item_while", |time| {
        assert_eq!(receiver.next_item_while(up_to(time)), Next::Stopped);
    });
    ends_in_time("next_items_while", |time| {
        assert_eq!(receiver.next_items_while(up_to(time)), NextItems::Stopped);
    });
}

#[test]
fn senders_wait_for_so_long_and_keep_their_batch() {
    let (mut senders, mut receivers) = bus(2, 1, 8);
    let (anna, bert) = senders.split_at_mut(1);
    take_page(&mut bert[0]);
    anna[0].put(b"a").unwrap();
    ends_in_time("send_timeout", |time| {
        assert_eq!(anna[0].send_timeout(time), None);
    });
    ends_in_time("send_while", |time| {
        assert_eq!(anna[0].send_while(up_to(time)), None);
    });
    assert_eq!((anna[0].finish(), anna[0].pending()), (None, 1));
    assert!(matches!(bert[0].send(), Turn::Delivered { .. }));
    let sent = anna[0].send_timeout(LONG);
    assert!(matches!(sent, Some(Turn::Delivered { .. })));
    let heard: Vec<u8> = (0..2)
        .map(|_| receivers[0].next_item().unwrap().sender)
        .collect();
    assert_eq!(heard, [1, 0]);
}

#[test]
fn senders_wait_for_room_for_so_long() {
    let shape = Shape {
        log_words: 17,
        batch: 2,
        ..Shape::of(1, 1)
    };
    let (mut senders, mut receivers) = Bus::open_ring(shape).unwrap();
    let sender = &mut senders[0];
    sender.send_all([[1; 56]]).unwrap();
    sender.put(&[2; 56]).unwrap();
    ends_in_time("send_when_room_timeout", |time| {
        assert_eq!(sender.send_when_room_timeout(time), Ok(None));
    });
    ends_in_time("send_when_room", |time| {
        assert_eq!(sender.send_when_room(up_to(time)), Ok(None));
    });
    assert_eq!(sender.send_timeout(LONG), Some(Turn::Full));
    thread::scope(|scope| {
        let sends = scope.spawn(|| sender.send_when_room_timeout(LONG));
        thread::sleep(Duration::from_millis(30));
        while let Next::Item(_) = receivers[0].next_item_timeout(Duration::ZERO) {}
        assert!(matches!(
            sends.join().unwrap(),
            Ok(Some(Turn::Delivered { .. }))
        ));
    });
}

struct Nothing;

impl State for Nothing {
    type Answer = ();
    fn apply(&mut self, _from: u32, _operation: &[u8]) {}
}

#[test]
fn replicas_wait_for_so_long() {
    let mut replicas = Replicas::open(Shape::of(2, 2), || Nothing).unwrap();
    ends_in_time("hear_timeout", |time| {
        assert_eq!(replicas[0].hear_timeout(time), Ok(0));
    });
    ends_in_time("hear_while", |time| {
        assert_eq!(replicas[0].hear_while(up_to(time)), Ok(0));
    });
}

/// What comes before the time is over is given, and so is the end.
#[test]
fn what_comes_in_time_is_given() {
    let (mut senders, mut receivers) = bus(1, 3, 8);
    let (first, rest) = receivers.split_at_mut(1);
    let (second, third) = rest.split_at_mut(1);
    let begin = Instant::now();
    thread::scope(|scope| {
        let one = scope.spawn(|| [0; 3].map(|_| first[0].next_item_timeout(LONG)));
        let many = scope.spawn(|| {
            let heard = match second[0].next_items_timeout(LONG) {
                NextItems::Items(items) => items[0][..].to_vec(),
                other => panic!("{other:?}"),
            };
            while second[0].next_items_timeout(LONG) != NextItems::End {}
            heard
        });
        let for_good = scope.spawn(|| third[0].next_item_timeout(Duration::MAX));
        for message in ["one", "two"] {
            thread::sleep(Duration::from_millis(30));
            senders[0].send_all([message]).unwrap();
        }
        senders[0].end_order().unwrap();
        let one = one.join().unwrap();
        assert!(matches!(one[0], Next::Item(item) if &item[..] == b"one"));
        assert!(matches!(one[1], Next::Item(item) if &item[..] == b"two"));
        assert_eq!(one[2], Next::End);
        assert_eq!(many.join().unwrap(), b"one");
        assert!(matches!(for_good.join().unwrap(), Next::Item(_)));
    });
    assert!(begin.elapsed() < LONG);
}

/// With no time a call gives what is there, and waits for nothing.
#[test]
fn no_time_is_one_look() {
    let (mut senders, mut receivers) = bus(1, 1, 8);
    senders[0].put(b"x").unwrap();
    let sent = senders[0].send_timeout(Duration::ZERO);
    assert!(matches!(sent, Some(Turn::Delivered { .. })));
    let heard = receivers[0].next_item_timeout(Duration::ZERO);
    assert!(matches!(heard, Next::Item(_)));
    let heard = receivers[0].next_item_timeout(Duration::ZERO);
    assert_eq!(heard, Next::Stopped);
}

/// Three senders over two rows. The last one has shown its presence in tenure 0 and stopped, and
/// the first one is behind it, where its time is over.
fn behind() -> (Vec<Sender>, Vec<Receiver>) {
    let (mut senders, receivers) = bus(3, 1, 2);
    senders[2].put(b"late").unwrap();
    for _ in 0..3 {
        assert_eq!(senders[2].turn(0), Turn::Going);
    }
    senders[0].send_all(["a"]).unwrap();
    senders[0].put(b"b").unwrap();
    ends_in_time("send_timeout behind another", |time| {
        assert_eq!(senders[0].send_timeout(time), None);
    });
    ends_in_time("send_while behind another", |time| {
        assert_eq!(senders[0].send_while(up_to(time)), None);
    });
    assert!(matches!(senders[0].finish(), Some(Turn::Behind { .. })));
    senders[1].put(b"c").unwrap();
    assert_eq!(senders[1].send_timeout(Duration::from_millis(5)), None);
    (senders, receivers)
}

/// Each item is there, once.
fn heard(mut receiver: Receiver) -> String {
    let mut text = String::new();
    while let Some(item) = receiver.try_item() {
        text.push_str(std::str::from_utf8(&item).unwrap());
    }
    text
}

/// Where the time of a sender is over that is behind another one, nothing is lost, and it keeps
/// nobody once it has let go.
#[test]
fn a_time_that_is_over_behind_another_keeps_nobody() {
    let (mut senders, mut receivers) = behind();
    while senders[2].turns(1) == Turn::Going {}
    assert!(matches!(senders[0].finish(), Some(Turn::Delivered { .. })));
    let sent = senders[1].send_timeout(LONG);
    assert!(matches!(sent, Some(Turn::Delivered { .. })));
    assert!(heard(receivers.remove(0)).starts_with("ab"));
}

/// The same where it is dropped then.
#[test]
fn one_that_is_dropped_behind_another_keeps_nobody() {
    let (mut senders, mut receivers) = behind();
    drop(senders.remove(0));
    while senders[1].turns(1) == Turn::Going {}
    let sent = senders[0].send_timeout(LONG);
    assert!(matches!(sent, Some(Turn::Delivered { .. })));
    assert!(heard(receivers.remove(0)).starts_with("ab"));
}
