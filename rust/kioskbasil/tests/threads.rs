//! Threads over one bus: all receivers hear one order, which has each sender's messages in their
//! order.

use kioskbasil::{
    Bus, CloseError, EndError, Item, NumbersError, OpenError, OtherBus, Page, PageError, PutError,
    SendError, Shape, Turn, LOG_MESSAGES, MOST_BYTES,
};
use std::cmp::Ordering;
use std::error::Error;
use std::thread;

#[test]
fn eight_threads_hear_one_order() {
    for again in [true, false] {
        let shape = Shape {
            senders: 4,
            receivers: 4,
            rounds: 2,
            rows: if again { 8 } else { 256 },
            log_words: 65_536,
            again,
            ring: false,
            batch: 0,
        };
        let (senders, receivers) = Bus::open(shape).unwrap();
        let sending: Vec<_> = senders
            .into_iter()
            .map(|mut sender| {
                thread::spawn(move || {
                    let number = sender.number();
                    sender.send_all((0..200u8).map(|i| [number, i])).unwrap();
                    sender
                })
            })
            .collect();
        let hearing: Vec<_> = receivers
            .into_iter()
            .map(|mut receiver| {
                thread::spawn(move || {
                    let heard: Vec<Item> = receiver.by_ref().collect();
                    (receiver, heard)
                })
            })
            .collect();
        let mut senders: Vec<_> = sending.into_iter().map(|t| t.join().unwrap()).collect();
        senders[0].end_order().unwrap();
        let (receivers, heard): (Vec<_>, Vec<_>) =
            hearing.into_iter().map(|t| t.join().unwrap()).unzip();
        for items in &heard {
            assert_eq!(items.len(), 800);
            assert_eq!(items, &heard[0]);
        }
        for sender in 0..4u8 {
            let own: Vec<_> = heard[0].iter().filter(|i| i.sender == sender).collect();
            assert!(own
                .iter()
                .enumerate()
                .all(|(n, i)| i.number == n as u64 && i[..] == [sender, n as u8]));
        }
        let left = Bus::end(senders, receivers).unwrap();
        assert_eq!(left.counts[..4], [200; 4]);
        assert!(left.counts[4..].iter().all(|count| *count == 0));
        assert!(left.ended);
    }
}

#[test]
fn shapes_that_are_refused() {
    let good = Shape::of(1, 1);
    assert_eq!(
        Bus::open(Shape { senders: 0, ..good }).unwrap_err(),
        OpenError::Senders
    );
    assert_eq!(
        Bus::open(Shape {
            senders: 65,
            ..good
        })
        .unwrap_err(),
        OpenError::Senders
    );
    assert_eq!(
        Bus::open(Shape {
            receivers: 65,
            ..good
        })
        .unwrap_err(),
        OpenError::Receivers
    );
    assert_eq!(
        Bus::open(Shape { rounds: 9, ..good }).unwrap_err(),
        OpenError::Rounds
    );
    assert_eq!(
        Bus::open(Shape { rows: 9, ..good }).unwrap_err(),
        OpenError::Rows
    );
    assert_eq!(
        Bus::open(Shape {
            log_words: 15,
            ..good
        })
        .unwrap_err(),
        OpenError::LogWords
    );
}

#[test]
fn a_bus_that_is_not_ended() {
    let (senders, receivers) = Bus::open(Shape::of(1, 1)).unwrap();
    assert_eq!(Bus::end(senders, []).unwrap_err(), EndError::NoReceiver);
    drop(receivers);
    let (mut senders, receivers) = Bus::open(Shape::of(1, 1)).unwrap();
    senders[0].put(b"x").unwrap();
    while !matches!(senders[0].turn(0), Turn::Own { .. }) {}
    assert_eq!(Bus::end(senders, receivers).unwrap().counts[0], 1);
}

/// A thread panics within a tenure, after each of its turns: the other sends and ends the order.
#[test]
fn senders_that_panic() {
    for again in [false, true] {
        for turns in 0..20 {
            let shape = Shape {
                again,
                ..Shape::of(2, 1)
            };
            let (mut senders, receivers) = Bus::open(shape).unwrap();
            let mut other = senders.pop().unwrap();
            let mut first = senders.pop().unwrap();
            first.put(b"x").unwrap();
            let fails = std::thread::spawn(move || {
                for word in 0..turns {
                    first.turn(word);
                }
                panic!("a fault of the program's own, which is to be seen");
            });
            other.send_all(["y"]).unwrap();
            assert!(fails.join().is_err());
            other.end_order().unwrap();
            let ended = Bus::end([other], receivers).unwrap();
            assert_eq!((ended.counts[1], ended.ended), (1, true));
        }
    }
}

/// Three senders over two rows, of which the first holds the page and is behind the second.
fn one_behind_another() -> (Vec<kioskbasil::Sender>, Vec<kioskbasil::Receiver>) {
    let shape = Shape {
        rows: 2,
        ..Shape::of(3, 1)
    };
    let (mut senders, receivers) = Bus::open(shape).unwrap();
    senders[1].put(b"x").unwrap();
    for _ in 0..3 {
        assert_eq!(senders[1].turn(0), Turn::Going);
    }
    senders[0].send_all(["y"]).unwrap();
    senders[0].put(b"z").unwrap();
    while !matches!(senders[0].turn(0), Turn::Own { .. }) {}
    let (tenure, sender) = (0, 1);
    assert_eq!(senders[0].finish(), Some(Turn::Behind { tenure, sender }));
    (senders, receivers)
}

/// One that is dropped behind another one gives the page back once that one goes on, or is dropped.
#[test]
fn a_sender_that_is_dropped_behind() {
    for is_dropped in [false, true] {
        let (mut senders, receivers) = one_behind_another();
        drop(senders.remove(0));
        senders[1].put(b"last").unwrap();
        assert_eq!(senders[1].turns(0), Turn::Waiting);
        if is_dropped {
            drop(senders.remove(0));
        } else {
            while senders[0].turns(1) == Turn::Going {}
        }
        let mut last = senders.pop().unwrap();
        assert!(matches!(last.send(), Turn::Delivered { .. }));
        let left = Bus::end(senders.into_iter().chain([last]), receivers).unwrap();
        assert_eq!(left.counts[..3], [2, 0, 1]);
    }
}

/// Threads drop their senders after any number of turns: the last one sends, and ends the order.
#[test]
fn senders_that_are_dropped_at_any_turn() {
    for run in 0..400u32 {
        let shape = Shape {
            rows: 2,
            rounds: 1,
            ..Shape::of(4, 1)
        };
        let (mut senders, receivers) = Bus::open(shape).unwrap();
        let mut last = senders.pop().unwrap();
        let drops = |mut sender: kioskbasil::Sender| {
            for word in 0..(run * 7 + u32::from(sender.number()) * 13) % 60 {
                if sender.pending() == 0 {
                    sender.put(b"x").unwrap();
                }
                sender.turn(word);
            }
        };
        thread::scope(|scope| {
            for sender in senders {
                scope.spawn(move || drops(sender));
            }
            last.send_all(["y"]).unwrap();
        });
        last.end_order().unwrap();
        let ended = Bus::end([last], receivers).unwrap();
        assert_eq!((ended.counts[3], ended.ended), (1, true));
    }
}

/// What one bus gave goes on to another.
#[test]
fn items_are_messages() {
    let (mut senders, mut receivers) = Bus::open(Shape::of(1, 1)).unwrap();
    let (mut others, mut ears) = Bus::open(Shape::of(1, 1)).unwrap();
    let said = [[7; MOST_BYTES]; LOG_MESSAGES];
    senders[0].send_all(said).unwrap();
    assert_eq!(senders[0].put(&[0; MOST_BYTES + 1]), Err(PutError::TooLong));
    let mut heard = Vec::new();
    assert_eq!(receivers[0].hear(&mut heard), LOG_MESSAGES);
    others[0].send_all(heard).unwrap();
    assert!(said
        .iter()
        .all(|it| ears[0].next_item().unwrap()[..] == it[..]));
}

/// The bus is ended by those that are left, in either order.
#[test]
fn senders_that_are_dropped_in_order() {
    for is_dropped in [false, true] {
        let (mut senders, receivers) = one_behind_another();
        if is_dropped {
            senders.clear();
        }
        assert_eq!(Bus::end(senders, receivers).unwrap().counts[0], 2);
    }
    let (senders, receivers) = one_behind_another();
    std::mem::forget(senders.into_iter().nth(1));
    assert_eq!(Bus::end([], receivers).unwrap_err(), EndError::InUse);
}

#[test]
fn a_sitting_after_another() {
    for (again, then) in [(false, false), (false, true), (true, false), (true, true)] {
        let first = Shape {
            again,
            ..Shape::of(2, 1)
        };
        let next = Shape {
            again: then,
            ..Shape::of(3, 2)
        };
        let (mut senders, receivers) = Bus::open(first).unwrap();
        senders[1].send_all(["a", "b"]).unwrap();
        let open = Bus::end(senders, receivers).unwrap();
        assert_eq!(
            Bus::open_after(next, &open).unwrap_err(),
            OpenError::NotEnded
        );
        let (mut senders, receivers) = Bus::open(first).unwrap();
        senders[1].send_all(["a", "b"]).unwrap();
        senders[0].end_order().unwrap();
        let mut ended = Bus::end(senders, receivers).unwrap();
        let (mut senders, mut receivers) = Bus::open_after(next, &ended).unwrap();
        for sender in &mut senders {
            sender.send_all(["c"]).unwrap();
        }
        senders[2].end_order().unwrap();
        let numbers: Vec<_> = receivers[1]
            .by_ref()
            .map(|i| (i.sender, i.number))
            .collect();
        assert_eq!(numbers, [(0, 0), (1, 2), (2, 0)]);
        let left = Bus::end(senders, receivers).unwrap();
        assert_eq!(left.counts[..4], [1, 1, 1, 0]);
        assert_eq!(left.bases[..4], [0, 2, 0, 0]);
        assert_eq!(left.next[..4], [1, 3, 1, 0]);
        ended.next[9] = (1 << 48) - 65_536;
        assert_eq!(
            Bus::open_after(next, &ended).unwrap_err(),
            OpenError::Numbers
        );
    }
}

#[test]
fn told_and_meet() {
    for again in [false, true] {
        let shape = Shape {
            again,
            ..Shape::of(1, 2)
        };
        let (mut senders, mut receivers) = Bus::open(shape).unwrap();
        let (anna, bert) = receivers.split_at_mut(1);
        assert_eq!(anna[0].meet(&mut bert[0]), Ok(Ordering::Equal));
        senders[0].send_all(["a"]).unwrap();
        assert_eq!(anna[0].told(&mut senders[0]), Ok(()));
        assert_eq!((anna[0].known(), bert[0].known()), (3, 0));
        assert_eq!(anna[0].next_item().map(|item| item.number), Some(0));
        senders[0].send_all(["b"]).unwrap();
        assert_eq!(bert[0].meet(&mut anna[0]), Ok(Ordering::Less));
        assert_eq!((anna[0].known(), bert[0].known()), (6, 6));
        assert_eq!(anna[0].meet(&mut bert[0]), Ok(Ordering::Greater));
        assert_eq!(bert[0].by_ref().take(2).count(), 2);
    }
}

#[test]
fn handles_of_two_buses() {
    let (mut senders, mut receivers) = Bus::open(Shape::of(1, 1)).unwrap();
    let (mut others, mut ears) = Bus::open(Shape::of(1, 1)).unwrap();
    for sender in senders.iter_mut().chain(&mut others) {
        sender.send_all(["a"]).unwrap();
    }
    assert_eq!(receivers[0].told(&mut others[0]), Err(OtherBus));
    assert_eq!(receivers[0].meet(&mut ears[0]), Err(OtherBus));
    assert_eq!((receivers[0].known(), ears[0].known()), (0, 0));
    assert_eq!(receivers[0].told(&mut senders[0]), Ok(()));
    assert_eq!(receivers[0].known(), 3);
    let why: Box<dyn Error> = OtherBus.into();
    assert_eq!(why.to_string(), "the handles are of two buses");
}

#[test]
fn what_was_not_sent_goes_on() {
    let (mut senders, mut receivers) = Bus::open(Shape::of(2, 1)).unwrap();
    senders[0].send_all(["a"]).unwrap();
    assert_eq!(senders[0].put(b"b"), Ok(1));
    senders[1].end_order().unwrap();
    assert_eq!(senders[0].send(), Turn::Closed);
    let (first, second) = senders.split_at_mut(1);
    assert_eq!(first[0].carry_to(&mut second[0]), Err(PutError::Closed));

    // The old senders keep their bus, so the next numbers are those that they tell.
    assert_eq!(
        Bus::senders_page(&mut senders[..1]),
        Err(PageError::Unanswered)
    );
    let page = Bus::senders_page(&mut senders).unwrap();
    let (mut after, mut ears) = Bus::open_after(Shape::of(2, 1), page).unwrap();
    assert_eq!(senders[0].carry_to(&mut after[0]), Ok(()));
    assert_eq!((senders[0].pending(), after[0].pending()), (1, 1));
    assert_eq!(receivers[0].by_ref().count(), 1);
    assert_eq!(Page::from(&Bus::end(senders, receivers).unwrap()), page);
    assert_eq!(after[0].put(b"c"), Ok(2));
    assert!(matches!(
        after[0].send(),
        Turn::Delivered {
            first: 1,
            last: 2,
            ..
        }
    ));
    let heard: Vec<_> = (0..2).filter_map(|_| ears[0].next_item()).collect();
    assert_eq!((heard[0].number, &heard[0][..]), (1, &b"b"[..]));
    assert_eq!((heard[1].number, &heard[1][..]), (2, &b"c"[..]));
    for _ in 0..16 {
        after[1].put(b"x").unwrap();
    }
    let (one, two) = after.split_at_mut(1);
    one[0].put(b"y").unwrap();
    assert_eq!(one[0].carry_to(&mut two[0]), Err(PutError::BatchFull));
    assert_eq!(two[0].carry_to(&mut one[0]), Err(PutError::BatchFull));
    assert!(matches!(two[0].turn(0), Turn::Going));
    assert_eq!(two[0].carry_to(&mut one[0]), Err(PutError::Busy));
}

#[test]
fn numbers_of_a_later_sitting() {
    let shape = Shape::of(2, 1);
    let (mut first, ears) = Bus::open(shape).unwrap();
    for sender in &mut first {
        sender.send_all(["a"]).unwrap();
    }
    first[0].end_order().unwrap();
    let ended = Bus::end(first, ears).unwrap();
    let (mut second, _ears) = Bus::open_after(shape, &ended).unwrap();
    second[0].send_all(["b"]).unwrap();
    assert_eq!(second[1].put(b"late"), Ok(1));
    second[0].end_order().unwrap();
    assert_eq!(second[1].send(), Turn::Closed);
    let page = Bus::senders_page(&mut second).unwrap();
    assert_eq!(page.next_numbers()[..3], [2, 1, 0]);
    assert_eq!(Page::from_numbers(&[2, 1]), Ok(page));
    let (mut third, mut ears) = Bus::open_after(shape, page).unwrap();
    second[1].carry_to(&mut third[1]).unwrap();
    third[1].send_all(["c"]).unwrap();
    assert_eq!(ears[0].next_item().map(|item| item.number), Some(1));
}

/// An order that has ended is told alike to each that would end it, whether it knows that or not.
#[test]
fn an_end_by_another_is_told_alike() {
    for knows in [false, true] {
        let (mut senders, _receivers) = Bus::open(Shape::of(5, 1)).unwrap();
        senders[1].leave().unwrap();
        assert!(matches!(senders[1].send(), Turn::Left { .. }));
        // Before the end a close of one that has left, or has something to send, is refused.
        let closed = Err(SendError::Close(CloseError::Closed));
        assert_eq!(senders[1].end_order(), closed);
        senders[2].leave().unwrap();
        assert_eq!(senders[2].end_order(), closed);
        senders[3].put(b"late").unwrap();
        let pending = Err(SendError::Close(CloseError::Pending));
        assert_eq!(senders[3].end_order(), pending);
        senders[4].end_order().unwrap();
        if knows {
            senders[0].put(b"never sent").unwrap();
            assert_eq!(senders[0].send(), Turn::Closed);
            assert_eq!([senders[2].send(), senders[3].send()], [Turn::Closed; 2]);
        }
        for _ in 0..2 {
            let late = Err(SendError::Turn(Turn::Closed));
            let first = if knows { late } else { Ok(()) };
            assert_eq!(senders[0].end_order(), first);
            assert_eq!(senders[1].end_order(), Ok(()));
            assert_eq!(senders[2].end_order(), Ok(()));
            assert_eq!(senders[3].end_order(), late);
            assert_eq!(senders[4].end_order(), Ok(()));
        }
        // Each was told by a turn, so they tell the page of the next sitting.
        assert!(Bus::senders_page(&mut senders).unwrap().has_ended());
    }
}

/// One that knows that another has ended the order, and with which nothing waits.
#[test]
fn an_end_that_is_known_is_told_alike() {
    let (mut senders, _receivers) = Bus::open(Shape::of(2, 1)).unwrap();
    senders[0].end_order().unwrap();
    senders[1].leave().unwrap();
    assert_eq!(senders[1].send(), Turn::Closed);
    assert_eq!(senders[1].close(), Err(CloseError::Closed));
    assert_eq!(senders[1].end_order(), Ok(()));
}

#[test]
fn pages_of_numbers() {
    assert_eq!(Page::from_numbers(&[]), Err(NumbersError::Senders));
    assert_eq!(Page::from_numbers(&[0; 65]), Err(NumbersError::Senders));
    let most = (1 << 48) - 65_537;
    assert_eq!(
        Page::from_numbers(&[0, most + 1]),
        Err(NumbersError::Numbers)
    );
    assert_eq!(
        NumbersError::Numbers.to_string(),
        OpenError::Numbers.to_string()
    );
    let page = Page::from_numbers(&[0, most]).unwrap();
    assert!(page.has_ended() && page.next_numbers()[..3] == [0, most, 0]);
    let shape = Shape::of(2, 1);
    let (mut senders, mut receivers) = Bus::open_after(shape, page).unwrap();
    senders[1].send_all(["a"]).unwrap();
    assert_eq!(receivers[0].next_item().map(|item| item.number), Some(most));
    assert_eq!(
        Bus::open_after(
            Shape {
                ring: true,
                ..shape
            },
            page
        )
        .unwrap_err(),
        OpenError::Numbers
    );
    let (senders, receivers) = Bus::open(shape).unwrap();
    let open = Bus::end(senders, receivers).unwrap();
    assert!(!Page::after(&open).has_ended());
    let why = Bus::open_after(shape, Page::after(&open)).unwrap_err();
    assert_eq!(why, OpenError::NotEnded);
}

#[test]
fn no_page_of_an_order_that_has_not_ended() {
    let (mut senders, _receivers) = Bus::open(Shape::of(2, 1)).unwrap();
    for sender in &mut senders {
        sender.leave().unwrap();
        assert!(matches!(sender.send(), Turn::Left { .. }));
    }
    assert_eq!(Bus::senders_page(&mut senders), Err(PageError::NotEnded));
    assert_eq!(Bus::senders_page([]), Err(PageError::NotEnded));
    let (mut others, _ears) = Bus::open(Shape::of(2, 1)).unwrap();
    let (one, two) = (&mut senders[0], &mut others[1]);
    assert_eq!(two.end_order(), Ok(()));
    assert_eq!(Bus::senders_page([one, two]), Err(PageError::OtherBus));
}

/// Two senders over two rows, of which the second shows its presence in tenure 0 and stops.
fn with_a_late_sender() -> (Vec<kioskbasil::Sender>, Vec<kioskbasil::Receiver>) {
    let shape = Shape {
        rows: 2,
        rounds: 1,
        ..Shape::of(2, 1)
    };
    let (mut senders, receivers) = Bus::open(shape).unwrap();
    senders[1].put(b"late").unwrap();
    for _ in 0..3 {
        assert_eq!(senders[1].turn(0), Turn::Going);
    }
    (senders, receivers)
}

#[test]
fn nothing_is_carried_while_the_page_is_out() {
    let (mut senders, mut receivers) = with_a_late_sender();
    let (mut others, mut ears) = with_a_late_sender();
    senders[0].send_all(["a"]).unwrap();
    let words = senders[0].words();
    senders[0].put(b"b").unwrap();
    let last = (0..100)
        .map(|_| senders[0].turns(1))
        .find(|last| !matches!(last, Turn::Going | Turn::Own { .. }));
    assert!(matches!(last, Some(Turn::Behind { sender: 1, .. })));
    assert_eq!(
        (senders[0].pending(), senders[0].words() > words),
        (1, true)
    );
    assert_eq!(senders[0].carry_to(&mut others[0]), Err(PutError::Busy));
    assert_eq!(others[0].send(), Turn::Idle);
    assert_eq!(receivers[0].hear(&mut Vec::new()), 2);
    assert_eq!(ears[0].hear(&mut Vec::new()), 0);
}

#[test]
fn nothing_is_carried_within_a_tenure() {
    for turns in 1..6 {
        let (mut senders, mut receivers) = Bus::open(Shape::of(1, 1)).unwrap();
        let (mut others, mut ears) = Bus::open(Shape::of(1, 1)).unwrap();
        senders[0].put(b"once").unwrap();
        for _ in 0..turns {
            senders[0].turn(0);
        }
        assert_eq!(senders[0].carry_to(&mut others[0]), Err(PutError::Busy));
        drop(senders);
        assert_eq!(others[0].send(), Turn::Idle);
        assert_eq!(receivers[0].hear(&mut Vec::new()), 1);
        assert_eq!(ears[0].hear(&mut Vec::new()), 0);
    }
}

#[test]
fn marks_are_sent_or_reported() {
    let nothing: [&str; 0] = [];
    let shape = Shape {
        log_words: 16,
        ..Shape::of(2, 1)
    };
    let (mut senders, _receivers) = Bus::open(shape).unwrap();
    senders[0].leave().unwrap();
    assert_eq!(senders[0].send_all(nothing), Ok(()));
    assert!(senders[0].is_closed());
    senders[1].send_all([&[1u8; 56][..], &[2; 24]]).unwrap();
    let full = Err(SendError::Turn(Turn::Full));
    for _ in 0..2 {
        assert_eq!(senders[1].end_order(), full);
        assert_eq!(senders[1].send_all(nothing).map_err(|u| u.why), full);
        assert!(!senders[1].is_closed());
    }
    let (mut senders, _receivers) = Bus::open(Shape::of(2, 1)).unwrap();
    senders[0].close().unwrap();
    assert_eq!(senders[0].end_order(), Ok(()));
    assert_eq!(senders[0].end_order(), Ok(()));
}

#[test]
fn an_end_takes_no_more_memory_than_its_log() {
    let shape = Shape {
        log_words: 16,
        ..Shape::of(1, 1)
    };
    let (mut senders, receivers) = Bus::open(shape).unwrap();
    senders[0].end_order().unwrap();
    let ended = Bus::end(senders, receivers).unwrap();
    assert_eq!((ended.log.len(), ended.log.capacity()), (2, 2));
}
