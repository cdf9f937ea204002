//! Buses whose log is a ring: it is used again, and each receiver hears all of one order.

mod common;

use common::ring;
use kioskbasil::{
    Bus, EndError, Item, NeverFits, OpenError, Page, PutError, Receiver, SendError, Sender, Shape,
    TrySendError, Turn, Waiting, LOG_MESSAGES, MOST_MESSAGES, MOST_RECEIVERS,
};
use std::sync::atomic::{AtomicBool, AtomicUsize, Ordering};
use std::thread;
use std::time::{Duration, Instant};

const A_WHILE: Duration = Duration::from_millis(30);

/// The message of this number: up to 40 bytes.
fn message(sender: u8, number: u64) -> Vec<u8> {
    vec![sender ^ number as u8; number as usize % 41]
}

/// Each sender's items are all there, in its order.
fn expect_each(heard: &[Item], senders: u8, many: u64) {
    for sender in 0..senders {
        let mut own = heard.iter().filter(|item| item.sender == sender);
        for number in 0..many {
            let item = own.next().unwrap();
            assert_eq!(
                (item.number, &item[..]),
                (number, &message(sender, number)[..])
            );
        }
        assert_eq!(own.next(), None);
    }
}

/// Two senders put a message at a time, or some, and wait for room; two receivers hear all of it.
#[test]
fn rings_that_are_passed_over_many_times() {
    const MANY: u64 = 500;
    for log_words in [16, 17, 23, 64, 128, 129, 513] {
        let (senders, receivers) = ring(2, 2, log_words);
        let batch = if log_words < 64 { 1 } else { 5 };
        let (mut senders, heard): (Vec<Sender>, Vec<(Receiver, Vec<Item>)>) =
            thread::scope(|scope| {
                let hearing: Vec<_> = receivers
                    .into_iter()
                    .map(|mut receiver| {
                        scope.spawn(move || {
                            let heard = receiver.by_ref().collect();
                            (receiver, heard)
                        })
                    })
                    .collect();
                let send = move |mut sender: Sender| {
                    for number in 0..MANY {
                        let text = message(sender.number(), number);
                        assert_eq!(sender.put(&text), Ok(number));
                        if number % batch == batch - 1 {
                            let sent = sender.send_when_room(|| true);
                            assert!(matches!(sent, Ok(Some(Turn::Delivered { .. }))));
                        }
                    }
                    sender
                };
                let sending: Vec<_> = senders
                    .into_iter()
                    .map(|sender| scope.spawn(move || send(sender)))
                    .collect();
                let mut senders: Vec<Sender> =
                    sending.into_iter().map(|s| s.join().unwrap()).collect();
                senders[1].close().unwrap();
                assert_eq!(senders[1].send_when_room(|| true), Ok(Some(Turn::Closed)));
                let heard = hearing.into_iter().map(|h| h.join().unwrap()).collect();
                (senders, heard)
            });
        assert_eq!(senders[0].send(), Turn::Idle);
        let (receivers, heard): (Vec<Receiver>, Vec<Vec<Item>>) = heard.into_iter().unzip();
        assert_eq!(heard[0], heard[1]);
        expect_each(&heard[0], 2, MANY);
        let ended = Bus::end(senders, receivers).unwrap();
        assert_eq!(
            (ended.counts[..3].to_vec(), ended.ended),
            (vec![MANY, MANY, 0], true)
        );
        assert!(ended.floor > 5 * log_words && ended.log.len() as u64 <= log_words);
        // The end mark alone was not passed by the receiver that ended the bus.
        assert_eq!(ended.log.len(), 2);
    }
}

/// Workers that each send and hear: they hear while they are answered Full.
#[test]
fn workers_over_a_ring() {
    const MANY: u64 = 1000;
    for waiting in [Waiting::Yield, Waiting::Sleep] {
        let (senders, receivers) = ring(3, 3, 64);
        let work = |mut sender: Sender, mut receiver: Receiver| {
            sender.set_waiting(waiting);
            receiver.set_waiting(waiting);
            let mut heard = Vec::new();
            for number in 0..MANY {
                let text = message(sender.number(), number);
                sender.put(&text).unwrap();
                loop {
                    match sender.try_send() {
                        Ok(turn) => break assert!(matches!(turn, Turn::Delivered { .. })),
                        Err(TrySendError::NeverFits) => panic!("a frame fits"),
                        Err(TrySendError::Full) => {
                            while sender.has_room() == Ok(false) {
                                if receiver.hear(&mut heard) == 0 {
                                    thread::yield_now();
                                }
                            }
                        }
                        Err(TrySendError::Waiting | TrySendError::Behind) => {
                            if receiver.hear(&mut heard) == 0 {
                                thread::yield_now();
                            }
                        }
                    }
                }
            }
            while heard.len() < 3 * MANY as usize {
                heard.extend_from_slice(receiver.next_items());
            }
            (heard, sender, receiver)
        };
        let heard: Vec<Vec<Item>> = thread::scope(|scope| {
            let working: Vec<_> = senders
                .into_iter()
                .zip(receivers)
                .map(|(sender, receiver)| scope.spawn(move || work(sender, receiver)))
                .collect();
            working.into_iter().map(|w| w.join().unwrap().0).collect()
        });
        assert!(heard.iter().all(|items| *items == heard[0]));
        expect_each(&heard[0], 3, MANY);
    }
}

/// A ring is full, then heard, and then the batch that was kept is sent.
#[test]
fn full_then_heard_then_sent() {
    let (mut senders, mut receivers) = ring(1, 2, 16);
    let sender = &mut senders[0];
    for round in 0..100 {
        assert_eq!(sender.put(&[1; 56]), Ok(2 * round));
        assert_eq!(sender.has_room(), Ok(true));
        assert!(matches!(sender.try_send(), Ok(Turn::Delivered { .. })));
        sender.put(&[2; 56]).unwrap();
        for receiver in &mut receivers {
            assert_eq!(sender.has_room(), Ok(false));
            assert_eq!(sender.try_send(), Err(TrySendError::Full));
            assert_eq!(sender.send(), Turn::Full);
            assert_eq!(sender.send_when_room(|| false), Ok(None));
            let nothing: [&str; 0] = [];
            let why = sender.send_all(nothing).unwrap_err().why;
            assert_eq!(why, SendError::Turn(Turn::Full));
            assert_eq!(receiver.passed(), 18 * round);
            let heard = receiver.try_items();
            assert_eq!((heard.len(), &heard[0][..]), (1, &[1; 56][..]));
            assert_eq!(receiver.passed(), 18 * round + 9);
        }
        assert_eq!((sender.has_room(), sender.pending()), (Ok(true), 1));
        let last = 2 * round + 1;
        assert!(matches!(sender.send(), Turn::Delivered { first, .. } if first == last));
        for receiver in &mut receivers {
            assert_eq!(receiver.next_items().len(), 1);
        }
    }
}

/// Of as many receivers as there can be the last one alone holds a frame up, until it has heard.
#[test]
fn the_last_of_most_receivers() {
    let (mut senders, mut receivers) = ring(1, MOST_RECEIVERS, 16);
    let sender = &mut senders[0];
    sender.send_all([[1; 56]]).unwrap();
    sender.put(&[2; 56]).unwrap();
    for receiver in &mut receivers {
        assert_eq!(sender.send(), Turn::Full);
        assert_eq!(receiver.try_items().len(), 1);
    }
    assert!(matches!(sender.send(), Turn::Delivered { .. }));
    let last = receivers.last_mut().unwrap().try_items();
    assert_eq!((last.len(), &last[0][..]), (1, &[2; 56][..]));
    let ended = Bus::end(senders, receivers).unwrap();
    assert_eq!((ended.floor, ended.log.len()), (9, 9));
}

/// A bus of 16 words that is no ring.
fn short_log() -> (Vec<Sender>, Vec<Receiver>) {
    let shape = Shape {
        log_words: 16,
        ..Shape::of(1, 1)
    };
    Bus::open(shape).unwrap()
}

/// Of a bus that is no ring nothing is passed, and Full is for good.
#[test]
fn a_bus_that_is_no_ring() {
    let (mut senders, mut receivers) = short_log();
    senders[0].send_all([[1; 56]]).unwrap();
    senders[0].put(&[2; 56]).unwrap();
    assert_eq!(receivers[0].hear(&mut Vec::new()), 1);
    assert_eq!((receivers[0].place(), receivers[0].passed()), (9, 0));
    assert_eq!(senders[0].has_room(), Ok(false));
    assert_eq!(senders[0].try_send(), Err(TrySendError::Full));
    let ended = Bus::end(senders, receivers).unwrap();
    assert_eq!((ended.floor, ended.log.len()), (0, 9));
}

#[test]
fn a_batch_that_never_fits() {
    let (mut senders, mut receivers) = short_log();
    while senders[0].put(&[0; 56]).is_ok() {}
    assert_eq!(senders[0].pending(), LOG_MESSAGES as u64);
    assert_eq!(senders[0].has_room(), Err(NeverFits));
    let unasked = || -> bool { panic!("it is told before the first turn") };
    assert_eq!(senders[0].send_when_room(unasked), Err(NeverFits));
    assert_eq!(senders[0].try_send(), Err(TrySendError::NeverFits));
    assert_eq!(receivers[0].try_item(), None);
    assert_eq!(NeverFits.to_string(), "the batch is longer than the log");
    assert_eq!(
        TrySendError::from(NeverFits).to_string(),
        NeverFits.to_string()
    );
}

/// A batch takes as many of the longest messages as its bus says, and no more, and has room then.
#[test]
fn batches_of_as_many_messages_as_a_bus_says() {
    let of = |ring, batch, log_words| Shape {
        ring,
        batch,
        log_words,
        ..Shape::of(1, 1)
    };
    let (most, without) = (MOST_MESSAGES as u64, LOG_MESSAGES as u64);
    let shapes = [
        (of(true, 0, 65_536), most),
        (of(true, 0, 513), most),
        (of(true, 64, 513), most),
        (of(true, 63, 505), 63),
        (of(true, 17, 137), 17),
        (of(true, 2, 17), 2),
        (of(true, 1, 16), 1),
        (of(false, 0, 65_536), without),
        (of(false, 16, 129), without),
    ];
    for (shape, limit) in shapes {
        let (mut senders, mut receivers) = Bus::open(shape).unwrap();
        let sender = &mut senders[0];
        for number in 0..limit {
            assert_eq!(sender.put(&[number as u8; 56]), Ok(number));
        }
        assert_eq!(sender.put(b""), Err(PutError::BatchFull), "{shape:?}");
        assert_eq!((sender.pending(), sender.batch_limit()), (limit, limit));
        assert_eq!(sender.has_room(), Ok(true));
        let sent = sender.send();
        assert!(matches!(sent, Turn::Delivered { last, .. } if last == limit - 1));
        let frame = receivers[0].try_frame().unwrap();
        assert_eq!(frame.items().len() as u64, limit);
        assert_eq!(frame.end_place(), 1 + 8 * limit);
        let items = frame.items().iter().enumerate();
        assert!(items.into_iter().all(|(at, it)| it[..] == [at as u8; 56]));
    }
}

/// `send_all` sends a batch where it is full.
#[test]
fn messages_are_sent_in_batches_of_as_many() {
    for (batch, lengths) in [(3, &[3, 3, 1][..]), (7, &[7]), (64, &[7])] {
        let shape = Shape {
            batch,
            ..Shape::of(1, 1)
        };
        let (mut senders, mut receivers) = Bus::open_ring(shape).unwrap();
        senders[0].send_all([[1; 9]; 7]).unwrap();
        senders[0].end_order().unwrap();
        let frames: Vec<_> = std::iter::from_fn(|| receivers[0].next_frame()).collect();
        let found: Vec<_> = frames.iter().map(|frame| frame.items().len()).collect();
        assert_eq!(found, [lengths, &[0]].concat());
    }
}

/// A receiver that is dropped, or by which a bus was not ended, lets the others go on.
#[test]
fn a_receiver_that_is_gone_lets_the_others_go_on() {
    for by_end in [false, true] {
        let (mut senders, mut receivers) = ring(1, 2, 16);
        senders[0].send_all([[0; 56]]).unwrap();
        senders[0].put(&[1; 56]).unwrap();
        assert!(receivers[0].try_item().is_some());
        assert_eq!(senders[0].send(), Turn::Full);
        let gone = receivers.pop().unwrap();
        if by_end {
            assert_eq!(gone.end().unwrap_err(), EndError::InUse);
        } else {
            drop(gone);
        }
        assert!(matches!(senders[0].send(), Turn::Delivered { .. }));
        for _ in 0..50 {
            assert!(receivers[0].try_item().is_some());
            senders[0].send_all([[2; 56]]).unwrap();
        }
        let ended = Bus::end(senders, receivers).unwrap();
        assert_eq!((ended.floor, ended.log.len()), (51 * 9, 9));
    }
}

/// Threads drop their receivers after some items, within a frame too, also by a panic; those that
/// are left hear on, and the senders are never stopped for good.
#[test]
fn receivers_that_are_dropped_at_any_item() {
    for run in 0..20 {
        let (mut senders, receivers) = ring(1, 4, 64);
        thread::scope(|scope| {
            for (number, mut receiver) in receivers.into_iter().enumerate() {
                let most = if number == 0 {
                    300
                } else {
                    (run * 7 + number * 31) % 100
                };
                let hears = scope.spawn(move || {
                    for expected in 0..most {
                        assert_eq!(receiver.next_item().unwrap().number, expected as u64);
                    }
                    if number == 1 {
                        panic!("a fault of the program's own, which is to be seen");
                    }
                });
                if number == 1 {
                    scope.spawn(move || assert!(hears.join().is_err()));
                }
            }
            let sender = &mut senders[0];
            for number in 0..300 {
                sender.put(&[0; 20]).unwrap();
                if number % 4 == 3 {
                    let sent = sender.send_when_room(|| true);
                    assert!(matches!(sent, Ok(Some(Turn::Delivered { .. }))));
                }
            }
        });
    }
}

/// A sender that sleeps until there is room is woken by a receiver that passes, and by one that is
/// dropped; and it is told to stop.
#[test]
fn room_wakes_a_sender() {
    for is_dropped in [false, true] {
        let mut fastest = Duration::MAX;
        for _ in 0..6 {
            let (mut senders, mut receivers) = ring(1, 1, 16);
            senders[0].send_all([[0; 56]]).unwrap();
            senders[0].put(&[1; 56]).unwrap();
            let asked = AtomicUsize::new(0);
            let go_on = || {
                asked.fetch_add(1, Ordering::SeqCst);
                true
            };
            thread::scope(|scope| {
                let sends = scope.spawn(|| senders[0].send_when_room(go_on));
                while asked.load(Ordering::SeqCst) < 66 {
                    thread::yield_now();
                }
                thread::sleep(Duration::from_millis(5));
                let begin = Instant::now();
                if is_dropped {
                    receivers.clear();
                } else {
                    assert!(receivers[0].try_item().is_some());
                }
                let sent = sends.join().unwrap();
                assert!(matches!(sent, Ok(Some(Turn::Delivered { .. }))));
                fastest = fastest.min(begin.elapsed());
            });
        }
        // Without a ring each would sleep on for 0.1 s.
        assert!(fastest < Duration::from_millis(60));
    }
    let (mut senders, _receivers) = ring(1, 1, 16);
    senders[0].send_all([[0; 56]]).unwrap();
    senders[0].put(&[1; 56]).unwrap();
    let (bell, stop) = (senders[0].bell().clone(), AtomicBool::new(false));
    let go_on = || !stop.load(Ordering::SeqCst);
    thread::scope(|scope| {
        let sends = scope.spawn(|| senders[0].send_when_room(go_on));
        thread::sleep(A_WHILE);
        stop.store(true, Ordering::SeqCst);
        bell.ring();
        assert_eq!(sends.join().unwrap(), Ok(None));
    });
    assert_eq!(senders[0].pending(), 1);
}

/// A sender waits for room that never comes: another one ends the order meanwhile, and a receiver
/// does not pass the end mark. A look does not see that, and it is told all the same.
#[test]
fn the_end_is_told_to_who_waits_for_room() {
    for waiting in [Waiting::Spin, Waiting::Yield, Waiting::Sleep] {
        let (mut senders, mut receivers) = ring(2, 1, 17);
        let (waits, closes) = senders.split_at_mut(1);
        let (waits, closes) = (&mut waits[0], &mut closes[0]);
        waits.set_waiting(waiting);
        closes.send_all([[0; 8]]).unwrap();
        // A frame of the whole log: 1 word, 8, and 8.
        waits.put(&[1; 56]).unwrap();
        waits.put(&[2; 56]).unwrap();
        assert_eq!((waits.send(), waits.has_room()), (Turn::Full, Ok(false)));
        let asked = AtomicUsize::new(0);
        let go_on = || {
            asked.fetch_add(1, Ordering::SeqCst);
            true
        };
        thread::scope(|scope| {
            let sends = scope.spawn(|| waits.send_when_room(go_on));
            while asked.load(Ordering::SeqCst) < 66 {
                thread::yield_now();
            }
            closes.end_order().unwrap();
            assert_eq!(receivers[0].by_ref().count(), 1);
            assert_eq!(sends.join().unwrap(), Ok(Some(Turn::Closed)));
        });
        assert_eq!((waits.pending(), waits.has_room()), (2, Ok(false)));
        let ended = Bus::end(senders, receivers).unwrap();
        assert_eq!((ended.counts[..2].to_vec(), ended.floor), (vec![0, 1], 3));
    }
}

/// A sender that holds the page behind another one is told so, and its batch is sent once.
#[test]
fn behind_is_told() {
    let shape = Shape {
        rows: 2,
        ring: true,
        ..Shape::of(3, 1)
    };
    let (mut senders, mut receivers) = Bus::open(shape).unwrap();
    let (anna, bert) = senders.split_at_mut(1);
    let (anna, bert) = (&mut anna[0], &mut bert[0]);
    bert.put(b"late").unwrap();
    for _ in 0..3 {
        assert_eq!(bert.turn(0), Turn::Going);
    }
    anna.send_all(["y"]).unwrap();
    anna.put(b"z").unwrap();
    assert_eq!(anna.try_send(), Err(TrySendError::Behind));
    assert_eq!(anna.try_send(), Err(TrySendError::Behind));
    // Its batch stands in the order already.
    let mut heard = Vec::new();
    assert_eq!(receivers[0].hear(&mut heard), 2);
    assert_eq!(bert.try_send(), Err(TrySendError::Waiting));
    assert!(matches!(anna.try_send(), Ok(Turn::Delivered { .. })));
    assert!(matches!(bert.try_send(), Ok(Turn::Delivered { .. })));
    assert_eq!(receivers[0].hear(&mut heard), 1);
    let order: Vec<_> = heard
        .iter()
        .map(|item| (item.sender, item.number))
        .collect();
    assert_eq!(order, [(0, 0), (0, 1), (1, 0)]);
}

/// A sitting after another, of which each is a ring or not.
#[test]
fn a_sitting_after_a_ring() {
    for (first, then) in [(true, true), (true, false), (false, true)] {
        let shape = |ring| Shape {
            log_words: 64,
            ring,
            batch: if ring { 7 } else { 0 },
            ..Shape::of(2, 1)
        };
        let (mut senders, mut receivers) = Bus::open(shape(first)).unwrap();
        let rounds = if first { 50 } else { 2 };
        for number in 0..rounds {
            senders[1].send_all([[number; 40]]).unwrap();
            assert_eq!(receivers[0].next_item().unwrap()[..], [number; 40]);
        }
        senders[0].leave().unwrap();
        assert!(matches!(senders[0].send(), Turn::Left { .. }));
        senders[1].end_order().unwrap();
        let ended = Bus::end(senders, receivers).unwrap();
        let words = 7 * u64::from(rounds);
        assert_eq!(ended.floor, if first { words } else { 0 });
        assert_eq!(ended.floor + ended.log.len() as u64, words + 4);
        assert_eq!(ended.counts[..2], [0, u64::from(rounds)]);
        assert_eq!(
            (ended.left[..2].to_vec(), ended.ended),
            (vec![true, false], true)
        );
        let (mut senders, mut receivers) = Bus::open_after(shape(then), &ended).unwrap();
        let rounds = if then { 50 } else { 2 };
        for number in 0..rounds {
            senders[1].send_all([[number; 40]]).unwrap();
            let next = ended.next[1] + u64::from(number);
            assert_eq!(receivers[0].next_item().unwrap().number, next);
        }
    }
}

#[test]
fn rings_that_are_refused() {
    let good = Shape::of(1, 1);
    for rows in [1, 9] {
        let shape = Shape {
            rows,
            again: false,
            ..good
        };
        assert_eq!(Bus::open_ring(shape).unwrap_err(), OpenError::Rows);
    }
    let short = Shape {
        log_words: 15,
        ..good
    };
    assert_eq!(Bus::open_ring(short).unwrap_err(), OpenError::LogWords);
    let many = Shape::of(1, MOST_RECEIVERS + 1);
    assert_eq!(Bus::open_ring(many).unwrap_err(), OpenError::Receivers);
}

/// Batches of a ring have 1 to 64 messages, and it is as long as the longest of them at least.
#[test]
fn rings_of_batches() {
    let opened = |batch, log_words| {
        let shape = Shape {
            batch,
            log_words,
            ..Shape::of(1, 1)
        };
        Bus::open_ring(shape).map(|(senders, _)| senders[0].batch_limit())
    };
    for (batch, words) in [(0, 513), (64, 513), (63, 505), (16, 129), (2, 17)] {
        let limit = if batch == 0 { 64 } else { batch };
        assert_eq!(opened(batch, words), Ok(limit));
        assert_eq!(opened(batch, words - 1), Err(OpenError::ShortRing));
    }
    // 9 words are fewer than each log has.
    assert_eq!((opened(1, 16), opened(1, 65_536)), (Ok(1), Ok(1)));
    assert_eq!(opened(0, 16), Err(OpenError::ShortRing));
    for (batch, words) in [(65, 65_536), (65, 16), (u64::MAX, 513)] {
        assert_eq!(opened(batch, words), Err(OpenError::BadBatch));
    }
    assert_eq!(
        (opened(65, 15), opened(0, 15)),
        (Err(OpenError::LogWords), Err(OpenError::LogWords))
    );
    for batch in [1, 15, 17, 64, 65] {
        let shape = Shape {
            batch,
            ..Shape::of(1, 1)
        };
        assert_eq!(Bus::open(shape).unwrap_err(), OpenError::BadBatch);
    }
    let text = "a batch has 1 to 64 messages, without a ring 16";
    assert_eq!(OpenError::BadBatch.to_string(), text);
    let text = "a ring shorter than its longest frame: one word, and eight a message";
    assert_eq!(OpenError::ShortRing.to_string(), text);
}

/// The numbers of a ring end where all its batches may not have theirs, told behind the sizes.
#[test]
fn numbers_of_rings_by_their_batches() {
    let opened = |batch: u64, log_words, next| {
        let shape = Shape {
            batch,
            log_words,
            ring: true,
            ..Shape::of(2, 1)
        };
        let page = Page::from_numbers(&[0, next]).unwrap();
        Bus::open_after(shape, page).map(|_| batch)
    };
    for batch in [1, 2, 16, 63, 64] {
        let end = (1 << 48) - batch * ((1 << 40) + 1);
        assert_eq!(opened(batch, 513, end - 1), Ok(batch));
        assert_eq!(opened(batch, 513, end), Err(OpenError::Numbers));
    }
    let end = (1 << 48) - (1 << 46) - 64;
    assert_eq!(opened(0, 513, end - 1), Ok(0));
    assert_eq!(opened(0, 513, end), Err(OpenError::Numbers));
    assert_eq!(opened(0, 512, end), Err(OpenError::ShortRing));
    assert_eq!(opened(65, 513, end), Err(OpenError::BadBatch));
}
