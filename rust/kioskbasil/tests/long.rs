//! Long messages: they come as they were put, and nothing else is lost.

mod common;

use common::{in_time, pieces, Count};
use kioskbasil::{Bus, Item, LongItem, NextLong, NotLong, PutLongError, Receiver, Sender, Shape};
use kioskbasil::{NeverFits, PutError, Turn, MOST_LONG_BYTES};
use std::future::Future;
use std::sync::atomic::{AtomicBool, Ordering::SeqCst};
use std::sync::Arc;
use std::task::{Context, Poll, Waker};
use std::thread;

/// A ring of so many words, with batches of 16 messages.
fn open(senders: usize, receivers: usize, log_words: u64) -> (Vec<Sender>, Vec<Receiver>) {
    open_by(16, senders, receivers, log_words)
}

/// The same, with batches of so many messages.
fn open_by(
    batch: u64,
    senders: usize,
    receivers: usize,
    log_words: u64,
) -> (Vec<Sender>, Vec<Receiver>) {
    Bus::open_ring(Shape {
        log_words,
        batch,
        ..Shape::of(senders, receivers)
    })
    .unwrap()
}

/// The message of this number of a sender, of so many bytes.
fn bytes(sender: u8, number: u64, length: usize) -> Vec<u8> {
    let filler = (0..length as u64).map(|at| (at + number) as u8 ^ sender);
    filler.collect()
}

fn is_delivered(turn: Turn) -> bool {
    matches!(turn, Turn::Delivered { .. })
}

#[test]
fn messages_of_all_lengths() {
    let (mut senders, mut receivers) = open(1, 1, 129);
    let (sender, receiver) = (&mut senders[0], &mut receivers[0]);
    let mut next = 0;
    for length in 0..=MOST_LONG_BYTES {
        let put = bytes(0, next, length);
        next += pieces(length);
        assert_eq!(sender.put_long(&put), Ok(next - 1));
        assert!(is_delivered(sender.send()));
        let heard = receiver.try_long().unwrap().unwrap();
        assert_eq!((heard.sender, heard.number), (0, next - 1));
        assert_eq!(heard[..], put);
        assert_eq!(receiver.try_long(), None);
    }
    let too_long = vec![0; MOST_LONG_BYTES + 1];
    assert_eq!(sender.put_long(&too_long), Err(PutLongError::TooLong));
    assert_eq!(sender.pending(), 0);
}

#[test]
fn small_ones_share_a_batch() {
    let (mut senders, mut receivers) = open(1, 1, 4096);
    let sender = &mut senders[0];
    for number in 0..16 {
        assert_eq!(sender.put_long(&bytes(0, number, 55)), Ok(number));
    }
    assert_eq!(sender.put_long(b""), Err(PutLongError::BatchFull));
    assert!(is_delivered(sender.send()));
    for (length, last) in [(55, 16), (56, 18), (0, 19), (600, 30), (55, 31)] {
        assert_eq!(sender.put_long(&bytes(0, 0, length)), Ok(last));
    }
    assert_eq!(sender.put_long(b""), Err(PutLongError::BatchFull));
    assert!(is_delivered(sender.send()));
    let heard: Vec<LongItem> = (0..21)
        .map(|_| receivers[0].next_long().unwrap().unwrap())
        .collect();
    assert_eq!(
        heard[16..].iter().map(|it| it.len()).collect::<Vec<_>>(),
        [55, 56, 0, 600, 55]
    );
    assert_eq!(heard[20].number, 31);
}

/// A batch of 64 takes four of the longest ones, and one of 2 no message of three pieces.
#[test]
fn as_many_share_a_batch_as_it_has_messages() {
    let (mut senders, mut receivers) = open_by(64, 1, 1, 513);
    for number in 0..4 {
        let put = senders[0].put_long(&bytes(0, number, MOST_LONG_BYTES));
        assert_eq!(put, Ok(16 * number + 15));
    }
    assert_eq!(senders[0].put_long(b""), Err(PutLongError::BatchFull));
    assert!(is_delivered(senders[0].send()));
    for number in 0..4 {
        let heard = receivers[0].try_long().unwrap().unwrap();
        assert_eq!(heard[..], bytes(0, number, MOST_LONG_BYTES));
    }
    let (mut senders, mut receivers) = open_by(2, 1, 1, 17);
    for length in [111, 880] {
        let put = senders[0].put_long(&bytes(0, 0, length));
        assert_eq!(
            (put, senders[0].pending()),
            (Err(PutLongError::BatchFull), 0)
        );
    }
    assert_eq!(senders[0].put_long(b"short"), Ok(0));
    assert_eq!(senders[0].put_long(&[7; 56]), Err(PutLongError::BatchFull));
    assert!(is_delivered(senders[0].send()));
    assert_eq!(receivers[0].try_long().unwrap().unwrap()[..], b"short"[..]);
    assert_eq!(senders[0].put_long(&[7; 110]), Ok(2));
    assert!(is_delivered(senders[0].send()));
    assert_eq!(receivers[0].try_long().unwrap().unwrap()[..], [7; 110]);
}

/// Of several causes the first, as of `put`.
#[test]
fn refusals_change_nothing() {
    let (mut senders, _receivers) = open(2, 2, 4096);
    let sender = &mut senders[0];
    let (fits, too_long) = ([1; 880], [1; 881]);
    sender.put_long(&[1; 56]).unwrap();
    assert_eq!(sender.put_long(&fits), Err(PutLongError::BatchFull));
    assert_eq!(sender.put_long(&too_long), Err(PutLongError::TooLong));
    while sender.turn(0) != (Turn::Own { tenure: 0 }) {}
    for message in [&fits[..1], &fits, &too_long] {
        assert_eq!(sender.put_long(message), Err(PutLongError::Busy));
    }
    assert!(is_delivered(sender.send()));
    assert_eq!(sender.next_number(), 2);
    sender.close().unwrap();
    for message in [&fits[..1], &fits, &too_long] {
        assert_eq!(sender.put_long(message), Err(PutLongError::Closed));
    }
    let texts = [PutLongError::TooLong, PutLongError::BatchFull].map(|why| why.to_string());
    assert_eq!(texts[0], "no message is taken: more than 880 bytes");
    assert_eq!(
        texts[1],
        "no message is taken: its pieces do not fit beside what waits"
    );
    assert_eq!(
        PutLongError::Closed.to_string(),
        PutError::Closed.to_string()
    );
}

#[test]
fn a_batch_that_is_longer_than_the_log_is_told() {
    let shape = Shape {
        log_words: 128,
        ..Shape::of(1, 1)
    };
    let (mut senders, _receivers) = Bus::open(shape).unwrap();
    senders[0].put_long(&[0; 880]).unwrap();
    assert_eq!(senders[0].has_room(), Err(NeverFits));
}

/// Senders and receivers in threads, over rings in which few messages stand: each receiver hears
/// all of each sender.
#[test]
fn threads_hear_all_over_a_full_ring() {
    for (batch, log_words) in [(16, 129), (64, 513), (64, 1024)] {
        in_time(move || {
            let (senders, receivers) = open_by(batch, 3, 2, log_words);
            let hears = |mut receiver: Receiver| {
                let (mut next, mut heard) = ([0; 3], 0);
                while heard < 3 * 300 {
                    let long = receiver.next_long().unwrap().unwrap();
                    let (sender, length) = (usize::from(long.sender), long.len());
                    assert_eq!(long[..], bytes(long.sender, next[sender], length));
                    assert_eq!(length, length_of(next[sender]));
                    next[sender] += 1;
                    heard += 1;
                }
                assert_eq!(next, [300; 3]);
            };
            let start = |receiver| thread::spawn(move || hears(receiver));
            let ears: Vec<_> = receivers.into_iter().map(start).collect();
            let sends = |sender| thread::spawn(move || send_all(sender));
            let threads: Vec<_> = senders.into_iter().map(sends).collect();
            threads.into_iter().for_each(|it| it.join().unwrap());
            ears.into_iter().for_each(|it| it.join().unwrap());
        });
    }
}

fn length_of(number: u64) -> usize {
    number as usize * 367 % 881
}

fn send_all(mut sender: Sender) {
    for number in 0..300 {
        let message = bytes(sender.number(), number, length_of(number));
        while let Err(why) = sender.put_long(&message) {
            assert_eq!(why, PutLongError::BatchFull);
            sender.send_when_room(|| true).unwrap();
        }
    }
    sender.send_when_room(|| true).unwrap();
}

/// The items that a receiver gives one by one.
fn all(receiver: &mut Receiver) -> Vec<Result<LongItem, NotLong>> {
    std::iter::from_fn(|| receiver.next_long()).collect()
}

fn lengths(heard: &[Result<LongItem, NotLong>]) -> Vec<Result<usize, usize>> {
    let length = |it: &Result<LongItem, NotLong>| match it {
        Ok(long) => Ok(long.len()),
        Err(NotLong(item)) => Err(item.len()),
    };
    heard.iter().map(length).collect()
}

/// What is no long message is given as it is, and what stands behind it is heard.
#[test]
fn what_is_no_piece_is_told_and_not_lost() {
    let full = |follow| [vec![follow], vec![7; 55]].concat();
    let beginnings = [
        vec![vec![]],
        vec![vec![16]],
        vec![b"by put".to_vec()],
        vec![vec![1, 7, 7]],
        vec![full(15)],
        vec![full(2), full(1)],
        vec![full(2), full(0)],
        vec![full(2), full(2), full(2)],
        vec![full(1), vec![]],
    ];
    for beginning in beginnings {
        let (mut senders, mut receivers) = open(2, 1, 4096);
        let lost: Vec<_> = beginning.iter().map(|bytes| Err(bytes.len())).collect();
        senders[0].send_all(&beginning).unwrap();
        senders[1].put_long(&[5; 880]).unwrap();
        assert!(is_delivered(senders[1].send()));
        senders[0].put_long(&[5; 111]).unwrap();
        assert!(is_delivered(senders[0].send()));
        senders[1].end_order().unwrap();
        let heard = all(&mut receivers[0]);
        let mut wanted = lost.clone();
        // A piece by which a message ends is one of 55 bytes alone.
        if beginning == [full(2), full(0)] {
            wanted = vec![Err(56), Ok(55)];
        }
        wanted.extend([Ok(880), Ok(111)]);
        assert_eq!(lengths(&heard), wanted);
        let text = "message 0 of sender 0 is no long one";
        assert_eq!(heard[0].as_ref().unwrap_err().to_string(), text);
    }
}

/// Of 17 pieces that count down, and behind one that is short, though another follows.
#[test]
fn pieces_that_are_too_many_or_too_short_are_not_joined() {
    let (mut senders, mut receivers) = open(1, 1, 4096);
    let pieces: Vec<_> = (0..=16u8).rev().map(|follow| [follow; 56]).collect();
    senders[0].send_all(&pieces).unwrap();
    senders[0].send_all([&[1, 7, 7][..], &[0, 7]]).unwrap();
    senders[0].end_order().unwrap();
    let heard = all(&mut receivers[0]);
    assert_eq!(lengths(&heard), [Err(56), Ok(880), Err(3), Ok(1)]);
}

#[test]
fn pieces_of_two_senders_are_not_joined() {
    let (mut senders, mut receivers) = open(2, 1, 4096);
    senders[0].send_all([[1; 56]]).unwrap();
    senders[1].put_long(b"x").unwrap();
    assert!(is_delivered(senders[1].send()));
    senders[1].end_order().unwrap();
    assert_eq!(lengths(&all(&mut receivers[0])), [Err(56), Ok(1)]);
}

/// Whether pieces join does not go by when a receiver looks: it waits for the next item of the
/// order, and what is left at the end is told then.
#[test]
fn a_message_that_is_not_whole_waits_for_what_follows() {
    let (mut senders, mut receivers) = open(1, 2, 4096);
    let piece = [vec![1], vec![7; 55]].concat();
    senders[0].send_all([&piece]).unwrap();
    assert_eq!(receivers[0].try_long(), None);
    assert_eq!(receivers[0].next_long_while(|| false), NextLong::Stopped);
    senders[0].send_all([[0, 7, 7]]).unwrap();
    senders[0].send_all([&piece]).unwrap();
    for receiver in &mut receivers {
        let long = receiver.try_long().unwrap().unwrap();
        assert_eq!((long.len(), long.number), (57, 1));
        assert_eq!(receiver.try_long(), None);
    }
    senders[0].end_order().unwrap();
    assert_eq!(lengths(&all(&mut receivers[0])), [Err(56)]);
    // The pieces may be taken one by one too.
    assert_eq!(receivers[1].next_item().map(|it: Item| it.number), Some(2));
    assert_eq!(receivers[1].next_long_while(|| true), NextLong::End);
    assert_eq!(receivers[1].try_long(), None);
}

#[test]
fn one_that_waits_is_woken_and_told_to_stop() {
    in_time(|| {
        let (mut senders, mut receivers) = open(1, 1, 4096);
        let (mut receiver, stop) = (receivers.remove(0), Arc::new(AtomicBool::new(false)));
        let (bell, stopped) = (receiver.bell().clone(), stop.clone());
        let hears = thread::spawn(move || {
            let first = receiver.next_long();
            (first, receiver.next_long_while(|| !stopped.load(SeqCst)))
        });
        senders[0].put_long(&[9; 500]).unwrap();
        assert!(is_delivered(senders[0].send()));
        stop.store(true, SeqCst);
        bell.ring();
        let (first, second) = hears.join().unwrap();
        assert_eq!(
            (first.unwrap().unwrap().len(), second),
            (500, NextLong::Stopped)
        );
    });
}

#[test]
fn a_task_is_woken_by_a_long_message() {
    let (mut senders, mut receivers) = open(1, 1, 4096);
    let count = Arc::<Count>::default();
    let waker = Waker::from(count.clone());
    let mut context = Context::from_waker(&waker);
    assert!(receivers[0].poll_long(&mut context).is_pending());
    senders[0].put_long(&[9; 500]).unwrap();
    assert!(is_delivered(senders[0].send()));
    assert_eq!(count.0.load(SeqCst), 1);
    let mut hears = Box::pin(receivers[0].next_long_async());
    let heard = match hears.as_mut().poll(&mut context) {
        Poll::Ready(Some(heard)) => heard.unwrap(),
        other => panic!("{other:?}"),
    };
    assert_eq!((heard.len(), heard.as_ref()[0]), (500, 9));
    drop(hears);
    senders[0].end_order().unwrap();
    assert_eq!(receivers[0].poll_long(&mut context), Poll::Ready(None));
}
