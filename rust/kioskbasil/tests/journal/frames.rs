//! Frames as a receiver gives them.

use super::common::{bus, in_time, ring};
use super::heard;
use kioskbasil::{Body, Bus, Heard, NextFrame};
use std::time::Duration;
use std::{iter, thread};

#[test]
fn frames_are_given_once_they_are_whole() {
    let (mut senders, mut receivers) = bus(3, 1, 8);
    let receiver = &mut receivers[0];
    assert_eq!(receiver.try_frame(), None);
    senders[2]
        .send_all([&[7; 56][..], b"", b"12345678"])
        .unwrap();
    let frame = receiver.try_frame().unwrap();
    assert_eq!((frame.owner, frame.place, frame.end_place()), (2, 0, 12));
    let lengths: Vec<_> = frame.items().iter().map(|item| item.len()).collect();
    assert_eq!(lengths, [56, 0, 8]);
    assert!(frame.items().iter().all(|item| item.sender == 2));
    assert_eq!(receiver.try_frame(), None);
    senders[1].send_all(["b"]).unwrap();
    senders[1].leave().unwrap();
    let _ = senders[1].send();
    senders[0].end_order().unwrap();
    let bodies: Vec<_> = (0..3).map(|_| receiver.try_frame().unwrap()).collect();
    assert_eq!(bodies[0].items()[0][..], b"b"[..]);
    assert_eq!((bodies[1].owner, &bodies[1].body), (1, &Body::Leave));
    assert_eq!((bodies[2].owner, &bodies[2].body), (0, &Body::End));
    assert!(bodies[2].tenure > bodies[1].tenure && bodies[1].tenure > bodies[0].tenure);
    assert_eq!(receiver.try_frame(), None);
    assert!(receiver.has_ended());
    assert_eq!(receiver.next_frame(), None);
}

#[test]
fn words_are_those_of_the_log() {
    let (mut senders, mut receivers) = bus(2, 1, 8);
    let long = [0x61; 56];
    senders[0].send_all([&b"a"[..], b"", &long]).unwrap();
    senders[1].send_all(vec![&long[..]; 33]).unwrap();
    senders[1].leave().unwrap();
    let _ = senders[1].send();
    senders[0].end_order().unwrap();
    let (mut words, mut place) = (Vec::new(), 0);
    while let Some(frame) = receivers[0].next_frame() {
        assert_eq!(frame.place, place);
        place = frame.end_place();
        words.extend(frame.words());
    }
    assert_eq!(words.len() as u64, place);
    assert_eq!(words, Bus::end(senders, receivers).unwrap().log);
}

/// The example of docs/FORMATS.md.
#[test]
fn words_of_one_frame() {
    let words = [
        0x4000_0200_0000_0000,
        0x8040_0000_0000_0000,
        0x6100_0000_0000_0000,
    ];
    assert_eq!(heard(1)[0].words(), words);
}

/// A frame of which another call has taken something is passed over, and the next one is whole.
#[test]
fn frames_are_whole_behind_other_calls() {
    let (mut senders, mut receivers) = bus(1, 1, 8);
    let (sender, receiver) = (&mut senders[0], &mut receivers[0]);
    sender.send_all(["one", "two"]).unwrap();
    assert_eq!(receiver.try_item().unwrap()[..], b"one"[..]);
    sender.send_all(["three"]).unwrap();
    sender.send_all(["four"]).unwrap();
    let frame = receiver.try_frame().unwrap();
    assert_eq!((frame.place, &frame.items()[0][..]), (5, &b"three"[..]));
    // The head of the frame with `four` is heard by now; another call takes its item.
    assert_eq!(receiver.try_item().unwrap()[..], b"four"[..]);
    assert_eq!(receiver.try_frame(), None);
    sender.send_all(["five"]).unwrap();
    let frame = receiver.try_frame().unwrap();
    assert_eq!((frame.place, &frame.items()[0][..]), (11, &b"five"[..]));
}

/// So is a leave of which another call has taken the head.
#[test]
fn leaves_are_whole_behind_other_calls() {
    let (mut senders, mut receivers) = bus(2, 1, 8);
    senders[1].leave().unwrap();
    let _ = senders[1].send();
    senders[0].send_all(["one"]).unwrap();
    while !matches!(receivers[0].turn(), Heard::Head { .. }) {}
    let frame = receivers[0].try_frame().unwrap();
    assert_eq!((frame.place, &frame.items()[0][..]), (2, &b"one"[..]));
}

#[test]
fn frames_are_waited_for() {
    let (mut senders, mut receivers) = ring(1, 1, 16);
    let (mut sender, mut receiver) = (senders.remove(0), receivers.remove(0));
    assert_eq!(receiver.next_frame_while(|| false), NextFrame::Stopped);
    let time = Duration::from_millis(2);
    assert_eq!(receiver.next_frame_timeout(time), NextFrame::Stopped);
    let sends = thread::spawn(move || {
        for _ in 0..1000 {
            sender.put(b"8 bytes!").unwrap();
            assert!(sender.send_when_room(|| true).is_ok());
        }
        sender.end_with_senders();
    });
    let numbers = in_time(move || {
        let frames = iter::from_fn(|| receiver.next_frame());
        let items = frames.map(|frame| frame.items()[0].number);
        let numbers: Vec<_> = items.take(1000).collect();
        // The order ends with its senders, by a mark where that has room, or without one.
        let last = receiver.next_frame();
        assert!(last.map_or(true, |it| it.body == Body::End) && receiver.has_ended());
        assert_eq!(receiver.next_frame_while(|| true), NextFrame::End);
        numbers
    });
    sends.join().unwrap();
    assert!(numbers.into_iter().eq(0..1000));
}
