//! Runs that are recorded, and go on.

use super::common::{bus, in_time};
use super::{header, Folder};
use kioskbasil::journal::{self, End, GoOnError, Header, Journal, JournalFile};
use kioskbasil::journal::{Recovered, SyncPolicy};
use kioskbasil::{Bus, Frame, Item, Page, Receiver, Sender, Shape};
use std::path::PathBuf;
use std::thread;

/// Sends so many messages, of lengths that differ, in batches that differ.
fn send(mut sender: Sender, messages: u64) -> Sender {
    for number in 0..messages {
        let byte = sender.number().wrapping_add(number as u8);
        sender.put(&vec![byte; number as usize % 57]).unwrap();
        if number % (3 + u64::from(sender.number())) == 0
            || sender.pending() == sender.batch_limit()
        {
            assert!(sender.send_when_room(|| true).is_ok());
        }
    }
    assert!(sender.send_when_room(|| true).is_ok());
    sender
}

fn record<F: JournalFile>(mut receiver: Receiver, mut journal: Journal<F>) -> (Vec<Frame>, F) {
    let mut frames = Vec::new();
    while let Some(frame) = receiver.next_frame() {
        journal.write(&frame).unwrap();
        frames.push(frame);
    }
    journal.sync().unwrap();
    (frames, journal.into_file())
}

/// A sitting of three workers after a page, recorded in this file; and what a receiver was given.
fn sitting(page: Page, path: PathBuf, messages: u64) -> (Vec<Item>, Vec<Frame>) {
    let shape = Shape {
        log_words: 257,
        ring: true,
        batch: 32,
        ..Shape::of(3, 2)
    };
    let (senders, mut receivers) = Bus::open_after(shape, page).unwrap();
    let header = Header::after(3, &page).unwrap();
    let journal = Journal::create(path, header, SyncPolicy::Never).unwrap();
    let (recorder, hearer) = (receivers.remove(0), receivers.remove(0));
    let records = thread::spawn(move || record(recorder, journal).0);
    let hears = thread::spawn(move || hearer.collect::<Vec<_>>());
    let start = |sender| thread::spawn(move || send(sender, messages));
    let workers: Vec<_> = senders.into_iter().map(start).collect();
    let mut senders: Vec<_> = workers.into_iter().map(|it| it.join().unwrap()).collect();
    senders[1].leave().unwrap();
    assert!(senders[1].send_when_room(|| true).is_ok());
    senders[0].end_order().unwrap();
    (hears.join().unwrap(), records.join().unwrap())
}

#[test]
fn runs_are_recorded_and_go_on() {
    let folder = Folder::new("run");
    let first = Page::from_numbers(&[0]).unwrap();
    let mut page = first;
    for round in 0..3 {
        let path = folder.file(&format!("sitting.{round}"));
        let place = path.clone();
        let (items, frames) = in_time(move || sitting(page, place, 1000));
        let read = journal::read(&path).unwrap();
        assert_eq!(read.frames(), frames);
        assert!(read.items().eq(items.iter()));
        assert_eq!((read.end(), read.has_ended()), (End::Whole, true));
        assert_eq!(read.left()[..3], [false, true, false]);
        assert_eq!(read.header().first_numbers(), [1000 * round; 3]);
        let behind = read.page_after(&page).unwrap();
        // Without the file before it, and once more.
        for other in [first, behind] {
            if other != page {
                assert_eq!(read.page_after(&other), Err(GoOnError::Gap));
            }
        }
        page = behind;
        assert_eq!(
            page.next_numbers()[..4],
            [
                1000 * (round + 1),
                1000 * (round + 1),
                1000 * (round + 1),
                0
            ]
        );
        let words: Vec<_> = frames.iter().flat_map(Frame::words).collect();
        assert_eq!(read.place(), words.len() as u64);
    }
    let (mut senders, _receivers) = Bus::open_after(Shape::of(3, 1), page).unwrap();
    assert_eq!(senders[2].put(b"goes on"), Ok(3000));
}

/// A recording that is cut anywhere opens a bus that goes on behind the last whole frame.
#[test]
fn cut_runs_go_on() {
    let (mut senders, mut receivers) = bus(2, 1, 8);
    for number in 0..40u64 {
        let sender = &mut senders[number as usize % 2];
        sender
            .send_all(vec![vec![1; number as usize]; 1 + number as usize % 3])
            .unwrap();
    }
    senders[0].end_order().unwrap();
    let journal = Journal::on(Vec::new(), header(2), SyncPolicy::Never).unwrap();
    let (frames, bytes) = record(receivers.remove(0), journal);
    let next = |read: &Recovered| -> Vec<u64> {
        let of = |sender| read.items().filter(|it| it.sender == sender).count() as u64;
        vec![of(0), of(1)]
    };
    for cut in (64..=bytes.len()).rev().step_by(7) {
        let read = journal::read_from(&bytes[..cut]).unwrap();
        assert_eq!(read.frames(), &frames[..read.frames().len()]);
        let (mut senders, _receivers) =
            Bus::open_after(Shape::of(2, 1), read.page().unwrap()).unwrap();
        let numbers: Vec<_> = senders.iter_mut().map(|it| it.put(b"").unwrap()).collect();
        assert_eq!(numbers, next(&read));
    }
}
