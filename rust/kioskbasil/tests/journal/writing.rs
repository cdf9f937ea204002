//! Journals, as they are written.

use super::common::{in_time, ring};
use super::disk::{Call, Disk, Failing, Plates};
use super::{bytes, failure, header, heard, small, Folder, ENDS, FIRST, HEADER};
use kioskbasil::journal::{self, Doing, End, Header, Journal, JournalError};
use kioskbasil::journal::{ReadError, RepairError, SyncPolicy, Watch};
use kioskbasil::{Body, Frame, Page};
use std::time::Duration;
use std::{fs, process, thread};

#[test]
fn these_bytes_are_written() {
    let page = Page::from_numbers(&[9, 4]).unwrap();
    let two = Header::after(2, &page).unwrap();
    let journal = Journal::on(Vec::new(), two, SyncPolicy::Never).unwrap();
    let wanted = "4b494f534b4c4f47 0000000000000001 0000000000000002 0000000000000040 \
         0000000000000000 0000000000000009 0000000000000004 0cb0289df6e2e3e3";
    assert_eq!(journal.into_file(), bytes(&[wanted]));

    let mut journal = Journal::on(Vec::new(), header(1), SyncPolicy::EachFrame).unwrap();
    journal.write(&heard(1)[0]).unwrap();
    let one = "4b494f534b4c4f47 0000000000000001 0000000000000001 0000000000000040 \
         0000000000000000 0000000000000000 7bf888e657c2e37b";
    let record = "4000020000000000 8040000000000000 6100000000000000 2d3c62919a3485bf";
    let safe = journal.safe();
    assert_eq!((safe.place, safe.frames, safe.bytes), (3, 1, 88));
    assert_eq!(journal.into_file(), bytes(&[one, record]));
}

/// What a frame is written behind, and as what. Nothing is written of one that is not next.
#[test]
fn other_frames_are_not_next() {
    let frames = heard(3);
    let mut journal = Journal::on(Vec::new(), header(1), SyncPolicy::EachFrame).unwrap();
    let refused = |journal: &mut Journal<Vec<u8>>, frame: &Frame| {
        let before = journal.safe();
        let is_refused = matches!(journal.write(frame), Err(JournalError::NotNext { .. }));
        is_refused && journal.safe() == before
    };
    assert!(refused(&mut journal, &frames[1]));
    journal.write(&frames[0]).unwrap();
    assert!(refused(&mut journal, &frames[0]));
    let next = &frames[1];
    let of = |change: fn(&mut Frame)| {
        let mut frame = next.clone();
        change(&mut frame);
        frame
    };
    let wrong = [
        of(|it| it.owner = 1),
        of(|it| it.tenure = 0),
        of(|it| it.tenure = 1 << 40),
        of(|it| it.place += 1),
        of(|it| it.body = Body::Items(Vec::new())),
        of(|it| it.body = Body::Items(vec![it.items()[0]; 2])),
        of(|it| it.body = Body::Items(vec![it.items()[0]; 65])),
    ];
    for frame in &wrong {
        assert!(refused(&mut journal, frame), "{frame:?}");
    }
    journal.write(next).unwrap();
    let end = Frame {
        body: Body::End,
        ..frames[2].clone()
    };
    journal.write(&end).unwrap();
    assert!(refused(&mut journal, &frames[2]));
    let read = journal::read_from(&journal.into_file()[..]).unwrap();
    assert_eq!(read.frames(), [frames[0].clone(), next.clone(), end]);
}

/// The longest frames of a ring are heard whole, recorded, and given back.
#[test]
fn frames_of_64_messages_are_written() {
    let (mut senders, mut receivers) = ring(1, 1, 513);
    let mut journal = Journal::on(Vec::new(), header(1), SyncPolicy::EachFrame).unwrap();
    let mut frames = Vec::new();
    for _ in 0..3 {
        let messages = (0..64u8).map(|number| [number; 56]);
        senders[0].send_all(messages).unwrap();
        let frame = receivers[0].try_frame().unwrap();
        assert_eq!((frame.items().len(), frame.words().len()), (64, 513));
        journal.write(&frame).unwrap();
        frames.push(frame);
    }
    let bytes = journal.into_file();
    assert_eq!(bytes.len(), 56 + 3 * 8 * 514);
    let read = journal::read_from(&bytes[..]).unwrap();
    assert_eq!((read.frames(), read.end()), (&frames[..], End::Whole));
    assert_eq!((read.header().most_messages(), read.place()), (64, 3 * 513));
}

#[test]
fn files_go_on_in_a_next_one() {
    let frames = heard(3);
    let mut journal = Journal::on(Vec::new(), header(1), SyncPolicy::Never).unwrap();
    journal.write(&frames[0]).unwrap();
    let header = journal.next_header().unwrap();
    let mut next = Journal::on(Vec::new(), header, SyncPolicy::Never).unwrap();
    frames[1..].iter().for_each(|it| next.write(it).unwrap());
    let before = journal::read_from(&journal.into_file()[..]).unwrap();
    let read = journal::read_from(&next.into_file()[..]).unwrap();
    let page = read.page_after(&before.page().unwrap()).unwrap();
    assert_eq!(page.next_numbers()[..2], [3, 0]);
    assert_eq!(
        (read.header().place(), read.header().first_numbers()),
        (3, &[1][..])
    );
    assert_eq!(
        (read.frames(), read.next_numbers()),
        (&frames[1..], &[3][..])
    );
}

/// A frame is one write and, where each is synced, one sync. Short writes go on.
#[test]
fn frames_are_one_write_each() {
    let disk = Disk::default();
    let mut journal = Journal::on(disk.clone(), header(1), SyncPolicy::EachFrame).unwrap();
    for frame in &heard(5) {
        journal.write(frame).unwrap();
    }
    let calls = disk.see(|it| (it.count(Call::Write), it.count(Call::Sync)));
    assert_eq!(calls, (6, 6));
    let whole = disk.see(|it| it.bytes.clone());
    let short = Disk::of(Plates {
        short: 3,
        ..Plates::default()
    });
    let mut journal = Journal::on(short.clone(), header(1), SyncPolicy::EachFrame).unwrap();
    heard(5).iter().for_each(|it| journal.write(it).unwrap());
    assert!(short.see(|it| it.bytes == whole && it.synced == it.bytes.len()));
}

#[test]
fn policies_say_when_to_sync() {
    let frames = heard(4);
    let syncs = |policy| {
        let disk = Disk::default();
        let mut journal = Journal::on(disk.clone(), header(1), policy).unwrap();
        frames.iter().for_each(|it| journal.write(it).unwrap());
        let syncs = || disk.see(|it| it.count(Call::Sync)) - 1;
        let before = (syncs(), journal.safe().frames);
        journal.sync().unwrap();
        journal.sync().unwrap();
        assert_eq!(journal.safe().frames, 4);
        assert_eq!(journal.safe().bytes, disk.see(|it| it.synced) as u64);
        (before, syncs())
    };
    assert_eq!(syncs(SyncPolicy::EachFrame), ((4, 4), 4));
    assert_eq!(syncs(SyncPolicy::Never), ((0, 0), 1));
    assert_eq!(
        syncs(SyncPolicy::Every(Duration::from_secs(600))),
        ((0, 0), 1)
    );
    assert_eq!(syncs(SyncPolicy::Every(Duration::ZERO)), ((4, 4), 4));
}

/// At each byte at which the disk is full the journal stops, says what is safe, and each further
/// call says the same. What is there reads torn or whole.
#[test]
fn full_disks_stop_a_journal() {
    let frames = heard(4);
    let length = header(1).bytes_of_it();
    for full_at in 0..length + 4 * 32 {
        let disk = Disk::of(Plates {
            full_at: Some(full_at),
            ..Plates::default()
        });
        let begun = Journal::on(disk.clone(), header(1), SyncPolicy::EachFrame);
        let whole = match full_at.checked_sub(length) {
            Some(more) => more / 32,
            None => {
                assert_eq!(failure(begun.unwrap_err()).0, Doing::Create);
                continue;
            }
        };
        let mut journal = begun.unwrap();
        let written: Vec<_> = frames.iter().map(|it| journal.write(it)).collect();
        assert!(written[..whole].iter().all(|it| it.is_ok()), "{full_at}");
        for answer in &written[whole..] {
            let (doing, safe, text) = failure(answer.clone().unwrap_err());
            assert_eq!((doing, safe.frames), (Doing::Write, whole as u64));
            let place = 3 * whole;
            let bytes = length + 32 * whole;
            let wanted = format!(
                "the journal is not written: full; safe are {whole} frames, up to place {place} \
                 and byte {bytes}"
            );
            assert_eq!(text, wanted);
        }
        let again = failure(journal.sync().unwrap_err());
        assert_eq!((again.0, again.1), (Doing::Write, journal.safe()));
        let read = journal::read_from(&disk.see(|it| it.bytes.clone())[..]).unwrap();
        assert_eq!(read.frames(), &frames[..whole]);
        assert!(!matches!(read.end(), End::Damaged { .. }));
    }
}

trait Bytes {
    fn bytes_of_it(&self) -> usize;
}

impl Bytes for Header {
    /// As docs/FORMATS.md counts them.
    fn bytes_of_it(&self) -> usize {
        48 + 8 * self.senders()
    }
}

/// Behind a sync that failed nothing is written, and nothing more is called safe.
#[test]
fn failing_syncs_stop_a_journal() {
    let frames = heard(4);
    for fails in 1..6 {
        let disk = Disk::of(Plates {
            fails: Some(Failing {
                call: Call::Sync,
                from: fails,
                once: false,
            }),
            ..Plates::default()
        });
        let begun = Journal::on(disk.clone(), header(1), SyncPolicy::EachFrame);
        if fails == 1 {
            assert_eq!(failure(begun.unwrap_err()).0, Doing::Create);
            continue;
        }
        let mut journal = begun.unwrap();
        let written: Vec<_> = frames.iter().map(|it| journal.write(it)).collect();
        let good = fails - 2;
        assert!(written.iter().take(good).all(|it| it.is_ok()));
        for answer in written.iter().skip(good) {
            let (doing, safe, text) = failure(answer.clone().unwrap_err());
            assert_eq!((doing, safe.frames as usize), (Doing::Sync, good));
            assert!(
                text.starts_with("the journal is not synced: gone; safe are "),
                "{text}"
            );
        }
        let bytes = disk.see(|it| it.bytes.len());
        assert_eq!(bytes, 56 + 32 * 4.min(good + 1));
        assert_eq!(journal.safe().bytes as usize, disk.see(|it| it.synced));
    }
}

#[test]
fn watches_are_told() {
    let frames = heard(2);
    let disk = Disk::of(Plates {
        fails: Some(Failing {
            call: Call::Sync,
            from: 3,
            once: false,
        }),
        ..Plates::default()
    });
    let mut journal = Journal::on(disk, header(1), SyncPolicy::Never).unwrap();
    let watch = journal.watch();
    let wait = |watch: &Watch, place| watch.wait_timeout(place, Duration::from_millis(1));
    assert!(wait(&watch, 0).unwrap() && !wait(&watch, 1).unwrap());
    journal.write(&frames[0]).unwrap();
    assert!(!wait(&watch, 3).unwrap());
    let waits = watch.clone();
    let waits = thread::spawn(move || (waits.wait(3).is_ok(), waits.wait(6).unwrap_err()));
    journal.sync().unwrap();
    watch.wait(3).unwrap();
    assert_eq!(watch.safe(), journal.safe());
    journal.write(&frames[1]).unwrap();
    let why = failure(journal.sync().unwrap_err());
    let (first, second) = in_time(move || waits.join().unwrap());
    assert!(first);
    assert_eq!(failure(second), why);
    drop(journal);
    assert_eq!(failure(watch.wait(6).unwrap_err()), why);
    watch.wait(3).unwrap();

    let journal = Journal::on(Vec::new(), header(1), SyncPolicy::Never).unwrap();
    let watch = journal.watch();
    drop(journal);
    assert!(matches!(watch.wait(1), Err(JournalError::Dropped { .. })));
}

#[test]
fn files_are_made_whole_and_once() {
    let folder = Folder::new("create");
    let path = folder.file("journal");
    let begun = folder.file(&format!("journal.{}.0.new", process::id()));
    fs::write(&begun, "of a crash").unwrap(); // it may be another thread's, so it stays
    let mut journal = Journal::create(&path, header(1), SyncPolicy::EachFrame).unwrap();
    assert_eq!(fs::read(&begun).unwrap(), b"of a crash");
    let frames = heard(2);
    frames.iter().for_each(|it| journal.write(it).unwrap());
    drop(journal);
    let again = Journal::create(&path, header(1), SyncPolicy::Never).unwrap_err();
    let text = again.to_string();
    assert!(text.contains("journal is not made: "), "{text}");
    let (doing, safe, _) = failure(again);
    assert_eq!((doing, safe.frames, safe.bytes), (Doing::Create, 0, 0));
    assert_eq!(journal::read(&path).unwrap().frames(), frames);
    assert_eq!(fs::read_dir(path.parent().unwrap()).unwrap().count(), 2);
    let nowhere = folder.file("no/journal");
    let refused = Journal::create(nowhere, header(1), SyncPolicy::Never);
    assert_eq!(failure(refused.unwrap_err()).0, Doing::Create);
}

#[test]
fn torn_ends_are_cut() {
    let folder = Folder::new("repair");
    let path = folder.file("journal");
    let all = small();
    for cut in 64..=all.len() {
        let end = ENDS.iter().filter(|end| **end <= cut).max().unwrap();
        for zeros in [0, 1, 100] {
            fs::write(&path, [&all[..cut], &vec![0; zeros]].concat()).unwrap();
            let cuts = journal::repair(&path).unwrap();
            assert_eq!(cuts as usize, cut + zeros - end);
            assert_eq!(fs::read(&path).unwrap(), &all[..*end]);
        }
    }
    let damaged = bytes(&[HEADER, FIRST, FIRST]);
    fs::write(&path, &damaged).unwrap();
    let refused = journal::repair(&path).unwrap_err();
    assert!(matches!(refused, RepairError::Damaged { at: 96 }));
    assert_eq!(refused.to_string(), "the journal is damaged at byte 96");
    assert_eq!(fs::read(&path).unwrap(), damaged);
    fs::write(&path, &all[..63]).unwrap();
    let refused = journal::repair(&path).unwrap_err();
    assert!(matches!(refused, RepairError::Read(ReadError::TornHeader)));
    assert_eq!(fs::read(&path).unwrap().len(), 63);
}
