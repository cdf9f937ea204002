//! Journals on disks that take less than they are given, or fail once or for good.

use super::common::{bus, in_time};
use super::disk::{Call, Disk, Failing, Plates};
use super::{failure, header};
use kioskbasil::journal::{self, Doing, End, Journal, JournalError, SyncPolicy};
use kioskbasil::Frame;
use std::thread;
use std::time::Duration;

const CALLS: [Call; 3] = [Call::Write, Call::Flush, Call::Sync];

/// Frames of two senders, of one to three messages whose lengths differ.
fn frames() -> Vec<Frame> {
    let (mut senders, mut receivers) = bus(2, 1, 8);
    let send = |number: usize| {
        let messages = vec![vec![number as u8; 11 * number]; 1 + number % 3];
        senders[number % 2].send_all(messages).unwrap();
        receivers[0].try_frame().unwrap()
    };
    (0..6).map(send).collect()
}

/// A journal on a disk that fails so, and takes so many bytes by one write; 0 for all.
fn begun(
    policy: SyncPolicy,
    short: usize,
    fails: Option<Failing>,
) -> (Disk, Result<Journal<Disk>, JournalError>) {
    let disk = Disk::of(Plates {
        short,
        fails,
        ..Plates::default()
    });
    (disk.clone(), Journal::on(disk, header(2), policy))
}

/// Writes these frames, with a sync behind each second one, up to the first error.
fn record(journal: &mut Journal<Disk>, frames: &[Frame]) -> Result<(), JournalError> {
    for pair in frames.chunks(2) {
        pair.iter().try_for_each(|frame| journal.write(frame))?;
        journal.sync()?;
    }
    Ok(())
}

/// However little one write takes, all bytes are written in their order, and synced behind.
#[test]
fn short_writes_go_on() {
    let frames = frames();
    let (disk, journal) = begun(SyncPolicy::EachFrame, 0, None);
    let mut journal = journal.unwrap();
    let write = |frame| journal.write(frame).map(|()| journal.safe()).unwrap();
    let safe: Vec<_> = frames.iter().map(write).collect();
    let whole = disk.see(|it| it.bytes.clone());
    for short in 1..=whole.len() {
        let (disk, journal) = begun(SyncPolicy::EachFrame, short, None);
        let mut journal = journal.unwrap();
        for (frame, safe) in frames.iter().zip(&safe) {
            journal.write(frame).unwrap();
            assert_eq!(journal.safe(), *safe, "{short}");
            let bytes = safe.bytes as usize;
            assert_eq!(disk.see(|it| (it.bytes.len(), it.synced)), (bytes, bytes));
        }
        assert!(disk.see(|it| it.bytes == whole), "{short}");
    }
}

/// Whichever write, flush or sync fails, once or for good, it is the last of its journal, but for
/// one sync of what was written whole before a write that has failed.
#[test]
fn nothing_follows_a_call_that_failed() {
    let frames = frames();
    let every = SyncPolicy::Every(Duration::ZERO);
    for policy in [SyncPolicy::EachFrame, SyncPolicy::Never, every] {
        for short in [0, 13] {
            let (disk, journal) = begun(policy, short, None);
            record(&mut journal.unwrap(), &frames).unwrap();
            for call in CALLS {
                for from in 1..=disk.see(|it| it.count(call)) {
                    for once in [false, true] {
                        stops(&frames, policy, short, Failing { call, from, once });
                    }
                }
            }
        }
    }
}

/// Has one call of a journal fail. It says what is safe, which is just what was synced; and each
/// further call says the same, and asks nothing of the disk.
fn stops(frames: &[Frame], policy: SyncPolicy, short: usize, fails: Failing) {
    let (disk, journal) = begun(policy, short, Some(fails));
    let mut journal = match journal {
        Ok(journal) => journal,
        Err(why) => return assert_eq!(failure(why).0, Doing::Create, "{fails:?}"),
    };
    let watch = journal.watch();
    let why = failure(record(&mut journal, frames).unwrap_err());
    let (calls, safe) = (disk.see(|it| it.calls), why.1);
    let (doing, done) = match fails.call {
        Call::Write => (Doing::Write, "written"),
        Call::Flush | Call::Sync => (Doing::Sync, "synced"),
    };
    let text = format!("the journal is not {done}: gone; {safe}");
    assert_eq!(why, (doing, journal.safe(), text), "{fails:?}");
    for frame in frames {
        assert_eq!(failure(journal.write(frame).unwrap_err()), why, "{fails:?}");
        assert_eq!(failure(journal.sync().unwrap_err()), why, "{fails:?}");
    }
    watch.wait(safe.place).unwrap();
    let told = watch.wait(safe.place + 1).unwrap_err();
    assert_eq!((failure(told), watch.safe()), (why, safe), "{fails:?}");
    drop(journal);
    assert_eq!(disk.see(|it| it.calls), calls, "{fails:?}");

    let (bytes, synced) = disk.see(|it| (it.bytes.clone(), it.synced));
    let read = journal::read_from(&bytes[..synced]).unwrap();
    let found = (read.place(), read.frames().len() as u64, read.whole_bytes());
    assert_eq!(found, (safe.place, safe.frames, safe.bytes), "{fails:?}");
    // A part of the record that failed may have been brought to disk too.
    let at = safe.bytes;
    let torn = fails.call == Call::Write && synced as u64 > at;
    let end = if torn { End::Torn { at } } else { End::Whole };
    assert_eq!(read.end(), end, "{fails:?}");
    let read = journal::read_from(&bytes[..]).unwrap();
    if fails.call == Call::Write {
        assert_eq!(read.frames().len() as u64, safe.frames, "{fails:?}");
    }
    assert_eq!(read.frames(), &frames[..read.frames().len()], "{fails:?}");
    assert!(read.page().is_ok(), "{fails:?}");
}

/// Threads that sleep until a place is on disk are woken, and told the error where it is not.
#[test]
fn failures_wake_who_waits() {
    let frames = frames();
    for call in CALLS {
        // The header takes the first call of each kind, and the third frame the fourth.
        let fails = Failing {
            call,
            from: 4,
            once: true,
        };
        let mut journal = begun(SyncPolicy::EachFrame, 0, Some(fails)).1.unwrap();
        let wait = |frame: &Frame| {
            let (watch, place) = (journal.watch(), frame.end_place());
            thread::spawn(move || watch.wait(place))
        };
        let waits: Vec<_> = frames.iter().map(wait).collect();
        thread::sleep(Duration::from_millis(20));
        let why = failure(record(&mut journal, &frames).unwrap_err());
        assert_eq!(why.1.frames, 2);
        let join = |it: thread::JoinHandle<_>| it.join().unwrap();
        let told: Vec<_> = in_time(move || waits.into_iter().map(join).collect());
        for (place, answer) in told.into_iter().enumerate() {
            match place {
                0 | 1 => assert!(answer.is_ok(), "{call:?}"),
                _ => assert_eq!(failure(answer.unwrap_err()), why, "{call:?}"),
            }
        }
        // It was there until all of them were told.
        drop(journal);
    }
}

/// Where a write has failed a next file begins with the frame that is not in the first, and all
/// before it is on disk.
#[test]
fn a_next_file_goes_on_behind_a_failed_write() {
    let frames = frames();
    for from in 2..=1 + frames.len() {
        let call = Call::Write;
        let fails = Failing {
            call,
            from,
            once: false,
        };
        let (disk, journal) = begun(SyncPolicy::Never, 0, Some(fails));
        let mut journal = journal.unwrap();
        record(&mut journal, &frames).unwrap_err();
        let (before, behind) = frames.split_at(from - 2);
        let header = journal.next_header().unwrap();
        assert_eq!(journal.safe().place, header.place());
        // One sync for two frames, or for one that was left, behind that of the header.
        assert_eq!(disk.see(|it| it.count(Call::Sync)), 1 + (from - 1) / 2);
        let mut next = Journal::on(Vec::new(), header, SyncPolicy::Never).unwrap();
        behind.iter().for_each(|frame| next.write(frame).unwrap());
        let first = journal::read_from(&disk.see(|it| it.bytes.clone())[..]).unwrap();
        let second = journal::read_from(&next.into_file()[..]).unwrap();
        assert_eq!((first.frames(), second.frames()), (before, behind));
        let header = second.header();
        assert_eq!(header.place(), first.place());
        assert_eq!(header.first_numbers(), first.next_numbers());
    }
}

/// No next file begins where something before it may not be on disk; what is written is synced.
#[test]
fn no_next_file_begins_behind_what_may_be_lost() {
    let frames = frames();
    for call in [Call::Flush, Call::Sync] {
        // The header takes the first call.
        let fails = Failing {
            call,
            from: 2,
            once: true,
        };
        let (_, journal) = begun(SyncPolicy::Never, 0, Some(fails));
        let mut journal = journal.unwrap();
        journal.write(&frames[0]).unwrap();
        let why = failure(journal.sync().unwrap_err());
        assert_eq!(failure(journal.next_header().unwrap_err()), why);

        // The sync behind a write that has failed fails too.
        let (disk, journal) = begun(SyncPolicy::Never, 0, Some(fails));
        let mut journal = journal.unwrap();
        journal.write(&frames[0]).unwrap();
        disk.see(|it| it.full_at = Some(it.bytes.len()));
        let why = failure(journal.write(&frames[1]).unwrap_err());
        assert_eq!((why.0, why.1.frames), (Doing::Write, 0));
        assert_eq!(failure(journal.next_header().unwrap_err()), why);
    }
    let (disk, journal) = begun(SyncPolicy::Never, 0, None);
    let mut journal = journal.unwrap();
    journal.write(&frames[0]).unwrap();
    let header = journal.next_header().unwrap();
    assert_eq!(header.place(), journal.safe().place);
    assert!(disk.see(|it| it.synced == it.bytes.len()));
}
