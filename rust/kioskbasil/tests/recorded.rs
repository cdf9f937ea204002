//! Replicas that are recorded: what was waited for is on disk, and the next sitting goes on.

mod common;

use common::{bus, in_time, pieces, Folder};
use kioskbasil::journal::{self, GoOnError, Header, Journal, JournalError, JournalFile};
use kioskbasil::journal::{SyncPolicy, Watch};
use kioskbasil::replica::{replay, Replica, ReplicaError, Replicas, State};
use kioskbasil::{Body, Bus, Frame, NotLong, OpenError, Page, Receiver, Shape};
use std::io::{self, Write};
use std::panic::{self, AssertUnwindSafe};
use std::path::{Path, PathBuf};
use std::sync::{Arc, Mutex};
use std::thread::{self, JoinHandle};
use std::{fs, iter};

/// The operations that were applied, in their order.
#[derive(Clone, Debug, Default, PartialEq)]
struct Log(Vec<(u32, Vec<u8>)>);

impl State for Log {
    /// The place of the operation.
    type Answer = usize;

    fn apply(&mut self, from: u32, operation: &[u8]) -> usize {
        if operation == b"panics" {
            panic::resume_unwind(Box::new("asked to"));
        }
        self.0.push((from, operation.to_vec()));
        self.0.len() - 1
    }
}

const WORKERS: usize = 3;

/// How long operations are: as many pieces of 55 bytes.
const LENGTHS: [usize; 5] = [0, 55, 56, 880, 7];

fn operation(count: usize) -> Vec<u8> {
    vec![count as u8; LENGTHS[count % LENGTHS.len()]]
}

fn first_page() -> Page {
    Page::from_numbers(&[0]).unwrap()
}

fn replayed(frames: &[Frame]) -> Log {
    let mut log = Log::default();
    replay(&mut log, frames).unwrap();
    log
}

/// Replicas over a ring of 513 words, and the thread that records them in a file.
struct Sitting {
    replicas: Vec<Replica<Log>>,
    watch: Watch,
    records: JoinHandle<Result<Vec<Frame>, JournalError>>,
}

impl Sitting {
    fn open(path: &Path, page: &Page, first: &Log) -> Sitting {
        let (replicas, ear) = open(513, page, first);
        let header = Header::after(WORKERS, page).unwrap();
        let journal = Journal::create(path, header, SyncPolicy::Never).unwrap();
        Sitting {
            replicas,
            watch: journal.watch(),
            records: thread::spawn(|| record(ear, journal)),
        }
    }

    /// Has each worker do this in a thread of its own. What that gave, and all frames.
    fn run<T: Send>(self, job: impl Fn(Replica<Log>, &Watch) -> T + Sync) -> (Vec<T>, Vec<Frame>) {
        let (job, watch) = (&job, &self.watch);
        let made = thread::scope(|scope| {
            let start = |replica| scope.spawn(move || job(replica, watch));
            let workers: Vec<_> = self.replicas.into_iter().map(start).collect();
            workers.into_iter().map(|it| it.join().unwrap()).collect()
        });
        (made, self.records.join().unwrap().unwrap())
    }
}

/// Replicas over a ring of so many words, and the receiver that hears all frames.
fn open(log_words: u64, page: &Page, first: &Log) -> (Vec<Replica<Log>>, Receiver) {
    let shape = Shape {
        log_words,
        ..Shape::of_workers(WORKERS)
    };
    Replicas::open_recorded(shape, page, || first.clone()).unwrap()
}

fn record<F: JournalFile>(
    mut ear: Receiver,
    mut journal: Journal<F>,
) -> Result<Vec<Frame>, JournalError> {
    let mut frames = Vec::new();
    while let Some(first) = ear.next_frame() {
        let more = iter::from_fn(|| ear.try_frame());
        for frame in iter::once(first).chain(more).take(10) {
            journal.write(&frame)?;
            frames.push(frame);
        }
        journal.sync()?;
    }
    Ok(frames)
}

/// A worker that executes so many operations, each once the one before is on disk.
fn execute_all(mut replica: Replica<Log>, watch: &Watch, many: usize) -> Log {
    for count in 0..many {
        replica.execute(&operation(count)).unwrap();
        watch.wait(replica.words()).unwrap();
    }
    replica.finish().unwrap()
}

/// What these journals say one behind another, and the page with which the next one goes on.
fn recover(paths: &[PathBuf]) -> (Log, Page) {
    let (mut log, mut page) = (Log::default(), first_page());
    for path in paths {
        let read = journal::read(path).unwrap();
        page = read.page_after(&page).unwrap();
        replay(&mut log, read.frames()).unwrap();
    }
    (log, page)
}

/// How many messages of the bus the operations have that each worker executed first, so many.
fn numbers(many: usize) -> u64 {
    (0..many)
        .map(|count| pieces(operation(count).len()))
        .sum::<u64>()
}

#[test]
fn what_was_waited_for_is_on_disk() {
    let folder = Folder::new("waited");
    let path = folder.file("sitting");
    let sitting = Sitting::open(&path, &first_page(), &Log::default());
    let file = path.clone();
    let (logs, frames) = in_time(move || {
        sitting.run(|mut replica, watch| {
            for count in 0..30 {
                let place = replica.execute(&operation(count)).unwrap();
                watch.wait(replica.words()).unwrap();
                let on_disk = replayed(journal::read(&file).unwrap().frames());
                assert_eq!(on_disk.0[place], (replica.number(), operation(count)));
            }
            replica.finish().unwrap()
        })
    });
    let read = journal::read(&path).unwrap();
    assert_eq!(read.frames(), frames);
    assert_eq!(read.left()[..WORKERS], [true; WORKERS]);
    assert_eq!(logs[0].0.len(), 30 * WORKERS);
    let log = replayed(read.frames());
    assert!(logs.iter().all(|it| *it == log));
}

#[test]
fn sittings_go_on_and_no_number_comes_twice() {
    let folder = Folder::new("sittings");
    let file = |number| folder.file(&format!("sitting.{number}"));
    let paths: Vec<_> = (0..4).map(file).collect();
    for at in 0..paths.len() {
        let (before, page) = recover(&paths[..at]);
        assert_eq!(before.0.len(), 25 * WORKERS * at);
        let sitting = Sitting::open(&paths[at], &page, &before);
        let (logs, _) =
            in_time(move || sitting.run(|replica, watch| execute_all(replica, watch, 25)));
        let (log, page) = recover(&paths[..=at]);
        assert!(logs.iter().all(|it| *it == log));
        assert_eq!(log.0[..before.0.len()], before.0);
        let next = numbers(25) * (at as u64 + 1);
        assert_eq!(page.next_numbers()[..WORKERS], [next; WORKERS]);
    }
    let reads: Vec<_> = paths.iter().map(|it| journal::read(it).unwrap()).collect();
    // A sitting is missing before the last, and one that is there comes twice.
    for many in [2, 4] {
        let refused = reads[3].page_after(&recover(&paths[..many]).1);
        assert_eq!(refused, Err(GoOnError::Gap));
    }
    for worker in 0..WORKERS as u8 {
        let items = reads.iter().flat_map(|read| read.items());
        let own = items.filter(|item| item.sender == worker);
        assert!(own.map(|item| item.number).eq(0..4 * numbers(25)));
    }
}

/// Also where others wait with it in one frame.
#[test]
fn words_end_with_the_frame_of_what_was_executed() {
    let folder = Folder::new("words");
    let sitting = Sitting::open(&folder.file("sitting"), &first_page(), &Log::default());
    let (noted, frames) = in_time(move || {
        sitting.run(|mut replica, _| {
            let (mut noted, mut next) = (Vec::new(), 0);
            for count in 0..300 {
                for more in 0..count % 4 {
                    next += pieces(operation(more).len());
                    assert_eq!(replica.submit(&operation(more)), Ok(next - 1));
                }
                replica.execute(&operation(count)).unwrap();
                next += pieces(operation(count).len());
                noted.push((next - 1, replica.words()));
            }
            replica.finish().unwrap();
            noted
        })
    });
    for (worker, noted) in noted.iter().enumerate() {
        for (last, words) in noted {
            let has_it = |frame: &&Frame| {
                let item = frame.items().last();
                usize::from(frame.owner) == worker && item.map(|item| item.number) == Some(*last)
            };
            assert_eq!(frames.iter().find(has_it).unwrap().end_place(), *words);
        }
    }
}

/// A state that has another replica execute, where it comes to `first`.
#[derive(Clone, Default)]
struct Calls(Arc<Mutex<Option<Replica<Calls>>>>);

impl State for Calls {
    type Answer = ();

    fn apply(&mut self, _from: u32, operation: &[u8]) {
        if operation == b"first" {
            if let Some(other) = self.0.lock().unwrap().as_mut() {
                other.execute(b"behind").unwrap();
            }
        }
    }
}

/// A receiver takes 32 items out of the bus at once. So what was executed is taken with what the
/// other one puts behind it meanwhile.
#[test]
fn words_end_before_what_has_come_behind() {
    let calls = Calls::default();
    let mut of_anna = Some(calls.clone());
    let first = || of_anna.take().unwrap_or_default();
    let opened = Replicas::open_recorded(Shape::of_workers(2), &first_page(), first);
    let (mut replicas, mut ear) = opened.unwrap();
    let (mut anna, mut bert) = (replicas.remove(0), replicas.remove(0));
    bert.execute(b"first").unwrap();
    for _ in 0..39 {
        bert.execute(b"more").unwrap();
    }
    *calls.0.lock().unwrap() = Some(bert);
    anna.execute(b"own").unwrap();
    let frames: Vec<_> = iter::from_fn(|| ear.try_frame()).collect();
    let own = frames.iter().find(|it| it.owner == 0).unwrap();
    assert_eq!((anna.words(), anna.hear()), (own.end_place(), Ok(1)));
    assert_eq!((frames.len(), anna.words()), (42, frames[41].end_place()));
}

/// Of what others have executed too: all that a state shows is on disk behind the wait.
#[test]
fn words_have_all_of_a_state() {
    let (mut replicas, ear) = open(4096, &first_page(), &Log::default());
    let header = Header::after(WORKERS, &first_page()).unwrap();
    let journal = Journal::on(Vec::new(), header, SyncPolicy::EachFrame).unwrap();
    let watch = journal.watch();
    let records = thread::spawn(|| record(ear, journal));
    let (mut anna, mut bert) = (replicas.remove(0), replicas.remove(0));
    let mut carl = replicas.remove(0);
    assert_eq!((bert.words(), watch.wait(0).is_ok()), (0, true));
    let mut noted = Vec::new();
    for count in 0..100 {
        anna.submit(&operation(count)).unwrap();
        anna.execute(b"x").unwrap();
        if count % 3 < 2 {
            continue;
        }
        assert_eq!(bert.hear(), Ok(6));
        carl.latest().unwrap();
        for reader in [&bert, &carl] {
            watch.wait(reader.words()).unwrap();
            assert!(watch.safe().place >= reader.words());
            noted.push((reader.words(), reader.state().clone()));
        }
    }
    drop((anna, bert, carl));
    let frames = records.join().unwrap().unwrap();
    for (words, state) in noted {
        let within = frames.iter().filter(|it| it.end_place() <= words);
        assert_eq!(replayed(&within.cloned().collect::<Vec<_>>()), state);
    }
}

/// One is dropped with an operation that it had not sent, and one by a panic.
#[test]
fn workers_that_stop_in_the_middle_are_recorded_up_to_there() {
    let folder = Folder::new("stops");
    let path = folder.file("sitting");
    let sitting = Sitting::open(&path, &first_page(), &Log::default());
    let (logs, _) = in_time(move || {
        sitting.run(|mut replica, watch| {
            if replica.number() == 0 {
                return Some(execute_all(replica, watch, 50));
            }
            let fails = AssertUnwindSafe(|| {
                for count in 0..20 {
                    replica.execute(&operation(count)).unwrap();
                }
                replica.submit(b"not sent").unwrap();
                if replica.number() == 2 {
                    panic::resume_unwind(Box::new("asked to"));
                }
                drop(replica);
            });
            let _ = panic::catch_unwind(fails);
            None
        })
    });
    let (log, page) = recover(&[path]);
    assert_eq!(logs, [Some(log.clone()), None, None]);
    let many = |worker| log.0.iter().filter(|it| it.0 == worker).count();
    assert_eq!([0, 1, 2].map(many), [50, 20, 20]);
    let next = [numbers(50), numbers(20), numbers(20)];
    assert_eq!(page.next_numbers()[..WORKERS], next);
}

/// Wherever a crash has cut the file: whole operations are replayed, and their numbers go on.
#[test]
fn runs_that_are_cut_anywhere_go_on() {
    let folder = Folder::new("cut");
    let path = folder.file("sitting");
    let sitting = Sitting::open(&path, &first_page(), &Log::default());
    let (logs, _) = in_time(move || sitting.run(|replica, watch| execute_all(replica, watch, 20)));
    let bytes = fs::read(&path).unwrap();
    let header = Header::after(WORKERS, &first_page()).unwrap();
    let begin = 48 + 8 * header.senders();
    for cut in (begin..bytes.len()).step_by(11) {
        let read = journal::read_from(&bytes[..cut]).unwrap();
        let (log, page) = (replayed(read.frames()), read.page().unwrap());
        assert_eq!(log.0, logs[0].0[..log.0.len()]);
        let (mut replicas, _ear) = open(513, &page, &log);
        for replica in &mut replicas {
            let own = log.0.iter().filter(|it| it.0 == replica.number());
            let next: u64 = own.map(|it| pieces(it.1.len())).sum();
            assert_eq!(replica.submit(b"goes on"), Ok(next));
        }
        assert_eq!(replicas[0].execute(b"too").unwrap(), log.0.len() + 1);
    }
}

/// The messages of one frame.
type Batch<'a> = &'a [&'a [u8]];

/// Frames of one sender, each of these messages, which it has put by `put`.
fn frames_of(batches: &[Batch]) -> Vec<Frame> {
    let (mut senders, mut receivers) = bus(1, 1, 8);
    let send = |batch: &Batch| {
        senders[0].send_all(batch.iter()).unwrap();
        receivers[0].try_frame().unwrap()
    };
    batches.iter().map(send).collect()
}

#[test]
fn items_that_are_no_operations_are_refused() {
    let (one, two, other) = (&[1; 56][..], &[2; 56][..], &[1; 40][..]);
    // Batches, the number of the item that is refused, and how many operations stand before.
    let cases: [(&[Batch], u64, usize); 8] = [
        (&[&[b""]], 0, 0),
        (&[&[b"by put"]], 0, 0),
        (&[&[b"\0one", b"\x10two"]], 1, 1),
        (&[&[b"\0one"], &[b"\0two", one, b"\0three"], &[b""]], 4, 3),
        // Pieces are missing: at the end, behind the frame, in the middle; and one is short.
        (&[&[b"\0one", two, one]], 1, 1),
        (&[&[one], &[b"\0of the next frame"]], 0, 0),
        (&[&[two, b"\0two"]], 0, 0),
        (&[&[other, b"\0two"]], 0, 0),
    ];
    for (batches, number, many) in cases {
        let (frames, mut log) = (frames_of(batches), Log::default());
        let NotLong(item) = replay(&mut log, &frames).unwrap_err();
        let mut items = frames.iter().flat_map(Frame::items);
        assert_eq!(Some(&item), items.find(|it| it.number == number));
        assert_eq!(log.0.len(), many);
    }
}

/// An operation on which `apply` panics stands in the order, and so in the journal.
#[test]
fn what_panics_panics_in_a_replay_too() {
    let (mut replicas, mut ear) = open(513, &first_page(), &Log::default());
    replicas[0].execute(b"x").unwrap();
    let executes = AssertUnwindSafe(|| replicas[0].execute(b"panics"));
    assert!(panic::catch_unwind(executes).is_err());
    assert_eq!(replicas[0].execute(b"y"), Err(ReplicaError::Poisoned));
    assert_eq!(replicas[0].state().0.len(), 1);
    let frames: Vec<_> = iter::from_fn(|| ear.try_frame()).collect();
    let end = frames.iter().map(Frame::end_place).max();
    assert_eq!(Some(replicas[0].words()), end);
    let replays = AssertUnwindSafe(|| replayed(&frames));
    assert!(panic::catch_unwind(replays).is_err());
}

/// Leaves by calls that are told to stop at once, until one of them is Ok.
fn leaves_bit_by_bit(replica: &mut Replica<Log>) {
    loop {
        match replica.leave_while(|| false) {
            Ok(()) => return,
            Err(ReplicaError::MissingWorker(_)) => thread::yield_now(),
            Err(why) => panic!("leave: {why}"),
        }
    }
}

/// As of those that are not recorded: they leave, bit by bit too, and hear and read on.
#[test]
fn all_leave_and_the_recording_ends() {
    for round in 0..200 {
        let (replicas, ear) = open(513, &first_page(), &Log::default());
        let records = thread::spawn(|| ear_of_all(ear));
        let work = move |mut replica: Replica<Log>| {
            replica.submit(b"x").unwrap();
            replica.execute(b"y").unwrap();
            if round % 2 == 1 {
                leaves_bit_by_bit(&mut replica);
            }
            for _ in 0..2 {
                assert_eq!((replica.leave(), replica.hear()), (Ok(()), Ok(0)));
            }
            assert_eq!(replica.latest().unwrap().0.len(), 2 * WORKERS);
            assert_eq!(replica.execute(b"z"), Err(ReplicaError::Ended));
            replica.into_state()
        };
        let (logs, frames) = in_time(move || {
            let start = |replica| thread::spawn(move || work(replica));
            let workers: Vec<_> = replicas.into_iter().map(start).collect();
            let logs: Vec<_> = workers.into_iter().map(|it| it.join().unwrap()).collect();
            (logs, records.join().unwrap())
        });
        let leaves = frames.iter().filter(|it| it.body == Body::Leave);
        assert_eq!(leaves.count(), WORKERS);
        let log = replayed(&frames);
        assert!(logs.iter().all(|it| *it == log));
    }
}

/// All frames, up to the end.
fn ear_of_all(mut ear: Receiver) -> Vec<Frame> {
    iter::from_fn(|| ear.next_frame()).collect()
}

/// Dropped replicas have left: where the last one has room, it puts the end mark.
#[test]
fn all_are_dropped_and_the_recording_ends() {
    let (mut replicas, ear) = open(513, &first_page(), &Log::default());
    let records = thread::spawn(|| ear_of_all(ear));
    replicas[1].execute(b"x").unwrap();
    replicas[0].submit(b"not sent").unwrap();
    drop(replicas);
    let frames = in_time(|| records.join().unwrap());
    let bodies: Vec<_> = frames[1..].iter().map(|it| &it.body).collect();
    assert!(bodies.is_empty() || bodies == [&Body::End]);
    assert_eq!(replayed(&frames).0, [(1, b"x".to_vec())]);
}

/// A file that has room for so many bytes.
struct Few(usize);

impl Write for Few {
    fn write(&mut self, bytes: &[u8]) -> io::Result<usize> {
        let left = self.0.checked_sub(bytes.len());
        self.0 = left.ok_or(io::ErrorKind::WriteZero)?;
        Ok(bytes.len())
    }

    fn flush(&mut self) -> io::Result<()> {
        Ok(())
    }
}

impl JournalFile for Few {
    fn sync(&mut self) -> io::Result<()> {
        Ok(())
    }
}

/// The receiver goes with the thread that records, so the ring is not held up.
#[test]
fn workers_are_told_that_recording_has_failed_and_go_on() {
    let (mut replicas, ear) = open(513, &first_page(), &Log::default());
    let header = Header::after(WORKERS, &first_page()).unwrap();
    let journal = Journal::on(Few(1000), header, SyncPolicy::Never).unwrap();
    let watch = journal.watch();
    let records = thread::spawn(|| record(ear, journal));
    let mut anna = replicas.remove(0);
    drop(replicas);
    in_time(move || {
        for count in 0.. {
            assert_eq!(anna.execute(b"8 bytes!").unwrap(), count);
            match watch.wait(anna.words()) {
                Ok(()) => assert!(count < 50, "it has no room"),
                Err(JournalError::Failed { .. }) => break,
                Err(why) => panic!("{why}"),
            }
        }
        assert!(records.join().unwrap().is_err());
        for count in 0..100 {
            anna.execute(&operation(count)).unwrap();
        }
        anna.finish().unwrap();
    });
}

#[test]
fn shapes_and_pages_that_do_not_fit_are_refused() {
    let opened = |workers, page| {
        let opened = Replicas::open_recorded(Shape::of_workers(workers), page, Log::default);
        opened.map(|(replicas, _)| replicas.len())
    };
    let page = first_page();
    assert_eq!(opened(0, &page), Err(OpenError::Senders));
    assert_eq!(opened(1, &page), Ok(1));
    assert_eq!(opened(63, &page), Ok(63));
    assert_eq!(opened(64, &page), Err(OpenError::Receivers));
    assert_eq!(opened(65, &page), Err(OpenError::Senders));
    assert_eq!(opened(usize::MAX, &page), Err(OpenError::Senders));
    let spent = Page::from_numbers(&[0, (1 << 48) - (1 << 46) - 64]).unwrap();
    assert_eq!(opened(2, &spent), Err(OpenError::Numbers));
    let (senders, receivers) = bus(1, 1, 8);
    let open = Page::after(&Bus::end(senders, receivers).unwrap());
    assert_eq!(opened(1, &open), Err(OpenError::NotEnded));
}
