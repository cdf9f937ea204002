//! Replicas: equal at the end, whatever their workers do, and none of them hangs.

mod common;

use common::{in_time, open, pieces};
use kioskbasil::replica::{Applied, Replica, ReplicaError, Replicas, State};
use kioskbasil::{OpenError, Shape};
use std::panic::{self, AssertUnwindSafe};
use std::sync::atomic::{AtomicBool, AtomicU64, Ordering::SeqCst};
use std::sync::Arc;
use std::thread;
use std::time::{Duration, Instant};

/// What stands in the order, and which worker's replica panics at which place of it.
#[derive(Clone, Debug, Default)]
struct Log {
    operations: Vec<(u32, Vec<u8>)>,
    panics_at: Option<usize>,
}

impl State for Log {
    /// The place of the operation.
    type Answer = usize;

    fn apply(&mut self, from: u32, operation: &[u8]) -> usize {
        let place = self.operations.len();
        if self.panics_at == Some(place) {
            panic!("asked to");
        }
        self.operations.push((from, operation.to_vec()));
        place
    }
}

/// As `open`, but that the first replica panics at this place of the order.
fn open_to_panic(workers: usize, log_words: u64, place: usize) -> Vec<Replica<Log>> {
    let shape = Shape {
        log_words,
        ..Shape::of(workers, 1)
    };
    let mut panics_at = Some(place);
    let first = || Log {
        panics_at: panics_at.take(),
        ..Log::default()
    };
    Replicas::open(shape, first).unwrap()
}

/// Has each replica do this in a thread of its own.
fn each<T: Send>(
    replicas: Vec<Replica<Log>>,
    does: impl Fn(Replica<Log>) -> T + Send + Sync,
) -> Vec<T> {
    thread::scope(|scope| {
        let does = &does;
        let start = |replica| scope.spawn(move || does(replica));
        let threads: Vec<_> = replicas.into_iter().map(start).collect();
        threads.into_iter().map(|it| it.join().unwrap()).collect()
    })
}

/// How long operations are.
const LENGTHS: [usize; 12] = [0, 1, 55, 56, 30, 102, 110, 111, 879, 880, 7, 440];

/// The operation of this number of a worker.
fn operation(worker: u32, number: u64) -> Vec<u8> {
    let length = length_of(worker, number) as u64;
    (0..length).map(|at| (at + number) as u8).collect()
}

fn length_of(worker: u32, number: u64) -> usize {
    LENGTHS[(number as usize * 5 + worker as usize) % LENGTHS.len()]
}

/// The number of that operation, as `submit` gives it.
fn number_of(worker: u32, number: u64) -> u64 {
    let all = (0..=number).map(|it| pieces(length_of(worker, it)));
    all.sum::<u64>() - 1
}

/// Each worker's operations stand in the log in their order, from the first on, so many of each.
fn check(log: &Log, many: &[u64]) {
    let mut next = vec![0; many.len()];
    for (from, bytes) in &log.operations {
        let number = &mut next[*from as usize];
        assert_eq!(*bytes, operation(*from, *number));
        *number += 1;
    }
    assert_eq!(next, many);
}

fn are_equal(logs: &[Log]) {
    for log in logs {
        assert_eq!(log.operations, logs[0].operations);
    }
}

/// A worker that executes so many operations, each of which answers its place.
fn execute_all(mut replica: Replica<Log>, many: u64) -> Log {
    let (number, mut last) = (replica.number(), None);
    for count in 0..many {
        let place = replica.execute(&operation(number, count)).unwrap();
        assert!(Some(place) > last);
        assert_eq!(replica.state().operations.len(), place + 1);
        assert_eq!(replica.state().operations[place].0, number);
        last = Some(place);
    }
    replica.finish().unwrap()
}

#[test]
fn all_execute_at_once_over_a_full_ring() {
    for workers in [1, 3, 8] {
        let work = move |replica| execute_all(replica, 300);
        let logs = in_time(move || each(open(workers, 513), work));
        are_equal(&logs);
        check(&logs[0], &vec![300; workers]);
    }
}

#[test]
fn what_is_submitted_goes_in_batches_and_keeps_its_order() {
    for words in [513, 600, 4096] {
        let logs = in_time(move || {
            each(open(3, words), |mut replica| {
                let number = replica.number();
                for count in 0..500 {
                    let put = replica.submit(&operation(number, count));
                    assert_eq!(put, Ok(number_of(number, count)));
                    if count % 50 == 49 {
                        replica.flush().unwrap();
                        let own =
                            |log: &Log| log.operations.iter().filter(|it| it.0 == number).count();
                        assert_eq!(own(replica.latest().unwrap()) as u64, count + 1);
                    }
                }
                replica.finish().unwrap()
            })
        });
        are_equal(&logs);
        check(&logs[0], &[500; 3]);
    }
}

#[test]
fn one_only_reads_and_one_is_slow() {
    for workers in [3, 8] {
        let stop = Arc::new(AtomicBool::new(false));
        let logs = in_time(move || {
            each(open(workers, 513), |mut replica| match replica.number() {
                0 => {
                    let mut before = 0;
                    while !stop.load(SeqCst) {
                        let now = replica.latest().unwrap().operations.len();
                        assert!(now >= before);
                        before = now;
                    }
                    replica.finish().unwrap()
                }
                1 => {
                    for count in 0..20 {
                        thread::sleep(Duration::from_millis(2));
                        replica.execute(&operation(1, count)).unwrap();
                    }
                    stop.store(true, SeqCst);
                    replica.finish().unwrap()
                }
                _ => execute_all(replica, 200),
            })
        });
        are_equal(&logs);
        let mut many = vec![200; workers];
        many[..2].copy_from_slice(&[0, 20]);
        check(&logs[0], &many);
    }
}

#[test]
fn latest_has_all_that_anybody_was_answered() {
    let answered = Arc::new(AtomicU64::new(0));
    let logs = in_time(move || {
        each(open(3, 1024), |mut replica| {
            if replica.number() == 0 {
                loop {
                    let due = answered.load(SeqCst);
                    assert!(replica.latest().unwrap().operations.len() as u64 >= due);
                    if due >= 2000 {
                        break replica.finish().unwrap();
                    }
                }
            } else {
                for count in 0..1000 {
                    let place = replica.execute(&operation(replica.number(), count));
                    answered.fetch_max(place.unwrap() as u64 + 1, SeqCst);
                }
                replica.finish().unwrap()
            }
        })
    });
    are_equal(&logs);
}

/// `hear`, `state` and `latest` of one that is flushed, and not executed.
#[test]
fn latest_has_what_a_flush_has_sent() {
    let mut replicas = open::<Log>(3, 1024);
    let (mut anna, mut bert) = (replicas.remove(0), replicas.remove(0));
    anna.submit(b"x").unwrap();
    assert_eq!(bert.latest().unwrap().operations.len(), 0);
    anna.flush().unwrap();
    assert_eq!((bert.state().operations.len(), bert.hear()), (0, Ok(1)));
    assert_eq!(replicas[0].state().operations.len(), 0);
    assert_eq!(replicas[0].latest().unwrap().operations.len(), 1);
}

#[test]
fn an_operation_that_is_too_long_changes_nothing() {
    let mut replica = open::<Log>(1, 513).remove(0);
    assert_eq!(replica.submit(&[0; 881]), Err(ReplicaError::TooLong));
    assert_eq!(replica.execute(&[0; 881]), Err(ReplicaError::TooLong));
    assert_eq!(replica.execute(&[0; 880]), Ok(0));
    assert_eq!(replica.submit(b""), Ok(16));
    assert_eq!(replica.submit(&[0; 56]), Ok(18));
    assert_eq!(replica.finish().unwrap().operations.len(), 3);
}

/// Whatever the shape says of batches: 64 pieces of operations wait at most, and the next ones go
/// in another batch.
#[test]
fn batches_of_64() {
    for batch in [0, 1, 16, 64] {
        let shape = Shape {
            batch,
            log_words: 513,
            ..Shape::of_workers(2)
        };
        let mut replicas = Replicas::open(shape, Log::default).unwrap();
        let (mut other, replica) = (replicas.remove(1), &mut replicas[0]);
        for number in 0..64 {
            assert_eq!(replica.submit_while(&[1; 55], || false), Ok(number));
        }
        assert_eq!((replica.words(), other.hear()), (0, Ok(0)));
        assert_eq!(replica.submit_while(&[2; 55], || false), Ok(64));
        assert_eq!((other.hear(), other.words()), (Ok(64), 513));
        // Four of the longest.
        replica.flush().unwrap();
        assert_eq!(other.hear(), Ok(1));
        for number in [80, 96, 112, 128] {
            assert_eq!(replica.submit_while(&[3; 880], || false), Ok(number));
        }
        assert_eq!(other.hear(), Ok(0));
        assert_eq!(replica.submit_while(&[4; 880], || false), Ok(144));
        assert_eq!(other.hear(), Ok(4));
    }
}

/// Whatever waits before it, an operation of each length is applied whole, and answers its place.
#[test]
fn operations_of_all_lengths() {
    let logs = in_time(|| {
        each(open::<Log>(2, 4096), |mut replica| {
            let mut put = 0;
            for length in (replica.number()..=880).step_by(2) {
                let bytes: Vec<u8> = (0..length).map(|at| (at + length) as u8).collect();
                put += pieces(length as usize);
                if length % 3 == 0 {
                    assert_eq!(replica.submit(&bytes), Ok(put - 1));
                    continue;
                }
                let place = replica.execute(&bytes).unwrap();
                let last = replica.state().operations.last().unwrap();
                assert_eq!((replica.number(), &bytes), (last.0, &last.1));
                assert_eq!(place + 1, replica.state().operations.len());
            }
            replica.finish().unwrap()
        })
    });
    are_equal(&logs);
    assert_eq!(logs[0].operations.len(), 881);
}

#[test]
fn shapes_that_are_no_bus_are_refused() {
    let opened = |shape| Replicas::open(shape, Log::default).map(|it| it.len());
    assert_eq!(opened(Shape::of(0, 1)), Err(OpenError::Senders));
    let words = |log_words| Shape {
        log_words,
        ..Shape::of(1, 1)
    };
    assert_eq!(opened(words(15)), Err(OpenError::LogWords));
    assert_eq!(opened(words(512)), Err(OpenError::ShortRing));
    assert_eq!(opened(words(513)), Ok(1));
    assert_eq!(opened(Shape::of(8, 0)), Ok(8));
}

/// A worker stops at each of its turns in order, and goes on or is dropped there.
#[test]
fn stops_at_any_turn_lose_nothing_and_hang_nobody() {
    for workers in [3, 8] {
        for turn in 0..40 {
            let logs = in_time(move || {
                each(open(workers, 513), |mut replica| {
                    if replica.number() > 0 {
                        return execute_all(replica, 30);
                    }
                    for count in 0..30 {
                        let mut asked = 0;
                        let go_on = || {
                            asked += 1;
                            asked <= turn
                        };
                        match replica.execute_while(&operation(0, count), go_on) {
                            Ok(place) => assert_eq!(replica.state().operations.len(), place + 1),
                            Err(why) => {
                                assert_eq!(why, ReplicaError::Stopped);
                                // It is put already: the next number tells.
                                let next = replica.submit(&operation(0, count + 1));
                                assert_eq!(next, Ok(number_of(0, count + 1)));
                                return finish_from(replica, count + 2);
                            }
                        }
                    }
                    replica.finish().unwrap()
                })
            });
            are_equal(&logs);
        }
    }
}

fn finish_from(mut replica: Replica<Log>, count: u64) -> Log {
    replica.flush().unwrap();
    replica.execute(&operation(0, count)).unwrap();
    replica.finish().unwrap()
}

/// A worker is dropped, or panics in its closure, at each of its turns in order: what it was
/// answered stands, and the others finish.
#[test]
fn one_that_fails_at_any_turn_is_not_waited_for() {
    for workers in [3, 8] {
        for turn in 0..40 {
            let logs = in_time(move || {
                each(open(workers, 513), |mut replica| {
                    if replica.number() > 0 {
                        return Some(execute_all(replica, 30));
                    }
                    let mut asked = 0;
                    let mut go_on = || {
                        asked += 1;
                        if asked > turn && turn % 2 == 1 {
                            panic!("asked to");
                        }
                        asked <= turn
                    };
                    let fails = AssertUnwindSafe(|| {
                        for count in 0..30 {
                            replica
                                .submit_while(&operation(0, 2 * count), &mut go_on)
                                .unwrap();
                            let own = operation(0, 2 * count + 1);
                            replica.execute_while(&own, &mut go_on).unwrap();
                        }
                    });
                    let _ = panic::catch_unwind(fails);
                    None
                })
            });
            let logs: Vec<Log> = logs.into_iter().flatten().collect();
            are_equal(&logs);
            let of_it = logs[0].operations.iter().filter(|it| it.0 == 0).count();
            let mut many = vec![30; workers];
            many[0] = of_it as u64;
            check(&logs[0], &many);
        }
    }
}

/// A worker is dropped after each number of its calls, in the middle of what it had put.
#[test]
fn one_that_is_dropped_after_any_call_is_not_waited_for() {
    for calls in 0..40 {
        let logs = in_time(move || {
            each(open(3, 513), |mut replica| {
                if replica.number() > 0 {
                    return Some(execute_all(replica, 30));
                }
                for call in 0..calls {
                    match call % 4 {
                        0 => drop(replica.submit(&operation(0, call / 2)).unwrap()),
                        1 => drop(replica.latest().unwrap()),
                        2 => drop(replica.execute(&operation(0, call / 2)).unwrap()),
                        _ => drop(replica.hear().unwrap()),
                    }
                }
                None
            })
        });
        let logs: Vec<Log> = logs.into_iter().flatten().collect();
        are_equal(&logs);
        // Of its 10 and 9 executed operations and what was submitted before each all stand; what
        // was submitted last does not.
        let executed = (calls + 1) / 4;
        check(&logs[0], &[2 * executed, 30, 30]);
    }
}

/// In one replica `apply` panics, at each place in order.
#[test]
fn one_that_panics_in_apply_is_poisoned_and_the_others_go_on() {
    for workers in [3, 8] {
        for place in [0, 1, 2, 10, 50] {
            let logs = in_time(move || {
                let opened = open_to_panic(workers, 513, place);
                each(opened, |mut replica| {
                    if replica.number() > 0 {
                        return Some(execute_all(replica, 100));
                    }
                    let execute = |count| replica.execute(&operation(0, count)).unwrap();
                    let fails = AssertUnwindSafe(|| (0..100).map(execute).count());
                    assert!(panic::catch_unwind(fails).is_err());
                    assert_eq!(replica.state().operations.len(), place);
                    let poisoned = ReplicaError::Poisoned;
                    assert_eq!(replica.execute(b"x"), Err(poisoned));
                    assert_eq!(replica.submit(b"x"), Err(poisoned));
                    assert_eq!(replica.flush(), Err(poisoned));
                    assert_eq!(replica.hear(), Err(poisoned));
                    assert_eq!(replica.latest().err(), Some(poisoned));
                    // The others go on while it is kept.
                    thread::sleep(Duration::from_millis(5));
                    assert_eq!(replica.finish().err(), Some(poisoned));
                    None
                })
            });
            let logs: Vec<Log> = logs.into_iter().flatten().collect();
            assert_eq!(logs.len(), workers - 1);
            are_equal(&logs);
        }
    }
}

/// The ring has room for few operations, so a receiver that is kept would fill it.
#[test]
fn a_poisoned_replica_that_is_kept_stops_nobody() {
    in_time(|| {
        let mut replicas = open_to_panic(2, 513, 0);
        let (mut kept, mut anna) = (replicas.remove(0), replicas.remove(0));
        anna.execute(&operation(1, 0)).unwrap();
        assert!(panic::catch_unwind(AssertUnwindSafe(|| kept.hear())).is_err());
        for count in 1..100 {
            anna.execute(&operation(1, count)).unwrap();
        }
        check(&anna.finish().unwrap(), &[0, 100]);
        assert_eq!(kept.hear(), Err(ReplicaError::Poisoned));
    });
}

#[test]
fn a_flag_and_a_ring_stop_a_worker_at_any_time() {
    for pause in 0..30 {
        let logs = in_time(move || {
            let stop = Arc::new(AtomicBool::new(false));
            let replicas = open::<Log>(3, 513);
            let bell = replicas[0].bell().clone();
            let stopped = stop.clone();
            let stops = thread::spawn(move || {
                thread::sleep(Duration::from_micros(100 * pause));
                stopped.store(true, SeqCst);
                bell.ring();
            });
            let logs = each(replicas, |mut replica| {
                let go_on = || !stop.load(SeqCst);
                let mut count = 0;
                while go_on() {
                    let next = operation(replica.number(), count);
                    match replica.execute_while(&next, go_on) {
                        Ok(_) => count += 1,
                        Err(why) => assert_eq!(why, ReplicaError::Stopped),
                    }
                }
                replica.finish().unwrap()
            });
            stops.join().unwrap();
            logs
        });
        are_equal(&logs);
    }
}

/// Where a replica is kept and not asked, the ring is full at last: a call with a time ends by that
/// time, also behind a long sleep, and what it has put is sent later, once.
#[test]
fn a_time_ends_a_call_and_loses_nothing() {
    in_time(|| {
        let mut replicas = open::<Log>(2, 513);
        let (mut anna, mut bert) = (replicas.remove(0), replicas.remove(0));
        let time = Duration::from_millis(30);
        let mut count = 0;
        while anna.execute_timeout(&operation(0, count), time).is_ok() {
            count += 1;
        }
        let placed = anna.state().operations.len();
        // On a busy machine some of them take longer.
        let mut tries = (0..50).map(|_| {
            let begin = Instant::now();
            assert_eq!(anna.flush_timeout(time), Err(ReplicaError::Stopped));
            let took = begin.elapsed();
            assert!(took >= time, "{took:?}");
            took
        });
        assert!(tries.any(|took| took < 3 * time));
        assert_eq!(anna.state().operations.len(), placed);
        let begin = Instant::now();
        assert_eq!(bert.hear(), Ok(placed));
        assert_eq!(bert.hear_timeout(time), Ok(0));
        assert!(begin.elapsed() >= time);
        anna.flush().unwrap();
        assert_eq!(bert.hear_timeout(Duration::from_secs(50)), Ok(1));
        let missing = anna.finish_timeout(time);
        assert_eq!(missing.err(), Some(ReplicaError::MissingWorker(1)));
        let log = bert.finish().unwrap();
        check(&log, &[count + 1, 0]);
    });
}

#[test]
fn a_batch_that_is_full_waits_for_room_and_can_be_told_to_stop() {
    in_time(|| {
        let mut replicas = open::<Log>(2, 513);
        let mut anna = replicas.remove(0);
        let mut count = 0;
        let time = Duration::from_millis(5);
        while anna.submit_timeout(&operation(0, count), time).is_ok() {
            count += 1;
        }
        let asked = AtomicU64::new(0);
        let go_on = || asked.fetch_add(1, SeqCst) < 10;
        let stopped = anna.submit_while(&operation(0, count), go_on);
        assert_eq!(
            (stopped, asked.load(SeqCst)),
            (Err(ReplicaError::Stopped), 11)
        );
        assert_eq!(
            anna.finish_while(|| false).err(),
            Some(ReplicaError::Stopped)
        );
        // What it had not sent is lost, and it is not waited for.
        let log = replicas.remove(0).finish().unwrap();
        let many = log.operations.len() as u64;
        check(&log, &[many, 0]);
        assert!(many < count);
    });
}

/// One that sleeps in `hear_while` is woken by an operation, and by a ring.
#[test]
fn those_that_wait_are_woken() {
    in_time(|| {
        let mut replicas = open::<Log>(2, 513);
        let (mut anna, mut bert) = (replicas.remove(0), replicas.remove(0));
        let bell = anna.bell().clone();
        let stop = AtomicBool::new(false);
        thread::scope(|scope| {
            let hears = scope.spawn(|| {
                let first = bert.hear_while(|| true);
                (first, bert.hear_while(|| !stop.load(SeqCst)))
            });
            thread::sleep(Duration::from_millis(30));
            anna.execute(b"x").unwrap();
            thread::sleep(Duration::from_millis(30));
            stop.store(true, SeqCst);
            bell.ring();
            assert_eq!(hears.join().unwrap(), (Ok(1), Ok(0)));
        });
    });
}

#[test]
fn a_replica_goes_to_another_thread() {
    fn is_send<T: Send>(_: &T) {}
    let mut replicas = open::<Log>(1, 513);
    is_send(&replicas[0]);
    is_send(&replicas[0].execute_async(b"x"));
    let applied = Applied {
        from: 0,
        number: 0,
        answer: 0,
    };
    assert_eq!(applied, applied);
}
