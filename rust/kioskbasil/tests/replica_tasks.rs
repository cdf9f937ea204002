//! Replicas in async code, by an executor that sleeps without a bound: a wake-up that is missed is
//! a hang.

mod common;

use common::{in_time, open};
use kioskbasil::replica::{Replica, Replicas, State};
use kioskbasil::{Page, Shape};
use std::future::Future;
use std::pin::Pin;
use std::sync::atomic::{AtomicBool, Ordering::SeqCst};
use std::sync::Arc;
use std::task::{Context, Poll, Wake, Waker};
use std::thread::{self, Thread};

/// The workers and first bytes of all operations, in their order. Each is as long as it says.
#[derive(Clone, Debug, Default, PartialEq, Eq)]
struct Log(Vec<(u32, u8)>);

impl State for Log {
    type Answer = usize;

    fn apply(&mut self, from: u32, operation: &[u8]) -> usize {
        assert_eq!(operation, self::operation(operation[0]));
        self.0.push((from, operation[0]));
        self.0.len() - 1
    }
}

/// The operation of this number, of 1 to 130 bytes: of several pieces, or of one.
fn operation(count: u8) -> Vec<u8> {
    vec![count; 1 + usize::from(count) * 37 % 130]
}

struct Unparks {
    thread: Thread,
    is_due: AtomicBool,
}

impl Wake for Unparks {
    fn wake(self: Arc<Self>) {
        self.is_due.store(true, SeqCst);
        self.thread.unpark();
    }
}

/// Polls these futures in one thread until all are ready, each where it was woken alone.
fn run_all<T>(mut futures: Vec<Pin<Box<dyn Future<Output = T> + '_>>>) -> Vec<T> {
    let wakes = |_: &_| {
        Arc::new(Unparks {
            thread: thread::current(),
            is_due: AtomicBool::new(true),
        })
    };
    let wakers: Vec<Arc<Unparks>> = futures.iter().map(wakes).collect();
    let mut done: Vec<Option<T>> = futures.iter().map(|_| None).collect();
    while done.iter().any(|it| it.is_none()) {
        let mut was_due = false;
        for (at, future) in futures.iter_mut().enumerate() {
            if done[at].is_some() || !wakers[at].is_due.swap(false, SeqCst) {
                continue;
            }
            was_due = true;
            let waker = Waker::from(wakers[at].clone());
            if let Poll::Ready(made) = future.as_mut().poll(&mut Context::from_waker(&waker)) {
                done[at] = Some(made);
            }
        }
        if !was_due {
            thread::park();
        }
    }
    done.into_iter().flatten().collect()
}

fn run<T>(future: impl Future<Output = T>) -> T {
    let mut made = run_all(vec![Box::pin(future)]);
    made.remove(0)
}

async fn execute_all(replica: &mut Replica<Log>, many: u8) {
    let mut last = None;
    for count in 0..many {
        let place = replica.execute_async(&operation(count)).await.unwrap();
        assert_eq!(replica.state().0.len(), place + 1);
        assert!(Some(place) > last);
        last = Some(place);
    }
}

/// Finishes all, each in a thread of its own; the logs are equal, and have so many of each worker.
fn finish(replicas: Vec<Replica<Log>>, many: usize) {
    let workers = replicas.len();
    let threads: Vec<_> = replicas
        .into_iter()
        .map(|it| thread::spawn(|| it.finish().unwrap()))
        .collect();
    let logs: Vec<Log> = threads.into_iter().map(|it| it.join().unwrap()).collect();
    for log in &logs {
        assert_eq!(log, &logs[0]);
    }
    for worker in 0..workers {
        let own = logs[0].0.iter().filter(|it| it.0 as usize == worker);
        let bytes: Vec<usize> = own.map(|it| usize::from(it.1)).collect();
        assert_eq!(bytes, (0..many).collect::<Vec<_>>());
    }
}

#[test]
fn tasks_of_one_thread_execute_over_a_full_ring() {
    in_time(|| {
        let mut replicas = open::<Log>(3, 513);
        let tasks = replicas
            .iter_mut()
            .map(|it| -> Pin<Box<dyn Future<Output = ()>>> {
                Box::pin(async move {
                    execute_all(it, 100).await;
                    // It is not asked any more, so it hears no more: the ring waits for it.
                    while it.state().0.len() < 300 {
                        it.next_applied_async().await;
                    }
                })
            });
        run_all(tasks.collect());
        finish(replicas, 100);
    });
}

#[test]
fn tasks_of_threads_execute_over_a_full_ring() {
    in_time(|| {
        let mut replicas = open::<Log>(4, 513);
        thread::scope(|scope| {
            for replica in &mut replicas {
                scope.spawn(move || {
                    run(async {
                        execute_all(replica, 200).await;
                        while replica.state().0.len() < 800 {
                            replica.next_applied_async().await;
                        }
                    })
                });
            }
        });
        finish(replicas, 200);
    });
}

/// Polls a future so many times, and drops it if it is not ready then.
fn poll_times<T>(mut future: Pin<Box<dyn Future<Output = T> + '_>>, times: usize) -> Option<T> {
    let waker = Waker::from(Arc::new(Unparks {
        thread: thread::current(),
        is_due: AtomicBool::new(false),
    }));
    for _ in 0..times {
        if let Poll::Ready(made) = future.as_mut().poll(&mut Context::from_waker(&waker)) {
            return Some(made);
        }
        thread::yield_now();
    }
    None
}

/// A worker whose futures are dropped after 1 to 4 polls: the bytes of all that it has put.
fn drop_futures(replica: &mut Replica<Log>) -> Vec<u8> {
    let (mut put, mut next) = (Vec::new(), 0);
    for count in 0..200 {
        let operation = operation(count);
        let future = Box::pin(replica.execute_async(&operation));
        let _ = poll_times(future, 1 + usize::from(count) % 4);
        // The next number tells whether the future had put its operation.
        let number = replica.submit(&operation).unwrap();
        let times = (number + 1 - next) / common::pieces(operation.len());
        assert!(times == 1 || times == 2);
        put.extend((0..times).map(|_| count));
        next = number + 1;
    }
    put
}

/// What a future had put that is dropped at any poll is sent later, once.
#[test]
fn futures_that_are_dropped_lose_nothing_and_keep_nobody_waiting() {
    in_time(|| {
        let work = |mut replica: Replica<Log>| {
            let (number, put) = (replica.number(), drop_futures(&mut replica));
            (number, put, replica.finish().unwrap())
        };
        let start = |replica| thread::spawn(move || work(replica));
        let threads: Vec<_> = open(4, 513).into_iter().map(start).collect();
        let ended: Vec<_> = threads.into_iter().map(|it| it.join().unwrap()).collect();
        for (number, put, log) in &ended {
            assert_eq!(log, &ended[0].2);
            let own = log.0.iter().filter(|it| it.0 == *number).map(|it| it.1);
            assert_eq!(*put, own.collect::<Vec<_>>());
        }
    });
}

#[test]
fn a_stream_has_all_that_is_applied_and_its_answers() {
    in_time(|| {
        let mut replicas = open::<Log>(2, 513);
        let (mut anna, mut bert) = (replicas.remove(0), replicas.remove(0));
        let hears = thread::spawn(move || {
            let mut heard = Vec::new();
            while heard.len() < 500 {
                let next = run(bert.next_applied_async());
                heard.push(next.unwrap());
            }
            (bert, heard)
        });
        for count in 0..250u64 {
            let place = run(anna.execute_async(&operation(count as u8))).unwrap();
            assert_eq!(place as u64, 2 * count);
            anna.submit(&operation(7)).unwrap();
        }
        run(anna.flush_async()).unwrap();
        let (bert, heard) = hears.join().unwrap();
        let mut next = 0;
        for (at, applied) in heard.iter().enumerate() {
            let count = if at % 2 == 0 { (at / 2) as u8 } else { 7 };
            next += common::pieces(operation(count).len());
            assert_eq!((applied.from, applied.answer), (0, at));
            assert_eq!(applied.number, next - 1);
        }
        assert_eq!(bert.state().0.len(), 500);
    });
}

/// The words of a replica that is recorded, and what it is given once all have left.
#[test]
fn tasks_are_recorded() {
    let page = Page::from_numbers(&[0]).unwrap();
    let opened = Replicas::open_recorded(Shape::of_workers(1), &page, Log::default);
    let (mut replicas, mut ear) = opened.unwrap();
    let replica = &mut replicas[0];
    for count in 0..20 {
        run(replica.execute_async(&operation(count))).unwrap();
        assert_eq!(ear.try_frame().unwrap().end_place(), replica.words());
    }
    replica.leave().unwrap();
    assert_eq!(run(replica.next_applied_async()), None);
}
