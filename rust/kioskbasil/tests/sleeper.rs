//! A task whose sender is behind has one thread that sleeps in its place, however often it is
//! polled. This test is alone in its process, whose threads it counts.

mod common;

use common::Count;
use kioskbasil::{Bus, Shape, Turn};
use std::fs;
use std::sync::atomic::Ordering;
use std::sync::Arc;
use std::task::{Context, Poll, Waker};
use std::thread;
use std::time::Duration;

/// How many threads this process has.
fn threads() -> usize {
    fs::read_dir("/proc/self/task").unwrap().count()
}

#[test]
fn a_task_behind_has_one_thread_asleep() {
    let (mut senders, _receivers) = Bus::open(Shape {
        rounds: 1,
        rows: 2,
        ..Shape::of(2, 1)
    })
    .unwrap();
    let (anna, late) = senders.split_at_mut(1);
    let (anna, late) = (&mut anna[0], &mut late[0]);
    late.put(b"late").unwrap();
    for _ in 0..3 {
        assert_eq!(late.turn(0), Turn::Going);
    }
    anna.send_all(["a"]).unwrap();
    anna.put(b"b").unwrap();

    // A timer polls it too, each 0.1 ms.
    let counts: [Arc<Count>; 2] = Default::default();
    let wakers = counts.clone().map(Waker::from);
    let mut poll = |at: usize| {
        let polled = anna.poll_send(&mut Context::from_waker(&wakers[at]));
        assert_eq!(polled, Poll::Pending);
    };
    let (before, mut most) = (threads(), 0);
    for polls in 0..2000 {
        poll(polls % 2);
        most = most.max(threads());
        thread::sleep(Duration::from_micros(100));
    }
    // One that has woken the task and is about to end may be there still.
    assert!(most <= before + 2, "{before} threads, and then {most}");

    // The waker of the last poll alone is woken, once. A machine with other work may be slow.
    let woken = |at: usize| counts[at].0.load(Ordering::SeqCst);
    let mut wakes_the_last_one = |_| {
        thread::sleep(Duration::from_millis(50));
        let before = [woken(0), woken(1)];
        poll(0);
        poll(1);
        thread::sleep(Duration::from_millis(50));
        [woken(0), woken(1)] == [before[0], before[1] + 1]
    };
    assert!((0..20).any(&mut wakes_the_last_one));

    while late.turns(1) == Turn::Going {}
    let polled = anna.poll_send(&mut Context::from_waker(&wakers[0]));
    assert!(matches!(polled, Poll::Ready(Turn::Delivered { .. })));
}
