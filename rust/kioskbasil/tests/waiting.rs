//! Threads and tasks that wait: they are woken, told to stop, and miss nothing.

mod common;

use common::{bus, Count};
use kioskbasil::{Bus, Item, Next, Receiver, Sender, Shape, Turn, Waiting};
use std::future::Future;
use std::panic::{self, AssertUnwindSafe};
use std::pin::Pin;
use std::sync::atomic::{AtomicBool, AtomicUsize, Ordering};
use std::sync::{mpsc, Arc, Mutex};
use std::task::{Context, Poll, Wake, Waker};
use std::thread;
use std::time::{Duration, Instant};

const A_WHILE: Duration = Duration::from_millis(30);

/// Takes turns by hand until the page is taken.
fn take_page(sender: &mut Sender) {
    while !matches!(sender.turn(0), Turn::Own { .. }) {}
}

#[test]
fn each_policy_hears_all() {
    for waiting in [Waiting::Spin, Waiting::Yield, Waiting::Sleep] {
        let (mut senders, mut receivers) = bus(2, 2, 8);
        senders.iter_mut().for_each(|s| s.set_waiting(waiting));
        receivers.iter_mut().for_each(|r| r.set_waiting(waiting));
        let heard: Vec<Vec<Item>> = thread::scope(|scope| {
            let hearing: Vec<_> = receivers
                .iter_mut()
                .map(|receiver| scope.spawn(move || receiver.collect()))
                .collect();
            let send = |mut sender: Sender| {
                sender.send_all((0..100u8).map(|i| [i])).unwrap();
                sender
            };
            let sending: Vec<_> = senders
                .into_iter()
                .map(|sender| scope.spawn(move || send(sender)))
                .collect();
            let sent = sending.into_iter().map(|s| s.join().unwrap());
            sent.last().unwrap().end_order().unwrap();
            hearing.into_iter().map(|h| h.join().unwrap()).collect()
        });
        assert_eq!((heard[0].len(), &heard[0]), (200, &heard[1]));
    }
}

#[test]
fn a_message_and_the_end_wake_receivers() {
    let (mut senders, mut receivers) = bus(1, 2, 8);
    thread::scope(|scope| {
        let hearing: Vec<_> = receivers
            .iter_mut()
            .map(|receiver| scope.spawn(move || receiver.map(|item| item[0]).collect()))
            .collect();
        for message in [1, 2] {
            thread::sleep(A_WHILE);
            senders[0].send_all([[message]]).unwrap();
        }
        thread::sleep(A_WHILE);
        senders[0].end_order().unwrap();
        for heard in hearing {
            let items: Vec<u8> = heard.join().unwrap();
            assert_eq!(items, [1, 2]);
        }
    });
}

#[test]
fn the_page_that_is_back_wakes_a_sender() {
    let (mut senders, _receivers) = bus(2, 1, 8);
    let (anna, bert) = senders.split_at_mut(1);
    bert[0].put(b"b").unwrap();
    take_page(&mut bert[0]);
    thread::scope(|scope| {
        let sends = scope.spawn(|| anna[0].send_all(["a"]));
        thread::sleep(A_WHILE);
        assert!(matches!(bert[0].turns(0), Turn::Delivered { .. }));
        assert_eq!(sends.join().unwrap(), Ok(()));
    });
}

#[test]
fn those_that_sleep_are_told_to_stop() {
    let (mut senders, mut receivers) = bus(2, 1, 8);
    let (anna, bert) = senders.split_at_mut(1);
    bert[0].put(b"b").unwrap();
    take_page(&mut bert[0]);
    anna[0].put(b"a").unwrap();
    let (bell, stop) = (bert[0].bell().clone(), AtomicBool::new(false));
    let asked = AtomicUsize::new(0);
    let go_on = || {
        asked.fetch_add(1, Ordering::SeqCst);
        !stop.load(Ordering::SeqCst)
    };
    thread::scope(|scope| {
        let sends = scope.spawn(|| anna[0].send_while(go_on));
        let hears = scope.spawn(|| receivers[0].next_item_while(go_on));
        while asked.load(Ordering::SeqCst) < 120 {
            thread::yield_now();
        }
        thread::sleep(A_WHILE);
        let (before, begin) = (asked.load(Ordering::SeqCst), Instant::now());
        thread::sleep(A_WHILE);
        // Each looks again every 10 ms. Awake they would look some thousand times.
        let looks = 50 + begin.elapsed().as_millis() as usize / 5;
        assert!(asked.load(Ordering::SeqCst) <= before + looks);
        stop.store(true, Ordering::SeqCst);
        bell.ring();
        assert_eq!(sends.join().unwrap(), None);
        assert_eq!(hears.join().unwrap(), Next::Stopped);
    });
    assert_eq!(anna[0].pending(), 1);
    assert!(matches!(bert[0].send(), Turn::Delivered { .. }));
    assert!(matches!(anna[0].send(), Turn::Delivered { .. }));
    anna[0].end_order().unwrap();
    let heard = |next| matches!(next, Next::Item(_));
    assert!(heard(receivers[0].next_item_while(|| false)));
    assert!(heard(receivers[0].next_item_while(|| false)));
    assert_eq!(receivers[0].next_item_while(|| false), Next::End);
}

/// Two senders over two rows. The second has shown its presence in tenure 0 and stopped.
fn with_a_late_sender() -> (Vec<Sender>, Vec<Receiver>) {
    let (mut senders, receivers) = bus(2, 1, 2);
    senders[1].put(b"late").unwrap();
    for _ in 0..3 {
        assert_eq!(senders[1].turn(0), Turn::Going);
    }
    senders[0].send_all(["a"]).unwrap();
    senders[0].put(b"b").unwrap();
    (senders, receivers)
}

/// Goes on with the late sender up to its withdrawal.
fn go_on_late(late: &mut Sender) {
    while late.turns(1) == Turn::Going {}
}

#[test]
fn a_sender_behind_goes_on_without_a_ring() {
    let (mut senders, mut receivers) = with_a_late_sender();
    let (anna, late) = senders.split_at_mut(1);
    assert!(receivers[0].next_item().is_some());
    thread::scope(|scope| {
        let hears = scope.spawn(|| receivers[0].next_item());
        thread::sleep(A_WHILE);
        let sends = scope.spawn(|| anna[0].send());
        assert_eq!(&hears.join().unwrap().unwrap()[..], b"b");
        thread::sleep(A_WHILE);
        go_on_late(&mut late[0]);
        assert!(matches!(sends.join().unwrap(), Turn::Delivered { .. }));
    });
}

// ---- tasks, in an executor of these tests

type Work = Pin<Box<dyn Future<Output = ()> + Send>>;

/// A task in the queue of an executor.
struct Task {
    work: Mutex<Option<Work>>,
    queue: Mutex<mpsc::Sender<Arc<Task>>>,
    woken: Arc<AtomicUsize>,
}

impl Wake for Task {
    fn wake(self: Arc<Self>) {
        self.woken.fetch_add(1, Ordering::SeqCst);
        let queue = self.queue.lock().unwrap().clone();
        queue.send(self).unwrap_or(());
    }
}

/// Runs all these tasks by one thread until they are done, and gives how often they were woken.
fn run(tasks: Vec<Work>) -> usize {
    let (queue, queued) = mpsc::channel();
    let (mut left, woken) = (tasks.len(), Arc::new(AtomicUsize::new(0)));
    for work in tasks {
        let task = Task {
            work: Mutex::new(Some(work)),
            queue: Mutex::new(queue.clone()),
            woken: woken.clone(),
        };
        queue.send(Arc::new(task)).unwrap();
    }
    while left > 0 {
        let task: Arc<Task> = queued.recv_timeout(Duration::from_secs(20)).unwrap();
        let waker = Waker::from(task.clone());
        let mut work = task.work.lock().unwrap();
        let mut context = Context::from_waker(&waker);
        if let Some(Poll::Ready(())) = work.as_mut().map(|w| w.as_mut().poll(&mut context)) {
            *work = None;
            left -= 1;
        }
    }
    woken.load(Ordering::SeqCst)
}

#[test]
fn tasks_of_one_thread_hear_one_order() {
    let (senders, receivers) = bus(3, 2, 8);
    let done = Arc::new(AtomicUsize::new(0));
    let mut tasks: Vec<Work> = Vec::new();
    for mut receiver in receivers {
        tasks.push(Box::pin(async move {
            let mut next = [0; 3];
            while let Some(item) = receiver.next_item_async().await {
                assert_eq!(item.number, next[usize::from(item.sender)]);
                next[usize::from(item.sender)] += 1;
            }
            assert_eq!(next, [100; 3]);
        }));
    }
    for mut sender in senders {
        let done = done.clone();
        tasks.push(Box::pin(async move {
            let messages = (0..100u8).map(|i| [i]);
            sender.send_all_async(messages).await.unwrap();
            if done.fetch_add(1, Ordering::SeqCst) == 2 {
                sender.end_order_async().await.unwrap();
            }
        }));
    }
    run(tasks);
}

#[test]
fn tasks_of_several_threads_play_a_ball() {
    const MOVES: u64 = 2000;
    let (senders, receivers) = bus(2, 2, 8);
    thread::scope(|scope| {
        for (mut sender, mut receiver) in senders.into_iter().zip(receivers) {
            scope.spawn(move || {
                run(vec![Box::pin(async move {
                    for step in 0..MOVES {
                        if step % 2 == u64::from(sender.number()) {
                            sender.put(b"ball").unwrap();
                            let sent = sender.send_async().await;
                            assert!(matches!(sent, Turn::Delivered { .. }));
                        }
                        let item = receiver.next_item_async().await.unwrap();
                        assert_eq!(u64::from(item.sender), step % 2);
                    }
                })])
            });
        }
    });
}

#[test]
fn the_last_task_of_a_handle_is_woken_once() {
    let (mut senders, mut receivers) = bus(1, 1, 8);
    let counts: Vec<Arc<Count>> = (0..3).map(|_| Arc::default()).collect();
    for count in &counts {
        let waker = Waker::from(count.clone());
        let polled = receivers[0].poll_item(&mut Context::from_waker(&waker));
        assert_eq!(polled, Poll::Pending);
    }
    for message in ["a", "b"] {
        senders[0].send_all([message]).unwrap();
    }
    let woken = counts.iter().map(|count| count.0.load(Ordering::SeqCst));
    assert_eq!(woken.collect::<Vec<_>>(), [0, 0, 1]);
    assert!(receivers[0].try_item().is_some());
}

/// A waker that panics.
struct Fault;

impl Wake for Fault {
    fn wake(self: Arc<Self>) {
        panic!("a fault of the program's own, which is to be seen");
    }
}

#[test]
fn a_waker_that_panics_leaves_nobody_asleep() {
    let (mut senders, mut receivers) = bus(1, 3, 8);
    let counts: [Arc<Count>; 2] = Default::default();
    let wakers = [
        Waker::from(counts[0].clone()),
        Waker::from(Arc::new(Fault)),
        Waker::from(counts[1].clone()),
    ];
    for (receiver, waker) in receivers.iter_mut().zip(&wakers) {
        let polled = receiver.poll_item(&mut Context::from_waker(waker));
        assert_eq!(polled, Poll::Pending);
    }
    senders[0].put(b"x").unwrap();
    let sends = panic::catch_unwind(AssertUnwindSafe(|| senders[0].send()));
    assert!(sends.is_err());
    let woken = counts.iter().map(|count| count.0.load(Ordering::SeqCst));
    assert_eq!(woken.collect::<Vec<_>>(), [1, 1]);
    assert!(receivers.iter_mut().all(|r| r.try_item().is_some()));
}

/// What a panic gives, and its drop panics.
struct FaultAgain;

impl Drop for FaultAgain {
    fn drop(&mut self) {
        if !thread::panicking() {
            panic!("a fault in a fault's drop, which is to be seen");
        }
    }
}

/// A waker that panics with that.
struct DoubleFault;

impl Wake for DoubleFault {
    fn wake(self: Arc<Self>) {
        panic::panic_any(FaultAgain);
    }
}

/// Two wakers panic, and the drop of what the second one gives panics too: the third one is woken.
#[test]
fn a_fault_whose_drop_panics_leaves_nobody_asleep() {
    let (mut senders, mut receivers) = bus(1, 3, 8);
    let count: Arc<Count> = Arc::default();
    let wakers = [
        Waker::from(Arc::new(Fault)),
        Waker::from(Arc::new(DoubleFault)),
        Waker::from(count.clone()),
    ];
    for (receiver, waker) in receivers.iter_mut().zip(&wakers) {
        let polled = receiver.poll_item(&mut Context::from_waker(waker));
        assert_eq!(polled, Poll::Pending);
    }
    senders[0].put(b"x").unwrap();
    let sends = panic::catch_unwind(AssertUnwindSafe(|| senders[0].send()));
    assert!(sends.unwrap_err().is::<&str>());
    assert_eq!(count.0.load(Ordering::SeqCst), 1);
}

/// The same where a ring of drops wakes them: no panic leaves the drop.
#[test]
fn a_fault_whose_drop_panics_leaves_no_drop() {
    for with_panic in [false, true] {
        let (mut senders, mut receivers) = bus(1, 2, 8);
        let count: Arc<Count> = Arc::default();
        let wakers = [
            Waker::from(Arc::new(DoubleFault)),
            Waker::from(count.clone()),
        ];
        for (receiver, waker) in receivers.iter_mut().zip(&wakers) {
            let polled = receiver.poll_item(&mut Context::from_waker(waker));
            assert_eq!(polled, Poll::Pending);
        }
        let sender = senders.remove(0);
        let dropped = panic::catch_unwind(AssertUnwindSafe(|| {
            let _sender = sender;
            if with_panic {
                panic!("another fault, which is to be seen");
            }
        }));
        assert_eq!(dropped.is_err(), with_panic);
        assert_eq!(count.0.load(Ordering::SeqCst), 1);
    }
}

/// Handles are dropped by a panic while such a waker listens: that ends no process.
#[test]
fn a_waker_that_panics_in_a_drop() {
    let (mut senders, mut receivers) = Bus::open_ring(Shape::of(1, 3)).unwrap();
    let waker = Waker::from(Arc::new(Fault));
    let (sender, dropped) = (senders.remove(0), receivers.remove(0));
    let mut drop_by_panic = |held: Box<dyn std::any::Any>| {
        let polled = receivers[0].poll_item(&mut Context::from_waker(&waker));
        assert_eq!(polled, Poll::Pending);
        let fault = panic::catch_unwind(AssertUnwindSafe(|| {
            let _held = held;
            panic!("another fault, which is to be seen");
        }));
        assert_eq!(
            fault.unwrap_err().downcast_ref(),
            Some(&"another fault, which is to be seen")
        );
    };
    drop_by_panic(Box::new(dropped));
    drop_by_panic(Box::new(sender));
}

/// Who waits for the page of a sender that was dropped is woken once the other has gone on.
#[test]
fn a_task_waits_for_a_page_that_was_let_go() {
    let (mut senders, _receivers) = bus(3, 1, 2);
    senders[1].put(b"late").unwrap();
    for _ in 0..3 {
        assert_eq!(senders[1].turn(0), Turn::Going);
    }
    senders[0].send_all(["a"]).unwrap();
    senders[0].put(b"b").unwrap();
    let polled = senders[0].poll_send(&mut Context::from_waker(&Waker::from(
        Arc::<Count>::default(),
    )));
    assert_eq!(polled, Poll::Pending);
    drop(senders.remove(0));
    let count: Arc<Count> = Arc::default();
    let waker = Waker::from(count.clone());
    senders[1].put(b"c").unwrap();
    let polled = senders[1].poll_send(&mut Context::from_waker(&waker));
    assert_eq!(polled, Poll::Pending);
    assert_eq!(count.0.load(Ordering::SeqCst), 0);
    go_on_late(&mut senders[0]);
    assert_eq!(count.0.load(Ordering::SeqCst), 1);
    let polled = senders[1].poll_send(&mut Context::from_waker(&waker));
    assert!(matches!(polled, Poll::Ready(Turn::Delivered { .. })));
}

#[test]
fn a_task_waits_for_the_page_and_one_that_is_dropped_keeps_nobody() {
    let (mut senders, _receivers) = bus(3, 1, 8);
    for sender in &mut senders {
        sender.put(b"x").unwrap();
    }
    take_page(&mut senders[0]);
    let count: Arc<Count> = Arc::default();
    let waker = Waker::from(count.clone());
    let polled = senders[1].poll_send(&mut Context::from_waker(&waker));
    assert_eq!(polled, Poll::Pending);
    drop(senders.remove(1));
    let mut other = senders.remove(1);
    thread::scope(|scope| {
        let woken = scope.spawn(move || {
            run(vec![Box::pin(async move {
                let sent = other.send_async().await;
                assert!(matches!(sent, Turn::Delivered { tenure: 1, .. }));
            })])
        });
        thread::sleep(A_WHILE);
        assert!(matches!(senders[0].send(), Turn::Delivered { .. }));
        assert!(woken.join().unwrap() <= 1);
    });
    assert_eq!(count.0.load(Ordering::SeqCst), 1);
}

#[test]
fn a_task_behind_goes_on_without_a_ring() {
    let (mut senders, _receivers) = with_a_late_sender();
    let (mut late, mut anna) = (senders.remove(1), senders.remove(0));
    thread::scope(|scope| {
        let woken = scope.spawn(move || {
            run(vec![Box::pin(async move {
                let sent = anna.send_async().await;
                assert!(matches!(sent, Turn::Delivered { .. }));
            })])
        });
        thread::sleep(5 * A_WHILE);
        go_on_late(&mut late);
        assert!(woken.join().unwrap() < 120);
    });
}
