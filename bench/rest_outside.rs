//! What waiting costs in Rust: bench/rest_outside builds and runs it. It prints what
//! bench/rest_outside.c prints, of a receiver, of one in a task, and of a sender.

use kioskbasil::{Bus, Item, Receiver, Sender, Shape, Turn};
use std::error::Error;
use std::future::Future;
use std::sync::{mpsc, Arc};
use std::task::{Context, Poll, Wake, Waker};
use std::thread::{self, JoinHandle, Thread};
use std::time::{Duration, Instant};
use std::{env, fs};

type Fault = Box<dyn Error + Send + Sync>;

const MESSAGES: usize = 1000;

/// Nanoseconds since this.
fn since(start: Instant) -> u64 {
    start.elapsed().as_nanos() as u64
}

/// A thread with the place of what is known of it.
struct Watched<T> {
    name: &'static str,
    place: String,
    thread: JoinHandle<T>,
}

impl<T: Send + 'static> Watched<T> {
    fn start(
        name: &'static str,
        work: impl FnOnce() -> T + Send + 'static,
    ) -> Result<Watched<T>, Fault> {
        let (tell, told) = mpsc::channel();
        let thread = thread::spawn(move || {
            let place = fs::read_link("/proc/thread-self").unwrap();
            tell.send(format!("/proc/{}/schedstat", place.display()))
                .unwrap();
            work()
        });
        let place = told.recv()?;
        Ok(Watched {
            name,
            place,
            thread,
        })
    }

    /// The nanoseconds that it was on a processor.
    fn time(&self) -> Result<u64, Fault> {
        let text = fs::read_to_string(&self.place)?;
        Ok(text.split(' ').next().ok_or("no time")?.parse()?)
    }
}

/// A future by one thread, which parks meanwhile.
fn block_on<T>(future: impl Future<Output = T>) -> T {
    struct Unpark(Thread);
    impl Wake for Unpark {
        fn wake(self: Arc<Self>) {
            self.0.unpark();
        }
    }
    let waker = Waker::from(Arc::new(Unpark(thread::current())));
    let mut future = Box::pin(future);
    loop {
        match future.as_mut().poll(&mut Context::from_waker(&waker)) {
            Poll::Ready(value) => return value,
            Poll::Pending => thread::park(),
        }
    }
}

/// How long an item was on its way.
fn way(start: Instant, item: &Item) -> u64 {
    since(start) - u64::from_le_bytes(item[..].try_into().unwrap())
}

fn hear(mut receiver: Receiver, start: Instant) -> Vec<u64> {
    receiver.by_ref().map(|item| way(start, &item)).collect()
}

fn hear_as_task(mut receiver: Receiver, start: Instant) -> Vec<u64> {
    let mut ways = Vec::new();
    block_on(async {
        while let Some(item) = receiver.next_item_async().await {
            ways.push(way(start, &item));
        }
    });
    ways
}

fn send(sender: &mut Sender, start: Instant) -> Result<(), Fault> {
    Ok(sender.send_all([since(start).to_le_bytes()])?)
}

fn print_ways(name: &str, mut ways: Vec<u64>) {
    let ways = &mut ways[2..];
    ways.sort_unstable();
    let at = |part: usize| ways[ways.len() * part / 10] as f64 / 1e3;
    println!("wake {name} {:.1} {:.1}", at(5), at(9));
}

fn main() -> Result<(), Fault> {
    let seconds: u64 = env::args().nth(1).map_or(Ok(10), |word| word.parse())?;
    let start = Instant::now();
    let (mut senders, mut receivers) = Bus::open(Shape {
        rounds: 1,
        ..Shape::of(2, 2)
    })?;
    let (task, receiver) = (receivers.remove(1), receivers.remove(0));
    let (mut other, mut sender) = (senders.remove(1), senders.remove(0));
    sender.put(&since(start).to_le_bytes())?;
    while !matches!(sender.turn(0), Turn::Own { .. }) {}
    let hearing = [
        Watched::start("Rust:receiver", move || hear(receiver, start))?,
        Watched::start("Rust:task", move || hear_as_task(task, start))?,
    ];
    let sending = Watched::start("Rust:sender", move || send(&mut other, start))?;
    thread::sleep(Duration::from_millis(100));
    let times =
        || -> Result<_, Fault> { Ok([hearing[0].time()?, hearing[1].time()?, sending.time()?]) };
    let before = times()?;
    thread::sleep(Duration::from_secs(seconds));
    let names = [hearing[0].name, hearing[1].name, sending.name];
    for (name, (before, after)) in names.iter().zip(before.into_iter().zip(times()?)) {
        println!("idle {name} {:.2}", (after - before) as f64 / 1e6);
    }
    if !matches!(sender.send(), Turn::Delivered { .. }) {
        return Err("not sent".into());
    }
    sending.thread.join().map_err(|_| "a thread stopped")??;
    for _ in 2..MESSAGES {
        thread::sleep(Duration::from_millis(3));
        send(&mut sender, start)?;
    }
    sender.end_order()?;
    for watched in hearing {
        let ways = watched.thread.join().map_err(|_| "a thread stopped")?;
        print_ways(watched.name, ways);
    }
    Ok(())
}
