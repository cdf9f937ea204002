//! Three threads replicate 1,000 counters over a ring, a bus without end: each draws changes of
//! its own, sends them, and makes those that it hears, its own too. All hear one order, so all
//! replicas go through the same states. `cargo run` in this folder makes 200,010 changes, and
//! `cargo run 3600` goes on for so many seconds.

use kioskbasil::{Bus, Item, Next, Receiver, SendError, Sender, Shape, Turn};
use std::error::Error;
use std::process::ExitCode;
use std::sync::atomic::{AtomicBool, AtomicUsize, Ordering};
use std::time::{Duration, Instant};
use std::{env, thread};

type Fault = Box<dyn Error + Send + Sync>;

const WORKERS: usize = 3;
const COUNTERS: usize = 1_000;
const BATCH: usize = 10;

/// How many changes each worker sends where no time is given.
const CHANGES: u64 = 66_670;

/// What the workers share.
struct Shared {
    begin: Instant,
    /// For how long they send.
    time: Option<Duration>,
    /// How many have changes to send still.
    sending: AtomicUsize,
    /// One has failed, and all are to stop.
    failed: AtomicBool,
}

impl Shared {
    fn goes_on(&self) -> bool {
        !self.failed.load(Ordering::SeqCst)
    }
}

#[derive(PartialEq, Eq)]
struct Replica {
    counters: Vec<u64>,
    /// How many changes were made.
    made: u64,
    /// A hash of all of them, in their order.
    order: u64,
}

impl Replica {
    /// Makes the change that is next in the order: four bytes say which counter, and four what is
    /// added to three times its number. So changes in another order leave other counters.
    fn make(&mut self, item: &Item) -> Result<(), Fault> {
        let change = item[..].try_into().map_err(|_| "a change that is none")?;
        let change = u64::from_be_bytes(change);
        let counter = self.counters.get_mut((change >> 32) as usize);
        let counter = counter.ok_or("a change of no counter")?;
        *counter = counter.wrapping_mul(3).wrapping_add(change & 0xffff_ffff);
        self.made += 1;
        for word in [u64::from(item.sender), item.number, change] {
            self.order = (self.order ^ word).wrapping_mul(0x0100_0000_01b3);
        }
        Ok(())
    }
}

/// A worker: a sender, a receiver, its replica, and the generator of its changes.
struct Worker<'a> {
    shared: &'a Shared,
    sender: Sender,
    receiver: Receiver,
    replica: Replica,
    dice: u64,
    /// It has changes to send still.
    sends: bool,
    /// Its last turn found no room.
    is_full: bool,
    /// How often it was answered `Full`.
    full: u64,
}

impl<'a> Worker<'a> {
    fn new(shared: &'a Shared, sender: Sender, receiver: Receiver) -> Worker<'a> {
        Worker {
            shared,
            dice: 0x9e37_79b9_7f4a_7c15 + u64::from(sender.number()),
            sender,
            receiver,
            replica: Replica {
                counters: vec![0; COUNTERS],
                made: 0,
                order: 0,
            },
            sends: true,
            is_full: false,
            full: 0,
        }
    }

    /// Sends and hears up to the end of the order, or until another has failed.
    fn work(mut self) -> Result<Worker<'a>, Fault> {
        while self.shared.goes_on() {
            self.fill()?;
            self.send()?;
            if self.hear()? {
                break;
            }
        }
        Ok(self)
    }

    /// Fills the batch, if it is empty and there are changes left. The last worker that has none
    /// lets an end mark wait.
    fn fill(&mut self) -> Result<(), Fault> {
        if !self.sends || self.is_full {
            return Ok(());
        }
        self.sends = match self.shared.time {
            Some(time) => self.shared.begin.elapsed() < time,
            None => self.sender.next_number() < CHANGES,
        };
        if self.sends {
            for _ in 0..BATCH {
                let change = self.draw();
                self.sender.put(&change)?;
            }
        } else if self.shared.sending.fetch_sub(1, Ordering::SeqCst) == 1 {
            self.sender.close()?;
        }
        Ok(())
    }

    /// Draws a change, by Marsaglia's xorshift of 64 bits.
    fn draw(&mut self) -> [u8; 8] {
        self.dice ^= self.dice << 13;
        self.dice ^= self.dice >> 7;
        self.dice ^= self.dice << 17;
        let counter = (self.dice >> 32) % COUNTERS as u64;
        (counter << 32 | self.dice & 0xffff_ffff).to_be_bytes()
    }

    /// Sends what waits. It waits for other senders, and not for room: for that it has to hear.
    fn send(&mut self) -> Result<(), Fault> {
        let shared = self.shared;
        self.is_full = false;
        match self.sender.send_while(|| shared.goes_on()) {
            Some(Turn::Full) => {
                self.sender.has_room()?;
                self.is_full = true;
                self.full += 1;
            }
            // None says that it was told to stop.
            Some(Turn::Delivered { .. } | Turn::Idle | Turn::Closed) | None => {}
            Some(turn) => return Err(SendError::Turn(turn).into()),
        }
        Ok(())
    }

    /// Makes the changes that are there, and waits for more while it has nothing else to do. Each
    /// `Full` takes a tenure, so after it no turn is taken before a look has found room. Says
    /// whether the order has ended.
    fn hear(&mut self) -> Result<bool, Fault> {
        let mut only_hears = || {
            let goes_on = self.shared.goes_on();
            if self.is_full {
                goes_on && self.sender.has_room() == Ok(false)
            } else {
                goes_on && !self.sends
            }
        };
        loop {
            match self.receiver.next_item_while(&mut only_hears) {
                Next::Item(item) => self.replica.make(&item)?,
                Next::End => return Ok(true),
                Next::Stopped => return Ok(false),
            }
        }
    }
}

impl Drop for Worker<'_> {
    /// One that is dropped before the end, by an error or a panic, tells the others to stop. Its
    /// sender and its receiver leave nobody waiting.
    fn drop(&mut self) {
        if !self.receiver.has_ended() {
            self.shared.failed.store(true, Ordering::SeqCst);
            self.sender.bell().ring();
        }
    }
}

/// Has all work, each in a thread of its own. If one fails, this says which and why.
fn work_all(workers: Vec<Worker<'_>>) -> Result<Vec<Worker<'_>>, Fault> {
    let worked: Vec<_> = thread::scope(|scope| {
        let start = |worker| scope.spawn(move || Worker::work(worker));
        let threads: Vec<_> = workers.into_iter().map(start).collect();
        threads.into_iter().map(|it| it.join()).collect()
    });
    let named = worked.into_iter().enumerate().map(|(number, worked)| {
        let worked = worked.unwrap_or_else(|_| Err("it panicked".into()));
        worked.map_err(|why| format!("worker {number}: {why}").into())
    });
    named.collect()
}

/// Has workers work over a ring, for so long, and compares their replicas.
fn run(time: Option<Duration>) -> Result<(), Fault> {
    let (senders, receivers) = Bus::open_ring(Shape {
        log_words: 32_768,
        ..Shape::of(WORKERS, WORKERS)
    })?;
    let shared = Shared {
        begin: Instant::now(),
        time,
        sending: AtomicUsize::new(WORKERS),
        failed: AtomicBool::new(false),
    };
    let pairs = senders.into_iter().zip(receivers);
    let workers = pairs.map(|(sender, receiver)| Worker::new(&shared, sender, receiver));
    let mut workers = work_all(workers.collect())?;
    if workers.iter().any(|it| it.replica != workers[0].replica) {
        return Err("two replicas differ".into());
    }
    let sent: u64 = workers.iter_mut().map(|it| it.sender.next_number()).sum();
    if sent != workers[0].replica.made {
        return Err("changes are lost".into());
    }
    let full: u64 = workers.iter().map(|it| it.full).sum();
    println!("{WORKERS} replicas: all equal, after {sent} changes; full {full} times");
    Ok(())
}

fn main() -> ExitCode {
    let mut words = env::args_os().skip(1);
    let word = words.next();
    let seconds = word.map(|it| it.to_str().and_then(|it| it.parse().ok()));
    if seconds == Some(None) || words.next().is_some() {
        eprintln!("usage: counters [SECONDS], a whole number");
        return ExitCode::from(2);
    }
    if let Err(why) = run(seconds.flatten().map(Duration::from_secs)) {
        eprintln!("counters: {why}");
        return ExitCode::FAILURE;
    }
    ExitCode::SUCCESS
}
