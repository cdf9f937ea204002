//! What a user could take instead of the bus: `peers NAME` runs the peer of this name for each line of its input,
//! `SENDERS RECEIVERS MESSAGES BYTES`, and prints its nanoseconds. README.md says what a run is and what it checks.

use std::array::from_fn;
use std::cell::UnsafeCell;
use std::hint::spin_loop;
use std::io::{stdin, BufRead};
use std::sync::atomic::{AtomicBool, AtomicUsize, Ordering::*};
use std::sync::{mpsc, Arc, Mutex};
use std::thread;
use std::time::Instant;

const BATCH: usize = 16;

/// A message of 8 * W bytes. The first word names it: sender << 32 | number.
type Msg<const W: usize> = [u64; W];

trait Tx<const W: usize>: Send {
    fn send(&mut self, batch: &[Msg<W>]);
}

trait Rx<const W: usize>: Send {
    /// Waits for at least one message, and gives every message that it took to `take`.
    fn recv(&mut self, take: impl FnMut(&Msg<W>));
}

trait Peer<const W: usize> {
    type Tx: Tx<W>;
    type Rx: Rx<W>;
    /// A new bus that will carry `total` messages.
    fn open(senders: usize, receivers: usize, total: usize) -> (Vec<Self::Tx>, Vec<Self::Rx>);
}

/// Spins a little, and then yields the core at each turn, as the bus does.
fn wait_until(mut ready: impl FnMut() -> bool) {
    let mut step = 0;
    while !ready() {
        if step <= 6 {
            (0..1 << step).for_each(|_| spin_loop());
            step += 1;
        } else {
            thread::yield_now();
        }
    }
}

fn times<T>(n: usize, make: impl FnMut(usize) -> T) -> Vec<T> {
    (0..n).map(make).collect()
}

// A run.

struct Job {
    senders: usize,
    receivers: usize,
    messages: usize,
}

/// What one receiver saw, at little cost and without memory of its own.
#[derive(Default, PartialEq, Debug)]
struct Seen {
    count: usize,
    /// Of each sender: the number that must come next.
    next: [u32; 8],
    /// Not zero if something else came.
    disorder: u32,
    /// A hash of the messages' names in their order.
    order: u64,
    /// The sum of all words of all messages.
    sum: u64,
}

impl Seen {
    fn take<const W: usize>(&mut self, msg: &Msg<W>) {
        let (sender, number) = ((msg[0] >> 32) as usize, msg[0] as u32);
        let next = &mut self.next[sender];
        self.disorder |= *next ^ number;
        *next = number.wrapping_add(1);
        self.order = self
            .order
            .wrapping_mul(0x9E37_79B9_7F4A_7C15)
            .wrapping_add(msg[0]);
        self.sum = msg
            .iter()
            .fold(self.sum, |sum, word| sum.wrapping_add(*word));
        self.count += 1;
    }
}

fn message<const W: usize>(sender: usize, number: usize) -> Msg<W> {
    let id = (sender as u64) << 32 | number as u64;
    from_fn(|j| id.wrapping_mul(2 * j as u64 + 1)) // the words add up to id * W²
}

struct Gate {
    waiting: AtomicUsize,
    open: AtomicBool,
}

impl Gate {
    fn pass(&self) {
        self.waiting.fetch_add(1, AcqRel);
        wait_until(|| self.open.load(Acquire));
    }
}

/// Runs `job` once, checks what came, and gives nanoseconds from the opening of the gate to the last item.
fn run<P: Peer<W>, const W: usize>(job: &Job) -> u128 {
    let Job {
        senders,
        receivers,
        messages,
    } = *job;
    let total = senders * messages;
    let gate = &Gate {
        waiting: AtomicUsize::new(0),
        open: AtomicBool::new(false),
    };
    let (txs, rxs) = P::open(senders, receivers, total);
    thread::scope(|scope| {
        let hear = |mut rx: P::Rx| {
            scope.spawn(move || {
                gate.pass();
                let mut seen = Seen::default();
                while seen.count < total {
                    rx.recv(|msg| seen.take(msg));
                }
                (Instant::now(), seen, rx)
            })
        };
        let send = |(sender, mut tx): (usize, P::Tx)| {
            scope.spawn(move || {
                gate.pass();
                let mut batch = Vec::with_capacity(BATCH);
                for number in (0..messages).step_by(BATCH) {
                    batch.clear();
                    batch.extend(
                        (number..messages.min(number + BATCH)).map(|i| message::<W>(sender, i)),
                    );
                    tx.send(&batch);
                }
                tx
            })
        };
        let hearing: Vec<_> = rxs.into_iter().map(hear).collect();
        let sending: Vec<_> = txs.into_iter().enumerate().map(send).collect();
        wait_until(|| gate.waiting.load(Acquire) == senders + receivers);
        let start = Instant::now();
        gate.open.store(true, Release);
        let heard: Vec<_> = hearing
            .into_iter()
            .map(|thread| thread.join().unwrap())
            .collect();
        let _sent: Vec<_> = sending
            .into_iter()
            .map(|thread| thread.join().unwrap())
            .collect();
        check::<W>(job, heard.iter().map(|(_, seen, _)| seen));
        (heard.iter().map(|(end, ..)| *end).max().unwrap() - start).as_nanos()
    })
}

/// Every message once, each sender's in its order, one order for all, and no word of a message damaged.
fn check<'a, const W: usize>(job: &Job, mut heard: impl Iterator<Item = &'a Seen>) {
    let first = heard.next().unwrap();
    assert_eq!(first.disorder, 0, "not in the order of a sender");
    for (sender, next) in first.next.iter().enumerate() {
        assert_eq!(
            *next as usize,
            if sender < job.senders {
                job.messages
            } else {
                0
            },
            "of sender {sender}"
        );
    }
    let ids =
        (0..job.senders as u64).flat_map(|s| (0..job.messages as u64).map(move |i| s << 32 | i));
    let sum = ids.fold(0u64, |sum, id| {
        sum.wrapping_add(id.wrapping_mul((W * W) as u64))
    });
    assert_eq!(
        (first.count, first.sum),
        (job.senders * job.messages, sum),
        "damaged messages"
    );
    heard.for_each(|other| assert_eq!(other, first, "receivers disagree"));
}

fn run_bytes<P: Peer<1> + Peer<7>>(job: &Job, bytes: usize) -> u128 {
    match bytes {
        8 => run::<P, 1>(job),
        56 => run::<P, 7>(job),
        _ => panic!("neither 8 nor 56 bytes"),
    }
}

fn main() {
    let name = std::env::args().nth(1).expect("the name of a peer");
    let run = match name.as_str() {
        "nothing" => run_bytes::<Nothing>,
        "mutex" => run_bytes::<MutexLog>,
        "lock" => run_bytes::<LockLog>,
        "ticket" => run_bytes::<TicketLog>,
        "channels" => run_bytes::<Channels>,
        #[cfg(feature = "tokio")]
        "tokio" => run_bytes::<Tokio>,
        #[cfg(feature = "kioskbasil")]
        "kioskbasil" => run_bytes::<Embedded>,
        _ => panic!("no such peer"),
    };
    for line in stdin().lock().lines() {
        let numbers: Vec<usize> = line
            .unwrap()
            .split(' ')
            .map(|word| word.parse().unwrap())
            .collect();
        let [senders, receivers, messages, bytes] = numbers[..] else {
            panic!("not four numbers")
        };
        println!(
            "{}",
            run(
                &Job {
                    senders,
                    receivers,
                    messages
                },
                bytes
            )
        );
    }
}

/// No bus: all messages lie there in order before the start, and what is sent is dropped. So only the harness is timed, and
/// the reading of the memory by all receivers.
struct Nothing;

impl<const W: usize> Peer<W> for Nothing {
    type Tx = ();
    type Rx = Arc<Vec<Msg<W>>>;
    fn open(senders: usize, receivers: usize, total: usize) -> (Vec<Self::Tx>, Vec<Self::Rx>) {
        let all = Arc::new(times(total, |i| message(i % senders, i / senders)));
        (vec![(); senders], vec![all; receivers])
    }
}

impl<const W: usize> Tx<W> for () {
    fn send(&mut self, batch: &[Msg<W>]) {
        std::hint::black_box(batch);
    }
}

impl<const W: usize> Rx<W> for Arc<Vec<Msg<W>>> {
    fn recv(&mut self, take: impl FnMut(&Msg<W>)) {
        self.iter().for_each(take);
    }
}

/// On lines of the cache of its own.
#[repr(align(128))]
#[derive(Default)]
struct Apart<T>(T);

/// One lock around a log whose memory is there from the start. Receivers look at its length, and copy what is new under the
/// lock.
struct MutexLog;

struct Log<const W: usize> {
    len: Apart<AtomicUsize>,
    msgs: Mutex<Vec<Msg<W>>>,
}

struct LogRx<const W: usize> {
    log: Arc<Log<W>>,
    seen: usize,
    taken: Vec<Msg<W>>,
}

impl<const W: usize> Peer<W> for MutexLog {
    type Tx = Arc<Log<W>>;
    type Rx = LogRx<W>;
    fn open(senders: usize, receivers: usize, total: usize) -> (Vec<Self::Tx>, Vec<Self::Rx>) {
        let mut msgs = vec![[1; W]; total];
        msgs.clear();
        let log = Arc::new(Log {
            len: Default::default(),
            msgs: Mutex::new(msgs),
        });
        let rx = |_| LogRx {
            log: log.clone(),
            seen: 0,
            taken: Vec::new(),
        };
        (times(senders, |_| log.clone()), times(receivers, rx))
    }
}

impl<const W: usize> Tx<W> for Arc<Log<W>> {
    fn send(&mut self, batch: &[Msg<W>]) {
        let mut msgs = self.msgs.lock().unwrap();
        msgs.extend_from_slice(batch);
        self.len.0.store(msgs.len(), Release);
    }
}

impl<const W: usize> Rx<W> for LogRx<W> {
    fn recv(&mut self, take: impl FnMut(&Msg<W>)) {
        wait_until(|| self.log.len.0.load(Acquire) > self.seen);
        self.taken.clear();
        self.taken
            .extend_from_slice(&self.log.msgs.lock().unwrap()[self.seen..]);
        self.seen += self.taken.len();
        self.taken.iter().for_each(take);
    }
}

/// The best lock log that a user could write: a spin lock for those who send, and receivers that read what is published without
/// it. Its memory is there from the start.
struct LockLog;

struct Published<const W: usize> {
    is_held: Apart<AtomicBool>,
    /// How many messages are written; of the holder alone.
    used: Apart<UnsafeCell<usize>>,
    /// The same, for the receivers.
    len: Apart<AtomicUsize>,
    msgs: Vec<UnsafeCell<Msg<W>>>,
}

// Safety: `used` is of whoever holds the lock. A message is written by the holder, before the release store of a length that
// covers it and only once, and read only after an acquire load of such a length.
unsafe impl<const W: usize> Sync for Published<W> {}

impl<const W: usize> Published<W> {
    fn with_lock(&self, act: impl FnOnce()) {
        while self.is_held.0.swap(true, Acquire) {
            wait_until(|| !self.is_held.0.load(Relaxed));
        }
        act();
        self.is_held.0.store(false, Release);
    }
}

struct FreeRx<const W: usize> {
    log: Arc<Published<W>>,
    seen: usize,
}

impl<const W: usize> Peer<W> for LockLog {
    type Tx = Arc<Published<W>>;
    type Rx = FreeRx<W>;
    fn open(senders: usize, receivers: usize, total: usize) -> (Vec<Self::Tx>, Vec<Self::Rx>) {
        let log = Arc::new(Published {
            is_held: Default::default(),
            used: Apart(UnsafeCell::new(0)),
            len: Default::default(),
            msgs: times(total, |_| UnsafeCell::new([1; W])),
        });
        let rx = |_| FreeRx {
            log: log.clone(),
            seen: 0,
        };
        (times(senders, |_| log.clone()), times(receivers, rx))
    }
}

impl<const W: usize> Tx<W> for Arc<Published<W>> {
    fn send(&mut self, batch: &[Msg<W>]) {
        self.with_lock(|| {
            let used = unsafe { &mut *self.used.0.get() };
            for (slot, msg) in self.msgs[*used..][..batch.len()].iter().zip(batch) {
                unsafe { *slot.get() = *msg };
            }
            *used += batch.len();
            self.len.0.store(*used, Release);
        });
    }
}

impl<const W: usize> Rx<W> for FreeRx<W> {
    fn recv(&mut self, mut take: impl FnMut(&Msg<W>)) {
        let mut len = 0;
        wait_until(|| {
            len = self.log.len.0.load(Acquire);
            len > self.seen
        });
        for msg in &self.log.msgs[self.seen..len] {
            take(unsafe { &*msg.get() });
        }
        self.seen = len;
    }
}

/// One lock over a channel for each receiver. An item of the channels is a batch, which the receivers share.
struct Channels;

type Shared<const W: usize> = Arc<[Msg<W>]>;

struct ChannelsTx<const W: usize>(Arc<Mutex<Vec<mpsc::Sender<Shared<W>>>>>);

impl<const W: usize> Peer<W> for Channels {
    type Tx = ChannelsTx<W>;
    type Rx = mpsc::Receiver<Shared<W>>;
    fn open(senders: usize, receivers: usize, _: usize) -> (Vec<Self::Tx>, Vec<Self::Rx>) {
        let (tx, rx) = times(receivers, |_| mpsc::channel()).into_iter().unzip();
        let tx = Arc::new(Mutex::new(tx));
        (times(senders, |_| ChannelsTx(tx.clone())), rx)
    }
}

impl<const W: usize> Tx<W> for ChannelsTx<W> {
    fn send(&mut self, batch: &[Msg<W>]) {
        let batch: Shared<W> = batch.into();
        for channel in self.0.lock().unwrap().iter() {
            channel.send(batch.clone()).unwrap();
        }
    }
}

impl<const W: usize> Rx<W> for mpsc::Receiver<Shared<W>> {
    fn recv(&mut self, mut take: impl FnMut(&Msg<W>)) {
        mpsc::Receiver::recv(self)
            .unwrap()
            .iter()
            .for_each(&mut take);
        self.try_iter()
            .for_each(|batch| batch.iter().for_each(&mut take));
    }
}

/// The physical limit: a log as large as all messages, whose slots are claimed by one fetch_add for a batch.
struct TicketLog;

/// 64 bytes for a message of 56 bytes, and 16 for one of 8.
#[repr(C)]
struct Slot<const W: usize> {
    is_there: AtomicBool,
    msg: UnsafeCell<Msg<W>>,
}

/// Slots from the start of a cache line on.
#[repr(align(64))]
struct Four<const W: usize>([Slot<W>; 4]);

struct Tickets<const W: usize> {
    tail: Apart<AtomicUsize>,
    fours: Vec<Four<W>>,
}

impl<const W: usize> Tickets<W> {
    fn slot(&self, i: usize) -> &Slot<W> {
        &self.fours[i / 4].0[i % 4]
    }
}

// Safety: a slot's message is written by the one sender that claimed the slot, before the release store to `is_there`, and
// read only after an acquire load of it.
unsafe impl<const W: usize> Sync for Tickets<W> {}

struct TicketRx<const W: usize> {
    log: Arc<Tickets<W>>,
    seen: usize,
    total: usize,
}

impl<const W: usize> Peer<W> for TicketLog {
    type Tx = Arc<Tickets<W>>;
    type Rx = TicketRx<W>;
    fn open(senders: usize, receivers: usize, total: usize) -> (Vec<Self::Tx>, Vec<Self::Rx>) {
        let slot = |_| Slot {
            is_there: AtomicBool::new(false),
            msg: UnsafeCell::new([1; W]),
        };
        let fours = times(total.div_ceil(4), |_| Four(from_fn(slot)));
        let log = Arc::new(Tickets {
            tail: Default::default(),
            fours,
        });
        let rx = |_| TicketRx {
            log: log.clone(),
            seen: 0,
            total,
        };
        (times(senders, |_| log.clone()), times(receivers, rx))
    }
}

impl<const W: usize> Tx<W> for Arc<Tickets<W>> {
    fn send(&mut self, batch: &[Msg<W>]) {
        let first = self.tail.0.fetch_add(batch.len(), Relaxed);
        for (i, msg) in batch.iter().enumerate() {
            let slot = self.slot(first + i);
            unsafe { *slot.msg.get() = *msg };
            slot.is_there.store(true, Release);
        }
    }
}

impl<const W: usize> Rx<W> for TicketRx<W> {
    fn recv(&mut self, mut take: impl FnMut(&Msg<W>)) {
        wait_until(|| self.log.slot(self.seen).is_there.load(Acquire));
        while self.seen < self.total && self.log.slot(self.seen).is_there.load(Acquire) {
            take(unsafe { &*self.log.slot(self.seen).msg.get() });
            self.seen += 1;
        }
    }
}

/// The broadcast channel of tokio drops the oldest message when it is full, so it gets room for all. Receivers poll it.
#[cfg(feature = "tokio")]
struct Tokio;

#[cfg(feature = "tokio")]
use tokio::sync::broadcast;

#[cfg(feature = "tokio")]
impl<const W: usize> Peer<W> for Tokio {
    type Tx = broadcast::Sender<Msg<W>>;
    type Rx = broadcast::Receiver<Msg<W>>;
    fn open(senders: usize, receivers: usize, total: usize) -> (Vec<Self::Tx>, Vec<Self::Rx>) {
        let (tx, _) = broadcast::channel(total);
        let rx = times(receivers, |_| tx.subscribe());
        (times(senders, |_| tx.clone()), rx)
    }
}

#[cfg(feature = "tokio")]
impl<const W: usize> Tx<W> for broadcast::Sender<Msg<W>> {
    fn send(&mut self, batch: &[Msg<W>]) {
        for msg in batch {
            broadcast::Sender::send(self, *msg).unwrap();
        }
    }
}

#[cfg(feature = "tokio")]
impl<const W: usize> Rx<W> for broadcast::Receiver<Msg<W>> {
    fn recv(&mut self, mut take: impl FnMut(&Msg<W>)) {
        let mut first = None;
        wait_until(|| {
            first = self.try_recv().ok();
            first.is_some()
        });
        take(&first.unwrap());
        while let Ok(msg) = self.try_recv() {
            take(&msg);
        }
    }
}

/// The bus by its Rust crate, over the archive: as a user has it, with the crate's own calls that
/// wait.
#[cfg(feature = "kioskbasil")]
struct Embedded;

#[cfg(feature = "kioskbasil")]
impl<const W: usize> Peer<W> for Embedded {
    type Tx = kioskbasil::Sender;
    type Rx = kioskbasil::Receiver;
    fn open(senders: usize, receivers: usize, _total: usize) -> (Vec<Self::Tx>, Vec<Self::Rx>) {
        kioskbasil::Bus::open(kioskbasil::Shape::of(senders, receivers)).unwrap()
    }
}

#[cfg(feature = "kioskbasil")]
impl<const W: usize> Tx<W> for kioskbasil::Sender {
    fn send(&mut self, batch: &[Msg<W>]) {
        for msg in batch {
            let mut bytes = [0; 56];
            for (place, word) in bytes.chunks_exact_mut(8).zip(msg) {
                place.copy_from_slice(&word.to_le_bytes());
            }
            self.put(&bytes[..8 * W]).unwrap();
        }
        let turn = kioskbasil::Sender::send(self);
        assert!(matches!(turn, kioskbasil::Turn::Delivered { .. }), "{turn}");
    }
}

#[cfg(feature = "kioskbasil")]
impl<const W: usize> Rx<W> for kioskbasil::Receiver {
    fn recv(&mut self, mut take: impl FnMut(&Msg<W>)) {
        let word =
            |item: &[u8], j: usize| u64::from_le_bytes(item[8 * j..][..8].try_into().unwrap());
        for item in self.next_items() {
            assert_eq!(item.len(), 8 * W, "another length");
            take(&from_fn(|j| word(item, j)));
        }
    }
}
