//! Random lives of buses by the Rust crate: bench/rust_lives builds and runs it, and says what each
//! kind of life is. A life that fails, or takes longer than a minute, ends the program with status
//! 1, which says its number. By that it can be lived again.
//!
//! usage: rust_lives KIND FIRST LIVES      KIND is threads, tasks, rooms or replicas.

mod replica_lives;

use kioskbasil::{
    Bus, Ended, ForkError, Heard, Item, NeverFits, Next, NextItems, PutError, Receiver, Sender,
    Shape, TrySendError, Turn, Waiting, MOST_MESSAGES, MOST_RECEIVERS, MOST_SENDERS,
};
use std::collections::VecDeque;
use std::future::Future;
use std::panic::{self, AssertUnwindSafe};
use std::pin::Pin;
use std::sync::atomic::{AtomicBool, AtomicU64, AtomicUsize, Ordering::SeqCst};
use std::sync::{Arc, Condvar, Mutex, MutexGuard, PoisonError};
use std::task::{Context, Poll, Wake, Waker};
use std::thread::{self, Scope};
use std::time::{Duration, Instant};
use std::{env, mem, process};

/// A life takes so long at most.
const LONGEST: Duration = Duration::from_secs(60);

/// How many receivers forked, and how often a ring had no number for one.
static FORKS: AtomicU64 = AtomicU64::new(0);
static NO_SEATS: AtomicU64 = AtomicU64::new(0);

// ---- what is drawn

/// Marsaglia's xorshift of 64 bits.
struct Dice(u64);

impl Dice {
    fn of(seed: u64) -> Dice {
        Dice(mixed(seed) | 1)
    }

    fn next(&mut self) -> u64 {
        self.0 ^= self.0 << 13;
        self.0 ^= self.0 >> 7;
        self.0 ^= self.0 << 17;
        self.0.wrapping_mul(0x9e37_79b9_7f4a_7c15) >> 11
    }

    fn below(&mut self, end: u64) -> u64 {
        self.next() % end
    }

    fn one_in(&mut self, many: u64) -> bool {
        self.below(many) == 0
    }

    fn of_these<T: Copy>(&mut self, these: &[T]) -> T {
        these[self.below(these.len() as u64) as usize]
    }

    fn other(&mut self) -> Dice {
        Dice::of(self.next())
    }
}

fn mixed(mut word: u64) -> u64 {
    word = (word ^ word >> 30).wrapping_mul(0xbf58_476d_1ce4_e5b9);
    word = (word ^ word >> 27).wrapping_mul(0x94d0_49bb_1331_11eb);
    word ^ word >> 31
}

/// The message of a sender that has this number.
fn message(sender: u8, number: u64) -> Vec<u8> {
    let drawn = mixed(number << 8 | u64::from(sender));
    let bytes = 0..drawn % 57;
    bytes.map(|at| mixed(drawn + at) as u8).collect()
}

/// Puts up to so many messages into an empty batch, as long as they fit a log of so many words. How
/// many they are.
fn put_some(sender: &mut Sender, most: u64, log_words: u64) -> u64 {
    let (mut many, mut words) = (0, 1);
    while many < most && (many > 0 || sender.pending() == 0) {
        let number = sender.next_number();
        let text = message(sender.number(), number);
        words += 1 + (text.len() as u64 + 7) / 8;
        if words > log_words {
            break;
        }
        match sender.put(&text) {
            Ok(told) => assert_eq!(told, number, "the number of a put"),
            Err(PutError::TooLong) => panic!("a message is too long"),
            Err(_) => break,
        }
        many += 1;
    }
    many
}

/// How many messages the next batch of this sender is to have.
fn some(sender: &Sender, dice: &mut Dice) -> u64 {
    1 + dice.below(sender.batch_limit())
}

/// Messages of a batch of a ring of so many words: mostly as many as it may have.
fn batch_of(dice: &mut Dice, log_words: u64) -> u64 {
    let most = ((log_words - 1) / 8).min(MOST_MESSAGES as u64);
    match dice.below(4) {
        0 => 1 + dice.below(most),
        1 if most == MOST_MESSAGES as u64 => 0,
        _ => most,
    }
}

// ---- what all receivers hear

fn locked<T>(mutex: &Mutex<T>) -> MutexGuard<'_, T> {
    mutex.lock().unwrap_or_else(PoisonError::into_inner)
}

/// The order, as far as anybody has heard it.
#[derive(Default)]
struct Order(Mutex<Vec<(u8, u64)>>);

impl Order {
    fn len(&self) -> usize {
        locked(&self.0).len()
    }

    /// How many items of each sender it has, each of which has the next number of its sender.
    fn counts(&self, bases: &[u64]) -> Vec<u64> {
        let mut counts = vec![0; MOST_SENDERS];
        for &(sender, number) in locked(&self.0).iter() {
            let at = usize::from(sender);
            assert_eq!(number, bases[at] + counts[at], "a number in the order");
            counts[at] += 1;
        }
        counts
    }
}

/// A receiver, and what it and its makers before it have heard. `is_fork` says that it is one more
/// than a life began with, so it may go at any time.
struct Ear {
    receiver: Receiver,
    order: Arc<Order>,
    heard: usize,
    next: Vec<u64>,
    left: [bool; MOST_SENDERS],
    is_done: bool,
    is_fork: bool,
}

impl Ear {
    fn new(receiver: Receiver, order: &Arc<Order>, bases: &[u64]) -> Ear {
        Ear {
            receiver,
            order: order.clone(),
            heard: 0,
            next: bases.to_vec(),
            left: [false; MOST_SENDERS],
            is_done: false,
            is_fork: false,
        }
    }

    /// A fork of it, which has heard what this one has. None where a ring has no number for it.
    fn fork(&mut self) -> Option<Ear> {
        match self.receiver.fork() {
            Ok(receiver) => {
                FORKS.fetch_add(1, SeqCst);
                Some(Ear {
                    receiver,
                    order: self.order.clone(),
                    next: self.next.clone(),
                    is_fork: true,
                    ..*self
                })
            }
            Err(ForkError::NoSeat) => {
                NO_SEATS.fetch_add(1, SeqCst);
                None
            }
            Err(fault) => panic!("a fork: {fault}"),
        }
    }

    /// A fork of it goes on in its place, and it is dropped.
    fn replace(&mut self, fork: Ear, dice: &mut Dice) {
        let is_fork = self.is_fork;
        let maker = mem::replace(self, Ear { is_fork, ..fork });
        drop_somehow(maker.receiver, dice);
    }

    /// An item is the next one of its sender and of the order, and has the bytes that were put.
    fn note(&mut self, item: &Item) {
        let sender = usize::from(item.sender);
        assert!(!self.left[sender], "an item of one that has left");
        assert_eq!(item.number, self.next[sender], "a number");
        assert_eq!(item[..], message(item.sender, item.number)[..], "the bytes");
        self.next[sender] += 1;
        let (name, mut order) = ((item.sender, item.number), locked(&self.order.0));
        match order.get(self.heard) {
            Some(first) => assert_eq!(*first, name, "two orders"),
            None => order.push(name),
        }
        self.heard += 1;
    }

    fn note_all(&mut self, items: &[Item]) {
        items.iter().for_each(|item| self.note(item));
    }
}

/// How many receivers more a ring of this shape is opened with, so that some may fork.
fn spares(dice: &mut Dice, shape: &Shape) -> usize {
    let most = if dice.one_in(10) { MOST_RECEIVERS } else { 5 };
    let spares = dice.below(most as u64) as usize;
    spares.min(MOST_RECEIVERS - shape.receivers)
}

/// Drops so many receivers: their numbers are free from now on.
fn drop_spares(receivers: &mut Vec<Receiver>, many: usize, dice: &mut Dice) {
    for _ in 0..many {
        receivers.remove(dice.below(receivers.len() as u64) as usize);
    }
}

// ---- lives by threads

/// What a panic is given that is to be survived.
struct Survived;

/// A closure that says yes so often.
fn so_often(mut most: u64) -> impl FnMut() -> bool {
    move || {
        most = most.saturating_sub(1);
        most > 0
    }
}

/// One that says yes so often, and then panics.
fn then_panics(most: u64) -> impl FnMut() -> bool {
    let mut goes_on = so_often(most);
    move || goes_on() || panic::resume_unwind(Box::new(Survived))
}

/// Does this, which may panic: None says that it did.
fn survived<T>(does: impl FnOnce() -> T) -> Option<T> {
    panic::catch_unwind(AssertUnwindSafe(does)).ok()
}

/// What the threads of a life share.
struct Shared {
    order: Arc<Order>,
    log_words: u64,
    /// How many messages are put in all, and how many were.
    limit: u64,
    puts: AtomicU64,
    /// Of each sender the number behind all that it was told to be delivered, and behind all puts.
    told: Vec<AtomicU64>,
    put: Vec<AtomicU64>,
    /// Somebody closes.
    closes: AtomicBool,
    has_ended: AtomicBool,
    /// Of senders and of receivers that are not dropped.
    senders: AtomicUsize,
    receivers: AtomicUsize,
    /// One look in so many tries to fork a receiver, as long as so many tries are left.
    forks: u64,
    tries: AtomicUsize,
}

/// One of several may go, so that one at least stays.
fn may_go(left: &AtomicUsize, stay: usize) -> bool {
    let one_less = |left| if left > stay { Some(left - 1) } else { None };
    left.fetch_update(SeqCst, SeqCst, one_less).is_ok()
}

/// A sender, and what it was last answered.
struct Mouth {
    sender: Sender,
    is_within: bool,
    is_full: bool,
    is_done: bool,
}

impl Mouth {
    fn new(sender: Sender) -> Mouth {
        Mouth {
            sender,
            is_within: false,
            is_full: false,
            is_done: false,
        }
    }

    fn answered(&mut self, shared: &Shared, turn: Turn) {
        self.is_full = turn == Turn::Full;
        self.is_within = matches!(turn, Turn::Going | Turn::Own { .. } | Turn::Behind { .. });
        match turn {
            Turn::Delivered { first, last, .. } => {
                let told = &shared.told[usize::from(self.sender.number())];
                assert_eq!(told.swap(last + 1, SeqCst), first, "delivered in order");
            }
            Turn::Closed => {
                shared.has_ended.store(true, SeqCst);
                self.is_done = true;
            }
            Turn::Left { .. } | Turn::Spent => self.is_done = true,
            _ => {}
        }
    }

    /// What a call came to that may have been stopped while another sender had to go on first.
    fn came_to(&mut self, shared: &Shared, turn: Option<Turn>) {
        match turn {
            Some(turn) => self.answered(shared, turn),
            None => self.is_within = true,
        }
    }

    fn finish(&mut self, shared: &Shared) {
        self.is_within = false;
        if let Some(turn) = self.sender.finish() {
            self.answered(shared, turn);
        }
    }

    fn try_send(&mut self, shared: &Shared) {
        match self.sender.try_send() {
            Ok(turn) => self.answered(shared, turn),
            Err(TrySendError::Full) => self.answered(shared, Turn::Full),
            Err(TrySendError::Waiting) => self.answered(shared, Turn::Waiting),
            Err(TrySendError::Behind) => self.came_to(shared, None),
            Err(TrySendError::NeverFits) => panic!("a batch never fits"),
        }
    }

    /// Puts, leaves or closes where nothing waits.
    fn refill(&mut self, shared: &Shared, dice: &mut Dice) {
        let sender = &mut self.sender;
        if self.is_within || sender.pending() > 0 || sender.has_closed() || sender.is_leaving() {
            return;
        }
        if shared.puts.load(SeqCst) < shared.limit {
            if dice.one_in(400) && may_go(&shared.senders, 2) {
                // One that knows that the order has ended is refused, and told so by its next turn.
                let _ = sender.leave();
                return;
            }
            let many = put_some(sender, some(sender, dice), shared.log_words);
            shared.puts.fetch_add(many, SeqCst);
            let put = &shared.put[usize::from(sender.number())];
            put.store(sender.next_number(), SeqCst);
        } else if shared.closes.swap(true, SeqCst) {
            self.is_done = true;
        } else if sender.close().is_err() {
            shared.closes.store(false, SeqCst);
        }
    }

    /// A call of those that take turns. `may_wait` says that no other sender of this thread is
    /// within a tenure, and `hears_none` that no receiver of it has to hear.
    fn act(&mut self, shared: &Shared, dice: &mut Dice, may_wait: bool, hears_none: bool) {
        self.set_waiting(may_wait && dice.one_in(2));
        let sender = &mut self.sender;
        let asks = if may_wait { 1 + dice.below(5) } else { 1 };
        let looks = 1 + dice.below(200);
        let time = Duration::from_micros(dice.below(2_000));
        match dice.below(14) {
            0 => self.by_hand(shared, dice, 1),
            1 => self.by_hand(shared, dice, 40),
            2 => {
                let turn = sender.turns(dice.next() as u32);
                self.answered(shared, turn);
            }
            3 => self.finish(shared),
            4 if may_wait => {
                let turn = sender.send();
                self.answered(shared, turn);
            }
            5 if may_wait => {
                let turn = sender.send_while(so_often(asks));
                self.came_to(shared, turn);
            }
            6 => {
                let turn = survived(|| sender.send_while(then_panics(asks)));
                self.came_to(shared, turn.flatten());
            }
            7 if may_wait && hears_none => {
                let turn = sender.send_when_room(so_often(looks)).unwrap();
                self.came_to(shared, turn);
            }
            8 if may_wait && hears_none => {
                let turn = survived(|| sender.send_when_room(then_panics(looks)).unwrap());
                self.came_to(shared, turn.flatten());
            }
            9 if may_wait => {
                let turn = sender.send_timeout(time);
                self.came_to(shared, turn);
            }
            10 if may_wait && hears_none => {
                let turn = sender.send_when_room_timeout(time).unwrap();
                self.came_to(shared, turn);
            }
            _ => self.try_send(shared),
        }
    }

    fn set_waiting(&mut self, yields: bool) {
        let policy = if yields {
            Waiting::Yield
        } else {
            Waiting::Sleep
        };
        self.sender.set_waiting(policy);
    }

    fn by_hand(&mut self, shared: &Shared, dice: &mut Dice, most: u64) {
        for _ in 0..1 + dice.below(most) {
            let turn = self.sender.turn(dice.next() as u32);
            self.answered(shared, turn);
            if self.is_done {
                break;
            }
        }
    }
}

impl Ear {
    /// A call of those that hear. It waits where it may.
    fn act(&mut self, dice: &mut Dice, may_wait: bool, may_sleep: bool) {
        // Only where it asks often does it sleep.
        let most = if dice.one_in(200) { 70 } else { 4 };
        let asks = if may_wait { 1 + dice.below(most) } else { 1 };
        let time = Duration::from_micros(if may_wait { dice.below(500) } else { 0 });
        match dice.below(11) {
            0 => self.by_hand(dice.below(100)),
            1 => {
                let most = 1 + dice.below(40);
                for _ in 0..most {
                    match self.receiver.try_item() {
                        Some(item) => self.note(&item),
                        None => break,
                    }
                }
            }
            2 => {
                let items = self.receiver.try_items().to_vec();
                self.note_all(&items);
            }
            3 if may_sleep => {
                let item = self.receiver.next_item();
                self.note_all(item.as_slice());
            }
            4 if may_sleep => {
                let items = self.receiver.next_items().to_vec();
                self.note_all(&items);
            }
            5 => {
                let next = self.receiver.next_item_while(so_often(asks));
                self.came_to(Some(next));
            }
            6 => {
                let receiver = &mut self.receiver;
                let next = survived(|| receiver.next_item_while(then_panics(asks)));
                self.came_to(next);
            }
            7 => {
                let next = self.receiver.next_item_timeout(time);
                self.came_to(Some(next));
            }
            8 => {
                let next = self.receiver.next_items_while(so_often(asks));
                let items = items_of(next);
                self.note_all(&items);
            }
            9 => {
                let next = self.receiver.next_items_timeout(time);
                let items = items_of(next);
                self.note_all(&items);
            }
            _ => self.hear_rest(),
        }
        self.is_done = self.receiver.has_ended();
    }

    /// Hears all that is there.
    fn hear_rest(&mut self) {
        let mut items = Vec::new();
        self.receiver.hear(&mut items);
        self.note_all(&items);
    }

    fn came_to(&mut self, next: Option<Next>) {
        if let Some(Next::Item(item)) = next {
            self.note(&item);
        }
    }

    fn by_hand(&mut self, most: u64) {
        for _ in 0..most {
            match self.receiver.turn() {
                Heard::Item(item) => self.note(&item),
                Heard::Leave(sender) => self.left[usize::from(sender)] = true,
                Heard::Empty | Heard::End => break,
                Heard::Going | Heard::Head { .. } => {}
            }
        }
    }
}

/// The items that were lent.
fn items_of(next: NextItems<'_>) -> Vec<Item> {
    match next {
        NextItems::Items(items) => items.to_vec(),
        NextItems::End | NextItems::Stopped => Vec::new(),
    }
}

/// Drops a handle here, in another thread, or by a panic.
fn drop_somehow<T: Send + 'static>(handle: T, dice: &mut Dice) {
    match dice.below(3) {
        0 => drop(handle),
        1 => thread::spawn(move || drop(handle)).join().unwrap(),
        _ => {
            let dropped = survived(move || {
                let _handle = handle;
                panic::resume_unwind(Box::new(Survived))
            });
            assert!(dropped.is_none());
        }
    }
}

/// What threads give back that have ended.
type Kept = Mutex<(Vec<Mouth>, Vec<Ear>)>;

/// A thread, with some senders and some receivers of a bus.
struct Worker<'scope, 'env> {
    scope: &'scope Scope<'scope, 'env>,
    shared: &'env Shared,
    kept: &'env Kept,
    mouths: Vec<Mouth>,
    ears: Vec<Ear>,
    dice: Dice,
    drops: bool,
}

impl Worker<'_, '_> {
    fn start(self) {
        self.scope.spawn(move || self.work());
    }

    /// Sends and hears until all is sent and heard.
    fn work(mut self) {
        while self.mouths.iter().any(|it| !it.is_done) || self.ears.iter().any(|it| !it.is_done) {
            self.send();
            self.hear();
            if self.dice.one_in(200) {
                thread::sleep(Duration::from_micros(self.dice.below(300)));
            }
            if self.dice.one_in(20) {
                thread::yield_now();
            }
        }
        let mut kept = locked(self.kept);
        kept.0.append(&mut self.mouths);
        kept.1.append(&mut self.ears);
    }

    fn send(&mut self) {
        let (shared, dice) = (self.shared, &mut self.dice);
        let open: Vec<usize> = (0..self.mouths.len())
            .filter(|&at| !self.mouths[at].is_done)
            .collect();
        if open.is_empty() {
            return;
        }
        let at = dice.of_these(&open);
        if dice.one_in(3) {
            for other in (0..self.mouths.len()).filter(|&other| other != at) {
                if self.mouths[other].is_within {
                    self.mouths[other].finish(shared);
                }
            }
        }
        let is_within = |other: usize| other != at && self.mouths[other].is_within;
        let may_wait = !(0..self.mouths.len()).any(is_within);
        let hears_none = self.ears.iter().all(|ear| ear.is_done);
        let mouth = &mut self.mouths[at];
        mouth.refill(shared, dice);
        let is_stuck = mouth.is_full && mouth.sender.has_room() != Ok(true);
        let takes_turns = !is_stuck || hears_none || shared.has_ended.load(SeqCst);
        if !mouth.is_done && (takes_turns || dice.one_in(50)) {
            mouth.act(shared, dice, may_wait, hears_none);
        }
        let goes = self.drops && dice.one_in(300) && !mouth.sender.has_closed();
        if goes && may_go(&shared.senders, 2) {
            drop_somehow(self.mouths.swap_remove(at).sender, dice);
        }
    }

    fn hear(&mut self) {
        let is_alone = self.ears.len() == 1 && !self.mouths.iter().any(|it| it.is_within);
        let may_sleep = is_alone && self.mouths.iter().all(|it| it.is_done);
        for ear in self.ears.iter_mut().filter(|ear| !ear.is_done) {
            ear.act(&mut self.dice, is_alone, may_sleep);
        }
        if self.ears.is_empty() {
            return;
        }
        if self.dice.one_in(self.shared.forks) && may_go(&self.shared.tries, 0) {
            self.fork();
        }
        let at = self.dice.below(self.ears.len() as u64) as usize;
        let most = if self.ears[at].is_fork { 300 } else { 3000 };
        if self.drops && self.dice.one_in(most) && may_go(&self.shared.receivers, 1) {
            drop_somehow(self.ears.swap_remove(at).receiver, &mut self.dice);
        }
    }

    /// Forks one of its receivers. It keeps the fork, drops it or its maker, or has a thread start
    /// with it.
    fn fork(&mut self) {
        let at = self.dice.below(self.ears.len() as u64) as usize;
        let Some(ear) = self.ears[at].fork() else {
            return;
        };
        let does = self.dice.below(6);
        if does > 1 {
            self.shared.receivers.fetch_add(1, SeqCst);
        }
        match does {
            0 => drop_somehow(ear.receiver, &mut self.dice),
            1 => self.ears[at].replace(ear, &mut self.dice),
            2 | 3 => self.ears.push(ear),
            _ => {
                let worker = Worker {
                    mouths: Vec::new(),
                    ears: vec![ear],
                    dice: self.dice.other(),
                    ..*self
                };
                worker.start();
            }
        }
    }
}

/// The sizes of a bus for threads, and how many messages it gets.
fn threads_shape(dice: &mut Dice) -> (Shape, u64) {
    let most = if dice.one_in(8) { 64 } else { 8 };
    let senders = 1 + dice.below(most) as usize;
    let most = if dice.one_in(8) {
        MOST_RECEIVERS as u64
    } else if dice.one_in(2) {
        3
    } else {
        8
    };
    let receivers = 1 + dice.below(most) as usize;
    let ring = !dice.one_in(5);
    let lengths = [
        16 + dice.below(64),
        64 + dice.below(400),
        129,
        129 + dice.below(172),
        513 + dice.below(172),
    ];
    let log_words = if ring {
        dice.of_these(&lengths)
    } else {
        65_536
    };
    let shape = Shape {
        rounds: 1 + dice.below(3),
        rows: 2 + dice.below(7),
        log_words,
        ring,
        batch: if ring { batch_of(dice, log_words) } else { 0 },
        ..Shape::of(senders, receivers)
    };
    let few = senders > 8 || !ring;
    (shape, 100 + dice.below(if few { 300 } else { 900 }))
}

impl Shared {
    fn new(shape: &Shape, limit: u64, bases: &[u64], dice: &mut Dice) -> Shared {
        let numbers = || bases.iter().map(|&base| AtomicU64::new(base)).collect();
        Shared {
            order: Arc::default(),
            log_words: shape.log_words,
            limit,
            puts: AtomicU64::new(0),
            told: numbers(),
            put: numbers(),
            closes: AtomicBool::new(false),
            has_ended: AtomicBool::new(false),
            senders: AtomicUsize::new(shape.senders),
            receivers: AtomicUsize::new(shape.receivers),
            forks: dice.of_these(&[10, 50, 300, u64::MAX]),
            tries: AtomicUsize::new(1 + dice.below(20) as usize),
        }
    }

    /// Has threads work, each with some of these handles, and gives back those that are left. More
    /// start late, with forks.
    fn work_all(
        &self,
        mouths: Vec<Mouth>,
        ears: Vec<Ear>,
        dice: &mut Dice,
        drops: bool,
    ) -> (Vec<Mouth>, Vec<Ear>) {
        let threads = 1 + dice.below((mouths.len() + ears.len()).min(8) as u64);
        let kept = Kept::default();
        thread::scope(|scope| {
            let new = |dice: Dice| Worker {
                scope,
                shared: self,
                kept: &kept,
                mouths: Vec::new(),
                ears: Vec::new(),
                dice,
                drops,
            };
            let mut workers: Vec<_> = (0..threads).map(|_| new(dice.other())).collect();
            for mouth in mouths {
                workers[dice.below(threads) as usize].mouths.push(mouth);
            }
            for ear in ears {
                workers[dice.below(threads) as usize].ears.push(ear);
            }
            workers.into_iter().for_each(Worker::start);
        });
        kept.into_inner().unwrap()
    }
}

/// A sitting of threads, after another one or not; how many items it had.
fn sitting(dice: &mut Dice, before: Option<&Ended>) -> (Ended, usize) {
    let bases = before.map_or([0; MOST_SENDERS], |ended| ended.next);
    let (mut shape, limit) = threads_shape(dice);
    let drops = dice.one_in(2);
    let shared = Shared::new(&shape, limit, &bases, dice);
    let spares = if shape.ring { spares(dice, &shape) } else { 0 };
    shape.receivers += spares;
    say(format!(
        "{shape:?}, spares {spares}, limit {limit}, drops {drops}"
    ));
    let (senders, mut receivers) = match before {
        Some(ended) => Bus::open_after(shape, ended).unwrap(),
        None => Bus::open(shape).unwrap(),
    };
    drop_spares(&mut receivers, spares, dice);
    let mouths = senders.into_iter().map(Mouth::new).collect();
    let ears = receivers
        .into_iter()
        .map(|receiver| Ear::new(receiver, &shared.order, &bases))
        .collect();
    let (mouths, ears) = shared.work_all(mouths, ears, dice, drops);
    let ended = audited(&shared, &bases, mouths, ears);
    assert!(ended.log.len() as u64 <= shape.log_words, "a log too long");
    (ended, shared.order.len())
}

/// What was heard is what senders were told, and what the bus leaves behind.
fn audited(shared: &Shared, bases: &[u64], mouths: Vec<Mouth>, ears: Vec<Ear>) -> Ended {
    let counts = shared.order.counts(bases);
    for (at, count) in counts.iter().enumerate() {
        let (told, put) = (shared.told[at].load(SeqCst), shared.put[at].load(SeqCst));
        let next = bases[at] + count;
        assert!(
            told <= next && next <= put,
            "sender {at}: {told} {next} {put}"
        );
    }
    let (mut senders, mut receivers) = (Vec::new(), Vec::new());
    for mut mouth in mouths {
        let at = usize::from(mouth.sender.number());
        let next = bases[at] + counts[at];
        assert_eq!(next, shared.told[at].load(SeqCst), "what one was told");
        assert_eq!(next, mouth.sender.goes_on_from(), "where one goes on");
        senders.push(mouth.sender);
    }
    for ear in ears {
        assert_eq!(ear.heard, shared.order.len(), "one heard less");
        receivers.push(ear.receiver);
    }
    let ended = Bus::end(senders, receivers).unwrap();
    assert!(ended.ended && ended.counts[..] == counts[..], "the page");
    ended
}

/// A life by threads: some sittings, each after the one before; how many items it had.
fn threads_life(dice: &mut Dice) -> usize {
    let (mut ended, mut items) = sitting(dice, None);
    while dice.one_in(2) {
        let (next, more) = sitting(dice, Some(&ended));
        ended = next;
        items += more;
    }
    items
}

// ---- tasks, in an executor that sleeps without a bound: a wake-up that is missed is a hang

type Work = Pin<Box<dyn Future<Output = ()> + Send>>;

#[derive(Default)]
struct Pool {
    queue: Mutex<VecDeque<Arc<Task>>>,
    is_any: Condvar,
    /// How many tasks are not done.
    live: AtomicUsize,
}

struct Task {
    work: Mutex<Option<Work>>,
    is_queued: AtomicBool,
    pool: Arc<Pool>,
}

impl Wake for Task {
    fn wake(self: Arc<Self>) {
        if !self.is_queued.swap(true, SeqCst) {
            let pool = self.pool.clone();
            locked(&pool.queue).push_back(self);
            pool.is_any.notify_one();
        }
    }
}

impl Pool {
    fn start(self: &Arc<Pool>, work: impl Future<Output = ()> + Send + 'static) {
        self.live.fetch_add(1, SeqCst);
        let task = Task {
            work: Mutex::new(Some(Box::pin(work))),
            is_queued: AtomicBool::new(false),
            pool: self.clone(),
        };
        Arc::new(task).wake();
    }

    /// Runs all tasks by so many threads until they are done.
    fn run(self: &Arc<Pool>, threads: u64) {
        thread::scope(|scope| {
            for _ in 0..threads {
                scope.spawn(|| self.run_here());
            }
        });
        // Tasks that were woken once more have the pool in them.
        locked(&self.queue).clear();
    }

    fn run_here(&self) {
        while let Some(task) = self.queued() {
            let mut work = locked(&task.work);
            task.is_queued.store(false, SeqCst);
            let waker = Waker::from(task.clone());
            let mut context = Context::from_waker(&waker);
            if let Some(Poll::Ready(())) = work.as_mut().map(|it| it.as_mut().poll(&mut context)) {
                *work = None;
                let _queue = locked(&self.queue);
                self.live.fetch_sub(1, SeqCst);
                self.is_any.notify_all();
            }
        }
    }

    /// The next task that is woken. None once all are done.
    fn queued(&self) -> Option<Arc<Task>> {
        let mut queue = locked(&self.queue);
        while self.live.load(SeqCst) > 0 {
            if let Some(task) = queue.pop_front() {
                return Some(task);
            }
            queue = self.is_any.wait(queue).unwrap();
        }
        None
    }
}

/// The future of what is polled by a function.
struct Polled<F>(F);

impl<T, F: FnMut(&mut Context<'_>) -> Poll<T> + Unpin> Future for Polled<F> {
    type Output = T;

    fn poll(mut self: Pin<&mut Self>, context: &mut Context<'_>) -> Poll<T> {
        (self.0)(context)
    }
}

/// Polls at most so many times, and gives None then: the future is dropped.
async fn few_polls<T>(work: impl Future<Output = T> + Send, most: u64) -> Option<T> {
    let (mut work, mut polls) = (Box::pin(work), 0);
    Polled(move |context: &mut Context<'_>| {
        polls += 1;
        match work.as_mut().poll(context) {
            Poll::Ready(it) => Poll::Ready(Some(it)),
            Poll::Pending if polls > most => Poll::Ready(None),
            Poll::Pending => Poll::Pending,
        }
    })
    .await
}

/// Lets the other tasks go on, so often.
async fn step_aside(times: u64) {
    let mut left = times;
    Polled(move |context: &mut Context<'_>| {
        if left == 0 {
            return Poll::Ready(());
        }
        left -= 1;
        context.waker().wake_by_ref();
        Poll::Pending
    })
    .await
}

/// Does this in a thread that may block, and waits for it as a task.
async fn blocking<T: Send + 'static>(does: impl FnOnce() -> T + Send + 'static) -> T {
    let done: Arc<Mutex<(Option<T>, Option<Waker>)>> = Arc::new(Mutex::new((None, None)));
    let told = done.clone();
    thread::spawn(move || {
        let it = does();
        let mut told = locked(&told);
        told.0 = Some(it);
        if let Some(waker) = told.1.take() {
            waker.wake();
        }
    });
    Polled(move |context: &mut Context<'_>| {
        let mut done = locked(&done);
        match done.0.take() {
            Some(it) => Poll::Ready(it),
            None => {
                done.1 = Some(context.waker().clone());
                Poll::Pending
            }
        }
    })
    .await
}

/// What the tasks that hear share: behind one item in so many one tries to fork, as long as so many
/// tries are left. Of those that have heard the end it has how many items they heard.
struct Hearing {
    pool: Arc<Pool>,
    forks: u64,
    tries: AtomicUsize,
    ends: Mutex<Vec<usize>>,
}

impl Hearing {
    fn of(pool: &Arc<Pool>, dice: &mut Dice) -> Arc<Hearing> {
        Arc::new(Hearing {
            pool: pool.clone(),
            forks: dice.of_these(&[10, 50, 300, u64::MAX]),
            tries: AtomicUsize::new(1 + dice.below(20) as usize),
            ends: Mutex::default(),
        })
    }

    /// Now and then forks one of these. The fork joins them, or takes its maker's place, or has a
    /// task of its own, or is dropped.
    fn fork_some(self: &Arc<Hearing>, ears: &mut Vec<Ear>, dice: &mut Dice) {
        if !dice.one_in(self.forks) || !may_go(&self.tries, 0) {
            return;
        }
        let at = dice.below(ears.len() as u64) as usize;
        if let Some(ear) = ears[at].fork() {
            match dice.below(6) {
                0 => drop_somehow(ear.receiver, dice),
                1 => ears[at].replace(ear, dice),
                2 | 3 => ears.push(ear),
                _ => {
                    let work =
                        hear_all(self.clone(), vec![ear], dice.other(), true, dice.one_in(2));
                    self.pool.start(work);
                }
            }
        }
    }

    /// Now and then drops one of these: one that was forked, or any.
    fn drop_some(&self, ears: &mut Vec<Ear>, dice: &mut Dice, any: bool) {
        let at = dice.below(ears.len() as u64) as usize;
        let is_fork = ears[at].is_fork;
        if (is_fork || any) && dice.one_in(if is_fork { 100 } else { 300 }) {
            drop_somehow(ears.swap_remove(at).receiver, dice);
        }
    }

    /// Whoever has heard the end has heard all of this order; how many items that is.
    fn all_heard(&self, order: &Order) -> usize {
        let items = order.len();
        let ends = locked(&self.ends);
        assert!(ends.iter().all(|&heard| heard == items), "one heard less");
        items
    }
}

/// The next item of any of these, and whose it is. None at the end of all.
async fn next_of(ears: &mut [Ear]) -> Option<(usize, Item)> {
    if let [ear] = ears {
        return ear.receiver.next_item_async().await.map(|item| (0, item));
    }
    Polled(|context: &mut Context<'_>| {
        let mut next = Poll::Ready(None);
        for (at, ear) in ears.iter_mut().enumerate() {
            match ear.receiver.poll_item(context) {
                Poll::Ready(Some(item)) => return Poll::Ready(Some((at, item))),
                Poll::Ready(None) => {}
                Poll::Pending => next = Poll::Pending,
            }
        }
        next
    })
    .await
}

/// Hears up to the end, now and then by futures that are dropped. It may leave before, or be slow.
/// Forks are heard here too.
fn hear_all(
    hearing: Arc<Hearing>,
    mut ears: Vec<Ear>,
    mut dice: Dice,
    leaves: bool,
    is_slow: bool,
) -> Work {
    Box::pin(async move {
        while !ears.is_empty() {
            let next = next_of(&mut ears);
            let item = if dice.one_in(4) {
                match few_polls(next, dice.below(2)).await {
                    Some(item) => item,
                    None => {
                        step_aside(1).await;
                        continue;
                    }
                }
            } else {
                next.await
            };
            match item {
                Some((at, item)) => ears[at].note(&item),
                None => break,
            }
            hearing.fork_some(&mut ears, &mut dice);
            hearing.drop_some(&mut ears, &mut dice, leaves);
            if is_slow && dice.one_in(500) {
                blocking(|| thread::sleep(Duration::from_millis(3))).await;
            }
        }
        let ends = ears.iter().map(|ear| ear.heard);
        locked(&hearing.ends).extend(ends);
    })
}

/// What the tasks that send share: who of them is not done, and the senders that are.
struct Sending {
    left: AtomicUsize,
    done: Mutex<Vec<Sender>>,
    log_words: u64,
    /// Any of them may close, before all is sent.
    ends_early: bool,
}

impl Sending {
    fn of(shape: &Shape, ends_early: bool) -> Arc<Sending> {
        Arc::new(Sending {
            left: AtomicUsize::new(shape.senders),
            done: Mutex::default(),
            log_words: shape.log_words,
            ends_early,
        })
    }

    fn is_last(&self) -> bool {
        self.left.fetch_sub(1, SeqCst) == 1
    }

    /// Keeps a sender until the life ends.
    fn keep(&self, sender: Sender) {
        locked(&self.done).push(sender);
    }
}

// ---- lives by tasks

/// Sends so many, now and then by futures that are dropped. It may stop where another has to go on
/// first, and not come back, or stop with something left. The last one that is done closes.
async fn send_many(
    sending: Arc<Sending>,
    mut sender: Sender,
    mut dice: Dice,
    mut left: u64,
    stops: bool,
) {
    while left > 0 || sender.pending() > 0 {
        let most = left.min(some(&sender, &mut dice));
        left -= put_some(&mut sender, most, u64::MAX);
        let turn = if dice.one_in(3) {
            few_polls(sender.send_async(), dice.below(3)).await
        } else {
            Some(sender.send_async().await)
        };
        match turn {
            Some(Turn::Delivered { .. }) => {}
            Some(turn) => panic!("a sender was answered {turn}"),
            None if stops && dice.one_in(3) => {
                if sender.try_send() == Err(TrySendError::Waiting) {
                    break;
                }
            }
            None => step_aside(dice.below(4)).await,
        }
        if stops && dice.one_in(60) {
            break;
        }
    }
    // Who holds the page keeps all others waiting.
    while let Some(Turn::Behind { .. }) = sender.finish() {
        step_aside(1).await;
    }
    if sending.is_last() {
        if sender.pending() > 0 {
            let _ = sender.send_async().await;
        }
        sender.end_order_async().await.unwrap();
    }
    sending.keep(sender);
}

/// A life by tasks over a bus whose rows are used again; how many items it had.
fn tasks_life(dice: &mut Dice) -> usize {
    let most = if dice.one_in(6) { 64 } else { 6 };
    let shape = Shape {
        rounds: 1 + dice.below(2),
        rows: 2 + dice.below(3),
        ..Shape::of(1 + dice.below(most) as usize, 1 + dice.below(4) as usize)
    };
    let (stops, most) = (dice.one_in(3), 6000 / shape.senders as u64);
    let many = most.min(1 + dice.below(1500));
    say(format!("{shape:?}, stops {stops}, many {many}"));
    let (senders, receivers) = Bus::open(shape).unwrap();
    let (pool, order) = (Arc::<Pool>::default(), Arc::<Order>::default());
    let (sending, hearing) = (Sending::of(&shape, false), Hearing::of(&pool, dice));
    for receiver in receivers {
        let ears = vec![Ear::new(receiver, &order, &[0; MOST_SENDERS])];
        pool.start(hear_all(hearing.clone(), ears, dice.other(), false, false));
    }
    for sender in senders {
        let work = send_many(sending.clone(), sender, dice.other(), many, stops);
        pool.start(work);
    }
    pool.run(1 + dice.below(5));
    let items = hearing.all_heard(&order);
    assert!(stops || items as u64 == many * shape.senders as u64, "lost");
    items
}

// ---- lives by tasks that wait for the room of a ring, or use rows once

/// Sends over rows that are used once, until they are spent.
async fn spend(sending: Arc<Sending>, mut sender: Sender, mut dice: Dice, mut left: u64) {
    while left > 0 {
        let most = left.min(some(&sender, &mut dice));
        left -= put_some(&mut sender, most, u64::MAX);
        let turn = few_polls(sender.send_async(), dice.of_these(&[0, 1, 2, 9999])).await;
        match turn {
            Some(Turn::Delivered { .. }) => {}
            Some(Turn::Spent | Turn::Full) => break,
            Some(turn) => panic!("a sender was answered {turn}"),
            None => step_aside(1).await,
        }
    }
    sending.keep(sender);
}

/// Sends what waits by one of the calls that wait for room.
async fn send_with_room(mut sender: Sender, dice: &mut Dice) -> (Sender, Turn) {
    loop {
        let turn = match dice.below(4) {
            0 => {
                let (back, turn) = blocking(move || {
                    let mut sender = sender;
                    let turn = sender.send_when_room(|| true).unwrap().unwrap();
                    (sender, turn)
                })
                .await;
                sender = back;
                Some(turn)
            }
            1 => {
                let waits = sender.send_when_room_async();
                few_polls(waits, dice.below(3)).await.map(Result::unwrap)
            }
            2 => {
                sender.room_async().await.unwrap();
                Some(sender.send_async().await)
            }
            _ => Some(sender.send_when_room_async().await.unwrap()),
        };
        match turn {
            Some(Turn::Full) => {}
            Some(turn) => return (sender, turn),
            None => step_aside(1).await,
        }
    }
}

/// Whether a sender of a ring puts more after this answer. It does not where it is to close early,
/// or where another one has done so.
fn puts_more(sending: &Sending, dice: &mut Dice, turn: Turn) -> bool {
    match turn {
        Turn::Idle => true,
        Turn::Delivered { .. } => !(sending.ends_early && dice.one_in(100)),
        Turn::Closed if sending.ends_early => false,
        turn => panic!("a sender was answered {turn}"),
    }
}

/// Lets a close wait, where so many messages are left and the last answer was this: the last one
/// closes, and one that closes early.
fn closes(sending: &Sending, sender: &mut Sender, left: u64, turn: Turn) -> bool {
    let is_last = sending.is_last();
    (is_last || left > 0) && turn != Turn::Closed && sender.close().is_ok()
}

/// Sends so many over a ring, and waits for room.
async fn send_to_ring(sending: Arc<Sending>, mut sender: Sender, mut dice: Dice, mut left: u64) {
    let mut turn = Turn::Idle;
    while puts_more(&sending, &mut dice, turn) && left > 0 {
        let most = left.min(some(&sender, &mut dice));
        left -= put_some(&mut sender, most, sending.log_words);
        (sender, turn) = send_with_room(sender, &mut dice).await;
    }
    if closes(&sending, &mut sender, left, turn) {
        (sender, turn) = send_with_room(sender, &mut dice).await;
        assert_eq!(turn, Turn::Closed);
    }
    sending.keep(sender);
}

/// Sends what waits over a ring, and hears meanwhile, in one task.
async fn send_and_hear(sender: &mut Sender, ears: &mut [Ear]) -> Result<Turn, NeverFits> {
    Polled(|context: &mut Context<'_>| {
        for ear in ears.iter_mut() {
            while let Poll::Ready(Some(item)) = ear.receiver.poll_item(context) {
                ear.note(&item);
            }
        }
        sender.poll_send_when_room(context)
    })
    .await
}

/// Sends so many over a ring, and hears all, in one task.
async fn work_on_ring(
    sending: Arc<Sending>,
    hearing: Arc<Hearing>,
    mut sender: Sender,
    ear: Ear,
    mut dice: Dice,
    mut left: u64,
) {
    let (mut turn, mut ears) = (Turn::Idle, vec![ear]);
    while puts_more(&sending, &mut dice, turn) && left > 0 {
        let most = left.min(some(&sender, &mut dice));
        left -= put_some(&mut sender, most, sending.log_words);
        turn = loop {
            let polls = dice.of_these(&[0, 1, 9999]);
            let sent = few_polls(send_and_hear(&mut sender, &mut ears), polls).await;
            hearing.fork_some(&mut ears, &mut dice);
            match sent {
                Some(sent) => break sent.unwrap(),
                None => step_aside(1).await,
            }
        };
        hearing.drop_some(&mut ears, &mut dice, false);
    }
    if closes(&sending, &mut sender, left, turn) {
        let turn = send_and_hear(&mut sender, &mut ears).await;
        assert_eq!(turn, Ok(Turn::Closed));
    }
    hear_all(hearing, ears, dice, false, false).await;
    sending.keep(sender);
}

/// A life by tasks over rows that are used once.
fn spent_life(dice: &mut Dice) -> usize {
    let shape = Shape {
        rounds: 1 + dice.below(2),
        rows: 1 + dice.below(40),
        again: false,
        log_words: dice.of_these(&[32, 300, 65_536]),
        ..Shape::of(1 + dice.below(8) as usize, 1)
    };
    say(format!("{shape:?}"));
    let (senders, mut receivers) = Bus::open(shape).unwrap();
    let (pool, order) = (Arc::<Pool>::default(), Arc::<Order>::default());
    let sending = Sending::of(&shape, false);
    for sender in senders {
        let many = 1 + dice.below(200);
        pool.start(spend(sending.clone(), sender, dice.other(), many));
    }
    pool.run(1 + dice.below(5));
    let mut ear = Ear::new(receivers.remove(0), &order, &[0; MOST_SENDERS]);
    ear.hear_rest();
    order.len()
}

/// The sizes of a ring for tasks.
fn ring_shape(dice: &mut Dice, does_both: bool) -> Shape {
    let senders = 1 + dice.below(8) as usize;
    let receivers = if does_both {
        senders
    } else {
        1 + dice.below(4) as usize
    };
    let lengths = [16 + dice.below(100), 129 + dice.below(170), 1024];
    let log_words = dice.of_these(&lengths);
    Shape {
        rounds: 1 + dice.below(2),
        rows: 2 + dice.below(4),
        log_words,
        batch: batch_of(dice, log_words),
        ..Shape::of(senders, receivers)
    }
}

/// A life by tasks over a ring, where each hears or sends, or does both.
fn ring_life(dice: &mut Dice) -> usize {
    let does_both = dice.one_in(2);
    let mut shape = ring_shape(dice, does_both);
    let spares = spares(dice, &shape);
    shape.receivers += spares;
    let (many, ends_early) = (1 + dice.below(300), dice.one_in(3));
    say(format!(
        "a ring of {shape:?}, spares {spares}, both {does_both}, many {many}, early {ends_early}"
    ));
    let (senders, mut receivers) = Bus::open_ring(shape).unwrap();
    drop_spares(&mut receivers, spares, dice);
    let (pool, order) = (Arc::<Pool>::default(), Arc::<Order>::default());
    let (sending, hearing) = (Sending::of(&shape, ends_early), Hearing::of(&pool, dice));
    let mut ears: VecDeque<_> = receivers
        .into_iter()
        .map(|receiver| Ear::new(receiver, &order, &[0; MOST_SENDERS]))
        .collect();
    for sender in senders {
        let (sending, hearing, dice) = (sending.clone(), hearing.clone(), dice.other());
        let ear = if does_both { ears.pop_front() } else { None };
        match ear {
            Some(ear) => pool.start(work_on_ring(sending, hearing, sender, ear, dice, many)),
            None => pool.start(send_to_ring(sending, sender, dice, many)),
        }
    }
    for (at, ear) in ears.into_iter().enumerate() {
        let work = hear_all(hearing.clone(), vec![ear], dice.other(), at > 0, true);
        pool.start(work);
    }
    pool.run(1 + dice.below(5));
    let items = hearing.all_heard(&order);
    let all = many * shape.senders as u64;
    assert!(ends_early || items as u64 == all, "lost");
    items
}

/// A life of either kind.
fn rooms_life(dice: &mut Dice) -> usize {
    if dice.one_in(3) {
        spent_life(dice)
    } else {
        ring_life(dice)
    }
}

// ---- all lives

/// The life that goes on: its number, when it began, and what its bus is.
static NOW: Mutex<(u64, Option<Instant>, String)> = Mutex::new((0, None, String::new()));

fn say(what: String) {
    locked(&NOW).2 = what;
}

/// Says which life fails, and ends the program.
fn fail(kind: &str, why: &str) -> ! {
    let now = locked(&NOW);
    println!("{kind}: life {} FAILED: {why}; {}", now.0, now.2);
    process::exit(1);
}

/// Ends the program where a life takes too long.
fn watch(kind: &str) {
    loop {
        thread::sleep(Duration::from_millis(200));
        let begun = locked(&NOW).1;
        if begun.map_or(false, |begun| begun.elapsed() > LONGEST) {
            fail(kind, "it takes longer than a minute");
        }
    }
}

fn main() {
    let words: Vec<String> = env::args().skip(1).collect();
    let (kind, first, lives) = match &words[..] {
        [kind, first, lives] => (kind.clone(), first.parse(), lives.parse()),
        _ => (String::new(), Ok(0), Ok(0)),
    };
    let life: fn(&mut Dice) -> usize = match &kind[..] {
        "threads" => threads_life,
        "tasks" => tasks_life,
        "rooms" => rooms_life,
        "replicas" => replica_lives::life,
        _ => {
            eprintln!("usage: rust_lives threads|tasks|rooms|replicas FIRST LIVES");
            process::exit(2);
        }
    };
    let (first, lives): (u64, u64) = (first.unwrap(), lives.unwrap());
    let (of_fault, of_watch) = (kind.clone(), kind.clone());
    panic::set_hook(Box::new(move |fault| fail(&of_fault, &fault.to_string())));
    thread::spawn(move || watch(&of_watch));
    let mut items = 0;
    for number in first..first + lives {
        *locked(&NOW) = (number, Some(Instant::now()), String::new());
        items += life(&mut Dice::of(number));
    }
    let (forks, none) = (FORKS.load(SeqCst), NO_SEATS.load(SeqCst));
    println!("{kind}: {lives} lives from {first} on passed, {items} items");
    println!("{forks} forks, NoSeat {none}");
}
