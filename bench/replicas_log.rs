//! The entrant `node-replication` of bench/replicas: a log of operations in memory, by which each
//! replica is brought up to date, as Calciu and others (2017) have it.

use crate::{pause, Access, Fault, Map};
use std::sync::atomic::AtomicU64;
use std::sync::atomic::Ordering::{AcqRel, Acquire, Relaxed, Release};
use std::sync::RwLock;

/// How many operations the log has room for.
const PLACES: u64 = 16_384;

/// Marks of a worker's operation, which is 0 once it is done.
const WAITS: u64 = 1;
const TAKEN: u64 = 2;

/// An operation that threads share. In the log its mark is the number of operations up to it.
#[derive(Default)]
struct Operation {
    mark: AtomicU64,
    key: AtomicU64,
    value: AtomicU64,
}

impl Operation {
    fn put(&self, mark: u64, key: u64, value: u64) {
        self.key.store(key, Relaxed);
        self.value.store(value, Relaxed);
        self.mark.store(mark, Release);
    }
}

fn operations(many: u64) -> Vec<Operation> {
    (0..many).map(|_| Operation::default()).collect()
}

/// A count in a cache line of its own.
#[derive(Default)]
#[repr(align(64))]
struct Count(AtomicU64);

/// A replica, with the operations of its workers. Who locks it to write combines these.
struct Node {
    waiting: Vec<Operation>,
    map: RwLock<Map>,
    /// How many operations of the log the map has.
    applied: Count,
}

/// A plain simulation of node replication: replicas that share a log, each with flat combining and
/// a readers' lock. A write answers nothing.
#[derive(Default)]
pub struct Log {
    operations: Vec<Operation>,
    nodes: Vec<Node>,
    /// How many operations were given a place.
    tail: Count,
    /// How many are applied where they came from. All that returned are among them.
    completed: Count,
    /// How many all replicas have applied. Their places are used again.
    freed: Count,
}

impl Log {
    /// Of so many replicas, each for so many workers.
    pub fn new(replicas: usize, workers: u64) -> Log {
        let node = |_| Node {
            waiting: operations(workers),
            map: RwLock::new(Map::new()),
            applied: Count::default(),
        };
        Log {
            operations: operations(PLACES),
            nodes: (0..replicas).map(node).collect(),
            ..Log::default()
        }
    }

    /// All workers of all replicas.
    pub fn workers(&self) -> Vec<Box<dyn Access + '_>> {
        let mut all: Vec<Box<dyn Access + '_>> = Vec::new();
        for node in &self.nodes {
            for own in &node.waiting {
                all.push(Box::new(Worker(self, node, own)));
            }
        }
        all
    }

    fn at(&self, place: u64) -> &Operation {
        &self.operations[(place % PLACES) as usize]
    }

    /// Applies what the map of a replica lacks of so many operations.
    fn bring_up(&self, node: &Node, map: &mut Map, many: u64) {
        for place in node.applied.0.load(Relaxed)..many {
            let (operation, mut tries) = (self.at(place), 0);
            while operation.mark.load(Acquire) != place + 1 {
                pause(&mut tries);
            }
            let (key, value) = (&operation.key, &operation.value);
            map.0.insert(key.load(Relaxed), value.load(Relaxed));
            node.applied.0.store(place + 1, Release);
        }
    }

    /// Waits until the log has room for so many operations. It brings up each replica that lacks
    /// half of the log, its own and those whose workers do nothing.
    fn make_room(&self, own: &Node, map: &mut Map, many: u64) {
        let (enough, mut tries) = (many.saturating_sub(PLACES / 2), 0);
        while self.freed.0.load(Acquire) + PLACES < many {
            self.bring_up(own, map, enough);
            let mut least = many;
            for node in &self.nodes {
                if node.applied.0.load(Acquire) < enough {
                    if let Ok(mut map) = node.map.try_write() {
                        self.bring_up(node, &mut map, enough);
                    }
                }
                least = least.min(node.applied.0.load(Acquire));
            }
            self.freed.0.fetch_max(least, AcqRel);
            pause(&mut tries);
        }
    }

    /// Gives places to all operations that wait at a replica, and applies the log up to there.
    fn combine(&self, node: &Node, map: &mut Map) {
        let all = || node.waiting.iter();
        let marked = |mark| all().filter(move |it| it.mark.load(Acquire) == mark);
        let mut many = 0;
        for own in marked(WAITS) {
            own.mark.store(TAKEN, Relaxed);
            many += 1;
        }
        let first = self.tail.0.fetch_add(many, Relaxed);
        self.make_room(node, map, first + many);
        for (place, own) in (first..).zip(marked(TAKEN)) {
            let (key, value) = (own.key.load(Relaxed), own.value.load(Relaxed));
            self.at(place).put(place + 1, key, value);
        }
        self.bring_up(node, map, first + many);
        self.completed.0.fetch_max(first + many, AcqRel);
        marked(TAKEN).for_each(|own| own.mark.store(0, Release));
    }
}

/// A worker of a log and a replica, with the operation by which it writes.
struct Worker<'a>(&'a Log, &'a Node, &'a Operation);

impl Access for Worker<'_> {
    fn read(&mut self, key: u64) -> Result<u64, Fault> {
        let Worker(log, node, _) = self;
        let completed = log.completed.0.load(Acquire);
        if node.applied.0.load(Acquire) < completed {
            let mut map = node.map.write().map_err(|_| "poisoned")?;
            log.bring_up(node, &mut map, completed);
        }
        Ok(node.map.read().map_err(|_| "poisoned")?.get(key))
    }

    fn write(&mut self, key: u64, value: u64) -> Result<(), Fault> {
        let (Worker(log, node, own), mut tries) = (self, 0);
        own.put(WAITS, key, value);
        while own.mark.load(Acquire) != 0 {
            match node.map.try_write() {
                Ok(mut map) => log.combine(node, &mut map),
                Err(_) => pause(&mut tries),
            }
        }
        Ok(())
    }
}
