//! What a call costs of workers that read and write one map: bench/replicas builds it, and prints
//! a table of what it measures.
//!
//! `replicas KIND WORKERS WRITES MILLISECONDS` has so many workers each call for so long; of a
//! thousand calls so many write. It prints how many nanoseconds a call of one worker took in the
//! mean, and how many KiB the process had at most. At the end each worker reads all keys: they
//! have to be what was written last, and the same for all workers.

#[cfg(feature = "locks")]
mod replicas_locks;
mod replicas_log;

use kioskbasil::replica::{Replica, ReplicaError, Replicas, State};
use kioskbasil::Shape;
use replicas_log::Log;
use std::collections::HashMap;
use std::error::Error;
use std::hint::black_box;
use std::sync::atomic::{AtomicBool, Ordering};
use std::sync::{Barrier, Mutex, RwLock};
use std::time::{Duration, Instant};
use std::{env, fs, hint, thread};

const KEYS: u64 = 65_536;

/// A worker asks after so many calls whether to stop.
const PART: u64 = 64;

/// After so many calls a worker that looks at its state alone hears.
const HEARS: usize = 256;

type Fault = Box<dyn Error + Send + Sync>;

/// Each key, with its first value.
fn first() -> impl Iterator<Item = (u64, u64)> {
    (0..KEYS).map(|key| (key, key))
}

struct Map(HashMap<u64, u64>);

impl Map {
    fn new() -> Map {
        Map(first().collect())
    }

    fn get(&self, key: u64) -> u64 {
        self.0.get(&key).copied().unwrap_or(0)
    }
}

impl State for Map {
    /// The value before.
    type Answer = Option<u64>;

    fn apply(&mut self, _from: u32, operation: &[u8]) -> Option<u64> {
        let (key, value) = (operation.get(..8)?, operation.get(8..)?);
        let key = u64::from_le_bytes(key.try_into().ok()?);
        self.0
            .insert(key, u64::from_le_bytes(value.try_into().ok()?))
    }
}

fn set(key: u64, value: u64) -> [u8; 16] {
    let mut operation = [0; 16];
    operation[..8].copy_from_slice(&key.to_le_bytes());
    operation[8..].copy_from_slice(&value.to_le_bytes());
    operation
}

/// What a worker reads and writes by.
trait Access: Send {
    fn read(&mut self, key: u64) -> Result<u64, Fault>;
    fn write(&mut self, key: u64, value: u64) -> Result<(), Fault>;

    /// Behind its last call: the values of all keys, once all workers have made theirs.
    fn end(mut self: Box<Self>, ended: &Barrier) -> Result<Vec<u64>, Fault> {
        ended.wait();
        (0..KEYS).map(|key| self.read(key)).collect()
    }
}

/// Who waits for another spins so often at first, and yields then.
fn pause(tries: &mut u32) {
    if *tries < 20 {
        *tries += 1;
        hint::spin_loop();
    } else {
        thread::yield_now();
    }
}

impl Access for &Mutex<Map> {
    fn read(&mut self, key: u64) -> Result<u64, Fault> {
        Ok(self.lock().map_err(|_| "poisoned")?.get(key))
    }

    fn write(&mut self, key: u64, value: u64) -> Result<(), Fault> {
        self.lock().map_err(|_| "poisoned")?.0.insert(key, value);
        Ok(())
    }
}

impl Access for &RwLock<Map> {
    fn read(&mut self, key: u64) -> Result<u64, Fault> {
        Ok(RwLock::read(self).map_err(|_| "poisoned")?.get(key))
    }

    fn write(&mut self, key: u64, value: u64) -> Result<(), Fault> {
        let mut map = RwLock::write(self).map_err(|_| "poisoned")?;
        map.0.insert(key, value);
        Ok(())
    }
}

/// A replica, and by which of its calls it reads and writes.
struct ByReplica {
    replica: Replica<Map>,
    latest: bool,
    executes: bool,
    calls: usize,
}

impl Access for ByReplica {
    fn read(&mut self, key: u64) -> Result<u64, Fault> {
        if self.latest {
            return Ok(self.replica.latest()?.get(key));
        }
        self.calls += 1;
        if self.calls % HEARS == 0 {
            self.replica.hear()?;
        }
        Ok(self.replica.state().get(key))
    }

    fn write(&mut self, key: u64, value: u64) -> Result<(), Fault> {
        if self.executes {
            self.replica.execute(&set(key, value))?;
        } else {
            self.replica.submit(&set(key, value))?;
        }
        Ok(())
    }

    fn end(self: Box<Self>, _: &Barrier) -> Result<Vec<u64>, Fault> {
        match self.replica.finish_timeout(Duration::from_secs(20)) {
            Ok(map) => Ok((0..KEYS).map(|key| map.get(key)).collect()),
            Err(ReplicaError::MissingWorker(worker)) => Err(format!("no worker {worker}").into()),
            Err(why) => Err(why.into()),
        }
    }
}

/// Keys that are drawn ahead, and whether each is written.
fn drawn(worker: u64, writes: u64) -> Vec<(u64, bool)> {
    let mut dice = 0x9e37_79b9_7f4a_7c15 * (worker + 1);
    let mut next = || {
        dice ^= dice << 13;
        dice ^= dice >> 7;
        dice ^= dice << 17;
        dice >> 20
    };
    (0..KEYS)
        .map(|_| (next() % KEYS, next() % 1000 < writes))
        .collect()
}

/// What a worker writes in the part behind so many calls. Of up to 64 workers no other one writes
/// it, and no key has it at first.
fn value(worker: u64, calls: u64) -> u64 {
    KEYS + calls + worker
}

/// What all workers go by: when they begin, stop and have ended.
struct Course {
    begin: Barrier,
    stop: AtomicBool,
    ended: Barrier,
}

/// A worker's calls, and the values of all keys that it read behind them.
struct Done {
    calls: u64,
    values: Vec<u64>,
}

/// All calls of a worker until it is stopped.
fn work(
    mut access: Box<dyn Access + '_>,
    worker: u64,
    draws: &[(u64, bool)],
    course: &Course,
) -> Result<Done, Fault> {
    let (mut calls, mut sum) = (0, 0u64);
    course.begin.wait();
    'all: loop {
        for part in draws.chunks(PART as usize) {
            let value = value(worker, calls);
            for (key, writes) in part {
                if *writes {
                    access.write(*key, value)?;
                } else {
                    sum = sum.wrapping_add(access.read(*key)?);
                }
            }
            calls += PART;
            if course.stop.load(Ordering::Relaxed) {
                break 'all;
            }
        }
    }
    black_box(sum);
    let values = access.end(&course.ended)?;
    Ok(Done { calls, values })
}

/// What a worker wrote last to each key, of which it has made so many calls.
fn last(worker: u64, draws: &[(u64, bool)], calls: u64) -> Vec<Option<u64>> {
    let mut values = vec![None; draws.len()];
    for call in calls.saturating_sub(KEYS)..calls {
        let (key, writes) = draws[(call % KEYS) as usize];
        if writes {
            values[key as usize] = Some(value(worker, call - call % PART));
        }
    }
    values
}

/// Whether each key has what one of the workers wrote last to it, or its first value where none
/// did, and all workers read the same.
fn check(draws: &[Vec<(u64, bool)>], all: &[Done]) -> Result<(), Fault> {
    let written: Vec<_> = (0..)
        .zip(draws)
        .zip(all)
        .map(|((worker, draws), done)| last(worker, draws, done.calls))
        .collect();
    for key in 0..KEYS as usize {
        let value = all[0].values[key];
        let is_written = written.iter().any(|of| of[key] == Some(value));
        let is_first = value == key as u64 && written.iter().all(|of| of[key].is_none());
        if !is_written && !is_first {
            return Err(format!("key {key} has {value}, which nobody wrote last").into());
        }
        if all.iter().any(|done| done.values[key] != value) {
            return Err(format!("key {key} is not the same for all workers").into());
        }
    }
    Ok(())
}

/// Nanoseconds a call of one worker, and the memory in KiB.
fn measured(
    all: Vec<Box<dyn Access + '_>>,
    writes: u64,
    time: Duration,
) -> Result<(f64, String), Fault> {
    let course = Course {
        begin: Barrier::new(all.len() + 1),
        stop: AtomicBool::new(false),
        ended: Barrier::new(all.len()),
    };
    let workers = all.len() as f64;
    let draws: Vec<_> = (0..all.len() as u64).map(|it| drawn(it, writes)).collect();
    thread::scope(|scope| {
        let mut threads = Vec::new();
        for (worker, (access, draws)) in (0..).zip(all.into_iter().zip(&draws)) {
            let course = &course;
            threads.push(scope.spawn(move || work(access, worker, draws, course)));
        }
        course.begin.wait();
        let begun = Instant::now();
        thread::sleep(time);
        let memory = memory()?;
        course.stop.store(true, Ordering::Relaxed);
        let took = begun.elapsed().as_nanos() as f64;
        let mut done = Vec::new();
        for thread in threads {
            done.push(thread.join().map_err(|_| "a worker panicked")??);
        }
        check(&draws, &done)?;
        let calls: u64 = done.iter().map(|it| it.calls).sum();
        Ok((took * workers / calls as f64, memory))
    })
}

/// How many KiB the process had at most.
fn memory() -> Result<String, Fault> {
    let status = fs::read_to_string("/proc/self/status")?;
    let line = status.lines().find_map(|it| it.strip_prefix("VmHWM:"));
    let line = line.ok_or("no VmHWM")?;
    Ok(line.trim().trim_end_matches(" kB").to_string())
}

/// Workers that share one.
fn sharing<'a, T>(shared: &'a T, workers: usize) -> Vec<Box<dyn Access + 'a>>
where
    &'a T: Access,
{
    (0..workers).map(|_| Box::new(shared) as _).collect()
}

/// Workers with a replica each, of a kind such as `state+submit`.
fn replicated(kind: &str, workers: usize) -> Result<Vec<Box<dyn Access>>, Fault> {
    let (reads, puts) = kind.split_once('+').ok_or("no such kind")?;
    let by = |replica| ByReplica {
        replica,
        latest: reads == "latest",
        executes: puts == "execute",
        calls: 0,
    };
    let replicas = Replicas::open(Shape::of(workers, workers), Map::new)?;
    let all = replicas.into_iter().map(|it| Box::new(by(it)) as _);
    Ok(all.collect())
}

fn main() -> Result<(), Fault> {
    let words: Vec<String> = env::args().skip(1).collect();
    let [kind, workers, writes, milliseconds] = &words[..] else {
        return Err("usage: replicas KIND WORKERS WRITES MILLISECONDS".into());
    };
    let (workers, writes): (usize, u64) = (workers.parse()?, writes.parse()?);
    let time = Duration::from_millis(milliseconds.parse()?);
    let by = |all| measured(all, writes, time);
    let (nanoseconds, memory) = match &kind[..] {
        "mutex" => by(sharing(&Mutex::new(Map::new()), workers)),
        "rwlock" => by(sharing(&RwLock::new(Map::new()), workers)),
        #[cfg(feature = "locks")]
        "parking_lot" => by(sharing(&parking_lot::RwLock::new(Map::new()), workers)),
        #[cfg(feature = "locks")]
        "dashmap" => by(sharing(&dashmap::DashMap::from_iter(first()), workers)),
        #[cfg(feature = "locks")]
        "left-right" => by(sharing(&replicas_locks::LeftRight::new(), workers)),
        "node-replication" => by(Log::new(workers, 1).workers()),
        _ => by(replicated(kind, workers)?),
    }?;
    println!("{nanoseconds:.0} {memory}");
    Ok(())
}
