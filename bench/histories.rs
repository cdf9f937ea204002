//! As bench/histories.rattle, by the Rust crate: bench/histories builds it, and says what it
//! prints.
//!
//! usage: histories WORKERS CALLS SEED MODE

use kioskbasil::replica::{Replica, ReplicaError, Replicas, State};
use kioskbasil::Shape;
use std::env;
use std::error::Error;
use std::thread;
use std::time::{Duration, Instant};

const KEYS: usize = 4;

/// A value for each key.
struct Registers([u64; KEYS]);

/// The swap of the value of a key: 9 to 120 bytes, of which those behind the value go by it.
fn operation(key: u8, value: u64) -> Vec<u8> {
    let length = 9 + (value.wrapping_mul(0x9e37_79b9_7f4a_7c15) >> 32) % 112;
    let filler = (9..length).map(|at| (value + at) as u8);
    let begin = [key].into_iter().chain(value.to_le_bytes());
    begin.chain(filler).collect()
}

impl State for Registers {
    /// The value before.
    type Answer = u64;

    /// Swaps the value of a key for another one.
    fn apply(&mut self, _from: u32, bytes: &[u8]) -> u64 {
        let value = bytes[1..9].try_into().map(u64::from_le_bytes);
        let (key, value) = (bytes[0], value.expect("a value of eight bytes"));
        assert_eq!(bytes, operation(key, value), "the bytes of a swap");
        std::mem::replace(&mut self.0[usize::from(key)], value)
    }
}

/// How a replica is wrong, if it is.
#[derive(Clone, Copy, PartialEq, Eq)]
enum Mode {
    Right,
    Stale,
    Elsewhere,
    Lost,
}

/// A call of a worker. What it puts is 0 of a read.
struct Call {
    begin: u128,
    end: u128,
    key: usize,
    put: u64,
    answer: u64,
}

/// Marsaglia's xorshift of 64 bits.
struct Dice(u64);

impl Dice {
    fn below(&mut self, many: u64) -> u64 {
        self.0 ^= self.0 << 13;
        self.0 ^= self.0 >> 7;
        self.0 ^= self.0 << 17;
        (self.0 >> 32) % many
    }
}

struct Worker {
    replica: Replica<Registers>,
    dice: Dice,
    mode: Mode,
    /// What each key's last swap of this worker answered.
    answers: [u64; KEYS],
}

impl Worker {
    fn swap(&mut self, key: usize, value: u64) -> Result<u64, ReplicaError> {
        if self.mode == Mode::Lost && self.dice.below(50) == 0 {
            return Ok(self.replica.state().0[key]);
        }
        let answer = self.replica.execute(&operation(key as u8, value))?;
        let before = std::mem::replace(&mut self.answers[key], answer);
        let is_wrong = self.mode == Mode::Elsewhere && self.dice.below(50) == 0;
        Ok(if is_wrong { before } else { answer })
    }

    fn read(&mut self, key: usize) -> Result<u64, ReplicaError> {
        if self.mode == Mode::Stale {
            return Ok(self.replica.state().0[key]);
        }
        Ok(self.replica.latest()?.0[key])
    }

    /// All its calls, by the clock that began then.
    fn work(mut self, many: u64, clock: Instant) -> Result<Vec<Call>, ReplicaError> {
        let mut calls = Vec::new();
        let number = u64::from(self.replica.number());
        for count in 0..many {
            let key = self.dice.below(KEYS as u64) as usize;
            let is_read = self.dice.below(2) == 0;
            let put = if is_read { 0 } else { 1 + count * 64 + number };
            let begin = clock.elapsed().as_nanos();
            let answer = if is_read {
                self.read(key)?
            } else {
                self.swap(key, put)?
            };
            let end = clock.elapsed().as_nanos();
            calls.push(Call {
                begin,
                end,
                key,
                put,
                answer,
            });
            if self.dice.below(64) == 0 {
                thread::sleep(Duration::from_micros(self.dice.below(200)));
            }
        }
        self.replica.finish()?;
        Ok(calls)
    }
}

fn main() -> Result<(), Box<dyn Error>> {
    let words: Vec<String> = env::args().skip(1).collect();
    let [workers, calls, seed, mode] = &words[..] else {
        return Err("usage: histories WORKERS CALLS SEED MODE".into());
    };
    let (many, seed): (u64, u64) = (calls.parse()?, seed.parse()?);
    let mode = match &mode[..] {
        "right" => Mode::Right,
        "stale" => Mode::Stale,
        "elsewhere" => Mode::Elsewhere,
        "lost" => Mode::Lost,
        _ => return Err("no such mode".into()),
    };
    let clock = Instant::now();
    let replicas = Replicas::open(Shape::of(workers.parse()?, 1), || Registers([0; KEYS]))?;
    let start = |replica: Replica<Registers>| {
        let worker = Worker {
            dice: Dice(
                (seed * 64 + u64::from(replica.number()) + 1).wrapping_mul(0x9e37_79b9_7f4a_7c15),
            ),
            replica,
            mode,
            answers: [0; KEYS],
        };
        thread::spawn(move || worker.work(many, clock))
    };
    let threads: Vec<_> = replicas.into_iter().map(start).collect();
    for (number, thread) in threads.into_iter().enumerate() {
        for call in thread.join().map_err(|_| "a worker panicked")?? {
            let Call {
                begin,
                end,
                key,
                put,
                answer,
            } = call;
            match put {
                0 => println!("{number} {begin} {end} {key} read {answer}"),
                _ => println!("{number} {begin} {end} {key} swap {put} {answer}"),
            }
        }
    }
    Ok(())
}
