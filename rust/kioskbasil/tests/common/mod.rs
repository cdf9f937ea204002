//! What tests share.
#![allow(dead_code)] // not each of them uses all of it

use kioskbasil::replica::{Replica, Replicas, State};
use kioskbasil::{Bus, Receiver, Sender, Shape, MOST_MESSAGES};
use std::path::PathBuf;
use std::sync::atomic::{AtomicUsize, Ordering};
use std::sync::{mpsc, Arc};
use std::task::Wake;
use std::thread;
use std::time::Duration;
use std::{env, fs, process};

/// A bus with so many rows, each for one tenure.
pub fn bus(senders: usize, receivers: usize, rows: u64) -> (Vec<Sender>, Vec<Receiver>) {
    let shape = Shape {
        rounds: 1,
        rows,
        ..Shape::of(senders, receivers)
    };
    Bus::open(shape).unwrap()
}

/// A ring of so many words, with batches of as many messages as it may have.
pub fn ring(senders: usize, receivers: usize, log_words: u64) -> (Vec<Sender>, Vec<Receiver>) {
    let shape = Shape {
        rounds: 1,
        log_words,
        batch: ((log_words - 1) / 8).min(MOST_MESSAGES as u64),
        ..Shape::of(senders, receivers)
    };
    Bus::open_ring(shape).unwrap()
}

/// Replicas of as many workers, over a ring of so many words.
pub fn open<S: State + Default>(workers: usize, log_words: u64) -> Vec<Replica<S>> {
    let shape = Shape {
        log_words,
        ..Shape::of(workers, 1)
    };
    Replicas::open(shape, S::default).unwrap()
}

/// Does this in another thread: where that hangs, the test fails.
pub fn in_time<T: Send + 'static>(does: impl FnOnce() -> T + Send + 'static) -> T {
    let (told, done) = mpsc::channel();
    let worker = thread::spawn(move || told.send(does()).unwrap());
    match done.recv_timeout(Duration::from_secs(300)) {
        Err(mpsc::RecvTimeoutError::Timeout) => panic!("it hangs"),
        done => {
            worker.join().unwrap();
            done.unwrap()
        }
    }
}

/// How many messages of the bus a long one of so many bytes is: pieces of 55 bytes, one at least.
pub fn pieces(length: usize) -> u64 {
    ((length + 54) / 55).max(1) as u64
}

/// Counts how often it is woken.
#[derive(Default)]
pub struct Count(pub AtomicUsize);

impl Wake for Count {
    fn wake(self: Arc<Self>) {
        self.0.fetch_add(1, Ordering::SeqCst);
    }
}

/// A folder of one test, which goes with it.
pub struct Folder(PathBuf);

impl Folder {
    pub fn new(name: &str) -> Folder {
        let path = env::temp_dir().join(format!("kioskbasil.{}.{name}", process::id()));
        fs::create_dir_all(&path).unwrap();
        Folder(path)
    }

    pub fn file(&self, name: &str) -> PathBuf {
        self.0.join(name)
    }
}

impl Drop for Folder {
    fn drop(&mut self) {
        let _ = fs::remove_dir_all(&self.0);
    }
}
