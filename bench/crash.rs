//! The program that bench/crash kills.
//!
//! `crash run FOLDER SEED` recovers what the journals of a folder say, prints `recovered COUNT
//! HASH`, and has four workers send messages over a ring, each with a copy of the state, while a
//! thread records all frames in a next journal. For each message of its own that is on disk a
//! worker prints `durable SENDER NUMBER HASH`, with its state's hash at that place. It goes on
//! until it is killed, or until its file fails: then it says so, and ends with 1. By every second
//! seed what is written waits in memory for a sync, so that a kill loses it.
//!
//! `crash read FILE..` prints of each file what the reader of the crate says of it. `crash copies`
//! does so of each journal that standard input has, behind its length as eight bytes. `crash again
//! FILE TO` writes the frames of a file into a new one.

use kioskbasil::journal::{self, End, Header, Journal, JournalError, ReadError, Recovered};
use kioskbasil::journal::{JournalFile, SyncPolicy, Watch};
use kioskbasil::{Bus, Frame, Item, NextFrame, Page, Receiver, Sender, Shape, TrySendError, Turn};
use std::error::Error;
use std::fmt::Write as _;
use std::fs::{self, File};
use std::io::{self, BufRead, Read, Write};
use std::time::Duration;
use std::{env, iter, process, thread};

type Fault = Box<dyn Error + Send + Sync>;

const WORKERS: usize = 4;

/// What is replicated: how many messages there were, and a hash of all of them in their order.
#[derive(Clone, Copy)]
struct State {
    count: u64,
    hash: u64,
}

impl State {
    const NONE: State = State {
        count: 0,
        hash: 0xcbf2_9ce4_8422_2325,
    };

    fn apply(&mut self, item: &Item) {
        self.count += 1;
        let words = [u64::from(item.sender), item.number, item.len() as u64];
        let bytes = item.iter().map(|byte| u64::from(*byte));
        self.hash = hash(self.hash, words.into_iter().chain(bytes));
    }
}

fn hash(before: u64, words: impl Iterator<Item = u64>) -> u64 {
    let behind = |hash: u64, word: u64| (hash ^ word).wrapping_mul(0x0100_0000_01b3);
    words.fold(before, behind)
}

/// Numbers that look random, by Marsaglia's xorshift.
struct Dice(u64);

impl Dice {
    fn below(&mut self, many: u64) -> u64 {
        self.0 ^= self.0 << 13;
        self.0 ^= self.0 >> 7;
        self.0 ^= self.0 << 17;
        (self.0 >> 11) % many
    }
}

/// What the journals of a folder say, and in which file to go on.
fn recover(folder: &str) -> Result<(State, Page, String), Fault> {
    let (mut state, mut page) = (State::NONE, Page::from_numbers(&[0])?);
    for number in 0.. {
        let path = format!("{folder}/journal.{number}");
        if fs::metadata(&path).is_err() {
            return Ok((state, page, path));
        }
        let read = journal::read(&path)?;
        let next = read.page_after(&page);
        page = next.map_err(|why| format!("{path}: {why}"))?;
        read.items().for_each(|item| state.apply(item));
    }
    unreachable!("all numbers have a file")
}

/// A file behind a cache that a kill loses: what is written reaches it by a sync, and some before.
struct Cached {
    file: File,
    kept: Vec<u8>,
    dice: Dice,
}

impl Cached {
    /// Takes so many bytes of the cache to the file. What that has taken is there once, also where
    /// it takes no more.
    fn take(&mut self, mut many: usize) -> io::Result<()> {
        while many > 0 {
            let more = self.file.write(&self.kept[..many])?;
            self.kept.drain(..more);
            many -= more;
        }
        Ok(())
    }
}

impl Write for Cached {
    fn write(&mut self, bytes: &[u8]) -> io::Result<usize> {
        self.kept.extend_from_slice(bytes);
        if self.dice.below(4) == 0 {
            let some = self.dice.below(self.kept.len() as u64 + 1) as usize;
            self.take(some)?;
        }
        Ok(bytes.len())
    }

    fn flush(&mut self) -> io::Result<()> {
        Ok(())
    }
}

impl JournalFile for Cached {
    fn sync(&mut self) -> io::Result<()> {
        thread::sleep(Duration::from_micros(self.dice.below(3000)));
        self.take(self.kept.len())?;
        self.file.sync_data()
    }
}

/// Records by one sync behind each frame, by one for those that are there, or by one a millisecond.
fn record<F: JournalFile>(
    mut ear: Receiver,
    mut journal: Journal<F>,
    policy: SyncPolicy,
) -> Result<(), JournalError> {
    if let SyncPolicy::Every(time) = policy {
        loop {
            match ear.next_frame_timeout(time) {
                NextFrame::Frame(frame) => journal.write(&frame)?,
                NextFrame::Stopped => journal.sync()?,
                NextFrame::End => return journal.sync(),
            }
        }
    }
    while let Some(first) = ear.next_frame() {
        for frame in iter::once(first)
            .chain(iter::from_fn(|| ear.try_frame()))
            .take(50)
        {
            journal.write(&frame)?;
        }
        journal.sync()?;
    }
    Ok(())
}

struct Worker {
    sender: Sender,
    receiver: Receiver,
    state: State,
    dice: Dice,
    on_disk: Watch,
    /// Its messages that are applied and not said, with the hash behind each.
    unsaid: Vec<(u64, u64)>,
}

impl Worker {
    /// Applies what is there. Says whether there was something.
    fn hear(&mut self) -> bool {
        let (own, before) = (self.sender.number(), self.state.count);
        while let Some(item) = self.receiver.try_item() {
            self.state.apply(&item);
            if item.sender == own {
                self.unsaid.push((item.number, self.state.hash));
            }
        }
        self.state.count > before
    }

    fn hear_or_yield(&mut self) {
        if !self.hear() {
            thread::yield_now();
        }
    }

    /// Sends a batch of random messages, and hears up to the last of them.
    fn send(&mut self) -> Result<(), Fault> {
        let mut last = 0;
        for _ in 0..=self.dice.below(6) {
            let length = self.dice.below(57) as usize;
            let message: Vec<_> = (0..length).map(|_| self.dice.below(256) as u8).collect();
            last = self.sender.put(&message)?;
        }
        loop {
            match self.sender.try_send() {
                Ok(Turn::Delivered { .. }) => break,
                Ok(turn) => return Err(format!("not sent: {turn}").into()),
                Err(TrySendError::Full) => {
                    while !self.sender.has_room()? {
                        self.hear_or_yield();
                    }
                }
                Err(_) => self.hear_or_yield(),
            }
        }
        while self.unsaid.last().map_or(true, |said| said.0 < last) {
            self.hear_or_yield();
        }
        Ok(())
    }

    /// Says what it has sent, once that is on disk.
    fn say(&mut self) -> Result<(), Fault> {
        self.on_disk.wait(self.sender.words())?;
        let (mut text, own) = (String::new(), self.sender.number());
        for (number, hash) in self.unsaid.drain(..) {
            writeln!(text, "durable {own} {number} {hash:016x}")?;
        }
        // By one write, which a pipe takes whole.
        io::stdout().lock().write_all(text.as_bytes())?;
        Ok(())
    }

    fn work(mut self) -> Result<(), Fault> {
        loop {
            for _ in 0..=self.dice.below(4) {
                self.send()?;
            }
            self.say()?;
        }
    }
}

fn run(folder: &str, seed: u64) -> Result<(), Fault> {
    let mut dice = Dice(seed.wrapping_mul(0x9e37_79b9_7f4a_7c15) | 1);
    let (state, page, path) = recover(folder)?;
    println!("recovered {} {:016x}", state.count, state.hash);
    let millisecond = SyncPolicy::Every(Duration::from_millis(1));
    let policies = [SyncPolicy::EachFrame, SyncPolicy::Never, millisecond];
    let policy = policies[dice.below(3) as usize];
    let header = Header::after(WORKERS, &page)?;
    if seed % 2 == 0 {
        let journal = Journal::create(path, header, policy)?;
        return serve(page, state, journal, policy, dice);
    }
    let begun = format!("{path}.new");
    let cached = Cached {
        file: File::create(&begun)?,
        kept: Vec::new(),
        dice: Dice(dice.below(u64::MAX) | 1),
    };
    let journal = Journal::on(cached, header, policy)?;
    fs::rename(begun, path)?;
    serve(page, state, journal, policy, dice)
}

/// Has the workers work, and a thread record what they send.
fn serve<F: JournalFile + Send + 'static>(
    page: Page,
    state: State,
    journal: Journal<F>,
    policy: SyncPolicy,
    mut dice: Dice,
) -> Result<(), Fault> {
    let log_words = [64, 256, 4096, 65_536][dice.below(4) as usize];
    let shape = Shape {
        log_words,
        ring: true,
        batch: if log_words < 513 {
            (log_words - 1) / 8
        } else {
            0
        },
        ..Shape::of(WORKERS, WORKERS + 1)
    };
    let (senders, mut receivers) = Bus::open_after(shape, page)?;
    let (on_disk, ear) = (journal.watch(), receivers.remove(WORKERS));
    let records = thread::spawn(move || record(ear, journal, policy));
    let pairs = senders.into_iter().zip(receivers);
    let workers = pairs.map(|(sender, receiver)| Worker {
        sender,
        receiver,
        state,
        dice: Dice(dice.below(u64::MAX) | 1),
        on_disk: on_disk.clone(),
        unsaid: Vec::new(),
    });
    let workers: Vec<_> = workers.map(|it| thread::spawn(|| it.work())).collect();
    for worker in workers {
        worker.join().expect("a panic")?;
    }
    Ok(records.join().expect("a panic")?)
}

/// What the reader says of a file that it has read.
fn told(read: &Recovered) -> String {
    let mut state = State::NONE;
    read.items().for_each(|item| state.apply(item));
    let end = match read.end() {
        End::Whole => format!("whole {}", read.whole_bytes()),
        End::Torn { at } => format!("torn {at}"),
        End::Damaged { at } => format!("damaged {at}"),
    };
    let page = if read.page().is_ok() { "yes" } else { "no" };
    let words = read.frames().iter().flat_map(Frame::words);
    let next: Vec<_> = read.next_numbers().iter().map(u64::to_string).collect();
    format!(
        "{end} page {page} frames {} {:016x} place {} state {} {:016x} next {}",
        read.frames().len(),
        hash(State::NONE.hash, words),
        read.place(),
        state.count,
        state.hash,
        next.join(" ")
    )
}

fn said(read: Result<Recovered, ReadError>) -> String {
    match read {
        Ok(read) => told(&read),
        Err(ReadError::OtherMagic) => "OtherMagic".to_string(),
        Err(ReadError::OtherVersion { .. }) => "OtherVersion".to_string(),
        Err(ReadError::TornHeader) => "TornHeader".to_string(),
        Err(ReadError::DamagedHeader) => "DamagedHeader".to_string(),
        Err(other) => other.to_string(),
    }
}

fn read_copies() -> io::Result<()> {
    let (mut input, mut output) = (io::stdin().lock(), io::stdout().lock());
    let mut length = [0; 8];
    while !input.fill_buf()?.is_empty() {
        input.read_exact(&mut length)?;
        let mut bytes = vec![0; u64::from_be_bytes(length) as usize];
        input.read_exact(&mut bytes)?;
        writeln!(output, "{}", said(journal::read_from(&bytes[..])))?;
    }
    Ok(())
}

/// Writes the frames of a file into a new one.
fn write_again(from: &str, to: &str) -> Result<(), Fault> {
    let read = journal::read(from)?;
    let mut journal = Journal::create(to, read.header().clone(), SyncPolicy::Never)?;
    Ok(read
        .frames()
        .iter()
        .try_for_each(|it| journal.write(it))?)
}

fn main() {
    let words: Vec<String> = env::args().skip(1).collect();
    let words: Vec<&str> = words.iter().map(String::as_str).collect();
    match words[..] {
        ["run", folder, seed] => {
            let ended = run(folder, seed.parse().expect("a seed"));
            eprintln!("crash: {}", ended.unwrap_err());
            process::exit(1);
        }
        ["read", ref files @ ..] => {
            let read = |path| println!("{}", said(journal::read(path)));
            files.iter().for_each(read);
        }
        ["copies"] => read_copies().expect("a stream"),
        ["again", from, to] => write_again(from, to).expect("a file"),
        _ => {
            eprintln!("usage: crash run FOLDER SEED | read FILE.. | copies | again FILE TO");
            process::exit(2);
        }
    }
}
