//! What a journal costs: bench/journal builds this program, and says what its table has.
//!
//! `journal MESSAGES FOLDER` has four workers send so many messages each, by each kind in each of
//! five rounds, and prints the table. The file of a run stands in the folder until it is read
//! back: it has to have all messages that were sent, and no other.

use kioskbasil::journal::{self, End, Header, Journal, Safe, SyncPolicy, Watch};
use kioskbasil::{Bus, Frame, Item, NextFrame, NextItems, Page, Receiver, Sender, Shape};
use kioskbasil::{TrySendError, Turn, LOG_MESSAGES, MOST_BYTES};
use std::error::Error;
use std::fs::{self, File};
use std::io::Write;
use std::path::Path;
use std::sync::Barrier;
use std::time::{Duration, Instant};
use std::{env, iter, process, thread};

type Fault = Box<dyn Error + Send + Sync>;

const WORKERS: usize = 4;
const ROUNDS: usize = 5;

/// Where workers wait for the disk they send one in so many of the messages.
const FEWER: u64 = 20;

/// Words of a message, of the ring, and how many full frames stand in that at once: so many are
/// kept by one sync at most.
const MESSAGE_WORDS: usize = 1 + MOST_BYTES / 8;
const LOG_WORDS: usize = 65_536;
const MOST_FRAMES: usize = LOG_WORDS / (1 + LOG_MESSAGES * MESSAGE_WORDS);

/// What keeps the frames.
#[derive(Clone, Copy, PartialEq, Eq)]
enum Keeps {
    Nothing,
    Journal,
    Plain,
    #[cfg(feature = "sqlite")]
    Sqlite,
}

/// When it syncs.
#[derive(Clone, Copy)]
enum Syncs {
    Never,
    Every(Duration),
    /// Behind all frames that are there.
    Batch,
}

/// A row of the table.
struct Kind {
    name: &'static str,
    keeps: Keeps,
    syncs: Syncs,
    /// Messages of a frame.
    batch: usize,
    /// Each worker waits behind each frame of its own until that is on disk.
    waits: bool,
}

impl Kind {
    const fn of(name: &'static str, keeps: Keeps, syncs: Syncs) -> Kind {
        Kind {
            name,
            keeps,
            syncs,
            batch: LOG_MESSAGES,
            waits: false,
        }
    }

    /// A journal, for whose disk the workers wait after so many messages.
    const fn waiting(name: &'static str, batch: usize) -> Kind {
        Kind {
            batch,
            waits: true,
            ..Kind::of(name, Keeps::Journal, Syncs::Batch)
        }
    }

    /// How many messages each worker sends, where the others send so many.
    fn messages(&self, many: u64) -> u64 {
        if self.waits {
            (many / FEWER).max(1)
        } else {
            many
        }
    }
}

const TEN: Duration = Duration::from_millis(10);

const KINDS: &[Kind] = &[
    Kind::of("no journal", Keeps::Nothing, Syncs::Never),
    Kind::of("journal, no sync", Keeps::Journal, Syncs::Never),
    Kind::of(
        "journal, a sync every 10 ms",
        Keeps::Journal,
        Syncs::Every(TEN),
    ),
    Kind::of("journal, group commit", Keeps::Journal, Syncs::Batch),
    Kind::waiting("the same, waits after each 16", LOG_MESSAGES),
    Kind::waiting("the same, waits after each one", 1),
    Kind::of("plain file, group commit", Keeps::Plain, Syncs::Batch),
    #[cfg(feature = "sqlite")]
    Kind::of("SQLite, group commit", Keeps::Sqlite, Syncs::Batch),
];

/// What a sender sends. No two messages are equal.
fn message(sender: u64, number: u64) -> [u8; MOST_BYTES] {
    let mut bytes = [0; MOST_BYTES];
    let mut word = sender << 48 | number;
    for eight in bytes.chunks_exact_mut(8) {
        word = (word ^ 0x2545_f491).wrapping_mul(0x9e37_79b9_7f4a_7c15);
        eight.copy_from_slice(&word.to_le_bytes());
    }
    bytes
}

/// The next number of each sender, behind the messages that were found.
#[derive(Default)]
struct Found([u64; WORKERS]);

impl Found {
    /// This is the next message of its sender, or it was not sent so.
    fn take(&mut self, sender: u64, number: u64, bytes: &[u8]) -> Result<(), Fault> {
        let next = self.0.get_mut(sender as usize);
        let next = next.ok_or_else(|| format!("a message of sender {sender}, which is none"))?;
        if number != *next {
            return Err(format!("message {number} of sender {sender}, and not {next}").into());
        }
        if bytes != &message(sender, number)[..] {
            return Err(format!("message {number} of sender {sender} has other bytes").into());
        }
        *next += 1;
        Ok(())
    }

    fn item(&mut self, item: &Item) -> Result<(), Fault> {
        self.take(u64::from(item.sender), item.number, item)
    }

    /// These are all.
    fn all(&self, messages: u64) -> Result<(), Fault> {
        if self.0 != [messages; WORKERS] {
            return Err(format!("{:?} messages, and not {messages} of each", self.0).into());
        }
        Ok(())
    }
}

/// Keeps frames in a file.
trait Keeper {
    fn take(&mut self, frame: &Frame) -> Result<(), Fault>;

    /// Brings to disk what it has taken.
    fn sync(&mut self) -> Result<(), Fault>;

    /// How many syncs it has made.
    fn syncs(&self) -> u64;

    /// What tells a worker what is on disk.
    fn watch(&self) -> Option<Watch> {
        None
    }
}

struct Nothing;

impl Keeper for Nothing {
    fn take(&mut self, _: &Frame) -> Result<(), Fault> {
        Ok(())
    }

    fn sync(&mut self) -> Result<(), Fault> {
        Ok(())
    }

    fn syncs(&self) -> u64 {
        0
    }
}

/// A journal, and what of it was on disk behind the last sync that was counted.
struct Recorded {
    journal: Journal,
    safe: Safe,
    syncs: u64,
}

impl Recorded {
    fn create(path: &Path, syncs: Syncs) -> Result<Recorded, Fault> {
        let policy = match syncs {
            Syncs::Every(time) => SyncPolicy::Every(time),
            Syncs::Never | Syncs::Batch => SyncPolicy::Never,
        };
        let header = Header::after(WORKERS, &Page::from_numbers(&[0])?)?;
        let journal = Journal::create(path, header, policy)?;
        Ok(Recorded {
            safe: journal.safe(),
            journal,
            syncs: 0,
        })
    }

    /// Counts a sync where more is on disk.
    fn count(&mut self) {
        let safe = self.journal.safe();
        self.syncs += u64::from(safe != self.safe);
        self.safe = safe;
    }
}

impl Keeper for Recorded {
    fn take(&mut self, frame: &Frame) -> Result<(), Fault> {
        self.journal.write(frame)?;
        self.count();
        Ok(())
    }

    fn sync(&mut self) -> Result<(), Fault> {
        self.journal.sync()?;
        self.count();
        Ok(())
    }

    fn syncs(&self) -> u64 {
        self.syncs
    }

    fn watch(&self) -> Option<Watch> {
        Some(self.journal.watch())
    }
}

fn read_journal(path: &Path, found: &mut Found) -> Result<(), Fault> {
    let read = journal::read(path)?;
    if read.end() != End::Whole {
        return Err(format!("the journal ends {:?}", read.end()).into());
    }
    let mut items = read.items();
    items.try_for_each(|item| found.item(item))
}

/// A file with the words of the frames, one behind another.
struct Plain {
    file: File,
    bytes: Vec<u8>,
    syncs: u64,
}

impl Plain {
    fn create(path: &Path) -> Result<Plain, Fault> {
        let file = File::create(path)?;
        file.sync_all()?;
        File::open(path.parent().ok_or("no folder")?)?.sync_all()?;
        Ok(Plain {
            file,
            bytes: Vec::new(),
            syncs: 0,
        })
    }
}

impl Keeper for Plain {
    fn take(&mut self, frame: &Frame) -> Result<(), Fault> {
        self.bytes.clear();
        for word in frame.words() {
            self.bytes.extend_from_slice(&word.to_be_bytes());
        }
        let written = self.file.write_all(&self.bytes);
        written.map_err(|why| format!("the file is not written: {why}").into())
    }

    fn sync(&mut self) -> Result<(), Fault> {
        let synced = self.file.sync_data();
        self.syncs += 1;
        synced.map_err(|why| format!("the file is not synced: {why}").into())
    }

    fn syncs(&self) -> u64 {
        self.syncs
    }
}

fn read_plain(path: &Path, found: &mut Found) -> Result<(), Fault> {
    let bytes = fs::read(path)?;
    let word = |eight: &[u8]| eight.iter().fold(0, |word, it| word << 8 | u64::from(*it));
    let mut rest = &bytes[..];
    while !rest.is_empty() {
        let head = rest.get(..8).map(word).ok_or("the file ends in a word")?;
        let length = 8 * (1 + (head >> 40 & 0x3fff) as usize);
        let frame = rest.get(8..length).ok_or("the file ends in a frame")?;
        // A mark of the end has one word, and is no message.
        for message in frame.chunks_exact(8 * MESSAGE_WORDS) {
            let number = word(&message[..8]) & ((1 << 48) - 1);
            found.take(head >> 54 & 0xff, number, &message[8..])?;
        }
        rest = &rest[length..];
    }
    Ok(())
}

/// SQLite, by its C library.
#[cfg(feature = "sqlite")]
mod sqlite {
    use super::{Fault, Found, Keeper};
    use kioskbasil::{Frame, Item};
    use std::ffi::{CStr, CString};
    use std::os::raw::{c_char, c_int, c_void};
    use std::os::unix::ffi::OsStrExt;
    use std::path::Path;
    use std::rc::Rc;
    use std::{ptr, slice};

    /// The codes that are no faults.
    const OK: c_int = 0;
    const ROW: c_int = 100;
    const DONE: c_int = 101;

    type Free = Option<unsafe extern "C" fn(*mut c_void)>;

    #[link(name = "sqlite3")]
    extern "C" {
        fn sqlite3_open(name: *const c_char, base: *mut *mut c_void) -> c_int;
        fn sqlite3_close(base: *mut c_void) -> c_int;
        fn sqlite3_errmsg(base: *mut c_void) -> *const c_char;
        fn sqlite3_prepare_v2(
            base: *mut c_void,
            text: *const c_char,
            length: c_int,
            statement: *mut *mut c_void,
            rest: *mut *const c_char,
        ) -> c_int;
        fn sqlite3_finalize(statement: *mut c_void) -> c_int;
        fn sqlite3_step(statement: *mut c_void) -> c_int;
        fn sqlite3_reset(statement: *mut c_void) -> c_int;
        fn sqlite3_bind_int64(statement: *mut c_void, place: c_int, value: i64) -> c_int;
        fn sqlite3_bind_blob(
            statement: *mut c_void,
            place: c_int,
            bytes: *const c_void,
            length: c_int,
            free: Free,
        ) -> c_int;
        fn sqlite3_column_int64(statement: *mut c_void, column: c_int) -> i64;
        fn sqlite3_column_blob(statement: *mut c_void, column: c_int) -> *const c_void;
        fn sqlite3_column_bytes(statement: *mut c_void, column: c_int) -> c_int;
    }

    /// A connection to a database.
    struct Base(*mut c_void);

    impl Base {
        fn open(path: &Path) -> Result<Rc<Base>, Fault> {
            let name = CString::new(path.as_os_str().as_bytes())?;
            let mut raw = ptr::null_mut();
            // SAFETY: the name ends with a zero byte, and `raw` is of this function.
            let code = unsafe { sqlite3_open(name.as_ptr(), &mut raw) };
            let base = Rc::new(Base(raw));
            base.check("it is not opened", code)?;
            Ok(base)
        }

        /// Err where the code says that a call failed, with what the library says of it.
        fn check(&self, text: &str, code: c_int) -> Result<(), Fault> {
            if code == OK {
                return Ok(());
            }
            // SAFETY: the library takes what `sqlite3_open` has given, null too. Its text ends
            // with a zero byte, and is copied before the next call.
            let why = unsafe { CStr::from_ptr(sqlite3_errmsg(self.0)).to_string_lossy() };
            Err(format!("SQLite: {text}: {why}").into())
        }
    }

    impl Drop for Base {
        fn drop(&mut self) {
            // SAFETY: it is this value's own. Its statements keep it, so they are all gone.
            unsafe { sqlite3_close(self.0) };
        }
    }

    struct Statement {
        raw: *mut c_void,
        base: Rc<Base>,
        text: &'static str,
    }

    impl Statement {
        fn of(base: &Rc<Base>, text: &'static str) -> Result<Statement, Fault> {
            let (mut raw, none) = (ptr::null_mut(), ptr::null_mut());
            let (bytes, length) = (text.as_ptr().cast(), text.len() as c_int);
            // SAFETY: the base is open, the text has so many bytes, and `raw` is of this function.
            let code = unsafe { sqlite3_prepare_v2(base.0, bytes, length, &mut raw, none) };
            base.check(text, code)?;
            Ok(Statement {
                raw,
                base: base.clone(),
                text,
            })
        }

        /// Goes on to its next row. False says that there is none, and that it begins anew then.
        fn step(&mut self) -> Result<bool, Fault> {
            // SAFETY: the statement is this value's own.
            let code = unsafe { sqlite3_step(self.raw) };
            if code == ROW {
                return Ok(true);
            }
            let done = if code == DONE { OK } else { code };
            self.base.check(self.text, done)?;
            // SAFETY: as above.
            unsafe { sqlite3_reset(self.raw) };
            Ok(false)
        }

        /// Runs it with the three values of a message.
        fn insert(&mut self, item: &Item) -> Result<(), Fault> {
            let (bytes, length) = (item.as_ptr().cast(), item.len() as c_int);
            let (sender, number) = (i64::from(item.sender), item.number as i64);
            // SAFETY: as in `step`; the bytes outlive this call, and it binds others before each
            // step, so the library reads them within it alone.
            let codes = unsafe {
                [
                    sqlite3_bind_int64(self.raw, 1, sender),
                    sqlite3_bind_int64(self.raw, 2, number),
                    sqlite3_bind_blob(self.raw, 3, bytes, length, None),
                ]
            };
            for code in codes {
                self.base.check(self.text, code)?;
            }
            self.step().map(drop)
        }

        /// The first value of its next row, which it has.
        fn answer(&mut self) -> Result<Vec<u8>, Fault> {
            if !self.step()? {
                return Err(format!("SQLite: {}: no answer", self.text).into());
            }
            Ok(self.bytes(0))
        }

        /// A number of the row to which it has come.
        fn number(&mut self, column: c_int) -> u64 {
            // SAFETY: as in `step`, and it has come to a row.
            unsafe { sqlite3_column_int64(self.raw, column) as u64 }
        }

        /// As `number`.
        fn bytes(&mut self, column: c_int) -> Vec<u8> {
            // SAFETY: as in `number`.
            let bytes = unsafe { sqlite3_column_blob(self.raw, column) };
            // SAFETY: as in `number`.
            let length = unsafe { sqlite3_column_bytes(self.raw, column) };
            if bytes.is_null() {
                return Vec::new();
            }
            // SAFETY: the library keeps so many bytes there until the statement goes on.
            unsafe { slice::from_raw_parts(bytes.cast(), length as usize) }.to_vec()
        }
    }

    impl Drop for Statement {
        fn drop(&mut self) {
            // SAFETY: it is this value's own, and its base is open until behind this.
            unsafe { sqlite3_finalize(self.raw) };
        }
    }

    /// A row for each message.
    pub struct Rows {
        begin: Statement,
        insert: Statement,
        commit: Statement,
        /// A transaction is open.
        begun: bool,
        syncs: u64,
    }

    impl Rows {
        pub fn create(path: &Path) -> Result<Rows, Fault> {
            let base = Base::open(path)?;
            let mode = Statement::of(&base, "PRAGMA journal_mode = WAL")?.answer()?;
            Statement::of(&base, "PRAGMA synchronous = FULL")?.step()?;
            let level = Statement::of(&base, "PRAGMA synchronous")?.answer()?;
            if (&mode[..], &level[..]) != (b"wal", b"2") {
                return Err("SQLite: it is not in WAL with synchronous=FULL".into());
            }
            let table = "CREATE TABLE messages (sender INTEGER, number INTEGER, bytes BLOB)";
            Statement::of(&base, table)?.step()?;
            Ok(Rows {
                begin: Statement::of(&base, "BEGIN")?,
                insert: Statement::of(&base, "INSERT INTO messages VALUES (?, ?, ?)")?,
                commit: Statement::of(&base, "COMMIT")?,
                begun: false,
                syncs: 0,
            })
        }
    }

    impl Keeper for Rows {
        fn take(&mut self, frame: &Frame) -> Result<(), Fault> {
            for item in frame.items() {
                if !self.begun {
                    self.begin.step()?;
                    self.begun = true;
                }
                self.insert.insert(item)?;
            }
            Ok(())
        }

        fn sync(&mut self) -> Result<(), Fault> {
            if self.begun {
                self.commit.step()?;
                self.begun = false;
                self.syncs += 1;
            }
            Ok(())
        }

        fn syncs(&self) -> u64 {
            self.syncs
        }
    }

    pub fn read(path: &Path, found: &mut Found) -> Result<(), Fault> {
        let base = Base::open(path)?;
        let text = "SELECT sender, number, bytes FROM messages ORDER BY rowid";
        let mut rows = Statement::of(&base, text)?;
        while rows.step()? {
            let (sender, number) = (rows.number(0), rows.number(1));
            found.take(sender, number, &rows.bytes(2))?;
        }
        Ok(())
    }
}

impl Keeps {
    fn open(self, path: &Path, syncs: Syncs) -> Result<Box<dyn Keeper>, Fault> {
        Ok(match self {
            Keeps::Nothing => Box::new(Nothing),
            Keeps::Journal => Box::new(Recorded::create(path, syncs)?),
            Keeps::Plain => Box::new(Plain::create(path)?),
            #[cfg(feature = "sqlite")]
            Keeps::Sqlite => Box::new(sqlite::Rows::create(path)?),
        })
    }

    /// What was kept is what was sent: so many messages of each worker.
    fn check(self, path: &Path, messages: u64) -> Result<(), Fault> {
        let mut found = Found::default();
        match self {
            Keeps::Nothing => return Ok(()),
            Keeps::Journal => read_journal(path, &mut found)?,
            Keeps::Plain => read_plain(path, &mut found)?,
            #[cfg(feature = "sqlite")]
            Keeps::Sqlite => sqlite::read(path, &mut found)?,
        }
        found.all(messages)
    }
}

/// Hears all frames, and has them kept. By an error the keeper is dropped, which a watch tells.
fn record(
    mut ear: Receiver,
    mut keeper: Box<dyn Keeper>,
    syncs: Syncs,
) -> Result<Box<dyn Keeper>, Fault> {
    match syncs {
        Syncs::Never => {
            while let Some(frame) = ear.next_frame() {
                keeper.take(&frame)?;
            }
        }
        Syncs::Every(time) => {
            loop {
                match ear.next_frame_timeout(time) {
                    NextFrame::Frame(frame) => keeper.take(&frame)?,
                    NextFrame::Stopped => keeper.sync()?,
                    NextFrame::End => break,
                }
            }
            keeper.sync()?;
        }
        Syncs::Batch => {
            while let Some(first) = ear.next_frame() {
                let more = iter::from_fn(|| ear.try_frame());
                for frame in iter::once(first).chain(more).take(MOST_FRAMES) {
                    keeper.take(&frame)?;
                }
                keeper.sync()?;
            }
        }
    }
    Ok(keeper)
}

struct Worker {
    sender: Sender,
    receiver: Receiver,
    heard: Found,
    /// Messages of a frame.
    batch: usize,
    /// Where it waits for the disk.
    on_disk: Option<Watch>,
}

impl Worker {
    /// Hears what is there, 32 messages at most. Says whether there was one.
    fn hear(&mut self) -> Result<bool, Fault> {
        let items = self.receiver.try_items();
        let is_there = !items.is_empty();
        for item in items {
            self.heard.item(item)?;
        }
        Ok(is_there)
    }

    /// Hears until there is room, and sleeps where nothing is there.
    fn wait_for_room(&mut self) -> Result<(), Fault> {
        let sender = &mut self.sender;
        let mut is_full = || sender.has_room() == Ok(false);
        while let NextItems::Items(items) = self.receiver.next_items_while(&mut is_full) {
            for item in items {
                self.heard.item(item)?;
            }
        }
        Ok(())
    }

    /// Sends what waits, and hears while it cannot.
    fn send(&mut self) -> Result<(), Fault> {
        loop {
            match self.sender.try_send() {
                Ok(Turn::Delivered { .. }) => return Ok(()),
                Ok(turn) => return Err(format!("not sent: {turn}").into()),
                Err(TrySendError::Full) => self.wait_for_room()?,
                Err(TrySendError::NeverFits) => return Err(TrySendError::NeverFits.into()),
                Err(TrySendError::Waiting | TrySendError::Behind) => {
                    if !self.hear()? {
                        thread::yield_now();
                    }
                }
            }
        }
    }

    /// Sends so many messages, and hears up to the end of the order.
    fn work(mut self, messages: u64) -> Result<Found, Fault> {
        let own = u64::from(self.sender.number());
        for first in (0..messages).step_by(self.batch) {
            for number in (first..messages).take(self.batch) {
                self.sender.put(&message(own, number))?;
            }
            self.send()?;
            if let Some(on_disk) = &self.on_disk {
                on_disk.wait(self.sender.words())?;
            }
            while self.hear()? {}
        }
        drop(self.sender);
        for item in self.receiver {
            self.heard.item(&item)?;
        }
        Ok(self.heard)
    }
}

/// What a run came to.
struct Measured {
    /// Nanoseconds a message.
    time: u64,
    syncs: u64,
    bytes: u64,
}

/// How many bytes this process has written so far, to whatever file.
fn bytes_written() -> Result<u64, Fault> {
    let counts = fs::read_to_string("/proc/self/io")?;
    let line = counts.lines().find_map(|it| it.strip_prefix("wchar: "));
    Ok(line.ok_or("no wchar in /proc/self/io")?.parse()?)
}

/// Has each worker work in a thread of its own, and keeps here what they send. Gives how long that
/// took, until all is kept and heard.
fn work_and_record(
    workers: Vec<Worker>,
    messages: u64,
    recording: impl FnOnce() -> Result<Box<dyn Keeper>, Fault>,
) -> Result<(Duration, Box<dyn Keeper>), Fault> {
    let begin = &Barrier::new(workers.len() + 1);
    thread::scope(|scope| {
        let start = |worker: Worker| {
            scope.spawn(move || {
                begin.wait();
                worker.work(messages)
            })
        };
        let threads: Vec<_> = workers.into_iter().map(start).collect();
        begin.wait();
        let begun = Instant::now();
        let recorded = recording();
        let worked: Vec<_> = threads.into_iter().map(|it| it.join()).collect();
        let time = begun.elapsed();
        let keeper = recorded?;
        let mut heard = Vec::new();
        for worked in worked {
            heard.push(worked.map_err(|_| "a worker panicked")??);
        }
        heard.iter().try_for_each(|it| it.all(messages))?;
        Ok((time, keeper))
    })
}

fn run(kind: &Kind, messages: u64, path: &Path) -> Result<Measured, Fault> {
    let shape = Shape {
        log_words: LOG_WORDS as u64,
        ring: true,
        ..Shape::of(WORKERS, WORKERS + 1)
    };
    let (senders, mut receivers) = Bus::open(shape)?;
    let ear = receivers.remove(WORKERS);
    senders[0].end_with_senders();
    let keeper = kind.keeps.open(path, kind.syncs)?;
    let pairs = senders.into_iter().zip(receivers);
    let workers = pairs.map(|(sender, receiver)| Worker {
        sender,
        receiver,
        heard: Found::default(),
        batch: kind.batch,
        on_disk: keeper.watch().filter(|_| kind.waits),
    });
    let (workers, before) = (workers.collect(), bytes_written()?);
    let recording = || record(ear, keeper, kind.syncs);
    let (time, keeper) = work_and_record(workers, messages, recording)?;
    Ok(Measured {
        time: time.as_nanos() as u64 / (messages * WORKERS as u64),
        syncs: keeper.syncs(),
        bytes: bytes_written()? - before,
    })
}

/// A run in a folder of its own, whose file is read back and goes then.
fn run_and_check(kind: &Kind, messages: u64, folder: &Path) -> Result<Measured, Fault> {
    let folder = folder.join("run");
    let path = folder.join("kept");
    fs::create_dir(&folder).map_err(|why| format!("{}: {why}", folder.display()))?;
    let measured = run(kind, messages, &path)?;
    let checked = kind.keeps.check(&path, messages);
    checked.map_err(|why| format!("what was kept is not what was sent: {why}"))?;
    fs::remove_dir_all(&folder)?;
    Ok(measured)
}

/// A number with commas.
fn told(number: u64) -> String {
    let digits = number.to_string();
    let parts = digits.as_bytes().rchunks(3).rev();
    let parts: Vec<_> = parts.map(String::from_utf8_lossy).collect();
    parts.join(",")
}

/// All runs, and then the table: of each kind the run in the middle by its time.
fn measure(many: u64, folder: &Path) -> Result<(), Fault> {
    let mut all: Vec<Vec<Measured>> = KINDS.iter().map(|_| Vec::new()).collect();
    for _ in 0..ROUNDS {
        for (kind, runs) in KINDS.iter().zip(&mut all) {
            let measured = run_and_check(kind, kind.messages(many), folder);
            runs.push(measured.map_err(|why| format!("{}: {why}", kind.name))?);
        }
    }
    println!("| | messages | ns a message | least, most | syncs | bytes |");
    println!("|---|---|---|---|---|---|");
    for (kind, runs) in KINDS.iter().zip(&mut all) {
        runs.sort_by_key(|it| it.time);
        let (least, middle, most) = (&runs[0], &runs[ROUNDS / 2], &runs[ROUNDS - 1]);
        let messages = kind.messages(many) * WORKERS as u64;
        println!(
            "| {} | {} | {} | {}, {} | {} | {} |",
            kind.name,
            told(messages),
            told(middle.time),
            told(least.time),
            told(most.time),
            told(middle.syncs),
            told(middle.bytes)
        );
    }
    Ok(())
}

fn main() {
    let words: Vec<String> = env::args().skip(1).collect();
    let measured = match &words[..] {
        [messages, folder] => {
            let messages = messages.parse::<u64>().map_err(Fault::from);
            messages.and_then(|many| measure(many, Path::new(folder)))
        }
        _ => Err("usage: journal MESSAGES FOLDER".into()),
    };
    if let Err(why) = measured {
        eprintln!("bench/journal: {why}");
        process::exit(1);
    }
}
