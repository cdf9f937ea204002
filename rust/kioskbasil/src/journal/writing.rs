//! How a journal is written.

use super::log::Log;
use super::watch::{Told, Watch};
use super::{Doing, Header, JournalError, Safe};
use crate::Frame;
use std::ffi::OsString;
use std::fs::{self, File, OpenOptions};
use std::io::{self, Write};
use std::path::{Path, PathBuf};
use std::process;
use std::sync::Arc;
use std::time::{Duration, Instant};

/// What a journal is written to: a file, or bytes in memory.
pub trait JournalFile: Write {
    /// Brings all that was written to disk, with what is needed to find it there. Err says that
    /// some of it may be missing.
    fn sync(&mut self) -> io::Result<()>;
}

impl JournalFile for File {
    fn sync(&mut self) -> io::Result<()> {
        self.sync_data()
    }
}

impl JournalFile for Vec<u8> {
    fn sync(&mut self) -> io::Result<()> {
        Ok(())
    }
}

/// When `Journal::write` syncs.
#[derive(Clone, Copy, Debug, PartialEq, Eq)]
pub enum SyncPolicy {
    /// Behind each frame.
    EachFrame,
    /// Behind a frame, if the last sync is so long ago. Where no frame follows, the last ones wait
    /// for `Journal::sync`: call it where `Receiver::next_frame_timeout` comes to `Stopped`.
    Every(Duration),
    /// By `Journal::sync` alone.
    Never,
}

/// Records the frames of a log in a file: each is appended by one write. One that is dropped syncs
/// nothing.
#[derive(Debug)]
pub struct Journal<F: JournalFile = File> {
    file: F,
    path: Option<PathBuf>,
    log: Log,
    policy: SyncPolicy,
    synced_at: Instant,
    written: Safe,
    told: Told,
    record: Vec<u8>,
}

impl Journal<File> {
    /// Makes a file with this header, and brings it to disk under its name: a crash leaves a whole
    /// header, or no file of this name. Until then its name is `PATH.PROCESS.NUMBER.new`, which a
    /// crash may leave behind; then it is given its own by a hard link. So a file that is there is
    /// never replaced, nor one that another program makes meanwhile. The folder is synced, and not
    /// the one above it.
    ///
    /// `JournalError::Failed` where a file of this name is there (`AlreadyExists`), or it could not
    /// be made. Where the sync of the folder failed it stays, without a frame: so a further try is
    /// answered `AlreadyExists`.
    ///
    /// ```
    /// use kioskbasil::journal::{self, Header, Journal, SyncPolicy};
    /// use kioskbasil::{Bus, Page, Shape};
    ///
    /// # let folder = std::env::temp_dir().join(format!("kioskbasil.{}", std::process::id()));
    /// # std::fs::create_dir_all(&folder)?;
    /// let first = Page::from_numbers(&[0])?;
    /// let (mut senders, mut receivers) = Bus::open_after(Shape::of(1, 1), first)?;
    /// let header = Header::after(1, &first)?;
    /// let path = folder.join("sitting.0");
    /// let mut journal = Journal::create(&path, header, SyncPolicy::EachFrame)?;
    /// senders[0].send_all(["one", "two"])?;
    /// journal.write(&receivers[0].try_frame().unwrap())?;
    ///
    /// // After a crash: the next sitting goes on with the numbers, and has a file of its own.
    /// let page = journal::read(&path)?.page()?;
    /// let (mut senders, _receivers) = Bus::open_after(Shape::of(1, 1), page)?;
    /// let header = Header::after(1, &page)?;
    /// let _next = Journal::create(folder.join("sitting.1"), header, SyncPolicy::EachFrame)?;
    /// assert_eq!(senders[0].put(b"three"), Ok(2));
    /// # std::fs::remove_dir_all(&folder)?;
    /// # Ok::<(), Box<dyn std::error::Error>>(())
    /// ```
    pub fn create(
        path: impl AsRef<Path>,
        header: Header,
        policy: SyncPolicy,
    ) -> Result<Journal, JournalError> {
        let path = path.as_ref().to_path_buf();
        let failed = |why| failed(Doing::Create, Some(path.clone()), Safe::NONE, why);
        let file = placed(&path, &header.bytes()).map_err(failed)?;
        Ok(Journal::begun(file, Some(path), &header, policy))
    }
}

/// Makes a file of these bytes, which is there whole under its name, or not at all.
fn placed(path: &Path, bytes: &[u8]) -> io::Result<File> {
    let (mut file, begun) = new_file(path)?;
    let written = file.write_all(bytes).and_then(|()| file.sync_all());
    let linked = written.and_then(|()| fs::hard_link(&begun, path));
    fs::remove_file(&begun).ok();
    linked?;
    let folder = path.parent().filter(|it| !it.as_os_str().is_empty());
    File::open(folder.unwrap_or_else(|| Path::new(".")))?.sync_all()?;
    Ok(file)
}

/// Makes a file that nobody else has, under a name of its own.
fn new_file(path: &Path) -> io::Result<(File, OsString)> {
    let mut number = 0;
    loop {
        let mut begun = path.as_os_str().to_owned();
        begun.push(format!(".{}.{number}.new", process::id()));
        match OpenOptions::new().write(true).create_new(true).open(&begun) {
            Err(why) if why.kind() == io::ErrorKind::AlreadyExists => number += 1,
            made => return Ok((made?, begun)),
        }
    }
}

impl<F: JournalFile> Journal<F> {
    /// Writes this header to a file that is empty, and syncs.
    ///
    /// `JournalError::Failed` where that failed.
    pub fn on(mut file: F, header: Header, policy: SyncPolicy) -> Result<Journal<F>, JournalError> {
        let written = file.write_all(&header.bytes());
        let synced = written
            .and_then(|()| file.flush())
            .and_then(|()| file.sync());
        synced.map_err(|why| failed(Doing::Create, None, Safe::NONE, why))?;
        Ok(Journal::begun(file, None, &header, policy))
    }

    fn begun(file: F, path: Option<PathBuf>, header: &Header, policy: SyncPolicy) -> Journal<F> {
        Journal {
            file,
            path,
            log: Log::after(header),
            policy,
            synced_at: Instant::now(),
            written: Safe::at(header),
            told: Told::new(Safe::at(header)),
            record: Vec::new(),
        }
    }

    /// Appends the record of a frame, by one write, and syncs as the policy says. Ok says that it
    /// is written, and `safe` what is on disk.
    ///
    /// `JournalError::NotNext` where the log does not go on with it: nothing was written.
    /// `JournalError::Failed` where the write or the sync failed, also of an earlier call: the
    /// frame may be lost, and this journal writes no more. Behind a write that failed those before
    /// it are synced once; it is not recorded, and a next file begins with it. Behind a sync that
    /// failed it is in the file, and maybe not on disk.
    pub fn write(&mut self, frame: &Frame) -> Result<(), JournalError> {
        self.told.fault()?;
        if !self.log.record_of(frame, &mut self.record) {
            let place = self.log.place;
            return Err(JournalError::NotNext { place });
        }
        if let Err(why) = self.file.write_all(&self.record) {
            return Err(self.fail_write(why));
        }
        self.log.take(frame);
        self.written = Safe {
            place: self.log.place,
            frames: self.written.frames + 1,
            bytes: self.written.bytes + self.record.len() as u64,
        };
        let is_due = match self.policy {
            SyncPolicy::EachFrame => true,
            SyncPolicy::Every(time) => self.synced_at.elapsed() >= time,
            SyncPolicy::Never => false,
        };
        if is_due {
            self.sync()?;
        }
        Ok(())
    }

    /// Brings all frames that were written to disk; where they are, it does nothing.
    ///
    /// `JournalError::Failed` where that failed, also in an earlier call. Then it is not known
    /// which frames behind `safe` are on disk, and no further sync would tell.
    pub fn sync(&mut self) -> Result<(), JournalError> {
        self.told.fault()?;
        if self.written != self.safe() {
            let synced = self.sync_file();
            synced.map_err(|why| self.fail(Doing::Sync, why))?;
        }
        self.synced_at = Instant::now();
        Ok(())
    }

    /// Up to where the log is known to be on disk.
    pub fn safe(&self) -> Safe {
        self.told.safe()
    }

    /// What tells other threads up to where the log is on disk.
    pub fn watch(&self) -> Watch {
        self.told.watch()
    }

    /// The header of a next file for the same log, which goes on behind the frames that were
    /// written: where one file grows too long, or a write has failed. It syncs this one before,
    /// unless that has failed: so all before a next file is on disk, and a `Watch` on that may say
    /// so.
    ///
    /// `JournalError::Failed` where frames that were written may not be on disk, since a sync has
    /// failed: then nothing goes on from this file but what is read back of it.
    pub fn next_header(&mut self) -> Result<Header, JournalError> {
        match self.sync() {
            Err(why) if self.safe() != self.written => Err(why),
            _ => Ok(Header::at(self.log.place, self.log.next.clone())),
        }
    }

    /// The file.
    pub fn into_file(self) -> F {
        self.file
    }

    /// Brings what was written to disk, and tells who waits.
    fn sync_file(&mut self) -> io::Result<()> {
        self.file.flush()?;
        self.file.sync()?;
        self.told.raise(self.written);
        Ok(())
    }

    /// A write has failed. What was written whole before is brought to disk by one sync, so that a
    /// next file may begin behind it. Nothing more is asked of the file.
    fn fail_write(&mut self, why: io::Error) -> JournalError {
        if self.written != self.safe() {
            self.sync_file().ok();
        }
        self.fail(Doing::Write, why)
    }

    fn fail(&mut self, doing: Doing, why: io::Error) -> JournalError {
        let fault = failed(doing, self.path.clone(), self.safe(), why);
        self.told.fail(&fault);
        fault
    }
}

fn failed(doing: Doing, path: Option<PathBuf>, safe: Safe, why: io::Error) -> JournalError {
    JournalError::Failed {
        doing,
        path,
        safe,
        why: Arc::new(why),
    }
}
