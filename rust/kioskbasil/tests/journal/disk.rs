//! A disk of which a test says how much it takes, and what of it fails.

use kioskbasil::journal::JournalFile;
use std::io::{self, Write};
use std::sync::{Arc, Mutex};

/// What a journal asks of its file.
#[derive(Clone, Copy, Debug, PartialEq, Eq)]
pub enum Call {
    Write,
    Flush,
    Sync,
}

/// From which call of a kind on it fails, of which the first is 1.
#[derive(Clone, Copy, Debug)]
pub struct Failing {
    pub call: Call,
    pub from: usize,
    /// Those behind the first that fails would be done.
    pub once: bool,
}

/// What a disk has, and when it fails.
#[derive(Debug, Default)]
pub struct Plates {
    pub bytes: Vec<u8>,
    /// How many bytes were there at the last sync.
    pub synced: usize,
    /// How many writes, flushes and syncs there were.
    pub calls: [usize; 3],
    /// The most bytes of one write; 0 where there is no such limit.
    pub short: usize,
    /// At how many bytes it is full.
    pub full_at: Option<usize>,
    pub fails: Option<Failing>,
}

impl Plates {
    pub fn count(&self, call: Call) -> usize {
        self.calls[call as usize]
    }

    /// Counts a call. Err where that fails.
    fn call(&mut self, call: Call) -> io::Result<()> {
        self.calls[call as usize] += 1;
        let count = self.count(call);
        let fails = |it: Failing| it.call == call && count >= it.from;
        let is_due = |it: Failing| fails(it) && (count == it.from || !it.once);
        match self.fails.map_or(false, is_due) {
            true => Err(io::Error::new(io::ErrorKind::Other, "gone")),
            false => Ok(()),
        }
    }
}

#[derive(Clone, Debug, Default)]
pub struct Disk(Arc<Mutex<Plates>>);

impl Disk {
    pub fn of(plates: Plates) -> Disk {
        Disk(Arc::new(Mutex::new(plates)))
    }

    pub fn see<T>(&self, see: impl FnOnce(&mut Plates) -> T) -> T {
        see(&mut self.0.lock().unwrap())
    }
}

impl Write for Disk {
    fn write(&mut self, bytes: &[u8]) -> io::Result<usize> {
        self.see(|plates| {
            plates.call(Call::Write)?;
            let most = if plates.short > 0 {
                plates.short
            } else {
                bytes.len()
            };
            let room = plates
                .full_at
                .map_or(usize::MAX, |at| at - plates.bytes.len());
            if room == 0 {
                return Err(io::Error::new(io::ErrorKind::Other, "full"));
            }
            let many = bytes.len().min(most).min(room);
            plates.bytes.extend_from_slice(&bytes[..many]);
            Ok(many)
        })
    }

    fn flush(&mut self) -> io::Result<()> {
        self.see(|plates| plates.call(Call::Flush))
    }
}

impl JournalFile for Disk {
    fn sync(&mut self) -> io::Result<()> {
        self.see(|plates| {
            plates.call(Call::Sync)?;
            plates.synced = plates.bytes.len();
            Ok(())
        })
    }
}
