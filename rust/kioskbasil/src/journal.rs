//! A journal on disk: the frames of a log, each with a checksum, in the order of the log.
//!
//! A receiver of its own hears the bus by frames (`Receiver::next_frame`), and a `Journal` appends
//! each to a file. After a crash `read` gives all whole frames back, says how the file ends behind
//! them, and makes the `Page` with which the next bus goes on. `docs/FORMATS.md` has the bytes.
//! Replicas are recorded by `Replicas::open_recorded`, and `replica::replay` makes their state
//! anew.
//!
//! **A sitting has a file of its own.** A next bus begins its log and its tenures anew, and a file
//! has one log. So after a restart the next sitting is recorded in a next file, whose header has
//! the numbers with which it goes on. How files are named is the program's: it reads all of them in
//! their order, and begins one more. `Journal::create` has such a program in short, and
//! `examples/rust/src/bin/journal.rs` is a whole one. Nothing appends to a file that was closed.
//! Where a write has failed, or a file is too long, the same bus goes on in a next one by
//! `Journal::next_header`.
//!
//! **One program at a time** has a folder of journals, and nothing locks it. A second one would
//! read a file that the first still writes, and give its numbers again. Whoever makes the folder
//! syncs the one above it: a new folder may be lost in a crash, with all that is in it.
//!
//! **What is on disk.** Behind a sync a frame is on disk, and only then: `Journal::safe` and a
//! `Watch` tell up to where. Who answers somebody waits for that place before. A frame that was not
//! synced may be lost in a crash, and its numbers are given again then. One sync may serve many
//! frames: write those that are there, by `SyncPolicy::Never`, and then call `sync`.
//!
//! ```
//! use kioskbasil::journal::{Journal, JournalError};
//! use kioskbasil::Receiver;
//! use std::iter;
//!
//! fn record(mut receiver: Receiver, mut journal: Journal) -> Result<(), JournalError> {
//!     while let Some(first) = receiver.next_frame() {
//!         let more = iter::from_fn(|| receiver.try_frame());
//!         for frame in iter::once(first).chain(more).take(100) {
//!             journal.write(&frame)?;
//!         }
//!         journal.sync()?;
//!     }
//!     Ok(())
//! }
//! ```
//!
//! A ring waits for the receiver that records, as for each, so a disk that is slow holds the
//! senders up once the ring is full. Where recording has failed its receiver is dropped, as above,
//! and the bus goes on without it: `Watch::wait` tells the workers.
//!
//! All of this is tested, and not proved. That the file system keeps what was synced is trusted,
//! and that SHA-256 tells bytes apart.

mod errors;
mod header;
mod log;
mod reading;
mod sha256;
mod watch;
mod writing;

pub use errors::{Doing, GoOnError, JournalError, ReadError, RepairError};
pub use header::Header;
pub use reading::{read, read_from, repair, End, Reader, Recovered};
pub use watch::Watch;
pub use writing::{Journal, JournalFile, SyncPolicy};

use std::fmt;

/// Up to where a log is known to be on disk, in one file.
#[derive(Clone, Copy, Debug, PartialEq, Eq)]
pub struct Safe {
    /// All words of the log before this place are on disk, from the place of the header on.
    pub place: u64,
    /// How many frames of the file these are.
    pub frames: u64,
    /// How many bytes of the file, its header's too; 0 of one that was not made.
    pub bytes: u64,
}

impl Safe {
    /// Of a file that was not made.
    const NONE: Safe = Safe {
        place: 0,
        frames: 0,
        bytes: 0,
    };

    /// Of a file that has its header alone.
    fn at(header: &Header) -> Safe {
        Safe {
            place: header.place(),
            frames: 0,
            bytes: header.len() as u64,
        }
    }
}

impl fmt::Display for Safe {
    fn fmt(&self, f: &mut fmt::Formatter<'_>) -> fmt::Result {
        let Safe {
            place,
            frames,
            bytes,
        } = self;
        write!(
            f,
            "safe are {frames} frames, up to place {place} and byte {bytes}"
        )
    }
}
