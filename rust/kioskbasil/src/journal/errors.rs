//! Why a journal was not read, repaired or written.

use super::Safe;
use std::error::Error;
use std::path::{Path, PathBuf};
use std::sync::Arc;
use std::{fmt, io};

/// Why a file is not read as a journal, or is read no further.
#[derive(Debug)]
#[non_exhaustive]
pub enum ReadError {
    /// It does not begin as a journal does.
    OtherMagic,
    /// It is a journal of another version.
    OtherVersion {
        /// Of this one.
        version: u64,
    },
    /// It ends within its header.
    TornHeader,
    /// Its header says what none does, or the checksum of that fails.
    DamagedHeader,
    /// It could not be opened, synced or read.
    Io {
        /// The file, where it is known.
        path: Option<PathBuf>,
        /// Up to which byte it was read.
        byte: u64,
        /// Why.
        why: io::Error,
    },
}

impl ReadError {
    pub(super) fn io(path: Option<&Path>, byte: u64, why: io::Error) -> ReadError {
        ReadError::Io {
            path: path.map(Path::to_path_buf),
            byte,
            why,
        }
    }
}

impl fmt::Display for ReadError {
    fn fmt(&self, f: &mut fmt::Formatter<'_>) -> fmt::Result {
        match self {
            ReadError::OtherMagic => f.write_str("no journal"),
            ReadError::OtherVersion { version } => write!(f, "a journal of version {version}"),
            ReadError::TornHeader => f.write_str("the journal ends within its header"),
            ReadError::DamagedHeader => f.write_str("the header of the journal is damaged"),
            ReadError::Io { path, byte, why } => {
                write!(f, "{} is not read at byte {byte}: {why}", Named(path))
            }
        }
    }
}

impl Error for ReadError {
    fn source(&self) -> Option<&(dyn Error + 'static)> {
        match self {
            ReadError::Io { why, .. } => Some(why),
            _ => None,
        }
    }
}

/// A file, where it has a name.
struct Named<'a>(&'a Option<PathBuf>);

impl fmt::Display for Named<'_> {
    fn fmt(&self, f: &mut fmt::Formatter<'_>) -> fmt::Result {
        match self.0 {
            Some(path) => path.display().fmt(f),
            None => f.write_str("the journal"),
        }
    }
}

/// Why no page is made of a journal.
#[derive(Clone, Copy, Debug, PartialEq, Eq)]
pub enum GoOnError {
    /// It is damaged, so its last numbers are not known.
    Damaged {
        /// The byte of the file at which that begins.
        at: u64,
    },
    /// Its first numbers are not those of the page before: a file is missing or comes twice, or
    /// two programs ran at once.
    Gap,
    /// A next number is 2^48 - 65,536 or more.
    Numbers,
}

impl fmt::Display for GoOnError {
    fn fmt(&self, f: &mut fmt::Formatter<'_>) -> fmt::Result {
        match self {
            GoOnError::Damaged { at } => write!(f, "the journal is damaged at byte {at}"),
            GoOnError::Gap => f.write_str("the journal does not go on from the page before"),
            GoOnError::Numbers => f.write_str("the numbers of a sender are used up"),
        }
    }
}

impl Error for GoOnError {}

/// Why the torn end of a journal was not cut.
#[derive(Debug)]
#[non_exhaustive]
pub enum RepairError {
    /// The file is no journal, or could not be read; it is as it was.
    Read(ReadError),
    /// It is damaged, and as it was.
    Damaged {
        /// The byte of the file at which that begins.
        at: u64,
    },
    /// It has another size than was read, since somebody writes it. It is not cut.
    Changed,
    /// It could not be cut or synced.
    Io {
        /// The file.
        path: PathBuf,
        /// Why.
        why: io::Error,
    },
}

impl From<ReadError> for RepairError {
    fn from(why: ReadError) -> RepairError {
        RepairError::Read(why)
    }
}

impl fmt::Display for RepairError {
    fn fmt(&self, f: &mut fmt::Formatter<'_>) -> fmt::Result {
        match self {
            RepairError::Read(why) => why.fmt(f),
            RepairError::Damaged { at } => GoOnError::Damaged { at: *at }.fmt(f),
            RepairError::Changed => f.write_str("the journal changed while it was read"),
            RepairError::Io { path, why } => write!(f, "{} is not cut: {why}", path.display()),
        }
    }
}

impl Error for RepairError {
    fn source(&self) -> Option<&(dyn Error + 'static)> {
        match self {
            RepairError::Read(why) => why.source(),
            RepairError::Io { why, .. } => Some(why),
            RepairError::Damaged { .. } | RepairError::Changed => None,
        }
    }
}

/// What of a journal failed.
#[derive(Clone, Copy, Debug, PartialEq, Eq)]
pub enum Doing {
    /// It was made, with its header.
    Create,
    /// A record was written.
    Write,
    /// What was written was brought to disk.
    Sync,
}

/// Why a journal has not recorded a frame, or has not brought it to disk.
#[derive(Clone, Debug)]
#[non_exhaustive]
pub enum JournalError {
    /// The frame is not the next of the log. Nothing was written, and the journal goes on.
    NotNext {
        /// The place in the log of the next frame.
        place: u64,
    },
    /// The file failed. The journal writes no more, and each further call answers this. A part of
    /// the record may stand there, which readers find torn.
    Failed {
        /// What failed.
        doing: Doing,
        /// The file, where it is known.
        path: Option<PathBuf>,
        /// What is known to be on disk: what was recorded behind that may be lost.
        safe: Safe,
        /// Why.
        why: Arc<io::Error>,
    },
    /// The journal was dropped before it had brought the place to disk for which a thread waits
    /// (`Watch::wait`).
    Dropped {
        /// What is known to be on disk.
        safe: Safe,
    },
}

impl fmt::Display for JournalError {
    fn fmt(&self, f: &mut fmt::Formatter<'_>) -> fmt::Result {
        match self {
            JournalError::NotNext { place } => {
                write!(f, "the frame is not the next of the log, at place {place}")
            }
            JournalError::Failed {
                doing,
                path,
                safe,
                why,
            } => {
                let done = match doing {
                    Doing::Create => "made",
                    Doing::Write => "written",
                    Doing::Sync => "synced",
                };
                write!(f, "{} is not {done}: {why}; {safe}", Named(path))
            }
            JournalError::Dropped { safe } => write!(f, "the journal was dropped; {safe}"),
        }
    }
}

impl Error for JournalError {
    fn source(&self) -> Option<&(dyn Error + 'static)> {
        match self {
            JournalError::Failed { why, .. } => Some(why.as_ref()),
            _ => None,
        }
    }
}
