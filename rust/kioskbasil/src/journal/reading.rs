//! How a journal is read.

use super::header::SENDERS_END;
use super::log::Log;
use super::{GoOnError, Header, ReadError, RepairError};
use crate::{Frame, Item, Page, MOST_SENDERS};
use std::fs::{File, OpenOptions};
use std::io::{self, BufReader, Read};
use std::path::{Path, PathBuf};

/// How a journal ends behind its last whole record.
#[derive(Clone, Copy, Debug, PartialEq, Eq)]
pub enum End {
    /// Nothing stands there.
    Whole,
    /// Less than a record, zeros at the end not counted: what a crash within a write leaves. Damage
    /// of a head looks so too, where that tells of more bytes than there are; `page` and `repair`
    /// refuse it where a whole record stands behind.
    Torn {
        /// The byte of the file at which that begins.
        at: u64,
    },
    /// Anything else: bytes have changed, or a record is missing before others.
    Damaged {
        /// The byte of the file at which that begins.
        at: u64,
    },
}

/// Reads a journal frame by frame, and keeps no more than one. It is an iterator, which ends behind
/// the last whole record, or behind an error.
///
/// ```
/// use kioskbasil::journal::{End, Header, Journal, Reader, SyncPolicy};
/// use kioskbasil::{Bus, Page, Shape};
///
/// let (mut senders, mut receivers) = Bus::open(Shape::of(1, 1))?;
/// senders[0].send_all(["one", "two"])?;
/// let header = Header::after(1, &Page::from_numbers(&[0])?)?;
/// let mut journal = Journal::on(Vec::new(), header, SyncPolicy::EachFrame)?;
/// journal.write(&receivers[0].try_frame().unwrap())?;
///
/// let bytes = journal.into_file();
/// let mut reader = Reader::new(&bytes[..])?;
/// let frame = reader.next().unwrap()?;
/// assert_eq!(&frame.items()[1][..], b"two");
/// assert!(reader.next().is_none());
/// assert_eq!(reader.end(), Some(End::Whole));
/// # Ok::<(), Box<dyn std::error::Error>>(())
/// ```
#[derive(Debug)]
pub struct Reader<R> {
    input: BufReader<R>,
    path: Option<PathBuf>,
    header: Header,
    log: Log,
    /// How many bytes the header and the whole records have that were read.
    whole: u64,
    /// What was read behind them.
    bytes: Vec<u8>,
    end: Option<End>,
    /// How many bytes were read in all, once it has ended.
    taken: u64,
    /// It looks torn, and a whole record stands there.
    hides: bool,
    failed: bool,
}

impl Reader<File> {
    /// Opens a journal, and reads its header. It syncs nothing, as `read` does.
    ///
    /// A `ReadError` says what the file is, or that it could not be opened or read.
    pub fn open(path: impl AsRef<Path>) -> Result<Reader<File>, ReadError> {
        let path = path.as_ref();
        let file = File::open(path).map_err(|why| ReadError::io(Some(path), 0, why))?;
        Reader::begun(file, Some(path.to_path_buf()))
    }
}

impl<R: Read> Reader<R> {
    /// Reads the header of a journal, whose bytes `input` gives from the first on.
    ///
    /// A `ReadError` says what the bytes are, or that they could not be read.
    pub fn new(input: R) -> Result<Reader<R>, ReadError> {
        Reader::begun(input, None)
    }

    fn begun(input: R, path: Option<PathBuf>) -> Result<Reader<R>, ReadError> {
        let mut input = BufReader::new(input);
        let mut bytes = Vec::new();
        let io = |at, why| ReadError::io(path.as_deref(), at, why);
        fill(&mut input, &mut bytes, SENDERS_END).map_err(|(at, why)| io(at, why))?;
        let length = Header::length_of(&bytes)?;
        fill(&mut input, &mut bytes, length).map_err(|(at, why)| io(at, why))?;
        if bytes.len() < length {
            return Err(ReadError::TornHeader);
        }
        let header = Header::of_bytes(&bytes)?;
        Ok(Reader {
            input,
            path,
            log: Log::after(&header),
            whole: header.len() as u64,
            header,
            bytes,
            end: None,
            taken: 0,
            hides: false,
            failed: false,
        })
    }

    /// Its header.
    pub fn header(&self) -> &Header {
        &self.header
    }

    /// The place in the log behind the frames that it has given.
    pub fn place(&self) -> u64 {
        self.log.place
    }

    /// The number that the next item of each sender would have, behind the frames that it has
    /// given.
    pub fn next_numbers(&self) -> &[u64] {
        &self.log.next
    }

    /// How the journal ends, once it has given all whole records.
    pub fn end(&self) -> Option<End> {
        self.end
    }

    /// The next frame; None behind the last whole record.
    fn try_next(&mut self) -> Result<Option<Frame>, ReadError> {
        self.bytes.clear();
        self.fill(8)?;
        if let Some(length) = self.log.record_length(&self.bytes) {
            self.fill(length)?;
            let is_there = self.bytes.len() == length;
            let frame = is_there.then(|| self.log.frame_of_record(&self.bytes));
            if let Some(frame) = frame.flatten() {
                self.whole += length as u64;
                self.log.take(&frame);
                return Ok(Some(frame));
            }
        }
        let end = self.rest()?;
        self.hides = matches!(end, End::Torn { .. }) && self.log.has_record_in(&self.bytes);
        self.end = Some(end);
        Ok(None)
    }

    /// Reads what is left, and says how the journal ends.
    fn rest(&mut self) -> Result<End, ReadError> {
        let (at, mut many) = (self.whole, self.bytes.len() as u64);
        let mut written = written(&self.bytes).unwrap_or(0);
        let mut part = [0; 4096];
        loop {
            match self.input.read(&mut part) {
                Ok(0) => break,
                Ok(more) => {
                    written = self::written(&part[..more]).map_or(written, |it| many + it);
                    many += more as u64;
                }
                Err(why) if why.kind() == io::ErrorKind::Interrupted => {}
                Err(why) => return Err(ReadError::io(self.path.as_deref(), at + many, why)),
            }
        }
        self.taken = at + many;
        let length = self.log.record_length(&self.bytes);
        Ok(if many == 0 {
            End::Whole
        } else if written < 8 || length.map_or(false, |length| written < length as u64) {
            End::Torn { at }
        } else {
            End::Damaged { at }
        })
    }

    /// Reads until so many bytes of a record are there, or all are.
    fn fill(&mut self, many: usize) -> Result<(), ReadError> {
        let filled = fill(&mut self.input, &mut self.bytes, many);
        filled.map_err(|(at, why)| ReadError::io(self.path.as_deref(), self.whole + at, why))
    }

    /// All that is left to be read.
    fn collect(mut self) -> Result<Recovered, ReadError> {
        let frames = self.by_ref().collect::<Result<_, _>>()?;
        Ok(Recovered {
            frames,
            end: self.end.unwrap_or(End::Whole),
            hides: self.hides,
            whole: self.whole,
            header: self.header,
            log: self.log,
        })
    }
}

impl<R: Read> Iterator for Reader<R> {
    type Item = Result<Frame, ReadError>;

    /// The next frame, or why it could not be read. What is torn or damaged is no error here: that
    /// says `end`, once this is None.
    fn next(&mut self) -> Option<Result<Frame, ReadError>> {
        if self.end.is_some() || self.failed {
            return None;
        }
        let next = self.try_next();
        self.failed = next.is_err();
        next.transpose()
    }
}

/// Reads on until there are so many bytes, or no more. A fault has how many there are.
fn fill(input: &mut impl Read, bytes: &mut Vec<u8>, many: usize) -> Result<(), (u64, io::Error)> {
    let more = many.saturating_sub(bytes.len()) as u64;
    let read = input.take(more).read_to_end(bytes);
    read.map(drop).map_err(|why| (bytes.len() as u64, why))
}

/// How many bytes stand up to the last that is not zero. None where all are.
fn written(bytes: &[u8]) -> Option<u64> {
    let last = bytes.iter().rposition(|byte| *byte != 0)?;
    Some(last as u64 + 1)
}

/// What a journal says.
#[derive(Clone, Debug, PartialEq, Eq)]
pub struct Recovered {
    header: Header,
    frames: Vec<Frame>,
    end: End,
    hides: bool,
    whole: u64,
    log: Log,
}

impl Recovered {
    /// Its header.
    pub fn header(&self) -> &Header {
        &self.header
    }

    /// The frames of its whole records, in the order of the log.
    pub fn frames(&self) -> &[Frame] {
        &self.frames
    }

    /// The messages of these frames, in their order.
    pub fn items(&self) -> impl Iterator<Item = &Item> {
        self.frames.iter().flat_map(Frame::items)
    }

    /// How it ends behind them.
    pub fn end(&self) -> End {
        self.end
    }

    /// How many bytes of the file the header and the whole records have.
    pub fn whole_bytes(&self) -> u64 {
        self.whole
    }

    /// The place in the log behind the last whole frame.
    pub fn place(&self) -> u64 {
        self.log.place
    }

    /// The number that the next item of each sender would have.
    pub fn next_numbers(&self) -> &[u64] {
        &self.log.next
    }

    /// Which senders have left in this file. A next bus has all of them again.
    pub fn left(&self) -> &[bool; MOST_SENDERS] {
        &self.log.left
    }

    /// The order has ended: its end mark was recorded.
    pub fn has_ended(&self) -> bool {
        self.log.ended
    }

    /// The page with which the next bus goes on where no file stands before this one: as
    /// `page_after` the header's first numbers, whatever they are, so it does not look for a gap.
    /// Behind others it would have numbers come twice of senders that this file has not.
    pub fn page(&self) -> Result<Page, GoOnError> {
        let mut first = [0; MOST_SENDERS];
        first[..self.header.senders()].copy_from_slice(self.header.first_numbers());
        self.page_behind(first)
    }

    /// The page with which the next bus goes on behind this file, where `before` is that of the
    /// files before: the next number of each sender of this file, and those of `before` of all
    /// others. Behind a torn end the numbers are those behind the last whole frame, so what nobody
    /// was told to be on disk may be lost, and its numbers are given again.
    ///
    /// The first that holds: `GoOnError::Damaged` where it is damaged, so that whole frames may be
    /// missing: who knows their numbers goes on by `Page::from_numbers`. `Gap` where the header's
    /// first numbers are others than those of `before`: a file is missing or comes twice, or two
    /// programs ran at once. `Numbers` where those of a sender are used up.
    ///
    /// ```
    /// use kioskbasil::journal::{self, GoOnError, Header, Journal, SyncPolicy};
    /// use kioskbasil::Page;
    ///
    /// let before = Page::from_numbers(&[7, 8, 9])?; // of three senders, and the next bus has two
    /// let journal = Journal::on(Vec::new(), Header::after(2, &before)?, SyncPolicy::Never)?;
    /// let read = journal::read_from(&journal.into_file()[..])?;
    /// assert_eq!(read.page_after(&before)?.next_numbers()[..3], [7, 8, 9]);
    /// assert_eq!(read.page_after(&Page::from_numbers(&[7, 7])?), Err(GoOnError::Gap));
    /// # Ok::<(), Box<dyn std::error::Error>>(())
    /// ```
    pub fn page_after(&self, before: &Page) -> Result<Page, GoOnError> {
        self.page_behind(*before.next_numbers())
    }

    /// The page behind this file, where these are the next numbers of the files before.
    fn page_behind(&self, mut next: [u64; MOST_SENDERS]) -> Result<Page, GoOnError> {
        match self.end {
            End::Damaged { at } => return Err(GoOnError::Damaged { at }),
            End::Torn { at } if self.hides => return Err(GoOnError::Damaged { at }),
            End::Torn { .. } | End::Whole => {}
        }
        let own = &mut next[..self.header.senders()];
        if own != self.header.first_numbers() {
            return Err(GoOnError::Gap);
        }
        own.copy_from_slice(&self.log.next);
        Page::from_numbers(&next).map_err(|_| GoOnError::Numbers)
    }
}

/// Reads a whole journal into memory. It syncs the file before. So what it gives is on disk, and a
/// next file that goes on from it does not outlive it, unless a sync of this file had failed
/// before: the system may then take for written what is not.
///
/// A file that is torn or damaged behind its header is no error: `Recovered::end` says so. A
/// `ReadError` says that the file is no journal, or could not be opened, synced or read.
pub fn read(path: impl AsRef<Path>) -> Result<Recovered, ReadError> {
    let reader = Reader::open(&path)?;
    let synced = reader.input.get_ref().sync_all();
    synced.map_err(|why| ReadError::io(Some(path.as_ref()), 0, why))?;
    reader.collect()
}

/// As `read`, of the bytes that `input` gives.
///
/// A `ReadError` says that they are no journal, or could not be read.
pub fn read_from(input: impl Read) -> Result<Recovered, ReadError> {
    Reader::new(input)?.collect()
}

/// Cuts what is torn behind the last whole record, and nothing else, and syncs the file. Gives how
/// many bytes it has cut: 0 of a file that ends whole.
///
/// Nobody has to call it: `read` passes over what is torn, and the next sitting has a file of its
/// own. Nobody may be writing the file: a record that comes between the last look and the cut is
/// lost.
///
/// `RepairError::Damaged` where the file is damaged, also where it looks torn and a whole record
/// stands behind: it stays as it is. `Changed` where it has another size than was read, and it is
/// not cut. `Read` where it is no journal or could not be opened or read, and `Io` where it could
/// not be cut or synced.
pub fn repair(path: impl AsRef<Path>) -> Result<u64, RepairError> {
    let path = path.as_ref();
    let file = OpenOptions::new().read(true).write(true).open(path);
    let file = file.map_err(|why| ReadError::io(Some(path), 0, why))?;
    let mut reader = Reader::begun(file, Some(path.to_path_buf()))?;
    for frame in reader.by_ref() {
        frame?;
    }
    match reader.end {
        Some(End::Damaged { at }) => Err(RepairError::Damaged { at }),
        Some(End::Torn { at }) if reader.hides => Err(RepairError::Damaged { at }),
        _ => cut(&reader, path),
    }
}

/// Cuts a file behind its whole records, where it still has just the bytes that were read of it.
fn cut(reader: &Reader<File>, path: &Path) -> Result<u64, RepairError> {
    let io = |why| RepairError::Io {
        path: path.to_path_buf(),
        why,
    };
    let file = reader.input.get_ref();
    if file.metadata().map_err(io)?.len() != reader.taken {
        return Err(RepairError::Changed);
    }
    if reader.taken != reader.whole {
        file.set_len(reader.whole).map_err(io)?;
    }
    file.sync_all().map_err(io)?;
    Ok(reader.taken - reader.whole)
}

#[cfg(test)]
mod tests {
    use super::*;
    use std::{env, fs, process};

    /// A file that has grown since it was read is not cut.
    #[test]
    fn files_that_grow_are_not_cut() {
        let path = env::temp_dir().join(format!("kioskbasil.grows.{}", process::id()));
        let torn = [&Header::at(0, vec![0]).bytes()[..], &[1, 2]].concat();
        fs::write(&path, &torn).unwrap();
        let file = OpenOptions::new().read(true).write(true).open(&path);
        let mut reader = Reader::begun(file.unwrap(), None).unwrap();
        assert!(reader.next().is_none());
        let grown = [&torn[..], &[3]].concat();
        fs::write(&path, &grown).unwrap();
        assert!(matches!(cut(&reader, &path), Err(RepairError::Changed)));
        assert_eq!(fs::read(&path).unwrap(), grown);
        fs::write(&path, &torn).unwrap();
        assert_eq!(cut(&reader, &path).unwrap(), 2);
        fs::remove_file(&path).unwrap();
    }
}
