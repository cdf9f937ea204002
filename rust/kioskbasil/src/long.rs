//! Long messages: each is cut into pieces that stand side by side in one frame.

use crate::errors::PutError;
use crate::{Item, Sender, MOST_BYTES};
use std::error::Error;
use std::fmt;
use std::ops::Deref;

/// Bytes of a long message: at most 880, which are 16 pieces of 55.
pub const MOST_LONG_BYTES: usize = MOST_PIECES * PIECE_BYTES;

/// Pieces of a long message: at most 16.
const MOST_PIECES: usize = 16;

/// Bytes of a long message in one piece: a byte before them says how many pieces follow.
const PIECE_BYTES: usize = MOST_BYTES - 1;

const _: () = assert!(MOST_LONG_BYTES == 880);

/// How many pieces a message of so many bytes has. An empty one has one too.
#[inline]
pub(crate) fn pieces_of(length: usize) -> usize {
    ((length + PIECE_BYTES - 1) / PIECE_BYTES).max(1)
}

/// What some items begin with.
#[derive(Clone, Copy, Debug, PartialEq, Eq)]
pub(crate) enum Begun {
    /// The pieces of one message, so many.
    Whole(usize),
    /// Some pieces of one, or nothing: what follows is not there.
    Part,
    /// An item that is no first piece, or that the pieces do not follow which it tells of.
    NoPiece,
}

/// What these items begin with, which stand in the order one behind another.
#[inline]
pub(crate) fn begun(items: &[Item]) -> Begun {
    match items.first().map(|item| item.first()) {
        None => Begun::Part,
        Some(Some(0)) => Begun::Whole(1),
        Some(Some(&follow)) if usize::from(follow) < MOST_PIECES => {
            several_begun(items, 1 + usize::from(follow))
        }
        Some(_) => Begun::NoPiece,
    }
}

/// As `begun`, of items of which the first tells of so many pieces.
fn several_begun(items: &[Item], many: usize) -> Begun {
    let there = &items[..many.min(items.len())];
    let follows = |(at, item): (usize, &Item)| {
        let left = many - 1 - at;
        let is_full = left == 0 || item.len() == MOST_BYTES;
        item.sender == items[0].sender && item.first() == Some(&(left as u8)) && is_full
    };
    if !there.iter().enumerate().all(follows) {
        return Begun::NoPiece;
    }
    if there.len() < many {
        return Begun::Part;
    }
    Begun::Whole(many)
}

/// Joins the pieces of a message, and gives its bytes.
pub(crate) fn join<'a>(pieces: &[Item], joined: &'a mut [u8; MOST_LONG_BYTES]) -> &'a [u8] {
    let mut length = 0;
    for piece in pieces {
        let bytes = &piece[1..];
        joined[length..length + bytes.len()].copy_from_slice(bytes);
        length += bytes.len();
    }
    &joined[..length]
}

/// A long message of the order. It is its bytes.
#[derive(Clone)]
pub struct LongItem {
    /// The number of its last piece among the messages of its sender: as `put_long` gave it.
    pub number: u64,
    /// Its sender.
    pub sender: u8,
    length: usize,
    bytes: [u8; MOST_LONG_BYTES],
}

impl LongItem {
    /// Of the pieces of a message, of which there is one at least.
    pub(crate) fn of(pieces: &[Item]) -> LongItem {
        let last = &pieces[pieces.len() - 1];
        let mut bytes = [0; MOST_LONG_BYTES];
        LongItem {
            number: last.number,
            sender: last.sender,
            length: join(pieces, &mut bytes).len(),
            bytes,
        }
    }
}

impl Deref for LongItem {
    type Target = [u8];

    #[inline]
    fn deref(&self) -> &[u8] {
        &self.bytes[..self.length]
    }
}

impl AsRef<[u8]> for LongItem {
    #[inline]
    fn as_ref(&self) -> &[u8] {
        self
    }
}

impl PartialEq for LongItem {
    fn eq(&self, other: &LongItem) -> bool {
        self.sender == other.sender && self.number == other.number && self[..] == other[..]
    }
}

impl Eq for LongItem {}

impl fmt::Debug for LongItem {
    fn fmt(&self, f: &mut fmt::Formatter<'_>) -> fmt::Result {
        f.debug_struct("LongItem")
            .field("sender", &self.sender)
            .field("number", &self.number)
            .field("bytes", &&self[..])
            .finish()
    }
}

/// Why a long message was not put; nothing has changed.
#[derive(Clone, Copy, Debug, PartialEq, Eq)]
pub enum PutLongError {
    /// A close or a leave was accepted, or the order is known to have ended.
    Closed,
    /// The batch is on its way.
    Busy,
    /// More than 880 bytes.
    TooLong,
    /// Its pieces and what waits are more messages than a batch may have.
    BatchFull,
}

impl From<PutError> for PutLongError {
    fn from(why: PutError) -> PutLongError {
        match why {
            PutError::Closed => PutLongError::Closed,
            PutError::Busy => PutLongError::Busy,
            PutError::TooLong => PutLongError::TooLong,
            PutError::BatchFull => PutLongError::BatchFull,
        }
    }
}

impl fmt::Display for PutLongError {
    fn fmt(&self, f: &mut fmt::Formatter<'_>) -> fmt::Result {
        match self {
            PutLongError::Closed => PutError::Closed.fmt(f),
            PutLongError::Busy => PutError::Busy.fmt(f),
            PutLongError::TooLong => f.write_str("no message is taken: more than 880 bytes"),
            PutLongError::BatchFull => {
                f.write_str("no message is taken: its pieces do not fit beside what waits")
            }
        }
    }
}

impl Error for PutLongError {}

/// This item is no long message: somebody has put it by `put`. It is given as it is, and what
/// follows it is told by itself.
#[derive(Clone, Copy, Debug, PartialEq, Eq)]
pub struct NotLong(pub Item);

impl fmt::Display for NotLong {
    fn fmt(&self, f: &mut fmt::Formatter<'_>) -> fmt::Result {
        let Item { sender, number, .. } = self.0;
        write!(f, "message {number} of sender {sender} is no long one")
    }
}

impl Error for NotLong {}

/// What `Receiver::next_long_while` came to.
// A long message lies in it: the call takes no memory.
#[allow(clippy::large_enum_variant)]
#[derive(Clone, Debug, PartialEq, Eq)]
pub enum NextLong {
    /// The next long message.
    Long(LongItem),
    /// The next item, which is no long message.
    NotLong(Item),
    /// The order has ended, and all of it was given.
    End,
    /// There is nothing more by now, and it was told not to go on.
    Stopped,
}

impl Sender {
    /// Appends a message of at most 880 bytes to its batch, and gives the number of its last
    /// piece. Takes no step. It is cut into pieces of 55 bytes, the last of at most 55, and each
    /// is a message of which a byte more says how many pieces follow. All of them are put, or
    /// none: so they come into the order in one frame, side by side. `Receiver::next_long` joins
    /// them. Where it is `BatchFull`, send the batch first.
    ///
    /// All 16 pieces of 880 bytes take 129 words of the log: give one that is no ring so many. A
    /// ring whose batches have fewer than 16 messages takes no message of more pieces than these:
    /// it is `BatchFull` for good.
    ///
    /// ```
    /// # use kioskbasil::{Bus, PutLongError, Shape, MOST_LONG_BYTES};
    /// let (mut senders, mut receivers) = Bus::open(Shape::of(1, 1))?;
    /// assert_eq!(senders[0].put_long(b"short"), Ok(0));
    /// assert_eq!(senders[0].put_long(&[7; 111]), Ok(3));
    /// assert_eq!(senders[0].put_long(&[0; MOST_LONG_BYTES]), Err(PutLongError::BatchFull));
    /// assert_eq!(senders[0].put_long(&[0; 881]), Err(PutLongError::TooLong));
    /// let _ = senders[0].send();
    /// assert_eq!(&receivers[0].next_long().unwrap()?[..], b"short");
    /// assert_eq!(&receivers[0].next_long().unwrap()?[..], [7; 111]);
    /// # Ok::<(), Box<dyn std::error::Error>>(())
    /// ```
    pub fn put_long(&mut self, message: &[u8]) -> Result<u64, PutLongError> {
        if message.len() > MOST_LONG_BYTES {
            return Err(self.refusal().unwrap_or(PutLongError::TooLong));
        }
        if self.pending() + pieces_of(message.len()) as u64 > self.batch_limit() {
            return Err(self.refusal().unwrap_or(PutLongError::BatchFull));
        }
        self.put_pieces(message).map_err(PutLongError::from)
    }

    /// Why it takes no message at all, if it takes none.
    fn refusal(&mut self) -> Option<PutLongError> {
        match self.put(&[0; MOST_BYTES + 1]) {
            Err(why) if why != PutError::TooLong => Some(why.into()),
            _ => None,
        }
    }

    /// Puts the pieces of a message of at most 880 bytes, for which the batch has room. A put takes
    /// no step, so where the first one is taken all are.
    #[inline]
    pub(crate) fn put_pieces(&mut self, message: &[u8]) -> Result<u64, PutError> {
        let (mut rest, mut follow) = (message, pieces_of(message.len()) - 1);
        while follow > 0 {
            let (bytes, behind) = rest.split_at(PIECE_BYTES);
            self.put_piece(follow as u8, bytes)?;
            (rest, follow) = (behind, follow - 1);
        }
        self.put_piece(0, rest)
    }

    /// Puts a piece of at most 55 bytes, which so many follow.
    #[inline]
    fn put_piece(&mut self, follow: u8, bytes: &[u8]) -> Result<u64, PutError> {
        let mut piece = [follow; MOST_BYTES];
        piece[1..=bytes.len()].copy_from_slice(bytes);
        self.put(&piece[..=bytes.len()])
    }
}
