//! The header of a journal, and checksums.

use super::sha256::digest;
use super::ReadError;
use crate::{NumbersError, Page, MOST_MESSAGES, MOST_SENDERS};

const MAGIC: &[u8; 8] = b"KIOSKLOG";
const VERSION: u64 = 1;

/// One above the greatest place that a header may say.
const PLACES: u64 = 1 << 63;

/// Bytes up to the number of senders and with it, and those before the first numbers.
pub(super) const SENDERS_END: usize = 24;
const FIRST_AT: usize = 40;

/// What a journal begins with: where in which log its first frame stands.
#[derive(Clone, Debug, PartialEq, Eq)]
pub struct Header {
    most: u64,
    place: u64,
    first: Vec<u64>,
}

impl Header {
    /// Of the log of a bus of so many senders that was opened after this page, from its first word
    /// on. Of a bus without a page before it `Page::from_numbers(&[0])` is that.
    ///
    /// `NumbersError::Senders` where the senders are not 1 to 64.
    ///
    /// ```
    /// use kioskbasil::{journal::Header, NumbersError, Page};
    ///
    /// let header = Header::after(2, &Page::from_numbers(&[7])?)?;
    /// assert_eq!((header.place(), header.first_numbers()), (0, &[7, 0][..]));
    /// assert_eq!(Header::after(65, &Page::from_numbers(&[7])?), Err(NumbersError::Senders));
    /// # Ok::<(), NumbersError>(())
    /// ```
    pub fn after(senders: usize, page: &Page) -> Result<Header, NumbersError> {
        if senders == 0 || senders > MOST_SENDERS {
            return Err(NumbersError::Senders);
        }
        Ok(Header::at(0, page.next_numbers()[..senders].to_vec()))
    }

    /// Of a file that begins at this place of a log.
    pub(super) fn at(place: u64, first: Vec<u64>) -> Header {
        Header {
            most: MOST_MESSAGES as u64,
            place,
            first,
        }
    }

    /// How many senders the bus has: 1 to 64.
    pub fn senders(&self) -> usize {
        self.first.len()
    }

    /// The most messages of a batch: 1 to 64, and 64 of a file that this crate has written.
    pub fn most_messages(&self) -> u64 {
        self.most
    }

    /// The place in the log of the file's first word, below 2^63.
    pub fn place(&self) -> u64 {
        self.place
    }

    /// The first number of each sender.
    pub fn first_numbers(&self) -> &[u64] {
        &self.first
    }

    /// How many bytes it has.
    pub(super) fn len(&self) -> usize {
        length(self.senders())
    }

    pub(super) fn bytes(&self) -> Vec<u8> {
        let mut bytes = MAGIC.to_vec();
        push_words(
            &mut bytes,
            &[VERSION, self.senders() as u64, self.most, self.place],
        );
        push_words(&mut bytes, &self.first);
        let sum = checksum(&[&bytes]);
        bytes.extend_from_slice(&sum);
        bytes
    }

    /// How many bytes a header has that begins with these, which are those up to the number of
    /// senders, or all of a file that has fewer.
    pub(super) fn length_of(front: &[u8]) -> Result<usize, ReadError> {
        let magic = front.len().min(MAGIC.len());
        if front[..magic] != MAGIC[..magic] {
            return Err(ReadError::OtherMagic);
        }
        let words = words_of(&front[magic..]);
        match words[..] {
            [] => Err(ReadError::TornHeader),
            [version, ..] if version != VERSION => Err(ReadError::OtherVersion { version }),
            [_] => Err(ReadError::TornHeader),
            [_, senders, ..] if senders == 0 || senders > MOST_SENDERS as u64 => {
                Err(ReadError::DamagedHeader)
            }
            [_, senders, ..] => Ok(length(senders as usize)),
        }
    }

    /// The header of these bytes, of which `length_of` has said how many they are.
    pub(super) fn of_bytes(bytes: &[u8]) -> Result<Header, ReadError> {
        let (front, sum) = bytes.split_at(bytes.len() - 8);
        let words = words_of(&front[SENDERS_END..]);
        let (most, place) = (words[0], words[1]);
        let is_in_range = (1..=MOST_MESSAGES as u64).contains(&most) && place < PLACES;
        if !is_in_range || sum != checksum(&[front]) {
            return Err(ReadError::DamagedHeader);
        }
        Ok(Header {
            most,
            place,
            first: words[2..].to_vec(),
        })
    }
}

/// How many bytes the header has of a bus of so many senders.
fn length(senders: usize) -> usize {
    FIRST_AT + 8 * senders + 8
}

/// The checksum of these parts, one behind another. It ends with no zero byte.
pub(super) fn checksum(parts: &[&[u8]]) -> [u8; 8] {
    let mut sum = [0; 8];
    sum.copy_from_slice(&digest(parts)[..8]);
    sum[7] |= 3;
    sum
}

pub(super) fn push_words(bytes: &mut Vec<u8>, words: &[u64]) {
    for word in words {
        bytes.extend_from_slice(&word.to_be_bytes());
    }
}

/// The words of these bytes. Fewer than eight at the end are none.
pub(super) fn words_of(bytes: &[u8]) -> Vec<u64> {
    let words = bytes.chunks_exact(8).map(|bytes| {
        let mut word = [0; 8];
        word.copy_from_slice(bytes);
        u64::from_be_bytes(word)
    });
    words.collect()
}
