//! With which frames a log goes on.

use super::header::{checksum, push_words, words_of};
use super::Header;
use crate::{Body, Frame, Item, MOST_BYTES, MOST_MESSAGES, MOST_SENDERS};

/// Bits of a number, and of a tenure.
const NUMBER: u64 = (1 << 48) - 1;
const TENURE: u64 = (1 << 40) - 1;

/// Where a log has come to.
#[derive(Clone, Debug, PartialEq, Eq)]
pub(super) struct Log {
    most: u64,
    pub(super) place: u64,
    /// The number that the next item of each sender would have.
    pub(super) next: Vec<u64>,
    pub(super) left: [bool; MOST_SENDERS],
    pub(super) ended: bool,
    /// One above the tenure of the last frame.
    tenures: u64,
}

impl Log {
    /// Of a file that has its header alone.
    pub(super) fn after(header: &Header) -> Log {
        Log {
            most: header.most_messages(),
            place: header.place(),
            next: header.first_numbers().to_vec(),
            left: [false; MOST_SENDERS],
            ended: false,
            tenures: 0,
        }
    }

    /// How many bytes the record has with whose head these bytes begin. None where they begin with
    /// no head of a record.
    pub(super) fn record_length(&self, bytes: &[u8]) -> Option<usize> {
        let head = u64::from_be_bytes(bytes.get(..8)?.try_into().ok()?);
        let (owner, count) = (owner_of(head), count_of(head));
        let is_head = head >> 62 == 1 && usize::from(owner) < self.next.len();
        let is_counted = count >= 1 && count <= 8 * self.most;
        (is_head && is_counted).then_some(8 * (count as usize + 2))
    }

    /// The frame of these bytes of a record, where its checksum holds, and the log goes on with it.
    pub(super) fn frame_of_record(&self, record: &[u8]) -> Option<Frame> {
        if !has_checksum(self.place, record) {
            return None;
        }
        self.frame_of(&words_of(&record[..record.len() - 8]))
    }

    /// A whole record of a later place stands in these bytes, behind some that look torn. So these
    /// are no torn end: a head was damaged, and tells of too many bytes.
    pub(super) fn has_record_in(&self, rest: &[u8]) -> bool {
        let has_record = |at: usize| {
            let bytes = &rest[at..];
            let length = self.record_length(bytes);
            let record = length.and_then(|length| bytes.get(..length));
            // As many words stand before it, less the checksums of one record or more.
            let mut places = (1..at as u64 / 8).map(|words| self.place + words);
            record.map_or(false, |it| places.any(|place| has_checksum(place, it)))
        };
        (8..rest.len()).step_by(8).any(has_record)
    }

    /// Writes the record of a frame into `record`. False where that is not the next of the log.
    pub(super) fn record_of(&self, frame: &Frame, record: &mut Vec<u8>) -> bool {
        let words = frame.words();
        record.clear();
        push_words(record, &words);
        let is_next = self.frame_of(&words).as_ref() == Some(frame) && self.goes_on_with(frame);
        if !is_next || self.record_length(record).is_none() {
            return false;
        }
        let sum = checksum(&[&self.place.to_be_bytes(), record]);
        record.extend_from_slice(&sum);
        true
    }

    /// The numbers of its messages go on with those of its owner.
    fn goes_on_with(&self, frame: &Frame) -> bool {
        let numbers = self.next[usize::from(frame.owner)]..;
        let mut pairs = numbers.zip(frame.items());
        pairs.all(|(next, item)| item.number == next)
    }

    /// The frame of these words, where the log goes on with it: the first is a head, which has as
    /// many behind it as it says.
    fn frame_of(&self, words: &[u64]) -> Option<Frame> {
        let (&head, rest) = words.split_first()?;
        let (owner, tenure) = (owner_of(head), head & TENURE);
        let is_there = usize::from(owner) < self.next.len() && !self.left[usize::from(owner)];
        let is_counted = count_of(head) == rest.len() as u64;
        if self.ended || head >> 62 != 1 || !is_there || !is_counted || tenure < self.tenures {
            return None;
        }
        Some(Frame {
            tenure,
            owner,
            place: self.place,
            body: body_of(owner, rest)?,
        })
    }

    /// The log goes on with this frame.
    pub(super) fn take(&mut self, frame: &Frame) {
        self.place = frame.end_place();
        self.tenures = frame.tenure + 1;
        let owner = usize::from(frame.owner);
        match &frame.body {
            Body::Items(items) => items.iter().for_each(|item| {
                self.next[owner] = self.next[owner].max(item.number + 1);
            }),
            Body::Leave => self.left[owner] = true,
            Body::End => self.ended = true,
        }
    }
}

/// The checksum of a record holds at this place.
fn has_checksum(place: u64, record: &[u8]) -> bool {
    let (bytes, sum) = record.split_at(record.len() - 8);
    sum == checksum(&[&place.to_be_bytes(), bytes])
}

fn owner_of(head: u64) -> u8 {
    (head >> 54) as u8
}

fn count_of(head: u64) -> u64 {
    head >> 40 & 0x3fff
}

/// What the words behind a head say.
fn body_of(owner: u8, words: &[u64]) -> Option<Body> {
    match words {
        [] => None,
        [0xc000_0000_0000_0000] => Some(Body::End),
        [0xc000_0000_0000_0001] => Some(Body::Leave),
        _ => items_of(owner, words).map(Body::Items),
    }
}

/// The messages that these words are, at most 64: so no more than 512 words are any.
fn items_of(owner: u8, mut words: &[u64]) -> Option<Vec<Item>> {
    let mut items = Vec::new();
    while let Some((&word, rest)) = words.split_first() {
        let length = (word >> 54 & 0xff) as usize;
        let data = (length + 7) / 8;
        let is_message = word >> 62 == 2 && length <= MOST_BYTES && word >> 48 & 0x3f == 0;
        if !is_message || data > rest.len() || items.len() == MOST_MESSAGES {
            return None;
        }
        let (data, behind) = rest.split_at(data);
        let mut bytes = [0; MOST_BYTES];
        for (eight, word) in bytes.chunks_exact_mut(8).zip(data) {
            eight.copy_from_slice(&word.to_be_bytes());
        }
        if bytes[length..].iter().any(|byte| *byte != 0) {
            return None;
        }
        items.push(Item::of(owner, word & NUMBER, &bytes[..length]));
        words = behind;
    }
    Some(items)
}
