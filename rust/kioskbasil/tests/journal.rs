//! Frames of receivers, and journals. The bytes here were worked out from docs/FORMATS.md, and
//! their checksums by Python's hashlib.

mod common;
#[path = "journal/disk.rs"]
mod disk;
#[path = "journal/failing.rs"]
mod failing;
#[path = "journal/frames.rs"]
mod frames;
#[path = "journal/reading.rs"]
mod reading;
#[path = "journal/runs.rs"]
mod runs;
#[path = "journal/writing.rs"]
mod writing;

use common::{bus, Folder};
use kioskbasil::journal::{self, Doing, End, Header, JournalError, ReadError, Safe};
use kioskbasil::{Frame, Page};

/// The header of two senders, of batches of 16, at place 5, with the first numbers 9 and 4.
const HEADER: &str = "4b494f534b4c4f47 0000000000000001 0000000000000002 0000000000000010 \
     0000000000000005 0000000000000009 0000000000000004 0f8a5fbbaa9dc7cf";

/// A frame of sender 0 with the message `a`, at place 5; one of sender 1 with an empty message, at
/// place 8; and an end mark by sender 0, at place 10.
const FIRST: &str = "4000020000000000 8040000000000000 6100000000000000 548d1029cf1c9bb3";
const SECOND: &str = "4040010000000003 8000000000000007 1143f96a62374e03";
const THIRD: &str = "4000010000000005 c000000000000000 74bb95162b32b347";

/// Where the records of these end, behind the header.
const ENDS: [usize; 4] = [64, 96, 120, 144];

/// The bytes of these, of which each is hexadecimal digits.
fn bytes(parts: &[&str]) -> Vec<u8> {
    let digits: Vec<char> = parts.concat().chars().filter(|it| *it != ' ').collect();
    let byte = |pair: &[char]| u8::from_str_radix(&pair.iter().collect::<String>(), 16).unwrap();
    digits.chunks(2).map(byte).collect()
}

fn small() -> Vec<u8> {
    bytes(&[HEADER, FIRST, SECOND, THIRD])
}

/// What a journal says: how many frames, and how it ends.
fn told(bytes: &[u8]) -> (usize, End) {
    let read = journal::read_from(bytes).unwrap();
    (read.frames().len(), read.end())
}

fn refusal(bytes: &[u8]) -> ReadError {
    journal::read_from(bytes).unwrap_err()
}

/// A header of so many senders whose numbers begin with 0.
fn header(senders: usize) -> Header {
    Header::after(senders, &Page::from_numbers(&[0]).unwrap()).unwrap()
}

/// What has failed of a journal, what of it is safe, and the text.
fn failure(error: JournalError) -> (Doing, Safe, String) {
    match &error {
        JournalError::Failed { doing, safe, .. } => (*doing, *safe, error.to_string()),
        other => panic!("{other}"),
    }
}

/// A receiver that has heard so many frames, of one message each.
fn heard(frames: usize) -> Vec<Frame> {
    let (mut senders, mut receivers) = bus(1, 1, 8);
    for _ in 0..frames {
        senders[0].send_all(["a"]).unwrap();
    }
    (0..frames)
        .map(|_| receivers[0].try_frame().unwrap())
        .collect()
}
