//! Receivers of whole frames, as a journal records them.

use super::{Heard, Item, Receiver};
use crate::waiting::BackOff;
use std::time::Duration;

/// The tag of a head, of a message, and of a mark.
const HEAD: u64 = 1 << 62;
const MESSAGE: u64 = 2 << 62;
const MARK: u64 = 3 << 62;

/// The mark behind a head that says that its owner has left. That of the end is `MARK` alone.
const LEAVE: u64 = MARK | 1;

/// A frame of the order: what one sender has sent in one tenure. It stands whole in the log, and so
/// it is given.
#[derive(Clone, Debug, PartialEq, Eq)]
pub struct Frame {
    /// The tenure in which it was appended.
    pub tenure: u64,
    /// The sender whose frame it is.
    pub owner: u8,
    /// The place of its first word in the log.
    pub place: u64,
    /// What it says.
    pub body: Body,
}

/// What a frame says.
#[derive(Clone, Debug, PartialEq, Eq)]
pub enum Body {
    /// These messages, one at least and at most 64, all of its owner.
    Items(Vec<Item>),
    /// Its owner has left, and nothing of it follows.
    Leave,
    /// The order has ended.
    End,
}

impl Frame {
    /// Its messages; none of a frame that says something else.
    pub fn items(&self) -> &[Item] {
        match &self.body {
            Body::Items(items) => items,
            Body::Leave | Body::End => &[],
        }
    }

    /// Its words, as they stand in the log: a head, and each message with its bytes, or a mark.
    ///
    /// ```
    /// use kioskbasil::{Bus, Shape};
    ///
    /// let (mut senders, mut receivers) = Bus::open(Shape::of(1, 1))?;
    /// senders[0].send_all(["a"])?;
    /// let frame = receivers[0].try_frame().unwrap();
    /// let words = [0x4000_0200_0000_0000, 0x8040_0000_0000_0000, 0x6100_0000_0000_0000];
    /// assert_eq!(frame.words(), words);
    /// # Ok::<(), Box<dyn std::error::Error>>(())
    /// ```
    pub fn words(&self) -> Vec<u64> {
        let mut words = vec![0];
        match &self.body {
            Body::Items(items) => items.iter().for_each(|item| push_message(&mut words, item)),
            Body::Leave => words.push(LEAVE),
            Body::End => words.push(MARK),
        }
        let count = words.len() as u64 - 1;
        words[0] = HEAD | u64::from(self.owner) << 54 | count << 40 | self.tenure;
        words
    }

    /// The place in the log of the word behind it.
    ///
    /// ```
    /// # use kioskbasil::{Bus, Shape};
    /// let (mut senders, mut receivers) = Bus::open(Shape::of(1, 1))?;
    /// senders[0].send_all(["a"])?;
    /// assert_eq!(receivers[0].try_frame().unwrap().end_place(), senders[0].words());
    /// # Ok::<(), Box<dyn std::error::Error>>(())
    /// ```
    pub fn end_place(&self) -> u64 {
        let words: usize = match &self.body {
            Body::Items(items) => items.iter().map(|item| 1 + words_of(item)).sum(),
            Body::Leave | Body::End => 1,
        };
        self.place + 1 + words as u64
    }
}

/// How many words have the bytes of a message.
fn words_of(bytes: &[u8]) -> usize {
    (bytes.len() + 7) / 8
}

fn push_message(words: &mut Vec<u64>, item: &Item) {
    words.push(MESSAGE | (item.len() as u64) << 54 | item.number);
    for bytes in item.chunks(8) {
        let mut word = [0; 8];
        word[..bytes.len()].copy_from_slice(bytes);
        words.push(u64::from_be_bytes(word));
    }
}

/// What `Receiver::next_frame_while` or `Receiver::next_frame_timeout` came to.
#[derive(Clone, Debug, PartialEq, Eq)]
pub enum NextFrame {
    /// The next frame.
    Frame(Frame),
    /// The order has ended, and all of it was given.
    End,
    /// There is nothing more by now, and it was told not to go on, or its time is over.
    Stopped,
}

/// A frame of which the head alone was heard.
#[derive(Clone, Copy)]
pub(super) struct Head {
    tenure: u64,
    owner: u8,
    place: u64,
}

impl Head {
    fn with(self, body: Body) -> Frame {
        Frame {
            tenure: self.tenure,
            owner: self.owner,
            place: self.place,
            body,
        }
    }
}

impl Receiver {
    /// The next whole frame that is there; None where there is nothing more by now, or for good.
    /// Waits for nothing. The end of the order is a frame too, but not where it came without a mark
    /// (`Sender::end_with_senders`).
    ///
    /// Who hears by frames hears by frames alone, from the first item on. One of which another call
    /// has taken the head or an item is passed over: what the two calls give is never one item
    /// twice, and the `place` of the next frame shows that one is missing.
    ///
    /// ```
    /// use kioskbasil::{Body, Bus, Shape};
    ///
    /// let (mut senders, mut receivers) = Bus::open(Shape::of(2, 1))?;
    /// senders[1].send_all(["one", "two"])?;
    /// senders[0].end_order()?;
    /// let frame = receivers[0].try_frame().unwrap();
    /// assert_eq!((frame.owner, frame.place, frame.items().len()), (1, 0, 2));
    /// assert_eq!(receivers[0].try_frame().unwrap().body, Body::End);
    /// assert_eq!(receivers[0].try_frame(), None);
    /// assert!(receivers[0].has_ended());
    /// # Ok::<(), Box<dyn std::error::Error>>(())
    /// ```
    pub fn try_frame(&mut self) -> Option<Frame> {
        let (mut begun, mut items) = (self.begun_frame(), Vec::new());
        // The length that is loaded stands behind a whole frame, so none is Empty in the middle.
        while !self.ended {
            match self.turn() {
                Heard::Going => {}
                Heard::Item(item) => items.push(item),
                Heard::Head { tenure, owner } => {
                    let next = self.head_of(tenure, owner);
                    if let Some(head) = begun.replace(next) {
                        self.head = begun;
                        return Some(head.with(Body::Items(items)));
                    }
                    items.clear();
                }
                Heard::Leave(_) if begun.is_none() => items.clear(),
                Heard::Leave(_) => return begun.map(|head| head.with(Body::Leave)),
                Heard::End if items.is_empty() => return begun.map(|head| head.with(Body::End)),
                Heard::Empty | Heard::End => {
                    return begun.map(|head| head.with(Body::Items(items)));
                }
            }
        }
        None
    }

    /// The head that it has just heard.
    fn head_of(&mut self, tenure: u64, owner: u8) -> Head {
        Head {
            tenure,
            owner,
            place: self.place() - 1,
        }
    }

    /// The head that was heard behind the last frame, where no other call has gone on behind it.
    fn begun_frame(&mut self) -> Option<Head> {
        let head = self.head.take()?;
        (self.place() == head.place + 1).then_some(head)
    }

    /// As `try_frame`, but that it waits while there is none: None at the end and ever after.
    ///
    /// ```
    /// use kioskbasil::{Bus, Shape};
    ///
    /// let (mut senders, mut receivers) = Bus::open(Shape::of(1, 1))?;
    /// senders[0].send_all(["one", "two"])?;
    /// senders[0].end_order()?;
    /// let mut words = Vec::new();
    /// while let Some(frame) = receivers[0].next_frame() {
    ///     words.extend(frame.words());
    /// }
    /// assert_eq!(Bus::end(senders, receivers)?.log, words);
    /// # Ok::<(), Box<dyn std::error::Error>>(())
    /// ```
    pub fn next_frame(&mut self) -> Option<Frame> {
        match self.wait_for_frame(BackOff::new(self.waiting), || true) {
            NextFrame::Frame(frame) => Some(frame),
            NextFrame::End | NextFrame::Stopped => None,
        }
    }

    /// As `next_frame`, but that it can be told to stop, as `next_item_while`.
    pub fn next_frame_while(&mut self, go_on: impl FnMut() -> bool) -> NextFrame {
        self.wait_for_frame(BackOff::asked(self.waiting), go_on)
    }

    /// As `next_frame`, but that it waits for so long at most, as `next_item_timeout`.
    ///
    /// ```
    /// use kioskbasil::{Bus, NextFrame, Shape};
    /// use std::time::Duration;
    ///
    /// let (mut senders, mut receivers) = Bus::open(Shape::of(1, 1))?;
    /// let time = Duration::from_millis(5);
    /// assert_eq!(receivers[0].next_frame_timeout(time), NextFrame::Stopped);
    /// senders[0].send_all(["here"])?;
    /// assert!(matches!(receivers[0].next_frame_timeout(time), NextFrame::Frame(_)));
    /// # Ok::<(), Box<dyn std::error::Error>>(())
    /// ```
    pub fn next_frame_timeout(&mut self, time: Duration) -> NextFrame {
        self.wait_for_frame(BackOff::up_to(self.waiting, time), || true)
    }

    fn wait_for_frame(
        &mut self,
        mut back_off: BackOff,
        mut go_on: impl FnMut() -> bool,
    ) -> NextFrame {
        loop {
            if let Some(frame) = self.try_frame() {
                return NextFrame::Frame(frame);
            }
            if self.ended {
                return NextFrame::End;
            }
            if back_off.is_over() || !go_on() {
                return NextFrame::Stopped;
            }
            back_off.wait(&self.bell, self.place);
        }
    }
}
