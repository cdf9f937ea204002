//! A replica's place at its bus: a sender and a receiver.

use super::told::Told;
use super::ReplicaError;
use crate::bell::quietly;
use crate::long::{join, pieces_of, Begun};
use crate::{PutError, Receiver, Sender, TrySendError, Turn, MOST_LONG_BYTES};
use std::sync::Arc;
use std::task::{Context, Poll};

/// An operation of the order, where it lies.
pub(crate) struct Operation<'a> {
    pub(crate) from: u32,
    pub(crate) number: u64,
    pub(crate) bytes: &'a [u8],
    /// It stands in so many words of the log.
    pub(crate) words: u64,
}

/// A sender and a receiver of one bus, which are dropped together. No call of it but `poll_send`
/// returns with a tenure begun.
pub(crate) struct Seat {
    pub(crate) sender: Sender,
    pub(crate) receiver: Receiver,
    pub(crate) told: Arc<Told>,
    worker: u32,
    /// How many messages wait.
    waits: u64,
    /// How many words the log had behind the last frame of messages that it has sent.
    sent: u64,
    /// An operation of several pieces.
    joined: [u8; MOST_LONG_BYTES],
    /// Its leave mark was taken.
    is_leaving: bool,
    /// That mark waits.
    leaves: bool,
    /// Its last turn found no room.
    is_full: bool,
}

impl Seat {
    pub(crate) fn new(sender: Sender, receiver: Receiver, told: &Arc<Told>) -> Seat {
        Seat {
            worker: u32::from(sender.number()),
            sender,
            receiver,
            told: told.clone(),
            waits: 0,
            sent: 0,
            joined: [0; MOST_LONG_BYTES],
            is_leaving: false,
            leaves: false,
            is_full: false,
        }
    }

    /// Nothing waits to be sent.
    pub(crate) fn has_sent(&self) -> bool {
        self.waits == 0 && !self.leaves
    }

    /// Puts an operation into the batch, and gives the number of its last piece. None where the
    /// batch is to be sent first: it has not so many messages left.
    ///
    /// No worker fails or leaves between two pieces. A put takes no turn and calls nothing of the
    /// user's, and the batch is one frame of the order: all pieces stand in it, or none does.
    pub(crate) fn put(&mut self, operation: &[u8]) -> Result<Option<u64>, ReplicaError> {
        if operation.len() > MOST_LONG_BYTES {
            return Err(ReplicaError::TooLong);
        }
        let pieces = pieces_of(operation.len()) as u64;
        if self.waits + pieces > self.sender.batch_limit() {
            return Ok(None);
        }
        match self.sender.put_pieces(operation) {
            Ok(number) => {
                self.waits += pieces;
                Ok(Some(number))
            }
            Err(PutError::Closed) => Err(ReplicaError::Ended),
            Err(PutError::TooLong | PutError::Busy | PutError::BatchFull) => Ok(None),
        }
    }

    /// Lets a leave mark wait.
    pub(crate) fn leave(&mut self) -> Result<(), ReplicaError> {
        self.sender.leave().map_err(|_| ReplicaError::Ended)?;
        (self.is_leaving, self.leaves) = (true, true);
        Ok(())
    }

    /// Its leave mark was taken, be it sent or not.
    pub(crate) fn is_leaving(&self) -> bool {
        self.is_leaving
    }

    /// Takes turns towards sending what waits, as many as wait for nobody; but that it takes the
    /// rest of a tenure that it has begun. Says whether something was sent.
    pub(crate) fn send(&mut self) -> Result<bool, ReplicaError> {
        if !self.is_turn_due() {
            return Ok(false);
        }
        match self.sender.try_send() {
            Ok(turn) => self.answered(turn),
            Err(TrySendError::Behind) => self.settle(),
            Err(TrySendError::Full | TrySendError::NeverFits) => self.answered(Turn::Full),
            Err(TrySendError::Waiting) => Ok(false),
        }
    }

    /// As `send`, for tasks: it is pending where another sender has to go on first, and a tenure
    /// is begun then where the sender is behind.
    pub(crate) fn poll_send(
        &mut self,
        context: &mut Context<'_>,
    ) -> Poll<Result<bool, ReplicaError>> {
        if !self.is_turn_due() {
            return Poll::Ready(Ok(false));
        }
        self.sender
            .poll_send(context)
            .map(|turn| self.answered(turn))
    }

    /// Takes the turns that are left of a tenure that it has begun. Says whether something was
    /// sent.
    pub(crate) fn settle(&mut self) -> Result<bool, ReplicaError> {
        match self.sender.settle() {
            Some(turn) => self.answered(turn),
            None => Ok(false),
        }
    }

    /// Something waits, and its last turn found room, or a look finds some since: each `Full`
    /// takes a tenure.
    fn is_turn_due(&mut self) -> bool {
        if self.has_sent() {
            return false;
        }
        self.is_full = self.is_full && self.sender.has_room() == Ok(false);
        !self.is_full
    }

    fn answered(&mut self, turn: Turn) -> Result<bool, ReplicaError> {
        match turn {
            // Idle where the answer before was lost, in a panic of a waker.
            Turn::Delivered { .. } | Turn::Idle => {
                self.waits = 0;
                self.sent = self.sender.words();
                self.told.publish(self.sent);
                Ok(true)
            }
            // Closed where this answer was lost so.
            Turn::Left { .. } | Turn::Closed if self.sender.has_left() => {
                self.leaves = false;
                self.note_left();
                self.sender.bell().ring();
                Ok(true)
            }
            Turn::Full => {
                self.is_full = true;
                Ok(false)
            }
            Turn::Closed => Err(ReplicaError::Ended),
            Turn::Spent => Err(ReplicaError::Spent),
            _ => Ok(false),
        }
    }

    fn note_left(&mut self) {
        let words = self.sender.words();
        self.told.note_left(self.worker, words);
    }

    /// The next operation that is there.
    #[inline]
    pub(crate) fn lend_operation(&mut self) -> Option<Operation<'_>> {
        let mut begun = self.receiver.begun();
        if begun == Begun::Part {
            begun = self.receiver.look_for_long();
            self.told.publish(self.receiver.read());
        }
        let words = self.receiver.read();
        let (last, bytes) = match self.receiver.take_pieces(begun)? {
            Ok([one]) => (one, &one[1..]),
            Ok(pieces) => (&pieces[pieces.len() - 1], join(pieces, &mut self.joined)),
            Err(_) => unreachable!("nobody else puts into this bus"),
        };
        Some(Operation {
            from: u32::from(last.sender),
            number: last.number,
            bytes,
            words,
        })
    }

    /// How many words the log has up to the end of its own last frame, where all is sent that was
    /// put.
    #[inline]
    pub(crate) fn sent_words(&self) -> Option<u64> {
        self.has_sent().then_some(self.sent)
    }

    /// The order has ended before this worker has left it.
    #[inline]
    pub(crate) fn is_cut_off(&self) -> bool {
        self.receiver.has_ended() && !self.is_leaving
    }

    /// It has given all operations of so many words of the log.
    #[inline]
    pub(crate) fn has_given(&self, words: u64) -> bool {
        !self.receiver.has_at_hand() && self.receiver.read() >= words
    }
}

impl Drop for Seat {
    /// Its sender sends nothing more: the others are told so, and need not wait for its leave
    /// mark. The drop of its receiver rings.
    fn drop(&mut self) {
        quietly(|| {
            let _ = self.settle();
        });
        self.note_left();
    }
}
