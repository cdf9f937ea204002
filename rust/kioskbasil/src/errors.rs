//! Why a call did not do what it was asked for.

use crate::Turn;
use std::error::Error;
use std::fmt;

macro_rules! faults {
    ($(#[$doc:meta])* $name:ident {
        $($(#[$of:meta])* $fault:ident = $code:literal: $text:literal,)*
    }) => {
        $(#[$doc])*
        #[derive(Clone, Copy, Debug, PartialEq, Eq)]
        pub enum $name { $($(#[$of])* $fault,)* }

        impl $name {
            pub(crate) fn of_code(code: u32) -> $name {
                match code {
                    $($code => $name::$fault,)*
                    _ => unreachable!("the archive answered {code}"),
                }
            }
        }

        impl fmt::Display for $name {
            fn fmt(&self, f: &mut fmt::Formatter<'_>) -> fmt::Result {
                f.write_str(match self { $($name::$fault => $text,)* })
            }
        }

        impl Error for $name {}
    };
}

faults! {
    /// Why no bus was opened: the first cause that holds.
    OpenError {
        /// Senders are not 1 to 64.
        Senders = 32: "a bus has 1 to 64 senders",
        /// Receivers are not 1 to 64.
        Receivers = 33: "a bus has 1 to 64 receivers",
        /// Rounds are not 1 to 8.
        Rounds = 34: "a bus has 1 to 8 rounds",
        /// Rows are not 1 to 256; used again, not 2 to 8.
        Rows = 35: "a bus has 1 to 256 rows, used again 2 to 8",
        /// Words of the log are not 16 to 65,536.
        LogWords = 36: "a log has 16 to 65,536 words",
        /// Memory was refused.
        NoMemory = 37: "memory was refused",
        /// The order of the bus before has not ended.
        NotEnded = 49: "the order of the bus before has not ended",
        /// A next number of the bus before is 2^48 - 65,536 or more; of a ring with batches of B
        /// messages 2^48 - B * (2^40 + 1) or more.
        Numbers = 50: "the numbers of a sender are used up",
        /// Messages of a batch are not 1 to 64, or where the log is no ring not 16.
        BadBatch = 56: "a batch has 1 to 64 messages, without a ring 16",
        /// The log of a ring has fewer words than its longest frame: 1 + 8 B for batches of B
        /// messages, so 513 for 64.
        ShortRing = 57: "a ring shorter than its longest frame: one word, and eight a message",
    }
}

faults! {
    /// Why a message was not put; nothing has changed.
    PutError {
        /// A close or a leave was accepted, or the order is known to have ended.
        Closed = 38: "no message is taken: closed",
        /// The batch is on its way.
        Busy = 39: "no message is taken: the batch is on its way",
        /// More than 56 bytes.
        TooLong = 40: "no message is taken: more than 56 bytes",
        /// As many messages wait as a batch of the bus may have.
        BatchFull = 41: "no message is taken: as many wait as a batch has",
    }
}

faults! {
    /// Why a close or a leave was not taken; nothing has changed.
    CloseError {
        /// One was accepted, or the order is known to have ended.
        Closed = 42: "no close or leave is taken: closed",
        /// The batch is on its way.
        Busy = 43: "no close or leave is taken: the batch is on its way",
        /// Messages wait.
        Pending = 44: "no close or leave is taken: messages wait",
    }
}

faults! {
    /// Why a bus was not ended. Its handles are gone.
    EndError {
        /// Other handles have the bus still.
        InUse = 45: "other handles have the bus still",
        /// A sender that took the page has not given it back.
        PageOut = 46: "a sender has not given the page back",
        /// There was no receiver.
        NoReceiver = 47: "there is no receiver to end the bus by",
    }
}

faults! {
    /// Why no receiver was made. The one that forks hears on as before; of a ring a number may have
    /// been taken, and given up, before memory was refused.
    ForkError {
        /// Memory was refused.
        NoMemory = 37: "memory was refused",
        /// Of a ring: each number above the receiver's own was taken when it was tried. Another
        /// receiver may be dropped.
        NoSeat = 54: "each number above the receiver's own was taken",
    }
}

faults! {
    /// Why senders tell no page of a sitting whose order has ended.
    PageError {
        /// None of them has closed the order.
        NotEnded = 49: "the order has not ended",
        /// They are of two buses.
        OtherBus = 51: "the handles are of two buses",
        /// A sender was not answered `Closed` or `Left` yet, or they are not all senders of the bus
        /// in their order.
        Unanswered = 52: "a sender was not answered that the order has ended",
    }
}

/// Why numbers make no page.
#[derive(Clone, Copy, Debug, PartialEq, Eq)]
pub enum NumbersError {
    /// They are not of 1 to 64 senders.
    Senders,
    /// One of them is 2^48 - 65,536 or more.
    Numbers,
}

impl fmt::Display for NumbersError {
    fn fmt(&self, f: &mut fmt::Formatter<'_>) -> fmt::Result {
        f.write_str(match self {
            NumbersError::Senders => "a page has the numbers of 1 to 64 senders",
            NumbersError::Numbers => "the numbers of a sender are used up",
        })
    }
}

impl Error for NumbersError {}

/// Two handles are of two buses, and tell one another nothing; nothing has changed.
#[derive(Clone, Copy, Debug, PartialEq, Eq)]
pub struct OtherBus;

impl fmt::Display for OtherBus {
    fn fmt(&self, f: &mut fmt::Formatter<'_>) -> fmt::Result {
        f.write_str("the handles are of two buses")
    }
}

impl Error for OtherBus {}

/// The batch is longer than the log, so it never has room; nothing has changed. That is never so of
/// a ring.
#[derive(Clone, Copy, Debug, PartialEq, Eq)]
pub struct NeverFits;

impl fmt::Display for NeverFits {
    fn fmt(&self, f: &mut fmt::Formatter<'_>) -> fmt::Result {
        f.write_str("the batch is longer than the log")
    }
}

impl Error for NeverFits {}

/// Why a batch is not known to be sent by now. It is kept, and a later call goes on with it. Only
/// after `Behind` it may stand in the order already.
#[derive(Clone, Copy, Debug, PartialEq, Eq)]
pub enum TrySendError {
    /// It has no room. Of a ring that is for now, and it can be tried again once the receivers have
    /// heard; of another bus it is for good. Each such answer takes a tenure: so hear until
    /// `Sender::has_room` says yes, or the order has ended.
    Full,
    /// Another sender has to go on first.
    Waiting,
    /// Another sender has to go on first, and this one holds the page, for which all others wait. Its
    /// batch may stand in the order already, so it is sent by no other way. Hear, but do not wait,
    /// and come back soon.
    Behind,
    /// It is longer than the log, which is no ring, so it never has room.
    NeverFits,
}

impl fmt::Display for TrySendError {
    fn fmt(&self, f: &mut fmt::Formatter<'_>) -> fmt::Result {
        match self {
            TrySendError::Full => f.write_str("the batch is kept: it has no room by now"),
            TrySendError::Waiting => {
                f.write_str("the batch is kept: another sender has to go on first")
            }
            TrySendError::Behind => f.write_str(
                "the batch may be in the order already: this sender holds the page, and another one \
                 has to go on first",
            ),
            TrySendError::NeverFits => NeverFits.fmt(f),
        }
    }
}

impl Error for TrySendError {}

impl From<NeverFits> for TrySendError {
    fn from(_: NeverFits) -> TrySendError {
        TrySendError::NeverFits
    }
}

/// Why a sender does not go on.
#[derive(Clone, Copy, Debug, PartialEq, Eq)]
pub enum SendError {
    /// Messages wait, or a close or a leave, and this is what sending them was answered.
    Turn(Turn),
    /// The next message was not taken.
    Put(PutError),
    /// The close was not taken.
    Close(CloseError),
}

impl fmt::Display for SendError {
    fn fmt(&self, f: &mut fmt::Formatter<'_>) -> fmt::Result {
        match self {
            SendError::Turn(Turn::Full) => f.write_str(
                "what waits is not sent: full; of a ring it can be tried again once the receivers \
                 have heard, and else another sender with which nothing waits can end the order",
            ),
            SendError::Turn(turn) => write!(f, "what waits is not sent: {turn}"),
            SendError::Put(why) => why.fmt(f),
            SendError::Close(why) => why.fmt(f),
        }
    }
}

impl Error for SendError {}

/// Not all messages were sent. None is lost: the batch of the sender keeps those that wait.
#[derive(Clone, Copy, Debug, PartialEq, Eq)]
pub struct Unsent {
    /// How many were put, from the first on.
    pub put: usize,
    /// Why no more.
    pub why: SendError,
}

impl fmt::Display for Unsent {
    fn fmt(&self, f: &mut fmt::Formatter<'_>) -> fmt::Result {
        let messages = if self.put == 1 { "message" } else { "messages" };
        write!(f, "after {} {messages}: {}", self.put, self.why)
    }
}

impl Error for Unsent {}
