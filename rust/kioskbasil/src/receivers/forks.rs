//! Receivers that join a bus while it runs.

use super::Receiver;
use crate::errors::ForkError;
use crate::raw;

impl Receiver {
    /// Another receiver of its bus, which is given just what this one will be given: it goes on from
    /// here, with the items that wait in its batch, and waits as this one does. Then each goes where
    /// it likes. So a worker that starts late has a copy of another one's state and a fork of its
    /// receiver, both taken with nothing heard between.
    ///
    /// Of a ring it takes the lowest number above this one's that is free, and `NoSeat` says that
    /// each was taken when it was tried. To keep some for later, open a ring with more receivers
    /// than are needed, and drop the last ones at the start. A fork that is dropped frees its
    /// number. Of another bus there is always one more. It waits for nobody.
    ///
    /// ```
    /// use kioskbasil::{Bus, ForkError, Shape};
    ///
    /// let (mut senders, mut receivers) = Bus::open_ring(Shape::of(1, 2))?;
    /// receivers.truncate(1); // its number is free from now on
    /// senders[0].send_all(["one", "two"])?;
    /// assert_eq!(receivers[0].next_item().map(|item| item.number), Some(0));
    /// let mut late = receivers[0].fork()?;
    /// assert_eq!(receivers[0].fork().unwrap_err(), ForkError::NoSeat);
    /// senders[0].end_order()?;
    /// assert_eq!(&late.next_item().unwrap()[..], b"two");
    /// assert!(late.eq(receivers.remove(0).skip(1)));
    /// # Ok::<(), Box<dyn std::error::Error>>(())
    /// ```
    pub fn fork(&mut self) -> Result<Receiver, ForkError> {
        let mut joined = raw::RawReceiver::NONE;
        // SAFETY: as in `shown`; the other handle is empty, and this function's own.
        match unsafe { raw::bus_c_fork(&mut self.raw, &mut joined) } {
            0 => Ok(self.with_raw(joined)),
            code => Err(ForkError::of_code(code)),
        }
    }

    /// What it is, by another handle.
    fn with_raw(&self, raw: raw::RawReceiver) -> Receiver {
        Receiver {
            raw,
            ready: self.ready,
            given: self.given,
            many: self.many,
            ended: self.ended,
            head: self.head,
            log_words: self.log_words,
            passed: self.passed,
            read: self.read,
            bell: self.bell.clone(),
            place: self.bell.new_place(),
            shared: self.shared.clone(),
            waiting: self.waiting,
        }
    }
}
