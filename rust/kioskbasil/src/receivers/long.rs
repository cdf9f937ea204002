//! Receivers of long messages.

use super::{Item, Receiver};
use crate::long::{begun, Begun, LongItem, NextLong, NotLong};
use crate::waiting::{BackOff, Polled};
use std::task::{Context, Poll};

impl Receiver {
    /// The next long message that is there, as `put_long` has put it; None where there is nothing
    /// more by now, or for good. Waits for nothing.
    ///
    /// An item that is no long message is an error that has it, so nothing is lost. There is none
    /// where all send by `put_long`. One of which pieces are missing waits for what follows it in
    /// the order, so all receivers hear the same.
    ///
    /// ```
    /// use kioskbasil::{Bus, NotLong, Shape};
    ///
    /// let (mut senders, mut receivers) = Bus::open(Shape::of(1, 1))?;
    /// senders[0].put(b"by put")?;
    /// senders[0].put_long(&[1; 880 - 55])?;
    /// let _ = senders[0].send();
    /// let NotLong(item) = receivers[0].try_long().unwrap().unwrap_err();
    /// assert_eq!(&item[..], b"by put");
    /// assert_eq!(receivers[0].try_long().unwrap()?.len(), 880 - 55);
    /// assert!(receivers[0].try_long().is_none());
    /// # Ok::<(), Box<dyn std::error::Error>>(())
    /// ```
    pub fn try_long(&mut self) -> Option<Result<LongItem, NotLong>> {
        let begun = self.look_for_long();
        self.take_long(begun)
    }

    /// As `try_long`, but that it waits while there is none: None at the end and ever after.
    ///
    /// ```
    /// # use kioskbasil::{Bus, Shape};
    /// let (mut senders, mut receivers) = Bus::open(Shape::of(1, 1))?;
    /// senders[0].put_long(&[1; 200])?;
    /// let _ = senders[0].send();
    /// senders[0].end_order()?;
    /// let mut lengths = Vec::new();
    /// while let Some(long) = receivers[0].next_long() {
    ///     lengths.push(long?.len());
    /// }
    /// assert_eq!(lengths, [200]);
    /// # Ok::<(), Box<dyn std::error::Error>>(())
    /// ```
    pub fn next_long(&mut self) -> Option<Result<LongItem, NotLong>> {
        let begun = self.wait_for_long(|| true)?;
        self.take_long(begun)
    }

    /// As `next_long`, but that it can be told to stop, as with `next_item_while`.
    pub fn next_long_while(&mut self, go_on: impl FnMut() -> bool) -> NextLong {
        let begun = match self.wait_for_long(go_on) {
            Some(begun) => begun,
            None => return NextLong::Stopped,
        };
        match self.take_long(begun) {
            Some(Ok(long)) => NextLong::Long(long),
            Some(Err(NotLong(item))) => NextLong::NotLong(item),
            None => NextLong::End,
        }
    }

    /// As `next_long`, for tasks, as `poll_item` is.
    pub fn poll_long(
        &mut self,
        context: &mut Context<'_>,
    ) -> Poll<Option<Result<LongItem, NotLong>>> {
        for listens in [false, true] {
            if let Some(long) = self.try_long() {
                return Poll::Ready(Some(long));
            }
            if self.has_ended() {
                return Poll::Ready(None);
            }
            if !listens {
                self.bell.listen(self.place, context.waker());
            }
        }
        Poll::Pending
    }

    /// As `next_long`, for tasks. Where the future is dropped nothing is lost.
    pub async fn next_long_async(&mut self) -> Option<Result<LongItem, NotLong>> {
        Polled(|context: &mut Context<'_>| self.poll_long(context)).await
    }

    /// What the items at hand begin with. The pieces of a message stand in one frame, so where one
    /// is there all are: but some of them may be in the bus still.
    #[inline]
    pub(crate) fn begun(&self) -> Begun {
        begun(&self.ready[self.given..self.many])
    }

    /// Takes items out of the bus, where no whole message is at hand. What those at hand begin with
    /// then.
    #[inline]
    pub(crate) fn look_for_long(&mut self) -> Begun {
        let begun = self.begun();
        if begun != Begun::Part || self.ended {
            return begun;
        }
        self.fill();
        self.begun()
    }

    /// The pieces of the next long message, where the items at hand begin with it.
    #[inline]
    pub(crate) fn take_pieces(&mut self, begun: Begun) -> Option<Result<&[Item], NotLong>> {
        let pieces = match begun {
            Begun::Whole(many) => many,
            Begun::Part if !self.ended => return None,
            _ => return Some(Err(NotLong(self.at_hand()?))),
        };
        self.given += pieces;
        Some(Ok(&self.ready[self.given - pieces..self.given]))
    }

    fn take_long(&mut self, begun: Begun) -> Option<Result<LongItem, NotLong>> {
        let pieces = self.take_pieces(begun)?;
        Some(pieces.map(LongItem::of))
    }

    /// Waits until it has a long message at hand, or an item that is none, or the order has ended.
    /// None where it is told to stop.
    fn wait_for_long(&mut self, mut go_on: impl FnMut() -> bool) -> Option<Begun> {
        let mut back_off = BackOff::new(self.waiting);
        loop {
            let begun = self.look_for_long();
            if begun != Begun::Part || self.ended {
                return Some(begun);
            }
            if !go_on() {
                return None;
            }
            back_off.wait(&self.bell, self.place);
        }
    }
}
