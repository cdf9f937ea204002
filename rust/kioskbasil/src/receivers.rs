//! Receivers.

mod forks;
mod frames;
mod long;

pub use frames::{Body, Frame, NextFrame};

use crate::errors::{EndError, OtherBus};
use crate::raw;
use crate::shared::Shared;
use crate::waiting::{BackOff, Polled};
use crate::{Bell, Ended, Sender, Shape, Waiting, MOST_BYTES, MOST_SENDERS};
use std::cmp::Ordering;
use std::ops::Deref;
use std::sync::Arc;
use std::task::{Context, Poll};
use std::time::Duration;
use std::{fmt, mem, ptr};

/// A message of the order. It is its bytes.
// The archive writes it: its fields are those of `kioskbasil_item`, in their order.
#[repr(C)]
#[derive(Clone, Copy)]
pub struct Item {
    /// Its number among the messages of its sender, from the base of that on.
    pub number: u64,
    /// Its sender.
    pub sender: u8,
    length: u8,
    bytes: [u8; MOST_BYTES],
}

// As the archive writes it.
const _: () = assert!(mem::size_of::<Item>() == 72);

impl Item {
    const NONE: Item = Item {
        number: 0,
        sender: 0,
        length: 0,
        bytes: [0; MOST_BYTES],
    };

    /// The item of these bytes, at most 56.
    pub(crate) fn of(sender: u8, number: u64, bytes: &[u8]) -> Item {
        let mut item = Item {
            number,
            sender,
            length: bytes.len() as u8,
            ..Item::NONE
        };
        item.bytes[..bytes.len()].copy_from_slice(bytes);
        item
    }
}

impl Deref for Item {
    type Target = [u8];

    #[inline]
    fn deref(&self) -> &[u8] {
        &self.bytes[..usize::from(self.length)]
    }
}

impl AsRef<[u8]> for Item {
    #[inline]
    fn as_ref(&self) -> &[u8] {
        self
    }
}

impl PartialEq for Item {
    fn eq(&self, other: &Item) -> bool {
        self.sender == other.sender && self.number == other.number && self[..] == other[..]
    }
}

impl Eq for Item {}

impl fmt::Debug for Item {
    fn fmt(&self, f: &mut fmt::Formatter<'_>) -> fmt::Result {
        f.debug_struct("Item")
            .field("sender", &self.sender)
            .field("number", &self.number)
            .field("bytes", &&self[..])
            .finish()
    }
}

/// The answer to a turn of a receiver.
#[derive(Clone, Copy, Debug, PartialEq, Eq)]
pub enum Heard {
    /// A step was taken, and more are to come.
    Going,
    /// It has read all up to the length that it found.
    Empty,
    /// A frame of this owner begins.
    Head {
        /// The tenure of the frame.
        tenure: u64,
        /// The sender whose frame it is.
        owner: u8,
    },
    /// The next message of the order.
    Item(Item),
    /// This sender has left, and nothing of it follows.
    Leave(u8),
    /// The order has ended, and all of it was given.
    End,
}

/// What `Receiver::next_item_while` or `Receiver::next_item_timeout` came to.
#[derive(Clone, Copy, Debug, PartialEq, Eq)]
pub enum Next {
    /// The next item.
    Item(Item),
    /// The order has ended, and all of it was given.
    End,
    /// There is nothing more by now, and it was told not to go on, or its time is over.
    Stopped,
}

/// What `Receiver::next_items_while` or `Receiver::next_items_timeout` came to.
#[derive(Clone, Copy, Debug, PartialEq, Eq)]
pub enum NextItems<'a> {
    /// The next items, one at least and at most 32, where they lie.
    Items(&'a [Item]),
    /// The order has ended, and all of it was given.
    End,
    /// There is nothing more by now, and it was told not to go on, or its time is over.
    Stopped,
}

/// How many items cross the border at once.
const BATCH: usize = 32;

/// A receiver of a bus. It may go to another thread, and one thread at a time has it.
///
/// `next_item` and `try_item` take up to 32 items out of the bus at once, and give them one by one;
/// `next_items` and `try_items` lend them where they lie, which copies none of them once more. All
/// pass over that a sender has left: whoever uses `turn` alone is told each at its place, and
/// `Ended` has all.
///
/// One that is dropped leaves a ring for good, and rings: no sender waits for it any more.
pub struct Receiver {
    raw: raw::RawReceiver,
    ready: [Item; BATCH],
    given: usize,
    many: usize,
    ended: bool,
    /// The head of the next frame, where `try_frame` has heard it behind the last one.
    head: Option<frames::Head>,
    /// How many words its bus's log can have.
    log_words: usize,
    /// Of a ring the last passed place that it rang for.
    passed: Option<u64>,
    /// Of a ring: how many words it had read when it last asked the bus.
    read: u64,
    bell: Bell,
    /// Its place at the bell.
    place: usize,
    shared: Arc<Shared>,
    waiting: Waiting,
}

impl fmt::Debug for Receiver {
    fn fmt(&self, f: &mut fmt::Formatter<'_>) -> fmt::Result {
        f.debug_struct("Receiver").finish_non_exhaustive()
    }
}

impl Drop for Receiver {
    fn drop(&mut self) {
        // SAFETY: the handle is this value's own.
        unsafe { raw::bus_c_free_receiver(&mut self.raw) }
        if self.passed.is_some() {
            self.bell.ring_in_drop();
        }
    }
}

impl Receiver {
    pub(crate) fn of_raw(
        raw: raw::RawReceiver,
        number: usize,
        shape: &Shape,
        bell: &Bell,
        shared: &Arc<Shared>,
    ) -> Receiver {
        Receiver {
            raw,
            ready: [Item::NONE; BATCH],
            given: 0,
            many: 0,
            ended: false,
            head: None,
            log_words: shape.log_words as usize,
            passed: shape.ring.then_some(0),
            read: 0,
            bell: bell.clone(),
            place: MOST_SENDERS + number,
            shared: shared.clone(),
            waiting: Waiting::default(),
        }
    }

    fn shown(&mut self) -> raw::ReceiverShown {
        let mut shown = raw::ReceiverShown::default();
        // SAFETY: the handle is this value's own, and the pointers are of values of this function.
        unsafe { raw::bus_c_receiver(&mut self.raw, &mut shown) };
        shown
    }

    /// How many words of the log it knows.
    pub fn known(&mut self) -> u64 {
        self.shown().known
    }

    /// How many of them it has read, those of items that wait in its batch too.
    pub fn place(&mut self) -> u64 {
        self.shown().place
    }

    /// Of a ring: how many words it has passed, which may be used again as far as it is concerned;
    /// 0 of another bus. It passes a frame once it asks the bus again behind the frame's last item.
    /// So items that wait in its batch may be passed already, and where it has taken 32 at once, the
    /// frame of the last of them is held until it takes more. It shows which receiver is behind.
    ///
    /// ```
    /// # use kioskbasil::{Bus, Shape};
    /// let (mut senders, mut receivers) = Bus::open_ring(Shape::of(1, 1))?;
    /// senders[0].send_all(["8 bytes!"])?;
    /// assert_eq!(receivers[0].passed(), 0);
    /// assert!(receivers[0].try_item().is_some());
    /// assert_eq!(receivers[0].passed(), 3);
    /// # Ok::<(), Box<dyn std::error::Error>>(())
    /// ```
    pub fn passed(&mut self) -> u64 {
        self.shown().passed
    }

    /// Rings where it has passed words of a ring: a sender may wait for their room.
    fn ring_if_passed(&mut self) {
        if let Some(before) = self.passed {
            let shown = self.shown();
            self.read = shown.place;
            if shown.passed != before {
                self.passed = Some(shown.passed);
                self.bell.ring();
            }
        }
    }

    /// It has items at hand.
    #[inline]
    pub(crate) fn has_at_hand(&self) -> bool {
        self.given < self.many
    }

    /// How many words of a ring it had read when it last asked the bus.
    #[inline]
    pub(crate) fn read(&self) -> u64 {
        self.read
    }

    /// One item that it has at hand.
    #[inline]
    fn at_hand(&mut self) -> Option<Item> {
        let item = *self.ready[..self.many].get(self.given)?;
        self.given += 1;
        Some(item)
    }

    /// All items that it has at hand.
    #[inline]
    fn all_at_hand(&mut self) -> &[Item] {
        let given = mem::replace(&mut self.given, self.many);
        &self.ready[given..self.many]
    }

    /// Takes what there is out of the bus, behind what it has at hand, up to 32 items with these.
    fn fill(&mut self) {
        self.ready.copy_within(self.given..self.many, 0);
        self.many -= self.given;
        self.given = 0;
        let is_over = self.shared.is_over();
        let (free, mut more) = (&mut self.ready[self.many..], 0);
        let (place, room) = (free.as_mut_ptr(), free.len());
        // SAFETY: as in `shown`; there is room for so many items.
        let code = unsafe { raw::bus_c_hear(&mut self.raw, place, room, u64::MAX, &mut more) };
        self.many += more;
        self.ended = code == 14 || (code == 11 && is_over);
        self.ring_if_passed();
    }

    /// One turn: one load, or of a ring, behind a whole frame, one store by which its words may be
    /// used again. Items that wait in its batch are given first.
    pub fn turn(&mut self) -> Heard {
        if let Some(item) = self.at_hand() {
            return Heard::Item(item);
        }
        let mut told = raw::HeardAnswer {
            tenure: 0,
            owner: 0,
            item: Item::NONE,
        };
        let is_over = self.shared.is_over();
        // SAFETY: as in `shown`.
        let code = unsafe { raw::bus_c_hear_once(&mut self.raw, &mut told) };
        self.ring_if_passed();
        match code {
            3 => Heard::Going,
            11 if !is_over => Heard::Empty,
            12 => Heard::Head {
                tenure: told.tenure,
                owner: told.owner,
            },
            13 => Heard::Item(told.item),
            16 => Heard::Leave(told.owner),
            11 | 14 => {
                self.ended = true;
                Heard::End
            }
            code => unreachable!("the archive answered {code}"),
        }
    }

    /// The next item that is there; None where there is nothing more by now, or for good. Waits for
    /// nothing.
    #[inline]
    pub fn try_item(&mut self) -> Option<Item> {
        self.look();
        self.at_hand()
    }

    /// The next items that are there, at most 32, where they lie; none of them where there is
    /// nothing more by now, or for good. All that are lent count as given. Waits for nothing.
    ///
    /// ```
    /// # use kioskbasil::{Bus, Shape};
    /// let (mut senders, mut receivers) = Bus::open(Shape::of(1, 1))?;
    /// assert!(receivers[0].try_items().is_empty());
    /// senders[0].send_all(["one", "two"])?;
    /// let items = receivers[0].try_items();
    /// assert_eq!((items.len(), &items[1][..]), (2, &b"two"[..]));
    /// assert!(receivers[0].try_items().is_empty());
    /// # Ok::<(), Box<dyn std::error::Error>>(())
    /// ```
    #[inline]
    pub fn try_items(&mut self) -> &[Item] {
        self.look();
        self.all_at_hand()
    }

    /// Takes items out of the bus where it has none at hand.
    #[inline]
    pub(crate) fn look(&mut self) {
        if self.given == self.many && !self.ended {
            self.fill();
        }
    }

    /// The order has ended, and all of it was given.
    #[inline]
    pub fn has_ended(&self) -> bool {
        self.ended && self.given == self.many
    }

    /// Appends all that is there to `items`, and gives how many they were. Waits for nothing.
    ///
    /// ```
    /// # use kioskbasil::{Bus, Shape};
    /// let (mut senders, mut receivers) = Bus::open(Shape::of(1, 1))?;
    /// senders[0].send_all(["one", "two"])?;
    /// let mut items = Vec::new();
    /// assert_eq!(receivers[0].hear(&mut items), 2);
    /// assert_eq!(&items[1][..], b"two");
    /// # Ok::<(), Box<dyn std::error::Error>>(())
    /// ```
    pub fn hear(&mut self, items: &mut Vec<Item>) -> usize {
        let before = items.len();
        loop {
            let more = self.try_items();
            if more.is_empty() {
                return items.len() - before;
            }
            items.extend_from_slice(more);
        }
    }

    /// The bell of its bus.
    pub fn bell(&self) -> &Bell {
        &self.bell
    }

    /// Sets how its calls wait; at first by `Waiting::Sleep`.
    pub fn set_waiting(&mut self, waiting: Waiting) {
        self.waiting = waiting;
    }

    /// The next item, and None at the end and ever after. It waits while there is none.
    #[inline]
    pub fn next_item(&mut self) -> Option<Item> {
        self.wait_while(BackOff::new, || true);
        self.at_hand()
    }

    /// The next items, one at least and at most 32, where they lie; none of them at the end and
    /// ever after. All that are lent count as given. It waits while there is none.
    ///
    /// ```
    /// use kioskbasil::{Bus, Shape};
    ///
    /// let (mut senders, mut receivers) = Bus::open(Shape::of(1, 1))?;
    /// senders[0].send_all(["one", "two"])?;
    /// senders[0].end_order()?;
    /// let mut heard = Vec::new();
    /// loop {
    ///     let items = receivers[0].next_items();
    ///     if items.is_empty() {
    ///         break;
    ///     }
    ///     heard.extend(items.iter().map(|item| item.number));
    /// }
    /// assert_eq!(heard, [0, 1]);
    /// # Ok::<(), Box<dyn std::error::Error>>(())
    /// ```
    #[inline]
    pub fn next_items(&mut self) -> &[Item] {
        self.wait_while(BackOff::new, || true);
        self.all_at_hand()
    }

    /// As `next_item`, but that it can be told to stop: each time nothing is there it asks
    /// `go_on`, and gives `Stopped` where that says no. A call that sleeps asks every 10 ms, and
    /// once the bell rings: so whoever makes `go_on` say no rings it, and need not wait.
    ///
    /// ```
    /// use kioskbasil::{Bus, Next, Shape};
    /// use std::sync::atomic::{AtomicBool, Ordering};
    ///
    /// let (_senders, mut receivers) = Bus::open(Shape::of(1, 1))?;
    /// let (mut receiver, stop) = (receivers.remove(0), AtomicBool::new(false));
    /// let bell = receiver.bell().clone();
    /// std::thread::scope(|scope| {
    ///     let go_on = || !stop.load(Ordering::SeqCst);
    ///     let hears = scope.spawn(move || receiver.next_item_while(go_on));
    ///     stop.store(true, Ordering::SeqCst);
    ///     bell.ring();
    ///     assert_eq!(hears.join().unwrap(), Next::Stopped);
    /// });
    /// # Ok::<(), kioskbasil::OpenError>(())
    /// ```
    #[inline]
    pub fn next_item_while(&mut self, go_on: impl FnMut() -> bool) -> Next {
        let is_there = self.wait_while(BackOff::asked, go_on);
        self.next_of(is_there)
    }

    /// As `next_item`, but that it waits for so long at most, and then gives `Stopped`. With no time
    /// it gives what is there.
    ///
    /// ```
    /// use kioskbasil::{Bus, Next, Shape};
    /// use std::time::Duration;
    ///
    /// let (mut senders, mut receivers) = Bus::open(Shape::of(1, 1))?;
    /// let time = Duration::from_millis(5);
    /// assert_eq!(receivers[0].next_item_timeout(time), Next::Stopped);
    /// senders[0].send_all(["here"])?;
    /// assert!(matches!(receivers[0].next_item_timeout(time), Next::Item(_)));
    /// senders[0].end_order()?;
    /// assert_eq!(receivers[0].next_item_timeout(time), Next::End);
    /// # Ok::<(), Box<dyn std::error::Error>>(())
    /// ```
    #[inline]
    pub fn next_item_timeout(&mut self, time: Duration) -> Next {
        let is_there = self.wait_while(|waiting| BackOff::up_to(waiting, time), || true);
        self.next_of(is_there)
    }

    #[inline]
    fn next_of(&mut self, is_there: bool) -> Next {
        match self.at_hand() {
            Some(item) => Next::Item(item),
            None if is_there => Next::End,
            None => Next::Stopped,
        }
    }

    /// As `next_items`, but that it can be told to stop, as `next_item_while`.
    ///
    /// ```
    /// use kioskbasil::{Bus, NextItems, Shape};
    ///
    /// let (mut senders, mut receivers) = Bus::open(Shape::of(1, 1))?;
    /// assert_eq!(receivers[0].next_items_while(|| false), NextItems::Stopped);
    /// senders[0].send_all(["one", "two"])?;
    /// senders[0].end_order()?;
    /// match receivers[0].next_items_while(|| false) {
    ///     NextItems::Items(items) => assert_eq!(items.len(), 2),
    ///     other => panic!("{other:?}"),
    /// }
    /// assert_eq!(receivers[0].next_items_while(|| false), NextItems::End);
    /// # Ok::<(), Box<dyn std::error::Error>>(())
    /// ```
    #[inline]
    pub fn next_items_while(&mut self, go_on: impl FnMut() -> bool) -> NextItems<'_> {
        let is_there = self.wait_while(BackOff::asked, go_on);
        self.next_items_of(is_there)
    }

    /// As `next_items`, but that it waits for so long at most, as `next_item_timeout`.
    #[inline]
    pub fn next_items_timeout(&mut self, time: Duration) -> NextItems<'_> {
        let is_there = self.wait_while(|waiting| BackOff::up_to(waiting, time), || true);
        self.next_items_of(is_there)
    }

    #[inline]
    fn next_items_of(&mut self, is_there: bool) -> NextItems<'_> {
        match self.all_at_hand() {
            [] if is_there => NextItems::End,
            [] => NextItems::Stopped,
            items => NextItems::Items(items),
        }
    }

    /// It has items at hand, or the order has ended.
    #[inline]
    fn is_ready(&self) -> bool {
        self.given < self.many || self.ended
    }

    /// Waits until it has items at hand, or the order has ended and all of it was given. False
    /// where it is told to stop, or its time is over.
    #[inline]
    fn wait_while(
        &mut self,
        back_off: impl FnOnce(Waiting) -> BackOff,
        go_on: impl FnMut() -> bool,
    ) -> bool {
        self.look();
        self.is_ready() || self.wait_by(back_off(self.waiting), go_on)
    }

    fn wait_by(&mut self, mut back_off: BackOff, mut go_on: impl FnMut() -> bool) -> bool {
        loop {
            if back_off.is_over() || !go_on() {
                return false;
            }
            back_off.wait(&self.bell, self.place);
            self.look();
            if self.is_ready() {
                return true;
            }
        }
    }

    /// As `next_item`, for tasks: where there is no item, the task is woken once one may be there.
    /// Of the tasks that poll one receiver in turn the last one is woken.
    ///
    /// `futures::stream::poll_fn(move |context| receiver.poll_item(context))` is a stream.
    pub fn poll_item(&mut self, context: &mut Context<'_>) -> Poll<Option<Item>> {
        for listens in [false, true] {
            if let Some(item) = self.try_item() {
                return Poll::Ready(Some(item));
            }
            if self.has_ended() {
                return Poll::Ready(None);
            }
            if !listens {
                self.bell.listen(self.place, context.waker());
            }
        }
        Poll::Pending
    }

    /// As `next_item`, for tasks. Where the future is dropped no item is lost.
    ///
    /// ```no_run
    /// # async fn hear(receiver: &mut kioskbasil::Receiver) {
    /// while let Some(item) = receiver.next_item_async().await {
    ///     println!("{} says {:?}", item.sender, &item[..]);
    /// }
    /// # }
    /// ```
    pub async fn next_item_async(&mut self) -> Option<Item> {
        Polled(|context: &mut Context<'_>| self.poll_item(context)).await
    }

    /// A sender of its bus tells it of the log: it knows from then on all that the sender has
    /// published. The sender stays as it was.
    ///
    /// ```
    /// use kioskbasil::{Bus, OtherBus, Shape};
    ///
    /// let (mut senders, mut receivers) = Bus::open(Shape::of(1, 1))?;
    /// senders[0].send_all(["one"])?;
    /// assert_eq!(receivers[0].known(), 0);
    /// receivers[0].told(&mut senders[0])?;
    /// assert_eq!(receivers[0].known(), 3);
    /// let (mut others, _ears) = Bus::open(Shape::of(1, 1))?;
    /// assert_eq!(receivers[0].told(&mut others[0]), Err(OtherBus));
    /// # Ok::<(), Box<dyn std::error::Error>>(())
    /// ```
    pub fn told(&mut self, sender: &mut Sender) -> Result<(), OtherBus> {
        let of_one_bus = self.bus_place() == sender.bus_place();
        // SAFETY: as in `shown`. Both handles hold their buses, so equal places are of one bus.
        match unsafe { raw::bus_c_tell(&mut self.raw, sender.raw(), of_one_bus) } {
            0 => Ok(()),
            51 => Err(OtherBus),
            code => unreachable!("the archive answered {code}"),
        }
    }

    /// Two receivers of one bus meet: from then on both know the log up to the length that is
    /// loaded. Gives how its place compares with the other's: `Less` where it has read fewer words.
    /// What it has taken out of the bus counts as read.
    ///
    /// ```
    /// use kioskbasil::{Bus, OtherBus, Shape};
    /// use std::cmp::Ordering;
    ///
    /// let (mut senders, mut receivers) = Bus::open(Shape::of(1, 2))?;
    /// senders[0].send_all(["one"])?;
    /// let (anna, bert) = receivers.split_at_mut(1);
    /// anna[0].next_item();
    /// assert_eq!(anna[0].meet(&mut bert[0]), Ok(Ordering::Greater));
    /// assert_eq!(bert[0].known(), anna[0].known());
    /// let (_others, mut ears) = Bus::open(Shape::of(1, 1))?;
    /// assert_eq!(anna[0].meet(&mut ears[0]), Err(OtherBus));
    /// # Ok::<(), Box<dyn std::error::Error>>(())
    /// ```
    pub fn meet(&mut self, other: &mut Receiver) -> Result<Ordering, OtherBus> {
        let of_one_bus = self.bus_place() == other.bus_place();
        let mut order = 0;
        // SAFETY: as in `told`.
        match unsafe { raw::bus_c_meet(&mut self.raw, &mut other.raw, of_one_bus, &mut order) } {
            0 => Ok(order.cmp(&0)),
            51 => Err(OtherBus),
            code => unreachable!("the archive answered {code}"),
        }
    }

    /// Where its bus lies.
    fn bus_place(&mut self) -> *const u8 {
        let mut place = ptr::null();
        // SAFETY: as in `shown`.
        unsafe { raw::bus_c_receiver_bus(&mut self.raw, &mut place) };
        place
    }

    /// Ends the bus by this handle, where it is the last one. It takes memory for the words of the
    /// log, as many as that can have until it is known how many it has. Of a ring the log begins at
    /// `floor`, which is not past what this receiver has passed. Where other handles have a ring
    /// still, it leaves.
    pub fn end(mut self) -> Result<Ended, EndError> {
        if self.shared.finish() {
            self.bell.ring();
        }
        let mut log = vec![0; self.log_words];
        let mut left = raw::Left::NONE;
        // SAFETY: as in `shown`; the log has room for the longest one.
        match unsafe { raw::bus_c_end(&mut self.raw, log.as_mut_ptr(), log.len(), &mut left) } {
            0 => {
                log.truncate((left.words - left.floor) as usize);
                log.shrink_to_fit();
                Ok(Ended {
                    log,
                    floor: left.floor,
                    counts: left.counts,
                    bases: left.bases,
                    next: left.next,
                    tenures: left.tenures,
                    ended: left.ended,
                    left: left.gone,
                })
            }
            code => Err(EndError::of_code(code)),
        }
    }
}

impl Iterator for Receiver {
    type Item = Item;

    /// As `next_item`.
    #[inline]
    fn next(&mut self) -> Option<Item> {
        self.next_item()
    }
}
