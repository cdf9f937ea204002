//! What the handles of a bus have together, besides its bell.

use crate::raw::{self, RawSender, TurnAnswer};
use crate::waiting::Words;
use std::sync::atomic::{AtomicBool, AtomicUsize, Ordering};
use std::sync::{Mutex, MutexGuard, PoisonError};

/// The codes of `Turn::Going`, `Lost`, `Own`, `Closed` and `Behind`.
const GOING: u32 = 3;
const LOST: u32 = 4;
const OWN: u32 = 5;
const CLOSED: u32 = 8;
const BEHIND: u32 = 10;

/// The code of `CloseError::Closed`: a close or a leave waits, or the order has ended.
const CLOSE_CLOSED: u32 = 42;

/// Whether the order has ended, how many senders may still append, and the sender of a bus that was
/// dropped while it held the page, behind another one. There is one such sender at most, since it
/// holds the page. Whoever takes turns has it finish, once the other is gone.
pub(crate) struct Shared {
    has_ended: AtomicBool,
    is_there: AtomicBool,
    let_go: Mutex<Option<RawSender>>,
    /// How many senders are neither dropped nor have left.
    living: AtomicUsize,
    /// There are none, and nothing is appended any more.
    are_gone: AtomicBool,
    /// The order ends with its senders.
    ends_with_senders: AtomicBool,
}

impl Shared {
    /// Of a bus with so many senders.
    pub(crate) fn of(senders: usize) -> Shared {
        Shared {
            has_ended: AtomicBool::new(false),
            is_there: AtomicBool::new(false),
            let_go: Mutex::new(None),
            living: AtomicUsize::new(senders),
            are_gone: AtomicBool::new(false),
            ends_with_senders: AtomicBool::new(false),
        }
    }

    /// The order has ended: a sender was told so. The bell rings behind it.
    pub(crate) fn has_ended(&self) -> bool {
        self.has_ended.load(Ordering::SeqCst)
    }

    /// A sender was told that the order has ended. Whoever calls this rings then.
    pub(crate) fn note_end(&self) {
        self.has_ended.store(true, Ordering::SeqCst);
    }

    /// The order ends with its senders from now on. Whoever calls this rings then.
    pub(crate) fn end_with_senders(&self) {
        self.ends_with_senders.store(true, Ordering::SeqCst);
    }

    /// The order ends with its senders, and these are gone: what a look finds behind this is all.
    #[inline]
    pub(crate) fn is_over(&self) -> bool {
        self.are_gone.load(Ordering::SeqCst) && self.ends_with_senders.load(Ordering::SeqCst)
    }

    /// A sender has left. Whoever calls this rings then.
    pub(crate) fn note_left(&self) {
        if self.is_last() {
            self.are_gone.store(true, Ordering::SeqCst);
        }
    }

    /// There is a living sender less. True says that it was the last one.
    fn is_last(&self) -> bool {
        self.living.fetch_sub(1, Ordering::SeqCst) == 1
    }

    /// Gives a sender up, after the turns that are left of its tenure. One that is behind is kept
    /// until it can take them. Where the last one is given up that has not left, and the order ends
    /// with its senders, it puts the end mark there, if it can. It waits for nobody.
    pub(crate) fn give_up(&self, mut sender: RawSender, has_left: bool, random: &mut Words) {
        let is_behind = self.settles(&mut sender);
        let mut given = Some(sender);
        if is_behind {
            self.keep(given.take());
        }
        // The other may have gone on meanwhile, and have found nobody here.
        self.finish();
        let is_last = !has_left && self.is_last();
        if let Some(mut sender) = given {
            if is_last && self.ends_with_senders.load(Ordering::SeqCst) {
                self.mark_end(&mut sender, random);
            }
            self.keep(self.finished(sender));
        }
        if is_last {
            self.are_gone.store(true, Ordering::SeqCst);
        }
    }

    /// Keeps a sender that is behind.
    fn keep(&self, behind: Option<RawSender>) {
        if behind.is_some() {
            let mut kept = self.kept();
            *kept = behind;
            self.is_there.store(true, Ordering::SeqCst);
        }
    }

    /// Has the last sender put the end mark, where none of its messages waits. Since nobody else
    /// takes turns, its election ends with it, in a stated number of its own turns. There may be no
    /// room or no tenure.
    fn mark_end(&self, sender: &mut RawSender, random: &mut Words) {
        // SAFETY: the handle is the caller's own.
        if !matches!(unsafe { raw::bus_c_close(sender) }, 0 | CLOSE_CLOSED) {
            return;
        }
        let mut told = TurnAnswer::default();
        loop {
            // SAFETY: as above.
            match unsafe { raw::bus_c_turns(sender, random.next(), u64::MAX, &mut told) } {
                GOING | LOST | OWN => {}
                _ => return,
            }
        }
    }

    /// Has the sender that is kept take its turns. True says that it is given up, and the page back:
    /// whoever calls this rings then.
    pub(crate) fn finish(&self) -> bool {
        if !self.is_there.load(Ordering::SeqCst) {
            return false;
        }
        let mut kept = self.kept();
        let was_there = kept.is_some();
        *kept = kept.take().and_then(|sender| self.finished(sender));
        self.is_there.store(kept.is_some(), Ordering::SeqCst);
        was_there && kept.is_none()
    }

    /// Has a sender take the turns that are left of its tenure, and gives it up. One that is behind
    /// comes back.
    fn finished(&self, mut sender: RawSender) -> Option<RawSender> {
        if self.settles(&mut sender) {
            return Some(sender);
        }
        // SAFETY: the handle is this function's own.
        unsafe { raw::bus_c_free_sender(&mut sender) };
        None
    }

    /// Has a sender take the turns that are left of its tenure. True says that it is behind.
    fn settles(&self, sender: &mut RawSender) -> bool {
        let mut told = TurnAnswer::default();
        // SAFETY: the handle is the caller's own.
        let code = unsafe { raw::bus_c_finish(sender, &mut told) };
        // One that has left begins no tenure, so this is the end of the order.
        if code == CLOSED {
            self.note_end();
        }
        code == BEHIND
    }

    fn kept(&self) -> MutexGuard<'_, Option<RawSender>> {
        self.let_go.lock().unwrap_or_else(PoisonError::into_inner)
    }
}

impl Drop for Shared {
    fn drop(&mut self) {
        let kept = self.kept().take();
        // One that is behind now is given up with the page: no handle is left that waits for it.
        if let Some(mut sender) = kept.and_then(|sender| self.finished(sender)) {
            // SAFETY: the handle is this value's own.
            unsafe { raw::bus_c_free_sender(&mut sender) };
        }
    }
}
