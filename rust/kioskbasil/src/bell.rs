//! The bell of a bus, for which threads and tasks wait.

use crate::{MOST_RECEIVERS, MOST_SENDERS};
use std::any::Any;
use std::collections::BTreeMap;
use std::mem;
use std::panic::{self, AssertUnwindSafe};
use std::sync::atomic::{AtomicBool, AtomicUsize, Ordering};
use std::sync::{Arc, Mutex, MutexGuard, PoisonError};
use std::task::{Wake, Waker};
use std::thread::{self, Thread};

/// The bell of a bus: who waits for it looks at the bus again. Any thread may ring it, and all
/// handles of the bus have it together. Their turns ring it by themselves, so a program needs it
/// only to have a worker asked whether to go on (`Receiver::next_item_while`, `Sender::send_while`).
#[derive(Clone, Debug, Default)]
pub struct Bell(Arc<Listeners>);

#[derive(Debug, Default)]
struct Listeners {
    /// Somebody has listened since the last ring.
    are_there: AtomicBool,
    /// Whom the next ring wakes, by the place of its handle.
    wakers: Mutex<BTreeMap<usize, Waker>>,
    /// How many places were given to handles that were not there at the opening.
    joined: AtomicUsize,
}

impl Bell {
    /// Wakes all that wait. Where a waker panics, so does this once it has woken the others.
    pub fn ring(&self) {
        if self.0.are_there.swap(false, Ordering::SeqCst) {
            let woken = mem::take(&mut *self.wakers());
            wake_all(woken.into_values());
        }
    }

    /// As `ring`, for drops: a waker's panic ends here, since another panic may drop the handle.
    pub(crate) fn ring_in_drop(&self) {
        quietly(|| self.ring());
    }

    /// A place for a handle that joins, which no other has.
    pub(crate) fn new_place(&self) -> usize {
        MOST_SENDERS + MOST_RECEIVERS + self.0.joined.fetch_add(1, Ordering::Relaxed)
    }

    /// The next ring wakes this waker, for the handle of this place. Whoever listens looks at the
    /// bus once more before it sleeps: what was done before a ring that it missed is there then.
    pub(crate) fn listen(&self, place: usize, waker: &Waker) {
        let waker = waker.clone();
        let mut wakers = self.wakers();
        let old = wakers.insert(place, waker);
        self.0.are_there.swap(true, Ordering::SeqCst);
        // The old one may have a handle in it, which rings when it is dropped.
        drop(wakers);
        drop(old);
    }

    /// As `listen`, for this thread, which a ring unparks.
    pub(crate) fn listen_here(&self, place: usize) {
        self.listen(place, &Waker::from(Arc::new(Parked(thread::current()))));
    }

    fn wakers(&self) -> MutexGuard<'_, BTreeMap<usize, Waker>> {
        let locked = self.0.wakers.lock();
        locked.unwrap_or_else(PoisonError::into_inner)
    }
}

/// Wakes each, also behind one that panics. The first panic goes on then, and others end here.
fn wake_all(wakers: impl Iterator<Item = Waker>) {
    let mut fault = None;
    for waker in wakers {
        match panic::catch_unwind(AssertUnwindSafe(|| waker.wake())) {
            Err(first) if fault.is_none() => fault = Some(first),
            Err(other) => drop_fault(other),
            Ok(()) => {}
        }
    }
    if let Some(fault) = fault {
        panic::resume_unwind(fault);
    }
}

/// Does this. A panic of it ends here.
pub(crate) fn quietly(does: impl FnOnce()) {
    if let Err(fault) = panic::catch_unwind(AssertUnwindSafe(does)) {
        drop_fault(fault);
    }
}

/// Drops what a panic was given. Its drop may panic too: what that gives stays in memory for good,
/// since its own drop might panic again.
fn drop_fault(fault: Box<dyn Any + Send>) {
    if let Err(again) = panic::catch_unwind(AssertUnwindSafe(|| drop(fault))) {
        mem::forget(again);
    }
}

/// A thread that is parked.
struct Parked(Thread);

impl Wake for Parked {
    fn wake(self: Arc<Self>) {
        self.0.unpark();
    }
}
