//! What other threads are told of a journal.

use super::JournalError;
use super::Safe;
use std::sync::{Arc, Condvar, Mutex, MutexGuard, PoisonError};
use std::time::{Duration, Instant};

#[derive(Debug)]
struct State {
    safe: Safe,
    /// The journal brings nothing more to disk, for this reason.
    fault: Option<JournalError>,
}

#[derive(Debug)]
struct Shared {
    state: Mutex<State>,
    changed: Condvar,
}

impl Shared {
    fn state(&self) -> MutexGuard<'_, State> {
        self.state.lock().unwrap_or_else(PoisonError::into_inner)
    }
}

/// Tells a thread up to where a journal has brought the log to disk. So a worker that answers
/// somebody waits until its own frame is there:
///
/// ```
/// use kioskbasil::journal::{Header, Journal, SyncPolicy};
/// use kioskbasil::{Bus, Page, Shape};
/// use std::thread;
///
/// let (mut senders, mut receivers) = Bus::open(Shape::of(1, 1))?;
/// let header = Header::after(1, &Page::from_numbers(&[0])?)?;
/// let mut journal = Journal::on(Vec::new(), header, SyncPolicy::EachFrame)?;
/// let watch = journal.watch();
/// let records = thread::spawn(move || {
///     while let Some(frame) = receivers[0].next_frame() {
///         journal.write(&frame)?;
///     }
///     Ok::<_, kioskbasil::journal::JournalError>(())
/// });
/// senders[0].send_all(["an operation"])?;
/// watch.wait(senders[0].words())?;
/// println!("done");
/// senders[0].end_order()?;
/// records.join().unwrap()?;
/// # Ok::<(), Box<dyn std::error::Error>>(())
/// ```
#[derive(Clone, Debug)]
pub struct Watch(Arc<Shared>);

impl Watch {
    /// Up to where the log is known to be on disk.
    pub fn safe(&self) -> Safe {
        self.0.state().safe
    }

    /// Waits until all words of the log before this place are on disk: behind `Delivered` that is
    /// `Sender::words`, and of a frame `end_place`.
    ///
    /// `JournalError::Failed` where the journal fails before, and `Dropped` where it is dropped
    /// before. That a thread records the frames meanwhile is the caller's word: else it waits for
    /// good.
    pub fn wait(&self, place: u64) -> Result<(), JournalError> {
        self.wait_until(place, None).map(drop)
    }

    /// As `wait`, but that it waits for so long at most. False says that its time is over.
    pub fn wait_timeout(&self, place: u64, time: Duration) -> Result<bool, JournalError> {
        self.wait_until(place, Instant::now().checked_add(time))
    }

    fn wait_until(&self, place: u64, end: Option<Instant>) -> Result<bool, JournalError> {
        let mut state = self.0.state();
        loop {
            if state.safe.place >= place {
                return Ok(true);
            }
            if let Some(fault) = &state.fault {
                return Err(fault.clone());
            }
            let left = end.map(|end| end.saturating_duration_since(Instant::now()));
            state = match left {
                Some(Duration::ZERO) => return Ok(false),
                Some(left) => {
                    let woken = self.0.changed.wait_timeout(state, left);
                    woken.unwrap_or_else(PoisonError::into_inner).0
                }
                None => {
                    let woken = self.0.changed.wait(state);
                    woken.unwrap_or_else(PoisonError::into_inner)
                }
            };
        }
    }
}

/// The journal's own side.
#[derive(Debug)]
pub(super) struct Told(Arc<Shared>);

impl Told {
    pub(super) fn new(safe: Safe) -> Told {
        Told(Arc::new(Shared {
            state: Mutex::new(State { safe, fault: None }),
            changed: Condvar::new(),
        }))
    }

    pub(super) fn watch(&self) -> Watch {
        Watch(self.0.clone())
    }

    pub(super) fn safe(&self) -> Safe {
        self.0.state().safe
    }

    /// Err where the journal has failed.
    pub(super) fn fault(&self) -> Result<(), JournalError> {
        self.0.state().fault.clone().map_or(Ok(()), Err)
    }

    /// So much is on disk.
    pub(super) fn raise(&self, safe: Safe) {
        self.0.state().safe = safe;
        self.0.changed.notify_all();
    }

    /// The journal brings nothing more to disk. Only the first reason counts.
    pub(super) fn fail(&self, fault: &JournalError) {
        self.0.state().fault.get_or_insert_with(|| fault.clone());
        self.0.changed.notify_all();
    }
}

impl Drop for Told {
    fn drop(&mut self) {
        let safe = self.safe();
        self.fail(&JournalError::Dropped { safe });
    }
}
