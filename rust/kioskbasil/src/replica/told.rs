//! What the replicas of a bus tell one another beside it.

use crate::MOST_SENDERS;
use std::sync::atomic::{AtomicU64, Ordering};

/// A word on cache lines of its own: all workers look at it, and few write it.
#[repr(align(128))]
struct Apart(AtomicU64);

/// How long the log is known to be, and which workers have left.
///
/// Whoever has sent an operation, or has taken one out of the bus, raises the length before its
/// call returns. So a worker that has read so far has applied all that any worker was answered, or
/// has seen, before it looked.
pub(crate) struct Told {
    published: Apart,
    /// Of each worker that has left: 1 more than a length of the log up to which all of it stands.
    left: [AtomicU64; MOST_SENDERS],
    workers: usize,
}

impl Told {
    pub(crate) fn of(workers: usize) -> Told {
        const NONE: AtomicU64 = AtomicU64::new(0);
        Told {
            published: Apart(NONE),
            left: [NONE; MOST_SENDERS],
            workers,
        }
    }

    /// A length that the log has had.
    #[inline]
    pub(crate) fn published(&self) -> u64 {
        self.published.0.load(Ordering::SeqCst)
    }

    /// The log has so many words.
    #[inline]
    pub(crate) fn publish(&self, words: u64) {
        if self.published() < words {
            self.published.0.fetch_max(words, Ordering::SeqCst);
        }
    }

    /// A worker has left, and all of it stands in so many words of the log. Only the first such
    /// word counts.
    pub(crate) fn note_left(&self, worker: u32, words: u64) {
        self.publish(words);
        if let Some(left) = self.left.get(worker as usize) {
            let _ = left.compare_exchange(0, words + 1, Ordering::SeqCst, Ordering::SeqCst);
        }
    }

    /// How many words of the log have all of all workers, once all have left. Else the first that
    /// has not.
    pub(crate) fn all_left(&self) -> Result<u64, u32> {
        let mut most = 0;
        for (worker, left) in self.left[..self.workers].iter().enumerate() {
            match left.load(Ordering::SeqCst).checked_sub(1) {
                Some(words) => most = most.max(words),
                None => return Err(worker as u32),
            }
        }
        Ok(most)
    }
}
