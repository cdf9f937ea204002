//! Waiting and random words, of which the archive has none.

use crate::bell::quietly;
use crate::Bell;
use std::collections::hash_map::RandomState;
use std::future::Future;
use std::hash::{BuildHasher, Hasher};
use std::mem;
use std::pin::Pin;
use std::sync::{Arc, Mutex, MutexGuard, PoisonError};
use std::task::{Context, Poll, Waker};
use std::time::{Duration, Instant};
use std::{hint, thread};

/// How a thread waits in the calls of a handle that wait.
#[derive(Clone, Copy, Debug, Default, PartialEq, Eq)]
pub enum Waiting {
    /// It spins. For threads that each have a core of their own.
    Spin,
    /// It spins and then yields, again and again.
    Yield,
    /// It spins, yields, and then sleeps until the bell of its bus rings.
    #[default]
    Sleep,
}

/// After how many looks a thread yields, and after how many it sleeps.
const SPINS: u32 = 6;
const YIELDS: u32 = 64;

/// How many looks for room there are between two turns, at the least and at the most. A look does not
/// see that the order has ended, and a turn does.
pub(crate) const LEAST_LOOKS: u32 = 64;
pub(crate) const MOST_LOOKS: u32 = 4096;

/// A thread sleeps so long at most: who is to ring may be stopped before it does, and what the
/// program asks between two looks may take the wake-up for its own.
const LONGEST_SLEEP: Duration = Duration::from_millis(100);

/// A thread sleeps so long at most in a call that asks a closure whether to go on.
const LONGEST_ASKED_SLEEP: Duration = Duration::from_millis(10);

/// Waits longer and longer from call to call.
pub(crate) struct BackOff {
    waiting: Waiting,
    step: u32,
    listens: bool,
    /// How long it has slept since the last ring.
    slept: Duration,
    longest: Duration,
    /// Until when it waits. None where that is for good.
    end: Option<Instant>,
}

impl BackOff {
    /// Of a call that asks nobody.
    pub(crate) fn new(waiting: Waiting) -> BackOff {
        BackOff {
            waiting,
            step: 0,
            listens: false,
            slept: Duration::ZERO,
            longest: LONGEST_SLEEP,
            end: None,
        }
    }

    /// Of a call that asks a closure whether to go on.
    pub(crate) fn asked(waiting: Waiting) -> BackOff {
        BackOff {
            longest: LONGEST_ASKED_SLEEP,
            ..BackOff::new(waiting)
        }
    }

    /// Of a call that waits for so long at most.
    pub(crate) fn up_to(waiting: Waiting, time: Duration) -> BackOff {
        BackOff {
            end: Instant::now().checked_add(time),
            ..BackOff::new(waiting)
        }
    }

    /// One for another thing that the same call waits for.
    pub(crate) fn afresh(&self) -> BackOff {
        BackOff {
            longest: self.longest,
            end: self.end,
            ..BackOff::new(self.waiting)
        }
    }

    /// The time of its call is over.
    pub(crate) fn is_over(&self) -> bool {
        self.end.map_or(false, |end| Instant::now() >= end)
    }

    /// Waits for the bell: spins, then yields, then listens, so that the caller looks once more,
    /// and then sleeps. True says that it has slept for 0.1 s in all while no ring came.
    pub(crate) fn wait(&mut self, bell: &Bell, place: usize) -> bool {
        self.wait_up_to(bell, place, self.end)
    }

    /// As `wait`, but that it sleeps up to this time at most.
    pub(crate) fn wait_up_to(&mut self, bell: &Bell, place: usize, end: Option<Instant>) -> bool {
        if self.backs_off() {
            return false;
        }
        if self.listens {
            let begin = Instant::now();
            let most = self.longest.min(left(end));
            thread::park_timeout(most);
            let slept = begin.elapsed();
            self.slept = if slept < most {
                Duration::ZERO
            } else {
                self.slept + slept
            };
        }
        bell.listen_here(place);
        self.listens = true;
        let is_long = self.slept >= LONGEST_SLEEP;
        if is_long {
            self.slept = Duration::ZERO;
        }
        is_long
    }

    /// Waits for a sender that is in the middle of its turns, which no ring follows.
    pub(crate) fn wait_behind(&mut self, looks: u32) {
        if !self.backs_off() {
            let most = self.longest.min(left(self.end));
            thread::sleep(nap(looks).unwrap_or_default().min(most));
        }
    }

    fn backs_off(&mut self) -> bool {
        if self.waiting == Waiting::Spin || self.step < SPINS {
            for _ in 0..1u32 << self.step.min(SPINS) {
                hint::spin_loop();
            }
        } else if self.waiting == Waiting::Yield || self.step < YIELDS {
            thread::yield_now();
        } else {
            return false;
        }
        self.step = (self.step + 1).min(YIELDS);
        true
    }

    /// A turn got somewhere, and the call waits on for the same thing: it spins no more than it has
    /// spun, and counts its yields anew.
    pub(crate) fn carry_on(&mut self) {
        self.step = self.step.min(SPINS);
        self.listens = false;
        self.slept = Duration::ZERO;
    }
}

/// How long it is until then; for good where that is None.
fn left(end: Option<Instant>) -> Duration {
    end.map_or(Duration::MAX, |end| {
        end.saturating_duration_since(Instant::now())
    })
}

/// For how long a sender that was behind at so many looks sleeps: for 0.1 ms, 0.2 ms and so on up
/// to 12.8 ms; at first not at all.
pub(crate) fn nap(looks: u32) -> Option<Duration> {
    let naps = looks.checked_sub(YIELDS)?;
    Some(Duration::from_micros(100 << naps.min(7)))
}

/// Wakes the task of a sender after naps. A thread takes them in its place, one at most.
#[derive(Clone, Default)]
pub(crate) struct Sleeper(Arc<Mutex<Asleep>>);

#[derive(Default)]
struct Asleep {
    /// The thread is there. It takes `next` before it goes.
    is_there: bool,
    /// Whom it wakes after the next nap, and how long that is.
    next: Option<(Duration, Waker)>,
}

impl Sleeper {
    /// Wakes this task after a nap, or at once where there is none, or no thread is to be had. Of
    /// several wakers the last one is woken.
    pub(crate) fn wake_after(&self, nap: Option<Duration>, waker: &Waker) {
        let nap = match nap {
            Some(nap) => nap,
            None => return waker.wake_by_ref(),
        };
        let next = Some((nap, waker.clone()));
        let mut asleep = self.asleep();
        let was_there = mem::replace(&mut asleep.is_there, true);
        let old = mem::replace(&mut asleep.next, next);
        drop(asleep);
        // The old one may have a handle in it, whose drop rings.
        drop(old);
        if !was_there {
            self.start();
        }
    }

    fn start(&self) {
        let sleeper = self.clone();
        let started = thread::Builder::new().spawn(move || sleeper.sleep());
        if started.is_err() {
            let mut asleep = self.asleep();
            asleep.is_there = false;
            let next = asleep.next.take();
            drop(asleep);
            if let Some((_, waker)) = next {
                waker.wake();
            }
        }
    }

    /// What the thread does: naps, one after another, as long as there is somebody to wake.
    fn sleep(self) {
        while let Some(nap) = self.next_nap() {
            thread::sleep(nap);
            let next = self.asleep().next.take();
            if let Some((_, waker)) = next {
                quietly(|| waker.wake());
            }
        }
    }

    /// How long the next nap is. None says that the thread goes, since nobody is to be woken.
    fn next_nap(&self) -> Option<Duration> {
        let mut asleep = self.asleep();
        let nap = asleep.next.as_ref().map(|(nap, _)| *nap);
        asleep.is_there = nap.is_some();
        nap
    }

    fn asleep(&self) -> MutexGuard<'_, Asleep> {
        self.0.lock().unwrap_or_else(PoisonError::into_inner)
    }
}

/// The future of what is polled by a function.
pub(crate) struct Polled<F>(pub(crate) F);

impl<T, F: FnMut(&mut Context<'_>) -> Poll<T> + Unpin> Future for Polled<F> {
    type Output = T;

    fn poll(mut self: Pin<&mut Self>, context: &mut Context<'_>) -> Poll<T> {
        (self.0)(context)
    }
}

/// Words for votes. No word breaks what is promised.
#[derive(Debug)]
pub(crate) struct Words(u64);

impl Words {
    pub(crate) fn new() -> Words {
        Words(RandomState::new().build_hasher().finish() | 1)
    }

    pub(crate) fn next(&mut self) -> u32 {
        self.0 ^= self.0 << 13;
        self.0 ^= self.0 >> 7;
        self.0 ^= self.0 << 17;
        (self.0 >> 32) as u32
    }
}
