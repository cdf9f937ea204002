//! The calls of a replica that apply, and those that wait.

use super::{Applied, Replica, ReplicaError, Seat, State};
use crate::waiting::BackOff;
use crate::Waiting;
use std::time::{Duration, Instant};

/// What a call that waits goes by: whom it asks, and until when it waits.
struct Patience<F> {
    go_on: F,
    /// None where it waits for good.
    end: Option<Instant>,
    back_off: BackOff,
}

impl<F: FnMut() -> bool> Patience<F> {
    fn new(go_on: F, waiting: Waiting) -> Patience<F> {
        Patience {
            go_on,
            end: None,
            back_off: BackOff::asked(waiting),
        }
    }

    /// It goes on, or is told to stop, or its time is over.
    fn goes_on(&mut self) -> bool {
        let is_over = self.end.map_or(false, |end| Instant::now() >= end);
        !is_over && (self.go_on)()
    }
}

/// Goes on up to a time.
fn up_to(time: Duration, waiting: Waiting) -> Patience<fn() -> bool> {
    Patience {
        end: Instant::now().checked_add(time),
        ..Patience::new(always as fn() -> bool, waiting)
    }
}

fn always() -> bool {
    true
}

/// Takes the seat of a replica where a panic of `apply` passes by.
struct Poisons<'a> {
    seat: &'a mut Option<Seat>,
    applies: bool,
}

impl Drop for Poisons<'_> {
    fn drop(&mut self) {
        if self.applies {
            *self.seat = None;
        }
    }
}

impl<S: State> Replica<S> {
    /// Applies the next operation that is there.
    #[inline]
    pub(super) fn step(&mut self) -> Option<Applied<S::Answer>> {
        let mut poisons = Poisons {
            seat: &mut self.seat,
            applies: false,
        };
        let operation = poisons.seat.as_mut()?.lend_operation()?;
        poisons.applies = true;
        self.words = operation.words;
        let (from, number) = (operation.from, operation.number);
        let answer = self.state.apply(from, operation.bytes);
        poisons.applies = false;
        Some(Applied {
            from,
            number,
            answer,
        })
    }

    /// Applies what has come, and gives how many operations that were. It waits for nobody.
    pub fn hear(&mut self) -> Result<usize, ReplicaError> {
        let mut many = 0;
        while self.step().is_some() {
            many += 1;
        }
        if self.seat()?.is_cut_off() {
            return Err(ReplicaError::Ended);
        }
        Ok(many)
    }

    /// As `hear`, but that it waits until there is an operation at least, or `go_on` says no: then
    /// it gives 0. Whoever makes it do so rings the bell.
    pub fn hear_while(&mut self, go_on: impl FnMut() -> bool) -> Result<usize, ReplicaError> {
        let patience = Patience::new(go_on, self.waiting);
        self.hear_by(patience)
    }

    /// As `hear`, but that it waits for so long at most until there is an operation at least. So a
    /// worker that has nothing else to do holds up nobody.
    pub fn hear_timeout(&mut self, time: Duration) -> Result<usize, ReplicaError> {
        let patience = up_to(time, self.waiting);
        self.hear_by(patience)
    }

    fn hear_by<F: FnMut() -> bool>(
        &mut self,
        mut patience: Patience<F>,
    ) -> Result<usize, ReplicaError> {
        loop {
            let many = self.hear()?;
            if many > 0 || self.go_on(&mut patience, false).is_err() {
                return Ok(many);
            }
        }
    }

    /// The state, once all is applied that any worker was answered or has seen before this call:
    /// each operation whose `execute` had returned, or that a `flush` had sent, or that any
    /// replica had applied. Maybe it has more. It waits for nobody. Where there is nothing new it
    /// costs one load.
    #[inline]
    pub fn latest(&mut self) -> Result<&S, ReplicaError> {
        let seat = self.seat()?;
        let words = seat.told.published();
        if !seat.has_given(words) {
            self.catch_up(words)?;
        }
        Ok(&self.state)
    }

    /// Applies all of so many words of the log.
    fn catch_up(&mut self, words: u64) -> Result<(), ReplicaError> {
        while !self.seat()?.has_given(words) {
            if self.step().is_none() && self.seat()?.receiver.has_ended() {
                break;
            }
        }
        Ok(())
    }

    /// Puts an operation of at most 880 bytes into the batch, and gives its number. It is sent with
    /// what comes later: by `flush`, `execute`, `leave`, `finish`, or where the batch has no room
    /// for the next one. What it answers nobody is told.
    ///
    /// A batch has room for 64 operations of up to 55 bytes; a longer one counts for each 55 bytes
    /// begun. Numbers rise by as much: an operation has that of its last piece.
    pub fn submit(&mut self, operation: &[u8]) -> Result<u64, ReplicaError> {
        self.submit_while(operation, always)
    }

    /// As `submit`, but that it can be told to stop: each time it has sent and applied what it can
    /// and there is no room for the operation it asks `go_on`, and where that says no it is
    /// `Stopped`. The operation is not put then, so the call may be repeated. Whoever makes it say
    /// no rings the bell.
    pub fn submit_while(
        &mut self,
        operation: &[u8],
        go_on: impl FnMut() -> bool,
    ) -> Result<u64, ReplicaError> {
        let mut patience = Patience::new(go_on, self.waiting);
        self.put(operation, &mut patience)
    }

    /// As `submit`, but that it is `Stopped` after so long. The operation is not put then, so the
    /// call may be repeated.
    pub fn submit_timeout(
        &mut self,
        operation: &[u8],
        time: Duration,
    ) -> Result<u64, ReplicaError> {
        let mut patience = up_to(time, self.waiting);
        self.put(operation, &mut patience)
    }

    fn put<F: FnMut() -> bool>(
        &mut self,
        operation: &[u8],
        patience: &mut Patience<F>,
    ) -> Result<u64, ReplicaError> {
        loop {
            if let Some(number) = self.seat()?.put(operation)? {
                return Ok(number);
            }
            let has_moved = self.round()?;
            if !self.seat()?.has_sent() {
                self.go_on(patience, has_moved)?;
            }
        }
    }

    /// Sends what waits, and applies what comes until then.
    pub fn flush(&mut self) -> Result<(), ReplicaError> {
        self.flush_while(always)
    }

    /// As `flush`, but that it can be told to stop: each time it has sent and applied what it can
    /// and something waits still it asks `go_on`, and where that says no it is `Stopped`. Whoever
    /// makes it say no rings the bell.
    pub fn flush_while(&mut self, go_on: impl FnMut() -> bool) -> Result<(), ReplicaError> {
        let mut patience = Patience::new(go_on, self.waiting);
        self.send_all(&mut patience)
    }

    /// As `flush`, but that it is `Stopped` after so long.
    pub fn flush_timeout(&mut self, time: Duration) -> Result<(), ReplicaError> {
        let mut patience = up_to(time, self.waiting);
        self.send_all(&mut patience)
    }

    fn send_all<F: FnMut() -> bool>(
        &mut self,
        patience: &mut Patience<F>,
    ) -> Result<(), ReplicaError> {
        while !self.seat()?.has_sent() {
            let has_moved = self.round()?;
            if !self.seat()?.has_sent() {
                self.go_on(patience, has_moved)?;
            }
        }
        Ok(())
    }

    /// Behind a round that did not come to what is waited for: asks whether to go on, and rests
    /// where the round did nothing.
    fn go_on<F: FnMut() -> bool>(
        &self,
        patience: &mut Patience<F>,
        has_moved: bool,
    ) -> Result<(), ReplicaError> {
        if !patience.goes_on() {
            return Err(ReplicaError::Stopped);
        }
        if has_moved {
            patience.back_off.carry_on();
        } else {
            let place = self.number as usize;
            patience
                .back_off
                .wait_up_to(&self.bell, place, patience.end);
        }
        Ok(())
    }

    /// Takes turns towards sending what waits, and applies what is there. Says whether either did
    /// something.
    fn round(&mut self) -> Result<bool, ReplicaError> {
        let has_sent = self.seat()?.send()?;
        Ok(self.hear()? > 0 || has_sent)
    }

    /// Executes an operation of at most 880 bytes: it returns once this replica has applied it,
    /// with the answer that it had at its place in the order. It is the last one applied then.
    pub fn execute(&mut self, operation: &[u8]) -> Result<S::Answer, ReplicaError> {
        self.execute_while(operation, always)
    }

    /// As `execute`, but that it can be told to stop: each time it has sent and applied what it
    /// can and its operation was not among that it asks `go_on`, and where that says no it is
    /// `Stopped`. Whoever makes it say no rings the bell. It asks only where it would wait, so look
    /// at the flag in your loop too.
    ///
    /// **After `Stopped` do not repeat the call**: the operation may be put, and may stand in the
    /// order already. It is sent with whatever is sent next, and what it answers is lost. So a
    /// second call may have it applied twice. `submit_while` and `flush_while` may be repeated.
    pub fn execute_while(
        &mut self,
        operation: &[u8],
        go_on: impl FnMut() -> bool,
    ) -> Result<S::Answer, ReplicaError> {
        let mut patience = Patience::new(go_on, self.waiting);
        self.execute_by(operation, &mut patience)
    }

    /// As `execute`, but that it is `Stopped` after so long. Do not repeat the call then: the
    /// operation may stand in the order already, as with `execute_while`.
    pub fn execute_timeout(
        &mut self,
        operation: &[u8],
        time: Duration,
    ) -> Result<S::Answer, ReplicaError> {
        let mut patience = up_to(time, self.waiting);
        self.execute_by(operation, &mut patience)
    }

    fn execute_by<F: FnMut() -> bool>(
        &mut self,
        operation: &[u8],
        patience: &mut Patience<F>,
    ) -> Result<S::Answer, ReplicaError> {
        let number = self.put(operation, patience)?;
        loop {
            let has_sent = self.seat()?.send()?;
            let (many, found) = self.hear_own(number)?;
            if let Some(answer) = found {
                return Ok(answer);
            }
            self.go_on(patience, has_sent || many > 0)?;
        }
    }

    /// Applies what is there, up to its own operation of this number: how many operations that
    /// were, and what that one answers where it was there.
    pub(super) fn hear_own(
        &mut self,
        number: u64,
    ) -> Result<(usize, Option<S::Answer>), ReplicaError> {
        let mut many = 0;
        while let Some(applied) = self.step() {
            many += 1;
            if applied.from == self.number && applied.number == number {
                // It is the last one of its frame.
                self.words = self.seat()?.sent_words().unwrap_or(self.words);
                return Ok((many, Some(applied.answer)));
            }
        }
        if self.seat()?.is_cut_off() {
            return Err(ReplicaError::Ended);
        }
        Ok((many, None))
    }

    /// Sends what waits, leaves, and applies all operations of all workers, up to where all have
    /// left. So the states of those of which it was Ok are equal. A replica that is dropped or
    /// poisoned has left. One that is kept and does not call this has not, and this waits for it.
    ///
    /// No operation can be put after it, or after a `MissingWorker`: `submit` and `execute` are
    /// `Ended`. `hear`, `state` and `latest` work on, and `into_state` gives the state.
    pub fn leave(&mut self) -> Result<(), ReplicaError> {
        self.leave_while(always)
    }

    /// As `leave`, but that it can be told to stop. Each time it has sent and applied what it can
    /// and a worker has not left yet it asks `go_on`. Where that says no the first such worker is a
    /// `MissingWorker`. Or it is `Stopped`, if an operation of its own waits still: then it has not
    /// begun to leave. A further call goes on. Whoever makes it say no rings the bell.
    ///
    /// The replica is kept, and has to hear as before: call again, or drop it. The worker that is
    /// named may be this one, or may wait itself for another that does not hear.
    ///
    /// ```
    /// # use kioskbasil::replica::{ReplicaError, Replicas, State};
    /// # use kioskbasil::Shape;
    /// # use std::time::Duration;
    /// # struct Count(u64);
    /// # impl State for Count {
    /// #     type Answer = u64;
    /// #     fn apply(&mut self, _from: u32, _operation: &[u8]) -> u64 {
    /// #         self.0 += 1;
    /// #         self.0
    /// #     }
    /// # }
    /// let mut replicas = Replicas::open(Shape::of_workers(2), || Count(0))?;
    /// let (mut anna, mut bert) = (replicas.remove(0), replicas.remove(0));
    /// let missing = anna.leave_timeout(Duration::from_millis(1));
    /// assert_eq!(missing, Err(ReplicaError::MissingWorker(1)));
    /// assert_eq!(anna.execute(b"late"), Err(ReplicaError::Ended));
    /// assert_eq!(bert.execute(b"last"), Ok(1));
    /// bert.leave()?;
    /// anna.leave()?;
    /// assert_eq!((anna.into_state().0, bert.into_state().0), (1, 1));
    /// # Ok::<(), Box<dyn std::error::Error>>(())
    /// ```
    pub fn leave_while(&mut self, go_on: impl FnMut() -> bool) -> Result<(), ReplicaError> {
        let mut patience = Patience::new(go_on, self.waiting);
        self.leave_by(&mut patience)
    }

    /// As `leave`, but that it is told to stop after so long, as with `leave_while`.
    pub fn leave_timeout(&mut self, time: Duration) -> Result<(), ReplicaError> {
        let mut patience = up_to(time, self.waiting);
        self.leave_by(&mut patience)
    }

    fn leave_by<F: FnMut() -> bool>(
        &mut self,
        patience: &mut Patience<F>,
    ) -> Result<(), ReplicaError> {
        if !self.seat()?.is_leaving() {
            self.send_all(patience)?;
            self.seat()?.leave()?;
        }
        loop {
            let has_moved = self.round()?;
            let seat = self.seat()?;
            let missing = match seat.told.all_left() {
                Ok(words) if seat.has_given(words) => return Ok(()),
                Ok(_) => self.number,
                Err(worker) => worker,
            };
            let goes_on = self.go_on(patience, has_moved);
            goes_on.map_err(|_| ReplicaError::MissingWorker(missing))?;
        }
    }

    /// As `leave`, and gives the state. So the states that it gives are equal. After an error the
    /// replica is gone, and keeps nobody waiting. `leave` keeps it.
    pub fn finish(self) -> Result<S, ReplicaError> {
        self.finish_while(always)
    }

    /// As `leave_while`, and gives the state. After an error the replica is gone, and what it had
    /// not sent is lost.
    pub fn finish_while(mut self, go_on: impl FnMut() -> bool) -> Result<S, ReplicaError> {
        self.leave_while(go_on)?;
        Ok(self.into_state())
    }

    /// As `finish`, but that it is told to stop after so long, as with `finish_while`.
    pub fn finish_timeout(mut self, time: Duration) -> Result<S, ReplicaError> {
        self.leave_timeout(time)?;
        Ok(self.into_state())
    }

    /// The state by what it has applied so far, as `state` shows it, also of a poisoned replica.
    /// The replica is dropped: so it leaves, and what it had not sent is lost. `leave` and this
    /// are `finish`.
    pub fn into_state(self) -> S {
        self.state
    }
}
