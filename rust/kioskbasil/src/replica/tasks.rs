//! Replicas in async code.

use super::{Applied, Replica, ReplicaError, Seat, State};
use crate::bell::quietly;
use crate::waiting::Polled;
use std::task::{Context, Poll};

/// Takes the rest of a tenure where a future ends, or is dropped.
struct LetsGo<'a, S: State>(&'a mut Replica<S>);

impl<S: State> Drop for LetsGo<'_, S> {
    fn drop(&mut self) {
        if let Some(seat) = &mut self.0.seat {
            quietly(|| {
                let _ = seat.settle();
            });
        }
    }
}

impl<S: State> Replica<S> {
    /// As `execute`, for tasks, in any executor: the task is woken once it may go on.
    ///
    /// Where the future is dropped the operation may be put, and may stand in the order already:
    /// it is sent with whatever is sent next, and what it answers is lost. No tenure stays begun:
    /// where another sender has to go on first, the drop waits for that.
    pub async fn execute_async(&mut self, operation: &[u8]) -> Result<S::Answer, ReplicaError> {
        let mut number = None;
        let lets_go = LetsGo(self);
        Polled(|context: &mut Context<'_>| lets_go.0.poll_execute(context, operation, &mut number))
            .await
    }

    /// As `flush`, for tasks. Where the future is dropped what waits is sent with what comes
    /// later.
    pub async fn flush_async(&mut self) -> Result<(), ReplicaError> {
        let lets_go = LetsGo(self);
        Polled(|context: &mut Context<'_>| lets_go.0.poll_flush(context)).await
    }

    fn poll_execute(
        &mut self,
        context: &mut Context<'_>,
        operation: &[u8],
        number: &mut Option<u64>,
    ) -> Poll<Result<S::Answer, ReplicaError>> {
        for listens in [false, true] {
            if listens && !self.listen(context)? {
                break;
            }
            loop {
                if number.is_none() {
                    *number = self.seat()?.put(operation)?;
                }
                let sent = self.seat()?.poll_send(context)?;
                if self.seat()?.sender.is_behind() {
                    break;
                }
                match *number {
                    None => {
                        self.hear()?;
                    }
                    Some(own) => {
                        if let (_, Some(answer)) = self.hear_own(own)? {
                            return Poll::Ready(Ok(answer));
                        }
                    }
                }
                if sent != Poll::Ready(true) {
                    break;
                }
            }
        }
        Poll::Pending
    }

    fn poll_flush(&mut self, context: &mut Context<'_>) -> Poll<Result<(), ReplicaError>> {
        for listens in [false, true] {
            if listens && !self.listen(context)? {
                break;
            }
            let _ = self.seat()?.poll_send(context)?;
            if !self.seat()?.sender.is_behind() {
                self.hear()?;
            }
            if self.seat()?.has_sent() {
                return Poll::Ready(Ok(()));
            }
        }
        Poll::Pending
    }

    /// The task is woken by the next ring. False where its sender is behind: then it is woken
    /// without one, and hears nothing meanwhile.
    fn listen(&mut self, context: &mut Context<'_>) -> Result<bool, ReplicaError> {
        let is_behind = self.seat()?.sender.is_behind();
        if !is_behind {
            let place = self.number as usize;
            self.bell.listen(place, context.waker());
        }
        Ok(!is_behind)
    }

    /// Applies the next operation, for tasks: where there is none, the task is woken once there
    /// may be one. None at the end of the order, and from a poisoned replica. Of the tasks that
    /// poll one replica in turn the last one is woken.
    ///
    /// `futures::stream::poll_fn(move |context| replica.poll_applied(context))` is a stream of
    /// what is applied.
    pub fn poll_applied(&mut self, context: &mut Context<'_>) -> Poll<Option<Applied<S::Answer>>> {
        for listens in [false, true] {
            if let Some(applied) = self.step() {
                return Poll::Ready(Some(applied));
            }
            if self
                .seat
                .as_ref()
                .map_or(true, |it: &Seat| it.receiver.has_ended())
            {
                return Poll::Ready(None);
            }
            if !listens {
                let place = self.number as usize;
                self.bell.listen(place, context.waker());
            }
        }
        Poll::Pending
    }

    /// As `poll_applied`, for tasks that await it. Where the future is dropped nothing is lost.
    pub async fn next_applied_async(&mut self) -> Option<Applied<S::Answer>> {
        Polled(|context: &mut Context<'_>| self.poll_applied(context)).await
    }
}
