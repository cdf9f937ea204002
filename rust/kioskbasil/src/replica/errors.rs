//! Why a replica did not do what it was asked for.

use std::error::Error;
use std::fmt;

/// Why an operation was not executed, or a replica not finished.
#[derive(Clone, Copy, Debug, PartialEq, Eq)]
pub enum ReplicaError {
    /// An operation has more than 880 bytes. Nothing has changed.
    TooLong,
    /// The order has ended, or this worker has left it, or has begun to.
    Ended,
    /// The bus has no tenure left.
    Spent,
    /// It was told to stop, or its time is over. What was put and not sent waits still. After
    /// `submit_while` and `submit_timeout` the operation is not put, so repeat the call. After
    /// `execute_while` and `execute_timeout` do not: it may be put, and stand in the order already.
    Stopped,
    /// It was told to stop, or its time is over, before this worker has left: the first such. It
    /// may be the worker that asked, or may wait itself for another that does not hear.
    MissingWorker(u32),
    /// An `apply` has panicked before, in a call of this replica.
    Poisoned,
}

impl fmt::Display for ReplicaError {
    fn fmt(&self, f: &mut fmt::Formatter<'_>) -> fmt::Result {
        match self {
            ReplicaError::TooLong => f.write_str("an operation of more than 880 bytes"),
            ReplicaError::Ended => f.write_str("the order has ended, or this worker has left it"),
            ReplicaError::Spent => f.write_str("all tenures are spent"),
            ReplicaError::Stopped => f.write_str("told to stop, or its time is over"),
            ReplicaError::MissingWorker(worker) => write!(f, "worker {worker} has not left"),
            ReplicaError::Poisoned => f.write_str("an operation panicked in this replica before"),
        }
    }
}

impl Error for ReplicaError {}
