//! What a refused submission returns.
use crate::texts::error_texts;
use std::error::Error;
use std::fmt;

/// Why a job was refused.
#[derive(Debug, Clone, Copy, PartialEq, Eq, Hash)]
#[non_exhaustive]
pub enum Refusal {
    /// The queue is full and there are as many workers as the maximum size.
    Full,
    /// The pool is closed.
    Closed,
}

error_texts! { Refusal {
    Full => "the pool is full",
    Closed => "the pool is closed",
}}

/// A refused job: the reason, and its function, which wasn't called.
pub struct Refused<F> {
    /// Why the job was refused.
    pub reason: Refusal,
    /// The function that was submitted.
    pub function: F,
}

impl<F> fmt::Debug for Refused<F> {
    fn fmt(&self, f: &mut fmt::Formatter<'_>) -> fmt::Result {
        f.debug_struct("Refused")
            .field("reason", &self.reason)
            .finish_non_exhaustive()
    }
}

impl<F> fmt::Display for Refused<F> {
    fn fmt(&self, f: &mut fmt::Formatter<'_>) -> fmt::Result {
        self.reason.fmt(f)
    }
}

impl<F> Error for Refused<F> {}
