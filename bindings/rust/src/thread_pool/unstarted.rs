//! A job that its pool has given back.
use super::task::{Absent, Work};
use std::fmt;

/// A job that was accepted but hadn't begun when its pool was closed by [`close_now`](crate::ThreadPool::close_now), with its function.
///
/// Run it or drop it: its handle then gets the answer, or [`Cancelled`](crate::JobError::Cancelled).
#[must_use = "a job that is dropped is cancelled"]
pub struct Unstarted {
    // Taken when it is run.
    work: Option<Work>,
}

impl Unstarted {
    pub(super) fn new(work: Work) -> Unstarted {
        Unstarted { work: Some(work) }
    }

    /// Calls the function on this thread, and passes its answer to the handle. This doesn't panic: if the function does, that is the
    /// answer.
    pub fn run(mut self) {
        if let Some(work) = self.work.take() {
            work.run(&mut Absent);
        }
    }
}

impl Drop for Unstarted {
    fn drop(&mut self) {
        if let Some(work) = self.work.take() {
            work.cancel(&mut Absent);
        }
    }
}

impl fmt::Debug for Unstarted {
    fn fmt(&self, f: &mut fmt::Formatter<'_>) -> fmt::Result {
        f.debug_struct("Unstarted").finish_non_exhaustive()
    }
}
