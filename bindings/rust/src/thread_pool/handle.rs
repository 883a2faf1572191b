//! A caller's handle of an accepted job.
use super::door::Door;
use super::error::JobError;
use super::task::Held;
use crate::rule::Reply;
use std::fmt;
use std::panic::{RefUnwindSafe, UnwindSafe};
use std::pin::Pin;
use std::task::{Context, Poll};
use std::time::{Duration, Instant};

/// A handle of an accepted job: it waits for the job's answer, or is a future of it on any runtime. Dropping the handle doesn't stop the
/// job.
///
/// A job that waits for another job of its own pool blocks its worker. If every worker does, none is left to run the others: a deadlock.
/// The same happens if jobs wait for each other, or if a job waits for its caller while the caller waits for the job.
/// [`wait_for`](JobHandle::wait_for) has a timeout.
#[must_use = "a job runs without its handle, but its answer is lost"]
pub struct JobHandle<T> {
    reply: Reply,
    held: Held<T>,
    workers: &'static Door,
}

impl<T> JobHandle<T> {
    pub(super) fn new(reply: Reply, held: Held<T>, workers: &'static Door) -> JobHandle<T> {
        JobHandle {
            reply,
            held,
            workers,
        }
    }

    /// The reply to the submission: `Core`, `Queued` or `Extra`.
    #[must_use]
    pub fn reply(&self) -> Reply {
        self.reply
    }

    /// Blocks until the answer is there. The job then counts as finished in the pool's numbers.
    ///
    /// # Errors
    ///
    /// `Panicked` if the function panicked; `Cancelled` if the pool was closed by [`close_now`](crate::ThreadPool::close_now) before the
    /// job began, and the returned job was dropped.
    ///
    /// # Panics
    ///
    /// If it was polled before and was ready.
    ///
    /// ```
    /// # let pool = resil::ThreadPool::builder(1, 1).open()?;
    /// let job = pool.submit(|| 6 * 7)?;
    /// assert_eq!(job.wait()?, 42);
    /// # Ok::<(), Box<dyn std::error::Error>>(())
    /// ```
    pub fn wait(self) -> Result<T, JobError> {
        self.is_not_given();
        loop {
            // SAFETY: only this call has the handle, which ends with the answer.
            if let Some(answer) = unsafe { self.held.task().wait(self.workers, None) } {
                return answer;
            }
        }
    }

    /// Blocks for at most `limit` until the answer is there. `Duration::MAX` waits without a limit.
    ///
    /// # Errors
    ///
    /// The handle, if there is no answer by then. Inside, those of [`wait`](JobHandle::wait).
    ///
    /// # Panics
    ///
    /// Those of [`wait`](JobHandle::wait).
    ///
    /// ```
    /// # use std::time::Duration;
    /// # let pool = resil::ThreadPool::builder(1, 1).open()?;
    /// let job = pool.submit(|| 6 * 7)?;
    /// let answer = job.wait_for(Duration::from_secs(60)).map_err(|_job| "it runs still")??;
    /// assert_eq!(answer, 42);
    /// # Ok::<(), Box<dyn std::error::Error>>(())
    /// ```
    pub fn wait_for(self, limit: Duration) -> Result<Result<T, JobError>, JobHandle<T>> {
        self.is_not_given();
        match Instant::now().checked_add(limit) {
            None => Ok(self.wait()),
            // SAFETY: only this call has the handle, which is dropped if there is an answer.
            deadline => unsafe { self.held.task().wait(self.workers, deadline) }.ok_or(self),
        }
    }

    // A handle returns its answer only once.
    fn is_not_given(&self) {
        assert!(
            !self.held.task().is_given(),
            "a job's handle was used after it returned the answer"
        );
    }

    /// Whether the answer is there.
    #[must_use]
    pub fn is_finished(&self) -> bool {
        self.held.task().is_there()
    }
}

/// The answer, as [`wait`](JobHandle::wait) returns it.
impl<T> Future for JobHandle<T> {
    type Output = Result<T, JobError>;

    /// # Panics
    ///
    /// If it is polled again after it was ready.
    fn poll(self: Pin<&mut Self>, context: &mut Context<'_>) -> Poll<Self::Output> {
        self.is_not_given();
        // SAFETY: only this call has the handle, and it hasn't returned the answer.
        let answer = unsafe { self.held.task().poll(context.waker()) };
        if answer.is_pending() {
            self.workers.call_in();
        }
        answer
    }
}

// A function's panic is its answer, and leaves no handle half done.
impl<T> UnwindSafe for JobHandle<T> {}
impl<T> RefUnwindSafe for JobHandle<T> {}

impl<T> fmt::Debug for JobHandle<T> {
    fn fmt(&self, f: &mut fmt::Formatter<'_>) -> fmt::Result {
        f.debug_struct("JobHandle")
            .field("reply", &self.reply)
            .finish_non_exhaustive()
    }
}
