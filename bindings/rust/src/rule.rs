//! A pool's rule, for programs with their own threads: which submissions are accepted, and which job is next.
mod error;
mod event;

use crate::library::{
    Handle, PoolCounts, PoolEvent, PoolJob, resil_pool_close, resil_pool_event,
    resil_pool_event_count, resil_pool_finish, resil_pool_free, resil_pool_idle_end,
    resil_pool_lost, resil_pool_new, resil_pool_numbers, resil_pool_pick, resil_pool_resize,
    resil_pool_submit,
};
use std::fmt;

pub use error::PoolError;
pub use event::{Event, JobId, Origin, Picked, PoolNumbers, Reply};

/// The most workers that a pool may have, and so the most jobs that may run at once. The rule gives each running job a place below
/// this.
pub(crate) const MOST_WORKERS: usize = 1_024;

/// The largest core size that a resize may set in a pool that was made for at most this many workers.
pub(crate) const FEW_WORKERS: usize = 64;

/// The largest capacity of a queue, in jobs.
pub(crate) const MOST_WAITING: usize = 65_536;

/// The default capacity of a queue, in jobs.
pub(crate) const QUEUE: u32 = 100;

/// Builds a [`PoolRule`] from its sizes.
#[derive(Debug, Clone)]
#[must_use]
pub struct PoolRuleBuilder {
    core: u32,
    max: u32,
    queue: u32,
    callers: u32,
    kept: u32,
}

impl PoolRuleBuilder {
    /// Sets the capacity of the queue, in jobs: 1 to 65,536. The default is 100.
    pub fn queue(mut self, capacity: u32) -> Self {
        self.queue = capacity;
        self
    }

    /// Sets the number of callers that submit: 1 to 65,535. The default is one. They are numbered from 1.
    pub fn callers(mut self, count: u32) -> Self {
        self.callers = count;
        self
    }

    /// Sets how many of the last events are kept. By default none are.
    pub fn keep_events(mut self, count: u32) -> Self {
        self.kept = count;
        self
    }

    /// Makes an open pool without workers or jobs. It allocates all the memory that it will ever use.
    ///
    /// # Errors
    ///
    /// In this order: `CoreOutOfRange` if the core size isn't from 1 to 1,024; `MaxOutOfRange` if the maximum size isn't
    /// from the core size to 1,024; `QueueOutOfRange`; `CallersOutOfRange`; `Memory` if out of memory.
    pub fn open(self) -> Result<PoolRule, PoolError> {
        let (core, max, queue) = (self.core, self.max, self.queue);
        let mut handle = Handle::EMPTY;
        let out = &raw mut handle;
        // SAFETY: `handle` is empty, and only this call has it.
        match unsafe { resil_pool_new(core, max, queue, self.callers, self.kept, out) } {
            0 => Ok(PoolRule { handle }),
            2 => Err(PoolError::CoreOutOfRange),
            3 => Err(PoolError::MaxOutOfRange),
            4 => Err(PoolError::QueueOutOfRange),
            5 => Err(PoolError::CallersOutOfRange),
            _ => Err(PoolError::Memory),
        }
    }
}

/// Which submissions are accepted, and which job runs next: the rule of `java.util.concurrent.ThreadPoolExecutor` for your own threads.
///
/// It starts no threads and runs no jobs. Threads share it under a lock of their own. After `Core` or `Extra` you start a worker, which
/// picks, runs and finishes one job after the other. Each job carries 64 bits of work, such as an index, which the rule keeps for you
/// until the job is picked. All memory is allocated when the rule is made.
///
/// ```
/// use resil::rule::{Event, JobId, PoolRule, Reply};
///
/// let mut rule = PoolRule::builder(1, 2).queue(1).keep_events(10).open()?;
/// let first = JobId { caller: 1, number: 1 };
/// assert_eq!(rule.submit(first, 7)?, Reply::Core);
/// let picked = rule.pick().expect("a worker is started for it");
/// assert_eq!((picked.id, picked.work), (first, 7));
/// // Your program runs its job here.
/// rule.finish(&picked)?;
/// assert_eq!(rule.last_events(), [Event::Submit(first, Reply::Core), Event::Finish(first)]);
/// # Ok::<(), resil::PoolError>(())
/// ```
pub struct PoolRule {
    handle: Handle,
}

// SAFETY: `Send` is proved for the library's handle, and a pool's calls can only be reached through `&mut`.
unsafe impl Send for PoolRule {}

impl PoolRule {
    /// Returns a builder for a pool with a core size from 1 to 1,024 and a maximum size from the core size to 1,024, in workers.
    pub fn builder(core: u32, max: u32) -> PoolRuleBuilder {
        PoolRuleBuilder {
            core,
            max,
            queue: QUEUE,
            callers: 1,
            kept: 0,
        }
    }

    /// Submits its caller's next job with its work, and returns the rule's reply. The work of a refused job stays with you.
    ///
    /// # Errors
    ///
    /// In this order: `NoCaller` if the caller isn't from 1 to the number of callers; `WrongNumber` if the number isn't the caller's next
    /// one.
    pub fn submit(&mut self, id: JobId, work: u64) -> Result<Reply, PoolError> {
        let JobId { caller, number } = id;
        let (pool, back) = (self.handle, &raw mut self.handle);
        // SAFETY: the handle was filled by `resil_pool_new` and only this call uses it.
        match unsafe { resil_pool_submit(pool, back, caller, number, work) } {
            6 => Err(PoolError::NoCaller),
            answer => Reply::of(answer).ok_or(PoolError::WrongNumber),
        }
    }

    /// Picks the job to run next: the oldest that has a worker of its own and wasn't picked yet; otherwise the oldest in the queue, if a
    /// worker is idle. Returns `None` if there is no such job.
    pub fn pick(&mut self) -> Option<Picked> {
        let mut job = PoolJob::default();
        // SAFETY: as in `submit`; only this call has the job.
        match unsafe { resil_pool_pick(self.handle, &raw mut self.handle, &raw mut job) } {
            0 => Some(Picked::of(job, Origin::OwnStart)),
            1 => Some(Picked::of(job, Origin::Queue)),
            _ => None,
        }
    }

    /// Finishes a job that was picked.
    ///
    /// # Errors
    ///
    /// `NotOut` unless a job with this id was picked at this place and isn't finished.
    pub fn finish(&mut self, picked: &Picked) -> Result<(), PoolError> {
        let JobId { caller, number } = picked.id;
        let (pool, back) = (self.handle, &raw mut self.handle);
        // SAFETY: as in `submit`.
        match unsafe { resil_pool_finish(pool, back, caller, number, picked.place) } {
            0 => Ok(()),
            _ => Err(PoolError::NotOut),
        }
    }

    /// Sets the core size and the maximum size, in workers, from now on. It is an event even if they stay the same or the pool is closed.
    /// The queue's capacity and all jobs stay the same.
    ///
    /// This starts and ends no worker: a worker starts with a submission, and one above the core size leaves by `idle_end`. So there may
    /// be more workers than the maximum size, but never more than the pool was made with.
    ///
    /// # Errors
    ///
    /// In this order: `CoreOutOfRange` if the core size isn't from 1 to 64, or to 1,024 if the pool was made with a maximum size
    /// above 64; `MaxOutOfRange` if the maximum size is below the core size, or above the one that the pool was made with.
    pub fn resize(&mut self, core: u32, max: u32) -> Result<(), PoolError> {
        // SAFETY: as in `submit`.
        match unsafe { resil_pool_resize(self.handle, &raw mut self.handle, core, max) } {
            0 => Ok(()),
            1 => Err(PoolError::CoreOutOfRange),
            _ => Err(PoolError::MaxOutOfRange),
        }
    }

    /// Ends an idle worker, and returns whether it did. It does only if no job waits, fewer jobs run than there are workers, and either
    /// there are more workers than the core size or the pool is closed.
    pub fn idle_end(&mut self) -> bool {
        // SAFETY: as in `submit`.
        unsafe { resil_pool_idle_end(self.handle, &raw mut self.handle) == 0 }
    }

    /// Closes the pool, and returns whether it was open. Jobs accepted before are still picked.
    pub fn close(&mut self) -> bool {
        // SAFETY: as in `submit`.
        unsafe { resil_pool_close(self.handle, &raw mut self.handle) == 0 }
    }

    /// Whether the pool is closed.
    pub fn is_closed(&mut self) -> bool {
        self.counts().closed != 0
    }

    /// The pool's numbers, all of this moment.
    pub fn numbers(&mut self) -> PoolNumbers {
        self.counts().into()
    }

    /// The number of events that are kept now: all that have happened, up to the number asked for.
    pub fn event_count(&mut self) -> usize {
        // SAFETY: as in `submit`.
        unsafe { resil_pool_event_count(self.handle, &raw mut self.handle) }
    }

    /// The number of lost events: those that came before the kept ones.
    pub fn lost(&mut self) -> u64 {
        // SAFETY: as in `submit`.
        unsafe { resil_pool_lost(self.handle, &raw mut self.handle) }
    }

    /// Returns one of the kept events, by its index from 0, oldest first. `None` if there is none with that index.
    pub fn event(&mut self, index: usize) -> Option<Event> {
        let mut event = PoolEvent::default();
        // SAFETY: as in `submit`; only this call has the event.
        let answer =
            unsafe { resil_pool_event(self.handle, &raw mut self.handle, index, &raw mut event) };
        if answer == 0 { Event::of(event) } else { None }
    }

    /// Returns all kept events, oldest first.
    pub fn last_events(&mut self) -> Vec<Event> {
        (0..self.event_count())
            .filter_map(|index| self.event(index))
            .collect()
    }

    fn counts(&mut self) -> PoolCounts {
        let mut counts = PoolCounts::default();
        // SAFETY: as in `submit`; only this call has the counts.
        unsafe { resil_pool_numbers(self.handle, &raw mut self.handle, &raw mut counts) };
        counts
    }
}

impl Drop for PoolRule {
    fn drop(&mut self) {
        // SAFETY: the handle was filled by `resil_pool_new`, and is freed once.
        unsafe { resil_pool_free(self.handle) }
    }
}

impl fmt::Debug for PoolRule {
    fn fmt(&self, f: &mut fmt::Formatter<'_>) -> fmt::Result {
        f.debug_struct("PoolRule").finish_non_exhaustive()
    }
}
