//! Options of a pool that is to be opened.
use super::ThreadPool;
use super::book::Book;
use super::crew::{Crew, Kind, Recorded};
use super::ends::Ends;
use crate::observer::{Observer, Watch};
use crate::record::{Anchor, MOST_EVENTS, Plan, RecordedRule};
use crate::rule::{PoolError, PoolRule, QUEUE};
use std::fmt;
use std::panic::{RefUnwindSafe, UnwindSafe};
use std::sync::Arc;
use std::time::{Duration, Instant, SystemTime};

// The default keep-alive of idle threads above the core size: Resilience4j's `keepAliveDuration`.
const KEEP_ALIVE: Duration = Duration::from_millis(20);

/// Builds a [`ThreadPool`]: its sizes and the properties of its threads.
#[derive(Clone)]
#[must_use]
pub struct ThreadPoolBuilder {
    core: u32,
    max: u32,
    queue: u32,
    pub(super) kind: Kind,
    record: Option<u32>,
    observer: Option<Arc<dyn Observer>>,
}

impl ThreadPoolBuilder {
    pub(super) fn new(core: u32, max: u32) -> ThreadPoolBuilder {
        ThreadPoolBuilder {
            core,
            max,
            queue: QUEUE,
            kind: Kind {
                name: "pool".to_owned(),
                keep_alive: KEEP_ALIVE,
                stack_size: None,
                start: |builder, work| builder.spawn(work),
                by_lock: false,
            },
            record: None,
            observer: None,
        }
    }

    /// Sets the capacity of the queue, in jobs: 1 to 65,536. The default is 100.
    pub fn queue(mut self, capacity: u32) -> Self {
        self.queue = capacity;
        self
    }

    /// Sets how long an idle thread above the core size stays before it exits. The default is 20 milliseconds.
    pub fn keep_alive(mut self, time: Duration) -> Self {
        self.kind.keep_alive = time;
        self
    }

    /// Sets the pool's name, `pool` by default. Each thread's name is this followed by a number, counted from 1 over all threads started.
    /// Linux shows the first 15 bytes.
    pub fn name(mut self, name: impl Into<String>) -> Self {
        self.kind.name = name.into();
        self
    }

    /// Sets the size of each thread's stack, in bytes; the system may round it up. The default is that of
    /// [`std::thread::Builder::stack_size`]. Functions, what they call, and their answers are on it. If a stack of this size can't be
    /// allocated, the thread can't be started.
    pub fn stack_size(mut self, bytes: usize) -> Self {
        // A larger one can't be allocated, and couldn't be rounded up either.
        self.kind.stack_size = Some(bytes.min(isize::MAX as usize));
        self
    }

    /// Reports the pool's jobs to this observer: each one that is accepted or refused, and its start and end, which the thread that runs
    /// it reports.
    pub fn observed(mut self, observer: Arc<dyn Observer>) -> Self {
        self.observer = Some(observer);
        self
    }

    /// Makes the pool record what happens, for [`history`](ThreadPool::history): up to this many events at a time, from 1 to 100,000.
    /// Their memory, 24 bytes each, is allocated when the pool is opened. By default nothing is recorded.
    ///
    /// An event is recorded by the call of the rule that causes it, under the pool's lock, so the events are in the order of the
    /// decisions: each submission with its reply (refused ones too), each take from the queue, the finish of each job (even if it
    /// panicked), each removal of a job that [`close_now`](ThreadPool::close_now) gives back, each idle end, each resize and the closing.
    /// An event's time is read before the lock is taken, in microseconds since the pool was opened, and never goes back. When the record
    /// is full, later events are only counted until the next call of `history`, whose text says how many are missing; the pool continues.
    ///
    /// ```
    /// let pool = resil::ThreadPool::builder(1, 1).record(1_000).open()?;
    /// pool.submit(|| 42)?.wait()?;
    /// assert!(pool.history().is_some());
    /// # Ok::<(), Box<dyn std::error::Error>>(())
    /// ```
    pub fn record(mut self, events: u32) -> Self {
        self.record = Some(events);
        self.kind.by_lock = true;
        self
    }

    /// The function that starts the threads.
    #[cfg(test)]
    pub(super) fn start(mut self, start: super::crew::Start) -> Self {
        self.kind.start = start;
        self
    }

    /// Opens the pool. It doesn't start a thread yet.
    ///
    /// # Errors
    ///
    /// In this order: `NulInName` if the name has a byte 0; `RecordOutOfRange`; `CoreOutOfRange` if the core size isn't from 1 to 1,024;
    /// `MaxOutOfRange` if the maximum size isn't from the core size to 1,024; `QueueOutOfRange`; `Memory` if out of memory for the
    /// library's pool, the record, the queue or the ends of jobs. Everything else that is allocated here and for each job, some hundred
    /// bytes, is allocated as everywhere in Rust: the process aborts if there is no memory for it.
    ///
    /// ```
    /// let pool = resil::ThreadPool::builder(2, 4).queue(10).name("letters").open()?;
    /// assert_eq!(pool.submit(|| 6 * 7)?.wait()?, 42);
    /// # Ok::<(), Box<dyn std::error::Error>>(())
    /// ```
    pub fn open(self) -> Result<ThreadPool, PoolError> {
        if self.kind.name.contains('\0') {
            return Err(PoolError::NulInName);
        }
        if !(1..=MOST_EVENTS).contains(&self.record.unwrap_or(1)) {
            return Err(PoolError::RecordOutOfRange);
        }
        let rule = PoolRule::builder(self.core, self.max)
            .queue(self.queue)
            .open()?;
        let plan = self.record.map(|events| Plan {
            events: events as usize,
            opened: Anchor {
                at: 0,
                system: SystemTime::now(),
            },
            keep_alive: self.kind.keep_alive,
        });
        let recorded = plan.as_ref().map(|plan| Recorded {
            opened: Instant::now(),
            events: plan.events,
        });
        let book = Book::new(RecordedRule::new(rule, plan.as_ref())?, self.kind.by_lock)?;
        let watch = self.observer.map(|observer| {
            let own = observer.of_pool(&self.kind.name);
            Arc::new(Watch::new(&self.kind.name, observer, own))
        });
        let ends = Ends::new(self.max as usize)?;
        let crew = Crew::new(book, ends, self.kind, recorded);
        Ok(ThreadPool::new(Arc::new(crew), watch))
    }
}

// A panic of the observer leaves nothing half made.
impl UnwindSafe for ThreadPoolBuilder {}
impl RefUnwindSafe for ThreadPoolBuilder {}

#[allow(
    clippy::missing_fields_in_debug,
    reason = "an observer has nothing to show"
)]
impl fmt::Debug for ThreadPoolBuilder {
    fn fmt(&self, f: &mut fmt::Formatter<'_>) -> fmt::Result {
        f.debug_struct("ThreadPoolBuilder")
            .field("name", &self.kind.name)
            .field("core", &self.core)
            .field("max", &self.max)
            .field("queue", &self.queue)
            .field("keep_alive", &self.kind.keep_alive)
            .field("stack_size", &self.kind.stack_size)
            .field("record", &self.record)
            .finish()
    }
}
