//! Observers, which hear what happens in bulkheads, retries and pools.
use crate::rule::Reply;
use crate::thread_pool::Refusal;
use std::fmt;
use std::panic::{RefUnwindSafe, UnwindSafe};
use std::sync::Arc;
use std::time::{Duration, Instant};

/// How a call's wait for a permit ended.
#[derive(Debug, Clone, Copy, PartialEq, Eq, PartialOrd, Ord, Hash)]
#[non_exhaustive]
pub enum WaitEnd {
    /// The call got its permit.
    Granted,
    /// It was refused at once: no permit was free and it may not wait, or the bulkhead has fewer permits than it asks for.
    Full,
    /// It was refused at once: [as many calls already wait](crate::Acquire::most_waiting) as may wait.
    QueueFull,
    /// It got no permit within its time limit.
    TimedOut,
    /// The bulkhead was closed, before or during the wait.
    Closed,
    /// Its future was dropped during the wait.
    Abandoned,
}

/// Receives what happens to the calls of bulkheads and retries and to the jobs of pools, like Resilience4j's event consumers.
///
/// Set it when you make a [`Bulkhead`](crate::Bulkhead::observed), a [`Retry`](crate::Retry::observed), a
/// [`ThreadPool`](crate::ThreadPoolBuilder::observed) or a [`BulkheadRegistry`](crate::BulkheadRegistry::observed). Each method does
/// nothing by default. It is called outside all locks, by the thread that causes the event, and that thread waits for it to return.
/// Threads report concurrently and in no order relative to each other: a job's start may be reported before its acceptance.
///
/// A method may use what it observes, but with care: that is reported too. One that enters a bulkhead in
/// [`call_finished`](Observer::call_finished) of the same bulkhead, or submits a job in [`job_accepted`](Observer::job_accepted) of the
/// same pool, recurses until the stack overflows.
///
/// If a method panics, so does the call that reports to it, whose permits are given back. If the call was panicking already, a panic in
/// its end aborts the process, as any panic in a drop does. In a job a panic becomes its answer. A panic of `job_accepted` or
/// `job_refused` goes no further: the submitter still gets its handle, or its function back.
///
/// ```
/// use resil::{Bulkhead, Observer};
/// use std::sync::Arc;
///
/// struct Log;
///
/// impl Observer for Log {
///     fn call_refused(&self, bulkhead: &str) {
///         println!("{bulkhead} is full");
///     }
/// }
///
/// let backend = Bulkhead::new("backend", 0)?.observed(Arc::new(Log));
/// assert!(backend.call(|| 42).is_err());
/// # Ok::<(), resil::BulkheadError>(())
/// ```
pub trait Observer: Send + Sync {
    /// Returns the observer to use for the bulkhead of this name, or `None` to use this one. It is called once, when the observer is set,
    /// so that an observer needn't look up a name at each event.
    fn of_bulkhead(&self, _name: &str) -> Option<Arc<dyn Observer>> {
        None
    }

    /// Returns the observer to use for the retry of this name, as [`of_bulkhead`](Observer::of_bulkhead) does.
    fn of_retry(&self, _name: &str) -> Option<Arc<dyn Observer>> {
        None
    }

    /// Returns the observer to use for the pool of this name, as [`of_bulkhead`](Observer::of_bulkhead) does.
    fn of_pool(&self, _name: &str) -> Option<Arc<dyn Observer>> {
        None
    }

    /// Whether it wants times. It is called once, when the observer is set. If it returns false, the clock isn't read, and all times
    /// reported to it are zero.
    fn wants_times(&self) -> bool {
        true
    }

    /// A call got a permit of this bulkhead, by any method, waiting or not.
    fn call_permitted(&self, _bulkhead: &str) {}

    /// This bulkhead refused a call, at once or after a wait.
    fn call_refused(&self, _bulkhead: &str) {}

    /// A wait for a permit of this bulkhead is over: how long it took, and how it ended.
    ///
    /// Reported exactly once for each call that may wait, by any method: [`enter_within`](crate::Bulkhead::enter_within),
    /// [`acquire_owned`](crate::Bulkhead::acquire_owned), others like them, and a tower layer that waits. The time is zero if the call
    /// gets its permit or its refusal at once. This is reported before [`call_permitted`](Observer::call_permitted) or
    /// [`call_refused`](Observer::call_refused) of the same call; an abandoned call has neither. A future that was never polled hasn't
    /// waited.
    fn call_waited(&self, _bulkhead: &str, _time: Duration, _end: WaitEnd) {}

    /// A call gave its permit back unused, because what it was about to call wasn't ready within the call's time limit. Reported after
    /// [`call_finished`](Observer::call_finished) of the same call.
    fn call_timed_out(&self, _bulkhead: &str) {}

    /// A permit of this bulkhead was given back, this long after it was taken. Forgotten permits aren't reported.
    fn call_finished(&self, _bulkhead: &str, _time: Duration) {}

    /// An attempt failed (counted from 1), and the next one follows after this wait.
    fn attempt_failed(&self, _retry: &str, _attempt: u32, _wait: Duration) {}

    /// A call ended with a value that isn't retried, after this many attempts.
    fn retry_succeeded(&self, _retry: &str, _attempts: u32) {}

    /// A call ended because its last attempt still had an outcome to retry.
    fn retry_exhausted(&self, _retry: &str, _attempts: u32) {}

    /// A call ended with an error that isn't retried, after this many attempts.
    fn error_ignored(&self, _retry: &str, _attempts: u32) {}

    /// A call ended because the wait after this attempt would exceed its [limit](crate::Retry::within).
    fn retry_out_of_time(&self, _retry: &str, _attempts: u32) {}

    /// A job was accepted with this reply: `Core`, `Queued` or `Extra`.
    fn job_accepted(&self, _pool: &str, _reply: Reply) {}

    /// A job was refused.
    fn job_refused(&self, _pool: &str, _reason: Refusal) {}

    /// A job began, this long after it was submitted.
    fn job_started(&self, _pool: &str, _wait: Duration) {}

    /// A job's function returned after this time. Reported before the answer is available.
    fn job_finished(&self, _pool: &str, _time: Duration) {}

    /// A job's function panicked after this time.
    fn job_panicked(&self, _pool: &str, _time: Duration) {}
}

// Passes each of these events to each of several observers.
macro_rules! tell_each {
    ($($event:ident($($argument:ident: $kind:ty),*);)*) => {
        $(fn $event(&self, $($argument: $kind),*) {
            for observer in self {
                observer.$event($($argument),*);
            }
        })*
    };
}

// Calls these for each of several observers, and keeps the observer itself if the result is none.
macro_rules! own_of_each {
    ($($of:ident),*) => {
        $(fn $of(&self, name: &str) -> Option<Arc<dyn Observer>> {
            let own = |one: &Arc<dyn Observer>| one.$of(name).unwrap_or_else(|| Arc::clone(one));
            Some(Arc::new(self.each_ref().map(own)))
        })*
    };
}

/// Several observers, called one after the other.
impl<const N: usize> Observer for [Arc<dyn Observer>; N] {
    own_of_each! { of_bulkhead, of_retry, of_pool }

    fn wants_times(&self) -> bool {
        self.iter().any(|observer| observer.wants_times())
    }

    tell_each! {
        call_permitted(bulkhead: &str);
        call_refused(bulkhead: &str);
        call_waited(bulkhead: &str, time: Duration, end: WaitEnd);
        call_timed_out(bulkhead: &str);
        call_finished(bulkhead: &str, time: Duration);
        attempt_failed(retry: &str, attempt: u32, wait: Duration);
        retry_succeeded(retry: &str, attempts: u32);
        retry_exhausted(retry: &str, attempts: u32);
        error_ignored(retry: &str, attempts: u32);
        retry_out_of_time(retry: &str, attempts: u32);
        job_accepted(pool: &str, reply: Reply);
        job_refused(pool: &str, reason: Refusal);
        job_started(pool: &str, wait: Duration);
        job_finished(pool: &str, time: Duration);
        job_panicked(pool: &str, time: Duration);
    }
}

/// An observer, the name it is called with, and a clock.
#[derive(Clone)]
pub(crate) struct Watch {
    pub(crate) name: Arc<str>,
    pub(crate) observer: Arc<dyn Observer>,
    // None if the observer wants no times.
    birth: Option<Instant>,
}

impl Watch {
    /// Sets an observer, or the one that it returned for this name.
    pub(crate) fn new(
        name: &str,
        observer: Arc<dyn Observer>,
        own: Option<Arc<dyn Observer>>,
    ) -> Watch {
        let observer = own.unwrap_or(observer);
        Watch {
            name: name.into(),
            birth: observer.wants_times().then(Instant::now),
            observer,
        }
    }

    /// The time since it was made, in nanoseconds, modulo 2^64. None if no times are wanted.
    pub(crate) fn nanoseconds(&self) -> Option<u64> {
        let time = self.birth?.elapsed();
        let seconds = time.as_secs().wrapping_mul(1_000_000_000);
        Some(seconds.wrapping_add(time.subsec_nanos().into()))
    }

    /// The time since it was made.
    pub(crate) fn now(&self) -> Duration {
        self.birth.map_or(Duration::ZERO, |birth| birth.elapsed())
    }

    /// The time since `begun`.
    pub(crate) fn since(&self, begun: Duration) -> Duration {
        self.now().saturating_sub(begun)
    }
}

impl fmt::Debug for Watch {
    fn fmt(&self, f: &mut fmt::Formatter<'_>) -> fmt::Result {
        f.debug_struct("Watch")
            .field("name", &self.name)
            .finish_non_exhaustive()
    }
}

// A panic of an observer leaves nothing in this crate half done.
impl UnwindSafe for Watch {}
impl RefUnwindSafe for Watch {}
