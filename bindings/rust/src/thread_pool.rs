//! A pool of threads that runs functions and returns their answers.
mod book;
mod builder;
mod crew;
mod door;
mod ends;
mod error;
mod handle;
mod inbox;
mod inside;
mod joins;
mod observed;
mod patience;
mod refused;
mod task;
#[cfg(test)]
mod tests;
mod unstarted;
mod worker;

use crate::observer::Watch;
use crate::rule::{PoolError, PoolNumbers};
use crew::Crew;
use std::fmt;
use std::sync::Arc;
use std::thread;
use std::time::{Duration, Instant};

pub use builder::ThreadPoolBuilder;
pub use error::{JobError, JobPanic};
pub use handle::JobHandle;
pub use refused::{Refusal, Refused};
pub use unstarted::Unstarted;

/// Threads that run functions and return their answers, by the rule of `java.util.concurrent.ThreadPoolExecutor`.
///
/// While there are fewer threads than the core size, a submitted function gets a new thread. Otherwise it waits in the queue. If the
/// queue is full, it gets a new thread, up to the maximum size. Beyond that it is refused at once and returned to the caller. A thread
/// above the core size exits after it has been idle for the keep-alive.
///
/// The pool's memory doesn't grow with the number of jobs that it has run. If a thread can't be started, another thread runs the job. If
/// there is no other thread, the submitter runs it before `submit` returns, on its own stack. The next submission tries again to start a
/// thread.
///
/// # The end
///
/// Dropping a pool closes it, runs the accepted jobs, and joins it. So the drop waits for jobs, and hangs if one of them waits for
/// something that never comes: for the thread that drops the pool, or for another job that waits in this way. If two pools are each
/// dropped by a job of the other, they wait for each other. To avoid this, [`detach`](ThreadPool::detach) closes the pool without
/// waiting, [`join_for`](ThreadPool::join_for) has a timeout, and [`close_now`](ThreadPool::close_now) gives back the jobs that haven't
/// begun. A drop during a panic doesn't wait either: the jobs continue for as long as the process lives.
///
/// In the child of a `fork` a pool has no threads, and maybe a lock that nobody ever releases: its calls and its drop may hang there. A
/// pool that is opened in the child works.
///
/// ```
/// let pool = resil::ThreadPool::builder(2, 4).queue(10).name("letters").open()?;
/// let job = pool.submit(|| "letter".to_uppercase())?;
/// assert_eq!(job.wait()?, "LETTER");
/// # Ok::<(), Box<dyn std::error::Error>>(())
/// ```
pub struct ThreadPool {
    crew: Arc<Crew>,
    watch: Option<Arc<Watch>>,
    is_detached: bool,
}

impl ThreadPool {
    fn new(crew: Arc<Crew>, watch: Option<Arc<Watch>>) -> ThreadPool {
        ThreadPool {
            crew,
            watch,
            is_detached: false,
        }
    }

    /// Starts building a pool with a core size from 1 to 1,024 and a maximum size from the core size to 1,024, in threads.
    ///
    /// ```
    /// // As many jobs may wait for something slow at a time.
    /// let pool = resil::ThreadPool::builder(200, 400).open()?;
    /// assert_eq!((pool.numbers().core, pool.numbers().max), (200, 400));
    /// # Ok::<(), Box<dyn std::error::Error>>(())
    /// ```
    pub fn builder(core: u32, max: u32) -> ThreadPoolBuilder {
        ThreadPoolBuilder::new(core, max)
    }

    /// Submits a function, to be run by a thread of the pool with a stack of [`stack_size`](ThreadPoolBuilder::stack_size).
    ///
    /// # Errors
    ///
    /// In this order: `Closed` if the pool is closed; `Full` if the queue is full and there are as many threads as the maximum size. The
    /// error contains the function, which wasn't called.
    ///
    /// ```
    /// # let pool = resil::ThreadPool::builder(1, 1).open()?;
    /// let job = pool.submit(|| "a letter".to_uppercase())?;
    /// assert_eq!(job.wait()?, "A LETTER");
    /// # Ok::<(), Box<dyn std::error::Error>>(())
    /// ```
    pub fn submit<T, F>(&self, function: F) -> Result<JobHandle<T>, Refused<F>>
    where
        T: Send + 'static,
        F: FnOnce() -> T + Send + 'static,
    {
        match &self.watch {
            None => self.crew.submit(function),
            Some(watch) => observed::submit(&self.crew, watch, function),
        }
    }

    /// The pool's numbers, all of this moment.
    ///
    /// ```
    /// # let pool = resil::ThreadPool::builder(1, 1).open()?;
    /// pool.submit(|| 42)?.wait()?;
    /// assert_eq!(pool.numbers().accepted, 1);
    /// # Ok::<(), Box<dyn std::error::Error>>(())
    /// ```
    #[must_use]
    pub fn numbers(&self) -> PoolNumbers {
        self.crew.numbers()
    }

    /// Returns what was [recorded](ThreadPoolBuilder::record) since the pool was opened or since the last call, as the text of a history
    /// with its head, for the program's `judge`, `stats` and `timeline`. Returns `None` if the pool isn't recorded, or if out of memory
    /// for the next part. The text is below 4 MiB.
    ///
    /// The head has the sizes, the keep-alive in microseconds as `idle_for` (at most a year), and the time of the first event as `began`,
    /// in UTC by the system's clock. The text has version 3, with times. It has version 4 if jobs were given back by
    /// [`close_now`](ThreadPool::close_now), since version 3 has no row for them.
    ///
    /// The call starts a new part of the record. The next text begins with events that recreate the pool's current state, all at the time
    /// of this call; `made` in its head says how many. So each text is judged on its own, and a wait or a run that spans this moment is
    /// cut in two. All submissions are those of caller 1, numbered from 1 in each text; each thread that was idle when a text begins has
    /// a submission of caller 2 with its finish. If more jobs wait than the record has room for, the record stays empty until the next
    /// call.
    ///
    /// To get a pool's last events, call `close`, `join` and then this. The calling thread writes the text, without holding the lock.
    ///
    /// ```
    /// # let pool = resil::ThreadPool::builder(1, 1).record(1_000).open()?;
    /// pool.submit(|| 42)?.wait()?;
    /// // The program `resil_look` judges it and counts it.
    /// println!("{}", pool.history().unwrap_or_default());
    /// # Ok::<(), Box<dyn std::error::Error>>(())
    /// ```
    #[must_use]
    pub fn history(&self) -> Option<String> {
        self.crew.history()
    }

    /// The pool's name, with which its threads' names begin.
    #[must_use]
    pub fn name(&self) -> &str {
        &self.crew.kind.name
    }

    /// Sets the core size and the maximum size, in threads, from now on, even if the pool is closed. The queue's capacity and all jobs
    /// stay the same.
    ///
    /// This starts and ends no thread: a thread starts with a submission, and one above the core size exits after it has been idle for
    /// the keep-alive while the queue is empty. So there may be more threads than the maximum size, but never more than when the pool was
    /// opened. While as many jobs run as the new maximum size, no other begins; running jobs are finished. Each resize restarts the
    /// keep-alive of idle threads.
    ///
    /// # Errors
    ///
    /// In this order: `CoreOutOfRange` if the core size isn't from 1 to 64, or to 1,024 if the pool was opened with a maximum size
    /// above 64; `MaxOutOfRange` if the maximum size is below the core size, or above the one that the pool was opened with.
    ///
    /// ```
    /// # let pool = resil::ThreadPool::builder(1, 8).open()?;
    /// pool.resize(2, 8)?;
    /// assert_eq!((pool.numbers().core, pool.numbers().max), (2, 8));
    /// # Ok::<(), Box<dyn std::error::Error>>(())
    /// ```
    pub fn resize(&self, core: u32, max: u32) -> Result<(), PoolError> {
        self.crew.resize(core, max)
    }

    /// Closes the pool: later submissions are refused. Accepted jobs still run, and idle threads exit.
    ///
    /// ```
    /// # let pool = resil::ThreadPool::builder(1, 1).open()?;
    /// pool.close();
    /// let refused = pool.submit(|| 42).unwrap_err();
    /// assert_eq!((refused.function)(), 42);
    /// # Ok::<(), Box<dyn std::error::Error>>(())
    /// ```
    pub fn close(&self) {
        self.crew.close();
    }

    /// Closes the pool and returns the accepted jobs that haven't begun, oldest first. Those that have begun are finished. In the pool's
    /// numbers a returned job counts as finished, and a join doesn't wait for it.
    ///
    /// ```
    /// # let pool = resil::ThreadPool::builder(1, 1).open()?;
    /// // The jobs that haven't begun come back.
    /// let unstarted = pool.close_now();
    /// assert_eq!(unstarted.len(), 0);
    /// # Ok::<(), Box<dyn std::error::Error>>(())
    /// ```
    #[must_use]
    pub fn close_now(&self) -> Vec<Unstarted> {
        self.crew.close_now()
    }

    /// Whether the pool is closed.
    #[must_use]
    pub fn is_closed(&self) -> bool {
        self.crew.is_closed()
    }

    /// Blocks until every job that was accepted before this call is finished; it doesn't wait for later submissions. If the pool is
    /// closed, it also waits until its threads have ended.
    ///
    /// It never waits for the calling thread. If a job of this pool calls it, directly or in another pool's job that it runs, the call
    /// waits neither for that job nor for other jobs of this pool that are joining; if the pool is closed, it waits for the other
    /// threads. A job of another pool waits like any caller: jobs of two pools that join each other's pool wait for ever, and so does a
    /// job that joins while another job waits for it. [`join_for`](ThreadPool::join_for) has a timeout.
    ///
    /// ```
    /// # let pool = resil::ThreadPool::builder(1, 1).open()?;
    /// let job = pool.submit(|| 42)?;
    /// pool.join();
    /// assert!(job.is_finished());
    /// # Ok::<(), Box<dyn std::error::Error>>(())
    /// ```
    pub fn join(&self) {
        self.crew.join();
    }

    /// Waits as [`join`](ThreadPool::join) does, for at most `limit`, and returns whether the join completed. `Duration::MAX` waits
    /// without a limit. If the pool is closed, its threads have then done everything that they do for it, but may not have dropped their
    /// thread-locals yet.
    ///
    /// ```
    /// # use std::time::Duration;
    /// # let pool = resil::ThreadPool::builder(1, 1).open()?;
    /// pool.submit(|| ())?;
    /// assert!(pool.join_for(Duration::from_secs(60)));
    /// # Ok::<(), Box<dyn std::error::Error>>(())
    /// ```
    #[must_use = "it says whether all is finished"]
    pub fn join_for(&self, limit: Duration) -> bool {
        self.crew.join_until(Instant::now().checked_add(limit))
    }

    /// Closes the pool and lets go of it: its threads run the accepted jobs and then exit, and nobody waits for them.
    ///
    /// ```
    /// # let pool = resil::ThreadPool::builder(1, 1).open()?;
    /// pool.submit(|| println!("later"))?;
    /// pool.detach();
    /// # Ok::<(), Box<dyn std::error::Error>>(())
    /// ```
    pub fn detach(mut self) {
        self.is_detached = true;
    }
}

impl Drop for ThreadPool {
    fn drop(&mut self) {
        self.close();
        // A job may wait for what the panic has unwound.
        if !self.is_detached && !thread::panicking() {
            self.join();
        }
    }
}

impl fmt::Debug for ThreadPool {
    fn fmt(&self, f: &mut fmt::Formatter<'_>) -> fmt::Result {
        f.debug_struct("ThreadPool")
            .field("name", &self.name())
            .field("numbers", &self.numbers())
            .finish_non_exhaustive()
    }
}
