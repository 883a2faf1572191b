//! A pool as its submitters see it: how jobs are submitted, how threads are started and called, and how it ends.
use super::book::{Book, Job};
use super::door::{Door, try_lock};
use super::ends::Ends;
use super::handle::JobHandle;
use super::inbox::Ring;
use super::inside::{self, Caller, Running};
use super::refused::{Refusal, Refused};
use super::task::{Function, HandOut, Made, Worker};
use super::unstarted::Unstarted;
use crate::lock::{locked, sleep};
use crate::record::{Anchor, memory_for};
use crate::rule::{Picked, PoolError, PoolNumbers, Reply};
use std::io;
use std::sync::atomic::{AtomicBool, Ordering};
use std::sync::{Arc, Condvar, Mutex, MutexGuard};
use std::thread::{self, JoinHandle};
use std::time::{Duration, Instant, SystemTime};

/// The function that starts a thread.
pub(super) type Start = fn(thread::Builder, Box<dyn FnOnce() + Send>) -> io::Result<JoinHandle<()>>;

pub(super) type Guard<'a> = MutexGuard<'a, Book>;

/// A pool's threads, and the book that they share.
pub(super) struct Crew {
    book: Mutex<Book>,
    /// The ring of the book's inbox, for submissions without the lock.
    pub(super) ring: Arc<Ring>,
    /// Jobs that ended while the book was locked.
    pub(super) ends: Ends,
    /// The door where submitters wait that find the book locked. `workers` is the same for workers that have run a job.
    pub(super) submitters: Door,
    pub(super) workers: &'static Door,
    /// Set if something was submitted while a thread searched.
    pub(super) found: AtomicBool,
    /// Threads without a job sleep here.
    pub(super) bell: Condvar,
    /// Joining threads sleep here.
    pub(super) quiet: Condvar,
    pub(super) kind: Kind,
    // Set if the pool is recorded.
    recorded: Option<Recorded>,
}

/// What can be read of a record without the lock: when the pool was opened, and for how many events there is room. Each turn reads it, so
/// it has a cache line that nobody writes to.
#[repr(align(64))]
pub(super) struct Recorded {
    pub(super) opened: Instant,
    pub(super) events: usize,
}

/// What a pool's threads are like.
#[derive(Clone)]
pub(super) struct Kind {
    pub(super) name: String,
    pub(super) keep_alive: Duration,
    pub(super) stack_size: Option<usize>,
    pub(super) start: Start,
    /// Whether each submission and each end of a job takes the lock. A record needs this, since it reads each time just before.
    pub(super) by_lock: bool,
}

impl Crew {
    pub(super) fn new(book: Book, ends: Ends, kind: Kind, recorded: Option<Recorded>) -> Crew {
        Crew {
            ring: book.inbox.ring(),
            ends,
            book: Mutex::new(book),
            submitters: Door::of_submitters(),
            workers: Door::of_workers(),
            found: AtomicBool::new(false),
            bell: Condvar::new(),
            quiet: Condvar::new(),
            kind,
            recorded,
        }
    }

    pub(super) fn submit<T, F>(self: &Arc<Self>, function: F) -> Result<JobHandle<T>, Refused<F>>
    where
        T: Send + 'static,
        F: Function<T> + Send + 'static,
    {
        let task = Made::new(function);
        match self.accept(task.number()) {
            Ok(reply) => Ok(JobHandle::new(reply, task.into_held(), self.workers)),
            Err(reason) => {
                let function = task.into_function();
                Err(Refused { reason, function })
            }
        }
    }

    // Submits a task to the rule, and makes sure that a thread runs it.
    fn accept(self: &Arc<Self>, task: u64) -> Result<Reply, Refusal> {
        if let Some(calls) = self.ring.submit(task) {
            if calls {
                self.call(self.lock_to_submit());
            }
            return Ok(Reply::Queued);
        }
        let mut book = self.lock_to_submit();
        // While this thread waited for the lock, another one may have been granted places.
        if self.ring.submit(task).is_some() {
            self.call(book);
            return Ok(Reply::Queued);
        }
        let reply = book.submit(task);
        match reply {
            Reply::Full => return Err(Refusal::Full),
            Reply::Closed => return Err(Refusal::Closed),
            Reply::Queued => self.see_to_queue(book),
            Reply::Core | Reply::Extra => {
                drop(book);
                self.start_thread();
            }
        }
        Ok(reply)
    }

    pub(super) fn resize(&self, core: u32, max: u32) -> Result<(), PoolError> {
        let mut book = self.lock();
        book.resize(core, max)?;
        // Sleeping threads check whether they may end now.
        book.call_all();
        drop(book);
        self.bell.notify_all();
        Ok(())
    }

    pub(super) fn close(&self) {
        let mut book = self.lock();
        book.close();
        self.wake_all(book);
    }

    pub(super) fn close_now(&self) -> Vec<Unstarted> {
        let mut book = self.lock();
        book.close();
        let waiting = book.take_back();
        self.wake_all(book);
        waiting.into_iter().map(Unstarted::new).collect()
    }

    // Makes everyone check again what there is to do: sleeping or searching threads, and joins.
    fn wake_all(&self, mut book: Guard<'_>) {
        book.call_all();
        book.settle();
        drop(book);
        self.found.store(true, Ordering::Relaxed);
        self.bell.notify_all();
        self.quiet.notify_all();
    }

    pub(super) fn is_closed(&self) -> bool {
        self.lock().closed
    }

    pub(super) fn numbers(&self) -> PoolNumbers {
        self.lock_settled().numbers()
    }

    /// The text of what has been recorded so far, if the pool is recorded.
    pub(super) fn history(&self) -> Option<String> {
        let memory = memory_for(self.recorded.as_ref()?.events).ok()?;
        let system = SystemTime::now();
        let at = self.now()?;
        let part = self.lock().begin_part(memory, Anchor { at, system });
        part.map(|part| part.text())
    }

    /// Waits until a join is done, and joins the threads of a closed pool. Neither waits for this thread.
    pub(super) fn join(&self) {
        let caller = Caller::of(self);
        let is_inside = caller.is_inside;
        let (mut book, _done) = self.wait_for_join(caller, None);
        if is_inside || !book.closed {
            return;
        }
        let handles = book.take_handles(inside::own_id());
        drop(book);
        for handle in handles {
            // A thread of the crew doesn't panic.
            let _ended = handle.join();
        }
    }

    /// Waits until a join is done or the deadline is over, and returns whether it is done.
    pub(super) fn join_until(&self, deadline: Option<Instant>) -> bool {
        self.wait_for_join(Caller::of(self), deadline).1
    }

    fn wait_for_join(&self, caller: Caller, deadline: Option<Instant>) -> (Guard<'_>, bool) {
        let mut book = self.lock_settled();
        let id = book.begin_join(caller);
        self.settle(&mut book);
        let is_done = loop {
            if book.joins.is_done(id) {
                break true;
            }
            let left = deadline.map(|end| end.saturating_duration_since(Instant::now()));
            if left.is_some_and(|left| left.is_zero()) {
                break false;
            }
            book = sleep(&self.quiet, book, left);
        };
        book.joins.end(id);
        (book, is_done)
    }

    /// Wakes the threads whose join is now done.
    pub(super) fn settle(&self, book: &mut Guard<'_>) {
        if book.settle() {
            self.quiet.notify_all();
        }
    }

    pub(super) fn lock(&self) -> Guard<'_> {
        self.turn(locked)
    }

    // The same for callers that need to know which jobs are finished.
    fn lock_settled(&self) -> Guard<'_> {
        let mut book = self.lock();
        self.ends.settle();
        self.take_ends(&mut book);
        book
    }

    fn lock_to_submit(&self) -> Guard<'_> {
        self.turn(|book| self.submitters.lock(book))
    }

    /// Takes the lock for a worker that has run a job.
    pub(super) fn lock_at_door(&self) -> Guard<'_> {
        self.turn(|book| self.workers.lock(book))
    }

    /// Takes the lock for a worker whose answer isn't out yet. In a pool that isn't recorded, only if it is free.
    pub(super) fn lock_to_end(&self) -> Option<Guard<'_>> {
        if self.kind.by_lock {
            return Some(self.lock_at_door());
        }
        let at = self.now();
        let mut book = try_lock(&self.book)?;
        book.begin_turn(at);
        Some(book)
    }

    // Finishes the jobs that ended without the lock, once their answers are out.
    fn take_ends(&self, book: &mut Guard<'_>) {
        let before = book.running;
        self.ends
            .take(|place, number| book.finish_at(place, number));
        if book.running < before {
            self.settle(book);
        }
    }

    // Takes the lock for a turn. Its time is read before, so that no other thread waits for the clock.
    fn turn<'a>(&'a self, lock: impl FnOnce(&'a Mutex<Book>) -> Guard<'a>) -> Guard<'a> {
        let at = self.now();
        let mut book = lock(&self.book);
        book.begin_turn(at);
        book
    }

    /// The time since a recorded pool was opened, in microseconds.
    #[inline]
    pub(super) fn now(&self) -> Option<u64> {
        let time = self.recorded.as_ref()?.opened.elapsed();
        Some(time.as_secs() * 1_000_000 + u64::from(time.subsec_micros()))
    }

    // Makes sure that the queued job is picked: by a thread that searches or sleeps, or else by the next one that finishes its job.
    fn see_to_queue(self: &Arc<Self>, mut book: Guard<'_>) {
        if book.missing > 0 {
            book.missing -= 1;
            book.threads += 1;
            drop(book);
            self.start_thread();
        } else {
            self.call(book);
        }
    }

    /// Picks a job. After the last waiting job is picked, threads that held back are idle.
    pub(super) fn pick(&self, book: &mut Guard<'_>) -> Option<Job> {
        self.take_ends(book);
        let job = book.pick();
        if book.held > 0 && !book.waits() {
            book.call_all();
            self.bell.notify_all();
        }
        job
    }

    /// Calls a thread if there is a job that it may pick.
    pub(super) fn call(&self, mut book: Guard<'_>) {
        if !book.has_work() {
            return;
        }
        if book.searching {
            self.found.store(true, Ordering::Relaxed);
        } else if book.called == 0 && book.call_one() {
            drop(book);
            self.bell.notify_one();
        }
    }

    // Starts a thread, which is counted already.
    fn start_thread(self: &Arc<Self>) {
        let crew = Arc::clone(self);
        let number = {
            let mut book = self.lock();
            book.started += 1;
            book.started
        };
        let name = format!("{}-{number}", self.kind.name);
        let mut builder = thread::Builder::new().name(name);
        if let Some(bytes) = self.kind.stack_size {
            builder = builder.stack_size(bytes);
        }
        match (self.kind.start)(builder, Box::new(move || crew.work())) {
            Ok(handle) => self.lock().keep(handle),
            Err(_) => self.do_without(),
        }
    }

    // Records that there is one thread fewer than counted. The accepted job is picked by another thread or, if there is none, run by this
    // one.
    fn do_without(&self) {
        let mut book = self.lock();
        book.do_without();
        self.settle(&mut book);
        drop(book);
        loop {
            let mut book = self.lock();
            if book.threads > 0 {
                return self.call(book);
            }
            let Some(job) = self.pick(&mut book) else {
                return book.end_missing();
            };
            drop(book);
            let running = Running::new(self, job.picked.id.number, false);
            let mut helper = Helper {
                crew: self,
                running: &running,
                picked: job.picked,
            };
            running.around(|| job.work.run(&mut helper));
        }
    }

    /// Finishes a job and hands out its answer, so that the caller with the answer and a caller that has joined see the same numbers.
    pub(super) fn finish(&self, picked: &Picked, out: &mut HandOut<'_>, book: &mut Guard<'_>) {
        book.finish(picked);
        out.hand_out();
        self.settle(book);
    }
}

/// A submitter that runs a job because there is no thread.
struct Helper<'a> {
    crew: &'a Crew,
    running: &'a Running,
    picked: Picked,
}

impl Worker for Helper<'_> {
    fn end(&mut self, out: &mut HandOut<'_>) {
        self.running.is_finished();
        self.crew.finish(&self.picked, out, &mut self.crew.lock());
    }

    fn tell(&mut self) {}

    fn before_drop(&mut self) {}
}
