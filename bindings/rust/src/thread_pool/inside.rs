//! Which jobs a thread is running: a job may submit, and run another job if no thread can be started.
use super::crew::Crew;
use std::cell::Cell;
use std::ptr;
use std::thread::{self, ThreadId};

thread_local! {
    // The innermost job that this thread runs, or null.
    static INNERMOST: Cell<*const Running> = const { Cell::new(ptr::null()) };
    // The id of a pool's thread, which it can still read when its other thread-locals are gone.
    static OWN_ID: Cell<Option<ThreadId>> = const { Cell::new(None) };
}

/// A job that a thread runs, until the job is finished and its answer is dropped.
pub(super) struct Running {
    crew: *const Crew,
    // Zero once it is finished.
    number: Cell<u64>,
    by_worker: bool,
    outer: Cell<*const Running>,
}

impl Running {
    /// A job of this crew, run by one of its threads or by a submitter.
    pub(super) fn new(crew: &Crew, number: u64, by_worker: bool) -> Running {
        Running {
            crew,
            number: Cell::new(number),
            by_worker,
            outer: Cell::new(ptr::null()),
        }
    }

    /// Calls a function inside this job.
    pub(super) fn around(&self, function: impl FnOnce()) {
        self.outer.set(INNERMOST.replace(self));
        let _left = Left(self);
        function();
    }

    /// Records that the job is finished.
    pub(super) fn is_finished(&self) {
        self.number.set(0);
    }
}

struct Left<'a>(&'a Running);

impl Drop for Left<'_> {
    fn drop(&mut self) {
        INNERMOST.set(self.0.outer.get());
    }
}

/// The calling thread, as seen from a crew.
#[derive(Default)]
pub(super) struct Caller {
    /// Whether it runs a job of the crew, or drops the answer of one.
    pub(super) is_inside: bool,
    /// Whether it is one of the crew's threads.
    pub(super) is_worker: bool,
    /// The numbers of the crew's unfinished jobs that it runs.
    pub(super) jobs: Vec<u64>,
}

impl Caller {
    /// This thread, as seen from a crew.
    pub(super) fn of(crew: &Crew) -> Caller {
        let mut caller = Caller::default();
        let mut next = INNERMOST.get();
        // SAFETY: a job is in this list only while `around` borrows it, and only on that call's thread.
        while let Some(running) = unsafe { next.as_ref() } {
            if ptr::eq(running.crew, crew) {
                caller.is_inside = true;
                caller.is_worker |= running.by_worker;
                let number = running.number.get();
                caller.jobs.extend((number > 0).then_some(number));
            }
            next = running.outer.get();
        }
        caller
    }
}

/// Records the id of a thread that begins to work.
pub(super) fn begin() {
    OWN_ID.set(Some(thread::current().id()));
}

/// This thread's id, if it is or was one of a pool's.
pub(super) fn own_id() -> Option<ThreadId> {
    OWN_ID.get()
}
