//! A submitted function and its answer. A worker and a handle share it.
//!
//! The worker has the function, and writes the answer before it sets `ANSWERED`; the handle reads the answer after it has seen that. A
//! handle that finds no answer writes how to wake it before it sets `AWAITED`, and sleeps; the worker that sees this wakes it. So there
//! is no lock. A worker knows a task by its address, which is the work that the rule keeps.
//!
//! Each of the two says when it accesses the task for the last time. The worker says so together with the answer if it wakes nobody.
//! Whichever finds that the other has left frees the task.
use super::door::Door;
use super::error::JobError;
use super::patience;
use std::cell::UnsafeCell;
use std::mem::ManuallyDrop;
use std::panic::{AssertUnwindSafe, catch_unwind};
use std::ptr::{self, NonNull};
use std::sync::atomic::{self, AtomicBool, AtomicU8, Ordering};
use std::task::{Poll, Waker};
use std::thread::{self, Thread};
use std::time::Instant;

// The answer is written.
const ANSWERED: u8 = 1;
// The waiter is written, and the handle sleeps.
const AWAITED: u8 = 2;
// The worker no longer accesses the task.
const WORKER_LEFT: u8 = 4;
// The handle no longer accesses the task.
const HANDLE_LEFT: u8 = 8;

/// What a task runs: a function, or an observed one.
pub(super) trait Function<T> {
    fn run(self) -> T;
}

impl<T, F: FnOnce() -> T> Function<T> for F {
    fn run(self) -> T {
        self()
    }
}

/// What a worker does around the end of a task.
pub(super) trait Worker {
    /// Ends the job, and hands out the answer at the right time.
    fn end(&mut self, out: &mut HandOut<'_>);

    /// Reports the end to the pool's rule, unless it knows: a waker is user code, and may take long.
    fn tell(&mut self);

    /// Prepares for user code: the drop of an answer that nobody wants any more.
    fn before_drop(&mut self);
}

/// A written answer to hand out, if anyone wants it.
pub(super) struct HandOut<'a> {
    state: Option<&'a AtomicU8>,
    // The state before that.
    before: u8,
}

impl HandOut<'_> {
    /// Hands out the answer, once. If nobody is to be woken, the worker has left with this.
    pub(super) fn hand_out(&mut self) {
        let Some(state) = self.state.take() else {
            return;
        };
        let after = |before: u8| {
            let is_last = before & AWAITED == 0;
            Some(before | ANSWERED | if is_last { WORKER_LEFT } else { 0 })
        };
        let before = state.fetch_update(Ordering::AcqRel, Ordering::Relaxed, after);
        self.before = before.unwrap_or_else(|state| state);
    }
}

// Drops a value, even if its drop panics.
fn drop_quietly<V>(value: V) {
    if let Err(payload) = catch_unwind(AssertUnwindSafe(|| drop(value))) {
        // Dropping a payload may panic again.
        std::mem::forget(payload);
    }
}

/// The worker of a task that no pool runs.
pub(super) struct Absent;

impl Worker for Absent {
    fn end(&mut self, _out: &mut HandOut<'_>) {}
    fn tell(&mut self) {}
    fn before_drop(&mut self) {}
}

/// What an answer is to wake.
enum Waiter {
    Thread(Thread),
    Task(Waker),
}

impl Waiter {
    fn wake(self) {
        match self {
            Waiter::Thread(thread) => thread.unpark(),
            // The worker survives whatever the task's runtime does.
            Waiter::Task(waker) => {
                if let Err(payload) = catch_unwind(AssertUnwindSafe(|| waker.wake())) {
                    std::mem::forget(payload);
                }
            }
        }
    }
}

/// What happens to a task's function.
#[derive(Clone, Copy)]
enum Fate {
    Called,
    Dropped,
}

/// The beginning of every task: how to end it, whatever its types.
struct Header {
    end: unsafe fn(*const Header, Fate, &mut dyn Worker),
}

union Body<T, F> {
    // Valid from when the task is made until a worker starts it.
    function: ManuallyDrop<F>,
    // Valid from `ANSWERED` until it is given.
    answer: ManuallyDrop<Result<T, JobError>>,
}

// The header comes first, so that its address is the task's.
#[repr(C)]
pub(super) struct Task<T, F> {
    header: Header,
    state: AtomicU8,
    // Whether the function was taken. Belongs to the worker, and then to the drop.
    started: UnsafeCell<bool>,
    // Whether the handle has taken the answer.
    given: AtomicBool,
    // Belongs to the handle while the task isn't `AWAITED`, and then to the worker.
    waiter: UnsafeCell<Option<Waiter>>,
    // Belongs to the worker until the task is `ANSWERED`, and then to the handle.
    body: UnsafeCell<Body<T, F>>,
}

// SAFETY: the function goes to the worker and the answer to the handle. Only one of the two accesses a cell at a time, as its comment
// says: the atomic state passes it from one to the other.
unsafe impl<T: Send, F: Send> Send for Task<T, F> {}
// SAFETY: as for `Send`.
unsafe impl<T: Send, F: Send> Sync for Task<T, F> {}

/// A task that only its submitter has. If it is accepted, a worker and a handle share it.
pub(super) struct Made<T, F>(NonNull<Task<T, F>>);

impl<T, F> Made<T, F>
where
    T: Send + 'static,
    F: Function<T> + Send + 'static,
{
    pub(super) fn new(function: F) -> Made<T, F> {
        let task = Box::new(Task {
            header: Header {
                end: Task::<T, F>::end,
            },
            state: AtomicU8::new(0),
            started: UnsafeCell::new(false),
            given: AtomicBool::new(false),
            waiter: UnsafeCell::new(None),
            body: UnsafeCell::new(Body {
                function: ManuallyDrop::new(function),
            }),
        });
        Made(NonNull::from(Box::leak(task)))
    }

    /// The number by which a worker knows the task. If the task is accepted, this is the worker's share, which [`Work::run`] or
    /// [`Work::cancel`] gives up.
    pub(super) fn number(&self) -> u64 {
        self.0.as_ptr().expose_provenance() as u64
    }

    /// The handle's share of an accepted task.
    pub(super) fn into_held(self) -> Held<T> {
        Held(self.0)
    }

    /// The function of a refused task.
    pub(super) fn into_function(self) -> F {
        // SAFETY: it is a leaked box, and no share of it was given away.
        let mut task = unsafe { Box::from_raw(self.0.as_ptr()) };
        *task.started.get_mut() = true;
        // SAFETY: the task wasn't started, so the function is there; `started` now says that it is taken.
        unsafe { ManuallyDrop::take(&mut task.body.get_mut().function) }
    }
}

impl<T, F> Task<T, F>
where
    T: Send,
    F: Function<T> + Send,
{
    // SAFETY: the header is that of a task of these types, this call has the worker's share, and it is the only such call.
    unsafe fn end(header: *const Header, fate: Fate, worker: &mut dyn Worker) {
        let task = header.cast::<Task<T, F>>().cast_mut();
        // SAFETY: the task exists until the worker leaves, below. Only one call starts it, so the function is there, and nobody else
        // accesses it.
        let (function, state) = unsafe {
            *(*task).started.get() = true;
            let function = ManuallyDrop::take(&mut (*(*task).body.get()).function);
            (function, &(*task).state)
        };
        let answer = match fate {
            Fate::Called => {
                catch_unwind(AssertUnwindSafe(|| function.run())).map_err(JobError::panicked)
            }
            Fate::Dropped => {
                drop_quietly(function);
                Err(JobError::Cancelled)
            }
        };
        // If the handle is gone, nobody wants the answer.
        let asked = state.load(Ordering::Relaxed) & HANDLE_LEFT == 0;
        let mut out = HandOut {
            state: asked.then_some(state),
            before: HANDLE_LEFT,
        };
        if asked {
            // SAFETY: the task isn't answered yet, so the body is this call's.
            unsafe { (*(*task).body.get()).answer = ManuallyDrop::new(answer) };
        } else {
            drop_quietly(answer);
        }
        worker.end(&mut out);
        out.hand_out();
        let mut before = out.before;
        if before & AWAITED != 0 {
            // SAFETY: the task was awaited when it was answered, so the waiter is this call's, and the worker leaves only after this.
            let waiter = unsafe {
                let waiter = (*(*task).waiter.get()).take();
                before = (*task).state.fetch_or(WORKER_LEFT, Ordering::AcqRel);
                waiter
            };
            if let Some(Waiter::Task(_)) = waiter {
                worker.tell();
            }
            waiter.into_iter().for_each(Waiter::wake);
        }
        // The handle may have left meanwhile, and left the answer here, or an earlier waker.
        if before & HANDLE_LEFT != 0 {
            if asked {
                worker.before_drop();
            }
            // Everything that the handle did comes before this.
            atomic::fence(Ordering::Acquire);
            // SAFETY: it is a leaked box, and the handle had left it when the worker did.
            drop_quietly(unsafe { Box::from_raw(task) });
        }
    }
}

impl<T, F> Drop for Task<T, F> {
    fn drop(&mut self) {
        let state = *self.state.get_mut();
        let (started, given) = (*self.started.get_mut(), *self.given.get_mut());
        let body = self.body.get_mut();
        if !started {
            // SAFETY: the function wasn't taken.
            unsafe { ManuallyDrop::drop(&mut body.function) };
        } else if state & ANSWERED != 0 && !given {
            // SAFETY: the answer is there, and wasn't taken.
            unsafe { ManuallyDrop::drop(&mut body.answer) };
        }
    }
}

/// A worker's share of a task, of any types.
pub(super) struct Work(*const Header);

// SAFETY: a task consists of a function and an answer that may move to another thread.
unsafe impl Send for Work {}

impl Work {
    /// Makes the share of a task from its number.
    ///
    /// # Safety
    ///
    /// The number must be that of a task with a share that no other `Work` has.
    #[allow(
        clippy::cast_possible_truncation,
        reason = "the number was made of an address"
    )]
    pub(super) unsafe fn of(number: u64) -> Work {
        Work(ptr::with_exposed_provenance(number as usize))
    }

    /// Calls the function, makes the worker end the job, and wakes a sleeping handle. This doesn't panic, whatever the function does.
    pub(super) fn run(self, worker: &mut dyn Worker) {
        self.end(Fate::Called, worker);
    }

    /// Drops the function, with the answer [`JobError::Cancelled`], and otherwise does what `run` does.
    pub(super) fn cancel(self, worker: &mut dyn Worker) {
        self.end(Fate::Dropped, worker);
    }

    fn end(self, fate: Fate, worker: &mut dyn Worker) {
        // SAFETY: it is the only share of a task, given up by this call, so the header is there and is that of the task's types.
        unsafe { ((*self.0).end)(self.0, fate, worker) }
    }
}

/// What a handle does with a task.
pub(super) trait Answer<T>: Send + Sync {
    /// Returns the answer once it is there, or `None` if it isn't there by the deadline. While it waits, it ends sleeps at this door.
    ///
    /// # Safety
    ///
    /// Only one thread at a time may call it, and none once it has returned the answer.
    unsafe fn wait(&self, door: &Door, deadline: Option<Instant>) -> Option<Result<T, JobError>>;

    /// Returns the answer if it is there. Otherwise `waker` is woken once it is.
    ///
    /// # Safety
    ///
    /// As for `wait`.
    unsafe fn poll(&self, waker: &Waker) -> Poll<Result<T, JobError>>;

    /// The state of the task.
    fn state(&self) -> &AtomicU8;

    /// Whether the answer was given.
    fn is_given(&self) -> bool;

    /// Whether the answer is there.
    fn is_there(&self) -> bool;
}

impl<T: Send, F: Send> Answer<T> for Task<T, F> {
    unsafe fn wait(&self, door: &Door, deadline: Option<Instant>) -> Option<Result<T, JobError>> {
        // SAFETY: required of the caller.
        if !self.is_there() && !unsafe { self.sleep(door, deadline) } {
            return None;
        }
        // SAFETY: the task is answered, and the answer hasn't been given.
        Some(unsafe { self.give() })
    }

    unsafe fn poll(&self, waker: &Waker) -> Poll<Result<T, JobError>> {
        // SAFETY: required of the caller.
        if self.is_there() || unsafe { self.is_answered_or_wakes(Waiter::Task(waker.clone())) } {
            // SAFETY: the task is answered, and the answer hasn't been given.
            return Poll::Ready(unsafe { self.give() });
        }
        Poll::Pending
    }

    fn state(&self) -> &AtomicU8 {
        &self.state
    }

    fn is_given(&self) -> bool {
        self.given.load(Ordering::Relaxed)
    }

    fn is_there(&self) -> bool {
        self.state.load(Ordering::Acquire) & ANSWERED != 0
    }
}

impl<T: Send, F: Send> Task<T, F> {
    // Gives the answer to the handle.
    //
    // SAFETY: the answer must be there, and not given yet.
    unsafe fn give(&self) -> Result<T, JobError> {
        self.given.store(true, Ordering::Relaxed);
        // SAFETY: the task is answered, so the body is the handle's, and the answer hasn't been taken.
        unsafe { ManuallyDrop::take(&mut (*self.body.get()).answer) }
    }

    // Returns whether the answer is there. If not, this waiter is woken once it is, instead of an earlier one.
    //
    // SAFETY: only one thread at a time may call it.
    unsafe fn is_answered_or_wakes(&self, waiter: Waiter) -> bool {
        // From here on the waiter is the handle's again, unless there is an answer.
        if self.state.load(Ordering::Relaxed) & AWAITED != 0
            && self.state.fetch_and(!AWAITED, Ordering::AcqRel) & ANSWERED != 0
        {
            return true;
        }
        // SAFETY: the task isn't awaited, so the waiter is the handle's.
        unsafe { *self.waiter.get() = Some(waiter) };
        self.state.fetch_or(AWAITED, Ordering::AcqRel) & ANSWERED != 0
    }

    // Sleeps until there is an answer or the deadline is over, and returns whether there is one.
    //
    // SAFETY: only one thread at a time may call it.
    unsafe fn sleep(&self, door: &Door, deadline: Option<Instant>) -> bool {
        let looks = || {
            door.call_in();
            self.is_there()
        };
        if patience::looks(deadline, looks) {
            return true;
        }
        // SAFETY: required of the caller.
        if unsafe { self.is_answered_or_wakes(Waiter::Thread(thread::current())) } {
            return true;
        }
        while !self.is_there() {
            let left = deadline.map(|end| end.saturating_duration_since(Instant::now()));
            match left {
                None => thread::park(),
                // From here on the waiter is the handle's again, unless there is an answer.
                Some(left) if left.is_zero() => {
                    return self.state.fetch_and(!AWAITED, Ordering::AcqRel) & ANSWERED != 0;
                }
                Some(left) => thread::park_timeout(left),
            }
        }
        true
    }
}

/// A handle's share of a task.
pub(super) struct Held<T>(NonNull<dyn Answer<T>>);

// SAFETY: it is a reference to an `Answer`, which is `Sync`, and at most it frees it, which is `Send`.
unsafe impl<T> Send for Held<T> {}
// SAFETY: as for `Send`.
unsafe impl<T> Sync for Held<T> {}

impl<T> Held<T> {
    pub(super) fn task(&self) -> &dyn Answer<T> {
        // SAFETY: the task exists until the handle leaves, in its drop.
        unsafe { self.0.as_ref() }
    }
}

impl<T> Drop for Held<T> {
    fn drop(&mut self) {
        let state: *const AtomicU8 = self.task().state();
        // SAFETY: the task exists until the last of these two operations, in which the handle leaves. After that nothing of it is
        // borrowed.
        let is_last = unsafe {
            (*state).load(Ordering::Acquire) & WORKER_LEFT != 0
                || (*state).fetch_or(HANDLE_LEFT, Ordering::AcqRel) & WORKER_LEFT != 0
        };
        if is_last {
            // SAFETY: it is a leaked box, and the worker had left it when the handle did.
            drop(unsafe { Box::from_raw(self.0.as_ptr()) });
        }
    }
}
