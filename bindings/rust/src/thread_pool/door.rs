//! A pool's doors, where threads wait if its lock is taken: one for submitters, one for workers that have run a job.
//!
//! The lock is held for short turns, by threads that soon come back. A thread that finds it taken pauses, twice as long after each try,
//! and then sleeps. Releasing the lock wakes nobody: a wake-up takes as long as many turns, and each time the guarded data would move to
//! another processor's cache. So the lock is left to threads that are awake. A worker goes to sleep sooner than a submitter, which brings
//! more jobs. A recorded pool's worker has an answer in hand at its door, and any other worker may run the next job. So a caller that
//! waits for an answer ends the workers' sleeps, and a worker that finds nothing to do ends all sleeps. No sleep depends on this: each
//! ends on its own and is twice as long as the one before, and after the last one the thread waits in the mutex's own queue, where a
//! release wakes the next.
use crate::lock::locked;
use std::hint;
use std::sync::atomic::{AtomicBool, AtomicUsize, Ordering};
use std::sync::{Condvar, Mutex, MutexGuard, TryLockError};
use std::time::Duration;

/// How often a submitter and a worker pause: first for one hint to the processor, then each time twice as long.
const PAUSES_OF_SUBMITTERS: u32 = 7;
const PAUSES_OF_WORKERS: u32 = 2;

/// The length of the first sleep, and the number of sleeps.
const FIRST_SLEEP: Duration = Duration::from_micros(100);
const SLEEPS: u32 = 5;

/// A place where threads wait for a lock.
pub(super) struct Door {
    pauses: u32,
    // Whether a thread sleeps here, or did when this was set.
    is_slept_at: AtomicBool,
    // A thread that is about to sleep holds it from when it sets `is_slept_at` until it sleeps, so that no call comes in between.
    threshold: Mutex<()>,
    bell: Condvar,
}

// A handle may call at the door of a pool that no longer exists. So workers' doors live for ever, and pools share them if there are more
// pools than doors. A call then also ends sleeps of another pool, at worst too early.
static OF_WORKERS: [Door; 16] = [const { Door::new(PAUSES_OF_WORKERS) }; 16];
static POOLS: AtomicUsize = AtomicUsize::new(0);

impl Door {
    const fn new(pauses: u32) -> Door {
        Door {
            pauses,
            is_slept_at: AtomicBool::new(false),
            threshold: Mutex::new(()),
            bell: Condvar::new(),
        }
    }

    /// A door for a pool's submitters.
    pub(super) const fn of_submitters() -> Door {
        Door::new(PAUSES_OF_SUBMITTERS)
    }

    /// A door for the next pool's workers.
    pub(super) fn of_workers() -> &'static Door {
        &OF_WORKERS[POOLS.fetch_add(1, Ordering::Relaxed) % OF_WORKERS.len()]
    }

    /// Takes the lock.
    pub(super) fn lock<'a, T>(&self, mutex: &'a Mutex<T>) -> MutexGuard<'a, T> {
        try_lock(mutex).unwrap_or_else(|| self.wait(mutex))
    }

    #[cold]
    fn wait<'a, T>(&self, mutex: &'a Mutex<T>) -> MutexGuard<'a, T> {
        for tries in 0..self.pauses + SLEEPS {
            match tries.checked_sub(self.pauses) {
                None => (0..1_u32 << tries).for_each(|_| hint::spin_loop()),
                Some(sleeps) => self.sleep(FIRST_SLEEP * (1 << sleeps)),
            }
            if let Some(guard) = try_lock(mutex) {
                return guard;
            }
        }
        locked(mutex)
    }

    fn sleep(&self, longest: Duration) {
        let threshold = locked(&self.threshold);
        self.is_slept_at.store(true, Ordering::Relaxed);
        let woken = self.bell.wait_timeout(threshold, longest);
        drop(woken);
    }

    /// Ends the sleeps, if there are any.
    pub(super) fn call_in(&self) {
        if self.is_slept_at.load(Ordering::Relaxed) {
            self.is_slept_at.store(false, Ordering::Relaxed);
            drop(locked(&self.threshold));
            self.bell.notify_all();
        }
    }
}

pub(super) fn try_lock<T>(mutex: &Mutex<T>) -> Option<MutexGuard<'_, T>> {
    match mutex.try_lock() {
        Ok(guard) => Some(guard),
        Err(TryLockError::Poisoned(error)) => Some(error.into_inner()),
        Err(TryLockError::WouldBlock) => None,
    }
}
