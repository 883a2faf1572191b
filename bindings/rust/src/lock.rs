//! Locks. No foreign code runs while one of this crate's locks is held, so a poisoned lock is as good as any other.
use std::sync::{Condvar, Mutex, MutexGuard, PoisonError};
use std::time::Duration;

pub(crate) fn locked<T>(mutex: &Mutex<T>) -> MutexGuard<'_, T> {
    mutex.lock().unwrap_or_else(PoisonError::into_inner)
}

/// Releases the lock and sleeps until the condition variable is notified, for at most `limit`.
pub(crate) fn sleep<'a, T>(
    bell: &Condvar,
    guard: MutexGuard<'a, T>,
    limit: Option<Duration>,
) -> MutexGuard<'a, T> {
    match limit {
        None => bell.wait(guard).unwrap_or_else(PoisonError::into_inner),
        Some(limit) => {
            let woken = bell.wait_timeout(guard, limit);
            woken.unwrap_or_else(PoisonError::into_inner).0
        }
    }
}
