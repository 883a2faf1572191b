//! Locks for a copy of the crate that ThreadSanitizer watches. It can't see into std, so each lock reports to it that each owner comes
//! after all earlier owners.
pub(crate) use std::sync::{Arc, OnceLock, PoisonError, TryLockError};

use std::env;
use std::ops::{Deref, DerefMut};
use std::ptr;
use std::sync::atomic::Ordering;
use std::sync::{self, LockResult, TryLockResult};
use std::time::Duration;

unsafe extern "C" {
    safe fn __tsan_acquire(lock: *const ());
    safe fn __tsan_release(lock: *const ());
}

/// Returns this ordering, or the weakest one if `WEAKENED` names the place: ThreadSanitizer must find that.
pub(crate) fn ordering(place: &str, own: Ordering) -> Ordering {
    if env::var_os("WEAKENED").is_some_and(|name| name == place) { Ordering::Relaxed } else { own }
}

#[derive(Default)]
pub(crate) struct Mutex<T>(sync::Mutex<T>);

impl<T> Mutex<T> {
    pub(crate) const fn new(value: T) -> Mutex<T> {
        Mutex(sync::Mutex::new(value))
    }

    pub(crate) fn lock(&self) -> LockResult<MutexGuard<'_, T>> {
        let inner = self.0.lock().unwrap_or_else(PoisonError::into_inner);
        Ok(MutexGuard::new(ptr::from_ref(self).cast(), inner))
    }

    pub(crate) fn try_lock(&self) -> TryLockResult<MutexGuard<'_, T>> {
        let inner = self.0.try_lock().map_err(|_| TryLockError::WouldBlock)?;
        Ok(MutexGuard::new(ptr::from_ref(self).cast(), inner))
    }

    pub(crate) fn into_inner(self) -> LockResult<T> {
        self.0.into_inner()
    }
}

pub(crate) struct MutexGuard<'a, T> {
    lock: *const (),
    // None after it has given up the lock.
    inner: Option<sync::MutexGuard<'a, T>>,
}

impl<'a, T> MutexGuard<'a, T> {
    fn new(lock: *const (), inner: sync::MutexGuard<'a, T>) -> MutexGuard<'a, T> {
        __tsan_acquire(lock);
        MutexGuard { lock, inner: Some(inner) }
    }

    fn give_up(&mut self) -> Option<sync::MutexGuard<'a, T>> {
        __tsan_release(self.lock);
        self.inner.take()
    }
}

impl<T> Drop for MutexGuard<'_, T> {
    fn drop(&mut self) {
        drop(self.give_up());
    }
}

impl<T> Deref for MutexGuard<'_, T> {
    type Target = T;
    fn deref(&self) -> &T {
        self.inner.as_ref().expect("it has the lock")
    }
}

impl<T> DerefMut for MutexGuard<'_, T> {
    fn deref_mut(&mut self) -> &mut T {
        self.inner.as_mut().expect("it has the lock")
    }
}

pub(crate) struct Condvar(sync::Condvar);

impl Condvar {
    pub(crate) const fn new() -> Condvar {
        Condvar(sync::Condvar::new())
    }

    pub(crate) fn wait<'a, T>(&self, guard: MutexGuard<'a, T>) -> LockResult<MutexGuard<'a, T>> {
        let (guard, _is_over) = self.wait_timeout(guard, Duration::MAX).unwrap_or_else(PoisonError::into_inner);
        Ok(guard)
    }

    pub(crate) fn wait_timeout<'a, T>(&self, mut guard: MutexGuard<'a, T>, limit: Duration) -> LockResult<(MutexGuard<'a, T>, bool)> {
        let inner = guard.give_up().expect("it has the lock");
        let (inner, end) = self.0.wait_timeout(inner, limit).unwrap_or_else(PoisonError::into_inner);
        Ok((MutexGuard::new(guard.lock, inner), end.timed_out()))
    }

    pub(crate) fn notify_one(&self) {
        self.0.notify_one();
    }

    pub(crate) fn notify_all(&self) {
        self.0.notify_all();
    }
}
