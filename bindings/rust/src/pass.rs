//! Permits for your own threads: each has a [`Pass`], and no lock is needed.
//!
//! ```
//! use resil::pass::Pass;
//!
//! let mut first = Pass::new(1)?;
//! let mut second = first.split()?;
//! std::thread::scope(|scope| {
//!     scope.spawn(move || second.call(|| 42));
//! });
//! assert_eq!(first.available(), 1);
//! # Ok::<(), resil::BulkheadError>(())
//! ```
use crate::bulkhead::{BulkheadError, NoPermit};
use crate::library::{
    Handle, resil_permit_available, resil_permit_free, resil_permit_leave, resil_permit_new,
    resil_permit_raise, resil_permit_retire, resil_permit_retired, resil_permit_split,
    resil_permit_try_once,
};
use std::fmt;

const MADE: u8 = 0;
const MEMORY: u8 = 1;
const TAKEN: u8 = 0;
const FULL: u8 = 1;

fn made(answer: u8, out: Handle) -> Result<Pass, BulkheadError> {
    match answer {
        MADE => Ok(Pass { handle: out }),
        MEMORY => Err(BulkheadError::Memory),
        _ => Err(BulkheadError::TooManyPermits),
    }
}

/// Takes permits and gives them back, for one thread and without a lock.
///
/// A [`Bulkhead`](crate::Bulkhead) keeps passes for its callers and locks them; a thread with its own pass needs no lock. Dropping a pass
/// raises everything that it has retired and gives back everything that it holds.
pub struct Pass {
    handle: Handle,
}

// SAFETY: `Send` is proved for the library's handle, and a pass's calls can only be reached through `&mut`.
unsafe impl Send for Pass {}

impl Pass {
    /// Makes `max` permits, all free, and their first pass.
    ///
    /// # Errors
    ///
    /// `TooManyPermits` if `max` is above 65,535; `Memory` if out of memory.
    pub fn new(max: u32) -> Result<Pass, BulkheadError> {
        let mut out = Handle::EMPTY;
        // SAFETY: `out` is empty, and only this call has it.
        let answer = unsafe { resil_permit_new(max, &raw mut out) };
        made(answer, out)
    }

    /// Makes a second pass of the same permits, for another thread. It holds none.
    ///
    /// # Errors
    ///
    /// `Memory` if out of memory.
    pub fn split(&mut self) -> Result<Pass, BulkheadError> {
        let mut out = Handle::EMPTY;
        // SAFETY: the handle was filled by `new` or `split` and only this call uses it; `out` is empty.
        let answer = unsafe { resil_permit_split(self.handle, &raw mut self.handle, &raw mut out) };
        made(answer, out)
    }

    /// Takes a permit and returns it. Dropping it gives it back.
    ///
    /// # Errors
    ///
    /// `Full` if all permits in use are held.
    pub fn enter(&mut self) -> Result<PassPermit<'_>, NoPermit> {
        self.acquire()?;
        Ok(PassPermit { pass: self })
    }

    /// Calls the function under a permit, which is given back when the call returns or panics.
    ///
    /// # Errors
    ///
    /// `Full` if all permits in use are held. The function wasn't called.
    pub fn call<T>(&mut self, function: impl FnOnce() -> T) -> Result<T, NoPermit> {
        let _permit = self.enter()?;
        Ok(function())
    }

    /// Takes a permit and retires it: the pass keeps it, and one permit fewer is in use until this pass raises it again.
    ///
    /// # Errors
    ///
    /// `Full` if all permits in use are held.
    pub fn retire(&mut self) -> Result<(), NoPermit> {
        self.acquire()?;
        let had = self.keep_back();
        debug_assert!(had);
        Ok(())
    }

    /// Raises a permit that the pass has retired, which makes it free, and returns whether there was one.
    pub fn raise(&mut self) -> bool {
        // SAFETY: as in `split`.
        unsafe { resil_permit_raise(self.handle, &raw mut self.handle) == 0 }
    }

    /// The number of permits that the pass has retired and not raised again.
    pub fn retired(&mut self) -> u32 {
        // SAFETY: as in `split`.
        unsafe { resil_permit_retired(self.handle, &raw mut self.handle) }
    }

    /// The number of free permits at this moment: those in use that nobody holds.
    pub fn available(&mut self) -> u32 {
        // SAFETY: as in `split`.
        unsafe { resil_permit_available(self.handle, &raw mut self.handle) }
    }

    // Takes a permit, trying again while other threads interfere.
    #[inline]
    pub(crate) fn acquire(&mut self) -> Result<(), NoPermit> {
        loop {
            // SAFETY: as in `split`.
            match unsafe { resil_permit_try_once(self.handle, &raw mut self.handle) } {
                TAKEN => return Ok(()),
                FULL => return Err(NoPermit::Full),
                _ => std::hint::spin_loop(),
            }
        }
    }

    // Retires a permit that the pass holds, and returns whether there was one.
    pub(crate) fn keep_back(&mut self) -> bool {
        // SAFETY: as in `split`.
        unsafe { resil_permit_retire(self.handle, &raw mut self.handle) == 0 }
    }

    // Gives a permit back, and returns whether the pass held one.
    #[inline]
    pub(crate) fn release(&mut self) -> bool {
        // SAFETY: as in `split`.
        unsafe { resil_permit_leave(self.handle, &raw mut self.handle) == 0 }
    }
}

impl Drop for Pass {
    fn drop(&mut self) {
        while self.raise() {}
        while self.release() {}
        // SAFETY: the handle was filled by `new` or `split`, and is freed once.
        unsafe { resil_permit_free(self.handle) }
    }
}

impl fmt::Debug for Pass {
    fn fmt(&self, f: &mut fmt::Formatter<'_>) -> fmt::Result {
        f.debug_struct("Pass").finish_non_exhaustive()
    }
}

/// A permit of a [`Pass`], given back when it is dropped.
#[derive(Debug)]
#[must_use = "a permit that is dropped is given back at once"]
pub struct PassPermit<'a> {
    pass: &'a mut Pass,
}

impl Drop for PassPermit<'_> {
    fn drop(&mut self) {
        let given = self.pass.release();
        debug_assert!(given);
    }
}
