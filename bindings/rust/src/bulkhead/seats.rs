//! A bulkhead's passes, and which of them takes a permit.
//!
//! The library's passes serve one call at a time. Each thread with a low number has the seat of that number, and uses its pass without a
//! lock for as long as its permit is held. If the seat is taken (by a call inside a call, or by a permit that went elsewhere), or if the
//! thread has none, a pass with a lock serves instead, for a single operation on the permits.
//!
//! An observed bulkhead keeps its seats separately, so that one that isn't observed needn't check.
use super::error::{BulkheadError, NoPermit};
use super::runs::{Run, Runs};
use crate::lock::locked;
use crate::pass::Pass;
use crate::thread_number::{self, MOST_PLACES, PLACES};
use std::cell::UnsafeCell;
use std::panic::RefUnwindSafe;
use std::sync::atomic::{AtomicBool, Ordering};
use std::sync::{Mutex, MutexGuard};
use std::time::Duration;

// On its own cache lines, since each operation writes to it.
#[repr(align(128))]
struct Seat {
    taken: AtomicBool,
    pass: UnsafeCell<Pass>,
}

// SAFETY: a pass may move to another thread, and only one thread at a time accesses that of a seat. No two live threads have the same
// number, so only one sets `taken` from false to true, and then it accesses the pass. After that, the thread that gives the permit back
// does, and then sets `taken` to false; the seat's thread sees this before it sets it again. The next thread with a number comes after
// everything that the last one did, by the lock of the numbers.
unsafe impl Sync for Seat {}

// A call that panics gives its permit back like any other.
impl RefUnwindSafe for Seat {}

impl Seat {
    fn new(first: &mut Pass) -> Result<Seat, BulkheadError> {
        Ok(Seat {
            taken: AtomicBool::new(false),
            pass: UnsafeCell::new(first.split()?),
        })
    }

    // Takes this thread's seat, and returns whether it was free.
    #[inline]
    fn take(&self) -> bool {
        let free = !self.taken.load(Ordering::Acquire);
        if free {
            self.taken.store(true, Ordering::Relaxed);
        }
        free
    }

    // Takes a permit.
    //
    // SAFETY: this thread has taken the seat.
    #[inline]
    unsafe fn acquire(&self) -> Result<(), NoPermit> {
        // SAFETY: required of the caller.
        match unsafe { (*self.pass.get()).acquire() } {
            Ok(()) => Ok(()),
            Err(full) => {
                self.taken.store(false, Ordering::Release);
                Err(full)
            }
        }
    }

    // Applies this function to the permit that is held here, and frees the seat.
    //
    // SAFETY: the seat was taken for a permit, which is given up by this call.
    #[inline]
    unsafe fn give_up(&self, permit: impl FnOnce(&mut Pass) -> bool) -> bool {
        // SAFETY: required of the caller.
        let had = permit(unsafe { &mut *self.pass.get() });
        self.taken.store(false, Ordering::Release);
        had
    }
}

/// The place where a permit is held.
#[derive(Debug, Clone, Copy, PartialEq, Eq)]
pub(super) enum Place {
    Seat(usize),
    Elsewhere(Stamp),
}

impl Place {
    /// The same place, with this time if it has room for one and times are wanted.
    pub(super) fn at(self, now: Option<u64>) -> Place {
        match (self, now) {
            (Place::Elsewhere(stamp), Some(now)) => Place::Elsewhere(stamp.at(now)),
            _ => self,
        }
    }

    /// How long before this time the permit was taken; zero if that isn't known.
    pub(super) fn until(self, now: u64) -> Duration {
        match self {
            Place::Elsewhere(stamp) => stamp.until(now),
            Place::Seat(_) => Duration::ZERO,
        }
    }
}

/// A seat of an observed bulkhead, or a spare pass (numbered after the seats). In an observed bulkhead, also when the permit was taken.
#[derive(Debug, Clone, Copy, PartialEq, Eq)]
pub(super) struct Stamp(u64);

impl Stamp {
    const PLACE_BITS: u32 = 8;

    fn new(place: usize) -> Stamp {
        Stamp(place as u64)
    }

    fn place(self) -> usize {
        (self.0 & ((1 << Stamp::PLACE_BITS) - 1)) as usize
    }

    /// The same place, with a time in nanoseconds since the bulkhead was made. It keeps 56 bits of it: two years.
    pub(super) fn at(self, time: u64) -> Stamp {
        Stamp((time << Stamp::PLACE_BITS) | self.place() as u64)
    }

    /// How long before `time` the stamp's time was.
    pub(super) fn until(self, time: u64) -> Duration {
        let begun = self.0 - self.place() as u64;
        let passed = (time << Stamp::PLACE_BITS).wrapping_sub(begun);
        Duration::from_nanos(passed >> Stamp::PLACE_BITS)
    }
}

// On its own cache line.
#[repr(align(64))]
struct Spare(Mutex<Pass>);

pub(super) struct Seats {
    // Empty in an observed bulkhead, which has the others.
    plain: Box<[Seat]>,
    observed: Box<[Seat]>,
    spare: Box<[Spare]>,
}

// Makes this many, each with a pass. Only the allocation can fail here.
fn made<T>(
    count: usize,
    mut make: impl FnMut() -> Result<T, BulkheadError>,
) -> Result<Box<[T]>, BulkheadError> {
    let mut all = Vec::new();
    let reserved = all.try_reserve_exact(count);
    reserved.map_err(|_| BulkheadError::Memory)?;
    for _ in 0..count {
        all.push(make()?);
    }
    Ok(all.into_boxed_slice())
}

impl Seats {
    /// Makes seats and spare passes for these permits.
    pub(super) fn new(first: &mut Pass) -> Result<Seats, BulkheadError> {
        let count = thread_number::places();
        let seats = made(count, || Seat::new(first))?;
        let spare = made(count / PLACES, || first.split().map(Mutex::new).map(Spare))?;
        Ok(Seats {
            plain: seats,
            observed: Box::default(),
            spare,
        })
    }

    /// The same seats for an observed bulkhead.
    pub(super) fn observed(self) -> Seats {
        Seats {
            observed: self.plain,
            plain: Box::default(),
            spare: self.spare,
        }
    }

    /// Takes a permit, and returns where it is held.
    #[inline]
    pub(super) fn acquire(&self) -> Result<Place, NoPermit> {
        self.acquire_or(|number| self.acquire_elsewhere(number))
    }

    /// Like `acquire`, but calls this function with the thread's number if the bulkhead is observed, or if the thread's seat is taken or
    /// missing.
    #[inline]
    pub(super) fn acquire_or(
        &self,
        elsewhere: impl FnOnce(usize) -> Result<Place, NoPermit>,
    ) -> Result<Place, NoPermit> {
        let number = thread_number::current();
        match self.plain.get(number) {
            Some(seat) if seat.take() => {
                // SAFETY: this thread has taken the seat.
                unsafe { seat.acquire() }?;
                Ok(Place::Seat(number))
            }
            _ => elsewhere(number),
        }
    }

    #[cold]
    fn acquire_elsewhere(&self, number: usize) -> Result<Place, NoPermit> {
        self.acquire_observed(number)
    }

    /// Takes a permit through a seat of an observed bulkhead, or else a spare pass.
    #[inline]
    pub(super) fn acquire_observed(&self, number: usize) -> Result<Place, NoPermit> {
        match self.observed.get(number) {
            Some(seat) if seat.take() => {
                // SAFETY: this thread has taken the seat.
                unsafe { seat.acquire() }?;
                Ok(Place::Elsewhere(Stamp::new(number)))
            }
            _ => self.acquire_spare(number),
        }
    }

    /// Takes a permit through a spare pass.
    #[inline]
    pub(super) fn acquire_spare(&self, number: usize) -> Result<Place, NoPermit> {
        let index = number % self.spare.len();
        self.spare(index).acquire()?;
        Ok(Place::Elsewhere(Stamp::new(MOST_PLACES + index)))
    }

    /// Takes up to `most` permits, while there are any, through a spare pass under its lock. None if there isn't even one.
    pub(super) fn acquire_run(&self, most: u32) -> Option<Run> {
        let index = thread_number::current() % self.spare.len();
        let mut pass = self.spare(index);
        let count = (0..most).take_while(|_| pass.acquire().is_ok()).count();
        let count = u32::try_from(count).ok().filter(|count| *count > 0)?;
        let place = Place::Elsewhere(Stamp::new(MOST_PLACES + index));
        Some(Run { place, count })
    }

    /// Gives back the permits of a run under one lock.
    pub(super) fn release_run(&self, run: Run) {
        let stamp = match run.place {
            Place::Elsewhere(stamp) => stamp.place().checked_sub(MOST_PLACES),
            Place::Seat(_) => None,
        };
        let Some(index) = stamp else {
            // A seat holds one.
            return self.release(run.place);
        };
        let mut pass = self.spare(index);
        for _ in 0..run.count {
            let given = pass.release();
            debug_assert!(given);
        }
    }

    /// Gives a permit back. It must have been acquired, and is given back only once.
    #[inline]
    pub(super) fn release(&self, place: Place) {
        let given = self.give_up(place, Pass::release);
        debug_assert!(given);
    }

    /// Keeps a permit for good. It must have been acquired, and is never given back.
    pub(super) fn forget(&self, place: Place) {
        let had = self.give_up(place, Pass::keep_back);
        debug_assert!(had);
    }

    /// Keeps permits for good.
    pub(super) fn forget_all(&self, runs: &Runs) {
        for run in runs.iter() {
            (0..run.count).for_each(|_| self.forget(run.place));
        }
    }

    #[inline]
    fn give_up(&self, place: Place, permit: impl FnOnce(&mut Pass) -> bool) -> bool {
        match place {
            // SAFETY: the seat was taken for this permit, which is given up once.
            Place::Seat(index) => unsafe { self.plain[index].give_up(permit) },
            Place::Elsewhere(stamp) => match stamp.place().checked_sub(MOST_PLACES) {
                // SAFETY: as above.
                None => unsafe { self.observed[stamp.place()].give_up(permit) },
                Some(index) => permit(&mut self.spare(index)),
            },
        }
    }

    fn spare(&self, index: usize) -> MutexGuard<'_, Pass> {
        locked(&self.spare[index].0)
    }
}
