//! A long queue of awaiting tasks: what leaving it takes, its memory, and wakers that panic. This counts all memory of the process, so
//! only the queue is tested here.
#![cfg(target_os = "linux")]

mod common;

use common::{Checked, is_idle, look, polled};
use resil::{Acquire, Bulkhead};
use std::alloc::{GlobalAlloc, Layout, System};
use std::error::Error;
use std::fs;
use std::panic::{AssertUnwindSafe, catch_unwind};
use std::sync::atomic::{AtomicU32, AtomicUsize, Ordering};
use std::sync::{Arc, Mutex, PoisonError};
use std::task::{Wake, Waker};

/// The system's memory, counted.
struct Counted(AtomicUsize);

// SAFETY: each call is the system's.
unsafe impl GlobalAlloc for Counted {
    unsafe fn alloc(&self, layout: Layout) -> *mut u8 {
        self.0.fetch_add(layout.size(), Ordering::Relaxed);
        // SAFETY: required of the caller.
        unsafe { System.alloc(layout) }
    }

    unsafe fn dealloc(&self, at: *mut u8, layout: Layout) {
        self.0.fetch_sub(layout.size(), Ordering::Relaxed);
        // SAFETY: required of the caller.
        unsafe { System.dealloc(at, layout) }
    }
}

#[global_allocator]
static MEMORY: Counted = Counted(AtomicUsize::new(0));

// One test at a time.
static ALONE: Mutex<()> = Mutex::new(());

// This many tasks in the queue of a bulkhead all of whose permits are held.
fn row_of(backend: &Arc<Bulkhead>, count: usize) -> Vec<Acquire> {
    let mut row: Vec<_> = (0..count).map(|_| backend.acquire_owned()).collect();
    assert!(row.iter_mut().all(|one| polled(one).is_none()));
    row
}

// How much processor time this thread has taken, in nanoseconds: others may have the processors too.
fn processor_time() -> Result<u64, Box<dyn Error>> {
    let told = fs::read_to_string("/proc/thread-self/schedstat")?;
    Ok(told.split(' ').next().ok_or("it tells nothing")?.parse()?)
}

// Drops all in an order unrelated to the one in which they came, and returns how long that takes.
fn drop_in_disorder(mut row: Vec<Acquire>) -> Result<u64, Box<dyn Error>> {
    let mut seed = 7_usize;
    for end in (1..row.len()).rev() {
        seed = seed.wrapping_mul(6_364_136_223_846_793_005).wrapping_add(1);
        row.swap(end, (seed >> 33) % (end + 1));
    }
    let begun = processor_time()?;
    drop(row);
    Ok(processor_time()? - begun)
}

#[test]
fn who_leaves_a_long_row_takes_no_longer() -> Checked {
    let _alone = ALONE.lock().unwrap_or_else(PoisonError::into_inner);
    let backend = Arc::new(Bulkhead::new("backend", 1)?);
    let _permit = backend.enter()?;
    let mut times = [25_000, 200_000].map(|count| (count, u64::MAX));
    for _ in 0..2 {
        for (count, quickest) in &mut times {
            *quickest = drop_in_disorder(row_of(&backend, *count))?.min(*quickest);
        }
    }
    // Eight times as many: if each searched the queue, it would be 64 times as long.
    let [(_, short), (_, long)] = times;
    assert!(long < 30 * short, "{short} and {long} ns");
    assert_eq!(backend.numbers().waiting, 0);
    Ok(())
}

// As many places in the queue as permits would take milliseconds each.
#[test]
fn who_waits_for_all_permits_comes_and_goes_as_one() -> Checked {
    let _alone = ALONE.lock().unwrap_or_else(PoisonError::into_inner);
    let backend = Arc::new(Bulkhead::new("backend", 65_535)?);
    let _permit = backend.enter()?;
    let mut quickest = u64::MAX;
    for _ in 0..5 {
        let mut all = backend.acquire_many_owned(65_535);
        let begun = processor_time()?;
        assert!(polled(&mut all).is_none());
        drop(all);
        quickest = quickest.min(processor_time()? - begun);
    }
    // Without optimization it is about 30 us.
    assert!(quickest < 1_000_000, "{quickest} ns");
    assert_eq!(backend.available(), 65_534);
    Ok(())
}

#[test]
fn the_row_gives_its_memory_back() -> Checked {
    let _alone = ALONE.lock().unwrap_or_else(PoisonError::into_inner);
    let backend = Arc::new(Bulkhead::new("backend", 1)?);
    let permit = backend.enter()?;
    let before = MEMORY.0.load(Ordering::Relaxed);
    let row = row_of(&backend, 100_000);
    assert!(MEMORY.0.load(Ordering::Relaxed) > before + 1_000_000);
    drop_in_disorder(row)?;
    let mut served = row_of(&backend, 10_000);
    drop(permit);
    assert!(served.iter_mut().all(|one| polled(one).is_some()));
    drop(served);
    let after = MEMORY.0.load(Ordering::Relaxed);
    // The test's harness takes some memory of its own.
    assert!(after < before + 200_000, "{before} and {after} bytes");
    Ok(())
}

/// Counts how often it is woken, and may panic then.
struct Counts {
    woken: AtomicU32,
    panics: bool,
}

impl Wake for Counts {
    fn wake(self: Arc<Self>) {
        self.woken.fetch_add(1, Ordering::SeqCst);
        assert!(!self.panics, "this waker panics");
    }
}

#[test]
fn a_waker_that_panics_leaves_nobody_unwoken() -> Checked {
    let _alone = ALONE.lock().unwrap_or_else(PoisonError::into_inner);
    let backend = Arc::new(Bulkhead::new("backend", 3)?);
    assert_eq!(backend.retire(3), 3);
    let wakers = [true, false, true].map(|panics| {
        let woken = AtomicU32::new(0);
        Arc::new(Counts { woken, panics })
    });
    let mut row = Vec::new();
    for waker in &wakers {
        let mut permit = backend.acquire_owned();
        assert!(look(&mut permit, &Waker::from(Arc::clone(waker))).is_none());
        row.push(permit);
    }
    let raises = AssertUnwindSafe(|| backend.raise(3));
    assert!(catch_unwind(raises).is_err());
    let woken = wakers.map(|waker| waker.woken.load(Ordering::SeqCst));
    assert_eq!(woken, [1; 3]);
    assert!(row.iter_mut().all(|one| polled(one).is_some()));
    drop(row);
    assert!(is_idle(&backend));
    Ok(())
}
