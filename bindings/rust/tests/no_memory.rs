//! What is returned if there is no memory to make a bulkhead, a registry or a pool.
use resil::{Bulkhead, BulkheadError, BulkheadRegistry, PoolError, RegistryError, ThreadPool};
use std::alloc::{GlobalAlloc, Layout, System};
use std::cell::Cell;
use std::ptr;

// Smaller pieces are never refused.
const SMALL: usize = 60;

thread_local! {
    // How many larger pieces this thread still gets before one is refused; if it is zero, none is refused.
    static UNTIL_REFUSED: Cell<u32> = const { Cell::new(0) };
    // The largest piece that this thread has got.
    static LARGEST: Cell<usize> = const { Cell::new(0) };
}

/// The system's memory, which may refuse a thread a piece.
struct Refusing;

// SAFETY: each call is the system's, or reports that there is no memory.
unsafe impl GlobalAlloc for Refusing {
    unsafe fn alloc(&self, layout: Layout) -> *mut u8 {
        let left = UNTIL_REFUSED.get();
        if left > 0 && layout.size() >= SMALL {
            UNTIL_REFUSED.set(left - 1);
            if left == 1 {
                return ptr::null_mut();
            }
        }
        LARGEST.set(LARGEST.get().max(layout.size()));
        // SAFETY: required of the caller.
        unsafe { System.alloc(layout) }
    }

    unsafe fn dealloc(&self, at: *mut u8, layout: Layout) {
        // SAFETY: required of the caller.
        unsafe { System.dealloc(at, layout) }
    }
}

#[global_allocator]
static MEMORY: Refusing = Refusing;

// Makes something while this piece, counted from 1, is refused.
fn without<T>(piece: u32, called: impl FnOnce() -> T) -> T {
    UNTIL_REFUSED.set(piece);
    let made = called();
    assert_eq!(UNTIL_REFUSED.replace(0), 0, "no piece was refused");
    made
}

#[test]
fn a_bulkhead_has_seats_and_spare_passes() -> Result<(), BulkheadError> {
    // The first one asks the system for the number of processors.
    Bulkhead::new("first", 1)?;
    for piece in 1..=2 {
        let refused = without(piece, || Bulkhead::new("backend", 3).err());
        assert_eq!(refused, Some(BulkheadError::Memory));
    }
    Ok(())
}

#[test]
fn a_registry_is_as_it_was() -> Result<(), RegistryError> {
    BulkheadRegistry::new(1).bulkhead("first")?;
    let registry = BulkheadRegistry::new(3);
    // The room in the registry, which is kept once it is allocated, and then the seats.
    for piece in 1..=2 {
        let refused = without(piece, || registry.bulkhead("prices").err());
        assert_eq!(refused, Some(RegistryError::Memory));
        assert!(!format!("{registry:?}").contains("prices"));
    }
    assert_eq!(registry.bulkhead("prices")?.max(), 3);
    Ok(())
}

#[test]
fn a_pool_has_room_for_its_ring_queue_and_threads() {
    for piece in 1..=5 {
        let refused = without(piece, || ThreadPool::builder(8, 8).open().err());
        assert_eq!(refused, Some(PoolError::Memory));
    }
    assert!(ThreadPool::builder(8, 8).open().is_ok());
    // The record's memory is allocated before these.
    let refused = without(1, || ThreadPool::builder(8, 8).record(9).open().err());
    assert_eq!(refused, Some(PoolError::Memory));
}

#[test]
fn the_memory_of_a_record_is_taken_at_the_opening() -> Result<(), PoolError> {
    let builder = ThreadPool::builder(1, 1).record(100_000);
    LARGEST.set(0);
    let pool = builder.open()?;
    // 24 bytes an event.
    assert_eq!(LARGEST.replace(0), 2_400_000);
    pool.close();
    for _ in 0..100_000 {
        assert!(pool.submit(|| ()).is_err());
    }
    assert!(LARGEST.get() < 1_000, "{} bytes", LARGEST.get());
    // The closing was one of them.
    let text = pool.history().unwrap_or_default();
    assert!(text.contains("# The room was full: 1 events that came then are missing."));
    // If there is no memory for the next part, the record goes on.
    assert_eq!(without(1, || pool.history()), None);
    assert!(pool.history().is_some());
    Ok(())
}
