//! Pieces of the crate that need little of the rest, compiled from their files. From outside they show only in memory and in times, which
//! say nothing on a busy machine; here their steps are counted.
#[path = "../src/thread_pool/door.rs"]
#[allow(dead_code, reason = "a pool has two of them")]
mod door;
#[path = "../src/thread_pool/patience.rs"]
mod patience;
#[path = "../src/bulkhead/tickets.rs"]
#[allow(dead_code, reason = "not all of it is needed here")]
mod tickets;

use door::Door;
use patience::looks;
use std::alloc::{GlobalAlloc, Layout, System};
use std::cell::Cell;
use std::sync::Mutex;
use std::sync::atomic::{AtomicU32, Ordering};
use std::thread;
use std::time::{Duration, Instant};
use tickets::Tickets;

/// The system's memory. It counts the bytes that each thread holds.
struct Counted;

thread_local! {
    static BYTES: Cell<usize> = const { Cell::new(0) };
}

// SAFETY: each call is the system's.
unsafe impl GlobalAlloc for Counted {
    unsafe fn alloc(&self, layout: Layout) -> *mut u8 {
        BYTES.set(BYTES.get().wrapping_add(layout.size()));
        // SAFETY: required of the caller.
        unsafe { System.alloc(layout) }
    }

    unsafe fn dealloc(&self, at: *mut u8, layout: Layout) {
        BYTES.set(BYTES.get().wrapping_sub(layout.size()));
        // SAFETY: required of the caller.
        unsafe { System.dealloc(at, layout) }
    }
}

#[global_allocator]
static MEMORY: Counted = Counted;

// The door takes its own lock each time that a thread is about to sleep there.
mod lock {
    use super::{AtomicU32, Mutex, Ordering};
    use std::sync::{MutexGuard, PoisonError};

    pub static TAKEN: AtomicU32 = AtomicU32::new(0);

    pub fn locked<T>(mutex: &Mutex<T>) -> MutexGuard<'_, T> {
        TAKEN.fetch_add(1, Ordering::SeqCst);
        mutex.lock().unwrap_or_else(PoisonError::into_inner)
    }
}

// Callers that give up leave gaps in the middle of a queue. These go while the queue is still in use.
#[test]
fn gaps_of_a_queue_are_closed_while_others_wait() {
    let mut queue = Tickets::default();
    queue.push(0, [0_u64; 8]);
    let before = BYTES.get();
    for ticket in 1..10_000 {
        queue.push(ticket, [ticket; 8]);
        assert_eq!(queue.remove(ticket), Some([ticket; 8]));
    }
    let more = BYTES.get().saturating_sub(before);
    assert!(more < 20_000, "{more} bytes for one that waits");
    assert_eq!(queue.pop_first(), Some((0, [0; 8])));
}

// How long a thread spins without finding anything is bounded: by a few microseconds, enough for only a few checks.
#[test]
fn a_thread_that_finds_nothing_looks_a_few_times() {
    let count = Cell::new(0);
    let never = || {
        count.set(count.get() + 1);
        false
    };
    assert!((0..100).all(|_| !looks(None, never)));
    assert!(count.get() < 100 * 200, "{} looks", count.get());
    // After the deadline it checks once.
    count.set(0);
    let passed = Some(Instant::now());
    assert!((0..1_000).all(|_| !looks(passed, never)));
    assert_eq!(count.get(), 1_000);
}

// How long a thread at the door takes, from when the lock is free and it has begun its last and longest sleep.
fn time_at(door: &Door, is_called: bool) -> Duration {
    const SLEEPS: u32 = 5;
    let mutex = Mutex::new(());
    let guard = door.lock(&mutex);
    lock::TAKEN.store(0, Ordering::SeqCst);
    thread::scope(|scope| {
        let waits = scope.spawn(|| {
            let _guard = door.lock(&mutex);
            Instant::now()
        });
        while lock::TAKEN.load(Ordering::SeqCst) < SLEEPS {
            thread::sleep(Duration::from_micros(10));
        }
        let free = Instant::now();
        drop(guard);
        if is_called {
            door.call_in();
        }
        let had = waits.join().expect("it doesn't panic");
        had.duration_since(free)
    })
}

// A sleep that nobody ends takes 1.6 ms, and one that is ended some tens of microseconds. A busy machine makes both longer.
#[test]
fn a_call_at_a_door_ends_a_sleep() {
    let door = Door::of_submitters();
    let middle = |is_called| {
        let mut times: Vec<_> = (0..21).map(|_| time_at(&door, is_called)).collect();
        times.sort_unstable();
        times[10]
    };
    let is_shorter = |_| 5 * middle(true) < middle(false);
    assert!((0..10).any(is_shorter));
}
