//! Waits for the lock at a door, and for an answer.
use super::super::door::Door;
use super::super::patience;
use std::cell::Cell;
use std::sync::Mutex;
use std::thread;
use std::time::{Duration, Instant};

// Threads that each take a lock this often while it is held for a while, and then count.
fn count_behind(door: &Door, threads: u32, times: u32, held: Duration) -> u32 {
    let count = Mutex::new(0);
    let first = door.lock(&count);
    thread::scope(|scope| {
        for _ in 0..threads {
            scope.spawn(|| (0..times).for_each(|_| *door.lock(&count) += 1));
        }
        thread::sleep(held);
        door.call_in();
        drop(first);
    });
    *door.lock(&count)
}

#[test]
fn a_lock_that_is_held_for_long_is_had_in_the_end() {
    // Longer than all sleeps together.
    let held = Duration::from_millis(20);
    assert_eq!(count_behind(&Door::of_submitters(), 3, 1, held), 3);
    assert_eq!(count_behind(Door::of_workers(), 3, 1, held), 3);
}

#[test]
fn all_have_their_turns() {
    let held = Duration::from_micros(50);
    assert_eq!(count_behind(&Door::of_submitters(), 8, 5_000, held), 40_000);
    assert_eq!(count_behind(Door::of_workers(), 8, 5_000, held), 40_000);
}

#[test]
fn a_poisoned_lock_is_taken() {
    let mutex = Mutex::new(42);
    thread::scope(|scope| {
        let poisons = scope.spawn(|| {
            let _guard = mutex.lock();
            std::panic::resume_unwind(Box::new(()));
        });
        assert!(poisons.join().is_err());
    });
    assert!(mutex.is_poisoned());
    assert_eq!(*Door::of_workers().lock(&mutex), 42);
}

#[test]
fn a_look_ends_in_time_and_with_what_it_looks_for() {
    assert!(patience::looks(Some(Instant::now()), || true));
    assert!(!patience::looks(Some(Instant::now()), || false));
    assert!(!patience::looks(None, || false));
    let looks = Cell::new(0);
    let found = patience::looks(None, || {
        looks.set(looks.get() + 1);
        looks.get() == 3
    });
    assert_eq!(found, looks.get() == 3);
}
