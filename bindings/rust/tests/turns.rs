//! Whose turn it is if threads, tasks and an operator want the same permits.
mod common;

use common::{Checked, block_on, is_idle, polled, until};
use resil::Bulkhead;
use std::sync::atomic::{AtomicBool, AtomicU32, Ordering};
use std::sync::{Arc, Barrier};
use std::thread;
use std::time::Duration;

// Tasks keep coming, and yet the thread gets the second permit that is given back.
#[test]
fn a_thread_is_not_passed_by() -> Checked {
    let backend = Arc::new(Bulkhead::new("backend", 1)?);
    let is_served = AtomicBool::new(false);
    let in_turn = thread::scope(|scope| {
        let mut permit = backend.enter_owned()?;
        scope.spawn(|| {
            let permit = backend.enter_within(Duration::MAX);
            is_served.store(permit.is_ok(), Ordering::SeqCst);
        });
        assert!(until(|| backend.numbers().waiting == 1));
        thread::sleep(Duration::from_millis(50)); // a thread counts itself before it is in the queue
        for _ in 0..2 {
            let next = backend.acquire_owned();
            let mut next = Box::pin(next);
            assert!(polled(&mut next).is_none());
            drop(permit);
            permit = block_on(next)?;
        }
        Ok::<_, resil::NoPermit>(is_served.load(Ordering::SeqCst))
    });
    assert!(in_turn? && is_idle(&backend));
    Ok(())
}

// Two threads wait, and the task gets the second permit at the latest.
#[test]
fn a_task_is_not_passed_by() -> Checked {
    let backend = Arc::new(Bulkhead::new("backend", 1)?);
    let permit = backend.enter_owned()?;
    // How many threads may give back what they have.
    let leave = AtomicU32::new(1);
    let may_leave = || {
        leave.fetch_update(Ordering::SeqCst, Ordering::SeqCst, |left| {
            left.checked_sub(1)
        })
    };
    let in_turn = thread::scope(|scope| {
        for _ in 0..2 {
            scope.spawn(|| {
                let _permit = backend.enter_within(Duration::MAX);
                until(|| may_leave().is_ok())
            });
        }
        assert!(until(|| backend.numbers().waiting == 2));
        let mut task = backend.acquire_owned();
        assert!(polled(&mut task).is_none());
        drop(permit);
        let in_turn = until(|| polled(&mut task).is_some());
        leave.store(2, Ordering::SeqCst);
        in_turn
    });
    assert!(in_turn && is_idle(&backend));
    Ok(())
}

// A thread waits for a permit that is out of use, and sleeps until it is raised.
#[test]
fn what_is_raised_wakes_a_thread() -> Checked {
    let backend = Bulkhead::new("backend", 1)?;
    assert_eq!(backend.retire(1), 1);
    let is_served = AtomicBool::new(false);
    let in_time = thread::scope(|scope| {
        scope.spawn(|| {
            let permit = backend.enter_within(Duration::MAX);
            is_served.store(permit.is_ok(), Ordering::SeqCst);
        });
        assert!(until(|| backend.numbers().waiting == 1));
        assert_eq!(backend.raise(1), 1);
        let in_time = until(|| is_served.load(Ordering::SeqCst));
        backend.close();
        in_time
    });
    assert!(in_time && is_idle(&backend));
    Ok(())
}

// Many permits come back one after the other, without the lock. What is owed in the middle of that is retired only for the debt.
#[test]
fn what_is_owed_is_not_retired_twice() -> Checked {
    const MAX: u32 = 512;
    let backend = Bulkhead::new("backend", MAX)?;
    let begins = Barrier::new(3);
    for _ in 0..500 {
        let all = backend.enter_many(MAX)?;
        let are_back = AtomicBool::new(false);
        thread::scope(|scope| {
            scope.spawn(|| {
                begins.wait();
                drop(all);
                are_back.store(true, Ordering::SeqCst);
            });
            scope.spawn(|| {
                begins.wait();
                backend.shrink(MAX)
            });
            begins.wait();
            while !are_back.load(Ordering::SeqCst) {
                backend.retire(MAX);
            }
        });
        let now = backend.numbers();
        assert_eq!((now.retired, now.owed), (MAX, 0));
        assert_eq!(backend.raise(MAX), MAX);
        assert!(is_idle(&backend));
    }
    Ok(())
}
