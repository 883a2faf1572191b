//! Awaited permits: the queue of tasks, tasks that are dropped, and threads that wait beside them.
mod common;

use common::{Caller, Checked, is_idle, look, poll_by, polled};
use resil::{Acquire, Bulkhead, OwnedPermit};
use std::error::Error;
use std::panic::{AssertUnwindSafe, catch_unwind};
use std::ptr;
use std::sync::Arc;
use std::sync::atomic::{AtomicBool, Ordering};
use std::task::{RawWaker, RawWakerVTable, Waker};
use std::thread;

/// An awaited permit, and what it wakes.
struct Awaited {
    permit: Acquire,
    caller: Arc<Caller>,
}

impl Awaited {
    fn new(backend: &Arc<Bulkhead>) -> Awaited {
        Awaited {
            permit: backend.acquire_owned(),
            caller: Caller::here(),
        }
    }

    // One in the queue.
    fn standing(backend: &Arc<Bulkhead>) -> Result<Awaited, &'static str> {
        let mut awaited = Awaited::new(backend);
        match awaited.poll() {
            Some(_) => Err("it has a permit"),
            None => Ok(awaited),
        }
    }

    fn poll(&mut self) -> Option<OwnedPermit> {
        poll_by(&mut self.permit, &self.caller)?.ok()
    }

    fn woken(&self) -> u32 {
        self.caller.woken()
    }
}

#[test]
fn who_comes_first_is_served_first() -> Checked {
    let backend = Arc::new(Bulkhead::new("backend", 1)?);
    let permit = backend.enter()?;
    let mut row = [(); 5].map(|()| Awaited::standing(&backend).expect("all permits are held"));
    assert_eq!(backend.numbers().waiting, 5);
    drop(permit);
    for first in 0..row.len() {
        for (index, awaited) in row.iter_mut().enumerate() {
            assert_eq!(awaited.woken(), u32::from(index <= first));
            assert!(index <= first || awaited.poll().is_none());
        }
        // Anyone who asks meanwhile comes after them.
        assert!(backend.enter().is_err());
        drop(row[first].poll().ok_or("it has no permit")?);
    }
    assert!(is_idle(&backend));
    Ok(())
}

#[test]
fn a_newcomer_stands_behind_the_row() -> Checked {
    let backend = Arc::new(Bulkhead::new("backend", 2)?);
    let permits = [backend.enter_owned()?, backend.enter_owned()?];
    let mut first = Awaited::standing(&backend)?;
    drop(permits);
    // One permit was meant for the first, and the other is free.
    let second = Awaited::new(&backend).poll().ok_or("it has no permit")?;
    assert!(backend.enter().is_err());
    let third = Awaited::standing(&backend)?;
    let first = first.poll().ok_or("it has no permit")?;
    drop(third);
    drop((first, second));
    assert!(is_idle(&backend));
    Ok(())
}

#[test]
fn a_task_that_is_dropped_loses_nothing() -> Checked {
    let backend = Arc::new(Bulkhead::new("backend", 1)?);
    // Before its first poll, and after it was ready.
    drop(Awaited::new(&backend));
    let mut ready = Awaited::new(&backend);
    drop(ready.poll().ok_or("it has no permit")?);
    drop(ready);
    assert!(is_idle(&backend));
    // While it is in the queue: at the front, in the middle and at the end.
    for gone in 0..3 {
        let permit = backend.enter()?;
        let mut row = Vec::new();
        for _ in 0..3 {
            row.push(Awaited::standing(&backend)?);
        }
        drop(row.remove(gone));
        assert_eq!(backend.numbers().waiting, 2);
        drop(permit);
        for awaited in &mut row {
            drop(awaited.poll().ok_or("it has no permit")?);
        }
        assert!(is_idle(&backend));
    }
    // With a permit that it was given and hasn't taken: the next one then gets it, or it is free.
    let permit = backend.enter()?;
    let first = Awaited::standing(&backend)?;
    let mut second = Awaited::standing(&backend)?;
    drop(permit);
    let counts = (first.woken(), second.woken(), backend.available());
    assert_eq!(counts, (1, 0, 0));
    drop(first);
    assert_eq!((second.woken(), backend.available()), (1, 0));
    let permit = second.poll().ok_or("it has no permit")?;
    let third = Awaited::standing(&backend)?;
    drop(permit);
    drop(third);
    assert!(is_idle(&backend));
    Ok(())
}

#[test]
fn the_waker_of_the_last_poll_is_woken() -> Checked {
    let backend = Arc::new(Bulkhead::new("backend", 1)?);
    let permit = backend.enter()?;
    let mut awaited = Awaited::standing(&backend)?;
    let before = std::mem::replace(&mut awaited.caller, Caller::here());
    assert!(awaited.poll().is_none());
    drop(permit);
    assert_eq!((before.woken(), awaited.woken()), (0, 1));
    assert!(awaited.poll().is_some());
    let again = AssertUnwindSafe(|| awaited.poll().is_some());
    assert!(catch_unwind(again).is_err());
    assert_eq!(backend.available(), 1);
    Ok(())
}

// A waker that can't be cloned.
fn waker_that_panics() -> Waker {
    static TABLE: RawWakerVTable = RawWakerVTable::new(clone, |_| {}, |_| {}, |_| {});
    fn clone(_data: *const ()) -> RawWaker {
        panic!("a waker isn't copied")
    }
    // SAFETY: the functions of the table access no data.
    unsafe { Waker::from_raw(RawWaker::new(ptr::null(), &TABLE)) }
}

#[test]
fn a_waker_that_panics_leaves_no_place_in_the_row() -> Checked {
    let backend = Arc::new(Bulkhead::new("backend", 1)?);
    let permit = backend.enter()?;
    let waker = waker_that_panics();
    let (mut first, mut second) = (backend.acquire_owned(), backend.acquire_owned());
    // Before it is in the queue, and while it is.
    for waiting in 0..2 {
        let looks = AssertUnwindSafe(|| look(&mut first, &waker).is_some());
        assert!(catch_unwind(looks).is_err());
        assert_eq!(backend.numbers().waiting, waiting);
        assert!(polled(&mut first).is_none());
    }
    assert!(polled(&mut second).is_none());
    drop(permit);
    // It has been given the permit, and passes it on.
    drop(first);
    assert!(polled(&mut second).is_some());
    assert!(is_idle(&backend));
    Ok(())
}

#[test]
fn a_permit_that_is_passed_on_is_never_free() -> Checked {
    let backend = Arc::new(Bulkhead::new("backend", 1)?);
    let mut held = vec![backend.enter_owned()?];
    let is_over = AtomicBool::new(false);
    thread::scope(|scope| {
        let barges = scope.spawn(|| {
            let mut entered = 0;
            while !is_over.load(Ordering::SeqCst) {
                entered += u32::from(backend.enter().is_ok());
                thread::yield_now();
            }
            entered
        });
        let mut next = backend.acquire_owned();
        let mut is_in_order = polled(&mut next).is_none();
        for _ in 0..2_000 {
            // While one waits, the other gives its permit back.
            held.clear();
            let given = polled(&mut next);
            is_in_order &= given.is_some();
            held.extend(given.and_then(Result::ok));
            next = backend.acquire_owned();
            is_in_order &= polled(&mut next).is_none();
        }
        is_over.store(true, Ordering::SeqCst);
        let entered = barges.join().map_err(|_| "it panicked")?;
        assert_eq!((entered, is_in_order), (0, true));
        Ok::<(), Box<dyn Error>>(())
    })?;
    held.clear();
    assert_eq!(backend.available(), 1);
    Ok(())
}
