//! What an operator does while calls are in progress and others wait: a bulkhead is closed, or gets fewer permits; the free ones are
//! retired, and the rest are owed.
mod common;

use common::{Checked, PATIENCE, block_on, is_idle, polled, until};
use resil::{Acquire, Bulkhead, Closed};
use std::pin::Pin;
use std::sync::atomic::{AtomicBool, AtomicU32, Ordering};
use std::sync::{Arc, Weak};
use std::task::{Context, Wake, Waker};
use std::thread;
use std::time::Duration;

// Whether it reports that it is closed.
fn is_closed(waits: &mut Acquire) -> bool {
    polled(waits).and_then(Result::err) == Some(Closed)
}

#[test]
fn who_asks_later_is_told() -> Checked {
    let backend = Arc::new(Bulkhead::new("backend", 2)?);
    assert!(!backend.is_closed());
    backend.close();
    assert!(backend.is_closed());
    assert_eq!(backend.call(|| unreachable!()), Err::<(), _>(Closed));
    assert_eq!(backend.enter().err(), Some(Closed));
    assert_eq!(backend.enter_owned().err(), Some(Closed));
    assert_eq!(backend.enter_within(Duration::MAX).err(), Some(Closed));
    let refused = backend.enter_owned_within(Duration::ZERO).err();
    assert_eq!(refused, Some(Closed));
    assert!(is_closed(&mut backend.acquire_owned()));
    // A second time.
    backend.close();
    assert_eq!(backend.enter().err(), Some(Closed));
    assert_eq!(backend.available(), 2);
    Ok(())
}

#[test]
fn who_waits_is_told_at_once() -> Checked {
    let backend = Arc::new(Bulkhead::new("backend", 1)?);
    let permit = backend.enter()?;
    let mut row = [(); 3].map(|()| backend.acquire_owned());
    assert!(row.iter_mut().all(|one| polled(one).is_none()));
    let threads = thread::scope(|scope| {
        let threads = [(); 2].map(|()| scope.spawn(|| backend.enter_within(Duration::MAX).err()));
        while backend.numbers().waiting < 5 {
            thread::yield_now();
        }
        backend.close();
        threads.map(|thread| thread.join().ok().flatten())
    });
    assert_eq!(threads, [Some(Closed); 2]);
    assert!(row.iter_mut().all(is_closed));
    assert_eq!((backend.available(), backend.numbers().waiting), (0, 0));
    // Permits are given back as usual.
    drop(permit);
    assert_eq!(backend.available(), 1);
    Ok(())
}

#[test]
fn who_was_given_a_permit_has_it() -> Checked {
    let backend = Arc::new(Bulkhead::new("backend", 1)?);
    let permit = backend.enter()?;
    let (mut first, mut second) = (backend.acquire_owned(), backend.acquire_owned());
    assert!(polled(&mut first).is_none() && polled(&mut second).is_none());
    drop(permit);
    backend.close();
    let given = polled(&mut first);
    assert!(matches!(given, Some(Ok(_))) && is_closed(&mut second));
    assert_eq!(backend.available(), 0);
    drop(given);
    assert!(is_idle(&backend));
    // One that is dropped, and not polled.
    let backend = Arc::new(Bulkhead::new("backend", 1)?);
    let permit = backend.enter()?;
    let mut waits = backend.acquire_owned();
    assert!(polled(&mut waits).is_none());
    backend.close();
    drop(waits);
    drop(permit);
    assert!(is_idle(&backend));
    Ok(())
}

/// Closes the bulkhead when it is woken.
struct Closes(Weak<Bulkhead>, AtomicU32);

impl Wake for Closes {
    fn wake(self: Arc<Self>) {
        self.1.fetch_add(1, Ordering::SeqCst);
        if let Some(backend) = self.0.upgrade() {
            backend.close();
        }
    }
}

#[test]
fn a_waker_may_close_it() -> Checked {
    let backend = Arc::new(Bulkhead::new("backend", 1)?);
    let permit = backend.enter()?;
    let closes = Arc::new(Closes(Arc::downgrade(&backend), AtomicU32::new(0)));
    let waker = Waker::from(Arc::clone(&closes));
    let mut row = [(); 3].map(|()| backend.acquire_owned());
    let mut context = Context::from_waker(&waker);
    for one in &mut row {
        assert!(Pin::new(one).poll(&mut context).is_pending());
    }
    // The first is given the permit, and its waker makes the others hear of the closing; their wakers close it once more.
    drop(permit);
    assert_eq!(closes.1.load(Ordering::SeqCst), 3);
    let [first, second, third] = &mut row;
    assert!(matches!(polled(first), Some(Ok(_))));
    assert!(is_closed(second) && is_closed(third));
    Ok(())
}

// While threads enter and leave it in all ways.
#[test]
fn it_is_closed_in_the_middle_of_its_work() -> Checked {
    for _ in 0..50 {
        let backend = Arc::new(Bulkhead::new("backend", 2)?);
        let closed = thread::scope(|scope| {
            let threads: Vec<_> = (0..6)
                .map(|kind| {
                    let backend = &backend;
                    scope.spawn(move || {
                        loop {
                            let refused = match kind % 3 {
                                0 => backend.call(thread::yield_now).err(),
                                1 => backend.enter_within(Duration::MAX).err(),
                                _ => block_on(backend.acquire_owned()).err(),
                            };
                            if refused == Some(Closed) {
                                return true;
                            }
                        }
                    })
                })
                .collect();
            thread::sleep(Duration::from_millis(2));
            backend.close();
            threads
                .into_iter()
                .all(|thread| thread.join().unwrap_or(false))
        });
        assert!(closed);
        assert!(is_idle(&backend));
    }
    Ok(())
}

// How many permits are free, retired and owed.
fn counts(backend: &Bulkhead) -> (u32, u32, u32) {
    let numbers = backend.numbers();
    assert_eq!(numbers.owed, backend.owed());
    (numbers.available, numbers.retired, numbers.owed)
}

#[test]
fn what_is_free_is_retired_and_the_rest_is_owed() -> Checked {
    let backend = Arc::new(Bulkhead::new("backend", 3)?);
    let (first, second) = (backend.enter_owned()?, backend.enter()?);
    assert_eq!((backend.shrink(2), counts(&backend)), (1, (0, 1, 1)));
    // At most as many as are held.
    assert_eq!((backend.shrink(9), counts(&backend)), (0, (0, 1, 2)));
    assert_eq!((backend.shrink(1), backend.retire(1)), (0, 0));
    // On another thread than the one that has it.
    thread::scope(|scope| scope.spawn(|| drop(first)).join()).map_err(|_| "it panics")?;
    assert_eq!(counts(&backend), (0, 2, 1));
    drop(second);
    assert_eq!(counts(&backend), (0, 3, 0));
    assert!(backend.enter().is_err());
    assert_eq!((backend.raise(9), counts(&backend)), (3, (3, 0, 0)));
    let permits = [backend.enter()?, backend.enter()?, backend.enter()?];
    drop(permits);
    assert_eq!((backend.shrink(1), counts(&backend)), (1, (2, 1, 0)));
    Ok(())
}

#[test]
fn a_debt_is_paid_before_the_row() -> Checked {
    let backend = Arc::new(Bulkhead::new("backend", 2)?);
    let (first, second) = (backend.enter()?, backend.enter()?);
    let mut row = [backend.acquire_owned(), backend.acquire_owned()];
    assert!(row.iter_mut().all(|one| polled(one).is_none()));
    assert_eq!((backend.retire(1), backend.shrink(1)), (0, 0));
    assert_eq!(counts(&backend), (0, 0, 1));
    assert_eq!(backend.numbers().waiting, 2);
    drop(first);
    assert_eq!(counts(&backend), (0, 1, 0));
    assert!(row.iter_mut().all(|one| polled(one).is_none()));
    drop(second);
    let [first, second] = &mut row;
    let permit = polled(first).ok_or("it has no permit")??;
    assert!(polled(second).is_none());
    // What is raised goes to a waiter, and what is owed doesn't.
    assert_eq!((backend.shrink(1), backend.raise(1)), (0, 1));
    assert!(polled(second).is_none());
    assert_eq!(backend.raise(1), 1);
    drop(polled(second).ok_or("it has no permit")??);
    drop(permit);
    assert_eq!(counts(&backend), (2, 0, 0));
    Ok(())
}

#[test]
fn a_permit_that_is_forgotten_pays_nothing() -> Checked {
    let backend = Arc::new(Bulkhead::new("backend", 2)?);
    backend.enter_owned()?.forget();
    assert_eq!((backend.shrink(2), counts(&backend)), (1, (0, 1, 1)));
    assert_eq!((backend.raise(1), counts(&backend)), (1, (0, 1, 0)));
    assert_eq!((backend.raise(9), counts(&backend)), (1, (1, 0, 0)));
    // Once it is written off it isn't owed again, and what is raised is free.
    assert_eq!((backend.shrink(2), backend.owed()), (1, 1));
    assert_eq!((backend.write_off(9), backend.write_off(9)), (1, 0));
    assert_eq!((backend.raise(9), counts(&backend)), (1, (1, 0, 0)));
    assert_eq!((backend.shrink(2), counts(&backend)), (1, (0, 1, 0)));
    assert_eq!(backend.numbers().written_off, 1);
    Ok(())
}

#[test]
fn those_who_may_wait_are_not_those_who_are_owed() -> Checked {
    let backend = Arc::new(Bulkhead::new("backend", 1)?);
    let permit = backend.enter()?;
    assert_eq!(backend.shrink(1), 0);
    let mut waits = backend.acquire_owned().most_waiting(1);
    assert!(polled(&mut waits).is_none() && backend.numbers().waiting == 1);
    drop(permit);
    assert_eq!((counts(&backend), backend.raise(1)), ((0, 1, 0), 1));
    assert!(polled(&mut waits).is_some());
    Ok(())
}

// Permits pass from hand to hand, so `retire` finds none.
#[test]
fn an_operator_shrinks_under_load() -> Checked {
    let backend = Arc::new(Bulkhead::new("backend", 4)?);
    let is_over = AtomicBool::new(false);
    let inside = AtomicU32::new(0);
    let goes_in = || {
        assert!(inside.fetch_add(1, Ordering::SeqCst) < 4);
        thread::yield_now();
        inside.fetch_sub(1, Ordering::SeqCst);
    };
    thread::scope(|scope| {
        for kind in 0..9 {
            let (backend, is_over, goes_in) = (&backend, &is_over, &goes_in);
            scope.spawn(move || {
                while !is_over.load(Ordering::SeqCst) {
                    match kind % 3 {
                        0 => drop(backend.call(goes_in)),
                        1 => drop(backend.enter_within(PATIENCE).map(|_permit| goes_in())),
                        _ => drop(block_on(backend.acquire_owned()).map(|_permit| goes_in())),
                    }
                }
            });
        }
        let mut is_paid = true;
        for _ in 0..50 {
            backend.shrink(3);
            is_paid &= until(|| backend.owed() == 0) && backend.retired() == 3;
            thread::sleep(Duration::from_micros(200));
            is_paid &= backend.raise(2) == 2;
            // Some of it is owed while the rest is raised.
            backend.shrink(2);
            backend.raise(4);
            is_paid &= backend.owed() + backend.retired() == 0;
            // Each permit is owed or retired once.
            backend.shrink(4);
            backend.retire(4);
            is_paid &= backend.raise(9) == 4;
        }
        is_over.store(true, Ordering::SeqCst);
        assert!(is_paid);
    });
    assert_eq!(counts(&backend), (4, 0, 0));
    assert_eq!(backend.numbers().waiting, 0);
    Ok(())
}
