//! Several permits at a time: all or none, in the queue's order, together with callers of one.
mod common;

use common::{Caller, Checked, block_on, is_idle, poll_by, polled, until};
use resil::{AcquireMany, Bulkhead, Closed, Full, NoPermit, Observer};
use std::panic::{AssertUnwindSafe, catch_unwind};
use std::sync::Arc;
use std::sync::atomic::{AtomicBool, AtomicI64, AtomicU32, Ordering};
use std::thread;
use std::time::{Duration, Instant};

// How many there are, or why there are none; `None` while it waits.
fn count(many: &mut AcquireMany) -> Option<Result<u32, NoPermit>> {
    Some(polled(many)?.map(|permits| permits.count()))
}

#[test]
fn they_are_all_or_none() -> Checked {
    let backend = Arc::new(Bulkhead::new("backend", 3)?);
    let mut permits = backend.enter_many(2)?;
    assert_eq!((permits.count(), backend.available()), (2, 1));
    assert_eq!(backend.enter_many(2).err(), Some(Full));
    assert_eq!(backend.available(), 1);
    // Given back in parts.
    drop(permits.split(1));
    drop(backend.enter_many(2)?);
    assert_eq!(backend.available(), 2);
    drop(permits);
    let mut permits = polled(&mut backend.acquire_many_owned(3)).ok_or("it waits")??;
    assert_eq!((permits.count(), backend.available()), (3, 0));
    for free in 1..=3 {
        drop(permits.split(1));
        assert_eq!(backend.available(), free);
    }
    // None at all, and more than there are.
    assert_eq!(backend.enter_many(0)?.count(), 0);
    assert_eq!(count(&mut backend.acquire_many_owned(0)), Some(Ok(0)));
    assert_eq!(backend.enter_many(4).err(), Some(Full));
    assert_eq!(backend.enter_many(u32::MAX).err(), Some(Full));
    for many in [4, u32::MAX] {
        assert_eq!(
            count(&mut backend.acquire_many_owned(many)),
            Some(Err(Full))
        );
    }
    let none = Arc::new(Bulkhead::new("none", 0)?);
    let refused = polled(&mut none.acquire_owned()).and_then(Result::err);
    assert_eq!(refused, Some(Full));
    assert!(is_idle(&backend) && is_idle(&none));
    Ok(())
}

#[test]
fn who_waits_gathers_and_is_woken_once() -> Checked {
    let backend = Arc::new(Bulkhead::new("backend", 3)?);
    let mut permits = vec![backend.enter()?, backend.enter()?];
    let caller = Caller::here();
    let mut many = backend.acquire_many_owned(3);
    assert!(poll_by(&mut many, &caller).is_none());
    // It has the free one already, and it is one call.
    assert_eq!((backend.available(), backend.numbers().waiting), (0, 1));
    permits.pop();
    assert_eq!((backend.available(), caller.woken()), (0, 0));
    permits.pop();
    assert_eq!((caller.woken(), backend.numbers().waiting), (1, 0));
    assert_eq!(count(&mut many), Some(Ok(3)));
    assert!(is_idle(&backend));
    let again = AssertUnwindSafe(|| polled(&mut many).is_none());
    assert!(catch_unwind(again).is_err());
    Ok(())
}

#[test]
fn they_are_served_in_the_order_of_the_row() -> Checked {
    let backend = Arc::new(Bulkhead::new("backend", 3)?);
    let mut permits = vec![backend.enter()?, backend.enter()?, backend.enter()?];
    let (mut first, mut many) = (backend.acquire_owned(), backend.acquire_many_owned(2));
    let (mut last, mut more) = (backend.acquire_owned(), backend.acquire_many_owned(3));
    assert!(polled(&mut first).is_none() && polled(&mut many).is_none());
    assert!(polled(&mut last).is_none() && polled(&mut more).is_none());
    assert_eq!(backend.numbers().waiting, 4);
    // The single one, two for callers that want two, and nobody overtakes these.
    permits.pop();
    permits.pop();
    let own = polled(&mut first).ok_or("it waits")??;
    assert!(polled(&mut many).is_none() && polled(&mut last).is_none());
    permits.pop();
    let two = polled(&mut many).ok_or("it waits")??;
    assert!(polled(&mut last).is_none());
    drop(own);
    assert!(matches!(polled(&mut last), Some(Ok(_))));
    // The permit that the last one gave back at once is gathered.
    assert!(polled(&mut more).is_none());
    assert_eq!((backend.available(), backend.numbers().waiting), (0, 1));
    drop(two);
    assert_eq!(count(&mut more), Some(Ok(3)));
    assert!(is_idle(&backend));
    Ok(())
}

#[test]
fn who_leaves_gives_back_what_it_has_gathered() -> Checked {
    let backend = Arc::new(Bulkhead::new("backend", 3)?);
    let permit = backend.enter()?;
    let mut many = backend.acquire_many_owned(3);
    let mut one = backend.acquire_owned();
    assert!(polled(&mut many).is_none() && polled(&mut one).is_none());
    assert_eq!(backend.available(), 0);
    // Two permits are for the next one, which takes one of them.
    drop(many);
    assert!(matches!(polled(&mut one), Some(Ok(_))));
    assert_eq!((backend.available(), backend.numbers().waiting), (2, 0));
    // With everything that it was given and hasn't fetched.
    let mut many = backend.acquire_many_owned(3);
    assert!(polled(&mut many).is_none());
    drop(permit);
    assert_eq!((backend.available(), backend.numbers().waiting), (0, 0));
    drop(many);
    assert!(is_idle(&backend));
    Ok(())
}

#[test]
fn a_closing_gives_back_what_was_gathered() -> Checked {
    let backend = Arc::new(Bulkhead::new("backend", 2)?);
    let permit = backend.enter()?;
    let (mut many, mut dropped) = (backend.acquire_many_owned(2), backend.acquire_many_owned(1));
    assert!(polled(&mut many).is_none() && polled(&mut dropped).is_none());
    backend.close();
    assert_eq!(backend.numbers().waiting, 0);
    assert_eq!(count(&mut many), Some(Err(Closed)));
    drop(dropped);
    for many in [0, 1, 9] {
        assert_eq!(
            count(&mut backend.acquire_many_owned(many)),
            Some(Err(Closed))
        );
        assert_eq!(backend.enter_many(many).err(), Some(Closed));
    }
    assert_eq!(backend.available(), 1);
    drop(permit);
    assert!(is_idle(&backend));
    Ok(())
}

#[test]
fn what_is_raised_is_gathered_and_what_is_owed_is_not() -> Checked {
    let backend = Arc::new(Bulkhead::new("backend", 3)?);
    assert_eq!(backend.retire(3), 3);
    let mut many = backend.acquire_many_owned(2);
    assert!(polled(&mut many).is_none());
    assert_eq!(backend.raise(1), 1);
    assert!(polled(&mut many).is_none() && backend.available() == 0);
    assert_eq!((backend.raise(1), count(&mut many)), (1, Some(Ok(2))));
    let permits = backend.enter_many(2)?;
    assert_eq!(backend.shrink(1), 0);
    let mut many = backend.acquire_many_owned(1);
    assert!(polled(&mut many).is_none());
    drop(permits);
    assert_eq!((count(&mut many), backend.retired()), (Some(Ok(1)), 2));
    Ok(())
}

/// Counts who is inside from what is reported to it; its third permit panics.
#[derive(Default)]
struct Inside(AtomicI64, AtomicU32);

impl Observer for Inside {
    fn call_permitted(&self, _bulkhead: &str) {
        assert!(
            self.1.fetch_add(1, Ordering::SeqCst) != 2,
            "this observer panics"
        );
        self.0.fetch_add(1, Ordering::SeqCst);
    }

    fn call_finished(&self, _bulkhead: &str, _time: Duration) {
        self.0.fetch_sub(1, Ordering::SeqCst);
    }
}

#[test]
fn each_permit_is_told_and_none_is_lost_by_an_observer() -> Checked {
    for waits in [false, true] {
        let inside = Arc::new(Inside::default());
        let backend = Arc::new(Bulkhead::new("backend", 5)?.observed(inside.clone()));
        let asks = AssertUnwindSafe(|| {
            if waits {
                drop(polled(&mut backend.acquire_many_owned(5)));
            } else {
                drop(backend.enter_many(5));
            }
        });
        assert!(catch_unwind(asks).is_err());
        assert!(is_idle(&backend));
        assert_eq!(inside.0.load(Ordering::SeqCst), 0);
        let permits = backend.enter_many(5)?;
        assert_eq!(inside.0.load(Ordering::SeqCst), 5);
        drop(permits);
        assert_eq!(inside.0.load(Ordering::SeqCst), 0);
    }
    Ok(())
}

#[test]
fn they_are_split_and_merged() -> Checked {
    let backend = Arc::new(Bulkhead::new("backend", 5)?);
    let mut permits = backend.enter_many(4)?;
    assert!(permits.split(5).is_none());
    let two = permits.split(2).ok_or("there are four")?;
    assert_eq!(
        (permits.count(), two.count(), backend.available()),
        (2, 2, 1)
    );
    drop(permits);
    assert_eq!(backend.available(), 3);
    let mut all = backend.enter_many(3)?;
    all.merge(two);
    assert_eq!((all.count(), backend.available()), (5, 0));
    drop(all);
    // Those in the queue were held by others.
    let permits = [backend.enter()?, backend.enter()?, backend.enter()?];
    let mut many = backend.acquire_many_owned(4);
    assert!(polled(&mut many).is_none());
    drop(permits);
    let mut four = polled(&mut many).ok_or("it waits")??;
    let mut one = four.split(1).ok_or("there are four")?;
    assert_eq!(four.split(0).map(|none| none.count()), Some(0));
    // Permits of two bulkheads aren't merged, but given back.
    let other = Arc::new(Bulkhead::new("other", 2)?);
    let others = other.enter_many_owned(2)?;
    let merges = AssertUnwindSafe(|| one.merge(others));
    assert!(catch_unwind(merges).is_err());
    assert!(is_idle(&other) && backend.available() == 1);
    one.merge(four);
    assert_eq!(one.count(), 4);
    one.split(1).ok_or("there are four")?.forget();
    drop(one);
    assert_eq!(backend.available(), 4);
    Ok(())
}

#[test]
fn a_thread_waits_for_many() -> Checked {
    const NAP: Duration = Duration::from_millis(20);
    let timed_out = Some(NoPermit::TimedOut);
    let backend = Arc::new(Bulkhead::new("backend", 3)?);
    assert_eq!(backend.enter_many_within(3, NAP)?.count(), 3);
    assert_eq!(backend.enter_many_within(3, Duration::ZERO)?.count(), 3);
    assert_eq!(backend.enter_many_within(4, NAP).err(), Some(Full));
    let permit = backend.enter_owned()?;
    assert_eq!(
        backend.enter_many_within(3, Duration::ZERO).err(),
        Some(Full)
    );
    let begun = Instant::now();
    assert_eq!(backend.enter_many_within(3, NAP).err(), timed_out);
    assert!(begun.elapsed() >= NAP && backend.available() == 2);
    thread::scope(|scope| {
        let served = scope.spawn(|| backend.enter_many_within(3, Duration::MAX).map(drop));
        let is_there = until(|| backend.numbers().waiting == 1);
        // It gathers, and nobody overtakes it.
        let overtakes = polled(&mut backend.acquire_owned()).is_some();
        drop(permit);
        assert!(is_there && !overtakes && served.join().is_ok_and(|served| served.is_ok()));
    });
    assert!(is_idle(&backend));
    let permit = backend.enter_owned()?;
    thread::scope(|scope| {
        let closed = scope.spawn(|| backend.enter_many_within(3, Duration::MAX).err());
        let is_there = until(|| backend.numbers().waiting == 1);
        backend.close();
        assert!(is_there && closed.join().is_ok_and(|closed| closed == Some(Closed)));
    });
    drop(permit);
    assert_eq!(backend.enter_many_within(1, NAP).err(), Some(Closed));
    assert_eq!(backend.enter_many_owned(1).err(), Some(Closed));
    assert!(is_idle(&backend));
    Ok(())
}

#[test]
fn few_may_wait_for_many() -> Checked {
    let backend = Arc::new(Bulkhead::new("backend", 3)?);
    let permit = backend.enter()?;
    let mut refused = backend.acquire_many_owned(3).most_waiting(0);
    assert_eq!(count(&mut refused), Some(Err(Full)));
    assert_eq!((backend.available(), backend.numbers().waiting), (2, 0));
    let mut first = backend.acquire_many_owned(3).most_waiting(1);
    assert!(polled(&mut first).is_none());
    let mut second = backend.acquire_many_owned(2).most_waiting(1);
    assert_eq!(count(&mut second), Some(Err(Full)));
    drop(permit);
    assert_eq!(count(&mut first), Some(Ok(3)));
    let mut free = backend.acquire_many_owned(3).most_waiting(0);
    assert_eq!(count(&mut free), Some(Ok(3)));
    assert!(is_idle(&backend));
    Ok(())
}

// A caller that finds too few gives back what it has: one permit comes and goes while another caller wants all of them.
#[test]
fn nothing_is_lost_where_two_race() -> Checked {
    const MAX: u32 = 64;
    let backend = Arc::new(Bulkhead::new("backend", MAX)?);
    let is_over = AtomicBool::new(false);
    let refused = thread::scope(|scope| {
        for _ in 0..2 {
            scope.spawn(|| {
                while !is_over.load(Ordering::SeqCst) {
                    let _entered = backend.call(|| ());
                }
            });
        }
        // On one processor it may take a while until another thread is stopped while it has a permit.
        let (mut rounds, mut refused) = (0, 0);
        while rounds < 4_000 || (refused == 0 && rounds < 4_000_000) {
            let is_there = match rounds % 2 {
                0 => backend.enter_many(MAX).is_ok(),
                _ => polled(&mut backend.acquire_many_owned(MAX)).is_some(),
            };
            refused += u32::from(!is_there);
            rounds += 1;
        }
        is_over.store(true, Ordering::SeqCst);
        refused
    });
    assert!(refused > 0 && is_idle(&backend));
    assert!(backend.enter_many(MAX).is_ok());
    Ok(())
}

// More than it takes at a time: it is woken to gather the rest by itself, in turns, and nobody overtakes it meanwhile.
#[test]
fn very_many_are_gathered_in_slices() -> Checked {
    const MAX: u32 = 65_535;
    let backend = Arc::new(Bulkhead::new("backend", MAX)?);
    assert_eq!(count(&mut backend.acquire_many_owned(MAX)), Some(Ok(MAX)));
    let permit = backend.enter()?;
    let caller = Caller::here();
    let mut all = backend.acquire_many_owned(MAX);
    let (mut thousand, mut last) = (backend.acquire_many_owned(1_000), backend.acquire_owned());
    assert!(poll_by(&mut all, &caller).is_none());
    assert!(polled(&mut thousand).is_none() && polled(&mut last).is_none());
    assert!(caller.woken() == 1 && backend.available() > MAX / 2);
    // When it leaves, what it left is for those after it, and what these leave for those after them.
    drop(all);
    let given = (0..10).find_map(|_| polled(&mut thousand));
    let given = given.ok_or("it waits")??;
    assert!(matches!(polled(&mut last), Some(Ok(_))));
    assert_eq!((given.count(), backend.available()), (1_000, MAX - 1_001));
    drop(given);
    let mut all = backend.acquire_many_owned(MAX);
    let mut polls = 0;
    while backend.available() > 0 {
        assert!(poll_by(&mut all, &caller).is_none());
        polls += 1;
        assert!(polls < 10_000);
    }
    assert!(polled(&mut all).is_none() && polls > 100);
    let mut behind = backend.acquire_owned();
    assert!(polled(&mut behind).is_none());
    drop(permit);
    let all = polled(&mut all).ok_or("it waits")??;
    assert_eq!(all.count(), MAX);
    drop(all);
    assert!(matches!(polled(&mut behind), Some(Ok(_))) && is_idle(&backend));
    // Closed while it holds many.
    let permit = backend.enter()?;
    let mut all = backend.acquire_many_owned(MAX);
    assert!(polled(&mut all).is_none() && polled(&mut all).is_none());
    backend.close();
    drop(permit);
    assert!(is_idle(&backend) && count(&mut all) == Some(Err(Closed)));
    Ok(())
}

// Threads and tasks wait for one permit and for many, some give up or are dropped, and others don't wait; no kind starves another.
#[test]
fn many_and_one_are_awaited_side_by_side() -> Checked {
    const ROUNDS: u32 = 200;
    let backend = Arc::new(Bulkhead::new("backend", 4)?);
    let inside = AtomicU32::new(0);
    let goes_in = |count: u32| {
        assert!(inside.fetch_add(count, Ordering::SeqCst) + count <= 4);
        thread::yield_now();
        inside.fetch_sub(count, Ordering::SeqCst);
    };
    let goes = |kind: u32, round: u32| match kind % 8 {
        0 => backend.enter_many(3).map(|_permits| goes_in(3)),
        1 => backend.call(|| goes_in(1)),
        2 => {
            let limit = Duration::from_micros(round.into());
            backend.enter_within(limit).map(|_permit| goes_in(1))
        }
        3 => {
            // Dropped at any moment.
            let mut many = backend.acquire_many_owned(4);
            if polled(&mut many).is_none() {
                thread::yield_now();
            }
            Ok(())
        }
        4 => {
            let permit = backend.enter_within(Duration::MAX);
            permit.map(|_permit| goes_in(1))
        }
        5 => block_on(backend.acquire_owned()).map(|_permit| goes_in(1)),
        6 => {
            let permits = backend.enter_many_within(2, Duration::MAX);
            permits.map(|_permits| goes_in(2))
        }
        _ => {
            let count = 1 + (round + kind) % 4;
            block_on(backend.acquire_many_owned(count)).map(|_permits| goes_in(count))
        }
    };
    thread::scope(|scope| {
        for kind in 0..16 {
            let goes = &goes;
            scope.spawn(move || {
                let is_in = |round| goes(kind, round).is_ok() || kind % 8 < 3;
                assert!((0..ROUNDS).all(is_in));
            });
        }
    });
    assert!(is_idle(&backend) && polled(&mut backend.acquire_many_owned(4)).is_some());
    Ok(())
}
