//! A bulkhead and its passes, on one thread and on many, and bulkheads by name.
mod common;

use common::{Checked, elsewhere};
use resil::pass::Pass;
use resil::{
    Bulkhead, BulkheadError, BulkheadRegistry, Closed, Full, NoPermit, OwnedPermit, RegistryError,
};
use std::collections::HashSet;
use std::panic::{AssertUnwindSafe, catch_unwind};
use std::sync::atomic::{AtomicBool, AtomicU32, Ordering};
use std::sync::{Arc, Barrier};
use std::thread;
use std::time::{Duration, Instant};

fn is_send<T: Send>() {}
fn is_send_and_sync<T: Send + Sync>() {}
fn is_static<T: 'static>() {}

#[test]
fn too_many_permits_are_refused() {
    let refused = Bulkhead::new("large", 65_536).err();
    assert_eq!(refused, Some(BulkheadError::TooManyPermits));
    let free = Bulkhead::new("large", 65_535).map(|all| all.available());
    assert_eq!(free, Ok(65_535));
    let said = BulkheadError::TooManyPermits.to_string();
    assert_eq!(said, "there are more than 65535 permits");
    assert_eq!(Full.to_string(), "the bulkhead is full");
    assert_eq!(Closed.to_string(), "the bulkhead is closed");
}

#[test]
fn a_call_that_panics_gives_back() -> Checked {
    let backend = Bulkhead::new("backend", 1)?;
    let mut pass = Pass::new(1)?;
    assert!(catch_unwind(|| backend.call(|| panic!("in the call"))).is_err());
    assert!(catch_unwind(AssertUnwindSafe(|| pass.call(|| panic!("in the call")))).is_err());
    assert_eq!((backend.available(), pass.available()), (1, 1));
    assert_eq!((backend.call(|| 1), pass.call(|| 1)), (Ok(1), Ok(1)));
    Ok(())
}

#[test]
fn a_dropped_pass_gives_back_and_raises() -> Checked {
    let mut first = Pass::new(3)?;
    let mut second = first.split()?;
    std::mem::forget(second.enter()?);
    second.retire()?;
    assert_eq!((first.available(), second.retired()), (1, 1));
    drop(second);
    assert_eq!(first.available(), 3);
    Ok(())
}

#[test]
fn a_retired_permit_is_not_in_use() -> Checked {
    let mut operator = Pass::new(1)?;
    let mut caller = operator.split()?;
    operator.retire()?;
    assert_eq!((operator.retired(), caller.available()), (1, 0));
    assert_eq!(caller.call(|| 7), Err(Full));
    assert_eq!(operator.retire(), Err(Full));
    assert!(operator.raise() && !operator.raise());
    assert_eq!(caller.call(|| 7), Ok(7));
    Ok(())
}

#[test]
fn handles_cross_threads() {
    is_send_and_sync::<Bulkhead>();
    is_send_and_sync::<NoPermit>();
    is_send_and_sync::<BulkheadError>();
    is_send::<resil::Permit<'_>>();
    is_send_and_sync::<OwnedPermit>();
    is_static::<OwnedPermit>();
    is_static::<resil::Acquire>();
    is_send::<Pass>();
}

#[test]
fn a_wait_ends_at_its_limit() -> Checked {
    let backend = Bulkhead::new("backend", 1)?;
    let permit = backend.enter_within(Duration::ZERO)?;
    assert_eq!(backend.enter_within(Duration::ZERO).err(), Some(Full));
    let began = Instant::now();
    let refused = backend.enter_within(Duration::from_millis(20)).err();
    assert_eq!(refused, Some(NoPermit::TimedOut));
    assert!(began.elapsed() >= Duration::from_millis(20));
    drop(permit);
    assert!(backend.enter_within(Duration::MAX).is_ok());
    Ok(())
}

#[test]
fn a_raise_wakes_one_that_waits() -> Checked {
    let backend = Bulkhead::new("backend", 2)?;
    assert_eq!(backend.retire(2), 2);
    thread::scope(|scope| {
        let waits = scope.spawn(|| backend.enter_within(Duration::MAX).is_ok());
        let raised = thread::scope(|scope| scope.spawn(|| backend.raise(1)).join()).ok();
        assert_eq!(raised, Some(1));
        assert!(waits.join().unwrap_or(false));
    });
    assert_eq!((backend.retired(), backend.available()), (1, 1));
    Ok(())
}

#[test]
fn only_free_permits_are_retired() -> Checked {
    let backend = Bulkhead::new("backend", 4)?;
    let permit = backend.enter()?;
    let retired = (backend.retire(0), backend.retire(2), backend.retire(9));
    assert_eq!(retired, (0, 2, 1));
    let counts = (backend.retired(), backend.available(), backend.max());
    assert_eq!(counts, (3, 0, 4));
    drop(permit);
    assert_eq!(backend.call(|| 42), Ok(42));
    let raised = (backend.raise(1), backend.raise(9), backend.raise(1));
    assert_eq!(raised, (1, 2, 0));
    assert_eq!((backend.retired(), backend.available()), (0, 4));
    Ok(())
}

// The permutation with this number of `count` things. There are as many as the product of the numbers up to `count`.
fn order(mut number: usize, count: usize) -> Vec<usize> {
    let mut left: Vec<_> = (0..count).collect();
    let next = |count| {
        let index = number % count;
        number /= count;
        left.remove(index)
    };
    (1..=count).rev().map(next).collect()
}

#[test]
fn permits_come_back_in_every_order() -> Checked {
    let backend = Arc::new(Bulkhead::new("backend", 4)?);
    for order in (0..24).map(|number| order(number, 4)) {
        let mut owned = Vec::new();
        for _ in 0..4 {
            owned.push(Some(backend.enter_owned()?));
        }
        for (given, index) in order.into_iter().enumerate() {
            assert_eq!(backend.available() as usize, given);
            owned[index] = None;
        }
        let mut lent = Vec::new();
        for _ in 0..4 {
            lent.push(backend.enter()?);
        }
        lent.swap(0, 2);
        // By another thread.
        thread::scope(|scope| scope.spawn(|| drop(lent)).join()).map_err(|_| "it panicked")?;
        assert_eq!(backend.available(), 4);
    }
    Ok(())
}

#[test]
fn a_permit_that_is_forgotten_is_held_for_good() -> Checked {
    for order in (0..6).map(|number| order(number, 3)) {
        let backend = Arc::new(Bulkhead::new("backend", 4)?);
        let mut permits = Vec::new();
        for _ in 0..3 {
            permits.push(Some(backend.enter_owned()?));
        }
        for (forgotten, index) in order.into_iter().enumerate() {
            let permit = permits[index].take().ok_or("there is one")?;
            if forgotten == 1 {
                elsewhere(move || permit.forget())?;
            } else {
                permit.forget();
            }
        }
        assert_eq!((backend.available(), backend.retired()), (1, 0));
        assert_eq!((backend.raise(9), Arc::strong_count(&backend)), (0, 1));
        // The last permit is reused, even in a call inside a call.
        let inner = backend.call(|| backend.call(|| 42));
        assert_eq!((inner, backend.call(|| 42)), (Ok(Err(Full)), Ok(42)));
        assert_eq!(backend.retire(4), 1);
    }
    Ok(())
}

#[test]
fn a_load_above_the_limit_is_shed() -> Checked {
    let backend = Bulkhead::new("backend", 3)?;
    let all = Barrier::new(16);
    for _ in 0..50 {
        let entered = AtomicU32::new(0);
        thread::scope(|scope| {
            for _ in 0..16 {
                scope.spawn(|| {
                    let permit = backend.enter();
                    entered.fetch_add(u32::from(permit.is_ok()), Ordering::SeqCst);
                    // Nobody gives a permit back before all have asked.
                    all.wait();
                });
            }
        });
        assert_eq!((entered.into_inner(), backend.available()), (3, 3));
    }
    Ok(())
}

// Waiters that give up don't take a wake-up meant for another.
#[test]
fn some_give_up_while_another_one_waits() -> Checked {
    let backend = Bulkhead::new("backend", 1)?;
    let stop = AtomicBool::new(false);
    thread::scope(|scope| -> Checked {
        let give_up: Vec<_> = (0..4)
            .map(|waits| {
                let (backend, stop) = (&backend, &stop);
                scope.spawn(move || {
                    while !stop.load(Ordering::SeqCst) {
                        let limit = Duration::from_micros(50 * waits);
                        let _permit = backend.enter_within(limit);
                        thread::yield_now();
                    }
                })
            })
            .collect();
        let waits = scope.spawn(|| (0..300).all(|_| backend.enter_within(Duration::MAX).is_ok()));
        let answer = waits.join();
        stop.store(true, Ordering::SeqCst);
        for thread in give_up {
            thread.join().map_err(|_| "it panicked")?;
        }
        assert!(answer.unwrap_or(false));
        Ok(())
    })?;
    assert_eq!(backend.available(), 1);
    Ok(())
}

#[test]
fn numbers_are_told_while_many_are_retired() -> Checked {
    let backend = Bulkhead::new("backend", 20_000)?;
    thread::scope(|scope| {
        let retires = scope.spawn(|| (0..3).map(|_| backend.retire(u32::MAX)).sum::<u32>());
        let raises = scope.spawn(|| (0..3).map(|_| backend.raise(u32::MAX)).sum::<u32>());
        while !(retires.is_finished() && raises.is_finished()) {
            assert!(backend.available() <= 20_000 && backend.retired() <= 20_000);
        }
        let left = retires.join().unwrap_or(0) - raises.join().unwrap_or(0);
        assert_eq!(backend.retired(), left);
    });
    assert_eq!(backend.available() + backend.retired(), 20_000);
    Ok(())
}

#[test]
fn a_bulkhead_is_shown_by_its_numbers() -> Checked {
    let backend = Arc::new(Bulkhead::new("backend", 4)?);
    assert_eq!(backend.retire(1), 1);
    let permit = backend.enter_owned()?;
    let shown = "Bulkhead { name: \"backend\", max: 4, available: 2, retired: 1, .. }";
    assert_eq!(format!("{backend:?}"), shown);
    assert_eq!(
        format!("{permit:?}"),
        format!("OwnedPermit {{ bulkhead: {shown} }}")
    );
    drop(permit);
    let permit = backend.enter()?;
    assert_eq!(
        format!("{permit:?}"),
        format!("Permit {{ bulkhead: {shown} }}")
    );
    Ok(())
}

// 64 threads make a million calls together; a call that is refused is made again.
#[test]
fn a_million_calls_stay_within_the_limit() -> Checked {
    let backend = Bulkhead::new("backend", 3)?;
    let (inside, all) = (AtomicU32::new(0), Barrier::new(64));
    let goes_in = || {
        assert!(inside.fetch_add(1, Ordering::SeqCst) < 3);
        inside.fetch_sub(1, Ordering::SeqCst);
    };
    thread::scope(|scope| {
        for _ in 0..64 {
            scope.spawn(|| {
                all.wait();
                for _ in 0..15_625 {
                    while backend.call(goes_in).is_err() {
                        thread::yield_now();
                    }
                }
            });
        }
    });
    assert_eq!(backend.available(), 3);
    Ok(())
}

#[test]
fn a_name_is_1_to_64_bytes_of_some() {
    let registry = BulkheadRegistry::new(1);
    let longest = "n".repeat(64);
    for name in ["a", "0", "-", "_", ".", "A-z_0.9", &longest] {
        assert!(Bulkhead::new(name, 1).is_ok(), "{name}");
        assert_eq!(registry.add_config(name, 1), Ok(()), "{name}");
        assert!(registry.bulkhead(name).is_ok(), "{name}");
    }
    let too_long = "n".repeat(65);
    for name in ["", " ", "a b", "two prices\n", "a/b", "ä", "a\0", &too_long] {
        let refused = Bulkhead::new(name, 65_536).err();
        assert_eq!(refused, Some(BulkheadError::BadName), "{name}");
        let refused = Some(RegistryError::BadName);
        assert_eq!(registry.add_config(name, 1).err(), refused, "{name}");
        assert_eq!(registry.bulkhead(name).err(), refused, "{name}");
        assert_eq!(registry.bulkhead_with(name, "none").err(), refused);
    }
    // The name of a configuration is looked up, whatever it is.
    let refused = registry.bulkhead_with("new", "a b").err();
    assert_eq!(refused, Some(RegistryError::NoSuchConfig));
}

#[test]
fn a_refused_call_leaves_the_registry_as_it_was() -> Checked {
    let registry = BulkheadRegistry::new(65_536);
    registry.add_config("small", 2)?;
    let refused = registry.bulkhead("a").err();
    assert_eq!(refused, Some(RegistryError::TooManyPermits));
    let refused = registry.bulkhead_with("a", "none").err();
    assert_eq!(refused, Some(RegistryError::NoSuchConfig));
    assert_eq!(registry.bulkhead_with("a", "small")?.max(), 2);
    // If there is a bulkhead, the configuration isn't looked up.
    assert_eq!(registry.bulkhead_with("a", "none")?.max(), 2);
    let said = RegistryError::TooManyPermits.to_string();
    assert_eq!(said, "there are more than 65535 permits");
    Ok(())
}

#[test]
fn threads_that_ask_at_once_get_one_instance() -> Checked {
    for round in 0..20 {
        let registry = BulkheadRegistry::new(3);
        registry.add_config("small", 2)?;
        let barrier = Barrier::new(64);
        let name = format!("backend-{round}");
        let ask = |thread: usize| {
            barrier.wait();
            match thread % 2 {
                0 => registry.bulkhead(&name),
                _ => registry.bulkhead_with(&name, "small"),
            }
        };
        let found: Vec<Result<Arc<Bulkhead>, RegistryError>> = thread::scope(|scope| {
            let threads: Vec<_> = (0..64)
                .map(|thread| scope.spawn(move || ask(thread)))
                .collect();
            let joined = threads.into_iter().map(std::thread::ScopedJoinHandle::join);
            joined.map(|found| found.expect("no panic")).collect()
        });
        let found = found.into_iter().collect::<Result<Vec<_>, _>>()?;
        let instances: HashSet<_> = found.iter().map(Arc::as_ptr).collect();
        assert_eq!(instances.len(), 1);
        assert!([2, 3].contains(&found[0].max()));
        // All of them take from the same permits.
        let permits: Vec<_> = found.iter().filter_map(|one| one.enter().ok()).collect();
        assert_eq!(permits.len(), found[0].max() as usize);
    }
    Ok(())
}

#[test]
fn all_bulkheads_are_told_by_their_names() -> Checked {
    let registry = BulkheadRegistry::new(2);
    assert!(registry.bulkheads().is_empty());
    let prices = registry.bulkhead("prices")?;
    registry.bulkhead("a")?;
    registry.bulkhead("Z")?;
    let all = registry.bulkheads();
    let names: Vec<_> = all.iter().map(|bulkhead| bulkhead.name()).collect();
    assert_eq!(names, ["Z", "a", "prices"]);
    assert!(Arc::ptr_eq(&all[2], &prices));
    Ok(())
}

#[test]
fn a_registry_is_shown_by_its_names() -> Checked {
    let registry = BulkheadRegistry::new(25);
    registry.add_config("small", 2)?;
    let _letters = registry.bulkhead_with("letters", "small")?;
    let shown = "BulkheadRegistry { configurations: [(\"default\", 25), (\"small\", 2)], \
                 bulkheads: [Bulkhead { name: \"letters\", max: 2, available: 2, retired: 0, .. }] }";
    assert_eq!(format!("{registry:?}"), shown);
    Ok(())
}

#[test]
fn the_errors_say_what_the_library_says() {
    use RegistryError::{BadName, Memory, NameTaken, NoSuchConfig, ReservedName};
    let name = "a name must be 1 to 64 bytes of ASCII letters, digits, `-`, `_` and `.`";
    let said = [
        (ReservedName, "the name `default` is reserved"),
        (NoSuchConfig, "no configuration has that name"),
        (NameTaken, "a configuration already has that name"),
        (BadName, name),
        (Memory, "out of memory"),
    ];
    for (error, words) in said {
        assert_eq!(error.to_string(), words);
    }
    assert_eq!(BulkheadError::BadName.to_string(), name);
}

#[test]
fn a_name_is_removed() -> Checked {
    let registry = BulkheadRegistry::new(2);
    assert!(registry.remove("prices").is_none());
    let first = registry.bulkhead("prices")?;
    let permit = first.enter()?;
    let removed = registry.remove("prices").ok_or("it isn't there")?;
    assert!(Arc::ptr_eq(&first, &removed) && registry.bulkheads().is_empty());
    let second = registry.bulkhead("prices")?;
    assert!(!Arc::ptr_eq(&first, &second));
    assert_eq!((first.available(), second.available()), (1, 2));
    drop(permit);
    assert_eq!(removed.available(), 2);
    Ok(())
}
