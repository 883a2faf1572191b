//! Layers around a function, innermost first.
mod common;

use common::Checked;
use resil::{Bulkhead, CallError, Decorators, Interval, KeptLayer, Layer, Retry};
use std::cell::{OnceCell, RefCell};
use std::error::Error;
use std::fmt;
use std::panic::{AssertUnwindSafe, catch_unwind};
use std::sync::atomic::{AtomicU32, Ordering};
use std::sync::{Arc, Mutex};
use std::thread;
use std::time::Duration;

const NOT_CALLED: &str = "it isn't called";

#[test]
fn a_permit_is_held_over_all_attempts_of_a_retry_inside() -> Checked {
    let backend = Bulkhead::new("backend", 1)?;
    let free = RefCell::new(Vec::new());
    let retry = Retry::new().pause_by(|_| free.borrow_mut().push(backend.available()));
    let failing = || Err::<(), _>("no");
    let outside = Decorators::of(failing)
        .retried(&retry)
        .inside(&backend)
        .call();
    assert_eq!(outside, Err(CallError::Failed("no")));
    assert_eq!(free.take(), [0, 0]);
    let inside = Decorators::of(failing)
        .inside(&backend)
        .retried(&retry)
        .call();
    assert_eq!(inside, Err(CallError::Failed("no")));
    assert_eq!(free.take(), [1, 1]);
    Ok(())
}

#[test]
fn a_panic_gives_the_permits_back() -> Checked {
    let backend = Bulkhead::new("backend", 2)?;
    let retry = Retry::new().pause_by(|_| unreachable!("{NOT_CALLED}"));
    let mut chain = Decorators::of(|| -> Result<u32, String> { panic!("out of paper") })
        .inside(&backend)
        .retried(&retry)
        .inside(&backend)
        .or_else(|_| unreachable!("{NOT_CALLED}"));
    for _ in 0..3 {
        assert!(catch_unwind(AssertUnwindSafe(|| chain.call())).is_err());
        assert_eq!(backend.available(), 2);
    }
    Ok(())
}

fn called<L: Layer<Value = u32, Error = String>>(mut chain: Decorators<L>) -> Option<u32> {
    chain.call().ok()
}

#[test]
fn a_chain_goes_to_a_thread_and_into_a_function() -> Checked {
    let backend = Arc::new(Bulkhead::new("backend", 1)?);
    let retry = Arc::new(Retry::new().retry_value_if(|value: &u32| *value == 0));
    let chain = Decorators::of(|| Ok::<_, String>(7))
        .inside(&backend)
        .retried(&retry);
    let answer = thread::scope(|scope| scope.spawn(|| called(chain)).join());
    assert_eq!(answer.map_err(|_| "it panicked")?, Some(7));
    Ok(())
}

/// An error that is no `Error`, as a `Box<dyn Error>` is none.
#[derive(Debug)]
struct Plain;

impl fmt::Display for Plain {
    fn fmt(&self, f: &mut fmt::Formatter<'_>) -> fmt::Result {
        f.write_str("plain")
    }
}

#[test]
fn the_error_of_a_call_is_an_error_whatever_is_inside() {
    let boxed = |error: CallError<Box<dyn Error>>| -> Box<dyn Error> { Box::new(error) };
    assert_eq!(boxed(CallError::Full).to_string(), "the bulkhead is full");
    assert_eq!(boxed(CallError::Failed("no".into())).to_string(), "no");
    let plain: Box<dyn Error + Send + Sync> = Box::new(CallError::Failed(Plain));
    assert_eq!(plain.to_string(), "plain");
    let failing = || -> Checked {
        Decorators::of(|| Err::<(), _>(Plain)).call()?;
        Ok(())
    };
    assert!(failing().is_err());
}

// A service that keeps a chain without naming its type.
struct Prices<L> {
    chain: Decorators<L, (u32,)>,
}

impl<L: KeptLayer<(u32,), Value = u32, Error = &'static str>> Prices<L> {
    fn of(&self, id: u32) -> Result<u32, CallError<&'static str>> {
        self.chain.call(id)
    }
}

fn is_shared<T: Send + Sync + 'static>(_value: &T) {}

#[test]
fn a_chain_that_is_kept_is_called_by_many_threads() -> Checked {
    let backend = Arc::new(Bulkhead::new("backend", 64)?);
    let asked = Arc::new(AtomicU32::new(0));
    let counts = Arc::clone(&asked);
    let retry = Retry::new()
        .interval(Interval::fixed(Duration::ZERO))
        .retry_if(|error: &CallError<&str>| *error == CallError::Failed("busy"));
    // Each third answer is one for now.
    let prices = Prices {
        chain: Decorators::of(
            move |id: u32| match counts.fetch_add(1, Ordering::Relaxed) % 3 {
                0 if id > 0 => Err("busy"),
                _ => id.checked_mul(100).ok_or("gone"),
            },
        )
        .inside(Arc::clone(&backend))
        .retried(retry)
        .or_else(|error| match error {
            CallError::Failed("busy") => Ok(1),
            error => Err(error),
        }),
    };
    is_shared(&prices.chain);
    thread::scope(|scope| {
        for id in 1..=8 {
            let prices = &prices;
            scope.spawn(move || {
                for _ in 0..200 {
                    let answer = prices.of(id);
                    assert!(answer == Ok(id * 100) || answer == Ok(1), "{answer:?}");
                }
            });
        }
    });
    assert_eq!(prices.of(0), Ok(0));
    assert_eq!(prices.of(u32::MAX).map_err(|_| ()), Err(()));
    assert!(asked.load(Ordering::Relaxed) > 1_600);
    assert_eq!(backend.available(), 64);
    Ok(())
}

#[test]
fn each_attempt_has_a_copy_of_the_argument() -> Checked {
    let backend = Bulkhead::new("backend", 1)?;
    let seen = Mutex::new(Vec::new());
    let retry = Retry::new().pause_by(|_| {});
    let chain = Decorators::of(|text: String| {
        let mut seen = seen.lock().map_err(|_| "poisoned")?;
        seen.push(text);
        if seen.len() < 3 {
            Err("not yet")
        } else {
            Ok(seen.len())
        }
    })
    .inside(&backend)
    .retried(&retry);
    assert_eq!(chain.call("a letter".into()), Ok(3));
    assert_eq!(*seen.lock().map_err(|_| "poisoned")?, ["a letter"; 3]);
    // Without a retry nothing is copied: this argument can't be.
    let sent = Decorators::of(|letter: Mutex<u32>| letter.into_inner()).inside(&backend);
    assert_eq!(sent.call(Mutex::new(7)).ok(), Some(7));
    // A call inside itself is refused, like any other.
    let inside = OnceCell::new();
    let outer = Decorators::of(|depth: u32| -> Result<u32, String> {
        let call: &dyn Fn(u32) -> bool = *inside.get().ok_or("none")?;
        assert!(depth > 0 || !call(1));
        Ok(depth)
    })
    .inside(&backend);
    let call = |depth| outer.call(depth).is_ok();
    let called = inside.set(&call as &dyn Fn(u32) -> bool);
    assert!(called.is_ok() && call(0));
    Ok(())
}

#[test]
fn a_chain_that_is_kept_hands_errors_on() -> Checked {
    let closed = Bulkhead::new("closed", 0)?;
    let chain = Decorators::of(|n: u32| if n > 1 { Ok(n) } else { Err("low") });
    assert_eq!(chain.call(2), Ok(2));
    assert_eq!(chain.call(1), Err(CallError::Failed("low")));
    let refused = chain.inside(&closed).or_else(|error| match error {
        CallError::Failed(_) => Ok(0),
        error => Err(error),
    });
    assert_eq!(refused.call(2), Err(CallError::Full));
    assert_eq!(format!("{refused:?}"), "Decorators { .. }");
    // One whose argument says nothing; it is called by reference too.
    let constant = Decorators::of(|(): ()| Ok::<_, String>(42));
    assert_eq!((constant.call(()), constant.call(())), (Ok(42), Ok(42)));
    Ok(())
}
