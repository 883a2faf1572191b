//! Futures called under a permit, by a bulkhead and by a chain: the permit is held from the call to the answer.
mod common;

use common::{Checked, block_on, is_idle, polled};
use resil::{Bulkhead, CallError, Decorators, Interval, Retry};
use std::cell::Cell;
use std::future;
use std::panic::{AssertUnwindSafe, catch_unwind};
use std::pin::Pin;
use std::sync::Arc;
use std::task::Poll;
use std::time::Duration;

/// Why a call fails.
#[derive(Debug, Clone, Copy, PartialEq)]
struct TooMuch;

type Answer = Result<u32, CallError<TooMuch>>;
type Call<'a> = Pin<Box<dyn Future<Output = Answer> + 'a>>;

// Returns its number when it is polled the second time; 0 panics, and above 9 it fails.
async fn ask(number: u32) -> Result<u32, TooMuch> {
    let mut is_asked = false;
    future::poll_fn(|_| {
        assert!(number > 0, "no number");
        if std::mem::replace(&mut is_asked, true) {
            Poll::Ready(())
        } else {
            Poll::Pending
        }
    })
    .await;
    if number > 9 { Err(TooMuch) } else { Ok(number) }
}

fn flat(called: Result<Result<u32, TooMuch>, resil::NoPermit>) -> Answer {
    called?.map_err(CallError::Failed)
}

const LIMIT: Duration = Duration::from_millis(7);

// A sleep that is over at once.
async fn no_time(time: Duration) {
    assert_eq!(time, LIMIT);
}

// One that never is.
fn for_ever(_time: Duration) -> future::Pending<()> {
    future::pending()
}

// A call of each kind: without a limit, with one that isn't reached, and by chains.
fn calls(backend: &Arc<Bulkhead>, number: u32) -> [Call<'_>; 4] {
    [
        Box::pin(async move { flat(backend.call_async(|| ask(number)).await) }),
        Box::pin(async move {
            let called = backend.call_async_within(|| ask(number), LIMIT, for_ever);
            flat(called.await)
        }),
        Box::pin(async move {
            let chain = Decorators::of_async(|| ask(number)).inside(backend);
            chain.call_async(for_ever).await
        }),
        Box::pin(async move {
            let chain = Decorators::of_async(ask).inside_within(Arc::clone(backend), LIMIT);
            chain.call_async(number, for_ever).await
        }),
    ]
}

#[test]
fn a_permit_is_held_across_an_await() -> Checked {
    let backend = Arc::new(Bulkhead::new("backend", 1)?);
    for number in [7, 10] {
        for mut call in calls(&backend, number) {
            assert!(polled(&mut call).is_none());
            assert_eq!(backend.available(), 0);
            let failed = Err(CallError::Failed(TooMuch));
            let answer = if number > 9 { failed } else { Ok(number) };
            assert_eq!(polled(&mut call), Some(answer));
            assert!(is_idle(&backend));
        }
    }
    // It waits for its permit, and nothing is called before.
    for mut call in calls(&backend, 7) {
        let permit = backend.enter()?;
        assert!(polled(&mut call).is_none() && polled(&mut call).is_none());
        assert_eq!(backend.numbers().waiting, 1);
        drop(permit);
        assert!(polled(&mut call).is_none());
        assert_eq!(polled(&mut call), Some(Ok(7)));
        assert!(is_idle(&backend));
    }
    Ok(())
}

#[test]
fn a_call_is_dropped_panics_or_is_refused() -> Checked {
    let backend = Arc::new(Bulkhead::new("backend", 1)?);
    for mut call in calls(&backend, 7) {
        assert!(polled(&mut call).is_none() && backend.available() == 0);
        drop(call);
        assert!(is_idle(&backend));
    }
    for mut call in calls(&backend, 7) {
        let permit = backend.enter()?;
        assert!(polled(&mut call).is_none());
        drop(call);
        assert_eq!(backend.numbers().waiting, 0);
        drop(permit);
    }
    for mut call in calls(&backend, 0) {
        let panics = AssertUnwindSafe(|| polled(&mut call));
        assert!(catch_unwind(panics).is_err());
        assert!(is_idle(&backend));
    }
    let permit = backend.enter()?;
    let mut waiting = calls(&backend, 7);
    assert!(waiting.iter_mut().all(|call| polled(call).is_none()));
    backend.close();
    let closed = Some(Err(CallError::Closed));
    assert!(waiting.iter_mut().all(|call| polled(call) == closed));
    drop((waiting, permit));
    assert!(
        calls(&backend, 7)
            .iter_mut()
            .all(|call| polled(call) == closed)
    );
    Ok(())
}

#[test]
fn a_wait_has_its_end() -> Checked {
    let backend = Arc::new(Bulkhead::new("backend", 1)?);
    let chain = Decorators::of_async(ask).inside_within(&backend, LIMIT);
    let permit = backend.enter()?;
    let called = block_on(backend.call_async_within(|| ask(7), LIMIT, no_time));
    assert_eq!(flat(called), Err(CallError::TimedOut));
    assert_eq!(
        polled(&mut Box::pin(chain.call_async(7, no_time))),
        Some(Err(CallError::TimedOut))
    );
    drop(permit);
    // The call itself has none.
    let mut call = Box::pin(chain.call_async(7, no_time));
    assert!(polled(&mut call).is_none());
    assert_eq!(polled(&mut call), Some(Ok(7)));
    drop(call);
    assert!(is_idle(&backend));
    Ok(())
}

// A chain in a service, called by tasks: each attempt has its own permit, and the fallback has the last word.
#[test]
fn a_chain_is_called_by_tasks() -> Checked {
    fn spawned<F: Future<Output = Answer> + Send + 'static>(task: F) -> Call<'static> {
        Box::pin(task)
    }
    let backend = Arc::new(Bulkhead::new("backend", 1)?);
    let retry = Retry::new().attempts(3).interval(Interval::fixed(LIMIT));
    let retry = retry.retry_if(|error: &CallError<TooMuch>| *error == CallError::Failed(TooMuch));
    let chain = Decorators::of_async(ask)
        .inside(Arc::clone(&backend))
        .retried(retry)
        .or_else(|error| {
            if error == CallError::Failed(TooMuch) {
                Ok(9)
            } else {
                Err(error)
            }
        });
    let chain = Arc::new(chain);
    let shared = Arc::clone(&chain);
    let mut task = spawned(async move { shared.call_async(10, no_time).await });
    // Two polls for each attempt: in one the permit is held, in the other given back.
    for _ in 0..3 {
        assert!(polled(&mut task).is_none() && backend.available() == 0);
    }
    assert_eq!(polled(&mut task), Some(Ok(9)));
    assert!(is_idle(&backend));
    // State that changes is in a cell.
    let asked = Cell::new(0);
    let counts = || {
        asked.set(asked.get() + 1);
        future::ready(Err::<u32, _>(TooMuch))
    };
    let chain = Decorators::of_async(counts).retried(Retry::new().attempts(4));
    let answer = polled(&mut Box::pin(chain.call_async(|_wait| future::ready(()))));
    assert_eq!(
        (answer, asked.get()),
        (Some(Err(CallError::Failed(TooMuch))), 4)
    );
    Ok(())
}
