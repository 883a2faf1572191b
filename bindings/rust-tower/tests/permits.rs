//! What the service returns, and that each permit is given back just once: with an answer, with a future that is dropped at any step, and
//! after a panic.
mod common;

use common::{Answers, context, polled};
use resil::{Bulkhead, BulkheadError};
use resil_tower::{BulkheadLayer, BulkheadService, CallError};
use std::cell::Cell;
use std::future::{self, Future};
use std::panic::{self, AssertUnwindSafe};
use std::pin::{Pin, pin};
use std::sync::Arc;
use std::task::{Context, Poll};
use std::time::Duration;
use tower::{BoxError, Layer, Service, ServiceBuilder, ServiceExt, service_fn};

// The point at which the inner service panics.
#[derive(Clone, Copy, PartialEq, Eq)]
enum Panics {
    Never,
    InCall,
    InPoll,
    InDrop,
}

// Each call is pending this many times, and then answers 42. A future that is dropped records how many permits were free.
#[derive(Clone)]
struct Backend<'a> {
    panics: Panics,
    bulkhead: &'a Bulkhead,
    free_at_drop: &'a Cell<Option<u32>>,
}

struct Answer<'a> {
    backend: Backend<'a>,
    pending: u32,
}

impl<'a> Service<u32> for Backend<'a> {
    type Response = u32;
    type Error = &'static str;
    type Future = Answer<'a>;

    fn poll_ready(&mut self, _: &mut Context<'_>) -> Poll<Result<(), &'static str>> {
        Poll::Ready(Ok(()))
    }

    fn call(&mut self, pending: u32) -> Answer<'a> {
        assert!(self.panics != Panics::InCall, "in call");
        let backend = self.clone();
        Answer { backend, pending }
    }
}

impl Future for Answer<'_> {
    type Output = Result<u32, &'static str>;

    fn poll(mut self: Pin<&mut Self>, _: &mut Context<'_>) -> Poll<Self::Output> {
        assert!(self.backend.panics != Panics::InPoll, "in poll");
        if self.pending == 0 {
            return Poll::Ready(Ok(42));
        }
        self.pending -= 1;
        Poll::Pending
    }
}

impl Drop for Answer<'_> {
    fn drop(&mut self) {
        let free = self.backend.bulkhead.available();
        self.backend.free_at_drop.set(Some(free));
        assert!(self.backend.panics != Panics::InDrop, "in drop");
    }
}

type Guarded<'a> = BulkheadService<Backend<'a>>;

// Runs with a service that panics there, over a bulkhead of one permit, which must be free in the end, and just once.
fn play(panics: Panics, played: impl FnOnce(&Bulkhead, Guarded<'_>)) -> Result<(), BulkheadError> {
    let bulkhead = Arc::new(Bulkhead::new("backend", 1)?);
    let free_at_drop = Cell::new(None);
    let backend = Backend {
        panics,
        bulkhead: &bulkhead,
        free_at_drop: &free_at_drop,
    };
    let service = BulkheadLayer::new(Arc::clone(&bulkhead)).layer(backend);
    played(&bulkhead, service);
    let permit = bulkhead.enter();
    assert!(permit.is_ok() && bulkhead.enter().is_err());
    drop(permit);
    assert_eq!(bulkhead.available(), 1);
    // A call is over before its permit is free.
    assert!(free_at_drop.get().is_none_or(|free| free == 0));
    Ok(())
}

fn has_panicked<T>(function: impl FnOnce() -> T) -> bool {
    panic::catch_unwind(AssertUnwindSafe(function)).is_err()
}

#[test]
fn a_future_is_dropped_before_its_answer() -> Result<(), BulkheadError> {
    play(Panics::Never, |bulkhead, mut service| {
        for polls in 0..=2 {
            let mut call = Box::pin(service.call(2));
            for _ in 0..polls {
                assert_eq!(call.as_mut().poll(&mut context()), Poll::Pending);
            }
            assert_eq!(bulkhead.available(), 0);
            drop(call);
        }
    })
}

#[test]
fn a_future_is_dropped_after_its_answer() -> Result<(), BulkheadError> {
    play(Panics::Never, |bulkhead, mut service| {
        let mut call = Box::pin(service.call(1));
        assert_eq!(call.as_mut().poll(&mut context()), Poll::Pending);
        assert_eq!(call.as_mut().poll(&mut context()), Poll::Ready(Ok(42)));
        // The answer has given the permit back, so that the next call may have it.
        assert_eq!(bulkhead.available(), 1);
        let next = service.call(0);
        drop(call);
        assert_eq!(bulkhead.available(), 0);
        drop(next);
    })
}

#[test]
fn a_refused_future_is_dropped_at_each_step() -> Result<(), BulkheadError> {
    play(Panics::Never, |bulkhead, mut service| {
        let held = service.call(0);
        drop(service.call(0));
        let mut refused = Box::pin(service.call(0));
        let answer = refused.as_mut().poll(&mut context());
        assert_eq!(answer, Poll::Ready(Err(CallError::Full)));
        drop(refused);
        assert_eq!(bulkhead.available(), 0);
        drop(held);
    })
}

#[test]
fn the_inner_service_panics_while_it_is_called() -> Result<(), BulkheadError> {
    play(Panics::InCall, |bulkhead, mut service| {
        assert!(has_panicked(|| drop(service.call(0))));
        assert_eq!(bulkhead.available(), 1);
    })
}

#[test]
fn the_inner_future_panics_while_it_is_polled() -> Result<(), BulkheadError> {
    play(Panics::InPoll, |_, mut service| {
        let mut call = Box::pin(service.call(0));
        assert!(has_panicked(|| call.as_mut().poll(&mut context())));
        drop(call);
    })
}

#[test]
fn the_inner_future_panics_while_it_is_dropped() -> Result<(), BulkheadError> {
    play(Panics::InDrop, |bulkhead, mut service| {
        let call = service.call(0);
        assert!(has_panicked(|| drop(call)));
        assert_eq!(bulkhead.available(), 1);
        // A call that has its answer also drops the inner future.
        let mut call = Box::pin(service.call(0));
        assert!(has_panicked(|| call.as_mut().poll(&mut context())));
        assert_eq!(bulkhead.available(), 1);
    })
}

#[test]
#[should_panic(expected = "a call's future was polled after completion")]
fn a_future_is_polled_after_its_answer() {
    let bulkhead = Arc::new(Bulkhead::new("backend", 0).expect("it has its memory"));
    let hangs = service_fn(|_: ()| future::pending::<Result<(), ()>>());
    let mut call = pin!(BulkheadLayer::new(bulkhead).layer(hangs).call(()));
    assert!(call.as_mut().poll(&mut context()).is_ready());
    let _ = call.poll(&mut context());
}

#[test]
fn it_is_ready_as_the_inner_service_is() -> Result<(), BulkheadError> {
    let failed = CallError::Failed("no route");
    let looked = [Poll::Ready(Ok(())), Poll::Ready(Err(failed)), Poll::Pending];
    for max in [0, 1] {
        let bulkhead = Arc::new(Bulkhead::new("backend", max)?);
        for (looks, wanted) in (0..).zip(looked) {
            let mut service = BulkheadLayer::new(Arc::clone(&bulkhead)).layer(Answers { looks });
            assert_eq!(service.poll_ready(&mut context()), wanted);
        }
        assert_eq!(bulkhead.available(), max);
    }
    Ok(())
}

#[test]
fn a_refused_call_does_not_reach_the_inner_service() -> Result<(), Box<dyn std::error::Error>> {
    let bulkhead = Arc::new(Bulkhead::new("backend", 2)?);
    let mut service = BulkheadLayer::new(Arc::clone(&bulkhead)).layer(Answers { looks: 0 });
    let permits = [bulkhead.enter()?, bulkhead.enter()?];
    // The inner service would panic.
    let refused = service.call(1);
    // It was refused when it was made: a permit that is given back later doesn't change that.
    drop(permits);
    assert_eq!(polled(refused), Poll::Ready(Err(CallError::Full)));
    assert_eq!(bulkhead.available(), 2);
    assert_eq!(polled(service.call(42)), Poll::Ready(Ok(42)));
    let failed = Poll::Ready(Err(CallError::Failed("no route")));
    assert_eq!(polled(service.call(2)), failed);
    Ok(())
}

// The clock is paused while there is something to do.
#[tokio::test(start_paused = true)]
async fn it_stands_between_layers_of_tower() -> Result<(), BoxError> {
    let bulkhead = Arc::new(Bulkhead::new("backend", 1)?);
    let mut service = ServiceBuilder::new()
        .buffer(4)
        .timeout(Duration::from_millis(20))
        .layer(BulkheadLayer::new(Arc::clone(&bulkhead)))
        .concurrency_limit(4)
        .service(service_fn(async |hangs: bool| match hangs {
            true => future::pending().await,
            false => Ok::<u32, BoxError>(42),
        }));
    let permit = bulkhead.enter()?;
    let full = service.ready().await?.call(false).await.unwrap_err();
    assert_eq!(full.to_string(), "the bulkhead is full");
    drop(permit);
    let late = service.ready().await?.call(true).await.unwrap_err();
    assert!(late.is::<tower::timeout::error::Elapsed>(), "{late}");
    // The timeout has dropped the call that hung.
    assert_eq!(bulkhead.available(), 1);
    assert_eq!(service.ready().await?.call(false).await?, 42);
    Ok(())
}
