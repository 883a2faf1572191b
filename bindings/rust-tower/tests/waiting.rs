//! The layer that waits: when a service is ready, and where its permit goes at each step at which it may be dropped.
mod common;

use common::{Answers, Checked, all_are_made, context, is_idle, polled};
use resil::Bulkhead;
use resil_tower::{BulkheadLayer, BulkheadService};
use std::error::Error;
use std::panic::{AssertUnwindSafe, catch_unwind};
use std::sync::Arc;
use std::task::Poll;
use tower::{Layer, Service, ServiceExt};

fn waiting(max: u32) -> Result<(Arc<Bulkhead>, BulkheadService<Answers>), Box<dyn Error>> {
    let backend = Arc::new(Bulkhead::new("backend", max)?);
    let service = BulkheadLayer::waiting(Arc::clone(&backend)).layer(Answers { looks: 0 });
    Ok((backend, service))
}

fn is_ready(service: &mut BulkheadService<Answers>) -> bool {
    match service.poll_ready(&mut context()) {
        Poll::Ready(answer) => answer.is_ok(),
        Poll::Pending => false,
    }
}

#[test]
fn a_service_is_ready_once_it_has_a_permit() -> Checked {
    let (backend, mut first) = waiting(1)?;
    let mut second = first.clone();
    assert_eq!(backend.available(), 1);
    assert!(is_ready(&mut first) && is_ready(&mut first));
    assert_eq!(backend.available(), 0);
    // A clone has no permit.
    assert!(!is_ready(&mut second) && !is_ready(&mut first.clone()));
    let answer = first.call(7);
    assert!(!is_ready(&mut first) && !is_ready(&mut second));
    assert!(matches!(polled(answer), Poll::Ready(Ok(7))));
    // The second one is now before the first one.
    assert!(!is_ready(&mut first) && is_ready(&mut second));
    drop(second);
    assert!(is_ready(&mut first));
    drop(first);
    assert!(is_idle(&backend));
    Ok(())
}

#[test]
fn a_call_is_dropped_at_each_step() -> Checked {
    let (backend, service) = waiting(1)?;
    let is_free = || is_idle(&backend);
    drop(service.clone());
    assert!(is_free());
    // With its permit.
    let mut ready = service.clone();
    assert!(is_ready(&mut ready));
    drop(ready);
    assert!(is_free());
    // While it waits, and with a permit that it was given but hasn't seen.
    let permit = backend.enter()?;
    let mut waits = service.clone();
    assert!(!is_ready(&mut waits));
    drop(waits);
    assert_eq!(backend.numbers().waiting, 0);
    let mut waits = service.clone();
    assert!(!is_ready(&mut waits));
    drop(permit);
    assert_eq!(backend.available(), 0);
    drop(waits);
    assert!(is_free());
    // With a call that wasn't polled, and one that was.
    for polls in [false, true] {
        let mut called = service.clone();
        assert!(is_ready(&mut called));
        let mut call = Box::pin(called.call(0));
        assert!(!polls || polled(call.as_mut()).is_pending());
        assert_eq!(backend.available(), 0);
        drop(call);
        assert!(is_free());
    }
    // With one that panics.
    let mut called = service.clone();
    assert!(is_ready(&mut called));
    let panics = AssertUnwindSafe(|| drop(called.call(1)));
    assert!(catch_unwind(panics).is_err() && is_free());
    Ok(())
}

#[test]
fn a_permit_is_kept_while_the_inner_service_is_not_ready() -> Checked {
    let backend = Arc::new(Bulkhead::new("backend", 1)?);
    // Dropped while it isn't ready, once it has failed, and after a panic.
    for looks in [4, 3, Answers::PANICS + 2] {
        let mut service = BulkheadLayer::waiting(Arc::clone(&backend)).layer(Answers { looks });
        assert!(service.poll_ready(&mut context()).is_pending());
        assert_eq!(backend.available(), 0);
        let look = catch_unwind(AssertUnwindSafe(|| service.poll_ready(&mut context())));
        assert_eq!(look.is_err(), looks > Answers::PANICS);
        assert_eq!(backend.available(), 0);
        drop(service);
        assert!(is_idle(&backend));
    }
    // A task that awaits it and gives up: `oneshot` owns the service.
    let service = BulkheadLayer::waiting(Arc::clone(&backend)).layer(Answers { looks: 2 });
    let mut call = Box::pin(service.oneshot(7));
    assert!(polled(call.as_mut()).is_pending() && backend.available() == 0);
    drop(call);
    assert_eq!(backend.available(), 1);
    Ok(())
}

#[test]
fn a_call_before_it_is_ready_panics() -> Checked {
    let (backend, mut service) = waiting(1)?;
    let early = AssertUnwindSafe(|| drop(service.call(7)));
    assert!(catch_unwind(early).is_err());
    assert_eq!(backend.available(), 1);
    Ok(())
}

#[tokio::test(flavor = "multi_thread", worker_threads = 4)]
async fn all_calls_are_made_and_few_at_a_time() -> Checked {
    all_are_made(|backend, inner| BulkheadLayer::waiting(backend).layer(inner)).await
}
