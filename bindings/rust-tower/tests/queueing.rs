//! The layer whose calls wait: nothing is held before a call, and its future may be dropped at each step.
mod common;

use common::{Answers, Checked, all_are_made, is_idle, polled};
use resil::{Bulkhead, Observer, WaitEnd};
use resil_tower::{BulkheadLayer, CallError, QueueingService};
use std::error::Error;
use std::panic::{AssertUnwindSafe, catch_unwind};
use std::sync::atomic::{AtomicU32, Ordering};
use std::sync::{Arc, Mutex};
use std::task::Poll;
use std::time::Duration;
use tower::{BoxError, Layer, Service, ServiceBuilder, ServiceExt};

fn queueing(looks: u32) -> Result<(Arc<Bulkhead>, QueueingService<Answers>), Box<dyn Error>> {
    let backend = Arc::new(Bulkhead::new("backend", 1)?);
    let service = BulkheadLayer::queueing(Arc::clone(&backend)).layer(Answers { looks });
    Ok((backend, service))
}

#[test]
fn calls_are_served_in_order() -> Checked {
    let (backend, mut service) = queueing(0)?;
    let permit = backend.enter()?;
    let mut calls = [7, 8, 9].map(|number| Box::pin(service.call(number)));
    assert!(calls.iter_mut().all(|call| polled(call).is_pending()));
    assert_eq!(backend.numbers().waiting, 3);
    drop(permit);
    // The permit is the first one's.
    let [mut first, mut second, mut third] = calls;
    assert!(polled(&mut third).is_pending() && polled(&mut second).is_pending());
    assert_eq!(polled(&mut first), Poll::Ready(Ok(7)));
    assert!(polled(&mut third).is_pending());
    assert_eq!(polled(&mut second), Poll::Ready(Ok(8)));
    assert_eq!(polled(&mut third), Poll::Ready(Ok(9)));
    assert!(is_idle(&backend));
    Ok(())
}

#[test]
fn a_call_is_dropped_at_each_step() -> Checked {
    let (backend, mut service) = queueing(2)?;
    // While it waits, and with a permit that it was given but hasn't seen.
    for is_given in [false, true] {
        let permit = backend.enter()?;
        let mut call = Box::pin(service.call(7));
        assert!(polled(&mut call).is_pending());
        let held = (!is_given).then_some(permit);
        assert_eq!(backend.available(), 0);
        assert_eq!(backend.numbers().waiting, usize::from(!is_given));
        drop(call);
        drop(held);
        assert!(is_idle(&backend));
    }
    // While the inner service isn't ready but there is a permit, and during the call.
    for polls in 1..=2 {
        let mut call = Box::pin(service.call(0));
        for _ in 0..polls {
            assert!(polled(&mut call).is_pending());
        }
        assert_eq!(backend.available(), 0);
        drop(call);
        assert!(is_idle(&backend));
    }
    // Once it has its answer, while its future is still there.
    let mut call = Box::pin(service.call(7));
    assert!(polled(&mut call).is_pending());
    assert_eq!(polled(&mut call), Poll::Ready(Ok(7)));
    assert!(is_idle(&backend));
    let again = AssertUnwindSafe(|| polled(&mut call));
    assert!(catch_unwind(again).is_err());
    Ok(())
}

#[test]
fn no_permit_is_left_where_there_is_no_call() -> Checked {
    // The inner service fails.
    let (backend, mut service) = queueing(1)?;
    let mut call = Box::pin(service.call(7));
    let answer = polled(&mut call);
    assert_eq!(answer, Poll::Ready(Err(CallError::Failed("no route"))));
    assert!(is_idle(&backend));
    // It panics.
    let (backend, mut service) = queueing(0)?;
    let mut call = Box::pin(service.call(1));
    let panics = AssertUnwindSafe(|| polled(&mut call));
    assert!(catch_unwind(panics).is_err() && is_idle(&backend));
    // The bulkhead is closed, while a call waits and before one asks.
    let permit = backend.enter()?;
    let mut call = Box::pin(service.call(7));
    assert!(polled(&mut call).is_pending());
    backend.close();
    drop(permit);
    for mut call in [call, Box::pin(service.call(7))] {
        assert_eq!(polled(&mut call), Poll::Ready(Err(CallError::Closed)));
    }
    assert!(is_idle(&backend));
    Ok(())
}

/// Counts refusals, and calls that time out with their permit, and keeps the last wait.
#[derive(Default)]
struct Refusals(AtomicU32, AtomicU32, Mutex<Vec<(WaitEnd, Duration)>>);

impl Observer for Refusals {
    fn call_refused(&self, _bulkhead: &str) {
        self.0.fetch_add(1, Ordering::SeqCst);
    }

    fn call_timed_out(&self, _bulkhead: &str) {
        self.1.fetch_add(1, Ordering::SeqCst);
    }

    fn call_waited(&self, _bulkhead: &str, time: Duration, end: WaitEnd) {
        let mut waits = self.2.lock().expect("nobody panics with it");
        waits.push((end, time));
    }
}

impl Refusals {
    // How the waits ended that were reported since the last call.
    fn waits(&self) -> Vec<WaitEnd> {
        let mut waits = self.2.lock().expect("nobody panics with it");
        waits.drain(..).map(|(end, _)| end).collect()
    }
}

#[tokio::test(start_paused = true)]
async fn an_inner_service_that_is_never_ready_keeps_no_permit() -> Checked {
    let refusals = Arc::new(Refusals::default());
    let backend = Arc::new(Bulkhead::new("backend", 1)?.observed(refusals.clone()));
    let limit = Duration::from_millis(80);
    let mut service = BulkheadLayer::queueing(Arc::clone(&backend))
        .longest(limit, tokio::time::sleep)
        .layer(Answers { looks: 1 << 30 });
    let begun = tokio::time::Instant::now();
    assert_eq!(service.call(7).await, Err(CallError::TimedOut));
    assert!((limit..2 * limit).contains(&begun.elapsed()));
    assert!(is_idle(&backend));
    let counts = (&refusals.0, &refusals.1);
    let counts = (
        counts.0.load(Ordering::SeqCst),
        counts.1.load(Ordering::SeqCst),
    );
    assert_eq!((counts, refusals.waits()), ((0, 1), vec![WaitEnd::Granted]));
    // Half of the time passes while it waits for the permit, and the rest for the inner service.
    let permit = backend.enter_owned()?;
    let gives_back = async {
        tokio::time::sleep(limit / 2).await;
        drop(permit);
    };
    let begun = tokio::time::Instant::now();
    let (answer, ()) = tokio::join!(service.call(7), gives_back);
    assert_eq!(answer, Err(CallError::TimedOut));
    assert!((limit..limit * 5 / 4).contains(&begun.elapsed()));
    assert!(is_idle(&backend) && refusals.1.load(Ordering::SeqCst) == 2);
    Ok(())
}

#[tokio::test(start_paused = true)]
async fn a_client_that_goes_away_is_told_once() -> Checked {
    let refusals = Arc::new(Refusals::default());
    let backend = Arc::new(Bulkhead::new("backend", 1)?.observed(refusals.clone()));
    let permit = backend.enter()?;
    let mut service = BulkheadLayer::queueing(Arc::clone(&backend)).layer(Answers { looks: 0 });
    let call = tokio::time::timeout(Duration::from_millis(5), service.call(7));
    assert!(call.await.is_err());
    assert_eq!(refusals.waits(), [WaitEnd::Abandoned]);
    let mut call = Box::pin(service.call(7));
    assert!(polled(&mut call).is_pending() && polled(&mut call).is_pending());
    drop(call);
    // One that was never polled hasn't waited.
    drop(service.call(7));
    assert_eq!(refusals.waits(), [WaitEnd::Abandoned]);
    drop(permit);
    assert!(is_idle(&backend) && refusals.0.load(Ordering::SeqCst) == 0);
    Ok(())
}

#[test]
fn a_layer_with_a_limit_is_shown() -> Checked {
    let backend = Arc::new(Bulkhead::new("backend", 1)?);
    let layer = BulkheadLayer::queueing(backend).longest(Duration::ZERO, tokio::time::sleep);
    // With a sleep that has no `Debug` itself.
    let shown = format!("{:?}", layer.layer(Answers { looks: 0 }));
    assert!(shown.starts_with("QueueingService { inner: Answers"));
    assert!(shown.contains("longest: 0ns"));
    Ok(())
}

#[test]
fn few_may_wait() -> Checked {
    let refusals = Arc::new(Refusals::default());
    let backend = Arc::new(Bulkhead::new("backend", 1)?.observed(refusals.clone()));
    let layer = BulkheadLayer::queueing(Arc::clone(&backend)).most_waiting(2);
    let mut service = layer.layer(Answers { looks: 0 });
    let permit = backend.enter()?;
    let mut calls = [7, 8].map(|number| Box::pin(service.call(number)));
    assert!(calls.iter_mut().all(|call| polled(call).is_pending()));
    let full = Poll::Ready(Err(CallError::Full));
    assert_eq!(polled(&mut Box::pin(service.call(9))), full);
    // A call that gives up makes room for another one.
    let [first, second] = calls;
    drop(first);
    let mut third = Box::pin(service.call(9));
    assert!(polled(&mut third).is_pending());
    drop((second, third, permit));
    assert!(is_idle(&backend));
    // Nobody waits if a permit is free.
    let mut service = BulkheadLayer::queueing(Arc::clone(&backend))
        .most_waiting(0)
        .layer(Answers { looks: 0 });
    assert_eq!(polled(&mut Box::pin(service.call(7))), Poll::Ready(Ok(7)));
    assert_eq!(refusals.0.load(Ordering::SeqCst), 1);
    Ok(())
}

#[tokio::test(start_paused = true)]
async fn a_call_waits_for_so_long() -> Checked {
    let refusals = Arc::new(Refusals::default());
    let backend = Arc::new(Bulkhead::new("backend", 1)?.observed(refusals.clone()));
    let limit = Duration::from_millis(300);
    let mut service = BulkheadLayer::queueing(Arc::clone(&backend))
        .longest(limit, tokio::time::sleep)
        .layer(Answers { looks: 0 });
    let permit = backend.enter()?;
    let begun = tokio::time::Instant::now();
    assert_eq!(service.call(7).await, Err(CallError::TimedOut));
    assert!((limit..2 * limit).contains(&begun.elapsed()));
    assert_eq!(backend.numbers().waiting, 0);
    assert_eq!(refusals.0.load(Ordering::SeqCst), 1);
    // A call that is given a permit in time gets its answer, with no limit after that.
    let gives_back = async {
        tokio::time::sleep(limit / 2).await;
        drop(permit);
    };
    let (answer, ()) = tokio::join!(service.call(7), gives_back);
    assert_eq!((answer, refusals.0.load(Ordering::SeqCst)), (Ok(7), 1));
    // A timeout around it also bounds the wait.
    let permit = backend.enter()?;
    let mut service = ServiceBuilder::new()
        .timeout(limit)
        .layer(BulkheadLayer::queueing(Arc::clone(&backend)))
        .service(Answers { looks: 0 }.map_err(BoxError::from));
    let begun = tokio::time::Instant::now();
    let ready = service.ready().await.map_err(|error| error.to_string())?;
    let late = ready.call(7).await;
    assert!(late.is_err() && (limit..2 * limit).contains(&begun.elapsed()));
    drop(permit);
    assert!(is_idle(&backend));
    Ok(())
}

#[tokio::test(flavor = "multi_thread", worker_threads = 4)]
async fn all_calls_are_made_and_few_at_a_time() -> Checked {
    all_are_made(|backend, inner| BulkheadLayer::queueing(backend).layer(inner)).await
}
