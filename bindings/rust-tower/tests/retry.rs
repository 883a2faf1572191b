//! A retry as a tower policy: what is called again, after which waits, and what is left when it is dropped.
#![cfg(feature = "retry")]
mod common;

use common::{Checked, polled};
use resil::{Bulkhead, CallError, Interval, Retry};
use resil_tower::{BulkheadLayer, RetryPolicy};
use std::future::{self, Future};
use std::pin::Pin;
use std::sync::Arc;
use std::sync::atomic::{AtomicU32, Ordering};
use std::task::{Context, Poll};
use std::time::Duration;
use tokio::time::Instant;
use tower::{Service, ServiceBuilder, ServiceExt};

type Answer = Result<u32, &'static str>;

/// The result of each attempt of a call, first to last; the last one is repeated. Without an answer it hangs.
type Step = Option<Answer>;

/// Goes through the steps, and counts its attempts, including those in progress.
#[derive(Clone)]
struct Backend {
    steps: &'static [Step],
    begun: Arc<AtomicU32>,
    under_way: Arc<AtomicU32>,
}

impl Backend {
    fn new(steps: &'static [Step]) -> Backend {
        Backend {
            steps,
            begun: Arc::default(),
            under_way: Arc::default(),
        }
    }

    fn counts(&self) -> (u32, u32) {
        let told = |count: &AtomicU32| count.load(Ordering::SeqCst);
        (told(&self.begun), told(&self.under_way))
    }
}

// One attempt, counted as over even if it is dropped.
struct UnderWay(Arc<AtomicU32>);

impl Drop for UnderWay {
    fn drop(&mut self) {
        self.0.fetch_sub(1, Ordering::SeqCst);
    }
}

impl Service<u32> for Backend {
    type Response = u32;
    type Error = &'static str;
    type Future = Pin<Box<dyn Future<Output = Answer> + Send>>;

    fn poll_ready(&mut self, _: &mut Context<'_>) -> Poll<Result<(), &'static str>> {
        Poll::Ready(Ok(()))
    }

    fn call(&mut self, _number: u32) -> Self::Future {
        let attempt = self.begun.fetch_add(1, Ordering::SeqCst) as usize;
        let step = self.steps.get(attempt).or(self.steps.last()).copied();
        self.under_way.fetch_add(1, Ordering::SeqCst);
        let under_way = UnderWay(Arc::clone(&self.under_way));
        Box::pin(async move {
            let _under_way = under_way;
            match step {
                Some(Some(answer)) => answer,
                _ => future::pending().await,
            }
        })
    }
}

const BUSY: Step = Some(Err("busy"));
const HANGS: Step = None;
const WAIT: Duration = Duration::from_millis(100);

fn retry() -> Retry {
    Retry::new().interval(Interval::fixed(WAIT))
}

// The clock is paused while there is something to do, so the waits are exact.
#[tokio::test(start_paused = true)]
async fn it_calls_again_after_each_wait() -> Checked {
    let doubled = Interval::exponential(WAIT, (2, 1), Interval::LONGEST)?;
    for (steps, wanted, attempts, waited) in [
        (&[Some(Ok(42))][..], Ok(42), 1, 0),
        (&[BUSY, Some(Ok(42))], Ok(42), 2, 1),
        (&[BUSY], Err("busy"), 4, 7),
        (&[BUSY, Some(Err("gone"))], Err("gone"), 2, 1),
        (&[Some(Ok(0)), Some(Ok(7))], Ok(7), 2, 1),
        (&[Some(Ok(0))], Ok(0), 4, 7),
    ] {
        let retry = Retry::new()
            .attempts(4)
            .interval(doubled)
            .retry_if(|error: &&str| *error != "gone")
            .retry_value_if(|value: &u32| *value == 0);
        let backend = Backend::new(steps);
        let mut service = ServiceBuilder::new()
            .retry(RetryPolicy::new(retry, tokio::time::sleep))
            .service(backend.clone());
        let began = Instant::now();
        let answer = service.ready().await?.call(1).await;
        assert_eq!(answer, wanted, "{steps:?}");
        assert_eq!(backend.counts(), (attempts, 0), "{steps:?}");
        // Tokio's timer counts whole milliseconds, and rounds up.
        let ms = (began.elapsed() - WAIT * waited).as_millis();
        assert!(ms <= 3, "{steps:?}: {ms} ms more");
    }
    Ok(())
}

#[tokio::test(start_paused = true)]
async fn each_call_has_its_own_attempts_and_its_own_end() -> Checked {
    let backend = Backend::new(&[BUSY]);
    let policy = RetryPolicy::new(retry(), tokio::time::sleep);
    let mut service = ServiceBuilder::new().retry(policy).service(backend.clone());
    for call in 1..=3 {
        assert_eq!(service.ready().await?.call(1).await, Err("busy"));
        assert_eq!(backend.counts(), (3 * call, 0));
    }
    // Two at once, by clones.
    let (first, second) = (service.clone().oneshot(1), service.clone().oneshot(1));
    assert_eq!(tokio::join!(first, second), (Err("busy"), Err("busy")));
    assert_eq!(backend.counts(), (15, 0));
    // A wait that would end after the limit isn't begun.
    let backend = Backend::new(&[BUSY]);
    let late = RetryPolicy::new(retry().attempts(9).within(WAIT * 5 / 2), tokio::time::sleep);
    let mut service = ServiceBuilder::new().retry(late).service(backend.clone());
    for call in 1..=2 {
        assert_eq!(service.ready().await?.call(1).await, Err("busy"));
        assert_eq!(backend.counts(), (3 * call, 0));
    }
    Ok(())
}

#[tokio::test(start_paused = true)]
async fn a_permit_is_taken_for_each_attempt() -> Checked {
    let bulkhead = Arc::new(Bulkhead::new("backend", 1)?);
    let backend = Backend::new(&[BUSY, BUSY, Some(Ok(42))]);
    for layer in [BulkheadLayer::new, BulkheadLayer::waiting] {
        backend.begun.store(0, Ordering::SeqCst);
        let mut service = ServiceBuilder::new()
            .retry(RetryPolicy::new(retry(), tokio::time::sleep))
            .layer(layer(Arc::clone(&bulkhead)))
            .service(backend.clone());
        let call = service.ready().await?.call(1);
        let looks = async {
            // During the first wait.
            tokio::time::sleep(WAIT / 2).await;
            (bulkhead.available(), backend.counts())
        };
        let (answer, looked) = tokio::join!(call, looks);
        assert_eq!((answer, looked), (Ok(42), (1, (1, 0))));
        assert_eq!(backend.counts(), (3, 0));
    }
    // A refusal is an error like any other, and is retried.
    let refused = |error: &CallError<&str>| *error == CallError::Full;
    let policy = RetryPolicy::new(retry().retry_if(refused), tokio::time::sleep);
    let mut service = ServiceBuilder::new()
        .retry(policy)
        .layer(BulkheadLayer::new(Arc::clone(&bulkhead)))
        .service(Backend::new(&[Some(Ok(42))]));
    let permit = bulkhead.enter()?;
    let call = service.ready().await?.call(1);
    let frees = async {
        tokio::time::sleep(WAIT / 2).await;
        drop(permit);
    };
    assert_eq!(tokio::join!(call, frees).0, Ok(42));
    Ok(())
}

// Each step of a call of two attempts, the last of which hangs, over either layer.
#[tokio::test(start_paused = true)]
async fn a_call_is_dropped_at_each_step() -> Checked {
    for layer in [BulkheadLayer::new, BulkheadLayer::waiting] {
        let bulkhead = Arc::new(Bulkhead::new("backend", 1)?);
        let is_free = || (bulkhead.available(), bulkhead.numbers().waiting) == (1, 0);
        // A new service each time: one that waits may have a permit for its next call.
        let made = |steps| {
            let backend = Backend::new(steps);
            let service = ServiceBuilder::new()
                .retry(RetryPolicy::new(retry(), tokio::time::sleep))
                .layer(layer(Arc::clone(&bulkhead)))
                .service(backend.clone());
            (backend, service)
        };

        // Before the call, and with a call that wasn't polled.
        let (_, mut service) = made(&[BUSY, HANGS]);
        service.ready().await?;
        drop(service);
        assert!(is_free());
        let (backend, mut service) = made(&[BUSY, HANGS]);
        let call = service.ready().await?.call(1);
        assert_eq!((bulkhead.available(), backend.counts()), (0, (1, 1)));
        drop(call);
        assert!(is_free() && backend.counts() == (1, 0));

        // During the first attempt.
        let (backend, mut service) = made(&[HANGS]);
        let mut call = Box::pin(service.ready().await?.call(1));
        assert!(polled(&mut call).is_pending());
        assert_eq!((bulkhead.available(), backend.counts()), (0, (1, 1)));
        drop(call);
        assert!(is_free() && backend.counts() == (1, 0));

        // During the wait, when no permit is held.
        let (backend, mut service) = made(&[BUSY, HANGS]);
        let mut call = Box::pin(service.ready().await?.call(1));
        assert!(polled(&mut call).is_pending());
        assert!(is_free() && backend.counts() == (1, 0));
        drop(call);
        tokio::time::sleep(WAIT * 3).await;
        assert!(is_free() && backend.counts() == (1, 0));

        // During the second attempt, or while it waits for a permit.
        for is_held in [false, true] {
            let (backend, mut service) = made(&[BUSY, HANGS]);
            let mut call = Box::pin(service.ready().await?.call(1));
            assert!(polled(&mut call).is_pending());
            let permit = is_held.then(|| bulkhead.enter()).transpose()?;
            tokio::time::sleep(WAIT * 3 / 2).await;
            assert!(polled(&mut call).is_pending());
            let attempts = if is_held { 1 } else { 2 };
            assert_eq!((bulkhead.available(), backend.counts().0), (0, attempts));
            drop(call);
            assert_eq!(backend.counts(), (attempts, 0));
            drop(permit);
            assert!(is_free());
        }

        // With a permit that it was given but hasn't seen.
        let (backend, mut service) = made(&[BUSY, HANGS]);
        let mut call = Box::pin(service.ready().await?.call(1));
        assert!(polled(&mut call).is_pending());
        let permit = bulkhead.enter()?;
        tokio::time::sleep(WAIT * 3 / 2).await;
        assert!(polled(&mut call).is_pending());
        drop(permit);
        drop(call);
        assert!(is_free() && backend.counts() == (1, 0));
    }
    Ok(())
}

#[tokio::test(flavor = "multi_thread", worker_threads = 4)]
async fn tasks_that_are_aborted_leave_nothing_behind() -> Checked {
    let bulkhead = Arc::new(Bulkhead::new("backend", 3)?);
    let backend = Backend::new(&[BUSY]);
    let quick = Retry::new()
        .attempts(1_000)
        .interval(Interval::fixed(Duration::from_millis(1)));
    let service = ServiceBuilder::new()
        .retry(RetryPolicy::new(quick, tokio::time::sleep))
        .layer(BulkheadLayer::waiting(Arc::clone(&bulkhead)))
        .service(backend.clone());
    let mut tasks = tokio::task::JoinSet::new();
    for _ in 0..64 {
        tasks.spawn(service.clone().oneshot(1));
    }
    while backend.counts().0 < 500 {
        tokio::time::sleep(Duration::from_millis(1)).await;
    }
    tasks.shutdown().await;
    drop(service);
    assert_eq!((bulkhead.available(), bulkhead.numbers().waiting), (3, 0));
    assert_eq!(backend.counts().1, 0);
    Ok(())
}
