//! Shared by several tests. Each uses a part of it.
#![allow(dead_code)]

use resil::Bulkhead;
use std::error::Error;
use std::future::{self, Future};
use std::pin::{Pin, pin};
use std::sync::Arc;
use std::sync::atomic::{AtomicU32, Ordering};
use std::task::{Context, Poll, Waker};
use tower::util::BoxCloneService;
use tower::{Service, ServiceExt, service_fn};

pub type Checked = Result<(), Box<dyn Error>>;
pub type Answer = Pin<Box<dyn Future<Output = Result<u32, &'static str>> + Send>>;

/// Answers with the number that it gets; 0 is never answered, 1 panics in the call, and 2 fails. It is ready after half as many polls as
/// `looks` says, or then fails if that is odd.
#[derive(Clone, Debug)]
pub struct Answers {
    pub looks: u32,
}

impl Answers {
    /// With this many polls to go, the next one panics.
    pub const PANICS: u32 = 1 << 31;
}

impl Service<u32> for Answers {
    type Response = u32;
    type Error = &'static str;
    type Future = Answer;

    fn poll_ready(&mut self, _context: &mut Context<'_>) -> Poll<Result<(), &'static str>> {
        match self.looks {
            0 => return Poll::Ready(Ok(())),
            1 => return Poll::Ready(Err("no route")),
            Answers::PANICS => panic!("out of order"),
            _ => self.looks -= 2,
        }
        Poll::Pending
    }

    fn call(&mut self, number: u32) -> Answer {
        assert_eq!(self.looks, 0);
        match number {
            0 => Box::pin(future::pending()),
            1 => panic!("out of paper"),
            2 => Box::pin(future::ready(Err("no route"))),
            _ => Box::pin(future::ready(Ok(number))),
        }
    }
}

pub fn context() -> Context<'static> {
    Context::from_waker(Waker::noop())
}

pub fn polled<F: Future>(future: F) -> Poll<F::Output> {
    pin!(future).poll(&mut context())
}

/// Whether all permits are free, and nobody waits.
pub fn is_idle(backend: &Bulkhead) -> bool {
    (backend.available(), backend.numbers().waiting) == (backend.max(), 0)
}

/// Makes tasks call a service over three permits: all calls are made, at most three at a time.
pub async fn all_are_made<S>(
    layered: impl FnOnce(Arc<Bulkhead>, BoxCloneService<u32, u32, &'static str>) -> S,
) -> Checked
where
    S: Service<u32, Response = u32, Future: Send> + Clone + Send + 'static,
{
    let backend = Arc::new(Bulkhead::new("backend", 3)?);
    let inside = Arc::new(AtomicU32::new(0));
    let answers = service_fn(move |number: u32| {
        let inside = Arc::clone(&inside);
        async move {
            assert!(inside.fetch_add(1, Ordering::SeqCst) < 3);
            tokio::task::yield_now().await;
            inside.fetch_sub(1, Ordering::SeqCst);
            Ok(number)
        }
    });
    let service = layered(Arc::clone(&backend), BoxCloneService::new(answers));
    let tasks = (0..64).map(|number| {
        let service = service.clone();
        tokio::spawn(async move {
            let mut sum = 0;
            for _ in 0..50 {
                sum += service.clone().oneshot(number).await.unwrap_or(1_000_000);
            }
            sum
        })
    });
    let mut sum = 0;
    for task in tasks.collect::<Vec<_>>() {
        sum += task.await?;
    }
    assert_eq!(sum, 50 * (0..64).sum::<u32>());
    drop(service);
    assert!(is_idle(&backend));
    Ok(())
}
