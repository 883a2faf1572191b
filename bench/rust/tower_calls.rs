//! Calls of a service that answers at once, by tower: `layer THREADS CALLS` asks for them through the layer of resil-tower,
//! `semaphore` through a service of the same form whose permits are tokio's, by `try_acquire_owned`, `bare` through none;
//! `waiting` and `queueing` through the layers that wait, `limit` through tower's `ConcurrencyLimit`.
mod rounds;

use resil::Bulkhead;
use resil_tower::BulkheadLayer;
use std::future::{self, Future, Ready};
use std::hint;
use std::pin::{Pin, pin};
use std::sync::Arc;
use std::task::{Context, Poll, Waker, ready};
use tokio::sync::{OwnedSemaphorePermit, Semaphore};
use tower::limit::ConcurrencyLimitLayer;
use tower_layer::Layer;
use tower_service::Service;

#[derive(Clone)]
struct Answers;

impl Service<u32> for Answers {
    type Response = u32;
    type Error = ();
    type Future = Ready<Result<u32, ()>>;

    fn poll_ready(&mut self, _: &mut Context<'_>) -> Poll<Result<(), ()>> {
        Poll::Ready(Ok(()))
    }

    fn call(&mut self, request: u32) -> Self::Future {
        future::ready(Ok(hint::black_box(request)))
    }
}

#[derive(Clone)]
struct Limited {
    inner: Answers,
    semaphore: Arc<Semaphore>,
}

enum Limit {
    Refused,
    Running(Ready<Result<u32, ()>>, #[allow(dead_code)] OwnedSemaphorePermit),
    Over,
}

impl Service<u32> for Limited {
    type Response = u32;
    type Error = Option<()>;
    type Future = Limit;

    fn poll_ready(&mut self, context: &mut Context<'_>) -> Poll<Result<(), Option<()>>> {
        self.inner.poll_ready(context).map_err(Some)
    }

    fn call(&mut self, request: u32) -> Limit {
        match Arc::clone(&self.semaphore).try_acquire_owned() {
            Ok(permit) => Limit::Running(self.inner.call(request), permit),
            Err(_) => Limit::Refused,
        }
    }
}

impl Future for Limit {
    type Output = Result<u32, Option<()>>;

    fn poll(mut self: Pin<&mut Self>, context: &mut Context<'_>) -> Poll<Self::Output> {
        let answer = match &mut *self {
            Limit::Refused => Err(None),
            Limit::Running(call, _) => ready!(Pin::new(call).poll(context)).map_err(Some),
            Limit::Over => panic!("it has answered"),
        };
        self.set(Limit::Over);
        Poll::Ready(answer)
    }
}

// As many calls by each thread, through a copy of the service.
fn calls<S>(threads: usize, calls: usize, service: S)
where
    S: Service<u32, Response = u32> + Clone + Send,
{
    let thread = |mut service: S| {
        move || {
            let mut context = Context::from_waker(Waker::noop());
            assert!(matches!(service.poll_ready(&mut context), Poll::Ready(Ok(()))));
            let call = pin!(service.call(hint::black_box(42)));
            let Poll::Ready(Ok(42)) = call.poll(&mut context) else {
                panic!("a permit is free");
            };
        }
    };
    rounds::run_pairs(calls, (0..threads).map(|_| thread(service.clone())).collect());
}

fn main() {
    for (name, numbers) in rounds::lines() {
        let [threads, count] = numbers[..] else {
            panic!("two numbers");
        };
        match name.as_str() {
            "layer" | "waiting" => {
                let max = threads.try_into().expect("some threads");
                let backend = Bulkhead::new("backend", max).expect("a bulkhead with its memory");
                let layer = if name == "layer" { BulkheadLayer::new } else { BulkheadLayer::waiting };
                calls(threads, count, layer(Arc::new(backend)).layer(Answers));
            }
            "queueing" => {
                let max = threads.try_into().expect("some threads");
                let backend = Bulkhead::new("backend", max).expect("a bulkhead with its memory");
                calls(threads, count, BulkheadLayer::queueing(Arc::new(backend)).layer(Answers));
            }
            "limit" => calls(threads, count, ConcurrencyLimitLayer::new(threads).layer(Answers)),
            "semaphore" => {
                let semaphore = Arc::new(Semaphore::new(threads));
                calls(threads, count, Limited { inner: Answers, semaphore });
            }
            _ => calls(threads, count, Answers),
        }
    }
}
