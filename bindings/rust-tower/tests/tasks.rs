//! Many tasks call one service at once, and some of them give up.
use resil::Bulkhead;
use resil_tower::{BulkheadLayer, CallError};
use std::convert::Infallible;
use std::sync::Arc;
use std::sync::atomic::{AtomicU32, Ordering};
use tokio::task::{self, JoinSet};
use tower::{BoxError, Layer, Service, ServiceExt, service_fn};

const PERMITS: u32 = 8;
const TASKS: u64 = 64;
const CALLS: u64 = 500;

// Calls the service many times, and counts the calls that were answered, refused and given up. Each fifth call is given up after as many
// steps of others as its number says.
async fn calls<S>(mut service: S) -> Result<[u64; 3], CallError<Infallible>>
where
    S: Service<u64, Response = u64, Error = CallError<Infallible>>,
{
    let mut counts = [0; 3];
    for number in 0..CALLS {
        let call = service.ready().await?.call(number);
        let given_up = async {
            for _ in 0..number % 3 {
                task::yield_now().await;
            }
        };
        let answer = if number % 5 == 0 {
            tokio::select! { biased; () = given_up => None, answer = call => Some(answer) }
        } else {
            Some(call.await)
        };
        let count = match answer {
            None => 2,
            Some(Err(CallError::Full)) => 1,
            Some(answer) => {
                assert_eq!(answer, Ok(number));
                0
            }
        };
        counts[count] += 1;
    }
    Ok(counts)
}

// One call inside, counted as over even if it is dropped.
struct Inside(Arc<AtomicU32>);

impl Drop for Inside {
    fn drop(&mut self) {
        self.0.fetch_sub(1, Ordering::SeqCst);
    }
}

#[tokio::test(flavor = "multi_thread", worker_threads = 4)]
async fn no_permit_is_lost_or_made() -> Result<(), BoxError> {
    let bulkhead = Arc::new(Bulkhead::new("backend", PERMITS)?);
    let count = Arc::new(AtomicU32::new(0));
    let backend = service_fn(move |number: u64| {
        let before = count.fetch_add(1, Ordering::SeqCst);
        assert!(before < PERMITS, "{before} calls were inside");
        let inside = Inside(Arc::clone(&count));
        async move {
            task::yield_now().await;
            drop(inside);
            Ok::<u64, Infallible>(number)
        }
    });
    let service = BulkheadLayer::new(Arc::clone(&bulkhead)).layer(backend);
    let mut tasks = JoinSet::new();
    for _ in 0..TASKS {
        tasks.spawn(calls(service.clone()));
    }
    let mut sums = [0; 3];
    while let Some(ended) = tasks.join_next().await {
        for (sum, count) in sums.iter_mut().zip(ended??) {
            *sum += count;
        }
    }
    assert_eq!(sums.iter().sum::<u64>(), TASKS * CALLS);
    assert!(sums.iter().all(|sum| *sum > 0), "{sums:?}");
    assert_eq!(bulkhead.available(), PERMITS);
    Ok(())
}
