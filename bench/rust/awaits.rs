//! Permits that tasks of tokio await and give back: `ours TASKS PAIRS` by `Bulkhead::acquire_owned`, `tokio` by its `acquire_owned`. One
//! task has a permit for itself; more of them run on four threads, an eighth as many permits as tasks, and each lets others run
//! while it has one.
mod rounds;

use resil::Bulkhead;
use std::future::Future;
use std::sync::Arc;
use tokio::runtime::Builder;
use tokio::sync::Semaphore;
use tokio::task;

async fn pairs<P, F: Future<Output = P>>(pairs: usize, is_alone: bool, acquire: impl Fn() -> F) {
    for _ in 0..pairs {
        let permit = acquire().await;
        if !is_alone {
            task::yield_now().await;
        }
        drop(permit);
    }
}

fn round<P, F>(tasks: usize, each: usize, acquire: impl Fn() -> F + Clone + Send + Sync + 'static)
where
    P: Send + 'static,
    F: Future<Output = P> + Send + 'static,
{
    if tasks == 1 {
        let runtime = Builder::new_current_thread().build().expect("a runtime");
        return runtime.block_on(pairs(each, true, acquire));
    }
    let runtime = Builder::new_multi_thread().worker_threads(4).build().expect("a runtime");
    runtime.block_on(async {
        let tasks: Vec<_> = (0..tasks)
            .map(|_| task::spawn(pairs(each, false, acquire.clone())))
            .collect();
        for task in tasks {
            task.await.expect("no task panics");
        }
    });
}

fn main() {
    for (name, numbers) in rounds::lines() {
        let [tasks, each] = numbers[..] else {
            panic!("two numbers");
        };
        let permits = tasks.div_ceil(8);
        if name == "ours" {
            let max = permits.try_into().expect("some permits");
            let bulkhead = Arc::new(Bulkhead::new("backend", max).expect("a bulkhead with its memory"));
            round(tasks, each, move || bulkhead.acquire_owned());
        } else {
            let semaphore = Arc::new(Semaphore::new(permits));
            round(tasks, each, move || {
                let semaphore = Arc::clone(&semaphore);
                async move { semaphore.acquire_owned().await.expect("it isn't closed") }
            });
        }
        println!("permits: {} pairs", tasks * each);
    }
}
