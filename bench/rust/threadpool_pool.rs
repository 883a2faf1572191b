//! Jobs through the pool of the crate `threadpool`, which records nothing: `pool CALLERS WORKERS JOBS` asks for a round.
mod rounds;

use std::sync::Arc;
use std::sync::atomic::{AtomicUsize, Ordering};
use std::thread;
use threadpool::ThreadPool;

// Has each of the callers do its share of the jobs, and tells how many were done.
fn run(callers: usize, workers: usize, jobs: usize) -> usize {
    let pool = ThreadPool::new(workers);
    let callers: Vec<_> = (0..callers)
        .map(|_| {
            let pool = pool.clone();
            thread::spawn(move || share(&pool, jobs / callers))
        })
        .collect();
    let done = callers.into_iter().map(|caller| caller.join().expect("a caller ends")).sum();
    pool.join();
    done
}

fn share(pool: &ThreadPool, jobs: usize) -> usize {
    let ended = Arc::new(AtomicUsize::new(0));
    for _ in 0..jobs {
        let ended = ended.clone();
        pool.execute(move || {
            ended.fetch_add(1, Ordering::SeqCst);
        });
    }
    pool.join();
    ended.load(Ordering::SeqCst)
}

fn main() {
    for (_, numbers) in rounds::lines() {
        let [callers, workers, jobs] = numbers[..] else {
            panic!("three numbers");
        };
        println!("pool: {} results", run(callers, workers, jobs));
    }
}
