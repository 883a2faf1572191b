//! Jobs that sleep, on a pool of as many threads: `ours THREADS JOBS MILLISECONDS` by `ThreadPool`, `tokio` by its `spawn_blocking` with as
//! many blocking threads. A round opens the pool, submits all jobs, awaits the answer of each, and ends the pool.
mod rounds;

use resil::ThreadPool;
use std::thread;
use std::time::Duration;
use tokio::runtime::Builder;

fn ours(threads: usize, jobs: usize, sleep: impl FnOnce() -> usize + Copy + Send + 'static) -> usize {
    let [threads, queue] = [threads, 65_536].map(|size| size.try_into().expect("a size in range"));
    let pool = ThreadPool::builder(threads, threads).queue(queue).open().expect("there is memory");
    let all: Vec<_> = (0..jobs).map(|_| pool.submit(sleep).expect("there is room in the queue")).collect();
    all.into_iter().map(|job| job.wait().expect("no job panics")).sum()
}

fn tokio(threads: usize, jobs: usize, sleep: impl FnOnce() -> usize + Copy + Send + 'static) -> usize {
    let runtime = Builder::new_current_thread().max_blocking_threads(threads).build().expect("a runtime");
    runtime.block_on(async {
        let all: Vec<_> = (0..jobs).map(|_| runtime.spawn_blocking(sleep)).collect();
        let mut answers = 0;
        for job in all {
            answers += job.await.expect("no job panics");
        }
        answers
    })
}

fn main() {
    for (name, numbers) in rounds::lines() {
        let [threads, jobs, millis] = numbers[..] else {
            panic!("three numbers");
        };
        let time = Duration::from_millis(millis.try_into().expect("a short time"));
        let sleep = move || {
            thread::sleep(time);
            1
        };
        let answers = if name == "ours" { ours(threads, jobs, sleep) } else { tokio(threads, jobs, sleep) };
        println!("sleepers: {answers} answers");
    }
}
