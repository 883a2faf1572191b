//! A pool keeps nothing of the jobs that it has run. No other test runs in this process.
#![cfg(target_os = "linux")]
mod common;

use common::resident;
use resil::ThreadPool;
use std::error::Error;

// Runs fifty jobs this many times, and then returns the memory in use.
fn after_rounds(pool: &ThreadPool, count: u64) -> Result<u64, Box<dyn Error>> {
    for _ in 0..count {
        let jobs = (0..50).map(|number| pool.submit(move || number));
        for job in jobs.collect::<Result<Vec<_>, _>>()? {
            job.wait()?;
        }
    }
    resident()
}

// An emulator takes memory of its own for the code that it translates, so one span of several in which nothing grows is enough: a pool
// that keeps something for each job grows in all of them.
#[test]
fn memory_does_not_grow_with_the_jobs() -> Result<(), Box<dyn Error>> {
    let pool = ThreadPool::builder(2, 2).queue(100).open()?;
    let mut before = after_rounds(&pool, 1_000)?;
    let mut grown = Vec::new();
    for span in 1..=5 {
        let after = after_rounds(&pool, 10_000)?;
        assert_eq!(pool.numbers().finished, 50_000 + span * 500_000);
        // A byte for each job would be half a mebibyte.
        if after < before + 256 {
            return Ok(());
        }
        grown.push(after - before);
        before = after;
    }
    panic!("each half million jobs takes so many KiB: {grown:?}");
}
