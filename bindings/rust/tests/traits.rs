//! What values can do: be compared, be keys, and be copied.
mod common;

use common::Checked;
use resil::metrics::Metrics;
use resil::{
    BulkheadError, BulkheadNumbers, CallError, Event, Interval, IntervalError, JobError, NoPermit,
    PoolError, PoolNumbers, Refusal, RegistryError, Reply, Retry, ThreadPool, WaitEnd,
};
use std::hash::Hash;
use std::sync::{Arc, Mutex};
use std::time::Duration;

fn are_keys<T: Hash + Eq>() {}

#[test]
fn errors_and_numbers_are_keys() {
    are_keys::<(BulkheadError, IntervalError, PoolError, RegistryError)>();
    are_keys::<(NoPermit, CallError<u32>, Refusal, Reply, Event, WaitEnd)>();
    are_keys::<(BulkheadNumbers, PoolNumbers)>();
}

#[test]
fn ends_of_jobs_are_compared() -> Checked {
    let pool = ThreadPool::builder(1, 1).open()?;
    let end = |message: &'static str| pool.submit(move || -> u32 { panic!("{message}") });
    let (first, second) = (end("no answer")?.wait(), end("no answer")?.wait());
    assert!(first.is_err() && first == second && first != end("no room")?.wait());
    assert_eq!(pool.submit(|| 7)?.wait(), Ok(7));
    assert_ne!(first, Err(JobError::Cancelled));
    Ok(())
}

// Each draw advances the other, and both report to the same observer.
#[test]
fn a_clone_of_a_retry_shares_its_jitter_and_its_observer() {
    let waits = Arc::new(Mutex::new(Vec::new()));
    let told = Arc::clone(&waits);
    let metrics = Arc::new(Metrics::new());
    let retry = Retry::new()
        .attempts(2)
        .interval(Interval::fixed(Duration::from_secs(1_000)))
        .jitter_seeded(7)
        .observed("r", metrics.clone())
        .pause_by(move |wait| told.lock().expect("nobody panics").push(wait));
    for retry in [retry.clone(), retry] {
        assert_eq!(retry.call(|| Err::<u32, _>("busy")), Err("busy"));
    }
    let waits = waits.lock().expect("nobody panics");
    assert!(waits.len() == 2 && waits[0] != waits[1]);
    assert!(
        metrics
            .text(&[], &[])
            .contains("kind=\"retry\",name=\"r\"} 2\n")
    );
}
