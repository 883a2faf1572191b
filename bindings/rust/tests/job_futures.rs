//! Jobs of a pool as futures.
mod common;

use common::{Caller, Checked, PATIENCE, block_on, gated, in_time, poll_by};
use resil::{JobHandle, ThreadPool};
use std::error::Error;
use std::panic::{AssertUnwindSafe, catch_unwind};
use std::pin::Pin;
use std::sync::Arc;
use std::task::{Context, Wake, Waker};
use std::thread;
use std::time::Duration;

#[test]
fn answers_are_awaited() -> Checked {
    let pool = ThreadPool::builder(2, 2).open()?;
    for number in 0..2_000 {
        assert_eq!(block_on(pool.submit(move || number)?)?, number);
    }
    let panics = pool.submit(|| -> u32 { panic!("out of paper") })?;
    let said = block_on(panics).map_err(|error| error.to_string());
    assert_eq!(said, Err("the job panicked: out of paper".to_owned()));
    Ok(())
}

#[test]
fn the_last_who_polled_is_woken() -> Checked {
    let pool = ThreadPool::builder(1, 1).open()?;
    let (gate, mut job) = gated(&pool)?;
    let (first, second) = (Caller::here(), Caller::here());
    assert!(poll_by(&mut job, &first).is_none());
    assert!(poll_by(&mut job, &first).is_none());
    assert!(poll_by(&mut job, &second).is_none());
    drop(gate);
    pool.close();
    pool.join();
    assert_eq!((first.woken(), second.woken()), (0, 1));
    assert!(matches!(poll_by(&mut job, &first), Some(Ok(()))));
    assert_eq!((first.woken(), second.woken()), (0, 1));
    Ok(())
}

#[test]
fn a_job_that_was_polled_is_waited_for() -> Checked {
    let pool = ThreadPool::builder(1, 1).open()?;
    let (gate, mut job) = gated(&pool)?;
    let caller = Caller::here();
    assert!(poll_by(&mut job, &caller).is_none());
    let job = job.wait_for(Duration::from_millis(1));
    let mut job = job.expect_err("the gate is closed");
    assert!(poll_by(&mut job, &caller).is_none());
    drop(gate);
    in_time(job)
}

#[test]
fn a_job_gives_its_answer_once() -> Checked {
    let pool = ThreadPool::builder(1, 1).open()?;
    let caller = Caller::here();
    let answered = || -> Result<JobHandle<Box<u32>>, Box<dyn Error>> {
        let mut job = pool.submit(|| Box::new(42))?;
        pool.join();
        assert!(poll_by(&mut job, &caller).is_some());
        Ok(job)
    };
    let mut job = answered()?;
    let again = AssertUnwindSafe(|| poll_by(&mut job, &caller).is_some());
    assert!(catch_unwind(again).is_err());
    assert!(job.is_finished());
    let job = answered()?;
    assert!(catch_unwind(AssertUnwindSafe(|| job.wait())).is_err());
    let job = answered()?;
    assert!(catch_unwind(AssertUnwindSafe(|| job.wait_for(PATIENCE))).is_err());
    Ok(())
}

#[test]
fn a_handle_is_dropped_after_a_poll() -> Checked {
    let pool = ThreadPool::builder(1, 1).open()?;
    let (gate, mut job) = gated(&pool)?;
    let caller = Caller::here();
    assert!(poll_by(&mut job, &caller).is_none());
    drop(job);
    drop(gate);
    pool.close();
    pool.join();
    // Its waker is gone with it.
    assert_eq!(Arc::strong_count(&caller), 1);
    assert_eq!(pool.numbers().finished, 1);
    Ok(())
}

/// A waker that panics when it is woken or dropped.
struct Panics;

impl Wake for Panics {
    fn wake(self: Arc<Self>) {
        panic!("a runtime that fails");
    }
}

#[test]
fn a_waker_that_panics_leaves_the_worker() -> Checked {
    let pool = ThreadPool::builder(1, 1).open()?;
    let worker = pool.submit(|| thread::current().id())?.wait()?;
    let (gate, mut job) = gated(&pool)?;
    let waker = Waker::from(Arc::new(Panics));
    let mut context = Context::from_waker(&waker);
    assert!(Pin::new(&mut job).poll(&mut context).is_pending());
    drop(gate);
    job.wait()?;
    let (gate, mut job) = gated(&pool)?;
    assert!(Pin::new(&mut job).poll(&mut context).is_pending());
    drop(gate);
    pool.join();
    assert_eq!(pool.submit(|| thread::current().id())?.wait()?, worker);
    assert!(job.is_finished());
    Ok(())
}
