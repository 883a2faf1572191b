//! Jobs that are submitted while nobody checks: the only thread falls asleep, or runs another job.
mod common;
#[path = "recording/text.rs"]
#[allow(dead_code, reason = "its events and times are read")]
mod text;

use common::{Checked, PATIENCE, all_gated, begun, end, gated, in_time};
use resil::ThreadPool;
use std::hint;
use std::thread;
use std::time::Duration;
use text::Text;

const NAP: Duration = Duration::from_millis(30);

// A job is submitted at any moment while the only thread looks for a job, falls asleep and sleeps.
#[test]
fn a_job_is_run_though_its_thread_falls_asleep() -> Checked {
    let pool = ThreadPool::builder(1, 1).open()?;
    for round in 0..40_000 {
        in_time(pool.submit(|| ())?)?;
        (0..round % 160).for_each(|_| hint::spin_loop());
    }
    Ok(())
}

// What came just before a join or a read of the numbers counts, though the only thread runs a job and nobody else checks.
#[test]
fn what_came_just_before_counts() -> Checked {
    let pool = ThreadPool::builder(1, 1).open()?;
    let (first, second) = (begun(&pool)?, gated(&pool)?);
    thread::scope(|scope| {
        let joins = scope.spawn(|| pool.join_for(PATIENCE));
        // It begins meanwhile, and waits for both.
        thread::sleep(NAP);
        end(first)?;
        thread::sleep(NAP);
        assert!(!joins.is_finished());
        end(second)
    })?;
    let _first = begun(&pool)?;
    let _others = all_gated(&pool, 2)?;
    assert_eq!(pool.numbers().waiting, 2);
    Ok(())
}

// A submission is recorded with its own time, however long it takes until a thread notices it.
#[test]
fn a_record_tells_when_a_job_came() -> Checked {
    let pool = ThreadPool::builder(1, 1).record(100).open()?;
    let first = begun(&pool)?;
    let second = pool.submit(|| ())?;
    thread::sleep(NAP);
    end(first)?;
    in_time(second)?;
    let history = pool.history().ok_or("it is recorded")?;
    let told = Text::of(&history)?;
    let time = |start: &str| {
        let index = told
            .events
            .iter()
            .position(|event| event.starts_with(start));
        index.map(|index| told.times[index]).ok_or("it isn't told")
    };
    assert!(time("take,1,2,")? - time("submit,1,2,")? >= 30_000);
    Ok(())
}
