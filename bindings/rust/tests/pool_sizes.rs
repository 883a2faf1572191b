//! The sizes of a pool of threads while it works: fewer threads and more, names, stacks, and a load that is shed.
mod common;

use common::{Checked, PATIENCE, all_gated, end, gated, in_time, until};
use resil::{JobHandle, PoolError, Refusal, Reply, ThreadPool};
use std::error::Error;
use std::sync::atomic::{AtomicU32, Ordering};
use std::sync::{Arc, Barrier};
use std::thread;
use std::time::Duration;

/// The most threads that a pool may have.
const LARGEST: u32 = 1_024;

/// How many jobs run, and the maximum that ran at a time.
#[derive(Default)]
struct Seen {
    now: AtomicU32,
    most: AtomicU32,
}

// Jobs that come and go in groups of this many, all of a group at a time.
fn in_groups(
    pool: &ThreadPool,
    size: usize,
    count: usize,
    seen: &Arc<Seen>,
) -> Result<Vec<JobHandle<()>>, Refusal> {
    let group = Arc::new(Barrier::new(size));
    let jobs = (0..count).map(|_| {
        let (group, seen) = (Arc::clone(&group), Arc::clone(seen));
        let job = pool.submit(move || {
            let now = seen.now.fetch_add(1, Ordering::SeqCst) + 1;
            seen.most.fetch_max(now, Ordering::SeqCst);
            group.wait();
            seen.now.fetch_sub(1, Ordering::SeqCst);
        });
        job.map_err(|refused| refused.reason)
    });
    jobs.collect()
}

// Eight jobs run and some wait; after the resize no more than two begin at a time, and no fewer.
fn shrunk(keep_alive: Duration) -> Result<ThreadPool, Box<dyn Error>> {
    let pool = ThreadPool::builder(8, 8).queue(100);
    let pool = pool.keep_alive(keep_alive).open()?;
    let first = all_gated(&pool, 8)?;
    let seen = Arc::default();
    let later = in_groups(&pool, 2, 40, &seen)?;
    pool.resize(2, 2)?;
    first.into_iter().try_for_each(end)?;
    for job in later {
        in_time(job)?;
    }
    assert_eq!(seen.most.load(Ordering::SeqCst), 2);
    Ok(pool)
}

#[test]
fn a_smaller_size_holds_under_load() -> Checked {
    let pool = shrunk(Duration::MAX)?;
    // The threads are still there, and free.
    assert_eq!(pool.numbers().workers, 8);
    pool.resize(8, 8)?;
    let seen = Arc::default();
    for job in in_groups(&pool, 8, 32, &seen)? {
        in_time(job)?;
    }
    assert_eq!(seen.most.load(Ordering::SeqCst), 8);
    Ok(())
}

#[test]
fn threads_that_held_back_end_once_nothing_waits() -> Checked {
    for keep_alive in [Duration::ZERO, Duration::from_millis(2)] {
        let pool = shrunk(keep_alive)?;
        assert!(until(|| pool.numbers().workers == 2));
        let next = gated(&pool)?;
        assert_eq!(next.1.reply(), Reply::Queued);
        end(next)?;
    }
    Ok(())
}

#[test]
fn a_greater_size_calls_those_that_held_back() -> Checked {
    let pool = ThreadPool::builder(4, 4).queue(100).open()?;
    let first = all_gated(&pool, 4)?;
    pool.resize(1, 1)?;
    let waiting = all_gated(&pool, 4)?;
    first.into_iter().try_for_each(end)?;
    let numbers = || pool.numbers();
    assert!(until(|| (numbers().running, numbers().waiting) == (1, 3)));
    pool.resize(4, 4)?;
    assert!(until(|| numbers().running == 4));
    waiting.into_iter().try_for_each(end)?;
    Ok(())
}

// The largest pool, whose jobs all wait for each other.
#[test]
fn a_pool_of_1024_threads_runs_as_many_jobs_at_once() -> Checked {
    // The jobs of a second group wait in the queue until the threads, which are all there, take them.
    let pool = ThreadPool::builder(LARGEST, LARGEST).queue(LARGEST);
    let pool = pool.open()?;
    let seen = Arc::default();
    for _ in 0..2 {
        for job in in_groups(&pool, LARGEST as usize, LARGEST as usize, &seen)? {
            in_time(job)?;
        }
    }
    assert_eq!(seen.most.load(Ordering::SeqCst), LARGEST);
    let numbers = pool.numbers();
    assert_eq!(
        (numbers.workers, numbers.finished),
        (LARGEST, 2 * u64::from(LARGEST))
    );
    Ok(())
}

#[test]
fn sizes_up_to_1024_and_back_hold_under_load() -> Checked {
    const FEW: u32 = 16;
    // No thread ends while few of them may run a job.
    let pool = ThreadPool::builder(LARGEST, LARGEST).queue(4_096);
    let pool = pool.keep_alive(Duration::MAX).open()?;
    for _ in 0..2 {
        let first = all_gated(&pool, LARGEST as usize)?;
        let few = Arc::default();
        let later = in_groups(&pool, FEW as usize, 10 * FEW as usize, &few)?;
        pool.resize(FEW, FEW)?;
        first.into_iter().try_for_each(end)?;
        for job in later {
            in_time(job)?;
        }
        assert_eq!(few.most.load(Ordering::SeqCst), FEW);
        // Those that run wait for those that can't begin yet.
        let all = Arc::default();
        let waiting = in_groups(&pool, LARGEST as usize, LARGEST as usize, &all)?;
        pool.resize(LARGEST, LARGEST)?;
        for job in waiting {
            in_time(job)?;
        }
        assert_eq!(all.most.load(Ordering::SeqCst), LARGEST);
    }
    Ok(())
}

#[test]
fn a_resize_has_the_bound_of_the_opening() -> Checked {
    let pool = ThreadPool::builder(1, 65).open()?;
    assert_eq!(pool.resize(1_025, 1_025), Err(PoolError::CoreOutOfRange));
    assert_eq!(pool.resize(66, 66), Err(PoolError::MaxOutOfRange));
    pool.resize(65, 65)?;
    let pool = ThreadPool::builder(1, 64).open()?;
    assert_eq!(pool.resize(65, 65), Err(PoolError::CoreOutOfRange));
    assert_eq!(pool.resize(64, 65), Err(PoolError::MaxOutOfRange));
    pool.resize(64, 64)?;
    Ok(())
}

#[test]
fn a_shrunk_pool_is_closed() -> Checked {
    let pool = ThreadPool::builder(4, 4).queue(100).open()?;
    let first = all_gated(&pool, 4)?;
    let seen = Arc::default();
    let later = in_groups(&pool, 1, 20, &seen)?;
    pool.resize(1, 1)?;
    pool.close();
    drop(first);
    assert!(pool.join_for(PATIENCE));
    assert!(later.iter().all(JobHandle::is_finished));
    assert_eq!(seen.most.load(Ordering::SeqCst), 1);
    assert_eq!(pool.numbers().workers, 0);

    let pool = ThreadPool::builder(4, 4).queue(100).open()?;
    let first = all_gated(&pool, 4)?;
    let later = all_gated(&pool, 20)?;
    pool.resize(1, 1)?;
    let mut gates = first.into_iter();
    drop(gates.next());
    assert_eq!(pool.close_now().len(), 20);
    drop(gates);
    assert!(pool.join_for(PATIENCE));
    assert_eq!(pool.numbers().workers, 0);
    for (_, job) in later {
        assert!(job.wait().is_err());
    }
    Ok(())
}

#[test]
fn threads_have_numbers() -> Checked {
    let pool = ThreadPool::builder(3, 3).name("letters").open()?;
    let all = Arc::new(Barrier::new(3));
    let jobs = [(); 3].map(|()| {
        let all = Arc::clone(&all);
        pool.submit(move || {
            all.wait();
            thread::current().name().map(str::to_owned)
        })
    });
    let mut names = Vec::new();
    for job in jobs {
        names.extend(in_time(job.map_err(|refused| refused.reason)?)?);
    }
    names.sort();
    assert_eq!(names, ["letters-1", "letters-2", "letters-3"]);
    assert_eq!(pool.name(), "letters");
    Ok(())
}

#[inline(never)]
fn depth(left: u32) -> u32 {
    let frame = std::hint::black_box([left; 256]);
    if left == 0 {
        0
    } else {
        1 + depth(left - 1) + frame[0] - left
    }
}

#[test]
fn threads_have_stacks_of_the_size_that_is_named() -> Checked {
    let pool = ThreadPool::builder(1, 1).stack_size(128 << 20).open()?;
    assert_eq!(in_time(pool.submit(|| depth(16_000))?)?, 16_000);
    Ok(())
}

#[test]
fn a_stack_that_cannot_be_had_is_a_thread_that_cannot_be_started() -> Checked {
    let pool = ThreadPool::builder(1, 1).stack_size(usize::MAX).open()?;
    let job = pool.submit(|| thread::current().id())?;
    assert!(job.is_finished());
    assert_eq!(job.wait()?, thread::current().id());
    Ok(())
}

#[test]
fn a_pool_is_shown_by_its_numbers() -> Checked {
    let builder = ThreadPool::builder(1, 2).name("letters");
    let shown = format!("{builder:?}");
    assert_eq!(
        shown,
        "ThreadPoolBuilder { name: \"letters\", core: 1, max: 2, queue: 100, keep_alive: 20ms, stack_size: None, record: None }"
    );
    let shown = format!("{:?}", builder.open()?);
    assert!(shown.starts_with("ThreadPool { name: \"letters\", numbers: PoolNumbers { core: 1"));
    Ok(())
}
