//! Joins that have begun, each before the next thing happens.
use super::super::{JobHandle, ThreadPool};
use std::error::Error;
use std::sync::mpsc::{self, Sender};
use std::sync::{Arc, Barrier};
use std::thread;
use std::time::{Duration, Instant};

const PATIENCE: Duration = Duration::from_secs(60);

fn gated(pool: &ThreadPool) -> Result<(Sender<()>, JobHandle<()>), Box<dyn Error>> {
    let (gate, closed) = mpsc::channel();
    let handle = pool.submit(move || {
        let _opened: Result<(), _> = closed.recv();
    })?;
    Ok((gate, handle))
}

// Waits until this many joins of a pool have begun and haven't ended.
fn until_joins(pool: &ThreadPool, count: usize) -> Result<(), Box<dyn Error>> {
    let began = Instant::now();
    while pool.crew.lock().joins.count_all() != count {
        if began.elapsed() > PATIENCE {
            return Err("the joins don't begin".into());
        }
        thread::sleep(Duration::from_millis(1));
    }
    Ok(())
}

// Four threads join, and each that returns submits a job that ends once all four have returned.
#[test]
fn a_wave_of_joins_is_not_overtaken() -> Result<(), Box<dyn Error>> {
    let pool = Arc::new(ThreadPool::builder(2, 8).queue(4).open()?);
    for _ in 0..25 {
        let (gate, _first) = gated(&pool)?;
        let returned = Arc::new(Barrier::new(5));
        let joins = [(); 4].map(|()| {
            let (pool, returned) = (Arc::clone(&pool), Arc::clone(&returned));
            thread::spawn(move || {
                let joined = pool.join_for(PATIENCE);
                let (later, closed) = mpsc::channel::<()>();
                let job = pool.submit(move || closed.recv().is_err());
                returned.wait();
                drop(later);
                (joined, job.map(JobHandle::wait).is_ok())
            })
        });
        until_joins(&pool, 4)?;
        drop(gate);
        returned.wait();
        for thread in joins {
            let answer = thread.join().map_err(|_| "it panicked")?;
            assert_eq!(answer, (true, true));
        }
    }
    Ok(())
}

#[test]
fn a_join_waits_for_what_came_before_it() -> Result<(), Box<dyn Error>> {
    let pool = Arc::new(ThreadPool::builder(3, 3).open()?);
    let (first_gate, _first) = gated(&pool)?;
    let (second_gate, _second) = gated(&pool)?;
    let join = || {
        let pool = Arc::clone(&pool);
        thread::spawn(move || pool.join())
    };
    let early = join();
    until_joins(&pool, 1)?;
    let (third_gate, third) = gated(&pool)?;
    let late = join();
    until_joins(&pool, 2)?;
    drop(second_gate);
    // They end in any order.
    drop(third_gate);
    third.wait()?;
    assert!(!early.is_finished() && !late.is_finished());
    drop(first_gate);
    early.join().map_err(|_| "it panicked")?;
    late.join().map_err(|_| "it panicked")?;
    assert_eq!(pool.crew.lock().joins.count_all(), 0);
    Ok(())
}

#[test]
fn a_join_that_is_done_is_done_whatever_comes_then() -> Result<(), Box<dyn Error>> {
    let pool = Arc::new(ThreadPool::builder(1, 1).open()?);
    let (gate, first) = gated(&pool)?;
    let other = Arc::clone(&pool);
    let join = thread::spawn(move || other.join_for(PATIENCE));
    until_joins(&pool, 1)?;
    drop(gate);
    first.wait()?;
    // The pool is closed before the thread has woken, or is about to.
    let (gate, _second) = gated(&pool)?;
    pool.close();
    assert!(join.join().map_err(|_| "it panicked")?);
    drop(gate);
    Ok(())
}

// A join of a closed pool waits for a job that joins, and not the other way round.
#[test]
fn jobs_join_beside_a_join_from_outside() -> Result<(), Box<dyn Error>> {
    let pool = Arc::new(ThreadPool::builder(3, 3).open()?);
    let (gate, _first) = gated(&pool)?;
    let jobs = [(); 2].map(|()| {
        let inner = Arc::clone(&pool);
        pool.submit(move || inner.join())
    });
    until_joins(&pool, 2)?;
    pool.close();
    let other = Arc::clone(&pool);
    let join = thread::spawn(move || other.join());
    until_joins(&pool, 3)?;
    drop(gate);
    for job in jobs {
        let job = job.map_err(|refused| refused.reason)?;
        job.wait_for(PATIENCE).map_err(|_| "a job hangs")??;
    }
    join.join().map_err(|_| "it panicked")?;
    assert_eq!(pool.numbers().workers, 0);
    Ok(())
}

// Jobs that were given back aren't waited for.
#[test]
fn a_close_at_once_ends_joins() -> Result<(), Box<dyn Error>> {
    let pool = Arc::new(ThreadPool::builder(1, 1).open()?);
    let (gate, _first) = gated(&pool)?;
    let waits = pool.submit(|| ())?;
    let other = Arc::clone(&pool);
    let join = thread::spawn(move || other.join());
    until_joins(&pool, 1)?;
    let back = pool.close_now();
    drop(gate);
    join.join().map_err(|_| "it panicked")?;
    assert!(!waits.is_finished());
    drop(back);
    assert!(waits.wait().is_err());
    Ok(())
}
