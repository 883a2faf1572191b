//! A pool of threads: its answers, its numbers, its ends, and mistakes in its use.
mod common;

use common::{Checked, PATIENCE, begun, end, gated, in_time, until, wait_at};
use resil::{JobError, JobHandle, PoolError, PoolNumbers, Refusal, Reply, ThreadPool};
use std::error::Error;
use std::panic::{RefUnwindSafe, UnwindSafe};
use std::sync::Arc;
use std::sync::atomic::{AtomicU32, Ordering};
use std::sync::mpsc::{self, Sender};
use std::thread;
use std::time::Duration;

fn is_send_and_sync<T: Send + Sync>() {}
fn is_unwind_safe<T: UnwindSafe + RefUnwindSafe>() {}

#[test]
fn a_full_pool_gives_the_function_back() -> Checked {
    let pool = ThreadPool::builder(1, 1).queue(1).open()?;
    let (gate, first) = gated(&pool)?;
    let second = pool.submit(|| 2)?;
    let text = String::from("kept");
    let refused = pool.submit(move || text).unwrap_err();
    assert_eq!(refused.reason, Refusal::Full);
    assert_eq!(format!("{refused:?}"), "Refused { reason: Full, .. }");
    assert_eq!(refused.to_string(), "the pool is full");
    assert_eq!((refused.function)(), "kept");
    drop(gate);
    first.wait()?;
    assert_eq!(second.wait()?, 2);
    Ok(())
}

#[test]
fn a_closed_pool_refuses_and_runs_what_waits() -> Checked {
    let pool = ThreadPool::builder(1, 1).open()?;
    let (gate, first) = gated(&pool)?;
    let second = pool.submit(|| 2)?;
    assert!(!pool.is_closed());
    pool.close();
    pool.close();
    assert!(pool.is_closed());
    assert_eq!(pool.submit(|| 3).unwrap_err().reason, Refusal::Closed);
    assert!(!second.is_finished());
    pool.resize(1, 1)?;
    drop(gate);
    first.wait()?;
    assert_eq!(second.wait()?, 2);
    pool.join();
    let numbers = pool.numbers();
    let counts = (numbers.workers, numbers.accepted, numbers.refused);
    assert_eq!(counts, (0, 2, 1));
    Ok(())
}

#[test]
fn refusals_are_errors_of_any_function() {
    fn asked(pool: &ThreadPool) -> Result<u32, Box<dyn Error>> {
        // Neither Debug nor Sync.
        let cell = std::cell::Cell::new(1);
        Ok(pool.submit(move || cell.get())?.wait()?)
    }
    let pool = ThreadPool::builder(1, 1).open().expect("there is memory");
    assert!(matches!(asked(&pool), Ok(1)));
    pool.close();
    assert_eq!(asked(&pool).unwrap_err().to_string(), "the pool is closed");
}

#[test]
fn sizes_out_of_range_are_refused() {
    let refused = |core, max, queue| ThreadPool::builder(core, max).queue(queue).open().err();
    assert_eq!(refused(0, 0, 0), Some(PoolError::CoreOutOfRange));
    assert_eq!(refused(1_025, 1_025, 0), Some(PoolError::CoreOutOfRange));
    assert_eq!(refused(1, 1_025, 0), Some(PoolError::MaxOutOfRange));
    assert_eq!(refused(2, 1, 0), Some(PoolError::MaxOutOfRange));
    assert_eq!(refused(1, 1, 0), Some(PoolError::QueueOutOfRange));
    assert_eq!(refused(1, 1, 65_537), Some(PoolError::QueueOutOfRange));
    assert_eq!(refused(1_024, 1_024, 65_536), None);
    for error in [PoolError::CoreOutOfRange, PoolError::MaxOutOfRange] {
        assert!(error.to_string().contains("to 1024, or at a resize"));
    }
    let named = ThreadPool::builder(1, 1).name("a\0b").open();
    assert_eq!(named.err(), Some(PoolError::NulInName));
}

#[test]
fn a_panic_is_handed_back_and_the_worker_lives_on() -> Checked {
    let pool = ThreadPool::builder(1, 1).open()?;
    let worker = pool.submit(|| thread::current().id())?.wait()?;
    let number = pool.numbers().finished;
    let answer = pool
        .submit(move || -> u32 { panic!("number {number}") })?
        .wait();
    let Err(JobError::Panicked(panic)) = answer else {
        return Err("it didn't panic".into());
    };
    assert_eq!(panic.message(), Some("number 1"));
    let payload = panic.into_payload();
    let message = payload.downcast_ref::<String>().map(String::as_str);
    assert_eq!(message, Some("number 1"));
    assert_eq!(pool.submit(|| thread::current().id())?.wait()?, worker);
    let odd = pool.submit(|| std::panic::panic_any(7))?.wait();
    assert_eq!(odd.unwrap_err().to_string(), "the job panicked");
    let numbers = pool.numbers();
    assert_eq!((numbers.workers, numbers.finished), (1, 4));
    Ok(())
}

/// An answer whose drop panics, with a payload whose drop does, too.
struct Bomb;

impl Drop for Bomb {
    fn drop(&mut self) {
        if !thread::panicking() {
            std::panic::panic_any(Bomb);
        }
    }
}

#[test]
fn an_answer_that_panics_when_dropped_leaves_the_worker() -> Checked {
    let pool = ThreadPool::builder(1, 1).open()?;
    let (gate, first) = gated(&pool)?;
    // Their handles are gone before they run.
    drop(pool.submit(|| Bomb)?);
    drop(pool.submit(|| std::panic::panic_any(Bomb))?);
    drop(gate);
    first.wait()?;
    assert_eq!(pool.submit(|| 42)?.wait()?, 42);
    Ok(())
}

#[test]
fn functions_and_answers_are_dropped_once() -> Checked {
    let pool = ThreadPool::builder(1, 1).queue(4).open()?;
    let token = Arc::new(());
    let job = || {
        let (kept, given) = (Arc::clone(&token), Arc::clone(&token));
        move || {
            drop(kept);
            given
        }
    };
    let (gate, first) = gated(&pool)?;
    let (asked, gone) = (pool.submit(job())?, pool.submit(job())?);
    let fails = job();
    let panics = pool.submit(move || -> u32 { panic!("{}", fails().as_ref() == &()) })?;
    let late = pool.submit(job())?;
    drop(gone);
    let refused = pool.submit(job()).unwrap_err();
    drop(gate);
    first.wait()?;
    assert!(panics.wait().is_err());
    drop(asked.wait()?);
    // It is answered, and dropped by its handle.
    assert!(until(|| late.is_finished()));
    assert_eq!(Arc::strong_count(&token), 1 + 1 + 2);
    drop((late, refused));
    assert_eq!(Arc::strong_count(&token), 1);
    Ok(())
}

/// An answer whose drop makes its own pool run another job, and waits for it.
struct Asks(Arc<ThreadPool>, Sender<u32>);

impl Drop for Asks {
    fn drop(&mut self) {
        let answer = self.0.submit(|| 42).map(JobHandle::wait);
        let _told = self.1.send(answer.map_or(0, |answer| answer.unwrap_or(0)));
    }
}

#[test]
fn the_drop_of_an_answer_may_use_the_pool() -> Checked {
    let pool = Arc::new(ThreadPool::builder(2, 2).open()?);
    let (sender, receiver) = mpsc::channel();
    for _ in 0..50 {
        let asks = Asks(Arc::clone(&pool), sender.clone());
        drop(pool.submit(move || asks)?);
        assert_eq!(receiver.recv_timeout(PATIENCE)?, 42);
    }
    Ok(())
}

#[test]
fn waits_end_in_time() -> Checked {
    let pool = ThreadPool::builder(1, 1).open()?;
    let (gate, job) = gated(&pool)?;
    let job = job
        .wait_for(Duration::ZERO)
        .expect_err("the gate is closed");
    let job = job
        .wait_for(Duration::from_millis(5))
        .expect_err("the gate is closed");
    assert!(!job.is_finished());
    let waits = thread::spawn(move || job.wait_for(Duration::MAX).is_ok());
    drop(gate);
    assert!(waits.join().unwrap_or(false));
    let job = pool.submit(|| 42)?;
    assert!(until(|| job.is_finished()));
    let answer = job.wait_for(Duration::ZERO);
    assert!(matches!(answer, Ok(Ok(42))));
    Ok(())
}

#[test]
fn numbers_are_of_one_moment() -> Checked {
    let pool = ThreadPool::builder(2, 2).queue(1_000).open()?;
    thread::scope(|scope| {
        for _ in 0..2 {
            scope.spawn(|| (0..2_000).for_each(|_| drop(pool.submit(|| ()))));
        }
        for _ in 0..2_000 {
            let now = pool.numbers();
            let known = now.finished + u64::from(now.running) + u64::from(now.waiting);
            assert_eq!(now.accepted, known);
            assert!(now.running <= now.workers && now.workers <= now.max);
        }
    });
    pool.join();
    let now = pool.numbers();
    assert_eq!(now.accepted + now.refused, 4_000);
    assert_eq!(now.finished, now.accepted);
    Ok(())
}

#[test]
fn numbers_tell_the_sizes_and_the_jobs() -> Checked {
    let pool = ThreadPool::builder(1, 2).queue(1);
    let pool = pool.keep_alive(Duration::MAX).open()?;
    let [first, second, third] = [gated(&pool)?, gated(&pool)?, gated(&pool)?];
    for (job, reply) in [
        (&first, Reply::Core),
        (&second, Reply::Queued),
        (&third, Reply::Extra),
    ] {
        assert_eq!(job.1.reply(), reply);
    }
    assert!(pool.submit(|| ()).is_err());
    let wanted = PoolNumbers {
        core: 1,
        max: 2,
        capacity: 1,
        workers: 2,
        running: 2,
        waiting: 1,
        accepted: 3,
        refused: 1,
        finished: 0,
    };
    assert_eq!(pool.numbers(), wanted);
    for job in [third, second, first] {
        end(job)?;
    }
    let fourth = pool.submit(|| 4)?;
    assert_eq!((fourth.reply(), fourth.wait()?), (Reply::Queued, 4));
    pool.join();
    let wanted = PoolNumbers {
        running: 0,
        waiting: 0,
        accepted: 4,
        finished: 4,
        ..wanted
    };
    assert_eq!(pool.numbers(), wanted);
    Ok(())
}

#[test]
fn a_smaller_core_lets_threads_end() -> Checked {
    let pool = ThreadPool::builder(3, 3)
        .keep_alive(Duration::from_millis(2))
        .open()?;
    for _ in 0..3 {
        pool.submit(|| ())?.wait()?;
    }
    assert_eq!(pool.numbers().workers, 3);
    pool.resize(1, 3)?;
    assert!(until(|| pool.numbers().workers == 1));
    assert_eq!(pool.resize(1, 4), Err(PoolError::MaxOutOfRange));
    assert_eq!(pool.resize(0, 4), Err(PoolError::CoreOutOfRange));
    // The rule is known to queue what comes, up to the next resize.
    assert_eq!(pool.submit(|| ())?.reply(), Reply::Queued);
    pool.resize(2, 2)?;
    assert_eq!(pool.submit(|| ())?.reply(), Reply::Core);
    Ok(())
}

#[test]
fn a_dropped_pool_runs_what_waits() -> Checked {
    let ran = Arc::new(AtomicU32::new(0));
    let pool = ThreadPool::builder(2, 2).queue(1_000).open()?;
    let (gate, first) = gated(&pool)?;
    for _ in 0..500 {
        let ran = Arc::clone(&ran);
        drop(pool.submit(move || ran.fetch_add(1, Ordering::SeqCst))?);
    }
    drop(gate);
    drop(pool);
    assert!(first.is_finished());
    assert_eq!(ran.load(Ordering::SeqCst), 500);
    Ok(())
}

// While another one waits in its queue.
#[test]
fn a_job_drops_its_own_pool() -> Checked {
    for threads in [1, 3] {
        let pool = Arc::new(ThreadPool::builder(threads, threads).open()?);
        let (gate, closed) = mpsc::channel();
        let inner = Arc::clone(&pool);
        let job = pool.submit(move || {
            wait_at(&closed);
            let waits = inner.submit(|| 42).map_err(|refused| refused.reason);
            drop(inner);
            waits
        })?;
        for _ in 1..threads {
            pool.submit(|| ())?.wait()?;
        }
        drop(pool);
        drop(gate);
        assert_eq!(in_time(in_time(job)??)?, 42);
    }
    Ok(())
}

#[test]
fn jobs_join_their_own_pool() -> Checked {
    let pool = Arc::new(ThreadPool::builder(2, 2).open()?);
    let joins = [(); 2].map(|()| {
        let inner = Arc::clone(&pool);
        pool.submit(move || inner.join())
    });
    for job in joins {
        in_time(job.map_err(|refused| refused.reason)?)?;
    }
    pool.close();
    pool.join();
    assert_eq!(pool.numbers().workers, 0);
    Ok(())
}

#[test]
fn one_callers_jobs_begin_in_their_order() -> Checked {
    let pool = ThreadPool::builder(1, 1).queue(65_536).open()?;
    let (begins, begun) = mpsc::channel();
    for number in 0..20_000 {
        let begins = begins.clone();
        drop(pool.submit(move || begins.send(number))?);
    }
    drop(begins);
    assert!(begun.into_iter().eq(0..20_000));
    Ok(())
}

#[test]
fn a_long_queue_is_filled_to_its_last_place() -> Checked {
    let pool = ThreadPool::builder(1, 2).queue(700).open()?;
    let first = begun(&pool)?;
    let jobs = (0..700).map(|number| pool.submit(move || number));
    let jobs = jobs.collect::<Result<Vec<_>, _>>()?;
    assert!(jobs.iter().all(|job| job.reply() == Reply::Queued));
    let extra = gated(&pool)?;
    assert_eq!(extra.1.reply(), Reply::Extra);
    assert_eq!(pool.submit(|| ()).unwrap_err().reason, Refusal::Full);
    assert_eq!(pool.numbers().waiting, 700);
    end(first)?;
    for (job, number) in jobs.into_iter().zip(0..) {
        assert_eq!(in_time(job)?, number);
    }
    end(extra)
}

#[test]
fn an_answer_is_of_a_job_that_is_finished_and_the_other_way_round() -> Checked {
    let pool = ThreadPool::builder(3, 3).queue(1_000).open()?;
    for turn in 1..=1_000 {
        let jobs = [(); 6].map(|()| pool.submit(|| ()));
        let [first, rest @ ..] = jobs;
        in_time(first?)?;
        let finished = pool.numbers().finished;
        assert!(finished > 7 * (turn - 1));
        let rest = rest.into_iter().collect::<Result<Vec<_>, _>>()?;
        assert!(until(|| pool.numbers().finished == 7 * turn - 1));
        assert!(rest.iter().all(JobHandle::is_finished));
        // A join sees what was submitted just before it.
        let last = pool.submit(|| ())?;
        pool.join();
        assert!(last.is_finished());
    }
    Ok(())
}

#[test]
fn handles_cross_threads() {
    is_send_and_sync::<ThreadPool>();
    is_send_and_sync::<JobHandle<std::cell::Cell<u32>>>();
    is_send_and_sync::<PoolError>();
    is_unwind_safe::<ThreadPool>();
    is_unwind_safe::<JobHandle<u32>>();
}
