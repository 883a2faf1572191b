//! How a pool of threads ends: joins, closes, drops and panics, and who may be its last owner.
mod common;

use common::{Checked, PATIENCE, elsewhere, gated, in_time, until, wait_at};
use resil::{JobError, ThreadPool};
use std::cell::RefCell;
use std::error::Error;
use std::sync::atomic::{AtomicU32, Ordering};
use std::sync::mpsc::{self, Sender};
use std::sync::{Arc, Barrier};
use std::thread::{self, JoinHandle};
use std::time::{Duration, Instant};

// The answer of a thread that ends in time.
fn joined<T>(thread: JoinHandle<T>) -> Result<thread::Result<T>, Box<dyn Error>> {
    if until(|| thread.is_finished()) {
        Ok(thread.join())
    } else {
        Err("the thread hangs".into())
    }
}

/// An owner of a pool, which reports when it begins to drop it and when it has, and if told to, joins it first.
struct Owner {
    pool: Option<Arc<ThreadPool>>,
    joins: bool,
    dropped: Sender<()>,
}

impl Owner {
    fn new(pool: &Arc<ThreadPool>, joins: bool, dropped: &Sender<()>) -> Owner {
        let (pool, dropped) = (Some(Arc::clone(pool)), dropped.clone());
        Owner {
            pool,
            joins,
            dropped,
        }
    }
}

impl Drop for Owner {
    fn drop(&mut self) {
        let _told = self.dropped.send(());
        if let Some(pool) = self.pool.take() {
            if self.joins {
                pool.join();
            }
            drop(pool);
        }
        let _told = self.dropped.send(());
    }
}

thread_local! {
    static OWNER: RefCell<Option<Owner>> = const { RefCell::new(None) };
}

#[test]
fn a_thread_local_of_a_worker_is_the_last_owner() -> Checked {
    for (threads, joins) in [(1, false), (1, true), (3, false), (3, true)] {
        let pool = Arc::new(ThreadPool::builder(threads, threads).open()?);
        let (dropped, told) = mpsc::channel();
        let owner = Owner::new(&pool, joins, &dropped);
        let job = pool.submit(move || OWNER.set(Some(owner)));
        job.map_err(|refused| refused.reason)?.wait()?;
        for _ in 1..threads {
            pool.submit(|| ())?.wait()?;
        }
        pool.close();
        drop(pool);
        told.recv_timeout(PATIENCE)?;
        told.recv_timeout(PATIENCE)?;
    }
    Ok(())
}

#[test]
fn thread_locals_of_workers_join_beside_another_owner() -> Checked {
    let pool = Arc::new(ThreadPool::builder(3, 3).open()?);
    let (dropped, told) = mpsc::channel();
    let all = Arc::new(Barrier::new(3));
    let jobs = [(); 3].map(|()| {
        let all = Arc::clone(&all);
        let owner = Owner::new(&pool, true, &dropped);
        pool.submit(move || {
            all.wait();
            OWNER.set(Some(owner));
        })
    });
    for job in jobs {
        job.map_err(|refused| refused.reason)?.wait()?;
    }
    pool.close();
    let joins = Arc::clone(&pool);
    let joins = thread::spawn(move || joins.join());
    for _ in 0..6 {
        told.recv_timeout(PATIENCE)?;
    }
    joined(joins)?.map_err(|_| "it panicked")?;
    assert_eq!(pool.numbers().workers, 0);
    Ok(())
}

#[test]
fn a_thread_that_goes_while_its_pool_is_open_is_the_last_owner() -> Checked {
    let pool = ThreadPool::builder(1, 2).queue(1);
    let pool = pool.keep_alive(Duration::ZERO).open()?;
    let pool = Arc::new(pool);
    let (dropped, told) = mpsc::channel();
    let (gate, first) = gated(&pool)?;
    let (_, second) = gated(&pool)?;
    // The third one has a thread above the core size, which ends while the first one runs.
    let owner = Owner::new(&pool, false, &dropped);
    let (open, closed) = mpsc::channel();
    let third = pool.submit(move || {
        OWNER.set(Some(owner));
        wait_at(&closed);
    });
    let third = third.map_err(|refused| refused.reason)?;
    drop(pool);
    drop(open);
    third.wait()?;
    told.recv_timeout(PATIENCE)?;
    assert!(!first.is_finished());
    drop(gate);
    told.recv_timeout(PATIENCE)?;
    assert!(first.is_finished() && second.is_finished());
    Ok(())
}

#[test]
fn a_join_gives_up_in_time() -> Checked {
    let pool = ThreadPool::builder(1, 1).open()?;
    assert!(pool.join_for(Duration::ZERO));
    let (gate, first) = gated(&pool)?;
    assert!(!pool.join_for(Duration::ZERO));
    let began = Instant::now();
    assert!(!pool.join_for(Duration::from_millis(20)));
    assert!(began.elapsed() >= Duration::from_millis(20));
    drop(gate);
    assert!(pool.join_for(PATIENCE));
    assert!(first.is_finished());
    assert_eq!(pool.numbers().workers, 1);
    let (gate, _second) = gated(&pool)?;
    pool.close();
    assert!(!pool.join_for(Duration::from_millis(1)));
    drop(gate);
    assert!(pool.join_for(Duration::MAX));
    assert_eq!(pool.numbers().workers, 0);
    pool.join();
    Ok(())
}

#[test]
fn a_join_leaves_out_what_is_submitted_later() -> Checked {
    let pool = Arc::new(ThreadPool::builder(2, 2).open()?);
    let (gate, _later) = gated(&pool)?;
    // A job's join leaves out this job too.
    let inner = Arc::clone(&pool);
    let (open, opened) = mpsc::channel();
    let job = pool.submit(move || {
        wait_at(&opened);
        inner.join_for(Duration::ZERO)
    })?;
    drop(open);
    assert!(!in_time(job)?, "it doesn't wait for the job at the gate");
    drop(gate);
    Ok(())
}

#[test]
fn a_detached_pool_runs_what_was_accepted() -> Checked {
    let pool = ThreadPool::builder(1, 1).open()?;
    let (gate, first) = gated(&pool)?;
    let second = pool.submit(|| 2)?;
    pool.detach();
    assert!(!first.is_finished());
    drop(gate);
    assert_eq!(second.wait()?, 2);
    assert!(first.is_finished());
    Ok(())
}

#[test]
fn a_panic_beside_a_job_that_waits_for_its_caller_is_told() -> Checked {
    let caller = thread::spawn(|| -> u32 {
        let (_gate, closed) = mpsc::channel();
        let pool = ThreadPool::builder(1, 1).open().expect("there is memory");
        let job = pool.submit(move || wait_at(&closed));
        // The pool is dropped before the gate.
        panic!("{} jobs", u32::from(job.is_ok()))
    });
    let panic = joined(caller)?.expect_err("it panics");
    let message = panic.downcast_ref::<String>().map(String::as_str);
    assert_eq!(message, Some("1 jobs"));
    Ok(())
}

#[test]
fn what_has_not_begun_comes_back() -> Checked {
    let pool = ThreadPool::builder(1, 1).open()?;
    let (gate, first) = gated(&pool)?;
    let token = Arc::new(());
    let jobs = (1..=4).map(|number| {
        let token = Arc::clone(&token);
        pool.submit(move || (number, thread::current().id(), token))
    });
    let mut jobs = jobs
        .collect::<Result<Vec<_>, _>>()
        .map_err(|refused| refused.reason)?;
    let mut back = pool.close_now();
    assert!(pool.is_closed());
    assert_eq!((back.len(), Arc::strong_count(&token)), (4, 5));
    assert!(pool.close_now().is_empty());
    let numbers = pool.numbers();
    assert_eq!((numbers.accepted, numbers.finished), (5, 4));
    assert_eq!((numbers.running, numbers.waiting), (1, 0));
    assert!(jobs.iter().all(|job| !job.is_finished()));

    // The last is run elsewhere, the third by nobody, the second without a handle, and the first here.
    let last = back.pop().ok_or("there is none")?;
    elsewhere(move || last.run())?;
    let (number, thread, token_of_last) = jobs.pop().ok_or("there is none")?.wait()?;
    assert!(number == 4 && thread != thread::current().id());
    drop(token_of_last);
    drop(back.pop());
    let cancelled = jobs.pop().ok_or("there is none")?.wait();
    assert!(matches!(cancelled, Err(JobError::Cancelled)));
    drop(jobs.pop());
    back.pop().ok_or("there is none")?.run();
    back.pop().ok_or("there is none")?.run();
    let (number, thread, token_of_first) = jobs.pop().ok_or("there is none")?.wait()?;
    assert_eq!((number, thread), (1, thread::current().id()));
    drop((token_of_first, back));
    assert_eq!(Arc::strong_count(&token), 1);

    assert!(!first.is_finished() && !pool.join_for(Duration::ZERO));
    drop(gate);
    pool.join();
    let numbers = pool.numbers();
    assert_eq!((numbers.workers, numbers.finished), (0, 5));
    Ok(())
}

/// What panics when it is dropped.
struct Bomb;

impl Drop for Bomb {
    fn drop(&mut self) {
        assert!(thread::panicking(), "a bomb");
    }
}

#[test]
fn what_comes_back_may_panic() -> Checked {
    let pool = ThreadPool::builder(1, 1).open()?;
    let (gate, _first) = gated(&pool)?;
    let panics = pool.submit(|| -> u32 { panic!("out of paper") })?;
    let bomb = Bomb;
    let goes = pool.submit(move || {
        let _bomb = &bomb;
    })?;
    let mut back = pool.close_now().into_iter();
    back.next().ok_or("there is none")?.run();
    drop(back);
    let said = panics.wait().map_err(|error| error.to_string());
    assert_eq!(said, Err("the job panicked: out of paper".to_owned()));
    assert!(matches!(goes.wait(), Err(JobError::Cancelled)));
    drop(gate);
    Ok(())
}

#[test]
fn a_job_closes_its_own_pool_at_once() -> Checked {
    let pool = Arc::new(ThreadPool::builder(1, 1).open()?);
    let inner = Arc::clone(&pool);
    let (gate, closed) = mpsc::channel();
    let job = pool.submit(move || {
        wait_at(&closed);
        let back = inner.close_now();
        inner.join();
        back.len()
    })?;
    let waits = pool.submit(|| 1)?;
    drop(gate);
    assert_eq!(in_time(job)?, 1);
    assert!(matches!(waits.wait(), Err(JobError::Cancelled)));
    pool.join();
    Ok(())
}

// Every accepted job is run or comes back, even while others submit and join.
#[test]
fn nothing_is_lost_by_a_close_at_once() -> Checked {
    for round in 0..30 {
        let pool = Arc::new(ThreadPool::builder(2, 4).queue(64).open()?);
        let ran = Arc::new(AtomicU32::new(0));
        let submitters = [(); 3].map(|()| {
            let (pool, ran) = (Arc::clone(&pool), Arc::clone(&ran));
            thread::spawn(move || {
                let mut jobs = Vec::new();
                while !pool.is_closed() {
                    let ran = Arc::clone(&ran);
                    jobs.extend(pool.submit(move || ran.fetch_add(1, Ordering::SeqCst)));
                }
                jobs
            })
        });
        let joins = Arc::clone(&pool);
        let joins = thread::spawn(move || {
            while !joins.is_closed() {
                joins.join();
            }
            joins.join();
        });
        assert!(until(|| pool.numbers().finished > 50 * round));
        let back = pool.close_now();
        let cancelled = back.len();
        drop(back);
        let mut counts = (0, 0);
        for submitter in submitters {
            for job in joined(submitter)?.map_err(|_| "it panicked")? {
                match job.wait_for(PATIENCE).map_err(|_| "a job is lost")? {
                    Ok(_) => counts.0 += 1,
                    Err(_) => counts.1 += 1,
                }
            }
        }
        joined(joins)?.map_err(|_| "it panicked")?;
        assert_eq!(counts, (ran.load(Ordering::SeqCst), cancelled));
        let numbers = pool.numbers();
        assert_eq!((numbers.workers, numbers.waiting), (0, 0));
        assert_eq!(numbers.finished, numbers.accepted);
        assert_eq!(numbers.accepted, u64::from(counts.0) + cancelled as u64);
    }
    Ok(())
}
