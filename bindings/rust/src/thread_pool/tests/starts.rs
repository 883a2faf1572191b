//! Threads that can't be started.
use super::super::{Refusal, ThreadPool, ThreadPoolBuilder};
use crate::rule::Reply;
use std::cell::Cell;
use std::error::Error;
use std::io;
use std::sync::mpsc::{self, Receiver, RecvError, Sender};
use std::sync::{Arc, Barrier};
use std::thread::{self, JoinHandle};

thread_local! {
    // How many threads this one may still start.
    static STARTS: Cell<usize> = const { Cell::new(0) };
}

fn allow(starts: usize) {
    STARTS.set(starts);
}

fn builder(core: u32, max: u32) -> ThreadPoolBuilder {
    ThreadPool::builder(core, max).start(|builder, work| {
        let left = STARTS.get().checked_sub(1);
        STARTS.set(left.ok_or(io::ErrorKind::WouldBlock)?);
        builder.spawn(work)
    })
}

fn gate() -> (Sender<()>, Receiver<()>) {
    mpsc::channel()
}

#[test]
fn without_a_thread_the_submitter_runs_the_job() -> Result<(), Box<dyn Error>> {
    let pool = builder(1, 1).open()?;
    allow(0);
    for reply in [Reply::Core, Reply::Queued] {
        let job = pool.submit(|| thread::current().id())?;
        assert!(job.is_finished());
        assert_eq!((job.reply(), job.wait()?), (reply, thread::current().id()));
    }
    let numbers = pool.numbers();
    let counts = (numbers.workers, numbers.accepted, numbers.finished);
    assert_eq!(counts, (1, 2, 2));
    pool.close();
    pool.join();
    Ok(())
}

#[test]
fn another_thread_runs_the_job() -> Result<(), Box<dyn Error>> {
    let pool = builder(2, 2).open()?;
    allow(1);
    let (open, closed) = gate();
    let first = pool.submit(move || {
        let _opened = closed.recv();
        thread::current().id()
    })?;
    let second = pool.submit(|| thread::current().id())?;
    assert_eq!(second.reply(), Reply::Core);
    assert!(!second.is_finished());
    drop(open);
    assert_eq!(first.wait()?, second.wait()?);
    Ok(())
}

#[test]
fn a_thread_that_sleeps_runs_the_job() -> Result<(), Box<dyn Error>> {
    let pool = builder(2, 2).open()?;
    allow(1);
    let first = pool.submit(|| thread::current().id())?.wait()?;
    assert_eq!(pool.submit(|| thread::current().id())?.wait()?, first);
    assert_ne!(first, thread::current().id());
    Ok(())
}

#[test]
fn the_next_submission_tries_again() -> Result<(), Box<dyn Error>> {
    let pool = builder(2, 2).open()?;
    allow(0);
    for _ in 0..2 {
        let by = pool.submit(|| thread::current().id())?.wait()?;
        assert_eq!(by, thread::current().id());
    }
    allow(2);
    let both = Arc::new(Barrier::new(2));
    let jobs = [(); 2].map(|()| {
        let both = Arc::clone(&both);
        pool.submit(move || both.wait())
    });
    for job in jobs {
        job.map_err(|refused| refused.reason)?.wait()?;
    }
    assert_eq!((pool.numbers().workers, STARTS.get()), (2, 0));
    Ok(())
}

#[test]
fn a_job_that_the_submitter_runs_submits_and_joins() -> Result<(), Box<dyn Error>> {
    let pool = Arc::new(builder(1, 1).open()?);
    allow(0);
    let inner = Arc::clone(&pool);
    let outer = pool.submit(move || {
        let job = inner.submit(|| 42).map_err(|refused| refused.reason);
        inner.join();
        job
    })?;
    assert_eq!(outer.wait()??.wait()?, 42);
    assert_eq!(pool.numbers().finished, 2);
    Ok(())
}

#[test]
fn a_pool_whose_threads_are_missing_ends() -> Result<(), Box<dyn Error>> {
    for starts in 0..=1 {
        let pool = builder(3, 4).queue(1).open()?;
        allow(starts);
        for _ in 0..3 {
            pool.submit(|| ())?.wait()?;
        }
        pool.close();
        pool.join();
        let numbers = pool.numbers();
        assert_eq!((numbers.workers, numbers.finished), (0, 3));
    }
    Ok(())
}

// A pool that can't start any thread makes its submitter run a job. That job submits to another such pool, whose job joins the first one.
// Nobody else is there to end what it would wait for.
#[test]
fn a_job_joins_the_pool_of_the_job_around_it() -> Result<(), Box<dyn Error>> {
    let outer = Arc::new(builder(1, 1).open()?);
    let inner = Arc::new(builder(1, 1).open()?);
    allow(0);
    let (joined, submits) = (Arc::clone(&outer), Arc::clone(&inner));
    let job = outer.submit(move || {
        let job = submits.submit(move || {
            joined.join();
            joined.close();
            joined.join();
            thread::current().id()
        });
        job.map_err(|refused| refused.reason)
    })?;
    assert!(job.is_finished());
    assert_eq!(job.wait()??.wait()?, thread::current().id());
    assert_eq!((outer.numbers().finished, inner.numbers().finished), (1, 1));
    Ok(())
}

type Submitter = JoinHandle<Result<(), Refusal>>;

// A submitter that runs its job itself, until the gate is opened.
fn submitter_at_work(pool: &Arc<ThreadPool>) -> Result<(Sender<()>, Submitter), RecvError> {
    let (open, closed) = gate();
    let (tell, told) = mpsc::channel();
    let other = Arc::clone(pool);
    let submitter = thread::spawn(move || {
        allow(0);
        let job = other.submit(move || {
            let _heard = tell.send(());
            let _opened = closed.recv();
        });
        job.map(drop).map_err(|refused| refused.reason)
    });
    told.recv()?;
    Ok((open, submitter))
}

// The maximum size also limits jobs that a submitter runs, and a thread that held back is called when the submitter ends one.
#[test]
fn a_submitter_that_ends_a_job_calls_a_thread_that_held_back() -> Result<(), Box<dyn Error>> {
    let pool = Arc::new(builder(1, 1).open()?);
    allow(0);
    let (open, submitter) = submitter_at_work(&pool)?;
    // A thread is there now, but the only job that may run is the submitter's.
    allow(1);
    let second = pool.submit(|| thread::current().id())?;
    assert_eq!((second.reply(), STARTS.get()), (Reply::Queued, 0));
    while pool.crew.lock().held == 0 {
        thread::yield_now();
    }
    assert!(!second.is_finished());
    drop(open);
    let worker = second.wait()?;
    let answer = submitter.join().map_err(|_| "it panicked")?;
    assert!(answer.is_ok() && worker != thread::current().id());
    Ok(())
}

// By the rule the second job has a worker, so it is finished there; the third one waits.
#[test]
fn what_is_given_back_without_a_thread_is_finished_in_the_record() -> Result<(), Box<dyn Error>> {
    let pool = builder(2, 2).queue(1).record(10).open()?;
    allow(1);
    let ((open, closed), (tell, told)) = (gate(), gate());
    let first = pool.submit(move || {
        let _heard = tell.send(());
        closed.recv()
    })?;
    told.recv()?;
    let _others = [pool.submit(|| ())?, pool.submit(|| ())?];
    assert_eq!(pool.close_now().len(), 2);
    drop(open);
    assert!(first.wait()?.is_err());
    pool.join();
    let text = pool.history().ok_or("it isn't recorded")?;
    let events = text.lines().filter_map(|line| line.rsplit_once(",,"));
    let events: Vec<_> = events.map(|(event, _at)| event).collect();
    let wanted = [
        "submit,1,1,core,,",
        "submit,1,2,core,,",
        "submit,1,3,queued,,",
        "close,,,,,",
        "finish,1,2,,,",
        "remove,1,3,,,",
        "idle,,,,,",
        "finish,1,1,,,",
        "idle,,,,,",
    ];
    assert_eq!(events, wanted);
    Ok(())
}

// A closed pool's thread ends while a submitter takes the place of the only worker and runs a job.
#[test]
fn a_submitter_is_the_last_of_a_closed_pool() -> Result<(), Box<dyn Error>> {
    let pool = Arc::new(builder(1, 1).open()?);
    let (open, submitter) = submitter_at_work(&pool)?;
    allow(1);
    let second = pool.submit(|| ())?;
    drop(pool.close_now());
    assert!(second.wait().is_err());
    while pool.crew.lock().threads > 0 {
        thread::yield_now();
    }
    let numbers = pool.numbers();
    let counts = (numbers.workers, numbers.running, numbers.waiting);
    assert_eq!(counts, (1, 1, 0));
    drop(open);
    let answer = submitter.join().map_err(|_| "it panicked")?;
    assert_eq!(answer, Ok(()));
    let numbers = pool.numbers();
    assert_eq!((numbers.workers, numbers.finished), (0, 2));
    Ok(())
}
