//! Shared by several tests. Each uses a part of it.
#![allow(dead_code)]

use resil::{Bulkhead, JobHandle, ThreadPool};
use std::error::Error;
use std::pin::{Pin, pin};
use std::sync::Arc;
use std::sync::atomic::{AtomicU32, Ordering};
use std::sync::mpsc::{self, Receiver, Sender};
use std::task::{Context, Poll, Wake, Waker};
use std::thread::{self, Thread};
use std::time::{Duration, Instant};

pub type Checked = Result<(), Box<dyn Error>>;

/// For what comes soon, however busy the machine is.
pub const PATIENCE: Duration = Duration::from_secs(60);

/// Waits until it is so, for as long as there is patience.
pub fn until(mut is_so: impl FnMut() -> bool) -> bool {
    let began = Instant::now();
    while !is_so() {
        if began.elapsed() > PATIENCE {
            return false;
        }
        thread::sleep(Duration::from_millis(1));
    }
    true
}

/// The memory that this process has now, in KiB, without mapped files, as Linux reports it.
pub fn resident() -> Result<u64, Box<dyn Error>> {
    let status = std::fs::read_to_string("/proc/self/status")?;
    let line = status.lines().find(|line| line.starts_with("RssAnon:"));
    let number = line.and_then(|line| line.split_whitespace().nth(1));
    Ok(number.ok_or("there is no RssAnon")?.parse()?)
}

/// A job that ends once its gate is dropped.
pub type Gated = (Sender<()>, JobHandle<()>);

pub fn gated(pool: &ThreadPool) -> Result<Gated, Box<dyn Error>> {
    let (gate, closed) = mpsc::channel();
    let job = pool.submit(move || wait_at(&closed))?;
    Ok((gate, job))
}

pub fn all_gated(pool: &ThreadPool, count: usize) -> Result<Vec<Gated>, Box<dyn Error>> {
    (0..count).map(|_| gated(pool)).collect()
}

/// One that has begun.
pub fn begun(pool: &ThreadPool) -> Result<Gated, Box<dyn Error>> {
    let (gate, closed) = mpsc::channel();
    let (begins, begun) = mpsc::channel();
    let job = pool.submit(move || {
        let _told = begins.send(());
        wait_at(&closed);
    })?;
    begun.recv_timeout(PATIENCE)?;
    Ok((gate, job))
}

pub fn wait_at(closed: &Receiver<()>) {
    let _opened = closed.recv();
}

pub fn end((gate, job): Gated) -> Checked {
    drop(gate);
    in_time(job)
}

/// The answer of a job that ends in time.
pub fn in_time<T>(job: JobHandle<T>) -> Result<T, Box<dyn Error>> {
    Ok(job.wait_for(PATIENCE).map_err(|_| "a job isn't run")??)
}

/// What this returns on another thread.
pub fn elsewhere<T: Send + 'static>(f: impl FnOnce() -> T + Send + 'static) -> Result<T, String> {
    thread::spawn(f).join().map_err(|_| "it panicked".into())
}

/// Wakes the thread that made it, and counts how often.
pub struct Caller {
    thread: Thread,
    woken: AtomicU32,
}

impl Caller {
    pub fn here() -> Arc<Caller> {
        Arc::new(Caller {
            thread: thread::current(),
            woken: AtomicU32::new(0),
        })
    }

    pub fn woken(&self) -> u32 {
        self.woken.load(Ordering::SeqCst)
    }
}

impl Wake for Caller {
    fn wake(self: Arc<Self>) {
        self.woken.fetch_add(1, Ordering::SeqCst);
        self.thread.unpark();
    }
}

/// Runs a future to its end on this thread.
pub fn block_on<F: Future>(future: F) -> F::Output {
    let mut future = pin!(future);
    let caller = Caller::here();
    loop {
        if let Some(output) = poll_by(&mut future, &caller) {
            return output;
        }
        thread::park();
    }
}

/// What a poll of a future returns; none while it is pending.
pub fn poll_by<F: Future + Unpin>(future: &mut F, caller: &Arc<Caller>) -> Option<F::Output> {
    look(future, &Waker::from(Arc::clone(caller)))
}

pub fn polled<F: Future + Unpin>(future: &mut F) -> Option<F::Output> {
    look(future, Waker::noop())
}

pub fn look<F: Future + Unpin>(future: &mut F, waker: &Waker) -> Option<F::Output> {
    match Pin::new(future).poll(&mut Context::from_waker(waker)) {
        Poll::Ready(output) => Some(output),
        Poll::Pending => None,
    }
}

/// Whether all permits are free, and nobody waits.
pub fn is_idle(backend: &Bulkhead) -> bool {
    (backend.available(), backend.numbers().waiting) == (backend.max(), 0)
}
