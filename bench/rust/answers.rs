//! What the pools share whose jobs hand an answer back each. `answers CALLERS WORKERS JOBS` asks for a round whose callers submit
//! all of their jobs and then wait for each answer; with one more number they are so many jobs ahead. `starts WORKERS JOBS` tells how
//! long it takes from a submission to the job's start while all workers are idle. `open WORKERS` opens a pool; then `job` runs one on
//! it, `jobs` 100,000 by fifty ahead, `pairs` times 100 pairs, `times` tells the times, and `echo` runs none, until `close`.
use crate::rounds;
use crate::tail::{PAIRS, Times, wait_for};
use std::sync::Arc;
use std::sync::atomic::{AtomicU64, AtomicUsize, Ordering};
use std::thread;
use std::time::{Duration, Instant};

// How many jobs are ahead of their answers for `jobs`, and how many jobs that are.
const AHEAD: usize = 50;
const JOBS: usize = 100_000;

// The pause before a job of `starts`, in which the workers fall asleep.
const PAUSE: Duration = Duration::from_micros(500);

/// The most jobs that wait.
#[allow(dead_code)]
pub const QUEUE: usize = 65_536;

/// A pool whose jobs hand an answer back each.
pub trait Pool: Sync {
    type Answer;

    fn open(workers: usize) -> Self;

    fn submit(&self, job: impl FnOnce() -> usize + Send + 'static) -> Self::Answer;

    fn wait(&self, answer: Self::Answer) -> usize;

    /// Submits jobs, so many at a time, and waits for the answer of each: how many were right.
    fn answers(&self, jobs: usize, ahead: usize) -> usize {
        let right = |jobs: usize| {
            let all: Vec<_> = (0..jobs).map(|job| self.submit(move || job)).collect();
            let answers = all.into_iter().enumerate();
            answers.map(|(job, answer)| usize::from(self.wait(answer) == job)).sum::<usize>()
        };
        (0..jobs).step_by(ahead).map(|done| right(ahead.min(jobs - done))).sum()
    }
}

fn run<P: Pool>(callers: usize, workers: usize, jobs: usize, ahead: usize) {
    let pool = P::open(workers);
    let count: usize = thread::scope(|scope| {
        let callers: Vec<_> = (0..callers).map(|_| scope.spawn(|| pool.answers(jobs / callers, ahead))).collect();
        callers.into_iter().map(|caller| caller.join().expect("a caller ends")).sum()
    });
    drop(pool);
    println!("pool: {count} answers");
}

// A pool all of whose threads were started.
fn opened<P: Pool>(workers: usize) -> P {
    let pool = P::open(workers);
    let started = Arc::new(AtomicUsize::new(0));
    let job = |_| {
        let started = started.clone();
        pool.submit(move || {
            started.fetch_add(1, Ordering::SeqCst);
            wait_for(&started, workers);
            0
        })
    };
    let all: Vec<_> = (0..workers).map(job).collect();
    for answer in all {
        pool.wait(answer);
    }
    pool
}

fn starts<P: Pool>(workers: usize, jobs: usize) {
    let (pool, birth, start) = (opened::<P>(workers), Instant::now(), Arc::new(AtomicU64::new(0)));
    let now = move || u64::try_from(birth.elapsed().as_nanos()).expect("a short run");
    let time = |_| {
        thread::sleep(PAUSE);
        start.store(0, Ordering::SeqCst);
        let (begun, here) = (now(), start.clone());
        drop(pool.submit(move || {
            here.store(now(), Ordering::SeqCst);
            0
        }));
        while start.load(Ordering::SeqCst) == 0 {
            std::hint::spin_loop();
        }
        start.load(Ordering::SeqCst) - begun
    };
    let mut times: Vec<u64> = (0..jobs).map(time).collect();
    times.sort_unstable();
    println!("{} {} ns, {jobs} jobs", times[jobs / 2], times[jobs * 99 / 100]);
}

// Submits two jobs, of which the first ends once the second has started, and waits for that.
fn start_pair(pool: &impl Pool, starts: &Arc<AtomicUsize>) {
    let both = starts.load(Ordering::SeqCst) + 2;
    for _ in 0..2 {
        let starts = starts.clone();
        drop(pool.submit(move || {
            starts.fetch_add(1, Ordering::SeqCst);
            wait_for(&starts, both);
            0
        }));
    }
    wait_for(starts, both);
}

fn open<P: Pool>(workers: usize, lines: impl Iterator<Item = (String, Vec<usize>)>) {
    let (pool, starts) = (opened::<P>(workers), Arc::new(AtomicUsize::new(0)));
    println!("open");
    let mut times = Times::default();
    for (name, _) in lines.take_while(|(name, _)| name != "close") {
        match name.as_str() {
            "job" => {
                let here = starts.clone();
                let submitted = starts.load(Ordering::SeqCst) + 1;
                drop(pool.submit(move || here.fetch_add(1, Ordering::SeqCst)));
                wait_for(&starts, submitted);
                println!("started");
            }
            "jobs" => println!("jobs: {} answers", pool.answers(JOBS, AHEAD)),
            "pairs" => {
                (0..PAIRS).for_each(|_| times.time(|| start_pair(&pool, &starts)));
                println!("pairs");
            }
            "times" => times.print(),
            _ => println!("echo"),
        }
    }
    drop(pool);
    println!("closed");
}

/// Does the rounds that are asked for.
pub fn serve<P: Pool>() {
    let mut lines = rounds::lines();
    while let Some((name, numbers)) = lines.next() {
        match (name.as_str(), &numbers[..]) {
            ("open", [workers]) => open::<P>(*workers, &mut lines),
            ("starts", [workers, jobs]) => starts::<P>(*workers, *jobs),
            ("answers", [callers, workers, jobs]) => run::<P>(*callers, *workers, *jobs, *jobs),
            ("answers", [callers, workers, jobs, ahead]) => run::<P>(*callers, *workers, *jobs, *ahead),
            _ => panic!("the line asks for no round"),
        }
    }
}
