//! A pool behind a Mutex with a Condvar, as one would write it by hand, that records nothing. `works CALLERS WORKERS WORKS`
//! asks for a round whose works do nothing, and `answers` for one in which each hands its answer back by a channel of its
//! own. `own WORKERS` opens a pool; then `job` runs one work on it, `jobs` 100,000 by a thousand ahead, `pairs` times 100 pairs,
//! `times` tells the times, and `echo` runs none, until `close`.
mod rounds;
mod tail;

use std::collections::VecDeque;
use std::sync::atomic::{AtomicUsize, Ordering};
use std::sync::{Condvar, Mutex, mpsc};
use std::thread;
use tail::{PAIRS, Times, wait_for};

// How many works of an open pool are ahead of those that have started, and how often so many are submitted for `jobs`.
const AHEAD: usize = 1_000;
const PARTS: usize = 100;

const QUEUE: usize = 65_536;

// What a pool runs.
trait Work: Send {
    fn run(self);
}

struct Nothing;

impl Work for Nothing {
    fn run(self) {}
}

// A work that counts itself among those that have started, and ends once so many have.
struct Tick<'a> {
    started: &'a AtomicUsize,
    until: usize,
}

impl Work for Tick<'_> {
    fn run(self) {
        self.started.fetch_add(1, Ordering::SeqCst);
        wait_for(self.started, self.until);
    }
}

struct Echo {
    number: usize,
    reply: mpsc::SyncSender<usize>,
}

impl Work for Echo {
    fn run(self) {
        // Whoever asked may have gone.
        let _ = self.reply.send(self.number);
    }
}

struct State<W> {
    waiting: VecDeque<W>,
    closed: bool,
}

struct Pool<W> {
    state: Mutex<State<W>>,
    changed: Condvar,
}

impl<W: Work> Pool<W> {
    // Whether there was room for the work.
    fn submit(&self, work: W) -> bool {
        let mut state = self.state.lock().expect("no thread panics");
        if state.closed || state.waiting.len() >= QUEUE {
            return false;
        }
        state.waiting.push_back(work);
        drop(state);
        self.changed.notify_one();
        true
    }

    fn pick(&self) -> Option<W> {
        let mut state = self.state.lock().expect("no thread panics");
        loop {
            if let Some(work) = state.waiting.pop_front() {
                return Some(work);
            }
            if state.closed {
                return None;
            }
            state = self.changed.wait(state).expect("no thread panics");
        }
    }

    fn work(&self) {
        while let Some(work) = self.pick() {
            work.run();
        }
    }

    fn close(&self) {
        self.state.lock().expect("no thread panics").closed = true;
        self.changed.notify_all();
    }

    // Has so many threads work, until what is done beside them is over.
    fn during<T>(workers: usize, beside: impl FnOnce(&Self) -> T) -> T {
        let state = State {
            waiting: VecDeque::new(),
            closed: false,
        };
        let pool = Pool {
            state: Mutex::new(state),
            changed: Condvar::new(),
        };
        thread::scope(|scope| {
            (0..workers).for_each(|_| drop(scope.spawn(|| pool.work())));
            let answer = beside(&pool);
            pool.close();
            answer
        })
    }
}

// What the callers come to, each on a thread of its own.
fn by_callers(callers: usize, caller: impl Fn() -> usize + Sync) -> usize {
    thread::scope(|scope| {
        let callers: Vec<_> = (0..callers).map(|_| scope.spawn(&caller)).collect();
        callers.into_iter().map(|caller| caller.join().expect("a caller ends")).sum()
    })
}

fn works(callers: usize, workers: usize, works: usize) -> usize {
    let caller = |pool: &Pool<_>| (0..works / callers).filter(|_| pool.submit(Nothing)).count();
    Pool::during(workers, |pool| by_callers(callers, || caller(pool)))
}

// The works of one caller, so many at a time: how many answers were right.
fn answers_of(pool: &Pool<Echo>, works: usize, at_once: usize) -> usize {
    let submit = |number| {
        let (reply, answer) = mpsc::sync_channel(1);
        assert!(pool.submit(Echo { number, reply }), "there is room in the queue");
        answer
    };
    let right = |works: usize| {
        let all: Vec<_> = (0..works).map(submit).collect();
        all.into_iter().enumerate().filter(|(number, answer)| answer.recv() == Ok(*number)).count()
    };
    let whole = works / at_once;
    (0..whole).map(|_| right(at_once)).sum::<usize>() + right(works % at_once)
}

fn answers(callers: usize, workers: usize, works: usize) -> usize {
    let caller = |pool: &Pool<_>| answers_of(pool, works / callers, QUEUE / callers);
    Pool::during(workers, |pool| by_callers(callers, || caller(pool)))
}

// Submits so many works to a pool that has none, and waits for the start of the last.
fn start_all<'a>(pool: &Pool<Tick<'a>>, count: &'a AtomicUsize, works: usize) {
    let all = count.load(Ordering::SeqCst) + works;
    let tick = Tick { started: count, until: 0 };
    (0..works).for_each(|_| assert!(pool.submit(Tick { ..tick }), "there is room in the queue"));
    wait_for(count, all);
}

// Submits two works, of which the first ends once the second has started, and waits for that.
fn start_pair<'a>(pool: &Pool<Tick<'a>>, started: &'a AtomicUsize) {
    let until = started.load(Ordering::SeqCst) + 2;
    (0..2).for_each(|_| assert!(pool.submit(Tick { started, until }), "there is room in the queue"));
    wait_for(started, until);
}

fn own(workers: usize, lines: impl Iterator<Item = (String, Vec<usize>)>) {
    println!("open");
    let count = AtomicUsize::new(0);
    let mut times = Times::default();
    Pool::during(workers, |pool| {
        for (name, _) in lines.take_while(|(name, _)| name != "close") {
            match name.as_str() {
                "job" => {
                    start_all(pool, &count, 1);
                    println!("started");
                }
                "jobs" => {
                    (0..PARTS).for_each(|_| start_all(pool, &count, AHEAD));
                    println!("jobs");
                }
                "pairs" => {
                    (0..PAIRS).for_each(|_| times.time(|| start_pair(pool, &count)));
                    println!("pairs");
                }
                "times" => times.print(),
                _ => println!("echo"),
            }
        }
    });
    println!("closed: {} works", count.into_inner());
}

fn main() {
    let mut lines = rounds::lines();
    while let Some((name, numbers)) = lines.next() {
        match (name.as_str(), &numbers[..]) {
            ("own", [workers]) => own(*workers, &mut lines),
            ("works", [callers, workers, count]) => println!("works: {}", works(*callers, *workers, *count)),
            ("answers", [callers, workers, count]) => println!("answers: {}", answers(*callers, *workers, *count)),
            _ => panic!("the line asks for no round"),
        }
    }
}
