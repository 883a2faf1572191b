//! A pool behind a Mutex with a Condvar, as one would write it by hand, that records what ours does: one history, a
//! receipt for each submission and a result for each job. The lines of standard input are those of resil_bench.
mod rounds;

use std::collections::VecDeque;
use std::sync::atomic::{AtomicUsize, Ordering};
use std::sync::{Condvar, Mutex};
use std::{hint, thread};

// How often a wait for a job's start looks before it yields at each look.
const SPINS: u32 = 2000;

#[allow(dead_code)]
#[derive(Clone, Copy)]
struct Id {
    caller: u16,
    number: u64,
}

#[derive(Clone, Copy)]
enum Reply {
    Core,
    Queued,
    Full,
    Closed,
}

// What is recorded isn't read again.
#[allow(dead_code)]
enum Event {
    Submit(Id, Reply),
    Take(Id),
    Finish(Id),
    IdleEnd,
    Close,
}

// What a job runs: its outcome is the first of its script.
#[derive(Clone)]
struct Plan {
    script: Vec<i64>,
}

#[allow(dead_code)]
struct Receipt {
    number: u64,
    reply: Reply,
    plan: Plan,
}

#[derive(Default)]
struct State {
    workers: usize,
    closed: bool,
    started: VecDeque<(Id, Plan)>,
    waiting: VecDeque<(Id, Plan)>,
    history: Vec<Event>,
    results: Vec<(Id, i64)>,
}

struct Pool {
    core: usize,
    queue: usize,
    state: Mutex<State>,
    changed: Condvar,
    starts: AtomicUsize,
}

impl Pool {
    fn new(core: usize) -> Pool {
        Pool {
            core,
            queue: 65_536,
            state: Mutex::default(),
            changed: Condvar::new(),
            starts: AtomicUsize::new(0),
        }
    }

    fn submit(&self, caller: u16, plan: Plan, receipts: &mut Vec<Receipt>) {
        let number = receipts.len() as u64 + 1;
        let id = Id { caller, number };
        let kept = plan.clone();
        let mut state = self.state.lock().expect("no thread panics");
        let reply = if state.closed {
            Reply::Closed
        } else if state.workers < self.core {
            state.workers += 1;
            state.started.push_back((id, plan));
            Reply::Core
        } else if state.waiting.len() < self.queue {
            state.waiting.push_back((id, plan));
            Reply::Queued
        } else {
            Reply::Full
        };
        state.history.push(Event::Submit(id, reply));
        drop(state);
        self.changed.notify_one();
        receipts.push(Receipt {
            number,
            reply,
            plan: kept,
        });
    }

    // The next job, or none where the pool is closed and no job is left.
    fn pick(&self) -> Option<(Id, Plan)> {
        let mut state = self.state.lock().expect("no thread panics");
        loop {
            if let Some(job) = state.started.pop_front() {
                return Some(job);
            }
            if let Some(job) = state.waiting.pop_front() {
                state.history.push(Event::Take(job.0));
                return Some(job);
            }
            if state.closed {
                if state.workers > 0 {
                    state.workers -= 1;
                    state.history.push(Event::IdleEnd);
                }
                return None;
            }
            state = self.changed.wait(state).expect("no thread panics");
        }
    }

    // Runs a job that was picked, and records its end.
    fn run_job(&self, (id, plan): (Id, Plan)) {
        self.starts.fetch_add(1, Ordering::SeqCst);
        let value = plan.script[0];
        let mut state = self.state.lock().expect("no thread panics");
        state.history.push(Event::Finish(id));
        state.results.push((id, value));
    }

    fn work(&self) {
        while let Some(job) = self.pick() {
            self.run_job(job);
        }
    }

    fn close(&self) {
        let mut state = self.state.lock().expect("no thread panics");
        state.closed = true;
        state.history.push(Event::Close);
        drop(state);
        self.changed.notify_all();
    }

    // Has as many threads work as the core size, until what is done beside them is over.
    fn during(self, beside: impl FnOnce(&Pool)) -> usize {
        thread::scope(|scope| {
            for _ in 0..self.core {
                scope.spawn(|| self.work());
            }
            beside(&self);
            self.close();
        });
        self.state.into_inner().expect("no thread panics").results.len()
    }
}

fn run(callers: usize, workers: usize, jobs: usize) {
    // The rows are made first, as those of resil_bench.
    let rows: Vec<Vec<Plan>> = (0..callers)
        .map(|_| vec![Plan { script: vec![1] }; jobs / callers])
        .collect();
    let mut kept: Vec<Vec<Receipt>> = rows.iter().map(|_| Vec::new()).collect();
    let results = Pool::new(workers).during(|pool| {
        thread::scope(|scope| {
            for (caller, (own, receipts)) in (1..).zip(rows.iter().zip(&mut kept)) {
                scope.spawn(move || own.iter().for_each(|plan| pool.submit(caller, plan.clone(), receipts)));
            }
        });
    });
    println!("pool: {results} results");
}

fn open(workers: usize, lines: impl Iterator<Item = (String, Vec<usize>)>) {
    println!("open");
    let results = Pool::new(workers).during(|pool| {
        let mut receipts = Vec::new();
        for (name, _) in lines.take_while(|(name, _)| name != "close") {
            if name == "job" {
                pool.submit(1, Plan { script: vec![1] }, &mut receipts);
                let mut tries = 0;
                while pool.starts.load(Ordering::SeqCst) < receipts.len() {
                    if tries < SPINS {
                        hint::spin_loop();
                    } else {
                        thread::yield_now();
                    }
                    tries += 1;
                }
                println!("started");
            } else {
                println!("echo");
            }
        }
    });
    println!("closed: {results} results");
}

// A job at a time by one thread: submitted, picked and finished.
fn one_by_one(jobs: usize) {
    let pool = Pool::new(4);
    let mut receipts = Vec::new();
    for _ in 0..jobs {
        pool.submit(1, Plan { script: vec![1] }, &mut receipts);
        let job = pool.pick().expect("a job was submitted");
        pool.run_job(job);
    }
    println!("rule: {} jobs", receipts.len());
}

fn main() {
    let mut lines = rounds::lines();
    while let Some((name, numbers)) = lines.next() {
        match (name.as_str(), &numbers[..]) {
            ("open", [workers]) => open(*workers, &mut lines),
            ("rule", [jobs]) => one_by_one(*jobs),
            ("pool", [callers, workers, jobs]) => run(*callers, *workers, *jobs),
            _ => panic!("the line asks for no round"),
        }
    }
}
