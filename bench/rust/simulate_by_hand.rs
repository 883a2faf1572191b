//! `simulate` as it would be written by hand in Rust, for a load on one pool that has core workers, a queue and no time to wake: the
//! same inputs and outputs.
use std::cmp::Reverse;
use std::collections::{BinaryHeap, VecDeque};
use std::io::{self, Read, Write};
use std::process::ExitCode;

struct Sizes {
    core: usize,
    max: usize,
    queue: usize,
    idle_for: u64,
}

#[derive(Clone, Copy)]
struct Job {
    at: u64,
    takes: u64,
}

// A pool in virtual time, and what is counted of it. Times are microseconds.
struct Pool {
    sizes: Sizes,
    workers: usize,
    queue: VecDeque<Job>,
    // When each running job finishes, and its place in the order in which they began.
    running: BinaryHeap<Reverse<(u64, usize)>>,
    // When each idle worker may end, if ever. The one that has been idle longest is the first.
    idle: VecDeque<Option<u64>>,
    submitted: usize,
    refused: usize,
    waits: Vec<u64>,
    most_waiting: usize,
    most_workers: usize,
    run_time: u128,
    // The time of all workers up to the last change of their number, and up to the last finish.
    worker_time: u128,
    changed: u64,
    busy_time: u128,
}

fn number_of(head: &str, key: &str) -> Option<u64> {
    let of_key = |line: &str| {
        let (name, value) = line.split_once('=')?;
        (name.trim() == key).then(|| value.trim().replace('_', "").parse().ok())?
    };
    head.lines().find_map(of_key)
}

fn sizes_of(head: &str) -> Option<Sizes> {
    let size = |key| number_of(head, key).map(|size| size as usize);
    Some(Sizes {
        core: size("core")?,
        max: size("max")?,
        queue: size("queue")?,
        idle_for: number_of(head, "idle_for").unwrap_or(20_000),
    })
}

fn job_of(line: &str) -> Option<Job> {
    let (at, takes) = line.split_once(',')?;
    Some(Job { at: at.parse().ok()?, takes: takes.parse().ok()? })
}

impl Pool {
    fn new(sizes: Sizes) -> Pool {
        Pool {
            sizes,
            workers: 0,
            queue: VecDeque::new(),
            running: BinaryHeap::new(),
            idle: VecDeque::new(),
            submitted: 0,
            refused: 0,
            waits: Vec::new(),
            most_waiting: 0,
            most_workers: 0,
            run_time: 0,
            worker_time: 0,
            changed: 0,
            busy_time: 0,
        }
    }

    fn worker_time_until(&self, at: u64) -> u128 {
        self.worker_time + self.workers as u128 * u128::from(at - self.changed)
    }

    fn set_workers(&mut self, workers: usize, at: u64) {
        self.worker_time = self.worker_time_until(at);
        self.changed = at;
        self.workers = workers;
        self.most_workers = self.most_workers.max(workers);
    }

    fn run(&mut self, job: Job, at: u64) {
        self.running.push(Reverse((at + job.takes, self.waits.len())));
        self.waits.push(at - job.at);
        self.run_time += u128::from(job.takes);
    }

    fn finish(&mut self, at: u64) {
        self.running.pop();
        self.busy_time = self.worker_time_until(at);
        if let Some(job) = self.queue.pop_front() {
            self.run(job, at);
        } else {
            let may_end = self.workers > self.sizes.core;
            self.idle.push_back(may_end.then(|| at + self.sizes.idle_for));
        }
    }

    // The time of a worker comes: it ends if there are more than may stay, and else stays for good.
    fn end(&mut self, place: usize, at: u64) {
        if self.workers > self.sizes.core {
            self.idle.remove(place);
            self.set_workers(self.workers - 1, at);
        } else {
            self.idle[place] = None;
        }
    }

    // All that happens before a submission at a time, if one is to come: finishes up to that time, and ends before it.
    fn go_on(&mut self, until: Option<u64>) {
        let comes = |at: u64| until.map_or(true, |until| at <= until);
        loop {
            let finish = self.running.peek().map(|Reverse((at, _))| *at).filter(|at| comes(*at));
            let place = self.idle.iter().position(Option::is_some);
            let end = place.and_then(|place| self.idle[place]).filter(|at| comes(*at) && until != Some(*at));
            match (finish, end, place) {
                (Some(finish), Some(end), Some(place)) if end < finish => self.end(place, end),
                (Some(finish), _, _) => self.finish(finish),
                (None, Some(end), Some(place)) => self.end(place, end),
                _ => return,
            }
        }
    }

    fn submit(&mut self, job: Job) {
        self.submitted += 1;
        if self.workers < self.sizes.core {
            self.set_workers(self.workers + 1, job.at);
            self.run(job, job.at);
        } else if self.queue.len() < self.sizes.queue {
            self.queue.push_back(job);
            self.most_waiting = self.most_waiting.max(self.queue.len());
            if self.idle.pop_front().is_some() {
                self.queue.pop_front();
                self.run(job, job.at);
            }
        } else if self.workers < self.sizes.max {
            self.set_workers(self.workers + 1, job.at);
            self.run(job, job.at);
        } else {
            self.refused += 1;
        }
    }

    fn text(mut self) -> String {
        self.waits.sort_unstable();
        let many = self.waits.len();
        let rank = |hundredth: usize| match self.waits.get((many * hundredth).div_ceil(100).max(1) - 1) {
            Some(wait) => wait.to_string(),
            None => String::new(),
        };
        let busy = match self.busy_time {
            0 => String::new(),
            time => (self.run_time * 1000 / time).to_string(),
        };
        format!(
            "core,max,queue,submitted,refused,wait_median,wait_p99,wait_most,most_waiting,most_workers,busy\n{},{},{},{},{},{},{},{},{},{},{busy}\n",
            self.sizes.core,
            self.sizes.max,
            self.sizes.queue,
            self.submitted,
            self.refused,
            rank(50),
            rank(99),
            rank(100),
            self.most_waiting,
            self.most_workers,
        )
    }
}

fn answer(input: &str) -> Option<String> {
    let (head, body) = input.split_once("---\n")?;
    let mut pool = Pool::new(sizes_of(head)?);
    for line in body.strip_prefix("at,takes\n")?.lines() {
        let job = job_of(line)?;
        pool.go_on(Some(job.at));
        pool.submit(job);
    }
    pool.go_on(None);
    Some(pool.text())
}

fn main() -> ExitCode {
    let mut input = String::new();
    if io::stdin().read_to_string(&mut input).is_err() {
        return ExitCode::from(4);
    }
    match answer(&input) {
        Some(text) if io::stdout().write_all(text.as_bytes()).is_ok() => ExitCode::SUCCESS,
        Some(_) => ExitCode::from(4),
        None => ExitCode::from(1),
    }
}
