//! What the crate for rustc gives: `pass THREADS PAIRS` and `bulkhead THREADS PAIRS` ask for pairs of taking and giving
//! back a permit, `pass_calls` and `bulkhead_calls` for calls under one, `chain THREADS CALLS` and `chain_by_hand` for calls
//! by a fallback round a retry round a bulkhead, `rule JOBS` for jobs by one thread, each submitted, picked and finished by
//! the pool's rule in a Mutex, and `busy WORKERS JOBS` for the same while all workers have a job, without a Mutex.
mod rounds;

use resil::{Bulkhead, Decorators, JobId, Pass, PoolRule, Retry};
use std::hint;
use std::sync::Mutex;
use std::thread;
use std::time::Duration;

fn passes<F: FnMut() + Send>(threads: usize, pairs: usize, pair: fn(Pass) -> F) -> Option<()> {
    let mut passes = vec![Pass::new(threads.try_into().ok()?).ok()?];
    for _ in 1..threads {
        let pass = passes[0].split().ok()?;
        passes.push(pass);
    }
    rounds::run_pairs(pairs, passes.into_iter().map(pair).collect());
    Some(())
}

fn bulkhead(threads: usize, pairs: usize) -> Option<()> {
    let bulkhead = Bulkhead::new("backend", threads.try_into().ok()?).ok()?;
    let pair = || drop(bulkhead.enter().expect("a permit is free"));
    rounds::run_pairs(pairs, vec![pair; threads]);
    Some(())
}

fn bulkhead_calls(threads: usize, calls: usize) -> Option<()> {
    let bulkhead = Bulkhead::new("backend", threads.try_into().ok()?).ok()?;
    let call = || {
        hint::black_box(bulkhead.call(|| hint::black_box(1)).expect("a permit is free"));
    };
    rounds::run_pairs(calls, vec![call; threads]);
    Some(())
}

// What the chains call: nothing, of which the compiler doesn't know that it never fails.
fn empty() -> Result<u64, u64> {
    hint::black_box(Ok(1))
}

fn chain(threads: usize, calls: usize) -> Option<()> {
    let bulkhead = Bulkhead::new("backend", threads.try_into().ok()?).ok()?;
    let retry = Retry::new();
    let call = || {
        let mut chain = Decorators::of(empty).inside(&bulkhead).retried(&retry).or_else(|_| Ok(0));
        hint::black_box(chain.call().expect("a fallback is there"));
    };
    rounds::run_pairs(calls, vec![call; threads]);
    Some(())
}

fn chain_by_hand(threads: usize, calls: usize) -> Option<()> {
    let bulkhead = Bulkhead::new("backend", threads.try_into().ok()?).ok()?;
    let (attempts, wait) = hint::black_box((3, Duration::from_millis(500)));
    let call = || {
        let mut attempt = 1;
        let answer = loop {
            match bulkhead.call(empty) {
                Ok(Ok(answer)) => break answer,
                _ if attempt == attempts => break 0,
                _ => thread::sleep(wait),
            }
            attempt += 1;
        };
        hint::black_box(answer);
    };
    rounds::run_pairs(calls, vec![call; threads]);
    Some(())
}

fn rule(jobs: u64) -> Option<()> {
    let rule = Mutex::new(PoolRule::builder(4, 4).queue(65_536).open().ok()?);
    for number in 1..=jobs {
        rule.lock().ok()?.submit(JobId { caller: 1, number }, number).ok()?;
        let picked = rule.lock().ok()?.pick()?;
        rule.lock().ok()?.finish(&picked).ok()?;
    }
    println!("rule: {jobs} jobs");
    Some(())
}

// The next number of Knuth's linear congruential generator for MMIX. Its upper bits are the random ones.
fn next_random(random: u64) -> u64 {
    random.wrapping_mul(6_364_136_223_846_793_005).wrapping_add(1_442_695_040_888_963_407)
}

// All workers have a job. One more is submitted, a random one ends, and the one that waits is picked.
fn busy(workers: usize, jobs: u64) -> Option<()> {
    let size = workers.try_into().ok()?;
    let mut rule = PoolRule::builder(size, size).queue(65_536).open().ok()?;
    let mut numbers = 1..;
    let mut submit = |rule: &mut PoolRule| {
        let number = numbers.next()?;
        rule.submit(JobId { caller: 1, number }, number).ok()
    };
    let mut out = Vec::with_capacity(workers);
    for _ in 0..workers {
        submit(&mut rule)?;
        out.push(rule.pick()?);
    }
    let mut random = 1;
    for _ in 0..jobs {
        random = next_random(random);
        let place = &mut out[usize::try_from(random >> 33).ok()? % workers];
        submit(&mut rule)?;
        rule.finish(place).ok()?;
        *place = rule.pick()?;
    }
    println!("busy: {jobs} jobs");
    Some(())
}

fn main() {
    for (name, numbers) in rounds::lines() {
        let done = match (name.as_str(), &numbers[..]) {
            ("pass", [threads, pairs]) => passes(*threads, *pairs, |mut pass| {
                move || drop(pass.enter().expect("a permit is free"))
            }),
            ("bulkhead", [threads, pairs]) => bulkhead(*threads, *pairs),
            ("pass_calls", [threads, calls]) => passes(*threads, *calls, |mut pass| {
                move || {
                    hint::black_box(pass.call(|| hint::black_box(1)).expect("a permit is free"));
                }
            }),
            ("bulkhead_calls", [threads, calls]) => bulkhead_calls(*threads, *calls),
            ("chain", [threads, calls]) => chain(*threads, *calls),
            ("chain_by_hand", [threads, calls]) => chain_by_hand(*threads, *calls),
            ("rule", [jobs]) => rule(*jobs as u64),
            ("busy", [workers, jobs]) => busy(*workers, *jobs as u64),
            _ => None,
        };
        done.expect("a round with its memory");
    }
}
