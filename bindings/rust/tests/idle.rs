//! Waiting threads sleep: those of an idle pool, of one that holds back, and a call that waits for a permit. No other test runs in this
//! process.
#![cfg(target_os = "linux")]

mod common;

use common::{PATIENCE, all_gated, end};
use resil::{Bulkhead, ThreadPool};
use std::collections::BTreeMap;
use std::error::Error;
use std::fs;
use std::sync::{Arc, Barrier, mpsc};
use std::thread;
use std::time::{Duration, Instant};

const LITTLE: Duration = Duration::from_secs(10);

// How often each thread whose name begins like this has given up its processor or lost it; none if one isn't asleep.
fn switches(name: &str) -> Option<BTreeMap<String, Vec<String>>> {
    let mut told = BTreeMap::new();
    for task in fs::read_dir("/proc/self/task").ok()? {
        // A thread may end meanwhile.
        let Ok(status) = fs::read_to_string(task.ok()?.path().join("status")) else {
            continue;
        };
        let value = |key: &str| {
            let line = status.lines().find_map(|line| line.strip_prefix(key));
            line.map(str::trim).map(str::to_owned)
        };
        if !value("Name:")?.starts_with(name) {
            continue;
        }
        if !value("State:")?.starts_with('S') {
            return None;
        }
        let counts = ["voluntary_ctxt_switches:", "nonvoluntary_ctxt_switches:"].map(value);
        told.insert(value("Pid:")?, counts.into_iter().collect::<Option<_>>()?);
    }
    Some(told)
}

// Waits for a tenth of a second in which this many threads of the name sleep all the time: none runs even for a moment.
fn sleep_within(patience: Duration, name: &str, count: usize) -> bool {
    let began = Instant::now();
    while began.elapsed() < patience {
        let before = switches(name);
        thread::sleep(Duration::from_millis(100));
        if before.is_some_and(|before| before.len() == count && Some(before) == switches(name)) {
            return true;
        }
    }
    false
}

fn sleep_on(name: &str, count: usize) -> Result<(), Box<dyn Error>> {
    if sleep_within(PATIENCE, name, count) {
        return Ok(());
    }
    Err(format!("{count} threads {name} don't sleep").into())
}

// Whether the system reports that a sleeping thread sleeps. Some don't.
fn sleep_is_told() -> Result<bool, Box<dyn Error>> {
    let parked = thread::Builder::new().name("parked".to_owned());
    let (wake, sleeps) = mpsc::channel::<()>();
    let parked = parked.spawn(move || sleeps.recv().is_err())?;
    let is_told = sleep_within(LITTLE, "parked", 1);
    drop(wake);
    Ok(parked.join().unwrap_or(false) && is_told)
}

fn an_idle_pool_sleeps() -> Result<(), Box<dyn Error>> {
    let pool = ThreadPool::builder(8, 8).name("nobody-asks").open()?;
    let all = Arc::new(Barrier::new(8));
    for _ in 0..8 {
        let all = Arc::clone(&all);
        drop(pool.submit(move || all.wait())?);
    }
    pool.join();
    assert_eq!(pool.numbers().workers, 8);
    sleep_on("nobody-asks", 8)
}

// Even if idle threads may end at once, except for what waits in the queue.
fn threads_that_hold_back_sleep() -> Result<(), Box<dyn Error>> {
    for keep_alive in [Duration::ZERO, Duration::MAX] {
        let pool = ThreadPool::builder(4, 4).name("holds");
        let pool = pool.keep_alive(keep_alive).open()?;
        let mut first = all_gated(&pool, 4)?.into_iter();
        let later = all_gated(&pool, 4)?;
        pool.resize(1, 1)?;
        first.by_ref().take(3).try_for_each(end)?;
        sleep_on("holds", 4)?;
        drop((first, later));
        assert!(pool.join_for(PATIENCE));
    }
    Ok(())
}

fn a_call_that_waits_sleeps() -> Result<(), Box<dyn Error>> {
    let backend = Bulkhead::new("backend", 1)?;
    let permit = backend.enter()?;
    thread::scope(|scope| {
        let waits = || backend.enter_within(Duration::MAX).is_ok();
        let waits = thread::Builder::new()
            .name("waits".to_owned())
            .spawn_scoped(scope, waits)?;
        let slept = sleep_on("waits", 1);
        drop(permit);
        assert!(waits.join().unwrap_or(false));
        slept
    })
}

#[test]
fn who_waits_sleeps() -> Result<(), Box<dyn Error>> {
    if !sleep_is_told()? {
        println!("the system doesn't tell whether a thread sleeps");
        return Ok(());
    }
    an_idle_pool_sleeps()?;
    threads_that_hold_back_sleep()?;
    a_call_that_waits_sleeps()
}
