//! What is reported of waits for permits: each exactly once, with its length and its end.
mod common;

use common::{Checked, block_on, is_idle, polled, until};
use resil::metrics::Metrics;
use resil::{Bulkhead, Full, NoPermit, Observer, WaitEnd};
use std::error::Error;
use std::panic::{AssertUnwindSafe, catch_unwind};
use std::sync::atomic::{AtomicU32, Ordering};
use std::sync::{Arc, Mutex, PoisonError};
use std::thread;
use std::time::Duration;

const NAP: Duration = Duration::from_millis(20);

/// Writes down the waits, and counts refusals.
#[derive(Default)]
struct Waits {
    ends: Mutex<Vec<(WaitEnd, Duration)>>,
    refused: AtomicU32,
}

impl Observer for Waits {
    fn call_waited(&self, _bulkhead: &str, time: Duration, end: WaitEnd) {
        let mut ends = self.ends.lock().unwrap_or_else(PoisonError::into_inner);
        ends.push((end, time));
    }

    fn call_refused(&self, _bulkhead: &str) {
        self.refused.fetch_add(1, Ordering::SeqCst);
    }
}

impl Waits {
    // What was reported since the last call: the end and the length of the only wait.
    fn one(&self) -> Result<(WaitEnd, Duration), String> {
        let mut ends = self.ends.lock().unwrap_or_else(PoisonError::into_inner);
        match std::mem::take(&mut *ends)[..] {
            [one] => Ok(one),
            ref more => Err(format!("{more:?}")),
        }
    }
}

fn watched(max: u32) -> Result<(Arc<Waits>, Arc<Bulkhead>), Box<dyn Error>> {
    let waits = Arc::new(Waits::default());
    let backend = Bulkhead::new("backend", max)?.observed(waits.clone());
    Ok((waits, Arc::new(backend)))
}

#[test]
fn what_is_decided_at_once_takes_no_time() -> Checked {
    let (waits, backend) = watched(1)?;
    let at_once = |end| Ok((end, Duration::ZERO));
    drop(backend.enter_within(NAP)?);
    assert_eq!(waits.one(), at_once(WaitEnd::Granted));
    drop(block_on(backend.acquire_many_owned(1))?);
    assert_eq!(waits.one(), at_once(WaitEnd::Granted));
    assert!(polled(&mut backend.acquire_many_owned(2)).is_some());
    assert_eq!(waits.one(), at_once(WaitEnd::Full));
    let permit = block_on(backend.acquire_owned())?;
    assert_eq!(waits.one(), at_once(WaitEnd::Granted));
    assert_eq!(backend.enter_within(Duration::ZERO).err(), Some(Full));
    assert_eq!(waits.one(), at_once(WaitEnd::Full));
    let refused = block_on(backend.acquire_owned().most_waiting(0));
    assert_eq!(refused.err(), Some(Full));
    assert_eq!(waits.one(), at_once(WaitEnd::QueueFull));
    // A call that won't wait isn't reported, and one that is never polled hasn't waited.
    assert_eq!(backend.enter().err(), Some(Full));
    drop(backend.acquire_owned());
    assert!(waits.one().is_err());
    drop(permit);
    backend.close();
    assert!(backend.enter_owned_within(NAP).is_err());
    assert_eq!(waits.one(), at_once(WaitEnd::Closed));
    assert!(block_on(backend.acquire_owned()).is_err());
    assert_eq!(waits.one(), at_once(WaitEnd::Closed));
    assert_eq!(waits.refused.load(Ordering::SeqCst), 6);
    Ok(())
}

#[test]
fn a_wait_is_told_once_with_its_length() -> Checked {
    let (waits, backend) = watched(1)?;
    let is_so = |end| {
        waits
            .one()
            .is_ok_and(|(own, time)| own == end && time >= NAP)
    };
    let timed_out = Some(NoPermit::TimedOut);
    let permit = backend.enter_owned()?;
    assert_eq!(backend.enter_within(NAP).err(), timed_out);
    assert!(is_so(WaitEnd::TimedOut));
    assert_eq!(backend.enter_owned_within(NAP).err(), timed_out);
    assert!(is_so(WaitEnd::TimedOut));
    // A thread and a task that are served, and tasks that go away: one that waits, and one that has its permit but hasn't seen it.
    let mut task = backend.acquire_owned();
    assert!(polled(&mut task).is_none() && polled(&mut task).is_none());
    thread::sleep(NAP);
    drop(permit);
    let permit = polled(&mut task).ok_or("it waits")??;
    assert!(is_so(WaitEnd::Granted));
    drop(task);
    let mut gone = [backend.acquire_owned(), backend.acquire_owned()];
    assert!(gone.iter_mut().all(|one| polled(one).is_none()));
    thread::sleep(NAP);
    let [first, second] = gone;
    drop(second);
    assert!(is_so(WaitEnd::Abandoned));
    drop(permit);
    drop(first);
    assert!(is_so(WaitEnd::Abandoned) && is_idle(&backend));
    let permit = backend.enter_owned()?;
    let mut many = backend.acquire_many_owned(1);
    assert!(polled(&mut many).is_none());
    thread::sleep(NAP);
    drop(many);
    assert!(is_so(WaitEnd::Abandoned));
    thread::scope(|scope| {
        let served = scope.spawn(|| backend.enter_within(Duration::MAX).map(drop));
        let is_there = until(|| backend.numbers().waiting == 1);
        thread::sleep(NAP);
        drop(permit);
        assert!(is_there && served.join().is_ok_and(|served| served.is_ok()));
    });
    assert!(is_so(WaitEnd::Granted));
    // At a close.
    let _permit = backend.enter()?;
    let mut task = backend.acquire_owned();
    assert!(polled(&mut task).is_none());
    thread::sleep(NAP);
    backend.close();
    assert!(polled(&mut task).is_some_and(|closed| closed.is_err()));
    drop(task);
    assert!(is_so(WaitEnd::Closed));
    assert_eq!(waits.refused.load(Ordering::SeqCst), 3);
    Ok(())
}

/// Panics at each wait.
struct Panics;

impl Observer for Panics {
    fn call_waited(&self, _: &str, _: Duration, _: WaitEnd) {
        panic!("at a wait");
    }
}

#[test]
fn no_permit_is_lost_where_the_observer_panics() -> Checked {
    let backend = Arc::new(Bulkhead::new("backend", 2)?.observed(Arc::new(Panics)));
    let ways: [fn(&Arc<Bulkhead>); 3] = [
        |backend| drop(backend.enter_within(NAP)),
        |backend| drop(polled(&mut backend.acquire_owned())),
        |backend| drop(polled(&mut backend.acquire_many_owned(2))),
    ];
    for way in ways {
        assert!(catch_unwind(AssertUnwindSafe(|| way(&backend))).is_err());
        assert!(is_idle(&backend));
    }
    Ok(())
}

// The lines of a page for these: fourteen calls, ten of them abandoned, one too late, one refused, one at once and one after a wait.
#[test]
fn each_call_is_on_the_page() -> Checked {
    let metrics = Arc::new(Metrics::new());
    let backend = Arc::new(Bulkhead::new("b", 1)?.observed(metrics.clone()));
    let permit = block_on(backend.acquire_owned())?;
    for _ in 0..10 {
        assert!(polled(&mut backend.acquire_owned()).is_none());
    }
    assert!(backend.enter_within(NAP).is_err());
    assert!(block_on(backend.acquire_owned().most_waiting(0)).is_err());
    let mut served = backend.acquire_owned();
    assert!(polled(&mut served).is_none());
    thread::sleep(2 * NAP);
    drop(permit);
    polled(&mut served).ok_or("it waits")??.time_out();
    let text = metrics.text(&[], &[]);
    let kinds = [
        ("abandoned", 10),
        ("closed", 0),
        ("full", 0),
        ("granted", 2),
        ("queue_full", 1),
        ("timed_out", 1),
    ];
    let waits = kinds.map(|(kind, count)| {
        format!("resil_bulkhead_waits_total{{kind=\"{kind}\",name=\"b\"}} {count}\n")
    });
    assert!(text.contains(&waits.concat()), "{text}");
    for line in [
        "# TYPE resil_bulkhead_wait_seconds histogram",
        "resil_bulkhead_wait_seconds_count{name=\"b\"} 14",
        "resil_bulkhead_calls_total{kind=\"permitted\",name=\"b\"} 2",
        "resil_bulkhead_calls_total{kind=\"refused\",name=\"b\"} 2",
        "resil_bulkhead_timed_out_calls_total{name=\"b\"} 1",
        "resil_bulkhead_call_seconds_count{name=\"b\"} 2",
    ] {
        assert!(
            text.lines().any(|told| told == line),
            "{line} isn't in {text}"
        );
    }
    // Those that didn't wait, and at most those that were dropped soon.
    let bucket = "resil_bulkhead_wait_seconds_bucket{name=\"b\",le=\"0.01\"} ";
    let quick = text.lines().find_map(|line| line.strip_prefix(bucket));
    let quick: u32 = quick.ok_or("no bucket")?.parse()?;
    assert!((2..=12).contains(&quick));
    Ok(())
}
