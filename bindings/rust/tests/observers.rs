//! What is reported to observers, by which thread, and that nothing is locked meanwhile.
mod common;

use common::{Checked, begun, end, gated, polled};
use resil::{
    Bulkhead, BulkheadRegistry, Full, Interval, Observer, Refusal, Reply, Retry, ThreadPool,
};
use std::error::Error;
use std::panic::{AssertUnwindSafe, catch_unwind};
use std::pin::pin;
use std::sync::atomic::{AtomicBool, AtomicU32, Ordering};
use std::sync::{Arc, Mutex, MutexGuard, OnceLock, PoisonError};
use std::thread;
use std::time::Duration;

/// Writes down what is reported to it, without the times, which it keeps separately.
#[derive(Default)]
struct Log {
    lines: Mutex<Vec<String>>,
    times: Mutex<Vec<Duration>>,
}

impl Log {
    // What was reported since the last call.
    fn take(&self) -> Vec<String> {
        std::mem::take(&mut locked(&self.lines))
    }

    fn take_times(&self) -> Vec<Duration> {
        std::mem::take(&mut locked(&self.times))
    }
}

fn locked<T>(list: &Mutex<T>) -> MutexGuard<'_, T> {
    list.lock().unwrap_or_else(PoisonError::into_inner)
}

// Makes a log write a line for each of these events, and keep the time of some.
macro_rules! written {
    ($($event:ident($($value:ident: $kind:ty),*) $line:literal $($time:ident)?;)*) => {
        $(fn $event(&self, $($value: $kind),*) {
            locked(&self.lines).push(format!($line));
            $(locked(&self.times).push($time);)?
        })*
    };
}

impl Observer for Log {
    written! {
        call_permitted(bulkhead: &str) "{bulkhead} permitted";
        call_refused(bulkhead: &str) "{bulkhead} refused";
        call_finished(bulkhead: &str, time: Duration) "{bulkhead} finished" time;
        attempt_failed(retry: &str, attempt: u32, wait: Duration) "{retry} {attempt} failed, {wait:?}";
        retry_succeeded(retry: &str, attempts: u32) "{retry} succeeded after {attempts}";
        retry_exhausted(retry: &str, attempts: u32) "{retry} exhausted after {attempts}";
        error_ignored(retry: &str, attempts: u32) "{retry} ignored after {attempts}";
        retry_out_of_time(retry: &str, attempts: u32) "{retry} out of time after {attempts}";
        job_accepted(pool: &str, reply: Reply) "{pool} accepted {reply:?}";
        job_refused(pool: &str, reason: Refusal) "{pool} refused {reason:?}";
        job_started(pool: &str, wait: Duration) "{pool} started" wait;
        job_finished(pool: &str, time: Duration) "{pool} finished" time;
        job_panicked(pool: &str, time: Duration) "{pool} panicked" time;
    }
}

fn logged(max: u32) -> Result<(Arc<Log>, Arc<Bulkhead>), Box<dyn Error>> {
    let log = Arc::new(Log::default());
    let bulkhead = Bulkhead::new("b", max)?.observed(log.clone());
    Ok((log, Arc::new(bulkhead)))
}

const CALL: [&str; 2] = ["b permitted", "b finished"];

#[test]
fn each_way_to_a_permit_is_told() -> Checked {
    const LIMIT: Duration = Duration::from_millis(1);
    let (log, b) = logged(1)?;
    let ways: [fn(&Arc<Bulkhead>) -> bool; 6] = [
        |b| b.call(|| 42) == Ok(42),
        |b| b.enter().is_ok(),
        |b| b.enter_within(LIMIT).is_ok(),
        |b| b.enter_owned().is_ok(),
        |b| b.enter_owned_within(LIMIT).is_ok(),
        |b| matches!(polled(&mut b.acquire_owned()), Some(Ok(_))),
    ];
    for is_permitted in ways {
        assert!(is_permitted(&b));
        assert_eq!(log.take(), CALL);
    }
    let permit = b.enter_owned()?;
    assert_eq!(log.take(), ["b permitted"]);
    // A task waits.
    for is_permitted in &ways[..5] {
        assert!(!is_permitted(&b));
        assert_eq!(log.take(), ["b refused"]);
    }
    permit.forget();
    assert!(log.take().is_empty());
    assert_eq!(b.available(), 0);
    let mut waits = b.acquire_owned();
    assert!(polled(&mut waits).is_none());
    b.close();
    assert!(polled(&mut waits).is_some());
    assert_eq!(log.take(), ["b refused"]);
    for is_permitted in ways {
        assert!(!is_permitted(&b));
        assert_eq!(log.take(), ["b refused"]);
    }
    Ok(())
}

#[test]
fn a_call_in_a_call_and_one_that_panics_are_told() -> Checked {
    let (log, b) = logged(2)?;
    assert_eq!(b.call(|| b.call(|| b.call(|| 42))), Ok(Ok(Err(Full))));
    let wanted = ["permitted", "permitted", "refused", "finished", "finished"];
    assert_eq!(log.take(), wanted.map(|event| format!("b {event}")));
    let panics = AssertUnwindSafe(|| b.call(|| panic!("in the call")));
    assert!(catch_unwind(panics).is_err());
    assert_eq!(log.take(), CALL);
    // More than there are seats, on one thread, given back on another.
    let (log, b) = logged(200)?;
    let permits: Vec<_> = (0..200)
        .map(|_| b.enter_owned())
        .collect::<Result<_, _>>()?;
    assert_eq!((log.take().len(), b.available()), (200, 0));
    assert!(thread::spawn(move || drop(permits)).join().is_ok());
    assert_eq!(log.take(), ["b finished"; 200]);
    assert_eq!(b.available(), 200);
    assert_eq!((b.retire(3), b.raise(3)), (3, 3));
    assert!(log.take().is_empty());
    Ok(())
}

#[test]
fn a_permit_that_is_handed_on_is_told_once_it_is_awaited() -> Checked {
    let (log, b) = logged(1)?;
    let permit = b.enter()?;
    let (mut first, mut second) = (b.acquire_owned(), b.acquire_owned());
    assert!(polled(&mut first).is_none() && polled(&mut second).is_none());
    drop(permit);
    assert_eq!(log.take(), CALL);
    // It was given the permit, and is dropped before it has seen that.
    drop(first);
    assert!(log.take().is_empty());
    let permit = polled(&mut second).ok_or("it has no permit")?;
    assert_eq!(log.take(), ["b permitted"]);
    drop((second, permit));
    assert_eq!((log.take(), b.available()), (vec!["b finished".into()], 1));
    Ok(())
}

/// Wants no times.
struct Timeless(Log);
impl Observer for Timeless {
    fn wants_times(&self) -> bool {
        false
    }
    fn call_finished(&self, bulkhead: &str, time: Duration) {
        self.0.call_finished(bulkhead, time);
    }
}

#[test]
fn times_are_told_where_they_are_wanted() -> Checked {
    let (log, b) = logged(2)?;
    let nap = Duration::from_millis(3);
    // With the thread's seat, and with a lock.
    b.call(|| b.call(|| thread::sleep(nap)))??;
    let times = log.take_times();
    assert_eq!(times.len(), 2);
    assert!(times.iter().all(|time| *time >= nap), "{times:?}");

    let log = Arc::new(Timeless(Log::default()));
    let b = Bulkhead::new("b", 2)?.observed(log.clone());
    b.call(|| b.call(|| thread::sleep(nap)))??;
    assert_eq!(log.0.take_times(), [Duration::ZERO; 2]);
    Ok(())
}

/// Panics at each permit and each submission, and counts the permits reported to it.
#[derive(Default)]
struct Panics(AtomicU32);

impl Observer for Panics {
    fn call_permitted(&self, _: &str) {
        self.0.fetch_add(1, Ordering::Relaxed);
        panic!("at a permit");
    }

    fn call_finished(&self, _: &str, _: Duration) {
        self.0.fetch_add(1_000, Ordering::Relaxed);
    }

    fn job_accepted(&self, _: &str, _: Reply) {
        panic!("at a job");
    }

    fn job_refused(&self, _: &str, _: Refusal) {
        panic!("at a refusal");
    }
}

#[test]
fn nothing_is_lost_where_the_observer_panics() -> Checked {
    let panics = Arc::new(Panics::default());
    let b = Arc::new(Bulkhead::new("b", 1)?.observed(panics.clone()));
    let enter = AssertUnwindSafe(|| b.enter().is_ok());
    assert!(catch_unwind(enter).is_err());
    let acquire = AssertUnwindSafe(|| polled(&mut b.acquire_owned()).is_some());
    assert!(catch_unwind(acquire).is_err());
    assert_eq!((b.available(), panics.0.load(Ordering::Relaxed)), (1, 2));
    let pool = ThreadPool::builder(1, 1).observed(panics).open()?;
    assert_eq!(pool.submit(|| 42)?.wait()?, 42);
    pool.close();
    let refused = pool.submit(|| 7).err().ok_or("it is closed")?;
    assert_eq!(((refused.function)(), refused.reason), (7, Refusal::Closed));
    Ok(())
}

/// Calls what it observes, which would wait for ever if that were locked.
#[derive(Default)]
struct Asks {
    bulkhead: OnceLock<Arc<Bulkhead>>,
    pool: OnceLock<Arc<ThreadPool>>,
    registry: OnceLock<Arc<BulkheadRegistry>>,
    count: AtomicU32,
    is_inside: AtomicBool,
}

impl Asks {
    fn ask(&self) {
        self.count.fetch_add(1, Ordering::SeqCst);
        if self.is_inside.swap(true, Ordering::SeqCst) {
            return;
        }
        if let Some(bulkhead) = self.bulkhead.get() {
            let _numbers = bulkhead.numbers();
            let _entered = bulkhead.enter_within(Duration::from_micros(1));
            bulkhead.retire(1);
            bulkhead.raise(1);
        }
        if let Some(pool) = self.pool.get() {
            let _numbers = pool.numbers();
            let _submitted = pool.submit(|| ());
        }
        if let Some(registry) = self.registry.get() {
            let _made = registry.bulkhead("other");
        }
        self.is_inside.store(false, Ordering::SeqCst);
    }
}

// Makes it ask at each of these events.
macro_rules! asked {
    ($($event:ident($($kind:ty)?);)*) => {
        $(fn $event(&self, _: &str $(, _: $kind)?) {
            self.ask();
        })*
    };
}

impl Observer for Asks {
    fn of_bulkhead(&self, _: &str) -> Option<Arc<dyn Observer>> {
        self.ask();
        None
    }

    asked! {
        call_permitted();
        call_refused();
        call_finished(Duration);
        job_accepted(Reply);
        job_refused(Refusal);
        job_started(Duration);
        job_finished(Duration);
    }
}

#[test]
fn nothing_is_locked_while_an_observer_is_told() -> Checked {
    let asks = Arc::new(Asks::default());
    let b = Arc::new(Bulkhead::new("b", 1)?.observed(asks.clone()));
    let pool = ThreadPool::builder(1, 1).queue(1);
    let pool = pool.observed(asks.clone()).open()?;
    let pool = Arc::new(pool);
    let registry = Arc::new(BulkheadRegistry::new(1).observed(asks.clone()));
    let _set = (
        asks.bulkhead.set(Arc::clone(&b)),
        asks.pool.set(Arc::clone(&pool)),
    );
    let _set = asks.registry.set(Arc::clone(&registry));
    let b = registry.bulkhead("b").map(|_| b)?;
    let outcome = b.call(|| b.enter().is_err());
    assert_eq!(outcome, Ok(true));
    // While a task waits: a caller that gives a permit back passes it on.
    let permit = b.enter()?;
    let mut waits = b.acquire_owned();
    assert!(polled(&mut waits).is_none());
    drop(permit);
    drop(waits);
    // Any of them may find it full.
    let submitted = gated(&pool);
    for _ in 0..3 {
        let _maybe_full = pool.submit(|| ());
    }
    drop(submitted);
    pool.join();
    assert!(asks.count.load(Ordering::SeqCst) > 10);
    pool.close();
    pool.join();
    // The observer has the pool, and the pool the observer: one lets go of the other.
    assert_eq!(b.available(), 1);
    Ok(())
}

#[test]
fn each_end_of_a_retry_is_told() {
    let log = Arc::new(Log::default());
    let retry = || {
        Retry::new()
            .interval(Interval::fixed(Duration::from_millis(7)))
            .observed("r", log.clone())
            .retry_if(|error: &&str| *error != "gone")
            .retry_value_if(|value: &u32| *value == 0)
            .pause_by(|_wait| {})
    };
    assert_eq!(retry().call(|| Ok::<_, &str>(42)), Ok(42));
    assert_eq!(log.take(), ["r succeeded after 1"]);
    let mut outcomes = [Err("busy"), Ok(0), Ok(42)].into_iter();
    let answer = retry().call(|| outcomes.next().unwrap_or(Err("none")));
    assert_eq!(answer, Ok(42));
    let failed = ["r 1 failed, 7ms", "r 2 failed, 7ms"];
    assert_eq!(log.take(), [&failed[..], &["r succeeded after 3"]].concat());
    assert_eq!(retry().call(|| Ok::<_, &str>(0)), Ok(0));
    assert_eq!(log.take(), [&failed[..], &["r exhausted after 3"]].concat());
    let mut outcomes = [Err("busy"), Err("gone")].into_iter();
    let answer = retry().call(|| outcomes.next().unwrap_or(Ok(1)));
    assert_eq!(answer, Err("gone"));
    assert_eq!(log.take(), ["r 1 failed, 7ms", "r ignored after 2"]);
    let late = retry().within(Duration::from_millis(6));
    assert_eq!(late.call(|| Err("busy")), Err("busy"));
    assert_eq!(log.take(), ["r out of time after 1"]);
    // Nothing is known of the outcomes after these waits.
    assert_eq!((retry().waits().count(), late.waits().count()), (2, 0));
    assert!(log.take().is_empty());
}

#[test]
fn retries_of_futures_and_loops_of_ones_own_are_told() {
    let log = Arc::new(Log::default());
    let retry = Retry::new().attempts(2).observed("r", log.clone());
    let call = pin!(retry.call_async(
        || std::future::ready(Err::<u32, _>("busy")),
        |_wait| std::future::ready(()),
    ));
    assert_eq!(polled(&mut { call }), Some(Err("busy")));
    let wanted = ["r 1 failed, 500ms", "r exhausted after 2"];
    assert_eq!(log.take(), wanted);
    let mut attempts = retry.begin();
    while retry
        .wait_after::<u32, &str>(&mut attempts, Err(&"busy"))
        .is_some()
    {}
    assert_eq!(log.take(), wanted);
    assert_eq!(attempts.count(), 2);
}

#[test]
fn what_becomes_of_a_job_is_told() -> Checked {
    let log = Arc::new(Log::default());
    let pool = ThreadPool::builder(1, 1).queue(1);
    let pool = pool.name("p").observed(log.clone()).open()?;
    let first = begun(&pool)?;
    let mut told = log.take();
    told.sort();
    assert_eq!(told, ["p accepted Core", "p started"]);
    let second = pool.submit(|| panic!("no answer"))?;
    let refused = pool.submit(|| 42).unwrap_err();
    assert_eq!(log.take(), ["p accepted Queued", "p refused Full"]);
    // The same function comes back.
    assert_eq!((refused.function)(), 42);
    // The end is reported before the answer is there.
    end(first)?;
    assert!(locked(&log.lines).contains(&"p finished".to_owned()));
    let second: Result<(), _> = second.wait();
    let said = second.unwrap_err().to_string();
    assert_eq!(said, "the job panicked: no answer");
    assert_eq!(log.take(), ["p finished", "p started", "p panicked"]);
    assert_eq!(log.take_times().len(), 4);
    Ok(())
}

#[test]
fn a_job_that_is_given_back_and_dropped_neither_begins_nor_ends() -> Checked {
    let log = Arc::new(Log::default());
    let pool = ThreadPool::builder(1, 1).observed(log.clone()).open()?;
    let first = begun(&pool)?;
    let (second, third) = (pool.submit(|| 2)?, pool.submit(|| 3)?);
    log.take();
    let mut waiting = pool.close_now().into_iter();
    drop(waiting.next());
    assert!(second.wait().is_err() && log.take().is_empty());
    // Running it elsewhere does both.
    waiting.for_each(resil::Unstarted::run);
    assert_eq!(third.wait()?, 3);
    assert_eq!(log.take(), ["pool started", "pool finished"]);
    assert_eq!(pool.submit(|| 42).unwrap_err().reason, Refusal::Closed);
    assert_eq!(log.take(), ["pool refused Closed"]);
    end(first)
}

/// Has its own log for some names.
struct Chooses(Arc<Log>);
impl Observer for Chooses {
    fn of_bulkhead(&self, name: &str) -> Option<Arc<dyn Observer>> {
        (name == "b").then(|| self.0.clone() as Arc<dyn Observer>)
    }
    fn of_retry(&self, _: &str) -> Option<Arc<dyn Observer>> {
        Some(self.0.clone())
    }
    fn of_pool(&self, _: &str) -> Option<Arc<dyn Observer>> {
        Some(self.0.clone())
    }
}

#[test]
fn several_observers_are_all_told() -> Checked {
    let (log, other) = (Arc::new(Log::default()), Arc::new(Log::default()));
    let chooses = Arc::new(Chooses(other.clone()));
    let both: [Arc<dyn Observer>; 2] = [log.clone(), chooses];
    let both = Arc::new(both);
    let b = Bulkhead::new("b", 1)?.observed(both.clone());
    assert!(b.call(|| b.enter().is_err())?);
    let retry = Retry::new().observed("r", both.clone());
    assert_eq!(retry.call(|| Ok::<_, ()>(1)), Ok(1));
    let pool = ThreadPool::builder(1, 1).name("p").observed(both).open()?;
    pool.submit(|| ())?.wait()?;
    // Each event is reported to each.
    let none: [Arc<dyn Observer>; 2] = [log.clone(), other.clone()];
    assert!(none.wants_times());
    none.attempt_failed("r", 1, Duration::ZERO);
    none.retry_exhausted("r", 2);
    none.error_ignored("r", 3);
    none.retry_out_of_time("r", 4);
    none.job_refused("p", Refusal::Full);
    none.job_panicked("p", Duration::ZERO);
    let (mut told, mut also) = (log.take(), other.take());
    told.sort();
    also.sort();
    let wanted = [
        "b finished",
        "b permitted",
        "b refused",
        "p accepted Core",
        "p finished",
        "p panicked",
        "p refused Full",
        "p started",
        "r 1 failed, 0ns",
        "r exhausted after 2",
        "r ignored after 3",
        "r out of time after 4",
        "r succeeded after 1",
    ];
    assert_eq!(told, wanted);
    assert_eq!(also, wanted);
    Ok(())
}
