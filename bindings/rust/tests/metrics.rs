//! What a dashboard reads: each line of the text, by what was done.
mod common;

use common::{Checked, begun, end, gated};
use resil::metrics::Metrics;
use resil::{Bulkhead, Interval, Observer, Refusal, Retry, ThreadPool, WaitEnd};
use std::sync::{Arc, Barrier};
use std::thread;
use std::time::Duration;

// The lines of a family, without those of its head.
fn lines<'a>(text: &'a str, family: &str) -> Vec<&'a str> {
    let is_of = |line: &&str| {
        line.strip_prefix(family)
            .is_some_and(|rest| rest.starts_with(['{', '_']))
    };
    text.lines().filter(is_of).collect()
}

// A family's lines: one for each of these, with its name in a label and its count.
fn counted(family: &str, label: &str, counts: &str) -> Vec<String> {
    let pairs = counts.split(", ").filter_map(|pair| pair.split_once(' '));
    let line = |(name, count)| format!("{family}{{{}}} {count}", label.replace('_', name));
    pairs.map(line).collect()
}

fn has(text: &str, wanted: &[&str]) {
    for line in wanted {
        let is_there = text.lines().any(|told| told == *line);
        assert!(is_there, "{line} isn't in {text}");
    }
}

#[test]
fn calls_are_counted_and_measured() -> Checked {
    let metrics = Arc::new(Metrics::new());
    let backend = Arc::new(Bulkhead::new("backend", 3)?.observed(metrics.clone()));
    backend.call(|| backend.call(|| ()))??;
    assert_eq!(backend.retire(1), 1);
    let permit = backend.enter()?;
    let second = backend.enter()?;
    assert!(backend.enter().is_err());
    let text = metrics.text(&[Arc::clone(&backend)], &[]);
    let told = [
        "# HELP resilience4j_bulkhead_available_concurrent_calls The number of available permissions",
        "# TYPE resilience4j_bulkhead_available_concurrent_calls gauge",
        "resilience4j_bulkhead_available_concurrent_calls{name=\"backend\"} 0",
        "# HELP resilience4j_bulkhead_max_allowed_concurrent_calls The maximum number of available permissions",
        "# TYPE resilience4j_bulkhead_max_allowed_concurrent_calls gauge",
        "resilience4j_bulkhead_max_allowed_concurrent_calls{name=\"backend\"} 2",
    ];
    assert!(text.starts_with(&told.join("\n")), "{text}");
    let told = [
        "resil_bulkhead_retired_permits{name=\"backend\"} 1",
        "resil_bulkhead_owed_permits{name=\"backend\"} 0",
        "resil_bulkhead_waiting_calls{name=\"backend\"} 0",
        "# TYPE resil_bulkhead_calls_total counter",
        "resil_bulkhead_calls_total{kind=\"permitted\",name=\"backend\"} 4",
        "resil_bulkhead_calls_total{kind=\"refused\",name=\"backend\"} 1",
        "# TYPE resil_bulkhead_call_seconds histogram",
        "resil_bulkhead_call_seconds_count{name=\"backend\"} 2",
    ];
    has(&text, &told);
    drop((permit, second));
    assert_eq!(backend.available(), 2);
    Ok(())
}

// More threads than have counts of their own, and others after them.
#[test]
fn calls_of_many_threads_are_all_counted() -> Checked {
    let metrics = Arc::new(Metrics::new());
    let backend = Bulkhead::new("backend", 100)?.observed(metrics.clone());
    let all = Barrier::new(100);
    for _ in 0..2 {
        thread::scope(|scope| {
            for _ in 0..100 {
                scope.spawn(|| {
                    all.wait();
                    (0..50).for_each(|_| assert!(backend.call(|| ()).is_ok()));
                    all.wait();
                });
            }
        });
    }
    let text = metrics.text(&[], &[]);
    assert!(text.contains("calls_total{kind=\"permitted\",name=\"backend\"} 10000\n"));
    assert!(text.contains("resil_bulkhead_call_seconds_count{name=\"backend\"} 10000\n"));
    Ok(())
}

#[test]
fn a_histogram_has_all_times_up_to_each_end() {
    let metrics = Metrics::new();
    let calls = metrics.of_bulkhead("b").expect("metrics have an own one");
    let ms = Duration::from_millis;
    for time in [Duration::ZERO, ms(1), ms(2), ms(30), ms(1_500), ms(10_001)] {
        calls.call_finished("b", time);
        calls.call_waited("b", time, WaitEnd::Granted);
    }
    let counts = "0.001 2, 0.0025 3, 0.005 3, 0.01 3, 0.025 3, 0.05 4, 0.1 4, 0.25 4, 0.5 4, 1 4, 2.5 5, 5 5, 10 5, +Inf 6";
    let text = metrics.text(&[], &[]);
    for family in ["resil_bulkhead_call_seconds", "resil_bulkhead_wait_seconds"] {
        let mut wanted = counted(&format!("{family}_bucket"), r#"name="b",le="_""#, counts);
        wanted.push(format!("{family}_sum{{name=\"b\"}} 11.534000000"));
        wanted.push(format!("{family}_count{{name=\"b\"}} 6"));
        assert_eq!(lines(&text, family), wanted);
    }
}

#[test]
fn retries_are_counted_as_by_resilience4j() {
    let metrics = Arc::new(Metrics::new());
    let retry = || {
        Retry::new()
            .observed("r", metrics.clone())
            .interval(Interval::fixed(Duration::from_millis(1)))
            .retry_if(|error: &&str| *error != "gone")
            .pause_by(|_wait| {})
    };
    assert_eq!(retry().call(|| Ok::<_, &str>(1)), Ok(1));
    for first in ["busy", "gone", "busy"] {
        let mut outcomes = [Err(first)].into_iter();
        let _answer = retry().call(|| outcomes.next().unwrap_or(Ok(1)));
    }
    assert!(retry().call(|| Err::<u32, _>("busy")).is_err());
    let none = retry().within(Duration::ZERO);
    assert!(none.call(|| Err::<u32, _>("busy")).is_err());
    let text = metrics.text(&[], &[]);
    for (family, counts) in [
        (
            "resilience4j_retry_calls_total",
            "failed_with_retry 2, failed_without_retry 1, successful_with_retry 2, successful_without_retry 1",
        ),
        (
            "resil_retry_events_total",
            "error 1, ignored_error 1, out_of_time 1, retry 4, success 3",
        ),
    ] {
        let wanted = counted(family, r#"kind="_",name="r""#, counts);
        assert_eq!(lines(&text, family), wanted);
    }
}

#[test]
fn jobs_are_counted_and_pools_have_their_sizes() -> Checked {
    let metrics = Arc::new(Metrics::new());
    let pool = ThreadPool::builder(3, 7).queue(5).name("p");
    let pool = pool.keep_alive(Duration::MAX).observed(metrics.clone());
    let pool = pool.open()?;
    let running = [begun(&pool)?, begun(&pool)?, begun(&pool)?];
    pool.resize(1, 7)?;
    let panics = pool.submit(|| -> u32 { panic!("no answer") })?;
    let last = gated(&pool)?;
    let has_sizes = |sizes: &str| {
        let text = metrics.text(&[], &[&pool]);
        for (name, number) in sizes.split(", ").filter_map(|pair| pair.split_once(' ')) {
            let line = format!("resilience4j_bulkhead_{name}{{name=\"p\"}} {number}");
            has(&text, &[&line]);
        }
    };
    has_sizes("queue_depth 2, queue_capacity 5, thread_pool_size 3, core_thread_pool_size 1");
    has_sizes("max_thread_pool_size 7, active_thread_count 3, available_thread_count 4");
    running.into_iter().chain([last]).try_for_each(end)?;
    assert!(panics.wait().is_err());
    has_sizes("queue_depth 0, thread_pool_size 3, active_thread_count 0, available_thread_count 7");
    pool.close();
    assert_eq!(pool.submit(|| 42).unwrap_err().reason, Refusal::Closed);
    let text = metrics.text(&[], &[]);
    let family = "resil_pool_jobs_total";
    let counts = "closed 1, core 3, extra 0, full 0, queued 2";
    let wanted = counted(family, r#"kind="_",name="p""#, counts);
    assert_eq!(lines(&text, family), wanted);
    let told = [
        "resil_pool_panics_total{name=\"p\"} 1",
        "resil_pool_wait_seconds_count{name=\"p\"} 5",
        "resil_pool_run_seconds_count{name=\"p\"} 5",
    ];
    has(&text, &told);
    Ok(())
}

#[test]
fn names_are_written_as_labels() -> Checked {
    let metrics = Arc::new(Metrics::new());
    let retry = Retry::new().observed("a \"b\"\\\nc", metrics.clone());
    assert_eq!(retry.call(|| Ok::<_, ()>(1)), Ok(1));
    let text = metrics.text(&[], &[]);
    let line = r#"{kind="successful_without_retry",name="a \"b\"\\\nc"} 1"#;
    assert!(text.contains(line), "{text}");
    // Those with the same name are added up.
    for _ in 0..2 {
        let backend = Bulkhead::new("b", 1)?.observed(metrics.clone());
        backend.call(|| ())?;
    }
    let text = metrics.text(&[], &[]);
    let line = "resil_bulkhead_calls_total{kind=\"permitted\",name=\"b\"} 2";
    assert_eq!(lines(&text, "resil_bulkhead_calls_total")[0], line);
    Ok(())
}

#[test]
fn metrics_without_times_count_alone() -> Checked {
    let metrics = Arc::new(Metrics::untimed());
    let backend = Bulkhead::new("b", 1)?.observed(metrics.clone());
    backend.call(|| ())?;
    let pool = ThreadPool::builder(1, 1).observed(metrics.clone()).open()?;
    pool.submit(|| ())?.wait()?;
    let text = metrics.text(&[], &[&pool]);
    assert!(text.contains("resil_bulkhead_calls_total{kind=\"permitted\",name=\"b\"} 1\n"));
    assert!(text.contains("resil_pool_jobs_total{kind=\"core\",name=\"pool\"} 1\n"));
    assert!(!text.contains("seconds"), "{text}");
    Ok(())
}

#[test]
fn a_name_is_removed() -> Checked {
    let metrics = Arc::new(Metrics::new());
    let backend = Bulkhead::new("one", 1)?.observed(metrics.clone());
    let pool = ThreadPool::builder(1, 1).name("one");
    let pool = pool.observed(metrics.clone()).open()?;
    let retry = Retry::new().observed("one", metrics.clone());
    let other = Bulkhead::new("other", 1)?.observed(metrics.clone());
    pool.submit(|| 42)?.wait()?;
    assert_eq!((backend.call(|| 7), other.call(|| 7)), (Ok(7), Ok(7)));
    assert_eq!(retry.call(|| Ok::<_, String>(7)), Ok(7));
    assert!(metrics.text(&[], &[]).contains("name=\"one\""));
    assert!(metrics.remove("one") && !metrics.remove("one"));
    // Whatever has the name keeps counting, but isn't written.
    assert_eq!(backend.call(|| 7), Ok(7));
    let text = metrics.text(&[], &[]);
    assert!(!text.contains("name=\"one\"") && text.contains("name=\"other\""));
    assert!(metrics.remove("other") && metrics.text(&[], &[]).is_empty());
    let again = Bulkhead::new("one", 1)?.observed(metrics.clone());
    assert_eq!(again.call(|| 7), Ok(7));
    let line = "resil_bulkhead_calls_total{kind=\"permitted\",name=\"one\"} 1\n";
    assert!(metrics.text(&[], &[]).contains(line));
    Ok(())
}
