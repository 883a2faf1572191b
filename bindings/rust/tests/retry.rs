//! Retries: which outcomes are tried again, how often and after which waits, and which intervals are refused.
use resil::{Interval, IntervalError, Retry};
use std::cell::{Cell, RefCell};
use std::panic::catch_unwind;
use std::pin::{Pin, pin};
use std::task::{Context, Poll, Waker};
use std::thread;
use std::time::{Duration, Instant};

const MS: Duration = Duration::from_millis(1);

// Calls with a retry that writes its waits down, and returns the answer, the number of calls and the waits in milliseconds.
fn tried<T>(
    retry: Retry,
    mut function: impl FnMut(u32) -> Result<T, &'static str>,
) -> (Result<T, &'static str>, u32, Vec<u128>) {
    let waits = RefCell::new(Vec::new());
    let retry = retry.pause_by(|wait| waits.borrow_mut().push(wait.as_millis()));
    let mut calls = 0;
    let answer = retry.call(|| {
        calls += 1;
        function(calls)
    });
    (answer, calls, waits.take())
}

#[test]
fn the_last_test_of_a_kind_counts() {
    let retry = Retry::new()
        .pause_by(|_| ())
        .retry_if(|_: &String| true)
        .retry_if(|error: &u8| *error == 1);
    let mut errors = [1, 1, 2, 1].into_iter();
    let answer = retry.attempts(4).call(|| errors.next().map_or(Ok(()), Err));
    assert_eq!((answer, errors.next()), (Err(2), Some(1)));
}

#[test]
fn a_thousand_attempts_wait_as_often_as_one_less() {
    let growing = Interval::exponential(1_000 * MS, (1_000, 999), Interval::LONGEST);
    let growing = growing.expect("it is in range");
    let retry = Retry::new().attempts(1_000).interval(growing);
    let (answer, calls, waits) = tried(retry, |_| Err::<(), _>("no"));
    assert_eq!((answer, calls, waits.len()), (Err("no"), 1_000, 999));
    // As the waits are defined: times 1000/999, truncated at each step.
    let mut wanted = 1_000;
    for wait in waits {
        assert_eq!(wait, wanted);
        wanted = wanted * 1_000 / 999;
    }
}

#[test]
fn attempts_outside_of_the_range_panic() {
    for count in [0, 1_001, u32::MAX] {
        let panic = catch_unwind(|| Retry::new().attempts(count)).expect_err("it panics");
        let said = format!("a retry has 1 to 1,000 attempts, and not {count}");
        assert_eq!(panic.downcast_ref(), Some(&said));
    }
}

#[test]
fn a_retry_sleeps_where_nothing_else_is_said() {
    let retry = Retry::new().interval(Interval::fixed(20 * MS));
    let began = Instant::now();
    assert_eq!(retry.call(|| Err::<(), _>("no")), Err("no"));
    assert!(began.elapsed() >= 40 * MS);
}

#[test]
fn jitter_draws_on_over_the_calls_of_a_retry() {
    let drawn = |seed| {
        let waits = RefCell::new(Vec::new());
        let retry = Retry::new()
            .attempts(101)
            .interval(Interval::fixed(1_000 * MS))
            .jitter_seeded(seed)
            .pause_by(|wait| waits.borrow_mut().push(wait));
        let half: Vec<_> = {
            let _failed = retry.call(|| Err::<(), _>("no"));
            waits.take()
        };
        let _failed = retry.call(|| Err::<(), _>("no"));
        (half, waits.take())
    };
    let (first, second) = drawn(7);
    for wait in first.iter().chain(&second) {
        assert!(500 * MS <= *wait && *wait <= 1_000 * MS);
    }
    assert_ne!(first, second);
    assert_eq!((first.clone(), second), drawn(7));
    assert_ne!(first, drawn(8).0);
}

#[test]
fn jitter_is_of_the_wait_of_each_attempt() {
    let growing = Interval::exponential(100 * MS, (10, 1), Interval::LONGEST);
    let retry = Retry::new()
        .attempts(4)
        .interval(growing.expect("it is in range"));
    for retry in [retry.jitter(), Retry::new().attempts(1).jitter_seeded(0)] {
        let (_, calls, waits) = tried(retry, |_| Err::<(), _>("no"));
        assert_eq!(waits.len() + 1, calls as usize);
        for (wait, whole) in waits.into_iter().zip([100, 1_000, 10_000]) {
            assert!(whole / 2 <= wait && wait <= whole);
        }
    }
}

#[test]
fn a_wait_beyond_the_limit_is_not_begun() {
    let second = Duration::from_secs(1);
    let limited = |limit| {
        Retry::new()
            .attempts(9)
            .interval(Interval::fixed(1_000 * second))
            .within(limit)
    };
    let failing = |call| Err::<(), _>(if call < 3 { "no" } else { "third" });
    // As long as two waits, and a little less; the calls take no time.
    let third = (Err("third"), 3, vec![1_000_000; 2]);
    assert_eq!(tried(limited(2_500 * second), failing), third);
    let once = (Err("no"), 2, vec![1_000_000]);
    assert_eq!(tried(limited(1_999 * second), failing), once);
    let at_once = (Err("no"), 1, vec![]);
    assert_eq!(tried(limited(Duration::ZERO), failing), at_once);
    let (_, calls, _) = tried(limited(Duration::MAX), failing);
    assert_eq!(calls, 9);
    let at_once = Retry::new().within(Duration::ZERO);
    assert_eq!(tried(at_once, |_| Ok(7)), (Ok(7), 1, vec![]));
}

#[test]
fn the_limit_is_that_of_the_clock_too() {
    let retry = Retry::new()
        .attempts(1_000)
        .interval(Interval::fixed(Duration::ZERO))
        .within(20 * MS);
    let (began, mut calls) = (Instant::now(), 0);
    let answer = retry.call(|| {
        calls += 1;
        thread::sleep(MS);
        Err::<(), _>("no")
    });
    assert_eq!(answer, Err("no"));
    // The last wait of no time didn't begin after the limit.
    assert!(calls < 1_000 && began.elapsed() >= 20 * MS);
}

#[test]
fn an_error_may_say_how_long_to_wait() {
    let waits = RefCell::new(Vec::new());
    let seen = RefCell::new(Vec::new());
    let retry = Retry::new()
        .attempts(5)
        .interval(Interval::fixed(5 * MS))
        .retry_if(|error: &u64| *error != 404)
        .wait_by(|error: &u64, attempt| {
            seen.borrow_mut().push(attempt);
            (*error < 100).then(|| Duration::from_millis(*error))
        })
        .within(Duration::from_secs(1_000))
        .pause_by(|wait| waits.borrow_mut().push(wait.as_millis()));
    let mut errors = [7, 500, 0, 404].into_iter();
    let answer = retry.call(|| errors.next().map_or(Ok(()), Err));
    assert_eq!(answer, Err(404));
    assert_eq!((waits.take(), seen.take()), (vec![7, 5, 0], vec![1, 2, 3]));
    // A wait that the error asks for is held to the limit too.
    let far = retry.wait_by(|_: &u64, _| Some(Duration::MAX));
    assert_eq!(far.call(|| Err::<(), _>(1)), Err(1));
    assert!(waits.take().is_empty());
}

#[test]
fn waits_are_told_without_a_call() {
    let growing = Interval::exponential(100 * MS, (2, 1), Interval::LONGEST);
    let retry = Retry::new()
        .attempts(4)
        .interval(growing.expect("it is in range"));
    let waits: Vec<_> = retry.waits().map(|wait| wait.as_millis()).collect();
    assert_eq!(waits, [100, 200, 400]);
    let mut waits = retry.waits();
    assert_eq!(waits.by_ref().count(), 3);
    assert_eq!((waits.next(), waits.next()), (None, None));
    let retry = retry.within(Duration::from_millis(60_300));
    assert_eq!(retry.waits().count(), 3);
    assert_eq!(Retry::new().attempts(1).waits().next(), None);
    let drawn = Retry::new().jitter_seeded(7);
    for wait in drawn.waits().chain(drawn.waits()) {
        assert!(250 * MS <= wait && wait <= 500 * MS);
    }
    assert_ne!(drawn.waits().next(), drawn.waits().next());
    let drawn = Retry::new().attempts(9).jitter();
    assert!(drawn.waits().any(|wait| wait < 500 * MS));
}

/// A future that is ready when it is polled the second time.
struct Later(bool);

impl Future for Later {
    type Output = ();

    fn poll(mut self: Pin<&mut Self>, _context: &mut Context<'_>) -> Poll<()> {
        if std::mem::replace(&mut self.0, true) {
            Poll::Ready(())
        } else {
            Poll::Pending
        }
    }
}

#[test]
fn futures_are_retried_and_waited_for() {
    let waits = RefCell::new(Vec::new());
    let retry = Retry::new().retry_if(|error: &u32| *error < 3);
    let calls = Cell::new(0);
    let call = || async {
        calls.set(calls.get() + 1);
        Later(false).await;
        Err::<(), _>(calls.get())
    };
    let sleep = |wait: Duration| {
        waits.borrow_mut().push(wait.as_millis());
        Later(false)
    };
    let mut answer = pin!(retry.call_async(call, sleep));
    let mut context = Context::from_waker(Waker::noop());
    let mut polls = 1;
    let answer = loop {
        match answer.as_mut().poll(&mut context) {
            Poll::Ready(answer) => break answer,
            Poll::Pending => polls += 1,
        }
    };
    assert_eq!((answer, polls, calls.get()), (Err(3), 6, 3));
    assert_eq!(*waits.borrow(), [500, 500]);
    // Dropped while it waits, it calls no more.
    let mut dropped = Box::pin(retry.call_async(call, sleep));
    calls.set(0);
    assert!(dropped.as_mut().poll(&mut context).is_pending());
    assert!(dropped.as_mut().poll(&mut context).is_pending());
    drop(dropped);
    assert_eq!(calls.get(), 1);
}

fn waits(interval: Interval, count: u32) -> Vec<u128> {
    (1..=count)
        .map(|attempt| interval.after(attempt).as_millis())
        .collect()
}

#[test]
fn durations_are_truncated_to_milliseconds() -> Result<(), IntervalError> {
    let just_below = Duration::from_nanos(1_999_999);
    assert_eq!(Interval::fixed(just_below), Interval::fixed(MS));
    let growing = Interval::exponential(
        just_below,
        (2, 1),
        (5 * MS).checked_sub(Duration::from_nanos(1)).unwrap(),
    )?;
    assert_eq!(waits(growing, 4), [1, 2, 4, 4]);
    // The longest wait, and what is less than a millisecond above it.
    let longest = Interval::LONGEST + Duration::from_nanos(999_999);
    assert_eq!(Interval::fixed(longest).after(1), Interval::LONGEST);
    Ok(())
}

#[test]
fn an_interval_is_shown_as_it_was_made() -> Result<(), IntervalError> {
    let fixed = Interval::fixed(500 * MS);
    assert_eq!(format!("{fixed:?}"), "fixed(500ms)");
    let growing = Interval::exponential(10 * MS, (3, 2), 2_000 * MS)?;
    assert_eq!(format!("{growing:?}"), "exponential(10ms, (3, 2), 2s)");
    let retry = Retry::new().interval(growing);
    assert_eq!(
        format!("{retry:?}"),
        "Retry { attempts: 3, interval: exponential(10ms, (3, 2), 2s), limit: None, .. }"
    );
    Ok(())
}

#[test]
fn the_first_refusal_is_told() {
    let long = Interval::LONGEST + MS;
    let cases = [
        (long, (0, 0), MS, IntervalError::IntervalTooLong),
        (MS, (0, 0), long, IntervalError::IntervalTooLong),
        (Duration::MAX, (2, 1), long, IntervalError::IntervalTooLong),
        (2 * MS, (1, 0), MS, IntervalError::BadMultiplier),
        (2 * MS, (1, 2), MS, IntervalError::BadMultiplier),
        (MS, (1_001, 1_000), MS, IntervalError::BadMultiplier),
        (2 * MS, (2, 1), MS, IntervalError::CapBelowInitial),
    ];
    for (first, multiplier, cap, error) in cases {
        let refused = Interval::exponential(first, multiplier, cap);
        assert_eq!(refused, Err(error), "{first:?} {multiplier:?} {cap:?}");
    }
    let said = IntervalError::CapBelowInitial.to_string();
    assert_eq!(said, "the cap is below the initial interval");
}

#[test]
fn what_is_outside_of_the_ranges_panics() {
    let message = |call: fn() -> Duration| {
        let panic = catch_unwind(call).expect_err("it panics");
        let text = panic.downcast_ref::<String>().cloned();
        text.or(panic
            .downcast_ref::<&str>()
            .map(std::string::ToString::to_string))
    };
    let too_long = message(|| Interval::fixed(Interval::LONGEST + MS).after(1));
    let said = "a wait of 31536000.001s is longer than 31,536,000,000 ms";
    assert_eq!(too_long.as_deref(), Some(said));
    let no_attempt = message(|| Interval::fixed(MS).after(0));
    assert_eq!(no_attempt.as_deref(), Some("attempts are numbered from 1"));
}
