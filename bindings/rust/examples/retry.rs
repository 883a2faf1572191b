//! A call that is tried again: how often, after which waits, for which errors and values.
use resil::{Interval, IntervalError, Retry};
use std::cell::RefCell;
use std::error::Error;
use std::io::{self, ErrorKind};
use std::time::Duration;

pub fn main() -> Result<(), Box<dyn Error>> {
    // The defaults are three attempts, with 500 ms between two of them.
    let defaults = Retry::new();
    assert_eq!(defaults.call(|| "42".parse()), Ok(42));

    let ms = Duration::from_millis;
    let growing = Interval::exponential(ms(2), (3, 2), ms(1_000))?;
    let retry = Retry::new()
        .attempts(4)
        .interval(growing)
        .retry_if(|error: &io::Error| error.kind() == ErrorKind::TimedOut);
    let mut answers = [Err(ErrorKind::TimedOut), Err(ErrorKind::TimedOut), Ok(42)].into_iter();
    let mut answer = || {
        let answer = answers.next().unwrap_or(Err(ErrorKind::Other));
        answer.map_err(io::Error::from)
    };
    assert_eq!(retry.call(&mut answer)?, 42);
    // The next error isn't to be retried.
    assert!(retry.call(&mut answer).is_err());

    // A multiplier is at least 1.
    let shrinks = Interval::exponential(ms(2), (1, 2), ms(1_000));
    assert_eq!(shrinks, Err(IntervalError::BadMultiplier));

    // Values are retried too if you say so; the last one is returned, and the caller judges it.
    let is_empty = |page: &&str| page.is_empty();
    let patient = Retry::new()
        .interval(Interval::fixed(ms(1)))
        .retry_value_if(is_empty);
    let page = patient.call(|| Ok::<_, io::Error>(""))?;
    let exceeded = is_empty(&page);
    assert!(exceeded);

    // Random waits between half of these and all of it, from a seed; they are written down instead of slept.
    let waits = RefCell::new(Vec::new());
    let spread = Retry::new()
        .interval(Interval::fixed(ms(100)))
        .jitter_seeded(7)
        .pause_by(|wait| waits.borrow_mut().push(wait));
    assert_eq!(spread.call(|| Err::<u32, _>("busy")), Err("busy"));
    assert!(
        waits
            .borrow()
            .iter()
            .all(|wait| ms(50) <= *wait && *wait <= ms(100))
    );
    // Without a seed they differ each time.
    let spread = Retry::new()
        .jitter()
        .pause_by(|wait| assert!(wait >= ms(250)));
    assert_eq!(spread.call(|| Err::<u32, _>("busy")), Err("busy"));

    // An error may say when to try again. A wait that would end after the limit isn't begun.
    let polite = Retry::new()
        .attempts(9)
        .wait_by(|busy: &Duration, _attempt| Some(*busy))
        .within(Duration::from_secs(60))
        .pause_by(|wait| assert_eq!(wait, Duration::from_secs(25)));
    let mut calls = 0;
    let answer = polite.call(|| {
        calls += 1;
        Err::<u32, _>(Duration::from_secs(25))
    });
    assert_eq!((answer.is_err(), calls), (true, 3));
    println!("{} waits were drawn", waits.borrow().len());
    Ok(())
}
