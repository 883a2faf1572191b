//! A retry around a bulkhead, and a fallback around both.
use resil::{Bulkhead, CallError, Decorators, Interval, Refusal, Retry, ThreadPool};
use std::error::Error;
use std::fmt;
use std::time::Duration;

/// Why there is no price.
#[derive(Debug, Clone, Copy, PartialEq)]
enum PriceError {
    Busy,
    Unknown,
}

impl fmt::Display for PriceError {
    fn fmt(&self, f: &mut fmt::Formatter<'_>) -> fmt::Result {
        f.write_str(match self {
            PriceError::Busy => "the price is being made",
            PriceError::Unknown => "there is no price",
        })
    }
}

impl Error for PriceError {}

pub fn main() -> Result<(), Box<dyn Error>> {
    let backend = Bulkhead::new("prices", 2)?;
    // A refusal is an error like any other, and is retried here; so is `Busy`.
    let retry = Retry::new()
        .interval(Interval::fixed(Duration::from_millis(1)))
        .retry_if(|error: &CallError<PriceError>| *error != CallError::Failed(PriceError::Unknown));
    let price = |ask: fn() -> Result<u32, PriceError>| {
        Decorators::of(ask)
            .inside(&backend)
            .retried(&retry)
            .or_else(|error| match error {
                CallError::Full | CallError::Failed(PriceError::Busy) => Ok(0),
                error => Err(error),
            })
            .call()
    };
    assert_eq!(price(|| Ok(42))?, 42);
    assert_eq!(price(|| Err(PriceError::Busy))?, 0);
    let unknown = price(|| Err(PriceError::Unknown));
    assert_eq!(unknown, Err(CallError::Failed(PriceError::Unknown)));

    // While all permits are held, each of three attempts is refused.
    let permits = (backend.enter()?, backend.enter()?);
    assert_eq!(price(|| Ok(42))?, 0);
    drop(permits);

    // A chain whose function takes an argument is kept and called by reference, from many threads at once.
    let by_id = Decorators::of(|id: u32| id.checked_sub(7).ok_or(PriceError::Unknown))
        .inside(&backend)
        .retried(&retry);
    assert_eq!(by_id.call(49)?, 42);
    let id = 6;
    assert_eq!(by_id.call(id), Err(CallError::Failed(PriceError::Unknown)));

    // Each attempt may be a job of a pool: a refused job is an error of the function.
    let pool = ThreadPool::builder(1, 1).queue(1).open()?;
    let unless_closed = Retry::new()
        .retry_if(|error: &CallError<Refusal>| *error == CallError::Failed(Refusal::Full));
    let answer = Decorators::of(|| match pool.submit(|| 6 * 7) {
        Ok(job) => Ok(job.wait()),
        Err(refused) => Err(refused.reason),
    })
    .retried(&unless_closed)
    .call()?;
    println!("{} came of the pool", answer?);
    Ok(())
}
