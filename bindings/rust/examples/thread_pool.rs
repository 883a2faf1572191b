//! A pool that returns answers, and what it does with a panic, a close and a refused job.
use resil::{JobError, Refusal, ThreadPool};
use std::error::Error;
use std::time::Duration;

pub fn main() -> Result<(), Box<dyn Error>> {
    let letters = ThreadPool::builder(2, 4)
        .queue(10)
        .keep_alive(Duration::from_secs(5))
        .name("letters")
        .open()?;
    let job = letters.submit(|| "a letter".to_uppercase())?;
    assert_eq!(job.wait()?, "A LETTER");

    let jobs = (1..=3).map(|page| letters.submit(move || 10 * page));
    let jobs = jobs.collect::<Result<Vec<_>, _>>()?;
    let sum: u32 = jobs
        .into_iter()
        .map(resil::JobHandle::wait)
        .sum::<Result<_, _>>()?;
    assert_eq!(sum, 60);

    let lost = letters.submit(|| -> u32 { panic!("out of paper") })?;
    let Err(JobError::Panicked(panic)) = lost.wait() else {
        return Err("it has an answer".into());
    };
    assert_eq!(panic.message(), Some("out of paper"));

    letters.close();
    let refused = letters.submit(|| "too late").unwrap_err();
    assert_eq!(refused.reason, Refusal::Closed);
    assert_eq!((refused.function)(), "too late");

    letters.join();
    let numbers = letters.numbers();
    println!(
        "{} accepted, {} refused, {} finished, {} threads left",
        numbers.accepted, numbers.refused, numbers.finished, numbers.workers
    );
    Ok(())
}
