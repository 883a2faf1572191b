//! A pool that records what happens, and the text of its history for the program's `judge`, `stats` and `timeline`: `cargo run --example
//! recording >load.csv`.
use resil::ThreadPool;
use std::error::Error;
use std::thread;
use std::time::Duration;

pub fn main() -> Result<(), Box<dyn Error>> {
    let pool = ThreadPool::builder(2, 5).queue(10).record(25_000).open()?;
    // Jobs come slowly, then in a burst, and slowly again. Refused jobs are in the history too.
    for number in 0..120 {
        drop(pool.submit(|| thread::sleep(Duration::from_millis(10))));
        let is_burst = (50..100).contains(&number);
        thread::sleep(Duration::from_millis(if is_burst { 1 } else { 7 }));
    }
    pool.close();
    pool.join();
    if let Some(history) = pool.history() {
        print!("{history}");
    }
    Ok(())
}
