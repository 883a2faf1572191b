//! Pairs of taking and giving back a permit, by tokio's Semaphore: `permits THREADS PAIRS` asks for a round.
mod rounds;

use tokio::sync::Semaphore;

fn main() {
    for (_, numbers) in rounds::lines() {
        let [threads, pairs] = numbers[..] else {
            panic!("two numbers");
        };
        let permits = Semaphore::new(threads);
        let pair = || drop(permits.try_acquire().expect("a permit is free"));
        rounds::run_pairs(pairs, vec![pair; threads]);
    }
}
