//! Pairs of taking and giving back a permit, by a number under parking_lot's Mutex, which has no semaphore:
//! `permits THREADS PAIRS` asks for a round.
mod rounds;

use parking_lot::Mutex;

fn main() {
    for (_, numbers) in rounds::lines() {
        let [threads, pairs] = numbers[..] else {
            panic!("two numbers");
        };
        let free = Mutex::new(threads);
        let pair = || {
            let mut found = free.lock();
            *found = found.checked_sub(1).expect("a permit is free");
            drop(found);
            *free.lock() += 1;
        };
        rounds::run_pairs(pairs, vec![pair; threads]);
    }
}
