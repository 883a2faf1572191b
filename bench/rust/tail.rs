//! The times of pairs of jobs on idle workers, of which the first ends only once the second has begun: as crates/resil_bench has them.
use std::sync::atomic::{AtomicUsize, Ordering};
use std::time::{Duration, Instant};
use std::{hint, thread};

// How often a wait for a start looks before it yields at each look.
const SPINS: usize = 2000;

// One more than the longest pause before a pair, in nanoseconds, and by how much the next pause is longer, or else shorter.
const PAUSES: u64 = 20_001;
const STEP: u64 = 997;

/// How many pairs are timed for a line `pairs`.
pub const PAIRS: usize = 100;

/// Waits until so many have started.
pub fn wait_for(started: &AtomicUsize, count: usize) {
    let mut tries = 0;
    while started.load(Ordering::SeqCst) < count {
        if tries < SPINS {
            hint::spin_loop();
        } else {
            thread::yield_now();
        }
        tries += 1;
    }
}

/// The times of the pairs so far, in nanoseconds.
#[derive(Default)]
pub struct Times {
    nanos: Vec<u128>,
}

impl Times {
    /// Waits for the pause before a pair, and times the pair: until both of its jobs have begun.
    pub fn time(&mut self, pair: impl FnOnce()) {
        let pause = Duration::from_nanos(self.nanos.len() as u64 % PAUSES * STEP % PAUSES);
        let start = Instant::now();
        while start.elapsed() < pause {
            hint::spin_loop();
        }
        let start = Instant::now();
        pair();
        self.nanos.push(start.elapsed().as_nanos());
    }

    pub fn print(&self) {
        let nanos: Vec<String> = self.nanos.iter().map(u128::to_string).collect();
        println!("{} ns", nanos.join(" "));
    }
}
