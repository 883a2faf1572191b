//! Calls under a permit of a bulkhead of the crate for rustc that is observed, by so many threads: `counted THREADS CALLS` by an
//! observer that counts permitted and refused calls, `untimed` and `timed` by the crate's `Metrics`.
mod rounds;

use resil::metrics::Metrics;
use resil::{Bulkhead, Observer};
use std::hint;
use std::sync::Arc;
use std::sync::atomic::{AtomicU64, Ordering};

#[derive(Default)]
struct Counts {
    permitted: AtomicU64,
    refused: AtomicU64,
}

impl Observer for Counts {
    fn wants_times(&self) -> bool {
        false
    }

    fn call_permitted(&self, _: &str) {
        self.permitted.fetch_add(1, Ordering::Relaxed);
    }

    fn call_refused(&self, _: &str) {
        self.refused.fetch_add(1, Ordering::Relaxed);
    }
}

fn main() {
    for (name, numbers) in rounds::lines() {
        let [threads, count] = numbers[..] else {
            panic!("two numbers");
        };
        let observer: Arc<dyn Observer> = match name.as_str() {
            "counted" => Arc::new(Counts::default()),
            "untimed" => Arc::new(Metrics::untimed()),
            _ => Arc::new(Metrics::new()),
        };
        let bulkhead = Bulkhead::new("backend", threads.try_into().expect("some threads"));
        let bulkhead = bulkhead.expect("a bulkhead with its memory").observed(observer);
        let call = || {
            hint::black_box(bulkhead.call(|| hint::black_box(1)).expect("a permit is free"));
        };
        rounds::run_pairs(count, vec![call; threads]);
    }
}
