//! Runs the examples, which the guide shows.
#[path = "../examples/bulkhead.rs"]
mod bulkhead;
#[path = "../examples/decorators.rs"]
mod decorators;
#[path = "../examples/metrics.rs"]
mod metrics;
#[path = "../examples/owned_permit.rs"]
mod owned_permit;
#[path = "../examples/recording.rs"]
mod recording;
#[path = "../examples/registry.rs"]
mod registry;
#[path = "../examples/retry.rs"]
mod retry;
#[path = "../examples/tasks.rs"]
mod tasks;
#[path = "../examples/thread_pool.rs"]
mod thread_pool;

use std::error::Error;

type Checked = Result<(), Box<dyn Error>>;

#[test]
fn each_runs() -> Checked {
    let examples: [fn() -> Checked; 9] = [
        bulkhead::main,
        decorators::main,
        metrics::main,
        owned_permit::main,
        recording::main,
        registry::main,
        retry::main,
        tasks::main,
        thread_pool::main,
    ];
    examples.into_iter().try_for_each(|main| main())
}
