//! Numbers for a dashboard: an [`Observer`] that counts, and writes its counts in Prometheus' text format.
//!
//! What Resilience4j's Micrometer exporter has is written under its names and labels, so its dashboards work with these metrics:
//!
//! - bulkheads, with the label `name`: the gauges `resilience4j_bulkhead_available_concurrent_calls` and
//!   `resilience4j_bulkhead_max_allowed_concurrent_calls`;
//! - retries: the counter `resilience4j_retry_calls_total`, with `name` and with `kind`: `successful_without_retry`,
//!   `successful_with_retry`, `failed_without_retry`, `failed_with_retry`;
//! - pools, with `name`: the gauges `resilience4j_bulkhead_queue_depth`, `_queue_capacity`, `_thread_pool_size`,
//!   `_core_thread_pool_size`, `_max_thread_pool_size`, `_active_thread_count` and `_available_thread_count`. `promtool` complains about
//!   the last two, since it wants no gauge to end in `_count`.
//!
//! The other names begin with `resil_`:
//!
//! | Name | Labels | Of |
//! |---|---|---|
//! | `resil_bulkhead_calls_total` | `kind`: `permitted`, `refused`; `name` | bulkheads |
//! | `resil_bulkhead_call_seconds`, a histogram | `name` | calls, from the permit to its end |
//! | `resil_bulkhead_waits_total` | `kind`: `granted`, `full`, `queue_full`, `timed_out`, `closed`, `abandoned`, from [`WaitEnd`](crate::WaitEnd); `name` | calls that may wait for a permit |
//! | `resil_bulkhead_wait_seconds`, a histogram | `name` | the same calls, from when they first ask for a permit to that end; 0 if they don't wait |
//! | `resil_bulkhead_timed_out_calls_total` | `name` | calls that gave their permit back unused, out of time |
//! | `resil_bulkhead_retired_permits`, `resil_bulkhead_owed_permits`, `resil_bulkhead_waiting_calls` | `name` | bulkheads |
//! | `resil_retry_events_total` | `kind`, from Resilience4j's events: `retry`, `success`, `error`, `ignored_error`, and also `out_of_time`; `name` | retries |
//! | `resil_pool_jobs_total` | `kind`, the reply: `core`, `queued`, `extra`, `full`, `closed`; `name` | submissions |
//! | `resil_pool_panics_total` | `name` | jobs that panicked |
//! | `resil_pool_wait_seconds`, `resil_pool_run_seconds`, histograms | `name` | jobs, from the submission to the start, and from there to the end |
//!
//! The upper ends of each histogram's buckets are 0.001, 0.0025, 0.005, 0.01, 0.025, 0.05, 0.1, 0.25, 0.5, 1, 2.5, 5 and 10 seconds, and
//! infinity.
//!
//! As in Resilience4j, a call that ends with its last attempt, or at its limit, is `failed_with_retry`, and one that ends with an error
//! that isn't retried is `failed_without_retry`.
mod counts;
mod page;

use crate::bulkhead::Bulkhead;
use crate::lock::locked;
use crate::observer::Observer;
use crate::thread_pool::ThreadPool;
use counts::{Calls, Jobs, Retries};
use page::Page;
use std::collections::BTreeMap;
use std::fmt;
use std::sync::{Arc, Mutex};

/// Counts the events reported to it, by the name of the bulkhead, retry or pool, and writes the counts in Prometheus' text format.
///
/// Counts of the same name are added up. Counting takes no lock, and threads count the calls of bulkheads separately.
///
/// A count is kept until its name is [removed](Metrics::remove). Each name of a bulkhead takes a few KiB of memory and about 1 KB of each
/// page. So use names for dependencies, which are few, not for individual callers.
#[derive(Default)]
pub struct Metrics {
    is_untimed: bool,
    all: Mutex<All>,
}

// The counts, by name.
#[derive(Default)]
struct All {
    calls: BTreeMap<String, Arc<Calls>>,
    retries: BTreeMap<String, Arc<Retries>>,
    jobs: BTreeMap<String, Arc<Jobs>>,
}

impl Metrics {
    /// The media type of the text, for a server's `Content-Type` header.
    pub const CONTENT_TYPE: &str = "text/plain; version=0.0.4; charset=utf-8";

    /// Makes metrics without any counts, which also measure times.
    #[must_use]
    pub fn new() -> Metrics {
        Metrics::default()
    }

    /// Makes metrics that only count: the clock isn't read for them, and there are no histograms.
    ///
    /// ```
    /// use std::sync::Arc;
    ///
    /// let metrics = Arc::new(resil::metrics::Metrics::untimed());
    /// let prices = resil::Bulkhead::new("prices", 2)?.observed(metrics.clone());
    /// prices.call(|| ()).unwrap();
    /// assert!(!metrics.text(&[], &[]).contains("resil_bulkhead_call_seconds"));
    /// # Ok::<(), resil::BulkheadError>(())
    /// ```
    #[must_use]
    pub fn untimed() -> Metrics {
        Metrics {
            is_untimed: true,
            ..Metrics::default()
        }
    }

    /// Forgets the counts of all bulkheads, retries and pools with this name, and returns whether there were any. Whatever still has the
    /// name continues counting, but that is no longer written. What is observed under the name from now on starts at zero.
    pub fn remove(&self, name: &str) -> bool {
        let mut all = locked(&self.all);
        let calls = all.calls.remove(name).is_some();
        let retries = all.retries.remove(name).is_some();
        all.jobs.remove(name).is_some() || calls || retries
    }

    /// Returns all counts, and the numbers of these bulkheads and pools at this moment, in Prometheus' text format. If two have the same
    /// name, the text has the numbers of the last.
    ///
    /// ```
    /// use std::sync::Arc;
    ///
    /// let metrics = Arc::new(resil::metrics::Metrics::new());
    /// let registry = resil::BulkheadRegistry::new(2).observed(metrics.clone());
    /// registry.bulkhead("prices")?.call(|| ()).unwrap();
    /// let text = metrics.text(&registry.bulkheads(), &[]);
    /// assert!(text.contains("resilience4j_bulkhead_max_allowed_concurrent_calls{name=\"prices\"} 2"));
    /// # Ok::<(), resil::RegistryError>(())
    /// ```
    #[must_use]
    pub fn text(&self, bulkheads: &[Arc<Bulkhead>], pools: &[&ThreadPool]) -> String {
        let mut page = Page::default();
        page::write_bulkheads(&mut page, bulkheads);
        page::write_pools(&mut page, pools);
        let all = locked(&self.all);
        Calls::write(&mut page, &all.calls);
        Retries::write(&mut page, &all.retries);
        Jobs::write(&mut page, &all.jobs);
        page.text()
    }
}

impl Observer for Metrics {
    fn of_bulkhead(&self, name: &str) -> Option<Arc<dyn Observer>> {
        let calls = &mut locked(&self.all).calls;
        Some(own(calls, name, || Calls::new(!self.is_untimed)))
    }

    fn of_retry(&self, name: &str) -> Option<Arc<dyn Observer>> {
        let retries = &mut locked(&self.all).retries;
        Some(own(retries, name, Retries::default))
    }

    fn of_pool(&self, name: &str) -> Option<Arc<dyn Observer>> {
        let jobs = &mut locked(&self.all).jobs;
        Some(own(jobs, name, || Jobs::new(!self.is_untimed)))
    }
}

// The counter for this name, which is made if there is none.
fn own<C: Observer + 'static>(
    all: &mut BTreeMap<String, Arc<C>>,
    name: &str,
    new: impl FnOnce() -> C,
) -> Arc<dyn Observer> {
    let own = all.entry(name.to_owned());
    own.or_insert_with(|| Arc::new(new())).clone()
}

impl fmt::Debug for Metrics {
    fn fmt(&self, f: &mut fmt::Formatter<'_>) -> fmt::Result {
        let all = locked(&self.all);
        f.debug_struct("Metrics")
            .field("bulkheads", &all.calls.keys())
            .field("retries", &all.retries.keys())
            .field("pools", &all.jobs.keys())
            .finish_non_exhaustive()
    }
}
