//! The counts of one bulkhead, retry or pool.
use super::page::Page;
use crate::observer::{Observer, WaitEnd};
use crate::rule::Reply;
use crate::thread_number;
use crate::thread_pool::Refusal;
use std::collections::BTreeMap;
use std::iter::{self, Sum};
use std::sync::Arc;
use std::sync::atomic::{AtomicU64, Ordering};
use std::time::Duration;

/// A number that only grows.
#[derive(Default)]
pub(super) struct Counter(AtomicU64);

impl Counter {
    fn up(&self) {
        self.add(1, false);
    }

    // If only one thread counts, it needs no atomic addition.
    #[inline]
    fn add(&self, count: u64, is_alone: bool) {
        if is_alone {
            let sum = self.get().wrapping_add(count);
            self.0.store(sum, Ordering::Relaxed);
        } else {
            self.0.fetch_add(count, Ordering::Relaxed);
        }
    }

    pub(super) fn get(&self) -> u64 {
        self.0.load(Ordering::Relaxed)
    }
}

/// The upper ends of a histogram's buckets, in nanoseconds, and in seconds as they are written: about three for each power of ten from a
/// millisecond to ten seconds. One more bucket follows.
pub(super) const ENDS: [(u64, &str); 13] = [
    (1_000_000, "0.001"),
    (2_500_000, "0.0025"),
    (5_000_000, "0.005"),
    (10_000_000, "0.01"),
    (25_000_000, "0.025"),
    (50_000_000, "0.05"),
    (100_000_000, "0.1"),
    (250_000_000, "0.25"),
    (500_000_000, "0.5"),
    (1_000_000_000, "1"),
    (2_500_000_000, "2.5"),
    (5_000_000_000, "5"),
    (10_000_000_000, "10"),
];

/// How many times fall into each bucket.
#[derive(Default)]
struct Histogram {
    parts: [Counter; ENDS.len() + 1],
    nanoseconds: Counter,
}

/// The counts of histograms: how many times are in each bucket, and their sum in nanoseconds.
#[derive(Default)]
pub(super) struct Lengths {
    pub(super) parts: [u64; ENDS.len() + 1],
    pub(super) nanoseconds: u64,
}

impl Histogram {
    fn add(&self, time: Duration, is_alone: bool) {
        let nanoseconds = u64::try_from(time.as_nanos()).unwrap_or(u64::MAX);
        let part = ENDS.iter().position(|(end, _)| nanoseconds <= *end);
        self.parts[part.unwrap_or(ENDS.len())].add(1, is_alone);
        self.nanoseconds.add(nanoseconds, is_alone);
    }
}

impl<'a> Sum<&'a Histogram> for Lengths {
    fn sum<I: Iterator<Item = &'a Histogram>>(all: I) -> Lengths {
        let mut sum = Lengths::default();
        for one in all {
            for (sum, part) in sum.parts.iter_mut().zip(&one.parts) {
                *sum += part.get();
            }
            sum.nanoseconds = sum.nanoseconds.wrapping_add(one.nanoseconds.get());
        }
        sum
    }
}

/// The counts of a bulkhead: each thread with a place counts in its own, and all others share one.
pub(super) struct Calls {
    places: Box<[CallCounts]>,
    shared: CallCounts,
    is_timed: bool,
}

// On its own cache lines.
#[derive(Default)]
#[repr(align(64))]
struct CallCounts {
    permitted: Counter,
    refused: Counter,
    timed_out: Counter,
    times: Histogram,
    waits: Histogram,
    granted: Counter,
    full: Counter,
    queue_full: Counter,
    waited_in_vain: Counter,
    closed: Counter,
    abandoned: Counter,
}

impl CallCounts {
    fn ends(&self, end: WaitEnd) -> &Counter {
        match end {
            WaitEnd::Granted => &self.granted,
            WaitEnd::Full => &self.full,
            WaitEnd::QueueFull => &self.queue_full,
            WaitEnd::TimedOut => &self.waited_in_vain,
            WaitEnd::Closed => &self.closed,
            WaitEnd::Abandoned => &self.abandoned,
        }
    }
}

/// The ends of waits, with their names in the text.
const WAIT_ENDS: [(WaitEnd, &str); 6] = [
    (WaitEnd::Abandoned, "abandoned"),
    (WaitEnd::Closed, "closed"),
    (WaitEnd::Full, "full"),
    (WaitEnd::Granted, "granted"),
    (WaitEnd::QueueFull, "queue_full"),
    (WaitEnd::TimedOut, "timed_out"),
];

impl Calls {
    pub(super) fn new(is_timed: bool) -> Calls {
        let places = iter::repeat_with(CallCounts::default);
        Calls {
            places: places.take(thread_number::places()).collect(),
            shared: CallCounts::default(),
            is_timed,
        }
    }

    // The place where this thread counts, and whether it is the only thread there: no two live threads have the same number.
    #[inline]
    fn own(&self) -> (&CallCounts, bool) {
        match self.places.get(thread_number::current()) {
            Some(own) => (own, true),
            None => (&self.shared, false),
        }
    }

    fn all(&self) -> impl Iterator<Item = &CallCounts> {
        self.places.iter().chain([&self.shared])
    }

    fn sum(&self, of: impl Fn(&CallCounts) -> &Counter) -> u64 {
        self.all().map(|counts| of(counts).get()).sum()
    }

    fn lengths(&self, of: fn(&CallCounts) -> &Histogram) -> Option<Lengths> {
        self.is_timed.then(|| self.all().map(of).sum())
    }

    pub(super) fn write(page: &mut Page, all: &BTreeMap<String, Arc<Calls>>) {
        page.counters(
            "resil_bulkhead_calls_total The number of calls that were permitted or refused",
            all,
            |calls| {
                [
                    ("permitted", calls.sum(|counts| &counts.permitted)),
                    ("refused", calls.sum(|counts| &counts.refused)),
                ]
            },
        );
        page.numbers(
            "counter",
            "resil_bulkhead_timed_out_calls_total The number of calls that gave their permit back unused because they were out of time",
            all,
            |calls| calls.sum(|counts| &counts.timed_out),
        );
        page.counters(
            "resil_bulkhead_waits_total The number of calls that may wait for a permit, by how the wait ended",
            all,
            |calls| {
                WAIT_ENDS.map(|(end, kind)| (kind, calls.sum(|counts| counts.ends(end))))
            },
        );
        page.histograms(
            "resil_bulkhead_wait_seconds How long these calls waited, however the wait ended",
            all,
            |calls| calls.lengths(|counts| &counts.waits),
        );
        page.histograms(
            "resil_bulkhead_call_seconds How long permits were held",
            all,
            |calls| calls.lengths(|counts| &counts.times),
        );
    }
}

impl Observer for Calls {
    fn wants_times(&self) -> bool {
        self.is_timed
    }

    fn call_permitted(&self, _bulkhead: &str) {
        let (own, is_alone) = self.own();
        own.permitted.add(1, is_alone);
    }

    fn call_refused(&self, _bulkhead: &str) {
        let (own, is_alone) = self.own();
        own.refused.add(1, is_alone);
    }

    fn call_waited(&self, _bulkhead: &str, time: Duration, end: WaitEnd) {
        let (own, is_alone) = self.own();
        own.ends(end).add(1, is_alone);
        if self.is_timed {
            own.waits.add(time, is_alone);
        }
    }

    fn call_timed_out(&self, _bulkhead: &str) {
        let (own, is_alone) = self.own();
        own.timed_out.add(1, is_alone);
    }

    fn call_finished(&self, _bulkhead: &str, time: Duration) {
        if self.is_timed {
            let (own, is_alone) = self.own();
            own.times.add(time, is_alone);
        }
    }
}

#[derive(Default)]
pub(super) struct Retries {
    failed: Counter,
    succeeded_at_once: Counter,
    succeeded_later: Counter,
    exhausted: Counter,
    ignored: Counter,
    out_of_time: Counter,
}

impl Retries {
    pub(super) fn write(page: &mut Page, all: &BTreeMap<String, Arc<Retries>>) {
        page.counters(
            "resilience4j_retry_calls_total The number of calls with and without a retry attempt, by how they ended",
            all,
            |calls| {
                let ends = calls.exhausted.get() + calls.out_of_time.get();
                [
                    ("failed_with_retry", ends),
                    ("failed_without_retry", calls.ignored.get()),
                    ("successful_with_retry", calls.succeeded_later.get()),
                    ("successful_without_retry", calls.succeeded_at_once.get()),
                ]
            },
        );
        page.counters(
            "resil_retry_events_total The number of events of a retry",
            all,
            |calls| {
                let succeeded = calls.succeeded_at_once.get() + calls.succeeded_later.get();
                [
                    ("error", calls.exhausted.get()),
                    ("ignored_error", calls.ignored.get()),
                    ("out_of_time", calls.out_of_time.get()),
                    ("retry", calls.failed.get()),
                    ("success", succeeded),
                ]
            },
        );
    }
}

impl Observer for Retries {
    fn wants_times(&self) -> bool {
        false
    }

    fn attempt_failed(&self, _retry: &str, _attempt: u32, _wait: Duration) {
        self.failed.up();
    }

    fn retry_succeeded(&self, _retry: &str, attempts: u32) {
        match attempts {
            1 => self.succeeded_at_once.up(),
            _ => self.succeeded_later.up(),
        }
    }

    fn retry_exhausted(&self, _retry: &str, _attempts: u32) {
        self.exhausted.up();
    }

    fn error_ignored(&self, _retry: &str, _attempts: u32) {
        self.ignored.up();
    }

    fn retry_out_of_time(&self, _retry: &str, _attempts: u32) {
        self.out_of_time.up();
    }
}

#[derive(Default)]
pub(super) struct Jobs {
    core: Counter,
    queued: Counter,
    extra: Counter,
    full: Counter,
    closed: Counter,
    panicked: Counter,
    waits: Histogram,
    runs: Histogram,
    is_timed: bool,
}

impl Jobs {
    pub(super) fn new(is_timed: bool) -> Jobs {
        Jobs {
            is_timed,
            ..Jobs::default()
        }
    }

    fn lengths(&self, histogram: &Histogram) -> Option<Lengths> {
        self.is_timed.then(|| iter::once(histogram).sum())
    }

    pub(super) fn write(page: &mut Page, all: &BTreeMap<String, Arc<Jobs>>) {
        page.counters(
            "resil_pool_jobs_total The number of submissions, by the pool's reply",
            all,
            |jobs| {
                [
                    ("closed", jobs.closed.get()),
                    ("core", jobs.core.get()),
                    ("extra", jobs.extra.get()),
                    ("full", jobs.full.get()),
                    ("queued", jobs.queued.get()),
                ]
            },
        );
        page.numbers(
            "counter",
            "resil_pool_panics_total The number of jobs that panicked",
            all,
            |jobs| jobs.panicked.get(),
        );
        page.histograms(
            "resil_pool_wait_seconds How long jobs waited from their submission to their start",
            all,
            |jobs| jobs.lengths(&jobs.waits),
        );
        page.histograms("resil_pool_run_seconds How long jobs ran", all, |jobs| {
            jobs.lengths(&jobs.runs)
        });
    }
}

impl Observer for Jobs {
    fn wants_times(&self) -> bool {
        self.is_timed
    }

    fn job_accepted(&self, _pool: &str, reply: Reply) {
        match reply {
            Reply::Core => self.core.up(),
            Reply::Extra => self.extra.up(),
            _ => self.queued.up(),
        }
    }

    fn job_refused(&self, _pool: &str, reason: Refusal) {
        match reason {
            Refusal::Full => self.full.up(),
            Refusal::Closed => self.closed.up(),
        }
    }

    fn job_started(&self, _pool: &str, wait: Duration) {
        self.waits.add(wait, false);
    }

    fn job_finished(&self, _pool: &str, time: Duration) {
        self.runs.add(time, false);
    }

    fn job_panicked(&self, pool: &str, time: Duration) {
        self.panicked.up();
        self.job_finished(pool, time);
    }
}
