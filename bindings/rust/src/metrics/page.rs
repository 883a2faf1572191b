//! Prometheus' text format, one metric family after the other.
use super::counts::{ENDS, Lengths};
use crate::bulkhead::Bulkhead;
use crate::thread_pool::ThreadPool;
use std::collections::BTreeMap;
use std::fmt::{Display, Write};
use std::sync::Arc;

#[derive(Default)]
pub(super) struct Page {
    text: String,
}

// A label's value: a backslash, a quote and a newline are written as two characters.
struct Escaped<'a>(&'a str);

impl Display for Escaped<'_> {
    fn fmt(&self, f: &mut std::fmt::Formatter<'_>) -> std::fmt::Result {
        self.0.chars().try_for_each(|next| match next {
            '\\' => f.write_str("\\\\"),
            '"' => f.write_str("\\\""),
            '\n' => f.write_str("\\n"),
            next => f.write_char(next),
        })
    }
}

impl Page {
    pub(super) fn text(self) -> String {
        self.text
    }

    fn line(&mut self, line: impl Display) {
        // Writing to a string can't fail.
        let _written = writeln!(self.text, "{line}");
    }

    /// Writes a family: these lines for each entry, by name, or nothing if there are no entries. A head is the family's name, a space,
    /// and its description.
    fn family<K: AsRef<str>, N>(
        &mut self,
        kind: &str,
        head: &str,
        all: impl IntoIterator<Item = (K, N)>,
        lines: impl Fn(&mut Page, &str, Escaped<'_>, N),
    ) {
        let mut all = all.into_iter().peekable();
        if all.peek().is_none() {
            return;
        }
        let (name, _) = head.split_once(' ').unwrap_or((head, ""));
        self.line(format_args!("# HELP {head}"));
        self.line(format_args!("# TYPE {name} {kind}"));
        for (own, counted) in all {
            lines(self, name, Escaped(own.as_ref()), counted);
        }
    }

    /// Writes one number of each entry.
    pub(super) fn numbers<K: AsRef<str>, N>(
        &mut self,
        kind: &str,
        head: &str,
        all: impl IntoIterator<Item = (K, N)>,
        number: impl Fn(N) -> u64,
    ) {
        self.family(kind, head, all, |page, name, own, counted| {
            let number = number(counted);
            page.line(format_args!("{name}{{name=\"{own}\"}} {number}"));
        });
    }

    /// Writes counters of each entry, by kind.
    pub(super) fn counters<K: AsRef<str>, N, const KINDS: usize>(
        &mut self,
        head: &str,
        all: impl IntoIterator<Item = (K, N)>,
        counts: impl Fn(N) -> [(&'static str, u64); KINDS],
    ) {
        self.family("counter", head, all, |page, name, own, counted| {
            for (kind, count) in counts(counted) {
                page.line(format_args!(
                    "{name}{{kind=\"{kind}\",name=\"{own}\"}} {count}"
                ));
            }
        });
    }

    /// Writes a histogram of each entry that has one.
    pub(super) fn histograms<K: AsRef<str>, N>(
        &mut self,
        head: &str,
        all: impl IntoIterator<Item = (K, N)>,
        lengths: impl Fn(N) -> Option<Lengths>,
    ) {
        let all = all
            .into_iter()
            .filter_map(|(own, counted)| Some((own, lengths(counted)?)));
        self.family("histogram", head, all, |page, name, own, lengths| {
            let mut count = 0;
            let ends = ENDS.iter().map(|(_, end)| *end).chain(["+Inf"]);
            for (part, end) in lengths.parts.into_iter().zip(ends) {
                count += part;
                page.line(format_args!(
                    "{name}_bucket{{name=\"{own}\",le=\"{end}\"}} {count}"
                ));
            }
            let whole = 1_000_000_000;
            let (seconds, rest) = (lengths.nanoseconds / whole, lengths.nanoseconds % whole);
            page.line(format_args!(
                "{name}_sum{{name=\"{own}\"}} {seconds}.{rest:09}"
            ));
            page.line(format_args!("{name}_count{{name=\"{own}\"}} {count}"));
        });
    }

    // Writes gauges of each entry. If two have the same name, those of the last.
    fn gauges<'a, const COUNT: usize>(
        &mut self,
        heads: [&str; COUNT],
        all: impl Iterator<Item = (&'a str, [u64; COUNT])>,
    ) {
        let all: BTreeMap<_, _> = all.collect();
        for (index, head) in heads.into_iter().enumerate() {
            self.numbers("gauge", head, &all, |numbers| numbers[index]);
        }
    }
}

const BULKHEAD_GAUGES: [&str; 5] = [
    "resilience4j_bulkhead_available_concurrent_calls The number of available permissions",
    "resilience4j_bulkhead_max_allowed_concurrent_calls The maximum number of available permissions",
    "resil_bulkhead_retired_permits The number of permits that are retired",
    "resil_bulkhead_owed_permits The number of permits that are retired once they are given back",
    "resil_bulkhead_waiting_calls The number of calls that wait for a permit",
];

const POOL_GAUGES: [&str; 7] = [
    "resilience4j_bulkhead_queue_depth The queue depth",
    "resilience4j_bulkhead_queue_capacity The queue capacity",
    "resilience4j_bulkhead_thread_pool_size The thread pool size",
    "resilience4j_bulkhead_core_thread_pool_size The core thread pool size",
    "resilience4j_bulkhead_max_thread_pool_size The maximum thread pool size",
    "resilience4j_bulkhead_active_thread_count The number of active threads",
    "resilience4j_bulkhead_available_thread_count The number of available threads",
];

pub(super) fn write_bulkheads(page: &mut Page, bulkheads: &[Arc<Bulkhead>]) {
    let all = bulkheads.iter().map(|bulkhead| {
        let numbers = bulkhead.numbers();
        let gauges = [
            numbers.available.into(),
            (numbers
                .max
                .saturating_sub(numbers.retired + numbers.written_off))
            .into(),
            numbers.retired.into(),
            numbers.owed.into(),
            numbers.waiting as u64,
        ];
        (bulkhead.name(), gauges)
    });
    page.gauges(BULKHEAD_GAUGES, all);
}

pub(super) fn write_pools(page: &mut Page, pools: &[&ThreadPool]) {
    let all = pools.iter().map(|pool| {
        let numbers = pool.numbers();
        let gauges = [
            numbers.waiting.into(),
            numbers.capacity.into(),
            numbers.workers.into(),
            numbers.core.into(),
            numbers.max.into(),
            numbers.running.into(),
            numbers.max.saturating_sub(numbers.running).into(),
        ];
        (pool.name(), gauges)
    });
    page.gauges(POOL_GAUGES, all);
}
