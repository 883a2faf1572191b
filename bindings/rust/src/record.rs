//! A pool's record, and the text of a history that is made from it.
//!
//! An event is recorded by the call of the rule that causes it, under the pool's lock, so the order of the events is that of the rule's
//! decisions. Each part of a record begins with events that recreate the pool's state, so it is judged on its own.
#[cfg(test)]
mod tests;

use crate::moment::Moment;
use crate::rule::{JobId, MOST_WORKERS, Origin, Picked, PoolError, PoolNumbers, PoolRule, Reply};
use std::collections::{HashMap, VecDeque};
use std::fmt::{Arguments, Write as _};
use std::time::{Duration, SystemTime, UNIX_EPOCH};
use std::{iter, mem};

/// The maximum number of events in a part. A line has at most 41 bytes while the pool is younger than 30 years, so a text is below 4 MiB.
pub(crate) const MOST_EVENTS: u32 = 100_000;

/// The longest time, in microseconds, that a head gives as the keep-alive of an idle worker: a year.
const LONGEST_IDLE: u64 = 31_536_000_000_000;

/// The callers of a text: one for all submitters, and one for jobs that represent what an idle thread ran before the text begins.
const SUBMITTERS: u8 = 1;
const STAND_INS: u8 = 2;

#[derive(Clone, Copy)]
enum What {
    Submit(Reply),
    Take,
    Finish,
    Remove,
    IdleEnd,
    Close,
    Resize(u16, u16),
}

/// An event with its time in microseconds. The job is 0 if the event has none or its number isn't known.
#[derive(Clone, Copy)]
pub(crate) struct Noted {
    at: u64,
    job: u64,
    caller: u8,
    what: What,
}

const _: () = assert!(size_of::<Noted>() == 24);

fn noted(at: u64, caller: u8, job: u64, what: What) -> Noted {
    Noted {
        at,
        job,
        caller,
        what,
    }
}

fn resized(core: u32, max: u32) -> What {
    let size = |size: u32| u16::try_from(size).expect("a size is at most `MOST_WORKERS`");
    What::Resize(size(core), size(max))
}

/// Memory for this many events. It has been written to, so that no turn causes a page fault.
///
/// # Errors
///
/// `Memory` if out of memory.
pub(crate) fn memory_for(events: usize) -> Result<Vec<Noted>, PoolError> {
    let mut memory = Vec::new();
    let reserved = memory.try_reserve_exact(events);
    reserved.map_err(|_| PoolError::Memory)?;
    memory.resize(events, noted(0, SUBMITTERS, 0, What::Close));
    memory.clear();
    Ok(memory)
}

/// The same moment on two clocks: the record's, in microseconds since the pool was opened, and the system's.
#[derive(Clone, Copy)]
pub(crate) struct Anchor {
    pub(crate) at: u64,
    pub(crate) system: SystemTime,
}

impl Anchor {
    /// The calendar time at this time of the record's clock. None before 1970 and after 9999.
    fn moment(&self, at: u64) -> Option<Moment> {
        let until_this = self.system.duration_since(UNIX_EPOCH).ok()?;
        let since = Duration::from_micros(at.saturating_sub(self.at));
        Moment::after_1970(until_this.checked_add(since)?)
    }
}

/// How a pool is recorded: room for this many events, when it was opened, and its threads' keep-alive.
pub(crate) struct Plan {
    pub(crate) events: usize,
    pub(crate) opened: Anchor,
    pub(crate) keep_alive: Duration,
}

/// The contents of a part's head; a moment at or before its beginning; how many events fit, and how many recreate its state.
#[derive(Clone, Copy)]
struct Head {
    number: u64,
    core: u32,
    greatest: u32,
    queue: u32,
    idle_for: u64,
    start: Anchor,
    most: usize,
    made: usize,
}

/// A finished part of a record, and how many more events came when it was full.
pub(crate) struct Part {
    head: Head,
    events: Vec<Noted>,
    missed: u64,
}

impl Part {
    /// The text of a history, with its head. It has version 4 if jobs were given back, since version 3 has no row for them.
    pub(crate) fn text(&self) -> String {
        let is_removal = |noted: &Noted| matches!(noted.what, What::Remove);
        let has_removals = self.events.iter().any(is_removal);
        let head = self.comments() + &self.keys();
        let time_out = if has_removals { ",time_out" } else { "" };
        let mut lines = Lines {
            text: format!("{head}---\nevent,caller,number,reply,core,max{time_out},at\n"),
            has_time_out: has_removals,
            submitted: [0; 2],
            waiting: VecDeque::new(),
            running: HashMap::new(),
        };
        self.events.iter().for_each(|noted| lines.write(*noted));
        lines.text
    }

    fn comments(&self) -> String {
        let made = match self.head.made {
            0 => String::new(),
            made if made > self.head.most => " Too many jobs waited, so it is empty.".to_owned(),
            made => format!(" The first {made} events make the state in which the pool was."),
        };
        let missed = match self.missed {
            0 => String::new(),
            missed => {
                format!("# The room was full: {missed} events that came then are missing.\n")
            }
        };
        let number = self.head.number;
        format!("# Part {number} of a pool's record.{made}\n{missed}")
    }

    fn keys(&self) -> String {
        let (core, max, queue) = (self.head.core, self.head.greatest, self.head.queue);
        let idle_for = self.head.idle_for;
        let made = match self.head.made {
            made if (1..=self.head.most).contains(&made) => format!("made = {made}\n"),
            _ => String::new(),
        };
        // Without events there is no first one.
        let first = self.events.first();
        let began = first.and_then(|first| self.head.start.moment(first.at));
        let began = began.map_or(String::new(), |began| format!("began = {began}\n"));
        let sizes = format!("core = {core}\nmax = {max}\nqueue = {queue}\n");
        format!("{sizes}idle_for = {idle_for}\n{made}{began}")
    }
}

/// The lines of a text, in which each caller's submissions are numbered from 1.
struct Lines {
    text: String,
    // Whether each line has a field before its time for the time-out of core workers, which stays empty. Version 4 has it.
    has_time_out: bool,
    submitted: [u64; 2],
    // The numbers of the waiting jobs, oldest first, and those of the running jobs, by their caller and their number in the pool.
    waiting: VecDeque<u64>,
    running: HashMap<(u8, u64), u64>,
}

impl Lines {
    fn write(&mut self, noted: Noted) {
        let (at, job, caller) = (noted.at, noted.job, noted.caller);
        match noted.what {
            What::Submit(reply) => {
                let number = self.submit(caller, job, reply);
                let reply = name_of(reply);
                self.line(at, format_args!("submit,{caller},{number},{reply},,"));
            }
            What::Take => {
                let number = self.waiting.pop_front().expect("what is taken waits");
                self.running.insert((caller, job), number);
                self.line(at, format_args!("take,{caller},{number},,,"));
            }
            What::Finish => {
                let number = self.running.remove(&(caller, job));
                let number = number.expect("what is finished runs");
                self.line(at, format_args!("finish,{caller},{number},,,"));
            }
            What::Remove => {
                let number = self.waiting.pop_front().expect("what is removed waits");
                self.line(at, format_args!("remove,{caller},{number},,,"));
            }
            What::IdleEnd => self.line(at, format_args!("idle,,,,,")),
            What::Close => self.line(at, format_args!("close,,,,,")),
            What::Resize(core, max) => self.line(at, format_args!("resize,,,,{core},{max}")),
        }
    }

    fn submit(&mut self, caller: u8, job: u64, reply: Reply) -> u64 {
        let count = &mut self.submitted[usize::from(caller - SUBMITTERS)];
        let number = *count + 1;
        *count = number;
        match reply {
            Reply::Core | Reply::Extra => drop(self.running.insert((caller, job), number)),
            Reply::Queued => self.waiting.push_back(number),
            Reply::Full | Reply::Closed => {}
        }
        number
    }

    fn line(&mut self, at: u64, fields: Arguments<'_>) {
        let time_out = if self.has_time_out { "," } else { "" };
        let _written = writeln!(self.text, "{fields}{time_out},{at}");
    }
}

fn name_of(reply: Reply) -> &'static str {
    match reply {
        Reply::Core => "core",
        Reply::Queued => "queued",
        Reply::Extra => "extra",
        Reply::Full => "full",
        Reply::Closed => "closed",
    }
}

/// The record itself. What each event changes is in one cache line, if there are few places.
#[repr(C, align(64))]
struct Record {
    // The time of the turn.
    at: u64,
    // Once these fill their memory, no more are added.
    events: Vec<Noted>,
    // The running jobs by place; 0 for a place without one.
    running: [u64; MOST_WORKERS],
    missed: u64,
    head: Head,
}

impl Record {
    fn new(plan: &Plan, numbers: PoolNumbers) -> Result<Record, PoolError> {
        let idle_for = u64::try_from(plan.keep_alive.as_micros()).unwrap_or(u64::MAX);
        let events = memory_for(plan.events)?;
        Ok(Record {
            at: 0,
            running: [0; MOST_WORKERS],
            missed: 0,
            head: Head {
                number: 1,
                core: numbers.core,
                greatest: numbers.max,
                queue: numbers.capacity,
                idle_for: idle_for.min(LONGEST_IDLE),
                start: plan.opened,
                most: events.capacity(),
                made: 0,
            },
            events,
        })
    }

    #[inline]
    fn note(&mut self, job: u64, what: What) {
        if self.events.len() < self.events.capacity() {
            self.events.push(noted(self.at, SUBMITTERS, job, what));
        } else {
            self.missed += 1;
        }
    }

    /// The events that recreate a pool's state, starting from an open pool with its core size and the maximum size that it was opened
    /// with.
    fn made(&self, numbers: PoolNumbers, is_closed: bool) -> impl Iterator<Item = Noted> + use<> {
        let (workers, waiting) = (numbers.workers, numbers.waiting);
        let (core, max) = (numbers.core, numbers.max);
        let mut jobs = self.running.to_vec();
        jobs.retain(|job| *job > 0);
        jobs.sort_unstable();
        let (at, idle) = (self.at, u64::from(workers - numbers.running));
        let of = move |job: u64, what: What| noted(at, SUBMITTERS, job, what);
        let one = move |is_so: bool, what: What| is_so.then(|| of(0, what));
        let each_idle =
            move |what: What| (1..=idle).map(move |job| noted(at, STAND_INS, job, what));
        // A submission below the core size starts a worker, and jobs wait only if there are as many workers as the core size.
        let is_sized = workers > core || (workers < core && waiting > 0);
        let all = self.head.greatest;
        let (starts, waits) = (What::Submit(Reply::Core), What::Submit(Reply::Queued));
        one(is_sized, resized(workers, all))
            .into_iter()
            .chain(jobs.into_iter().map(move |job| of(job, starts)))
            .chain(each_idle(starts))
            .chain(iter::repeat_n(of(0, waits), waiting as usize))
            .chain(each_idle(What::Finish))
            .chain(one(is_sized || max < all, resized(core, max)))
            .chain(one(is_closed, What::Close))
    }
}

/// A pool's rule, with its record if it is recorded: each call that causes an event records it.
pub(crate) struct RecordedRule {
    rule: PoolRule,
    // The number of jobs that were given back but are still in the rule's queue.
    removed: u32,
    record: Option<Box<Record>>,
}

impl RecordedRule {
    /// A rule without any events, with the memory for its record.
    ///
    /// # Errors
    ///
    /// `Memory` if out of memory.
    pub(crate) fn new(mut rule: PoolRule, plan: Option<&Plan>) -> Result<Self, PoolError> {
        let numbers = rule.numbers();
        let record = plan.map(|plan| Record::new(plan, numbers)).transpose()?;
        Ok(RecordedRule {
            rule,
            removed: 0,
            record: record.map(Box::new),
        })
    }

    /// Begins a turn. Its events have this time, in microseconds, or that of the previous turn if that is later.
    #[inline]
    pub(crate) fn begin_turn(&mut self, at: Option<u64>) {
        if let (Some(at), Some(record)) = (at, &mut self.record) {
            record.at = record.at.max(at);
        }
    }

    /// Returns what has been recorded so far, if the pool is recorded. The next part is written to this memory, and begins at this moment
    /// or a little later.
    pub(crate) fn begin_part(&mut self, mut memory: Vec<Noted>, start: Anchor) -> Option<Part> {
        let numbers = self.numbers();
        let is_closed = self.rule.is_closed();
        let record = self.record.as_mut()?;
        let mut made = record.made(numbers, is_closed);
        let most = record.head.most;
        memory.extend(made.by_ref().take(most));
        let next = Head {
            number: record.head.number + 1,
            core: numbers.core,
            start,
            made: memory.len() + usize::from(made.next().is_some()),
            ..record.head
        };
        if next.made > most {
            memory = Vec::new();
        }
        Some(Part {
            head: mem::replace(&mut record.head, next),
            events: mem::replace(&mut record.events, memory),
            missed: mem::take(&mut record.missed),
        })
    }

    #[inline]
    fn note(&mut self, job: u64, what: What) {
        if let Some(record) = &mut self.record {
            record.note(job, what);
        }
    }

    #[inline]
    pub(crate) fn submit(&mut self, id: JobId, work: u64) -> Result<Reply, PoolError> {
        let reply = self.rule.submit(id, work)?;
        self.note(id.number, What::Submit(reply));
        Ok(reply)
    }

    #[inline]
    pub(crate) fn pick(&mut self) -> Option<Picked> {
        let picked = self.rule.pick()?;
        if let Some(record) = &mut self.record {
            record.running[picked.place as usize] = picked.id.number;
            // An own start is not an event.
            if picked.origin == Origin::Queue {
                record.note(picked.id.number, What::Take);
            }
        }
        Some(picked)
    }

    #[inline]
    pub(crate) fn finish(&mut self, picked: &Picked) -> Result<(), PoolError> {
        self.rule.finish(picked)?;
        if let Some(record) = &mut self.record {
            record.running[picked.place as usize] = 0;
            record.note(picked.id.number, What::Finish);
        }
        Ok(())
    }

    /// Records that the oldest job in the queue was given back. The pool is closed. The rule has no such event: it keeps the job until
    /// [`finish_removed`](Self::finish_removed).
    pub(crate) fn remove(&mut self, job: u64) {
        self.removed += 1;
        self.note(job, What::Remove);
    }

    /// Makes the rule pick and finish the jobs that were given back, as far as it has idle workers. Nobody runs them, so this isn't
    /// recorded.
    pub(crate) fn finish_removed(&mut self) {
        while self.removed > 0 {
            let Some(picked) = self.rule.pick() else {
                return;
            };
            let finished = self.rule.finish(&picked);
            finished.expect("what was picked is finished once");
            self.removed -= 1;
        }
    }

    pub(crate) fn resize(&mut self, core: u32, max: u32) -> Result<(), PoolError> {
        self.rule.resize(core, max)?;
        self.note(0, resized(core, max));
        Ok(())
    }

    pub(crate) fn idle_end(&mut self) -> bool {
        let has_ended = self.rule.idle_end();
        if has_ended {
            self.note(0, What::IdleEnd);
        }
        has_ended
    }

    pub(crate) fn close(&mut self) {
        if self.rule.close() {
            self.note(0, What::Close);
        }
    }

    /// The numbers. A job that was given back counts as finished.
    pub(crate) fn numbers(&mut self) -> PoolNumbers {
        let numbers = self.rule.numbers();
        PoolNumbers {
            waiting: numbers.waiting - self.removed,
            finished: numbers.finished + u64::from(self.removed),
            ..numbers
        }
    }
}
