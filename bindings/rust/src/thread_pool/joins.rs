//! The callers that wait in `join`, and what they wait for.
//!
//! A join counts the jobs that were accepted before it and aren't finished. Each finish counts down, so later submissions don't matter to
//! it. Once a join is done it stays done, whatever happens before its thread wakes.
use super::inside::Caller;

/// The state that decides whether a pool's joins are done.
#[derive(Clone, Copy)]
pub(super) struct Threads {
    /// How many threads work or are about to be started.
    pub(super) count: usize,
    pub(super) closed: bool,
}

struct Join {
    id: u64,
    caller: Caller,
    // The number of the last submission before it, and how many jobs up to that one aren't finished.
    last: u64,
    left: usize,
    is_done: bool,
}

#[derive(Default)]
pub(super) struct Joins {
    begun: u64,
    all: Vec<Join>,
}

impl Joins {
    /// Begins a join after submission `last`, with `left` unfinished jobs, and returns its id.
    pub(super) fn begin(&mut self, caller: Caller, last: u64, left: usize) -> u64 {
        self.begun += 1;
        self.all.push(Join {
            id: self.begun,
            caller,
            last,
            left,
            is_done: false,
        });
        self.begun
    }

    /// Ends a join.
    pub(super) fn end(&mut self, id: u64) {
        self.all.retain(|join| join.id != id);
    }

    /// Whether a join is done.
    pub(super) fn is_done(&self, id: u64) -> bool {
        self.all.iter().any(|join| join.id == id && join.is_done)
    }

    /// The number of joins.
    #[cfg(test)]
    pub(super) fn count_all(&self) -> usize {
        self.all.len()
    }

    /// Counts the finish of the job with this number.
    pub(super) fn count(&mut self, number: u64) {
        for join in &mut self.all {
            join.left -= usize::from(number <= join.last);
        }
    }

    /// Updates which joins are done, and returns whether there are new ones.
    ///
    /// A join that no job calls waits for all the jobs it counts and, if the pool is closed, until all threads have ended. A join that a
    /// job calls waits neither for this job nor for others that are joining; if the pool is closed, it waits for the other threads. If no
    /// other thread is left, it returns, since nobody would do what it waits for.
    pub(super) fn settle(&mut self, threads: Threads) -> bool {
        let mut any = false;
        for index in 0..self.all.len() {
            let join = &self.all[index];
            if !join.is_done && self.may_return(join, threads) {
                self.all[index].is_done = true;
                any = true;
            }
        }
        any
    }

    fn may_return(&self, join: &Join, threads: Threads) -> bool {
        if !join.caller.is_inside {
            return join.left == 0 && (!threads.closed || threads.count == 0);
        }
        let workers = self.all.iter().filter(|other| other.caller.is_worker);
        if threads.count <= workers.count() {
            return true;
        }
        let jobs = self.all.iter().flat_map(|other| &other.caller.jobs);
        !threads.closed && join.left <= jobs.filter(|number| **number <= join.last).count()
    }
}
