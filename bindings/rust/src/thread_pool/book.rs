//! What a pool's threads share under its lock: the rule, its tasks, and which threads work, search, sleep and join.
//!
//! By the rule an idle worker may pick any waiting job. After the sizes were lowered there may be more workers than the maximum size.
//! While as many jobs run as the maximum size, a thread then doesn't pick, but holds back.
use super::inbox::{Inbox, Ring};
use super::inside::Caller;
use super::joins::{Joins, Threads};
use super::task::Work;
use crate::record::{Anchor, Noted, Part, RecordedRule};
use crate::rule::{JobId, Origin, Picked, PoolError, PoolNumbers, Reply};
use std::collections::VecDeque;
use std::mem;
use std::thread::{JoinHandle, ThreadId};

// All submissions of a pool belong to one caller of its rule, and are counted under the lock.
const CALLER: u16 = 1;

/// A task that a worker has picked.
pub(super) struct Job {
    pub(super) work: Work,
    pub(super) picked: Picked,
}

// A job in the rule's queue.
struct Queued {
    number: u64,
    work: u64,
}

pub(super) struct Book {
    rule: RecordedRule,
    // What is submitted without the lock. If `by_lock` is set, nothing is.
    pub(super) inbox: Inbox,
    by_lock: bool,
    submitted: u64,
    // The waiting jobs.
    queue: VecDeque<Queued>,
    // Jobs that were picked for threads that are about to start, and jobs whose thread couldn't be started.
    firsts: VecDeque<Job>,
    orphans: VecDeque<Job>,
    /// How many jobs have a worker of the rule.
    pub(super) running: usize,
    // The sizes. The maximum size limits how many jobs run.
    core: usize,
    max: usize,
    capacity: usize,
    pub(super) closed: bool,
    /// How many threads were started, or failed to start.
    pub(super) started: u64,
    /// How many threads work here or are about to be started. Together with the missing ones these are the rule's workers.
    pub(super) threads: usize,
    /// The number of the rule's workers for which no thread could be started.
    pub(super) missing: usize,
    /// Whether a thread searches for a job before it sleeps. At most one does at a time.
    pub(super) searching: bool,
    /// How many threads sleep without having been called, and how many of them hold back.
    pub(super) asleep: usize,
    pub(super) held: usize,
    /// How many sleeping threads were called; whichever wake first take the calls.
    pub(super) called: usize,
    /// How many times all sleeping threads were called.
    pub(super) alarms: u64,
    pub(super) joins: Joins,
    // The handles of threads that can be joined once the pool is closed, and the ids of threads that ended before their handle was kept.
    handles: Vec<JoinHandle<()>>,
    early: Vec<ThreadId>,
}

// A list with room for `count` entries.
fn room<T>(count: usize) -> Result<VecDeque<T>, PoolError> {
    let mut list = VecDeque::new();
    let reserved = list.try_reserve_exact(count);
    reserved.map_err(|_| PoolError::Memory)?;
    Ok(list)
}

impl Book {
    pub(super) fn new(mut rule: RecordedRule, by_lock: bool) -> Result<Book, PoolError> {
        let numbers = rule.numbers();
        let sizes = [numbers.core, numbers.max, numbers.capacity];
        let [core, max, capacity] = sizes.map(|size| size as usize);
        let ring = Ring::new(capacity, 0)?;
        Ok(Book {
            rule,
            by_lock,
            submitted: 0,
            queue: room(capacity)?,
            firsts: room(max)?,
            orphans: room(max)?,
            running: 0,
            core,
            max,
            capacity,
            closed: false,
            started: 0,
            threads: 0,
            missing: 0,
            searching: false,
            asleep: 0,
            held: 0,
            called: 0,
            alarms: 0,
            joins: Joins::default(),
            handles: room(max)?.into(),
            early: Vec::new(),
            // Its allocation can't be refused, so it comes last.
            inbox: Inbox::new(ring),
        })
    }

    /// Begins a turn at this time, in a recorded pool.
    #[inline]
    pub(super) fn begin_turn(&mut self, at: Option<u64>) {
        self.rule.begin_turn(at);
    }

    /// What has been recorded so far, if the pool is recorded.
    pub(super) fn begin_part(&mut self, memory: Vec<Noted>, start: Anchor) -> Option<Part> {
        self.rule.begin_part(memory, start)
    }

    /// Submits a worker's share of a task, by its number. If a thread is to start for it, it is picked as that thread's first job.
    pub(super) fn submit(&mut self, work: u64) -> Reply {
        self.end_grant();
        let reply = self.submit_by_rule(work);
        self.grant();
        reply
    }

    // Stops submissions without the lock, and passes those made so far to the rule. Anything that changes the rule's replies comes after
    // this.
    fn end_grant(&mut self) {
        self.inbox.take_back_grant();
        self.tell_rule();
    }

    // Allows as many submissions without the lock as the rule will queue.
    fn grant(&mut self) {
        let has_core = self.missing == 0 && self.threads >= self.core;
        if has_core && !self.closed && !self.by_lock {
            self.inbox.grant(self.capacity - self.queue.len());
        }
    }

    // Passes to the rule the submissions made without the lock that are known.
    fn tell_rule(&mut self) {
        while let Some(work) = self.inbox.pop() {
            let reply = self.submit_by_rule(work);
            assert_eq!(reply, Reply::Queued, "as was granted");
        }
    }

    // Passes to the rule all submissions made without the lock so far.
    fn catch_up(&mut self) {
        self.inbox.look();
        self.take_in();
    }

    // Passes on those that are known, and then allows more.
    fn take_in(&mut self) {
        let before = self.submitted;
        self.tell_rule();
        if self.submitted > before {
            self.grant();
        }
    }

    fn submit_by_rule(&mut self, work: u64) -> Reply {
        self.submitted += 1;
        let number = self.submitted;
        let id = JobId {
            caller: CALLER,
            number,
        };
        let reply = self.rule.submit(id, work);
        let reply = reply.expect("the only caller counts its submissions");
        match reply {
            Reply::Full | Reply::Closed => {}
            Reply::Queued => self.queue.push_back(Queued { number, work }),
            Reply::Core | Reply::Extra => {
                self.threads += 1;
                self.running += 1;
                let first = self.pick_by_rule();
                self.firsts.extend(first);
            }
        }
        reply
    }

    /// Records that no thread searches any more.
    pub(super) fn end_search(&mut self) {
        self.searching = false;
        self.set_calls();
    }

    /// The first job of a starting thread.
    pub(super) fn first(&mut self) -> Option<Job> {
        self.firsts.pop_front()
    }

    /// Records that a thread couldn't be started. Its first job is then anybody's. The next submission tries again.
    pub(super) fn do_without(&mut self) {
        self.end_grant();
        self.threads -= 1;
        self.missing += 1;
        let first = self.firsts.pop_back();
        self.orphans.extend(first);
    }

    /// Picks the job to run next. If no job waits, that may be the first job of a thread that has yet to start.
    pub(super) fn pick(&mut self) -> Option<Job> {
        self.rule.finish_removed();
        if let Some(orphan) = self.orphans.pop_front() {
            return Some(orphan);
        }
        if self.has_work() {
            let picked = self.pick_by_rule();
            if picked.is_some() {
                self.running += 1;
                return picked;
            }
        }
        self.firsts.pop_front()
    }

    /// Whether there is a job to pick, for a thread without one.
    #[inline]
    pub(super) fn has_work(&mut self) -> bool {
        !self.orphans.is_empty() || (self.waits() && self.running < self.max)
    }

    /// Whether a job waits that may not be picked now, since as many jobs run as the maximum size.
    pub(super) fn holds_back(&mut self) -> bool {
        self.waits() && !self.has_work()
    }

    /// Whether a job waits in the queue.
    #[inline]
    pub(super) fn waits(&mut self) -> bool {
        if self.queue.is_empty() {
            if self.inbox.is_empty() {
                self.inbox.look();
            }
            self.take_in();
        }
        !self.queue.is_empty()
    }

    /// Updates whether a submission calls a sleeping thread, after the number of searching or sleeping threads has changed. Submissions
    /// made before a thread says that it sleeps may call nobody, so it looks for a job once more after this.
    pub(super) fn set_calls(&mut self) {
        let calls = self.asleep > 0 && self.called == 0 && !self.searching;
        self.inbox.set_calls(calls);
    }

    fn pick_by_rule(&mut self) -> Option<Job> {
        let picked = self.rule.pick()?;
        if picked.origin == Origin::Queue {
            let front = self.queue.pop_front();
            debug_assert_eq!(front.map(|job| job.number), Some(picked.id.number));
        }
        // SAFETY: each submission that the rule accepted gave it the number of a task with one share, and it returns each number from
        // just one pick: that is proved. The jobs that were given back were the last in its queue, and are picked by `finish_removed`.
        let work = unsafe { Work::of(picked.work) };
        Some(Job { work, picked })
    }

    /// Finishes a job that was picked.
    pub(super) fn finish(&mut self, picked: &Picked) {
        let finished = self.rule.finish(picked);
        finished.expect("what was picked is finished once");
        self.running -= 1;
        self.joins.count(picked.id.number);
    }

    /// Finishes the job of this number, which was picked at this place.
    pub(super) fn finish_at(&mut self, place: u32, number: u64) {
        let id = JobId {
            caller: CALLER,
            number,
        };
        self.finish(&Picked {
            id,
            work: 0,
            place,
            origin: Origin::Queue,
        });
    }

    /// Takes back all jobs that have no thread. The pool is closed.
    pub(super) fn take_back(&mut self) -> Vec<Work> {
        let mut works = Vec::with_capacity(self.orphans.len() + self.queue.len());
        for orphan in mem::take(&mut self.orphans) {
            self.finish(&orphan.picked);
            works.push(orphan.work);
        }
        for queued in mem::take(&mut self.queue) {
            self.rule.remove(queued.number);
            self.joins.count(queued.number);
            // SAFETY: it waited in the rule's queue with its task's share. The pool is closed, so nothing follows it, and whatever the
            // rule picks from now on was given back and isn't made a `Work` again.
            works.push(unsafe { Work::of(queued.work) });
        }
        self.rule.finish_removed();
        self.end_missing();
        works
    }

    pub(super) fn resize(&mut self, core: u32, max: u32) -> Result<(), PoolError> {
        self.end_grant();
        self.rule.resize(core, max)?;
        (self.core, self.max) = (core as usize, max as usize);
        Ok(())
    }

    pub(super) fn close(&mut self) {
        self.end_grant();
        self.rule.close();
        self.closed = true;
        self.end_missing();
    }

    /// The numbers. A job that was given back counts as finished.
    pub(super) fn numbers(&mut self) -> PoolNumbers {
        self.catch_up();
        self.rule.numbers()
    }

    /// Whether the rule lets an idle worker end after a while: if there are more than the core size and no job waits.
    pub(super) fn is_above_core(&mut self) -> bool {
        self.threads + self.missing > self.core && !self.waits()
    }

    /// Ends an idle worker if the rule allows it, first one without a thread. Returns whether this thread ends.
    pub(super) fn ends_idle(&mut self) -> bool {
        self.catch_up();
        while self.rule.idle_end() {
            if self.missing == 0 {
                return true;
            }
            self.missing -= 1;
        }
        false
    }

    /// Ends an idle worker of a closed pool whose thread ends. If a submitter runs a job in its place, the worker counts as one without a
    /// thread from now on.
    pub(super) fn ends_closed(&mut self) {
        if !self.ends_idle() {
            self.missing += 1;
        }
    }

    /// Ends the idle workers that have no thread, if the rule allows it.
    pub(super) fn end_missing(&mut self) {
        while self.missing > 0 && self.rule.idle_end() {
            self.missing -= 1;
        }
    }

    /// Calls a sleeping thread, and returns whether there was one. The bell wakes it.
    pub(super) fn call_one(&mut self) -> bool {
        let sleeps = self.asleep > 0;
        if sleeps {
            self.asleep -= 1;
            self.called += 1;
            self.set_calls();
        }
        sleeps
    }

    /// Calls all sleeping threads.
    pub(super) fn call_all(&mut self) {
        self.alarms += 1;
        self.held = 0;
    }

    /// Keeps a thread's handle, unless it has ended and nobody is to join it.
    pub(super) fn keep(&mut self, handle: JoinHandle<()>) {
        let id = handle.thread().id();
        match self.early.iter().position(|early| *early == id) {
            Some(index) => drop(self.early.swap_remove(index)),
            None => self.handles.push(handle),
        }
    }

    /// Records that the thread with this id ends. While the pool is open, nobody joins it.
    pub(super) fn leave(&mut self, id: ThreadId) {
        self.threads -= 1;
        if self.closed {
            return;
        }
        match self.handle_of(id) {
            Some(index) => drop(self.handles.swap_remove(index)),
            None => self.early.push(id),
        }
    }

    /// The threads' handles, except the one with this id.
    pub(super) fn take_handles(&mut self, own: Option<ThreadId>) -> Vec<JoinHandle<()>> {
        if let Some(index) = own.and_then(|id| self.handle_of(id)) {
            drop(self.handles.swap_remove(index));
        }
        mem::take(&mut self.handles)
    }

    fn handle_of(&self, id: ThreadId) -> Option<usize> {
        let mut handles = self.handles.iter();
        handles.position(|handle| handle.thread().id() == id)
    }

    /// Begins a join, and returns its id.
    pub(super) fn begin_join(&mut self, caller: Caller) -> u64 {
        self.catch_up();
        let left = self.running + self.queue.len();
        self.joins.begin(caller, self.submitted, left)
    }

    /// Updates which joins are done, and returns whether there are new ones.
    pub(super) fn settle(&mut self) -> bool {
        self.joins.settle(Threads {
            count: self.threads,
            closed: self.closed,
        })
    }
}
