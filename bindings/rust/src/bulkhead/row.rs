//! The callers that wait for a permit: tasks, in a queue, and sleeping threads.
//!
//! A caller that gives a permit back checks whether anyone waits. If so, it passes the permit to the first task in the queue (and a task
//! that is dropped gives it back), or it wakes a thread, which then tries for itself; tasks and threads take turns. If nobody waited, it
//! checks again once the permit is free, and takes one for a task that has come meanwhile. A thread that leaves hands on whatever else is
//! free, since it may have been woken for more than one permit.
//!
//! A call for several permits has one place in the queue. While it is first, it gathers what is given back and what is free. It takes at
//! most a [slice](SLICE) at a time, so that the gate is held for a few microseconds regardless of how many it wants; after a full slice
//! it is woken, and continues in its own polls. Meanwhile it has no waker, and nobody else takes free permits for it. So it hands on to
//! those after it once it has all, or when it leaves.
use super::Bulkhead;
use super::observed::HeldAll;
use super::runs::{Run, Runs};
use super::seats::Place;
use super::tickets::Tickets;
use crate::lock::locked;
use crate::observer::WaitEnd;
use std::collections::BTreeMap;
use std::iter;
use std::mem;
use std::panic::{AssertUnwindSafe, catch_unwind, resume_unwind};
use std::sync::MutexGuard;
use std::sync::atomic::Ordering;
use std::task::Waker;

/// How many permits are taken or given back at a time under a lock.
pub(super) const SLICE: u32 = 256;

/// The state under the gate's lock.
#[derive(Default)]
pub(super) struct Row {
    // By ticket, so in order of arrival: who waits for permits, and what was given to whom and not fetched yet.
    waiting: Tickets<Waiting>,
    given: BTreeMap<u64, Given>,
    tickets: u64,
    /// The retired permits, each at the place where it was held or taken. A thread whose seat holds one uses a spare pass meanwhile.
    pub(super) retired: Vec<Place>,
    /// How many permits are still to be retired when they are given back. They count as wanted.
    pub(super) owed: u32,
    /// How many were owed and never come back.
    pub(super) written_off: u32,
    /// How many threads wait.
    pub(super) threads: usize,
    // Whether it is a thread's turn if tasks wait too.
    is_threads_turn: bool,
}

/// A task in the queue.
pub(super) struct Waiting {
    // None while it continues gathering in its own polls.
    waker: Option<Waker>,
    // Set if it waits for several.
    many: Option<Box<Gathered>>,
}

/// What a call for several permits has so far.
struct Gathered {
    missing: u32,
    runs: Runs,
}

impl Gathered {
    fn add(&mut self, run: Run) {
        self.missing -= run.count;
        self.runs.push(run);
    }
}

/// What a task was given.
pub(super) enum Given {
    One(Place),
    Many(Runs),
}

impl Given {
    /// The permit of a task that waits for one.
    pub(super) fn one(self) -> Option<Place> {
        match self {
            Given::One(place) => Some(place),
            Given::Many(_) => None,
        }
    }

    /// All the permits given.
    pub(super) fn all(self) -> Runs {
        match self {
            Given::Many(runs) => runs,
            Given::One(place) => {
                let mut runs = Runs::default();
                runs.push(Run { place, count: 1 });
                runs
            }
        }
    }
}

impl Row {
    // Puts a task at the end of the queue, and returns its ticket.
    fn push(&mut self, count: u32, waker: Waker) -> u64 {
        self.tickets += 1;
        let gathered = || {
            Box::new(Gathered {
                missing: count,
                runs: Runs::default(),
            })
        };
        let waiting = Waiting {
            waker: Some(waker),
            many: (count > 1).then(gathered),
        };
        self.waiting.push(self.tickets, waiting);
        self.tickets
    }

    /// The number of retired permits.
    pub(super) fn retired(&self) -> u32 {
        u32::try_from(self.retired.len()).unwrap_or(u32::MAX)
    }

    /// Removes all waiters: a ticket that isn't found belongs to a closed bulkhead.
    pub(super) fn dismiss(&mut self) -> Vec<Waiting> {
        mem::take(&mut self.waiting).into_values().collect()
    }
}

/// Wakes all of them, even if a waker panics; then it panics itself.
pub(super) fn wake_all(wakers: impl IntoIterator<Item = Waker>) {
    let mut panicked = None;
    for waker in wakers {
        if let Err(payload) = catch_unwind(AssertUnwindSafe(|| waker.wake())) {
            // Dropping a payload may panic again.
            mem::forget(panicked.replace(payload));
        }
    }
    if let Some(payload) = panicked {
        resume_unwind(payload);
    }
}

impl Bulkhead {
    /// Gives back a permit while some are wanted.
    #[cold]
    pub(super) fn release_wanted(&self, place: Place) {
        wake_all(self.put_back(place));
    }

    /// Serves the next waiter after a permit was given back.
    #[cold]
    pub(super) fn wake(&self) {
        wake_all(self.see_to_next());
    }

    // Gives back a permit while some are wanted, and returns the waker of the task that gets it.
    fn put_back(&self, place: Place) -> Option<Waker> {
        match self.pass_on(place) {
            Ok(waker) => waker,
            Err(place) => {
                self.seats.release(place);
                let is_wanted = self.wanted.load(Ordering::SeqCst) > 0;
                is_wanted.then(|| self.see_to_next()).flatten()
            }
        }
    }

    // Returns the waker of the next waiter if it is a task's turn. A waiting thread holds the gate from its try to its sleep.
    fn see_to_next(&self) -> Option<Waker> {
        let mut row = locked(&self.gate);
        self.pay(&mut row);
        if row.threads > 0 && (row.is_threads_turn || row.waiting.is_empty()) {
            row.is_threads_turn = false;
            drop(row);
            self.freed.notify_one();
            return None;
        }
        row.is_threads_turn = true;
        self.hand_on(&mut row)
    }

    // Retires a permit if one is owed, or passes it to the first task if it is a task's turn, and returns that task's waker. Otherwise it
    // returns the permit.
    fn pass_on(&self, place: Place) -> Result<Option<Waker>, Place> {
        let mut row = locked(&self.gate);
        if row.owed > 0 {
            self.cancel(&mut row, 1);
            row.retired.push(place);
            return Ok(None);
        }
        if row.waiting.is_empty() || row.threads > 0 && row.is_threads_turn {
            return Err(place);
        }
        row.is_threads_turn = true;
        Ok(self.give(&mut row, Run { place, count: 1 }))
    }

    /// Gives back all these permits, and then wakes the tasks that got them.
    pub(super) fn put_back_all(&self, mut runs: Runs) {
        let mut wakers = Vec::new();
        while let Some(run) = runs.pop(SLICE) {
            if self.wanted.load(Ordering::SeqCst) > 0 {
                // Each is passed on separately.
                let one = |_| self.put_back(run.place);
                wakers.extend((0..run.count).filter_map(one));
                continue;
            }
            self.seats.release_run(run);
            if self.wanted.load(Ordering::SeqCst) > 0 {
                wakers.extend(self.hand_on_all(&mut locked(&self.gate)));
                self.freed.notify_all();
            }
        }
        wake_all(wakers);
    }

    /// Takes free permits for the first task. Returns its waker once it has all it waits for, or when it is to continue by itself.
    pub(super) fn hand_on(&self, row: &mut Row) -> Option<Waker> {
        self.pay(row);
        let (_, first) = row.waiting.first_mut()?;
        let run = match &first.many {
            None => {
                let place = self.seats.acquire().ok()?;
                Run { place, count: 1 }
            }
            Some(_) if first.waker.is_none() => return None,
            Some(many) => self.seats.acquire_run(many.missing.min(SLICE))?,
        };
        let waker = self.give(row, run);
        if waker.is_none() && run.count == SLICE {
            // There may be more.
            let (_, first) = row.waiting.first_mut()?;
            return first.waker.take();
        }
        waker
    }

    /// Hands on free permits to as many tasks as they are enough for.
    pub(super) fn hand_on_all(&self, row: &mut Row) -> Vec<Waker> {
        iter::from_fn(|| self.hand_on(row)).collect()
    }

    /// The number of waiting threads and tasks.
    pub(super) fn waiting(&self, row: &Row) -> usize {
        self.wanted.load(Ordering::SeqCst) - row.owed as usize
    }

    // Gives permits to the first task, at most as many as it waits for, and returns its waker if it has all.
    fn give(&self, row: &mut Row, run: Run) -> Option<Waker> {
        let (_, first) = row.waiting.first_mut()?;
        if let Some(many) = &mut first.many {
            many.add(run);
            if many.missing > 0 {
                return None;
            }
        }
        let (ticket, first) = row.waiting.pop_first()?;
        let given = match first.many {
            None => Given::One(run.place),
            Some(many) => Given::Many(many.runs),
        };
        row.given.insert(ticket, given);
        self.wanted.fetch_sub(1, Ordering::SeqCst);
        first.waker
    }

    /// Queues a task for `count` permits (at least one), unless too many wait, and returns the permits if it has them all already, as the
    /// first in the queue may. Nobody overtakes queued tasks.
    pub(super) fn stand(
        &self,
        ticket: &mut Option<u64>,
        count: u32,
        waker: &Waker,
        most_waiting: usize,
    ) -> Result<Option<Given>, WaitEnd> {
        // Wakers are made and dropped outside the lock.
        let waker = waker.clone();
        let mut row = locked(&self.gate);
        if self.is_closed() {
            return Err(WaitEnd::Closed);
        }
        if count > self.max {
            return Err(WaitEnd::Full);
        }
        let is_full = self.waiting(&row) >= most_waiting;
        let is_first = row.waiting.is_empty();
        self.wanted.fetch_add(1, Ordering::SeqCst);
        let own = row.push(count, waker);
        *ticket = Some(own);
        let woken = is_first.then(|| self.hand_on(&mut row)).flatten();
        let given = row.given.remove(&own);
        drop(row);
        if given.is_some() {
            return Ok(given);
        }
        if is_full {
            drop(woken);
            self.leave(own);
            *ticket = None;
            return Err(WaitEnd::QueueFull);
        }
        wake_all(woken);
        Ok(None)
    }

    /// Fetches everything that a task waits for, once it was given. Otherwise `waker` is the one to wake from now on.
    pub(super) fn fetch(&self, ticket: u64, waker: &Waker) -> Result<Option<Given>, WaitEnd> {
        // As in `stand`.
        let mut new = None;
        loop {
            let mut row = locked(&self.gate);
            let given = row.given.remove(&ticket);
            if given.is_some() {
                return Ok(given);
            }
            let Some(own) = row.waiting.get_mut(ticket) else {
                return Err(WaitEnd::Closed);
            };
            if own.waker.as_ref().is_some_and(|old| old.will_wake(waker)) {
                return Ok(None);
            }
            if new.is_some() {
                mem::swap(&mut own.waker, &mut new);
                if new.is_some() {
                    return Ok(None);
                }
                return Ok(self.go_on(row, ticket));
            }
            drop(row);
            new = Some(waker.clone());
        }
    }

    // Gathers more for the first task, which calls this itself, and returns all once it has all. What is left goes to those after it.
    fn go_on(&self, mut row: MutexGuard<'_, Row>, ticket: u64) -> Option<Given> {
        let own = self.hand_on(&mut row);
        let given = row.given.remove(&ticket);
        let Some(given) = given else {
            drop(row);
            wake_all(own);
            return None;
        };
        let behind = self.hand_on_all(&mut row);
        drop(row);
        // Given back if a waker panics.
        let held = HeldAll(self, given.all());
        wake_all(behind);
        Some(Given::Many(held.keep()))
    }

    /// Leaves the queue, and gives back what this ticket was given.
    pub(super) fn leave(&self, ticket: u64) {
        let mut row = locked(&self.gate);
        let gone = row.waiting.remove(ticket);
        let given = row.given.remove(&ticket);
        self.wanted
            .fetch_sub(usize::from(gone.is_some()), Ordering::SeqCst);
        drop(row);
        match given {
            Some(Given::One(place)) => self.release(place),
            Some(Given::Many(runs)) => self.put_back_all(runs),
            None => {}
        }
        if let Some(many) = gone.and_then(|gone| gone.many) {
            self.put_back_all(many.runs);
            // It may have left permits free for others.
            let woken = self.hand_on_all(&mut locked(&self.gate));
            wake_all(woken);
        }
    }

    /// Dismisses the waiters of a closed bulkhead: gives back what they have gathered, and wakes them.
    pub(super) fn dismiss(&self, dismissed: Vec<Waiting>) {
        let mut wakers = Vec::new();
        for Waiting { waker, many } in dismissed {
            wakers.extend(waker);
            if let Some(many) = many {
                self.put_back_all(many.runs);
            }
        }
        wake_all(wakers);
    }
}
