//! A thread's life: how it finds jobs, runs them, sleeps and ends.
//!
//! A queued submission calls a sleeping thread, if there is one. A thread that finds no job keeps searching for a moment, one thread at a
//! time, and then sleeps. Submissions made meanwhile wake nobody; the thread that finds one calls the next if there are more.
use super::book::Job;
use super::crew::{Crew, Guard};
use super::inside::{self, Running};
use super::patience;
use super::task::{HandOut, Worker};
use crate::lock::sleep;
use crate::rule::Picked;
use std::sync::atomic::Ordering;
use std::thread;
use std::time::Instant;

/// What a thread does next.
enum Next {
    Run(Job),
    /// The inbox's next place when the search began.
    Search(u64),
    Sleep,
    End,
}

impl Crew {
    /// Works until the pool is closed and no job is left, or until an idle thread may end.
    pub(super) fn work(&self) {
        inside::begin();
        let mut book = self.lock();
        let mut next = match book.first() {
            Some(job) => Next::Run(job),
            None => self.next(&mut book),
        };
        drop(book);
        loop {
            next = match next {
                Next::Run(job) => self.run(job),
                Next::Search(taken) => self.search(taken),
                Next::Sleep => self.sleep(self.lock_at_door()),
                Next::End => return,
            };
        }
    }

    // Runs and finishes a job, and picks the next one under the same lock.
    fn run(&self, job: Job) -> Next {
        let running = Running::new(self, job.picked.id.number, true);
        let mut member = Member {
            crew: self,
            running: &running,
            picked: job.picked,
            next: None,
        };
        running.around(|| job.work.run(&mut member));
        member.tell();
        member.next.unwrap_or(Next::Sleep)
    }

    fn next(&self, book: &mut Guard<'_>) -> Next {
        if let Some(job) = self.pick(book) {
            return Next::Run(job);
        }
        if book.searching || book.closed || book.holds_back() {
            return Next::Sleep;
        }
        book.searching = true;
        self.found.store(false, Ordering::Relaxed);
        book.set_calls();
        Next::Search(book.inbox.taken)
    }

    // Checks for a moment whether something is submitted.
    fn search(&self, taken: u64) -> Next {
        // A thread that sleeps at a door may have a job for this one.
        self.submitters.call_in();
        self.workers.call_in();
        patience::looks(None, || {
            self.ring.has_more(taken) || self.found.load(Ordering::Relaxed)
        });
        let mut book = self.lock();
        book.end_search();
        self.sleep(book)
    }

    // Sleeps until there is a job, or until this thread is to end.
    fn sleep(&self, mut book: Guard<'_>) -> Next {
        loop {
            if let Some(job) = self.pick(&mut book) {
                self.call(book);
                return Next::Run(job);
            }
            if book.closed && !book.holds_back() {
                book.ends_closed();
                return self.end(book);
            }
            let called;
            (book, called) = self.wait(book);
            if called {
                // If the call came too late, the next job may come soon.
                let next = self.next(&mut book);
                self.call(book);
                return next;
            }
            if book.ends_idle() {
                return self.end(book);
            }
        }
    }

    fn end(&self, mut book: Guard<'_>) -> Next {
        book.leave(thread::current().id());
        self.settle(&mut book);
        Next::End
    }

    // Waits until this thread is called or the keep-alive is over, and returns whether it was called. A thread that holds back is called
    // once the queue is empty or the sizes have changed.
    fn wait<'a>(&self, mut book: Guard<'a>) -> (Guard<'a>, bool) {
        book.asleep += 1;
        book.set_calls();
        if book.has_work() {
            book.asleep -= 1;
            book.set_calls();
            return (book, true);
        }
        let deadline = if book.is_above_core() {
            Instant::now().checked_add(self.kind.keep_alive)
        } else {
            None
        };
        let (alarms, holds) = (book.alarms, usize::from(book.holds_back()));
        book.held += holds;
        let called = loop {
            if book.called > 0 {
                book.called -= 1;
                break true;
            }
            let left = deadline.map(|end| end.saturating_duration_since(Instant::now()));
            if book.alarms != alarms || left.is_some_and(|left| left.is_zero()) {
                book.asleep -= 1;
                break book.alarms != alarms;
            }
            book = sleep(&self.bell, book, left);
        };
        if book.alarms == alarms {
            book.held -= holds;
        }
        book.set_calls();
        book.begin_turn(self.now());
        (book, called)
    }
}

/// A thread of the crew that runs a job.
struct Member<'a> {
    crew: &'a Crew,
    running: &'a Running,
    picked: Picked,
    // None until it has had the lock after the job.
    next: Option<Next>,
}

impl Worker for Member<'_> {
    fn end(&mut self, out: &mut HandOut<'_>) {
        self.running.is_finished();
        if let Some(mut book) = self.crew.lock_to_end() {
            self.crew.finish(&self.picked, out, &mut book);
            self.next = Some(self.crew.next(&mut book));
        } else {
            self.crew.ends.end(&self.picked, || out.hand_out());
        }
    }

    fn tell(&mut self) {
        if self.next.is_none() {
            let mut book = self.crew.lock_at_door();
            self.next = Some(self.crew.next(&mut book));
        }
    }

    // A thread that does other things must not be the one that searches.
    fn before_drop(&mut self) {
        self.tell();
        if let Some(Next::Search(_)) = self.next {
            let mut book = self.crew.lock();
            book.end_search();
            self.next = Some(Next::Sleep);
            self.crew.call(book);
        }
    }
}
