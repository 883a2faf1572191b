//! A call that waits for permits as a task.
use super::Bulkhead;
use super::error::NoPermit;
use super::permit::OwnedPermit;
use super::row::Given;
use super::runs::Runs;
use super::seats::Place;
use crate::observer::WaitEnd;
use std::fmt;
use std::ops::Deref;
use std::pin::Pin;
use std::sync::Arc;
use std::sync::atomic::Ordering;
use std::task::{Context, Poll, Waker};
use std::time::Duration;

/// A call that waits for permits of a bulkhead, which it has by reference or in an `Arc`. Dropping it leaves the queue.
pub(super) struct Wait<B: Deref<Target = Bulkhead>> {
    // None after it is over.
    bulkhead: Option<B>,
    // Its place in the queue: none before the first poll, and after it is over.
    ticket: Option<u64>,
    // When the wait began: none before that, and without an observer.
    since: Option<Duration>,
    most_waiting: usize,
}

impl<B: Deref<Target = Bulkhead>> Wait<B> {
    #[inline]
    pub(super) fn new(bulkhead: B) -> Wait<B> {
        Wait {
            bulkhead: Some(bulkhead),
            ticket: None,
            since: None,
            most_waiting: usize::MAX,
        }
    }

    /// Makes the call not wait if this many already do.
    pub(super) fn set_most_waiting(&mut self, most: usize) {
        self.most_waiting = most;
    }

    /// Polls for one permit.
    #[inline]
    pub(super) fn poll_one(&mut self, waker: &Waker) -> Poll<Result<(B, Place), NoPermit>> {
        let own = self.bulkhead.as_deref();
        let own = own.expect("a permit's future was polled after completion");
        let asked = match self.ticket {
            None => own.ask_one(&mut self.ticket, waker, self.most_waiting),
            Some(ticket) => own.fetch_one(ticket, waker),
        };
        let Some(asked) = asked.transpose() else {
            self.since = self.since.or_else(|| own.now());
            return Poll::Pending;
        };
        self.ticket = None;
        let place = own.told_wait(self.since, asked);
        let own = self.bulkhead.take().expect("it is set until here");
        Poll::Ready(place.map(|place| (own, place)))
    }

    /// Polls for `count` permits.
    pub(super) fn poll_many(
        &mut self,
        count: u32,
        waker: &Waker,
    ) -> Poll<Result<(B, Runs), NoPermit>> {
        let own = self.bulkhead.as_deref();
        let own = own.expect("a future of permits was polled after completion");
        let asked = match self.ticket {
            None => own.ask_many(&mut self.ticket, count, waker, self.most_waiting),
            Some(ticket) => own.fetch(ticket, waker),
        };
        let Some(asked) = asked.transpose() else {
            self.since = self.since.or_else(|| own.now());
            return Poll::Pending;
        };
        self.ticket = None;
        let runs = own.told_wait_all(self.since, asked.map(Given::all));
        let own = self.bulkhead.take().expect("it is set until here");
        Poll::Ready(runs.map(|runs| (own, runs)))
    }

    /// Leaves the queue, and reports that the wait timed out. Polling it after that panics.
    pub(super) fn give_up(&mut self) -> NoPermit {
        if let Some(own) = self.bulkhead.take() {
            if let Some(ticket) = self.ticket.take() {
                own.leave(ticket);
            }
            let _told = own.told_wait(self.since, Err(WaitEnd::TimedOut));
        }
        NoPermit::TimedOut
    }
}

impl<B: Deref<Target = Bulkhead>> Drop for Wait<B> {
    #[inline]
    fn drop(&mut self) {
        if let (Some(own), Some(ticket)) = (&self.bulkhead, self.ticket) {
            own.leave(ticket);
            own.tell_wait(self.since, WaitEnd::Abandoned);
        }
    }
}

impl Bulkhead {
    // Takes a permit if nobody waits, or queues the task.
    #[inline]
    fn ask_one(
        &self,
        ticket: &mut Option<u64>,
        waker: &Waker,
        most_waiting: usize,
    ) -> Result<Option<Place>, WaitEnd> {
        if self.is_closed() {
            return Err(WaitEnd::Closed);
        }
        if self.wanted.load(Ordering::SeqCst) == 0 {
            if let Ok(place) = self.seats.acquire() {
                return Ok(Some(place));
            }
        }
        let given = self.stand(ticket, 1, waker, most_waiting)?;
        Ok(given.and_then(Given::one))
    }

    fn fetch_one(&self, ticket: u64, waker: &Waker) -> Result<Option<Place>, WaitEnd> {
        Ok(self.fetch(ticket, waker)?.and_then(Given::one))
    }
}

/// A future of a permit, or of why there is none. [`Bulkhead::acquire_owned`] returns it.
///
/// You can drop it at any time: it leaves the queue, and if it had been given a permit, that goes to the next waiter.
#[must_use = "a future that isn't polled does nothing"]
pub struct Acquire(Wait<Arc<Bulkhead>>);

impl Acquire {
    #[inline]
    pub(super) fn new(bulkhead: Arc<Bulkhead>) -> Acquire {
        Acquire(Wait::new(bulkhead))
    }

    /// Returns the same future with a bound on waiters: if `most` calls already wait, threads included, it is refused at once with
    /// `Full`.
    ///
    /// ```
    /// # use resil::{Bulkhead, NoPermit};
    /// # use std::sync::Arc;
    /// async fn price(backend: &Arc<Bulkhead>) -> Result<u32, NoPermit> {
    ///     let _permit = backend.acquire_owned().most_waiting(100).await?;
    ///     Ok(42)
    /// }
    /// ```
    pub fn most_waiting(mut self, most: usize) -> Acquire {
        self.0.set_most_waiting(most);
        self
    }

    /// Leaves the queue as a drop does, and reports to the bulkhead's observer that the wait timed out. For the crate resil-tower.
    ///
    /// Polling it after that panics.
    #[doc(hidden)]
    pub fn give_up(&mut self) -> NoPermit {
        self.0.give_up()
    }
}

impl Future for Acquire {
    type Output = Result<OwnedPermit, NoPermit>;

    /// # Panics
    ///
    /// If it is polled again after it was ready.
    #[inline]
    fn poll(mut self: Pin<&mut Self>, context: &mut Context<'_>) -> Poll<Self::Output> {
        let permit = self.0.poll_one(context.waker());
        permit.map_ok(|(own, place)| OwnedPermit::new(own, place))
    }
}

impl<B: Deref<Target = Bulkhead>> fmt::Debug for Wait<B> {
    fn fmt(&self, f: &mut fmt::Formatter<'_>) -> fmt::Result {
        f.debug_struct("Wait")
            .field("bulkhead", &self.bulkhead.as_deref())
            .finish_non_exhaustive()
    }
}

impl fmt::Debug for Acquire {
    fn fmt(&self, f: &mut fmt::Formatter<'_>) -> fmt::Result {
        f.debug_tuple("Acquire").field(&self.0).finish()
    }
}
