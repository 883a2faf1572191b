//! Several permits at a time, all or none.
use super::Bulkhead;
use super::error::NoPermit;
use super::observed::HeldAll;
use super::row::{Given, SLICE};
use super::runs::Runs;
use super::wait::Wait;
use crate::lock::locked;
use crate::observer::WaitEnd;
use std::fmt;
use std::mem;
use std::ops::Deref;
use std::pin::Pin;
use std::ptr;
use std::sync::atomic::Ordering;
use std::sync::{Arc, MutexGuard};
use std::task::{Context, Poll, Wake, Waker};
use std::thread::{self, Thread};
use std::time::{Duration, Instant};

/// Several permits at a time. An observer hears of each permit, and once of the wait for all of them.
impl Bulkhead {
    /// Takes `count` permits at once, or none. Dropping them gives them all back; you can also [split](Permits::split) them and give
    /// parts back.
    ///
    /// Each permit costs as much as one taken by [`enter`](Bulkhead::enter), since the proved permits are taken one by one: taking and
    /// giving back 65,535 takes about 2 ms. So take only a few. During the search the call holds what it has found, so others may be
    /// refused for a moment.
    ///
    /// # Errors
    ///
    /// `Closed` if the bulkhead is closed; `Full` if fewer than `count` permits are free.
    ///
    /// ```
    /// # let backend = resil::Bulkhead::new("backend", 3)?;
    /// let mut permits = backend.enter_many(3)?;
    /// drop(permits.split(1));
    /// assert_eq!((permits.count(), backend.available()), (2, 1));
    /// # Ok::<(), Box<dyn std::error::Error>>(())
    /// ```
    pub fn enter_many(&self, count: u32) -> Result<Permits<'_>, NoPermit> {
        let runs = self.enter_runs(count)?;
        Ok(Permits(Bundle::new(self, runs)))
    }

    /// Takes `count` permits that keep the bulkhead alive, as [`enter_many`](Bulkhead::enter_many) does.
    ///
    /// # Errors
    ///
    /// Those of [`enter_many`](Bulkhead::enter_many).
    pub fn enter_many_owned(self: &Arc<Self>, count: u32) -> Result<OwnedPermits, NoPermit> {
        let runs = self.enter_runs(count)?;
        Ok(OwnedPermits(Bundle::new(Arc::clone(self), runs)))
    }

    /// Takes `count` permits, blocking this thread for at most `limit` until it has them. `Duration::MAX` waits without a limit. The call
    /// waits in the same queue as [`acquire_many_owned`](Bulkhead::acquire_many_owned) does.
    ///
    /// # Errors
    ///
    /// `Closed` if the bulkhead is closed, before or during the wait; `Full`, at once, if it has fewer permits than `count`, in use or
    /// not, or if the limit is zero and fewer are free; `TimedOut` if it doesn't have them by the limit.
    pub fn enter_many_within(&self, count: u32, limit: Duration) -> Result<Permits<'_>, NoPermit> {
        let runs = if limit.is_zero() {
            let taken = self.take_many(count, locked(&self.alone));
            self.told_wait_all(None, taken)?
        } else {
            self.wait_many_within(count, limit)?
        };
        Ok(Permits(Bundle::new(self, runs)))
    }

    /// Returns a future of `count` permits that keep the bulkhead alive, all or none; [`acquire_owned`](Bulkhead::acquire_owned) does the
    /// same for one. Dropping the permits gives them all back; you can also [split](OwnedPermits::split) them and give parts back.
    ///
    /// The future waits in the same queue. While it is first, it gathers the permits that are given back, and nobody after it gets one
    /// until it has them all. So callers that want few permits don't starve it, and it doesn't starve callers that came earlier. If you
    /// drop it while it waits, it gives back what it has gathered. Two tasks that hold permits and both await more may wait for each
    /// other for ever. A call for more permits than are in use waits for a [`raise`](Bulkhead::raise), and so does everyone after it.
    ///
    /// Joining and leaving the queue takes microseconds, regardless of `count`. Each permit costs as much as one taken by
    /// [`enter`](Bulkhead::enter); if many are free, each poll takes a few hundred.
    ///
    /// **The future's output is a `Result`: write `?`, or the call runs without permits once the bulkhead is closed.**
    ///
    /// ```
    /// # use resil::{Bulkhead, NoPermit};
    /// # use std::sync::Arc;
    /// async fn batch(backend: &Arc<Bulkhead>) -> Result<(), NoPermit> {
    ///     let _permits = backend.acquire_many_owned(3).await?;
    ///     Ok(())
    /// }
    /// ```
    pub fn acquire_many_owned(self: &Arc<Self>, count: u32) -> AcquireMany {
        let wait = Wait::new(Arc::clone(self));
        AcquireMany { wait, count }
    }

    /// The name that [`acquire_many_owned`](Bulkhead::acquire_many_owned) had in 0.5.0, when its output was a `Vec`.
    #[deprecated(since = "0.6.0", note = "write `acquire_many_owned`")]
    pub fn acquire_many(self: &Arc<Self>, count: u32) -> AcquireMany {
        self.acquire_many_owned(count)
    }

    fn enter_runs(&self, count: u32) -> Result<Runs, NoPermit> {
        let taken = self.take_many(count, locked(&self.alone));
        self.told_all(taken.map_err(NoPermit::from))
    }

    // Takes `count` permits one by one, or gives all back. Only one caller does so at a time, so that two don't refuse each other.
    fn take_many(&self, count: u32, alone: MutexGuard<'_, ()>) -> Result<Runs, WaitEnd> {
        // If some are missing, the others are given back outside the lock.
        let mut held = HeldAll(self, Runs::default());
        let _alone = alone;
        if self.is_closed() {
            return Err(WaitEnd::Closed);
        }
        if count > self.available() {
            return Err(WaitEnd::Full);
        }
        while held.1.count() < count {
            let slice = (count - held.1.count()).min(SLICE);
            let run = self.seats.acquire_run(slice);
            held.1.push(run.ok_or(WaitEnd::Full)?);
        }
        Ok(held.keep())
    }

    /// Takes `count` permits if nobody waits, or puts a task into the queue.
    pub(super) fn ask_many(
        &self,
        ticket: &mut Option<u64>,
        count: u32,
        waker: &Waker,
        most_waiting: usize,
    ) -> Result<Option<Given>, WaitEnd> {
        if self.is_closed() {
            return Err(WaitEnd::Closed);
        }
        if count == 0 {
            return Ok(Some(Given::Many(Runs::default())));
        }
        if self.wanted.load(Ordering::SeqCst) == 0 {
            if let Ok(alone) = self.alone.try_lock() {
                if let Ok(runs) = self.take_many(count, alone) {
                    return Ok(Some(Given::Many(runs)));
                }
            }
        }
        self.stand(ticket, count, waker, most_waiting)
    }

    fn wait_many_within(&self, count: u32, limit: Duration) -> Result<Runs, NoPermit> {
        let deadline = Instant::now().checked_add(limit);
        let waker = Waker::from(Arc::new(Unparks(thread::current())));
        let mut wait = Wait::new(self);
        loop {
            if let Poll::Ready(permits) = wait.poll_many(count, &waker) {
                return permits.map(|(_, runs)| runs);
            }
            let left = deadline.map(|end| end.saturating_duration_since(Instant::now()));
            match left {
                Some(Duration::ZERO) => return Err(wait.give_up()),
                Some(left) => thread::park_timeout(left),
                None => thread::park(),
            }
        }
    }
}

/// Wakes a thread that waits the way a task does.
struct Unparks(Thread);

impl Wake for Unparks {
    fn wake(self: Arc<Self>) {
        self.0.unpark();
    }
}

/// Permits that were taken together, and the bulkhead, by reference or in an `Arc`.
struct Bundle<B: Deref<Target = Bulkhead>> {
    bulkhead: B,
    runs: Runs,
}

impl<B: Deref<Target = Bulkhead> + Clone> Bundle<B> {
    fn new(bulkhead: B, runs: Runs) -> Bundle<B> {
        Bundle { bulkhead, runs }
    }

    fn split(&mut self, count: u32) -> Option<Bundle<B>> {
        if count > self.runs.count() {
            return None;
        }
        let parts = self.runs.split(count);
        Some(Bundle::new(self.bulkhead.clone(), parts))
    }

    #[track_caller]
    fn merge(&mut self, mut others: Bundle<B>) {
        assert!(
            ptr::eq::<Bulkhead>(&raw const *self.bulkhead, &raw const *others.bulkhead),
            "permits of two bulkheads aren't merged"
        );
        self.runs.merge(mem::take(&mut others.runs));
    }
}

impl<B: Deref<Target = Bulkhead>> Drop for Bundle<B> {
    fn drop(&mut self) {
        self.bulkhead.give_back_all(mem::take(&mut self.runs));
    }
}

// What both kinds of permits have in common.
macro_rules! permits {
    ($permits:ident) => {
        /// The number of permits.
        #[must_use]
        pub fn count(&self) -> u32 {
            self.0.runs.count()
        }

        /// Splits off `count` permits, which are given back on their own. Returns `None` if there are fewer.
        ///
        /// ```
        /// # let backend = resil::Bulkhead::new("backend", 3)?;
        /// let mut permits = backend.enter_many(3)?;
        /// let one = permits.split(1);
        /// drop(permits);
        /// assert!(one.is_some() && backend.available() == 2);
        /// # Ok::<(), Box<dyn std::error::Error>>(())
        /// ```
        #[must_use = "permits that are dropped are given back at once"]
        pub fn split(&mut self, count: u32) -> Option<Self> {
            self.0.split(count).map($permits)
        }

        /// Adds these permits, so that they are given back together with its own.
        ///
        /// # Panics
        ///
        /// If they are of another bulkhead. They are given back in that case.
        ///
        /// ```
        /// # let backend = resil::Bulkhead::new("backend", 3)?;
        /// let mut permits = backend.enter_many(2)?;
        /// permits.merge(backend.enter_many(1)?);
        /// assert_eq!(permits.count(), 3);
        /// # Ok::<(), Box<dyn std::error::Error>>(())
        /// ```
        #[track_caller]
        pub fn merge(&mut self, others: Self) {
            self.0.merge(others.0);
        }
    };
}

/// Permits of a [`Bulkhead`] that were taken together by [`Bulkhead::enter_many`], given back when they are dropped.
///
/// As with a single permit, rustc warns if they are dropped at once:
///
/// ```compile_fail
/// #![deny(unused_must_use)]
/// let backend = resil::Bulkhead::new("backend", 2).unwrap();
/// backend.enter_many(2).unwrap();
/// ```
#[must_use = "permits that are dropped are given back at once"]
pub struct Permits<'a>(Bundle<&'a Bulkhead>);

impl Permits<'_> {
    permits!(Permits);
}

/// Like [`Permits`], but they keep their [`Bulkhead`] alive. [`Bulkhead::acquire_many_owned`] returns them.
#[must_use = "permits that are dropped are given back at once"]
pub struct OwnedPermits(Bundle<Arc<Bulkhead>>);

impl OwnedPermits {
    permits!(OwnedPermits);

    /// Drops the permits without giving them back: they count as held for good, but don't keep the bulkhead alive.
    pub fn forget(mut self) {
        let runs = mem::take(&mut self.0.runs);
        self.0.bulkhead.seats.forget_all(&runs);
    }
}

impl fmt::Debug for Permits<'_> {
    fn fmt(&self, f: &mut fmt::Formatter<'_>) -> fmt::Result {
        show("Permits", self.count(), self.0.bulkhead, f)
    }
}

impl fmt::Debug for OwnedPermits {
    fn fmt(&self, f: &mut fmt::Formatter<'_>) -> fmt::Result {
        show("OwnedPermits", self.count(), &self.0.bulkhead, f)
    }
}

fn show(name: &str, count: u32, own: &Bulkhead, f: &mut fmt::Formatter<'_>) -> fmt::Result {
    let mut shown = f.debug_struct(name);
    shown.field("count", &count).field("bulkhead", own).finish()
}

/// A future of several permits, or of why there are none. [`Bulkhead::acquire_many_owned`] returns it.
///
/// You can drop it at any time, as an [`Acquire`](crate::Acquire).
#[must_use = "a future that isn't polled does nothing"]
#[derive(Debug)]
pub struct AcquireMany {
    wait: Wait<Arc<Bulkhead>>,
    count: u32,
}

impl AcquireMany {
    /// Returns the same future with a bound on waiters: if `most` calls already wait, threads included, it is refused at once with
    /// `Full`.
    pub fn most_waiting(mut self, most: usize) -> AcquireMany {
        self.wait.set_most_waiting(most);
        self
    }
}

impl Future for AcquireMany {
    /// The permits, or an error. In this order: `Closed` if the bulkhead is closed; `Full` if it has fewer permits, in use or not, or if
    /// [as many calls already wait](AcquireMany::most_waiting) as may wait.
    type Output = Result<OwnedPermits, NoPermit>;

    /// # Panics
    ///
    /// If it is polled again after it was ready.
    fn poll(mut self: Pin<&mut Self>, context: &mut Context<'_>) -> Poll<Self::Output> {
        let AcquireMany { wait, count } = &mut *self;
        let permits = wait.poll_many(*count, context.waker());
        permits.map_ok(|(own, runs)| OwnedPermits(Bundle::new(own, runs)))
    }
}
