//! A bulkhead that threads share by reference or in an `Arc`.
mod call;
mod error;
mod many;
mod observed;
mod operator;
mod permit;
mod row;
mod runs;
mod seats;
mod tickets;
mod wait;

use crate::lock::{locked, sleep};
use crate::observer::{Observer, WaitEnd, Watch};
use crate::pass::Pass;
use observed::Held;
use row::{Row, wake_all};
use seats::{Place, Seats};
use std::fmt;
use std::sync::atomic::{AtomicBool, AtomicUsize, Ordering};
use std::sync::{Arc, Condvar, Mutex, MutexGuard};
use std::time::{Duration, Instant};

pub use error::{BulkheadError, NoPermit};
pub use many::{AcquireMany, OwnedPermits, Permits};
pub use permit::{OwnedPermit, Permit};
pub use wait::Acquire;

/// The longest name, in bytes.
const MAX_NAME_LEN: usize = 64;

/// A named limit on concurrent calls to one dependency: each call holds a permit.
///
/// For users of tokio's `Semaphore`:
///
/// | tokio's | this crate's |
/// |---|---|
/// | `try_acquire`, `try_acquire_owned` | [`enter`](Bulkhead::enter), [`enter_owned`](Bulkhead::enter_owned) |
/// | `acquire`, `acquire_owned` | [`acquire_owned`](Bulkhead::acquire_owned); threads block in [`enter_within`](Bulkhead::enter_within) |
/// | `try_acquire_many`, `acquire_many_owned` | [`enter_many_owned`](Bulkhead::enter_many_owned), [`acquire_many_owned`](Bulkhead::acquire_many_owned), with `split` and `merge` as in tokio; meant for a few permits, since each costs as much as a single one |
/// | `forget` of a permit | [`OwnedPermit::forget`] |
/// | `forget_permits`, `add_permits` | [`retire`](Bulkhead::retire), or [`shrink`](Bulkhead::shrink) while others wait, and [`raise`](Bulkhead::raise) up to the number it was made with |
/// | `available_permits` | [`available`](Bulkhead::available) |
/// | `close`, `is_closed` | [`close`](Bulkhead::close), [`is_closed`](Bulkhead::is_closed) |
///
/// ```
/// use resil::{Bulkhead, Full};
///
/// let backend = Bulkhead::new("backend", 1)?;
/// assert_eq!(backend.call(|| backend.call(|| 42)), Ok(Err(Full)));
/// assert_eq!(backend.call(|| 42), Ok(42));
/// # Ok::<(), resil::BulkheadError>(())
/// ```
pub struct Bulkhead {
    name: String,
    max: u32,
    seats: Seats,
    // Reads how many permits are free.
    watch: Mutex<Pass>,
    // The number of waiting threads and tasks plus the number of owed permits. The library's operations on permits are sequentially
    // consistent, and so are those on this number: a waiter counts itself before it looks for a permit, and a caller that gives a permit
    // back reads the number afterwards. So one of the two sees the other.
    wanted: AtomicUsize,
    gate: Mutex<Row>,
    freed: Condvar,
    // Serializes callers that take several permits.
    alone: Mutex<()>,
    // Set to true under the gate's lock.
    is_closed: AtomicBool,
    // None if nobody observes it: then no operation on a seat reads this.
    observer: Option<Box<Watch>>,
}

impl Bulkhead {
    /// Makes a bulkhead of this name with `max` permits, all free.
    ///
    /// # Errors
    ///
    /// In this order: `BadName` if the name isn't 1 to 64 bytes of ASCII letters, digits, `-`, `_` and `.`; `TooManyPermits` if `max` is
    /// above 65,535; `Memory` if out of memory for the library's permits or their seats. The name is allocated as usual in Rust: the
    /// process aborts if there is no memory for it.
    ///
    /// ```
    /// let backend = resil::Bulkhead::new("backend", 25)?;
    /// assert_eq!(backend.available(), 25);
    /// assert!(resil::Bulkhead::new("no blanks", 25).is_err());
    /// # Ok::<(), Box<dyn std::error::Error>>(())
    /// ```
    pub fn new(name: impl Into<String>, max: u32) -> Result<Bulkhead, BulkheadError> {
        let name = name.into();
        if !is_name(&name) {
            return Err(BulkheadError::BadName);
        }
        let mut first = Pass::new(max)?;
        Ok(Bulkhead {
            name,
            max,
            seats: Seats::new(&mut first)?,
            watch: Mutex::new(first),
            wanted: AtomicUsize::new(0),
            gate: Mutex::default(),
            freed: Condvar::new(),
            alone: Mutex::default(),
            is_closed: AtomicBool::new(false),
            observer: None,
        })
    }

    /// Returns the same bulkhead, which reports its calls to this observer: each permit taken, by any method, each permit given back, and
    /// each refusal. It replaces an earlier observer.
    #[must_use]
    pub fn observed(mut self, observer: Arc<dyn Observer>) -> Bulkhead {
        let own = observer.of_bulkhead(&self.name);
        if self.observer.is_none() {
            self.seats = self.seats.observed();
        }
        self.observer = Some(Box::new(Watch::new(&self.name, observer, own)));
        self
    }

    /// The bulkhead's name.
    pub fn name(&self) -> &str {
        &self.name
    }

    /// The number of permits it was made with: free, held or retired.
    pub fn max(&self) -> u32 {
        self.max
    }

    /// The number of free permits at this moment: those in use that nobody holds. An [owed](Bulkhead::owed) permit still counts as held.
    pub fn available(&self) -> u32 {
        locked(&self.watch).available()
    }

    /// Takes a permit and returns it. Dropping it gives it back.
    ///
    /// # Errors
    ///
    /// `Closed` if the bulkhead is [closed](Bulkhead::close); `Full` if all permits in use are held.
    ///
    /// ```
    /// # let backend = resil::Bulkhead::new("backend", 1)?;
    /// let permit = backend.enter()?;
    /// assert_eq!(backend.enter().err(), Some(resil::Full));
    /// drop(permit);
    /// assert!(backend.enter().is_ok());
    /// # Ok::<(), Box<dyn std::error::Error>>(())
    /// ```
    #[inline]
    pub fn enter(&self) -> Result<Permit<'_>, NoPermit> {
        let place = self.enter_place()?;
        Ok(Permit::new(self, place))
    }

    /// Takes a permit, blocking this thread for at most `limit` until one is free. `Duration::MAX` waits without a limit.
    ///
    /// A permit that is given back wakes a waiter. Waiting isn't fair: a newer caller may get the permit first.
    ///
    /// # Errors
    ///
    /// `Closed` if the bulkhead is closed, before or during the wait; `TimedOut` if all permits in use are held until the limit; `Full`,
    /// at once, if all are held and the limit is zero.
    ///
    /// ```
    /// # use std::time::Duration;
    /// # let backend = resil::Bulkhead::new("backend", 1)?;
    /// let _permit = backend.enter()?;
    /// let late = backend.enter_within(Duration::from_millis(1));
    /// assert_eq!(late.err(), Some(resil::NoPermit::TimedOut));
    /// # Ok::<(), Box<dyn std::error::Error>>(())
    /// ```
    pub fn enter_within(&self, limit: Duration) -> Result<Permit<'_>, NoPermit> {
        let place = self.acquire_within(limit)?;
        Ok(Permit::new(self, place))
    }

    /// Takes a permit that keeps the bulkhead alive, so that it can move into a thread, a future or a service.
    ///
    /// # Errors
    ///
    /// `Closed` if the bulkhead is [closed](Bulkhead::close); `Full` if all permits in use are held.
    ///
    /// ```
    /// # use std::sync::Arc;
    /// let backend = Arc::new(resil::Bulkhead::new("backend", 1)?);
    /// let permit = backend.enter_owned()?;
    /// std::thread::spawn(move || drop(permit)).join().unwrap();
    /// assert_eq!(backend.available(), 1);
    /// # Ok::<(), Box<dyn std::error::Error>>(())
    /// ```
    #[inline]
    pub fn enter_owned(self: &Arc<Self>) -> Result<OwnedPermit, NoPermit> {
        let place = self.enter_place()?;
        Ok(OwnedPermit::new(Arc::clone(self), place))
    }

    /// Takes a permit that keeps the bulkhead alive, and waits for one as [`enter_within`](Bulkhead::enter_within) does.
    ///
    /// # Errors
    ///
    /// `Closed` if the bulkhead is closed, before or during the wait; `TimedOut` if all permits in use are held until the limit; `Full`,
    /// at once, if all are held and the limit is zero.
    ///
    /// ```
    /// # use std::{sync::Arc, time::Duration};
    /// let backend = Arc::new(resil::Bulkhead::new("backend", 1)?);
    /// let permit = backend.enter_owned_within(Duration::from_millis(500))?;
    /// let holds = async move { drop(permit) };
    /// # drop(holds);
    /// # Ok::<(), Box<dyn std::error::Error>>(())
    /// ```
    pub fn enter_owned_within(self: &Arc<Self>, limit: Duration) -> Result<OwnedPermit, NoPermit> {
        let place = self.acquire_within(limit)?;
        Ok(OwnedPermit::new(Arc::clone(self), place))
    }

    /// Returns a future of a permit that keeps the bulkhead alive, for any runtime. Waiting tasks are served first come, first served, in
    /// the order of their first polls. A caller that takes a permit by another method may still get ahead of them.
    ///
    /// **The future's output is a `Result`: write `?`. `let _permit = backend.acquire_owned().await;` compiles without a warning, and
    /// runs without a permit once the bulkhead is closed.**
    ///
    /// The future has no time limit of its own: wrap it in your runtime's timeout, such as `tokio::time::timeout`. You can drop it at any
    /// time; if it had been given a permit, that goes to the next task.
    ///
    /// # Errors
    ///
    /// `Closed` if the bulkhead is [closed](Bulkhead::close), before or during the wait; `Full` if it has no permits at all, in use or
    /// not, or if [as many calls already wait](Acquire::most_waiting) as may wait.
    ///
    /// ```
    /// use resil::{Bulkhead, NoPermit};
    /// use std::sync::Arc;
    ///
    /// async fn price(backend: &Arc<Bulkhead>) -> Result<u32, NoPermit> {
    ///     let _permit = backend.acquire_owned().await?;
    ///     Ok(42)
    /// }
    /// ```
    #[inline]
    pub fn acquire_owned(self: &Arc<Self>) -> Acquire {
        Acquire::new(Arc::clone(self))
    }

    /// The name that [`acquire_owned`](Bulkhead::acquire_owned) had until 0.5.0. In version 0.4.0 the output was the permit itself, so
    /// code written for it still compiles, **and runs without a permit once the bulkhead is closed**:
    ///
    /// ```compile_fail
    /// #![deny(deprecated)]
    /// # use resil::Bulkhead;
    /// # use std::sync::Arc;
    /// async fn price(backend: &Arc<Bulkhead>) -> u32 {
    ///     let _permit = backend.acquire().await;
    ///     42
    /// }
    /// ```
    #[deprecated(
        since = "0.6.0",
        note = "it has given a `Result` since 0.5.0: write `acquire_owned().await?`, or the call may run without a permit"
    )]
    pub fn acquire(self: &Arc<Self>) -> Acquire {
        self.acquire_owned()
    }

    /// Calls the function under a permit, which is given back when the call returns or panics.
    ///
    /// A call of an async function returns at once, so its permit is given back before its future runs: use
    /// [`call_async`](Bulkhead::call_async) for functions that return futures.
    ///
    /// # Errors
    ///
    /// `Closed` if the bulkhead is closed, `Full` if all permits in use are held. In both cases the function wasn't called.
    ///
    /// ```
    /// # let backend = resil::Bulkhead::new("backend", 1)?;
    /// assert_eq!(backend.call(|| "answer")?, "answer");
    /// let inside = backend.call(|| backend.call(|| "answer"))?;
    /// assert_eq!(inside, Err(resil::Full));
    /// # Ok::<(), Box<dyn std::error::Error>>(())
    /// ```
    #[inline]
    pub fn call<T>(&self, function: impl FnOnce() -> T) -> Result<T, NoPermit> {
        let _permit = self.enter()?;
        Ok(function())
    }

    /// The bulkhead's numbers at about this moment: each is read on its own.
    ///
    /// ```
    /// # let backend = resil::Bulkhead::new("backend", 3)?;
    /// let _permit = backend.enter()?;
    /// let numbers = backend.numbers();
    /// assert_eq!((numbers.available, numbers.waiting), (2, 0));
    /// # Ok::<(), Box<dyn std::error::Error>>(())
    /// ```
    #[must_use]
    pub fn numbers(&self) -> BulkheadNumbers {
        let available = self.available();
        let row = locked(&self.gate);
        BulkheadNumbers {
            max: self.max,
            available,
            retired: row.retired(),
            owed: row.owed,
            written_off: row.written_off,
            waiting: self.waiting(&row),
        }
    }

    /// Closes the bulkhead for good. Waiters are refused at once with `Closed`, and so is every later caller. A permit that is held, or
    /// was already given to a waiter, is given back as usual.
    ///
    /// **From now on a caller that ignores this error isn't limited any more**: it runs without a permit.
    ///
    /// ```
    /// # let backend = resil::Bulkhead::new("backend", 1)?;
    /// backend.close();
    /// assert_eq!(backend.enter().err(), Some(resil::Closed));
    /// // This caller continues without a permit.
    /// let _no_permit = backend.enter();
    /// # Ok::<(), Box<dyn std::error::Error>>(())
    /// ```
    pub fn close(&self) {
        let mut row = locked(&self.gate);
        self.is_closed.store(true, Ordering::SeqCst);
        let tasks = row.dismiss();
        self.wanted.fetch_sub(tasks.len(), Ordering::SeqCst);
        drop(row);
        self.freed.notify_all();
        self.dismiss(tasks);
    }

    /// Whether the bulkhead is closed.
    #[inline]
    pub fn is_closed(&self) -> bool {
        self.is_closed.load(Ordering::Acquire)
    }

    // Takes a permit, or waits for one, and reports it to the observer.
    fn acquire_within(&self, limit: Duration) -> Result<Place, NoPermit> {
        let mut since = None;
        let acquired = if self.is_closed() {
            Err(WaitEnd::Closed)
        } else if let Ok(place) = self.seats.acquire() {
            Ok(place)
        } else if limit.is_zero() {
            Err(WaitEnd::Full)
        } else {
            since = self.now();
            self.wait_within(limit)
        };
        self.told_wait(since, acquired)
    }

    fn wait_within(&self, limit: Duration) -> Result<Place, WaitEnd> {
        self.wanted.fetch_add(1, Ordering::SeqCst);
        let mut row = locked(&self.gate);
        row.threads += 1;
        let (mut row, acquired) = self.wait(row, Instant::now().checked_add(limit));
        row.threads -= 1;
        self.wanted.fetch_sub(1, Ordering::SeqCst);
        // This thread may have been woken for more than one permit.
        let tasks = self.hand_on_all(&mut row);
        drop(row);
        // Given back if a waker panics.
        let held = acquired.map(|place| Held(self, place));
        wake_all(tasks);
        held.map(Held::keep)
    }

    // Tries again each time a permit is given back, until the deadline or until the bulkhead is closed.
    fn wait<'a>(
        &self,
        mut gate: MutexGuard<'a, Row>,
        deadline: Option<Instant>,
    ) -> (MutexGuard<'a, Row>, Result<Place, WaitEnd>) {
        loop {
            if self.is_closed() {
                return (gate, Err(WaitEnd::Closed));
            }
            let acquired = self.seats.acquire().map_err(|_| WaitEnd::TimedOut);
            let left = deadline.map(|end| end.saturating_duration_since(Instant::now()));
            if acquired.is_ok() || left.is_some_and(|left| left.is_zero()) {
                return (gate, acquired);
            }
            gate = sleep(&self.freed, gate, left);
        }
    }

    // Gives a permit back and wakes a waiter. If a task waits, the permit goes to it without becoming free; if one is owed, it is
    // retired.
    #[inline]
    fn release(&self, place: Place) {
        if self.wanted.load(Ordering::SeqCst) > 0 {
            return self.release_wanted(place);
        }
        self.seats.release(place);
        if self.wanted.load(Ordering::SeqCst) > 0 {
            self.wake();
        }
    }
}

/// Whether this is a valid name for a bulkhead.
pub(crate) fn is_name(name: &str) -> bool {
    let is_plain = |byte: u8| byte.is_ascii_alphanumeric() || b"-_.".contains(&byte);
    (1..=MAX_NAME_LEN).contains(&name.len()) && name.bytes().all(is_plain)
}

/// The numbers of a [`Bulkhead`], as a metrics page shows them.
#[derive(Debug, Clone, Copy, PartialEq, Eq, Hash)]
#[non_exhaustive]
pub struct BulkheadNumbers {
    /// The number of permits it was made with: free, held or retired.
    pub max: u32,
    /// The number of free permits.
    pub available: u32,
    /// The number of retired permits.
    pub retired: u32,
    /// The number of owed permits: each is retired when it is given back.
    pub owed: u32,
    /// The number of permits that were [written off](Bulkhead::write_off).
    pub written_off: u32,
    /// The number of calls that wait for a permit.
    pub waiting: usize,
}

// Lets a chain take a bulkhead by reference or in an `Arc`.
impl AsRef<Bulkhead> for Bulkhead {
    fn as_ref(&self) -> &Bulkhead {
        self
    }
}

impl fmt::Debug for Bulkhead {
    fn fmt(&self, f: &mut fmt::Formatter<'_>) -> fmt::Result {
        f.debug_struct("Bulkhead")
            .field("name", &self.name)
            .field("max", &self.max)
            .field("available", &self.available())
            .field("retired", &self.retired())
            .finish_non_exhaustive()
    }
}
