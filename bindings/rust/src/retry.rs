//! A retry that calls and threads share.
mod jitter;
mod outcome_test;
mod plan;

use crate::interval::Interval;
use crate::observer::{Observer, Watch};
use jitter::Jitter;
use plan::Plan;
use std::fmt;
use std::sync::Arc;
use std::thread;
use std::time::Duration;

pub use outcome_test::{ErrorTest, EveryError, NoValue, ValueTest, WaitBy};
pub use plan::{Attempts, Waits};

/// The maximum number of attempts.
const MAX_ATTEMPTS: u32 = 1_000;

/// Repeats calls that failed, up to a number of attempts and with a wait after each.
///
/// Attempts are numbered from 1, and the first call is one of them. An outcome that isn't to be retried is returned at once. One that is
/// to be retried is followed by the wait of its attempt and then the next attempt, while attempts are left. After that the last outcome
/// is returned, whatever it is.
///
/// A `Retry` keeps no state of a call, so one serves calls of any types, even from many threads at once. A test of errors or values is
/// for one type; a retry that has a test serves the calls with errors or values of that type.
///
/// ```
/// use resil::{Interval, Retry};
/// use std::time::Duration;
///
/// let retry = Retry::new().attempts(4).interval(Interval::fixed(Duration::from_millis(1)));
/// let mut numbers = ["none", "?", "7"].iter();
/// assert_eq!(retry.call(|| numbers.next().map_or("", |text| text).parse()), Ok(7));
/// assert_eq!(retry.call(|| Ok::<_, String>("at once")), Ok("at once"));
/// ```
/// A clone has the same observer, and draws its jitter from the same stream of numbers.
#[must_use]
#[derive(Clone)]
pub struct Retry<Errors = EveryError, Values = NoValue, Pause = fn(Duration)> {
    plan: Plan,
    error_test: Errors,
    value_test: Values,
    pause: Pause,
}

impl Retry {
    /// Three attempts, with 500 ms between two of them, whatever the error. No value is retried.
    pub fn new() -> Retry {
        Retry {
            plan: Plan::new(3, Interval::fixed(Duration::from_millis(500))),
            error_test: EveryError,
            value_test: NoValue,
            pause: thread::sleep,
        }
    }
}

impl Default for Retry {
    fn default() -> Retry {
        Retry::new()
    }
}

impl<Errors, Values, Pause> Retry<Errors, Values, Pause> {
    /// Sets the number of attempts. The first call is one of them.
    ///
    /// # Panics
    ///
    /// If the number isn't from 1 to 1,000.
    ///
    /// ```
    /// let retry = resil::Retry::new().attempts(1);
    /// assert_eq!(retry.call(|| Err::<(), _>("busy")), Err("busy"));
    /// ```
    #[track_caller]
    pub fn attempts(mut self, count: u32) -> Self {
        assert!(
            (1..=MAX_ATTEMPTS).contains(&count),
            "a retry has 1 to 1,000 attempts, and not {count}"
        );
        self.plan.attempts = count;
        self
    }

    /// Sets how long to wait after each attempt that is followed by another.
    pub fn interval(mut self, interval: Interval) -> Self {
        self.plan.interval = interval;
        self
    }

    /// Retries errors for which this test returns true, and no others. It replaces an earlier test of errors, and what
    /// [`wait_by`](Retry::wait_by) was given.
    ///
    /// A retry's type names its tests. If you have to write out that type, use a function pointer as the test:
    ///
    /// ```
    /// use resil::Retry;
    ///
    /// let is_busy: fn(&u32) -> bool = |status| *status == 503;
    /// let retry: Retry<fn(&u32) -> bool> = Retry::new().retry_if(is_busy);
    /// assert_eq!(retry.call(|| Err::<(), _>(404)), Err(404));
    /// ```
    pub fn retry_if<E, F: Fn(&E) -> bool>(self, test: F) -> Retry<F, Values, Pause> {
        Retry {
            plan: self.plan,
            error_test: test,
            value_test: self.value_test,
            pause: self.pause,
        }
    }

    /// Also retries values for which this test returns true. It replaces an earlier test of values.
    ///
    /// If the value after the last attempt would still be retried, it is returned.
    ///
    /// ```
    /// let retry = resil::Retry::new().retry_value_if(|left: &u32| *left > 0).pause_by(|_wait| {});
    /// let mut left = [2, 1, 0].into_iter();
    /// assert_eq!(retry.call(|| left.next().ok_or("none")), Ok(0));
    /// ```
    pub fn retry_value_if<T, F: Fn(&T) -> bool>(self, test: F) -> Retry<Errors, F, Pause> {
        Retry {
            plan: self.plan,
            error_test: self.error_test,
            value_test: test,
            pause: self.pause,
        }
    }

    /// Draws each wait at random, between half of the interval's wait and all of it, in whole milliseconds. The draws differ from run to
    /// run.
    ///
    /// ```
    /// let retry = resil::Retry::new().jitter();
    /// // Between a quarter of a second and half a second.
    /// let waits = retry.waits().map(|wait| wait.as_millis());
    /// assert!(waits.into_iter().all(|wait| (250..=500).contains(&wait)));
    /// ```
    pub fn jitter(mut self) -> Self {
        self.plan.jitter = Some(Jitter::unseeded());
        self
    }

    /// Draws each wait as [`jitter`](Retry::jitter) does, from a seed: for tests.
    ///
    /// A retry has one stream of numbers, which begins with the seed, and all its calls draw from it. So calls made one after the other
    /// wait the same in each run of the program.
    ///
    /// ```
    /// let waits = |seed| resil::Retry::new().jitter_seeded(seed).waits().collect::<Vec<_>>();
    /// assert_eq!(waits(7), waits(7));
    /// assert_ne!(waits(7), waits(8));
    /// ```
    pub fn jitter_seeded(mut self, seed: u64) -> Self {
        self.plan.jitter = Some(Jitter::new(seed));
        self
    }

    /// Asks the error of each attempt that is followed by another how long to wait, for errors that carry a retry-after time. If the
    /// function returns `None`, the interval decides, with jitter; what the error says is used unchanged. The function gets the attempt's
    /// number, from 1.
    ///
    /// ```
    /// # use std::time::Duration;
    /// // An error that says when to try again, in seconds.
    /// let retry = resil::Retry::new()
    ///     .wait_by(|error: &Option<u64>, _attempt| error.map(Duration::from_secs))
    ///     .pause_by(|wait| assert_eq!(wait.as_secs(), 7));
    /// assert_eq!(retry.call(|| Err::<(), _>(Some(7))), Err(Some(7)));
    /// ```
    pub fn wait_by<E, F>(self, wait: F) -> Retry<WaitBy<Errors, F>, Values, Pause>
    where
        F: Fn(&E, u32) -> Option<Duration>,
    {
        Retry {
            plan: self.plan,
            error_test: WaitBy {
                test: self.error_test,
                wait,
            },
            value_test: self.value_test,
            pause: self.pause,
        }
    }

    /// Limits the time of a whole call: a wait that would end later isn't begun, and the last outcome is returned at once. An attempt
    /// that is running isn't cut off.
    ///
    /// Time is that of the clock or, if [`pause_by`](Retry::pause_by) doesn't sleep, the sum of the waits.
    ///
    /// ```
    /// # use std::time::Duration;
    /// let retry = resil::Retry::new().attempts(9).within(Duration::from_millis(1_100)).pause_by(|_wait| {});
    /// let mut attempts = 0;
    /// let _failed = retry.call(|| { attempts += 1; Err::<(), _>("busy") });
    /// assert_eq!(attempts, 3);
    /// ```
    pub fn within(mut self, limit: Duration) -> Self {
        self.plan.set_limit(limit);
        self
    }

    /// Reports the calls to this observer, under this name: each attempt that is followed by another, and how each call ends.
    pub fn observed(mut self, name: impl Into<String>, observer: Arc<dyn Observer>) -> Self {
        let name = name.into();
        let own = observer.of_retry(&name);
        self.plan.set_observer(Watch::new(&name, observer, own));
        self
    }

    /// Returns the waits of one call all of whose attempts fail, with jitter and limit: for loops of your own, for example in async code.
    /// They aren't reported to an observer.
    pub fn waits(&self) -> Waits<'_> {
        Waits::new(&self.plan)
    }

    /// Waits with this function instead of [`std::thread::sleep`]: for tests.
    ///
    /// ```
    /// let retry = resil::Retry::new().pause_by(|wait| println!("{wait:?}"));
    /// assert_eq!(retry.call(|| Err::<(), _>("busy")), Err("busy"));
    /// ```
    pub fn pause_by<F: Fn(Duration)>(self, pause: F) -> Retry<Errors, Values, F> {
        Retry {
            plan: self.plan,
            error_test: self.error_test,
            value_test: self.value_test,
            pause,
        }
    }
}

impl<Errors, Values, Pause: Fn(Duration)> Retry<Errors, Values, Pause> {
    /// Calls the function, and repeats the call while its outcome is to be retried and attempts are left. Returns the last outcome.
    ///
    /// # Errors
    ///
    /// The function's last error.
    ///
    /// ```
    /// let retry = resil::Retry::new().pause_by(|_wait| {});
    /// let mut outcomes = [Err("busy"), Ok(42)].into_iter();
    /// assert_eq!(retry.call(|| outcomes.next().unwrap()), Ok(42));
    /// ```
    #[inline]
    pub fn call<T, E>(&self, mut function: impl FnMut() -> Result<T, E>) -> Result<T, E>
    where
        Errors: ErrorTest<E>,
        Values: ValueTest<T>,
    {
        let mut attempts = self.begin();
        loop {
            let outcome = function();
            let Some(wait) = self.wait_after(&mut attempts, outcome.as_ref()) else {
                return outcome;
            };
            drop(outcome);
            (self.pause)(wait);
        }
    }
}

impl<Errors, Values, Pause> Retry<Errors, Values, Pause> {
    /// Does what [`call`](Retry::call) does for a function that returns futures, on any runtime: instead of sleeping, it awaits the
    /// futures that `sleep` returns.
    ///
    /// Dropping the returned future also drops the attempt in progress. The futures may borrow what the function owns, but can't change
    /// it: put state that changes from attempt to attempt into a `Cell` or an atomic.
    ///
    /// # Errors
    ///
    /// The last attempt's error.
    ///
    /// ```
    /// async fn price(retry: &resil::Retry) -> Result<u32, String> {
    ///     // Pass your runtime's sleep, such as `tokio::time::sleep`.
    ///     retry.call_async(async || Ok(42), |_wait| std::future::ready(())).await
    /// }
    /// ```
    pub async fn call_async<T, E, Answer, Sleep>(
        &self,
        mut function: impl FnMut() -> Answer,
        mut sleep: impl FnMut(Duration) -> Sleep,
    ) -> Result<T, E>
    where
        Answer: Future<Output = Result<T, E>>,
        Sleep: Future<Output = ()>,
        Errors: ErrorTest<E>,
        Values: ValueTest<T>,
    {
        let mut attempts = self.begin();
        loop {
            let outcome = function().await;
            let Some(wait) = self.wait_after(&mut attempts, outcome.as_ref()) else {
                return outcome;
            };
            drop(outcome);
            sleep(wait).await;
        }
    }

    /// Begins a call in a loop of your own: after each attempt, [`wait_after`](Retry::wait_after) says what to do next.
    ///
    /// ```
    /// let retry = resil::Retry::new();
    /// let mut attempts = retry.begin();
    /// let outcome = Err::<(), _>("busy");
    /// let wait = retry.wait_after(&mut attempts, outcome.as_ref());
    /// assert_eq!(wait.map(|wait| wait.as_millis()), Some(500));
    /// ```
    #[inline]
    #[must_use]
    pub fn begin(&self) -> Attempts {
        self.plan.begin()
    }

    /// Returns how long to wait before the next attempt of this call, given the outcome of the last one, or `None` if that outcome is the
    /// answer. The result is reported to the observer. A limit counts from [`begin`](Retry::begin).
    ///
    /// ```
    /// let retry = resil::Retry::new();
    /// let mut attempts = retry.begin();
    /// // A success is the answer.
    /// assert_eq!(retry.wait_after(&mut attempts, Ok::<_, &()>(&42)), None);
    /// ```
    #[inline]
    pub fn wait_after<T, E>(
        &self,
        attempts: &mut Attempts,
        outcome: Result<&T, &E>,
    ) -> Option<Duration>
    where
        Errors: ErrorTest<E>,
        Values: ValueTest<T>,
    {
        if !self.is_retried(outcome) {
            self.plan.tell_answer(attempts, outcome.is_ok());
            return None;
        }
        let asked = match outcome {
            Ok(_) => None,
            Err(error) => self.error_test.wait(error, attempts.count()),
        };
        self.plan.wait_told(attempts, asked)
    }

    #[inline]
    fn is_retried<T, E>(&self, outcome: Result<&T, &E>) -> bool
    where
        Errors: ErrorTest<E>,
        Values: ValueTest<T>,
    {
        match outcome {
            Ok(value) => self.value_test.is_retried(value),
            Err(error) => self.error_test.is_retried(error),
        }
    }
}

// Lets a chain take a retry by value, by reference or in an `Arc`.
impl<Errors, Values, Pause> AsRef<Retry<Errors, Values, Pause>> for Retry<Errors, Values, Pause> {
    fn as_ref(&self) -> &Retry<Errors, Values, Pause> {
        self
    }
}

impl<Errors, Values, Pause> fmt::Debug for Retry<Errors, Values, Pause> {
    fn fmt(&self, f: &mut fmt::Formatter<'_>) -> fmt::Result {
        f.debug_struct("Retry")
            .field("attempts", &self.plan.attempts)
            .field("interval", &self.plan.interval)
            .field("limit", &self.plan.limit())
            .finish_non_exhaustive()
    }
}
