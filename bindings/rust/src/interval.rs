//! How long a retry waits: a safe interface to the static library's intervals.
use crate::texts::error_texts;
use std::fmt;
use std::time::Duration;

// As in include/resil_retry.h, with which tools/check_bindings compares these declarations.
#[repr(C)]
#[derive(Clone, Copy, PartialEq, Eq, Default)]
struct RetryInterval {
    initial: u64,
    cap: u64,
    numerator: u32,
    denominator: u32,
    kind: u32,
}

unsafe extern "C" {
    fn resil_retry_fixed(ms: u64, out: *mut RetryInterval) -> u8;
    fn resil_retry_exponential(
        initial: u64,
        numerator: u32,
        denominator: u32,
        cap: u64,
        out: *mut RetryInterval,
    ) -> u8;
    fn resil_retry_wait(interval: *const RetryInterval, attempt: u32, wait: *mut u64) -> u8;
}

/// Why an interval couldn't be made.
#[derive(Debug, Clone, Copy, PartialEq, Eq, Hash)]
#[non_exhaustive]
pub enum IntervalError {
    /// A wait is longer than [`Interval::LONGEST`].
    IntervalTooLong,
    /// The multiplier doesn't satisfy `1 <= denominator <= numerator <= 1000`.
    BadMultiplier,
    /// The cap is shorter than the first wait.
    CapBelowInitial,
}

error_texts! { IntervalError {
    IntervalTooLong => "an interval is longer than 31,536,000,000 ms",
    BadMultiplier => "the multiplier needs 1 <= denominator <= numerator <= 1000",
    CapBelowInitial => "the cap is below the initial interval",
}}

/// How long a retry waits after each attempt, in whole milliseconds.
///
/// ```
/// use resil::Interval;
/// use std::time::Duration;
///
/// let ms = Duration::from_millis;
/// let growing = Interval::exponential(ms(500), (3, 2), ms(2_000))?;
/// let waits = (1..=6).map(|attempt| growing.after(attempt));
/// assert!(waits.eq([500, 750, 1_125, 1_687, 2_000, 2_000].map(ms)));
/// # Ok::<(), resil::IntervalError>(())
/// ```
#[derive(Clone, Copy, PartialEq, Eq)]
pub struct Interval {
    told: RetryInterval,
}

impl Interval {
    /// The longest wait, 365 days. It is also the usual cap.
    pub const LONGEST: Duration = Duration::from_secs(31_536_000);

    /// The same wait after each attempt, truncated to whole milliseconds. Zero is allowed.
    ///
    /// # Panics
    ///
    /// If the wait is longer than [`Interval::LONGEST`].
    ///
    /// ```
    /// # use std::time::Duration;
    /// let interval = resil::Interval::fixed(Duration::from_millis(500));
    /// assert_eq!(interval.after(9), Duration::from_millis(500));
    /// ```
    #[track_caller]
    #[must_use]
    pub fn fixed(wait: Duration) -> Interval {
        let mut told = RetryInterval::default();
        // SAFETY: only this call has `told`.
        let answer = unsafe { resil_retry_fixed(milliseconds(wait), &raw mut told) };
        assert!(
            answer == 0,
            "a wait of {wait:?} is longer than 31,536,000,000 ms"
        );
        Interval { told }
    }

    /// Waits `first` after the first attempt; each later wait is the previous one times `numerator / denominator`, truncated to whole
    /// milliseconds, and at most `cap`. Both durations are truncated to whole milliseconds too.
    ///
    /// # Errors
    ///
    /// In this order: `IntervalTooLong` if `first` or `cap` is longer than [`Interval::LONGEST`]; `BadMultiplier` unless `1 <=
    /// denominator <= numerator <= 1000`; `CapBelowInitial` if `cap` is shorter than `first`.
    ///
    /// ```
    /// # use {resil::Interval, std::time::Duration};
    /// let growing = Interval::exponential(Duration::from_millis(100), (2, 1), Interval::LONGEST)?;
    /// assert_eq!(growing.after(4), Duration::from_millis(800));
    /// # Ok::<(), Box<dyn std::error::Error>>(())
    /// ```
    pub fn exponential(
        first: Duration,
        (numerator, denominator): (u32, u32),
        cap: Duration,
    ) -> Result<Interval, IntervalError> {
        let (initial, cap) = (milliseconds(first), milliseconds(cap));
        let mut told = RetryInterval::default();
        // SAFETY: as in `fixed`.
        match unsafe {
            resil_retry_exponential(initial, numerator, denominator, cap, &raw mut told)
        } {
            0 => Ok(Interval { told }),
            1 => Err(IntervalError::IntervalTooLong),
            2 => Err(IntervalError::BadMultiplier),
            _ => Err(IntervalError::CapBelowInitial),
        }
    }

    /// The wait after this attempt. Attempts are numbered from 1.
    ///
    /// # Panics
    ///
    /// If the attempt is 0.
    #[track_caller]
    #[must_use]
    pub fn after(&self, attempt: u32) -> Duration {
        let mut wait = 0;
        // SAFETY: one of the calls above made the interval, and only this call has `wait`.
        let answer = unsafe { resil_retry_wait(&raw const self.told, attempt, &raw mut wait) };
        assert!(answer == 0, "attempts are numbered from 1");
        Duration::from_millis(wait)
    }
}

// Shown as it was made.
impl fmt::Debug for Interval {
    fn fmt(&self, f: &mut fmt::Formatter<'_>) -> fmt::Result {
        let ms = Duration::from_millis;
        let RetryInterval {
            initial,
            cap,
            numerator,
            denominator,
            ..
        } = self.told;
        if numerator == 0 {
            return f.debug_tuple("fixed").field(&ms(initial)).finish();
        }
        f.debug_tuple("exponential")
            .field(&ms(initial))
            .field(&(numerator, denominator))
            .field(&ms(cap))
            .finish()
    }
}

// Whole milliseconds. More than 64 bits would exceed the longest wait in any case.
pub(crate) fn milliseconds(duration: Duration) -> u64 {
    u64::try_from(duration.as_millis()).unwrap_or(u64::MAX)
}
