//! Why a permit, or a bulkhead, couldn't be had.
use crate::observer::WaitEnd;
use crate::texts::error_texts;

/// Why a call got no permit. The crate exports `Full` and `Closed` as names of their own. Later versions may add reasons.
///
/// A server answers 503 if the bulkhead is full or closed, and 504 if the call timed out waiting:
///
/// ```
/// use resil::{Bulkhead, NoPermit};
/// use std::time::Duration;
///
/// let status = |refused| match refused {
///     NoPermit::TimedOut => 504,
///     _ => 503,
/// };
/// let backend = Bulkhead::new("backend", 1)?;
/// let _permit = backend.enter()?;
/// assert_eq!(backend.enter().map_err(status).err(), Some(503));
/// let waits = backend.enter_within(Duration::from_millis(1));
/// assert_eq!(waits.map_err(status).err(), Some(504));
/// # Ok::<(), Box<dyn std::error::Error>>(())
/// ```
#[derive(Debug, Clone, Copy, PartialEq, Eq, Hash)]
#[non_exhaustive]
pub enum NoPermit {
    /// All permits in use are held, and the call didn't wait for one.
    Full,
    /// The bulkhead is [closed](crate::Bulkhead::close).
    Closed,
    /// All permits in use were held until the call's time limit was over.
    TimedOut,
}

error_texts! { NoPermit {
    Full => "the bulkhead is full",
    Closed => "the bulkhead is closed",
    TimedOut => "the bulkhead had no permit in time",
}}

// A wait that ended without a permit.
impl From<WaitEnd> for NoPermit {
    fn from(end: WaitEnd) -> NoPermit {
        match end {
            WaitEnd::TimedOut => NoPermit::TimedOut,
            WaitEnd::Closed => NoPermit::Closed,
            _ => NoPermit::Full,
        }
    }
}

/// Why a bulkhead or a pass couldn't be made. If several reasons hold, it is the first of them.
#[derive(Debug, Clone, Copy, PartialEq, Eq, Hash)]
#[non_exhaustive]
pub enum BulkheadError {
    /// The name isn't 1 to 64 bytes of ASCII letters, digits, `-`, `_` and `.`.
    BadName,
    /// The number of permits is above 65,535.
    TooManyPermits,
    /// Out of memory.
    Memory,
}

error_texts! { BulkheadError {
    BadName => "a name must be 1 to 64 bytes of ASCII letters, digits, `-`, `_` and `.`",
    TooManyPermits => "there are more than 65535 permits",
    Memory => "out of memory",
}}
