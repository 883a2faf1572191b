//! The error of a call through a bulkhead.
use crate::bulkhead::NoPermit;
use std::any::Any;
use std::error::Error;
use std::fmt;

/// A bulkhead refused a call, or the call failed.
///
/// ```
/// use resil::CallError;
/// use std::error::Error;
/// use std::num::ParseIntError;
///
/// // Code that gets the error without its type can find what failed inside the box.
/// let failed: CallError<Box<dyn Error>> = CallError::Failed("x".parse::<u32>().unwrap_err().into());
/// assert!(failed.source().is_some_and(|source| source.is::<ParseIntError>()));
/// ```
#[derive(Debug, Clone, Copy, PartialEq, Eq, Hash)]
#[non_exhaustive]
pub enum CallError<E> {
    /// All permits of a bulkhead were held. The function wasn't called.
    Full,
    /// A bulkhead was closed. The function wasn't called.
    Closed,
    /// There was no permit within the call's time limit, or what it was about to call wasn't ready by then. The function wasn't called.
    TimedOut,
    /// The function was called, and returned this error.
    Failed(E),
}

impl<E> From<NoPermit> for CallError<E> {
    fn from(refused: NoPermit) -> CallError<E> {
        match refused {
            NoPermit::Full => CallError::Full,
            NoPermit::Closed => CallError::Closed,
            NoPermit::TimedOut => CallError::TimedOut,
        }
    }
}

impl<E: fmt::Display> fmt::Display for CallError<E> {
    fn fmt(&self, f: &mut fmt::Formatter<'_>) -> fmt::Result {
        match self {
            CallError::Full => NoPermit::Full.fmt(f),
            CallError::Closed => NoPermit::Closed.fmt(f),
            CallError::TimedOut => f.write_str("the call timed out before it was made"),
            CallError::Failed(error) => error.fmt(f),
        }
    }
}

/// The source is the error that the function returned, if that is boxed: `Box<dyn Error>`, or the same with `Send + Sync`.
// Any other type needn't be an `Error` itself, so it has no source to return.
impl<E: fmt::Debug + fmt::Display + 'static> Error for CallError<E> {
    fn source(&self) -> Option<&(dyn Error + 'static)> {
        let CallError::Failed(error) = self else {
            return None;
        };
        let error: &dyn Any = error;
        if let Some(boxed) = error.downcast_ref::<Box<dyn Error + Send + Sync>>() {
            return Some(&**boxed);
        }
        let boxed = error.downcast_ref::<Box<dyn Error>>()?;
        Some(&**boxed)
    }
}
