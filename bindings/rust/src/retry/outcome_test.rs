//! Which outcomes are to be retried, and which errors say how long to wait.
use std::time::Duration;

/// A test of which errors of a type a retry retries.
///
/// Functions of a reference to the error implement it: pass one to [`Retry::retry_if`](crate::Retry::retry_if).
pub trait ErrorTest<E> {
    /// Whether the error is to be retried.
    fn is_retried(&self, error: &E) -> bool;

    /// How long to wait after this error of this attempt (numbered from 1), or `None` if the retry's interval decides, as it does for
    /// each test but [`WaitBy`](crate::WaitBy).
    #[inline]
    fn wait(&self, _error: &E, _attempt: u32) -> Option<Duration> {
        None
    }
}

/// A test of which values of a type a retry retries.
///
/// Functions of a reference to the value implement it: pass one to [`Retry::retry_value_if`](crate::Retry::retry_value_if).
pub trait ValueTest<T> {
    /// Whether the value is to be retried.
    fn is_retried(&self, value: &T) -> bool;
}

/// The test of a retry that retries every error, of any type.
#[derive(Debug, Clone, Copy)]
pub struct EveryError;

/// The test of a retry that retries no value, of any type.
#[derive(Debug, Clone, Copy)]
pub struct NoValue;

impl<E> ErrorTest<E> for EveryError {
    #[inline]
    fn is_retried(&self, _error: &E) -> bool {
        true
    }
}

impl<E, F: Fn(&E) -> bool> ErrorTest<E> for F {
    #[inline]
    fn is_retried(&self, error: &E) -> bool {
        self(error)
    }
}

/// A test of errors, with a function that lets an error say how long to wait. Made by [`Retry::wait_by`](crate::Retry::wait_by).
#[derive(Debug, Clone, Copy)]
pub struct WaitBy<Errors, F> {
    pub(super) test: Errors,
    pub(super) wait: F,
}

impl<E, Errors: ErrorTest<E>, F: Fn(&E, u32) -> Option<Duration>> ErrorTest<E>
    for WaitBy<Errors, F>
{
    #[inline]
    fn is_retried(&self, error: &E) -> bool {
        self.test.is_retried(error)
    }

    #[inline]
    fn wait(&self, error: &E, attempt: u32) -> Option<Duration> {
        (self.wait)(error, attempt)
    }
}

impl<T> ValueTest<T> for NoValue {
    #[inline]
    fn is_retried(&self, _value: &T) -> bool {
        false
    }
}

impl<T, F: Fn(&T) -> bool> ValueTest<T> for F {
    #[inline]
    fn is_retried(&self, value: &T) -> bool {
        self(value)
    }
}
