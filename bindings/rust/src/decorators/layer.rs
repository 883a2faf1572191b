//! The layers of a chain. Each owns the one inside it, and calls it in its own way.
use crate::bulkhead::Bulkhead;
use crate::call_error::CallError;
use crate::retry::{ErrorTest, Retry, ValueTest};
use std::marker::PhantomData;
use std::time::Duration;

/// What a chain of [`Decorators`](crate::Decorators) contains: a function, with or without layers.
///
/// `Arguments` are the function's: `()`, or `(T,)` if it is called with a `T`. Only this crate implements the trait. A function that
/// takes or returns a chain uses it to say what the chain returns.
#[diagnostic::on_unimplemented(
    message = "a chain needs a function that returns a `Result` and takes one argument or none",
    note = "pass an async function to `Decorators::of_async`, or call it with `Bulkhead::call_async` or `Retry::call_async`"
)]
pub trait Layer<Arguments = ()>: Sealed {
    /// The value that a call returns.
    type Value;
    /// The function's error.
    type Error;

    #[doc(hidden)]
    fn call(&mut self, arguments: Arguments) -> Result<Self::Value, CallError<Self::Error>>;
}

/// What a kept chain contains: it is called by reference.
pub trait KeptLayer<Arguments>: Layer<Arguments> {
    #[doc(hidden)]
    fn call_kept(&self, arguments: Arguments) -> Result<Self::Value, CallError<Self::Error>>;
}

pub trait Sealed {}

pub struct Function<F>(pub(super) F);

impl<F> Sealed for Function<F> {}

impl<T, E, F: FnMut() -> Result<T, E>> Layer for Function<F> {
    type Value = T;
    type Error = E;

    #[inline]
    fn call(&mut self, (): ()) -> Result<T, CallError<E>> {
        self.0().map_err(CallError::Failed)
    }
}

impl<A, T, E, F: Fn(A) -> Result<T, E>> Layer<(A,)> for Function<F> {
    type Value = T;
    type Error = E;

    #[inline]
    fn call(&mut self, arguments: (A,)) -> Result<T, CallError<E>> {
        self.call_kept(arguments)
    }
}

impl<A, T, E, F: Fn(A) -> Result<T, E>> KeptLayer<(A,)> for Function<F> {
    #[inline]
    fn call_kept(&self, (argument,): (A,)) -> Result<T, CallError<E>> {
        self.0(argument).map_err(CallError::Failed)
    }
}

pub struct Inside<B, L> {
    pub(super) inner: L,
    pub(super) bulkhead: B,
}

impl<B, L> Sealed for Inside<B, L> {}

impl<A, B: AsRef<Bulkhead>, L: Layer<A>> Layer<A> for Inside<B, L> {
    type Value = L::Value;
    type Error = L::Error;

    #[inline]
    fn call(&mut self, arguments: A) -> Result<L::Value, CallError<L::Error>> {
        let _permit = self.bulkhead.as_ref().enter()?;
        self.inner.call(arguments)
    }
}

impl<A, B: AsRef<Bulkhead>, L: KeptLayer<A>> KeptLayer<A> for Inside<B, L> {
    #[inline]
    fn call_kept(&self, arguments: A) -> Result<L::Value, CallError<L::Error>> {
        let _permit = self.bulkhead.as_ref().enter()?;
        self.inner.call_kept(arguments)
    }
}

// The type that `R` refers to.
type Kind<T> = PhantomData<fn() -> T>;

pub struct Retried<R, Errors, Values, Pause, L> {
    pub(super) inner: L,
    pub(super) retry: R,
    pub(super) kind: Kind<Retry<Errors, Values, Pause>>,
}

impl<R, Errors, Values, Pause, L> Sealed for Retried<R, Errors, Values, Pause, L> {}

impl<A, R, L, Errors, Values, Pause> Layer<A> for Retried<R, Errors, Values, Pause, L>
where
    A: Clone,
    R: AsRef<Retry<Errors, Values, Pause>>,
    L: Layer<A>,
    Errors: ErrorTest<CallError<L::Error>>,
    Values: ValueTest<L::Value>,
    Pause: Fn(Duration),
{
    type Value = L::Value;
    type Error = L::Error;

    #[inline]
    fn call(&mut self, arguments: A) -> Result<L::Value, CallError<L::Error>> {
        let retry = self.retry.as_ref();
        retry.call(|| self.inner.call(arguments.clone()))
    }
}

impl<A, R, L, Errors, Values, Pause> KeptLayer<A> for Retried<R, Errors, Values, Pause, L>
where
    A: Clone,
    R: AsRef<Retry<Errors, Values, Pause>>,
    L: KeptLayer<A>,
    Errors: ErrorTest<CallError<L::Error>>,
    Values: ValueTest<L::Value>,
    Pause: Fn(Duration),
{
    #[inline]
    fn call_kept(&self, arguments: A) -> Result<L::Value, CallError<L::Error>> {
        let retry = self.retry.as_ref();
        retry.call(|| self.inner.call_kept(arguments.clone()))
    }
}

pub struct OrElse<L, G> {
    pub(super) inner: L,
    pub(super) fallback: G,
}

impl<L, G> Sealed for OrElse<L, G> {}

impl<A, L, G> Layer<A> for OrElse<L, G>
where
    L: Layer<A>,
    G: FnMut(CallError<L::Error>) -> Result<L::Value, CallError<L::Error>>,
{
    type Value = L::Value;
    type Error = L::Error;

    #[inline]
    fn call(&mut self, arguments: A) -> Result<L::Value, CallError<L::Error>> {
        self.inner.call(arguments).or_else(&mut self.fallback)
    }
}

impl<A, L, G> KeptLayer<A> for OrElse<L, G>
where
    L: KeptLayer<A>,
    G: Fn(CallError<L::Error>) -> Result<L::Value, CallError<L::Error>>,
{
    #[inline]
    fn call_kept(&self, arguments: A) -> Result<L::Value, CallError<L::Error>> {
        self.inner.call_kept(arguments).or_else(&self.fallback)
    }
}
