//! A function with layers around it.
mod awaited;
mod layer;

use crate::bulkhead::Bulkhead;
use crate::call_error::CallError;
use crate::retry::{ErrorTest, Retry, ValueTest};
use layer::{Function, Inside, OrElse, Retried};
use std::fmt;
use std::marker::PhantomData;
use std::time::Duration;

pub use awaited::{AsyncDecorators, AsyncLayer};
pub use layer::{KeptLayer, Layer};

/// A function with layers around it, innermost first: each layer wraps what has been built so far, and the last is the outermost.
///
/// A bulkhead inside a retry gives a permit for each attempt; outside of it, one for the whole call.
///
/// ```
/// use resil::{Bulkhead, CallError, Decorators, Retry};
///
/// let backend = Bulkhead::new("backend", 1)?;
/// let price = Decorators::of(|| Err("no price yet"))
///     .inside(&backend)
///     .retried(Retry::new().attempts(1))
///     .or_else(|error| match error {
///         CallError::Failed("no price yet") => Ok(0),
///         error => Err(error),
///     })
///     .call();
/// assert_eq!(price, Ok(0));
/// # Ok::<(), resil::BulkheadError>(())
/// ```
///
/// The chain of a function that takes an argument is kept and called by reference, from many threads at once. So let it own what it
/// needs: an `Arc` of a bulkhead, or a retry by value. Its function and its fallbacks are called by reference too.
#[must_use = "nothing is called before `call`"]
pub struct Decorators<L, Arguments = ()> {
    layers: L,
    arguments: PhantomData<fn(Arguments)>,
}

impl<F> Decorators<Function<F>> {
    /// Starts a chain with the function alone, which takes one argument or none. Its errors become [`CallError::Failed`].
    ///
    /// ```
    /// let mut chain = resil::Decorators::of(|| "42".parse::<u32>());
    /// assert_eq!(chain.call(), Ok(42));
    /// ```
    pub fn of<Arguments>(function: F) -> Decorators<Function<F>, Arguments>
    where
        Function<F>: Layer<Arguments>,
    {
        Decorators::new(Function(function))
    }
}

impl<L, Arguments> Decorators<L, Arguments> {
    fn new(layers: L) -> Decorators<L, Arguments> {
        Decorators {
            layers,
            arguments: PhantomData,
        }
    }
}

impl<L: Layer<Arguments>, Arguments> Decorators<L, Arguments> {
    /// Runs the chain so far under a permit of this bulkhead, which is given back when the chain returns or panics. If all permits are
    /// held, nothing is called, and the error is [`CallError::Full`]. The bulkhead is passed by reference or in an `Arc`.
    ///
    /// ```
    /// # use resil::{CallError, Decorators};
    /// # let backend = resil::Bulkhead::new("backend", 1)?;
    /// let _permit = backend.enter()?;
    /// let mut chain = Decorators::of(|| Ok::<_, ()>(42)).inside(&backend);
    /// assert_eq!(chain.call(), Err(CallError::Full));
    /// # Ok::<(), Box<dyn std::error::Error>>(())
    /// ```
    pub fn inside<B: AsRef<Bulkhead>>(self, bulkhead: B) -> Decorators<Inside<B, L>, Arguments> {
        Decorators::new(Inside {
            inner: self.layers,
            bulkhead,
        })
    }

    /// Repeats the chain so far with this retry, which is passed by reference, by value or in an `Arc`. A refusal of a bulkhead inside is
    /// an error like any other, so a test of errors gets a [`CallError`].
    ///
    /// ```
    /// # use resil::{Decorators, Retry};
    /// let mut outcomes = [Err("busy"), Ok(42)].into_iter();
    /// let mut chain = Decorators::of(|| outcomes.next().unwrap()).retried(Retry::new().pause_by(|_| {}));
    /// assert_eq!(chain.call(), Ok(42));
    /// ```
    pub fn retried<R, Errors, Values, Pause>(
        self,
        retry: R,
    ) -> Decorators<Retried<R, Errors, Values, Pause, L>, Arguments>
    where
        Arguments: Clone,
        R: AsRef<Retry<Errors, Values, Pause>>,
        Errors: ErrorTest<CallError<L::Error>>,
        Values: ValueTest<L::Value>,
        Pause: Fn(Duration),
    {
        Decorators::new(Retried {
            inner: self.layers,
            retry,
            kind: PhantomData,
        })
    }
}

impl<L: Layer> Decorators<L> {
    /// Calls this function if the chain so far returns an error, and returns its result instead: a value, or an error, possibly the same
    /// one.
    ///
    /// ```
    /// let mut chain = resil::Decorators::of(|| "none".parse()).or_else(|_error| Ok(0));
    /// assert_eq!(chain.call(), Ok(0));
    /// ```
    pub fn or_else<G>(self, fallback: G) -> Decorators<OrElse<L, G>>
    where
        G: FnMut(CallError<L::Error>) -> Result<L::Value, CallError<L::Error>>,
    {
        Decorators::new(OrElse {
            inner: self.layers,
            fallback,
        })
    }

    /// Calls the function through its layers, from the outermost in.
    ///
    /// # Errors
    ///
    /// `Failed` with the function's error, `Full` if a bulkhead refused, or what a fallback makes of these.
    #[inline]
    pub fn call(&mut self) -> Result<L::Value, CallError<L::Error>> {
        self.layers.call(())
    }
}

/// For a function that takes an argument.
impl<L: Layer<(A,)>, A> Decorators<L, (A,)> {
    /// Like `or_else` of a function without arguments. The chain is kept, so the fallback is called by reference.
    pub fn or_else<G>(self, fallback: G) -> Decorators<OrElse<L, G>, (A,)>
    where
        G: Fn(CallError<L::Error>) -> Result<L::Value, CallError<L::Error>>,
    {
        Decorators::new(OrElse {
            inner: self.layers,
            fallback,
        })
    }

    /// Calls the function with this argument through its layers, from the outermost in. Each attempt of a retry gets a copy.
    ///
    /// # Errors
    ///
    /// Those of a function without arguments.
    #[inline]
    pub fn call(&self, argument: A) -> Result<L::Value, CallError<L::Error>>
    where
        L: KeptLayer<(A,)>,
    {
        self.layers.call_kept((argument,))
    }
}

impl<L, Arguments> fmt::Debug for Decorators<L, Arguments> {
    fn fmt(&self, f: &mut fmt::Formatter<'_>) -> fmt::Result {
        f.debug_struct("Decorators").finish_non_exhaustive()
    }
}
