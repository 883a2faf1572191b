//! A function that returns futures, with layers around it.
use super::Decorators;
use super::layer::{Function, OrElse, Retried, Sealed};
use crate::bulkhead::Bulkhead;
use crate::call_error::CallError;
use crate::retry::{ErrorTest, Retry, ValueTest};
use std::fmt;
use std::marker::PhantomData;
use std::time::Duration;

type Answer<L, A> = Result<<L as AsyncLayer<A>>::Value, CallError<<L as AsyncLayer<A>>::Error>>;

/// What a chain of [`AsyncDecorators`] contains, as [`Layer`](crate::Layer) is for the others.
#[diagnostic::on_unimplemented(
    message = "an async chain needs a function that returns a future of a `Result` and takes one argument or none"
)]
pub trait AsyncLayer<Arguments = ()>: Sealed {
    /// The value that a call returns.
    type Value;
    /// The function's error.
    type Error;

    #[doc(hidden)]
    fn call_async<P: Future<Output = ()>>(
        &self,
        arguments: Arguments,
        sleep: &impl Fn(Duration) -> P,
    ) -> impl Future<Output = Answer<Self, Arguments>>;
}

/// A function that returns futures, with layers around it, innermost first. Made by [`Decorators::of_async`].
///
/// The chain is kept and called by reference, from many tasks at once; so are its function and its fallbacks. Dropping the future of a
/// call drops everything that the call has in progress.
#[must_use = "nothing is called before `call_async`"]
pub struct AsyncDecorators<L, Arguments = ()> {
    layers: L,
    arguments: PhantomData<fn(Arguments)>,
}

impl<F> Decorators<Function<F>> {
    /// Starts a chain with the function alone, which returns futures and takes one argument or none. Its errors become
    /// [`CallError::Failed`].
    ///
    /// ```
    /// use resil::{Bulkhead, CallError, Decorators, Retry};
    /// use std::time::Duration;
    ///
    /// # async fn sleep(_time: Duration) {}
    /// async fn price(backend: &Bulkhead, retry: &Retry) -> Result<u32, CallError<&'static str>> {
    ///     let price = Decorators::of_async(async |id: u32| if id > 0 { Ok(42) } else { Err("no id") })
    ///         .inside_within(backend, Duration::from_millis(500))
    ///         .retried(retry);
    ///     // Pass your runtime's sleep, such as `tokio::time::sleep`.
    ///     price.call_async(7, sleep).await
    /// }
    /// ```
    pub fn of_async<Arguments>(function: F) -> AsyncDecorators<Function<F>, Arguments>
    where
        Function<F>: AsyncLayer<Arguments>,
    {
        AsyncDecorators::new(Function(function))
    }
}

impl<L: AsyncLayer<Arguments>, Arguments> AsyncDecorators<L, Arguments> {
    fn new(layers: L) -> AsyncDecorators<L, Arguments> {
        AsyncDecorators {
            layers,
            arguments: PhantomData,
        }
    }

    /// Runs the chain so far under a permit of this bulkhead. Each call awaits the permit and holds it until it has its answer.
    pub fn inside<B: AsRef<Bulkhead>>(
        self,
        bulkhead: B,
    ) -> AsyncDecorators<Awaited<B, L>, Arguments> {
        AsyncDecorators::new(Awaited(self.layers, bulkhead, None))
    }

    /// Like [`inside`](AsyncDecorators::inside), but waits for the permit for at most `limit`, after which the error is
    /// [`CallError::TimedOut`].
    pub fn inside_within<B: AsRef<Bulkhead>>(
        self,
        bulkhead: B,
        limit: Duration,
    ) -> AsyncDecorators<Awaited<B, L>, Arguments> {
        AsyncDecorators::new(Awaited(self.layers, bulkhead, Some(limit)))
    }

    /// Repeats the chain so far with this retry, as [`Decorators::retried`] does; it waits with the call's `sleep`.
    pub fn retried<R, Errors, Values, Pause>(
        self,
        retry: R,
    ) -> AsyncDecorators<Retried<R, Errors, Values, Pause, L>, Arguments>
    where
        Arguments: Clone,
        R: AsRef<Retry<Errors, Values, Pause>>,
        Errors: ErrorTest<CallError<L::Error>>,
        Values: ValueTest<L::Value>,
    {
        AsyncDecorators::new(Retried {
            inner: self.layers,
            retry,
            kind: PhantomData,
        })
    }

    /// Calls this function if the chain so far returns an error, and returns its result instead.
    pub fn or_else<G>(self, fallback: G) -> AsyncDecorators<OrElse<L, G>, Arguments>
    where
        G: Fn(CallError<L::Error>) -> Answer<L, Arguments>,
    {
        AsyncDecorators::new(OrElse {
            inner: self.layers,
            fallback,
        })
    }
}

impl<L: AsyncLayer> AsyncDecorators<L> {
    /// Calls the function through its layers, from the outermost in. All waits await futures that `sleep` returns.
    ///
    /// # Errors
    ///
    /// `Failed` with the function's error; `Full`, `Closed` or `TimedOut` if a bulkhead refused; or what a fallback makes of these.
    pub async fn call_async<P>(&self, sleep: impl Fn(Duration) -> P) -> Answer<L, ()>
    where
        P: Future<Output = ()>,
    {
        self.layers.call_async((), &sleep).await
    }
}

/// For a function that takes an argument.
impl<L: AsyncLayer<(A,)>, A> AsyncDecorators<L, (A,)> {
    /// Calls the function with this argument, like `call_async` of one without arguments. Each attempt of a retry gets a copy.
    ///
    /// # Errors
    ///
    /// Those of a function without arguments.
    pub async fn call_async<P>(&self, argument: A, sleep: impl Fn(Duration) -> P) -> Answer<L, (A,)>
    where
        P: Future<Output = ()>,
    {
        self.layers.call_async((argument,), &sleep).await
    }
}

impl<L, Arguments> fmt::Debug for AsyncDecorators<L, Arguments> {
    fn fmt(&self, f: &mut fmt::Formatter<'_>) -> fmt::Result {
        f.debug_struct("AsyncDecorators").finish_non_exhaustive()
    }
}

impl<T, E, Answered, F> AsyncLayer for Function<F>
where
    F: Fn() -> Answered,
    Answered: Future<Output = Result<T, E>>,
{
    type Value = T;
    type Error = E;

    async fn call_async<P: Future<Output = ()>>(
        &self,
        (): (),
        _sleep: &impl Fn(Duration) -> P,
    ) -> Answer<Self, ()> {
        self.0().await.map_err(CallError::Failed)
    }
}

impl<A, T, E, Answered, F> AsyncLayer<(A,)> for Function<F>
where
    F: Fn(A) -> Answered,
    Answered: Future<Output = Result<T, E>>,
{
    type Value = T;
    type Error = E;

    async fn call_async<P: Future<Output = ()>>(
        &self,
        (argument,): (A,),
        _sleep: &impl Fn(Duration) -> P,
    ) -> Answer<Self, (A,)> {
        self.0(argument).await.map_err(CallError::Failed)
    }
}

// The chain inside, the bulkhead, and how long a call may wait for it.
pub struct Awaited<B, L>(L, B, Option<Duration>);

impl<B, L> Sealed for Awaited<B, L> {}

impl<A, B: AsRef<Bulkhead>, L: AsyncLayer<A>> AsyncLayer<A> for Awaited<B, L> {
    type Value = L::Value;
    type Error = L::Error;

    async fn call_async<P: Future<Output = ()>>(
        &self,
        arguments: A,
        sleep: &impl Fn(Duration) -> P,
    ) -> Answer<Self, A> {
        let Awaited(inner, bulkhead, limit) = self;
        let _permit = bulkhead.as_ref().permit_within(*limit, sleep).await?;
        inner.call_async(arguments, sleep).await
    }
}

impl<A, R, L, Errors, Values, Pause> AsyncLayer<A> for Retried<R, Errors, Values, Pause, L>
where
    A: Clone,
    R: AsRef<Retry<Errors, Values, Pause>>,
    L: AsyncLayer<A>,
    Errors: ErrorTest<CallError<L::Error>>,
    Values: ValueTest<L::Value>,
{
    type Value = L::Value;
    type Error = L::Error;

    async fn call_async<P: Future<Output = ()>>(
        &self,
        arguments: A,
        sleep: &impl Fn(Duration) -> P,
    ) -> Answer<Self, A> {
        let retry = self.retry.as_ref();
        let call = || self.inner.call_async(arguments.clone(), sleep);
        retry.call_async(call, sleep).await
    }
}

impl<A, L, G> AsyncLayer<A> for OrElse<L, G>
where
    L: AsyncLayer<A>,
    G: Fn(CallError<L::Error>) -> Answer<L, A>,
{
    type Value = L::Value;
    type Error = L::Error;

    async fn call_async<P: Future<Output = ()>>(
        &self,
        arguments: A,
        sleep: &impl Fn(Duration) -> P,
    ) -> Answer<Self, A> {
        let answer = self.inner.call_async(arguments, sleep).await;
        answer.or_else(&self.fallback)
    }
}
