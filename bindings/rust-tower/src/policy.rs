//! A retry as a tower policy.
use pin_project_lite::pin_project;
use resil::{Attempts, ErrorTest, EveryError, NoValue, Retry, ValueTest};
use std::fmt;
use std::future::Future;
use std::pin::Pin;
use std::sync::Arc;
use std::task::{Context, Poll, ready};
use std::time::Duration;

/// A [`Retry`] as a policy for tower's `Retry`. It waits by awaiting the futures that a function such as `tokio::time::sleep` returns.
///
/// Each call of the service starts anew, with a clone of the policy; all clones share the retry, its jitter and its observer. A request
/// is copied for the next attempt, with its `Clone` or with the function passed to [`cloning`](RetryPolicy::cloning), and that attempt
/// waits until the service is ready. You can drop a service or a call at any time: what is in progress is dropped, and no other attempt
/// follows.
///
/// With the feature `retry` it implements the policy of tower 0.4:
///
/// ```
/// # #[cfg(not(feature = "retry"))]
/// # fn main() {}
/// # #[cfg(feature = "retry")]
/// # #[tokio::main(flavor = "current_thread")]
/// # async fn main() -> Result<(), tower::BoxError> {
/// use resil::{Bulkhead, CallError, Interval, Retry};
/// use resil_tower::{BulkheadLayer, RetryPolicy};
/// use std::{sync::Arc, time::Duration};
/// use tower::{Service, ServiceBuilder, ServiceExt, service_fn};
///
/// let backend = Arc::new(Bulkhead::new("backend", 25)?);
/// let retry = Retry::new().interval(Interval::fixed(Duration::from_millis(1)));
/// // Each attempt takes a permit.
/// let mut fails = ServiceBuilder::new()
///     .retry(RetryPolicy::new(retry, tokio::time::sleep))
///     .layer(BulkheadLayer::new(backend))
///     .service(service_fn(async |_: u32| Err::<u32, _>("busy")));
/// assert_eq!(fails.ready().await?.call(41).await, Err(CallError::Failed("busy")));
/// # Ok(())
/// # }
/// ```
///
/// For other versions of tower, implement their trait for a wrapper of your own, using [`again`](RetryPolicy::again).
pub struct RetryPolicy<
    S,
    Errors = EveryError,
    Values = NoValue,
    Pause = fn(Duration),
    Cloning = EveryClone,
> {
    retry: Arc<Retry<Errors, Values, Pause>>,
    cloning: Arc<Cloning>,
    sleep: S,
    attempts: Attempts,
}

impl<S, Errors, Values, Pause> RetryPolicy<S, Errors, Values, Pause> {
    /// Makes a policy of this retry. `sleep` returns a future that is ready after the given time.
    pub fn new<F>(retry: Retry<Errors, Values, Pause>, sleep: S) -> Self
    where
        S: Fn(Duration) -> F + Clone,
        F: Future<Output = ()>,
    {
        RetryPolicy {
            attempts: retry.begin(),
            retry: Arc::new(retry),
            cloning: Arc::new(EveryClone),
            sleep,
        }
    }
}

impl<S, Errors, Values, Pause, Cloning> RetryPolicy<S, Errors, Values, Pause, Cloning> {
    /// Copies requests with this function, even those that aren't `Clone`. A request that it doesn't copy is sent only once.
    ///
    /// ```
    /// # use {resil::Retry, resil_tower::RetryPolicy};
    /// struct Request(u32);
    /// let policy = RetryPolicy::new(Retry::new(), tokio::time::sleep)
    ///     .cloning(|request: &Request| Some(Request(request.0)));
    /// ```
    pub fn cloning<Request, C>(self, cloning: C) -> RetryPolicy<S, Errors, Values, Pause, C>
    where
        C: Fn(&Request) -> Option<Request>,
    {
        RetryPolicy {
            retry: self.retry,
            cloning: Arc::new(cloning),
            sleep: self.sleep,
            attempts: self.attempts,
        }
    }

    /// The wait before the next attempt of this call, or `None` if the outcome is the answer.
    ///
    /// ```
    /// # use {resil::Retry, resil_tower::RetryPolicy};
    /// let mut policy = RetryPolicy::new(Retry::new(), tokio::time::sleep);
    /// // A success is the answer.
    /// assert!(policy.again(Ok::<_, &()>(&42)).is_none());
    /// ```
    pub fn again<T, E, F>(&mut self, outcome: Result<&T, &E>) -> Option<F>
    where
        S: Fn(Duration) -> F,
        Errors: ErrorTest<E>,
        Values: ValueTest<T>,
    {
        let wait = self.retry.wait_after(&mut self.attempts, outcome)?;
        Some((self.sleep)(wait))
    }

    // The same call, continued.
    fn same(&self) -> Self
    where
        S: Clone,
    {
        RetryPolicy {
            retry: Arc::clone(&self.retry),
            cloning: Arc::clone(&self.cloning),
            sleep: self.sleep.clone(),
            attempts: self.attempts.clone(),
        }
    }
}

/// A clone is for another call, which begins with it.
impl<S: Clone, Errors, Values, Pause, Cloning> Clone
    for RetryPolicy<S, Errors, Values, Pause, Cloning>
{
    fn clone(&self) -> Self {
        RetryPolicy {
            attempts: self.retry.begin(),
            ..self.same()
        }
    }
}

impl<S, Errors, Values, Pause, Cloning> fmt::Debug
    for RetryPolicy<S, Errors, Values, Pause, Cloning>
{
    fn fmt(&self, f: &mut fmt::Formatter<'_>) -> fmt::Result {
        f.debug_struct("RetryPolicy")
            .field("retry", &self.retry)
            .field("attempts", &self.attempts.count())
            .finish_non_exhaustive()
    }
}

/// How requests of a type are copied for the next attempt. Functions of a reference to the request implement it: pass one to
/// [`RetryPolicy::cloning`].
pub trait CloneRequest<Request> {
    /// Returns a copy, or `None` if the request isn't to be sent again.
    fn cloned(&self, request: &Request) -> Option<Request>;
}

/// Copies each request with its `Clone`.
#[derive(Debug, Clone, Copy)]
pub struct EveryClone;

impl<Request: Clone> CloneRequest<Request> for EveryClone {
    fn cloned(&self, request: &Request) -> Option<Request> {
        Some(request.clone())
    }
}

impl<Request, F: Fn(&Request) -> Option<Request>> CloneRequest<Request> for F {
    fn cloned(&self, request: &Request) -> Option<Request> {
        self(request)
    }
}

pin_project! {
    /// The wait of a [`RetryPolicy`] before the next attempt. Its output is the policy.
    #[derive(Debug)]
    #[must_use = "a future that isn't polled does nothing"]
    pub struct Wait<F, P> {
        #[pin]
        sleep: F,
        policy: Option<P>,
    }
}

impl<F: Future<Output = ()>, P> Future for Wait<F, P> {
    type Output = P;

    /// # Panics
    ///
    /// If it is polled again after it was ready.
    fn poll(self: Pin<&mut Self>, context: &mut Context<'_>) -> Poll<P> {
        let this = self.project();
        ready!(this.sleep.poll(context));
        Poll::Ready(this.policy.take().expect("a wait was polled after its end"))
    }
}

#[cfg(feature = "retry")]
impl<Request, T, E, S, F, Errors, Values, Pause, Cloning> tower::retry::Policy<Request, T, E>
    for RetryPolicy<S, Errors, Values, Pause, Cloning>
where
    Cloning: CloneRequest<Request>,
    S: Fn(Duration) -> F + Clone,
    F: Future<Output = ()>,
    Errors: ErrorTest<E>,
    Values: ValueTest<T>,
{
    type Future = Wait<F, Self>;

    fn retry(&self, _request: &Request, outcome: Result<&T, &E>) -> Option<Wait<F, Self>> {
        let mut policy = self.same();
        let sleep = policy.again(outcome)?;
        Some(Wait {
            sleep,
            policy: Some(policy),
        })
    }

    fn clone_request(&self, request: &Request) -> Option<Request> {
        self.cloning.cloned(request)
    }
}
