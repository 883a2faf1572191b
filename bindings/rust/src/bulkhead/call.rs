//! Calls of functions that return futures, each under a permit.
use super::Bulkhead;
use super::error::NoPermit;
use super::permit::Permit;
use super::wait::Wait;
use std::future::{self, poll_fn};
use std::pin::pin;
use std::task::{Poll, ready};
use std::time::Duration;

impl Bulkhead {
    /// Awaits a permit as [`acquire_owned`](Bulkhead::acquire_owned) does, calls the function, and awaits its future. The permit is given
    /// back when that future completes or panics, or when the returned future is dropped.
    ///
    /// # Errors
    ///
    /// `Closed` if the bulkhead is closed, before or during the wait; `Full` if it has no permits at all. In both cases the function
    /// wasn't called.
    ///
    /// ```
    /// use resil::{Bulkhead, NoPermit};
    ///
    /// async fn price(backend: &Bulkhead) -> Result<u32, NoPermit> {
    ///     backend.call_async(async || 42).await
    /// }
    /// ```
    pub async fn call_async<A: Future>(
        &self,
        function: impl FnOnce() -> A,
    ) -> Result<A::Output, NoPermit> {
        let endless = |_limit| future::pending();
        let _permit = self.permit_within(None, endless).await?;
        Ok(function().await)
    }

    /// Like [`call_async`](Bulkhead::call_async), but waits for a permit for at most `limit`. `sleep` returns a future that is ready
    /// after the given time, as `tokio::time::sleep` does; it is called only if no permit is free at once.
    ///
    /// # Errors
    ///
    /// Those of [`call_async`](Bulkhead::call_async); `TimedOut` if there was no permit within the limit.
    ///
    /// ```
    /// use resil::{Bulkhead, NoPermit};
    /// use std::time::Duration;
    ///
    /// # async fn sleep(_time: Duration) {}
    /// async fn price(backend: &Bulkhead) -> Result<u32, NoPermit> {
    ///     // Pass your runtime's sleep, such as `tokio::time::sleep`.
    ///     backend.call_async_within(async || 42, Duration::from_millis(500), sleep).await
    /// }
    /// ```
    pub async fn call_async_within<A: Future, Sleep: Future<Output = ()>>(
        &self,
        function: impl FnOnce() -> A,
        limit: Duration,
        sleep: impl FnOnce(Duration) -> Sleep,
    ) -> Result<A::Output, NoPermit> {
        let _permit = self.permit_within(Some(limit), sleep).await?;
        Ok(function().await)
    }

    pub(crate) async fn permit_within<Sleep: Future<Output = ()>>(
        &self,
        limit: Option<Duration>,
        sleep: impl FnOnce(Duration) -> Sleep,
    ) -> Result<Permit<'_>, NoPermit> {
        let mut wait = Wait::new(self);
        let mut sleep = Some(sleep);
        let mut timer = pin!(None);
        let acquired = poll_fn(|context| {
            if let Poll::Ready(acquired) = wait.poll_one(context.waker()) {
                return Poll::Ready(acquired);
            }
            if let Some((limit, sleep)) = limit.zip(sleep.take()) {
                timer.set(Some(sleep(limit)));
            }
            let Some(timer) = timer.as_mut().as_pin_mut() else {
                return Poll::Pending;
            };
            ready!(timer.poll(context));
            Poll::Ready(Err(wait.give_up()))
        });
        let (own, place) = acquired.await?;
        Ok(Permit::new(own, place))
    }
}
