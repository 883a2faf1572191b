//! The layer whose calls wait.
use crate::{BulkheadLayer, CallError, ResponseFuture};
use pin_project_lite::pin_project;
use resil::{Acquire, Bulkhead, OwnedPermit};
use std::fmt;
use std::future::{self, Future, Pending};
use std::pin::Pin;
use std::sync::Arc;
use std::task::{Context, Poll, ready};
use std::time::Duration;
use tower_layer::Layer;
use tower_service::Service;

impl BulkheadLayer {
    /// Makes a layer over this bulkhead whose services are always ready, and whose calls wait for a permit, first come, first served, in
    /// the order of their first polls. Nothing is held between calls: an idle connection has neither a permit nor a place in the queue.
    ///
    /// A call waits until there is a permit and the inner service is ready. The wait ends early if its future is dropped (by a tower
    /// `Timeout` around it, for example), or if the layer limits [how long](QueueingLayer::longest) or [how
    /// many](QueueingLayer::most_waiting) calls may wait. The inner service is polled for readiness once there is a permit, so each call
    /// has its own clone of it.
    ///
    /// ```
    /// # use {resil::Bulkhead, resil_tower::BulkheadLayer, std::sync::Arc};
    /// # let backend = Arc::new(Bulkhead::new("backend", 25)?);
    /// let layer = BulkheadLayer::queueing(Arc::clone(&backend));
    /// # Ok::<(), resil::BulkheadError>(())
    /// ```
    pub fn queueing(bulkhead: Arc<Bulkhead>) -> QueueingLayer {
        QueueingLayer {
            bulkhead,
            most_waiting: usize::MAX,
            longest: Duration::MAX,
            sleep: |_longest| future::pending(),
        }
    }
}

/// Puts a bulkhead around a service whose calls wait for its permits. Made by [`BulkheadLayer::queueing`].
#[derive(Clone)]
#[must_use = "a layer does nothing before it is put around a service"]
pub struct QueueingLayer<P = fn(Duration) -> Pending<()>> {
    bulkhead: Arc<Bulkhead>,
    most_waiting: usize,
    longest: Duration,
    sleep: P,
}

impl<P> QueueingLayer<P> {
    /// Limits how long a call may wait, as Resilience4j's `maxWaitDuration` does: it ends with [`CallError::TimedOut`] if it hasn't begun
    /// by then, because it has no permit or because the inner service isn't ready. In the second case the permit is given back, and this
    /// is reported to the bulkhead's observer with `call_timed_out`. There is no limit once the inner service has been called. `sleep`
    /// returns a future that is ready after the given time, as `tokio::time::sleep` does.
    ///
    /// ```
    /// # use {resil::Bulkhead, resil_tower::BulkheadLayer, std::sync::Arc, std::time::Duration};
    /// # let backend = Arc::new(Bulkhead::new("backend", 25)?);
    /// let layer = BulkheadLayer::queueing(backend)
    ///     .longest(Duration::from_millis(500), tokio::time::sleep);
    /// # Ok::<(), resil::BulkheadError>(())
    /// ```
    pub fn longest<S, F>(self, longest: Duration, sleep: S) -> QueueingLayer<S>
    where
        S: Fn(Duration) -> F + Clone,
        F: Future<Output = ()>,
    {
        QueueingLayer {
            bulkhead: self.bulkhead,
            most_waiting: self.most_waiting,
            longest,
            sleep,
        }
    }

    /// Limits how many calls may wait: one that would have to wait is refused at once with [`CallError::Full`] if `most` calls already
    /// wait for the bulkhead, through this layer or otherwise.
    ///
    /// ```
    /// # use {resil::Bulkhead, resil_tower::BulkheadLayer, std::sync::Arc};
    /// # let backend = Arc::new(Bulkhead::new("backend", 25)?);
    /// // A hundred may wait; the others are refused at once.
    /// let layer = BulkheadLayer::queueing(backend).most_waiting(100);
    /// # Ok::<(), resil::BulkheadError>(())
    /// ```
    pub fn most_waiting(mut self, most: usize) -> QueueingLayer<P> {
        self.most_waiting = most;
        self
    }
}

impl<S, P: Clone> Layer<S> for QueueingLayer<P> {
    type Service = QueueingService<S, P>;

    fn layer(&self, inner: S) -> QueueingService<S, P> {
        QueueingService {
            inner,
            layer: self.clone(),
        }
    }
}

// Written by hand, since a function such as `tokio::time::sleep` isn't `Debug`.
impl<P> fmt::Debug for QueueingLayer<P> {
    fn fmt(&self, f: &mut fmt::Formatter<'_>) -> fmt::Result {
        f.debug_struct("QueueingLayer")
            .field("bulkhead", &self.bulkhead)
            .field("most_waiting", &self.most_waiting)
            .field("longest", &self.longest)
            .finish_non_exhaustive()
    }
}

/// Calls clones of a service under permits of a bulkhead, which the calls wait for. It is always ready. Made by a [`QueueingLayer`].
#[derive(Clone)]
pub struct QueueingService<S, P = fn(Duration) -> Pending<()>> {
    inner: S,
    layer: QueueingLayer<P>,
}

impl<S: fmt::Debug, P> fmt::Debug for QueueingService<S, P> {
    fn fmt(&self, f: &mut fmt::Formatter<'_>) -> fmt::Result {
        f.debug_struct("QueueingService")
            .field("inner", &self.inner)
            .field("layer", &self.layer)
            .finish()
    }
}

impl<S, P, F, Request> Service<Request> for QueueingService<S, P>
where
    S: Service<Request> + Clone,
    P: Fn(Duration) -> F + Clone,
    F: Future<Output = ()>,
{
    type Response = S::Response;
    type Error = CallError<S::Error>;
    type Future = QueueingFuture<S, Request, P, F>;

    #[inline]
    fn poll_ready(&mut self, _context: &mut Context<'_>) -> Poll<Result<(), Self::Error>> {
        Poll::Ready(Ok(()))
    }

    #[inline]
    fn call(&mut self, request: Request) -> Self::Future {
        let QueueingLayer {
            bulkhead,
            most_waiting,
            longest,
            sleep,
        } = &self.layer;
        QueueingFuture {
            acquire: bulkhead.acquire_owned().most_waiting(*most_waiting),
            longest: *longest,
            sleep: sleep.clone(),
            timer: None,
            permit: None,
            next: Some((self.inner.clone(), request)),
            call: None,
        }
    }
}

pin_project! {
    /// The answer of a call that first waits for its permit, or why there is none.
    ///
    /// It is in the bulkhead's queue from its first poll on. It gives the permit back before it is ready, or when it is dropped.
    #[must_use = "a future that isn't polled makes no call"]
    pub struct QueueingFuture<S, Request, P, F>
    where
        S: Service<Request>,
    {
        acquire: Acquire,
        longest: Duration,
        sleep: P,
        // Set from the first poll that finds no permit, or an inner service that isn't ready.
        #[pin]
        timer: Option<F>,
        // The service and the request, until the service is called.
        next: Option<(S, Request)>,
        // Set while the service isn't ready yet.
        permit: Option<OwnedPermit>,
        #[pin]
        call: Option<ResponseFuture<S::Future>>,
    }
}

impl<S, Request, P, F> QueueingFuture<S, Request, P, F>
where
    S: Service<Request>,
    P: Fn(Duration) -> F,
    F: Future<Output = ()>,
{
    // Waits for a permit and for the inner service to be ready, both within the call's time limit.
    #[inline]
    fn poll_begin(
        self: Pin<&mut Self>,
        context: &mut Context<'_>,
    ) -> Poll<Result<(), CallError<S::Error>>> {
        let mut this = self.project();
        if this.permit.is_none() {
            if let Poll::Ready(acquired) = Pin::new(&mut *this.acquire).poll(context) {
                *this.permit = Some(acquired?);
            }
        }
        if let (Some(_), Some((inner, _))) = (&this.permit, &mut *this.next) {
            if let Poll::Ready(ready) = inner.poll_ready(context) {
                if this.timer.is_some() {
                    this.timer.set(None);
                }
                return Poll::Ready(ready.map_err(CallError::Failed));
            }
        }
        if this.timer.is_none() {
            this.timer.set(Some((this.sleep)(*this.longest)));
        }
        if let Some(timer) = this.timer.as_pin_mut() {
            ready!(timer.poll(context));
        }
        match this.permit.take() {
            Some(permit) => permit.time_out(),
            None => {
                this.acquire.give_up();
            }
        }
        Poll::Ready(Err(CallError::TimedOut))
    }

    fn poll_answer(
        mut self: Pin<&mut Self>,
        context: &mut Context<'_>,
    ) -> Poll<Result<S::Response, CallError<S::Error>>> {
        if self.next.is_some() {
            ready!(self.as_mut().poll_begin(context))?;
        }
        let mut this = self.project();
        if let Some(((mut inner, request), permit)) = this.next.take().zip(this.permit.take()) {
            // If the inner service panics, the permit is dropped.
            let call = ResponseFuture::running(inner.call(request), permit);
            this.call.set(Some(call));
        }
        let call = this.call.as_pin_mut();
        call.expect("a call's future was polled after completion")
            .poll(context)
    }
}

impl<S, Request, P, F> Future for QueueingFuture<S, Request, P, F>
where
    S: Service<Request>,
    P: Fn(Duration) -> F,
    F: Future<Output = ()>,
{
    type Output = Result<S::Response, CallError<S::Error>>;

    /// # Panics
    ///
    /// If it is polled again after it was ready.
    #[inline]
    fn poll(mut self: Pin<&mut Self>, context: &mut Context<'_>) -> Poll<Self::Output> {
        let answer = ready!(self.as_mut().poll_answer(context));
        let mut this = self.project();
        this.call.set(None);
        *this.next = None;
        *this.permit = None;
        Poll::Ready(answer)
    }
}

impl<S: Service<Request>, Request, P, F> fmt::Debug for QueueingFuture<S, Request, P, F> {
    fn fmt(&self, f: &mut fmt::Formatter<'_>) -> fmt::Result {
        f.debug_struct("QueueingFuture").finish_non_exhaustive()
    }
}
