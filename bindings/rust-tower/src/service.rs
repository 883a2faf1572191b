//! The service that a layer makes.
use crate::{CallError, ResponseFuture};
use resil::{Acquire, Bulkhead, NoPermit, OwnedPermit};
use std::future::Future;
use std::mem;
use std::pin::Pin;
use std::sync::Arc;
use std::task::{Context, Poll, ready};
use tower_service::Service;

/// Calls a service under permits of a bulkhead, which its clones share. Made by a [`BulkheadLayer`](crate::BulkheadLayer).
///
/// A service of [`BulkheadLayer::new`](crate::BulkheadLayer::new) is ready whenever the inner service is, even while all permits are
/// held: then a call is refused at once, with [`CallError::Full`]. So a caller never waits for a permit, and needs no `LoadShed` of
/// tower. A refused call doesn't call the inner service, which stays ready for the next one.
///
/// ```
/// use resil_tower::{BulkheadLayer, CallError};
/// use std::sync::Arc;
/// use tower::{BoxError, Layer, Service, ServiceExt, service_fn};
///
/// # #[tokio::main(flavor = "current_thread")]
/// # async fn main() -> Result<(), BoxError> {
/// let backend = Arc::new(resil::Bulkhead::new("backend", 1)?);
/// let answers = service_fn(async |number: u32| Ok::<u32, &str>(number + 1));
/// let mut answers = BulkheadLayer::new(Arc::clone(&backend)).layer(answers);
/// let _permit = backend.enter()?;
/// assert_eq!(answers.ready().await?.call(41).await, Err(CallError::Full));
/// # Ok(())
/// # }
/// ```
///
/// A service of [`BulkheadLayer::waiting`](crate::BulkheadLayer::waiting) is ready once it has a permit for the next call and the inner
/// service is ready. A clone has no permit yet. If it is dropped before the call, it gives back the permit, or leaves the queue.
#[derive(Debug)]
pub struct BulkheadService<S> {
    inner: S,
    bulkhead: Arc<Bulkhead>,
    next: Next,
}

/// What there is for the next call.
#[derive(Debug)]
enum Next {
    // The call takes a permit, or is refused.
    Asks,
    // The service waits for one.
    Waits(Acquire),
    Has(OwnedPermit),
}

impl<S> BulkheadService<S> {
    pub(crate) fn new(inner: S, bulkhead: Arc<Bulkhead>, waits: bool) -> BulkheadService<S> {
        let next = if waits {
            Next::Waits(bulkhead.acquire_owned())
        } else {
            Next::Asks
        };
        BulkheadService {
            inner,
            bulkhead,
            next,
        }
    }
}

impl<S: Clone> Clone for BulkheadService<S> {
    fn clone(&self) -> BulkheadService<S> {
        let waits = !matches!(self.next, Next::Asks);
        BulkheadService::new(self.inner.clone(), Arc::clone(&self.bulkhead), waits)
    }
}

impl<S, Request> Service<Request> for BulkheadService<S>
where
    S: Service<Request>,
{
    type Response = S::Response;
    type Error = CallError<S::Error>;
    type Future = ResponseFuture<S::Future>;

    #[inline]
    fn poll_ready(&mut self, context: &mut Context<'_>) -> Poll<Result<(), Self::Error>> {
        if let Next::Waits(acquire) = &mut self.next {
            self.next = match ready!(Pin::new(acquire).poll(context)) {
                Ok(permit) => Next::Has(permit),
                Err(refused) => {
                    self.next = Next::Waits(self.bulkhead.acquire_owned());
                    return Poll::Ready(Err(refused.into()));
                }
            };
        }
        self.inner.poll_ready(context).map_err(CallError::Failed)
    }

    /// # Panics
    ///
    /// If the service waits for permits and wasn't ready.
    #[inline]
    fn call(&mut self, request: Request) -> Self::Future {
        let permit = match &self.next {
            Next::Asks => self.bulkhead.enter_owned(),
            Next::Waits(_) => panic!("a service was called before it was ready"),
            Next::Has(_) => {
                let waits = Next::Waits(self.bulkhead.acquire_owned());
                match mem::replace(&mut self.next, waits) {
                    Next::Has(permit) => Ok(permit),
                    Next::Asks | Next::Waits(_) => Err(NoPermit::Full),
                }
            }
        };
        match permit {
            // If the inner service panics, the permit is dropped.
            Ok(permit) => ResponseFuture::running(self.inner.call(request), permit),
            Err(refused) => ResponseFuture::refused(refused),
        }
    }
}
