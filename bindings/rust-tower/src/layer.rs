//! The layer that refuses calls, or takes permits before them.
use crate::BulkheadService;
use resil::Bulkhead;
use std::sync::Arc;
use tower_layer::Layer;

/// Puts a bulkhead around a service. All services of a layer and its clones share the bulkhead's permits.
///
/// There are three kinds: [`queueing`](BulkheadLayer::queueing) makes calls wait for a permit, [`new`](BulkheadLayer::new) refuses calls
/// that find none, and [`waiting`](BulkheadLayer::waiting) takes a permit before there is a call.
#[derive(Debug, Clone)]
#[must_use = "a layer does nothing before it is put around a service"]
pub struct BulkheadLayer {
    bulkhead: Arc<Bulkhead>,
    waits: bool,
}

impl BulkheadLayer {
    /// Makes a layer over this bulkhead, which may also be used elsewhere.
    ///
    /// ```
    /// # use {resil::Bulkhead, resil_tower::BulkheadLayer, std::sync::Arc};
    /// # let backend = Arc::new(Bulkhead::new("backend", 25)?);
    /// // At most 25 calls at a time; the others are refused at once.
    /// let layer = BulkheadLayer::new(Arc::clone(&backend));
    /// # Ok::<(), resil::BulkheadError>(())
    /// ```
    pub fn new(bulkhead: Arc<Bulkhead>) -> BulkheadLayer {
        BulkheadLayer {
            bulkhead,
            waits: false,
        }
    }

    /// Makes a layer over this bulkhead whose services are ready once they have a permit for the next call, like tower's
    /// `ConcurrencyLimit`: so nothing is refused. Services wait in the bulkhead's queue.
    ///
    /// **A service that is ready keeps its permit, whether a call follows or not.** A hyper server polls its service for readiness before
    /// it reads a request, so idle connections take all the permits, and nobody else is served. tower's `Timeout` around it doesn't bound
    /// this wait either. In a server, use [`queueing`](BulkheadLayer::queueing).
    ///
    /// ```
    /// # use {resil::Bulkhead, resil_tower::BulkheadLayer, std::sync::Arc};
    /// # let backend = Arc::new(Bulkhead::new("backend", 25)?);
    /// let layer = BulkheadLayer::waiting(Arc::clone(&backend));
    /// # Ok::<(), resil::BulkheadError>(())
    /// ```
    pub fn waiting(bulkhead: Arc<Bulkhead>) -> BulkheadLayer {
        BulkheadLayer {
            bulkhead,
            waits: true,
        }
    }
}

impl<S> Layer<S> for BulkheadLayer {
    type Service = BulkheadService<S>;

    fn layer(&self, inner: S) -> BulkheadService<S> {
        BulkheadService::new(inner, Arc::clone(&self.bulkhead), self.waits)
    }
}
