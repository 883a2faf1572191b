//! Single permits of a bulkhead.
use super::Bulkhead;
use super::seats::Place;
use std::fmt;
use std::sync::Arc;

/// A permit of a [`Bulkhead`], given back when it is dropped. It can move to another thread.
#[must_use = "a permit that is dropped is given back at once"]
pub struct Permit<'a> {
    bulkhead: &'a Bulkhead,
    place: Place,
}

impl<'a> Permit<'a> {
    #[inline]
    pub(super) fn new(bulkhead: &'a Bulkhead, place: Place) -> Permit<'a> {
        Permit { bulkhead, place }
    }
}

impl Drop for Permit<'_> {
    #[inline]
    fn drop(&mut self) {
        self.bulkhead.give_back(self.place);
    }
}

impl fmt::Debug for Permit<'_> {
    fn fmt(&self, f: &mut fmt::Formatter<'_>) -> fmt::Result {
        show("Permit", self.bulkhead, f)
    }
}

/// A permit that keeps its [`Bulkhead`] alive, given back when it is dropped. It can move into a thread, a future or a service.
#[must_use = "a permit that is dropped is given back at once"]
pub struct OwnedPermit {
    bulkhead: Arc<Bulkhead>,
    // None after `forget`.
    place: Option<Place>,
}

impl OwnedPermit {
    #[inline]
    pub(super) fn new(bulkhead: Arc<Bulkhead>, place: Place) -> OwnedPermit {
        OwnedPermit {
            bulkhead,
            place: Some(place),
        }
    }

    /// Gives the permit back, and reports to the bulkhead's observer that its call timed out before it was made. For the crate
    /// resil-tower.
    #[doc(hidden)]
    pub fn time_out(self) {
        let bulkhead = Arc::clone(&self.bulkhead);
        drop(self);
        bulkhead.tell_time_out();
    }

    /// Drops the permit without giving it back: it counts as held for good, but doesn't keep the bulkhead alive.
    pub fn forget(mut self) {
        if let Some(place) = self.place.take() {
            self.bulkhead.seats.forget(place);
        }
    }
}

impl Drop for OwnedPermit {
    #[inline]
    fn drop(&mut self) {
        if let Some(place) = self.place {
            self.bulkhead.give_back(place);
        }
    }
}

impl fmt::Debug for OwnedPermit {
    fn fmt(&self, f: &mut fmt::Formatter<'_>) -> fmt::Result {
        show("OwnedPermit", &self.bulkhead, f)
    }
}

fn show(name: &str, bulkhead: &Bulkhead, f: &mut fmt::Formatter<'_>) -> fmt::Result {
    f.debug_struct(name).field("bulkhead", bulkhead).finish()
}
