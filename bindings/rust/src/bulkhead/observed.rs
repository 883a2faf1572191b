//! What a bulkhead reports to its observer, if it has one. Every permit that is taken or given back goes through here.
use super::Bulkhead;
use super::error::NoPermit;
use super::runs::Runs;
use super::seats::{Place, Stamp};
use crate::observer::{WaitEnd, Watch};
use std::mem;
use std::time::Duration;

impl Bulkhead {
    /// Takes a permit for a call. A permit from the thread's own seat isn't reported, since an observed bulkhead has no such seats.
    #[inline]
    pub(super) fn enter_place(&self) -> Result<Place, NoPermit> {
        if self.is_closed() {
            return self.told(Err(NoPermit::Closed));
        }
        self.seats.acquire_or(|number| self.enter_elsewhere(number))
    }

    // The fast exit is for bulkheads without an observer.
    #[cold]
    fn enter_elsewhere(&self, number: usize) -> Result<Place, NoPermit> {
        match &self.observer {
            None => self.seats.acquire_spare(number),
            Some(watch) => self.enter_observed(watch, number),
        }
    }

    #[inline(never)]
    fn enter_observed(&self, watch: &Watch, number: usize) -> Result<Place, NoPermit> {
        self.tell(watch, self.seats.acquire_observed(number))
    }

    /// Gives back a call's permit.
    #[inline]
    pub(super) fn give_back(&self, place: Place) {
        match place {
            Place::Seat(_) => self.release(place),
            Place::Elsewhere(stamp) => self.give_back_elsewhere(stamp),
        }
    }

    #[cold]
    fn give_back_elsewhere(&self, stamp: Stamp) {
        match &self.observer {
            None => self.release(Place::Elsewhere(stamp)),
            Some(watch) => self.give_back_observed(watch, stamp),
        }
    }

    #[inline(never)]
    fn give_back_observed(&self, watch: &Watch, stamp: Stamp) {
        let time = watch.nanoseconds().map(|now| stamp.until(now));
        self.release(Place::Elsewhere(stamp));
        watch
            .observer
            .call_finished(&watch.name, time.unwrap_or_default());
    }

    /// Reports that a call has a permit, or that it was refused.
    #[inline]
    pub(super) fn told(&self, acquired: Result<Place, NoPermit>) -> Result<Place, NoPermit> {
        match &self.observer {
            None => acquired,
            Some(watch) => self.tell(watch, acquired),
        }
    }

    #[inline]
    fn tell(&self, watch: &Watch, acquired: Result<Place, NoPermit>) -> Result<Place, NoPermit> {
        match acquired {
            Ok(place) => Ok(self.permitted(watch, place)),
            Err(refused) => {
                watch.observer.call_refused(&watch.name);
                Err(refused)
            }
        }
    }

    /// The time at which a wait begins that is to be reported. None without an observer.
    pub(super) fn now(&self) -> Option<Duration> {
        self.observer.as_deref().map(Watch::now)
    }

    /// Reports how a wait ended. `since` is when it began, or none if there was nothing to wait for.
    pub(super) fn tell_wait(&self, since: Option<Duration>, end: WaitEnd) {
        if let Some(watch) = &self.observer {
            let time = since.map(|since| watch.since(since));
            watch
                .observer
                .call_waited(&watch.name, time.unwrap_or_default(), end);
        }
    }

    /// Reports how a wait ended, and then that the call has a permit or was refused.
    #[inline]
    pub(super) fn told_wait(
        &self,
        since: Option<Duration>,
        acquired: Result<Place, WaitEnd>,
    ) -> Result<Place, NoPermit> {
        match &self.observer {
            None => acquired.map_err(NoPermit::from),
            Some(watch) => self.tell_all_of_wait(watch, since, acquired),
        }
    }

    #[inline(never)]
    fn tell_all_of_wait(
        &self,
        watch: &Watch,
        since: Option<Duration>,
        acquired: Result<Place, WaitEnd>,
    ) -> Result<Place, NoPermit> {
        // Given back if the observer panics.
        let held = acquired.map(|place| Held(self, place));
        self.tell_wait(
            since,
            held.as_ref().err().copied().unwrap_or(WaitEnd::Granted),
        );
        self.tell(watch, held.map(Held::keep).map_err(NoPermit::from))
    }

    /// Like `told_wait`, for several permits.
    pub(super) fn told_wait_all(
        &self,
        since: Option<Duration>,
        acquired: Result<Runs, WaitEnd>,
    ) -> Result<Runs, NoPermit> {
        let held = acquired.map(|runs| HeldAll(self, runs));
        self.tell_wait(
            since,
            held.as_ref().err().copied().unwrap_or(WaitEnd::Granted),
        );
        self.told_all(held.map(HeldAll::keep).map_err(NoPermit::from))
    }

    /// Reports for each permit that a call has it, or once that the call was refused. All the permits have the same start time.
    pub(super) fn told_all(&self, acquired: Result<Runs, NoPermit>) -> Result<Runs, NoPermit> {
        let Some(watch) = &self.observer else {
            return acquired;
        };
        let Ok(runs) = acquired else {
            watch.observer.call_refused(&watch.name);
            return acquired;
        };
        let now = watch.nanoseconds();
        let mut untold = HeldAll(self, runs.map(|place| place.at(now)));
        let mut told = ToldAll(self, Runs::default());
        while let Some(run) = untold.1.pop(1) {
            let held = Held(self, run.place);
            watch.observer.call_permitted(&watch.name);
            held.keep();
            told.1.push(run);
        }
        Ok(mem::take(&mut told.1))
    }

    /// Gives back a call's permits, and reports each.
    pub(super) fn give_back_all(&self, runs: Runs) {
        if runs.count() == 0 {
            return;
        }
        let Some(watch) = &self.observer else {
            return self.put_back_all(runs);
        };
        let now = watch.nanoseconds();
        let times: Vec<_> = runs
            .iter()
            .map(|run| (run.count, now.map(|now| run.place.until(now))))
            .collect();
        self.put_back_all(runs);
        for (count, time) in times {
            for _ in 0..count {
                watch
                    .observer
                    .call_finished(&watch.name, time.unwrap_or_default());
            }
        }
    }

    /// Reports that a call gave its permit back unused, because it was out of time.
    pub(super) fn tell_time_out(&self) {
        if let Some(watch) = &self.observer {
            watch.observer.call_timed_out(&watch.name);
        }
    }

    // The call's time begins after the observer returns.
    #[inline]
    fn permitted(&self, watch: &Watch, place: Place) -> Place {
        let held = Held(self, place);
        watch.observer.call_permitted(&watch.name);
        held.keep().at(watch.nanoseconds())
    }
}

/// Permits that are given back if there is a panic before they are kept.
pub(super) struct HeldAll<'a>(pub(super) &'a Bulkhead, pub(super) Runs);

impl HeldAll<'_> {
    pub(super) fn keep(mut self) -> Runs {
        mem::take(&mut self.1)
    }
}

impl Drop for HeldAll<'_> {
    fn drop(&mut self) {
        self.0.put_back_all(mem::take(&mut self.1));
    }
}

/// Like `HeldAll`, for permits that the observer has heard of: it also hears that they are given back.
struct ToldAll<'a>(&'a Bulkhead, Runs);

impl Drop for ToldAll<'_> {
    fn drop(&mut self) {
        self.0.give_back_all(mem::take(&mut self.1));
    }
}

/// A permit that is given back if there is a panic before it is kept: an observer or a waker may panic.
pub(super) struct Held<'a>(pub(super) &'a Bulkhead, pub(super) Place);

impl Held<'_> {
    #[inline]
    pub(super) fn keep(self) -> Place {
        let place = self.1;
        mem::forget(self);
        place
    }
}

impl Drop for Held<'_> {
    fn drop(&mut self) {
        self.0.release(self.1);
    }
}
