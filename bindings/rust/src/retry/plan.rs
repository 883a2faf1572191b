//! What a retry does, whatever it calls: how many attempts, which waits, until when, and which observer hears of it.
use super::jitter::Jitter;
use crate::interval::Interval;
use crate::observer::Watch;
use std::time::{Duration, Instant};

#[derive(Debug, Clone)]
pub(super) struct Plan {
    pub(super) attempts: u32,
    pub(super) interval: Interval,
    pub(super) jitter: Option<Jitter>,
    // Boxed because few retries have it, so that other retries' calls make one check.
    more: Option<Box<More>>,
}

#[derive(Debug, Clone, Default)]
struct More {
    limit: Option<Duration>,
    observer: Option<Watch>,
}

/// How far a call has come: for loops of your own, such as a client's policy. Made by [`Retry::begin`](crate::Retry::begin).
#[derive(Debug, Clone)]
pub struct Attempts {
    // The number of the last attempt, from 1.
    attempt: u32,
    // Whether no other attempt follows.
    is_over: bool,
    // When the call began, if there is a limit, and the sum of all waits so far.
    began: Option<Instant>,
    waited: Duration,
}

/// Why no attempt follows.
enum End {
    Exhausted,
    OutOfTime,
}

impl Plan {
    pub(super) fn new(attempts: u32, interval: Interval) -> Plan {
        Plan {
            attempts,
            interval,
            jitter: None,
            more: None,
        }
    }

    fn more(&mut self) -> &mut More {
        self.more.get_or_insert_default()
    }

    pub(super) fn set_limit(&mut self, limit: Duration) {
        self.more().limit = Some(limit);
    }

    pub(super) fn set_observer(&mut self, observer: Watch) {
        self.more().observer = Some(observer);
    }

    pub(super) fn limit(&self) -> Option<Duration> {
        self.more.as_ref()?.limit
    }

    #[inline]
    pub(super) fn begin(&self) -> Attempts {
        Attempts {
            attempt: 1,
            is_over: false,
            began: self.more.as_ref().and_then(|more| more.begin()),
            waited: Duration::ZERO,
        }
    }

    /// The wait after the last attempt, or `asked` if that is set. None if no other attempt follows.
    pub(super) fn wait(
        &self,
        attempts: &mut Attempts,
        asked: Option<Duration>,
    ) -> Option<Duration> {
        self.next(attempts, asked).ok()
    }

    /// Like `wait`, but reports it to the observer.
    #[cold]
    pub(super) fn wait_told(
        &self,
        attempts: &mut Attempts,
        asked: Option<Duration>,
    ) -> Option<Duration> {
        let attempt = attempts.attempt;
        let next = self.next(attempts, asked);
        if let Some(Watch { name, observer, .. }) = self.observer() {
            match next {
                Ok(wait) => observer.attempt_failed(name, attempt, wait),
                Err(End::Exhausted) => observer.retry_exhausted(name, attempt),
                Err(End::OutOfTime) => observer.retry_out_of_time(name, attempt),
            }
        }
        next.ok()
    }

    /// Reports that a call ended with a value, or with an error that isn't retried.
    #[inline]
    pub(super) fn tell_answer(&self, attempts: &Attempts, is_value: bool) {
        if self.more.is_some() {
            self.tell_observer(attempts.attempt, is_value);
        }
    }

    #[cold]
    fn tell_observer(&self, attempt: u32, is_value: bool) {
        match self.observer() {
            None => {}
            Some(Watch { name, observer, .. }) if is_value => {
                observer.retry_succeeded(name, attempt);
            }
            Some(Watch { name, observer, .. }) => observer.error_ignored(name, attempt),
        }
    }

    fn observer(&self) -> Option<&Watch> {
        self.more.as_ref()?.observer.as_ref()
    }

    fn next(&self, attempts: &mut Attempts, asked: Option<Duration>) -> Result<Duration, End> {
        if attempts.is_over || attempts.attempt >= self.attempts {
            return Err(End::Exhausted);
        }
        let wait = asked.unwrap_or_else(|| {
            let whole = self.interval.after(attempts.attempt);
            let jitter = self.jitter.as_ref();
            jitter.map_or(whole, |jitter| jitter.draw(whole))
        });
        let waited = attempts.waited.saturating_add(wait);
        if let (Some(began), Some(limit)) = (attempts.began, self.limit()) {
            let ends = began.elapsed().saturating_add(wait).max(waited);
            if ends > limit {
                attempts.is_over = true;
                return Err(End::OutOfTime);
            }
        }
        attempts.attempt += 1;
        attempts.waited = waited;
        Ok(wait)
    }
}

impl More {
    #[cold]
    fn begin(&self) -> Option<Instant> {
        self.limit.map(|_| Instant::now())
    }
}

impl Attempts {
    /// The number of the last attempt, from 1.
    #[must_use]
    pub fn count(&self) -> u32 {
        self.attempt
    }
}

/// The waits between the attempts of one call. Made by [`Retry::waits`](crate::Retry::waits).
#[derive(Debug, Clone)]
#[must_use = "an iterator does nothing by itself"]
pub struct Waits<'a> {
    plan: &'a Plan,
    attempts: Attempts,
}

impl<'a> Waits<'a> {
    pub(super) fn new(plan: &'a Plan) -> Waits<'a> {
        Waits {
            plan,
            attempts: plan.begin(),
        }
    }
}

impl Iterator for Waits<'_> {
    type Item = Duration;

    fn next(&mut self) -> Option<Duration> {
        self.plan.wait(&mut self.attempts, None)
    }
}
