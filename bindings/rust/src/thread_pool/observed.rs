//! Jobs of an observed pool, which report their own start and end.
use super::crew::Crew;
use super::handle::JobHandle;
use super::refused::Refused;
use super::task::Function;
use crate::observer::Watch;
use std::panic::{AssertUnwindSafe, catch_unwind, resume_unwind};
use std::sync::Arc;
use std::time::Duration;

/// A function with the observer of its pool, and when it was submitted.
struct Observed<F> {
    function: F,
    watch: Arc<Watch>,
    submitted: Duration,
}

impl<T, F: FnOnce() -> T> Function<T> for Observed<F> {
    fn run(self) -> T {
        let Watch { name, observer, .. } = &*self.watch;
        let begun = self.watch.now();
        observer.job_started(name, begun.saturating_sub(self.submitted));
        // The observer is called outside the unwinding.
        match catch_unwind(AssertUnwindSafe(self.function)) {
            Ok(answer) => {
                observer.job_finished(name, self.watch.since(begun));
                answer
            }
            Err(payload) => {
                observer.job_panicked(name, self.watch.since(begun));
                resume_unwind(payload)
            }
        }
    }
}

// Reports what happened to a submission. The submitter gets its result whatever the observer does.
fn quietly(tell: impl FnOnce()) {
    if let Err(payload) = catch_unwind(AssertUnwindSafe(tell)) {
        // Dropping a payload may panic again.
        std::mem::forget(payload);
    }
}

/// Submits a function to the crew of an observed pool.
pub(super) fn submit<T, F>(
    crew: &Arc<Crew>,
    watch: &Arc<Watch>,
    function: F,
) -> Result<JobHandle<T>, Refused<F>>
where
    T: Send + 'static,
    F: FnOnce() -> T + Send + 'static,
{
    let submitted = crew.submit(Observed {
        function,
        watch: Arc::clone(watch),
        submitted: watch.now(),
    });
    match submitted {
        Ok(job) => {
            quietly(|| watch.observer.job_accepted(&watch.name, job.reply()));
            Ok(job)
        }
        Err(Refused { reason, function }) => {
            quietly(|| watch.observer.job_refused(&watch.name, reason));
            let function = function.function;
            Err(Refused { reason, function })
        }
    }
}
