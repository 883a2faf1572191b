//! Moments of a wait: its first poll, and its time limit.
mod common;

use common::{Checked, is_idle, polled};
use resil::{Bulkhead, NoPermit, Observer, WaitEnd};
use std::future::{self, poll_fn};
use std::sync::Arc;
use std::sync::atomic::{AtomicBool, AtomicU32, AtomicU64, Ordering};
use std::task::Poll;
use std::thread;
use std::time::Duration;

const NAP: Duration = Duration::from_millis(20);

/// Keeps the length of the last wait, in nanoseconds.
#[derive(Default)]
struct Last(AtomicU64);

impl Observer for Last {
    fn call_waited(&self, _bulkhead: &str, time: Duration, _end: WaitEnd) {
        let time = u64::try_from(time.as_nanos()).unwrap_or(u64::MAX);
        self.0.store(time, Ordering::SeqCst);
    }
}

impl Last {
    fn is_a_nap(&self) -> bool {
        Duration::from_nanos(self.0.swap(0, Ordering::SeqCst)) >= NAP
    }
}

// A wait is measured from its first poll, however often it is polled.
#[test]
fn a_wait_begins_with_its_first_poll() -> Checked {
    let last = Arc::new(Last::default());
    let backend = Arc::new(Bulkhead::new("backend", 2)?.observed(last.clone()));
    for many in [false, true] {
        let permits = backend.enter_many(2)?;
        let mut one = backend.acquire_owned();
        let mut both = backend.acquire_many_owned(2);
        let mut look = || {
            if many {
                polled(&mut both).map(|permits| permits.is_ok())
            } else {
                polled(&mut one).map(|permit| permit.is_ok())
            }
        };
        assert_eq!(look(), None);
        thread::sleep(NAP);
        assert_eq!(look(), None);
        drop(permits);
        assert_eq!(look(), Some(true));
        assert!(last.is_a_nap());
    }
    Ok(())
}

// A call is made once it has its permit, even if its time is over in the same poll; without a permit it isn't made. A timer is made only
// for a wait.
#[test]
fn a_call_is_made_once_it_has_its_permit() -> Checked {
    let last = Arc::new(Last::default());
    let backend = Bulkhead::new("backend", 1)?.observed(last.clone());
    let (is_over, calls) = (AtomicBool::new(false), AtomicU32::new(0));
    let timer = |_time| {
        poll_fn(|_context| {
            if is_over.load(Ordering::SeqCst) {
                Poll::Ready(())
            } else {
                Poll::Pending
            }
        })
    };
    let count = || future::ready(calls.fetch_add(1, Ordering::SeqCst));
    let permit = backend.enter()?;
    let mut first = Box::pin(backend.call_async_within(count, NAP, timer));
    let mut second = Box::pin(backend.call_async(count));
    let mut third = Box::pin(backend.call_async_within(count, NAP, timer));
    assert_eq!((polled(&mut first), polled(&mut second)), (None, None));
    assert!(polled(&mut third).is_none() && calls.load(Ordering::SeqCst) == 0);
    thread::sleep(NAP);
    drop(permit);
    is_over.store(true, Ordering::SeqCst);
    assert_eq!(polled(&mut third), Some(Err(NoPermit::TimedOut)));
    assert!(last.is_a_nap());
    assert_eq!(
        (polled(&mut first), polled(&mut second)),
        (Some(Ok(0)), Some(Ok(1)))
    );
    let none = |_time| -> future::Pending<()> { unreachable!("nobody waits") };
    let mut call = Box::pin(backend.call_async_within(count, NAP, none));
    assert_eq!(polled(&mut call), Some(Ok(2)));
    assert!(is_idle(&backend));
    Ok(())
}
