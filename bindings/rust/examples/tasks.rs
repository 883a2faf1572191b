//! Tasks that await permits in a queue, a job's answer, and the wait before another attempt. They work on any runtime; here on a thread.
use resil::{Bulkhead, Interval, Retry, ThreadPool};
use std::error::Error;
use std::future;
use std::pin::{Pin, pin};
use std::sync::Arc;
use std::task::{Context, Poll, Wake, Waker};
use std::thread::{self, Thread};
use std::time::Duration;

// What a runtime does for a task: it polls the task whenever it is woken.
struct Caller(Thread);

impl Wake for Caller {
    fn wake(self: Arc<Self>) {
        self.0.unpark();
    }
}

fn block_on<F: Future>(future: F) -> F::Output {
    let mut future = pin!(future);
    let waker = Waker::from(Arc::new(Caller(thread::current())));
    loop {
        if let Poll::Ready(answer) = future.as_mut().poll(&mut Context::from_waker(&waker)) {
            return answer;
        }
        thread::park();
    }
}

pub fn main() -> Result<(), Box<dyn Error>> {
    let backend = Arc::new(Bulkhead::new("backend", 1)?);
    let permit = backend.enter_owned()?;

    // Two tasks wait in a queue: the permit goes to the one that came first.
    let mut first = backend.acquire_owned();
    let mut second = backend.acquire_owned();
    let context = &mut Context::from_waker(Waker::noop());
    assert!(Pin::new(&mut first).poll(context).is_pending());
    assert!(Pin::new(&mut second).poll(context).is_pending());
    drop(permit);
    assert!(Pin::new(&mut second).poll(context).is_pending());
    drop(block_on(first)?);
    drop(block_on(second)?);

    // A job's handle is a future of its answer.
    let pool = ThreadPool::builder(1, 1).queue(4).open()?;
    let handle = pool.submit(|| 6 * 7)?;
    assert_eq!(block_on(handle)?, 42);

    // A retry awaits the call, and the wait in the runtime's own sleep.
    let retry = Retry::new()
        .attempts(3)
        .interval(Interval::fixed(Duration::ZERO));
    let mut answers = [Err("timed out"), Ok("answer")].into_iter();
    let call = || future::ready(answers.next().unwrap_or(Err("no more")));
    let answer = block_on(retry.call_async(call, |_wait| future::ready(())));
    assert_eq!(answer, Ok("answer"));
    println!("a permit, a job and a retry were awaited");
    Ok(())
}
