//! The pool of rayon, whose jobs hand their answers back by tokio's `oneshot`: answers.rs has the lines that ask for rounds.
mod answers;
mod rounds;
mod tail;

use answers::Pool;
use rayon::{ThreadPool, ThreadPoolBuilder};
use tokio::sync::oneshot::{Receiver, channel};

impl Pool for ThreadPool {
    type Answer = Receiver<usize>;

    fn open(workers: usize) -> ThreadPool {
        ThreadPoolBuilder::new().num_threads(workers).build().expect("there is memory")
    }

    fn submit(&self, job: impl FnOnce() -> usize + Send + 'static) -> Receiver<usize> {
        let (answer, receiver) = channel();
        self.spawn(move || {
            // Whoever asked may have gone.
            let _ = answer.send(job());
        });
        receiver
    }

    fn wait(&self, answer: Receiver<usize>) -> usize {
        answer.blocking_recv().expect("no job panics")
    }
}

fn main() {
    answers::serve::<ThreadPool>();
}
