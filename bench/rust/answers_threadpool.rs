//! The pool of the crate `threadpool`, whose jobs hand their answers back by a channel each: answers.rs has the lines that ask for rounds.
mod answers;
mod rounds;
mod tail;

use answers::Pool;
use std::sync::mpsc::{Receiver, channel};
use threadpool::ThreadPool;

impl Pool for ThreadPool {
    type Answer = Receiver<usize>;

    fn open(workers: usize) -> ThreadPool {
        ThreadPool::new(workers)
    }

    fn submit(&self, job: impl FnOnce() -> usize + Send + 'static) -> Receiver<usize> {
        let (sender, receiver) = channel();
        self.execute(move || {
            // Whoever asked may have gone.
            let _ = sender.send(job());
        });
        receiver
    }

    fn wait(&self, answer: Receiver<usize>) -> usize {
        answer.recv().expect("no job panics")
    }
}

fn main() {
    answers::serve::<ThreadPool>();
}
