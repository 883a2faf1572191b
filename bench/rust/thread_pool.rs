//! The pool of threads of the crate for rustc, whose jobs hand an answer back each: answers.rs has the lines that ask for rounds.
mod answers;
mod rounds;
mod tail;

use answers::{Pool, QUEUE};
use resil::{JobHandle, ThreadPool};

impl Pool for ThreadPool {
    type Answer = JobHandle<usize>;

    fn open(workers: usize) -> ThreadPool {
        let [workers, queue] = [workers, QUEUE].map(|size| size.try_into().expect("a size in range"));
        ThreadPool::builder(workers, workers).queue(queue).open().expect("there is memory")
    }

    fn submit(&self, job: impl FnOnce() -> usize + Send + 'static) -> JobHandle<usize> {
        self.submit(job).expect("there is room in the queue")
    }

    fn wait(&self, answer: JobHandle<usize>) -> usize {
        answer.wait().expect("no job panics")
    }
}

fn main() {
    answers::serve::<ThreadPool>();
}
