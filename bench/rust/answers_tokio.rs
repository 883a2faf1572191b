//! Tasks on tokio's threads, each of whose callers awaits the answers in one `block_on`: answers.rs has the lines that ask for rounds.
mod answers;
mod rounds;
mod tail;

use answers::Pool;
use tokio::runtime::{Builder, Runtime};
use tokio::task::JoinHandle;

impl Pool for Runtime {
    type Answer = JoinHandle<usize>;

    fn open(workers: usize) -> Runtime {
        Builder::new_multi_thread().worker_threads(workers).build().expect("there is memory")
    }

    fn submit(&self, job: impl FnOnce() -> usize + Send + 'static) -> JoinHandle<usize> {
        self.spawn(async move { job() })
    }

    fn wait(&self, answer: JoinHandle<usize>) -> usize {
        self.block_on(answer).expect("no job panics")
    }

    fn answers(&self, jobs: usize, ahead: usize) -> usize {
        self.block_on(async {
            let mut right = 0;
            for done in (0..jobs).step_by(ahead) {
                let all: Vec<_> = (0..ahead.min(jobs - done)).map(|job| self.submit(move || job)).collect();
                for (job, answer) in all.into_iter().enumerate() {
                    right += usize::from(answer.await.expect("no job panics") == job);
                }
            }
            right
        })
    }
}

fn main() {
    answers::serve::<Runtime>();
}
