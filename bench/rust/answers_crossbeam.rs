//! Threads that take jobs from a bounded channel of crossbeam and hand their answers back by tokio's `oneshot`: answers.rs has the
//! lines that ask for rounds.
mod answers;
mod rounds;
mod tail;

use answers::{Pool, QUEUE};
use crossbeam::channel::{Sender, bounded};
use std::thread::{self, JoinHandle};
use tokio::sync::oneshot::{Receiver, channel};

type Job = Box<dyn FnOnce() + Send>;

struct Threads {
    sender: Option<Sender<Job>>,
    handles: Vec<JoinHandle<()>>,
}

impl Pool for Threads {
    type Answer = Receiver<usize>;

    fn open(workers: usize) -> Threads {
        let (sender, receiver) = bounded::<Job>(QUEUE);
        let start = |_| {
            let receiver = receiver.clone();
            thread::spawn(move || receiver.iter().for_each(|job| job()))
        };
        Threads {
            sender: Some(sender),
            handles: (0..workers).map(start).collect(),
        }
    }

    fn submit(&self, job: impl FnOnce() -> usize + Send + 'static) -> Receiver<usize> {
        let (answer, receiver) = channel();
        let job = Box::new(move || {
            // Whoever asked may have gone.
            let _ = answer.send(job());
        });
        let sender = self.sender.as_ref().expect("it is open");
        sender.send(job).expect("its threads live");
        receiver
    }

    fn wait(&self, answer: Receiver<usize>) -> usize {
        answer.blocking_recv().expect("no job panics")
    }
}

impl Drop for Threads {
    fn drop(&mut self) {
        self.sender = None;
        self.handles.drain(..).for_each(|handle| handle.join().expect("no job panics"));
    }
}

fn main() {
    answers::serve::<Threads>();
}
