//! Jobs through a bounded channel of crossbeam to the threads of a pool, which records nothing:
//! `pool CALLERS WORKERS JOBS` asks for a round.
mod rounds;

use crossbeam::channel::bounded;
use std::sync::atomic::{AtomicUsize, Ordering};
use std::thread;

type Job<'a> = Box<dyn FnOnce() + Send + 'a>;

fn main() {
    for (_, numbers) in rounds::lines() {
        let [callers, workers, jobs] = numbers[..] else {
            panic!("three numbers");
        };
        let ended = AtomicUsize::new(0);
        thread::scope(|scope| {
            let (sender, receiver) = bounded::<Job>(65_536);
            for _ in 0..workers {
                let receiver = receiver.clone();
                scope.spawn(move || receiver.iter().for_each(|job| job()));
            }
            for _ in 0..callers {
                let (sender, ended) = (sender.clone(), &ended);
                scope.spawn(move || {
                    for _ in 0..jobs / callers {
                        let job = Box::new(|| {
                            ended.fetch_add(1, Ordering::SeqCst);
                        });
                        sender.send(job).expect("the pool is open");
                    }
                });
            }
        });
        println!("pool: {} results", ended.load(Ordering::SeqCst));
    }
}
