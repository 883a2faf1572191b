//! Random loads of recorded pools: each seed is one load, whatever the threads make of it. `RESIL_LOADS='FIRST COUNT FOLDER'` makes the
//! ignored test write the texts of that many into a folder, for `tools/check_bindings`.
use super::common::Checked;
use super::text::Text;
use resil::{ThreadPool, Unstarted};
use std::error::Error;
use std::sync::Arc;
use std::sync::atomic::{AtomicU64, Ordering};
use std::time::{Duration, SystemTime};
use std::{env, fs, panic, thread};

/// How many loads run at the same time.
const AT_ONCE: u64 = 4;

/// Numbers from a seed, made by xorshift64*.
struct Random(u64);

impl Random {
    fn new(seed: u64) -> Random {
        Random(seed.wrapping_mul(0x9e37_79b9_7f4a_7c15) | 1)
    }

    fn next(&mut self) -> u64 {
        self.0 ^= self.0 >> 12;
        self.0 ^= self.0 << 25;
        self.0 ^= self.0 >> 27;
        self.0.wrapping_mul(0x2545_f491_4f6c_dd1d) >> 11
    }

    fn below(&mut self, end: u32) -> u32 {
        u32::try_from(self.next() % u64::from(end)).expect("it is below")
    }

    fn micros(&mut self, end: u32) -> Duration {
        Duration::from_micros(self.below(end).into())
    }
}

/// What the callers of a load have counted.
#[derive(Default)]
struct Counted {
    submitted: AtomicU64,
    refused: AtomicU64,
    // How many jobs ran, how many came back, and how many of these were dropped.
    ran: AtomicU64,
    back: AtomicU64,
    dropped: AtomicU64,
}

/// A load: when it was opened, its pool, the maximum size, the keep-alive in microseconds, and what its callers have counted.
struct Load {
    opened: SystemTime,
    pool: Arc<ThreadPool>,
    max: u32,
    idle_for: u64,
    counted: Arc<Counted>,
}

impl Load {
    fn open(random: &mut Random) -> Result<Load, Box<dyn Error>> {
        // Some have more threads than a byte can count, or a word has bits.
        let more = [0, 0, 0, 0, 0, 0, 0, 0, 61, 300][random.below(10) as usize];
        let core = 1 + random.below(6) + more;
        let max = core + random.below(5);
        let room = [100_000, 25_000, 25_000, 400, 50][random.below(5) as usize];
        let most = [40, 40, 400][random.below(3) as usize];
        let pool = ThreadPool::builder(core, max).queue(1 + random.below(most));
        let idle_for = u64::from(random.below(3_000));
        let pool = pool.keep_alive(Duration::from_micros(idle_for));
        // A head cuts its moment to the microsecond.
        let opened = SystemTime::now() - Duration::from_micros(1);
        Ok(Load {
            opened,
            pool: Arc::new(super::opened(pool.record(room))?),
            max,
            idle_for,
            counted: Arc::default(),
        })
    }

    // Submits jobs: some panic, some submit another one, and some are waited for.
    fn call(&self, random: &mut Random) {
        let pause = 1 + random.below(300);
        for _ in 0..10 + random.below(50) {
            let (time, fails, submits) = (random.micros(200), random.below(20), random.below(10));
            let (pool, counted) = (Arc::clone(&self.pool), Arc::clone(&self.counted));
            let job = move || {
                if time > Duration::from_micros(20) {
                    thread::sleep(time);
                }
                counted.ran.fetch_add(1, Ordering::SeqCst);
                if submits == 0 {
                    let inner = Arc::clone(&counted);
                    drop(submit(&pool, &counted, move || {
                        inner.ran.fetch_add(1, Ordering::SeqCst);
                    }));
                }
                if fails == 0 {
                    panic::resume_unwind(Box::new(()));
                }
            };
            let (wait, waits) = (random.micros(400), random.below(3) == 0);
            match submit(&self.pool, &self.counted, job) {
                Some(handle) if waits => drop(handle.wait_for(wait)),
                _ => {}
            }
            if random.below(3) == 0 {
                thread::sleep(random.micros(pause));
            }
            if random.below(40) == 0 {
                thread::sleep(Duration::from_millis(4));
            }
        }
    }

    // Resizes the pool, begins new parts of the record, and maybe closes the pool in the middle.
    fn manage(&self, random: &mut Random) -> Result<Vec<String>, Box<dyn Error>> {
        let mut texts = Vec::new();
        for _ in 0..random.below(12) {
            thread::sleep(random.micros(2_000));
            if random.below(3) > 0 {
                let core = 1 + random.below(self.max);
                self.pool
                    .resize(core, core + random.below(self.max - core + 1))?;
            } else {
                texts.extend(self.pool.history());
            }
        }
        match random.below(5) {
            0 => self.pool.close(),
            1 => self.take_back().into_iter().for_each(Unstarted::run),
            2 => {
                let dropped = self.take_back().len() as u64;
                self.counted.dropped.store(dropped, Ordering::SeqCst);
            }
            _ => {}
        }
        if random.below(2) == 0 {
            texts.extend(self.pool.history());
        }
        Ok(texts)
    }

    fn take_back(&self) -> Vec<Unstarted> {
        let back = self.pool.close_now();
        self.counted.back.store(back.len() as u64, Ordering::SeqCst);
        back
    }

    // The texts of a load, in their order.
    fn run(&self, random: &mut Random) -> Result<Vec<String>, Box<dyn Error>> {
        let seeds: Vec<u64> = (0..=random.below(7)).map(|_| random.next()).collect();
        let mut texts = thread::scope(|scope| {
            for seed in seeds {
                scope.spawn(move || self.call(&mut Random::new(seed)));
            }
            self.manage(random).map_err(|error| error.to_string())
        })?;
        self.pool.close();
        self.pool.join();
        texts.extend(self.pool.history());
        Ok(texts)
    }

    // Checks the texts against what the pool and the callers have counted, and against each other.
    fn check(&self, texts: &[String]) -> Checked {
        let texts = texts.iter().map(|text| Text::of(text));
        let texts = texts.collect::<Result<Vec<_>, _>>()?;
        let times: Vec<_> = texts.iter().flat_map(|text| &text.times).collect();
        assert!(times.is_sorted(), "a time goes back");
        for text in &texts {
            assert_eq!(text.idle_for, self.idle_for);
            let is_in_time = |began| self.opened <= began && began <= SystemTime::now();
            assert_eq!(text.began.map(is_in_time), text.times.first().map(|_| true));
            assert_eq!(text.version == 4, text.count("remove", "") > 0);
            let made = &text.times[..text.made];
            assert!(
                made.first() == made.last(),
                "what makes the state has several times"
            );
        }
        for pair in texts.windows(2) {
            let [before, after] = [&pair[0], &pair[1]];
            if !before.is_empty && before.missed == 0 && !after.is_empty {
                let (left, made) = (before.events.len(), after.made);
                assert_eq!(before.state_behind(left)?, after.state_behind(made)?);
            }
        }
        let once = [&self.counted.ran, &self.counted.dropped];
        let once = once.map(|count| count.load(Ordering::SeqCst));
        assert_eq!(self.pool.numbers().finished, once[0] + once[1]);
        if texts.iter().all(|text| text.missed == 0) {
            let sum = |first, last| -> u64 {
                let counts = texts.iter().map(|text| text.count(first, last));
                counts.sum()
            };
            let numbers = self.pool.numbers();
            let (refused, finished) = (numbers.refused, numbers.finished);
            let started = sum("submit", "core,,") + sum("submit", "extra,,");
            assert_eq!((numbers.accepted, sum("idle", "")), (finished, started));
            let submitted = sum("submit", "");
            assert_eq!(submitted, self.counted.submitted.load(Ordering::SeqCst));
            assert_eq!(refused, self.counted.refused.load(Ordering::SeqCst));
            assert_eq!(sum("submit", "full,,") + sum("submit", "closed,,"), refused);
            // Jobs that were given back are removed, and nobody takes or finishes them.
            let back = self.counted.back.load(Ordering::SeqCst);
            assert_eq!(sum("remove", ""), back);
            assert_eq!(sum("take", ""), sum("submit", "queued,,") - back);
            assert_eq!(sum("finish", ""), finished - back);
        }
        Ok(())
    }
}

fn submit<F>(pool: &ThreadPool, counted: &Counted, job: F) -> Option<resil::JobHandle<()>>
where
    F: FnOnce() + Send + 'static,
{
    counted.submitted.fetch_add(1, Ordering::SeqCst);
    let job = pool.submit(job).ok();
    let is_refused = job.is_none().into();
    counted.refused.fetch_add(is_refused, Ordering::SeqCst);
    job
}

// The texts of the load with this seed, checked.
fn load(seed: u64) -> Result<Vec<String>, Box<dyn Error>> {
    let mut random = Random::new(seed);
    let load = Load::open(&mut random)?;
    let texts = load.run(&mut random)?;
    load.check(&texts)?;
    Ok(texts)
}

// Runs these loads, several at a time.
fn each(first: u64, count: u64, done: impl Fn(u64, Vec<String>) -> Checked + Sync) {
    let next = AtomicU64::new(first);
    let some = || {
        let seeds = std::iter::repeat_with(|| next.fetch_add(1, Ordering::SeqCst));
        for seed in seeds.take_while(|seed| *seed < first + count) {
            let is_done = load(seed).and_then(|texts| done(seed, texts));
            is_done.unwrap_or_else(|error| panic!("load {seed}: {error}"));
        }
    };
    thread::scope(|scope| (0..AT_ONCE).for_each(|_| drop(scope.spawn(some))));
}

#[test]
fn random_loads_fit() {
    each(1, 20, |_, _| Ok(()));
}

#[test]
#[ignore = "tools/check_bindings names the folder, and has the program judge the texts"]
fn random_loads_are_written() -> Checked {
    let told = env::var("RESIL_LOADS")?;
    let words: Vec<_> = told.splitn(3, ' ').collect();
    let [first, count, folder] = words[..] else {
        return Err("RESIL_LOADS isn't FIRST COUNT FOLDER".into());
    };
    each(first.parse()?, count.parse()?, |seed, texts| {
        for (part, text) in texts.iter().enumerate() {
            fs::write(format!("{folder}/load-{seed}-{}.csv", part + 1), text)?;
        }
        Ok(())
    });
    Ok(())
}
