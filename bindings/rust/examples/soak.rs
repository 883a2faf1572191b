//! A soak test: threads and tasks call at random, an operator takes permits out of use, pools are opened, resized and closed, and names
//! made and removed, all at the same time. An atomic counts who is inside, and a bulkhead of one permit is the only lock of a plain
//! number. A broken promise ends it with a panic. `cargo run --release --example soak 60` takes a minute.
use resil::{Bulkhead, BulkheadRegistry, CallError, Decorators, Interval, JobHandle, NoPermit};
use resil::{Retry, ThreadPool, ThreadPoolBuilder};
use std::cell::UnsafeCell;
use std::error::Error;
use std::future::poll_fn;
use std::panic::{AssertUnwindSafe, catch_unwind, resume_unwind};
use std::pin::{Pin, pin};
use std::sync::Arc;
use std::sync::atomic::{AtomicU32, AtomicU64, Ordering::SeqCst};
use std::task::{Context, Poll, Wake, Waker};
use std::thread::{self, Thread};
use std::time::{Duration, Instant};

type Checked = Result<(), Box<dyn Error + Send + Sync>>;

const MAX: u32 = 8;
const CALLERS: u64 = 4;
/// For what comes soon, however busy the machine is.
const PATIENCE: Duration = Duration::from_secs(60);

static INSIDE: AtomicU32 = AtomicU32::new(0);

/// What is counted: how calls end, and what the others do.
#[derive(Clone, Copy)]
enum Event {
    Served,
    Full,
    TimedOut,
    Closed,
    Aborted,
    Panicked,
    Added,
    Shrunk,
    Job,
    Pool,
    Last,
}

const NAMES: &str = "served full timed_out closed aborted panicked added shrunk jobs pools";
static COUNTS: [AtomicU64; Event::Last as usize] =
    [const { AtomicU64::new(0) }; Event::Last as usize];

fn count(event: Event) {
    COUNTS[event as usize].fetch_add(1, SeqCst);
}

/// Numbers from a seed, made by xorshift64*.
struct Random(u64);

impl Random {
    fn below(&mut self, end: u32) -> u32 {
        self.0 ^= self.0 >> 12;
        self.0 ^= self.0 << 25;
        self.0 ^= self.0 >> 27;
        let number = self.0.wrapping_mul(0x2545_f491_4f6c_dd1d) >> 33;
        u32::try_from(number).unwrap_or(0) % end
    }

    fn time(&mut self) -> Duration {
        Duration::from_micros(self.below(300).into())
    }
}

/// Wakes a thread that runs a task.
struct Caller(Thread);

impl Wake for Caller {
    fn wake(self: Arc<Self>) {
        self.0.unpark();
    }
}

fn block_on<F: Future>(future: F) -> F::Output {
    let mut future = pin!(future);
    let waker = Waker::from(Arc::new(Caller(thread::current())));
    loop {
        match future.as_mut().poll(&mut Context::from_waker(&waker)) {
            Poll::Ready(answer) => return answer,
            Poll::Pending => thread::park(),
        }
    }
}

// Polls a future once, and drops it if it isn't ready.
fn polled<F: Future + Unpin>(mut future: F) -> Option<F::Output> {
    match Pin::new(&mut future).poll(&mut Context::from_waker(Waker::noop())) {
        Poll::Ready(answer) => Some(answer),
        Poll::Pending => None,
    }
}

// A sleep that polls again and again, as a runtime on one thread may.
async fn sleep(time: Duration) {
    let begun = Instant::now();
    let is_over = |context: &mut Context<'_>| {
        context.waker().wake_by_ref();
        thread::yield_now();
        if begun.elapsed() < time {
            Poll::Pending
        } else {
            Poll::Ready(())
        }
    };
    poll_fn(is_over).await;
}

// The place that calls with permits go into.
fn go_in(permits: u32) {
    let inside = INSIDE.fetch_add(permits, SeqCst) + permits;
    assert!(inside <= MAX, "{inside} are inside");
    thread::yield_now();
    INSIDE.fetch_sub(permits, SeqCst);
}

struct Soak {
    backend: Arc<Bulkhead>,
    one: Arc<Bulkhead>,
    number: UnsafeCell<u64>,
    names: BulkheadRegistry,
    pool: ThreadPool,
    end: Instant,
}

// SAFETY: only the holder of the permit of `one` accesses the number.
unsafe impl Sync for Soak {}

impl Soak {
    fn new(time: Duration) -> Result<Soak, Box<dyn Error + Send + Sync>> {
        Ok(Soak {
            backend: Arc::new(Bulkhead::new("backend", MAX)?),
            one: Arc::new(Bulkhead::new("one", 1)?),
            number: UnsafeCell::new(0),
            names: BulkheadRegistry::new(2),
            pool: ThreadPool::builder(2, 3).queue(50).open()?,
            end: Instant::now() + time,
        })
    }

    fn is_over(&self) -> bool {
        Instant::now() >= self.end
    }

    fn call(&self, random: &mut Random) -> Result<(), NoPermit> {
        let (backend, time) = (&self.backend, random.time());
        match random.below(13) {
            0 => backend.call(|| go_in(1)),
            1 => backend.enter_within(time).map(|_permit| go_in(1)),
            2 => backend.enter_many(2).map(|_permits| go_in(2)),
            3 => backend.enter_many_within(3, time).map(|_permits| go_in(3)),
            4 => block_on(backend.call_async(async || go_in(1))),
            5 => block_on(backend.call_async_within(async || go_in(1), time, sleep)),
            6 => self.retry(time),
            7 => self.give_away(),
            8 => self.abort(1 + random.below(MAX)),
            9 => {
                let panics = || {
                    go_in(1);
                    resume_unwind(Box::new(()))
                };
                let called = catch_unwind(AssertUnwindSafe(|| backend.call(panics)));
                called.unwrap_or_else(|_payload| {
                    count(Event::Panicked);
                    Ok(())
                })
            }
            10 => self
                .one
                .enter_within(Duration::MAX)
                .map(|_permit| self.add()),
            11 => block_on(self.one.acquire_owned()).map(|_permit| self.add()),
            _ => self.call_name(random),
        }
    }

    fn add(&self) {
        count(Event::Added);
        // SAFETY: this call holds the permit of `one`.
        unsafe { *self.number.get() += 1 };
    }

    // A chain of futures, which fail at each attempt if the time is odd.
    fn retry(&self, time: Duration) -> Result<(), NoPermit> {
        let retry = Retry::new()
            .attempts(3)
            .interval(Interval::fixed(Duration::ZERO));
        let chain = Decorators::of_async(async || {
            go_in(1);
            if time.subsec_micros() % 2 == 0 {
                Ok(())
            } else {
                Err(())
            }
        });
        let chain = chain.inside_within(&self.backend, time).retried(&retry);
        match block_on(chain.call_async(sleep)) {
            Ok(()) | Err(CallError::Failed(())) => Ok(()),
            Err(CallError::Closed) => Err(NoPermit::Closed),
            Err(_) => Err(NoPermit::Full),
        }
    }

    // A permit that another thread gives back.
    fn give_away(&self) -> Result<(), NoPermit> {
        let permit = self.backend.enter_owned()?;
        let job = self.pool.submit(move || {
            go_in(1);
            drop(permit);
        });
        drop(job);
        Ok(())
    }

    // Leaves the queue at once, or has the permits in parts.
    fn abort(&self, permits: u32) -> Result<(), NoPermit> {
        let Some(given) = polled(self.backend.acquire_many_owned(permits)) else {
            count(Event::Aborted);
            return Ok(());
        };
        let mut given = given?;
        if let Some(parts) = given.split(permits / 2) {
            go_in(permits);
            given.merge(parts);
        }
        Ok(())
    }

    // One of a few names, which is closed and removed now and then.
    fn call_name(&self, random: &mut Random) -> Result<(), NoPermit> {
        let name = ["a", "b", "c"][random.below(3) as usize];
        let backend = self.names.bulkhead(name).expect("the name is one");
        match random.below(10) {
            0 => backend.close(),
            1 => drop(self.names.remove(name)),
            _ => {}
        }
        backend
            .enter_within(random.time())
            .map(|_permit| thread::yield_now())
    }

    fn calls(&self, seed: u64) {
        let mut random = Random(seed);
        while !self.is_over() {
            count(match self.call(&mut random) {
                Ok(()) => Event::Served,
                Err(NoPermit::TimedOut) => Event::TimedOut,
                Err(NoPermit::Closed) => Event::Closed,
                Err(_) => Event::Full,
            });
        }
    }

    // Once nothing is owed, fewer are inside, until they are raised.
    fn operate(&self) {
        let mut random = Random(2);
        while !self.is_over() {
            let less = 1 + random.below(MAX - 1);
            self.backend.shrink(less);
            let begun = Instant::now();
            while self.backend.owed() > 0 {
                assert!(
                    begun.elapsed() < PATIENCE,
                    "a permit that is owed isn't given back"
                );
                thread::yield_now();
            }
            let inside = INSIDE.load(SeqCst);
            assert!(
                inside <= MAX - less,
                "{inside} are inside, {less} permits retired"
            );
            assert_eq!(self.backend.raise(MAX), less);
            assert_eq!(self.backend.raise(MAX), self.backend.retired());
            count(Event::Shrunk);
            thread::sleep(random.time());
        }
    }

    fn manage_pools(&self) -> Checked {
        let mut random = Random(3);
        while !self.is_over() {
            let core = 1 + random.below(3);
            let pool = ThreadPool::builder(core, core + random.below(2));
            let pool = pool.queue(1 + random.below(30)).keep_alive(random.time());
            manage_pool(pool, &mut random)?;
            count(Event::Pool);
        }
        Ok(())
    }
}

// Each accepted job runs once or comes back, whatever happens to its handle; and the times of a record don't go back.
fn manage_pool(builder: ThreadPoolBuilder, random: &mut Random) -> Checked {
    let is_recorded = random.below(2) == 0;
    let pool = if is_recorded {
        builder.record(5_000)
    } else {
        builder
    }
    .open()?;
    let runs = Arc::new(AtomicU64::new(0));
    let submits = |seed| {
        let mut random = Random(seed);
        for _ in 0..200 {
            let own = Arc::clone(&runs);
            let panics = random.below(20) == 0;
            let job = pool.submit(move || {
                own.fetch_add(1, SeqCst);
                assert!(!panics);
            });
            if let Ok(job) = job {
                wait(job, &mut random);
            }
        }
    };
    let back = thread::scope(|scope| {
        let seeds = [random.0 | 1, random.0 ^ 2];
        let all = seeds.map(|seed| scope.spawn(move || submits(seed)));
        let greatest = pool.numbers().max;
        for _ in 0..random.below(5) {
            thread::sleep(random.time());
            let _resized = pool.resize(1 + random.below(greatest), greatest);
        }
        let back = if random.below(2) == 0 {
            pool.close_now().len()
        } else {
            0
        };
        for one in all {
            one.join().expect("it doesn't panic");
        }
        back as u64
    });
    pool.close();
    assert!(pool.join_for(PATIENCE), "a pool doesn't end");
    let numbers = pool.numbers();
    assert_eq!((numbers.finished, numbers.workers), (numbers.accepted, 0));
    assert_eq!(runs.load(SeqCst), numbers.accepted - back);
    COUNTS[Event::Job as usize].fetch_add(numbers.finished, SeqCst);
    let history = pool.history().unwrap_or_default();
    let times = history
        .lines()
        .filter_map(|line| line.rsplit(',').next()?.parse::<u64>().ok());
    assert!(times.is_sorted() && history.is_empty() != is_recorded);
    Ok(())
}

fn wait(job: JobHandle<()>, random: &mut Random) {
    match random.below(4) {
        0 => drop(job),
        1 => drop(job.wait()),
        2 => drop(job.wait_for(random.time())),
        _ => drop(polled(job)),
    }
}

pub fn main() -> Checked {
    let seconds = std::env::args()
        .nth(1)
        .map_or(Ok(600), |word| word.parse())?;
    std::panic::set_hook(Box::new(|panic| {
        if thread::current()
            .name()
            .is_none_or(|name| !name.starts_with("pool-"))
        {
            eprintln!("{panic}");
        }
    }));
    let soak = Soak::new(Duration::from_secs(seconds))?;
    thread::scope(|scope| {
        let all = (0..CALLERS).map(|seed| {
            let soak = &soak;
            scope.spawn(move || soak.calls(seed + 11))
        });
        let mut all: Vec<_> = all.collect();
        all.push(scope.spawn(|| soak.operate()));
        let pools = scope.spawn(|| soak.manage_pools());
        for one in all {
            one.join().expect("it doesn't panic");
        }
        pools.join().expect("it doesn't panic")
    })?;
    soak.pool.close();
    soak.pool.join();
    let numbers = soak.backend.numbers();
    assert_eq!((numbers.available, numbers.waiting), (MAX, 0));
    let added = COUNTS[Event::Added as usize].load(SeqCst);
    assert_eq!(soak.number.into_inner(), added);
    for (name, count) in NAMES.split(' ').zip(&COUNTS) {
        println!("{name} = {}", count.load(SeqCst));
    }
    Ok(())
}
