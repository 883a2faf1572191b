//! A server with two backends, one of which hangs: without bulkheads, and with them.
//!
//! Its eight threads answer each call with what one of the two backends says. Sixteen callers ask for the slow one first, then others ask
//! for the good one. Everything is in this program, and ends within seconds.
//!
//! With the argument `picture` it runs each half for six seconds instead, in which the slow backend hangs for two, and writes how the
//! callers fared as an SVG.
#[path = "neighbours/picture.rs"]
mod picture;

use resil::{Bulkhead, BulkheadError, ThreadPool};
use std::error::Error;
use std::sync::{Arc, Condvar, Mutex, PoisonError};
use std::thread::{self, JoinHandle};
use std::time::{Duration, Instant};

/// The server's threads.
const THREADS: u32 = 8;
/// How many concurrent calls of a backend its bulkhead allows.
const PERMITS: u32 = 4;
const SLOW_CALLERS: u32 = 16;
const GOOD_CALLERS: usize = 4;
/// How many calls of the good backend each of its callers makes, one after the other, as long as they are answered.
const GOOD_CALLS: usize = 50;
/// How long a caller of the good backend waits for an answer if there are no bulkheads.
const PATIENCE: Duration = Duration::from_secs(1);
/// After this time any wait is given up: something else went wrong.
const LIMIT: Duration = Duration::from_secs(60);
/// How long a half of the chart is, and when the slow backend starts and stops hanging in it.
const LENGTH: Duration = Duration::from_secs(6);
const HANGS: [Duration; 2] = [Duration::from_secs(2), Duration::from_secs(4)];
/// The callers in a half of the chart: whether they ask for the slow backend, how many there are, and how long each pauses after a call.
const STEADY: [(bool, u32, Duration); 2] = [
    (false, 4, Duration::from_millis(20)),
    (true, 8, Duration::from_millis(40)),
];
const STEADY_PATIENCE: Duration = Duration::from_millis(500);

/// The result of one call.
#[derive(Clone, Copy, Debug)]
pub struct Met {
    /// When it had its answer or was given up.
    at: Duration,
    /// Whether it was for the slow backend.
    slow: bool,
    /// The status of the answer, if there was one.
    status: Option<u16>,
}

/// How many calls of a backend were answered by it, refused by its bulkhead, and given up by their callers.
#[must_use]
pub fn counts(all: &[Met], slow: bool) -> [usize; 3] {
    let mut counts = [0; 3];
    for met in all.iter().filter(|met| met.slow == slow) {
        counts[match met.status {
            Some(200) => 0,
            Some(503) => 1,
            _ => 2,
        }] += 1;
    }
    counts
}

/// How a backend treats calls.
#[derive(Clone, Copy, PartialEq)]
enum Mood {
    Answers,
    Hangs,
    Gone,
}

/// A backend, and its bulkhead if it has one.
struct Neighbour {
    bulkhead: Option<Bulkhead>,
    // With the number of calls that it has taken and not answered.
    mood: Mutex<(Mood, u32)>,
    changed: Condvar,
}

impl Neighbour {
    fn new(name: &str, has_bulkhead: bool) -> Result<Neighbour, BulkheadError> {
        let bulkhead = has_bulkhead.then(|| Bulkhead::new(name, PERMITS));
        Ok(Neighbour {
            bulkhead: bulkhead.transpose()?,
            mood: Mutex::new((Mood::Answers, 0)),
            changed: Condvar::new(),
        })
    }

    // Makes it answer, hang or go away from now on.
    fn set(&self, mood: Mood) {
        self.mood.lock().unwrap_or_else(PoisonError::into_inner).0 = mood;
        self.changed.notify_all();
    }

    fn held(&self) -> u32 {
        self.mood.lock().unwrap_or_else(PoisonError::into_inner).1
    }

    // Asks it, for as long as it hangs, and returns whether it has answered.
    fn ask(&self) -> bool {
        let mut state = self.mood.lock().unwrap_or_else(PoisonError::into_inner);
        state.1 += 1;
        let hangs = |state: &mut (Mood, u32)| state.0 == Mood::Hangs;
        let went_on = self.changed.wait_while(state, hangs);
        let mut state = went_on.unwrap_or_else(PoisonError::into_inner);
        state.1 -= 1;
        state.0 == Mood::Answers
    }

    // The status with which the server answers a call.
    fn status(&self) -> u16 {
        let answer = match &self.bulkhead {
            Some(bulkhead) => bulkhead.call(|| self.ask()),
            None => Ok(self.ask()),
        };
        match answer {
            Ok(true) => 200,
            Ok(false) => 502,
            Err(_full) => 503,
        }
    }
}

/// The server: its threads, the good backend and the slow one, and when it was opened.
struct Server {
    threads: ThreadPool,
    neighbours: [Arc<Neighbour>; 2],
    opened: Instant,
}

impl Server {
    fn open(bulkheads: bool) -> Result<Arc<Server>, Box<dyn Error>> {
        let good = Neighbour::new("good", bulkheads)?;
        let slow = Neighbour::new("slow", bulkheads)?;
        Ok(Arc::new(Server {
            threads: ThreadPool::builder(THREADS, THREADS).queue(1_000).open()?,
            neighbours: [Arc::new(good), Arc::new(slow)],
            opened: Instant::now(),
        }))
    }

    fn slow(&self) -> &Neighbour {
        &self.neighbours[1]
    }

    // Calls it for a backend, and gives up after a while.
    fn call(&self, slow: bool, patience: Duration) -> Met {
        let neighbour = Arc::clone(&self.neighbours[usize::from(slow)]);
        let job = self.threads.submit(move || neighbour.status()).ok();
        let answer = job.and_then(|job| job.wait_for(patience).ok());
        let status = answer.and_then(Result::ok);
        let at = self.opened.elapsed();
        Met { at, slow, status }
    }

    // A caller that makes this many calls, one after the other, as long as they are answered.
    fn call_often(self: &Arc<Self>, slow: bool, patience: Duration, count: usize) -> Caller {
        let server = Arc::clone(self);
        thread::spawn(move || {
            let mut all = vec![server.call(slow, patience)];
            while all.len() < count && all.iter().all(|met| met.status.is_some()) {
                all.push(server.call(slow, patience));
            }
            all
        })
    }

    // A caller that starts this late and calls until the end of a half of the chart.
    fn call_steadily(self: &Arc<Self>, slow: bool, pause: Duration, begins: Duration) -> Caller {
        let server = Arc::clone(self);
        thread::spawn(move || {
            thread::sleep(begins);
            let mut all = Vec::new();
            while server.opened.elapsed() < LENGTH {
                all.push(server.call(slow, STEADY_PATIENCE));
                thread::sleep(pause);
            }
            all
        })
    }
}

type Caller = JoinHandle<Vec<Met>>;

fn joined(callers: impl IntoIterator<Item = Caller>) -> Result<Vec<Met>, Box<dyn Error>> {
    let mut all = Vec::new();
    for caller in callers {
        all.extend(caller.join().map_err(|_| "a caller panicked")?);
    }
    Ok(all)
}

// Waits until it is so.
fn until(is_so: impl Fn() -> bool) -> Result<(), Box<dyn Error>> {
    let began = Instant::now();
    while !is_so() {
        if began.elapsed() > LIMIT {
            return Err("the slow callers weren't met with".into());
        }
        thread::sleep(Duration::from_millis(1));
    }
    Ok(())
}

/// Runs one half.
///
/// # Errors
///
/// Any error of the threads or the bulkheads.
pub fn play(bulkheads: bool) -> Result<Vec<Met>, Box<dyn Error>> {
    let server = Server::open(bulkheads)?;
    server.slow().set(Mood::Hangs);
    let slow = [(); SLOW_CALLERS as usize].map(|()| server.call_often(true, LIMIT, 1));
    // The good backend's callers come once each slow call hangs, is refused or waits for a thread.
    let (hang, refused, wait) = if bulkheads {
        (PERMITS, SLOW_CALLERS - PERMITS, 0)
    } else {
        (THREADS, 0, SLOW_CALLERS - THREADS)
    };
    let ended = || slow.iter().filter(|caller| caller.is_finished()).count();
    let waiting = || server.threads.numbers().waiting;
    until(|| server.slow().held() == hang && ended() == refused as usize && waiting() == wait)?;
    let patience = if bulkheads { LIMIT } else { PATIENCE };
    let good = [(); GOOD_CALLERS].map(|()| server.call_often(false, patience, GOOD_CALLS));
    let mut all = joined(good)?;
    server.slow().set(Mood::Gone);
    all.extend(joined(slow)?);
    Ok(all)
}

/// Runs a half of the chart: both backends are called all the time, and the slow one hangs for a while.
///
/// # Errors
///
/// Those of [`play`].
pub fn play_steadily(bulkheads: bool) -> Result<Vec<Met>, Box<dyn Error>> {
    let server = Server::open(bulkheads)?;
    let mut callers = Vec::new();
    for (slow, count, pause) in STEADY {
        // They don't all start at once.
        let call = |index| server.call_steadily(slow, pause, pause * index / count);
        callers.extend((0..count).map(call));
    }
    for (at, mood) in HANGS.into_iter().zip([Mood::Hangs, Mood::Answers]) {
        thread::sleep(at.saturating_sub(server.opened.elapsed()));
        server.slow().set(mood);
    }
    joined(callers)
}

#[allow(dead_code, reason = "a test takes this file as a module")]
fn main() -> Result<(), Box<dyn Error>> {
    if std::env::args().nth(1).as_deref() == Some("picture") {
        let without = play_steadily(false)?;
        print!("{}", picture::svg(&without, &play_steadily(true)?));
        return Ok(());
    }
    for bulkheads in [false, true] {
        let all = play(bulkheads)?;
        println!("{} bulkheads", if bulkheads { "with" } else { "without" });
        for (name, slow) in [("good", false), ("slow", true)] {
            let [answered, refused, unanswered] = counts(&all, slow);
            println!(
                "  {name} neighbour: {answered:3} answered, {refused:2} refused, {unanswered:2} unanswered"
            );
        }
    }
    Ok(())
}
