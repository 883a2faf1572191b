//! Numbers of threads, from 0: no two live threads have the same one. Threads with low numbers have places of their own, which no other
//! thread writes to.
use crate::lock::locked;
use std::cell::Cell;
use std::collections::BTreeSet;
use std::num::NonZero;
use std::sync::{Mutex, OnceLock};
use std::thread;

/// How many threads have places: this many for each processor, and at most `MOST_PLACES`.
pub(crate) const PLACES: usize = 4;
pub(crate) const MOST_PLACES: usize = 64;

// How many threads have places on this machine. The system is queried once.
static COUNT: OnceLock<usize> = OnceLock::new();

/// How many threads have places: those whose numbers are below this.
pub(crate) fn places() -> usize {
    *COUNT.get_or_init(|| {
        let processors = thread::available_parallelism().map_or(4, NonZero::get);
        (PLACES * processors).min(MOST_PLACES)
    })
}

// The number of a thread that has none, because its thread-locals are gone: it is ending.
const NONE: usize = usize::MAX;

// The number of a thread that hasn't asked for one yet.
const UNASKED: usize = usize::MAX - 1;

thread_local! {
    static NUMBER: Cell<usize> = const { Cell::new(UNASKED) };
    static HELD: Held = Held::new();
}

/// The number of this thread.
#[inline]
pub(crate) fn current() -> usize {
    let number = NUMBER.get();
    if number == UNASKED { ask() } else { number }
}

#[cold]
fn ask() -> usize {
    let number = HELD.try_with(|held| held.number).unwrap_or(NONE);
    NUMBER.set(number);
    number
}

// The numbers that threads had and gave back, and the first one never used.
struct Numbers {
    free: BTreeSet<usize>,
    next: usize,
}

static NUMBERS: Mutex<Numbers> = Mutex::new(Numbers {
    free: BTreeSet::new(),
    next: 0,
});

// A number that is given back when its thread ends.
struct Held {
    number: usize,
}

impl Held {
    fn new() -> Held {
        let mut numbers = locked(&NUMBERS);
        let number = numbers.free.pop_first().unwrap_or(numbers.next);
        numbers.next = numbers.next.max(number + 1);
        Held { number }
    }
}

impl Drop for Held {
    fn drop(&mut self) {
        // From here on this thread has no number, and the next thread that gets this one comes after everything this thread did.
        NUMBER.set(NONE);
        locked(&NUMBERS).free.insert(self.number);
    }
}
