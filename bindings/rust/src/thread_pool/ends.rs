//! Jobs that end while the lock is taken. Their answers go out at once; the next thread that takes the lock reports their ends to the
//! rule.
//!
//! A caller that has an answer finds its job finished in the numbers, and a caller that finds a job finished finds its answer. So a
//! worker marks the end of its job as begun, hands out the answer, and marks it as out; the rule hears only of jobs whose answers are
//! out. Callers that ask for numbers or join take the lock, and wait for each end that has begun. A worker needs no lock for these three
//! steps.
use crate::rule::{Picked, PoolError};
use std::sync::atomic::{AtomicU64, Ordering};
use std::thread;
use std::time::Duration;
use std::{hint, iter};

/// How many places a word has: a bit for each.
const PLACES: usize = 64;

/// How often a thread checks whether an answer is out, with a hint to the processor after each check. After that it sleeps this long
/// after each, since the worker may need its processor.
const LOOKS: u32 = 100;
const SLEEP: Duration = Duration::from_micros(50);

/// The ends of the jobs at 64 places.
#[repr(align(128))]
struct Word {
    // One bit for each job's place: ends that have begun, and those of them whose answer is out.
    begun: AtomicU64,
    out: AtomicU64,
    // These jobs' numbers.
    numbers: [AtomicU64; PLACES],
}

/// The ends that the rule doesn't know of yet.
pub(super) struct Ends {
    first: Word,
    // For the places from 64 on.
    others: Box<[Word]>,
}

impl Word {
    const fn new() -> Word {
        let numbers = [const { AtomicU64::new(0) }; PLACES];
        let (begun, out) = (AtomicU64::new(0), AtomicU64::new(0));
        Word {
            begun,
            out,
            numbers,
        }
    }
}

impl Ends {
    /// The ends of jobs at `places` places.
    ///
    /// # Errors
    ///
    /// `Memory` when out of memory.
    pub(super) fn new(places: usize) -> Result<Ends, PoolError> {
        let count = places.div_ceil(PLACES).saturating_sub(1);
        let mut others = Vec::new();
        let reserved = others.try_reserve_exact(count);
        reserved.map_err(|_| PoolError::Memory)?;
        others.resize_with(count, Word::new);
        Ok(Ends {
            first: Word::new(),
            others: others.into_boxed_slice(),
        })
    }

    fn words(&self) -> impl Iterator<Item = &Word> {
        iter::once(&self.first).chain(&self.others)
    }

    fn word(&self, index: usize) -> &Word {
        match index.checked_sub(1) {
            None => &self.first,
            Some(other) => &self.others[other],
        }
    }

    /// Records the end of a job, whose answer this function hands out.
    pub(super) fn end(&self, picked: &Picked, hand_out: impl FnOnce()) {
        let place = picked.place as usize;
        let (word, place) = (self.word(place / PLACES), place % PLACES);
        word.numbers[place].store(picked.id.number, Ordering::Relaxed);
        word.begun.fetch_or(1 << place, Ordering::AcqRel);
        hand_out();
        word.out.fetch_or(1 << place, Ordering::AcqRel);
    }

    /// Waits until the answers of all ends that have begun are out. Call it only under the lock.
    pub(super) fn settle(&self) {
        self.words().for_each(Word::settle);
    }

    /// Calls this function with the place and number of each job whose answer is out. Call it only under the lock.
    pub(super) fn take(&self, mut each: impl FnMut(u32, u64)) {
        for (first, word) in (0..).step_by(PLACES).zip(self.words()) {
            word.take(|place, number| each(first + place, number));
        }
    }
}

impl Word {
    fn settle(&self) {
        let begun = self.begun.load(Ordering::Acquire);
        let mut looks = 0;
        while begun & !self.out.load(Ordering::Acquire) != 0 {
            looks += 1;
            if looks > LOOKS {
                thread::sleep(SLEEP);
            }
            hint::spin_loop();
        }
    }

    fn take(&self, mut each: impl FnMut(u32, u64)) {
        if self.out.load(Ordering::Relaxed) == 0 {
            return;
        }
        let mut out = self.out.swap(0, Ordering::AcqRel);
        self.begun.fetch_and(!out, Ordering::AcqRel);
        while out != 0 {
            let place = out.trailing_zeros();
            out &= out - 1;
            each(place, self.numbers[place as usize].load(Ordering::Relaxed));
        }
    }
}
