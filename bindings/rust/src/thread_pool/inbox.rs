//! Submissions whose reply is already known, on their way to the rule.
//!
//! While a pool is open, has as many workers as the core size and has room in its queue, the rule's next replies are `Queued`. The thread
//! that has the lock then grants submitters that many places of a ring. A submission takes the next place and writes its task there,
//! without the lock. The next thread that looks for a job or reads the numbers passes the tasks to the rule, in the order of the places.
//!
//! **One word** holds which place is next, how many are granted, and whether a submission calls a sleeping thread. A thread that is about
//! to sleep writes this into the word, and the same operation returns which places were taken before. So each submission either is in a
//! place that this thread checks before it sleeps, or calls a sleeping one. A searching thread reads the word again and again, so nobody
//! has to call it.
//!
//! **A place is taken before it is written.** The thread that empties the ring pauses for a moment for the write, and then voids the
//! place: its submitter has probably lost its processor, and takes another place. So nobody waits for a submitter that doesn't run.
use crate::rule::PoolError;
use std::hint;
use std::sync::Arc;
use std::sync::atomic::{AtomicU64, Ordering};

/// The maximum number of places. If workers are slower than submitters, all places are soon taken, and the thread that finds this passes
/// all of them to the rule in one turn. The more places there are, the fewer such turns, during which other threads may have to sleep.
const MOST_PLACES: usize = 4096;

/// How many hints to the processor a taken place may stay empty for.
const PAUSES: u32 = 64;

// The word: one bit for whether a submission calls a sleeping thread, 13 bits for how many places are granted, and the rest for the next
// place.
const CALLS: u64 = 1;
const ONE_GRANTED: u64 = 1 << 1;
const ONE_PLACE: u64 = 1 << 14;
const GRANTED: u64 = ONE_PLACE - ONE_GRANTED;
pub(super) const LAST_PLACE: u64 = u64::MAX / ONE_PLACE;

/// The ring as submitters use it. Its word has its own cache line.
#[repr(align(128))]
pub(super) struct Ring {
    word: AtomicU64,
    // Each place holds the number of a task, or a marker that it is empty. Their number is a power of two. Places are counted without
    // end, and reused once the rule has what was in them.
    places: Vec<AtomicU64>,
}

// The marker of an empty place. It is odd, while a task's number is even. It differs each time the place is used, so that a submitter
// that comes too late finds its place voided.
fn empty(place: u64) -> u64 {
    place * 2 + 1
}

impl Ring {
    /// Makes the ring for a queue of that capacity. It grants no place yet, and its submissions call nobody. The error is `Memory`. All
    /// places before `first`, which begins a lap, count as used.
    pub(super) fn new(capacity: usize, first: u64) -> Result<Ring, PoolError> {
        let count = capacity.next_power_of_two().min(MOST_PLACES);
        let mut places = Vec::new();
        let reserved = places.try_reserve_exact(count);
        reserved.map_err(|_| PoolError::Memory)?;
        places.extend(
            (first..)
                .take(count)
                .map(|place| AtomicU64::new(empty(place))),
        );
        Ok(Ring {
            word: AtomicU64::new(first * ONE_PLACE),
            places,
        })
    }

    /// Submits a task if a place is granted, and returns whether to call a sleeping thread.
    #[inline]
    pub(super) fn submit(&self, task: u64) -> Option<bool> {
        loop {
            let (place, calls) = self.take()?;
            if self.fill(place, task) {
                return Some(calls);
            }
        }
    }

    /// Whether a place has been taken since the next one was `taken`.
    pub(super) fn has_more(&self, taken: u64) -> bool {
        self.word.load(Ordering::Relaxed) / ONE_PLACE != taken
    }

    fn count(&self) -> u64 {
        self.places.len() as u64
    }

    #[allow(
        clippy::cast_possible_truncation,
        reason = "it is below the number of places"
    )]
    fn content(&self, place: u64) -> &AtomicU64 {
        &self.places[(place & (self.count() - 1)) as usize]
    }

    /// Takes the next place if one is granted, and reads whether its submission calls a sleeping thread.
    #[inline]
    pub(super) fn take(&self) -> Option<(u64, bool)> {
        let mut word = self.word.load(Ordering::Relaxed);
        loop {
            if word & GRANTED == 0 {
                return None;
            }
            let next = word.wrapping_add(ONE_PLACE - ONE_GRANTED);
            // Acquire: the thread that granted the place had emptied it.
            let taken =
                self.word
                    .compare_exchange_weak(word, next, Ordering::AcqRel, Ordering::Relaxed);
            match taken {
                Ok(_) => return Some((word / ONE_PLACE, word & CALLS != 0)),
                Err(now) => word = now,
            }
        }
    }

    /// Writes a task into a place that was taken, unless the place has been voided.
    #[inline]
    pub(super) fn fill(&self, place: u64, task: u64) -> bool {
        let written = self.content(place).compare_exchange(
            empty(place),
            task,
            Ordering::Release,
            Ordering::Relaxed,
        );
        written.is_ok()
    }

    // Empties a place that was taken, and returns its task, if one was written.
    #[inline]
    fn clear(&self, place: u64) -> Option<u64> {
        let (content, unwritten) = (self.content(place), empty(place));
        let next = empty((place + self.count()) & LAST_PLACE);
        for _ in 0..PAUSES {
            let task = content.load(Ordering::Acquire);
            if task != unwritten {
                content.store(next, Ordering::Relaxed);
                return Some(task);
            }
            hint::spin_loop();
        }
        let task = content.swap(next, Ordering::Acquire);
        (task != unwritten).then_some(task)
    }
}

/// The ring as the thread that has the lock uses it.
pub(super) struct Inbox {
    ring: Arc<Ring>,
    // The place whose task is next; the next place to be taken when the word was last read; and the first place that isn't granted.
    next: u64,
    pub(super) taken: u64,
    end: u64,
    calls: bool,
}

impl Inbox {
    /// The inbox of a ring that has granted no places yet.
    pub(super) fn new(ring: Ring) -> Inbox {
        let first = ring.word.load(Ordering::Relaxed) / ONE_PLACE;
        Inbox {
            ring: Arc::new(ring),
            next: first,
            taken: first,
            end: first,
            calls: false,
        }
    }

    /// The ring, for submitters.
    pub(super) fn ring(&self) -> Arc<Ring> {
        Arc::clone(&self.ring)
    }

    /// Reads which places are taken.
    #[inline]
    pub(super) fn look(&mut self) {
        if self.next != self.end {
            self.taken = self.ring.word.load(Ordering::Acquire) / ONE_PLACE;
        }
    }

    /// Whether no place that is known to be taken is left.
    #[inline]
    pub(super) fn is_empty(&self) -> bool {
        self.next == self.taken
    }

    /// The next task in these places, if there is one.
    #[inline]
    pub(super) fn pop(&mut self) -> Option<u64> {
        while !self.is_empty() {
            let place = self.next;
            self.next = (place + 1) & LAST_PLACE;
            let task = self.ring.clear(place);
            if task.is_some() {
                return task;
            }
        }
        None
    }

    /// Grants places, so that there is one for each of `room` tasks that aren't popped yet. It does so once half of them are new or none
    /// is left.
    pub(super) fn grant(&mut self, room: usize) {
        let room = (room as u64).min(self.ring.count());
        let granted = self.end.wrapping_sub(self.next) & LAST_PLACE;
        let more = room.saturating_sub(granted);
        if more > room / 2 || (more > 0 && self.taken == self.end) {
            self.end = self.end.wrapping_add(more) & LAST_PLACE;
            // Release: these places are empty.
            self.ring
                .word
                .fetch_add(more * ONE_GRANTED, Ordering::AcqRel);
        }
    }

    /// Takes back the places that are granted but not taken.
    pub(super) fn take_back_grant(&mut self) {
        if self.next == self.end {
            return;
        }
        let word = self.ring.word.fetch_and(!GRANTED, Ordering::AcqRel);
        self.taken = word / ONE_PLACE;
        self.end = self.taken;
    }

    /// Sets whether a submission calls a sleeping thread from now on.
    pub(super) fn set_calls(&mut self, calls: bool) {
        if calls != self.calls {
            let word = self.ring.word.fetch_xor(CALLS, Ordering::AcqRel);
            self.calls = calls;
            self.taken = word / ONE_PLACE;
        }
    }
}
