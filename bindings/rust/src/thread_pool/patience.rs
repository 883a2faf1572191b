//! How long a thread spins for an answer or a job before it sleeps. Going to sleep and waking cost a few microseconds of processor time.
//! So a thread spins longer if its last spins found something, and only briefly if they didn't, since another thread may want its
//! processor. Now and then it spins longer anyway, or it would never notice that spinning pays again.
use std::cell::Cell;
use std::hint;
use std::time::{Duration, Instant};

/// The longest and the shortest spin.
const LONGEST: Duration = Duration::from_micros(20);
const SHORTEST: Duration = Duration::from_nanos(500);

/// After this many spins without success comes a longer one, and its length.
const TRIAL: u32 = 8;
const LONGER: Duration = Duration::from_micros(4);

/// The longest pause between two checks, in hints to the processor. The first is one hint, and each later one is twice as long: meanwhile
/// the worker that is about to write the answer has it in its cache.
const LONGEST_PAUSE: u32 = 8;

thread_local! {
    // How long this thread spins next, and how many spins in a row found nothing.
    static LIMIT: Cell<(Duration, u32)> = const { Cell::new((SHORTEST, TRIAL - 1)) };
}

/// Spins for a while, but not beyond the deadline, and returns whether it is there.
pub(super) fn looks(deadline: Option<Instant>, is_there: impl Fn() -> bool) -> bool {
    let (begun, (usual, failed)) = (Instant::now(), LIMIT.get());
    let is_trial = failed % TRIAL == TRIAL - 1;
    let limit = if is_trial { usual.max(LONGER) } else { usual };
    let mut pause = 1;
    loop {
        let found = is_there();
        let now = Instant::now();
        let took = now.duration_since(begun);
        if took > limit {
            LIMIT.set(((usual * 3 / 4).max(SHORTEST), failed.wrapping_add(1)));
            return found;
        }
        if found {
            LIMIT.set(((limit / 2 + 2 * took).clamp(SHORTEST, LONGEST), 0));
            return true;
        }
        if deadline.is_some_and(|end| now >= end) {
            return false;
        }
        (0..pause).for_each(|_| hint::spin_loop());
        pause = LONGEST_PAUSE.min(2 * pause);
    }
}
