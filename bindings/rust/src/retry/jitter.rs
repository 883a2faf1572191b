//! A stream of numbers that many threads draw from, and the waits made from it.
use crate::interval::milliseconds;
use std::collections::hash_map::RandomState;
use std::hash::{BuildHasher, Hasher};
use std::sync::Arc;
use std::sync::atomic::{AtomicU64, Ordering};
use std::time::Duration;

// The generator is SplitMix64 (Steele, Lea, Flood, Fast Splittable Pseudorandom Number Generators, 2014): a number that grows by the odd
// part of the golden ratio, and is mixed. So threads draw without a lock.
const STEP: u64 = 0x9e37_79b9_7f4a_7c15;

// Clones draw from one stream: two that drew the same numbers would wait in step.
#[derive(Debug, Clone)]
pub(super) struct Jitter {
    state: Arc<AtomicU64>,
}

impl Jitter {
    pub(super) fn new(seed: u64) -> Jitter {
        Jitter {
            state: Arc::new(AtomicU64::new(seed)),
        }
    }

    // The standard library gets the keys of its maps from the system.
    pub(super) fn unseeded() -> Jitter {
        Jitter::new(RandomState::new().build_hasher().finish())
    }

    fn next(&self) -> u64 {
        let state = self.state.fetch_add(STEP, Ordering::Relaxed);
        let mixed = state.wrapping_add(STEP);
        let mixed = (mixed ^ (mixed >> 30)).wrapping_mul(0xbf58_476d_1ce4_e5b9);
        let mixed = (mixed ^ (mixed >> 27)).wrapping_mul(0x94d0_49bb_1331_11eb);
        mixed ^ (mixed >> 31)
    }

    // A wait between half of this one and all of it. All whole milliseconds are equally likely.
    pub(super) fn draw(&self, whole: Duration) -> Duration {
        let ms = milliseconds(whole);
        let span = ms / 2 + 1;
        let drawn = (u128::from(self.next()) * u128::from(span)) >> 64;
        Duration::from_millis(ms - drawn as u64)
    }
}

#[cfg(test)]
mod tests {
    use super::*;

    // The first numbers of SplitMix64 for the seed 1234567, which other implementations are tested with.
    #[test]
    fn the_numbers_are_those_of_splitmix64() {
        let jitter = Jitter::new(1_234_567);
        let numbers = [(); 3].map(|()| jitter.next());
        let wanted = [
            6_457_827_717_110_365_317,
            3_203_168_211_198_807_973,
            9_817_491_932_198_370_423,
        ];
        assert_eq!(numbers, wanted);
    }

    #[test]
    fn each_wait_from_half_to_the_whole_is_drawn() {
        let jitter = Jitter::new(7);
        for whole in [0, 1, 2, 5, 8] {
            let drawn: std::collections::BTreeSet<_> = (0..1_000)
                .map(|_| milliseconds(jitter.draw(Duration::from_millis(whole))))
                .collect();
            assert!(drawn.into_iter().eq(whole.div_ceil(2)..=whole));
        }
    }
}
