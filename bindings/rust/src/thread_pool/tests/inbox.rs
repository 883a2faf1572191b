//! Submissions without the lock: their order, their grants, and places that are written too late.
use super::super::inbox::{Inbox, LAST_PLACE, Ring};
use std::thread;

// How many places the ring has, and a number above that.
const RING: u64 = 256;
const MANY: usize = 1_000;

fn opened(laps: u64) -> Inbox {
    Inbox::new(Ring::new(200, laps * RING).expect("there is memory"))
}

fn all(inbox: &mut Inbox) -> Vec<u64> {
    inbox.look();
    std::iter::from_fn(|| inbox.pop()).collect()
}

// Submits tasks, starting with this one, as many as there are granted places for.
fn fill(ring: &Ring, first: u64) -> Vec<u64> {
    let tasks = (first..).step_by(2);
    tasks
        .take_while(|task| ring.submit(*task).is_some())
        .collect()
}

#[test]
fn as_many_come_in_as_were_granted_and_not_taken_back() {
    let mut inbox = opened(0);
    let ring = inbox.ring();
    assert_eq!(fill(&ring, 2), []);
    inbox.grant(3);
    assert_eq!(fill(&ring, 2), [2, 4, 6]);
    inbox.look();
    assert_eq!(inbox.pop(), Some(2));
    // Two are still in the ring.
    inbox.grant(3);
    assert_eq!(fill(&ring, 8), [8]);
    assert_eq!(all(&mut inbox), [4, 6, 8]);
    inbox.grant(10);
    assert!(ring.submit(10).is_some());
    inbox.take_back_grant();
    assert_eq!(fill(&ring, 12), []);
    assert_eq!(all(&mut inbox), [10]);
    for first in [2, 1_002] {
        inbox.grant(MANY);
        inbox.grant(MANY);
        let submitted = fill(&ring, first);
        assert_eq!(submitted.len() as u64, RING);
        assert_eq!(all(&mut inbox), submitted);
    }
}

#[test]
fn there_are_as_many_places_as_the_queue_needs_up_to_4096() {
    for (capacity, places) in [(1, 1), (3, 4), (100, 128), (4096, 4096), (65_536, 4096)] {
        let mut inbox = Inbox::new(Ring::new(capacity, 0).expect("there is memory"));
        let ring = inbox.ring();
        for first in [2, 10_002] {
            inbox.grant(usize::MAX);
            assert_eq!(fill(&ring, first).len(), places);
            assert_eq!(all(&mut inbox).len(), places);
        }
    }
}

#[test]
fn a_submission_reads_whether_it_calls() {
    let mut inbox = opened(0);
    let ring = inbox.ring();
    inbox.grant(5);
    for calls in [true, false, true] {
        inbox.set_calls(calls);
        inbox.set_calls(calls);
        assert_eq!(ring.submit(2), Some(calls));
    }
}

#[test]
fn a_place_that_stays_unwritten_is_voided() {
    // In the last lap too, after which places are counted from 0.
    for laps in [0, LAST_PLACE / RING] {
        let mut inbox = opened(laps);
        let ring = inbox.ring();
        inbox.grant(MANY);
        let [late, other] = [(); 2].map(|()| ring.take().expect("it is granted").0);
        assert!(ring.fill(other, 4));
        // The first one delays nobody, and comes too late, even after its place is used again.
        assert_eq!(all(&mut inbox), [4]);
        let mut filled = 0;
        while filled < 2 * RING {
            inbox.grant(MANY);
            while let Some((place, _)) = ring.take() {
                assert!(!ring.fill(late, 2));
                assert!(ring.fill(place, 6));
                filled += 1;
            }
            assert!(all(&mut inbox).iter().all(|task| *task == 6));
        }
        assert!(!ring.fill(late, 2));
    }
}

#[test]
fn each_comes_out_once_and_in_its_submitters_order() {
    const SUBMITTERS: u64 = 4;
    const TASKS: u64 = 5_000;
    // After the last place they are counted from 0.
    let mut inbox = opened(LAST_PLACE / RING - 10);
    let (ring, mut came) = (inbox.ring(), Vec::new());
    thread::scope(|scope| {
        for submitter in 0..SUBMITTERS {
            let ring = &ring;
            scope.spawn(move || {
                for number in 1..=TASKS {
                    while ring.submit(2 * (SUBMITTERS * number + submitter)).is_none() {
                        thread::yield_now();
                    }
                }
            });
        }
        let mut turn = 0;
        while came.len() as u64 != SUBMITTERS * TASKS {
            turn += 1;
            if turn % 5 == 0 {
                inbox.take_back_grant();
            }
            came.extend(all(&mut inbox));
            inbox.grant(1 + turn % 300);
        }
    });
    for submitter in 0..SUBMITTERS {
        let tasks = came.iter().map(|task| task / 2);
        let own = tasks.filter(|task| task % SUBMITTERS == submitter);
        assert!(own.map(|task| task / SUBMITTERS).eq(1..=TASKS));
    }
}
