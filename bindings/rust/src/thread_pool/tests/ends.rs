//! Ends without the lock.
use super::super::ends::Ends;
use crate::rule::{JobId, Origin, Picked};
use std::sync::atomic::{AtomicBool, Ordering};
use std::sync::mpsc;
use std::thread;
use std::time::Duration;

// Ends the job of this number at this place.
fn end(ends: &Ends, place: u32, number: u64, hand_out: impl FnOnce()) {
    let (id, origin, work) = (JobId { caller: 1, number }, Origin::Queue, 0);
    ends.end(
        &Picked {
            id,
            work,
            place,
            origin,
        },
        hand_out,
    );
}

fn all(ends: &Ends) -> Vec<(u32, u64)> {
    let mut all = Vec::new();
    ends.take(|place, number| all.push((place, number)));
    all
}

#[test]
fn an_end_is_told_once_when_its_answer_is_out() {
    let ends = Ends::new(64).expect("memory");
    end(&ends, 63, 7, || ());
    end(&ends, 0, 9, || {
        assert_eq!(all(&ends), [(63, 7)]);
        assert_eq!(all(&ends), []);
    });
    assert_eq!(all(&ends), [(0, 9)]);
    end(&ends, 0, 10, || assert_eq!(all(&ends), []));
    assert_eq!(all(&ends), [(0, 10)]);
}

#[test]
fn ends_at_any_of_1024_places_are_told_by_their_place() {
    let ends = Ends::new(1_024).expect("memory");
    let places = [0, 63, 64, 127, 128, 1_023];
    for place in places {
        end(&ends, place, u64::from(place) + 1, || ());
    }
    assert_eq!(
        all(&ends),
        places.map(|place| (place, u64::from(place) + 1))
    );
    assert_eq!(all(&ends), []);
}

#[test]
fn whoever_asks_waits_for_answers_that_are_on_their_way() {
    let (ends, is_out) = (Ends::new(6).expect("memory"), AtomicBool::new(false));
    let (begins, begun) = mpsc::channel();
    let hand_out = || {
        let _told = begins.send(());
        thread::sleep(Duration::from_millis(5));
        is_out.store(true, Ordering::SeqCst);
    };
    thread::scope(|scope| {
        scope.spawn(|| end(&ends, 5, 1, hand_out));
        assert_eq!(begun.recv(), Ok(()));
        ends.settle();
        assert!(is_out.load(Ordering::SeqCst));
    });
    assert_eq!(all(&ends), [(5, 1)]);
}
