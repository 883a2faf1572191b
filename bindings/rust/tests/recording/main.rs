//! A pool's record: what is recorded, where it ends and begins again, and that nothing is recorded unless asked for.
#[path = "../common/mod.rs"]
mod common;
mod loads;
mod text;

use common::{Checked, all_gated, end, gated, until};
use resil::{PoolError, ThreadPool, ThreadPoolBuilder};
use std::error::Error;
use std::time::{Duration, SystemTime, SystemTimeError, UNIX_EPOCH};
use std::{panic, thread};
use text::Text;

fn opened(builder: ThreadPoolBuilder) -> Result<ThreadPool, PoolError> {
    builder.open()
}

fn history(pool: &ThreadPool) -> Result<Text, Box<dyn Error>> {
    Text::of(&pool.history().ok_or("the pool isn't recorded")?)
}

#[test]
fn nothing_is_recorded_where_nobody_asks() -> Checked {
    let pool = ThreadPool::builder(1, 1).open()?;
    pool.submit(|| ())?.wait()?;
    assert_eq!(pool.history(), None);
    Ok(())
}

#[test]
fn what_no_history_says_is_refused_at_the_opening() {
    let refused = |core, max, queue, events| {
        let builder = ThreadPool::builder(core, max).queue(queue);
        builder.record(events).open().err()
    };
    assert_eq!(refused(1, 1, 1, 0), Some(PoolError::RecordOutOfRange));
    assert_eq!(refused(1, 1, 1, 100_001), Some(PoolError::RecordOutOfRange));
    assert_eq!(refused(1_024, 1_024, 65_536, 100_000), None);
    let told = PoolError::RecordOutOfRange.to_string();
    assert_eq!(told, "the record is not for 1 to 100000 events");
}

#[test]
fn each_event_is_noted() -> Checked {
    let pool = ThreadPool::builder(1, 2).queue(1);
    let pool = pool.keep_alive(Duration::MAX).record(100).open()?;
    let (first, second) = (gated(&pool)?, gated(&pool)?);
    let third = gated(&pool)?;
    assert!(pool.submit(|| ()).is_err());
    end(third)?;
    pool.resize(2, 2)?;
    end(first)?;
    let panics = pool.submit(|| panic::resume_unwind(Box::new(())))?;
    assert!(panics.wait().is_err());
    pool.close();
    pool.close();
    assert!(until(|| pool.numbers().workers == 1));
    assert!(pool.submit(|| ()).is_err());
    end(second)?;
    pool.join();
    let text = history(&pool)?;
    let wanted = [
        "submit,1,1,core,,",
        "submit,1,2,queued,,",
        "submit,1,3,extra,,",
        "submit,1,4,full,,",
        "finish,1,3,,,",
        "take,1,2,,,",
        "resize,,,,2,2",
        "finish,1,1,,,",
        "submit,1,5,queued,,",
        "take,1,5,,,",
        "finish,1,5,,,",
        "close,,,,,",
        "idle,,,,,",
        "submit,1,6,closed,,",
        "finish,1,2,,,",
        "idle,,,,,",
    ];
    assert_eq!(text.events, wanted);
    assert_eq!((text.sizes, text.made, text.missed), ([1, 2, 1], 0, 0));
    assert!(text.times.is_sorted());
    Ok(())
}

#[test]
fn a_record_ends_where_it_is_full_and_begins_anew() -> Checked {
    let pool = ThreadPool::builder(1, 1).queue(5).record(5).open()?;
    for _ in 0..3 {
        pool.submit(|| ())?.wait()?;
    }
    let text = history(&pool)?;
    let wanted = [
        "submit,1,1,core,,",
        "finish,1,1,,,",
        "submit,1,2,queued,,",
        "take,1,2,,,",
        "finish,1,2,,,",
    ];
    assert_eq!(text.events, wanted);
    assert_eq!((text.made, text.missed), (0, 3));
    let text = history(&pool)?;
    assert_eq!(text.events, ["submit,2,1,core,,", "finish,2,1,,,"]);
    assert_eq!((text.made, text.missed), (2, 0));
    Ok(())
}

#[test]
fn the_longest_record_is_an_input() -> Checked {
    let pool = ThreadPool::builder(1, 1).queue(1).record(100_000);
    let pool = pool.open()?;
    let (running, waiting) = (gated(&pool)?, gated(&pool)?);
    for _ in 2..100_000 {
        assert!(pool.submit(|| ()).is_err());
    }
    // The 100,001st event isn't recorded, but counted, and the pool goes on.
    end(running)?;
    end(waiting)?;
    pool.submit(|| 42)?.wait()?;
    let text = pool.history().ok_or("the pool isn't recorded")?;
    assert!(text.len() < 4 << 20, "it has {} bytes", text.len());
    let text = Text::of(&text)?;
    let last = text.events.last().map(String::as_str);
    assert_eq!(last, Some("submit,1,100000,full,,"));
    // Two finishes and a take, and three events of the last job.
    assert_eq!((text.events.len(), text.missed), (100_000, 6));
    let text = history(&pool)?;
    assert_eq!((text.made, text.missed), (2, 0));
    Ok(())
}

// One job runs and five wait: it would take six events to recreate that.
#[test]
fn a_record_is_empty_where_more_jobs_wait_than_it_has_room_for() -> Checked {
    let pool = ThreadPool::builder(1, 1).queue(5).record(5).open()?;
    let running = gated(&pool)?;
    let waiting = (0..5).map(|_| pool.submit(|| ()));
    let waiting = waiting.collect::<Result<Vec<_>, _>>()?;
    assert_eq!(history(&pool)?.missed, 1);
    let text = history(&pool)?;
    assert!(text.is_empty && text.events.is_empty() && text.missed == 0);
    end(running)?;
    for job in waiting {
        job.wait()?;
    }
    let text = history(&pool)?;
    assert!(text.is_empty && text.events.is_empty() && text.missed == 11);
    let text = history(&pool)?;
    assert_eq!((text.is_empty, text.made, text.events.len()), (false, 2, 2));
    Ok(())
}

#[test]
fn a_part_begins_with_the_state_of_the_pool() -> Checked {
    let pool = ThreadPool::builder(2, 4).queue(2);
    let pool = pool.keep_alive(Duration::MAX).record(100).open()?;
    let mut jobs = all_gated(&pool, 6)?;
    assert_eq!(history(&pool)?.events.len(), 6);
    end(jobs.remove(1))?;
    pool.resize(1, 3)?;
    let text = history(&pool)?;
    let wanted = [
        "resize,,,,4,4",
        "submit,1,1,core,,",
        "submit,1,2,core,,",
        "submit,1,3,core,,",
        "submit,1,4,core,,",
        "submit,1,5,queued,,",
        "submit,1,6,queued,,",
        "resize,,,,2,4",
        "finish,1,2,,,",
        "take,1,5,,,",
        "resize,,,,1,3",
    ];
    assert_eq!(text.events, wanted);
    assert_eq!((text.sizes, text.made), ([2, 4, 2], 8));
    // The fourth one is given back: it no longer waits, and nobody takes it.
    drop(pool.close_now());
    let text = history(&pool)?;
    assert_eq!((text.sizes, text.made, text.version), ([1, 4, 2], 7, 4));
    let wanted = [
        "submit,1,5,queued,,",
        "resize,,,,1,3",
        "close,,,,,",
        "remove,1,5,,,",
    ];
    assert_eq!(text.events[5..], wanted);
    end(jobs.remove(0))?;
    assert!(until(|| pool.numbers().workers == 3));
    let text = history(&pool)?;
    let wanted = ["resize,,,,1,3", "close,,,,,", "finish,1,1,,,", "idle,,,,,"];
    assert_eq!(text.events[5..], wanted);
    assert_eq!((text.sizes, text.made, text.version), ([1, 4, 2], 7, 3));
    Ok(())
}

#[test]
fn jobs_that_are_given_back_are_removed() -> Checked {
    let pool = ThreadPool::builder(1, 2).queue(2);
    let pool = pool.keep_alive(Duration::MAX).record(100).open()?;
    let (first, _waiting) = (gated(&pool)?, all_gated(&pool, 2)?);
    let second = gated(&pool)?;
    let back = pool.close_now();
    assert_eq!((back.len(), pool.close_now().len()), (2, 0));
    let numbers = pool.numbers();
    assert_eq!((numbers.waiting, numbers.finished), (0, 2));
    assert!(pool.submit(|| ()).is_err());
    end(second)?;
    assert!(until(|| pool.numbers().workers == 1));
    end(first)?;
    pool.join();
    let text = history(&pool)?;
    let wanted = [
        "submit,1,1,core,,",
        "submit,1,2,queued,,",
        "submit,1,3,queued,,",
        "submit,1,4,extra,,",
        "close,,,,,",
        "remove,1,2,,,",
        "remove,1,3,,,",
        "submit,1,5,closed,,",
        "finish,1,4,,,",
        "idle,,,,,",
        "finish,1,1,,,",
        "idle,,,,,",
    ];
    assert_eq!(text.events, wanted);
    assert_eq!((text.version, text.made, text.missed), (4, 0, 0));
    let text = history(&pool)?;
    assert_eq!(
        (text.events.as_slice(), text.version),
        (["close,,,,,".to_owned()].as_slice(), 3)
    );
    Ok(())
}

#[test]
fn a_head_says_after_what_time_an_idle_thread_ends() -> Checked {
    let idle_for =
        |builder: ThreadPoolBuilder| history(&builder.record(1).open()?).map(|text| text.idle_for);
    assert_eq!(idle_for(ThreadPool::builder(1, 1))?, 20_000);
    let year = Duration::from_secs(365 * 24 * 3_600);
    for (keep_alive, wanted) in [
        (Duration::ZERO, 0),
        (Duration::from_nanos(1_999), 1),
        (Duration::from_secs(60), 60_000_000),
        (
            Duration::from_micros(31_535_999_999_999),
            31_535_999_999_999,
        ),
        (year, 31_536_000_000_000),
        (year + Duration::from_micros(1), 31_536_000_000_000),
        (Duration::MAX, 31_536_000_000_000),
    ] {
        let builder = ThreadPool::builder(1, 1).keep_alive(keep_alive);
        assert_eq!(idle_for(builder)?, wanted);
    }
    Ok(())
}

// The time by the system's clock, cut to the microsecond.
fn now() -> Result<SystemTime, SystemTimeError> {
    let micros = SystemTime::now().duration_since(UNIX_EPOCH)?.as_micros();
    Ok(UNIX_EPOCH + Duration::from_micros(u64::try_from(micros).unwrap_or(u64::MAX)))
}

// The moment of the first event of a text that has these events.
fn moment(pool: &ThreadPool, wanted: &[&str]) -> Result<SystemTime, Box<dyn Error>> {
    let text = history(pool)?;
    assert_eq!(text.events, wanted);
    Ok(text.began.ok_or("the head doesn't say when it began")?)
}

#[test]
fn a_head_says_when_its_first_event_was() -> Checked {
    let (pause, moment_more) = (Duration::from_millis(20), Duration::from_millis(1));
    let before = now()?;
    let pool = ThreadPool::builder(1, 1).record(100).open()?;
    thread::sleep(pause);
    pool.submit(|| ())?.wait()?;
    // The two clocks may drift apart by some microseconds.
    thread::sleep(moment_more);
    let between = now()?;
    let first = moment(&pool, &["submit,1,1,core,,", "finish,1,1,,,"])?;
    assert!(before + pause <= first && first <= between);
    thread::sleep(moment_more);
    let after = now()?;
    // The events that recreate the state have the time at which the first part ended.
    let second = moment(&pool, &["submit,2,1,core,,", "finish,2,1,,,"])?;
    assert!(between <= second && second <= after);
    Ok(())
}

// The second part of this one begins at once, and has no event for a while.
#[test]
fn a_head_without_an_event_says_no_moment() -> Checked {
    let pool = ThreadPool::builder(1, 1).record(100).open()?;
    assert_eq!(history(&pool)?.began, None);
    let before = now()?;
    let pause = Duration::from_millis(20);
    thread::sleep(pause);
    pool.submit(|| ())?.wait()?;
    thread::sleep(Duration::from_millis(1));
    let after = now()?;
    let first = moment(&pool, &["submit,1,1,core,,", "finish,1,1,,,"])?;
    // The part began before the test read the clock, by less than a second.
    let least = before + pause;
    assert!(least <= first + Duration::from_secs(1) && first <= after);
    Ok(())
}
