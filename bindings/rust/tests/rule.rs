//! A pool's rule, whose answers are proved for the library: that each call, each answer and each event is the intended one.
use resil::rule::{Event, JobId, Origin, Picked, PoolError, PoolRule, Reply};

fn job(number: u64) -> JobId {
    JobId { caller: 1, number }
}

#[test]
fn submissions_are_answered_by_the_rule() -> Result<(), PoolError> {
    let mut rule = PoolRule::builder(1, 2).queue(1).keep_events(100).open()?;
    for (number, reply) in (1..).zip([Reply::Core, Reply::Queued, Reply::Extra, Reply::Full]) {
        assert_eq!(rule.submit(job(number), 10 * number)?, reply);
    }
    let (first, third) = (rule.pick(), rule.pick());
    let (Some(first), Some(third)) = (first, third) else {
        panic!("both have a worker");
    };
    let told = (first.id, first.work, first.origin);
    assert_eq!(told, (job(1), 10, Origin::OwnStart));
    let told = (third.id, third.work, third.origin);
    assert_eq!(told, (job(3), 30, Origin::OwnStart));
    assert_eq!(rule.pick(), None);
    let place = first.place + 2;
    let elsewhere = Picked { place, ..first };
    assert_eq!(rule.finish(&elsewhere), Err(PoolError::NotOut));
    rule.finish(&first)?;
    let second = rule.pick().ok_or(PoolError::NotOut)?;
    let told = (second.id, second.work, second.origin);
    assert_eq!(told, (job(2), 20, Origin::Queue));
    rule.resize(1, 2)?;
    assert!(rule.close() && rule.is_closed());
    assert!(!rule.close());
    assert_eq!(rule.submit(job(5), 50)?, Reply::Closed);
    rule.finish(&second)?;
    rule.finish(&third)?;
    assert!(rule.idle_end() && rule.idle_end() && !rule.idle_end());
    let wanted = [
        Event::Submit(job(1), Reply::Core),
        Event::Submit(job(2), Reply::Queued),
        Event::Submit(job(3), Reply::Extra),
        Event::Submit(job(4), Reply::Full),
        Event::Finish(job(1)),
        Event::Take(job(2)),
        Event::Resized { core: 1, max: 2 },
        Event::Close,
        Event::Submit(job(5), Reply::Closed),
        Event::Finish(job(2)),
        Event::Finish(job(3)),
        Event::IdleEnd,
        Event::IdleEnd,
    ];
    assert_eq!(rule.last_events(), wanted);
    assert_eq!((rule.event(wanted.len()), rule.lost()), (None, 0));
    Ok(())
}

#[test]
fn refusals_change_nothing() -> Result<(), PoolError> {
    let refused = |core, max, queue, callers| {
        let rule = PoolRule::builder(core, max).queue(queue);
        rule.callers(callers).open().err()
    };
    assert_eq!(refused(0, 0, 0, 0), Some(PoolError::CoreOutOfRange));
    assert_eq!(refused(2, 1, 0, 0), Some(PoolError::MaxOutOfRange));
    assert_eq!(refused(1, 1, 0, 0), Some(PoolError::QueueOutOfRange));
    assert_eq!(refused(1, 1, 1, 0), Some(PoolError::CallersOutOfRange));
    assert_eq!(refused(1_025, 1_025, 1, 1), Some(PoolError::CoreOutOfRange));
    assert_eq!(refused(1, 1_025, 1, 1), Some(PoolError::MaxOutOfRange));
    assert_eq!(refused(1_024, 1_024, 65_536, 65_535), None);
    let mut rule = PoolRule::builder(1, 1).keep_events(9).open()?;
    assert_eq!(rule.submit(job(2), 0), Err(PoolError::WrongNumber));
    for caller in [0, 2] {
        let refused = rule.submit(JobId { caller, number: 1 }, 0);
        assert_eq!(refused, Err(PoolError::NoCaller));
    }
    let stranger = Picked {
        id: job(1),
        work: 0,
        place: 0,
        origin: Origin::Queue,
    };
    assert_eq!(rule.finish(&stranger), Err(PoolError::NotOut));
    let told = (rule.pick(), rule.idle_end(), rule.event_count());
    assert_eq!(told, (None, false, 0));
    Ok(())
}

#[test]
fn the_last_events_are_kept() -> Result<(), PoolError> {
    let mut rule = PoolRule::builder(1, 1).keep_events(2).open()?;
    for number in 1..=3 {
        rule.submit(job(number), 0)?;
    }
    let wanted = [2, 3].map(|number| Event::Submit(job(number), Reply::Queued));
    assert_eq!((rule.last_events(), rule.lost()), (wanted.to_vec(), 1));
    Ok(())
}
