//! The texts of a rule whose clocks are set by hand.
use super::{Anchor, Plan, RecordedRule, memory_for};
use crate::rule::{JobId, PoolError, PoolRule};
use std::time::{Duration, SystemTime, UNIX_EPOCH};

const FIRST: JobId = JobId {
    caller: 1,
    number: 1,
};
const SECOND: JobId = JobId {
    caller: 1,
    number: 2,
};

fn opened(system: SystemTime) -> Result<RecordedRule, PoolError> {
    let plan = Plan {
        events: 5,
        opened: Anchor { at: 0, system },
        keep_alive: Duration::from_micros(1_500),
    };
    RecordedRule::new(PoolRule::builder(1, 2).queue(3).open()?, Some(&plan))
}

// The part up to here. The next one begins when the record's clock shows `at` and the system's shows `system`.
fn part(rule: &mut RecordedRule, at: u64, system: SystemTime) -> Result<String, PoolError> {
    let part = rule.begin_part(memory_for(5)?, Anchor { at, system });
    Ok(part.map_or_else(String::new, |part| part.text()))
}

#[test]
fn parts_begin_by_both_clocks() -> Result<(), PoolError> {
    let (opening, seam) = (1_000_000_000, 2_000_000_000);
    let after_1970 = |seconds| UNIX_EPOCH + Duration::from_secs(seconds);
    let mut rule = opened(after_1970(opening))?;
    rule.begin_turn(Some(250_000));
    rule.submit(FIRST, 7)?;
    let picked = rule.pick().ok_or(PoolError::NotOut)?;
    rule.submit(SECOND, 8)?;
    // The clocks were read a little before the turn.
    rule.begin_turn(Some(400_007));
    let text = part(&mut rule, 400_000, after_1970(seam))?;
    let wanted = "# Part 1 of a pool's record.
core = 1
max = 2
queue = 3
idle_for = 1500
began = 2001-09-09T01:46:40.250000Z
---
event,caller,number,reply,core,max,at
submit,1,1,core,,,250000
submit,1,2,queued,,,250000
";
    assert_eq!(text, wanted);
    rule.begin_turn(Some(400_009));
    rule.close();
    rule.remove(2);
    rule.begin_turn(Some(400_010));
    rule.finish(&picked)?;
    rule.finish_removed();
    assert!(rule.idle_end());
    let text = part(&mut rule, 400_010, after_1970(seam))?;
    let wanted =
        "# Part 2 of a pool's record. The first 2 events make the state in which the pool was.
# The room was full: 1 events that came then are missing.
core = 1
max = 2
queue = 3
idle_for = 1500
made = 2
began = 2033-05-18T03:33:20.000007Z
---
event,caller,number,reply,core,max,time_out,at
submit,1,1,core,,,,400007
submit,1,2,queued,,,,400007
close,,,,,,,400009
remove,1,2,,,,,400009
finish,1,1,,,,,400010
";
    assert_eq!(text, wanted);
    let numbers = rule.numbers();
    let counts = (numbers.workers, numbers.waiting, numbers.finished);
    assert_eq!(counts, (0, 0, 2));
    Ok(())
}

#[test]
fn a_moment_that_toml_has_no_year_for_is_left_out() -> Result<(), PoolError> {
    for (system, wanted) in [
        (UNIX_EPOCH - Duration::from_micros(1), None),
        (UNIX_EPOCH, Some("began = 1970-01-01T00:00:00.000001Z")),
        (UNIX_EPOCH + Duration::from_secs(253_402_300_800), None),
    ] {
        let mut rule = opened(system)?;
        rule.begin_turn(Some(1));
        rule.submit(FIRST, 7)?;
        let text = part(&mut rule, 1, system)?;
        let began = text.lines().find(|line| line.starts_with("began"));
        assert_eq!(began, wanted);
    }
    Ok(())
}

#[test]
fn a_record_that_is_full_while_jobs_are_given_back_is_what_came_before() -> Result<(), PoolError> {
    let mut rule = opened(UNIX_EPOCH)?;
    for number in 1..=4 {
        rule.submit(JobId { caller: 1, number }, number)?;
    }
    // The job of a worker of its own.
    let picked = rule.pick().ok_or(PoolError::NotOut)?;
    rule.close();
    (2..=4).for_each(|number| rule.remove(number));
    let text = part(&mut rule, 0, UNIX_EPOCH)?;
    assert!(text.contains("missing.") && text.ends_with("\nclose,,,,,,0\n"));
    // Those that were given back don't wait, though the library's rule still has them.
    let text = part(&mut rule, 0, UNIX_EPOCH)?;
    assert!(text.ends_with(",at\nsubmit,1,1,core,,,0\nclose,,,,,,0\n"));
    assert_eq!((rule.numbers().waiting, rule.numbers().finished), (0, 3));
    rule.finish(&picked)?;
    rule.finish_removed();
    assert_eq!((rule.numbers().waiting, rule.numbers().finished), (0, 4));
    Ok(())
}
