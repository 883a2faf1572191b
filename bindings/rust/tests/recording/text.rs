//! The text of a history, parsed: its head, its events, and the pool's state that follows from them.
use std::error::Error;
use std::str::FromStr;
use std::time::{Duration, SystemTime, UNIX_EPOCH};

type Read<T> = Result<T, Box<dyn Error>>;

/// A text of a history.
pub struct Text {
    /// The core size, the maximum size and the queue's capacity in its head.
    pub sizes: [u32; 3],
    /// After how many microseconds an idle worker may end, and when the first event was.
    pub idle_for: u64,
    pub began: Option<SystemTime>,
    /// The version of the text.
    pub version: u32,
    /// How many events recreate the state at its beginning, and how many are missing after its last one.
    pub made: usize,
    pub missed: u64,
    /// Whether it has no events for lack of room.
    pub is_empty: bool,
    /// The events without their times and the empty field before these that version 4 has, and the times.
    pub events: Vec<String>,
    pub times: Vec<u64>,
}

/// The observable state of a pool.
#[derive(Debug, Default, PartialEq)]
pub struct State {
    workers: u32,
    running: u32,
    waiting: u32,
    sizes: (u32, u32),
    is_closed: bool,
}

// The number after these words, or 0 if they aren't there.
fn number_behind<T: Default + FromStr>(text: &str, words: &str) -> T {
    let rest = text.split_once(words).map_or("", |(_, rest)| rest);
    let number = rest.split(' ').next().unwrap_or_default();
    number.parse().unwrap_or_default()
}

// A moment such as 2026-05-27T07:32:00.250000Z, by the days of all years and months before.
fn moment(text: &str) -> Read<SystemTime> {
    let form: String = text.replace(|digit: char| digit.is_ascii_digit(), "0");
    assert_eq!(form, "0000-00-00T00:00:00.000000Z");
    let digits: String = text.chars().filter(char::is_ascii_digit).collect();
    let number = |from: usize, to: usize| digits[from..to].parse::<u64>();
    let (year, month, day) = (number(0, 4)?, number(4, 6)?, number(6, 8)?);
    let is_leap = |year: u64| year % 4 == 0 && (year % 100 != 0 || year % 400 == 0);
    let years: u64 = (1970..year)
        .map(|year| 365 + u64::from(is_leap(year)))
        .sum();
    let months: u64 = (1..month)
        .map(|month| match month {
            2 => 28 + u64::from(is_leap(year)),
            4 | 6 | 9 | 11 => 30,
            _ => 31,
        })
        .sum();
    let hours = (years + months + day - 1) * 24 + number(8, 10)?;
    let seconds = (hours * 60 + number(10, 12)?) * 60 + number(12, 14)?;
    let micros = Duration::from_micros(seconds * 1_000_000 + number(14, 20)?);
    Ok(UNIX_EPOCH + micros)
}

impl Text {
    pub fn of(text: &str) -> Read<Text> {
        let (head, body) = text.split_once("\n---\n").ok_or("it has no head")?;
        let (comments, keys): (Vec<_>, Vec<_>) =
            head.lines().partition(|line| line.starts_with('#'));
        let mut keys = keys.into_iter().peekable();
        let mut value = |key: &str| {
            let line = keys.next_if(|line| line.starts_with(key))?;
            line[key.len()..].strip_prefix(" = ").map(str::to_owned)
        };
        let mut size = |key| Ok(value(key).ok_or("a size isn't there")?.parse()?);
        let sizes = ["core", "max", "queue"].map(&mut size);
        let sizes = sizes.into_iter().collect::<Read<Vec<u32>>>()?;
        let idle_for = value("idle_for").ok_or("it has no keep-alive")?;
        let made = value("made").map_or(Ok(0), |made| made.parse())?;
        let began = value("began").map(|began| moment(&began)).transpose()?;
        assert_eq!(keys.next(), None);
        let mut lines = body.lines();
        let (version, end) = match lines.next() {
            Some("event,caller,number,reply,core,max,at") => (3, ""),
            Some("event,caller,number,reply,core,max,time_out,at") => (4, ","),
            _ => return Err("another header".into()),
        };
        let (mut events, mut times) = (Vec::new(), Vec::new());
        for line in lines {
            let (event, time) = line.rsplit_once(',').ok_or("an event without a time")?;
            let event = event.strip_suffix(end).ok_or("a field isn't there")?;
            assert_eq!(event.matches(',').count(), 5, "it has other fields");
            events.push(event.to_owned());
            times.push(time.parse()?);
        }
        let comments = comments.join(" ");
        let told: usize = number_behind(&comments, "The first ");
        assert_eq!(made, told, "the comment and the key differ");
        assert_eq!(began.is_none(), events.is_empty());
        Ok(Text {
            sizes: sizes.try_into().map_err(|_| "there aren't three sizes")?,
            idle_for: idle_for.parse()?,
            began,
            version,
            made,
            missed: number_behind(&comments, "The room was full: "),
            is_empty: comments.contains("so it is empty"),
            events,
            times,
        })
    }

    /// How many events after those that recreate the state begin and end with these words.
    pub fn count(&self, first: &str, last: &str) -> u64 {
        let events = self.events[self.made..].iter();
        let events = events.filter(|event| event.starts_with(first) && event.ends_with(last));
        events.count() as u64
    }

    /// The state after the first events.
    pub fn state_behind(&self, count: usize) -> Read<State> {
        let [core, max, _] = self.sizes;
        let mut state = State {
            sizes: (core, max),
            ..State::default()
        };
        for event in &self.events[..count] {
            let fields: Vec<&str> = event.split(',').collect();
            match (fields[0], fields[3]) {
                ("submit", "core" | "extra") => {
                    state.workers += 1;
                    state.running += 1;
                }
                ("submit", "queued") => state.waiting += 1,
                ("take", _) => {
                    state.waiting -= 1;
                    state.running += 1;
                }
                ("remove", _) => state.waiting -= 1,
                ("finish", _) => state.running -= 1,
                ("idle", _) => state.workers -= 1,
                ("resize", _) => state.sizes = (fields[4].parse()?, fields[5].parse()?),
                ("close", _) => state.is_closed = true,
                _ => {}
            }
        }
        Ok(state)
    }
}
