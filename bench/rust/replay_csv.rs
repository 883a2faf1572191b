//! `replay` as it would be written by hand in Rust, over the crates csv and toml: the same inputs, outputs and statuses.
use std::collections::{HashMap, VecDeque};
use std::io::{self, Read, Write};
use std::process::ExitCode;

type Answer<T> = Result<T, &'static str>;
type Id = (u16, u64);

struct Sizes {
    core: u32,
    max: u32,
    queue: u32,
}

enum Row {
    Submit(Id),
    Finish(Id),
    Take,
    Idle,
    Close,
    Resize(u32, u32),
}

enum Event {
    Submit(Id, &'static str),
    Take(Id),
    Finish(Id),
    Idle,
    Close,
    Resized(u32, u32),
}

// The head and the body, parted by the first line `---`.
fn parts(input: &[u8]) -> Answer<(&[u8], &[u8])> {
    let mut from = 0;
    for line in input.split_inclusive(|byte| *byte == b'\n') {
        let next = from + line.len();
        if matches!(line, b"---\n" | b"---\r\n" | b"---") {
            return Ok((&input[..from], &input[next..]));
        }
        from = next;
    }
    Err("input NoBody")
}

fn sizes(head: &[u8]) -> Answer<Sizes> {
    let text = std::str::from_utf8(head).map_err(|_| "head BadToml")?;
    let table: toml::value::Table = toml::from_str(text).map_err(|_| "head BadToml")?;
    if table.keys().any(|key| !matches!(key.as_str(), "core" | "max" | "queue")) {
        return Err("head UnknownKey");
    }
    if !table.contains_key("core") || !table.contains_key("max") {
        return Err("head MissingKey");
    }
    let size_at = |key: &str| match table.get(key) {
        Some(value) => value.as_integer().and_then(|size| u32::try_from(size).ok()).ok_or("head BadValue"),
        None => Ok(100),
    };
    let sizes = Sizes { core: size_at("core")?, max: size_at("max")?, queue: size_at("queue")? };
    match sizes {
        Sizes { core: 1..=64, .. } => {}
        _ => return Err("head CoreOutOfRange"),
    }
    match sizes {
        Sizes { max, .. } if max < sizes.core || max > 64 => Err("head MaxOutOfRange"),
        Sizes { queue: 1..=65_536, .. } => Ok(sizes),
        _ => Err("head QueueOutOfRange"),
    }
}

// A number without plus sign and leading zeros, at most this.
fn number(field: &[u8], greatest: u64) -> Option<u64> {
    let digits = std::str::from_utf8(field).ok()?;
    let is_plain = digits.bytes().all(|byte| byte.is_ascii_digit()) && (digits == "0" || !digits.starts_with('0'));
    let value = digits.parse().ok()?;
    (is_plain && value <= greatest).then_some(value)
}

fn row(fields: &csv::ByteRecord) -> Option<Row> {
    let id = || {
        let caller = number(&fields[1], 65_535).filter(|caller| *caller > 0)?;
        Some((caller as u16, number(&fields[2], u64::MAX).filter(|number| *number > 0)?))
    };
    let size = |at: usize| Some(number(&fields[at], 4_294_967_295)? as u32);
    let used = match &fields[0] {
        b"submit" | b"finish" => 1..3,
        b"resize" if fields.len() == 5 => 3..5,
        _ => 0..0,
    };
    if (1..fields.len()).any(|at| !used.contains(&at) && !fields[at].is_empty()) {
        return None;
    }
    Some(match &fields[0] {
        b"submit" => Row::Submit(id()?),
        b"finish" => Row::Finish(id()?),
        b"take" => Row::Take,
        b"idle" => Row::Idle,
        b"close" => Row::Close,
        b"resize" if fields.len() == 5 => Row::Resize(size(3)?, size(4)?),
        _ => return None,
    })
}

fn in_row(before: usize, why: &str) -> String {
    format!("{} {why}", before + 1)
}

fn rows(body: &[u8]) -> Result<(Vec<Row>, bool), String> {
    let mut reader = csv::ReaderBuilder::new().has_headers(false).from_reader(body);
    let mut fields = csv::ByteRecord::new();
    if !reader.read_byte_record(&mut fields).map_err(|_| "body BadHeader")? {
        return Err("body BadHeader".into());
    }
    let long = fields == vec!["event", "caller", "number", "core", "max"];
    if !long && fields != vec!["event", "caller", "number"] {
        return Err("body BadHeader".into());
    }
    let mut rows = Vec::new();
    while reader.read_byte_record(&mut fields).map_err(|_| in_row(rows.len(), "BadRow"))? {
        rows.push(row(&fields).ok_or_else(|| in_row(rows.len(), "BadRow"))?);
    }
    Ok((rows, long))
}

struct Pool {
    opened: Sizes,
    core: u32,
    max: u32,
    closed: bool,
    workers: u32,
    waiting: VecDeque<Id>,
    running: Vec<Id>,
    made: HashMap<u16, u64>,
    history: Vec<Event>,
}

impl Pool {
    fn open(sizes: Sizes) -> Pool {
        Pool {
            core: sizes.core,
            max: sizes.max,
            opened: sizes,
            closed: false,
            workers: 0,
            waiting: VecDeque::new(),
            running: Vec::new(),
            made: HashMap::new(),
            history: Vec::new(),
        }
    }

    fn submit(&mut self, id: Id) -> Answer<()> {
        let made = self.made.entry(id.0).or_insert(0);
        if id.1 - 1 != *made {
            return Err("WrongNumber");
        }
        *made += 1;
        let reply = if self.closed {
            "closed"
        } else if self.workers < self.core {
            "core"
        } else if self.waiting.len() < self.opened.queue as usize {
            "queued"
        } else if self.workers < self.max {
            "extra"
        } else {
            "full"
        };
        match reply {
            "core" | "extra" => {
                self.workers += 1;
                self.running.push(id);
            }
            "queued" => self.waiting.push_back(id),
            _ => {}
        }
        self.history.push(Event::Submit(id, reply));
        Ok(())
    }

    fn has_idle(&self) -> bool {
        self.running.len() < self.workers as usize
    }

    fn take(&mut self) -> Answer<()> {
        if !self.has_idle() {
            return Err("NotAllowed");
        }
        let id = self.waiting.pop_front().ok_or("NotAllowed")?;
        self.running.push(id);
        self.history.push(Event::Take(id));
        Ok(())
    }

    fn finish(&mut self, id: Id) -> Answer<()> {
        let place = self.running.iter().position(|out| *out == id).ok_or("NotOut")?;
        self.running.swap_remove(place);
        self.history.push(Event::Finish(id));
        Ok(())
    }

    fn idle(&mut self) -> Answer<()> {
        if !self.waiting.is_empty() || !self.has_idle() || !(self.closed || self.workers > self.core) {
            return Err("NotAllowed");
        }
        self.workers -= 1;
        self.history.push(Event::Idle);
        Ok(())
    }

    fn close(&mut self) {
        if !self.closed {
            self.closed = true;
            self.history.push(Event::Close);
        }
    }

    fn resize(&mut self, core: u32, max: u32) -> Answer<()> {
        if !(1..=64).contains(&core) {
            return Err("CoreOutOfRange");
        }
        if max < core || max > self.opened.max {
            return Err("MaxOutOfRange");
        }
        (self.core, self.max) = (core, max);
        self.history.push(Event::Resized(core, max));
        Ok(())
    }

    fn apply(&mut self, row: &Row) -> Answer<()> {
        match *row {
            Row::Submit(id) => self.submit(id),
            Row::Finish(id) => self.finish(id),
            Row::Take => self.take(),
            Row::Idle => self.idle(),
            Row::Close => {
                self.close();
                Ok(())
            }
            Row::Resize(core, max) => self.resize(core, max),
        }
    }
}

fn text(history: &[Event], long: bool) -> csv::Result<Vec<u8>> {
    let mut writer = csv::Writer::from_writer(Vec::new());
    let header = ["event", "caller", "number", "reply", "core", "max"];
    let width = if long { 6 } else { 4 };
    writer.write_record(&header[..width])?;
    for event in history {
        let (name, id, reply, sizes) = match *event {
            Event::Submit(id, reply) => ("submit", Some(id), reply, None),
            Event::Take(id) => ("take", Some(id), "", None),
            Event::Finish(id) => ("finish", Some(id), "", None),
            Event::Idle => ("idle", None, "", None),
            Event::Close => ("close", None, "", None),
            Event::Resized(core, max) => ("resize", None, "", Some((core, max))),
        };
        let mut digits = [itoa::Buffer::new(), itoa::Buffer::new()];
        let [first, second] = &mut digits;
        let numbers = match (id, sizes) {
            (Some((caller, number)), _) => [first.format(caller), second.format(number)],
            (None, Some((core, max))) => [first.format(core), second.format(max)],
            (None, None) => ["", ""],
        };
        let [core, max] = if id.is_none() { numbers } else { ["", ""] };
        let [caller, number] = if id.is_some() { numbers } else { ["", ""] };
        writer.write_record(&[name, caller, number, reply, core, max][..width])?;
    }
    Ok(writer.into_inner().expect("a vector takes all"))
}

fn replay(input: &[u8]) -> Result<Vec<u8>, String> {
    if input.len() > 1_048_576 {
        return Err("input TooLong".into());
    }
    let (head, body) = parts(input)?;
    let mut pool = Pool::open(sizes(head)?);
    let (rows, long) = rows(body)?;
    for (before, row) in rows.iter().enumerate() {
        pool.apply(row).map_err(|why| in_row(before, why))?;
    }
    text(&pool.history, long).map_err(|_| "memory".into())
}

fn main() -> ExitCode {
    let mut input = Vec::new();
    if io::stdin().lock().read_to_end(&mut input).is_err() {
        return ExitCode::from(4);
    }
    let (status, output) = match replay(&input) {
        Ok(output) => (0, output),
        Err(refused) => (1, format!("refused {refused}\n").into_bytes()),
    };
    match io::stdout().lock().write_all(&output) {
        Ok(()) => ExitCode::from(status),
        Err(_) => ExitCode::from(4),
    }
}
