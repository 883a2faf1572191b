//! The program's cases of `chain`, answered by retries, decorators, bulkheads and a registry of this crate.
use resil::{Bulkhead, BulkheadRegistry, CallError, Decorators, Interval, Retry};
use std::cell::{Cell, RefCell};
use std::collections::BTreeMap;
use std::error::Error;
use std::fmt::Debug;
use std::fs;
use std::panic::catch_unwind;
use std::path::Path;
use std::sync::Arc;
use std::time::Duration;

/// The permits of a bulkhead if no configuration gives another number.
const DEFAULT_MAX: u32 = 25;

/// A chain has at most eight layers, so none of its bulkheads is entered more often at a time.
const MOST_LAYERS: u32 = 8;

/// The refusals of a head that this crate also gives. The others are about texts, which it doesn't read.
const SHARED_REFUSALS: &str = "BadMultiplier BadName CapBelowInitial IntervalTooLong NoAttempts \
                               NoSuchConfig ReservedName TooManyAttempts";

/// Keys with values, as they are written.
type Table<'a> = BTreeMap<&'a str, &'a str>;

// The tables of a head with their headers; none if it isn't written line by line.
fn tables(head: &str) -> Option<Vec<(&str, Table<'_>)>> {
    let mut tables = Vec::new();
    for line in head.lines().filter(|line| !line.is_empty()) {
        if ["[[layer]]", "[permits]"].contains(&line) {
            tables.push((line, Table::new()));
        } else {
            let (key, value) = line.split_once(" = ")?;
            tables.last_mut()?.1.insert(key.trim_matches('"'), value);
        }
    }
    Some(tables)
}

fn text<'a>(table: &Table<'a>, key: &str) -> &'a str {
    table.get(key).map_or("", |text| text.trim_matches('"'))
}

fn list<'a>(table: &Table<'a>, key: &str) -> Vec<&'a str> {
    let items = text(table, key).trim_matches(['[', ']']).split(", ");
    let items = items.map(|item| item.trim_matches('"'));
    items.filter(|item| !item.is_empty()).collect()
}

fn number(table: &Table<'_>, key: &str) -> Option<u64> {
    table.get(key)?.parse().ok()
}

// Whether an error is meant: one that is named, or any if none is, except the ignored ones.
fn is_meant(layer: &Table<'_>, named: &str, error: CallError<&str>) -> bool {
    let (named, error) = (list(layer, named), name_of(error));
    !list(layer, "ignore").contains(&error) && (named.is_empty() || named.contains(&error))
}

// A refusal and a script's error `FULL` are the same.
fn name_of(error: CallError<&str>) -> &str {
    match error {
        CallError::Failed(error) => error,
        CallError::Full => "FULL",
        _ => unreachable!("no bulkhead of a chain is closed, and no call waits"),
    }
}

// Whether a retry retries a value, by a test such as `=0`, `<-3` and `>=7`. There may be none.
fn is_retried(retry: &Table<'_>, value: i64) -> bool {
    let test = text(retry, "retry_result");
    let is = |sign, holds: fn(&i64, &i64) -> bool| {
        let bound = test.strip_prefix(sign).and_then(|bound| bound.parse().ok());
        bound.is_some_and(|bound| holds(&value, &bound))
    };
    is(">=", i64::ge) || is("<", i64::lt) || is("=", i64::eq)
}

type Outcome<'a> = Result<i64, &'a str>;
type Answer<'a> = Result<i64, CallError<&'a str>>;

/// A layer, with what its table says.
enum Layer<'a> {
    Retry(&'a Table<'a>),
    Bulkhead(usize, Arc<Bulkhead>),
    Fallback(i64, &'a Table<'a>),
}

fn refusal(error: impl Debug) -> String {
    format!("{error:?}")
}

// The layers of a head, innermost first, or the name of its refusal.
fn layers<'a>(tables: &'a [(&str, Table<'a>)]) -> Result<Vec<Layer<'a>>, String> {
    let registry = BulkheadRegistry::new(DEFAULT_MAX);
    let is_layer = |(header, _): &&(&str, _)| *header == "[[layer]]";
    let (layers, permits): (Vec<_>, Vec<_>) = tables.iter().partition(is_layer);
    for (name, max) in permits.iter().flat_map(|(_, permits)| permits) {
        let max = max.parse().map_err(refusal)?;
        registry.add_config(name, max).map_err(refusal)?;
    }
    let mut bulkheads = Vec::new();
    let layers = layers.iter().map(|(_, layer)| match text(layer, "kind") {
        "retry" => retry(layer).map(|_| Layer::Retry(layer)),
        "bulkhead" => bulkhead(layer, &registry, &mut bulkheads),
        _ => Ok(Layer::Fallback(
            text(layer, "value").parse().map_err(refusal)?,
            layer,
        )),
    });
    layers.collect()
}

fn bulkhead<'a>(
    layer: &Table<'a>,
    registry: &BulkheadRegistry,
    bulkheads: &mut Vec<Arc<Bulkhead>>,
) -> Result<Layer<'a>, String> {
    let name = text(layer, "name");
    let config = layer
        .get("config")
        .map_or("default", |_| text(layer, "config"));
    registry.bulkhead_with(name, config).map_err(refusal)?;
    let known = bulkheads.iter().position(|one| one.name() == name);
    let id = known.unwrap_or(bulkheads.len());
    if known.is_none() {
        // The letters of a row say who is let in, so there are permits for as many as may ask at a time.
        bulkheads.push(Arc::new(Bulkhead::new(name, MOST_LAYERS).map_err(refusal)?));
    }
    Ok(Layer::Bulkhead(id, Arc::clone(&bulkheads[id])))
}

// Panics check one wait and the attempts.
fn retry(layer: &Table<'_>) -> Result<Retry, String> {
    let ms = |key| number(layer, key).map(Duration::from_millis);
    let first = ms("interval").unwrap_or(Duration::from_millis(500));
    let interval = if text(layer, "backoff") == "exponential" {
        let multiplier = match list(layer, "multiplier")[..] {
            [p, q] => (p.parse().map_err(refusal)?, q.parse().map_err(refusal)?),
            _ => (3, 2),
        };
        let cap = ms("cap").unwrap_or(Interval::LONGEST);
        Interval::exponential(first, multiplier, cap).map_err(refusal)?
    } else {
        catch_unwind(|| Interval::fixed(first)).map_err(|_| "IntervalTooLong")?
    };
    let attempts = number(layer, "attempts").unwrap_or(3);
    let attempts = u32::try_from(attempts).map_err(refusal)?;
    let retry = catch_unwind(|| Retry::new().attempts(attempts).interval(interval));
    retry.map_err(|_| ["TooManyAttempts", "NoAttempts"][usize::from(attempts == 0)].to_owned())
}

/// A row: what the innermost function returns, call by call, what the bulkheads answer, and what is written down meanwhile.
struct Row<'a> {
    script: Vec<Outcome<'a>>,
    grants: &'a [u8],
    calls: Cell<usize>,
    waits: RefCell<Vec<String>>,
    asked: RefCell<Vec<String>>,
}

impl<'a> Row<'a> {
    fn read(line: &'a str) -> Row<'a> {
        let (script, grants) = line.split_once(',').expect("a row has two fields");
        let outcome = |text: &'a str| match text.strip_prefix('V') {
            Some(value) => Ok(value.parse().expect("it is a number")),
            None => Err(text),
        };
        Row {
            script: script.split(';').map(outcome).collect(),
            grants: grants.as_bytes(),
            calls: Cell::default(),
            waits: RefCell::default(),
            asked: RefCell::default(),
        }
    }

    // Runs it, and returns its record.
    fn play(&self, layers: &[Layer<'a>]) -> String {
        let outcome = self.call(layers).map(|value| format!("V{value}"));
        let outcome = outcome.unwrap_or_else(str::to_owned);
        let (waits, asked) = (self.waits.take().join(";"), self.asked.take().join(";"));
        format!("{outcome},{},{waits},{asked}\n", self.calls.get())
    }

    // Calls the function through these layers, the last of which is the outermost.
    fn call(&self, layers: &[Layer<'a>]) -> Outcome<'a> {
        let Some((outermost, layers)) = layers.split_last() else {
            let call = self.calls.replace(self.calls.get() + 1);
            return self.script[call.min(self.script.len() - 1)];
        };
        let inner = || self.call(layers);
        let answer = match outermost {
            Layer::Retry(layer) => self.retried(layer, inner),
            Layer::Bulkhead(id, bulkhead) => self.asked(*id, bulkhead, inner),
            Layer::Fallback(value, layer) => {
                let value = |error| is_meant(layer, "catch", error).then_some(*value);
                let mut chain = Decorators::of(inner).or_else(|error| value(error).ok_or(error));
                chain.call()
            }
        };
        answer.map_err(name_of)
    }

    // Calls with a retry, and writes its waits down.
    fn retried(&self, layer: &Table<'_>, inner: impl Fn() -> Outcome<'a>) -> Answer<'a> {
        let retry = retry(layer)
            .expect("the head is accepted")
            .retry_if(|error: &CallError<&str>| is_meant(layer, "retry_on", *error))
            .retry_value_if(|value: &i64| is_retried(layer, *value))
            .pause_by(|wait| self.waits.borrow_mut().push(wait.as_millis().to_string()));
        match Decorators::of(inner).retried(&retry).call() {
            Ok(value) if text(layer, "fail_after_max") == "true" && is_retried(layer, value) => {
                Err(CallError::Failed("EXCEEDED"))
            }
            answer => answer,
        }
    }

    // Calls under a bulkhead that has permits or none, and writes down whether the call was let in.
    fn asked(&self, id: usize, bulkhead: &Bulkhead, inner: impl Fn() -> Outcome<'a>) -> Answer<'a> {
        let place = self.asked.borrow().len();
        match self.grants.get(place) {
            Some(b'y') => bulkhead.raise(MOST_LAYERS),
            _ => bulkhead.retire(MOST_LAYERS),
        };
        self.asked.borrow_mut().push(format!("{id}n"));
        let entered = || {
            self.asked.borrow_mut()[place] = format!("{id}y");
            inner()
        };
        Decorators::of(entered).inside(bulkhead).call()
    }
}

// What this crate answers; none if the head isn't written line by line.
fn answer(input: &str) -> Option<String> {
    let (head, body) = input.split_once("---\n")?;
    let tables = tables(head)?;
    let layers = match layers(&tables) {
        Ok(layers) => layers,
        Err(name) => return Some(format!("refused head {name}\n")),
    };
    let rows = body.lines().filter(|line| !line.is_empty()).skip(1);
    let records: String = rows.map(|row| Row::read(row).play(&layers)).collect();
    Some("outcome,calls,waits,asked\n".to_owned() + &records)
}

// `tools/check_bindings` writes the cases as files.
#[test]
fn each_case_is_answered_as_by_the_program() -> Result<(), Box<dyn Error>> {
    let folder = Path::new(env!("CARGO_MANIFEST_DIR")).join("../../out/bindings/cases/chain");
    let Ok(entries) = fs::read_dir(folder) else {
        println!("no case of chain is laid out, so none is played");
        return Ok(());
    };
    let (mut answered, mut refused) = (0, 0);
    for entry in entries {
        let path = entry?.path();
        let text = |end| fs::read_to_string(path.with_extension(end));
        let is_case = path.extension().is_some_and(|end| end == "how");
        // Some aren't text.
        let (true, Ok(input), Ok(output)) = (is_case, text("resil"), text("out")) else {
            continue;
        };
        let refusal = output.trim_end().strip_prefix("refused head ");
        let is_shared = |name: &str| SHARED_REFUSALS.split(' ').any(|shared| shared == name);
        let is_for_rows = !output.starts_with("refused");
        let answer = (is_for_rows || refusal.is_some_and(is_shared)).then(|| answer(&input));
        if let Some(answer) = answer.flatten() {
            assert_eq!(answer, output, "{}", path.display());
            answered += u32::from(is_for_rows);
            refused += u32::from(!is_for_rows);
        }
    }
    println!("{answered} cases are answered, and {refused} refused");
    assert!(answered >= 35 && refused >= 20);
    Ok(())
}
