//! Each call that the README's table or the guide names has an example where readers look: in its own documentation.
mod common;

use common::Checked;
use std::collections::{BTreeMap, BTreeSet};
use std::fs;
use std::path::Path;

// The words in code type in a text, outside of code blocks and commands.
fn named(text: &str) -> BTreeSet<&str> {
    let prose = text.split("```").step_by(2);
    let code = prose.flat_map(|prose| prose.split('`').skip(1).step_by(2));
    let is_part = |next: char| !next.is_alphanumeric() && next != '_';
    let code = code.filter(|code| !code.starts_with("cargo "));
    code.flat_map(|code| code.split(is_part)).collect()
}

// Whether each public function of a source file has an example, by its name.
fn examples(source: &str, found: &mut BTreeMap<String, bool>) {
    let mut comment = String::new();
    for line in source.lines().map(str::trim_start) {
        let item = line
            .strip_prefix("pub ")
            .map(|item| item.trim_start_matches("async "));
        if line.starts_with("///") {
            comment.push_str(line);
        } else if let Some(name) = item.and_then(|item| item.strip_prefix("fn ")) {
            let end = name.find(|next: char| !next.is_alphanumeric() && next != '_');
            let has = found
                .entry(name[..end.unwrap_or(name.len())].to_owned())
                .or_default();
            *has |= comment.contains("```");
            comment.clear();
        } else if line.is_empty() || line.ends_with(['{', '}', ';']) {
            comment.clear();
        }
    }
}

fn walk(folder: &Path, found: &mut BTreeMap<String, bool>) -> Checked {
    for entry in fs::read_dir(folder)? {
        let path = entry?.path();
        if path.is_dir() {
            walk(&path, found)?;
        } else if path.extension().is_some_and(|kind| kind == "rs") {
            examples(&fs::read_to_string(path)?, found);
        }
    }
    Ok(())
}

#[test]
fn each_call_that_is_named_has_an_example() -> Checked {
    let own = Path::new(env!("CARGO_MANIFEST_DIR"));
    let readme = fs::read_to_string(own.join("README.md"))?;
    let guide = fs::read_to_string(own.join("src/guide.md"))?;
    let words = &named(&readme) | &named(&guide);
    let mut found = BTreeMap::new();
    walk(&own.join("src"), &mut found)?;
    let calls: Vec<_> = found
        .iter()
        .filter(|(name, _)| words.contains(name.as_str()))
        .collect();
    let without: Vec<_> = calls.iter().filter(|(_, has)| !**has).collect();
    assert!(without.is_empty(), "without an example: {without:?}");
    assert!(calls.len() >= 40, "{calls:?}");
    Ok(())
}
