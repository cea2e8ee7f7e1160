//! docs/CLAIMS.md names only what there is: files, definitions and theorems in
//! them, wrong programs and tests; and it names every wrong program.

use std::collections::BTreeSet;
use std::fs;
use std::path::{Path, PathBuf};

fn root() -> PathBuf {
    Path::new(env!("CARGO_MANIFEST_DIR")).join("..")
}

fn claims() -> String {
    fs::read_to_string(root().join("docs/CLAIMS.md")).expect("docs/CLAIMS.md can be read")
}

/// A line's text in turns: outside backquotes, inside, outside and so on.
fn turns(line: &str) -> Vec<&str> {
    line.split('`').collect()
}

/// What stands between backquotes.
fn quoted(line: &str) -> Vec<&str> {
    turns(line).into_iter().skip(1).step_by(2).collect()
}

/// Whether the word stands in the text, and not as a part of another.
fn has_word(text: &str, word: &str) -> bool {
    let part = |c: char| c.is_alphanumeric() || "_-′".contains(c);
    text.match_indices(word).any(|(at, _)| {
        let before = text[..at].chars().next_back();
        let behind = text[at + word.len()..].chars().next();
        !before.map_or(false, part) && !behind.map_or(false, part)
    })
}

/// The wrong programs: crate and name.
fn edits() -> BTreeSet<(String, String)> {
    let mut edits = BTreeSet::new();
    for krate in fs::read_dir(root().join("crates")).expect("crates/ can be read") {
        let krate = krate.expect("an entry of crates/");
        let files = fs::read_dir(krate.path().join("must-fail"));
        for file in files.into_iter().flatten() {
            let path = file.expect("an entry of must-fail/").path();
            let name = path.file_stem().expect("a name").to_string_lossy();
            let of = krate.file_name().to_string_lossy().into_owned();
            edits.insert((of, name.into_owned()));
        }
    }
    edits
}

/// Words that look like paths, below the root, below crates/ or below tests/.
fn paths(line: &str) -> Vec<String> {
    let ends = [".antt", ".rt", ".rs"];
    let part = |c: char| c.is_alphanumeric() || "_/.+-".contains(c);
    let words = line.split(|c: char| !part(c));
    let paths =
        words.filter(|word| word.contains('/') && ends.iter().any(|end| word.ends_with(end)));
    paths.map(String::from).collect()
}

fn found(path: &str) -> Option<PathBuf> {
    let places = ["", "crates", "tests"];
    let places = places.iter().map(|place| root().join(place).join(path));
    places.into_iter().find(|place| place.is_file())
}

/// Nothing is wrong, or all of it is said.
fn expect_none(wrong: Vec<String>) {
    assert!(wrong.is_empty(), "{}", wrong.join("\n"));
}

#[test]
fn files_exist() {
    let claims = claims();
    let named = claims.lines().flat_map(paths);
    let missing = named.filter(|path| found(path).is_none());
    expect_none(missing.map(|path| format!("no file {path}")).collect());
}

/// Names and the file in brackets behind them.
fn named_files(line: &str) -> Vec<(Vec<&str>, String)> {
    let (mut found, mut names) = (Vec::new(), Vec::new());
    for (i, turn) in turns(line).into_iter().enumerate() {
        if i % 2 == 1 {
            names.push(turn);
            continue;
        }
        let inside = turn
            .strip_prefix(" (")
            .and_then(|rest| rest.split(')').next());
        if let Some(path) = inside.and_then(|inside| paths(inside).into_iter().next()) {
            found.push((names.clone(), path));
        }
        // A list goes on over commas and 'and'; anything else begins a new one.
        if !matches!(turn, ", " | " and ") {
            names.clear();
        }
    }
    found
}

#[test]
fn names_stand_in_their_files() {
    let claims = claims();
    let (mut wrong, mut seen) = (Vec::new(), 0);
    for (names, path) in claims.lines().flat_map(named_files) {
        let text = found(&path).and_then(|file| fs::read_to_string(file).ok());
        let text = text.unwrap_or_default();
        for name in names {
            // A field is named behind its record, and an item behind its module.
            let word = name.rsplit(['.', ':']).next().unwrap_or(name);
            seen += 1;
            if !has_word(&text, word) {
                wrong.push(format!("no {name} in {path}"));
            }
        }
    }
    expect_none(wrong);
    assert!(seen > 100, "only {seen} names");
}

/// Names behind 'must-fail' are wrong programs.
fn wrong_programs(line: &str) -> Vec<&str> {
    let (mut programs, mut listing) = (Vec::new(), false);
    for (i, turn) in turns(line).into_iter().enumerate() {
        if i % 2 == 0 {
            let goes_on = matches!(turn, ", " | " and ");
            listing = turn.ends_with("must-fail ") || (listing && goes_on);
        } else if listing {
            programs.push(turn);
        }
    }
    programs
}

#[test]
fn wrong_programs_exist() {
    let names: BTreeSet<String> = edits().into_iter().map(|(_, name)| name).collect();
    let claims = claims();
    let named = claims.lines().flat_map(wrong_programs);
    let missing = named.filter(|name| !names.contains(*name));
    expect_none(
        missing
            .map(|name| format!("no wrong program {name}"))
            .collect(),
    );
}

/// The last table names each wrong program, and no other.
#[test]
fn wrong_programs_are_named() {
    let claims = claims();
    let table = claims
        .split("## Wrong programs, contract by contract")
        .nth(1);
    let table = table.expect("the table of wrong programs");
    let rows = table
        .lines()
        .filter(|line| line.starts_with("| ") && line.contains(") | "));
    let mut named = BTreeSet::new();
    for row in rows {
        let programs = row.split(" | ").nth(1).expect("a second column");
        named.extend(quoted(programs).into_iter().map(String::from));
    }
    let there: BTreeSet<String> = edits().into_iter().map(|(_, name)| name).collect();
    let missing: Vec<_> = there.difference(&named).collect();
    let none: Vec<_> = named.difference(&there).collect();
    assert!(missing.is_empty(), "not named: {missing:?}");
    assert!(none.is_empty(), "no such wrong programs: {none:?}");
}
