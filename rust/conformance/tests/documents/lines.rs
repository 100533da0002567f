//! No line of the crates and of the documents is longer than an editor's window.

use super::tree::{files, text};
use std::collections::BTreeMap;

/// The most characters of a line.
const LONGEST: usize = 160;

/// The lines of a text that are too long, each with its number, counted from 1, and its length in
/// characters.
fn too_long(text: &str) -> Vec<(usize, usize)> {
    let lengths = text.lines().map(|line| line.chars().count()).enumerate();
    lengths.filter(|(_, length)| *length > LONGEST).map(|(at, length)| (at + 1, length)).collect()
}

/// Is a file one whose lines are looked at?
fn is_watched(path: &str) -> bool {
    let ends = |extension| path.ends_with(extension);
    match path.split('/').next() {
        Some("crates") => ends(".rt") || ends(".antt"),
        Some("docs") => ends(".md"),
        _ => path == "README.md",
    }
}

#[test]
fn no_line_is_too_long() {
    let mut found = Vec::new();
    let mut counts: BTreeMap<String, usize> = BTreeMap::new();
    for path in files("").into_iter().filter(|path| is_watched(path)) {
        for (line, length) in too_long(&text(&path)) {
            let place: Vec<&str> = path.split('/').take(2).collect();
            *counts.entry(place.join("/")).or_default() += 1;
            found.push(format!("{path}:{line}: {length} characters"));
        }
    }
    let (all, lines) = (found.len(), found.join("\n"));
    assert!(found.is_empty(), "{all} lines are too long:\n{lines}\nBy folder: {counts:#?}");
}

#[test]
fn characters_are_counted_and_not_bytes() {
    let text = format!("{}\n{}\n", "≡".repeat(LONGEST), "≡".repeat(LONGEST + 1));
    assert_eq!(too_long(&text), [(2, LONGEST + 1)]);
}
