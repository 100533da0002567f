//! Each name in backticks in the documents stands in the tree.
//!
//! A name is a path, or a word of some file's code, comments and prose aside, or of its path; a name
//! with parts (`crate::function`, `Module.law`) has all of them in one file. A piece of inline code
//! with spaces is a phrase, of which only commands are looked at, word by word; one with a sign of a
//! formula, or with `..` for what is left out, names nothing.

use super::spans::spans;
use super::tree::{files, text, Tree};

/// The commands whose words are looked at.
const COMMANDS: [&str; 4] = ["rt", "./check", "cargo", "adqurim"];

/// Signs of formulas and of operators.
const FORMULA: &str = "=<>&|!*^;,{}λ≡≤→×";

/// Names that stand in no file of the tree: subcommands, files and programs of the toolchain, and
/// instructions of the processor.
const OF_OTHERS: [&str; 12] = [
    "goals",
    "mir",
    "try",
    "Lts.antt",
    "Tie.antt",
    "RATTLE_HOME",
    "rattle-link",
    "toolchain/bin/clang",
    "dec",
    "div",
    "lea",
    "sbb",
];

/// Does what a piece of inline code names stand in the tree?
fn stands(tree: &Tree, code: &str) -> bool {
    if code.contains("..") || OF_OTHERS.contains(&code) {
        return true;
    }
    match code.split_once(' ') {
        Some((first, rest)) if COMMANDS.contains(&first) => {
            rest.split(' ').all(|word| stands_in_command(tree, word))
        }
        Some(_) => true,
        None => stands_alone(tree, code),
    }
}

/// A word after a command: a flag, or a name. A word in capitals stands for any.
fn stands_in_command(tree: &Tree, word: &str) -> bool {
    let any = word.chars().all(|c| c.is_ascii_uppercase());
    any || stands(tree, word.trim_start_matches('-'))
}

/// A piece without spaces. What follows a bracket is an argument; what is built is not in the tree.
fn stands_alone(tree: &Tree, code: &str) -> bool {
    let code = match code.find(['(', '[']) {
        Some(at) if at > 0 => &code[..at],
        _ => code.trim_end_matches(':'),
    };
    let names_nothing =
        !code.contains(char::is_alphabetic) || code.contains(|c| FORMULA.contains(c));
    if names_nothing
        || code.split('/').any(|part| part == "target" || part == "out")
        || tree.has_path(code)
    {
        return true;
    }
    let name = code.trim_start_matches(['-', '.']);
    let parts: Vec<&str> = name.split("::").flat_map(|part| part.split(['.', '·'])).collect();
    tree.has_together(&parts) || (code.starts_with('.') && tree.has_extension(name))
}

/// The notes of landings, of the port and of the rewriting: records of the past, which name things as
/// they were then.
const PAST: [&str; 3] = ["docs/landings/", "docs/PORT.md", "docs/DESIGN-PASS.md"];

/// The documents for readers.
fn documents() -> Vec<String> {
    let pages = files("docs").into_iter().filter(|path| path.ends_with(".md"));
    let present = pages.filter(|path| !PAST.iter().any(|past| path.starts_with(past)));
    present.chain(["README.md".to_string()]).collect()
}

#[test]
fn every_name_in_the_documents_stands_in_the_tree() {
    let tree = Tree::of_repository();
    let mut missing = Vec::new();
    for document in documents() {
        for span in spans(&text(&document)) {
            if !stands(&tree, &span.text) {
                missing.push(format!("{document}:{}: `{}`", span.line, span.text));
            }
        }
    }
    assert!(missing.is_empty(), "{} names are not there:\n{}", missing.len(), missing.join("\n"));
}

/// A small tree: a crate with a definition, a function and a wrong build, a header, the script.
fn small_tree() -> Tree {
    let files = [
        ("crates/locks/specs/Held.antt", "-- stale_name\nrelease-none : Held"),
        ("crates/locks/src/lib.rt", "pub fn free_lock(held: &mut Held) {} // stale_name"),
        ("crates/locks/must-fail/frees_all.edit", "fails: free_lock"),
        ("crates/rounds/src/lib.rt", "pub fn round_up() {}"),
        ("include/adqurim.h", "/* stale_name */ #define ADQURIM_ROOM 7"),
        (
            "rust/command/src/help.rs",
            "const WORDS: [&str; 2] = [\"rewrite\", \"stale_name here\"];",
        ),
        ("check", "if [ \"$1\" = --text ]; then # stale_name"),
        ("README.md", "stale_name"),
    ];
    Tree::of(files.map(|(path, held)| (path.to_string(), held.to_string())))
}

#[test]
fn names_that_are_there_are_found() {
    let names = "Held release-none Held.release-none free_lock locks::free_lock locks frees_all \
        locks/frees_all locks/specs/Held specs/Held.antt crates/locks/ src/ .edit help.rs fails: \
        ADQURIM_ROOM include/adqurim.h --text ./check free_lock(7) rust/target/adqurim 1,024 _++_ \
        a=b";
    for name in names.split_whitespace() {
        assert!(stands(&small_tree(), name), "{name}");
    }
    let phrases =
        ["./check --text README.md", "adqurim rewrite FILE", "rt goals locks", "say so", "a + b"];
    for phrase in phrases {
        assert!(stands(&small_tree(), phrase), "{phrase}");
    }
}

#[test]
fn names_that_are_not_there_are_told() {
    let names = "stale_name Unheld Held.release-all locks::round_up rounds::free_lock \
        other::free_lock other locks/frees_none locks/specs/Unheld crates/other/ other/ .other \
        other.rs ADQURIM_OTHER rust/other --other other(7) Rounds";
    for name in names.split_whitespace() {
        assert!(!stands(&small_tree(), name), "{name}");
    }
    let phrases =
        ["./check --other README.md", "./check other.task", "adqurim other", "rt goals other"];
    for phrase in phrases {
        assert!(!stands(&small_tree(), phrase), "{phrase}");
    }
}
