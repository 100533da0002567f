//! The files of the repository: their paths, and the words of their code.

use std::collections::{BTreeSet, HashSet};
use std::fs;
use std::path::{Path, PathBuf};

/// The folders that hold what is built, what git keeps, and these tests, whose made-up names must
/// not count.
const ASIDE: [&str; 3] = ["target", ".git", "rust/conformance/tests/documents"];

/// The folder of a crate that holds what is built.
const BUILT: &str = "out";

/// A file: its path from the root, and the words of its code.
struct Source {
    path: String,
    words: HashSet<String>,
}

/// The files of the repository, and the paths of its files and folders, each also without the
/// extension.
pub struct Tree {
    sources: Vec<Source>,
    paths: BTreeSet<String>,
}

/// The root of the repository.
pub fn root() -> PathBuf {
    Path::new(env!("CARGO_MANIFEST_DIR")).join("../..")
}

/// The paths of all files below a folder, from the root.
pub fn files(folder: &str) -> Vec<String> {
    let mut found = Vec::new();
    let entries = fs::read_dir(root().join(folder)).expect("the folder is there");
    for entry in entries.map(|entry| entry.expect("it is there")) {
        let name = entry.file_name().into_string().expect("a name is a text");
        let path = if folder.is_empty() { name.clone() } else { format!("{folder}/{name}") };
        if ASIDE.contains(&name.as_str()) || ASIDE.contains(&path.as_str()) {
            continue;
        }
        if name == BUILT && path.starts_with("crates/") {
            continue;
        }
        if entry.path().is_dir() {
            found.extend(files(&path));
        } else {
            found.push(path);
        }
    }
    found.sort();
    found
}

/// The text of a file of the repository.
pub fn text(path: &str) -> String {
    fs::read_to_string(root().join(path)).unwrap_or_else(|error| panic!("{path}: {error}"))
}

/// The mark before a comment up to the line's end in a file with code; none if it has no code.
fn comment_mark(path: &str) -> Option<&'static str> {
    let name = path.rsplit('/').next().expect("it has a last part");
    match name.rsplit_once('.').map_or(path, |(_, extension)| extension) {
        "antt" => Some("--"),
        "rt" | "rs" | "h" | "c" | "cpp" => Some("//"),
        "edit" | "check" | ".ci/run" | "toml" => Some("#"),
        _ if name == "crates.txt" => Some("#"),
        _ => None,
    }
}

/// How many bytes a string takes that begins with its quotation mark.
fn string_length(code: &str) -> usize {
    let mut escaped = true;
    let ends = |c: char| {
        let end = c == '"' && !escaped;
        escaped = c == '\\' && !escaped;
        end
    };
    code.find(ends).map_or(code.len(), |at| at + 1)
}

/// A code without its comments, and where it is written as C is, without strings of several words.
fn without_prose(code: &str, mark: &str) -> String {
    let like_c = mark == "//";
    let mut kept = String::new();
    let mut rest = code;
    while let Some(next) = rest.chars().next() {
        let (length, keeps) = if rest.starts_with(mark) {
            (rest.find('\n').unwrap_or(rest.len()), false)
        } else if like_c && rest.starts_with("/*") {
            (rest.find("*/").map_or(rest.len(), |at| at + 2), false)
        } else if like_c && next == '"' && !kept.ends_with('\'') {
            let length = string_length(rest);
            (length, !rest[..length].contains(char::is_whitespace))
        } else {
            (next.len_utf8(), true)
        };
        kept.push_str(if keeps { &rest[..length] } else { " " });
        rest = &rest[length..];
    }
    kept
}

/// The words of a code, without those of prose: letters, digits, `_`, `'` and inner `-`.
fn code_words(code: &str, mark: &str) -> HashSet<String> {
    let code = without_prose(code, mark);
    let parts = code.split(|c: char| !(c.is_alphanumeric() || "_'-".contains(c)));
    let words = parts.map(|part| part.trim_matches('-')).filter(|word| !word.is_empty());
    words.map(String::from).collect()
}

impl Tree {
    /// The tree of these files, each a path and what it holds.
    pub fn of(files: impl IntoIterator<Item = (String, String)>) -> Tree {
        let mut tree = Tree { sources: Vec::new(), paths: BTreeSet::new() };
        for (path, held) in files {
            for (at, _) in path.match_indices('/') {
                tree.paths.insert(path[..at].to_string());
            }
            tree.paths.insert(path.clone());
            if let Some((stem, _)) = path.rsplit_once('.') {
                tree.paths.insert(stem.to_string());
            }
            if let Some(mark) = comment_mark(&path) {
                tree.sources.push(Source { words: code_words(&held, mark), path });
            }
        }
        tree
    }

    /// The tree of the repository.
    pub fn of_repository() -> Tree {
        let code = |path: String| match comment_mark(&path) {
            Some(_) => (text(&path), path),
            None => (String::new(), path),
        };
        Tree::of(files("").into_iter().map(code).map(|(held, path)| (path, held)))
    }

    /// Is there such a path from the root, or from any folder? An edit is also named by its crate and
    /// itself.
    pub fn has_path(&self, path: &str) -> bool {
        let path = path.trim_start_matches("./").trim_end_matches('/');
        let edit = path.replacen('/', "/must-fail/", 1);
        let ends = |whole: &String, end: &str| {
            whole.strip_suffix(end).is_some_and(|front| front.is_empty() || front.ends_with('/'))
        };
        self.paths.iter().any(|whole| ends(whole, path) || ends(whole, &edit))
    }

    /// Does some file's name end so?
    pub fn has_extension(&self, extension: &str) -> bool {
        let end = format!(".{extension}");
        self.paths.iter().any(|path| path.ends_with(&end))
    }

    /// Does one file have all these names, each as a word of its code or in its path?
    pub fn has_together(&self, names: &[&str]) -> bool {
        self.sources.iter().any(|source| {
            let in_path = |name: &str| {
                let stem = source.path.rsplit_once('.').map_or("", |(stem, _)| stem);
                source.path.split('/').chain(stem.rsplit('/').take(1)).any(|part| part == name)
            };
            names.iter().all(|name| source.words.contains(*name) || in_path(name))
        })
    }
}

#[test]
fn words_of_prose_do_not_count() {
    let words = |code, mark| code_words(code, mark).into_iter().collect::<BTreeSet<String>>();
    let expected = |words: &str| words.split(' ').map(String::from).collect();
    let antt = "-- gone\nfirst-law : Held -- gone\n    .field";
    assert_eq!(words(antt, "--"), expected("Held field first-law"));
    let c = "/* gone\n * gone */\n#define KEPT 7 // \"gone\nint x_1;";
    assert_eq!(words(c, "//"), expected("7 KEPT define int x_1"));
    let rust = "let a = '\"'; say(\"gone \\\" gone\", \"kept\", \"gone\\n gone // gone\"); b";
    assert_eq!(words(rust, "//"), expected("a b kept let say '"));
}
