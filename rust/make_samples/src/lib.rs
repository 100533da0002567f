//! The samples of `samples/`: tables that a planner of parcel lanes recognises. Their texts are
//! written by hand; the task files are made from them, and the sheets from these by the interpreter.

#![forbid(unsafe_code)]

use interpreter::text::file_of_text;
use std::fs;
use std::path::{Path, PathBuf};

/// A sample: the name of its files, and its table's text.
pub struct Sample {
    pub name: &'static str,
    pub text: String,
}

/// Every sample's name, in the order in which they are explained.
pub const NAMES: [&str; 9] = [
    "lost-update",
    "lost-update-locked",
    "nested-lock",
    "half-changed-lane",
    "lane-kept-apart",
    "long-hold",
    "lane-sensor",
    "slow-sorter",
    "too-many-orders",
];

impl Sample {
    /// The bytes of its task file. A sample may show a table that is refused.
    pub fn file(&self) -> Vec<u8> {
        let file = file_of_text(self.text.as_bytes());
        file.unwrap_or_else(|refusal| panic!("{}.text: {refusal:?}", self.name))
    }

    /// The sheet that the check program has to print.
    pub fn sheet(&self) -> String {
        interpreter::sheet(&self.file())
    }
}

/// Every sample, in the order of the names.
pub fn all() -> Vec<Sample> {
    NAMES.map(named).into()
}

/// The sample with this name.
pub fn named(name: &'static str) -> Sample {
    let path = path(name, "text");
    let text = fs::read_to_string(&path);
    Sample { name, text: text.unwrap_or_else(|error| panic!("{}: {error}", path.display())) }
}

/// The directory of the samples.
pub fn directory() -> PathBuf {
    Path::new(env!("CARGO_MANIFEST_DIR")).join("../../samples")
}

/// The path of a sample's file with this extension: `text`, `task`, `sheet` or `md`.
pub fn path(name: &str, extension: &str) -> PathBuf {
    directory().join(name).with_extension(extension)
}
