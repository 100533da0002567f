//! Bytes from where the words say they are.

use crate::arguments::Source;
use crate::{Problem, Streams};
use std::fs::File;
use std::io::Read;

/// How much is read of anything: a byte above the longest text, 8,192. What comes after the first
/// 4,097 bytes of a file, 513 of an order or 1,282 of a plan changes no answer either.
const MOST_BYTES: u64 = 8_193;

/// The bytes of a source, no more of them than can change an answer.
pub fn bytes(source: &Source, streams: &mut Streams) -> Result<Vec<u8>, Problem> {
    let mut bytes = Vec::new();
    let (name, read) = match source {
        Source::Given(given) => return Ok(given.clone()),
        Source::StandardInput => {
            let input = &mut streams.input;
            ("standard input".to_string(), input.take(MOST_BYTES).read_to_end(&mut bytes))
        }
        Source::Path(path) => {
            let opened = File::open(path);
            let read = opened.and_then(|file| file.take(MOST_BYTES).read_to_end(&mut bytes));
            (path.display().to_string(), read)
        }
    };
    read.map(|_| bytes).map_err(|error| Problem::Unreadable(name, error))
}
