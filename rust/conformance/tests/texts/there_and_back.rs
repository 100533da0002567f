//! Text from a file, converted back, is the file in walk order, and a text converted to a file and
//! back is that text, byte for byte: through the proved entries alone, the text and the file in walk
//! order being the description's own.

use adqurim::raw::{self, WriteAnswer};
use adqurim::{FILE_ROOM, TEXT_ROOM};
use conformance::entries::pattern;
use conformance::families::*;
use generator::{kinds, random_holding, random_long_hold, Random};

/// The seeds differ, so that no family repeats the tables of another.
const FAMILIES: [Family; 6] = [
    Family { name: "small tables", seed: 1030, tables: 120_000, make: small },
    Family { name: "good tables", seed: 1031, tables: 40_000, make: kinds::good },
    Family { name: "light tables", seed: 1032, tables: 30_000, make: kinds::light },
    Family { name: "holding times", seed: 1033, tables: 12_000, make: random_holding },
    Family { name: "long holds", seed: 1034, tables: 60_000, make: random_long_hold },
    Family { name: "the largest table", seed: 1035, tables: 1_000, make: largest_with_assertions },
];

/// How many files go there and back at least.
const MANY: u64 = 200_000;

/// Bytes lent beyond the room.
const BEYOND: usize = 7;

/// A lent buffer that is used again and again: what is written of it becomes the pattern again.
struct Lent {
    blank: Vec<u8>,
    buffer: Vec<u8>,
}

impl Lent {
    fn new(room: usize) -> Lent {
        Lent { blank: pattern(room + BEYOND), buffer: pattern(room + BEYOND) }
    }

    /// What the conversion writes, past which nothing changes. None if it refuses.
    fn convert(
        &mut self,
        convert: fn(&[u8], &mut [u8]) -> WriteAnswer,
        bytes: &[u8],
    ) -> Option<Vec<u8>> {
        let WriteAnswer { number, place, length } = convert(bytes, &mut self.buffer);
        let length = length as usize;
        assert!(self.buffer[length..] == self.blank[length..], "{number} at {place}: {bytes:02x?}");
        let written = self.buffer[..length].to_vec();
        self.buffer[..length].copy_from_slice(&self.blank[..length]);
        (number == 0).then_some(written)
    }
}

#[test]
fn files_there_and_back() {
    let (mut texts, mut files) = (Lent::new(TEXT_ROOM), Lent::new(FILE_ROOM));
    let (mut accepted, mut moved, mut longest) = (0, 0, 0);
    for family in FAMILIES {
        let mut random = Random::new(family.seed);
        for _ in 0..family.tables {
            let table = (family.make)(&mut random);
            let file = table.write_shuffled(&mut random).0;
            let Some(text) = texts.convert(raw::file_to_text, &file) else { continue };
            assert!(text == table.text(), "{}", text.escape_ascii());
            let back = files.convert(raw::text_to_file, &text);
            let written = table.write();
            assert!(back.as_ref() == Some(&written), "{}", text.escape_ascii());
            let again = texts.convert(raw::file_to_text, &written);
            assert!(again == Some(text), "{written:02x?}");
            accepted += 1;
            moved += u64::from(file != written);
            longest = longest.max(written.len() / 16);
        }
        println!("{}: {accepted} there and back, {moved} moved, {longest} records", family.name);
    }
    assert!(accepted >= MANY && moved >= MANY / 2, "{accepted} {moved}");
    assert_eq!(longest, 145);
}
