//! The proved sheet's entry, called through its C interface, against the interpreter's sheet: the
//! answer, every byte of the lent text, and the lent words.

use adqurim::raw::{sheet, sheet_words, SheetAnswer, SHEET_WORDS};
use adqurim::{Rule, SHEET_ROOM};
use conformance::cases::{accepted, full_table, table_x};
use conformance::entries::{amid, pattern, word_pattern};
use conformance::families::*;
use conformance::proved::expected_sheet;
use generator::files::{damaged, random_bytes, random_records};
use generator::hostile::hostile_files;
use generator::{code, random_nest, random_race, Random};

/// The seeds differ, so that no family repeats the tables of another.
const FAMILIES: [Family; 8] = [
    Family { name: "small tables", seed: 720, tables: 400, make: small },
    Family { name: "long bodies", seed: 721, tables: 150, make: long },
    Family { name: "races", seed: 722, tables: 300, make: random_race },
    Family { name: "nests", seed: 723, tables: 300, make: random_nest },
    Family { name: "nests of four", seed: 724, tables: 150, make: nest_of_four },
    Family { name: "tables of any size", seed: 725, tables: 60, make: any },
    Family { name: "many jobs", seed: 726, tables: 20, make: crowded },
    Family { name: "the largest table", seed: 727, tables: 20, make: largest_with_assertions },
];

/// The greatest length that is tried: some bytes above a file's most, 4,096.
const LONGEST_TRIED: usize = 4_200;

/// Asserts that both sides give one answer and leave one text of this size: the sheet at its front,
/// and every other byte as it was. Returns the sheet.
pub(crate) fn compare(file: &[u8], size: usize) -> String {
    let (mut text, mut left) = (pattern(size), pattern(size));
    let expected = expected_sheet(file, &mut left);
    let case = || format!("{size} bytes lent: {file:02x?}");
    assert_eq!(sheet(file, &mut text), expected, "{}", case());
    assert!(text == left, "the texts differ, {}", case());
    let length = expected.length as usize;
    assert!(text[length..] == pattern(size)[length..], "{}", case());
    text.truncate(length);
    String::from_utf8(text).expect("a sheet is text")
}

/// The last word but one of what decides a sheet: `holds`, `fails`, or a refusal's number.
fn finding(sheet: &str) -> &str {
    let decides = |line: &&str| line.starts_with("verdict") || line.starts_with("refused");
    let line = sheet.lines().find(decides).expect("each sheet has a verdict or a refusal");
    line.split(' ').nth(1).expect("it has three words")
}

#[test]
fn sheets_of_the_samples() {
    for sample in make_samples::all() {
        assert_eq!(compare(&sample.file(), SHEET_ROOM), sample.sheet());
        assert_eq!(adqurim::sheet(&sample.file()), sample.sheet());
    }
}

#[test]
fn sheets_of_random_tables() {
    let (mut holds, mut fails, mut longest) = (0, 0, 0);
    for family in FAMILIES {
        let mut random = Random::new(family.seed);
        for _ in 0..family.tables {
            let file = (family.make)(&mut random).write_shuffled(&mut random).0;
            let sheet = compare(&file, SHEET_ROOM + random.index(3));
            holds += u32::from(finding(&sheet) == "holds");
            fails += u32::from(finding(&sheet) == "fails");
            longest = longest.max(sheet.len());
        }
        println!("{}: holds {holds} fails {fails} longest {longest}", family.name);
    }
    assert!(holds >= 200 && fails >= 200, "{holds} {fails}");
    assert!(longest > SHEET_ROOM / 2 && longest <= SHEET_ROOM, "{longest}");
}

#[test]
fn sheets_of_files_that_are_refused() {
    for (at, file) in refused_files().iter().enumerate() {
        assert_eq!(finding(&compare(file, SHEET_ROOM)), (at + 1).to_string());
    }
    let mut random = Random::new(728);
    for file in hostile_files(&mut random) {
        compare(&file, SHEET_ROOM);
    }
    let mut numbers = [0; 12];
    for _ in 0..1_000 {
        let file = small(&mut random).write();
        for bytes in [damaged(&mut random, &file), random_bytes(&mut random)] {
            let sheet = compare(&bytes, SHEET_ROOM);
            let number = finding(&sheet).parse().ok();
            if let Some(count) = number.and_then(|number: usize| numbers.get_mut(number)) {
                *count += 1;
            }
        }
        compare(&random_records(&mut random), SHEET_ROOM);
    }
    assert!(numbers[1..5].iter().all(|count| *count >= 50), "{numbers:?}");
}

#[test]
fn sheets_of_every_length() {
    let x = table_x().write();
    for length in 0..=LONGEST_TRIED {
        let file: Vec<u8> = x.iter().copied().cycle().take(length).collect();
        let whole = length == x.len();
        assert_eq!(finding(&compare(&file, SHEET_ROOM)) == "fails", whole, "{length}");
    }
}

/// Texts of every size up to some bytes beyond the room, for a table that fails and for a file that
/// is refused: number 20 below the room, whatever the file.
#[test]
fn texts_of_every_size() {
    let x = table_x().write();
    for file in [&x[..], &x[1..], &[]] {
        for size in 0..SHEET_ROOM + 40 {
            let sheet = compare(file, size);
            assert_eq!(sheet.is_empty(), size < SHEET_ROOM, "{size}");
        }
    }
    let room = SheetAnswer { number: Rule::Room.number(), place: 0, length: 0 };
    assert_eq!(sheet(&x, &mut []), room);
    assert_eq!(sheet(&[], &mut [0; SHEET_ROOM - 1]), room);
}

#[test]
fn a_table_that_is_undecided() {
    let sample = make_samples::all().pop().expect("there are samples");
    assert_eq!(accepted(&sample.file()).jobs.len(), 8);
    let ends = "task 7 response 10 jobs 1\nrefused 21 0\n";
    for size in [0, SHEET_ROOM - 1, SHEET_ROOM, SHEET_ROOM + 1] {
        let sheet = compare(&sample.file(), size);
        assert_eq!(sheet.ends_with(ends), size >= SHEET_ROOM);
    }
}

/// A table whose jobs all run and all fail: 32 jobs and 512 steps.
#[test]
fn the_sheet_of_the_longest_order() {
    let mut table = full_table();
    for task in &mut table.tasks {
        task.body[1] = code::assert(0);
    }
    let sheet = compare(&table.write(), SHEET_ROOM);
    let words = |begin: &str| {
        let line = sheet.lines().find(|line| line.starts_with(begin)).expect("it has the line");
        line.split(' ').count() - 1
    };
    assert_eq!((words("order"), words("failed")), (512, 32));
}

/// Lends part of a larger text, some words of a larger list, and the file amid other bytes. Only
/// the three words and the sheet's bytes change, and none without room for the words.
fn compare_lent(random: &mut Random, file: &[u8], size: usize, length: usize) {
    let (files, at) = amid(random, file);
    let unchanged = files.clone();
    let (mut text, mut words) = (pattern(size + 16), word_pattern(length + 16));
    let (mut left, mut expected) = (text.clone(), words.clone());
    let room = sheet_words(&files[at], &mut text[8..][..size], &mut words[8..][..length]);
    assert_eq!(room, length >= SHEET_WORDS);
    if room {
        let answer = expected_sheet(file, &mut left[8..][..size]);
        expected[8..][..SHEET_WORDS].copy_from_slice(&<[u64; SHEET_WORDS]>::from(answer));
    }
    assert!(text == left && words == expected && files == unchanged, "{size} {length}");
}

#[test]
fn lent_texts_and_answers_of_many_lengths() {
    let mut random = Random::new(729);
    let x = table_x().write();
    for file in [&x[..], &x[..17], &[]] {
        for length in 0..2 * SHEET_WORDS {
            for size in [0, 1, SHEET_ROOM - 1, SHEET_ROOM, SHEET_ROOM + 1, 2 * SHEET_ROOM] {
                compare_lent(&mut random, file, size, length);
            }
        }
    }
}
