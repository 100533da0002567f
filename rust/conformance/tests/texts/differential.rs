//! The proved conversions between texts and files, called through their C interface, against the
//! interpreter's: the answer, every byte of the lent buffer, the lent words, and no slow call.

use adqurim::raw::{text_to_file, TEXT_WORDS};
use adqurim::{file_to_text, FILE_ROOM, TEXT_ROOM};
use conformance::cases::*;
use conformance::comparison::{Writing, TO_FILE, TO_TEXT};
use conformance::entries::pattern;
use conformance::families::{any, refused_files, small};
use conformance::tally::Tally;
use generator::files::{damaged, random_bytes, random_records};
use generator::hostile::hostile_files;
use generator::{texts, Random};
use std::time::{Duration, Instant};

/// A family of texts: its seed, how many there are, and how one is made.
struct Family {
    name: &'static str,
    seed: u64,
    texts: usize,
    make: fn(&mut Random) -> Vec<u8>,
}

/// The seeds differ, so that no family repeats the texts of another.
const FAMILIES: [Family; 14] = [
    Family { name: "good texts", seed: 1000, texts: 10_000, make: texts::good },
    Family { name: "wrong counts", seed: 1001, texts: 10_000, make: texts::miscounted },
    Family { name: "instructions", seed: 1002, texts: 14_000, make: texts::wrong_instruction },
    Family { name: "wrong times", seed: 1003, texts: 14_000, make: texts::wrong_times },
    Family { name: "busy processors", seed: 1004, texts: 5_000, make: texts::busy },
    Family { name: "many jobs", seed: 1005, texts: 6_000, make: texts::many_jobs },
    Family { name: "wrong lines", seed: 1006, texts: 45_000, make: texts::wrong_lines },
    Family { name: "wrong words", seed: 1007, texts: 45_000, make: texts::wrong_words },
    Family { name: "wrong bytes", seed: 1008, texts: 45_000, make: texts::wrong_bytes },
    Family { name: "mailed texts", seed: 1009, texts: 10_000, make: texts::mailed },
    Family { name: "random lines", seed: 1010, texts: 10_000, make: texts::random_lines },
    Family { name: "random bytes", seed: 1011, texts: 4_000, make: texts::random_bytes },
    Family { name: "many lines", seed: 1012, texts: 3_000, make: texts::many_lines },
    Family { name: "texts cut short", seed: 1013, texts: 3_000, make: texts::cut_short },
];

/// The numbers that the conversion of a text gives, acceptance among them.
const NUMBERS: [u64; 12] = [0, 4, 5, 7, 8, 9, 10, 11, 20, 60, 61, 62];
/// The longest buffer that is lent for a file.
const LONGEST: usize = 2_500;

/// No call takes longer, those refused by 10 aside, of which one shape is slow (docs/BENCHMARKS.md).
const LIMIT: Duration = Duration::from_millis(2);
const OVERLOAD: u64 = 10;
/// A call that may have taken longer is timed alone, and the shortest time counts.
const TURNS: usize = 20;

/// Compares a text, and times its call alone if all of it took so long that the call may have been
/// slow.
fn compare(text: &[u8], blank: &[u8]) -> (u64, u64) {
    let begin = Instant::now();
    let answer = TO_FILE.compare(text, blank);
    if begin.elapsed() > LIMIT && answer.number != OVERLOAD {
        let time = |_| {
            let (mut file, begin) = (blank.to_vec(), Instant::now());
            text_to_file(text, &mut file);
            begin.elapsed()
        };
        let least = (0..TURNS).map(time).min().expect("there are turns");
        assert!(least < LIMIT, "{least:?}: {}", text.escape_ascii());
    }
    (answer.number, answer.place)
}

/// A size of a file's buffer, mostly with room.
fn some_size(random: &mut Random) -> usize {
    match random.between(0, 9) {
        0 => random.index(FILE_ROOM),
        1 => FILE_ROOM,
        _ => random.between(FILE_ROOM as u64, LONGEST as u64) as usize,
    }
}

/// An accepted text, converted to its file and back, is that text.
fn assert_comes_back(text: &[u8]) {
    let file = adqurim::text_to_file(text).expect("the text is accepted");
    let back = file_to_text(&file).expect("the file is accepted");
    assert!(back.as_bytes() == text, "{back}: {}", text.escape_ascii());
}

#[test]
fn texts_good_and_bad() {
    let (begin, blank) = (Instant::now(), pattern(LONGEST));
    let mut tally = Tally::default();
    for Family { name, seed, texts, make } in FAMILIES {
        let mut random = Random::new(seed);
        for _ in 0..texts {
            let text = make(&mut random);
            let (number, place) = compare(&text, &blank[..some_size(&mut random)]);
            tally.note(number, place);
            if number == 0 {
                assert_comes_back(&text);
            }
        }
        println!("{name}: {} {:?}", tally.shown(), begin.elapsed());
    }
    assert!(tally.all() >= 200_000, "{}", tally.all());
    assert_eq!(tally.numbers(), NUMBERS);
    assert!(NUMBERS.iter().all(|number| tally.times(*number) >= 500), "{}", tally.shown());
    // A place is far from fixed where it names a line, and 0 where it does not.
    let places = |numbers: &[u64], at: fn(usize) -> bool| {
        assert!(numbers.iter().all(|number| at(tally.places(*number))), "{}", tally.shown());
    };
    places(&[60, 61], |places| places >= 200);
    places(&[4, 5, 7], |places| places >= 80);
    places(&[8, 9, 10], |places| places >= 60);
    places(&[0, 11, 20, 62], |places| places == 1);
    let far = [60, 61].map(|number| tally.last_place(number));
    assert!(far.iter().all(|place| *place >= 1_000), "{far:?}");
}

/// The smallest accepted text.
const SMALLEST: &str = "window 1\nstart 0 0 0 0 0 0 0 0\ntask 1 1 0\nend\n";

/// Every single byte put in, replaced and removed, and every end cut off.
#[test]
fn every_single_byte() {
    let blank = pattern(FILE_ROOM + 1);
    let mut tally = Tally::default();
    let mut note = |text: &[u8]| {
        let (number, place) = compare(text, &blank);
        tally.note(number, place);
    };
    for text in [TEXT_OF_X, TEXT_OF_ALL, SMALLEST].map(str::as_bytes) {
        for at in 0..=text.len() {
            note(&text[..at]);
            let mut longer = [&text[..at], &[0], &text[at..]].concat();
            for byte in 0..=255 {
                longer[at] = byte;
                note(&longer);
            }
        }
        for at in 0..text.len() {
            note(&[&text[..at], &text[at + 1..]].concat());
            let mut replaced = text.to_vec();
            for byte in 0..=255 {
                replaced[at] = byte;
                note(&replaced);
            }
        }
    }
    println!("{}", tally.shown());
    let numbers = [0, 4, 7, 8, 9, 10, 11, 60, 61];
    assert!(numbers.iter().all(|number| tally.times(*number) > 0), "{}", tally.shown());
    assert!(tally.all() >= 200_000, "{}", tally.all());
}

/// The longest text of an accepted table: every end cut off, every byte removed and replaced by some
/// that mean something.
#[test]
fn single_bytes_of_the_longest_text() {
    let (blank, text) = (pattern(FILE_ROOM), longest_text_table().text());
    let mut tally = Tally::default();
    for at in 0..text.len() {
        let mut changed = vec![text[..at].to_vec(), [&text[..at], &text[at + 1..]].concat()];
        for byte in *b"\n 05" {
            changed.push([&text[..at], &[byte], &text[at + 1..]].concat());
        }
        for text in changed {
            let (number, place) = compare(&text, &blank);
            tally.note(number, place);
        }
    }
    println!("{}", tally.shown());
    let numbers = [0, 4, 7, 8, 10, 60, 61];
    assert!(numbers.iter().all(|number| tally.times(*number) >= 10), "{}", tally.shown());
}

/// Numerals of every length up to 64 digits and of many up to 8,000, in each field of a line.
#[test]
fn numerals_of_many_lengths() {
    let (mut random, blank) = (Random::new(1020), pattern(FILE_ROOM));
    let mut tally = Tally::default();
    let lengths = (1..=64).chain((65..8_000).step_by(97)).chain([7_999, 8_000]);
    for length in lengths {
        for first in [0, 1, 4, 9] {
            let digit = |at| if at == 0 { first } else { random.between(0, 9) };
            let numeral: String = (0..length).map(digit).map(|digit| digit.to_string()).collect();
            for line in 0..13 {
                let mut lines: Vec<String> = TEXT_OF_X.lines().map(String::from).collect();
                lines.push("lock 1 1".to_string());
                let mut words: Vec<&str> = lines[line].split(' ').collect();
                if words.len() > 1 {
                    let field = random.between(1, words.len() as u64 - 1) as usize;
                    words[field] = &numeral;
                    lines[line] = words.join(" ");
                }
                let (number, place) = compare(&texts::joined(&lines), &blank);
                tally.note(number, place);
            }
        }
    }
    println!("{}", tally.shown());
    assert!(tally.times(60) >= 1_000 && tally.times(61) >= 4_000, "{}", tally.shown());
    assert!([60, 61].iter().all(|number| tally.places(*number) >= 11), "{}", tally.shown());
}

/// Texts that are all of one thing, 8,192 newlines among them.
#[test]
fn uniform_texts() {
    let blank = pattern(LONGEST);
    for text in texts::uniform() {
        let number = compare(&text, &blank).0;
        assert_eq!(number == 62, text.len() > 8_192, "{}", text.len());
        assert!([60, 61, 62].contains(&number));
    }
}

#[test]
fn texts_of_random_files() {
    let mut random = Random::new(1021);
    let mut files = hostile_files(&mut random);
    files.extend(refused_files());
    for _ in 0..4_000 {
        let [small, any] = [small, any].map(|make| make(&mut random).write_shuffled(&mut random).0);
        files.extend([damaged(&mut random, &any), random_records(&mut random), small, any]);
    }
    files.extend((0..500).map(|_| random_bytes(&mut random)));
    let (blank, mut tally) = (pattern(TEXT_ROOM + 60), Tally::default());
    for file in files {
        for size in [TEXT_ROOM + random.index(60), random.index(TEXT_ROOM)] {
            let answer = TO_TEXT.compare(&file, &blank[..size]);
            tally.note(answer.number, answer.place);
        }
    }
    println!("{}", tally.shown());
    let numbers = [0, 1, 2, 3, 4, 5, 6, 7, 8, 9, 10, 11, 20];
    assert_eq!(tally.numbers(), numbers);
    assert!(numbers.iter().all(|number| tally.times(*number) >= 10), "{}", tally.shown());
}

/// Asserts the answers with buffers of these sizes, 20 below the room. What is refused for itself is
/// refused so whatever the size.
fn assert_sizes(
    writing: &Writing,
    sizes: impl Iterator<Item = usize>,
    cases: &[(Vec<u8>, u64, u64)],
) {
    for size in sizes {
        let blank = pattern(size);
        for (bytes, number, length) in cases {
            let answer = writing.compare(bytes, &blank);
            let room = *number != 0 || size >= writing.room;
            let expected = if room { (*number, 0, *length) } else { (20, 0, 0) };
            assert_eq!((answer.number, answer.place, answer.length), expected, "{size}");
        }
    }
}

#[test]
fn buffers_of_every_size() {
    let refused = TEXT_OF_X.replace("window 5", "window 0").into_bytes();
    let cases = [
        (TEXT_OF_X.as_bytes().to_vec(), 0, 176),
        (full_table().text(), 0, 2_320),
        (refused, 4, 0),
        (vec![], 60, 0),
        (vec![b'\n'; 8_193], 62, 0),
    ];
    let sizes = (0..20).chain(150..200).chain(2_250..2_400).chain([3_000, 4_096, 10_000]);
    assert_sizes(&TO_FILE, sizes, &cases);
    let cases = [
        (table_x().write(), 0, TEXT_OF_X.len() as u64),
        (longest_text_table().write(), 0, 2_091),
        (edited(&table_x().write(), &[(4, 0)]), 4, 0),
        (vec![], 1, 0),
    ];
    let sizes = (0..20).chain(100..150).chain(2_080..2_100).chain(8_100..8_300).chain([20_000]);
    assert_sizes(&TO_TEXT, sizes, &cases);
}

#[test]
fn lent_buffers_and_answers_of_many_lengths() {
    let mut random = Random::new(1022);
    let full = full_table();
    let wrong = TEXT_OF_X.replace("load", "lod").into_bytes();
    let texts = [TEXT_OF_X.as_bytes().to_vec(), full.text(), wrong, vec![], vec![b' '; 9_000]];
    let files = [table_x().write(), full.write(), table_x().write()[..17].to_vec(), vec![]];
    for (writing, inputs) in [(TO_FILE, &texts[..]), (TO_TEXT, &files)] {
        let room = writing.room;
        for bytes in inputs {
            for length in 0..=2 * TEXT_WORDS {
                for size in (0..3).chain(room - 3..room + 3).chain([2 * room]) {
                    writing.compare_lent(&mut random, bytes, size, length);
                }
            }
        }
    }
}
