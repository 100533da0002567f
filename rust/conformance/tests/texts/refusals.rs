//! Texts by hand: numbers 60, 61 and 62, the table's own numbers at their lines, 20, and texts that
//! are accepted with the bytes of their files, by the interpreter and by the proved entries.

use adqurim::{raw, FILE_ROOM, TEXT_ROOM};
use conformance::cases::{full_table, longest_text_table, table_x, TEXT_OF_ALL, TEXT_OF_X};
use conformance::entries::pattern;
use conformance::families::refused_files;
use generator::texts;
use interpreter::WriteAnswer;

/// The opening of a text, 31 bytes.
const OPENING: &str = "window 1\nstart 0 0 0 0 0 0 0 0\n";
/// A task that is accepted, two lines.
const TASK: &str = "task 1 9 0\nend\n";

/// Asserts that both conversions refuse a text with this number and place, whatever the buffer's
/// size if the number comes before 20, and leave the buffer.
pub(crate) fn assert_refused(text: impl AsRef<[u8]>, number: u8, place: usize) {
    let text = text.as_ref();
    let with_room: &[usize] = if number == 20 { &[] } else { &[FILE_ROOM, FILE_ROOM + 80] };
    for size in [&[0, FILE_ROOM - 1], with_room].concat() {
        let mut buffer = pattern(size);
        let says = || format!("{size} bytes lent: {}", text.escape_ascii());
        let refused = WriteAnswer { number, place, length: 0 };
        assert_eq!(interpreter::text_to_file(text, &mut buffer), refused, "{}", says());
        let answer = raw::text_to_file(text, &mut buffer);
        let found = (answer.number, answer.place, answer.length);
        assert_eq!(found, (number.into(), place as u64, 0), "{}", says());
        assert!(buffer == pattern(size), "{}", says());
    }
}

/// Asserts that both conversions give this file for a text, and this text for the file.
pub(crate) fn assert_converts(text: &str, file: &[u8]) {
    for convert in [interpreted_file, proved_file] {
        assert_eq!(convert(text.as_bytes()), file, "{text}");
    }
    for convert in [interpreted_text, proved_text] {
        assert_eq!(String::from_utf8(convert(file)).expect("a text is ASCII"), text);
    }
}

fn interpreted_file(text: &[u8]) -> Vec<u8> {
    let mut buffer = pattern(FILE_ROOM);
    let WriteAnswer { number, place, length } = interpreter::text_to_file(text, &mut buffer);
    assert_eq!((number, place), (0, 0), "{}", text.escape_ascii());
    buffer[..length].to_vec()
}

fn proved_file(text: &[u8]) -> Vec<u8> {
    adqurim::text_to_file(text).unwrap_or_else(|refusal| panic!("{}", refusal.in_text(text)))
}

fn interpreted_text(file: &[u8]) -> Vec<u8> {
    let mut buffer = pattern(TEXT_ROOM);
    let WriteAnswer { number, place, length } = interpreter::file_to_text(file, &mut buffer);
    assert_eq!((number, place), (0, 0), "{file:02x?}");
    buffer[..length].to_vec()
}

fn proved_text(file: &[u8]) -> Vec<u8> {
    adqurim::file_to_text(file).unwrap_or_else(|refusal| panic!("{refusal}")).into_bytes()
}

/// The text of table X with this in place of one of its lines.
fn with_line(place: usize, line: &str) -> String {
    let with = |(at, old): (usize, &str)| format!("{}\n", if at == place { line } else { old });
    TEXT_OF_X.lines().enumerate().map(with).collect()
}

/// Asserts a refusal of table X's text with this in place of one of its lines.
fn line_refused(at: usize, line: &str, number: u8, place: usize) {
    assert_refused(with_line(at, line), number, place);
}

/// Asserts a refusal of table X's text with more after it: its first line there is line 12.
fn more_refused(more: &str, number: u8, place: usize) {
    assert_refused(format!("{TEXT_OF_X}{more}"), number, place);
}

#[test]
fn table_x_there_and_back() {
    assert_converts(TEXT_OF_X, &table_x().write());
    assert_eq!(TEXT_OF_X.lines().count(), 12);
}

/// Each word and each field, as bytes of the records that they are.
#[test]
fn each_word_there_and_back() {
    let file = proved_file(TEXT_OF_ALL.as_bytes());
    assert_converts(TEXT_OF_ALL, &file);
    let expected: [[u8; 16]; 20] = [
        [1, 0, 1, 18, 7, 0, 0, 0, 0, 1, 22, 255, 4, 5, 6, 7],
        [2, 16, 2, 0, 3, 0, 0, 0, 40, 0, 0, 0, 0, 0, 0, 0],
        instruction(3, [1, 3, 7, 0]),
        instruction(4, [2, 7, 3, 0]),
        instruction(5, [3, 0, 255, 0]),
        instruction(6, [4, 1, 2, 0]),
        instruction(7, [5, 2, 1, 0]),
        instruction(8, [6, 0, 1, 7]),
        instruction(9, [7, 3, 2, 6]),
        instruction(10, [8, 1, 15, 0]),
        instruction(11, [9, 0, 0, 0]),
        instruction(12, [9, 2, 0, 0]),
        instruction(13, [10, 2, 0, 0]),
        instruction(14, [10, 0, 0, 0]),
        instruction(15, [11, 1, 0, 0]),
        instruction(0, [0, 0, 0, 0]),
        [2, 0, 17, 0, 1, 0, 0, 0, 40, 0, 0, 0, 255, 255, 255, 255],
        instruction(0, [0, 0, 0, 0]),
        [3, 19, 0, 0, 0, 0, 0, 0, 0, 0, 0, 0, 0, 0, 0, 0],
        [3, 20, 7, 0, 255, 255, 255, 255, 0, 0, 0, 0, 0, 0, 0, 0],
    ];
    assert_eq!(file[..20 * 16], expected.concat());
    assert_eq!(file[20 * 16..], [3, 0, 1, 0, 12, 0, 0, 0, 0, 0, 0, 0, 0, 0, 0, 0]);
}

/// An instruction's record: the next one, then the operation and its fields.
fn instruction(next: u8, [operation, a, b, c]: [u8; 4]) -> [u8; 16] {
    [4, next, operation, a, b, c, 0, 0, 0, 0, 0, 0, 0, 0, 0, 0]
}

/// The longest text of an accepted table, by hand: 2,091 bytes, far below the 8,192.
#[test]
fn the_longest_text() {
    let table = longest_text_table();
    let text = proved_text(&table.write());
    assert_eq!(text.len(), 2_091);
    assert_eq!(interpreted_text(&table.write()), text);
    assert_eq!(proved_file(&text), table.write());
    let text = String::from_utf8(text).expect("a text is ASCII");
    let lines: Vec<&str> = text.lines().collect();
    assert_eq!(lines[0], "window 4294967295");
    assert_eq!(lines[1], "start 255 255 255 255 255 255 255 255");
    assert_eq!(lines[2], "task 1000000000 4294967295 4294967295");
    assert_eq!((lines[3], lines[7], lines[8]), ("equal 3 3 14", "equal 3 3 10", "subtract 3 3"));
    assert_eq!((lines[18], lines[121]), ("end", "task 100000000 4294967295 4294967295"));
    assert_eq!((lines.len(), lines[145]), (146, "lock 7 4294967295"));
}

/// Only lines 0 and 1 can be missing; a last line without its newline is at fault whatever it holds.
#[test]
fn number_60_missing_lines_and_newlines() {
    assert_refused("", 60, 0);
    assert_refused("window 1\n", 60, 1);
    assert_refused("window 4294967295\n", 60, 1);
    assert_refused("window 0\n", 60, 1);
    assert_refused("window 1", 60, 0);
    assert_refused("w", 60, 0);
    assert_refused("window 4294967296", 60, 0);
    assert_refused("window 1\nstart 0 0 0 0 0 0 0 0", 60, 1);
    assert_refused("window 1\nstart 0 0 0 0 0 0 0 256", 60, 1);
    assert_refused(&TEXT_OF_X[..TEXT_OF_X.len() - 1], 60, 11);
    more_refused("lock 0 0", 60, 12);
    more_refused("lock 256 0", 60, 12);
    more_refused(" ", 60, 12);
    // With both lines it is a text, and its table has no tasks.
    assert_refused(OPENING, 5, 0);
}

#[test]
fn number_60_empty_lines() {
    assert_refused("\n", 60, 0);
    assert_refused(format!("\n{TEXT_OF_X}"), 60, 0);
    assert_refused("window 1\n\n", 60, 1);
    line_refused(5, "", 60, 5);
    line_refused(7, "end\n", 60, 8);
    more_refused("\n", 60, 12);
    more_refused("\n\n\n", 60, 12);
}

/// A line of table X's that is not in the grammar: its fourth, which is `load 0 0`.
#[test]
fn number_60_words_and_spaces() {
    #[rustfmt::skip]
    let wrong = [
        "LOAD 0 0", "Load 0 0", "lod 0 0", "loa 0 0", "loadd 0 0", "load0 0", "load00", "halt",
        "0 0", "0", "load  0 0", "load 0  0", " load 0 0", "load 0 0 ", "  ", "load\t0 0",
        "load 0\t0", "\tload 0 0", "load 0 0\t", "load 0 0\r", "load 0 0\0", "\0load 0 0",
        "load 0 0\u{80}", "load\u{a0}0 0", "load 0 \u{b2}", "lo\u{e4}d 0 0", "load 0 0\x0b",
        "load 0 0\x0c", "load", "load ", "load 0", "load 0 ", "load 0 0 0",
        "load 0 0 0 0 0 0 0 0 0", "end 0", "end ", "less 0 0", "less 0 0 0 0", "equal 0 0",
        "pick", "pick 0", "pick 0 1", "pick 0 1 0 0", "acquire", "acquire 0 0", "release",
        "release 0 0", "assert", "assert 0 0", "set 0", "add 0", "subtract 0", "store 0",
        "task 1 1", "task 1 1 0 0", "lock 0", "lock 0 0 0", "load 0 0 # a remark", "# a remark",
        "> load 0 0", "load 0,0", "load 0;0",
    ];
    for line in wrong {
        line_refused(3, line, 60, 3);
    }
    for line in ["window", "window ", "window 1 1", "Window 1", "window  1", " window 1", "window1"]
    {
        line_refused(0, line, 60, 0);
    }
    for line in ["start", "start 0 0 0 0 0 0 0", "start 0 0 0 0 0 0 0 0 0", "start 00000000"] {
        line_refused(1, line, 60, 1);
    }
    // Bytes above 127 that are no characters, and a mark that some editors put first.
    assert_refused([TEXT_OF_X.as_bytes(), b"lock 0 0\xff\n"].concat(), 60, 12);
    assert_refused([b"\xef\xbb\xbf", TEXT_OF_X.as_bytes()].concat(), 60, 0);
    assert_refused(TEXT_OF_X.replace('\n', "\r\n"), 60, 0);
    assert_refused(TEXT_OF_X.replace('\n', "\r"), 60, 0);
}

#[test]
fn number_60_numerals() {
    #[rustfmt::skip]
    let wrong = [
        "", "+1", "-1", "-0", "+0", "00", "01", "000", "007", "0255", "0256", "1.0", "1e0", "0x1",
        "1a", "a", "A", "b", "1_0", "'1'", "1,", "/", ":", "\u{661}",
        "0000000000000000000000000000000000000", "099999999999999999999999999999",
    ];
    for numeral in wrong {
        line_refused(3, &format!("load 0 {numeral}"), 60, 3);
        line_refused(3, &format!("load {numeral} 0"), 60, 3);
        line_refused(0, &format!("window {numeral}"), 60, 0);
        line_refused(1, &format!("start 0 0 0 {numeral} 0 0 0 0"), 60, 1);
        line_refused(2, &format!("task 2 8 {numeral}"), 60, 2);
        more_refused(&format!("lock 0 {numeral}\n"), 60, 12);
    }
}

#[test]
fn number_60_lines_out_of_place() {
    assert_refused("start 0 0 0 0 0 0 0 0\nwindow 1\n", 60, 0);
    assert_refused(TASK, 60, 0);
    assert_refused("lock 0 0\n", 60, 0);
    line_refused(1, "window 5", 60, 1);
    line_refused(1, "task 1 1 0", 60, 1);
    line_refused(1, "lock 0 0", 60, 1);
    line_refused(1, "end", 60, 1);
    // An instruction before any task; one after a lock; a task after a lock.
    for line in ["end", "load 0 0", "acquire 0", "less 0 0 0"] {
        line_refused(2, line, 60, 2);
        more_refused(&format!("lock 0 0\n{line}\n"), 60, 13);
    }
    more_refused("lock 0 0\ntask 1 1 0\nend\n", 60, 13);
    assert_refused(format!("{OPENING}lock 0 0\n{TASK}"), 60, 3);
    // The opening again.
    for place in 2..12 {
        line_refused(place, "window 5", 60, place);
        line_refused(place, "start 0 0 0 0 0 0 0 0", 60, place);
    }
    more_refused("window 5\n", 60, 12);
    more_refused("lock 0 0\nlock 0 0\nstart 0 0 0 0 0 0 0 0\n", 60, 14);
}

/// The widest number of each field is no 61, and one more is.
#[test]
fn number_61_by_field() {
    assert_refused("window 4294967296\n", 61, 0);
    line_refused(0, "window 4294967296", 61, 0);
    line_refused(0, "window 4294967295", 11, 0);
    for at in 0..8 {
        let with = |value: &str| {
            let values: Vec<&str> =
                (0..8).map(|other| if other == at { value } else { "0" }).collect();
            format!("start {}", values.join(" "))
        };
        line_refused(1, &with("256"), 61, 1);
        proved_file(with_line(1, &with("255")).as_bytes());
        interpreted_file(with_line(1, &with("255")).as_bytes());
    }
    for line in ["task 4294967296 8 0", "task 2 4294967296 0", "task 2 8 4294967296"] {
        line_refused(2, line, 61, 2);
    }
    line_refused(2, "task 4294967295 8 0", 4, 2);
    proved_file(with_line(2, "task 2 4294967295 0").as_bytes());
    proved_file(with_line(2, "task 2 8 4294967295").as_bytes());
    more_refused("lock 256 0\n", 61, 12);
    more_refused("lock 255 0\n", 4, 12);
    more_refused("lock 0 4294967296\n", 61, 12);
    proved_file(format!("{TEXT_OF_X}lock 0 4294967295\n").as_bytes());
}

/// What fits a byte and not its rule is the table's own number: 4, or 9 for a lock's number.
#[test]
fn number_61_of_instructions() {
    let fields = [
        ("load", 2, 4),
        ("store", 2, 4),
        ("add", 2, 4),
        ("subtract", 2, 4),
        ("less", 3, 4),
        ("equal", 3, 4),
        ("pick", 3, 4),
        ("acquire", 1, 9),
        ("release", 1, 9),
        ("assert", 1, 4),
    ];
    for (word, used, number) in fields {
        for at in 0..used {
            let with = |value: &str| {
                let line = (0..used).map(|other| if other == at { value } else { "0" });
                format!("{word} {}", line.collect::<Vec<&str>>().join(" "))
            };
            line_refused(3, &with("256"), 61, 3);
            line_refused(3, &with("255"), number, 3);
        }
    }
    line_refused(3, "set 256 0", 61, 3);
    line_refused(3, "set 255 0", 4, 3);
    line_refused(3, "set 0 256", 61, 3);
    proved_file(with_line(3, "set 0 255").as_bytes());
    line_refused(3, "load 4 0", 4, 3);
    line_refused(3, "load 0 8", 4, 3);
    line_refused(3, "load 256 0", 61, 3);
    line_refused(3, "acquire 255", 9, 3);
}

/// A numeral may have thousands of digits: it never comes round to a small number.
#[test]
fn number_61_large_numerals() {
    let zeros = |count: usize| "0".repeat(count);
    #[rustfmt::skip]
    let mut large: Vec<String> = [
        "4294967296", "4294967297", "4294967301", "8589934592", "42949672960", "1099511627776",
        "9223372036854775808", "18446744073709551615", "18446744073709551616",
        "18446744073709551617", "18446744073709551621", "36893488147419103232", "184467440737095516160",
        "340282366920938463463374607431768211456", "340282366920938463463374607431768211457",
    ].map(String::from).into();
    for digits in [10, 11, 19, 20, 21, 64, 255, 256, 257, 1_000, 4_096, 7_000, 8_000] {
        large.extend([format!("5{}", zeros(digits - 1)), "9".repeat(digits)]);
    }
    for numeral in large.iter().filter(|numeral| numeral.len() > 10 || &numeral[..] > "4294967295")
    {
        line_refused(0, &format!("window {numeral}"), 61, 0);
        line_refused(2, &format!("task 2 8 {numeral}"), 61, 2);
        line_refused(3, &format!("load 0 {numeral}"), 61, 3);
        line_refused(1, &format!("start {numeral} 0 0 0 0 0 0 0"), 61, 1);
        more_refused(&format!("lock 0 {numeral}\n"), 61, 12);
        // The same with a zero before it is no number.
        line_refused(0, &format!("window 0{numeral}"), 60, 0);
    }
    for numeral in ["257", "260", "300", "511", "512", "999", "1000", "65536", "65537", "65540"] {
        line_refused(3, &format!("load {numeral} 0"), 61, 3);
    }
}

/// By the first line at fault; on one line 60 before 61.
#[test]
fn numbers_60_and_61_in_their_order() {
    let two = |first: (usize, &str), second: (usize, &str)| -> String {
        let mut lines: Vec<&str> = TEXT_OF_X.lines().collect();
        (lines[first.0], lines[second.0]) = (first.1, second.1);
        lines.iter().map(|line| format!("{line}\n")).collect()
    };
    assert_refused(two((3, "load 256 0"), (5, "lod")), 61, 3);
    assert_refused(two((3, "lod"), (5, "load 256 0")), 60, 3);
    assert_refused(two((0, "window 4294967296"), (1, "")), 61, 0);
    assert_refused(&two((3, "load 256 0"), (11, "end"))[..TEXT_OF_X.len() + 1], 61, 3);
    // The wrong number of words, a wrong word elsewhere, a line out of place: 60 on that line.
    for line in
        ["load 256", "load 256 0 0", "load 256 00", "load 256 ", "load 256 0 ", " load 256 0"]
    {
        line_refused(3, line, 60, 3);
    }
    line_refused(0, "window 4294967296 1", 60, 0);
    line_refused(0, "task 4294967296 8 0", 60, 0);
    line_refused(2, "load 256 0", 60, 2);
    line_refused(2, "task 4294967296 8", 60, 2);
    line_refused(3, "window 4294967296", 60, 3);
    more_refused("lock 0 0\ntask 4294967296 1 0\n", 60, 13);
    more_refused("lock 256\n", 60, 12);
    more_refused("lock 256 4294967296", 60, 12);
}

/// Above 8,192 bytes, first of all; exactly so many are allowed.
#[test]
fn number_62_length() {
    assert_refused("\n".repeat(8_193), 62, 0);
    assert_refused("\n".repeat(8_192), 60, 0);
    assert_refused(" ".repeat(100_000), 62, 0);
    assert_refused(format!("window {}\n", "9".repeat(8_185)), 62, 0);
    assert_refused(format!("window {}\n", "9".repeat(8_184)), 61, 0);
    assert_refused("9".repeat(8_192), 60, 0);
    // 31 bytes of opening, 741 tasks of 11 and a lock of 10 are 8,192.
    let full = |lock: &str| format!("{OPENING}{}{lock}\n", "task 1 1 0\n".repeat(741));
    assert_eq!(full("lock 0 10").len(), 8_192);
    assert_refused(full("lock 0 10"), 5, 2);
    assert_refused(full("lock 0 100"), 62, 0);
    assert_refused(full("lock 0 1x"), 60, 743);
    assert_refused(full("lock 0 "), 60, 743);
    assert_refused(full("lock 256 0"), 62, 0);
    assert_refused(full("lock 256 "), 60, 743);
    assert_refused(full("end"), 5, 2);
}

/// Places of lines far beyond a byte: as many lines as fit, and one at fault behind them.
#[test]
fn numbers_60_and_61_at_far_lines() {
    let ends = |count: usize| format!("{OPENING}task 1 9 0\n{}", "end\n".repeat(count));
    for count in [252, 253, 254, 509, 1_000, 2_030] {
        assert_refused(format!("{}ende\n", ends(count)), 60, 3 + count);
        assert_refused(format!("{}\n", ends(count)), 60, 3 + count);
        assert_refused(format!("{}set 0 256\n", ends(count)), 61, 3 + count);
        assert_refused(format!("{}end", ends(count)), 60, 3 + count);
        // Without a fault the seventeenth instruction is too many.
        assert_refused(ends(count), 5, 3 + 16);
    }
    let locks = format!("{OPENING}{TASK}{}", "lock 0 0\n".repeat(900));
    assert_refused(&locks, 5, 4 + 8);
    assert_refused(format!("{locks}lock 8"), 60, 904);
    assert_refused(format!("{locks}lock 256 0\n"), 61, 904);
    assert_refused(format!("{locks}end\n"), 60, 904);
}

/// 60 and 61 anywhere in the text come before every number of the table.
#[test]
fn numbers_60_and_61_before_the_table() {
    let nine = format!("{OPENING}{}", TASK.repeat(9));
    assert_refused(&nine, 5, 2 + 2 * 8);
    assert_refused(format!("{nine}bad\n"), 60, 20);
    assert_refused(format!("{nine}lock 0 4294967296\n"), 61, 20);
    assert_refused(&nine[..nine.len() - 1], 60, 19);
    let text = "window 0\nstart 0 0 0 0 0 0 0 0\ntask 0 0 0\nload 9 9\n";
    assert_refused(text, 4, 0);
    assert_refused(format!("{text}load 9 256\n"), 61, 4);
    assert_refused(format!("{text}load 9\n"), 60, 4);
    assert_refused(format!("{OPENING}task 3 8 0\nend\ntask 3 4 0\nend\nend"), 60, 6);
}

#[test]
fn number_4_at_lines() {
    line_refused(0, "window 0", 4, 0);
    line_refused(2, "task 0 8 0", 4, 2);
    line_refused(2, "task 9 8 0", 4, 2);
    line_refused(2, "task 0 0 0", 4, 2);
    line_refused(8, "task 5 4 1", 4, 8);
    for line in ["load 4 0", "load 0 8", "store 8 0", "store 0 4", "set 4 0", "add 4 0", "add 0 4"]
    {
        line_refused(3, line, 4, 3);
        line_refused(9, line, 4, 9);
    }
    for line in ["subtract 4 0", "less 4 0 0", "less 0 4 0", "less 0 0 16", "equal 0 0 16"] {
        line_refused(3, line, 4, 3);
    }
    line_refused(11, "pick 0 16 0", 4, 11);
    line_refused(11, "pick 4 0 0", 4, 11);
    line_refused(6, "assert 4", 4, 6);
    more_refused("lock 8 0\n", 4, 12);
    more_refused("lock 7 0\nlock 255 0\n", 4, 13);
}

#[test]
fn number_5_at_lines() {
    assert_refused(OPENING, 5, 0);
    assert_refused(format!("{OPENING}lock 0 0\n"), 5, 0);
    assert_refused(format!("{OPENING}task 1 9 0\n"), 5, 2);
    assert_refused(format!("{OPENING}task 1 9 0\nlock 0 0\n"), 5, 2);
    assert_refused(format!("{OPENING}task 1 9 0\n{TASK}"), 5, 2);
    more_refused("task 1 4 0\n", 5, 12);
    // Eight tasks of two lines; the ninth is line 18, whatever it holds and whatever follows.
    let eight = format!("{OPENING}{}", TASK.repeat(8));
    proved_file(eight.as_bytes());
    for ninth in ["task 1 9 0\nend\n", "task 0 0 0\n", "task 9 1 0\nload 4 0\n"] {
        assert_refused(format!("{eight}{ninth}"), 5, 18);
        assert_refused(format!("{eight}{ninth}task 0 0 0\nlock 8 0\n"), 5, 18);
    }
    // Sixteen instructions; the seventeenth is line 19.
    let body = |count: usize| format!("{OPENING}task 1 9 0\n{}", "end\n".repeat(count));
    proved_file(body(16).as_bytes());
    assert_refused(body(17), 5, 19);
    assert_refused(format!("{}load 4 0\n", body(16)), 5, 19);
    assert_refused(format!("{}load 4 0\n", body(17)), 5, 19);
    // Eight locks; the ninth is line 20.
    let locks = |count: usize| format!("{TEXT_OF_X}{}", "lock 7 0\n".repeat(count));
    proved_file(locks(8).as_bytes());
    assert_refused(locks(9), 5, 20);
    assert_refused(format!("{}lock 8 0\n", locks(8)), 5, 20);
}

/// One record at a time, in walk order; at one record 5 for one too many, then 4, then 5 for an
/// empty body. Then 7 to 11.
#[test]
fn numbers_of_the_table_in_the_readers_order() {
    assert_refused("window 0\nstart 0 0 0 0 0 0 0 0\n", 4, 0);
    assert_refused(format!("{OPENING}task 0 9 0\n"), 4, 2);
    assert_refused(format!("{OPENING}task 1 9 0\ntask 0 9 0\nend\n"), 5, 2);
    assert_refused(format!("{OPENING}task 1 9 0\nload 4 0\ntask 1 9 0\n"), 4, 3);
    let body = |count: usize| format!("{OPENING}task 1 9 0\n{}", "end\n".repeat(count));
    assert_refused(format!("{}task 0 0 0\n", body(17)), 5, 19);
    // A 4 in an earlier line before a 5 in a later one.
    assert_refused(format!("{OPENING}task 1 9 0\nload 4 0\n{}", "end\n".repeat(16)), 4, 3);
    assert_refused(format!("{OPENING}{}task 2 1 0\nend\n{TASK}", TASK.repeat(7)), 4, 16);
    assert_refused(format!("{OPENING}task 1 9 0\nload 4 0\n{}", TASK.repeat(9)), 4, 3);
    more_refused(&format!("{}lock 8 0\nlock 7 0\n", "lock 7 0\n".repeat(7)), 4, 19);
    // A lock's 4 before a 7, a 7 before an 8, and so on.
    more_refused("task 1 9 0\nset 0 0\nlock 8 0\n", 4, 14);
    more_refused("task 1 9 0\nset 0 0\nlock 7 0\n", 7, 13);
    more_refused("task 1 9 0\nacquire 7\nend\n", 8, 12);
    more_refused("task 4 4 0\nacquire 7\nend\n", 9, 13);
    line_refused(2, "task 8 8 0", 10, 2);
    assert_refused(with_line(2, "task 8 8 0").replace("window 5", "window 4294967295"), 10, 2);
}

#[test]
fn numbers_7_to_11_at_lines() {
    // Last instruction not End, a skip beyond it; the first in walk order.
    line_refused(7, "set 0 0", 7, 7);
    line_refused(5, "equal 0 1 2", 7, 5);
    line_refused(5, "less 0 1 15", 7, 5);
    line_refused(11, "assert 0", 7, 11);
    line_refused(8, "task 1 9 1", 8, 8);
    assert_refused(format!("{OPENING}{TASK}{TASK}task 1 10 0\nend\n"), 8, 6);
    line_refused(3, "acquire 0", 9, 3);
    line_refused(10, "release 0", 9, 10);
    assert_refused(with_line(9, "acquire 0") + "lock 0 0\n", 9, 9);
    assert_refused(with_line(9, "acquire 1") + "lock 7 0\n", 9, 9);
    proved_file((with_line(9, "acquire 0") + "lock 1 0\n").as_bytes());
    proved_file((with_line(9, "release 0") + "lock 0 0\n").as_bytes());
    // P3, and one where the middle task alone is late; the task's line, not its record.
    assert_refused(format!("{OPENING}task 3 8 0\nend\ntask 3 4 0\nend\n"), 10, 2);
    let middle = "task 1 1000 0\nend\ntask 4 7 0\nend\ntask 2 5 0\nend\n";
    assert_refused(format!("{OPENING}{middle}"), 10, 4);
    // A wait for the lock of the task below: C + B is 5, above the period.
    let waits = with_line(3, "acquire 0");
    proved_file(format!("{waits}lock 1 3\n").as_bytes());
    assert_refused(format!("{waits}lock 1 4\n"), 10, 8);
    // P5: 33 jobs keep place 0.
    let jobs = |window: u32| format!("window {window}\nstart 0 0 0 0 0 0 0 0\ntask 1 1 0\nend\n");
    proved_file(jobs(32).as_bytes());
    assert_refused(jobs(33), 11, 0);
}

/// Each of the 146 lines of the largest table's text made wrong in turn: its number is the line's.
#[test]
fn each_line_of_the_largest_text() {
    let lines = full_table().lines();
    assert_eq!(lines.len(), 146);
    let refused = |at: usize, line: &str, number: u8| {
        let mut lines = lines.clone();
        lines[at] = line.to_string();
        assert_refused(texts::joined(&lines), number, at);
    };
    for at in 0..146 {
        refused(at, "lod 0 0", 60);
        refused(at, "", 60);
        // The opening, then eight tasks with 16 instructions each, then eight locks.
        match at {
            0 => refused(0, "window 4294967296", 61),
            1 => refused(1, "start 0 0 0 0 0 0 0 256", 61),
            138.. => {
                refused(at, "lock 0 4294967296", 61);
                refused(at, "lock 8 0", 4);
            }
            _ if (at - 2) % 17 == 0 => {
                refused(at, "task 1 4294967296 0", 61);
                refused(at, "task 2 1 0", 4);
                if at > 2 {
                    refused(at, "task 1 65 0", 8);
                }
            }
            _ => {
                refused(at, "set 256 0", 61);
                refused(at, "load 4 0", 4);
                refused(at, "less 0 0 15", 7);
                refused(at, "release 8", if (at - 2) % 17 == 16 { 7 } else { 9 });
            }
        }
    }
}

#[test]
fn number_20_comes_last() {
    for text in [TEXT_OF_X, TEXT_OF_ALL] {
        assert_refused(text, 20, 0);
    }
    let full = full_table();
    assert_refused(full.text(), 20, 0);
    assert_eq!(proved_file(&full.text()), full.write());
    for (file, size) in [(table_x().write(), 8_191), (full.write(), 8_191), (full.write(), 0)] {
        let mut buffer = pattern(size);
        let refused = WriteAnswer { number: 20, place: 0, length: 0 };
        assert_eq!(interpreter::file_to_text(&file, &mut buffer), refused);
        assert_eq!(raw::file_to_text(&file, &mut buffer).number, 20);
        assert!(buffer == pattern(size));
    }
}

/// From file to text the places are the file's records, and its numbers come before 20.
#[test]
fn files_that_are_refused() {
    let expected =
        [(1, 0), (2, 0), (3, 1), (4, 1), (5, 0), (6, 11), (7, 6), (8, 7), (9, 2), (10, 1), (11, 0)];
    for (file, (number, place)) in refused_files().iter().zip(expected) {
        for size in [0, TEXT_ROOM - 1, TEXT_ROOM, TEXT_ROOM + 1] {
            let mut buffer = pattern(size);
            let refused = WriteAnswer { number, place, length: 0 };
            assert_eq!(interpreter::file_to_text(file, &mut buffer), refused);
            let answer = raw::file_to_text(file, &mut buffer);
            let found = (answer.number, answer.place, answer.length);
            assert_eq!(found, (number.into(), place as u64, 0));
            assert!(buffer == pattern(size));
        }
    }
}

/// The README shows the text of table X.
#[test]
fn the_readme_shows_a_text() {
    let readme = include_str!("../../../../README.md");
    let shown: String = TEXT_OF_X.lines().map(|line| format!("    {line}\n")).collect();
    assert!(readme.contains(&format!("\n\n{shown}\n")));
}
