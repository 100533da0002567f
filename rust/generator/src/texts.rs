//! Texts of tables, good and bad, and texts that are no table's: damaged, hostile and random ones.

use crate::description::{code, InstructionDescription, TableDescription};
use crate::kinds;
use crate::random::Random;
use crate::tables::{random_table, Sizes};
use std::fmt::{Display, Write};

/// The longest text.
pub const LONGEST: usize = 8_192;

/// Each operation's word, and how many of the fields a, b and c it uses.
const OPERATIONS: [(&str, usize); 12] = [
    ("end", 0),
    ("load", 2),
    ("store", 2),
    ("set", 2),
    ("add", 2),
    ("subtract", 2),
    ("less", 3),
    ("equal", 3),
    ("pick", 3),
    ("acquire", 1),
    ("release", 1),
    ("assert", 1),
];

/// The words of all other lines.
const OTHERS: [&str; 4] = ["window", "start", "task", "lock"];

/// A word that no line has, for an operation that no text has.
const UNKNOWN: (&str, usize) = ("halt", 0);

/// Lines, each ended by a newline.
pub fn joined(lines: &[String]) -> Vec<u8> {
    let mut text = Vec::with_capacity(lines.iter().map(|line| line.len() + 1).sum());
    for line in lines {
        text.extend_from_slice(line.as_bytes());
        text.push(b'\n');
    }
    text
}

/// A word and numbers.
fn line(word: &str, numbers: &[impl Display]) -> String {
    let mut line = word.to_string();
    for number in numbers {
        write!(line, " {number}").expect("a string takes every character");
    }
    line
}

fn instruction_line(instruction: &InstructionDescription) -> String {
    let InstructionDescription { operation, a, b, c } = *instruction;
    let (word, used) = OPERATIONS.get(usize::from(operation)).unwrap_or(&UNKNOWN);
    line(word, &[a, b, c][..*used])
}

impl TableDescription {
    /// The lines of the table's text.
    pub fn lines(&self) -> Vec<String> {
        let mut lines = vec![line("window", &[self.window]), line("start", &self.initial_store)];
        for task in &self.tasks {
            lines.push(line("task", &[task.execution, task.period, task.first_arrival]));
            lines.extend(task.body.iter().map(instruction_line));
        }
        for (lock, ceiling) in self.ceilings.iter().enumerate() {
            lines.push(line("lock", &[u32::from(*ceiling), self.holding(lock)]));
        }
        lines
    }

    /// The table's text. Fields that an operation does not use are no part of it.
    pub fn text(&self) -> Vec<u8> {
        joined(&self.lines())
    }
}

/// The lines of a random table, mostly a small one, and mostly an accepted one.
fn some_lines(random: &mut Random) -> Vec<String> {
    let table = match random.between(0, 5) {
        0 => kinds::good(random),
        1 => kinds::wrong_instruction(random),
        2 => kinds::wrong_times(random),
        _ => random_table(random, &Sizes { locks: (0, 2), ..Sizes::SMALL }),
    };
    table.lines()
}

pub fn good(random: &mut Random) -> Vec<u8> {
    kinds::good(random).text()
}

/// Texts with an instruction that breaks a rule or nearly does.
pub fn wrong_instruction(random: &mut Random) -> Vec<u8> {
    kinds::wrong_instruction(random).text()
}

/// Texts with a time, a ceiling or the window that breaks a rule or nearly does.
pub fn wrong_times(random: &mut Random) -> Vec<u8> {
    kinds::wrong_times(random).text()
}

/// Texts of tables whose processor is full or nearly so.
pub fn busy(random: &mut Random) -> Vec<u8> {
    kinds::busy(random).text()
}

/// Texts of tables with about 32 jobs, and with far more.
pub fn many_jobs(random: &mut Random) -> Vec<u8> {
    kinds::many_jobs(random).text()
}

/// Texts without tasks, with empty bodies, and with parts too many, some of which break a rule too.
pub fn miscounted(random: &mut Random) -> Vec<u8> {
    let mut table = match random.between(0, 3) {
        0 => kinds::wrong_instruction(random),
        1 => kinds::wrong_times(random),
        _ => kinds::overfull(random),
    };
    let task = random.index(table.tasks.len());
    match random.between(0, 5) {
        0 => table.tasks.clear(),
        1 => table.tasks[task].body.clear(),
        2 => table.tasks[task].body.resize(random.between(15, 20) as usize, code::end()),
        3 => table.tasks.resize(random.between(8, 11) as usize, table.tasks[task].clone()),
        _ => {}
    }
    table.text()
}

/// A word of a line, any of them.
fn some_word(random: &mut Random) -> &'static str {
    let names = OPERATIONS.iter().map(|(word, _)| *word).chain(OTHERS);
    names.clone().nth(random.index(names.count())).expect("it is one of the words")
}

/// A line that is right by itself, whatever its place.
fn some_line(random: &mut Random) -> String {
    let mut number = || random.between(0, 9);
    let line = match number() {
        0 => format!("window {}", number()),
        1 => "start 0 0 0 0 0 0 0 0".to_string(),
        2 | 3 => format!("task 1 {} {}", number(), number()),
        4 => format!("lock {} {}", number(), number()),
        _ => String::new(),
    };
    let (word, used) = OPERATIONS[random.index(OPERATIONS.len())];
    match line.is_empty() {
        true => format!("{word}{}", " 1".repeat(used)),
        false => line,
    }
}

/// Texts with one or two lines swapped, dropped, repeated, moved, emptied or put in.
pub fn wrong_lines(random: &mut Random) -> Vec<u8> {
    let mut lines = some_lines(random);
    for _ in 0..random.between(1, 2) {
        let (at, other) = (random.index(lines.len()), random.index(lines.len()));
        match random.between(0, 6) {
            0 => lines.swap(at, other),
            1 => drop(lines.remove(at)),
            2 => lines.insert(other, lines[at].clone()),
            3 => {
                let line = lines.remove(at);
                lines.insert(other.min(lines.len()), line);
            }
            4 => lines[at].clear(),
            5 => lines.insert(at, some_line(random)),
            _ => lines.truncate(at + 1),
        }
        if lines.is_empty() {
            break;
        }
    }
    joined(&lines)
}

/// Words that are no numbers of the grammar, and numbers at the limits of fields and of what
/// machines hold.
#[rustfmt::skip]
const ODD_WORDS: [&str; 32] = [
    "", "+1", "-1", "-0", "00", "01", "007", "0255", "1.0", "1,000", "0x1", "1e3", "one", "a", "_",
    "1_0", "255", "256", "257", "999", "65535", "65536", "4294967294", "4294967295", "4294967296",
    "4294967297", "42949672950", "9223372036854775808", "18446744073709551615",
    "18446744073709551616", "18446744073709551617", "340282366920938463463374607431768211457",
];

/// The longest numeral.
const MOST_DIGITS: u64 = 8_000;

/// A numeral of up to 8,000 digits, mostly without a leading zero. Some have a low value modulo 2^64
/// and all powers of two below.
fn numeral(random: &mut Random) -> String {
    let most = [12, 40, 400, MOST_DIGITS][random.index(4)];
    let digits = random.between(1, most);
    let (low, zeros) = (u64::from(random.chance(9, 10)), random.chance(1, 4));
    let first = random.between(low, 9);
    let digit = |_| if zeros { 0 } else { random.between(0, 9) };
    let rest: String = (1..digits).map(digit).map(|digit| digit.to_string()).collect();
    format!("{first}{rest}")
}

/// A word in place of another.
fn other_word(random: &mut Random, word: &str) -> String {
    match random.between(0, 9) {
        0 => word.to_uppercase(),
        1 => some_word(random).to_string(),
        2 => word[..word.len() - word.len().min(1)].to_string(),
        3 => format!("{word}{}", random.between(0, 9)),
        4 => format!("0{word}"),
        5 | 6 => numeral(random),
        _ => ODD_WORDS[random.index(ODD_WORDS.len())].to_string(),
    }
}

/// Texts with one or two words replaced, left out or put in.
pub fn wrong_words(random: &mut Random) -> Vec<u8> {
    let mut lines = some_lines(random);
    for _ in 0..random.between(1, 2) {
        let line = random.index(lines.len());
        let mut words: Vec<String> = lines[line].split(' ').map(str::to_string).collect();
        let at = random.index(words.len());
        match random.between(0, 9) {
            0 => drop(words.remove(at)),
            1 => words.insert(at, other_word(random, "0")),
            2 => words.push(random.between(0, 300).to_string()),
            _ => words[at] = other_word(random, &words[at]),
        }
        lines[line] = words.join(" ");
    }
    joined(&lines)
}

/// A byte that means something in a text or nearly does, or any.
fn some_byte(random: &mut Random) -> u8 {
    let telling = b" \n\t\r\0+-019azAZ\x0b\x80\xc2\xa0\xff";
    if random.chance(2, 3) {
        telling[random.index(telling.len())]
    } else {
        random.byte()
    }
}

/// The text with one of its bytes replaced, removed or put in.
fn with_wrong_byte(random: &mut Random, text: &mut Vec<u8>) {
    let at = random.index(text.len());
    match random.between(0, 2) {
        0 => text[at] = some_byte(random),
        1 => drop(text.remove(at)),
        _ => text.insert(at, some_byte(random)),
    }
}

/// Texts with one to three bytes replaced, removed or put in.
pub fn wrong_bytes(random: &mut Random) -> Vec<u8> {
    let mut text = joined(&some_lines(random));
    for _ in 0..random.between(1, 3) {
        with_wrong_byte(random, &mut text);
    }
    text
}

/// The line as another editor or a mail might leave it.
fn mangled(random: &mut Random, line: &str) -> String {
    match random.between(0, 9) {
        0 => format!("{line}\r"),
        1 => format!("{line} "),
        2 => format!(" {line}"),
        3 => format!("\t{line}"),
        4 => line.replacen(' ', "\t", 1),
        5 => line.replacen(' ', "  ", 1),
        6 => format!("> {line}"),
        7 => format!("{line}\0"),
        8 => format!("{line} # a remark"),
        _ => line.replacen(' ', "\u{a0}", 1),
    }
}

/// Texts in which one line or every line is as another editor or a mail might leave it, or whose
/// last newline is missing.
pub fn mailed(random: &mut Random) -> Vec<u8> {
    let mut lines = some_lines(random);
    let at = random.index(lines.len());
    match random.between(0, 5) {
        0 => lines.iter_mut().for_each(|line| line.push('\r')),
        1 => lines[0].insert(0, '\u{feff}'),
        2 => lines.push(String::new()),
        3 => {}
        _ => lines[at] = mangled(random, &lines[at]),
    }
    let mut text = joined(&lines);
    if random.chance(1, 4) {
        text.pop();
    }
    text
}

/// Lines of any kind, mostly in a right order.
pub fn random_lines(random: &mut Random) -> Vec<u8> {
    let mut lines = Vec::new();
    if random.chance(7, 8) {
        lines.extend(["window 9", "start 0 1 2 3 4 5 6 7"].map(String::from));
    }
    lines.extend((0..random.between(0, 12)).map(|_| some_line(random)));
    if random.chance(1, 2) {
        let rank = |line: &String| line.starts_with("lock");
        lines.sort_by_key(rank);
    }
    joined(&lines)
}

/// Bytes of any sort, or bytes that are likely in a text.
pub fn random_bytes(random: &mut Random) -> Vec<u8> {
    let length = random.between(0, 400);
    match random.chance(1, 2) {
        true => (0..length).map(|_| random.byte()).collect(),
        false => (0..length).map(|_| b" \n0159ewindotaskl"[random.index(17)]).collect(),
    }
}

/// A length about the longest, mostly.
fn some_length(random: &mut Random) -> usize {
    match random.between(0, 7) {
        0 => LONGEST,
        1 => LONGEST - 1,
        2 => LONGEST + 1,
        3 => random.between(LONGEST as u64 + 2, 20_000) as usize,
        _ => random.between(1_000, LONGEST as u64) as usize,
    }
}

/// A line that a text may have by the thousand, and one that fills what is left of the text, but
/// for the digits of its last number.
const MANY: [(&str, &str); 3] =
    [("task 1 1 0", "task 1 1 "), ("lock 0 0", "lock 0 "), ("end", "acquire ")];

/// Texts of about the longest length: a table's lines without its locks, and then one line over and
/// over, all of them right but for the last number, which may be too large. Some have a wrong byte
/// amid them.
pub fn many_lines(random: &mut Random) -> Vec<u8> {
    let mut lines = some_lines(random);
    lines.retain(|line| !line.starts_with("lock"));
    let (line, last) = MANY[random.index(MANY.len())];
    let mut left = some_length(random).saturating_sub(joined(&lines).len());
    while left > line.len() + 1 + last.len() + 1 {
        lines.push(line.to_string());
        left -= line.len() + 1;
    }
    if left > last.len() + 1 {
        lines.push(format!("{last}{}", "1".repeat(left - last.len() - 1)));
    }
    let mut text = joined(&lines);
    if random.chance(1, 4) {
        with_wrong_byte(random, &mut text);
    }
    text
}

/// Lines of all sorts that a text may have by the thousand.
const OVER_AND_OVER: [&str; 6] = ["", " ", "task 1 1", "lock 0 256", "window 1", "add 0 0"];

/// Texts of about the longest length that end anywhere: a table's lines, then one of any sort over
/// and over.
pub fn cut_short(random: &mut Random) -> Vec<u8> {
    let length = some_length(random);
    let mut text = joined(&some_lines(random));
    let line = OVER_AND_OVER[random.index(OVER_AND_OVER.len())];
    text.extend([line.as_bytes(), b"\n"].concat().into_iter().cycle().take(length));
    text.truncate(length);
    text
}

/// Texts that are all of one thing: newlines, spaces, digits, one long line, one long word.
pub fn uniform() -> Vec<Vec<u8>> {
    let mut texts = Vec::new();
    for length in [0, 1, 2, 255, 256, 257, 8_190, LONGEST - 1, LONGEST, LONGEST + 1, 100_000] {
        for byte in [b'\n', b' ', b'0', b'9', b'w', 0, 255] {
            texts.push(vec![byte; length]);
        }
        for (begin, byte) in [("window ", b'9'), ("window 1\nstart", b' '), ("window", b' ')] {
            let mut text = begin.as_bytes().to_vec();
            text.resize(length.max(text.len() + 1), byte);
            *text.last_mut().expect("it is not empty") = b'\n';
            texts.push(text);
        }
    }
    texts
}
