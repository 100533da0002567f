//! The grammar of 02, E5: what a line of a table's text is, and which sequences of lines are texts.
//! It knows nothing of tables: a line is its word and its numbers.

use crate::numbers::{refuse, Refusal};
use std::fmt::Write;

/// What a line says. An instruction has its operation's number.
#[derive(Debug, Clone, Copy, PartialEq, Eq)]
pub enum Kind {
    Window,
    Start,
    Task,
    Instruction(u8),
    Lock,
}

/// How wide a field is: the two widths of document 01's records.
#[derive(Debug, Clone, Copy, PartialEq, Eq)]
enum Width {
    Byte,
    Wide,
}
use Width::{Byte, Wide};

/// Of a kind of line: its word, and the widths of the numbers after it.
type Form = (Kind, &'static str, &'static [Width]);

/// Each kind of line, "by lower-case name (6 `less`, 7 `equal`) and used fields in a, b, c order".
/// 02, E7: "The text always writes c, so an old text's `pick` line with two numbers earns 60."
const FORMS: [Form; 16] = [
    (Kind::Window, "window", &[Wide]),
    (Kind::Start, "start", &[Byte; 8]),
    (Kind::Task, "task", &[Wide; 3]),
    (Kind::Instruction(0), "end", &[]),
    (Kind::Instruction(1), "load", &[Byte; 2]),
    (Kind::Instruction(2), "store", &[Byte; 2]),
    (Kind::Instruction(3), "set", &[Byte; 2]),
    (Kind::Instruction(4), "add", &[Byte; 2]),
    (Kind::Instruction(5), "subtract", &[Byte; 2]),
    (Kind::Instruction(6), "less", &[Byte; 3]),
    (Kind::Instruction(7), "equal", &[Byte; 3]),
    (Kind::Instruction(8), "pick", &[Byte; 3]),
    (Kind::Instruction(9), "acquire", &[Byte]),
    (Kind::Instruction(10), "release", &[Byte]),
    (Kind::Instruction(11), "assert", &[Byte]),
    (Kind::Lock, "lock", &[Byte, Wide]),
];

/// How many lines begin every text: `window` and `start`.
const OPENING: usize = 2;

/// A line: its kind, and as many numbers as that has fields.
#[derive(Debug, Clone, PartialEq, Eq)]
pub struct Line {
    pub kind: Kind,
    pub numbers: Vec<u64>,
}

impl Kind {
    fn form(self) -> Form {
        let own = |form: &&Form| form.0 == self;
        *FORMS.iter().find(own).expect("each kind of line has a form")
    }

    /// How many numbers follow the word.
    pub fn fields(self) -> usize {
        self.form().2.len()
    }

    /// "a `window` line, a `start` line ..., then each task line followed by its instruction lines
    /// ..., then lock lines": whether a line of this kind may come after one of that kind, or first.
    fn may_follow(self, before: Option<Kind>) -> bool {
        use Kind::{Instruction, Lock, Start, Task, Window};
        match self {
            Window => before.is_none(),
            Start => before == Some(Window),
            Task => matches!(before, Some(Start | Task | Instruction(_))),
            Instruction(_) => matches!(before, Some(Task | Instruction(_))),
            Lock => matches!(before, Some(Start | Task | Instruction(_) | Lock)),
        }
    }
}

/// A number in decimal, with "no leading zeros". One that 64 bits cannot hold is the largest that
/// they can, which is too large for every field.
fn numeral(word: &[u8]) -> Option<u64> {
    let leads_with_zero = word.len() > 1 && word[0] == b'0';
    if word.is_empty() || leads_with_zero || !word.iter().all(u8::is_ascii_digit) {
        return None;
    }
    let append =
        |value: u64, digit: &u8| value.saturating_mul(10).saturating_add(u64::from(digit - b'0'));
    Some(word.iter().fold(0, append))
}

impl Line {
    /// The line with these bytes, its newline taken off: a word and its numbers, with "One space
    /// between words". None if there is no such line.
    fn read(bytes: &[u8]) -> Option<Line> {
        let mut words = bytes.split(|byte| *byte == b' ');
        let name = words.next()?;
        let (kind, _, fields) = FORMS.iter().find(|form| form.1.as_bytes() == name)?;
        let numbers: Vec<u64> = words.map(numeral).collect::<Option<_>>()?;
        (numbers.len() == fields.len()).then_some(Line { kind: *kind, numbers })
    }

    /// Whether each number fits its field.
    fn fits(&self) -> bool {
        let most = |width: &Width| match width {
            Byte => u64::from(u8::MAX),
            Wide => u64::from(u32::MAX),
        };
        let (_, _, fields) = self.kind.form();
        self.numbers.iter().zip(fields).all(|(number, width)| *number <= most(width))
    }

    /// Writes it after what a text has: "each line ended by a newline."
    pub fn write(&self, text: &mut String) {
        let (_, word, _) = self.kind.form();
        text.push_str(word);
        for number in &self.numbers {
            write!(text, " {number}").expect("a string takes every character");
        }
        text.push('\n');
    }
}

/// The lines of a text. "60 line not in the grammar or missing, 61 number too large for its field,
/// by the first line at fault, counted from 0, 60 before 61". Only the opening can be missing.
pub fn lines(text: &[u8]) -> Result<Vec<Line>, Refusal> {
    let mut lines: Vec<Line> = Vec::new();
    for (place, bytes) in text.split_inclusive(|byte| *byte == b'\n').enumerate() {
        let before = lines.last().map(|line| line.kind);
        let line = bytes.strip_suffix(b"\n").and_then(Line::read);
        match line.filter(|line| line.kind.may_follow(before)) {
            None => return refuse(60, place),
            Some(line) if !line.fits() => return refuse(61, place),
            Some(line) => lines.push(line),
        }
    }
    if lines.len() < OPENING {
        return refuse(60, lines.len());
    }
    Ok(lines)
}
