//! What a refusal says to the author of a text, who knows its lines and no records.

use crate::refusal::{Place, Refusal, Rule};
use crate::table::{Instruction, Site, Table, TaskEntry};
use std::fmt;

/// A refusal and the text that it is about: [`Refusal::in_text`]. It prints as the refusal alone if
/// that is by a rule without a line, or if the text breaks no such rule there.
#[derive(Debug, Clone, Copy, PartialEq, Eq, Hash)]
pub struct InText<'a> {
    refusal: Refusal,
    text: &'a [u8],
}

/// The forms of lines: a word, and a name for each number after it. One in capitals is of a wide
/// field, any other of a byte.
const OPENING: [&str; 2] = ["window W", "start v0 v1 v2 v3 v4 v5 v6 v7"];
const TASK: &str = "task C P A";
const LOCK: &str = "lock ceiling H";
/// By operation.
const INSTRUCTIONS: [&str; 12] = [
    "end",
    "load a b",
    "store a b",
    "set a b",
    "add a b",
    "subtract a b",
    "less a b c",
    "equal a b c",
    "pick a b c",
    "acquire a",
    "release a",
    "assert a",
];

/// How many characters of a line or a number are shown.
const SHOWN: usize = 60;

/// Bytes in quotes, cut where they are long. What is no plain character is shown by its number.
fn quoted(bytes: &[u8]) -> String {
    let shown: String = bytes.escape_ascii().take(SHOWN).map(char::from).collect();
    let cut = if bytes.escape_ascii().count() > SHOWN { ".." } else { "" };
    format!("`{shown}{cut}`")
}

/// The words of a line or a form.
fn words(line: &[u8]) -> impl Iterator<Item = &[u8]> {
    line.split(|byte| *byte == b' ')
}

/// The form that has this line's word.
fn form_of(line: &[u8]) -> Option<&'static str> {
    let all = OPENING.into_iter().chain([TASK, LOCK]).chain(INSTRUCTIONS);
    let named = |form: &&str| words(form.as_bytes()).next() == words(line).next();
    all.into_iter().find(named)
}

/// Whether a word is a number without a leading zero.
fn is_number(word: &[u8]) -> bool {
    !word.is_empty() && word.iter().all(u8::is_ascii_digit) && (word[0] != b'0' || word.len() == 1)
}

/// A number's value; the largest if it is larger than any field holds.
fn value(word: &[u8]) -> u64 {
    std::str::from_utf8(word).ok().and_then(|digits| digits.parse().ok()).unwrap_or(u64::MAX)
}

/// The most that the field of this name holds.
fn most(field: &[u8]) -> u64 {
    if field.iter().all(u8::is_ascii_uppercase) {
        u32::MAX.into()
    } else {
        u8::MAX.into()
    }
}

/// What is wrong with a line by number 60, given with its newline.
fn not_in_grammar(line: &[u8]) -> String {
    let Some(line) = line.strip_suffix(b"\n") else {
        return "it is not ended by a newline".to_string();
    };
    let Some(form) = form_of(line) else {
        return format!("no line begins with {}", quoted(words(line).next().unwrap_or_default()));
    };
    let numbers = words(form.as_bytes()).count() == words(line).count();
    match numbers && words(line).skip(1).all(is_number) {
        true => "it is out of place".to_string(),
        false => format!("it is not `{form}` in plain numbers, with one space between words"),
    }
}

/// What is wrong with a line by number 61; none if nothing is.
fn too_large(line: &[u8]) -> Option<String> {
    let fields = words(form_of(line)?.as_bytes());
    let above = |(number, field): &(&[u8], &[u8])| value(number) > most(field);
    let (number, field) = words(line).zip(fields).skip(1).find(above)?;
    Some(format!("the number {} is above {}", quoted(number), most(field)))
}

/// The table of a text of the grammar. Of any other text it is no matter which.
fn table_of(text: &[u8]) -> Table {
    let mut table = Table::default();
    for line in text.split(|byte| *byte == b'\n') {
        let wide = |word: &[u8]| u32::try_from(value(word)).unwrap_or(u32::MAX);
        let numbers: Vec<u32> = words(line).skip(1).map(wide).collect();
        let at = |field: usize| numbers.get(field).copied().unwrap_or(0);
        let byte = |field: usize| at(field) as u8;
        match form_of(line) {
            Some(form) if form == OPENING[0] => table.window = at(0),
            Some(form) if form == OPENING[1] => table.store = std::array::from_fn(byte),
            Some(TASK) => {
                let [execution, period, arrival] = [0, 1, 2].map(at);
                table.tasks.push(TaskEntry { execution, period, arrival, body: Vec::new() });
            }
            Some(LOCK) => {
                table.ceilings.push(byte(0));
                table.holdings.push(at(1));
            }
            form => {
                let operation = INSTRUCTIONS.iter().position(|known| form == Some(known));
                let bodies = table.tasks.last_mut().map(|task| &mut task.body);
                if let (Some(operation), Some(body)) = (operation, bodies) {
                    let [a, b, c] = [0, 1, 2].map(byte);
                    body.push(Instruction { operation: operation as u8, a, b, c });
                }
            }
        }
    }
    table
}

impl Refusal {
    /// The refusal in words that show the line of the text that is refused.
    ///
    /// ```
    /// let text = b"window 5\nstart 0 0 0 0 0 0 0 0\ntask 2 8 0\nload 256 0\nend\n";
    /// let refusal = adqurim::text_to_file(text).unwrap_err();
    /// let says = refusal.in_text(text).to_string();
    /// assert_eq!(says, "line 3, `load 256 0`: the number `256` is above 255 (61 LARGE)");
    /// ```
    pub fn in_text(self, text: &[u8]) -> InText<'_> {
        InText { refusal: self, text }
    }
}

impl InText<'_> {
    /// The line at the place, with its newline.
    fn line(&self) -> Option<&[u8]> {
        let place = usize::try_from(self.refusal.place).ok()?;
        self.text.split_inclusive(|byte| *byte == b'\n').nth(place)
    }

    /// The refusal of the text's table at the record of the line: the header has lines 0 and 1.
    fn at_record(&self) -> Refusal {
        Refusal { place: self.refusal.place.saturating_sub(1), ..self.refusal }
    }

    /// What the table's own rule says of the line: which part it is, and what is wrong with it.
    fn in_table(&self) -> Option<(Site, String)> {
        let table = table_of(self.text);
        let (rule, site, says) = self.at_record().in_table(&table).fault()?;
        let says = match (rule, site) {
            (Rule::Field, Site::Instruction { task, position }) => {
                let without_values = table.tasks[task].body[position].without_values();
                without_values.unwrap_or("a field is out of range".to_string())
            }
            _ => says,
        };
        Some((site, says))
    }

    /// What is wrong, after the line's number.
    fn fault(&self) -> Option<String> {
        let rule = self.refusal.rule()?;
        let Some(line) = self.line() else {
            let missing = OPENING.get(usize::try_from(self.refusal.place).ok()?)?;
            return (rule == Rule::Line).then(|| format!(" is missing: it is `{missing}`"));
        };
        let bare = line.strip_suffix(b"\n").unwrap_or(line);
        let shown = quoted(bare);
        Some(match rule {
            Rule::Line => format!(", {shown}: {}", not_in_grammar(line)),
            Rule::Large => format!(", {shown}: {}", too_large(bare)?),
            _ if rule.place() == Place::Record => {
                let (site, says) = self.in_table()?;
                format!(", {shown} ({site}): {says}")
            }
            _ => return None,
        })
    }
}

impl fmt::Display for InText<'_> {
    fn fmt(&self, f: &mut fmt::Formatter<'_>) -> fmt::Result {
        let Refusal { number, place } = self.refusal;
        match (self.fault(), self.refusal.rule()) {
            (Some(says), Some(rule)) => {
                write!(f, "line {place}{says} ({number} {})", rule.name())
            }
            _ => write!(f, "{}", self.refusal),
        }
    }
}
