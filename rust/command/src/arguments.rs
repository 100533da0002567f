//! What the words after the program's name ask for.

use crate::Problem;
use adqurim::SHEET_ALLOWANCE;
use std::ffi::{OsStr, OsString};
use std::path::PathBuf;

/// Stands for standard input.
const DASH: &str = "-";

/// What the program can do.
#[derive(Debug, Clone, Copy, PartialEq, Eq)]
pub enum Subcommand {
    Check,
    Read,
    Jobs,
    Walk,
    Replay,
    Plan,
    CheckPlan,
    Order,
    Rewrite,
    Text,
    File,
}

/// Every subcommand with its name, in the order of the help.
pub const SUBCOMMANDS: [(Subcommand, &str); 11] = [
    (Subcommand::Check, "check"),
    (Subcommand::Read, "read"),
    (Subcommand::Jobs, "jobs"),
    (Subcommand::Walk, "walk"),
    (Subcommand::Replay, "replay"),
    (Subcommand::Plan, "plan"),
    (Subcommand::CheckPlan, "check-plan"),
    (Subcommand::Order, "order"),
    (Subcommand::Rewrite, "rewrite"),
    (Subcommand::Text, "text"),
    (Subcommand::File, "file"),
];

impl Subcommand {
    fn named(name: &str) -> Option<Subcommand> {
        SUBCOMMANDS.into_iter().find(|known| known.1 == name).map(|known| known.0)
    }

    pub fn name(self) -> &'static str {
        let own = |known: &(Subcommand, &str)| known.0 == self;
        SUBCOMMANDS.into_iter().find(own).expect("each subcommand has a name").1
    }

    /// Whether an order's or a plan's numbers follow the file.
    fn takes_numbers(self) -> bool {
        use Subcommand::{CheckPlan, Order, Plan, Replay};
        matches!(self, Replay | Plan | CheckPlan | Order)
    }

    /// What the first word after it names.
    fn takes(self) -> &'static str {
        if self == Subcommand::File {
            "TEXT"
        } else {
            "FILE"
        }
    }

    /// The words that show its help.
    fn help(self) -> String {
        format!("adqurim {} --help", self.name())
    }
}

/// Where bytes come from.
#[derive(Debug, PartialEq, Eq)]
pub enum Source {
    Path(PathBuf),
    Given(Vec<u8>),
    StandardInput,
}

/// A subcommand with all that it needs.
#[derive(Debug, PartialEq, Eq)]
pub struct Request {
    pub subcommand: Subcommand,
    /// A task file, or a table's text where that is converted.
    pub file: Source,
    /// An order's or a plan's bytes; none are given to a subcommand that takes none.
    pub numbers: Source,
    pub allowance: u64,
}

#[derive(Debug, PartialEq, Eq)]
pub enum Asked {
    /// Of the subcommand, or of the program.
    Help(Option<Subcommand>),
    Request(Request),
}

/// A word that cannot be used, and what is wrong with it.
fn wrong(subcommand: Subcommand, says: String) -> Problem {
    Problem::Usage(format!("{}: {says}", subcommand.name()), subcommand.help())
}

fn is_help(word: &OsString) -> bool {
    word == "--help" || word == "-h"
}

/// What the words ask for.
pub fn parse(words: &[OsString]) -> Result<Asked, Problem> {
    let about_all = |says: String| Problem::Usage(says, "adqurim --help".to_string());
    let Some((first, rest)) = words.split_first() else {
        return Err(about_all("no subcommand is given".to_string()));
    };
    if is_help(first) {
        return Ok(Asked::Help(None));
    }
    let Some(subcommand) = first.to_str().and_then(Subcommand::named) else {
        return Err(about_all(format!("there is no subcommand {}", shown(first))));
    };
    if rest.iter().any(is_help) {
        return Ok(Asked::Help(Some(subcommand)));
    }
    request(subcommand, rest).map(Asked::Request)
}

/// A word in quotes, whatever bytes it has.
fn shown(word: &OsStr) -> String {
    format!("`{}`", word.to_string_lossy())
}

/// A subcommand's request from the words that follow it.
fn request(subcommand: Subcommand, words: &[OsString]) -> Result<Request, Problem> {
    let (allowance, words) = options(subcommand, words)?;
    let Some((file, numbers)) = words.split_first() else {
        return Err(wrong(subcommand, format!("no {} is given", subcommand.takes())));
    };
    if let Some(word) = numbers.first().filter(|_| !subcommand.takes_numbers()) {
        return Err(wrong(subcommand, format!("{} is one word too many", shown(word))));
    }
    let file = match *file == DASH {
        true => Source::StandardInput,
        false => Source::Path(PathBuf::from(file)),
    };
    let numbers = match numbers {
        [only] if *only == DASH => Source::StandardInput,
        _ => Source::Given(bytes(subcommand, numbers)?),
    };
    if file == Source::StandardInput && numbers == Source::StandardInput {
        return Err(wrong(subcommand, "only one of the two can be standard input".to_string()));
    }
    Ok(Request { subcommand, file, numbers, allowance })
}

/// The allowance, the sheet's unless one is given, and the words that are no options.
fn options(subcommand: Subcommand, words: &[OsString]) -> Result<(u64, Vec<&OsString>), Problem> {
    let (mut allowance, mut others) = (SHEET_ALLOWANCE, Vec::new());
    let mut words = words.iter();
    while let Some(word) = words.next() {
        match word.to_str() {
            Some("--allowance") if subcommand == Subcommand::Walk => {
                let number = words.next().and_then(|number| number.to_str()?.parse().ok());
                let says = "--allowance needs a number of moves".to_string();
                allowance = number.ok_or_else(|| wrong(subcommand, says))?;
            }
            Some(name) if name.starts_with(DASH) && name != DASH => {
                return Err(wrong(subcommand, format!("there is no option {}", shown(word))));
            }
            _ => others.push(word),
        }
    }
    Ok((allowance, others))
}

/// The bytes that words give in decimal; a word in quotes may hold several.
fn bytes(subcommand: Subcommand, words: &[&OsString]) -> Result<Vec<u8>, Problem> {
    let mut bytes = Vec::new();
    for word in words {
        let says = || wrong(subcommand, format!("{} is no number from 0 to 255", shown(word)));
        let numbers = word.to_str().ok_or_else(says)?.split_whitespace();
        for number in numbers {
            bytes.push(number.parse().map_err(|_| says())?);
        }
    }
    Ok(bytes)
}
