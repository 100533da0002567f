//! A refusal, and the rules that documents 01 and 02 number by who causes a refusal.

use crate::words::BYTES_OF_TASK;
use std::error::Error;
use std::fmt;

/// Why an entry refused, and where.
#[derive(Debug, Clone, Copy, PartialEq, Eq, Hash)]
pub struct Refusal {
    /// The rule's number, as wide as its word so that an unknown one is not cut.
    pub number: u64,
    /// What it counts is the rule's to say: [`Rule::place`].
    pub place: u64,
}

/// What the place of a refusal counts. All counts start at 0.
#[derive(Debug, Clone, Copy, PartialEq, Eq, Hash)]
pub enum Place {
    /// No place; its number is 0.
    Nowhere,
    /// A record of the file; of a table in memory, the index that the record would have had; of a
    /// text, the line of the record.
    Record,
    /// A step of the order; past its last one where a step is missing.
    Step,
    /// A byte of the plan; past its last one where a byte is missing.
    Offset,
    /// A job, the lower of a pair.
    Job,
    /// A round.
    Round,
    /// A line of the text; past its last one where a line is missing.
    Line,
}

/// A rule by the name that document 01 gives its number. Document 02 has no names for 33 and 34, nor
/// for 60 to 62.
#[derive(Debug, Clone, Copy, PartialEq, Eq, Hash)]
pub enum Rule {
    Size = 1,
    Kind = 2,
    Chain = 3,
    Field = 4,
    Count = 5,
    Stray = 6,
    Body = 7,
    Rate = 8,
    Ceiling = 9,
    Overload = 10,
    Jobs = 11,
    Room = 20,
    Undecided = 21,
    Step = 30,
    Short = 31,
    Extra = 32,
    Task = 33,
    Offer = 34,
    Shape = 40,
    Value = 41,
    Round = 42,
    Order = 43,
    Lock = 44,
    Guess = 45,
    Line = 60,
    Large = 61,
    Long = 62,
}

/// What is said of a rule: its name, what its place counts, and the words that follow the place.
type Entry = (Rule, &'static str, Place, &'static str);

/// Every rule, ascending.
#[rustfmt::skip]
const ENTRIES: [Entry; 27] = [
    (Rule::Size, "SIZE", Place::Nowhere,
        "the file's length is 0, above 4,096 or no multiple of 16"),
    (Rule::Kind, "KIND", Place::Record,
        "has the wrong kind for its chain"),
    (Rule::Chain, "CHAIN", Place::Record,
        "holds an index outside the file or to a record already reached"),
    (Rule::Field, "FIELD", Place::Record,
        "has a value out of range or an unused byte that is not zero"),
    (Rule::Count, "COUNT", Place::Record,
        "is a task, lock or instruction too many, or it holds no tasks or an empty body"),
    (Rule::Stray, "STRAY", Place::Record,
        "is the lowest that is never reached"),
    (Rule::Body, "BODY", Place::Record,
        "is a body's last instruction but not End, or a skip beyond the last instruction"),
    (Rule::Rate, "RATE", Place::Record,
        "is the first task with a period above the previous task's"),
    (Rule::Ceiling, "CEILING", Place::Record,
        "acquires or releases a lock that is not in the table, \
         or acquires one with a ceiling below the task's base"),
    (Rule::Overload, "OVERLOAD", Place::Record,
        "is the lowest task without a response time within its period, \
         the wait for a lower task's lock counted"),
    (Rule::Jobs, "JOBS", Place::Nowhere,
        "the table has more than 32 jobs"),
    (Rule::Room, "ROOM", Place::Nowhere,
        "the lent memory is too short: \
         an order needs 512 bytes, a plan 1,281 bytes, a job list 32 records, \
         a sheet 4,608 bytes, a table 696 bytes, a file 2,320 bytes, a text 8,192 bytes"),
    (Rule::Undecided, "UNDECIDED", Place::Nowhere,
        "the walk's count exceeds the allowance"),
    (Rule::Step, "STEP", Place::Step,
        "names a task that has no turn here"),
    (Rule::Short, "SHORT", Place::Step,
        "is missing: the order ends with jobs unfinished"),
    (Rule::Extra, "EXTRA", Place::Step,
        "is one too many: all jobs ended before it"),
    (Rule::Task, "TASK", Place::Step,
        "names a task that does not exist"),
    (Rule::Offer, "OFFER", Place::Step,
        "names a value that is not on offer: a Pick offers c to b, any other instruction 0"),
    (Rule::Shape, "SHAPE", Place::Offset,
        "of the plan has the first wrong, missing or extra byte"),
    (Rule::Value, "VALUE", Place::Offset,
        "of the plan has a value that its instruction does not allow: a Pick allows c to b, \
         any other instruction 0"),
    (Rule::Round, "ROUND", Place::Offset,
        "of the plan has a round that is not below the number of jobs, \
         or is below that of the job's previous step"),
    (Rule::Order, "ORDER", Place::Job,
        "and a job with a higher number break the round rules, locks aside"),
    (Rule::Lock, "LOCK", Place::Job,
        "and a job with a higher number nest, but the outer one's priority is not below \
         the inner one's base"),
    (Rule::Guess, "GUESS", Place::Round,
        "is the lowest with a wrong guess"),
    (Rule::Line, "LINE", Place::Line,
        "is not in the grammar of texts, or is missing"),
    (Rule::Large, "LARGE", Place::Line,
        "has a number that is too large for its field"),
    (Rule::Long, "LONG", Place::Nowhere,
        "the text has more than 8,192 bytes"),
];

impl Rule {
    /// Every rule, ascending.
    pub fn all() -> impl Iterator<Item = Rule> {
        ENTRIES.into_iter().map(|(rule, ..)| rule)
    }

    /// The rule with this number.
    pub fn from_number(number: u64) -> Option<Rule> {
        Rule::all().find(|rule| rule.number() == number)
    }

    /// The papers' number.
    pub fn number(self) -> u64 {
        self as u64
    }

    /// Its name in capitals.
    pub fn name(self) -> &'static str {
        self.entry().1
    }

    /// What the place of a refusal by this rule counts.
    pub fn place(self) -> Place {
        self.entry().2
    }

    fn entry(self) -> Entry {
        let own = |entry: &Entry| entry.0 == self;
        ENTRIES.into_iter().find(own).expect("each rule has an entry")
    }
}

impl Place {
    /// The word for one of what the place counts; none if there is no place.
    pub fn noun(self) -> Option<&'static str> {
        match self {
            Place::Nowhere => None,
            Place::Record => Some("record"),
            Place::Step => Some("step"),
            Place::Offset => Some("offset"),
            Place::Job => Some("job"),
            Place::Round => Some("round"),
            Place::Line => Some("line"),
        }
    }
}

impl Refusal {
    /// The rule that refused; none if the papers have no such number.
    pub fn rule(self) -> Option<Rule> {
        Rule::from_number(self.number)
    }

    /// The refusal in words that name a wrong step's task or value, by the order that is refused.
    ///
    /// ```
    /// let refusal = adqurim::Refusal { number: 33, place: 1 };
    /// assert_eq!(refusal.to_string(), "step 1 names a task that does not exist (33 TASK)");
    /// let says = refusal.in_order(&[0, 80]).to_string();
    /// assert_eq!(says, "step 1: task 5 does not exist (33 TASK)");
    /// ```
    pub fn in_order(self, order: &[u8]) -> InOrder<'_> {
        InOrder { refusal: self, order }
    }
}

impl fmt::Display for Refusal {
    fn fmt(&self, f: &mut fmt::Formatter<'_>) -> fmt::Result {
        let Refusal { number, place } = self;
        let Some((_, name, counts, says)) = self.rule().map(Rule::entry) else {
            return write!(f, "refused by the unknown number {number} at place {place}");
        };
        if let Some(noun) = counts.noun() {
            write!(f, "{noun} {place} ")?;
        }
        write!(f, "{says} ({number} {name})")
    }
}

impl Error for Refusal {}

/// A refusal and the order that it is about: [`Refusal::in_order`]. It prints as the refusal alone
/// if that is by another rule than 30, 33 and 34, or if the order has no step at its place.
#[derive(Debug, Clone, Copy, PartialEq, Eq, Hash)]
pub struct InOrder<'a> {
    refusal: Refusal,
    order: &'a [u8],
}

impl InOrder<'_> {
    /// The rule that the byte at the place breaks, and what is wrong with it.
    fn slip(&self) -> Option<(Rule, String)> {
        let place = usize::try_from(self.refusal.place).ok()?;
        let byte = self.order.get(place)?;
        let (task, value) = (byte / BYTES_OF_TASK, byte % BYTES_OF_TASK);
        let rule = self.refusal.rule()?;
        let says = match rule {
            Rule::Step => format!("task {task} has no turn here"),
            Rule::Task => format!("task {task} does not exist"),
            Rule::Offer => format!("value {value} is not on offer"),
            _ => return None,
        };
        Some((rule, says))
    }
}

impl fmt::Display for InOrder<'_> {
    fn fmt(&self, f: &mut fmt::Formatter<'_>) -> fmt::Result {
        let Refusal { number, place } = self.refusal;
        match self.slip() {
            Some((rule, says)) => write!(f, "step {place}: {says} ({number} {})", rule.name()),
            None => write!(f, "{}", self.refusal),
        }
    }
}
