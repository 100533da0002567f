//! The entries and their answers: the section "Numbers by who causes them".

use crate::claims::accept_claims;
use crate::memory::{TaskTable, TABLE_ROOM};
use crate::numbers::{refuse, Refusal};
use crate::order::Ending;
use crate::text::{accept_text, text_of, LONGEST_TEXT};
use crate::timing::{accept, Accepted, JobRecord, MOST_JOBS};
use crate::walk::Outcome;
use crate::{conversion, order, plan, writer};

/// Number 20: "order buffer below 512 bytes, plan buffer below 1,281, job list below 32".
pub const ORDER_ROOM: usize = 512;
pub const PLAN_ROOM: usize = 1281;
/// E2: "in a buffer of at least 2,320 bytes".
pub const FILE_ROOM: usize = 2320;
/// E5: "a target below 2,320 bytes or, for text, below 8,192".
pub const TEXT_ROOM: usize = LONGEST_TEXT;

/// "the reader its response times (0 past the last task) and job count"
#[derive(Debug, Clone, PartialEq, Eq, Default)]
pub struct ReadAnswer {
    pub number: u8,
    pub place: usize,
    pub response_times: [u64; 8],
    pub jobs: usize,
}

/// The answer of the job list: how many records were written.
#[derive(Debug, Clone, PartialEq, Eq, Default)]
pub struct JobListAnswer {
    pub number: u8,
    pub place: usize,
    pub jobs: usize,
}

/// The answer of the writer, of what fills a table in memory and of the conversions of a text: "an
/// accepted call also returns the length of what it wrote".
#[derive(Debug, Clone, PartialEq, Eq, Default)]
pub struct WriteAnswer {
    pub number: u8,
    pub place: usize,
    pub length: usize,
}

/// The answer of a replay or a plan check: "its end store, the set of failed jobs". Bit j of the
/// set is job j.
#[derive(Debug, Clone, PartialEq, Eq, Default)]
pub struct RunAnswer {
    pub number: u8,
    pub place: usize,
    pub end_store: [u8; 8],
    pub failed_jobs: u32,
}

/// The answer of a conversion: the same "and any length written".
#[derive(Debug, Clone, PartialEq, Eq, Default)]
pub struct ConversionAnswer {
    pub number: u8,
    pub place: usize,
    pub length: usize,
    pub end_store: [u8; 8],
    pub failed_jobs: u32,
}

/// A walk's verdict; `None` is the zero of a refusal.
#[derive(Debug, Clone, Copy, PartialEq, Eq, Default)]
pub enum Verdict {
    #[default]
    None,
    Holds,
    Fails,
}

/// "a walk its verdict and count (only these if it holds)"
#[derive(Debug, Clone, PartialEq, Eq, Default)]
pub struct WalkAnswer {
    pub number: u8,
    pub place: usize,
    pub verdict: Verdict,
    pub count: u64,
    pub length: usize,
    pub end_store: [u8; 8],
    pub failed_jobs: u32,
}

/// "A refusal returns its number and place, every other field zero."
macro_rules! refusal_becomes {
    ($($answer:ident),*) => {$(
        impl From<Refusal> for $answer {
            fn from(refusal: Refusal) -> $answer {
                let Refusal { number, place } = refusal;
                $answer { number, place, ..$answer::default() }
            }
        }
    )*};
}
refusal_becomes!(ReadAnswer, JobListAnswer, RunAnswer, ConversionAnswer, WalkAnswer, WriteAnswer);

/// The answer, or the answer that a refusal becomes.
fn settle<A: From<Refusal>>(result: Result<A, Refusal>) -> A {
    result.unwrap_or_else(A::from)
}

/// Number 20: "place 0, buffer untouched."
fn demand_room(room: usize, needed: usize) -> Result<(), Refusal> {
    if room < needed {
        refuse(20, 0)
    } else {
        Ok(())
    }
}

/// The file's numbers first, "Then 20".
fn accept_with_room(file: &[u8], room: usize, needed: usize) -> Result<Accepted, Refusal> {
    let accepted = accept(file)?;
    demand_room(room, needed).map(|()| accepted)
}

/// "An accepted conversion or failing walk zero-fills to 512 or 1,281; bytes beyond never change."
fn write_filled(buffer: &mut [u8], room: usize, bytes: &[u8]) {
    buffer[..room].fill(0);
    buffer[..bytes.len()].copy_from_slice(bytes);
}

/// Reads a task file: numbers 1 to 11.
pub fn read(file: &[u8]) -> ReadAnswer {
    settle(accept(file).map(|accepted| {
        let mut answer = ReadAnswer { jobs: accepted.jobs.len(), ..ReadAnswer::default() };
        let times = &accepted.response_times;
        answer.response_times[..times.len()].copy_from_slice(times);
        answer
    }))
}

/// "The job list goes into a lent list, one record a job ... Records past the last job keep their
/// contents."
pub fn job_list(file: &[u8], list: &mut [JobRecord]) -> JobListAnswer {
    settle(accept_with_room(file, list.len(), MOST_JOBS).map(|accepted| {
        let jobs = accepted.jobs.len();
        list[..jobs].copy_from_slice(&accepted.jobs);
        JobListAnswer { jobs, ..JobListAnswer::default() }
    }))
}

/// An accepted order's or plan's answer.
fn run_answer(ending: Ending) -> RunAnswer {
    let Ending { store: end_store, failed_jobs } = ending;
    RunAnswer { end_store, failed_jobs, ..RunAnswer::default() }
}

/// Replays an order: numbers 30 to 34 after the file's.
pub fn replay(file: &[u8], order: &[u8]) -> RunAnswer {
    settle(accept(file).and_then(|accepted| order::replay(&accepted, order)).map(run_answer))
}

/// Checks a round plan: numbers 40 to 45 after the file's.
pub fn check_plan(file: &[u8], plan: &[u8]) -> RunAnswer {
    let checked = accept(file).and_then(|accepted| plan::check(&accepted, plan));
    settle(checked.map(|(_, ending)| run_answer(ending)))
}

/// Walks all orders of a table. The buffer takes the failing order; it is zeroed up to 512 if the
/// walk holds or is undecided.
pub fn walk(file: &[u8], allowance: u64, order_buffer: &mut [u8]) -> WalkAnswer {
    let accepted = match accept_with_room(file, order_buffer.len(), ORDER_ROOM) {
        Ok(accepted) => accepted,
        Err(refusal) => return WalkAnswer::from(refusal),
    };
    let (answer, order) = match crate::walk::walk(&accepted, allowance) {
        Outcome::Undecided => (WalkAnswer::from(Refusal { number: 21, place: 0 }), Vec::new()),
        Outcome::Holds { count } => {
            (WalkAnswer { verdict: Verdict::Holds, count, ..WalkAnswer::default() }, Vec::new())
        }
        Outcome::Fails { count, order, ending } => {
            let Ending { store: end_store, failed_jobs } = ending;
            let (verdict, length) = (Verdict::Fails, order.len());
            let (number, place) = (0, 0);
            (WalkAnswer { number, place, verdict, count, length, end_store, failed_jobs }, order)
        }
    };
    write_filled(order_buffer, ORDER_ROOM, &order);
    answer
}

/// Writes a conversion's bytes and answers with their length and what they end with.
fn deliver(buffer: &mut [u8], room: usize, written: (Vec<u8>, Ending)) -> ConversionAnswer {
    let (bytes, Ending { store: end_store, failed_jobs }) = written;
    write_filled(buffer, room, &bytes);
    ConversionAnswer { number: 0, place: 0, length: bytes.len(), end_store, failed_jobs }
}

/// Converts an order to its plan. "Conversions refuse by 30-45 and leave their buffer untouched."
pub fn order_to_plan(file: &[u8], order: &[u8], plan_buffer: &mut [u8]) -> ConversionAnswer {
    let converted = accept_with_room(file, plan_buffer.len(), PLAN_ROOM)
        .and_then(|accepted| conversion::order_to_plan(&accepted, order));
    settle(converted.map(|written| deliver(plan_buffer, PLAN_ROOM, written)))
}

/// Converts a plan to its order, with the same rules.
pub fn plan_to_order(file: &[u8], plan: &[u8], order_buffer: &mut [u8]) -> ConversionAnswer {
    let converted = accept_with_room(file, order_buffer.len(), ORDER_ROOM)
        .and_then(|accepted| conversion::plan_to_order(&accepted, plan));
    settle(converted.map(|written| deliver(order_buffer, ORDER_ROOM, written)))
}

/// "bytes past that don't change": only the front of the buffer is written.
fn write_front(buffer: &mut [u8], bytes: &[u8]) -> WriteAnswer {
    buffer[..bytes.len()].copy_from_slice(bytes);
    WriteAnswer { number: 0, place: 0, length: bytes.len() }
}

/// Fills a table in memory from a file: 1 to 11, then 20 for memory below 696 bytes.
pub fn table(file: &[u8], memory: &mut [u8]) -> WriteAnswer {
    let accepted = accept_with_room(file, memory.len(), TABLE_ROOM);
    let bytes = accepted.map(|accepted| TaskTable::of(&accepted.table).to_bytes());
    settle(bytes.map(|bytes| write_front(memory, &bytes)))
}

/// Writes the file of an accepted table, "20 last".
fn write_file(
    accepted: Result<Accepted, Refusal>,
    file_buffer: &mut [u8],
) -> Result<WriteAnswer, Refusal> {
    let table = accepted?.table;
    demand_room(file_buffer.len(), FILE_ROOM)?;
    Ok(write_front(file_buffer, &writer::lay_out(&table)))
}

/// E2's writer: "4, 5, 7, 8, 9, 10 and 11 for a bad table ... then 20 for a short buffer, the
/// buffer untouched."
pub fn write(memory: &[u8; TABLE_ROOM], file_buffer: &mut [u8]) -> WriteAnswer {
    let accepted = accept_claims(&TaskTable::from_bytes(memory).claims());
    settle(write_file(accepted, file_buffer))
}

/// E5: converts a text to its file, in walk order: 62, 60 and 61, the table's own numbers at lines,
/// then 20.
pub fn text_to_file(text: &[u8], file_buffer: &mut [u8]) -> WriteAnswer {
    settle(write_file(accept_text(text), file_buffer))
}

/// E5: converts a file to its text: 1 to 11 at records, then 20.
pub fn file_to_text(file: &[u8], text_buffer: &mut [u8]) -> WriteAnswer {
    let accepted = accept_with_room(file, text_buffer.len(), TEXT_ROOM);
    let text = accepted.map(|accepted| text_of(&accepted.table));
    settle(text.map(|text| write_front(text_buffer, text.as_bytes())))
}
