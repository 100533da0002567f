//! Safe calls of the proved entries through the C interface of `include/adqurim.h`.
//!
//! [`read`], [`jobs`], [`replay`], [`walk`], [`check_plan`], [`order_to_plan`], [`plan_to_order`],
//! [`table`], [`write`](write()), [`text_to_file`] and [`file_to_text`] give a value or a
//! [`Refusal`], which prints as a sentence; [`sheet`] gives one for every file.
//! [`Refusal::in_order`] also names a wrong step's task or value, [`Refusal::in_table`] the task,
//! instruction or lock of a table that is not written, and [`Refusal::in_text`] shows the line of a
//! text that is not converted; [`Refusal::on_offer`] gives the values that could stand in place of
//! a wrong one. The module [`raw`] has the same entries with their numbers, places and lent memory.
//!
//! ```
//! let refusal = adqurim::read(&[1; 7]).unwrap_err();
//! let says = "the file's length is 0, above 4,096 or no multiple of 16 (1 SIZE)";
//! assert_eq!(refusal.to_string(), says);
//! ```

mod in_table;
mod in_text;
mod on_offer;
pub mod raw;
mod refusal;
mod table;
mod words;

pub use in_table::InTable;
pub use in_text::InText;
pub use refusal::{InOrder, Place, Refusal, Rule};
pub use table::{Instruction, Site, Table, TaskEntry};
pub use words::{
    Job, BYTES_OF_TASK, FILE_ROOM, JOB_LIST_ROOM, MOST_INSTRUCTIONS, MOST_JOBS, MOST_LOCKS,
    MOST_TASKS, ORDER_ROOM, PLAN_ROOM, SHEET_ALLOWANCE, SHEET_ROOM, TABLE_ROOM, TEXT_ROOM,
    VARIABLES,
};

/// A job's number: jobs are numbered from 0 by task, then by arrival.
#[derive(Debug, Clone, Copy, PartialEq, Eq, PartialOrd, Ord, Hash)]
pub struct JobNumber(pub usize);

/// What the reader finds in an accepted file.
#[derive(Debug, Clone, PartialEq, Eq)]
pub struct Timing {
    /// Of each task, by its number. A latest finish is a sum with one, so it has 64 bits.
    pub response_times: Vec<u64>,
    /// How many jobs arrive in the window.
    pub jobs: usize,
}

/// What a complete order or a legal plan ends with.
#[derive(Debug, Clone, PartialEq, Eq)]
pub struct Ending {
    pub end_store: [u8; VARIABLES],
    /// The jobs with a failed assertion, ascending.
    pub failed_jobs: Vec<JobNumber>,
}

/// What a walk comes to, with the count of its moves.
#[derive(Debug, Clone, PartialEq, Eq)]
pub enum Verdict {
    /// No order fails.
    Holds { count: u64 },
    /// This is the first order that fails, and its ending.
    Fails { count: u64, order: Vec<u8>, ending: Ending },
}

/// A complete order's plan, and the ending of both.
#[derive(Debug, Clone, PartialEq, Eq)]
pub struct Planned {
    pub plan: Vec<u8>,
    pub ending: Ending,
}

/// A legal plan's order, and the ending of both.
#[derive(Debug, Clone, PartialEq, Eq)]
pub struct Ordered {
    pub order: Vec<u8>,
    pub ending: Ending,
}

/// Reads a task file: the response times and the number of jobs, or a refusal by 1 to 11.
pub fn read(file: &[u8]) -> Result<Timing, Refusal> {
    let answer = raw::read(file);
    accept(answer.number, answer.place)?;
    // A response time is positive, so the first zero stands past the last task.
    let response_times = answer.responses.into_iter().take_while(|time| *time > 0).collect();
    Ok(Timing { response_times, jobs: answer.jobs as usize })
}

/// Replays an order: its ending, or a refusal by 1 to 11 or 30 to 34.
pub fn replay(file: &[u8], order: &[u8]) -> Result<Ending, Refusal> {
    let answer = raw::replay(file, order);
    accept(answer.number, answer.place)?;
    Ok(ending(answer.end_store, answer.failed_jobs))
}

/// Walks all orders with at most so many moves: a verdict, or a refusal by 1 to 11 or 21.
pub fn walk(file: &[u8], allowance: u64) -> Result<Verdict, Refusal> {
    let mut order = [0; ORDER_ROOM];
    let answer = raw::walk(file, allowance, &mut order);
    accept(answer.number, answer.place)?;
    let count = answer.count;
    Ok(match answer.verdict {
        raw::Verdict::None => unreachable!("a walk that is not refused has a verdict"),
        raw::Verdict::Holds => Verdict::Holds { count },
        raw::Verdict::Fails => Verdict::Fails {
            count,
            order: order[..answer.length as usize].to_vec(),
            ending: ending(answer.end_store, answer.failed_jobs),
        },
    })
}

/// Checks a round plan: its ending, or a refusal by 1 to 11 or 40 to 45.
pub fn check_plan(file: &[u8], plan: &[u8]) -> Result<Ending, Refusal> {
    let answer = raw::check_plan(file, plan);
    accept(answer.number, answer.place)?;
    Ok(ending(answer.end_store, answer.failed_jobs))
}

/// Converts an order to its plan: the plan, or a refusal by 1 to 11 or 30 to 34.
pub fn order_to_plan(file: &[u8], order: &[u8]) -> Result<Planned, Refusal> {
    let mut plan = [0; PLAN_ROOM];
    let answer = raw::order_to_plan(file, order, &mut plan);
    accept(answer.number, answer.place)?;
    let plan = plan[..answer.length as usize].to_vec();
    Ok(Planned { plan, ending: ending(answer.end_store, answer.failed_jobs) })
}

/// Converts a round plan to its order: the order, or a refusal by 1 to 11 or 40 to 45.
pub fn plan_to_order(file: &[u8], plan: &[u8]) -> Result<Ordered, Refusal> {
    let mut order = [0; ORDER_ROOM];
    let answer = raw::plan_to_order(file, plan, &mut order);
    accept(answer.number, answer.place)?;
    let order = order[..answer.length as usize].to_vec();
    Ok(Ordered { order, ending: ending(answer.end_store, answer.failed_jobs) })
}

/// The sheet of a file, each line ended by a newline. A file that is refused has one too: a line
/// with number and place.
pub fn sheet(file: &[u8]) -> String {
    let mut text = vec![0; SHEET_ROOM];
    let answer = raw::sheet(file, &mut text);
    assert_eq!(answer.number, 0, "the text has room for any sheet");
    text.truncate(answer.length as usize);
    String::from_utf8(text).expect("a sheet is ASCII")
}

/// The jobs of a file, by task and then by arrival: job j at index j, or a refusal by 1 to 11.
pub fn jobs(file: &[u8]) -> Result<Vec<Job>, Refusal> {
    let mut jobs = vec![Job::default(); JOB_LIST_ROOM];
    let answer = raw::jobs(file, &mut jobs);
    accept(answer.number, answer.place)?;
    jobs.truncate(answer.jobs as usize);
    Ok(jobs)
}

/// The table of a file, or a refusal by 1 to 11.
pub fn table(file: &[u8]) -> Result<Table, Refusal> {
    let mut bytes = [0; TABLE_ROOM];
    let answer = raw::table(file, &mut bytes);
    accept(answer.number, answer.place)?;
    Ok(Table::from_bytes(&bytes))
}

/// The file of a table, with its records in walk order, or a refusal by 4, 5 or 7 to 11. Its place
/// is the index that the record would have had; [`Refusal::in_table`] says which part that is.
pub fn write(table: &Table) -> Result<Vec<u8>, Refusal> {
    let mut file = vec![0; FILE_ROOM];
    let answer = raw::write(&table.to_bytes(), &mut file);
    accept(answer.number, answer.place)?;
    file.truncate(answer.length as usize);
    Ok(file)
}

/// The file of a text, with its records in walk order, or a refusal by 4, 5, 7 to 11 or 60 to 62.
/// Its place is a line of the text; [`Refusal::in_text`] shows it.
pub fn text_to_file(text: &[u8]) -> Result<Vec<u8>, Refusal> {
    let mut file = vec![0; FILE_ROOM];
    let answer = raw::text_to_file(text, &mut file);
    accept(answer.number, answer.place)?;
    file.truncate(answer.length as usize);
    Ok(file)
}

/// The text of a file, each line ended by a newline, or a refusal by 1 to 11.
pub fn file_to_text(file: &[u8]) -> Result<String, Refusal> {
    let mut text = vec![0; TEXT_ROOM];
    let answer = raw::file_to_text(file, &mut text);
    accept(answer.number, answer.place)?;
    text.truncate(answer.length as usize);
    Ok(String::from_utf8(text).expect("a table's text is ASCII"))
}

/// The refusal of an answer, if it is one.
fn accept(number: u64, place: u64) -> Result<(), Refusal> {
    match number {
        0 => Ok(()),
        _ => Err(Refusal { number, place }),
    }
}

/// An ending from its words.
fn ending(store: [u64; VARIABLES], failed: [u64; MOST_JOBS]) -> Ending {
    let byte = |word| u8::try_from(word).expect("a variable is a byte");
    let failed_jobs = (0..MOST_JOBS).filter(|job| failed[*job] != 0).map(JobNumber).collect();
    Ending { end_store: store.map(byte), failed_jobs }
}
