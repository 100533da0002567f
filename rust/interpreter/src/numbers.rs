//! The numbers that document 01 keeps apart, and the refusal.

/// "A task number, a job number and a round number count separate things, and all start at 0."
/// A task's number is also its base priority.
#[derive(Debug, Clone, Copy, PartialEq, Eq, PartialOrd, Ord, Default)]
pub struct TaskNumber(pub u8);

/// A job number: "Jobs are numbered by task, then by arrival."
#[derive(Debug, Clone, Copy, PartialEq, Eq, PartialOrd, Ord, Default)]
pub struct JobNumber(pub usize);

/// A round number: "With k jobs there are k rounds".
#[derive(Debug, Clone, Copy, PartialEq, Eq, PartialOrd, Ord, Default)]
pub struct RoundNumber(pub usize);

/// "A refusal returns its number and place".
#[derive(Debug, Clone, Copy, PartialEq, Eq, Default)]
pub struct Refusal {
    pub number: u8,
    pub place: usize,
}

/// A refusal in the form most functions return it.
pub fn refuse<T>(number: u8, place: usize) -> Result<T, Refusal> {
    Err(Refusal { number, place })
}
