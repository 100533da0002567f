//! The answers of the proved entries, the words that each is made of, and the sizes of both.

/// Limits of a table.
pub const MOST_TASKS: usize = 8;
pub const MOST_LOCKS: usize = 8;
pub const MOST_INSTRUCTIONS: usize = 16;
pub const MOST_JOBS: usize = 32;
pub const VARIABLES: usize = 8;

/// A step's byte in an order is so many times its task, and a value below that.
pub const BYTES_OF_TASK: u8 = 16;

/// The room that number 20 asks for: bytes of an order, bytes of a plan, records of a job list,
/// bytes of a sheet's text, bytes of a table in memory, bytes of a file that is written, bytes of a
/// table's text. A text that is read has at most as many bytes as one that is written has room for.
pub const ORDER_ROOM: usize = 512;
pub const PLAN_ROOM: usize = 1281;
pub const JOB_LIST_ROOM: usize = 32;
pub const SHEET_ROOM: usize = 4608;
pub const TABLE_ROOM: usize = 696;
pub const FILE_ROOM: usize = 2320;
pub const TEXT_ROOM: usize = 8192;

/// The allowance of a sheet's walk.
pub const SHEET_ALLOWANCE: u64 = 1_000_000;

/// How many words the reader's entry fills.
pub const READ_WORDS: usize = 11;

/// What the reader's entry answers, each field as wide as its word so that none is cut.
#[derive(Debug, Clone, Copy, PartialEq, Eq, Default)]
pub struct ReadAnswer {
    pub number: u64,
    pub place: u64,
    /// Of tasks 0 to 7; 0 past the last task.
    pub responses: [u64; MOST_TASKS],
    pub jobs: u64,
}

/// How many words the replay's entry fills.
pub const REPLAY_WORDS: usize = 43;

/// How many words the plan check's entry fills, and each conversion's: as many as the replay's.
pub const CHECK_PLAN_WORDS: usize = REPLAY_WORDS;
pub const CONVERSION_WORDS: usize = REPLAY_WORDS;

/// What these entries answer, each field as wide as its word so that none is cut.
#[derive(Debug, Clone, Copy, PartialEq, Eq, Default)]
pub struct RunAnswer {
    pub number: u64,
    pub place: u64,
    pub end_store: [u64; VARIABLES],
    /// Of jobs 0 to 31: 1 if the job failed, else 0.
    pub failed_jobs: [u64; MOST_JOBS],
    /// How many bytes were written to a lent buffer.
    pub length: u64,
}

/// How many words the walk's entry fills.
pub const WALK_WORDS: usize = 45;

/// A walk's verdict; `None` is the zero of a refusal.
#[derive(Debug, Clone, Copy, PartialEq, Eq, Default)]
pub enum Verdict {
    #[default]
    None,
    Holds,
    Fails,
}

/// What the walk's entry answers, each number as wide as its word so that none is cut.
#[derive(Debug, Clone, Copy, PartialEq, Eq, Default)]
pub struct WalkAnswer {
    pub number: u64,
    pub place: u64,
    pub verdict: Verdict,
    /// The moves made.
    pub count: u64,
    /// Of the failing order, in bytes; 0 if none fails.
    pub length: u64,
    pub end_store: [u64; VARIABLES],
    /// Of jobs 0 to 31: 1 if the job failed, else 0.
    pub failed_jobs: [u64; MOST_JOBS],
}

/// How many words the sheet's entry fills.
pub const SHEET_WORDS: usize = 3;

/// What the sheet's entry answers.
#[derive(Debug, Clone, Copy, PartialEq, Eq, Default)]
pub struct SheetAnswer {
    pub number: u64,
    pub place: u64,
    /// Of the sheet, in bytes.
    pub length: u64,
}

impl From<[u64; SHEET_WORDS]> for SheetAnswer {
    fn from([number, place, length]: [u64; SHEET_WORDS]) -> SheetAnswer {
        SheetAnswer { number, place, length }
    }
}

impl From<SheetAnswer> for [u64; SHEET_WORDS] {
    fn from(answer: SheetAnswer) -> [u64; SHEET_WORDS] {
        [answer.number, answer.place, answer.length]
    }
}

/// How many words the job list's entry fills.
pub const JOBS_WORDS: usize = 3;

/// What the job list's entry answers.
#[derive(Debug, Clone, Copy, PartialEq, Eq, Default)]
pub struct JobsAnswer {
    pub number: u64,
    pub place: u64,
    /// How many records were written.
    pub jobs: u64,
}

/// A job's record, laid out as C lays it out.
#[repr(C)]
#[derive(Debug, Clone, Copy, PartialEq, Eq, Default)]
pub struct Job {
    pub task: u8,
    pub arrival: u64,
    /// The latest finish.
    pub latest: u64,
}

impl From<[u64; JOBS_WORDS]> for JobsAnswer {
    fn from([number, place, jobs]: [u64; JOBS_WORDS]) -> JobsAnswer {
        JobsAnswer { number, place, jobs }
    }
}

impl From<JobsAnswer> for [u64; JOBS_WORDS] {
    fn from(answer: JobsAnswer) -> [u64; JOBS_WORDS] {
        [answer.number, answer.place, answer.jobs]
    }
}

/// How many words the entries fill that read a table into memory and write one to a file, and those
/// that convert a text to a file and a file to a text.
pub const TABLE_WORDS: usize = 3;
pub const WRITE_WORDS: usize = TABLE_WORDS;
pub const TEXT_WORDS: usize = TABLE_WORDS;

/// What these entries answer.
#[derive(Debug, Clone, Copy, PartialEq, Eq, Default)]
pub struct WriteAnswer {
    pub number: u64,
    pub place: u64,
    /// How many bytes were written.
    pub length: u64,
}

impl From<[u64; WRITE_WORDS]> for WriteAnswer {
    fn from([number, place, length]: [u64; WRITE_WORDS]) -> WriteAnswer {
        WriteAnswer { number, place, length }
    }
}

impl From<WriteAnswer> for [u64; WRITE_WORDS] {
    fn from(answer: WriteAnswer) -> [u64; WRITE_WORDS] {
        [answer.number, answer.place, answer.length]
    }
}

impl From<u64> for Verdict {
    fn from(word: u64) -> Verdict {
        match word {
            0 => Verdict::None,
            1 => Verdict::Holds,
            2 => Verdict::Fails,
            _ => panic!("no verdict has the number {word}"),
        }
    }
}

impl From<Verdict> for u64 {
    fn from(verdict: Verdict) -> u64 {
        match verdict {
            Verdict::None => 0,
            Verdict::Holds => 1,
            Verdict::Fails => 2,
        }
    }
}

impl From<[u64; WALK_WORDS]> for WalkAnswer {
    fn from(words: [u64; WALK_WORDS]) -> WalkAnswer {
        let [run @ .., verdict, count] = words;
        let RunAnswer { number, place, end_store, failed_jobs, length } = RunAnswer::from(run);
        let verdict = Verdict::from(verdict);
        WalkAnswer { number, place, verdict, count, length, end_store, failed_jobs }
    }
}

impl From<WalkAnswer> for [u64; WALK_WORDS] {
    fn from(answer: WalkAnswer) -> [u64; WALK_WORDS] {
        let WalkAnswer { number, place, verdict, count, length, end_store, failed_jobs } = answer;
        let run = RunAnswer { number, place, end_store, failed_jobs, length };
        let mut words = [0; WALK_WORDS];
        words[..REPLAY_WORDS].copy_from_slice(&<[u64; REPLAY_WORDS]>::from(run));
        words[REPLAY_WORDS..].copy_from_slice(&[verdict.into(), count]);
        words
    }
}

impl From<[u64; REPLAY_WORDS]> for RunAnswer {
    fn from(words: [u64; REPLAY_WORDS]) -> RunAnswer {
        let [number, place, rest @ .., length] = words;
        RunAnswer {
            number,
            place,
            end_store: std::array::from_fn(|variable| rest[variable]),
            failed_jobs: std::array::from_fn(|job| rest[8 + job]),
            length,
        }
    }
}

impl From<RunAnswer> for [u64; REPLAY_WORDS] {
    fn from(answer: RunAnswer) -> [u64; REPLAY_WORDS] {
        let RunAnswer { number, place, end_store, failed_jobs, length } = answer;
        let mut words = [0; REPLAY_WORDS];
        words[..2].copy_from_slice(&[number, place]);
        words[2..10].copy_from_slice(&end_store);
        words[10..42].copy_from_slice(&failed_jobs);
        words[42] = length;
        words
    }
}

impl From<[u64; READ_WORDS]> for ReadAnswer {
    fn from(words: [u64; READ_WORDS]) -> ReadAnswer {
        let [number, place, responses @ .., jobs] = words;
        ReadAnswer { number, place, responses, jobs }
    }
}

impl From<ReadAnswer> for [u64; READ_WORDS] {
    fn from(answer: ReadAnswer) -> [u64; READ_WORDS] {
        let ReadAnswer { number, place, responses, jobs } = answer;
        let [r0, r1, r2, r3, r4, r5, r6, r7] = responses;
        [number, place, r0, r1, r2, r3, r4, r5, r6, r7, jobs]
    }
}
