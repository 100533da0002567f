//! How long the proved entries and the interpreter take on an input.

use adqurim::raw::{self, Job, JobsAnswer, ReadAnswer, RunAnswer, SheetAnswer, WriteAnswer};
use adqurim::{FILE_ROOM, JOB_LIST_ROOM, ORDER_ROOM, PLAN_ROOM, SHEET_ROOM, TABLE_ROOM, TEXT_ROOM};
use conformance::proved::{
    expected_check_plan, expected_file_to_text, expected_jobs, expected_order_to_plan,
    expected_plan_to_order, expected_read, expected_replay, expected_sheet, expected_table,
    expected_text_to_file, expected_write,
};
use std::hint::black_box;
use std::io::{Read, Result, Write};
use std::process::{Child, Command, Stdio};
use std::time::{Duration, Instant};

/// A first run that takes longer than this is stopped.
pub const LIMIT: Duration = Duration::from_secs(20);
/// A first run that takes longer than this is the only one.
const ONLY_ONE: Duration = Duration::from_secs(2);
/// The two sides take turns, so that both meet the same load of the machine.
pub const TURNS: u32 = 5;
/// How long a turn takes, unless one run is longer.
const TURN: Duration = Duration::from_millis(60);
/// A turn has at least one sample and at most so many.
pub const MOST_SAMPLES: u128 = 401;
/// Runs shorter than this are timed several at once, so that the clock's own time is small.
const SHORT: Duration = Duration::from_micros(20);
pub const AT_ONCE: u32 = 16;

/// The entries that are timed beside the interpreter.
#[derive(Debug, Clone, Copy, PartialEq, Eq)]
pub enum Entry {
    Read,
    Replay,
    CheckPlan,
    OrderToPlan,
    PlanToOrder,
    Jobs,
    Sheet,
    Table,
    Write,
    TextToFile,
    FileToText,
}

/// In the order of their numbers, by which a child is told the entry.
const ENTRIES: [Entry; 11] = [
    Entry::Read,
    Entry::Replay,
    Entry::CheckPlan,
    Entry::OrderToPlan,
    Entry::PlanToOrder,
    Entry::Jobs,
    Entry::Sheet,
    Entry::Table,
    Entry::Write,
    Entry::TextToFile,
    Entry::FileToText,
];

/// What an entry is called on.
#[derive(Debug, Clone)]
pub struct Input {
    pub entry: Entry,
    /// None for the writer; the text where that is converted.
    pub file: Vec<u8>,
    /// The order, the plan or the table in memory; none for an entry that takes a file alone.
    pub bytes: Vec<u8>,
}

/// What an entry answers. A box would add its allocation to the time.
#[derive(Debug, PartialEq, Eq)]
#[allow(clippy::large_enum_variant)]
enum Answer {
    Read(ReadAnswer),
    Run(RunAnswer),
    Jobs(JobsAnswer),
    Sheet(SheetAnswer),
    Write(WriteAnswer),
}

/// Calls a conversion with a buffer of its own, which counts as used.
fn with_buffer<const ROOM: usize>(
    conversion: fn(&[u8], &[u8], &mut [u8]) -> RunAnswer,
    file: &[u8],
    bytes: &[u8],
) -> Answer {
    let mut buffer = [0; ROOM];
    let answer = conversion(file, bytes, &mut buffer);
    black_box(&buffer);
    Answer::Run(answer)
}

/// Calls the job list with a list of its own, which counts as used.
fn with_list(list_jobs: fn(&[u8], &mut [Job]) -> JobsAnswer, file: &[u8]) -> Answer {
    let mut list = [Job::default(); JOB_LIST_ROOM];
    let answer = list_jobs(file, &mut list);
    black_box(&list);
    Answer::Jobs(answer)
}

/// Calls the sheet with a text of its own, which counts as used.
fn with_text(print: fn(&[u8], &mut [u8]) -> SheetAnswer, file: &[u8]) -> Answer {
    let mut text = [0; SHEET_ROOM];
    let answer = print(file, &mut text);
    black_box(&text);
    Answer::Sheet(answer)
}

/// Fills a table in memory, a file or a text of its own, which counts as used.
fn with_room<const ROOM: usize>(fill: fn(&[u8], &mut [u8]) -> WriteAnswer, bytes: &[u8]) -> Answer {
    let mut buffer = [0; ROOM];
    let answer = fill(bytes, &mut buffer);
    black_box(&buffer);
    Answer::Write(answer)
}

/// Writes a table in memory to a buffer of its own, which counts as used.
fn with_file(write: fn(&[u8; TABLE_ROOM], &mut [u8]) -> WriteAnswer, memory: &[u8]) -> Answer {
    let mut file = [0; FILE_ROOM];
    let answer = write(memory.first_chunk().expect("a table in memory is whole"), &mut file);
    black_box(&file);
    Answer::Write(answer)
}

impl Input {
    /// A reader's input.
    pub fn read(file: Vec<u8>) -> Input {
        Input::of(Entry::Read, file)
    }

    /// The input of an entry that takes a file alone, or a text.
    pub fn of(entry: Entry, file: Vec<u8>) -> Input {
        Input { entry, file, bytes: Vec::new() }
    }

    /// What the interpreter answers.
    fn expected(&self) -> Answer {
        let (file, bytes) = (black_box(&self.file), black_box(&self.bytes));
        match self.entry {
            Entry::Read => Answer::Read(expected_read(file)),
            Entry::Replay => Answer::Run(expected_replay(file, bytes)),
            Entry::CheckPlan => Answer::Run(expected_check_plan(file, bytes)),
            Entry::OrderToPlan => with_buffer::<PLAN_ROOM>(expected_order_to_plan, file, bytes),
            Entry::PlanToOrder => with_buffer::<ORDER_ROOM>(expected_plan_to_order, file, bytes),
            Entry::Jobs => with_list(expected_jobs, file),
            Entry::Sheet => with_text(expected_sheet, file),
            Entry::Table => with_room::<TABLE_ROOM>(expected_table, file),
            Entry::Write => with_file(expected_write, bytes),
            Entry::TextToFile => with_room::<FILE_ROOM>(expected_text_to_file, file),
            Entry::FileToText => with_room::<TEXT_ROOM>(expected_file_to_text, file),
        }
    }

    /// What the proved entry answers.
    fn proved(&self) -> Answer {
        let (file, bytes) = (black_box(&self.file), black_box(&self.bytes));
        match self.entry {
            Entry::Read => Answer::Read(raw::read(file)),
            Entry::Replay => Answer::Run(raw::replay(file, bytes)),
            Entry::CheckPlan => Answer::Run(raw::check_plan(file, bytes)),
            Entry::OrderToPlan => with_buffer::<PLAN_ROOM>(raw::order_to_plan, file, bytes),
            Entry::PlanToOrder => with_buffer::<ORDER_ROOM>(raw::plan_to_order, file, bytes),
            Entry::Jobs => with_list(raw::jobs, file),
            Entry::Sheet => with_text(raw::sheet, file),
            Entry::Table => with_room::<TABLE_ROOM>(raw::table, file),
            Entry::Write => with_file(raw::write, bytes),
            Entry::TextToFile => with_room::<FILE_ROOM>(raw::text_to_file, file),
            Entry::FileToText => with_room::<TEXT_ROOM>(raw::file_to_text, file),
        }
    }

    /// The number that the input earns: 0 if it is accepted.
    pub fn number(&self) -> u64 {
        match self.expected() {
            Answer::Read(answer) => answer.number,
            Answer::Run(answer) => answer.number,
            Answer::Jobs(answer) => answer.number,
            Answer::Sheet(answer) => answer.number,
            Answer::Write(answer) => answer.number,
        }
    }

    /// The bytes for a child: the entry, the file's length, then the file and the other bytes.
    fn to_bytes(&self) -> Vec<u8> {
        let length = self.file.len() as u64;
        [&[self.entry as u8], &length.to_le_bytes()[..], &self.file, &self.bytes].concat()
    }

    /// The input of these bytes.
    fn from_bytes(bytes: &[u8]) -> Input {
        let (entry, bytes) = bytes.split_first().expect("the parent writes an entry");
        let (length, bytes) = bytes.split_first_chunk().expect("the parent writes a length");
        let (file, bytes) = bytes.split_at(u64::from_le_bytes(*length) as usize);
        let entry = ENTRIES[usize::from(*entry)];
        Input { entry, file: file.to_vec(), bytes: bytes.to_vec() }
    }
}

/// Which side is timed.
#[derive(Debug, Clone, Copy, PartialEq, Eq)]
pub enum Side {
    Proved,
    Interpreter,
}

const SIDES: [Side; 2] = [Side::Proved, Side::Interpreter];

/// How long it took.
#[derive(Debug, Clone, Copy, PartialEq)]
pub enum Time {
    /// Nanoseconds, the median of many runs.
    Median(f64),
    /// Nanoseconds of the only run.
    Once(f64),
    /// Stopped at the limit.
    Over,
}

impl Time {
    /// Nanoseconds; the limit if the run was stopped there.
    pub fn nanoseconds(self) -> f64 {
        match self {
            Time::Median(time) | Time::Once(time) => time,
            Time::Over => LIMIT.as_nanos() as f64,
        }
    }
}

impl Side {
    /// The argument that names a side to the child.
    fn argument(self) -> &'static str {
        match self {
            Side::Proved => "proved",
            Side::Interpreter => "interpreter",
        }
    }

    /// The side with this argument.
    pub fn named(argument: &str) -> Option<Side> {
        SIDES.into_iter().find(|side| side.argument() == argument)
    }

    /// Calls the entry on its input.
    fn run(self, input: &Input) -> Answer {
        match self {
            Side::Proved => input.proved(),
            Side::Interpreter => input.expected(),
        }
    }

    /// The time of the first run, in a child that is stopped at the limit.
    fn first_run(self, input: &Input) -> Result<Option<Duration>> {
        let mut child = Command::new(std::env::current_exe()?)
            .arg(self.argument())
            .stdin(Stdio::piped())
            .stdout(Stdio::piped())
            .spawn()?;
        child.stdin.take().expect("the input is piped").write_all(&input.to_bytes())?;
        if !ends_in_time(&mut child)? {
            child.kill()?;
            child.wait()?;
            return Ok(None);
        }
        let mut text = String::new();
        child.stdout.take().expect("the output is piped").read_to_string(&mut text)?;
        let nanoseconds = text.trim().parse().expect("the child prints nanoseconds");
        Ok(Some(Duration::from_nanos(nanoseconds)))
    }

    /// What the child does: one run on the input from its parent. Both sides must agree on it.
    pub fn answer_parent(self) -> Result<()> {
        let mut bytes = Vec::new();
        std::io::stdin().read_to_end(&mut bytes)?;
        let input = Input::from_bytes(&bytes);
        let begin = Instant::now();
        let answer = self.run(&input);
        let taken = begin.elapsed();
        assert_eq!(answer, input.expected());
        println!("{}", taken.as_nanos());
        Ok(())
    }

    /// The least of some runs, which finds the slowest of several inputs: another program may make
    /// any one run long. The limit if the first was stopped.
    pub fn least(self, input: &Input) -> Result<Duration> {
        let first = self.first_run(input)?.unwrap_or(LIMIT);
        let more = if first > ONLY_ONE { 0 } else { 7 };
        let again = |_| {
            let begin = Instant::now();
            black_box(self.run(input));
            begin.elapsed()
        };
        Ok((0..more).map(again).fold(first, Duration::min))
    }

    /// Nanoseconds of one run, as often as a turn has time for.
    fn samples(self, input: &Input, first: Duration) -> Vec<f64> {
        let at_once = if first < SHORT { AT_ONCE } else { 1 };
        let one = (first * at_once).as_nanos().max(1);
        let sample = |_| {
            let begin = Instant::now();
            for _ in 0..at_once {
                black_box(self.run(input));
            }
            begin.elapsed().as_nanos() as f64 / f64::from(at_once)
        };
        (0..(TURN.as_nanos() / one).clamp(1, MOST_SAMPLES)).map(sample).collect()
    }
}

/// The times of both sides, the proved one first: a first run of each in a child, then samples in
/// turn of those that were not long.
pub fn time_both(input: &Input) -> [Time; 2] {
    let firsts = SIDES.map(|side| side.first_run(input).expect("a child runs"));
    let mut samples = [Vec::new(), Vec::new()];
    for _ in 0..TURNS {
        for (at, side) in SIDES.into_iter().enumerate() {
            if let Some(first) = firsts[at].filter(|first| *first <= ONLY_ONE) {
                samples[at].extend(side.samples(input, first));
            }
        }
    }
    let [proved, interpreter] = samples;
    [settle(firsts[0], proved), settle(firsts[1], interpreter)]
}

/// The median of the samples, or the first run if there are none.
fn settle(first: Option<Duration>, mut samples: Vec<f64>) -> Time {
    samples.sort_unstable_by(f64::total_cmp);
    match (samples.get(samples.len() / 2), first) {
        (Some(median), _) => Time::Median(*median),
        (None, Some(first)) => Time::Once(first.as_nanos() as f64),
        (None, None) => Time::Over,
    }
}

/// Waits for a child up to the limit.
fn ends_in_time(child: &mut Child) -> Result<bool> {
    let begin = Instant::now();
    while begin.elapsed() < LIMIT {
        if let Some(status) = child.try_wait()? {
            assert!(status.success(), "the two sides disagree on an input");
            return Ok(true);
        }
        std::thread::sleep(Duration::from_millis(1));
    }
    Ok(false)
}
