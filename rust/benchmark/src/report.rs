//! The benchmark's tables as text.

use crate::files::Kind;
use crate::measure::{Time, AT_ONCE, LIMIT, MOST_SAMPLES, TURNS};
use crate::stack::PAGE_KIB;
use crate::walks::{WalkTiming, WALK_TURNS};
use std::process::Command;

/// A row's times.
pub struct Timing {
    pub name: String,
    pub kind: Kind,
    /// What the input earns: 0 if it is accepted.
    pub number: u64,
    pub proved: Time,
    pub interpreter: Time,
}

/// A whole number in groups of three digits.
fn grouped(number: f64) -> String {
    let digits = format!("{number:.0}");
    let mut text = String::new();
    for (at, digit) in digits.chars().enumerate() {
        if at > 0 && (digits.len() - at) % 3 == 0 {
            text.push(',');
        }
        text.push(digit);
    }
    text
}

/// A time as the table shows it.
fn shown(time: Time) -> String {
    match time {
        Time::Median(time) => grouped(time),
        Time::Once(time) => format!("{} (one run)", grouped(time)),
        Time::Over => format!("over {} s", LIMIT.as_secs()),
    }
}

/// One time by another. A time that was stopped makes it a bound, two make it unknown.
fn ratio(time: Time, by: Time) -> String {
    let ratio = time.nanoseconds() / by.nanoseconds();
    let number = if ratio < 100.0 { format!("{ratio:.2}") } else { grouped(ratio) };
    match (time, by) {
        (Time::Over, Time::Over) => "unknown".into(),
        (Time::Over, _) => format!("over {number}"),
        (_, Time::Over) => format!("under {number}"),
        _ => number,
    }
}

/// The heading of what was measured beside the tables, written by hand and kept from run to run.
const HISTORY: &str = "\n## Measured beside these tables\n";

/// What a page holds from that heading on.
pub fn history(page: &str) -> String {
    page.find(HISTORY).map_or_else(String::new, |at| page[at..].into())
}

/// The reader's table, and below it the slowest hostile files against the first row.
pub fn read_table(timings: &[Timing]) -> String {
    let family = slowest(timings, Kind::Family, "file of the family");
    let other = slowest(timings, Kind::Other, "of the other hostile files here");
    format!("{}\n{family}\n{other}\n", table("file", timings))
}

/// The replay's table.
pub fn replay_table(timings: &[Timing]) -> String {
    table("file and order", timings)
}

/// The plan check's table.
pub fn plan_table(timings: &[Timing]) -> String {
    table("file and plan", timings)
}

/// The conversions' table.
pub fn conversion_table(timings: &[Timing]) -> String {
    table("file and what is converted", timings)
}

/// The table of the job list and the sheet.
pub fn file_table(timings: &[Timing]) -> String {
    table("entry and file", timings)
}

/// The table of the table in memory.
pub fn memory_table(timings: &[Timing]) -> String {
    table("entry and table", timings)
}

/// The table of a table's text.
pub fn text_table(timings: &[Timing]) -> String {
    table("what is converted", timings)
}

/// The walk's table, and below it the median of its ratios.
pub fn walk_table(timings: &[WalkTiming]) -> String {
    let mut text = String::new();
    text.push_str("| table | moves | proved walk, moves/s | walker, moves/s | ratio |\n");
    text.push_str("|---|---:|---:|---:|---:|\n");
    let mut ratios = Vec::new();
    for WalkTiming { name, moves, proved, walker } in timings {
        let (proved, walker) = (proved.as_secs_f64(), walker.as_secs_f64());
        let speeds = [proved, walker].map(|time| grouped(*moves as f64 / time));
        let (ratio, moves) = (proved / walker, grouped(*moves as f64));
        let [proved, walker] = speeds;
        text.push_str(&format!("| {name} | {moves} | {proved} | {walker} | {ratio:.2} |\n"));
        ratios.push(ratio);
    }
    ratios.sort_unstable_by(f64::total_cmp);
    let (low, high) = (ratios[0], ratios[ratios.len() - 1]);
    let median = (ratios[(ratios.len() - 1) / 2] + ratios[ratios.len() / 2]) / 2.0;
    let spread = format!("from {low:.2} to {high:.2}, median {median:.2}");
    format!("{text}\nThe ratio is {spread} over the {} tables.\n", ratios.len())
}

/// The sentence on the stack that the proved walk needs.
pub fn stack(kib: usize) -> String {
    let less = kib - PAGE_KIB;
    format!(
        "On a table of one task with 32 jobs of 15 Picks and an End, whose orders have 512 steps, of 480 of
which the walk has to come back for another, the proved walk runs in a thread with {kib} KiB of stack
and overflows one with {less} KiB. That was found by halving, each size in a child process; the
thread's own start and the call through the binding are part of it.
"
    )
}

/// A table whose inputs have this name.
fn table(input: &str, timings: &[Timing]) -> String {
    let mut text = format!("| {input} | number | proved entry, ns | interpreter, ns | ratio |\n");
    text.push_str("|---|---:|---:|---:|---:|\n");
    for Timing { name, number, proved, interpreter, .. } in timings {
        let (time, other) = (shown(*proved), shown(*interpreter));
        let ratio = ratio(*proved, *interpreter);
        text.push_str(&format!("| {name} | {number} | {time} | {other} | {ratio} |\n"));
    }
    text
}

/// The sentence on the slowest file of a kind. Of several that were stopped none is known to be it.
fn slowest(timings: &[Timing], kind: Kind, files: &str) -> String {
    let hostile = || timings.iter().filter(|timing| timing.kind == kind);
    let by_time = |one: &&Timing, other: &&Timing| {
        one.proved.nanoseconds().total_cmp(&other.proved.nanoseconds())
    };
    let most = hostile().max_by(by_time).expect("some file is of this kind");
    let stopped = hostile().filter(|timing| timing.proved == Time::Over).count();
    let which = match stopped {
        0 => format!("The slowest {files} ({})", most.name),
        _ => format!("The slowest {files}, one of {stopped} that were stopped,"),
    };
    let ratio = ratio(most.proved, timings[0].proved);
    format!("{which}\ntakes the proved entry {ratio} times as long as {}.", timings[0].name)
}

/// The tables as text, in the order of the page.
pub struct Tables {
    pub reads: String,
    pub replays: String,
    pub plans: String,
    pub conversions: String,
    pub files: String,
    pub memories: String,
    pub texts: String,
    pub walks: String,
    pub stack: String,
}

/// The whole page; `load` is the load average before the first run.
pub fn page(tables: &Tables, load: &str) -> String {
    format!("{}{}{}{}", head(load), runs_part(tables), files_part(tables), walk_part(tables))
}

/// How the times were measured.
fn head(load: &str) -> String {
    let cores = std::thread::available_parallelism().map_or(0, usize::from);
    let (model, date, architecture) = (model(), date(), std::env::consts::ARCH);
    let limit = LIMIT.as_secs();
    let most = u128::from(TURNS) * MOST_SAMPLES;
    format!(
        "# Benchmarks

The time of a proved entry, called through its C interface, and of the interpreter on the same
input. The number is what the input earns, 0 if it is accepted. The ratio is the proved entry's time
by the interpreter's.

- Machine: {cores} cores, {architecture}, {model}
- Load: {load} on average in the minute before. Beside other programs, times differ by a factor of
  two or more from one run of the benchmark to the next.
- Date: {date}
- Command: `cargo run --release --offline -p benchmark` in `rust/`
- Measured: the median of {TURNS} to {most} samples, fewer for slower inputs, both sides in turn,
  buffers warm, built for release (the workspace's release build keeps the interpreter's overflow
  checks). A sample is one call, or the mean of {AT_ONCE} short ones. A first run in a child process
  comes before; if it takes over 2 s it is the only run, and at {limit} s it is stopped.

"
    )
}

/// The entries beside the interpreter: the reader, and those that take an order or a plan.
fn runs_part(tables: &Tables) -> String {
    let Tables { reads, replays, plans, conversions, .. } = tables;
    format!(
        "## Reading a file

The family of hostile files is every choice of up to seven tasks with C 1 and a period of 1, 2, 3, 7,
43 or 1807 above a task with C 1 and P 4,294,967,295. The other hostile files are chosen by hand or
at random; none is known to be the slowest that there is. C/P 11/86, 10/79, 10/78, 6/71, 28/70, 8/68,
1/66 above that task is the slowest of 525 million tables made for it. That it is refused is known at
once, by a task above that misses its period. Only its place takes long: document 01 names the lowest
task that is late, so it has to be found whether the lowest one is.

The lowest task stands first in a list of C/P; H is how long it holds a lock, whose ceiling says which
tasks wait for it, and without that wait such a file is accepted. Of several tables the one that is
slowest by the proved entry is shown; the interpreter may be slower on another.

{reads}
## Replaying an order

The file is read first, by either side. The order of 512 steps is a complete one by random moves.

{replays}
## Checking a plan

The plans are those of the same orders. The file is read first, by either side.

{plans}
## Converting

The same orders to their plans, and these plans to their orders. The file is read first, by either
side; the buffer is lent anew for each call, and filling it with zeros before is part of the time.

{conversions}
"
    )
}

/// The other entries beside the interpreter.
fn files_part(tables: &Tables) -> String {
    let Tables { files, memories, texts, .. } = tables;
    format!(
        "## The job list and the sheet

The file is read first, by either side; list and text are lent anew for each call. The sheet has the walk
of the table and the plan of its failing order in it.

{files}
## The table in memory

A file into a table in memory, and such a table into a file. The file is read first, by either
side; the table is judged before it is written. What is filled is lent anew for each call, as zeros.

{memories}
## The text of a table

A text to its file, and a file to its text. A file is read first, by either side; the table of a text
is judged before its file is written. What is filled is lent anew for each call, as zeros.

{texts}
"
    )
}

/// The walk beside the walker.
fn walk_part(tables: &Tables) -> String {
    let Tables { walks, stack, .. } = tables;
    format!(
        "## Walking a table

Tables whose walk holds after about 20,000,000 moves, so that every move of the tree is made. The
other side is not the interpreter but a straightforward walker in Rust,
`rust/benchmark/src/walker.rs`: over the same lent tables, by recursion, with one copy of the state a
move, and built without overflow checks. Like the proved walk it passes over tasks below the running
job's and tasks with no job left; its start test is document 01's, without a wait table, and it makes
a state's last move on a copy too, where the proved walk makes it on the state itself. The ratio is
the proved walk's time by the walker's, each the median of {WALK_TURNS} walks in turn; both give one verdict and count. The proved
walk's time has the reading of the file in it.

{walks}
{stack}"
    )
}

/// The system's load average over the last minute.
pub fn load() -> String {
    let text = std::fs::read_to_string("/proc/loadavg").unwrap_or_default();
    text.split(' ').next().filter(|load| !load.is_empty()).unwrap_or("unknown").into()
}

/// The processor's name as the system gives it.
fn model() -> String {
    let text = std::fs::read_to_string("/proc/cpuinfo").unwrap_or_default();
    let line = text.lines().find(|line| line.starts_with("model name"));
    let name = line.and_then(|line| line.split_once(':')).map(|(_, name)| name.trim());
    name.unwrap_or("unknown processor").into()
}

/// Today, by the system's own program.
fn date() -> String {
    let output = Command::new("date").args(["-u", "+%Y-%m-%d"]).output();
    let text = output.map(|output| String::from_utf8_lossy(&output.stdout).trim().to_string());
    text.unwrap_or_else(|_| "unknown".into())
}
