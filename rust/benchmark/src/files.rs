//! The files whose reading is timed, the orders and plans whose checks and conversions are, the
//! tables in memory and the texts.

use crate::measure::{Entry, Input};
use adqurim::TEXT_ROOM;
use conformance::cases::{
    accepted, full_holding_table, full_table, longest_text_table, plan_of_x, table_x, ORDER_OF_X,
};
use conformance::orders::random_order;
use conformance::waits::without_holding;
use generator::holding::late_waits;
use generator::hostile::{nearly_full, tasks_of, WIDEST};
use generator::{late_by_holding, Random, TableDescription};
use interpreter::conversion::order_to_plan;
use interpreter::timing::accept;
use std::cmp::Ordering;

/// Whether a row's files are made to take long.
#[derive(Debug, Clone, Copy, PartialEq, Eq)]
pub enum Kind {
    Plain,
    /// Of the family that is measured whole.
    Family,
    /// Chosen by hand or at random.
    Other,
}

/// A row of the benchmark: one input, or the slowest of several.
pub struct Row {
    pub name: String,
    pub inputs: Vec<Input>,
    pub kind: Kind,
}

/// A row of one input that is not hostile.
fn plain(name: &str, input: Input) -> Row {
    Row { name: name.into(), inputs: vec![input], kind: Kind::Plain }
}

/// The reader's rows in the order of the table. Table X comes first.
pub fn read_rows() -> Vec<Row> {
    let mut refused = full_table().write();
    refused.resize(256 * 16, 0);
    let largest = "145 records: 8 tasks of 16 instructions, 8 locks, 32 jobs";
    let held = "145 records: 15 Acquires a body, holding times ascending";
    let mut rows = vec![
        plain("table X", Input::read(table_x().write())),
        plain(largest, Input::read(full_table().write())),
        plain("256 records: the same and 111 never reached", Input::read(refused)),
        plain(held, Input::read(full_holding_table().write())),
    ];
    rows.extend(family_rows());
    rows.extend(heavy_tables().into_iter().map(heavy_row));
    rows.extend(late_waits().into_iter().map(waiting_row));
    rows.extend(random_rows());
    rows
}

/// A complete order of the largest table by random moves, and its plan.
fn longest(file: &[u8]) -> (Vec<u8>, Vec<u8>) {
    let order = random_order(&mut Random::new(204), &accepted(file));
    let plan = order_to_plan(&accepted(file), &order).expect("the order is complete").0;
    assert_eq!((order.len(), plan.len()), (512, 1281), "the order performs every instruction");
    (order, plan)
}

/// An entry's two rows: table X, and the largest table with as many steps as any has. The order is
/// converted or replayed, the plan converted or checked; `prefix` stands before a row's name.
fn two_rows(entry: Entry, prefix: &str) -> Vec<Row> {
    let (x, file) = (table_x().write(), full_table().write());
    let (order, plan) = longest(&file);
    let (bytes_of_x, bytes) = match entry {
        Entry::CheckPlan | Entry::PlanToOrder => (plan_of_x(), plan),
        _ => (ORDER_OF_X.to_vec(), order),
    };
    let row =
        |name: &str, file, bytes| plain(&format!("{prefix}{name}"), Input { entry, file, bytes });
    vec![
        row("table X, 8 steps", x, bytes_of_x),
        row("145 records, 32 jobs of 16 instructions, 512 steps", file, bytes),
    ]
}

/// The replay's rows.
pub fn replay_rows() -> Vec<Row> {
    two_rows(Entry::Replay, "")
}

/// The plan check's rows, with the plans of the replay's orders.
pub fn plan_rows() -> Vec<Row> {
    two_rows(Entry::CheckPlan, "")
}

/// The conversions' rows, with the same orders and plans.
pub fn conversion_rows() -> Vec<Row> {
    let mut rows = two_rows(Entry::OrderToPlan, "order to plan: ");
    rows.extend(two_rows(Entry::PlanToOrder, "plan to order: "));
    rows
}

/// The job list's rows, and the sheet's of table X, whose walk is short.
pub fn file_rows() -> Vec<Row> {
    vec![
        plain("job list: table X", Input::of(Entry::Jobs, table_x().write())),
        plain("job list: 145 records, 32 jobs", Input::of(Entry::Jobs, full_table().write())),
        plain("sheet: table X, 23 moves", Input::of(Entry::Sheet, table_x().write())),
    ]
}

/// The rows of a table in memory: filled from a file, and written to one.
pub fn memory_rows() -> Vec<Row> {
    let tables = [("table X", table_x()), ("145 records", full_table())];
    let filled = tables.iter().map(|(name, table)| {
        plain(&format!("file to memory: {name}"), Input::of(Entry::Table, table.write()))
    });
    let written = tables.iter().map(|(name, table)| {
        let (file, bytes) = (Vec::new(), table.memory().to_vec());
        plain(&format!("memory to file: {name}"), Input { entry: Entry::Write, file, bytes })
    });
    filled.chain(written).collect()
}

/// A text of the longest length that is all of one line behind its opening and a task.
fn longest_of(line: &str) -> Vec<u8> {
    let opening = "window 1\nstart 0 0 0 0 0 0 0 0\ntask 1 1 0\n";
    let lines = (TEXT_ROOM - opening.len()) / (line.len() + 1);
    format!("{opening}{}", format!("{line}\n").repeat(lines)).into_bytes()
}

/// The rows of a table's text: to its file, and from it. The last texts are refused.
pub fn text_rows() -> Vec<Row> {
    let tables = [
        ("table X", table_x()),
        ("145 records", full_table()),
        ("145 records, 2,091 bytes", longest_text_table()),
    ];
    let to_file = tables.iter().map(|(name, table)| {
        plain(&format!("text to file: {name}"), Input::of(Entry::TextToFile, table.text()))
    });
    let to_text = tables.iter().map(|(name, table)| {
        plain(&format!("file to text: {name}"), Input::of(Entry::FileToText, table.write()))
    });
    let digits = "9".repeat(TEXT_ROOM - "window \n".len());
    let hostile = [
        ("8,190 bytes, 2,037 instructions", longest_of("end")),
        ("8,182 bytes, 741 tasks", longest_of("task 1 1 0")),
        ("8,192 bytes, a number of 8,184 digits", format!("window {digits}\n").into_bytes()),
    ];
    let refused = hostile.map(|(name, text)| {
        plain(&format!("text to file: {name}"), Input::of(Entry::TextToFile, text))
    });
    to_file.chain(to_text).chain(refused).collect()
}

/// The periods of the family that is measured whole, longest first.
const PERIODS: [u32; 6] = [1807, 43, 7, 3, 2, 1];
/// The largest number of tasks above the lowest.
const MOST_ABOVE: usize = 7;

/// Every choice of so many periods from these on, none shorter before a longer one.
fn choices(periods: &[u32], count: usize) -> Vec<Vec<u32>> {
    if count == 0 {
        return vec![Vec::new()];
    }
    let from = |first: usize| {
        let rest = choices(&periods[first..], count - 1);
        rest.into_iter().map(move |rest| [&[periods[first]], &rest[..]].concat())
    };
    (0..periods.len()).flat_map(from).collect()
}

/// Every choice of up to seven tasks with C 1 and one of the periods, above the task with the longest
/// period; by whether their utilisation is above, at or below 1.
fn family_rows() -> Vec<Row> {
    let whole: u64 = PERIODS.iter().map(|period| u64::from(*period)).product();
    let part = |period: &u32| whole / u64::from(*period);
    let share = |periods: &[u32]| periods.iter().map(part).sum::<u64>();
    let all: Vec<Vec<u32>> = (0..=MOST_ABOVE).flat_map(|count| choices(&PERIODS, count)).collect();
    let row = |side: &str, order: Ordering| {
        let chosen = all.iter().filter(|periods| share(periods).cmp(&whole) == order);
        let times = |periods: &Vec<u32>| {
            let above = periods.iter().map(|period| (1, *period));
            std::iter::once((1, WIDEST)).chain(above).collect::<Vec<_>>()
        };
        let file = |periods| Input::read(tasks_of(&times(periods)).write());
        let inputs: Vec<Input> = chosen.map(file).collect();
        let name = format!("slowest of the family's {}, utilisation {side} 1", inputs.len());
        Row { name, inputs, kind: Kind::Family }
    };
    vec![row("above", Ordering::Greater), row("at", Ordering::Equal), row("below", Ordering::Less)]
}

/// Times C and P of other hostile tables, lowest task first: utilisation at, just below and above 1
/// above the task with the longest period.
fn heavy_tables() -> Vec<Vec<(u32, u32)>> {
    let lowest = (1, WIDEST);
    let sylvester = [(1, 1807), (1, 43), (1, 7), (1, 3), (1, 2)];
    let above = |times: &[(u32, u32)]| [&[lowest], times].concat();
    vec![
        above(&[]),
        above(&[(1, 1)]),
        above(&[(1, 6), (1, 3), (1, 2)]),
        above(&[(1, 7), (1, 3), (1, 2)]),
        above(&[(1, 5), (1, 3), (1, 2)]),
        above(&[(1, 7); 7]),
        above(&[&[(1, 8)], &[(1, 7); 6][..]].concat()),
        above(&[&sylvester[..], &[(1, 1)]].concat()),
        above(&[&[(1, 3_263_443)], &sylvester[..], &[(1, 1)]].concat()),
        above(&sylvester),
        above(&[&[(1, 3_300_000)], &sylvester[..]].concat()),
        above(&[&[(1, 3_263_443)], &sylvester[..]].concat()),
        // Ten times as long, so that the climb starts at a tenth of the response time.
        above(&[&[(10, 33_000_000)], &sylvester.map(|(c, p)| (10 * c, 10 * p))[..]].concat()),
        // The slowest known: of 525 million tables of this shape that were made for it.
        above(&[(11, 86), (10, 79), (10, 78), (6, 71), (28, 70), (8, 68), (1, 66)]),
    ]
}

/// The row of a hostile table, named by its times.
fn heavy_row(times: Vec<(u32, u32)>) -> Row {
    let inputs = vec![Input::read(tasks_of(&times).write())];
    Row { name: named(&times), inputs, kind: Kind::Other }
}

fn named(times: &[(u32, u32)]) -> String {
    let words: Vec<String> = times.iter().map(|(c, p)| format!("{c}/{p}")).collect();
    format!("C/P {}", words.join(", "))
}

/// The row of a table that is accepted without its wait and refused by 10 with it.
fn waiting_row(table: TableDescription) -> Row {
    assert!(is_late_by_wait(&table), "{table:?}");
    let times: Vec<(u32, u32)> =
        table.tasks.iter().map(|task| (task.execution, task.period)).collect();
    let (holding, ceiling) = (table.holdings[0], table.ceilings[0]);
    let name = format!("{}; H {holding}, ceiling {ceiling}", named(&times));
    Row { name, inputs: vec![Input::read(table.write())], kind: Kind::Other }
}

/// Whether a table is accepted without its holding times and refused with them.
fn is_late_by_wait(table: &TableDescription) -> bool {
    accept(&without_holding(table).write()).is_ok() && accept(&table.write()).is_err()
}

/// A nearly full table that is late by a wait alone.
fn late_by_wait(random: &mut Random) -> TableDescription {
    loop {
        let table = late_by_holding(random);
        let share = |c: u32, p: u32| f64::from(c) / f64::from(p);
        let above = table.tasks[1..].iter().map(|task| share(task.execution, task.period));
        if above.sum::<f64>() > 0.99 && is_late_by_wait(&table) {
            return table;
        }
    }
}

/// Families of random tables.
fn random_rows() -> Vec<Row> {
    let family =
        |name: &str, seed: u64, count: usize, make: fn(&mut Random) -> TableDescription| {
            let mut random = Random::new(seed);
            let inputs = (0..count).map(|_| Input::read(make(&mut random).write())).collect();
            Row { name: format!("slowest of {count}: {name}"), inputs, kind: Kind::Other }
        };
    vec![
        family("8 tasks, P 500 to 1000, utilisation just below 1", 200, 200, eight_tasks),
        family("7 such tasks above 1/4294967295", 201, 200, seven_tasks),
        family("the same, as near to 1 as the last C/P allows", 202, 20, seven_tasks_nearest),
        family("up to 7 tasks, P up to 2^20, nearly full", 203, 60, nearly_full),
        family("7 tasks, utilisation above 0.99, late by a wait alone", 205, 200, late_by_wait),
    ]
}

fn eight_tasks(random: &mut Random) -> TableDescription {
    tasks_of(&just_below_full(random, 8, false))
}

fn seven_tasks(random: &mut Random) -> TableDescription {
    tasks_of(&[vec![(1, WIDEST)], just_below_full(random, 7, false)].concat())
}

fn seven_tasks_nearest(random: &mut Random) -> TableDescription {
    tasks_of(&[vec![(1, WIDEST)], just_below_full(random, 7, true)].concat())
}

/// Random tasks with periods 500 to 1000, lowest first. One of them takes what the others leave, as
/// far as its C is below that; `nearest` says that its period is the one that leaves least free.
fn just_below_full(random: &mut Random, count: u32, nearest: bool) -> Vec<(u32, u32)> {
    let mut times: Vec<(u32, u32)> = Vec::new();
    let mut free = 1.0;
    for _ in 1..count {
        let period = random.between(500, 1000) as u32;
        let most = (2.0 * free * f64::from(period) / f64::from(count)) as u64;
        let execution = random.between(1, most.max(1)) as u32;
        free -= f64::from(execution) / f64::from(period);
        times.push((execution, period));
    }
    let filling = |period: u32| (f64::from(period) * free * (1.0 - 1e-12)) as u32;
    let left = |period: &u32| free - f64::from(filling(*period)) / f64::from(*period);
    let period = match nearest {
        true => (500..=1000).min_by(|a, b| left(a).total_cmp(&left(b))).expect("not empty"),
        false => random.between(500, 1000) as u32,
    };
    times.push((filling(period).max(1), period));
    times.sort_unstable_by_key(|(_, period)| std::cmp::Reverse(*period));
    times
}
