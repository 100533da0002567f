//! Quotients rounded up (document 02, E6), in response times and in the jobs of a window, where a
//! wrong sum shows: dividends beside a multiple of the divisor, and sums of the dividend and the
//! divisor less one about 2^32 and nearly 2^33. By hand, and on random tables made to meet these.

use adqurim::raw::{read, ReadAnswer};
use adqurim::{jobs, sheet, Job, JOB_LIST_ROOM};
use conformance::cases::{rates, tasks};
use conformance::families::Family;
use conformance::proved::expected_read;
use conformance::waits::{blocking_of, record_of};
use generator::hostile::WIDEST;
use generator::{code, Random, TableDescription, TaskDescription};

/// C and P of each task, lowest first, and the response time of each. The window has a job of each.
type Timed = (&'static [(u32, u32)], &'static [u64]);

/// Dividends beside small divisors.
const SHORT: [Timed; 13] = [
    // R is a multiple of the period above: 12 = 4 + 4 × 2, with no time left and with some.
    (&[(4, 12), (2, 3)], &[12, 2]),
    (&[(4, 30), (2, 3)], &[12, 2]),
    // One less than a multiple: 7 = 3 + 2 × 2.
    (&[(3, 8), (2, 4)], &[7, 2]),
    // One more, 9 = 2 × 4 + 1, but not a solution: 1 + 4 + 2 × 2 is 9, 1 + 4 + 3 × 2 is 11.
    (&[(1, 100), (4, 100), (2, 4)], &[11, 8, 2]),
    (&[(1, 11), (4, 11), (2, 4)], &[11, 8, 2]),
    // The period above itself: 5 = 3 + 2.
    (&[(3, 5), (2, 5)], &[5, 2]),
    (&[(3, 9), (2, 5)], &[5, 2]),
    // Less than the period above, and as little as can be.
    (&[(3, 100), (2, 50)], &[5, 2]),
    (&[(1, 9), (1, 9)], &[2, 1]),
    // A multiple of both periods above, 24 = 4 + 2 × 4 + 3 × 4, and one less.
    (&[(4, 24), (4, 12), (4, 8)], &[24, 8, 4]),
    (&[(3, 24), (4, 12), (4, 8)], &[23, 8, 4]),
    (&[(1, 8); 8], &[8, 7, 6, 5, 4, 3, 2, 1]),
    // No task above, no quotient.
    (&[(1, 1)], &[1]),
];

/// Dividends and divisors up to 2^32 - 1.
const WIDE: [Timed; 13] = [
    // R is the period above, one less, and the longest period of all: a sum of 2^33 - 3.
    (&[(4_294_967_291, WIDEST), (2, 4_294_967_293)], &[4_294_967_293, 2]),
    (&[(4_294_967_290, WIDEST), (2, 4_294_967_293)], &[4_294_967_292, 2]),
    (&[(4_294_967_294, WIDEST), (1, WIDEST)], &[4_294_967_295, 1]),
    // Two jobs above, 2,200,000,000 + 2 × 900,000,000; two times 2^31 - 1 exactly.
    (&[(2_200_000_000, WIDEST), (900_000_000, 1 << 31)], &[4_000_000_000, 900_000_000]),
    (&[(2_294_967_294, WIDEST), (1_000_000_000, 2_147_483_647)], &[4_294_967_294, 1_000_000_000]),
    // Three times 1,431,655,765 is 2^32 - 1; then one less.
    (&[(1_294_967_295, WIDEST), (1_000_000_000, 1_431_655_765)], &[4_294_967_295, 1_000_000_000]),
    (&[(1_294_967_294, WIDEST), (1_000_000_000, 1_431_655_765)], &[4_294_967_294, 1_000_000_000]),
    // So is 65,535 × 65,537: 2,328,917,295 + 65,535 × 30,000; and 1,431,655,765 × 3.
    (&[(2_328_917_295, WIDEST), (30_000, 65_537)], &[4_294_967_295, 30_000]),
    (&[(2_863_311_530, WIDEST), (1, 3)], &[4_294_967_295, 1]),
    // Four times 1,073,741,823 is 2^32 - 4.
    (&[(1_073_741_823, WIDEST), (3, 4)], &[4_294_967_292, 3]),
    // 4/24, 4/12 and 4/8 again, each time 178,956,970 times as long.
    (
        &[(715_827_880, 4_294_967_280), (715_827_880, 2_147_483_640), (715_827_880, 1_431_655_760)],
        &[4_294_967_280, 1_431_655_760, 715_827_880],
    ),
    (
        &[(1_431_655_765, WIDEST), (1_431_655_765, WIDEST), (1_431_655_765, WIDEST)],
        &[4_294_967_295, 2_863_311_530, 1_431_655_765],
    ),
    (
        &[(4_294_967_288, WIDEST), (1, WIDEST), (1, WIDEST), (1, WIDEST), (1, WIDEST), (1, WIDEST)],
        &[4_294_967_293, 5, 4, 3, 2, 1],
    ),
];

/// R + P - 1 for the period above is 2^32 - 1, 2^32 or 2^32 + 1, in the last table on the way to R.
const SUMS: [Timed; 9] = [
    (&[(5, WIDEST), (1, 4_294_967_290)], &[6, 1]),
    (&[(6, WIDEST), (1, 4_294_967_290)], &[7, 1]),
    (&[(7, WIDEST), (1, 4_294_967_290)], &[8, 1]),
    // 2^32 and 2^32 + 1 again, with the longest period above.
    (&[(1, WIDEST), (1, WIDEST)], &[2, 1]),
    (&[(2, WIDEST), (1, WIDEST)], &[3, 1]),
    // 2^32 - 1 with no time left, and with some.
    (&[(2_147_483_643, 1 << 31), (5, 1 << 31)], &[2_147_483_648, 5]),
    (&[(2_147_483_647, WIDEST), (1, 1 << 31)], &[2_147_483_648, 1]),
    // One job above is not enough: 2^31 + 1 asks for a second.
    (&[(1 << 31, WIDEST), (1, 1 << 31)], &[2_147_483_650, 1]),
    (&[(2_147_483_644, WIDEST), (5, 1 << 31)], &[2_147_483_654, 5]),
];

/// Tables that one job above makes late, and the record of the lowest late task.
const LATE: [(&[(u32, u32)], u64); 13] = [
    // 4 + 5 is 9, which asks for two jobs each of those above: 14.
    (&[(4, 12), (3, 8), (2, 8)], 1),
    // The same under a task that has 24 = 1 + 2 × 4 + 3 × 5, with time left and with none.
    (&[(1, 100), (4, 12), (3, 8), (2, 8)], 3),
    (&[(1, 24), (4, 12), (3, 8), (2, 8)], 3),
    // Each time 178,956,970 times as long.
    (
        &[
            (178_956_970, 4_294_967_280),
            (715_827_880, 2_147_483_640),
            (536_870_910, 1_431_655_760),
            (357_913_940, 1_431_655_760),
        ],
        3,
    ),
    // 9 = 2 × 4 + 1 asks for a third job, and 11 is late.
    (&[(1, 10), (4, 10), (2, 4)], 1),
    (&[(5, 10), (2, 4)], 1),
    // One more than the period above, and two more: a second job, past 2^32 - 1.
    (&[(4_294_967_292, WIDEST), (2, 4_294_967_293)], 1),
    (&[(2_794_967_292, WIDEST), (1_500_000_000, 4_294_967_290)], 1),
    // R would be 2^32: all but one and one, two halves, 4 × 1,073,741,824.
    (&[(WIDEST, WIDEST), (1, WIDEST)], 1),
    (&[(1 << 31, WIDEST), (1 << 31, WIDEST)], 1),
    (&[(1_073_741_824, WIDEST), (3, 4)], 1),
    // A task above that needs all the time.
    (&[(1, 1), (1, 1)], 1),
    (&[(1, WIDEST), (1, 1)], 1),
];

/// Asserts what the proved reader, job list and sheet say of an accepted table: the response time
/// and the number of jobs of each task.
fn comes_to(table: &TableDescription, responses: &[u64], counts: &[u64]) {
    let (file, total) = (table.write(), counts.iter().sum::<u64>());
    let mut expected = ReadAnswer { jobs: total, ..ReadAnswer::default() };
    expected.responses[..responses.len()].copy_from_slice(responses);
    assert_eq!(read(&file), expected, "{table:?}");
    let mut listed = Vec::new();
    let mut lines = format!("tasks {} jobs {total}\n", table.tasks.len());
    for (number, task) in table.tasks.iter().enumerate() {
        let (response, count) = (responses[number], counts[number]);
        lines.push_str(&format!("task {number} response {response} jobs {count}\n"));
        for job in 0..count {
            let arrival = u64::from(task.first_arrival) + job * u64::from(task.period);
            listed.push(Job { task: number as u8, arrival, latest: arrival + response });
        }
    }
    assert_eq!(jobs(&file), Ok(listed), "{table:?}");
    let sheet = sheet(&file);
    assert!(sheet.starts_with(&lines), "{sheet}{lines}{table:?}");
}

/// Asserts that all three refuse a table by this number at this record.
fn is_refused(table: &TableDescription, number: u64, place: u64) {
    let file = table.write();
    let expected = ReadAnswer { number, place, ..ReadAnswer::default() };
    assert_eq!(read(&file), expected, "{table:?}");
    let refusal = jobs(&file).expect_err("the reader refuses it");
    assert_eq!((refusal.number, refusal.place), (number, place), "{table:?}");
    assert_eq!(sheet(&file), format!("refused {number} {place}\n"), "{table:?}");
}

fn assert_timed(rows: &[Timed]) {
    for (times, responses) in rows {
        comes_to(&rates(times), responses, &vec![1; times.len()]);
    }
}

#[test]
fn responses_beside_multiples() {
    assert_timed(&SHORT);
    assert_timed(&WIDE);
}

#[test]
fn responses_whose_sums_pass_32_bits() {
    assert_timed(&SUMS);
}

#[test]
fn late_by_one_job_above() {
    for (times, record) in LATE {
        is_refused(&rates(times), 10, record);
    }
}

/// Three tasks of which the middle one, of C and P as given, waits for a lock that the lowest holds
/// for so long. The middle one is record 4.
fn waiting(middle: (u32, u32), others: [(u32, u32); 2], holding: u32) -> TableDescription {
    let [lowest, highest] = others;
    let mut table = rates(&[lowest, middle, highest]);
    table.tasks[0].body.insert(0, code::acquire(0));
    (table.ceilings, table.holdings) = (vec![1], vec![holding]);
    table
}

/// What a task waits for is in the dividend.
#[test]
fn responses_with_a_wait() {
    let short = |period, holding| waiting((2, period), [(1, 40), (1, 4)], holding);
    // 8 = 2 + 4 + 2 × 1 is twice the period above; one less to wait for, and one more.
    comes_to(&short(8, 4), &[4, 8, 1], &[1; 3]);
    comes_to(&short(20, 4), &[4, 8, 1], &[1; 3]);
    comes_to(&short(20, 3), &[4, 7, 1], &[1; 3]);
    comes_to(&short(20, 5), &[4, 10, 1], &[1; 3]);
    is_refused(&short(9, 5), 10, 4);
    // C + B + 1 is 2^32 - 2, 2^32 - 1 and 2^32; then C + B alone is 2^32, and 2^32 + 2.
    let wide = |holding| waiting((3, WIDEST), [(1, WIDEST), (1, WIDEST)], holding);
    comes_to(&wide(4_294_967_290), &[5, 4_294_967_294, 1], &[1; 3]);
    comes_to(&wide(4_294_967_291), &[5, 4_294_967_295, 1], &[1; 3]);
    for holding in [4_294_967_292, 4_294_967_293, WIDEST] {
        is_refused(&wide(holding), 10, 4);
    }
}

/// Window, period and first arrival of one task, and how many jobs it has: the dividend is the
/// window less the arrival.
type Counted = (u32, u32, u32, u64);

const SHORT_WINDOWS: [Counted; 26] = [
    // A multiple of the period, one less and one more; then with an arrival.
    (12, 4, 0, 3),
    (11, 4, 0, 3),
    (13, 4, 0, 4),
    (17, 4, 5, 3),
    (17, 4, 6, 3),
    (17, 4, 4, 4),
    (128, 4, 0, 32),
    (127, 4, 0, 32),
    (125, 4, 0, 32),
    (124, 4, 0, 31),
    // The period itself, one less, one more.
    (7, 7, 0, 1),
    (8, 7, 1, 1),
    (6, 7, 0, 1),
    (8, 7, 0, 2),
    // Period 1.
    (1, 1, 0, 1),
    (2, 1, 0, 2),
    (32, 1, 0, 32),
    (33, 1, 1, 32),
    // One time unit left, none, and less than none.
    (1, 9, 0, 1),
    (5, 9, 4, 1),
    (5, 9, 5, 0),
    (5, 9, 6, 0),
    (5, 9, WIDEST, 0),
    (1, 1, 1, 0),
    (1, WIDEST, 0, 1),
    (1, WIDEST, 1, 0),
];

const WIDE_WINDOWS: [Counted; 33] = [
    (WIDEST, WIDEST, 0, 1),
    (WIDEST, WIDEST, 1, 1),
    (WIDEST, WIDEST, 4_294_967_294, 1),
    (WIDEST, WIDEST, WIDEST, 0),
    (WIDEST, 4_294_967_294, 0, 2),
    (WIDEST, 4_294_967_294, 1, 1),
    (WIDEST, 4_294_967_294, 2, 1),
    (4_294_967_294, WIDEST, 0, 1),
    (4_294_967_294, 4_294_967_294, 0, 1),
    (4_294_967_294, 4_294_967_293, 0, 2),
    // About two periods.
    (WIDEST, 2_147_483_649, 0, 2),
    (WIDEST, 2_147_483_648, 0, 2),
    (WIDEST, 2_147_483_647, 0, 3),
    (WIDEST, 2_147_483_647, 1, 2),
    (WIDEST, 2_147_483_647, 2, 2),
    // About three.
    (WIDEST, 1_431_655_766, 0, 3),
    (WIDEST, 1_431_655_765, 0, 3),
    (WIDEST, 1_431_655_765, 1, 3),
    (WIDEST, 1_431_655_764, 0, 4),
    (WIDEST, 1_431_655_764, 2, 4),
    (WIDEST, 1_431_655_764, 3, 3),
    // About 32.
    (WIDEST, 134_217_729, 0, 32),
    (WIDEST, 134_217_729, 1, 32),
    (WIDEST, 134_217_728, 0, 32),
    (WIDEST, 134_217_728, 4_294_967_294, 1),
    (WIDEST, 134_217_727, 31, 32),
    (WIDEST, 134_217_727, 32, 32),
    (4_294_967_264, 134_217_727, 0, 32),
    // Far arrivals and short periods.
    (WIDEST, 1, 4_294_967_263, 32),
    (WIDEST, 1, 4_294_967_294, 1),
    (WIDEST, 1, WIDEST, 0),
    (WIDEST, 3, 4_294_967_199, 32),
    (WIDEST, 3, 4_294_967_200, 32),
];

/// The dividend and the period less one are 2^32 - 1, 2^32 and 2^32 + 1.
const WINDOW_SUMS: [Counted; 15] = [
    (6, 4_294_967_290, 0, 1),
    (7, 4_294_967_290, 0, 1),
    (8, 4_294_967_290, 0, 1),
    (WIDEST, 4_294_967_290, 4_294_967_289, 1),
    (WIDEST, 4_294_967_290, 4_294_967_288, 1),
    (WIDEST, 4_294_967_290, 4_294_967_287, 1),
    (1, WIDEST, 0, 1),
    (2, WIDEST, 0, 1),
    (3, WIDEST, 0, 1),
    (2_147_483_648, 1 << 31, 0, 1),
    (2_147_483_649, 1 << 31, 0, 2),
    (2_147_483_650, 1 << 31, 0, 2),
    (4_160_749_567, 134_217_729, 0, 31),
    (4_160_749_568, 134_217_729, 0, 31),
    (4_160_749_569, 134_217_729, 0, 31),
];

/// Window, period and first arrival of a task with 33 jobs and with far more.
const TOO_MANY: [(u32, u32, u32); 11] = [
    (33, 1, 0),
    (129, 4, 0),
    (132, 4, 0),
    (130, 4, 1),
    (WIDEST, 134_217_727, 0),
    (WIDEST, 134_217_727, 30),
    (WIDEST, 130_150_525, 0),
    (WIDEST, 3, 4_294_967_198),
    (WIDEST, 1, 4_294_967_262),
    (WIDEST, 1, 0),
    (WIDEST, 2, 0),
];

/// A table of one task that needs 1 of each period.
fn one_task(window: u32, period: u32, first_arrival: u32) -> TableDescription {
    tasks(window, &[[1, period, first_arrival]], &[code::end()])
}

#[test]
fn jobs_of_one_task() {
    for (window, period, first_arrival, count) in
        [&SHORT_WINDOWS[..], &WIDE_WINDOWS, &WINDOW_SUMS].concat()
    {
        comes_to(&one_task(window, period, first_arrival), &[1], &[count]);
    }
    for (window, period, first_arrival) in TOO_MANY {
        is_refused(&one_task(window, period, first_arrival), 11, 0);
    }
}

/// Four jobs each of eight tasks: 32, where one more anywhere is too many.
#[test]
fn jobs_of_eight_tasks() {
    let table = |highest: [u32; 3]| {
        let mut times = [[1, 1 << 30, 0]; 8];
        times[7] = highest;
        tasks(WIDEST, &times, &[code::end()])
    };
    let responses = [8, 7, 6, 5, 4, 3, 2, 1];
    comes_to(&table([1, 1 << 30, 0]), &responses, &[4; 8]);
    comes_to(&table([1, 1 << 30, 4_294_967_294]), &responses, &[4, 4, 4, 4, 4, 4, 4, 1]);
    // An arrival of 3 leaves 2^32 - 4, four times the period.
    comes_to(&table([1, 1_073_741_823, 3]), &responses, &[4; 8]);
    is_refused(&table([1, 1_073_741_823, 2]), 11, 0);
    is_refused(&table([1, 1_073_741_823, 0]), 11, 0);
}

/// The quotient rounded up, as its definition says it.
fn rounded_up(dividend: u128, divisor: u128) -> u128 {
    match dividend % divisor {
        0 => dividend / divisor,
        _ => dividend / divisor + 1,
    }
}

/// A dividend and its divisor.
type Quotient = (u128, u128);

/// The quotients of a task's equation at some time, one for each task above.
fn quotients(table: &TableDescription, task: usize, time: u128) -> Vec<Quotient> {
    table.tasks[task + 1..].iter().map(|above| (time, above.period.into())).collect()
}

/// The right side of a task's equation at some time.
fn right_side(table: &TableDescription, task: usize, time: u128) -> u128 {
    let own = u128::from(table.tasks[task].execution) + u128::from(blocking_of(table, task));
    let above = table.tasks[task + 1..].iter();
    let demand = |above: &TaskDescription| {
        rounded_up(time, above.period.into()) * u128::from(above.execution)
    };
    own + above.map(demand).sum::<u128>()
}

/// The smallest R up to the period, by trying 1, 2, 3 and so on.
fn by_trying(table: &TableDescription, task: usize) -> Option<u128> {
    let period = u128::from(table.tasks[task].period);
    (1..=period).find(|time| right_side(table, task, *time) == *time)
}

/// A climb that takes more steps is left.
const MOST_STEPS: usize = 40;

/// A climb to the smallest solution of a task's equation.
struct Climb {
    /// The times at which the right side is taken, from 1 on, each the right side at the one before.
    times: Vec<u128>,
    /// The right side at the last of them.
    next: u128,
}

impl Climb {
    fn of(table: &TableDescription, task: usize) -> Climb {
        let mut climb = Climb { times: Vec::new(), next: 1 };
        let period = table.tasks[task].period.into();
        while !climb.has_solved() && climb.next <= period && climb.times.len() < MOST_STEPS {
            climb.times.push(climb.next);
            climb.next = right_side(table, task, climb.next);
        }
        climb
    }

    fn has_solved(&self) -> bool {
        self.times.last() == Some(&self.next)
    }

    /// R, or none up to the period; nothing if the climb was left.
    fn found(&self, period: u32) -> Option<Option<u128>> {
        let late = self.next > period.into();
        (late || self.has_solved()).then_some((!late).then_some(self.next))
    }
}

/// Asserts that the reader has these response times, or 10 at the lowest task that has none.
fn assert_found(table: &TableDescription, answer: &ReadAnswer, found: &[Option<u128>]) {
    let late = found.iter().position(Option::is_none).map(|task| record_of(table, task) as u64);
    assert_eq!((answer.number == 10).then_some(answer.place), late, "{table:?}");
    if answer.number == 0 {
        let responses = answer.responses.iter().map(|response| Some(u128::from(*response)));
        assert!(responses.take(found.len()).eq(found.iter().copied()), "{table:?}");
    }
}

/// In how many tables some quotient is of a sort.
#[derive(Debug, Default)]
struct Sorts {
    /// The dividend is a multiple of the divisor, one less, one more.
    multiple: u64,
    one_less: u64,
    one_more: u64,
    /// The dividend and the divisor less one are 2^32 - 1, 2^32 or 2^32 + 1; are 2^32 or more.
    about: u64,
    past: u64,
}

impl Sorts {
    fn note(&mut self, quotients: &[Quotient]) {
        let some = |sort: fn(&Quotient) -> bool| u64::from(quotients.iter().any(sort));
        self.multiple += some(|(n, d)| n % d == 0);
        self.one_less += some(|(n, d)| *d > 1 && n % d == d - 1);
        self.one_more += some(|(n, d)| n > d && n % d == 1);
        self.about += some(|(n, d)| (n + d - 1).abs_diff(1 << 32) <= 1);
        self.past += some(|(n, d)| n + d > 1 << 32);
    }
}

/// What the reader came to.
#[derive(Debug, Default)]
struct Reads {
    numbers: [u64; 12],
    tasks: [u64; 9],
    /// Tables with a task that waits for a lock.
    waits: u64,
    /// The quotients of equations that a response time solves; of climbs, in tables that are not
    /// late and in late ones; of job counts.
    solved: Sorts,
    climbed: Sorts,
    late: Sorts,
    counted: Sorts,
    /// Tables whose climbs all came to an end, and those that were tried.
    ended: u64,
    tried: u64,
}

/// Tables with periods up to this are tried.
const SHORT_PERIOD: u32 = 60;

impl Reads {
    fn note(&mut self, table: &TableDescription, answer: &ReadAnswer) {
        let all = 0..table.tasks.len();
        self.numbers[answer.number as usize] += 1;
        self.tasks[table.tasks.len()] += 1;
        self.waits += u64::from(all.clone().any(|task| blocking_of(table, task) > 0));
        self.note_climbs(table, answer);
        if answer.number == 0 {
            let solved = |task: usize| quotients(table, task, answer.responses[task].into());
            self.solved.note(&all.clone().flat_map(solved).collect::<Vec<Quotient>>());
        }
        if answer.number != 10 {
            self.counted.note(&counted(table));
        }
        if table.tasks[0].period <= SHORT_PERIOD {
            let tried: Vec<Option<u128>> = all.map(|task| by_trying(table, task)).collect();
            assert_found(table, answer, &tried);
            self.tried += 1;
        }
    }

    fn note_climbs(&mut self, table: &TableDescription, answer: &ReadAnswer) {
        let (mut climbed, mut found) = (Vec::new(), Vec::new());
        for (number, task) in table.tasks.iter().enumerate() {
            let climb = Climb::of(table, number);
            climbed.extend(climb.times.iter().flat_map(|time| quotients(table, number, *time)));
            found.extend(climb.found(task.period));
        }
        let sorts = if answer.number == 10 { &mut self.late } else { &mut self.climbed };
        sorts.note(&climbed);
        if found.len() == table.tasks.len() {
            assert_found(table, answer, &found);
            self.ended += 1;
        }
    }
}

/// The quotients of the job counts of those tasks that have a job.
fn counted(table: &TableDescription) -> Vec<Quotient> {
    let left = |task: &TaskDescription| table.window.checked_sub(task.first_arrival);
    let quotient = |task: &TaskDescription| Some((left(task)?.into(), task.period.into()));
    table.tasks.iter().filter_map(quotient).filter(|(left, _)| *left > 0).collect()
}

/// The seeds differ, so that no family repeats the tables of another.
const FAMILIES: [Family; 4] = [
    Family { name: "short periods", seed: 1050, tables: 40_000, make: short_periods },
    Family { name: "periods that divide", seed: 1051, tables: 30_000, make: dividing_periods },
    Family { name: "periods about 2^31", seed: 1052, tables: 20_000, make: half_periods },
    Family { name: "periods about 2^32", seed: 1053, tables: 20_000, make: long_periods },
];

/// How many tasks a table has: 1 to 8, mostly few.
fn some_tasks(random: &mut Random) -> u64 {
    let most = [3, 4, 6, 8][random.index(4)];
    random.between(1, most)
}

/// A table of some tasks whose periods are drawn so.
fn drawn(random: &mut Random, period: impl Fn(&mut Random) -> u32) -> TableDescription {
    let periods = (0..some_tasks(random)).map(|_| period(random)).collect();
    table_of(random, periods)
}

/// Any short periods, or small multiples of a number.
fn short_periods(random: &mut Random) -> TableDescription {
    let (any, unit) = (random.chance(1, 3), random.between(1, 5) as u32);
    drawn(random, |random| match any {
        true => random.between(1, SHORT_PERIOD.into()) as u32,
        false => unit * [1, 2, 3, 4, 6, 8, 12][random.index(7)],
    })
}

/// Periods of which each is a multiple of the shorter ones, the longest often just below 2^32.
fn dividing_periods(random: &mut Random) -> TableDescription {
    let mut multiples = vec![1];
    for _ in 1..some_tasks(random) {
        multiples.push(multiples[multiples.len() - 1] * random.between(1, 4) as u32);
    }
    let most = WIDEST / multiples[multiples.len() - 1];
    let shortest = match random.between(0, 3) {
        0 => random.between(1, 12) as u32,
        1 => random.between(1, most.into()) as u32,
        _ => most,
    };
    table_of(random, multiples.iter().map(|multiple| multiple * shortest).collect())
}

/// Periods about 2^31, and for some tasks about 2^32.
fn half_periods(random: &mut Random) -> TableDescription {
    drawn(random, |random| match random.chance(2, 3) {
        true => (1 << 31) + random.between(0, 6) as u32 - 3,
        false => WIDEST - random.between(0, 6) as u32,
    })
}

/// Periods about 2^32.
fn long_periods(random: &mut Random) -> TableDescription {
    drawn(random, |random| WIDEST - random.between(0, 6) as u32)
}

/// A table of tasks with these periods, a window and, in one of four, a wait for a lock.
fn table_of(random: &mut Random, mut periods: Vec<u32>) -> TableDescription {
    periods.sort_unstable();
    let mut times: Vec<(u32, u32)> = Vec::new();
    for period in &periods {
        times.push((execution(random, &times, *period), *period));
    }
    times.reverse();
    let mut table = rates(&times);
    open_window(random, &mut table);
    if random.chance(1, 4) {
        give_wait(random, &mut table);
    }
    table
}

/// An execution time below these tasks: little, a share of the period, or what is left of a time
/// that is a multiple of a period above, one less or one more.
fn execution(random: &mut Random, above: &[(u32, u32)], period: u32) -> u32 {
    let most = match random.between(0, 5) {
        0 => 4,
        1 | 2 => u64::from(period) / random.between(1, 8),
        _ if above.is_empty() => u64::from(period) / random.between(2, 8),
        _ => {
            let divisor = u64::from(above[random.index(above.len())].1);
            let time = divisor * random.between(1, u64::from(period) / divisor);
            let time = time + random.between(0, 2) - 1;
            let used = |(c, p): &(u32, u32)| time.div_ceil((*p).into()) * u64::from(*c);
            let left = time.saturating_sub(above.iter().map(used).sum());
            return left.clamp(1, period.into()) as u32;
        }
    };
    random.between(1, most.clamp(1, period.into())) as u32
}

/// A time up to the most that is a multiple of the period, one less or one more.
fn beside(random: &mut Random, most: u64, period: u32) -> u64 {
    let times = random.between(0, most / u64::from(period));
    (times * u64::from(period) + random.between(0, 2)).saturating_sub(1)
}

/// Gives a table a window with some 70 jobs at most, often beside a multiple of a period, and each
/// task a first arrival at one of the window's ends or one that leaves such a time.
fn open_window(random: &mut Random, table: &mut TableDescription) {
    let count = table.tasks.len();
    let shortest = u64::from(table.tasks[count - 1].period);
    let most = (shortest * random.between(1, 70) / count as u64).clamp(1, WIDEST.into());
    let period = table.tasks[random.index(count)].period;
    let window = if random.chance(1, 2) { beside(random, most, period) } else { most };
    table.window = window.clamp(1, WIDEST.into()) as u32;
    for task in &mut table.tasks {
        let left = beside(random, table.window.into(), task.period);
        let arrival = table.window.saturating_sub(left as u32);
        let ends = [0, 1, table.window - 1, table.window];
        task.first_arrival = if random.chance(1, 2) { arrival } else { ends[random.index(4)] };
    }
}

/// Turns some of a task's execution time into a wait for a lock that the lowest task holds.
fn give_wait(random: &mut Random, table: &mut TableDescription) {
    let number = random.index(table.tasks.len());
    let task = &mut table.tasks[number];
    let holding = random.index(task.execution as usize) as u32;
    task.execution -= holding;
    table.tasks[0].body.insert(0, code::acquire(0));
    (table.ceilings, table.holdings) = (vec![number as u8], vec![holding]);
}

#[test]
fn random_tables() {
    let mut reads = Reads::default();
    for family in FAMILIES {
        let mut random = Random::new(family.seed);
        for _ in 0..family.tables {
            let table = (family.make)(&mut random);
            let file = table.write();
            let answer = read(&file);
            assert_eq!(answer, expected_read(&file), "{}: {table:?}", family.name);
            crate::reader::jobs::compare(&file, JOB_LIST_ROOM);
            reads.note(&table, &answer);
        }
    }
    println!("{reads:?}");
    assert!(reads.numbers[0] >= 60_000 && reads.numbers[10] >= 20_000, "{reads:?}");
    assert!(reads.numbers[11] >= 1_500 && reads.waits >= 5_000, "{reads:?}");
    assert!(reads.tasks[1..].iter().all(|tables| *tables >= 2_500), "{reads:?}");
    for sorts in [&reads.solved, &reads.climbed, &reads.late, &reads.counted] {
        assert!(sorts.multiple >= 15_000 && sorts.one_less >= 12_000, "{sorts:?}");
        assert!(sorts.past >= 10_000 && sorts.about >= 800, "{sorts:?}");
    }
    for sorts in [&reads.climbed, &reads.late, &reads.counted] {
        assert!(sorts.one_more >= 6_000, "{sorts:?}");
    }
    // At a multiple of a period above, the right side is more than the time, or R would be no more
    // than that; so one time unit later, with another job above, it is more again.
    assert_eq!(reads.solved.one_more, 0);
    assert!(reads.ended >= 100_000 && reads.tried >= 35_000, "{reads:?}");
}
