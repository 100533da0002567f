//! Tables with holding times (document 02, E4): the proved reader, job list, table in memory and
//! writer, called through their C interface, against the interpreter, and the reader against the
//! equation reckoned from the description.

use adqurim::raw::{read, table, ReadAnswer};
use adqurim::{FILE_ROOM, JOB_LIST_ROOM, TABLE_ROOM};
use conformance::cases::{accepted, edited};
use conformance::entries::pattern;
use conformance::families::Family;
use conformance::proved::expected_read;
use conformance::waits::{blocking_of, loosened, record_of, response_by_trying, without_holding};
use generator::memory::{holding_at, litter};
use generator::{late_by_holding, random_holding, random_long_hold, Random, TableDescription};
use std::time::Instant;

/// The seeds differ, so that no family repeats the tables of another.
const READ: [Family; 3] = [
    Family { name: "holding times", seed: 960, tables: 70_000, make: random_holding },
    Family { name: "long holds", seed: 961, tables: 40_000, make: random_long_hold },
    Family { name: "late by a wait", seed: 962, tables: 3_000, make: late_by_holding },
];
pub(crate) const LISTED: [Family; 2] = [
    Family { name: "holding times", seed: 963, tables: 20_000, make: random_holding },
    Family { name: "long holds", seed: 964, tables: 10_000, make: random_long_hold },
];
pub(crate) const IN_MEMORY: [Family; 2] = [
    Family { name: "holding times", seed: 965, tables: 20_000, make: random_holding },
    Family { name: "long holds", seed: 966, tables: 5_000, make: random_long_hold },
];
pub(crate) const WRITTEN: [Family; 2] = [
    Family { name: "holding times", seed: 967, tables: 25_000, make: random_holding },
    Family { name: "long holds", seed: 968, tables: 5_000, make: random_long_hold },
];

/// Tables with periods up to this are also tried by the definition.
const SHORT_PERIOD: u32 = 500;

/// Visits the tables of some families.
fn visit(families: &[Family], mut visit: impl FnMut(&mut Random, &TableDescription)) {
    for family in families {
        let (begin, mut random) = (Instant::now(), Random::new(family.seed));
        for _ in 0..family.tables {
            let table = (family.make)(&mut random);
            visit(&mut random, &table);
        }
        println!("{} {}: {:?}", family.tables, family.name, begin.elapsed());
    }
}

/// What the reader came to, and what it would have come to without holding times.
#[derive(Debug, Default)]
struct Reads {
    numbers: [u64; 12],
    /// Accepted tables in which some task waits, and in which this many tasks do.
    waits: u64,
    waiting: [u64; 9],
    /// Tables that are late by a wait alone, by the number of the task that is named.
    late_by_wait: u64,
    late_task: [u64; 8],
    /// Tables that are late anyway, those of them where another task is named.
    late_anyway: u64,
    other_task: u64,
    /// Accepted tables in which some response time grew by more than B, as more jobs above come.
    more_above: u64,
    /// Tables that were tried by the definition.
    tried: u64,
}

impl Reads {
    fn note(&mut self, table: &TableDescription, answer: &ReadAnswer) {
        self.numbers[answer.number as usize] += 1;
        let before = expected_read(&without_holding(table).write());
        let waits: Vec<u64> = (0..table.tasks.len()).map(|task| blocking_of(table, task)).collect();
        match (before.number, answer.number) {
            (0, 0) => {
                let waiting = waits.iter().filter(|wait| **wait > 0).count();
                self.waits += u64::from(waiting > 0);
                self.waiting[waiting] += 1;
                let grew = |task: usize| answer.responses[task] - before.responses[task];
                let more = (0..waits.len()).any(|task| grew(task) > waits[task]);
                self.more_above += u64::from(more);
                assert!((0..waits.len()).all(|task| grew(task) >= waits[task]));
            }
            (0, 10) => self.late_by_wait += 1,
            (10, 10) => self.late_anyway += 1,
            // A wait makes no table earlier, and changes no other number.
            (before, now) => assert_eq!(before, now),
        }
    }

    /// Tries the definition on a table of short periods; `places` says where each record went.
    fn try_definition(&mut self, table: &TableDescription, places: &[usize], answer: &ReadAnswer) {
        let short = table.tasks.iter().all(|task| task.period <= SHORT_PERIOD);
        if !short || ![0, 10].contains(&answer.number) {
            return;
        }
        self.tried += 1;
        let count = table.tasks.len();
        let tried: Vec<Option<u64>> =
            (0..count).map(|task| response_by_trying(table, task)).collect();
        match tried.iter().position(Option::is_none) {
            None => {
                let times: Vec<u64> = tried.into_iter().flatten().collect();
                assert_eq!((answer.number, &answer.responses[..count]), (0, &times[..]));
            }
            Some(task) => {
                let place = places[record_of(table, task)] as u64;
                assert_eq!((answer.number, answer.place), (10, place), "{table:?}");
                let before = without_holding(table);
                let late = (0..count).find(|task| response_by_trying(&before, *task).is_none());
                match late {
                    None => self.late_task[task] += 1,
                    Some(late) => self.other_task += u64::from(late != task),
                }
            }
        }
    }
}

#[test]
fn reads() {
    let mut reads = Reads::default();
    visit(&READ, |random, table| {
        let (file, places) = table.write_shuffled(random);
        let answer = read(&file);
        assert_eq!(answer, expected_read(&file), "{file:02x?}");
        if random.chance(1, 20) {
            let length = [0, 10, 11, 12, 40][random.index(5)];
            crate::reader::differential::compare_lent(random, &file, length);
        }
        reads.note(table, &answer);
        reads.try_definition(table, &places, &answer);
    });
    println!("{reads:?}");
    assert!(reads.numbers.iter().sum::<u64>() >= 110_000, "{reads:?}");
    assert!(reads.waits >= 30_000 && reads.more_above >= 5_000, "{reads:?}");
    assert!(reads.late_by_wait >= 10_000 && reads.late_anyway >= 5_000, "{reads:?}");
    assert!(reads.other_task >= 100 && reads.tried >= 90_000, "{reads:?}");
    assert!(reads.waiting[1..8].iter().all(|times| *times >= 100), "{reads:?}");
    assert!(reads.late_task[1..].iter().all(|times| *times >= 30), "{reads:?}");
    // The lowest task waits for nobody.
    assert_eq!((reads.waiting[8], reads.late_task[0]), (0, 0));
}

#[test]
fn job_lists() {
    let (mut numbers, mut later, mut loose) = ([0; 21], 0, 0);
    visit(&LISTED, |random, table| {
        let file = table.write_shuffled(random).0;
        let answer = crate::reader::jobs::compare(&file, JOB_LIST_ROOM + random.index(3));
        numbers[answer.number as usize] += 1;
        numbers[crate::reader::jobs::compare(&file, random.index(32)).number as usize] += 1;
        if answer.number == 0 {
            let (before, now) = (accepted(&without_holding(table).write()), accepted(&file));
            later += u64::from(before.jobs != now.jobs);
            loose += u64::from(loosened(&before, &now) > 0);
        }
    });
    println!("{numbers:?}, {later} with later finishes, {loose} with pairs that may preempt now");
    assert!([0, 10, 20].iter().all(|number| numbers[*number] >= 5_000), "{numbers:?}");
    assert!(later >= 5_000 && loose >= 2_000, "{later} {loose}");
}

#[test]
fn tables_in_memory() {
    let mut numbers = [0; 21];
    visit(&IN_MEMORY, |random, described| {
        let file = described.write_shuffled(random).0;
        let size = TABLE_ROOM + random.index(60);
        numbers[crate::writer::filled::compare(&file, size).number as usize] += 1;
        let short = TABLE_ROOM - 1 - random.index(40);
        numbers[crate::writer::filled::compare(&file, short).number as usize] += 1;
        // The description is a third opinion on what stands in memory.
        let mut memory = pattern(size);
        if table(&file, &mut memory).number == 0 {
            assert!(memory[..TABLE_ROOM] == described.memory(), "{file:02x?}");
        }
    });
    println!("{numbers:?}");
    assert!([0, 10, 20].iter().all(|number| numbers[*number] >= 5_000), "{numbers:?}");
}

#[test]
fn tables_written() {
    let (mut numbers, mut held) = ([0; 21], 0);
    visit(&WRITTEN, |random, table| {
        let mut memory = table.memory();
        if random.chance(1, 2) {
            litter(random, &mut memory);
        }
        let size = FILE_ROOM - 1 + random.index(30);
        let answer = crate::writer::differential::compare(&memory, &pattern(size));
        numbers[answer.number as usize] += 1;
        if answer.number == 0 {
            let mut file = pattern(FILE_ROOM);
            adqurim::raw::write(&memory, &mut file);
            assert!(file[..answer.length as usize] == table.write(), "{memory:02x?}");
            held += u64::from(table.holdings.iter().any(|holding| *holding > 0));
        }
    });
    println!("{numbers:?}, {held} with holding times");
    assert!([0, 10].iter().all(|number| numbers[*number] >= 5_000), "{numbers:?}");
    assert!(numbers[20] >= 200 && held >= 5_000, "{numbers:?} {held}");
}

/// Every byte of the holding times of some tables set to some values: in memory and in the file.
#[test]
fn every_byte_of_the_holding_times() {
    let (mut random, mut numbers) = (Random::new(969), [0; 21]);
    for _ in 0..40 {
        let table = random_holding(&mut random);
        let (memory, file) = (table.memory(), table.write());
        let first = file.len() / 16 - table.ceilings.len();
        for byte in [0, 1, 2, 7, 60, 128, 255] {
            for at in holding_at(0)..TABLE_ROOM {
                let mut changed = memory;
                changed[at] = byte;
                let answer = crate::writer::differential::compare(&changed, &pattern(FILE_ROOM));
                numbers[answer.number as usize] += 1;
            }
            for at in (16 * first..file.len()).filter(|at| at % 16 > 2) {
                let changed = edited(&file, &[(at, byte)]);
                assert_eq!(read(&changed), expected_read(&changed));
            }
        }
    }
    println!("{numbers:?}");
    assert!([0, 10].iter().all(|number| numbers[*number] >= 500), "{numbers:?}");
}
