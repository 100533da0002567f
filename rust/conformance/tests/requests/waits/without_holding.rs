//! A file whose locks are held for no time means what it meant before E4 of document 02: the answers
//! to the samples of that time and to seeded tables are those that the interpreter gave then, kept
//! here as checksums. Both the interpreter and the proved entries have to give them.

use adqurim::raw::{self, Job, JobsAnswer, ReadAnswer, RunAnswer, WalkAnswer, WriteAnswer};
use adqurim::{JOB_LIST_ROOM, ORDER_ROOM, PLAN_ROOM, TABLE_ROOM};
use conformance::cases::accepted;
use conformance::families::*;
use conformance::orders::random_order;
use conformance::proved::*;
use generator::{random_nest, random_nested_locks, random_race, Random};

/// The seeds differ, so that no family repeats the tables of another.
const FAMILIES: [Family; 8] = [
    Family { name: "small tables", seed: 950, tables: 1_500, make: small },
    Family { name: "long bodies", seed: 951, tables: 1_500, make: long },
    Family { name: "races", seed: 952, tables: 1_500, make: random_race },
    Family { name: "nests", seed: 953, tables: 1_500, make: random_nest },
    Family { name: "nests of four", seed: 954, tables: 500, make: nest_of_four },
    Family { name: "nested locks", seed: 955, tables: 1_500, make: random_nested_locks },
    Family { name: "tables of any size", seed: 956, tables: 3_000, make: any },
    Family { name: "many jobs", seed: 957, tables: 1_500, make: crowded },
];

/// How many tables of each family were accepted, and the checksum of all answers.
const BEFORE: [(u64, u64); 8] = [
    (1_092, 0xee01_a3b1_7607_b47a),
    (1_133, 0x6210_2313_6eb4_8844),
    (1_109, 0xcb39_d5f9_c949_252a),
    (1_500, 0x6c45_12c6_c15f_9dd8),
    (500, 0xd444_b8b0_cb44_6bde),
    (1_500, 0x9d9a_3f48_e94d_e415),
    (2_459, 0xd55c_fbbd_ac32_2276),
    (758, 0x7c66_9ee1_27ba_9330),
];

/// The samples before E4, all their answers in one checksum.
const SAMPLES: [&str; 7] = [
    "lost-update",
    "lost-update-locked",
    "nested-lock",
    "half-changed-lane",
    "lane-kept-apart",
    "slow-sorter",
    "too-many-orders",
];
const SAMPLES_BEFORE: (u64, u64) = (6, 0xdd6d_a7f7_8ea2_3341);

/// The moves that a walk may make. Larger trees stay undecided.
const ALLOWANCE: u64 = 2_000;

/// A table in memory had so many bytes; the holding times stand past them.
const TABLE_ROOM_BEFORE: usize = 664;
/// Room for a table in memory then and now.
const MEMORY: usize = 800;

/// A checksum of 64 bits (FNV-1a).
pub(crate) struct Checksum(pub(crate) u64);

impl Checksum {
    pub(crate) fn new() -> Checksum {
        Checksum(0xcbf2_9ce4_8422_2325)
    }

    pub(crate) fn add(&mut self, bytes: &[u8]) {
        for byte in bytes {
            self.0 = (self.0 ^ u64::from(*byte)).wrapping_mul(0x0100_0000_01b3);
        }
    }

    pub(crate) fn add_words<const LONG: usize>(&mut self, words: impl Into<[u64; LONG]>) {
        words.into().iter().for_each(|word| self.add(&word.to_le_bytes()));
    }
}

/// The entries of one side.
struct Side {
    read: fn(&[u8]) -> ReadAnswer,
    jobs: fn(&[u8], &mut [Job]) -> JobsAnswer,
    walk: fn(&[u8], u64, &mut [u8]) -> WalkAnswer,
    replay: fn(&[u8], &[u8]) -> RunAnswer,
    order_to_plan: fn(&[u8], &[u8], &mut [u8]) -> RunAnswer,
    check_plan: fn(&[u8], &[u8]) -> RunAnswer,
    table: fn(&[u8], &mut [u8]) -> WriteAnswer,
}

const INTERPRETED: Side = Side {
    read: expected_read,
    jobs: expected_jobs,
    walk: expected_walk,
    replay: expected_replay,
    order_to_plan: expected_order_to_plan,
    check_plan: expected_check_plan,
    table: expected_table,
};

const PROVED: Side = Side {
    read: raw::read,
    jobs: raw::jobs,
    walk: raw::walk,
    replay: raw::replay,
    order_to_plan: raw::order_to_plan,
    check_plan: raw::check_plan,
    table: raw::table,
};

impl Side {
    /// Adds the answers to a file and what they leave in lent memory. True if it is accepted.
    fn add_file(&self, sum: &mut Checksum, file: &[u8]) -> bool {
        let read = (self.read)(file);
        sum.add_words(read);
        let mut list = [Job::default(); JOB_LIST_ROOM];
        sum.add_words((self.jobs)(file, &mut list));
        for Job { task, arrival, latest } in list {
            sum.add_words([task.into(), arrival, latest]);
        }
        let mut order = [7; ORDER_ROOM];
        sum.add_words((self.walk)(file, ALLOWANCE, &mut order));
        sum.add(&order);
        let mut memory = [7; MEMORY];
        let filled = (self.table)(file, &mut memory);
        sum.add_words([filled.number, filled.place]);
        sum.add(&memory[..TABLE_ROOM_BEFORE]);
        read.number == 0
    }

    /// Adds the answers to a complete order and its plan, and to the order with a byte changed.
    fn add_order(&self, sum: &mut Checksum, file: &[u8], order: &[u8]) {
        let mut plan = [7; PLAN_ROOM];
        let planned = (self.order_to_plan)(file, order, &mut plan);
        sum.add_words((self.replay)(file, order));
        sum.add_words(planned);
        sum.add(&plan);
        sum.add_words((self.check_plan)(file, &plan[..planned.length as usize]));
        for at in 0..order.len() {
            let mut changed = order.to_vec();
            changed[at] = changed[at].wrapping_add(16);
            sum.add_words((self.replay)(file, &changed));
        }
    }
}

/// How many tables of a family are accepted, and the checksum of all answers.
fn sum_of(family: &Family, side: &Side) -> (u64, u64) {
    let mut random = Random::new(family.seed);
    let (mut sum, mut count) = (Checksum::new(), 0);
    for _ in 0..family.tables {
        let file = (family.make)(&mut random).write_shuffled(&mut random).0;
        if side.add_file(&mut sum, &file) {
            let order = random_order(&mut random, &accepted(&file));
            side.add_order(&mut sum, &file, &order);
            count += 1;
        }
    }
    (count, sum.0)
}

fn assert_as_before(side: &Side) {
    let sums: Vec<(u64, u64)> = FAMILIES.iter().map(|family| sum_of(family, side)).collect();
    println!("{sums:x?}");
    for ((family, sum), before) in FAMILIES.iter().zip(&sums).zip(BEFORE) {
        assert_eq!(*sum, before, "{}", family.name);
    }
}

#[test]
fn the_interpreter_answers_as_before() {
    assert_as_before(&INTERPRETED);
}

#[test]
fn the_proved_entries_answer_as_before() {
    assert_as_before(&PROVED);
}

#[test]
fn the_samples_are_answered_as_before() {
    for side in [INTERPRETED, PROVED] {
        let (mut sum, mut count) = (Checksum::new(), 0);
        for sample in make_samples::all().iter().filter(|sample| SAMPLES.contains(&sample.name)) {
            count += u64::from(side.add_file(&mut sum, &sample.file()));
        }
        assert_eq!((count, sum.0), SAMPLES_BEFORE);
    }
}

/// What stands past the bytes of before: no holding times.
#[test]
fn tables_in_memory_end_with_zeros() {
    let mut random = Random::new(958);
    let mut count = 0;
    for _ in 0..2_000 {
        let file = any(&mut random).write();
        for side in [INTERPRETED, PROVED] {
            let mut memory = [7; MEMORY];
            let filled = (side.table)(&file, &mut memory);
            let past = &memory[TABLE_ROOM_BEFORE..TABLE_ROOM];
            let byte = if filled.number == 0 { 0 } else { 7 };
            assert!(past.iter().all(|past| *past == byte), "{file:02x?}");
            count += u64::from(filled.number == 0);
        }
    }
    assert!(count >= 2_000, "{count}");
}
