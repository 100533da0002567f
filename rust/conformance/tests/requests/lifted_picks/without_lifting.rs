//! A file whose Picks start at zero means what it meant before E7 of document 02: its sheet, its text
//! but for the lowest values, and the answers to orders and plans with any value at a step are those
//! that the interpreter gave then, kept here as checksums. Both the interpreter and the proved
//! entries have to give them.

use crate::requests::waits::without_holding::Checksum;
use adqurim::raw::{self, RunAnswer, SheetAnswer, WriteAnswer};
use adqurim::{PLAN_ROOM, SHEET_ROOM, TEXT_ROOM};
use conformance::cases::accepted;
use conformance::families::*;
use conformance::orders::random_order;
use conformance::proved::*;
use generator::{random_long_hold, random_nest, random_nested_locks, random_race, Random};

/// The seeds differ, so that no family repeats the tables of another.
const FAMILIES: [Family; 7] = [
    Family { name: "small tables", seed: 1100, tables: 800, make: small },
    Family { name: "long bodies", seed: 1101, tables: 600, make: long },
    Family { name: "races", seed: 1102, tables: 500, make: random_race },
    Family { name: "nests", seed: 1103, tables: 500, make: random_nest },
    Family { name: "nests of four", seed: 1104, tables: 60, make: nest_of_four },
    Family { name: "nested locks", seed: 1105, tables: 500, make: random_nested_locks },
    Family { name: "long holds", seed: 1106, tables: 200, make: random_long_hold },
];

/// What a family came to: how many tables were accepted, how many lines of their texts are Picks, and
/// the checksum of all answers.
#[derive(Debug, Clone, Copy, PartialEq, Eq)]
struct Sum {
    accepted: u64,
    picks: u64,
    checksum: u64,
}

/// What they came to before E7.
const BEFORE: [Sum; 7] = [
    Sum { accepted: 571, picks: 201, checksum: 0xebfd_6906_1042_f352 },
    Sum { accepted: 429, picks: 336, checksum: 0x0519_5c1a_a8ad_1bb2 },
    Sum { accepted: 366, picks: 155, checksum: 0xf24b_8941_3608_df2f },
    Sum { accepted: 500, picks: 260, checksum: 0xf144_8a16_94e7_ce16 },
    Sum { accepted: 60, picks: 34, checksum: 0x9078_8b5f_c6d6_e514 },
    Sum { accepted: 500, picks: 216, checksum: 0x1e65_e938_1796_83cb },
    Sum { accepted: 199, picks: 0, checksum: 0xe363_721d_6555_3d00 },
];

/// The samples of before E7. Their texts have no Pick, and one of them is refused.
const SAMPLES: [&str; 8] = [
    "lost-update",
    "lost-update-locked",
    "nested-lock",
    "half-changed-lane",
    "lane-kept-apart",
    "long-hold",
    "slow-sorter",
    "too-many-orders",
];
const SAMPLES_BEFORE: Sum = Sum { accepted: 7, picks: 0, checksum: 0x1d07_cf56_555c_5c9a };

/// The values that a step of an order has room for, and some that a step of a plan has.
const VALUES_OF_ORDER: u8 = 16;
const VALUES_OF_PLAN: u8 = 20;

/// The entries of one side.
struct Side {
    sheet: fn(&[u8], &mut [u8]) -> SheetAnswer,
    file_to_text: fn(&[u8], &mut [u8]) -> WriteAnswer,
    replay: fn(&[u8], &[u8]) -> RunAnswer,
    order_to_plan: fn(&[u8], &[u8], &mut [u8]) -> RunAnswer,
    check_plan: fn(&[u8], &[u8]) -> RunAnswer,
}

const INTERPRETED: Side = Side {
    sheet: expected_sheet,
    file_to_text: expected_file_to_text,
    replay: expected_replay,
    order_to_plan: expected_order_to_plan,
    check_plan: expected_check_plan,
};

const PROVED: Side = Side {
    sheet: raw::sheet,
    file_to_text: raw::file_to_text,
    replay: raw::replay,
    order_to_plan: raw::order_to_plan,
    check_plan: raw::check_plan,
};

/// Whether a line is a Pick's.
fn is_pick(line: &&str) -> bool {
    line.starts_with("pick ")
}

/// A line as it was before E7: a Pick's without its lowest value.
fn line_before(line: &str) -> &str {
    match is_pick(&line) {
        true => line.strip_suffix(" 0").expect("the Picks of an old file start at zero"),
        false => line,
    }
}

impl Sum {
    fn new() -> Sum {
        Sum { accepted: 0, picks: 0, checksum: 0 }
    }
}

impl Side {
    /// Adds the sheet of a file and the text that it had before E7. True if it is accepted.
    fn add_file(&self, sum: &mut Sum, checksum: &mut Checksum, file: &[u8]) -> bool {
        let mut sheet = vec![7; SHEET_ROOM];
        checksum.add_words((self.sheet)(file, &mut sheet));
        checksum.add(&sheet);
        let mut text = vec![7; TEXT_ROOM];
        let answer = (self.file_to_text)(file, &mut text);
        checksum.add_words([answer.number, answer.place]);
        let text = String::from_utf8(text[..answer.length as usize].to_vec()).expect("it is ASCII");
        for line in text.lines() {
            sum.picks += u64::from(is_pick(&line));
            checksum.add(line_before(line).as_bytes());
            checksum.add(b"\n");
        }
        sum.accepted += u64::from(answer.number == 0);
        answer.number == 0
    }

    /// Adds the answers to a complete order and its plan, each value in turn at one of the steps.
    fn add_order(&self, checksum: &mut Checksum, random: &mut Random, file: &[u8], order: &[u8]) {
        let mut plan = [7; PLAN_ROOM];
        let planned = (self.order_to_plan)(file, order, &mut plan);
        checksum.add_words(planned);
        checksum.add(&plan);
        let (mut order, step) = (order.to_vec(), random.index(order.len()));
        for value in 0..VALUES_OF_ORDER {
            order[step] = order[step] / 16 * 16 + value;
            checksum.add_words((self.replay)(file, &order));
        }
        let plan = &mut plan[..planned.length as usize];
        let of_step = plan.len() - 1 - 2 * random.index(order.len());
        for value in 0..VALUES_OF_PLAN {
            plan[of_step] = value;
            checksum.add_words((self.check_plan)(file, plan));
        }
    }

    /// What a family comes to.
    fn sum_of(&self, family: &Family) -> Sum {
        let (mut random, mut checksum) = (Random::new(family.seed), Checksum::new());
        let mut sum = Sum::new();
        for _ in 0..family.tables {
            let file = (family.make)(&mut random).write_shuffled(&mut random).0;
            if self.add_file(&mut sum, &mut checksum, &file) {
                let order = random_order(&mut random, &accepted(&file));
                self.add_order(&mut checksum, &mut random, &file, &order);
            }
        }
        Sum { checksum: checksum.0, ..sum }
    }

    fn assert_as_before(&self) {
        let sums = FAMILIES.map(|family| self.sum_of(&family));
        println!("{sums:#x?}");
        for ((family, sum), before) in FAMILIES.iter().zip(sums).zip(BEFORE) {
            assert_eq!(sum, before, "{}", family.name);
        }
    }
}

#[test]
fn the_interpreter_answers_as_before() {
    INTERPRETED.assert_as_before();
}

#[test]
fn the_proved_entries_answer_as_before() {
    PROVED.assert_as_before();
}

#[test]
fn the_samples_are_answered_as_before() {
    for side in [INTERPRETED, PROVED] {
        let (mut sum, mut checksum) = (Sum::new(), Checksum::new());
        for name in SAMPLES {
            side.add_file(&mut sum, &mut checksum, &make_samples::named(name).file());
        }
        assert_eq!(Sum { checksum: checksum.0, ..sum }, SAMPLES_BEFORE);
    }
}
