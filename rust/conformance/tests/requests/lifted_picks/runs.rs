//! Picks that need not start at zero (document 02, E7): the proved entries, called through their C
//! interface, against the interpreter, on tables whose jobs meet and pick, and on tables of any size.
//! What walks would come to if each choice started at zero, or one above its lowest value, is tried
//! beside them, so that the tables are known to tell these apart.

use crate::conversions::there_and_back::{order_there_and_back, plan_there_and_back};
use adqurim::raw::{self, Verdict, WalkAnswer};
use adqurim::{FILE_ROOM, SHEET_ROOM, TABLE_ROOM, TEXT_ROOM};
use conformance::comparison::{
    assert_walk, compare_check_plan, compare_replay, TO_FILE, TO_MEMORY, TO_ORDER, TO_PLAN, TO_TEXT,
};
use conformance::entries::pattern;
use conformance::families::Family;
use conformance::lifting::*;
use conformance::orders::{changed as changed_order, late_order, random_order, variants};
use conformance::plans::{changed as changed_plan, drawn_plan, random_plan};
use conformance::proved::{expected_read, expected_walk};
use conformance::waits::record_of;
use generator::lifted::{lifted, LARGEST, PICK};
use generator::{random_lifted, random_lifted_picks, Random, TableDescription, TaskDescription};
use interpreter::timing::accept;
use interpreter::walk::{walk, Outcome};
use interpreter::Accepted;
use std::time::Instant;

/// The names of both sorts of tables. All of the first are accepted.
const MEETINGS: &str = "jobs that meet and pick";
const ANY: &str = "tables of any size";

const fn meetings(seed: u64, tables: usize) -> Family {
    Family { name: MEETINGS, seed, tables, make: random_lifted_picks }
}

const fn any(seed: u64, tables: usize) -> Family {
    Family { name: ANY, seed, tables, make: random_lifted }
}

/// The seeds differ, so that no family repeats the tables of another.
const REPLAYED: [Family; 2] = [meetings(1130, 22_000), any(1131, 1_000)];
const WALKED: [Family; 1] = [meetings(1132, 8_000)];
const CHECKED: [Family; 2] = [meetings(1133, 11_500), any(1134, 500)];
const CONVERTED_ORDERS: [Family; 2] = [meetings(1135, 4_500), any(1136, 200)];
const CONVERTED_PLANS: [Family; 2] = [meetings(1137, 4_500), any(1138, 200)];
const WRITTEN: [Family; 2] = [meetings(1139, 3_000), any(1140, 1_500)];
const PRINTED: [Family; 1] = [meetings(1141, 1_500)];

/// The tables whose jobs meet and pick, in replays, walks, plan checks and conversions together.
const TABLES: usize = 50_000;

/// How often each number came up; index 0 counts acceptances.
type Counts = [u64; 46];

/// An accepted table, and its file with the records shuffled.
struct Drawn {
    table: TableDescription,
    file: Vec<u8>,
    accepted: Accepted,
}

/// Visits the accepted tables of some families.
fn visit(families: &[Family], mut visit: impl FnMut(&mut Random, &Drawn)) {
    for family in families {
        let (begin, mut random) = (Instant::now(), Random::new(family.seed));
        let mut count = 0;
        for _ in 0..family.tables {
            let table = (family.make)(&mut random);
            let file = table.write_shuffled(&mut random).0;
            let Ok(accepted) = accept(&file) else { continue };
            visit(&mut random, &Drawn { table, file, accepted });
            count += 1;
        }
        println!("{count} of {} {}: {:?}", family.tables, family.name, begin.elapsed());
        assert!(count == family.tables || family.name == ANY && 2 * count > family.tables);
    }
}

#[test]
fn there_are_enough_tables() {
    let lists: [&[Family]; 5] = [&REPLAYED, &WALKED, &CHECKED, &CONVERTED_ORDERS, &CONVERTED_PLANS];
    let families = lists.concat();
    let meetings = families.iter().filter(|family| family.name == MEETINGS);
    assert!(meetings.map(|family| family.tables).sum::<usize>() >= TABLES);
}

#[test]
fn the_jobs_pick_in_many_ways() {
    let (mut random, mut counts) = (Random::new(1142), [0; SORTS.len()]);
    for _ in 0..2_000 {
        let table = random_lifted_picks(&mut random);
        assert!(lifted(&table).next().is_some());
        for body in table.tasks.iter().map(|task| &task.body) {
            for (count, (_, has_it)) in counts.iter_mut().zip(SORTS) {
                *count += u64::from(has_it(body));
            }
        }
    }
    for (count, (name, _)) in counts.iter().zip(SORTS) {
        println!("{name}: {count}");
        assert!(*count >= 80, "{name}: {count}");
    }
}

/// Asserts that each of these numbers came up so often.
fn assert_often(counts: &Counts, least: &[(usize, u64)]) {
    println!("{counts:?}");
    for (number, times) in least {
        assert!(counts[*number] >= *times, "number {number}: {} times", counts[*number]);
    }
}

/// Complete orders, the second with late starts; the first with a value just outside those of a Pick;
/// and two that are near to them.
fn some_orders(random: &mut Random, accepted: &Accepted) -> Vec<Vec<u8>> {
    let orders = [random_order(random, accepted), late_order(random, accepted, |_| {})];
    let mut near = variants(random, &orders[0], accepted);
    let mut made = vec![near.swap_remove(random.index(near.len()))];
    made.push(changed_order(random, &orders[1], accepted.table.tasks.len()));
    made.extend(order_outside(random, accepted, &orders[0]));
    made.extend(orders);
    made
}

#[test]
fn replays() {
    let (mut counts, mut sides) = ([0; 46], Sides::default());
    visit(&REPLAYED, |random, drawn| {
        for order in some_orders(random, &drawn.accepted) {
            let answer = compare_replay("some orders", &drawn.file, &order);
            counts[answer.number as usize] += 1;
            if answer.number == 34 {
                let step = answer.place as usize;
                sides.note(instruction_at(&drawn.accepted, &order, step), order[step] % 16);
            }
        }
    });
    assert_often(&counts, &[(0, 20_000), (30, 5_000), (31, 1_000), (32, 500)]);
    assert_often(&counts, &[(33, 1_000), (34, 10_000)]);
    println!("34: {sides:?}");
    assert!(sides.below >= 5_000 && sides.above >= 5_000 && sides.no_pick >= 1_000, "{sides:?}");
}

/// Every value at one of the Picks of a complete order, and every one that may be at one of a legal
/// plan: only those on offer are steps. Of what comes after, nothing is said.
#[test]
fn every_value_at_a_pick() {
    let (mut random, mut outside) = (Random::new(1143), [0; 2]);
    for _ in 0..1_000 {
        let file = random_lifted_picks(&mut random).write_shuffled(&mut random).0;
        let accepted = accept(&file).expect("the jobs meet in an accepted table");
        let mut order = late_order(&mut random, &accepted, |_| {});
        if let Some(Performed { at, offer }) = some(&mut random, picks_of_order(&accepted, &order))
        {
            for value in 0..=LARGEST {
                order[at] = order[at] / 16 * 16 + value;
                let answer = compare_replay("every value", &file, &order);
                let refused = (answer.number, answer.place) == (34, at as u64);
                assert_eq!(refused, !offer.contains(&value), "{value} at {at}: {file:02x?}");
                outside[0] += u64::from(refused);
            }
        }
        let mut plan = random_plan(&mut random, &accepted);
        if let Some(Performed { at, offer }) = some(&mut random, picks_of_plan(&accepted, &plan)) {
            for value in (0..=LARGEST + 2).chain([127, 128, 255]) {
                plan[at] = value;
                let answer = compare_check_plan("every value", &file, &plan);
                let refused = (answer.number, answer.place) == (41, at as u64);
                assert_eq!(refused, !offer.contains(&value), "{value} at {at}: {file:02x?}");
                outside[1] += u64::from(refused);
            }
        }
    }
    assert!(outside.iter().all(|times| *times >= 10_000), "{outside:?}");
}

/// The sizes of order buffers that have room, the first two with bytes beyond it, and one that has
/// none.
const SIZES: [usize; 3] = [600, 513, 512];
const TOO_SHORT: usize = 511;

/// More moves than a table of jobs that meet has. If its choices started at zero it might have more
/// than the second.
const LARGE: u64 = 20_000;
const ENOUGH: u64 = 2_000;

/// What the walks came to, and what they would have if each choice started elsewhere.
#[derive(Debug, Default)]
struct Walks {
    holds: u64,
    fails: u64,
    /// Failing orders that pick a value above zero, and one above the lowest of its Pick.
    above_zero: u64,
    above_lowest: u64,
    /// Tables whose verdict, and whose failing order, would be another if choices started at zero.
    other_from_zero: u64,
    other_order_from_zero: u64,
    /// The same if they started one above their lowest value.
    other_from_next: u64,
    other_order_from_next: u64,
}

/// Asserts that both walks give one answer and leave one buffer; the answer and the failing order.
fn walked(file: &[u8], allowance: u64, size: usize) -> (WalkAnswer, Vec<u8>) {
    let mut left = pattern(size);
    let answer = expected_walk(file, allowance, &mut left);
    assert_walk("lifted Picks", file, allowance, &answer, &left);
    left.truncate(answer.length as usize);
    (answer, left)
}

/// The failing order of a table whose choices start elsewhere, if it fails; nothing if it is
/// undecided.
fn failing_with(table: &TableDescription, lowest: fn(u8, u8) -> u8) -> Option<Option<Vec<u8>>> {
    let changed = accept(&with_lowest(table, lowest).write()).expect("the times are the same");
    match walk(&changed, ENOUGH) {
        Outcome::Undecided => None,
        Outcome::Holds { .. } => Some(None),
        Outcome::Fails { order, .. } => Some(Some(order)),
    }
}

impl Walks {
    fn note(&mut self, accepted: &Accepted, failing: Option<&[u8]>) {
        let Some(order) = failing else {
            self.holds += 1;
            return;
        };
        let picks = picks_of_order(accepted, order);
        let value = |pick: &Performed| order[pick.at] % 16;
        self.fails += 1;
        self.above_zero += u64::from(picks.iter().any(|pick| value(pick) > 0));
        self.above_lowest += u64::from(picks.iter().any(|pick| value(pick) > *pick.offer.start()));
    }

    /// Counts how it would be if choices started elsewhere. From zero on they have all the values that
    /// they have now, and from one above their lowest (if there is one) no others.
    fn note_elsewhere(&mut self, table: &TableDescription, failing: Option<&[u8]>) {
        match (failing, failing_with(table, |_, _| 0)) {
            (None, Some(Some(_))) => self.other_from_zero += 1,
            (Some(order), Some(Some(other))) => {
                self.other_order_from_zero += u64::from(other != order)
            }
            (Some(_), Some(None)) => panic!("what fails now would fail: {table:?}"),
            _ => {}
        }
        match (failing, failing_with(table, |lowest, highest| highest.min(lowest + 1))) {
            (Some(_), Some(None)) => self.other_from_next += 1,
            (Some(order), Some(Some(other))) => {
                self.other_order_from_next += u64::from(other != order)
            }
            (None, Some(Some(_))) => panic!("what holds now would hold: {table:?}"),
            _ => {}
        }
    }
}

#[test]
fn walks() {
    let mut walks = Walks::default();
    visit(&WALKED, |random, Drawn { table, file, accepted }| {
        let (answer, order) = walked(file, LARGE, SIZES[random.index(SIZES.len())]);
        assert_eq!(answer.number, 0, "{file:02x?}");
        let failing = Some(&order[..]).filter(|_| answer.verdict == Verdict::Fails);
        walks.note(accepted, failing);
        if random.chance(1, 4) {
            walks.note_elsewhere(table, failing);
            assert_eq!(walked(file, answer.count, SIZES[0]), (answer, order));
            assert_eq!(walked(file, answer.count - 1, SIZES[0]).0.number, 21);
            assert_eq!(walked(file, LARGE, TOO_SHORT).0.number, 20);
        }
    });
    println!("{walks:?}");
    assert!(walks.holds >= 4_000 && walks.fails >= 2_500, "{walks:?}");
    assert!(walks.above_zero >= 2_500 && walks.above_lowest >= 400, "{walks:?}");
    assert!(walks.other_from_zero >= 200 && walks.other_order_from_zero >= 200, "{walks:?}");
    assert!(walks.other_from_next >= 50 && walks.other_order_from_next >= 200, "{walks:?}");
}

/// Legal plans, one with a value just outside those of a Pick, one with a round or a value changed,
/// and one with rounds drawn at random and any byte changed.
fn some_plans(random: &mut Random, accepted: &Accepted) -> Vec<Vec<u8>> {
    let [legal, other] = [random_plan(random, accepted), random_plan(random, accepted)];
    let steps = 1 + 8 * accepted.jobs.len()..legal.len();
    let mut made = Vec::from_iter(plan_outside(random, accepted, &other));
    if !accepted.jobs.is_empty() {
        let drawn = drawn_plan(random, accepted);
        made.push(changed_plan(random, &drawn, 0..drawn.len()));
        made.extend([changed_plan(random, &legal, steps), drawn]);
    }
    made.extend([legal, other]);
    made
}

#[test]
fn plan_checks() {
    let (mut counts, mut sides) = ([0; 46], Sides::default());
    visit(&CHECKED, |random, drawn| {
        for plan in some_plans(random, &drawn.accepted) {
            let answer = compare_check_plan("some plans", &drawn.file, &plan);
            counts[answer.number as usize] += 1;
            if answer.number == 41 {
                let place = answer.place as usize;
                let performed = instructions_of_plan(&drawn.accepted, &plan);
                let at_place = performed.iter().find(|(at, _)| *at == place);
                sides.note(at_place.expect("a step is refused by 41").1, plan[place]);
            }
        }
    });
    assert_often(&counts, &[(0, 20_000), (40, 100), (41, 10_000), (42, 1_000)]);
    assert_often(&counts, &[(43, 2_000), (44, 200), (45, 2_000)]);
    println!("41: {sides:?}");
    assert!(sides.below >= 4_000 && sides.above >= 4_000 && sides.no_pick >= 1_000, "{sides:?}");
}

#[test]
fn orders_become_plans_and_come_back() {
    let mut counts = [0; 46];
    visit(&CONVERTED_ORDERS, |random, drawn| {
        for order in some_orders(random, &drawn.accepted) {
            let size = TO_PLAN.room + random.index(40);
            let number = TO_PLAN.compare(&drawn.file, &order, size).number;
            counts[number as usize] += 1;
            if number == 0 {
                order_there_and_back(&drawn.file, &order);
            }
        }
    });
    assert_often(
        &counts,
        &[(0, 10_000), (30, 1_000), (31, 300), (32, 200), (33, 300), (34, 4_000)],
    );
}

#[test]
fn plans_become_orders_and_come_back() {
    let mut counts = [0; 46];
    visit(&CONVERTED_PLANS, |random, drawn| {
        for plan in some_plans(random, &drawn.accepted) {
            let size = TO_ORDER.room + random.index(40);
            let number = TO_ORDER.compare(&drawn.file, &plan, size).number;
            counts[number as usize] += 1;
            if number == 0 {
                plan_there_and_back(&drawn.file, &plan);
            }
        }
    });
    assert_often(&counts, &[(0, 10_000), (41, 4_000), (42, 500), (43, 1_000), (45, 500)]);
}

/// A file goes to memory and to its text and from each to a file: the description's own, byte for
/// byte.
#[test]
fn files_tables_and_texts() {
    let mut lifted_lines = 0;
    visit(&WRITTEN, |random, Drawn { table, file, .. }| {
        let blank = |room: usize, random: &mut Random| pattern(room + random.index(30));
        TO_MEMORY.compare(file, &blank(TABLE_ROOM, random));
        TO_TEXT.compare(file, &blank(TEXT_ROOM, random));
        TO_FILE.compare(&table.text(), &blank(FILE_ROOM, random));
        crate::writer::differential::compare(&table.memory(), &blank(FILE_ROOM, random));
        let mut memory = [7; TABLE_ROOM];
        raw::table(file, &mut memory);
        assert!(memory == table.memory(), "{file:02x?}");
        let text = adqurim::file_to_text(file).expect("the file is accepted").into_bytes();
        assert!(text == table.text(), "{}", text.escape_ascii());
        let mut written = vec![7; FILE_ROOM];
        let length = raw::write(&memory, &mut written).length as usize;
        assert!(written[..length] == table.write(), "{file:02x?}");
        assert_eq!(adqurim::text_to_file(&text).as_ref(), Ok(&table.write()));
        lifted_lines += lifted(table).count();
    });
    assert!(lifted_lines >= 8_000, "{lifted_lines}");
}

/// A pair of fields b and c that no Pick has: c above b, mostly by little, or b above 15.
fn wrong_fields(random: &mut Random, highest: u8) -> (u8, u8) {
    let b = if random.chance(1, 2) { highest } else { random.byte() };
    let c = match random.between(0, 2) {
        0 => b.saturating_add(1),
        1 => random.between(b.into(), 255) as u8,
        _ => random.byte(),
    };
    if c <= b && b <= LARGEST {
        (b, b + 1)
    } else {
        (b, c)
    }
}

/// One Pick of a table with wrong fields: 4 at its record, whatever its place in the file, at the
/// index that it would have had, and at its line.
#[test]
fn a_pick_with_wrong_fields() {
    let (mut random, mut places) = (Random::new(1144), std::collections::BTreeSet::new());
    for _ in 0..3_000 {
        let mut table = random_lifted(&mut random);
        let bodies = table.tasks.iter().enumerate();
        let of_body = |(task, one): (usize, &TaskDescription)| -> Vec<(usize, usize)> {
            let is_pick = |at: &usize| one.body[*at].operation == PICK;
            (0..one.body.len()).filter(is_pick).map(|at| (task, at)).collect()
        };
        let picks: Vec<(usize, usize)> = bodies.flat_map(of_body).collect();
        let (task, position) = picks[random.index(picks.len())];
        let record = record_of(&table, task) + 1 + position;
        let pick = &mut table.tasks[task].body[position];
        (pick.b, pick.c) = wrong_fields(&mut random, pick.b);
        let (file, went) = table.write_shuffled(&mut random);
        let answer = raw::read(&file);
        assert_eq!((answer.number, answer.place), (4, went[record] as u64), "{file:02x?}");
        assert_eq!(expected_read(&file), answer);
        let size = FILE_ROOM + random.index(9);
        let written = crate::writer::differential::compare(&table.memory(), &pattern(size));
        assert_eq!((written.number, written.place), (4, record as u64), "{file:02x?}");
        let converted = TO_FILE.compare(&table.text(), &pattern(size));
        assert_eq!((converted.number, converted.place), (4, record as u64 + 1), "{file:02x?}");
        places.insert(record);
    }
    assert!(places.len() >= 80, "{places:?}");
}

#[test]
fn sheets() {
    let [mut holds, mut fails] = [0; 2];
    visit(&PRINTED, |random, drawn| {
        let sheet = crate::sheet::differential::compare(&drawn.file, SHEET_ROOM + random.index(3));
        holds += u32::from(sheet.contains("verdict holds"));
        fails += u32::from(sheet.contains("verdict fails"));
    });
    assert!(holds >= 500 && fails >= 400, "{holds} {fails}");
}
