//! What a refusal says: its rule by number and name, and its place in words; with an order at hand,
//! what is wrong with a step, and with a table, with a task, an instruction or a lock.

use adqurim::{Instruction, Place, Refusal, Rule, Site, Table, TaskEntry};
use conformance::cases::{edited, plan, plan_of_x, table_x, tasks, ORDER_OF_X};
use conformance::entries::pattern;
use conformance::families::refused_files;
use generator::{code, TableDescription, TaskDescription};
use std::collections::BTreeSet;

/// The numbers and names of document 01, and document 02's 33, 34 and 60 to 62.
const NAMES: [(u64, &str); 27] = [
    (1, "SIZE"),
    (2, "KIND"),
    (3, "CHAIN"),
    (4, "FIELD"),
    (5, "COUNT"),
    (6, "STRAY"),
    (7, "BODY"),
    (8, "RATE"),
    (9, "CEILING"),
    (10, "OVERLOAD"),
    (11, "JOBS"),
    (20, "ROOM"),
    (21, "UNDECIDED"),
    (30, "STEP"),
    (31, "SHORT"),
    (32, "EXTRA"),
    (33, "TASK"),
    (34, "OFFER"),
    (40, "SHAPE"),
    (41, "VALUE"),
    (42, "ROUND"),
    (43, "ORDER"),
    (44, "LOCK"),
    (45, "GUESS"),
    (60, "LINE"),
    (61, "LARGE"),
    (62, "LONG"),
];

/// What the place is, by the papers: the number says whose.
fn place_by_document(number: u64) -> Place {
    match number {
        1 | 11 | 20 | 21 | 62 => Place::Nowhere,
        2..=10 => Place::Record,
        30..=34 => Place::Step,
        40..=42 => Place::Offset,
        43 | 44 => Place::Job,
        45 => Place::Round,
        _ => Place::Line,
    }
}

#[test]
fn rules_are_those_of_the_papers() {
    let rules: Vec<(u64, &str)> = Rule::all().map(|rule| (rule.number(), rule.name())).collect();
    assert_eq!(rules, NAMES);
    for number in (0..=1_000).chain([u64::MAX]) {
        let name = NAMES.iter().find(|named| named.0 == number).map(|named| named.1);
        assert_eq!(Rule::from_number(number).map(Rule::name), name, "{number}");
    }
    for rule in Rule::all() {
        assert_eq!(Rule::from_number(rule.number()), Some(rule));
        assert_eq!(rule.place(), place_by_document(rule.number()), "{rule:?}");
    }
}

/// Asserts that a message begins with its place, if it has one, and ends with its rule.
fn assert_says(refusal: Refusal) {
    let (message, place) = (refusal.to_string(), refusal.place);
    let rule = refusal.rule().expect("a number of the papers");
    let end = format!(" ({} {})", rule.number(), rule.name());
    assert!(message.ends_with(&end), "{message}");
    match rule.place().noun() {
        Some(noun) => assert!(message.starts_with(&format!("{noun} {place} ")), "{message}"),
        None => assert!(message.starts_with("the "), "{message}"),
    }
    assert!(message.len() > end.len() + 20, "no rule is said: {message}");
}

#[test]
fn each_message_says_its_place_and_rule() {
    let mut sentences = BTreeSet::new();
    for (number, _) in NAMES {
        for place in [0, 7, 255, 1_281] {
            assert_says(Refusal { number, place });
        }
        let message = Refusal { number, place: 0 }.to_string();
        let (sentence, _) = message.split_once(" (").expect("the rule follows");
        assert!(sentences.insert(sentence.to_string()), "said twice: {sentence}");
    }
}

#[test]
fn some_messages_whole() {
    #[rustfmt::skip]
    let expected = [
        (1, 0, "the file's length is 0, above 4,096 or no multiple of 16 (1 SIZE)"),
        (2, 7, "record 7 has the wrong kind for its chain (2 KIND)"),
        (11, 0, "the table has more than 32 jobs (11 JOBS)"),
        (21, 0, "the walk's count exceeds the allowance (21 UNDECIDED)"),
        (30, 3, "step 3 names a task that has no turn here (30 STEP)"),
        (31, 8, "step 8 is missing: the order ends with jobs unfinished (31 SHORT)"),
        (32, 8, "step 8 is one too many: all jobs ended before it (32 EXTRA)"),
        (33, 3, "step 3 names a task that does not exist (33 TASK)"),
        (34, 3, "step 3 names a value that is not on offer: a Pick offers c to b, any other \
            instruction 0 (34 OFFER)"),
        (40, 33, "offset 33 of the plan has the first wrong, missing or extra byte (40 SHAPE)"),
        (41, 18, "offset 18 of the plan has a value that its instruction does not allow: a Pick \
            allows c to b, any other instruction 0 (41 VALUE)"),
        (42, 17, "offset 17 of the plan has a round that is not below the number of jobs, \
            or is below that of the job's previous step (42 ROUND)"),
        (43, 0, "job 0 and a job with a higher number break the round rules, locks aside \
            (43 ORDER)"),
        (44, 1, "job 1 and a job with a higher number nest, but the outer one's priority is not \
            below the inner one's base (44 LOCK)"),
        (45, 1, "round 1 is the lowest with a wrong guess (45 GUESS)"),
        (60, 3, "line 3 is not in the grammar of texts, or is missing (60 LINE)"),
        (61, 3, "line 3 has a number that is too large for its field (61 LARGE)"),
        (62, 0, "the text has more than 8,192 bytes (62 LONG)"),
        (12, 4, "refused by the unknown number 12 at place 4"),
        (u64::MAX, 0, "refused by the unknown number 18446744073709551615 at place 0"),
    ];
    for (number, place, message) in expected {
        let refusal: Box<dyn std::error::Error> = Box::new(Refusal { number, place });
        assert_eq!(refusal.to_string(), message);
    }
}

#[test]
fn steps_with_the_order_at_hand() {
    #[rustfmt::skip]
    let expected: [(&[u8], u64, u64, &str); 7] = [
        (&[0, 0, 0, 80], 33, 3, "step 3: task 5 does not exist (33 TASK)"),
        (&[255], 33, 0, "step 0: task 15 does not exist (33 TASK)"),
        (&[0, 16, 16, 0], 30, 3, "step 3: task 0 has no turn here (30 STEP)"),
        (&[0, 47, 0], 30, 1, "step 1: task 2 has no turn here (30 STEP)"),
        (&[0, 23], 34, 1, "step 1: value 7 is not on offer (34 OFFER)"),
        (&[1], 34, 0, "step 0: value 1 is not on offer (34 OFFER)"),
        (&[127], 34, 0, "step 0: value 15 is not on offer (34 OFFER)"),
    ];
    for (order, number, place, message) in expected {
        let refusal = Refusal { number, place };
        assert_eq!(refusal.in_order(order).to_string(), message);
    }
}

/// Every other refusal has its plain message, and so has one whose place is no step of the order.
#[test]
fn other_refusals_with_an_order_at_hand() {
    let order = [0, 80, 23];
    for number in (0..=70).chain([u64::MAX]) {
        for place in [0, 2, 3, 1_281, u64::MAX] {
            let refusal = Refusal { number, place };
            let is_step = [30, 33, 34].contains(&number) && place < 3;
            let plain = refusal.in_order(&order).to_string() == refusal.to_string();
            assert_eq!(plain, !is_step, "{refusal:?}");
            assert_eq!(refusal.in_order(&[]).to_string(), refusal.to_string());
        }
    }
}

/// A job that picks a lane from 3 to 6 into register 0, and its plan.
fn lane() -> (Vec<u8>, Vec<u8>) {
    let body = [code::pick_between(0, 3, 6), code::store(0, 0), code::end()];
    (tasks(1, &[[1, 1, 0]], &body).write(), vec![1, 0, 0, 0, 0, 0, 0, 0, 0, 0, 4, 0, 0, 0, 0])
}

/// Where the value of the Pick is in that plan; that of the step after it is 2 bytes on.
const PICKED: usize = 10;

#[test]
fn values_on_offer_in_an_order() {
    let (file, _) = lane();
    for value in 3..=6 {
        assert!(adqurim::replay(&file, &[value, 0, 0]).is_ok());
    }
    for value in (0..3).chain(7..16) {
        let order = [value, 0, 0];
        let refusal = adqurim::replay(&file, &order).expect_err("it is refused");
        assert_eq!(refusal, Refusal { number: 34, place: 0 });
        let says = format!("step 0: value {value} is not on offer (34 OFFER)");
        assert_eq!(refusal.in_order(&order).to_string(), says);
        assert_eq!(refusal.on_offer(&file, &order), Some(3..=6));
    }
    let order = [5, 5, 0];
    let refusal = adqurim::replay(&file, &order).expect_err("it is refused");
    assert_eq!(refusal, Refusal { number: 34, place: 1 });
    assert_eq!(refusal.on_offer(&file, &order), Some(0..=0));
}

#[test]
fn values_on_offer_in_a_plan() {
    let (file, plan) = lane();
    for value in 0..=u8::MAX {
        let plan = edited(&plan, &[(PICKED, value)]);
        if (3..=6).contains(&value) {
            let ending = adqurim::check_plan(&file, &plan).expect("it is legal");
            assert_eq!(ending.end_store[0], value);
            continue;
        }
        let refusal = adqurim::check_plan(&file, &plan).expect_err("it is refused");
        assert_eq!(refusal, Refusal { number: 41, place: PICKED as u64 });
        assert_eq!(refusal.on_offer(&file, &plan), Some(3..=6));
    }
    let plan = edited(&plan, &[(PICKED + 2, 3)]);
    let refusal = adqurim::check_plan(&file, &plan).expect_err("it is refused");
    assert_eq!(refusal, Refusal { number: 41, place: PICKED as u64 + 2 });
    assert_eq!(refusal.on_offer(&file, &plan), Some(0..=0));
}

/// No values are given of another refusal, or if the file and the bytes are not refused so.
#[test]
fn no_values_on_offer() {
    let (file, plan) = lane();
    let (order, wrong_plan) = ([2, 0, 0], edited(&plan, &[(PICKED, 2)]));
    for number in (0..=70).chain([u64::MAX]) {
        for place in [0, 1, 2, 3, 10, 12, 15, 1_281, u64::MAX] {
            let refusal = Refusal { number, place };
            let given = |file: &[u8], bytes: &[u8]| refusal.on_offer(file, bytes).is_some();
            assert_eq!(given(&file, &order), (number, place) == (34, 0), "{refusal:?}");
            // The first byte of a plan, 1, is no value of the Pick either.
            let so = [(34, 0), (41, PICKED as u64)].contains(&(number, place));
            assert_eq!(given(&file, &wrong_plan), so, "{refusal:?}");
            for bytes in [&[][..], &[4, 0, 0], &[4, 0], &[20, 0]] {
                assert!(!given(&file, bytes), "{refusal:?} {bytes:?}");
            }
            assert!(number == 34 || !given(&file, &plan), "{refusal:?}");
            assert!(!given(&file[1..], &order) && !given(&file[1..], &wrong_plan), "{refusal:?}");
        }
    }
}

/// Table X with two locks, as the binding has tables.
fn x_with_locks() -> Table {
    let mut table = table_x();
    table.ceilings = vec![1, 0];
    adqurim::table(&table.write()).expect("the table is accepted")
}

fn instruction(operation: u8, a: u8, b: u8, c: u8) -> Instruction {
    Instruction { operation, a, b, c }
}

/// What is done to a table in memory.
type Edit = fn(&mut Table);

/// Edits table X with locks, writes it, and asserts what the refusal says.
fn assert_table_says(edit: Edit, message: &str) {
    let mut table = x_with_locks();
    edit(&mut table);
    let refusal = adqurim::write(&table).expect_err(message);
    assert_eq!(refusal.in_table(&table).to_string(), message);
}

#[test]
fn fields_and_counts_with_the_table_at_hand() {
    #[rustfmt::skip]
    let expected: [(Edit, &str); 16] = [
        (|table| table.window = 0, "the header (record 0): the window is 0 (4 FIELD)"),
        (|table| table.tasks[0].execution = 9,
            "task 0 (record 1): the execution time 9 is not from 1 to the period 8 (4 FIELD)"),
        (|table| table.tasks[1].execution = 0,
            "task 1 (record 7): the execution time 0 is not from 1 to the period 4 (4 FIELD)"),
        (|table| table.tasks[1].body[2].operation = 12,
            "instruction 2 of task 1 (record 10): there is no operation 12 (4 FIELD)"),
        (|table| table.tasks[0].body[3].c = 1,
            "instruction 3 of task 0 (record 5): a field of operation 11 is out of range or unused \
             and not 0 (4 FIELD)"),
        (|table| table.tasks[1].body[0] = instruction(8, 0, 3, 6),
            "instruction 0 of task 1 (record 8): c 6, the lowest value, is above b 3, the highest \
             (4 FIELD)"),
        (|table| table.tasks[0].body[4] = instruction(8, 4, 6, 3),
            "instruction 4 of task 0 (record 6): a field of operation 8 is out of range or unused \
             and not 0 (4 FIELD)"),
        (|table| table.tasks[0].body[1].c = 1,
            "instruction 1 of task 0 (record 3): a field of operation 1 is out of range or unused \
             and not 0 (4 FIELD)"),
        (|table| table.ceilings[1] = 8, "lock 1 (record 12): the ceiling 8 is above 7 (4 FIELD)"),
        (|table| table.tasks.clear(), "the header (record 0): there are no tasks (5 COUNT)"),
        (|table| table.tasks[1].body.clear(), "task 1 (record 7): the body is empty (5 COUNT)"),
        (|table| table.tasks[0].body.clear(), "task 0 (record 1): the body is empty (5 COUNT)"),
        (|table| table.tasks.resize(9, table.tasks[1].clone()),
            "task 8 (record 35): it is a task too many (5 COUNT)"),
        (|table| table.tasks.resize(300, table.tasks[1].clone()),
            "task 8 (record 35): it is a task too many (5 COUNT)"),
        (|table| table.tasks[1].body.resize(17, Instruction::default()),
            "instruction 16 of task 1 (record 24): it is an instruction too many (5 COUNT)"),
        (|table| table.ceilings.resize(9, 7),
            "lock 8 (record 19): it is a lock too many (5 COUNT)"),
    ];
    expected.iter().for_each(|(edit, message)| assert_table_says(*edit, message));
}

#[test]
fn rules_of_a_table_with_the_table_at_hand() {
    #[rustfmt::skip]
    let expected: [(Edit, &str); 10] = [
        (|table| table.tasks[0].body[4] = instruction(3, 0, 0, 0),
            "instruction 4 of task 0 (record 6): it is the body's last and not End (7 BODY)"),
        (|table| table.tasks[0].body[2].c = 2,
            "instruction 2 of task 0 (record 4): it skips beyond the body's last (7 BODY)"),
        (|table| table.tasks[1].period = 9,
            "task 1 (record 7): the period 9 is above the previous task's 8 (8 RATE)"),
        (|table| table.tasks[1].body[0] = instruction(9, 2, 0, 0),
            "instruction 0 of task 1 (record 8): lock 2 is not in the table (9 CEILING)"),
        (|table| table.tasks[1].body[0] = instruction(10, 255, 0, 0),
            "instruction 0 of task 1 (record 8): lock 255 is not in the table (9 CEILING)"),
        (|table| table.tasks[1].body[0] = instruction(9, 1, 0, 0),
            "instruction 0 of task 1 (record 8): lock 1 has the ceiling 0, below base 1 \
             (9 CEILING)"),
        (|table| table.tasks[0].execution = 8,
            "task 0 (record 1): with C 8 and B 0, its wait for a lower task's lock, there is no \
             response time within the period 8 (10 OVERLOAD)"),
        (|table| table.tasks = vec![times(1, 1000), times(4, 7), times(2, 5)],
            "task 1 (record 3): with C 4 and B 0, its wait for a lower task's lock, there is no \
             response time within the period 7 (10 OVERLOAD)"),
        (|table| (table.tasks[0].body[0], table.holdings) = (instruction(9, 0, 0, 0), vec![4, 9]),
            "task 1 (record 7): with C 1 and B 4, its wait for a lower task's lock, there is no \
             response time within the period 4 (10 OVERLOAD)"),
        (|table| table.window = 10_000, "the table has more than 32 jobs (11 JOBS)"),
    ];
    expected.iter().for_each(|(edit, message)| assert_table_says(*edit, message));
}

/// A task that only ends.
fn times(execution: u32, period: u32) -> TaskEntry {
    TaskEntry { execution, period, arrival: 0, body: vec![Instruction::default()] }
}

/// A refusal that is not about a part of the table has its plain message: by another rule, past the
/// last record, or at a record that cannot break the rule.
#[test]
fn other_refusals_with_a_table_at_hand() {
    let table = x_with_locks();
    for number in (0..=70).chain([u64::MAX]) {
        for place in [0, 1, 2, 7, 10, 11, 12, 13, 1_281, u64::MAX] {
            let refusal = Refusal { number, place };
            let says = refusal.in_table(&table).to_string();
            let about = match number {
                4 | 5 => place < 13,
                7 | 9 => [2, 10].contains(&place),
                // The first task has no previous one.
                8 => place == 7,
                10 => [1, 7].contains(&place),
                _ => false,
            };
            assert_eq!(says != refusal.to_string(), about, "{refusal:?}: {says}");
            assert!(!about || says.contains(&format!(" (record {place}): ")), "{says}");
        }
    }
}

#[test]
fn records_of_a_table() {
    let table = x_with_locks();
    let body = |task: usize, length: usize| {
        (0..length).map(move |position| Site::Instruction { task, position })
    };
    let mut sites = vec![Site::Header, Site::Task(0)];
    sites.extend(body(0, 5).chain([Site::Task(1)]).chain(body(1, 3)));
    sites.extend([Site::Lock(0), Site::Lock(1)]);
    let found: Vec<Site> = (0..20).filter_map(|record| table.site(record)).collect();
    assert_eq!(found, sites);
    let names: Vec<String> = [0, 1, 4, 11].map(|record| sites[record].to_string()).into();
    assert_eq!(names, ["the header", "task 0", "instruction 2 of task 0", "lock 0"]);
    assert_eq!(table.site(usize::MAX), None);
}

/// A table in which job 1 would nest in job 0 under a lock that keeps it back, and such a plan.
fn locked() -> (Vec<u8>, Vec<u8>) {
    let lower = TaskDescription::new([2, 8, 0], &[code::acquire(0), code::end()]);
    let upper = TaskDescription::new([1, 4, 1], &[code::end()]);
    let mut table = TableDescription::new(4, vec![lower, upper]);
    table.ceilings = vec![1];
    (table.write(), plan(&[[0; 8]; 2], &[&[0, 1], &[0]]))
}

/// Numbers and places that the interpreter gives to files, walks and orders.
fn given_before_plans() -> Vec<(u8, usize)> {
    let x = table_x().write();
    let read = |file: &Vec<u8>| {
        let answer = interpreter::read(file);
        (answer.number, answer.place)
    };
    let mut given: Vec<(u8, usize)> = refused_files().iter().map(read).collect();
    for (allowance, room) in [(23, 511), (22, 512)] {
        let answer = interpreter::walk(&x, allowance, &mut pattern(room));
        given.push((answer.number, answer.place));
    }
    let longer = [&ORDER_OF_X[..], &[0]].concat();
    for order in [&[0, 16, 16, 0][..], &ORDER_OF_X[..5], &longer, &[32], &[1]] {
        let answer = interpreter::replay(&x, order);
        given.push((answer.number, answer.place));
    }
    given
}

/// Numbers and places that the interpreter gives to texts: a line missing, a number too large, a
/// text too long.
fn given_to_texts() -> Vec<(u8, usize)> {
    let give = |text: &[u8]| {
        let answer = interpreter::text_to_file(text, &mut []);
        (answer.number, answer.place)
    };
    [&b"window 1\n"[..], b"window 4294967296\n", &[b'w'; 8_193]].map(give).into()
}

/// Numbers and places that the interpreter gives to plans: changes of P10, then P11, then a lock.
fn given_to_plans() -> Vec<(u8, usize)> {
    let x = table_x().write();
    let edits = [(0, 3), (18, 1), (17, 2), (8, 1)];
    let mut cases: Vec<(Vec<u8>, Vec<u8>)> =
        edits.map(|edit| (x.clone(), edited(&plan_of_x(), &[edit]))).into();
    cases.push((x, edited(&plan_of_x(), &[(27, 1), (29, 1), (31, 1)])));
    cases.push(locked());
    let check = |(file, plan): &(Vec<u8>, Vec<u8>)| {
        let answer = interpreter::check_plan(file, plan);
        (answer.number, answer.place)
    };
    cases.iter().map(check).collect()
}

#[test]
fn every_number_that_the_interpreter_gives_has_a_message() {
    let mut numbers = BTreeSet::new();
    let given = given_before_plans().into_iter().chain(given_to_plans()).chain(given_to_texts());
    for (number, place) in given {
        let (number, place) = (number.into(), place as u64);
        assert_says(Refusal { number, place });
        numbers.insert(number);
    }
    assert_eq!(numbers, NAMES.iter().map(|named| named.0).collect());
}
