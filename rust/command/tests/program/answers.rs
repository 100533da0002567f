//! The program with its streams lent, against the interpreter.

use command::{allowances, run, Status, Streams};
use conformance::cases::{accepted, edited, table_x, tasks};
use conformance::families::{any, crowded, long, nest_of_four, refused_files, small};
use conformance::lifting::{instruction_at, instructions_of_plan};
use conformance::orders::{random_order, variants};
use generator::files::{damaged, random_bytes, random_records};
use generator::{code, random_lifted, random_lifted_picks, texts, Random, TableDescription};
use interpreter::machine::values_on_offer;
use interpreter::timing::accept;
use interpreter::{conversion, plan, sheet, JobRecord};
use std::ffi::OsString;
use std::fmt::Display;
use std::io::{self, Read, Write};
use std::ops::RangeInclusive;

/// How a run ends, and what it writes.
struct Ran<Output = String> {
    status: Status,
    output: Output,
    errors: String,
}

/// A run that may write any bytes.
fn run_bytes(words: &[&str], input: &mut dyn Read, watched: bool) -> Ran<Vec<u8>> {
    let words: Vec<OsString> = words.iter().map(OsString::from).collect();
    let (mut output, mut errors) = (Vec::new(), Vec::new());
    let mut streams = Streams { input, output: &mut output, errors: &mut errors, watched };
    let status = run(&words, &mut streams);
    Ran { status, output, errors: String::from_utf8(errors).expect("text") }
}

fn run_on(words: &[&str], input: &mut dyn Read, watched: bool) -> Ran {
    let Ran { status, output, errors } = run_bytes(words, input, watched);
    Ran { status, output: String::from_utf8(output).expect("text"), errors }
}

/// The status that a sheet calls for.
fn status_of(sheet: &str) -> Status {
    let says = |words: &str| sheet.lines().any(|line| line.starts_with(words));
    match (says("verdict holds"), says("verdict fails")) {
        (true, _) => Status::Accepted,
        (_, true) => Status::Fails,
        _ => Status::Refused,
    }
}

/// Asserts that check and read print the interpreter's sheet and its totals.
fn assert_sheet(file: &[u8]) -> Status {
    let expected = sheet(file);
    let checked = run_on(&["check", "-"], &mut &file[..], false);
    assert_eq!((checked.output, checked.status), (expected.clone(), status_of(&expected)));
    let is_total = |line: &&str| line.starts_with("task") || line.starts_with("refused");
    let totals: String =
        expected.lines().filter(is_total).map(|line| format!("{line}\n")).collect();
    let read = run_on(&["read", "-"], &mut &file[..], false).output;
    assert_eq!(read, totals.replace("\nrefused 21 0\n", "\n"));
    checked.status
}

#[test]
fn sheets_of_random_tables() {
    let mut random = Random::new(0x5EE7);
    let mut seen = [0; 4];
    for make in [small, long, nest_of_four, random_lifted_picks] {
        for _ in 0..150 {
            seen[assert_sheet(&make(&mut random).write()) as usize] += 1;
        }
    }
    let [holds, fails, unusable, _] = seen;
    assert!(holds >= 50 && fails >= 50 && unusable == 0, "{seen:?}");
}

#[test]
fn sheets_of_files_that_are_refused() {
    let mut random = Random::new(0xBAD);
    for file in refused_files() {
        assert_eq!(assert_sheet(&file), Status::Refused);
    }
    for _ in 0..300 {
        let file = small(&mut random).write();
        assert_sheet(&damaged(&mut random, &file));
        assert_sheet(&random_bytes(&mut random));
        assert_sheet(&random_records(&mut random));
    }
    let x = table_x().write();
    for length in 0..=4_200 {
        let file: Vec<u8> = x.iter().copied().cycle().take(length).collect();
        assert_sheet(&file);
    }
}

/// Gives one byte at a time.
struct Pieces<'a>(&'a [u8]);

impl Read for Pieces<'_> {
    fn read(&mut self, buffer: &mut [u8]) -> io::Result<usize> {
        let most = buffer.len().min(1);
        self.0.read(&mut buffer[..most])
    }
}

#[test]
fn input_in_pieces_and_input_without_end() {
    let x = table_x().write();
    assert_eq!(run_on(&["check", "-"], &mut Pieces(&x), false).output, sheet(&x));
    for byte in [0, 1, 255] {
        let checked = run_on(&["check", "-"], &mut io::repeat(byte), false);
        assert_eq!(checked.output, "refused 1 0\n");
    }
    let path = make_samples::path("lost-update", "task");
    let path = path.to_str().expect("a plain path");
    // The only route job has five steps, and with three jobs no step is in a round 3.
    assert_eq!(run_on(&["replay", path, "-"], &mut io::repeat(0), false).output, "refused 30 5\n");
    assert_eq!(run_on(&["order", path, "-"], &mut io::repeat(3), false).output, "refused 42 25\n");
    let long = run_on(&["file", "-"], &mut io::repeat(b'w'), false).errors;
    assert_eq!(long, "adqurim: the text has more than 8,192 bytes (62 LONG)\n");
    let text = make_samples::named("lost-update").text;
    let pieces = run_bytes(&["file", "-"], &mut Pieces(text.as_bytes()), false);
    assert_eq!(pieces.output, make_samples::named("lost-update").file());
}

/// Numbers, each after a space.
fn words(numbers: impl IntoIterator<Item = impl Display>) -> String {
    numbers.into_iter().map(|number| format!(" {number}")).collect()
}

/// What `plan` has to print of a complete order.
fn plan_text(file: &[u8], order: &[u8]) -> String {
    let table = accepted(file);
    let (bytes, ending) = conversion::order_to_plan(&table, order).expect("the order is complete");
    let run = plan::run(&table, &bytes).expect("the plan has the right shape");
    let mut text = format!("plan{}\n", words(&bytes));
    for (round, store) in run.guesses.iter().enumerate() {
        text += &format!("round {round} starts{}\n", words(store));
    }
    for (job, steps) in run.steps.iter().enumerate() {
        text += &format!("job {job} rounds{}\n", words(steps.iter().map(|step| step.round.0)));
        text += &format!("job {job} values{}\n", words(steps.iter().map(|step| step.value)));
    }
    let failed = match ending.failed_jobs {
        0 => " none".to_string(),
        set => words((0..32).filter(|job| set >> job & 1 == 1)),
    };
    text + &format!("failed{failed}\nstore{}\n", words(ending.store))
}

/// A subcommand's words for a file on standard input and bytes.
fn run_with_numbers(subcommand: &str, file: &[u8], bytes: &[u8]) -> Ran {
    let numbers: Vec<String> = bytes.iter().map(u8::to_string).collect();
    let words = [subcommand, "-"].into_iter().chain(numbers.iter().map(String::as_str));
    run_on(&words.collect::<Vec<&str>>(), &mut &file[..], false)
}

/// Makes a table.
type Make = fn(&mut Random) -> TableDescription;

/// The first accepted table of those that are drawn.
fn accepted_table(random: &mut Random, make: Make) -> TableDescription {
    let mut drawn = std::iter::repeat_with(|| make(random));
    drawn.find(|table| accept(&table.write()).is_ok()).expect("some table is accepted")
}

/// Its file.
fn accepted_file(random: &mut Random, make: Make) -> Vec<u8> {
    accepted_table(random, make).write()
}

#[test]
fn plans_of_random_orders_and_back() {
    let mut random = Random::new(0x91A2);
    let mut with_values = 0;
    for make in [small, nest_of_four, crowded, any, random_lifted, random_lifted_picks] {
        for _ in 0..60 {
            let file = accepted_file(&mut random, make);
            let order = random_order(&mut random, &accepted(&file));
            let planned = run_with_numbers("plan", &file, &order);
            let expected = plan_text(&file, &order);
            assert_eq!((planned.status, &planned.output), (Status::Accepted, &expected));
            with_values += u32::from(order.iter().any(|byte| byte % 16 > 0));
            let (_, ending) = expected.split_at(expected.find("failed").expect("a line says it"));
            assert_there_and_back(&file, &order, ending);
        }
    }
    assert!(with_values >= 50, "{with_values}");
}

/// Asserts what the other subcommands print of a complete order and of its plan.
fn assert_there_and_back(file: &[u8], order: &[u8], ending: &str) {
    let (plan, _) = conversion::order_to_plan(&accepted(file), order).expect("it is complete");
    for (subcommand, bytes) in [("replay", order), ("check-plan", &plan[..])] {
        let ran = run_with_numbers(subcommand, file, bytes);
        assert_eq!((ran.output, ran.status), (format!("accepted\n{ending}"), Status::Accepted));
    }
    let ran = run_with_numbers("order", file, &plan);
    let expected = format!("order{}\n{ending}", words(order));
    assert_eq!((ran.output, ran.status), (expected, Status::Accepted));
}

/// What standard error has to say of a refused order.
fn order_refused(number: u8, place: usize, order: &[u8], file: &[u8]) -> String {
    let [task, value] = order.get(place).map_or([0, 0], |byte| [byte / 16, byte % 16]);
    let says = match number {
        30 => format!(": task {task} has no turn here (30 STEP)"),
        31 => " is missing: the order ends with jobs unfinished (31 SHORT)".to_string(),
        32 => " is one too many: all jobs ended before it (32 EXTRA)".to_string(),
        33 => format!(": task {task} does not exist (33 TASK)"),
        _ => {
            let values = values_on_offer(instruction_at(&accepted(file), order, place));
            let offer = offered(values, &format!("step {place}"));
            format!(": value {value} is not on offer (34 OFFER)\n{offer}")
        }
    };
    format!("adqurim: step {place}{says}\n")
}

/// What it has to say of the values on offer at a place.
fn offered(values: RangeInclusive<u8>, place: &str) -> String {
    match values.into_inner() {
        (only, highest) if only == highest => {
            format!("adqurim: the only value on offer at {place} is {only}")
        }
        (lowest, highest) => {
            format!("adqurim: the values on offer at {place} are {lowest} to {highest}")
        }
    }
}

#[test]
fn refusals_of_random_orders() {
    let mut random = Random::new(0x0DD5);
    let mut seen = [0; 35];
    for make in [small, nest_of_four, crowded, any, random_lifted, random_lifted_picks] {
        for _ in 0..60 {
            let file = accepted_file(&mut random, make);
            let order = random_order(&mut random, &accepted(&file));
            for order in variants(&mut random, &order, &accepted(&file)) {
                let answer = interpreter::replay(&file, &order);
                let (number, place) = (answer.number, answer.place);
                seen[usize::from(number)] += 1;
                for subcommand in ["replay", "plan"].into_iter().filter(|_| number != 0) {
                    let ran = run_with_numbers(subcommand, &file, &order);
                    assert_eq!(ran.output, format!("refused {number} {place}\n"));
                    assert_eq!(ran.errors, order_refused(number, place, &order, &file));
                }
            }
        }
    }
    assert!(seen[30..].iter().all(|times| *times >= 50), "{seen:?}");
}

/// Of a plan with a wrong value at any of its steps, the values on offer there are told.
#[test]
fn wrong_values_of_random_plans() {
    let mut random = Random::new(0x41);
    let mut of_picks = 0;
    for make in [small, random_lifted, random_lifted_picks] {
        for _ in 0..40 {
            let file = accepted_file(&mut random, make);
            let order = random_order(&mut random, &accepted(&file));
            let converted = conversion::order_to_plan(&accepted(&file), &order);
            let (plan, _) = converted.expect("the order is complete");
            for (at, instruction) in instructions_of_plan(&accepted(&file), &plan) {
                let values = values_on_offer(instruction);
                let wrong = [values.start().wrapping_sub(1), values.end() + 1][random.index(2)];
                let ran = run_with_numbers("order", &file, &edited(&plan, &[(at, wrong)]));
                assert_eq!(ran.output, format!("refused 41 {at}\n"));
                of_picks += u32::from(*values.end() > 0);
                let says = format!("(41 VALUE)\n{}\n", offered(values, &format!("offset {at}")));
                assert!(ran.errors.ends_with(&says), "{}", ran.errors);
            }
        }
    }
    assert!(of_picks >= 100, "{of_picks}");
}

#[test]
fn a_table_without_jobs() {
    let file = tasks(5, &[[3, 8, 5]], &[code::end()]).write();
    let ending = "failed none\nstore 0 0 0 0 0 0 0 0\n";
    assert_eq!(run_with_numbers("replay", &file, &[]).output, format!("accepted\n{ending}"));
    assert_eq!(run_with_numbers("plan", &file, &[]).output, format!("plan 0\n{ending}"));
    assert_eq!(run_with_numbers("order", &file, &[0]).output, format!("order\n{ending}"));
    assert_eq!(run_on(&["walk", "-"], &mut &file[..], false).output, "verdict holds 0\n");
    assert_eq!(run_on(&["jobs", "-"], &mut &file[..], false).output, "");
}

#[test]
fn jobs_of_random_tables() {
    let mut random = Random::new(0x10B5);
    for make in [small, crowded, any] {
        for _ in 0..100 {
            let file = accepted_file(&mut random, make);
            let mut expected = String::new();
            for (number, job) in accepted(&file).jobs.iter().enumerate() {
                let JobRecord { task, arrival, latest_finish: latest } = job;
                let words = format!("task {} arrival {arrival} latest {latest}", task.0);
                expected += &format!("job {number} {words}\n");
            }
            let listed = run_on(&["jobs", "-"], &mut &file[..], false);
            assert_eq!((listed.output, listed.status), (expected, Status::Accepted));
        }
    }
}

#[test]
fn random_files_are_rewritten_in_walk_order() {
    let mut random = Random::new(0x3EE7);
    for make in [small, crowded, any] {
        for _ in 0..100 {
            let table = accepted_table(&mut random, make);
            let shuffled = table.write_shuffled(&mut random).0;
            let ran = run_bytes(&["rewrite", "-"], &mut &shuffled[..], false);
            assert_eq!((ran.status, &ran.errors[..]), (Status::Accepted, ""));
            assert_eq!(ran.output, table.write());
        }
    }
}

/// Random tables go to their texts and back, whatever the order of the records.
#[test]
fn random_files_and_their_texts() {
    let mut random = Random::new(0x7EF7);
    for make in [small, crowded, any] {
        for _ in 0..100 {
            let table = accepted_table(&mut random, make);
            let shuffled = table.write_shuffled(&mut random).0;
            let printed = run_bytes(&["text", "-"], &mut &shuffled[..], false);
            assert_eq!((printed.status, &printed.errors[..]), (Status::Accepted, ""));
            assert_eq!(printed.output, table.text());
            let back = run_bytes(&["file", "-"], &mut &printed.output[..], false);
            assert_eq!((back.status, &back.errors[..]), (Status::Accepted, ""));
            assert_eq!(back.output, table.write());
        }
    }
}

/// Nothing is written of a text that is refused; the errors show its line.
#[test]
fn texts_that_are_refused_are_not_written() {
    let mut random = Random::new(0x7EAD);
    let makes = [texts::wrong_lines, texts::wrong_words, texts::miscounted, texts::cut_short];
    let mut refused = 0;
    for make in makes {
        for _ in 0..100 {
            let text = make(&mut random);
            let answer = interpreter::text_to_file(&text, &mut [0; 2_320]);
            let ran = run_bytes(&["file", "-"], &mut &text[..], false);
            assert_eq!(ran.status == Status::Accepted, answer.number == 0);
            if answer.number != 0 {
                assert!(ran.output.is_empty());
                assert!(ran.errors.contains(&format!("({} ", answer.number)), "{}", ran.errors);
                assert_eq!(ran.errors.lines().count(), 1);
                refused += 1;
            }
        }
    }
    assert!(refused >= 200, "{refused}");
}

/// Nothing is written of a file that is refused; the errors are those of `read`.
#[test]
fn files_that_are_refused_are_not_rewritten() {
    let mut random = Random::new(0x3BAD);
    let mut files = refused_files();
    for _ in 0..200 {
        let file = small(&mut random).write();
        files.extend([damaged(&mut random, &file), random_bytes(&mut random)]);
    }
    files.retain(|file| accept(file).is_err());
    assert!(files.len() >= 200);
    for file in files {
        let read = run_on(&["read", "-"], &mut &file[..], false);
        for subcommand in ["rewrite", "text"] {
            let ran = run_bytes(&[subcommand, "-"], &mut &file[..], false);
            assert_eq!((ran.status, ran.output), (Status::Refused, vec![]));
            assert_eq!(ran.errors, read.errors);
            let number = interpreter::read(&file).number;
            assert!(ran.errors.contains(&format!("({number} ")), "{}", ran.errors);
        }
    }
}

#[test]
fn records_are_named_by_what_they_are() {
    let mut table = table_x();
    table.ceilings = vec![1, 0];
    let file = table.write();
    // A record of another kind is refused where its chain comes to it.
    let names = [
        (0, "the header"),
        (1, "task 0"),
        (2, "instruction 0 of task 0"),
        (6, "instruction 4 of task 0"),
        (7, "task 1"),
        (10, "instruction 2 of task 1"),
        (11, "lock 0"),
        (12, "lock 1"),
    ];
    for (record, name) in names {
        let ran = run_on(&["read", "-"], &mut &edited(&file, &[(record * 16, 9)])[..], false);
        let (first, last) = (record * 16, record * 16 + 15);
        let says = format!("adqurim: record {record}, bytes {first} to {last}, is {name}\n");
        assert_eq!(ran.output, format!("refused 2 {record}\n"));
        assert_eq!(ran.errors.split_inclusive('\n').next_back(), Some(&says[..]));
    }
    let stray = [&file[..], &[0; 16]].concat();
    let ran = run_on(&["read", "-"], &mut &stray[..], false);
    assert!(ran.errors.ends_with("record 13, bytes 208 to 223, is reached by no chain\n"));
}

#[test]
fn allowances_grow_to_the_one_that_is_asked_for() {
    for asked in [0, 1, 1 << 20, (1 << 20) + 1, 5_000_000, u64::MAX] {
        let tries: Vec<u64> = allowances(asked).collect();
        assert_eq!(tries.last(), Some(&asked));
        assert!(tries.windows(2).all(|pair| pair[0] < pair[1]), "{tries:?}");
        let before: u128 = tries[..tries.len() - 1].iter().map(|tried| u128::from(*tried)).sum();
        assert!(before < 2 * u128::from(asked).max(1), "{tries:?}");
    }
    assert_eq!(allowances(1_000_000).count(), 1);
    assert_eq!(allowances(3_000_000).collect::<Vec<u64>>(), [1 << 20, 1 << 21, 3_000_000]);
}

#[test]
fn a_watched_walk_tells_each_try_and_answers_the_same() {
    let path = make_samples::path("too-many-orders", "task");
    let words = ["walk", "--allowance", "3000000", path.to_str().expect("a plain path")];
    let [quiet, watched] = [false, true].map(|watched| run_on(&words, &mut io::empty(), watched));
    assert_eq!((&quiet.output, quiet.status), (&watched.output, watched.status));
    assert_eq!(quiet.errors.lines().count(), 1);
    let told: Vec<&str> = watched.errors.lines().collect();
    let [first, second, last] = told[..] else { panic!("{told:?}") };
    assert!(first.starts_with("adqurim: 1048576 moves made without a verdict, "), "{first}");
    assert!(first.contains(" a second; now up to 2097152 moves, about "), "{first}");
    assert!(second.contains(" a second; now up to 3000000 moves, about "), "{second}");
    assert_eq!(last, quiet.errors.trim_end());
}

#[test]
fn a_watched_walk_that_is_decided_says_nothing_else() {
    let mut random = Random::new(0x7A7C);
    // Enough for a second and a third try, which a walk that is decided does not need.
    let words = ["walk", "--allowance", "3000000", "-"];
    for _ in 0..100 {
        let file = accepted_file(&mut random, small);
        let [quiet, watched] = [false, true].map(|watched| run_on(&words, &mut &file[..], watched));
        assert_eq!((quiet.output, quiet.status), (watched.output, watched.status));
        assert_eq!((&quiet.errors[..], &watched.errors[..]), ("", ""));
    }
}

/// Takes nothing.
struct Full;

impl Write for Full {
    fn write(&mut self, _: &[u8]) -> io::Result<usize> {
        Err(io::Error::other("no room"))
    }

    fn flush(&mut self) -> io::Result<()> {
        Ok(())
    }
}

#[test]
fn an_output_that_takes_nothing_is_told() {
    let (x, mut errors) = (table_x().write(), Vec::new());
    let (mut input, output, errors_lent) = (&x[..], &mut Full, &mut errors);
    let mut streams = Streams { input: &mut input, output, errors: errors_lent, watched: false };
    let words = ["check", "-"].map(OsString::from);
    assert_eq!(run(&words, &mut streams), Status::Unusable);
    assert_eq!(errors, b"adqurim: cannot write: no room\n");
}
