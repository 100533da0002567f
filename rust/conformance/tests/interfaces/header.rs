//! The entries and numbers of the header and of the README against those of the binding, and the
//! lines of a text in both and in the program's help.

use adqurim::raw::{
    Verdict, CHECK_PLAN_WORDS, CONVERSION_WORDS, JOBS_WORDS, READ_WORDS, REPLAY_WORDS, SHEET_WORDS,
    TABLE_WORDS, TEXT_WORDS, WALK_WORDS, WRITE_WORDS,
};
use adqurim::{
    Place, Rule, FILE_ROOM, JOB_LIST_ROOM, MOST_INSTRUCTIONS, MOST_JOBS, MOST_LOCKS, MOST_TASKS,
    ORDER_ROOM, PLAN_ROOM, SHEET_ALLOWANCE, SHEET_ROOM, TABLE_ROOM, TEXT_ROOM, VARIABLES,
};
use interpreter::grammar::Kind;
use std::collections::{BTreeMap, BTreeSet};

const HEADER: &str = include_str!("../../../../include/adqurim.h");
const BOUND: &str = include_str!("../../../adqurim/src/raw.rs");
const README: &str = include_str!("../../../../README.md");
const HELP: &str = include_str!("../../../command/src/help.rs");

type Named = BTreeMap<String, u64>;

fn named<'a>(pairs: impl IntoIterator<Item = (&'a str, u64)>) -> Named {
    pairs.into_iter().map(|(name, number)| (name.to_string(), number)).collect()
}

/// The enumerators of an enum of the header: the lines between its braces that hold a `=`.
fn enumerators(name: &str) -> Named {
    let begin = format!("enum {name} {{");
    let (_, rest) = HEADER.split_once(&begin).expect("the header has the enum");
    let (body, _) = rest.split_once("};").expect("the enum ends");
    let pair = |line: &str| {
        let (name, rest) = line.trim().split_once(" = ")?;
        let digits = rest.split(|c: char| !c.is_ascii_digit()).next()?;
        Some((name.to_string(), digits.parse().expect("an enumerator has a number")))
    };
    body.lines().filter_map(pair).collect()
}

/// The constants that the header defines as numbers.
fn constants() -> Named {
    let pair = |line: &str| {
        let (name, number) = line.strip_prefix("#define ")?.split_once(' ')?;
        Some((name.to_string(), number.parse().ok()?))
    };
    HEADER.lines().filter_map(pair).collect()
}

/// The entries that a text declares: the names after these words at the beginning of a line, up to
/// a parenthesis or a space.
fn declared<'a>(text: &'a str, words: &str) -> BTreeSet<&'a str> {
    let lines = text.lines().filter_map(|line| line.trim().strip_prefix(words));
    let name = |line: &'a str| line.split(['(', ' ']).next();
    lines.filter_map(name).filter(|name| name.starts_with("adqurim_")).collect()
}

#[test]
fn every_entry_of_the_header_is_bound() {
    let entries = declared(HEADER, "bool ");
    assert_eq!(entries.len(), 12);
    assert_eq!(entries, declared(BOUND, ""));
}

#[test]
fn every_rule_has_its_number_in_the_header() {
    let name = |rule: Rule| (format!("ADQURIM_{}", rule.name()), rule.number());
    let mut rules: Named = Rule::all().map(name).collect();
    assert_eq!(rules.len(), 27);
    rules.insert("ADQURIM_ACCEPTED".to_string(), 0);
    assert_eq!(enumerators("adqurim_number"), rules);
}

#[test]
fn every_verdict_has_its_number_in_the_header() {
    let verdicts = [
        ("ADQURIM_VERDICT_NONE", Verdict::None.into()),
        ("ADQURIM_VERDICT_HOLDS", Verdict::Holds.into()),
        ("ADQURIM_VERDICT_FAILS", Verdict::Fails.into()),
    ];
    assert_eq!(enumerators("adqurim_verdict"), named(verdicts));
}

#[test]
fn every_constant_is_in_the_header() {
    let expected = [
        ("ADQURIM_MOST_TASKS", MOST_TASKS),
        ("ADQURIM_MOST_LOCKS", MOST_LOCKS),
        ("ADQURIM_MOST_INSTRUCTIONS", MOST_INSTRUCTIONS),
        ("ADQURIM_MOST_JOBS", MOST_JOBS),
        ("ADQURIM_VARIABLES", VARIABLES),
        ("ADQURIM_ORDER_ROOM", ORDER_ROOM),
        ("ADQURIM_PLAN_ROOM", PLAN_ROOM),
        ("ADQURIM_JOB_LIST_ROOM", JOB_LIST_ROOM),
        ("ADQURIM_SHEET_ROOM", SHEET_ROOM),
        ("ADQURIM_TABLE_ROOM", TABLE_ROOM),
        ("ADQURIM_FILE_ROOM", FILE_ROOM),
        ("ADQURIM_TEXT_ROOM", TEXT_ROOM),
        ("ADQURIM_SHEET_ALLOWANCE", SHEET_ALLOWANCE as usize),
        ("ADQURIM_READ_WORDS", READ_WORDS),
        ("ADQURIM_REPLAY_WORDS", REPLAY_WORDS),
        ("ADQURIM_WALK_WORDS", WALK_WORDS),
        ("ADQURIM_CHECK_PLAN_WORDS", CHECK_PLAN_WORDS),
        ("ADQURIM_CONVERSION_WORDS", CONVERSION_WORDS),
        ("ADQURIM_SHEET_WORDS", SHEET_WORDS),
        ("ADQURIM_JOBS_WORDS", JOBS_WORDS),
        ("ADQURIM_TABLE_WORDS", TABLE_WORDS),
        ("ADQURIM_WRITE_WORDS", WRITE_WORDS),
        ("ADQURIM_TEXT_WORDS", TEXT_WORDS),
    ];
    assert_eq!(constants(), named(expected.map(|(name, size)| (name, size as u64))));
}

/// Who has to mend what a number says.
fn mends(number: u64) -> &'static str {
    match number {
        1..=9 => "the author of the file",
        10..=11 => "the bench, which supplies the times",
        20..=21 => "the caller",
        30..=34 => "the author of the order",
        40..=45 => "the author of the plan",
        _ => "the author of the text",
    }
}

/// The rows of the README's table of numbers: number, name, the noun of the place, and who has to
/// mend it.
#[test]
fn every_rule_has_its_row_in_the_readme() {
    let row = |line: &str| -> Option<(u64, [String; 3])> {
        let cells: Vec<&str> = line.trim_matches('|').split('|').map(str::trim).collect();
        let number = cells[0].parse().ok()?;
        Some((number, [1, 3, 4].map(|column| cells[column].to_string())))
    };
    let rows: Vec<_> =
        README.lines().filter(|line| line.starts_with('|')).filter_map(row).collect();
    assert_eq!(rows.len(), Rule::all().count());
    for (rule, (number, [name, place, who])) in Rule::all().zip(rows) {
        assert_eq!((number, &name[..]), (rule.number(), rule.name()));
        assert_eq!(who, mends(number), "{name}");
        let counts = rule.place();
        let noun = counts.noun().unwrap_or("0");
        assert!(place.contains(noun), "{name}: the place is {place}, not {counts:?}");
        assert_eq!(place == "0", counts == Place::Nowhere, "{name}");
    }
}

/// The line of each instruction, by operation: its word, and a name for each of its fields.
const LINES: [&str; 12] = [
    "end",
    "load a b",
    "store a b",
    "set a b",
    "add a b",
    "subtract a b",
    "less a b c",
    "equal a b c",
    "pick a b c",
    "acquire a",
    "release a",
    "assert a",
];

#[test]
fn every_instruction_has_its_line_in_the_header_the_readme_and_the_help() {
    let flowing = |text: &str| text.split_whitespace().collect::<Vec<&str>>().join(" ");
    let lists = [HEADER, HELP].map(flowing);
    for (operation, line) in (0..).zip(LINES) {
        assert_eq!(Kind::Instruction(operation).fields(), line.split(' ').count() - 1, "{line}");
        assert!(README.contains(&format!("`{line}`")), "{line}");
        for list in &lists {
            let listed = |end: &str| list.contains(&format!(" {line}{end}"));
            assert!([",", ";", ".", " *"].into_iter().any(listed), "{line}");
        }
    }
}
