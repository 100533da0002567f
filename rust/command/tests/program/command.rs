//! The built program: its words, its files, its streams and its status.

use conformance::cases::{edited, plan_of_x, table_x, ORDER_OF_X, TEXT_OF_X};
use generator::Random;
use std::io::Write;
use std::path::PathBuf;
use std::process::{Command, Output, Stdio};
use std::{fs, iter};

/// The subcommands that take a task file, those last that print a file or a text or nothing.
const SUBCOMMANDS: [&str; 10] =
    ["check", "read", "jobs", "walk", "replay", "plan", "check-plan", "order", "rewrite", "text"];
/// The one that takes a table's text.
const OF_TEXT: &str = "file";
/// Statuses of the program.
const ACCEPTED: i32 = 0;
const FAILS: i32 = 1;
const UNUSABLE: i32 = 2;
const REFUSED: i32 = 3;

/// Runs the program with words and bytes on standard input.
fn run(words: &[&str], input: &[u8]) -> Output {
    let mut program = Command::new(env!("CARGO_BIN_EXE_adqurim"));
    program.args(words).stdin(Stdio::piped()).stdout(Stdio::piped()).stderr(Stdio::piped());
    let mut child = program.spawn().expect("the program starts");
    // A program that does not read its input may have ended before it is written.
    let _ = child.stdin.take().expect("it has an input").write_all(input);
    child.wait_with_output().expect("the program ends")
}

fn text(bytes: &[u8]) -> &str {
    std::str::from_utf8(bytes).expect("the program writes text")
}

/// Asserts what a run writes and how it ends.
fn assert_run(words: &[&str], input: &[u8], status: i32, output: &str, errors: &str) {
    let run = run(words, input);
    let written = (text(&run.stdout), text(&run.stderr));
    assert_eq!((run.status.code(), written), (Some(status), (output, errors)), "{words:?}");
}

/// The path of table X's file, written for this test.
fn file_of_x(test: &str) -> String {
    let path = PathBuf::from(env!("CARGO_TARGET_TMPDIR")).join(format!("{test}.task"));
    fs::write(&path, table_x().write()).expect("the file can be written");
    path.into_os_string().into_string().expect("a plain path")
}

/// Bytes as words.
fn numbers(bytes: &[u8]) -> Vec<String> {
    bytes.iter().map(u8::to_string).collect()
}

/// A subcommand's words for a file and bytes.
fn with_numbers(subcommand: &str, file: &str, bytes: &[u8]) -> Vec<String> {
    [subcommand, file].map(String::from).into_iter().chain(numbers(bytes)).collect()
}

#[test]
fn check_prints_the_sheet_of_every_sample() {
    let holds = ACCEPTED;
    let statuses = [FAILS, holds, holds, FAILS, holds, FAILS, holds, REFUSED, REFUSED];
    for (sample, status) in iter::zip(make_samples::all(), statuses) {
        let path = make_samples::path(sample.name, "task");
        let sheet =
            fs::read_to_string(make_samples::path(sample.name, "sheet")).expect("it is there");
        for (words, input) in [
            (["check", path.to_str().expect("a plain path")], vec![]),
            (["check", "-"], sample.file()),
        ] {
            let run = run(&words, &input);
            assert_eq!(text(&run.stdout), sheet, "{}", sample.name);
            assert_eq!(run.status.code(), Some(status), "{}", sample.name);
            assert_eq!(run.stderr.is_empty(), status != REFUSED, "{}", sample.name);
        }
    }
}

#[test]
fn every_subcommand_on_table_x() {
    let file = file_of_x("every_subcommand");
    let totals = "tasks 2 jobs 2\ntask 0 response 3 jobs 1\ntask 1 response 1 jobs 1\n";
    let order = "order 0 16 16 16 0 0 0 0\n";
    let (rounds, ending) = (["0 1 1 1 1", "0 0 0"], "failed 0\nstore 1 0 0 0 0 0 0 0\n");
    let fails = format!("verdict fails 23\n{order}");
    let [job_0, job_1] = rounds.map(|rounds| format!("rounds {rounds}\n"));
    let sheet = format!("{totals}{fails}failed 0\njob 0 {job_0}job 1 {job_1}");
    assert_run(&["check", &file], &[], FAILS, &sheet, "");
    assert_run(&["read", &file], &[], ACCEPTED, totals, "");
    let jobs = "job 0 task 0 arrival 0 latest 3\njob 1 task 1 arrival 1 latest 2\n";
    assert_run(&["jobs", &file], &[], ACCEPTED, jobs, "");
    assert_run(&["walk", &file], &[], FAILS, &format!("{fails}{ending}"), "");
    let plan = format!(
        "plan {}\nround 0 starts 0 0 0 0 0 0 0 0\nround 1 starts 1 0 0 0 0 0 0 0\n\
         job 0 {job_0}job 0 values 0 0 0 0 0\njob 1 {job_1}job 1 values 0 0 0\n{ending}",
        numbers(&plan_of_x()).join(" ")
    );
    let accepted = format!("accepted\n{ending}");
    let answers = [
        ("replay", ORDER_OF_X.to_vec(), accepted.clone()),
        ("plan", ORDER_OF_X.to_vec(), plan),
        ("check-plan", plan_of_x(), accepted),
        ("order", plan_of_x(), format!("{order}{ending}")),
    ];
    for (subcommand, bytes, answer) in answers {
        let words = with_numbers(subcommand, &file, &bytes);
        let words: Vec<&str> = words.iter().map(String::as_str).collect();
        assert_run(&words, &[], ACCEPTED, &answer, "");
        assert_run(&[subcommand, &file, &numbers(&bytes).join(" ")], &[], ACCEPTED, &answer, "");
        assert_run(&[subcommand, &file, "-"], &bytes, ACCEPTED, &answer, "");
        assert_run(&[&[subcommand, "-"], &words[2..]].concat(), &table_x().write(), 0, &answer, "");
    }
}

#[test]
fn rewrite_writes_the_file_in_walk_order() {
    let file = file_of_x("rewrite");
    let x = table_x().write();
    let shuffled = table_x().write_shuffled(&mut Random::new(0x5AFE)).0;
    assert_ne!(shuffled, x);
    for (words, input) in [(["rewrite", &file], &[][..]), (["rewrite", "-"], &shuffled)] {
        let run = run(&words, input);
        assert_eq!((run.status.code(), &run.stdout), (Some(ACCEPTED), &x));
        assert_eq!(text(&run.stderr), "");
    }
    let says = "adqurim: the file's length is 0, above 4,096 or no multiple of 16 (1 SIZE)\n";
    assert_run(&["rewrite", "-"], &x[1..], REFUSED, "", says);
}

#[test]
fn text_and_file_convert() {
    let file = file_of_x("text");
    assert_run(&["text", &file], &[], ACCEPTED, TEXT_OF_X, "");
    let x = table_x().write();
    let shuffled = table_x().write_shuffled(&mut Random::new(0x7E47)).0;
    assert_run(&["text", "-"], &shuffled, ACCEPTED, TEXT_OF_X, "");
    let path = PathBuf::from(env!("CARGO_TARGET_TMPDIR")).join("file.text");
    fs::write(&path, TEXT_OF_X).expect("the text can be written");
    let path = path.to_str().expect("a plain path");
    for (words, input) in [(["file", path], &[][..]), (["file", "-"], TEXT_OF_X.as_bytes())] {
        let run = run(&words, input);
        assert_eq!((run.status.code(), &run.stdout), (Some(ACCEPTED), &x));
        assert_eq!(text(&run.stderr), "");
    }
}

/// Nothing stands where a file or a text is expected; standard error shows the line.
#[test]
fn texts_that_are_refused_are_explained() {
    #[rustfmt::skip]
    let cases = [
        ("load 0", "lod 0", "line 3, `lod 0 0`: no line begins with `lod` (60 LINE)"),
        ("load 0 0", "pick 0 6", "line 3, `pick 0 6`: it is not `pick a b c` in plain numbers, with one \
            space between words (60 LINE)"),
        ("load 0 0", "pick 0 3 6", "line 3, `pick 0 3 6` (instruction 0 of task 0): c 6, the lowest \
            value, is above b 3, the highest (4 FIELD)"),
        ("load 0", "load 256", "line 3, `load 256 0`: the number `256` is above 255 (61 LARGE)"),
        ("load 0", "load 4", "line 3, `load 4 0` (instruction 0 of task 0): a field is out of range \
            (4 FIELD)"),
        ("task 1 4", "task 1 9", "line 8, `task 1 9 1` (task 1): the period 9 is above the previous \
            task's 8 (8 RATE)"),
        ("window 5", "window 99999", "the table has more than 32 jobs (11 JOBS)"),
    ];
    for (from, to, says) in cases {
        let text = TEXT_OF_X.replacen(from, to, 1);
        let errors = format!("adqurim: {says}\n");
        assert_run(&["file", "-"], text.as_bytes(), REFUSED, "", &errors);
    }
    let long = "adqurim: the text has more than 8,192 bytes (62 LONG)\n";
    assert_run(&["file", "-"], &[b' '; 8_193], REFUSED, "", long);
    assert_run(&["file", "-"], &[b' '; 100_000], REFUSED, "", long);
    let missing = "adqurim: line 0 is missing: it is `window W` (60 LINE)\n";
    assert_run(&["file", "-"], &[], REFUSED, "", missing);
}

#[test]
fn the_allowance_of_a_walk() {
    let file = file_of_x("allowance");
    let says = "adqurim: the walk's count exceeds the allowance (21 UNDECIDED)\n";
    for words in [["walk", "--allowance", "22", &file], ["walk", &file, "--allowance", "22"]] {
        assert_run(&words, &[], REFUSED, "refused 21 0\n", says);
    }
    let enough = run(&["walk", "--allowance", "23", &file], &[]);
    assert_eq!(enough.status.code(), Some(FAILS));
    assert!(text(&enough.stdout).starts_with("verdict fails 23\n"));
    let locked = make_samples::path("lost-update-locked", "task");
    let locked = locked.to_str().expect("a plain path");
    assert_run(&["walk", "--allowance", "93", locked], &[], ACCEPTED, "verdict holds 93\n", "");
}

#[test]
fn refusals_are_explained() {
    let x = table_x().write();
    let kind = "adqurim: record 8 has the wrong kind for its chain (2 KIND)\n\
        adqurim: record 8, bytes 128 to 143, is instruction 0 of task 1\n";
    for subcommand in SUBCOMMANDS {
        let file = edited(&x, &[(8 * 16, 9)]);
        // Where a file is expected, no line stands in its place.
        let line = if ["rewrite", "text"].contains(&subcommand) { "" } else { "refused 2 8\n" };
        assert_run(&[subcommand, "-"], &file, REFUSED, line, kind);
    }
    let size = "adqurim: the file's length is 0, above 4,096 or no multiple of 16 (1 SIZE)\n";
    assert_run(&["check", "-"], &[], REFUSED, "refused 1 0\n", size);
    let shape = "adqurim: offset 0 of the plan has the first wrong, missing or extra byte \
        (40 SHAPE)\n";
    for subcommand in ["check-plan", "order"] {
        assert_run(&[subcommand, "-", "3"], &x, REFUSED, "refused 40 0\n", shape);
    }
}

#[test]
fn wrong_steps_are_explained_with_their_task_or_value() {
    let x = table_x().write();
    #[rustfmt::skip]
    let orders = [
        ("0 16 16 0", "refused 30 3\n", "step 3: task 0 has no turn here (30 STEP)"),
        ("0 16 16", "refused 31 3\n",
            "step 3 is missing: the order ends with jobs unfinished (31 SHORT)"),
        ("0 16 16 16 0 0 0 0 80", "refused 32 8\n",
            "step 8 is one too many: all jobs ended before it (32 EXTRA)"),
        ("0 16 80", "refused 33 2\n", "step 2: task 5 does not exist (33 TASK)"),
        ("0 23", "refused 34 1\n", "step 1: value 7 is not on offer (34 OFFER)\n\
            adqurim: the only value on offer at step 1 is 0"),
    ];
    for (order, answer, says) in orders {
        for subcommand in ["replay", "plan"] {
            let errors = format!("adqurim: {says}\n");
            assert_run(&[subcommand, "-", order], &x, REFUSED, answer, &errors);
        }
    }
}

/// Wrong values of the lane sensor's Pick, in an order and in its plan.
#[test]
fn wrong_values_of_a_pick_are_explained_with_those_on_offer() {
    let path = make_samples::path("lane-sensor", "task");
    let path = path.to_str().expect("a plain path");
    for value in ["0", "2", "7", "15"] {
        let says = format!(
            "adqurim: step 0: value {value} is not on offer (34 OFFER)\n\
             adqurim: the values on offer at step 0 are 3 to 6\n"
        );
        for subcommand in ["replay", "plan"] {
            assert_run(&[subcommand, path, value, "0"], &[], REFUSED, "refused 34 0\n", &says);
        }
    }
    // The number of jobs, three stores, the round of the first step; then its value.
    let before = "3 3 0 0 0 0 0 0 0 4 0 0 0 0 0 0 0 4 1 0 0 0 0 0 0 0";
    let says = "adqurim: offset 26 of the plan has a value that its instruction does not allow: \
        a Pick allows c to b, any other instruction 0 (41 VALUE)\n\
        adqurim: the values on offer at offset 26 are 3 to 6\n";
    for value in ["0", "2", "7", "255"] {
        for subcommand in ["check-plan", "order"] {
            let words = [subcommand, path, before, value];
            assert_run(&words, &[], REFUSED, "refused 41 26\n", says);
        }
    }
}

#[test]
fn wrong_usage_is_told_and_points_to_the_help() {
    let file = file_of_x("wrong_usage");
    #[rustfmt::skip]
    let cases: [(&[&str], &str); 20] = [
        (&[], "no subcommand is given"),
        (&["cheque", &file], "there is no subcommand `cheque`"),
        (&["--allowance", "5"], "there is no subcommand `--allowance`"),
        (&["check"], "check: no FILE is given"),
        (&["plan"], "plan: no FILE is given"),
        (&["read", &file, "7"], "read: `7` is one word too many"),
        (&["jobs", &file, "7"], "jobs: `7` is one word too many"),
        (&["rewrite"], "rewrite: no FILE is given"),
        (&["rewrite", &file, &file], &format!("rewrite: `{file}` is one word too many")),
        (&["rewrite", "--allowance", "1", &file], "rewrite: there is no option `--allowance`"),
        (&["text"], "text: no FILE is given"),
        (&["file"], "file: no TEXT is given"),
        (&["file", &file, "7"], "file: `7` is one word too many"),
        (&["walk", "--allowance"], "walk: --allowance needs a number of moves"),
        (&["walk", "--allowance", "-1", &file], "walk: --allowance needs a number of moves"),
        (&["check", "--allowance", "1", &file], "check: there is no option `--allowance`"),
        (&["replay", &file, "256"], "replay: `256` is no number from 0 to 255"),
        (&["order", &file, "0", "x"], "order: `x` is no number from 0 to 255"),
        (&["replay", &file, "0", "-"], "replay: `-` is no number from 0 to 255"),
        (&["check-plan", "-", "-"], "check-plan: only one of the two can be standard input"),
    ];
    for (words, says) in cases {
        let help = match says.split_once(": ") {
            Some((subcommand, _)) => format!("adqurim {subcommand} --help"),
            None => "adqurim --help".to_string(),
        };
        let errors = format!("adqurim: {says}\nadqurim: try `{help}`\n");
        assert_run(words, &[], UNUSABLE, "", &errors);
    }
}

#[test]
fn files_that_cannot_be_read_are_named() {
    let missing = PathBuf::from(env!("CARGO_TARGET_TMPDIR")).join("no-such.task");
    let missing = missing.to_str().expect("a plain path");
    for subcommand in SUBCOMMANDS.into_iter().chain([OF_TEXT]) {
        for path in [missing, env!("CARGO_TARGET_TMPDIR")] {
            let run = run(&[subcommand, path], &[]);
            let begins = format!("adqurim: cannot read {path}: ");
            assert!(text(&run.stderr).starts_with(&begins), "{}", text(&run.stderr));
            assert_eq!((run.status.code(), text(&run.stdout)), (Some(UNUSABLE), ""));
        }
    }
}

#[test]
fn help_of_the_program_and_of_each_subcommand() {
    let of_program = run(&["--help"], &[]);
    assert_eq!((of_program.status.code(), text(&of_program.stderr)), (Some(ACCEPTED), ""));
    for subcommand in SUBCOMMANDS.into_iter().chain([OF_TEXT]) {
        assert!(text(&of_program.stdout).contains(&format!("\n  adqurim {subcommand} ")));
        for words in [[subcommand, "--help"], [subcommand, "-h"]] {
            let run = run(&words, &[]);
            assert_eq!((run.status.code(), text(&run.stderr)), (Some(ACCEPTED), ""));
            assert!(text(&run.stdout).starts_with(&format!("adqurim {subcommand} ")));
            assert!(text(&run.stdout).contains("\nStatus: 0 "));
        }
    }
}
