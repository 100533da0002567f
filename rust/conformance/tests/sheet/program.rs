//! The built programs, the script `check` at the root over them, run on files, texts and pipes,
//! against the interpreter's sheet and conversions.

use adqurim::TEXT_ROOM;
use conformance::cases::{edited, longest_text_table, table_x, TEXT_OF_ALL, TEXT_OF_X};
use conformance::families::{long, nest_of_four, refused_files, small};
use generator::files::{damaged, random_bytes, random_records};
use generator::{random_lifted_picks, random_race, texts, Random};
use interpreter::{file_to_text, sheet, text_to_file, WriteAnswer};
use std::fs::{self, File};
use std::io::{self, Write};
use std::path::{Path, PathBuf};
use std::process::{ChildStdin, Command, Output, Stdio};
use std::time::Duration;
use std::{iter, thread};

const README: &str = include_str!("../../../../README.md");

/// Statuses of the script.
const HOLDS: i32 = 0;
const FAILS: i32 = 1;
const NO_FILE: i32 = 2;
const REFUSED: i32 = 3;

/// The greatest length that is tried: some bytes above a file's most, 4,096.
const LONGEST_TRIED: usize = 4_200;

/// What a pipe is tried with: far more than it can hold, and than the program has to read.
const ENDLESS: usize = 8 << 20;
const PIECE: [u8; 4_096] = [1; 4_096];

/// The repository's root.
fn root() -> PathBuf {
    Path::new(env!("CARGO_MANIFEST_DIR")).join("../..")
}

/// A program, which is built with the proofs, before these tests.
fn built(name: &str) -> Command {
    let built = root().join("crates").join(name).join("out").join(name);
    assert!(built.is_file(), "{} is missing: run `rt run {name}`", built.display());
    Command::new(built)
}

/// The check program.
fn program() -> Command {
    built("sheets_program")
}

/// The program that converts a text to its file and a file to its text.
fn converter() -> Command {
    built("texts_program")
}

/// The script, with these words.
fn script(words: &[&str]) -> Command {
    program();
    converter();
    let mut command = Command::new(root().join("check"));
    command.args(words);
    command
}

/// Runs a command on what `write` gives to its standard input.
fn run(mut command: Command, write: impl FnOnce(&mut ChildStdin)) -> Output {
    command.stdin(Stdio::piped()).stdout(Stdio::piped()).stderr(Stdio::piped());
    let mut child = command.spawn().expect("the program starts");
    let mut input = child.stdin.take().expect("it has an input");
    write(&mut input);
    drop(input);
    child.wait_with_output().expect("the program ends")
}

/// Runs a command on bytes. One that does not read all of them may end before they are written.
fn run_on(command: Command, bytes: &[u8]) -> Output {
    run(command, |input| input.write_all(bytes).unwrap_or_default())
}

fn text(bytes: &[u8]) -> &str {
    std::str::from_utf8(bytes).expect("it writes text")
}

/// Asserts that a run printed this sheet, nothing else, and ended with status 0.
fn assert_program(output: &Output, sheet: &str) {
    assert_eq!((text(&output.stdout), text(&output.stderr)), (sheet, ""));
    assert_eq!(output.status.code(), Some(0));
}

/// A file's bytes for each way in which the program is tried.
fn files() -> Vec<Vec<u8>> {
    let mut random = Random::new(820);
    let mut files: Vec<Vec<u8>> = make_samples::all().iter().map(|sample| sample.file()).collect();
    files.extend(refused_files());
    for make in [small, long, random_race, nest_of_four, random_lifted_picks] {
        for _ in 0..50 {
            let file = make(&mut random).write_shuffled(&mut random).0;
            files.extend([damaged(&mut random, &file), file]);
        }
    }
    files.extend((0..40).map(|_| random_bytes(&mut random)));
    files.extend((0..40).map(|_| random_records(&mut random)));
    files
}

#[test]
fn the_program_prints_the_sheet_of_every_file() {
    let files = files();
    assert!(files.len() >= 300);
    for file in files {
        assert_program(&run_on(program(), &file), &sheet(&file));
    }
}

/// The bytes come from a file on disk.
#[test]
fn the_program_reads_every_length() {
    let x = table_x().write();
    let path = Path::new(env!("CARGO_TARGET_TMPDIR")).join("length.task");
    for length in 0..=LONGEST_TRIED {
        let file: Vec<u8> = x.iter().copied().cycle().take(length).collect();
        fs::write(&path, &file).expect("the file can be written");
        let mut command = program();
        command.stdin(File::open(&path).expect("the file is there"));
        assert_program(&command.output().expect("the program starts"), &sheet(&file));
    }
}

/// Writes bytes one at a time, so that a reader gets them one at a time.
fn write_slowly(input: &mut ChildStdin, bytes: &[u8]) {
    for byte in bytes {
        input.write_all(&[*byte]).expect("the program reads on");
        thread::sleep(Duration::from_micros(200));
    }
}

#[test]
fn input_in_single_bytes() {
    let x = table_x().write();
    let sheet = sheet(&x);
    assert_program(&run(program(), |input| write_slowly(input, &x)), &sheet);
    let output = run(script(&[]), |input| write_slowly(input, &x));
    assert_eq!((text(&output.stdout), output.status.code()), (&sheet[..], Some(FAILS)));
}

/// Writes until nobody reads any more. Returns how many bytes went into the pipe.
fn write_on(input: &mut ChildStdin) -> usize {
    let pieces = iter::repeat_with(|| input.write_all(&PIECE)).take(ENDLESS / PIECE.len());
    pieces.take_while(io::Result::is_ok).count() * PIECE.len()
}

#[test]
fn input_that_is_too_long_is_not_read_to_its_end() {
    for (command, status) in [(program(), 0), (script(&["-"]), REFUSED)] {
        let mut written = 0;
        let output = run(command, |input| written = write_on(input));
        assert!(written < ENDLESS, "all was read");
        assert_eq!((text(&output.stdout), output.status.code()), ("refused 1 0\n", Some(status)));
    }
}

#[test]
fn the_script_on_every_sample() {
    let statuses = [FAILS, HOLDS, HOLDS, FAILS, HOLDS, FAILS, HOLDS, REFUSED, REFUSED];
    for (sample, status) in iter::zip(make_samples::all(), statuses) {
        let name = format!("{}.task", sample.name);
        let mut by_name = script(&[&name]);
        by_name.current_dir(make_samples::directory());
        for output in [
            run_on(by_name, &[]),
            run_on(script(&[]), &sample.file()),
            run_on(script(&["-"]), &sample.file()),
        ] {
            assert_eq!(text(&output.stdout), sample.sheet(), "{name}");
            assert_eq!(output.status.code(), Some(status), "{name}");
            assert_eq!(output.stderr.is_empty(), status != REFUSED, "{name}");
        }
    }
}

/// What the script writes to standard error of a file that is refused, after its sheet.
fn explained(file: &[u8]) -> String {
    let output = run_on(script(&["-"]), file);
    assert_eq!((text(&output.stdout), output.status.code()), (&sheet(file)[..], Some(REFUSED)));
    text(&output.stderr).to_string()
}

#[test]
fn the_script_explains_each_number() {
    for (at, file) in refused_files().iter().enumerate() {
        let refusal = adqurim::read(file).expect_err("the file is refused");
        assert_eq!(refusal.number, at as u64 + 1);
        let says = explained(file);
        let nowhere = refusal.rule().and_then(|rule| rule.place().noun()).is_none();
        let begins = match nowhere {
            true => "check: the".to_string(),
            false => format!("check: record {} ", refusal.place),
        };
        assert!(says.starts_with(&begins), "{says}");
        assert!(says.ends_with(&format!(" ({})\n", refusal.number)), "{says}");
        assert_eq!(says.lines().count(), 1);
    }
    let undecided = make_samples::all().pop().expect("there are samples");
    assert!(explained(&undecided.file()).ends_with("more than 1,000,000 moves (21)\n"));
}

#[test]
fn the_script_says_what_a_record_is() {
    let mut table = table_x();
    table.ceilings = vec![1, 0];
    let file = table.write();
    let names = [
        (0, "the header"),
        (1, "task 0"),
        (2, "instruction 0 of task 0"),
        (6, "instruction 4 of task 0"),
        (7, "task 1"),
        (10, "instruction 2 of task 1"),
        (11, "lock 0"),
        (12, "lock 1"),
    ];
    for (record, name) in names {
        let says = explained(&edited(&file, &[(record * 16, 9)]));
        let rule = "has the wrong kind for its chain (2)";
        assert_eq!(says, format!("check: record {record} ({name}) {rule}\n"));
    }
    let stray = explained(&[&file[..], &[0; 16]].concat());
    assert_eq!(stray, "check: record 13 is never reached (6)\n");
}

#[test]
fn the_script_without_a_file_that_can_be_read() {
    for name in ["no-such.task", "no such file", env!("CARGO_TARGET_TMPDIR")] {
        let output = run_on(script(&[name]), &[]);
        let says = format!("check: {name}: no such file, or it cannot be read\n");
        assert_eq!((text(&output.stdout), text(&output.stderr)), ("", &says[..]));
        assert_eq!(output.status.code(), Some(NO_FILE));
    }
}

#[test]
fn the_script_says_how_it_is_used() {
    let (asked, wrong) = (run_on(script(&["--help"]), &[]), run_on(script(&["a", "b"]), &[]));
    assert!(text(&asked.stdout).starts_with("usage: ./check [--text] [FILE]"));
    assert_eq!((&asked.stdout, &asked.stderr), (&wrong.stderr, &wrong.stdout));
    assert_eq!((asked.status.code(), wrong.status.code()), (Some(0), Some(NO_FILE)));
    let wrong = run_on(script(&["--text", "a", "b"]), &[]);
    assert_eq!((&asked.stdout, wrong.status.code()), (&wrong.stderr, Some(NO_FILE)));
}

#[test]
fn the_readme_shows_the_sheet_of_its_command() {
    let sample = make_samples::all().swap_remove(0);
    let command = format!("    ./check samples/{}.task\n", sample.name);
    let lines: String = sample.sheet().lines().map(|line| format!("    {line}\n")).collect();
    assert!(README.contains(&command) && README.contains(&lines));
}

/// What the converter has to write: the other form of a text or a file, or the refusal's line.
fn converted(bytes: &[u8]) -> Vec<u8> {
    let mut buffer = vec![0; TEXT_ROOM];
    let is_text = bytes.first() == Some(&b'w');
    let convert = if is_text { text_to_file } else { file_to_text };
    let WriteAnswer { number, place, length } = convert(bytes, &mut buffer);
    match number {
        0 => buffer[..length].to_vec(),
        _ => format!("refused {number} {place}\n").into_bytes(),
    }
}

#[test]
fn the_converter_on_files_and_texts() {
    let mut random = Random::new(822);
    let mut inputs: Vec<Vec<u8>> =
        [TEXT_OF_X, TEXT_OF_ALL, "", "w", "window 1\n"].map(|text| text.as_bytes().into()).into();
    inputs.extend([longest_text_table().text(), longest_text_table().write()]);
    inputs.extend(make_samples::all().into_iter().map(|sample| sample.text.into_bytes()));
    inputs.extend(files().into_iter().step_by(5));
    inputs.extend(texts::uniform());
    let makes = [texts::good, texts::wrong_lines, texts::wrong_words, texts::many_lines];
    for make in [&makes[..], &[texts::wrong_bytes, texts::cut_short]].concat() {
        inputs.extend((0..25).map(|_| make(&mut random)));
    }
    for input in inputs {
        let output = run_on(converter(), &input);
        assert!(output.stdout == converted(&input), "{}", input.escape_ascii());
        assert_eq!((text(&output.stderr), output.status.code()), ("", Some(0)));
    }
}

#[test]
fn the_converter_reads_single_bytes_and_no_more_than_it_has_to() {
    let output = run(converter(), |input| write_slowly(input, TEXT_OF_X.as_bytes()));
    assert_eq!(output.stdout, table_x().write());
    let output = run(converter(), |input| write_slowly(input, &table_x().write()));
    assert_eq!(text(&output.stdout), TEXT_OF_X);
    let mut written = 0;
    let output = run(converter(), |input| written = write_on(input));
    assert!(written < ENDLESS, "all was read");
    assert_eq!(text(&output.stdout), "refused 1 0\n");
}

/// The sheet of a text is that of its file. The slow sorter's text is refused at its line.
#[test]
fn the_script_on_every_sample_as_a_text() {
    for sample in make_samples::all() {
        let name = format!("{}.text", sample.name);
        let mut by_name = script(&[&name]);
        by_name.current_dir(make_samples::directory());
        let of_file = run_on(script(&["-"]), &sample.file());
        for output in [run_on(by_name, &[]), run_on(script(&[]), sample.text.as_bytes())] {
            assert_eq!(output.status, of_file.status, "{name}");
            let sheet = sample.sheet().replace("refused 10 1", "refused 10 2");
            assert_eq!(text(&output.stdout), sheet, "{name}");
        }
    }
}

#[test]
fn the_script_prints_the_text() {
    for sample in make_samples::all().iter().filter(|sample| sample.name != "slow-sorter") {
        let name = format!("{}.task", sample.name);
        let mut by_name = script(&["--text", &name]);
        by_name.current_dir(make_samples::directory());
        for output in [
            run_on(by_name, &[]),
            run_on(script(&["--text"]), &sample.file()),
            run_on(script(&["--text", "-"]), sample.text.as_bytes()),
        ] {
            let printed = (text(&output.stdout), text(&output.stderr), output.status.code());
            assert_eq!(printed, (&sample.text[..], "", Some(HOLDS)), "{name}");
        }
    }
    let refused = edited(&table_x().write(), &[(8 * 16, 9)]);
    let output = run_on(script(&["--text"]), &refused);
    assert_eq!((text(&output.stdout), output.status.code()), ("refused 2 8\n", Some(REFUSED)));
    let says = "check: record 8 (instruction 0 of task 1) has the wrong kind for its chain (2)\n";
    assert_eq!(text(&output.stderr), says);
}

/// Asserts what the script says of a text that is refused, whether the sheet or the text is wanted.
fn assert_explains(input: &[u8], refused: &str, says: &str) {
    for words in [&["-"][..], &["--text"]] {
        let output = run_on(script(words), input);
        let found = (text(&output.stdout), text(&output.stderr));
        assert_eq!(found, (&format!("{refused}\n")[..], &format!("check: {says}\n")[..]));
        assert_eq!(output.status.code(), Some(REFUSED));
    }
}

#[test]
fn the_script_shows_the_line_of_a_text_that_is_refused() {
    let x = |from: &str, to: &str| TEXT_OF_X.replacen(from, to, 1).into_bytes();
    #[rustfmt::skip]
    let cases = [
        (x("load 0", "lod 0"), "refused 60 3",
            "line 3 \"lod 0 0\" is not in the grammar of texts (60)"),
        (x("load 0 0", "pick 0 6"), "refused 60 3",
            "line 3 \"pick 0 6\" is not in the grammar of texts (60)"),
        (x("load 0", "load\t0\0"), "refused 60 3",
            "line 3 \"load?0? 0\" is not in the grammar of texts (60)"),
        (b"window 5\n".to_vec(), "refused 60 1", "line 1 is missing (60)"),
        (b"window 5".to_vec(), "refused 60 0",
            "line 0 \"window 5\" has no newline at its end (60)"),
        ([TEXT_OF_X.as_bytes(), b"lock 0 \0"].concat(), "refused 60 12",
            "line 12 \"lock 0 ?\" has no newline at its end (60)"),
        (x("load 0", "load 256"), "refused 61 3",
            "line 3 \"load 256 0\" has a number that is too large for its field (61)"),
        (vec![b'w'; 9_000], "refused 62 0", "the text has more than 8,192 bytes (62)"),
        (x("window 5", "window 0"), "refused 4 0",
            "line 0 \"window 0\" (the header) has a value out of range, or an unused byte that is \
             not zero (4)"),
        (x("load 0 0", "pick 0 3 6"), "refused 4 3",
            "line 3 \"pick 0 3 6\" (instruction 0 of task 0) has a value out of range, or an unused \
             byte that is not zero (4)"),
        (x("task 1 4", "task 1 9"), "refused 8 8",
            "line 8 \"task 1 9 1\" (task 1) is a task with a period above the previous task's (8)"),
        (x("set 0 1", "acquire 5"), "refused 9 9",
            "line 9 \"acquire 5\" (instruction 0 of task 1) acquires or releases a lock that is not \
             in the table, or acquires one with a ceiling below the task's base (9)"),
        ([TEXT_OF_X.as_bytes(), b"lock 0 0\nlock 8 0\n"].concat(), "refused 4 13",
            "line 13 \"lock 8 0\" (lock 1) has a value out of range, or an unused byte that is not \
             zero (4)"),
        (x("window 5", "window 999"), "refused 11 0",
            "there are more than 32 jobs in the window (11)"),
    ];
    for (input, refused, says) in cases {
        assert_explains(&input, refused, says);
    }
    let long = format!("window {}\n", "9".repeat(8_000));
    let shown = format!("line 0 \"window {}\"", "9".repeat(53));
    let says = format!("{shown} has a number that is too large for its field (61)");
    assert_explains(long.as_bytes(), "refused 61 0", &says);
}

/// What begins with another letter than the first of `window` is taken for a file, and the script
/// says so.
#[test]
fn the_script_says_what_it_took_for_a_file() {
    for begin in ["Window 5\n", " window 5\n", "task 1 1 0\n", "\u{feff}window 5\n"] {
        let says = explained(begin.as_bytes());
        let taken = "it was taken for a task file, since it does not begin with the word window";
        assert!(says.ends_with(&format!("\ncheck: {taken}\n")), "{says}");
    }
}
