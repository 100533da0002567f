//! The files of `samples/`: they are what their program makes, and they show what their pages say.

use adqurim::{JobNumber, Refusal, Verdict};
use conformance::cases::accepted;
use interpreter::sheet::SHEET_ALLOWANCE;
use std::collections::BTreeSet;
use std::fs;

/// What stands in the repository for each sample: its text, the file, its sheet, its page.
const EXTENSIONS: [&str; 4] = ["text", "task", "sheet", "md"];

/// A sample's file with this extension, as it stands in the repository.
fn committed(name: &str, extension: &str) -> Vec<u8> {
    let path = make_samples::path(name, extension);
    fs::read(&path).unwrap_or_else(|error| panic!("{}: {error}", path.display()))
}

/// The task file of a sample, as it stands in the repository.
fn task_file(name: &str) -> Vec<u8> {
    committed(name, "task")
}

/// The page of a sample.
fn page(name: &str) -> String {
    String::from_utf8(committed(name, "md")).expect("a page is text")
}

/// The lines of a sample's text.
fn lines(name: &'static str) -> Vec<String> {
    make_samples::named(name).text.lines().map(String::from).collect()
}

/// The file of these lines, by the proved conversion.
fn file_of(lines: &[String]) -> Vec<u8> {
    let text = lines.join("\n") + "\n";
    adqurim::text_to_file(text.as_bytes()).unwrap_or_else(|refusal| panic!("{refusal}: {text}"))
}

/// Where the tasks' lines are.
fn tasks(lines: &[String]) -> Vec<usize> {
    (0..lines.len()).filter(|at| first_word(&lines[*at]) == "task").collect()
}

#[test]
fn files_and_sheets_are_as_made() {
    for sample in make_samples::all() {
        let (file, sheet) = (task_file(sample.name), committed(sample.name, "sheet"));
        let again = "run `cargo run --release --offline -p make_samples` in rust/";
        assert_eq!(file, sample.file(), "{}.task: {again}", sample.name);
        assert_eq!(String::from_utf8_lossy(&sheet), sample.sheet(), "{}: {again}", sample.name);
        assert_eq!(interpreter::sheet(&file).as_bytes(), sheet, "{}", sample.name);
    }
}

/// The proved conversions agree with the files: the text of each file is the sample's, and the file
/// of each text too. That of the slow sorter is refused, at the sorter's line and record.
#[test]
fn texts_are_those_of_their_files() {
    for sample in make_samples::all() {
        let (text, file) = (sample.text.as_bytes(), task_file(sample.name));
        match sample.name {
            "slow-sorter" => {
                let [at_line, at_record] = [2, 1].map(|place| Refusal { number: 10, place });
                assert_eq!(adqurim::text_to_file(text), Err(at_line));
                assert_eq!(adqurim::file_to_text(&file), Err(at_record));
                assert!(page(sample.name).contains("`refused 10 2`"));
            }
            name => {
                assert_eq!(adqurim::text_to_file(text), Ok(file.clone()), "{name}");
                assert_eq!(adqurim::file_to_text(&file), Ok(sample.text.clone()), "{name}");
            }
        }
    }
}

#[test]
fn each_page_shows_the_text() {
    for sample in make_samples::all() {
        let shown: String = sample.text.lines().map(|line| format!("    {line}\n")).collect();
        assert!(page(sample.name).ends_with(&format!("\n\n{shown}")), "{}", sample.name);
    }
}

#[test]
fn the_directory_holds_four_files_for_each_sample() {
    let expected: BTreeSet<String> = make_samples::NAMES
        .into_iter()
        .flat_map(|name| EXTENSIONS.map(|extension| format!("{name}.{extension}")))
        .collect();
    let entries = fs::read_dir(make_samples::directory()).expect("samples/ is there");
    let name = |entry: std::io::Result<fs::DirEntry>| {
        entry.expect("it can be listed").file_name().into_string().expect("a plain name")
    };
    assert_eq!(entries.map(name).collect::<BTreeSet<String>>(), expected);
    assert_eq!(expected.len(), 36);
}

#[test]
fn each_page_names_its_sample_and_quotes_what_the_sheet_finds() {
    for sample in make_samples::all() {
        let page = page(sample.name);
        assert!(page.starts_with(&format!("# {}\n", sample.name)), "{}", sample.name);
        let sheet = sample.sheet();
        let finds = |line: &&str| ["verdict", "refused", "failed"].contains(&first_word(line));
        for line in sheet.lines().filter(finds) {
            assert!(page.contains(&format!("`{line}`")), "{}: {line}", sample.name);
        }
    }
}

fn first_word(line: &str) -> &str {
    line.split(' ').next().unwrap_or_default()
}

/// The proved walk of a sample's file with the check program's allowance.
fn walk(name: &str) -> Result<Verdict, Refusal> {
    adqurim::walk(&task_file(name), SHEET_ALLOWANCE)
}

/// The count and the failed jobs of a sample whose walk fails.
fn failing(name: &str) -> (u64, Vec<JobNumber>) {
    match walk(name) {
        Ok(Verdict::Fails { count, ending, .. }) => (count, ending.failed_jobs),
        other => panic!("{name}: {other:?}"),
    }
}

#[test]
fn the_proved_walk_finds_what_each_sample_shows() {
    assert_eq!(failing("lost-update"), (73, vec![JobNumber(2)]));
    assert_eq!(walk("lost-update-locked"), Ok(Verdict::Holds { count: 93 }));
    assert_eq!(walk("nested-lock"), Ok(Verdict::Holds { count: 109 }));
    assert_eq!(failing("half-changed-lane"), (88, vec![JobNumber(2)]));
    assert_eq!(walk("lane-kept-apart"), Ok(Verdict::Holds { count: 19 }));
    assert_eq!(failing("long-hold"), (43, vec![JobNumber(3)]));
    assert_eq!(walk("lane-sensor"), Ok(Verdict::Holds { count: 239 }));
    assert_eq!(walk("slow-sorter"), Err(Refusal { number: 10, place: 1 }));
    assert_eq!(walk("too-many-orders"), Err(Refusal { number: 21, place: 0 }));
}

#[test]
fn the_locked_sample_is_the_unlocked_one_and_a_lock() {
    let mut locked = lines("lost-update-locked");
    assert_eq!(locked.last().map(String::as_str), Some("lock 1 0"));
    locked.retain(|line| !["acquire", "release", "lock"].contains(&first_word(line)));
    assert_eq!(locked, lines("lost-update"));
}

/// Where the helper's Acquire stands after each task's line of the nested sample, its load, and its
/// Release.
const INNER_ACQUIRE: usize = 2;
const INNER_LOAD: usize = 3;
const INNER_RELEASE: usize = 4;

#[test]
fn the_nested_sample_is_the_locked_one_and_a_helper() {
    let mut nested = lines("nested-lock");
    for task in tasks(&nested).into_iter().rev() {
        assert_eq!(nested.remove(task + INNER_RELEASE), "release 0");
        assert_eq!(nested.remove(task + INNER_ACQUIRE), "acquire 0");
    }
    assert_eq!(nested, lines("lost-update-locked"));
}

/// Without the helper's Acquire its Release frees the lock. A second load takes the place of the
/// Acquire, so that each job has as many steps.
#[test]
fn the_nested_sample_would_fail_if_the_inner_release_freed() {
    let mut freed = lines("nested-lock");
    for task in tasks(&freed) {
        freed[task + INNER_ACQUIRE] = freed[task + INNER_LOAD].clone();
    }
    let Ok(Verdict::Fails { order, ending, .. }) = adqurim::walk(&file_of(&freed), SHEET_ALLOWANCE)
    else {
        panic!("it fails");
    };
    assert_eq!(ending.failed_jobs, [JobNumber(2)]);
    let words: Vec<String> = order.iter().map(u8::to_string).collect();
    assert!(page("nested-lock").contains(&format!("    {}\n", words.join(" "))));
    let refused = adqurim::replay(&task_file("nested-lock"), &order);
    assert_eq!(refused, Err(Refusal { number: 30, place: 6 }));
}

#[test]
fn the_lane_samples_differ_in_one_period() {
    let mut apart = lines("lane-kept-apart");
    let divert = apart.iter_mut().find(|line| *line == "task 10 40 0").expect("it is a line");
    *divert = "task 10 20 0".to_string();
    assert_eq!(apart, lines("half-changed-lane"));
}

/// Without its holding time the sample holds: it is that which lets job 3 preempt job 1.
#[test]
fn the_long_hold_would_hold_without_its_holding_time() {
    let mut free = lines("long-hold");
    let held = file_of(&free);
    assert_eq!(free.pop().as_deref(), Some("lock 1 20"));
    free.push("lock 1 0".to_string());
    let file = file_of(&free);
    assert_eq!(adqurim::walk(&file, SHEET_ALLOWANCE), Ok(Verdict::Holds { count: 262 }));
    assert!(page("long-hold").contains("`verdict holds 262`"));
    let times = |file: &[u8]| adqurim::read(file).expect("it is accepted").response_times;
    assert_eq!((times(&file), times(&held)), (vec![70, 30, 10], vec![70, 60, 10]));
    let [short, long] = [&file, &held].map(|file| accepted(file));
    let (change, divert) = (interpreter::JobNumber(1), interpreter::JobNumber(3));
    assert!(short.comes_before(change, divert) && !short.may_preempt(divert, change));
    assert!(long.may_preempt(divert, change) && !long.comes_before(change, divert));
}

/// The lines of the lane sensor's sample with others in place of its Pick.
fn lane_sensor_with(pick: &[&str]) -> Vec<String> {
    let mut lines = lines("lane-sensor");
    let at = lines.iter().position(|line| line == "pick 0 6 3").expect("it is a line");
    lines.splice(at..=at, pick.iter().map(|line| line.to_string()));
    lines
}

/// With a Pick from 0 the first order that fails has a lane which the sensor does not report.
#[test]
fn the_lane_sensor_would_fail_with_a_pick_from_0() {
    let from_0 = file_of(&lane_sensor_with(&["pick 0 6 0"]));
    let Ok(Verdict::Fails { count, order, ending }) = adqurim::walk(&from_0, SHEET_ALLOWANCE)
    else {
        panic!("it fails");
    };
    assert_eq!((count, ending.failed_jobs), (19, vec![JobNumber(1), JobNumber(2)]));
    assert_eq!(ending.end_store, [0, 253, 0, 0, 0, 0, 0, 0]);
    let words: Vec<String> = order.iter().map(u8::to_string).collect();
    let page = page("lane-sensor");
    assert!(page.contains("`verdict fails 19`"));
    assert!(page.contains(&format!("    {}\n", words.join(" "))));
    let file = task_file("lane-sensor");
    let refusal = adqurim::replay(&file, &order).expect_err("it is refused");
    assert_eq!(refusal, Refusal { number: 34, place: 0 });
    assert_eq!(refusal.on_offer(&file, &order), Some(3..=6));
    assert!(page.contains("`refused 34 0`"));
}

/// A Pick from 0 and a sum give the same lanes in more moves, and in a longer window in too many.
#[test]
fn the_lane_sensor_in_three_instructions_takes_more_moves() {
    let holds = |count| Ok(Verdict::Holds { count });
    let undecided = Err(Refusal { number: 21, place: 0 });
    let instructions = [&["pick 0 6 3"][..], &["pick 0 3 0", "set 1 3", "add 0 1"]];
    let [one, three] = instructions.map(lane_sensor_with);
    let cases = [
        (one.clone(), "window 60", holds(239), "`verdict holds 239`"),
        (three.clone(), "window 60", holds(395), "`verdict holds 395`"),
        (one, "window 260", holds(585_439), "`verdict holds 585439`"),
        (three, "window 260", undecided, "`refused 21 0`"),
    ];
    for (mut lines, window, verdict, says) in cases {
        lines[0] = window.to_string();
        assert_eq!(adqurim::walk(&file_of(&lines), SHEET_ALLOWANCE), verdict);
        assert!(page("lane-sensor").contains(says), "{says}");
    }
}

#[test]
fn the_slow_sorter_has_the_times_of_p4() {
    let lines = lines("slow-sorter");
    let times: Vec<&str> = tasks(&lines).into_iter().map(|at| &lines[at][..]).collect();
    assert_eq!(times, ["task 3000000000 4000000000 0", "task 1500000000 3000000000 0"]);
    // What a sum in 32 bits would make of the sorter's time, which is below its period.
    assert_eq!(3_000_000_000_u32.wrapping_add(1_500_000_000), 205_032_704);
}

#[test]
fn the_undecided_sample_is_accepted_by_the_reader() {
    assert_eq!(accepted(&task_file("too-many-orders")).jobs.len(), 8);
}
