//! What a refusal of a text says with the text at hand: the line itself, and what is wrong with it.

use adqurim::{Place, Refusal, Rule};
use conformance::cases::{TEXT_OF_ALL, TEXT_OF_X};
use conformance::comparison::TO_FILE;
use generator::{texts, Random};

/// Asserts what the refusal of a text says.
fn assert_says(text: impl AsRef<[u8]>, message: &str) {
    let refusal = adqurim::text_to_file(text.as_ref()).expect_err(message);
    assert_eq!(refusal.in_text(text.as_ref()).to_string(), message);
}

/// Asserts what is said of table X's text with something in place of something.
fn edit_says(from: &str, to: &str, message: &str) {
    assert!(TEXT_OF_X.contains(from));
    assert_says(TEXT_OF_X.replacen(from, to, 1), message);
}

#[test]
fn lines_that_are_not_in_the_grammar() {
    #[rustfmt::skip]
    let expected = [
        ("load 0 0", "lod 0 0", "line 3, `lod 0 0`: no line begins with `lod` (60 LINE)"),
        ("load 0 0", "", "line 3, ``: no line begins with `` (60 LINE)"),
        ("load 0 0", "LOAD 0 0", "line 3, `LOAD 0 0`: no line begins with `LOAD` (60 LINE)"),
        ("load 0 0", " load 0 0", "line 3, ` load 0 0`: no line begins with `` (60 LINE)"),
        ("load 0 0", "load 0", "line 3, `load 0`: it is not `load a b` in plain numbers, with one \
            space between words (60 LINE)"),
        ("load 0 0", "load  0 0", "line 3, `load  0 0`: it is not `load a b` in plain numbers, with \
            one space between words (60 LINE)"),
        ("load 0 0", "load 00 0", "line 3, `load 00 0`: it is not `load a b` in plain numbers, with \
            one space between words (60 LINE)"),
        ("load 0 0", "load 0 0\t\0", "line 3, `load 0 0\\t\\x00`: it is not `load a b` in plain \
            numbers, with one space between words (60 LINE)"),
        ("load 0 0", "pick 0 6", "line 3, `pick 0 6`: it is not `pick a b c` in plain numbers, with \
            one space between words (60 LINE)"),
        ("load 0 0", "pick 0 6 3 0", "line 3, `pick 0 6 3 0`: it is not `pick a b c` in plain \
            numbers, with one space between words (60 LINE)"),
        ("window 5", "window five", "line 0, `window five`: it is not `window W` in plain numbers, \
            with one space between words (60 LINE)"),
        ("task 2 8 0", "task 2 8", "line 2, `task 2 8`: it is not `task C P A` in plain numbers, \
            with one space between words (60 LINE)"),
        ("task 2 8 0\n", "", "line 2, `load 0 0`: it is out of place (60 LINE)"),
        ("task 2 8 0", "window 5", "line 2, `window 5`: it is out of place (60 LINE)"),
        ("task 1 4 1", "lock 0 0", "line 9, `set 0 1`: it is out of place (60 LINE)"),
    ];
    expected.iter().for_each(|(from, to, message)| edit_says(from, to, message));
    assert_says("", "line 0 is missing: it is `window W` (60 LINE)");
    let start = "start v0 v1 v2 v3 v4 v5 v6 v7";
    assert_says("window 5\n", &format!("line 1 is missing: it is `{start}` (60 LINE)"));
    assert_says("window 5", "line 0, `window 5`: it is not ended by a newline (60 LINE)");
    let cut = &TEXT_OF_X[..TEXT_OF_X.len() - 1];
    assert_says(cut, "line 11, `end`: it is not ended by a newline (60 LINE)");
    assert_says(
        vec![b'w'; 100],
        "line 0, `wwwwwwwwwwwwwwwwwwwwwwwwwwwwwwwwwwwwwwwwwwwwwwwwwwwwwwwwwwww..`: \
        it is not ended by a newline (60 LINE)",
    );
}

#[test]
fn numbers_that_are_too_large() {
    #[rustfmt::skip]
    let expected = [
        ("load 0 0", "load 256 0", "line 3, `load 256 0`: the number `256` is above 255 (61 LARGE)"),
        ("load 0 0", "pick 0 6 256",
            "line 3, `pick 0 6 256`: the number `256` is above 255 (61 LARGE)"),
        ("load 0 0", "set 1 300", "line 3, `set 1 300`: the number `300` is above 255 (61 LARGE)"),
        ("window 5", "window 4294967296",
            "line 0, `window 4294967296`: the number `4294967296` is above 4294967295 (61 LARGE)"),
        ("task 2 8 0", "task 2 4294967295 18446744073709551616",
            "line 2, `task 2 4294967295 18446744073709551616`: the number `18446744073709551616` is \
             above 4294967295 (61 LARGE)"),
        ("start 0 0 0 0 0 0 0 0", "start 0 0 0 0 0 0 0 999",
            "line 1, `start 0 0 0 0 0 0 0 999`: the number `999` is above 255 (61 LARGE)"),
    ];
    expected.iter().for_each(|(from, to, message)| edit_says(from, to, message));
    let nines = |count: usize| "9".repeat(count);
    let (line, number) = (nines(54), nines(60));
    edit_says(
        "load 0 0",
        &format!("set 0 {}", nines(8_000)),
        &format!("line 3, `set 0 {line}..`: the number `{number}..` is above 255 (61 LARGE)"),
    );
    let locks = format!("{TEXT_OF_X}lock 256 0\n");
    assert_says(locks, "line 12, `lock 256 0`: the number `256` is above 255 (61 LARGE)");
    let locks = format!("{TEXT_OF_X}lock 7 4294967296\n");
    assert_says(
        locks,
        "line 12, `lock 7 4294967296`: the number `4294967296` is above 4294967295 \
        (61 LARGE)",
    );
}

/// The table's own numbers: the line, which part of the table it is, and which part of the rule is
/// broken.
#[test]
fn rules_of_the_table() {
    #[rustfmt::skip]
    let expected = [
        ("window 5", "window 0", "line 0, `window 0` (the header): the window is 0 (4 FIELD)"),
        ("task 2 8 0", "task 9 8 0", "line 2, `task 9 8 0` (task 0): the execution time 9 is not \
            from 1 to the period 8 (4 FIELD)"),
        ("load 0 0", "load 4 0", "line 3, `load 4 0` (instruction 0 of task 0): a field is out of \
            range (4 FIELD)"),
        ("load 0 0", "pick 0 3 6", "line 3, `pick 0 3 6` (instruction 0 of task 0): c 6, the lowest \
            value, is above b 3, the highest (4 FIELD)"),
        ("load 0 0", "pick 0 15 255", "line 3, `pick 0 15 255` (instruction 0 of task 0): c 255, the \
            lowest value, is above b 15, the highest (4 FIELD)"),
        ("load 0 0", "pick 4 6 3", "line 3, `pick 4 6 3` (instruction 0 of task 0): a field is out \
            of range (4 FIELD)"),
        ("load 0 0", "pick 0 16 3", "line 3, `pick 0 16 3` (instruction 0 of task 0): a field is out \
            of range (4 FIELD)"),
        ("load 0 0", "less 0 0 16", "line 3, `less 0 0 16` (instruction 0 of task 0): a field is out \
            of range (4 FIELD)"),
        ("set 0 1\nstore 0 0\nend\n", "", "line 8, `task 1 4 1` (task 1): the body is empty \
            (5 COUNT)"),
        ("store 0 0\nend\n", "store 0 0\n", "line 10, `store 0 0` (instruction 1 of task 1): it is \
            the body's last and not End (7 BODY)"),
        ("equal 0 1 1", "equal 0 1 2", "line 5, `equal 0 1 2` (instruction 2 of task 0): it skips \
            beyond the body's last (7 BODY)"),
        ("task 1 4 1", "task 1 9 1", "line 8, `task 1 9 1` (task 1): the period 9 is above the \
            previous task's 8 (8 RATE)"),
        ("set 0 1", "acquire 255", "line 9, `acquire 255` (instruction 0 of task 1): lock 255 is \
            not in the table (9 CEILING)"),
        ("task 2 8 0", "task 8 8 0", "line 2, `task 8 8 0` (task 0): with C 8 and B 0, its wait \
            for a lower task's lock, there is no response time within the period 8 (10 OVERLOAD)"),
        ("window 5", "window 999", "the table has more than 32 jobs (11 JOBS)"),
    ];
    expected.iter().for_each(|(from, to, message)| edit_says(from, to, message));
    assert_says(vec![b' '; 9_000], "the text has more than 8,192 bytes (62 LONG)");
}

#[test]
fn counts_and_locks_of_the_table() {
    let none = &TEXT_OF_X[..TEXT_OF_X.find("task").expect("it has tasks")];
    assert_says(none, "line 0, `window 5` (the header): there are no tasks (5 COUNT)");
    let nine = format!("{none}{}", "task 1 9 0\nend\n".repeat(9));
    assert_says(nine, "line 18, `task 1 9 0` (task 8): it is a task too many (5 COUNT)");
    let long = format!("{none}task 1 9 0\n{}", "end\n".repeat(300));
    assert_says(
        long,
        "line 19, `end` (instruction 16 of task 0): it is an instruction too many \
        (5 COUNT)",
    );
    let locks = format!("{TEXT_OF_X}{}", "lock 7 0\n".repeat(9));
    assert_says(locks, "line 20, `lock 7 0` (lock 8): it is a lock too many (5 COUNT)");
    let ceiling = format!("{TEXT_OF_X}lock 8 0\n");
    assert_says(ceiling, "line 12, `lock 8 0` (lock 0): the ceiling 8 is above 7 (4 FIELD)");
    let low = TEXT_OF_X.replace("set 0 1", "acquire 0") + "lock 0 0\n";
    assert_says(
        low,
        "line 9, `acquire 0` (instruction 0 of task 1): lock 0 has the ceiling 0, below \
        base 1 (9 CEILING)",
    );
    let waits = TEXT_OF_ALL.replace("lock 1 12", "lock 1 40");
    assert_says(
        waits,
        "line 17, `task 1 40 4294967295` (task 1): with C 1 and B 40, its wait for a \
        lower task's lock, there is no response time within the period 40 (10 OVERLOAD)",
    );
}

/// A refusal that is not about a line of the text has its plain message.
#[test]
fn other_refusals_with_a_text_at_hand() {
    for number in (0..=70).chain([u64::MAX]) {
        for place in [0, 2, 3, 11, 12, 1_281, u64::MAX] {
            let refusal = Refusal { number, place };
            let says = refusal.in_text(TEXT_OF_X.as_bytes()).to_string();
            let about = match number {
                4 | 5 => place < 12,
                7 | 9 => [3, 11].contains(&place),
                10 => place == 2,
                60 => place < 12,
                _ => false,
            };
            assert_eq!(says != refusal.to_string(), about, "{refusal:?}: {says}");
        }
    }
}

/// Of every refused text the message begins with the line, if there is one, ends with the rule, and
/// is short whatever the text.
#[test]
fn messages_of_many_texts() {
    let mut random = Random::new(1040);
    let makes = [
        texts::miscounted,
        texts::wrong_instruction,
        texts::wrong_times,
        texts::busy,
        texts::many_jobs,
        texts::wrong_lines,
        texts::wrong_words,
        texts::wrong_bytes,
        texts::mailed,
        texts::random_bytes,
        texts::cut_short,
    ];
    let mut numbers = [0; 63];
    for make in makes {
        for _ in 0..300 {
            let text = make(&mut random);
            let Err(refusal) = adqurim::text_to_file(&text) else { continue };
            let Refusal { number, place } = refusal;
            numbers[number as usize] += 1;
            let rule = refusal.rule().expect("a number of the papers");
            let says = refusal.in_text(&text).to_string();
            assert!(says.ends_with(&format!(" ({number} {})", rule.name())), "{says}");
            assert!(says.is_ascii() && says.len() < 300, "{says}");
            let begins = match rule.place() {
                Place::Nowhere => "the t".to_string(),
                _ if rule == Rule::Line => format!("line {place}"),
                _ => format!("line {place}, `"),
            };
            assert!(says.starts_with(&begins), "{says}");
        }
    }
    let given = [4, 5, 7, 8, 9, 10, 11, 60, 61, 62];
    assert!(given.iter().all(|number| numbers[*number] >= 5), "{numbers:?}");
}

/// The binding's values are those of the raw entries.
#[test]
fn values_of_texts() {
    let mut random = Random::new(1041);
    for make in [texts::good, texts::wrong_words, texts::wrong_times] {
        for _ in 0..500 {
            let text = make(&mut random);
            let mut buffer = vec![0; TO_FILE.room];
            let answer = (TO_FILE.expected)(&text, &mut buffer);
            let expected = match answer.number {
                0 => Ok(buffer[..answer.length as usize].to_vec()),
                number => Err(Refusal { number, place: answer.place }),
            };
            assert_eq!(adqurim::text_to_file(&text), expected);
            if let Ok(file) = expected {
                let back = adqurim::file_to_text(&file).expect("the file is accepted");
                assert_eq!(back.as_bytes(), text);
            }
        }
    }
}
