//! The proved walk's entry on table X: case P13, the room for the words, and the room for the order.

use adqurim::raw::{walk, walk_words, Verdict, WalkAnswer, WALK_WORDS};
use conformance::cases::{table_x, ORDER_OF_X};
use conformance::entries::{filled, pattern};
use generator::code;

/// What the entry must answer to table X if it may make 23 moves.
fn failing() -> WalkAnswer {
    let (verdict, count, length) = (Verdict::Fails, 23, ORDER_OF_X.len() as u64);
    let mut answer = WalkAnswer { verdict, count, length, ..WalkAnswer::default() };
    answer.end_store[0] = 1;
    answer.failed_jobs[0] = 1;
    answer
}

/// "X with allowance 23: fails"
#[test]
fn p13_fails_with_23() {
    let mut order = pattern(600);
    assert_eq!(walk(&table_x().write(), 23, &mut order), failing());
    assert_eq!(order, filled(600, 512, &ORDER_OF_X));
}

/// "22: 21"
#[test]
fn p13_is_undecided_with_22() {
    let mut order = pattern(600);
    let undecided = WalkAnswer { number: 21, ..WalkAnswer::default() };
    assert_eq!(walk(&table_x().write(), 22, &mut order), undecided);
    assert_eq!(order, filled(600, 512, &[]));
}

/// Table X with a Set for its assertion holds: the count of all moves, and a buffer of zeros.
#[test]
fn a_walk_that_holds() {
    let mut table = table_x();
    table.tasks[0].body[3] = code::set(2, 1);
    let file = table.write();
    let expected = interpreter::walk(&file, 1_000, &mut pattern(512));
    assert_eq!(expected.verdict, interpreter::Verdict::Holds);
    let count = expected.count;
    let holds = WalkAnswer { verdict: Verdict::Holds, count, ..WalkAnswer::default() };
    let mut order = pattern(512);
    assert_eq!(walk(&file, count, &mut order), holds);
    assert_eq!(order, filled(512, 512, &[]));
}

/// "20 ROOM: order buffer below 512 bytes .. place 0, buffer untouched"
#[test]
fn an_order_buffer_that_is_too_short() {
    let no_room = WalkAnswer { number: 20, ..WalkAnswer::default() };
    for length in [0, 1, 511] {
        let mut order = pattern(length);
        assert_eq!(walk(&table_x().write(), 23, &mut order), no_room);
        assert_eq!(order, pattern(length));
    }
}

/// Fewer than 45 words change neither the words nor the buffer; more keep their rest.
#[test]
fn room_for_the_words() {
    let file = table_x().write();
    for length in [0, 43, WALK_WORDS - 1] {
        let (mut order, mut words) = (pattern(600), vec![7; length]);
        assert!(!walk_words(&file, 23, &mut order, &mut words));
        assert_eq!((order, words), (pattern(600), vec![7; length]));
    }
    for length in [WALK_WORDS, WALK_WORDS + 1, 60] {
        let (mut order, mut words) = (pattern(600), vec![7; length]);
        assert!(walk_words(&file, 23, &mut order, &mut words));
        assert_eq!(words[..WALK_WORDS], <[u64; WALK_WORDS]>::from(failing()));
        assert_eq!(words[WALK_WORDS..], vec![7; length - WALK_WORDS]);
        assert_eq!(order, filled(600, 512, &ORDER_OF_X));
    }
}
