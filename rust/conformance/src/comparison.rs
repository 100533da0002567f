//! Calls of the proved entries that must answer as the interpreter does, field by field and byte by
//! byte.

use crate::entries::{amid, filled, pattern, word_pattern};
use crate::proved::{
    expected_check_plan, expected_file_to_text, expected_order_to_plan, expected_plan_to_order,
    expected_replay, expected_table, expected_text_to_file,
};
use adqurim::raw::{
    check_plan, file_to_text, file_to_text_words, order_to_plan, order_to_plan_words,
    plan_to_order, plan_to_order_words, replay, table, table_words, text_to_file,
    text_to_file_words, walk, RunAnswer, WalkAnswer, WriteAnswer, WRITE_WORDS,
};
use adqurim::{FILE_ROOM, ORDER_ROOM, PLAN_ROOM, TABLE_ROOM, TEXT_ROOM};
use generator::Random;

/// Asserts that both replays give one answer.
pub fn compare_replay(name: &str, file: &[u8], order: &[u8]) -> RunAnswer {
    let expected = expected_replay(file, order);
    assert_eq!(replay(file, order), expected, "{name}: {file:02x?} {order:?}");
    expected
}

/// Asserts that both plan checks give one answer.
pub fn compare_check_plan(name: &str, file: &[u8], plan: &[u8]) -> RunAnswer {
    let expected = expected_check_plan(file, plan);
    assert_eq!(check_plan(file, plan), expected, "{name}: {file:02x?} {plan:?}");
    expected
}

/// Asserts that the proved walk gives this answer and leaves these bytes in a buffer of as many.
pub fn assert_walk(name: &str, file: &[u8], allowance: u64, expected: &WalkAnswer, left: &[u8]) {
    let mut buffer = pattern(left.len());
    let proved = walk(file, allowance, &mut buffer);
    let case = || format!("{name}, {allowance} moves, {} bytes: {file:02x?}", left.len());
    assert_eq!(proved, *expected, "{}", case());
    assert!(buffer == left, "{}", case());
}

/// Converts a file's order or plan into a lent buffer, and lent words.
type Convert = fn(&[u8], &[u8], &mut [u8]) -> RunAnswer;
type ConvertWords = fn(&[u8], &[u8], &mut [u8], &mut [u64]) -> bool;

/// A conversion of both sides, the proved one also with lent words, and the room that it needs.
pub struct Conversion {
    pub proved: Convert,
    pub words: ConvertWords,
    pub expected: Convert,
    pub room: usize,
}

pub const TO_PLAN: Conversion = Conversion {
    proved: order_to_plan,
    words: order_to_plan_words,
    expected: expected_order_to_plan,
    room: PLAN_ROOM,
};

pub const TO_ORDER: Conversion = Conversion {
    proved: plan_to_order,
    words: plan_to_order_words,
    expected: expected_plan_to_order,
    room: ORDER_ROOM,
};

impl Conversion {
    /// Asserts that both sides give one answer and leave one buffer of this size, which a refusal
    /// leaves as it was and an acceptance fills up to the room.
    pub fn compare(&self, file: &[u8], bytes: &[u8], size: usize) -> RunAnswer {
        let (mut buffer, mut left) = (pattern(size), pattern(size));
        let expected = (self.expected)(file, bytes, &mut left);
        let case = || format!("{size} bytes lent: {file:02x?} {bytes:?}");
        assert_eq!((self.proved)(file, bytes, &mut buffer), expected, "{}", case());
        assert!(buffer == left, "the buffers differ, {}", case());
        if expected.number == 0 {
            let written = &left[..expected.length as usize];
            assert!(buffer == filled(size, self.room, written), "{}", case());
        } else {
            assert!(buffer == pattern(size), "{}", case());
        }
        expected
    }
}

/// Writes something that is made of bytes into a lent buffer, and lent words.
type Write = fn(&[u8], &mut [u8]) -> WriteAnswer;
type WriteWords = fn(&[u8], &mut [u8], &mut [u64]) -> bool;

/// An entry of both sides that writes to the front of a buffer and changes nothing past that, the
/// proved one also with lent words, and the room that it needs.
pub struct Writing {
    pub proved: Write,
    pub words: WriteWords,
    pub expected: Write,
    pub room: usize,
}

pub const TO_MEMORY: Writing =
    Writing { proved: table, words: table_words, expected: expected_table, room: TABLE_ROOM };

pub const TO_FILE: Writing = Writing {
    proved: text_to_file,
    words: text_to_file_words,
    expected: expected_text_to_file,
    room: FILE_ROOM,
};

pub const TO_TEXT: Writing = Writing {
    proved: file_to_text,
    words: file_to_text_words,
    expected: expected_file_to_text,
    room: TEXT_ROOM,
};

impl Writing {
    /// Asserts that both sides give one answer and leave one buffer of those that were like this
    /// one: what is written at its front, and every other byte as it was.
    pub fn compare(&self, bytes: &[u8], blank: &[u8]) -> WriteAnswer {
        let (mut buffer, mut left) = (blank.to_vec(), blank.to_vec());
        let expected = (self.expected)(bytes, &mut left);
        let case = || format!("{} bytes lent: {}", blank.len(), shown(bytes));
        assert_eq!((self.proved)(bytes, &mut buffer), expected, "{}", case());
        assert!(buffer == left, "the buffers differ, {}", case());
        let length = expected.length as usize;
        assert!(buffer[length..] == blank[length..], "past what is written, {}", case());
        expected
    }

    /// Lends part of a larger buffer, some words of a larger list, and the bytes amid others. Only
    /// the three words and what is written change, and nothing without room for the words.
    pub fn compare_lent(&self, random: &mut Random, bytes: &[u8], size: usize, length: usize) {
        let (around, at) = amid(random, bytes);
        let unchanged = around.clone();
        let (mut buffer, mut words) = (pattern(size + 16), word_pattern(length + 16));
        let (mut left, mut expected) = (buffer.clone(), words.clone());
        let room = (self.words)(&around[at], &mut buffer[8..][..size], &mut words[8..][..length]);
        assert_eq!(room, length >= WRITE_WORDS, "{size} {length}");
        if room {
            let answer = (self.expected)(bytes, &mut left[8..][..size]);
            expected[8..][..WRITE_WORDS].copy_from_slice(&<[u64; WRITE_WORDS]>::from(answer));
        }
        assert!(buffer == left && words == expected && around == unchanged, "{size} {length}");
    }
}

/// Bytes for a message: a text as it is, a file in numbers.
fn shown(bytes: &[u8]) -> String {
    match bytes.first() {
        Some(1) => format!("{bytes:02x?}"),
        _ => format!("\"{}\"", bytes.escape_ascii()),
    }
}
