//! What a file's records are, for explanations. The rules of a file are the reader's business: here
//! a damaged file is followed as far as it goes.

/// A record's length.
const RECORD: usize = 16;
/// Where a record holds the next of its chain, its first task or instruction, and its first lock.
const NEXT: usize = 1;
const FIRST: usize = 2;
const FIRST_LOCK: usize = 3;

fn byte(file: &[u8], record: usize, at: usize) -> usize {
    file[record * RECORD + at].into()
}

/// What the chains reach, by record.
struct Names<'a> {
    file: &'a [u8],
    names: Vec<Option<String>>,
}

impl Names<'_> {
    /// Names a record that a chain comes to. False if there is none or it has a name; record 0 has
    /// one from the start, so the zero that ends a chain gives false too.
    fn give(&mut self, record: usize, name: String) -> bool {
        match self.names.get_mut(record) {
            Some(free @ None) => *free = Some(name),
            _ => return false,
        }
        true
    }

    /// Names a chain from its first record on.
    fn give_chain(&mut self, first: usize, name: impl Fn(usize) -> String) {
        let (mut record, mut number) = (first, 0);
        while self.give(record, name(number)) {
            record = byte(self.file, record, NEXT);
            number += 1;
        }
    }
}

/// What a record is to those who wrote the file: a task, an instruction of it, a lock. None if no
/// chain reaches it, or if there is no such record.
pub fn name(file: &[u8], record: usize) -> Option<String> {
    let mut names = Names { file, names: vec![None; file.len() / RECORD] };
    if !names.give(0, "the header".to_string()) {
        return None;
    }
    let (mut task, mut number) = (byte(file, 0, FIRST), 0);
    while names.give(task, format!("task {number}")) {
        let body = |position: usize| format!("instruction {position} of task {number}");
        names.give_chain(byte(file, task, FIRST), body);
        task = byte(file, task, NEXT);
        number += 1;
    }
    names.give_chain(byte(file, 0, FIRST_LOCK), |number| format!("lock {number}"));
    names.names.get(record)?.clone()
}

/// A record's bytes in the file, first and last.
pub fn extent(record: usize) -> (usize, usize) {
    (record * RECORD, record * RECORD + RECORD - 1)
}
