//! A file read into memory and written is that file with its records in walk order, and a table
//! written and read back is the same table. The walk order here is found from the file's chains
//! alone.

use adqurim::raw::{self, WriteAnswer};
use adqurim::{Instruction, Table, TaskEntry, FILE_ROOM, TABLE_ROOM};
use conformance::cases::{full_table, table_x};
use conformance::entries::pattern;
use conformance::families::*;
use generator::holding::hold;
use generator::memory::{good, miscounted};
use generator::{
    random_holding, random_long_hold, random_nest, random_race, Random, TableDescription,
};

/// The seeds differ, so that no family repeats the tables of another.
const FAMILIES: [Family; 9] = [
    Family { name: "small tables", seed: 840, tables: 2_000, make: small },
    Family { name: "races", seed: 841, tables: 1_000, make: random_race },
    Family { name: "nests", seed: 842, tables: 1_000, make: random_nest },
    Family { name: "nests of four", seed: 843, tables: 1_000, make: nest_of_four },
    Family { name: "tables of any size", seed: 844, tables: 6_000, make: any },
    Family { name: "many jobs", seed: 845, tables: 3_000, make: crowded },
    Family { name: "the largest table", seed: 846, tables: 500, make: largest_with_assertions },
    Family { name: "holding times", seed: 849, tables: 3_000, make: random_holding },
    Family { name: "long holds", seed: 850, tables: 1_000, make: random_long_hold },
];

/// The records of a chain, from the one that this byte leads to.
fn chain(file: &[u8], holder: usize, byte: usize) -> Vec<usize> {
    let mut records = Vec::new();
    let mut index = file[16 * holder + byte];
    while index != 0 {
        records.push(index.into());
        index = file[16 * usize::from(index) + 1];
    }
    records
}

/// An accepted file's records in walk order: header, each task followed by its body, then locks.
fn walk_order(file: &[u8]) -> Vec<usize> {
    let mut records = vec![0];
    for task in chain(file, 0, 2) {
        records.push(task);
        records.extend(chain(file, task, 2));
    }
    records.extend(chain(file, 0, 3));
    records
}

/// The file with its records in walk order, and each index renamed to where its record went.
fn in_walk_order(file: &[u8]) -> Vec<u8> {
    let order = walk_order(file);
    assert_eq!(order.len() * 16, file.len(), "each record once");
    let mut moved = Vec::new();
    for record in &order {
        let mut bytes = file[16 * record..][..16].to_vec();
        let indices: &[usize] = match bytes[0] {
            1 => &[2, 3],
            2 => &[1, 2],
            _ => &[1],
        };
        for at in indices {
            let went = |index: u8| order.iter().position(|other| *other == index.into());
            bytes[*at] = went(bytes[*at]).expect("each index is a record's") as u8;
        }
        moved.extend(bytes);
    }
    moved
}

/// Reads an accepted file and writes it, with bytes around what is lent; the file that is written.
fn rewritten(file: &[u8]) -> Vec<u8> {
    let mut memory = [0xa5; TABLE_ROOM];
    let answer = raw::table(file, &mut memory);
    assert_eq!(answer, WriteAnswer { number: 0, place: 0, length: TABLE_ROOM as u64 });
    let mut buffer = pattern(FILE_ROOM + 30);
    let answer = raw::write(&memory, &mut buffer);
    let length = file.len();
    assert_eq!(answer, WriteAnswer { number: 0, place: 0, length: length as u64 });
    assert!(buffer[length..] == pattern(FILE_ROOM + 30)[length..], "{file:02x?}");
    let mut back = [0x5a; TABLE_ROOM];
    raw::table(&buffer[..length], &mut back);
    assert!(back == memory, "read back, it is another table: {file:02x?}");
    buffer.truncate(length);
    buffer
}

#[test]
fn a_file_read_and_written_is_in_walk_order() {
    let (mut accepted, mut longest, mut moved) = (0, 0, 0);
    for family in FAMILIES {
        let mut random = Random::new(family.seed);
        for _ in 0..family.tables {
            let table = (family.make)(&mut random);
            let file = table.write_shuffled(&mut random).0;
            if raw::read(&file).number != 0 {
                continue;
            }
            let written = rewritten(&file);
            assert_eq!(written, in_walk_order(&file), "{file:02x?}");
            assert_eq!(written, table.write(), "{file:02x?}");
            assert_eq!(rewritten(&written), written, "written twice: {file:02x?}");
            accepted += 1;
            longest = longest.max(file.len() / 16);
            moved += u32::from(written != file);
        }
        println!("{}: {accepted} accepted, {moved} moved, {longest} records", family.name);
    }
    assert!(accepted >= 5_000 && moved >= 4_000, "{accepted} {moved}");
    assert_eq!(longest, 145);
}

#[test]
fn samples_and_table_x_are_in_walk_order_already() {
    let files = make_samples::all().into_iter().map(|sample| sample.file());
    for file in files.chain([table_x().write(), full_table().write()]) {
        if raw::read(&file).number == 0 {
            assert_eq!(rewritten(&file), file);
        }
    }
}

/// Tables that were never a file: what is written is accepted by the reader, and gives the same
/// table but for what stands past the counts.
#[test]
fn a_table_written_and_read_back_is_the_same() {
    let mut random = Random::new(847);
    let mut accepted = 0;
    for round in 0..6_000 {
        let memory = match round % 3 {
            0 => miscounted(&mut random),
            _ => good(&mut random),
        };
        let mut buffer = pattern(FILE_ROOM);
        let answer = raw::write(&memory, &mut buffer);
        if answer.number != 0 {
            continue;
        }
        accepted += 1;
        let file = &buffer[..answer.length as usize];
        assert_eq!(raw::read(file).number, 0);
        let mut back = [0; TABLE_ROOM];
        assert_eq!(raw::table(file, &mut back).number, 0);
        assert_eq!(rewritten(file), file);
        let (one, other) = (adqurim::table(file), parts(&memory));
        assert_eq!(one, Ok(other), "{memory:02x?}");
    }
    assert!(accepted >= 2_000, "{accepted}");
}

/// The parts of a table in memory, found by its counts.
fn parts(memory: &[u8; TABLE_ROOM]) -> Table {
    let wide = |at: usize| u32::from_le_bytes(std::array::from_fn(|byte| memory[at + byte]));
    let task = |number: usize| {
        let at = 24 + 80 * number;
        let instruction = |position: usize| {
            let fields = &memory[at + 16 + 4 * position..];
            let [operation, a, b, c] = [fields[0], fields[1], fields[2], fields[3]];
            Instruction { operation, a, b, c }
        };
        TaskEntry {
            execution: wide(at),
            period: wide(at + 4),
            arrival: wide(at + 8),
            body: (0..memory[at + 12].into()).map(instruction).collect(),
        }
    };
    Table {
        window: wide(0),
        store: std::array::from_fn(|variable| memory[4 + variable]),
        tasks: (0..memory[12].into()).map(task).collect(),
        ceilings: memory[16..16 + usize::from(memory[13])].to_vec(),
        holdings: (0..memory[13].into()).map(|lock: usize| wide(664 + 4 * lock)).collect(),
    }
}

/// A description as the binding has tables.
fn table_of(described: &TableDescription) -> Table {
    let task = |task: &generator::TaskDescription| TaskEntry {
        execution: task.execution,
        period: task.period,
        arrival: task.first_arrival,
        body: task
            .body
            .iter()
            .map(|one| Instruction { operation: one.operation, a: one.a, b: one.b, c: one.c })
            .collect(),
    };
    Table {
        window: described.window,
        store: described.initial_store,
        tasks: described.tasks.iter().map(task).collect(),
        ceilings: described.ceilings.clone(),
        holdings: (0..described.ceilings.len()).map(|lock| described.holding(lock)).collect(),
    }
}

/// The binding's table is the description's, and both write one file or refuse alike. Tables with
/// more parts than memory has room for are refused at the first of them.
#[test]
fn tables_in_plain_rust() {
    let mut random = Random::new(848);
    let (mut accepted, mut refused) = (0, 0);
    for round in 0..4_000 {
        let mut described = any(&mut random);
        if round % 4 > 1 {
            hold(&mut random, &mut described);
        }
        if round % 2 == 0 {
            grow(&mut random, &mut described);
        }
        let table = table_of(&described);
        let mut buffer = pattern(FILE_ROOM);
        let answer = raw::write(&described.memory(), &mut buffer);
        match adqurim::write(&table) {
            Ok(file) => {
                assert_eq!((answer.number, &file), (0, &described.write()));
                assert_eq!(adqurim::table(&file), Ok(table));
                accepted += 1;
            }
            Err(refusal) => {
                assert_eq!((refusal.number, refusal.place), (answer.number, answer.place));
                refused += 1;
            }
        }
    }
    assert!(accepted >= 500 && refused >= 500, "{accepted} {refused}");
}

/// Gives a table more tasks, locks or instructions, up to 300.
fn grow(random: &mut Random, table: &mut TableDescription) {
    let many = [9, 17, 255, 256, 257, 300][random.index(6)];
    match random.between(0, 2) {
        0 => table.tasks.resize(many, table.tasks[0].clone()),
        1 => table.ceilings.resize(many, 7),
        _ => table.tasks[0].body.resize(many, generator::code::end()),
    }
}

/// 256 of a kind do not look like none: the first that has no room is one too many.
#[test]
fn counts_past_a_byte_are_too_many() {
    for many in [9, 255, 256, 257, 512, 1_000] {
        let mut table = table_of(&table_x());
        table.tasks.resize(many, table.tasks[1].clone());
        // Records: the header, task 0 with 5 instructions, seven tasks with 3.
        let refusal = adqurim::write(&table).unwrap_err();
        assert_eq!((refusal.number, refusal.place), (5, 1 + 6 + 7 * 4));
        let mut table = table_of(&table_x());
        table.ceilings.resize(many, 7);
        let refusal = adqurim::write(&table).unwrap_err();
        assert_eq!((refusal.number, refusal.place), (5, 11 + 8));
        let mut table = table_of(&table_x());
        table.tasks[1].body.resize(many + 8, Instruction::default());
        let refusal = adqurim::write(&table).unwrap_err();
        assert_eq!((refusal.number, refusal.place), (5, 8 + 16));
    }
}
