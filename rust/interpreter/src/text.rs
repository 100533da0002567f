//! The conversions of 02, E5: a text of the grammar to its table, and a table to its text.

use crate::claims::{accept_claims, walk_claims, ClaimedLock, ClaimedTable, ClaimedTask};
use crate::file::Table;
use crate::grammar::{lines, Kind, Line};
use crate::machine::encode;
use crate::numbers::{refuse, Refusal};
use crate::timing::Accepted;
use crate::writer::lay_out;

/// "Texts go up to 8,192 bytes."
pub const LONGEST_TEXT: usize = 8192;

/// "62 for a text above that, place 0, first of all; 60 ... 61 ...; then the table's own numbers,
/// placed at the line of the record concerned".
pub fn accept_text(text: &[u8]) -> Result<Accepted, Refusal> {
    accept_claims(&read_text(text)?).map_err(at_line)
}

/// The file of a text whose table need not be accepted: 7 to 11 are left to those who read it.
pub fn file_of_text(text: &[u8]) -> Result<Vec<u8>, Refusal> {
    let table = walk_claims(&read_text(text)?).map_err(at_line)?;
    Ok(lay_out(&table))
}

/// What a text's lines claim, or 62, 60 or 61.
fn read_text(text: &[u8]) -> Result<ClaimedTable, Refusal> {
    if text.len() > LONGEST_TEXT {
        refuse(62, 0)
    } else {
        Ok(claims(&lines(text)?))
    }
}

/// "the header's is line 0; 11 keeps place 0": the header has lines 0 and 1, every other record one.
fn at_line(refusal: Refusal) -> Refusal {
    let Refusal { number, place: record } = refusal;
    Refusal { number, place: if record == 0 { 0 } else { record + 1 } }
}

/// A number that fits a byte, as the grammar has made sure.
fn byte(number: u64) -> u8 {
    u8::try_from(number).expect("a byte's field fits it")
}

/// The table that a text's lines claim. Fields that a line does not have are zero.
fn claims(lines: &[Line]) -> ClaimedTable {
    let mut table = ClaimedTable::default();
    for Line { kind, numbers } in lines {
        match (kind, &numbers[..]) {
            (Kind::Window, [window]) => table.window = *window,
            (Kind::Start, values) => {
                table.initial_store.iter_mut().zip(values).for_each(|(to, from)| *to = byte(*from));
            }
            (Kind::Task, [execution, period, first_arrival]) => table.tasks.push(ClaimedTask {
                execution: *execution,
                period: *period,
                first_arrival: *first_arrival,
                body: Vec::new(),
            }),
            (Kind::Instruction(operation), fields) => {
                let mut instruction = [*operation, 0, 0, 0];
                instruction[1..].iter_mut().zip(fields).for_each(|(to, from)| *to = byte(*from));
                let task = table.tasks.last_mut().expect("an instruction comes after its task");
                task.body.push(instruction);
            }
            (Kind::Lock, [ceiling, holding]) => {
                table.locks.push(ClaimedLock { ceiling: byte(*ceiling), holding: *holding });
            }
            _ => unreachable!("a line has as many numbers as its kind has fields"),
        }
    }
    table
}

/// The text of a table: "Each table has one text".
pub fn text_of(table: &Table) -> String {
    let mut text = String::new();
    let mut put = |kind, numbers: &[u64]| {
        Line { kind, numbers: numbers.to_vec() }.write(&mut text);
    };
    put(Kind::Window, &[table.window]);
    put(Kind::Start, &table.initial_store.map(u64::from));
    for task in &table.tasks {
        put(Kind::Task, &[task.execution, task.period, task.first_arrival]);
        for placed in &task.body {
            let [operation, fields @ ..] = encode(placed.instruction);
            let kind = Kind::Instruction(operation);
            put(kind, &fields.map(u64::from)[..kind.fields()]);
        }
    }
    for (ceiling, holding) in table.ceilings.iter().zip(&table.holdings) {
        put(Kind::Lock, &[(*ceiling).into(), *holding]);
    }
    text
}
