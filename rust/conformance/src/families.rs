//! What the families of tables have in common in the tests of several proved entries. Each test
//! gives its families their seeds and counts.

use crate::cases::{edited, full_table, rates, table_x, tasks};
use generator::{code, random_table, Random, Sizes, TableDescription};

/// A family of tables: its seed, how many there are, and how one is made.
#[derive(Debug, Clone, Copy)]
pub struct Family {
    pub name: &'static str,
    pub seed: u64,
    pub tables: usize,
    pub make: fn(&mut Random) -> TableDescription,
}

pub fn small(random: &mut Random) -> TableDescription {
    random_table(random, &Sizes::SMALL)
}

pub fn long(random: &mut Random) -> TableDescription {
    random_table(random, &Sizes::LONG)
}

pub fn any(random: &mut Random) -> TableDescription {
    random_table(random, &Sizes::ANY)
}

/// The largest table with another initial store.
pub fn largest(random: &mut Random) -> TableDescription {
    TableDescription { initial_store: std::array::from_fn(|_| random.byte()), ..full_table() }
}

/// The position of a skip in a body of the largest table, which any instruction may replace.
pub fn free_position(random: &mut Random) -> usize {
    1 + 3 * random.index(5)
}

/// Several tasks with many jobs in the window, and locks.
pub fn crowded(random: &mut Random) -> TableDescription {
    let sizes = Sizes { tasks: (3, 8), jobs: (12, 32), locks: (1, 8), ..Sizes::ANY };
    random_table(random, &sizes)
}

/// The largest table with assertions that fail or hold.
pub fn largest_with_assertions(random: &mut Random) -> TableDescription {
    let mut table = largest(random);
    for task in &mut table.tasks {
        let place = free_position(random);
        let store = code::store(random.index(8) as u8, 0);
        let others = [code::assert(0), code::pick(0, 3), code::load(0, 1), store];
        task.body[place] = others[random.index(4)];
    }
    table
}

/// Gives each task one job that may preempt those of all lower tasks.
pub fn nest(table: &mut TableDescription) {
    table.window = table.tasks.len() as u32;
    for (number, task) in table.tasks.iter_mut().enumerate() {
        [task.execution, task.period, task.first_arrival] = [1, 20, number as u32];
    }
}

/// Four jobs that nest, with locks and Picks.
pub fn nest_of_four(random: &mut Random) -> TableDescription {
    let sizes = Sizes { tasks: (4, 4), body: (2, 4), locks: (0, 3), most_pick: 1, ..Sizes::SMALL };
    let mut table = random_table(random, &sizes);
    nest(&mut table);
    table
}

/// A file for each of the numbers 1 to 11, in their order.
pub fn refused_files() -> Vec<Vec<u8>> {
    let x = table_x().write();
    vec![
        x[..x.len() - 1].to_vec(),
        edited(&x, &[(0, 2)]),
        edited(&x, &[(16 + 1, 99)]),
        edited(&x, &[(16 + 3, 1)]),
        edited(&x, &[(2, 0)]),
        [&x[..], &[0; 16]].concat(),
        edited(&x, &[(6 * 16 + 2, 3)]),
        edited(&x, &[(7 * 16 + 8, 9)]),
        edited(&x, &[(2 * 16 + 2, 9)]),
        rates(&[(3, 8), (3, 4)]).write(),
        tasks(33, &[[1, 1, 0]], &[code::end()]).write(),
    ]
}
