//! Files meant to make a reader slow or wrong: extreme times, chains with cycles, 256 records.

use crate::description::{code, TableDescription, TaskDescription};
use crate::random::Random;

/// The largest value of a wide field.
pub const WIDEST: u32 = u32::MAX;

/// A table of tasks given by C and P, lowest first, each with the body End, no job in the window.
pub fn tasks_of(times: &[(u32, u32)]) -> TableDescription {
    let task = |(execution, period): &(u32, u32)| {
        TaskDescription::new([*execution, *period, 1], &[code::end()])
    };
    TableDescription::new(1, times.iter().map(task).collect())
}

/// Utilisation at, just below and above 1 under a task with the longest period.
pub fn heavy_tables() -> Vec<TableDescription> {
    let sylvester = [(1, 1807), (1, 43), (1, 7), (1, 3), (1, 2)];
    let mut tables = Vec::new();
    for execution in [1, 2, 1000, 1315, 1316, 1317, WIDEST] {
        let mut times = vec![(execution, WIDEST)];
        times.extend(sylvester);
        tables.push(tasks_of(&times));
        times.insert(1, (1, 3_263_443));
        tables.push(tasks_of(&times));
        tables.push(tasks_of(&[(execution, WIDEST), (1, 1)]));
        tables.push(tasks_of(&[(execution, WIDEST), (1, 6), (1, 3), (1, 2)]));
        tables.push(tasks_of(&[(execution, WIDEST), (1, 5), (1, 3), (1, 2)]));
        tables.push(tasks_of(&[(execution, WIDEST), (1, 7), (1, 3), (1, 2)]));
        // The task 4/7 has no response time within its period; those below it may have one.
        tables.push(tasks_of(&[(execution, WIDEST), (4, 7), (2, 5)]));
        tables.push(tasks_of(&[(execution, WIDEST), (1, 1261), (1, 36), (4, 7), (2, 5)]));
        tables.push(tasks_of(&[(execution, WIDEST), (2, 2500), (1, 36), (4, 7), (2, 5)]));
        tables.push(tasks_of(&[(execution, WIDEST); 8]));
        tables.push(tasks_of(&[(execution, WIDEST), (WIDEST - 1, WIDEST)]));
        tables.push(tasks_of(&[(execution, WIDEST), (1 << 31, WIDEST), ((1 << 31) - 1, WIDEST)]));
    }
    tables
}

/// A table whose upper tasks leave only a small share of the time free, by random times: each
/// task takes nearly all that is left above it.
pub fn nearly_full(random: &mut Random) -> TableDescription {
    let most = 1 << random.between(3, 20);
    let mut periods: Vec<u64> =
        (0..random.between(2, 7)).map(|_| random.between(2, most)).collect();
    periods.sort_unstable();
    let mut free = 1.0;
    let mut times = Vec::new();
    for (place, period) in periods.iter().enumerate() {
        let last = place + 1 == periods.len();
        let share = if last { free } else { free * random.between(20, 70) as f64 / 100.0 };
        let execution = ((*period as f64 * share) as u64).clamp(1, *period);
        free -= execution as f64 / *period as f64;
        times.push((execution as u32, *period as u32));
    }
    let most_execution = 1 << random.between(0, 12);
    times.push((random.between(1, most_execution) as u32, WIDEST));
    times.reverse();
    tasks_of(&times)
}

/// Huge arrivals and windows, and job counts at their limit.
pub fn far_tables() -> Vec<TableDescription> {
    let mut tables = Vec::new();
    for window in [1, 33, WIDEST - 1, WIDEST] {
        for first_arrival in [0, 1, window - 1, window, WIDEST - 1, WIDEST] {
            for period in [1, (1 << 27) - 1, 1 << 27, (1 << 27) + 1, WIDEST] {
                let task = TaskDescription::new([period, period, first_arrival], &[code::end()]);
                tables.push(TableDescription::new(window, vec![task]));
            }
        }
    }
    tables
}

/// 256 records: chains that are too long, that come back, that lead to themselves or to record 255.
pub fn full_files() -> Vec<Vec<u8>> {
    let mut files = Vec::new();
    for kind in 0..=5_u8 {
        for next in [|n: usize| n + 1, |n: usize| n, |n: usize| n / 2, |_: usize| 255, |_: usize| 0]
        {
            let mut file = vec![0; 4096];
            file[..8].copy_from_slice(&[1, 0, 1, 0, 1, 0, 0, 0]);
            for record in 1..256 {
                let bytes = &mut file[record * 16..record * 16 + 16];
                bytes[..2].copy_from_slice(&[kind, next(record) as u8]);
                if kind == 2 {
                    bytes[2..10].copy_from_slice(&[next(record) as u8, 0, 1, 0, 0, 0, 1, 0]);
                }
            }
            // The same chain below a proper task, so that it is read as a body.
            let mut body = file.clone();
            body[16..32].copy_from_slice(&[2, 0, 2, 0, 1, 0, 0, 0, 1, 0, 0, 0, 0, 0, 0, 0]);
            files.extend([file, body]);
        }
    }
    files
}

/// All of these as files.
pub fn hostile_files(random: &mut Random) -> Vec<Vec<u8>> {
    let mut tables = heavy_tables();
    tables.extend(far_tables());
    tables.extend((0..60).map(|_| nearly_full(random)));
    let mut files: Vec<Vec<u8>> = tables.iter().map(TableDescription::write).collect();
    files.extend(full_files());
    files
}
