//! Response times and job lists against their definitions, and on hostile times.

use conformance::cases::*;
use generator::hostile::{far_tables, heavy_tables, nearly_full, WIDEST};
use generator::{code, random_table, Random, Sizes, TableDescription};
use interpreter::file::read_table;
use interpreter::timing::{least_by_growth, least_by_points, right_side};
use interpreter::*;
use std::time::{Duration, Instant};

/// The definition, by trying R = 1, 2, 3, ... up to P.
fn by_trying(times: &[(u64, u64)], task: usize) -> Option<u64> {
    let sum = |r: u64| -> u64 {
        let above = times[task + 1..].iter().map(|(c, p)| r.div_ceil(*p) * c);
        times[task].0 + above.sum::<u64>()
    };
    (1..=times[task].1).find(|r| *r == sum(*r))
}

/// C and P of each task.
fn times_of(table: &TableDescription) -> Vec<(u64, u64)> {
    table.tasks.iter().map(|task| (task.execution as u64, task.period as u64)).collect()
}

/// The reader's answer compared with the definition. True if the table is accepted.
fn agrees(table: &TableDescription) -> bool {
    let times = times_of(table);
    let tried: Vec<Option<u64>> = (0..times.len()).map(|task| by_trying(&times, task)).collect();
    let answer = read(&table.write());
    match tried.iter().position(Option::is_none) {
        None => {
            let mut expected = [0; 8];
            tried.iter().flatten().enumerate().for_each(|(task, time)| expected[task] = *time);
            assert_eq!((answer.number, answer.response_times), (0, expected), "{times:?}");
        }
        // In these tables each task has two records.
        Some(task) => {
            assert_eq!((answer.number, answer.place), (10, 1 + 2 * task), "{times:?}")
        }
    }
    answer.number == 0
}

/// Random times with periods up to `longest` that never grow along the chain.
fn random_times(random: &mut Random, longest: u64) -> TableDescription {
    let count = random.between(1, 8);
    let mut periods: Vec<u64> = (0..count).map(|_| random.between(1, longest)).collect();
    periods.sort_unstable_by(|a, b| b.cmp(a));
    let share = random.between(1, 2 * count);
    let times: Vec<(u32, u32)> = periods
        .iter()
        .map(|period| (random.between(1, (period / share).max(1)) as u32, *period as u32))
        .collect();
    rates(&times)
}

/// Two or three short tasks that often do not fit, under one with a long period that may.
fn short_under_long(random: &mut Random) -> TableDescription {
    let mut periods: Vec<u64> = (0..random.between(2, 3)).map(|_| random.between(2, 14)).collect();
    periods.sort_unstable_by(|a, b| b.cmp(a));
    let mut times = vec![(random.between(1, 3) as u32, random.between(20, 300) as u32)];
    times.extend(periods.iter().map(|p| (random.between(1, (p * 2 / 3).max(1)) as u32, *p as u32)));
    rates(&times)
}

#[test]
fn response_times_by_trying() {
    let mut random = Random::new(10);
    let (mut fit, mut refused, mut refused_higher) = (0, 0, 0);
    for _ in 0..30_000 {
        let longest = [6, 12, 40, 300][random.index(4)];
        let table = match random.chance(1, 3) {
            true => short_under_long(&mut random),
            false => random_times(&mut random, longest),
        };
        let accepted = agrees(&table);
        fit += u64::from(accepted);
        refused += u64::from(!accepted);
        refused_higher += u64::from(!accepted && read(&table.write()).place > 1);
    }
    println!("{fit} {refused} {refused_higher}");
    assert!(fit > 8_000 && refused > 5_000 && refused_higher > 100);
}

#[test]
fn both_methods_agree_with_each_other() {
    let mut random = Random::new(11);
    let (mut found, mut none) = (0, 0);
    for _ in 0..20_000 {
        let longest = 1 << random.between(2, 31);
        let table = random_times(&mut random, longest);
        let tasks = read_table(&table.write()).expect("only times are random").tasks;
        let period = tasks[0].period;
        // The points need response times within periods for all tasks above.
        let fits = |n: usize| least_by_growth(tasks[n].execution, &tasks[n + 1..], tasks[n].period);
        if (1..tasks.len()).all(|number| fits(number).is_some()) {
            let points = least_by_points(tasks[0].execution, &tasks[1..], period);
            assert_eq!(points, fits(0));
            // The same with a wait for a lower task's lock.
            let own = tasks[0].execution + random.between(0, longest);
            let waiting = least_by_points(own, &tasks[1..], period);
            assert_eq!(waiting, least_by_growth(own, &tasks[1..], period));
            found += u64::from(points.is_some());
            none += u64::from(points.is_none());
        }
    }
    println!("{found} {none}");
    assert!(found > 5_000 && none > 100);
}

#[test]
fn hostile_times_are_fast_and_solve_the_equation() {
    let mut random = Random::new(12);
    let mut tables = heavy_tables();
    tables.extend((0..1_000).map(|_| nearly_full(&mut random)));
    let (mut found, mut long, mut middle) = (0, 0, 0);
    let begin = Instant::now();
    for table in tables {
        let file = table.write();
        let answer = read(&file);
        middle += u64::from(answer.number == 10 && answer.place > 1);
        assert!([0, 10].contains(&answer.number));
        if answer.number == 0 {
            let tasks = read_table(&file).expect("the file is accepted").tasks;
            for (number, task) in tasks.iter().enumerate() {
                let time = answer.response_times[number];
                assert!(1 <= time && time <= task.period);
                assert_eq!(right_side(task.execution, &tasks[number + 1..], time), time);
            }
            found += 1;
            long += u64::from(answer.response_times[0] > 1_000_000);
        }
    }
    let taken = begin.elapsed();
    println!("{found} {long} {middle} {taken:?}");
    assert!(found > 40 && long >= 5 && middle > 500);
    assert!(taken < Duration::from_secs(20));
}

#[test]
fn known_response_times() {
    let first = |times: &[(u32, u32)]| read(&rates(times).write()).response_times[0];
    let upper = [(1, 1807), (1, 43), (1, 7), (1, 3), (1, 2)];
    let with = |execution: u32| first(&[&[(execution, WIDEST)][..], &upper].concat());
    // These leave exactly 1 of each 3,263,442 free, at the very end.
    assert_eq!(with(1), 3_263_442);
    assert_eq!(with(1316), 1316 * 3_263_442);
    assert_eq!(with(1317), 0);
    assert_eq!(first(&[(WIDEST, WIDEST)]), WIDEST as u64);
    assert_eq!(first(&[(WIDEST - 1, WIDEST), (1, WIDEST)]), WIDEST as u64);
    assert_eq!(first(&[(WIDEST, WIDEST), (1, WIDEST)]), 0);
}

#[test]
fn latest_finish_passes_32_bits() {
    let file = tasks(WIDEST, &[[WIDEST, WIDEST, WIDEST - 1]], &[code::end()]).write();
    let mut list = [JobRecord::default(); 32];
    assert_eq!(job_list(&file, &mut list).jobs, 1);
    let arrival = WIDEST as u64 - 1;
    let latest_finish = 2 * WIDEST as u64 - 1;
    assert_eq!(list[0], JobRecord { task: TaskNumber(0), arrival, latest_finish });
}

/// The jobs by their definition: each k ≥ 0 with A + k × P < W.
fn jobs_by_listing(table: &TableDescription, times: &[u64; 8]) -> Option<Vec<JobRecord>> {
    let mut jobs = Vec::new();
    for (number, task) in table.tasks.iter().enumerate() {
        let mut arrival = task.first_arrival as u64;
        while arrival < table.window as u64 {
            let latest_finish = arrival + times[number];
            jobs.push(JobRecord { task: TaskNumber(number as u8), arrival, latest_finish });
            if jobs.len() > 32 {
                return None;
            }
            arrival += task.period as u64;
        }
    }
    Some(jobs)
}

#[test]
fn job_lists_by_listing() {
    let mut random = Random::new(13);
    let mut tables = far_tables();
    tables.extend((0..3_000).map(|_| random_table(&mut random, &Sizes::ANY)));
    let (mut listed, mut too_many) = (0, 0);
    for table in tables {
        let file = table.write();
        let answer = read(&file);
        match jobs_by_listing(&table, &answer.response_times) {
            Some(jobs) if answer.number == 0 => {
                let mut list = [JobRecord::default(); 32];
                assert_eq!(job_list(&file, &mut list).jobs, jobs.len());
                assert_eq!(list[..jobs.len()], jobs);
                listed += 1;
            }
            Some(_) => assert_eq!(answer.number, 10),
            None => {
                assert!([10, 11].contains(&answer.number));
                too_many += u64::from(answer.number == 11);
            }
        }
    }
    println!("{listed} {too_many}");
    assert!(listed > 500 && too_many >= 9);
}
