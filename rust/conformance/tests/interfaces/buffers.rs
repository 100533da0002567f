//! Lent buffers, compared whole, with a pattern beyond what an entry may change.

use conformance::cases::*;
use conformance::entries::{filled, job_pattern, pattern};
use generator::code;
use interpreter::*;

const ORDER_SIZES: [usize; 4] = [511, 512, 513, 4096];
const PLAN_SIZES: [usize; 4] = [1280, 1281, 1282, 4096];

#[test]
fn walk_that_fails() {
    let file = table_x().write();
    for size in ORDER_SIZES {
        let mut buffer = pattern(size);
        let answer = walk(&file, 1_000, &mut buffer);
        if size < 512 {
            assert_eq!(answer, WalkAnswer { number: 20, ..WalkAnswer::default() });
            assert_eq!(buffer, pattern(size));
        } else {
            assert_eq!((answer.number, answer.verdict, answer.length), (0, Verdict::Fails, 8));
            assert_eq!(buffer, filled(size, 512, &ORDER_OF_X));
        }
    }
}

#[test]
fn walk_that_holds_or_is_undecided() {
    let file = tasks(5, &[[2, 8, 0], [1, 4, 1]], &[code::end()]).write();
    let holds = WalkAnswer { verdict: Verdict::Holds, count: 4, ..WalkAnswer::default() };
    let undecided = WalkAnswer { number: 21, ..WalkAnswer::default() };
    for (allowance, expected) in [(4, holds), (3, undecided)] {
        for size in ORDER_SIZES {
            let mut buffer = pattern(size);
            let answer = walk(&file, allowance, &mut buffer);
            if size < 512 {
                assert_eq!(answer, WalkAnswer { number: 20, ..WalkAnswer::default() });
                assert_eq!(buffer, pattern(size));
            } else {
                assert_eq!(answer, expected);
                assert_eq!(buffer, filled(size, 512, &[]));
            }
        }
    }
}

/// The accepted conversion's answer for table X.
fn x_converted(length: usize) -> ConversionAnswer {
    let end_store = [1, 0, 0, 0, 0, 0, 0, 0];
    ConversionAnswer { number: 0, place: 0, length, end_store, failed_jobs: 1 }
}

#[test]
fn order_to_plan_writes_and_fills() {
    let file = table_x().write();
    for size in PLAN_SIZES {
        let mut buffer = pattern(size);
        let answer = order_to_plan(&file, &ORDER_OF_X, &mut buffer);
        if size < 1281 {
            assert_eq!(answer, ConversionAnswer { number: 20, ..ConversionAnswer::default() });
            assert_eq!(buffer, pattern(size));
        } else {
            assert_eq!(answer, x_converted(33));
            assert_eq!(buffer, filled(size, 1281, &plan_of_x()));
        }
    }
}

#[test]
fn plan_to_order_writes_and_fills() {
    let file = table_x().write();
    for size in ORDER_SIZES {
        let mut buffer = pattern(size);
        let answer = plan_to_order(&file, &plan_of_x(), &mut buffer);
        if size < 512 {
            assert_eq!(answer, ConversionAnswer { number: 20, ..ConversionAnswer::default() });
            assert_eq!(buffer, pattern(size));
        } else {
            assert_eq!(answer, x_converted(8));
            assert_eq!(buffer, filled(size, 512, &ORDER_OF_X));
        }
    }
}

#[test]
fn refused_conversions_leave_their_buffer() {
    let file = table_x().write();
    let longer = [&ORDER_OF_X[..], &[0]].concat();
    let orders = [(&[][..], 31), (&[0, 16, 0], 30), (&longer, 32), (&[32], 33), (&[1], 34)];
    for (order, number) in orders {
        for size in PLAN_SIZES {
            let mut buffer = pattern(size);
            let expected = if size < 1281 { 20 } else { number };
            assert_eq!(order_to_plan(&file, order, &mut buffer).number, expected);
            assert_eq!(buffer, pattern(size));
        }
    }
    for (at, byte, number) in [(0, 3, 40), (18, 1, 41), (17, 2, 42), (32, 1, 41), (8, 1, 45)] {
        for size in ORDER_SIZES {
            let mut buffer = pattern(size);
            let expected = if size < 512 { 20 } else { number };
            let plan = edited(&plan_of_x(), &[(at, byte)]);
            assert_eq!(plan_to_order(&file, &plan, &mut buffer).number, expected);
            assert_eq!(buffer, pattern(size));
        }
    }
}

/// 32 jobs of 16 steps: an order of 512 bytes and a plan of 1,281, which fill the buffers.
#[test]
fn the_longest_order_and_plan_fit() {
    let mut body = vec![code::set(0, 3); 15];
    body.push(code::end());
    let file = tasks(32, &[[1, 1, 0]], &body).write();
    let order = vec![0; 512];
    assert_eq!(replay(&file, &order), RunAnswer::default());
    let mut plan = pattern(1300);
    let there = order_to_plan(&file, &order, &mut plan);
    assert_eq!((there.number, there.length), (0, 1281));
    assert_eq!(plan[1281..], pattern(1300)[1281..]);
    let rounds: Vec<u8> = (0..32).flat_map(|job| [[job, 0]; 16].concat()).collect();
    assert_eq!(plan[..1281], [vec![32], vec![0; 256], rounds].concat());
    let mut back = pattern(600);
    let answer = plan_to_order(&file, &plan[..1281], &mut back);
    assert_eq!((answer.number, answer.length), (0, 512));
    assert_eq!(back, filled(600, 512, &order));
    // The last job of all fails: the walk's own order fills the buffer too.
    body[14] = code::assert(1);
    let file = tasks(32, &[[1, 1, 0]], &body).write();
    let mut found = pattern(513);
    let answer = walk(&file, 512, &mut found);
    assert_eq!((answer.length, answer.count, answer.failed_jobs), (512, 512, u32::MAX));
    assert_eq!(found, filled(513, 512, &order));
}

#[test]
fn job_list_keeps_records_past_the_last_job() {
    let file = tasks(9, &[[2, 8, 0], [1, 4, 1]], &[code::end()]).write();
    let record =
        |task, arrival, latest_finish| JobRecord { task: TaskNumber(task), arrival, latest_finish };
    let jobs = [record(0, 0, 3), record(0, 8, 11), record(1, 1, 2), record(1, 5, 6)];
    for size in [31, 32, 33, 40] {
        let mut list = job_pattern(size);
        let answer = job_list(&file, &mut list);
        let mut expected = job_pattern(size);
        if size < 32 {
            assert_eq!(answer, JobListAnswer { number: 20, place: 0, jobs: 0 });
        } else {
            assert_eq!(answer, JobListAnswer { number: 0, place: 0, jobs: 4 });
            expected[..4].copy_from_slice(&jobs);
        }
        assert_eq!(list, expected);
    }
}

#[test]
fn job_list_of_no_job_and_of_32() {
    let mut list = job_pattern(32);
    let none = tasks(5, &[[1, 4, 5]], &[code::end()]).write();
    assert_eq!(job_list(&none, &mut list), JobListAnswer::default());
    assert_eq!(list, job_pattern(32));
    let mut list = job_pattern(33);
    let full = tasks(32, &[[1, 1, 0]], &[code::end()]).write();
    assert_eq!(job_list(&full, &mut list), JobListAnswer { number: 0, place: 0, jobs: 32 });
    for (at, job) in list[..32].iter().enumerate() {
        let (arrival, latest_finish) = (at as u64, at as u64 + 1);
        assert_eq!(*job, JobRecord { task: TaskNumber(0), arrival, latest_finish });
    }
    assert_eq!(list[32], job_pattern(33)[32]);
}
