//! The bench cases P1 to P13 of document 01.

use conformance::cases::*;
use conformance::entries::{filled, pattern};
use generator::{code, TableDescription};
use interpreter::*;

/// The reader's answer for a table without its job count.
fn responses(table: &TableDescription) -> (u8, usize, [u64; 8]) {
    let answer = read(&table.write());
    (answer.number, answer.place, answer.response_times)
}

#[test]
fn p1() {
    assert_eq!(responses(&rates(&[(2, 8), (1, 4)])), (0, 0, [3, 1, 0, 0, 0, 0, 0, 0]));
}

#[test]
fn p2() {
    assert_eq!(responses(&rates(&[(2, 8), (3, 4)])), (0, 0, [8, 3, 0, 0, 0, 0, 0, 0]));
}

#[test]
fn p3() {
    assert_eq!(responses(&rates(&[(3, 8), (3, 4)])), (10, 1, [0; 8]));
}

#[test]
fn p4() {
    let table = rates(&[(3_000_000_000, 4_000_000_000), (1_500_000_000, 3_000_000_000)]);
    assert_eq!(responses(&table), (10, 1, [0; 8]));
    // In 32 bits the sum that refuses the table would be small.
    assert_eq!(3_000_000_000_u32.wrapping_add(1_500_000_000), 205_032_704);
}

#[test]
fn p5() {
    let one = |window| read(&tasks(window, &[[1, 1, 0]], &[code::end()]).write());
    let fits =
        ReadAnswer { number: 0, place: 0, response_times: [1, 0, 0, 0, 0, 0, 0, 0], jobs: 32 };
    assert_eq!(one(32), fits);
    assert_eq!(one(33), ReadAnswer { number: 11, ..ReadAnswer::default() });
}

#[test]
fn p6() {
    let table = accepted(&tasks(8, &[[2, 8, 0], [1, 4, 1]], &[code::end()]).write());
    let [zero, one, two] = [JobNumber(0), JobNumber(1), JobNumber(2)];
    assert_eq!(table.jobs.len(), 3);
    assert!(table.may_preempt(one, zero));
    assert!(table.comes_before(zero, two) && table.comes_before(one, two));
    assert!(!table.may_preempt(two, zero) && !table.may_preempt(zero, one));
    assert!(!table.comes_before(zero, one) && !table.comes_before(one, zero));
}

#[test]
fn p7() {
    // (task 1's job before job 0, it may preempt job 0, job 0 before it)
    let with_arrival = |arrival| {
        let table = accepted(&tasks(4, &[[2, 8, 0], [1, 4, arrival]], &[code::end()]).write());
        let (x, y) = (JobNumber(0), JobNumber(1));
        assert_eq!(table.jobs.len(), 2);
        (table.comes_before(y, x), table.may_preempt(y, x), table.comes_before(x, y))
    };
    assert_eq!(with_arrival(0), (true, false, false));
    assert_eq!(with_arrival(2), (false, true, false));
    assert_eq!(with_arrival(3), (false, false, true));
}

/// The answer that P8 and P10 share.
fn x_ends() -> RunAnswer {
    RunAnswer { end_store: [1, 0, 0, 0, 0, 0, 0, 0], failed_jobs: 1, ..RunAnswer::default() }
}

#[test]
fn p8() {
    assert_eq!(replay(&table_x().write(), &ORDER_OF_X), x_ends());
}

#[test]
fn p9() {
    let answer = replay(&table_x().write(), &[0, 16, 16, 0]);
    assert_eq!(answer, RunAnswer { number: 30, place: 3, ..RunAnswer::default() });
}

#[test]
fn p10() {
    let plan = plan_of_x();
    assert_eq!(plan.len(), 33);
    assert_eq!(check_plan(&table_x().write(), &plan), x_ends());
}

#[test]
fn p11() {
    let plan = plan(&[[0; 8], [1, 0, 0, 0, 0, 0, 0, 0]], &[&[0, 1, 1, 1, 1], &[1, 1, 1]]);
    let answer = check_plan(&table_x().write(), &plan);
    assert_eq!(answer, RunAnswer { number: 43, place: 0, ..RunAnswer::default() });
}

#[test]
fn p12() {
    let mut table = tasks(5, &[[1, 4, 5]], &[code::end()]);
    table.initial_store = [9, 8, 7, 6, 5, 4, 3, 2];
    let file = table.write();
    assert_eq!(read(&file).jobs, 0);
    let mut buffer = pattern(512);
    let holds = WalkAnswer { verdict: Verdict::Holds, ..WalkAnswer::default() };
    assert_eq!(walk(&file, 0, &mut buffer), holds);
    assert_eq!(buffer, vec![0; 512]);
    let ends = RunAnswer { end_store: table.initial_store, ..RunAnswer::default() };
    assert_eq!(replay(&file, &[]), ends);
    assert_eq!(check_plan(&file, &[0]), ends);
    let mut plan = pattern(1281);
    let end_store = table.initial_store;
    let written = ConversionAnswer { length: 1, end_store, ..ConversionAnswer::default() };
    assert_eq!(order_to_plan(&file, &[], &mut plan), written);
    assert_eq!(plan, filled(1281, 1281, &[0]));
    let mut order = pattern(512);
    let returned = ConversionAnswer { length: 0, ..written };
    assert_eq!(plan_to_order(&file, &[0], &mut order), returned);
    assert_eq!(order, vec![0; 512]);
}

#[test]
fn p13() {
    let file = table_x().write();
    let mut buffer = pattern(512);
    let fails = WalkAnswer {
        number: 0,
        place: 0,
        verdict: Verdict::Fails,
        count: 23,
        length: 8,
        end_store: [1, 0, 0, 0, 0, 0, 0, 0],
        failed_jobs: 1,
    };
    assert_eq!(walk(&file, 23, &mut buffer), fails);
    assert_eq!(buffer, filled(512, 512, &ORDER_OF_X));
    assert_eq!(walk(&file, 22, &mut buffer), WalkAnswer { number: 21, ..WalkAnswer::default() });
    assert_eq!(buffer, vec![0; 512]);
}
