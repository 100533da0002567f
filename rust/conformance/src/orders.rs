//! Complete orders by random moves, and orders that are near to one or at random.

use generator::Random;
use interpreter::order::State;
use interpreter::walk::moves;
use interpreter::Accepted;

/// The state that some allowed steps lead to.
pub fn state_after(accepted: &Accepted, steps: &[u8]) -> State {
    let mut state = State::first(accepted);
    for byte in steps {
        state.step(accepted, *byte).expect("each byte is an allowed step");
    }
    state
}

/// A complete order: at each state one of the tasks that may move, and of its moves one, at random.
pub fn random_order(random: &mut Random, accepted: &Accepted) -> Vec<u8> {
    order_by(random, accepted, random_move, |_| {})
}

/// A complete order in which starts come late, so that they meet what a job does in its midst. What
/// each step left is changed after it, which makes it an order by other rules.
pub fn late_order(random: &mut Random, accepted: &Accepted, after_step: fn(&mut State)) -> Vec<u8> {
    order_by(random, accepted, late_move, after_step)
}

/// An order of chosen moves.
fn order_by(
    random: &mut Random,
    accepted: &Accepted,
    choose: fn(&mut Random, &[u8]) -> u8,
    after_step: fn(&mut State),
) -> Vec<u8> {
    let mut state = State::first(accepted);
    let mut order = Vec::new();
    while !state.all_ended() {
        let byte = choose(random, &moves(accepted, &state));
        state.step(accepted, byte).expect("a listed move is an allowed step");
        after_step(&mut state);
        order.push(byte);
    }
    order
}

/// One of some moves. A task with a Pick is no likelier than another.
fn random_move(random: &mut Random, moves: &[u8]) -> u8 {
    let mut tasks: Vec<u8> = moves.iter().map(|byte| byte / 16).collect();
    tasks.dedup();
    let task = tasks[random.index(tasks.len())];
    move_of(random, moves, task)
}

/// One of a task's moves.
fn move_of(random: &mut Random, moves: &[u8], task: u8) -> u8 {
    let of_task: Vec<u8> = moves.iter().copied().filter(|byte| byte / 16 == task).collect();
    of_task[random.index(of_task.len())]
}

/// Mostly a move of the first task in the list, which is that of the running job, or the lowest if
/// none runs; else one of all moves.
fn late_move(random: &mut Random, moves: &[u8]) -> u8 {
    match random.chance(1, 2) {
        true => move_of(random, moves, moves[0] / 16),
        false => random_move(random, moves),
    }
}

/// Mostly 0, else any value.
fn random_value(random: &mut Random) -> u8 {
    if random.chance(2, 3) {
        0
    } else {
        random.between(0, 15) as u8
    }
}

/// An order byte of one of the tasks or of the one after the last, or any byte.
fn random_byte(random: &mut Random, tasks: usize) -> u8 {
    let value = random_value(random);
    match random.between(0, 15) {
        0 | 1 => random.byte(),
        2 => 16 * tasks as u8 + value,
        _ => 16 * random.index(tasks) as u8 + value,
    }
}

/// So many bytes at most, each as above.
pub fn random_steps(random: &mut Random, tasks: usize, most: u64) -> Vec<u8> {
    (0..random.between(0, most)).map(|_| random_byte(random, tasks)).collect()
}

/// A byte that is wrong at a state: of the task after the last, of a task that has no turn, or with
/// a value one above the largest on offer. None if there is none of the kind that is drawn.
fn wrong_byte(random: &mut Random, accepted: &Accepted, state: &State) -> Option<u8> {
    let (moves, value) = (moves(accepted, state), random_value(random));
    let tasks = accepted.table.tasks.len() as u8;
    let has_no_turn = |task: &u8| moves.iter().all(|byte| byte / 16 != *task);
    let has_more = |byte: &&u8| *byte % 16 < 15;
    let is_wrong = |byte: &u8| !moves.contains(byte);
    let wrong: Vec<u8> = match random.index(3) {
        0 => vec![16 * tasks + value],
        1 => (0..tasks).filter(has_no_turn).map(|task| 16 * task + value).collect(),
        _ => moves.iter().filter(has_more).map(|byte| byte + 1).filter(is_wrong).collect(),
    };
    (!wrong.is_empty()).then(|| wrong[random.index(wrong.len())])
}

/// The order with one byte changed to a wrong one, as above.
fn slipped(random: &mut Random, order: &[u8], accepted: &Accepted) -> Option<Vec<u8>> {
    let place = random.index(order.len().max(1));
    let mut slipped = order.to_vec();
    let byte = slipped.get_mut(place)?;
    *byte = wrong_byte(random, accepted, &state_after(accepted, &order[..place]))?;
    Some(slipped)
}

/// The order with one byte drawn anew.
pub fn changed(random: &mut Random, order: &[u8], tasks: usize) -> Vec<u8> {
    let mut changed = order.to_vec();
    if !order.is_empty() {
        let byte = random_byte(random, tasks);
        changed[random.index(order.len())] = byte;
    }
    changed
}

/// The order cut short, extended, with a byte changed, with a byte removed, and random bytes, of
/// which some begin as the order does; mostly also the order with a byte that is wrong there.
pub fn variants(random: &mut Random, order: &[u8], accepted: &Accepted) -> Vec<Vec<u8>> {
    let tasks = accepted.table.tasks.len();
    let changed = changed(random, order, tasks);
    let mut shorter = order.to_vec();
    if !order.is_empty() {
        shorter.remove(random.index(order.len()));
    }
    let extra = [&[random_byte(random, tasks)], &random_steps(random, tasks, 3)[..]].concat();
    let begin = &order[..random.index(order.len() + 1)];
    let mut made = vec![
        order[..random.index(order.len().max(1))].to_vec(),
        [order, &extra].concat(),
        changed,
        shorter,
        random_steps(random, tasks, 20),
        [begin, &random_steps(random, tasks, 5)].concat(),
    ];
    made.extend(slipped(random, order, accepted));
    made
}
