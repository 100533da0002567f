//! A straightforward walker in Rust, which the proved walk is held against. It goes over the same
//! lent tables with a state of the same shape, by recursion, with one copy of the state a move. It
//! has two shortcuts: no task below the running job's has a turn, and no other task without a job
//! left has one.

use interpreter::Accepted;

const TASKS: usize = 8;
const BODY: usize = 16;
const JOBS: usize = 32;
/// No order is longer.
pub const STEPS: usize = 512;

const PICK: u8 = 8;

/// What a walk comes to.
#[derive(Debug, Clone, Copy, PartialEq, Eq)]
pub enum Verdict {
    Holds,
    Fails,
    Undecided,
}

/// What is read of an accepted table, in arrays of fixed length.
pub struct Lent {
    /// The bodies, four bytes an instruction and 16 instructions a task.
    code: [u8; 4 * BODY * TASKS],
    /// Each job's task; `TASKS` past the last job.
    owners: [u8; JOBS],
    arrivals: [u64; JOBS],
    latest: [u64; JOBS],
    ceilings: [u8; 8],
    locks: usize,
    store: [u8; 8],
}

/// An active job: its number and its own state.
#[derive(Clone, Copy, Default)]
struct Frame {
    job: u8,
    next: u16,
    registers: [u8; 4],
    /// How many times it holds each lock; at most once for each instruction of a body.
    held: [u8; 8],
}

/// A state of an order: the first `depth` frames are the active jobs, and `upcoming` has each
/// task's first job not yet begun.
#[derive(Clone, Copy)]
struct State {
    store: [u8; 8],
    upcoming: [u8; TASKS],
    failed: [bool; JOBS],
    depth: u8,
    stack: [Frame; TASKS],
}

/// Why a walk stops before its end.
enum Stop {
    Failing,
    Undecided,
}

/// The walk under way.
struct Walk<'a> {
    lent: &'a Lent,
    allowance: u64,
    count: u64,
    order: &'a mut [u8; STEPS],
}

impl Lent {
    /// The arrays of a file's accepted table.
    pub fn new(file: &[u8], accepted: &Accepted) -> Lent {
        let mut lent = Lent {
            code: [0; 4 * BODY * TASKS],
            owners: [TASKS as u8; JOBS],
            arrivals: [0; JOBS],
            latest: [0; JOBS],
            ceilings: [0; 8],
            locks: accepted.table.ceilings.len(),
            store: accepted.table.initial_store,
        };
        for (task, entry) in accepted.table.tasks.iter().enumerate() {
            for (position, placed) in entry.body.iter().enumerate() {
                let at = 4 * (BODY * task + position);
                let fields = &file[16 * placed.record + 2..16 * placed.record + 6];
                lent.code[at..at + 4].copy_from_slice(fields);
            }
        }
        for (number, job) in accepted.jobs.iter().enumerate() {
            lent.owners[number] = job.task.0;
            lent.arrivals[number] = job.arrival;
            lent.latest[number] = job.latest_finish;
        }
        lent.ceilings[..lent.locks].copy_from_slice(&accepted.table.ceilings);
        lent
    }

    /// An instruction's operation and its fields a, b and c.
    fn instruction(&self, task: usize, position: u16) -> [u8; 4] {
        let at = 4 * (BODY * task + position as usize);
        [self.code[at], self.code[at + 1], self.code[at + 2], self.code[at + 3]]
    }

    /// Is this job one of the task?
    fn owned_by(&self, task: usize, job: u8) -> bool {
        (job as usize) < JOBS && self.owners[job as usize] as usize == task
    }

    /// Does job x come before job y, another job?
    fn comes_before(&self, x: usize, y: usize) -> bool {
        self.latest[x] <= self.arrivals[y]
            || (self.arrivals[x] <= self.arrivals[y] && self.owners[x] >= self.owners[y])
    }

    /// May job y preempt job x?
    fn may_preempt(&self, y: usize, x: usize) -> bool {
        self.owners[y] > self.owners[x]
            && self.arrivals[x] < self.arrivals[y]
            && self.arrivals[y] < self.latest[x]
    }

    /// The present priority of an active job.
    fn priority(&self, frame: &Frame) -> u8 {
        let mut highest = self.owners[frame.job as usize];
        for lock in 0..self.locks {
            if frame.held[lock] > 0 && highest < self.ceilings[lock] {
                highest = self.ceilings[lock];
            }
        }
        highest
    }

    /// The state that an order starts from.
    fn first(&self) -> State {
        let first_of = |task: usize| {
            let from = self.owners.iter().position(|owner| *owner as usize >= task);
            from.unwrap_or(JOBS) as u8
        };
        State {
            store: self.store,
            upcoming: std::array::from_fn(first_of),
            failed: [false; JOBS],
            depth: 0,
            stack: [Frame::default(); TASKS],
        }
    }

    /// Have all jobs ended?
    fn finished(&self, state: &State) -> bool {
        state.depth == 0 && !(0..TASKS).any(|task| self.owned_by(task, state.upcoming[task]))
    }

    /// Must job y wait for a job not yet begun?
    fn must_wait(&self, state: &State, y: u8) -> bool {
        (0..TASKS).any(|task| {
            let x = state.upcoming[task];
            self.owned_by(task, x) && x != y && self.comes_before(x as usize, y as usize)
        })
    }

    /// May the task's first job not yet begun start?
    fn may_start(&self, state: &State, task: usize) -> bool {
        let y = state.upcoming[task];
        self.owned_by(task, y)
            && !self.must_wait(state, y)
            && state.stack[..state.depth as usize].iter().all(|frame| {
                self.may_preempt(y as usize, frame.job as usize)
                    && self.priority(frame) < self.owners[y as usize]
            })
    }

    /// The running job's task, or the lowest; no task below it has a turn.
    fn first_task(&self, state: &State) -> usize {
        match state.depth {
            0 => 0,
            depth => self.owners[state.stack[depth as usize - 1].job as usize] as usize,
        }
    }

    /// The job whose turn a step of the task is, and how many active jobs are under it.
    fn turn(&self, state: &State, task: usize) -> Option<(Frame, u8)> {
        if state.depth > 0 {
            let top = &state.stack[state.depth as usize - 1];
            if self.owned_by(task, top.job) {
                return Some((*top, state.depth - 1));
            }
        }
        if !self.may_start(state, task) {
            return None;
        }
        let frame = Frame { job: state.upcoming[task], ..Frame::default() };
        Some((frame, state.depth))
    }
}

impl State {
    /// Performs an instruction of the job in the frame, which has so many active jobs under it.
    fn perform(&mut self, code: [u8; 4], value: u8, mut frame: Frame, task: usize, under: u8) {
        let [operation, a, b, c] = code;
        let (first, second) = (a as usize, b as usize);
        let registers = &mut frame.registers;
        let mut ended = false;
        frame.next += 1;
        match operation {
            1 => registers[first] = self.store[second],
            2 => self.store[first] = registers[second],
            3 => registers[first] = b,
            4 => registers[first] = registers[first].wrapping_add(registers[second]),
            5 => registers[first] = registers[first].wrapping_sub(registers[second]),
            6 if registers[first] < registers[second] => frame.next += u16::from(c),
            7 if registers[first] == registers[second] => frame.next += u16::from(c),
            6 | 7 => {}
            PICK => registers[first] = value,
            9 => frame.held[first] += 1,
            10 if frame.held[first] > 0 => frame.held[first] -= 1,
            11 if registers[first] == 0 => self.failed[frame.job as usize] = true,
            10 | 11 => {}
            _ => ended = true,
        }
        self.upcoming[task] = frame.job + 1;
        if ended {
            self.depth = under;
        } else {
            self.stack[under as usize] = frame;
            self.depth = under + 1;
        }
    }
}

impl Walk<'_> {
    /// The tree from a state on, after so many steps.
    fn visit(&mut self, state: &State, steps: usize) -> Result<(), Stop> {
        if self.lent.finished(state) {
            return if state.failed.contains(&true) { Err(Stop::Failing) } else { Ok(()) };
        }
        let first = self.lent.first_task(state);
        for task in first..TASKS {
            if task > first && !self.lent.owned_by(task, state.upcoming[task]) {
                continue;
            }
            let Some((frame, under)) = self.lent.turn(state, task) else { continue };
            let instruction = self.lent.instruction(task, frame.next);
            let [operation, _, b, c] = instruction;
            let (lowest, highest) = if operation == PICK { (c, b) } else { (0, 0) };
            for value in lowest..=highest {
                if self.count == self.allowance {
                    return Err(Stop::Undecided);
                }
                self.count += 1;
                self.order[steps] = 16 * task as u8 + value;
                let mut next = *state;
                next.perform(instruction, value, frame, task, under);
                self.visit(&next, steps + 1)?;
            }
        }
        Ok(())
    }
}

/// Walks the table: its verdict and the moves made. The buffer holds a failing order's bytes.
pub fn walk(lent: &Lent, allowance: u64, order: &mut [u8; STEPS]) -> (Verdict, u64) {
    let mut walk = Walk { lent, allowance, count: 0, order };
    let verdict = match walk.visit(&lent.first(), 0) {
        Ok(()) => Verdict::Holds,
        Err(Stop::Failing) => Verdict::Fails,
        Err(Stop::Undecided) => Verdict::Undecided,
    };
    (verdict, walk.count)
}
