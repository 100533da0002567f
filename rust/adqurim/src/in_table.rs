//! What a refusal says to the author of a table in memory, who knows its tasks and no records.

use crate::refusal::{Refusal, Rule};
use crate::table::{Instruction, Site, Table, TaskEntry};
use crate::words::MOST_TASKS;
use std::fmt;

/// A refusal and the table that it is about: [`Refusal::in_table`]. It prints as the refusal alone
/// if that is by a rule without a record, or if the table breaks no such rule there.
#[derive(Debug, Clone, Copy, PartialEq, Eq, Hash)]
pub struct InTable<'a> {
    refusal: Refusal,
    table: &'a Table,
}

/// The largest operation.
const LAST_OPERATION: u8 = 11;

impl Refusal {
    /// The refusal in words that name the task, instruction or lock of the table that is refused.
    ///
    /// ```
    /// let table = adqurim::Table { window: 5, ..adqurim::Table::default() };
    /// let refusal = adqurim::write(&table).unwrap_err();
    /// let says = refusal.in_table(&table).to_string();
    /// assert_eq!(says, "the header (record 0): there are no tasks (5 COUNT)");
    /// ```
    pub fn in_table(self, table: &Table) -> InTable<'_> {
        InTable { refusal: self, table }
    }
}

impl InTable<'_> {
    /// The rule, the record that breaks it, and what is wrong with that.
    pub(crate) fn fault(&self) -> Option<(Rule, Site, String)> {
        let (rule, place) = (self.refusal.rule()?, usize::try_from(self.refusal.place).ok()?);
        let site = self.table.site(place)?;
        let says = match (rule, site) {
            (Rule::Field, _) => self.field(site),
            (Rule::Count, _) => count(site),
            (Rule::Body, Site::Instruction { task, position }) => self.body(task, position),
            (Rule::Rate, Site::Task(task)) => self.rate(task)?,
            (Rule::Ceiling, Site::Instruction { task, position }) => self.ceiling(task, position),
            (Rule::Overload, Site::Task(task)) => self.overload(task),
            _ => return None,
        };
        Some((rule, site, says))
    }

    fn instruction(&self, task: usize, position: usize) -> Instruction {
        self.table.tasks[task].body[position]
    }

    fn field(&self, site: Site) -> String {
        match site {
            Site::Header => format!("the window is {}", self.table.window),
            Site::Task(task) => {
                let task = &self.table.tasks[task];
                let (execution, period) = (task.execution, task.period);
                format!("the execution time {execution} is not from 1 to the period {period}")
            }
            Site::Instruction { task, position } => {
                instruction_field(self.instruction(task, position))
            }
            Site::Lock(lock) => format!("the ceiling {} is above 7", self.table.ceilings[lock]),
        }
    }

    fn body(&self, task: usize, position: usize) -> String {
        match position + 1 == self.table.tasks[task].body.len() {
            true => "it is the body's last and not End".to_string(),
            false => "it skips beyond the body's last".to_string(),
        }
    }

    /// None for the first task, which has no previous one.
    fn rate(&self, task: usize) -> Option<String> {
        let previous = self.table.tasks[task.checked_sub(1)?].period;
        let period = self.table.tasks[task].period;
        Some(format!("the period {period} is above the previous task's {previous}"))
    }

    /// What the equation counts of the task itself: C and B.
    fn overload(&self, task: usize) -> String {
        let TaskEntry { execution, period, .. } = self.table.tasks[task];
        let blocking = self.table.blocking(task);
        format!(
            "with C {execution} and B {blocking}, its wait for a lower task's lock, \
             there is no response time within the period {period}"
        )
    }

    fn ceiling(&self, task: usize, position: usize) -> String {
        let lock = self.instruction(task, position).a;
        match self.table.ceilings.get(usize::from(lock)) {
            None => format!("lock {lock} is not in the table"),
            Some(ceiling) => format!("lock {lock} has the ceiling {ceiling}, below base {task}"),
        }
    }
}

/// Number 4 at an instruction.
fn instruction_field(instruction: Instruction) -> String {
    match instruction.operation {
        known @ 0..=LAST_OPERATION => {
            let says = format!("a field of operation {known} is out of range or unused and not 0");
            instruction.without_values().unwrap_or(says)
        }
        other => format!("there is no operation {other}"),
    }
}

/// Number 5: a record too many, or one that holds nothing.
fn count(site: Site) -> String {
    let says = match site {
        Site::Header => "there are no tasks",
        Site::Task(task) if task < MOST_TASKS => "the body is empty",
        Site::Task(_) => "it is a task too many",
        Site::Instruction { .. } => "it is an instruction too many",
        Site::Lock(_) => "it is a lock too many",
    };
    says.to_string()
}

impl fmt::Display for InTable<'_> {
    fn fmt(&self, f: &mut fmt::Formatter<'_>) -> fmt::Result {
        let Refusal { number, place } = self.refusal;
        match self.fault() {
            Some((rule, site, says)) => {
                write!(f, "{site} (record {place}): {says} ({number} {})", rule.name())
            }
            None => write!(f, "{}", self.refusal),
        }
    }
}
