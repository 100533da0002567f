//! The help of the program and of each subcommand.

use crate::arguments::Subcommand;

const PROGRAM: &str = "\
adqurim checks the task table of a parcel depot's box.

  adqurim check FILE                  print the table's sheet
  adqurim read FILE                   response times and jobs
  adqurim jobs FILE                   each job's task, arrival and latest finish
  adqurim walk [--allowance N] FILE   look for an order that fails
  adqurim replay FILE ORDER..         run the steps of an order
  adqurim plan FILE ORDER..           convert an order to its plan in rounds
  adqurim check-plan FILE PLAN..      check a plan in rounds
  adqurim order FILE PLAN..           convert a plan to its order
  adqurim rewrite FILE                write the file with its records in walk order
  adqurim text FILE                   print the table's text
  adqurim file TEXT                   write the file of a table's text

FILE is a task file, TEXT a table's text, `-` standard input. ORDER and PLAN are bytes, each a word
from 0 to 255; a single `-` takes the bytes themselves from standard input.
`adqurim SUBCOMMAND --help` says more.
";

const STATUSES: &str = "
Status: 0 the table holds, or what was given is accepted; 1 some order fails (check and walk);
2 a file that cannot be read, or wrong usage; 3 refused, or undecided within the allowance.
A refusal is a line `refused NUMBER PLACE`, which rewrite, text and file leave out; standard error
explains it in a sentence.
";

const CHECK: &str = "\
adqurim check FILE

Prints the sheet: totals, each task's response time and jobs, then the verdict and the count of
moves. If some order fails, the first that does follows, its failed jobs, and each job's rounds in
its plan. The walk has an allowance of 1,000,000 moves.
";

const READ: &str = "\
adqurim read FILE

Prints the totals, and each task's response time and jobs. A response time counts the longest wait
for a lower task's lock.
";

const JOBS: &str = "\
adqurim jobs FILE

Prints a line for each job that arrives in the window, by task and then by arrival: its number, its
task, its arrival and its latest finish.
";

const WALK: &str = "\
adqurim walk [--allowance N] FILE

Walks all orders up to the first that fails, with at most N moves (1,000,000 if none is given).
Prints the verdict and the count of moves; if some order fails, also that order, its failed jobs
and the store it leaves. On a terminal, a long walk shows the moves made and their rate.
";

const REPLAY: &str = "\
adqurim replay FILE ORDER..

Runs the steps of an order, each 16 * task + value. Prints `accepted`, the failed jobs and the store
left. An order with failed jobs is accepted too, with status 0.

A wrong step is refused by 33 if there is no such task, else by 30 if no job of the task has its
turn, else by 34 if the value is not on offer: a Pick offers its lowest to its highest, any other
instruction 0. Standard error names the task or the value, and the values on offer.
";

const PLAN: &str = "\
adqurim plan FILE ORDER..

Converts an order to its plan. Prints the plan's bytes, the store that each round starts with, each
job's rounds and values, the failed jobs and the store left.
";

const CHECK_PLAN: &str = "\
adqurim check-plan FILE PLAN..

Checks a plan's bytes: the number of jobs, each round's starting store, then each step's round and
value. Prints `accepted`, the failed jobs and the store left. A plan with failed jobs is accepted
too, with status 0. Of a value that is refused by 41 standard error says which are on offer.
";

const ORDER: &str = "\
adqurim order FILE PLAN..

Converts a plan to its order. Prints the order's bytes, the failed jobs and the store left.
";

const REWRITE: &str = "\
adqurim rewrite FILE

Writes the file to standard output with its records in walk order: the header, each task followed by
its body, then the locks. The table stays the same. Nothing is written of a file that is refused.
";

const TEXT: &str = "\
adqurim text FILE

Prints the table's text: a `window` line, a `start` line with the eight initial values, each `task`
line (execution time, period, first arrival) followed by its instructions, then the `lock` lines
(ceiling, longest holding time). Nothing is printed of a file that is refused.
";

const FILE: &str = "\
adqurim file TEXT

Writes the file of a table's text to standard output, with its records in walk order:

  window 5
  start 0 0 0 0 0 0 0 0
  task 2 8 0
  load 0 0
  end
  lock 1 0

A line begins with its word: there is no space before it, one between words, and none after the
last. Numbers have no leading zeros, and each line is ended by a newline. The instructions are end;
acquire a, release a, assert a; load a b, store a b, set a b, add a b, subtract a b; less a b c,
equal a b c, pick a b c. A Pick takes a value from c to b: `pick 0 6 3` one from 3 to 6.

A line that is not of this form, or is out of place or missing, is refused by 60, a number too large
for its field by 61, a text above 8,192 bytes by 62; then the table itself is judged. A place is a
line, counted from 0; standard error shows the line. Nothing is written of a text that is refused.
";

/// The help of a subcommand, or of the program.
pub fn text(subcommand: Option<Subcommand>) -> String {
    let own = match subcommand {
        None => PROGRAM,
        Some(Subcommand::Check) => CHECK,
        Some(Subcommand::Read) => READ,
        Some(Subcommand::Jobs) => JOBS,
        Some(Subcommand::Walk) => WALK,
        Some(Subcommand::Replay) => REPLAY,
        Some(Subcommand::Plan) => PLAN,
        Some(Subcommand::CheckPlan) => CHECK_PLAN,
        Some(Subcommand::Order) => ORDER,
        Some(Subcommand::Rewrite) => REWRITE,
        Some(Subcommand::Text) => TEXT,
        Some(Subcommand::File) => FILE,
    };
    format!("{own}{STATUSES}")
}
