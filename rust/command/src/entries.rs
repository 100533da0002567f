//! What each subcommand prints, and the status it ends with.

use crate::arguments::{Request, Subcommand};
use crate::lines::{ending, line, refused};
use crate::rounds::{parts, Parts};
use crate::sheet::{finding, totals, Finding};
use crate::{progress, records, sources, Problem, Status, Streams};
use adqurim::{Ending, Job, Place, Refusal, Verdict};
use std::ops::RangeInclusive;

/// An answer's lines and its status.
type Answer = Result<(String, Status), Refusal>;

/// Answers a request.
pub fn answer(request: &Request, streams: &mut Streams) -> Result<Status, Problem> {
    let file = sources::bytes(&request.file, streams)?;
    let numbers = sources::bytes(&request.numbers, streams)?;
    let accepted = |text: String| (text, Status::Accepted);
    let answer = match request.subcommand {
        Subcommand::Check => return check(&file, streams),
        Subcommand::Rewrite => return rewrite(&file, streams),
        Subcommand::Text => return text(&file, streams),
        Subcommand::File => return from_text(&file, streams),
        Subcommand::Walk => walk(&file, request.allowance, streams),
        Subcommand::Read => read(&file).map(accepted),
        Subcommand::Jobs => jobs(&file).map(accepted),
        Subcommand::Replay => adqurim::replay(&file, &numbers).map(ran).map(accepted),
        Subcommand::Plan => plan(&file, &numbers).map(accepted),
        Subcommand::CheckPlan => adqurim::check_plan(&file, &numbers).map(ran).map(accepted),
        Subcommand::Order => order(&file, &numbers).map(accepted),
    };
    match answer {
        Ok((text, status)) => print(&text, streams).map(|()| status),
        Err(refusal) => {
            print(&refused(&refusal), streams)?;
            explain(&refusal, &file, &numbers, streams)
        }
    }
}

fn print(text: &str, streams: &mut Streams) -> Result<(), Problem> {
    Ok(streams.output.write_all(text.as_bytes())?)
}

/// Says something on standard error of what is refused. The refusal is printed and the status says
/// it: an explanation that is lost changes neither.
fn tell(says: &str, streams: &mut Streams) -> Result<Status, Problem> {
    streams.output.flush()?;
    let _ = streams.errors.write_all(says.as_bytes());
    Ok(Status::Refused)
}

/// Says on standard error what a refusal means; if it names a step, which task or value is wrong; if
/// a value is wrong, which are on offer; and if it names a record, what that record is. The numbers
/// are an order's or a plan's: an order's where the refusal names a step.
fn explain(
    refusal: &Refusal,
    file: &[u8],
    numbers: &[u8],
    streams: &mut Streams,
) -> Result<Status, Problem> {
    let mut text = format!("adqurim: {}\n", refusal.in_order(numbers));
    if let Some(values) = refusal.on_offer(file, numbers) {
        text += &on_offer(refusal, values);
    }
    if refusal.rule().map(|rule| rule.place()) == Some(Place::Record) {
        let record = refusal.place as usize;
        let (first, last) = records::extent(record);
        let is = records::name(file, record).unwrap_or("reached by no chain".to_string());
        text += &format!("adqurim: record {record}, bytes {first} to {last}, is {is}\n");
    }
    tell(&text, streams)
}

/// Says which values could stand at a refusal's place.
fn on_offer(refusal: &Refusal, values: RangeInclusive<u8>) -> String {
    let noun = refusal.rule().and_then(|rule| rule.place().noun()).unwrap_or("place");
    let at = format!("on offer at {noun} {}", refusal.place);
    match values.into_inner() {
        (lowest, highest) if lowest < highest => {
            format!("adqurim: the values {at} are {lowest} to {highest}\n")
        }
        (only, _) => format!("adqurim: the only value {at} is {only}\n"),
    }
}

/// The sheet, as its proved entry writes it.
fn check(file: &[u8], streams: &mut Streams) -> Result<Status, Problem> {
    let text = adqurim::sheet(file);
    print(&text, streams)?;
    match finding(&text) {
        Finding::Holds => Ok(Status::Accepted),
        Finding::Fails => Ok(Status::Fails),
        Finding::Refused(refusal) => explain(&refusal, file, &[], streams),
    }
}

/// Writes a file or a text. Its bytes go where one is expected, so a refusal leaves that empty and is
/// told on standard error alone.
fn write(bytes: &[u8], streams: &mut Streams) -> Result<Status, Problem> {
    streams.output.write_all(bytes)?;
    Ok(Status::Accepted)
}

/// The file with its records in walk order.
fn rewrite(file: &[u8], streams: &mut Streams) -> Result<Status, Problem> {
    match adqurim::table(file).and_then(|table| adqurim::write(&table)) {
        Ok(written) => write(&written, streams),
        Err(refusal) => explain(&refusal, file, &[], streams),
    }
}

/// A file's text.
fn text(file: &[u8], streams: &mut Streams) -> Result<Status, Problem> {
    match adqurim::file_to_text(file) {
        Ok(text) => write(text.as_bytes(), streams),
        Err(refusal) => explain(&refusal, file, &[], streams),
    }
}

/// A text's file. A refusal shows the line that it names.
fn from_text(text: &[u8], streams: &mut Streams) -> Result<Status, Problem> {
    match adqurim::text_to_file(text) {
        Ok(file) => write(&file, streams),
        Err(refusal) => tell(&format!("adqurim: {}\n", refusal.in_text(text)), streams),
    }
}

/// The totals, and a line for each task.
fn read(file: &[u8]) -> Result<String, Refusal> {
    Ok(totals(&adqurim::read(file)?, &adqurim::jobs(file)?))
}

/// A line for each job.
fn jobs(file: &[u8]) -> Result<String, Refusal> {
    let job_line = |(number, Job { task, arrival, latest }): (usize, Job)| {
        format!("job {number} task {task} arrival {arrival} latest {latest}\n")
    };
    Ok(adqurim::jobs(file)?.into_iter().enumerate().map(job_line).collect())
}

/// The verdict, with the order that fails.
fn walk(file: &[u8], allowance: u64, streams: &mut Streams) -> Answer {
    Ok(match progress::walk(file, allowance, streams)? {
        Verdict::Holds { count } => (format!("verdict holds {count}\n"), Status::Accepted),
        Verdict::Fails { count, order, ending: run } => {
            let verdict = format!("verdict fails {count}\n");
            (verdict + &line("order", &order) + &ending(&run), Status::Fails)
        }
    })
}

/// An order or a plan that is accepted.
fn ran(run: Ending) -> String {
    "accepted\n".to_string() + &ending(&run)
}

/// An order's plan: its bytes, then its parts.
fn plan(file: &[u8], order: &[u8]) -> Result<String, Refusal> {
    let planned = adqurim::order_to_plan(file, order)?;
    let Parts { stores, jobs } = parts(order, &planned.plan);
    let mut text = line("plan", &planned.plan);
    for (round, store) in stores.iter().enumerate() {
        text += &line(&format!("round {round} starts"), store);
    }
    for (job, steps) in jobs.iter().enumerate() {
        text += &line(&format!("job {job} rounds"), steps.iter().map(|step| step.round));
        text += &line(&format!("job {job} values"), steps.iter().map(|step| step.value));
    }
    Ok(text + &ending(&planned.ending))
}

/// A plan's order.
fn order(file: &[u8], plan: &[u8]) -> Result<String, Refusal> {
    let ordered = adqurim::plan_to_order(file, plan)?;
    Ok(line("order", &ordered.order) + &ending(&ordered.ending))
}
