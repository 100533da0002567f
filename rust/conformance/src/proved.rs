//! The interpreter's answers in the form of the proved entries'.

use adqurim::raw::{
    JobsAnswer, ReadAnswer, RunAnswer, SheetAnswer, Verdict, WalkAnswer, WriteAnswer,
};
use adqurim::{Job, Rule, SHEET_ROOM, TABLE_ROOM};
use interpreter::{JobRecord, TaskNumber};

/// What the proved reader must answer to a file, by the interpreter.
pub fn expected_read(file: &[u8]) -> ReadAnswer {
    let interpreter::ReadAnswer { number, place, response_times, jobs } = interpreter::read(file);
    ReadAnswer {
        number: number.into(),
        place: place as u64,
        responses: response_times,
        jobs: jobs as u64,
    }
}

/// What the proved replay must answer to a file and an order, by the interpreter.
pub fn expected_replay(file: &[u8], order: &[u8]) -> RunAnswer {
    written_none(interpreter::replay(file, order))
}

/// What the proved plan check must answer to a file and a plan, by the interpreter.
pub fn expected_check_plan(file: &[u8], plan: &[u8]) -> RunAnswer {
    written_none(interpreter::check_plan(file, plan))
}

/// What the proved conversion of an order must answer, by the interpreter, which leaves in the plan
/// buffer what the proved one must leave there.
pub fn expected_order_to_plan(file: &[u8], order: &[u8], plan: &mut [u8]) -> RunAnswer {
    written(interpreter::order_to_plan(file, order, plan))
}

/// The same for the conversion of a plan and the order buffer.
pub fn expected_plan_to_order(file: &[u8], plan: &[u8], order: &mut [u8]) -> RunAnswer {
    written(interpreter::plan_to_order(file, plan, order))
}

/// An answer of the interpreter's conversions.
fn written(answer: interpreter::ConversionAnswer) -> RunAnswer {
    let interpreter::ConversionAnswer { number, place, length, end_store, failed_jobs } = answer;
    RunAnswer {
        number: number.into(),
        place: place as u64,
        end_store: end_store.map(u64::from),
        failed_jobs: flags(failed_jobs),
        length: length as u64,
    }
}

/// An answer of its replay or plan check, which write nothing.
fn written_none(answer: interpreter::RunAnswer) -> RunAnswer {
    let interpreter::RunAnswer { number, place, end_store, failed_jobs } = answer;
    let length = 0;
    written(interpreter::ConversionAnswer { number, place, length, end_store, failed_jobs })
}

/// What the proved walk must answer to a file and an allowance, by the interpreter, which leaves in
/// the order buffer what the proved walk must leave there.
pub fn expected_walk(file: &[u8], allowance: u64, order: &mut [u8]) -> WalkAnswer {
    let answer = interpreter::walk(file, allowance, order);
    WalkAnswer {
        number: answer.number.into(),
        place: answer.place as u64,
        verdict: match answer.verdict {
            interpreter::Verdict::None => Verdict::None,
            interpreter::Verdict::Holds => Verdict::Holds,
            interpreter::Verdict::Fails => Verdict::Fails,
        },
        count: answer.count,
        length: answer.length as u64,
        end_store: answer.end_store.map(u64::from),
        failed_jobs: flags(answer.failed_jobs),
    }
}

/// What the proved sheet's entry must answer, by the interpreter, and leave in the text.
pub fn expected_sheet(file: &[u8], text: &mut [u8]) -> SheetAnswer {
    if text.len() < SHEET_ROOM {
        return SheetAnswer { number: Rule::Room.number(), ..SheetAnswer::default() };
    }
    let sheet = interpreter::sheet(file);
    text[..sheet.len()].copy_from_slice(sheet.as_bytes());
    SheetAnswer { length: sheet.len() as u64, ..SheetAnswer::default() }
}

/// A record of the interpreter's job list.
pub fn job_of(record: &JobRecord) -> Job {
    let JobRecord { task, arrival, latest_finish } = *record;
    Job { task: task.0, arrival, latest: latest_finish }
}

/// What the proved job list's entry must answer, by the interpreter, and leave in the list.
pub fn expected_jobs(file: &[u8], list: &mut [Job]) -> JobsAnswer {
    let record = |job: &Job| JobRecord {
        task: TaskNumber(job.task),
        arrival: job.arrival,
        latest_finish: job.latest,
    };
    let mut records: Vec<JobRecord> = list.iter().map(record).collect();
    let answer = interpreter::job_list(file, &mut records);
    list.iter_mut().zip(&records).for_each(|(job, record)| *job = job_of(record));
    let interpreter::JobListAnswer { number, place, jobs } = answer;
    JobsAnswer { number: number.into(), place: place as u64, jobs: jobs as u64 }
}

/// What the proved entry must answer that fills a table in memory, by the interpreter, and leave in
/// the memory.
pub fn expected_table(file: &[u8], memory: &mut [u8]) -> WriteAnswer {
    written_to(interpreter::table(file, memory))
}

/// What the proved writer must answer, by the interpreter, and leave in the file's buffer.
pub fn expected_write(memory: &[u8; TABLE_ROOM], file: &mut [u8]) -> WriteAnswer {
    written_to(interpreter::write(memory, file))
}

/// What the proved conversion of a text must answer, by the interpreter, and leave in the file's
/// buffer.
pub fn expected_text_to_file(text: &[u8], file: &mut [u8]) -> WriteAnswer {
    written_to(interpreter::text_to_file(text, file))
}

/// The same for the conversion of a file and the text's buffer.
pub fn expected_file_to_text(file: &[u8], text: &mut [u8]) -> WriteAnswer {
    written_to(interpreter::file_to_text(file, text))
}

/// An answer of the interpreter's writer.
fn written_to(answer: interpreter::WriteAnswer) -> WriteAnswer {
    let interpreter::WriteAnswer { number, place, length } = answer;
    WriteAnswer { number: number.into(), place: place as u64, length: length as u64 }
}

/// The set of failed jobs as a word for each job.
fn flags(failed_jobs: u32) -> [u64; 32] {
    std::array::from_fn(|job| (failed_jobs >> job & 1).into())
}
