//! `join`: the jobs of several lines as one hall's text.

use crate::arguments::JoinOrder;
use crate::failure::{failure, Failure, USAGE};
use crate::files::Input;
use crate::json::Value;
use crate::numbers::{counted, grouped};
use crate::verdicts::headed;
use crate::{calls, faults, files, halls, output, standard_output, texts};
use std::ffi::OsStr;

/// Checks each job, and that they fit each other, and writes the hall's text.
pub fn run(order: &JoinOrder) -> Result<u8, Failure> {
    let inputs: Vec<&OsStr> = order.jobs.iter().map(|job| &**job).collect();
    let standard = OsStr::new("-");
    // With JSON on standard output the text does not go there too: it stands in it.
    let path = Some(order.output.as_deref().unwrap_or(standard)).filter(|path| !(order.json && files::is_standard(path)));
    for path in path.into_iter().chain(order.json.then_some(standard)) {
        files::not_among(path, &inputs)?;
        files::ready(path)?;
    }
    if inputs.len() > halls::MOST_LINES {
        return Err(failure(USAGE, format_args!("a hall has at most {} lines, not {}", halls::MOST_LINES, inputs.len())));
    }
    let mut jobs = Vec::new();
    for input in inputs {
        let job = files::read(input)?;
        if let Some(reply) = calls::job_fault(&job.bytes)? {
            return Err(faults::refusal(&reply, &job, None));
        }
        jobs.push(job);
    }
    let text = halls::joined_text(&jobs, order.call)?;
    if let Some(path) = path {
        files::write(path, &text)?;
    }
    let words = format!("a hall of {}, with {} for each call of the crew", counted(jobs.len() as u64, "line"), grouped(order.call));
    match order.json {
        true => standard_output::write(Value::object(headed("join", json(&jobs, order.call, words, &text))).document().as_bytes())?,
        false => output::say(&format!("{words} (0)\n")),
    }
    Ok(0)
}

/// What programs are told.
fn json(jobs: &[Input], call: u64, words: String, text: &[u8]) -> Vec<(&'static str, Value)> {
    let read: Vec<texts::Job> = jobs.iter().map(|job| texts::job(&job.bytes)).collect();
    let sum = |of: &dyn Fn(&texts::Job) -> usize| Value::Number(read.iter().map(of).sum::<usize>() as u64);
    vec![
        ("jobs", Value::list(jobs.iter().map(|job| Value::text(&job.name)))),
        ("result", Value::Number(0)),
        ("words", Value::text(words)),
        ("fault", Value::Null),
        ("call", Value::Number(call)),
        ("parts", sum(&|job| job.parts.len())),
        ("openings", sum(&|job| job.openings.len())),
        ("text", Value::text(String::from_utf8_lossy(text))),
    ]
}
