//! Halls: texts of several lines that pay one crew, joined and taken apart.

use crate::calls::Reply;
use crate::failure::{failure, Failure, Fault, TEXT};
use crate::files::Input;
use crate::numbers::{joined, runs};
use crate::texts::{self, Job};

/// The most lines, parts and openings of a hall, and the most bytes of its text.
pub const MOST_LINES: usize = 4;
const MOST_PARTS: usize = 16;
const MOST_OPENINGS: usize = 64;
const MOST_BYTES: usize = 65_536;
/// A job does not fit the hall's first, or takes the hall past its limits.
const UNLIKE: u32 = 14;

/// A hall as its text says it: what a call of the crew costs, and each line's job with its text.
pub struct Hall {
    pub call: u64,
    pub lines: Vec<(Job, Vec<u8>)>,
}

/// Reads an accepted hall text.
pub fn hall(text: &[u8]) -> Hall {
    let starts = job_starts(text);
    let call = texts::pairs(text).find(|(key, _)| *key == b"call").map_or(0, |(_, call)| call);
    let ends = starts.iter().skip(1).copied().chain([text.len()]);
    let line = |(from, to): (&usize, usize)| (texts::job(&text[*from..to]), text[*from..to].to_vec());
    Hall { call, lines: starts.iter().zip(ends).map(line).collect() }
}

/// Where the jobs of a hall text begin: at their first lines.
pub fn job_starts(text: &[u8]) -> Vec<usize> {
    texts::line_starts(text).filter(|start| text[*start..].starts_with(b"horizon=")).collect()
}

/// Joins jobs without faults to a hall's text; a job that does not fit the first is named, with the key at which it differs (14).
pub fn joined_text(jobs: &[Input], call: u64) -> Result<Vec<u8>, Failure> {
    let read: Vec<Job> = jobs.iter().map(|job| texts::job(&job.bytes)).collect();
    for at in 0..read.len() {
        if let Some(words) = unlike(&read[..=at], |line| jobs[line].name.clone()) {
            let (message, file) = (format!("{}: {words} (14)\n", jobs[at].name), jobs[at].name.clone());
            let fault = Fault { file, result: UNLIKE, text: 1, line: 1, words, shown: String::new() };
            return Err(Failure { status: TEXT, message, fault: Some(fault) });
        }
    }
    let mut text = format!("machines={}\ncall={call}\n", jobs.len()).into_bytes();
    jobs.iter().for_each(|job| text.extend(&job.bytes));
    match text.len() > MOST_BYTES {
        true => Err(failure(TEXT, format_args!("the hall's text would have {} bytes, and it has at most {MOST_BYTES} (1)", text.len()))),
        false => Ok(text),
    }
}

/// Why the last of these jobs does not fit those before: the key at which it differs from the first, or the limit that it passes.
fn unlike(jobs: &[Job], name: impl Fn(usize) -> String) -> Option<String> {
    let (first, last) = (jobs.first()?, jobs.last()?);
    let sum = |of: &dyn Fn(&Job) -> usize| jobs.iter().map(of).sum::<usize>();
    let (parts, openings) = (sum(&|job| job.parts.len()), sum(&|job| job.openings.len()));
    let idles = |job: &Job| if job.idles.is_empty() { "none".to_string() } else { runs(&job.idles) };
    match (first.horizon == last.horizon, first.idles == last.idles) {
        (false, _) => Some(format!("`horizon` is {}, and {} in {}", last.horizon, first.horizon, name(0))),
        (_, false) => Some(format!("`idle` steps are {}, and {} in {}", idles(last), idles(first), name(0))),
        _ if parts > MOST_PARTS => Some(format!("`parts` are {parts} with those of the lines before, and a hall has at most {MOST_PARTS}")),
        _ if openings > MOST_OPENINGS => {
            Some(format!("`openings` are {openings} with those of the lines before, and a hall has at most {MOST_OPENINGS}"))
        }
        _ => None,
    }
}

/// The words for result 14: which line's job does not fit, and where it differs.
pub fn unlike_words(reply: &Reply, text: &[u8]) -> String {
    let from = texts::line_starts(text).nth(reply.line.saturating_sub(1) as usize).unwrap_or(text.len());
    // What stands behind the job may be at fault; its own lines end where another job begins.
    let starts = job_starts(text);
    let to = starts.iter().copied().find(|start| *start > from).unwrap_or(text.len());
    let Hall { lines, .. } = hall(&text[..to]);
    let jobs: Vec<Job> = lines.into_iter().map(|(job, _)| job).collect();
    let words = unlike(&jobs, |line| format!("line {}", line + 1)).unwrap_or_else(|| "the job does not fit the hall's first".to_string());
    format!("line {}: {words}", jobs.len())
}

/// The steps at which some of these plans stop, rising.
pub fn steps<'p>(plans: impl IntoIterator<Item = &'p texts::Plan>) -> Vec<u64> {
    let mut steps: Vec<u64> = plans.into_iter().flat_map(|plan| plan.stops.iter().map(|stop| stop.step)).collect();
    steps.sort_unstable();
    steps.dedup();
    steps
}

/// The parts that a plan changes at a step; none where it does not stop.
pub fn parts_at(plan: &texts::Plan, step: u64) -> Option<String> {
    plan.stops.iter().find(|stop| stop.step == step).map(|stop| match stop.parts.is_empty() {
        true => "none".to_string(),
        false => joined(stop.parts.iter().copied()),
    })
}
