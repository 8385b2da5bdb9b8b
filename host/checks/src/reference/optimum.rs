//! The optimum's call, by the words of its header. Which walks it makes, and so whether it says 7, is its own affair: what was written is held to
//! what is promised of it.

use super::calls::{Reply, LEAST_OUTPUT};
use super::model::Job;
use super::texts::{printed_lines, read_job, read_plan};

/// What the counted walk of at most so many nodes says of a job: its cheapest plan so far with its cost, and whether no plan costs less.
struct Known {
    cost: u64,
    lines: String,
    is_least: bool,
}

impl Known {
    fn of(job: &Job, most: u64) -> Option<Known> {
        let walk = job.walk(most);
        let (cost, point) = walk.best?;
        let plan = job.plan_at(&point)?;
        Some(Known { cost, lines: printed_lines(job, &plan), is_least: !walk.more })
    }
}

/// Whether these are the lines of a plan that keeps every life, at its true cost, which is no less than `floor` and no more than `most`.
fn is_plan(job: &Job, lines: &str, floor: u64, most: u64) -> bool {
    let Some(at) = lines.find("cost=") else { return false };
    let Ok((plan, cost)) = read_plan(job, &lines.as_bytes()[at..]) else { return false };
    job.keeps(&plan) && printed_lines(job, &plan) == lines && (floor..=most).contains(&cost)
}

/// "Result 7: [..] `result`, then `floor`: no plan costs less; and then, where the first nodes of the search of juzvarola_plan have a plan, the
/// lines of the cheapest of these, at its true cost."
fn is_cut(job: &Job, known: Option<&Known>, written: &str) -> bool {
    let Some((floor, plan)) = written.strip_prefix("result=7\nfloor=").and_then(|rest| rest.split_once('\n')) else { return false };
    let Some(floor) = floor.parse::<u64>().ok().filter(|own| own.to_string() == floor) else { return false };
    known.is_none_or(|known| floor <= known.cost) && (plan.is_empty() || is_plan(job, plan, floor, u64::MAX))
}

/// "Result 0: `result`, then the plan lines [..]. No plan costs less; of the plans that cost as much it is the one of juzvarola_plan". Where the
/// counted walk has more nodes than were walked, a plan that is kept, at its true cost, and no dearer than the cheapest so far.
fn is_found(job: &Job, known: Option<&Known>, written: &str) -> bool {
    let Some(lines) = written.strip_prefix("result=0\n") else { return false };
    match known {
        Some(known) if known.is_least => known.lines == lines,
        _ => is_plan(job, lines, 0, known.map_or(u64::MAX, |known| known.cost)),
    }
}

/// The reply of the call with an output of this length that fits what was written: those bytes where they are what is promised, else others.
/// The counted walk is walked for at most `most` nodes.
pub fn optimum(job_text: &[u8], output: usize, most: u64, written: &[u8]) -> Reply {
    if output < LEAST_OUTPUT {
        return Reply::short_output();
    }
    let job = match read_job(job_text) {
        Ok(job) => job,
        Err(fault) => return Reply::fault(1, fault),
    };
    if job.floor().is_none() {
        return Reply::new(6, "");
    }
    let known = Known::of(&job, most);
    let said = String::from_utf8_lossy(written);
    for (result, fits) in [(7, is_cut(&job, known.as_ref(), &said)), (0, is_found(&job, known.as_ref(), &said))] {
        if fits {
            return Reply { result, bytes: written.to_vec(), ..Reply::default() };
        }
    }
    Reply::new(0, &known.map_or("no such plan\n".to_string(), |known| known.lines))
}
