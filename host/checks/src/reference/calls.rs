//! The planner's, the judge's and the count's answers, in the order of the result numbers.

use super::lines::Fault;
use super::model::{Job, Plan};
use super::texts::{printed_lines, read_job, read_plan};

/// "The lent output has at least 16,384."
pub const LEAST_OUTPUT: usize = 16_384;

/// All that a call hands over: its numbers, the written bytes and the place of the line at fault in its text.
#[derive(Debug, Clone, PartialEq, Eq, Default)]
pub struct Reply {
    pub result: u32,
    pub text: u32,
    pub line: u32,
    pub bytes: Vec<u8>,
    pub fault_start: usize,
    pub fault_length: usize,
}

impl Reply {
    /// The reply with this result and the lines after `result`.
    pub(super) fn new(result: u32, more: &str) -> Reply {
        Reply { result, bytes: format!("result={result}\n{more}").into_bytes(), ..Reply::default() }
    }

    /// "Numbers 1 to 5 and 9: `result`, `text` (1 job, 2 plan), `line` (from 1; 0 for number 1)." "Text errors from 12 on write and hand
    /// the host what 3 would, under their own number."
    pub(super) fn fault(text: u32, fault: Fault) -> Reply {
        let Fault { result, line, start, length } = fault;
        let reply = Reply::new(result, &format!("text={text}\nline={line}\n"));
        Reply { text, line, fault_start: start, fault_length: length, ..reply }
    }

    /// "8: the output is shorter than 16,384 bytes. Nothing is written, length 0." For the writer it is 40,960 bytes.
    pub(super) fn short_output() -> Reply {
        Reply { result: 8, ..Reply::default() }
    }
}

/// The planner with the walk number of the call and an output of this length. "A number above 4000000000 counts as 4000000000".
pub fn plan(job_text: &[u8], walk: u64, output: usize) -> Reply {
    if output < LEAST_OUTPUT {
        return Reply::short_output();
    }
    let job = match read_job(job_text) {
        Ok(job) => job,
        Err(fault) => return Reply::fault(1, fault),
    };
    // "6: no plan keeps the lives. Planner only, and independent of `walk`."
    let Some(floor) = job.floor() else {
        return Reply::new(6, "");
    };
    // "7: the walk has more points than `walk`." "Planner 0 and 7: `result`, `nodes` (points walked), `floor`, then the plan lines; with
    // 7 and no plan it ends after `floor`."
    let walk = job.walk(walk.min(4_000_000_000));
    let plan = walk.best.and_then(|(_, point)| job.plan_at(&point));
    let lines = plan.map_or(String::new(), |plan| printed_lines(&job, &plan));
    Reply::new(if walk.more { 7 } else { 0 }, &format!("nodes={}\nfloor={floor}\n{lines}", walk.nodes))
}

/// What a job text and a plan text say, the plan with the cost that it states, or the reply to a fault. "Order: 8; then the job text [..];
/// then the plan text the same way with 9 last".
pub(super) fn two_texts(job_text: &[u8], plan_text: &[u8], output: usize) -> Result<(Job, Plan, u64), Reply> {
    if output < LEAST_OUTPUT {
        return Err(Reply::short_output());
    }
    let job = read_job(job_text).map_err(|fault| Reply::fault(1, fault))?;
    let (plan, stated) = read_plan(&job, plan_text).map_err(|fault| Reply::fault(2, fault))?;
    Ok((job, plan, stated))
}

/// The judge, with an output of this length.
pub fn judge(job_text: &[u8], plan_text: &[u8], output: usize) -> Reply {
    let (job, plan, stated) = match two_texts(job_text, plan_text, output) {
        Ok(read) => read,
        Err(reply) => return reply,
    };
    // "10: a part is not kept. Lowest such part, and its due step."
    for (part, changes) in plan.changes.iter().enumerate() {
        if let Some(due) = job.due(&job.parts[part], changes) {
            return Reply::new(10, &format!("part={}\ndue={due}\n", part + 1));
        }
    }
    // "11: all kept, but `cost` is not the plan's cost." Both print the true cost.
    let cost = job.cost(&plan);
    Reply::new(if cost == stated { 0 } else { 11 }, &format!("cost={cost}\n"))
}

/// All that the count hands over.
#[derive(Debug, Clone, PartialEq, Eq, Default)]
pub struct Counted {
    pub result: u32,
    pub text: u32,
    pub line: u32,
    pub count: u64,
    pub fault_start: usize,
    pub fault_length: usize,
}

/// The count, by walking: at most `most` points, where the call says how many there are. "It hands back result, line and count; the count
/// is 0 for a refused job text."
pub fn count(job_text: &[u8], most: u64) -> Counted {
    match read_job(job_text) {
        // "E6's count refuses jobs with a holder": "12 with line 0 after all text checks".
        Ok(job) if !job.holding().is_empty() => Counted { result: 12, ..Counted::default() },
        Ok(job) => Counted { count: job.open_points(most), ..Counted::default() },
        Err(Fault { result, line, start, length }) => Counted { result, text: 1, line, count: 0, fault_start: start, fault_length: length },
    }
}
