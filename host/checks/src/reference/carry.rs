//! "Carry on from the work log." "Replay what was really done and plan the rest."

use super::calls::Reply;
use super::form::LEAST_OUTPUT;
use super::lines::{Fault, Lines, MAX_TEXT};
use super::model::{Job, Opening, Part, Plan, Set};
use super::texts::{read_job, read_plan_lines};

/// A work log: the step up to which it goes, what was done, and the cost that it states.
#[derive(Debug, Clone, PartialEq, Eq)]
pub struct Log {
    pub step: i64,
    pub done: Plan,
    pub cost: u64,
}

/// "The log (text 2) is a line `step` 1..T − 2 (else 3) and then plan lines, never left out (else 2), with no stop after that step (else 9)".
pub fn read_log(job: &Job, text: &[u8]) -> Result<Log, Fault> {
    let mut lines = Lines::new(text, MAX_TEXT)?;
    let step = lines.value("step", 1, (job.horizon - 2) as u64)? as i64;
    let (done, cost) = read_plan_lines(job, &mut lines, step)?;
    Ok(Log { step, done, cost })
}

impl Job {
    /// "`left` is the life not yet used": after these changes, by this step.
    fn life_left(&self, part: &Part, changes: &Set, step: i64) -> i64 {
        let last = self.openings.iter().zip(changes).rfind(|(_, changed)| **changed);
        let last = last.map_or(part.first_change(), |(opening, _)| opening.step);
        part.life - self.distance(last, step)
    }

    /// "The horizon is shorter by the step, openings and idles after it are renumbered with their fees and prices". "A part given by E8's rule
    /// is written with `price` lines; a `walk` line is not written; every other form is kept."
    pub fn carried(&self, step: i64, done: &Plan) -> Job {
        let first = self.openings.iter().position(|opening| opening.step > step).unwrap_or(self.openings.len());
        let part = |(part, changes): (&Part, &Set)| Part {
            left: self.life_left(part, changes, step),
            rule: None,
            prices: part.prices[first..].to_vec(),
            lows: part.lows[first..].to_vec(),
            pairs: part.pairs[first..].to_vec(),
            ..part.clone()
        };
        Job {
            horizon: self.horizon - step,
            idles: self.idles.iter().filter(|idle| **idle > step).map(|idle| idle - step).collect(),
            walk: None,
            openings: self.openings[first..].iter().map(|Opening { step: at, fee }| Opening { step: at - step, fee: *fee }).collect(),
            parts: self.parts.iter().zip(&done.changes).map(part).collect(),
        }
    }

    /// The text of a job without rules and without a `walk` line.
    pub fn text(&self) -> String {
        let mut lines = vec![format!("horizon={}", self.horizon)];
        if !self.idles.is_empty() {
            lines.push(format!("idles={}", self.idles.len()));
            lines.extend(self.idles.iter().map(|idle| format!("idle={idle}")));
        }
        lines.push(format!("openings={}", self.openings.len()));
        lines.extend(self.openings.iter().flat_map(|opening| [format!("opening={}", opening.step), format!("fee={}", opening.fee)]));
        lines.push(format!("parts={}", self.parts.len()));
        for part in &self.parts {
            lines.extend([format!("life={}", part.life), format!("left={}", part.left)]);
            if part.covered {
                lines.extend([format!("removal={}", part.removal), format!("inside={}", part.holders.len())]);
                lines.extend(part.holders.iter().map(|holder| format!("holder={}", holder + 1)));
            }
            for (k, price) in part.prices.iter().enumerate() {
                match part.pairs[k] {
                    true => lines.extend([format!("low={}", part.lows[k]), format!("high={price}")]),
                    false => lines.push(format!("price={price}")),
                }
            }
        }
        lines.join("\n") + "\n"
    }
}

/// The call, with an output of this length: "a new job text", with no `result` line. "After the log's own line faults comes result 10 if a
/// part had used more than its life by that step or between changes, then 11."
pub fn carry(job_text: &[u8], log_text: &[u8], output: usize) -> Reply {
    if output < LEAST_OUTPUT {
        return Reply::short_output();
    }
    let job = match read_job(job_text) {
        Ok(job) => job,
        Err(fault) => return Reply::fault(1, fault),
    };
    let Log { step, done, cost } = match read_log(&job, log_text) {
        Ok(log) => log,
        Err(fault) => return Reply::fault(2, fault),
    };
    for (at, (part, changes)) in job.parts.iter().zip(&done.changes).enumerate() {
        if let Some(due) = job.due_by(part, changes, step) {
            return Reply::new(10, &format!("part={}\ndue={due}\n", at + 1));
        }
    }
    // "A true cost (else 11)".
    let true_cost = job.cost(&done);
    if cost != true_cost {
        return Reply::new(11, &format!("cost={true_cost}\n"));
    }
    Reply { bytes: job.carried(step, &done).text().into_bytes(), ..Reply::default() }
}
