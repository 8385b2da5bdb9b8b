//! "The foreman's latest-time habit."

use super::calls::{two_texts, Reply};
use super::model::{Job, Part, Plan, Set};
use super::texts::printed_lines;

impl Job {
    /// "Foremen change each part at the last stop that still serves": after the change before, the last of the stops that is in time, until
    /// T + 1 is in time; none where no stop is. In running steps, and of stops at the same distance the last.
    pub fn latest_changes(&self, part: &Part, stops: &Set) -> Option<Set> {
        let mut changes = vec![false; stops.len()];
        let mut before = part.first_change();
        let mut from = 0;
        while self.distance(before, self.horizon + 1) > part.life {
            let serves = |k: &usize| stops[*k] && self.distance(before, self.openings[*k].step) <= part.life;
            let last = (from..stops.len()).rfind(serves)?;
            changes[last] = true;
            before = self.openings[last].step;
            from = last + 1;
        }
        Some(changes)
    }

    /// "All those stops, the changes"; none where "the stops can't keep some part".
    pub fn latest_plan(&self, stops: &Set) -> Option<Plan> {
        let changes = self.parts.iter().map(|part| self.latest_changes(part, stops)).collect::<Option<Vec<Set>>>()?;
        Some(Plan { stops: stops.clone(), changes })
    }
}

/// The call, with an output of this length. "A call takes a job and a plan text, of which only the stops count, and refuses faults in either
/// as the judge does. It answers 6 if the stops can't keep some part, else `result` 0 and the plan lines with all those stops, the changes
/// and the true cost."
pub fn latest(job_text: &[u8], plan_text: &[u8], output: usize) -> Reply {
    let (job, plan, _) = match two_texts(job_text, plan_text, output) {
        Ok(read) => read,
        Err(reply) => return reply,
    };
    match job.latest_plan(&plan.stops) {
        None => Reply::new(6, ""),
        Some(plan) => Reply::new(0, &printed_lines(&job, &plan)),
    }
}
