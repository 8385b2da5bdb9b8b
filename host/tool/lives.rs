//! The lives of a part under a plan, in running steps.

use crate::texts::{Job, Plan};

/// One life of a part: from a change (or from step 0 on, where the first is already under way) to the next, or to the end.
#[derive(Debug, Clone, PartialEq, Eq)]
pub struct Life {
    /// The step of the change that begins it; 0 for the first.
    pub from: u64,
    /// The step of the change that ends it; one past the horizon for the last.
    pub to: u64,
    /// What was used of it by `from`: nothing, but for the first.
    pub before: u64,
    /// What is used of it by `to`.
    pub used: u64,
    /// How long it may be.
    pub life: u64,
}

impl Life {
    /// How many running steps it goes on past its end.
    pub fn too_long(&self) -> u64 {
        self.used.saturating_sub(self.life)
    }
}

/// Where a part first goes past its life: due by which step, changed when if at all, how many running steps too late.
#[derive(Debug, Clone, Copy, PartialEq, Eq)]
pub struct Late {
    pub part: u64,
    pub due: u64,
    pub next: Option<u64>,
    pub steps: u64,
}

impl Late {
    /// A part that the judge calls late, with the step that it was due by.
    pub fn named(job: &Job, plan: &Plan, part: u64, due: u64) -> Late {
        let next = plan.changes(part).into_iter().find(|step| *step > due);
        Late { part, due, next, steps: job.runs(due, next.unwrap_or(job.end())) }
    }
}

impl Job {
    /// Where a part, counted from 1, first goes past its life under a plan, if it does.
    pub fn late(&self, plan: &Plan, part: u64) -> Option<Late> {
        let life = self.lives(plan, part).into_iter().find(|life| life.too_long() > 0)?;
        Some(Late::named(self, plan, part, self.due(&life)))
    }

    /// How many of the steps up to this one run.
    pub fn running(&self, step: u64) -> u64 {
        step.saturating_sub(self.idles.partition_point(|idle| *idle <= step) as u64)
    }

    /// How many steps run after the first up to and including the second.
    pub fn runs(&self, first: u64, second: u64) -> u64 {
        self.running(second).saturating_sub(self.running(first))
    }

    /// The step after the horizon, up to which every part has to last.
    pub fn end(&self) -> u64 {
        self.horizon + 1
    }

    /// The lives of a part, counted from 1, under a plan.
    pub fn lives(&self, plan: &Plan, part: u64) -> Vec<Life> {
        let Some(own) = (part as usize).checked_sub(1).and_then(|at| self.parts.get(at)) else {
            return Vec::new();
        };
        let mut from = 0;
        let mut before = own.life.saturating_sub(own.left);
        let mut lives = Vec::new();
        for to in plan.changes(part).into_iter().chain([self.end()]) {
            let used = before + self.runs(from, to);
            lives.push(Life { from, to, before, used, life: own.life });
            (from, before) = (to, 0);
        }
        lives
    }

    /// What is left of a part, counted from 1, after the last step under a plan.
    pub fn left_at_end(&self, plan: &Plan, part: u64) -> u64 {
        // The step after the horizon runs, and is counted in what is used.
        self.lives(plan, part).last().map_or(0, |life| (life.life + 1).saturating_sub(life.used))
    }

    /// The same of all parts together.
    pub fn all_left(&self, plan: &Plan) -> u64 {
        (1..=self.parts.len() as u64).map(|part| self.left_at_end(plan, part)).sum()
    }

    /// The last step at which a change would have kept this life; its last step where it is kept.
    pub fn due(&self, life: &Life) -> u64 {
        let within = |step: &u64| life.before + self.runs(life.from, *step) <= life.life;
        (life.from..=life.to).rev().find(within).unwrap_or(life.from)
    }
}
