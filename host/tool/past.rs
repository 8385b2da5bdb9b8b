//! A plan that goes on from what was done: both as one plan of the whole job, for drawings.

use crate::arguments::Pair;
use crate::calls;
use crate::carry::{shifted, Carried};
use crate::failure::{status_of, Failure};
use crate::faults;
use crate::files::{self, Input};
use crate::naming::Naming;
use crate::standing::Bounds;
use crate::texts::{self, Plan};
use crate::verdicts::{self, Judged};
use std::ffi::OsString;

/// What was done before a plan goes on: up to which step, and what it cost.
#[derive(Debug, Clone, Copy, PartialEq, Eq)]
pub struct Past {
    pub step: u64,
    pub spent: u64,
}

impl Past {
    /// What is known of the cheapest way to go on, as costs of the whole.
    fn with(self, bounds: Bounds) -> Bounds {
        match bounds {
            Bounds::Cheapest(least) => Bounds::Cheapest(self.spent + least),
            Bounds::Between { floor, best } => Bounds::Between { floor: self.spent + floor, best: best.map(|best| self.spent + best) },
            Bounds::NoPlan => Bounds::NoPlan,
        }
    }
}

/// Reads a job, its logs and a plan of the job that they leave, and judges what was done and the plan as one.
pub fn stand(pair: &Pair, logs: &[OsString], naming: &Naming) -> Result<Judged, Failure> {
    let mut carried = Carried::of(files::read(&pair.job)?, naming.clone());
    for log in logs {
        carried.go_on(&files::read(log)?)?;
        if carried.result() != 0 {
            let message = format!("{} ({})\n", carried.words(), carried.result());
            return Err(Failure { status: status_of(carried.result()), message, fault: None });
        }
    }
    let plan = files::read(&pair.plan)?;
    let reply = calls::judge(&carried.text.bytes, &plan.bytes)?;
    if reply.text != 0 {
        return Err(faults::refusal(&reply, &carried.text, Some(&plan)));
    }
    let past = Past { step: carried.step, spent: carried.done.cost };
    let rest = texts::plan(&plan.bytes);
    let stops = carried.done.stops.iter().cloned().chain(shifted(&rest, past.step)).collect();
    let whole = Plan { cost: past.spent + rest.cost, stops };
    let judged = verdicts::judge(&carried.whole_text, &Input { name: plan.name, bytes: whole.text().into_bytes() }, naming)?;
    let bounds = Bounds::of_job(&carried.text.bytes)?.map(|bounds| past.with(bounds));
    Ok(Judged { bounds, past: Some(past), ..judged })
}
