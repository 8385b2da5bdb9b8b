//! The judge's verdict on a plan, in words.

use crate::arguments::Pair;
use crate::calls::{self, Reply};
use crate::costs::Costs;
use crate::failure::{failure, Failure, SOFTWARE};
use crate::faults;
use crate::files::{self, Input};
use crate::json::Value;
use crate::lives::Late;
use crate::naming::Naming;
use crate::numbers::{counted, grouped};
use crate::past::Past;
use crate::standing::Bounds;
use crate::texts::{self, Job, Plan};
use std::ffi::OsStr;

/// An accepted job and plan with the judge's verdict on them.
pub struct Judged {
    pub job_name: String,
    pub plan_name: String,
    pub job: Job,
    pub plan: Plan,
    pub result: u32,
    /// The verdict in words, without its number.
    pub words: String,
    pub costs: Costs,
    /// What is known of the cheapest plan; none where it was not asked for.
    pub bounds: Option<Bounds>,
    /// How steps and parts are called.
    pub naming: Naming,
    /// What of the plan was done already, where it goes on from work logs.
    pub past: Option<Past>,
}

impl Judged {
    /// The verdict as it is said to people.
    pub fn message(&self) -> String {
        format!("{}: {} ({})\n", self.plan_name, self.sentence(), self.result)
    }

    /// The verdict, and how the plan stands to the cheapest one where that was asked and the plan may be used.
    pub fn sentence(&self) -> String {
        match self.standing() {
            Some(standing) => format!("{}; {standing}", self.words),
            None => self.words.clone(),
        }
    }

    /// How the plan stands to the cheapest one: by its true cost, and only if it keeps every life.
    pub fn standing(&self) -> Option<String> {
        let words = self.bounds.filter(|_| matches!(self.result, 0 | 11))?.words(self.costs.total())?;
        Some(if self.past.is_some() { format!("to go on so is {words}") } else { words })
    }

    /// The floor, where the cheapest plan is not known.
    pub fn floor(&self) -> Option<u64> {
        self.bounds?.floor()
    }

    /// Every part that is not kept: where it first fails.
    pub fn failing(&self) -> Vec<Late> {
        (1..=self.job.parts.len() as u64).filter_map(|part| self.job.late(&self.plan, part)).collect()
    }

    /// What programs are told of the verdict.
    pub fn json(&self) -> Vec<(&'static str, Value)> {
        vec![
            ("job", Value::text(&self.job_name)),
            ("plan", Value::text(&self.plan_name)),
            ("result", Value::Number(u64::from(self.result))),
            ("words", Value::text(self.sentence())),
            ("fault", Value::Null),
            ("kept", Value::Bool(self.result != 10)),
            ("stated", Value::Number(self.plan.cost)),
            ("costs", self.costs.json()),
            ("failing", Value::list(self.failing().iter().map(|late| late.json(&self.naming)))),
        ]
    }
}

/// Reads both texts and judges.
pub fn judge_files(pair: &Pair, naming: &Naming) -> Result<Judged, Failure> {
    let job = files::read(&pair.job)?;
    judge_plan(&job, &pair.plan, naming)
}

/// Reads both texts, judges, and asks how the plan stands to the cheapest one.
pub fn stand_files(pair: &Pair, naming: &Naming) -> Result<Judged, Failure> {
    let job = files::read(&pair.job)?;
    let judged = judge_plan(&job, &pair.plan, naming)?;
    Ok(Judged { bounds: Bounds::of_job(&job.bytes)?, ..judged })
}

/// Reads a plan and judges it.
pub fn judge_plan(job: &Input, plan: &OsStr, naming: &Naming) -> Result<Judged, Failure> {
    judge(job, &files::read(plan)?, naming)
}

/// Judges a plan of a job; a text at fault is a failure, with its line.
pub fn judge(job_text: &Input, plan_text: &Input, naming: &Naming) -> Result<Judged, Failure> {
    let reply = calls::judge(&job_text.bytes, &plan_text.bytes)?;
    if reply.text != 0 || !matches!(reply.result, 0 | 10 | 11) {
        return Err(faults::refusal(&reply, job_text, Some(plan_text)));
    }
    let (job, plan) = (texts::job(&job_text.bytes), texts::plan(&plan_text.bytes));
    naming.check(&job)?;
    let costs = Costs::of(&job, &plan, reply.value("cost"));
    let words = words(&reply, &job, &plan, &costs, naming).ok_or_else(|| failure(SOFTWARE, "the judge's answer is not complete"))?;
    let (job_name, plan_name) = (job_text.name.clone(), plan_text.name.clone());
    Ok(Judged { job_name, plan_name, job, plan, result: reply.result, words, costs, bounds: None, naming: naming.clone(), past: None })
}

/// The verdict in words: 0, 10 or 11.
fn words(reply: &Reply, job: &Job, plan: &Plan, costs: &Costs, naming: &Naming) -> Option<String> {
    match reply.result {
        10 => Some(Late::named(job, plan, reply.value("part")?, reply.value("due")?).words(job, naming)),
        0 => Some(format!("every part's life is kept and the cost is true: {}", costs.span())),
        _ => {
            let cost = reply.value("cost")?;
            let difference = if plan.cost < cost {
                format!("{} too little", grouped(cost - plan.cost))
            } else {
                format!("{} too much", grouped(plan.cost - cost))
            };
            Some(format!("every part's life is kept, but the plan costs {} and states {}: {difference}", grouped(cost), grouped(plan.cost)))
        }
    }
}

impl Late {
    /// A part that is not kept: due when, changed when, how much too late.
    pub fn words(&self, job: &Job, naming: &Naming) -> String {
        let late = format!("{} too late", counted(self.steps, "running step"));
        let due = format!("part {} is not kept: it is due by step {}", naming.part(self.part), naming.step(self.due));
        match self.next {
            Some(next) => format!("{due} and changed only at step {}, {late}", naming.step(next)),
            None => format!("{due} and not changed any more; at the end, after step {}, that is {late}", naming.step(job.horizon)),
        }
    }

    /// The same for programs.
    pub fn json(&self, naming: &Naming) -> Value {
        Value::object([
            ("part", Value::Number(self.part)),
            ("name", Value::maybe(naming.name(self.part))),
            ("due", Value::Number(self.due)),
            ("due_date", Value::maybe(naming.date(self.due))),
            ("next", Value::number(self.next)),
            ("late", Value::Number(self.steps)),
        ])
    }
}

/// Members that every answer to a program begins with, before its own.
pub fn headed(command: &'static str, members: Vec<(&'static str, Value)>) -> Vec<(&'static str, Value)> {
    let head = [("juzvarola", Value::text(env!("CARGO_PKG_VERSION"))), ("command", Value::text(command))];
    head.into_iter().chain(members).collect()
}
