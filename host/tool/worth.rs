//! `worth`: what one step more or less of each part's life changes in the least cost.

use crate::arguments::WorthOrder;
use crate::calls;
use crate::failure::{status_of, Failure};
use crate::json::Value;
use crate::naming::Naming;
use crate::numbers::{counted, grouped, signed};
use crate::standing::Bounds;
use crate::tables::Table;
use crate::texts::{self, Job};
use crate::verdicts::headed;
use crate::{faults, files, standard_output};

/// The longest life that a text may state.
const LONGEST: u64 = 1000;

/// Plans the job as it is and with each part's life a step shorter and a step longer, and says what changes.
pub fn run(order: &WorthOrder) -> Result<u8, Failure> {
    let input = files::read(&order.job)?;
    if let Some(reply) = calls::job_fault(&input.bytes)? {
        return Err(faults::refusal(&reply, &input, None));
    }
    let job = texts::job(&input.bytes);
    let naming = Naming::read(&order.naming)?;
    naming.check(&job)?;
    let worth = Worth::of(input.name, job, &input.bytes, naming)?;
    let text = if order.json { Value::object(headed("worth", worth.json())).document() } else { worth.text() };
    standard_output::write(text.as_bytes())?;
    Ok(status_of(worth.result()))
}

/// The least cost of a job as it is, and with each part's life a step shorter and a step longer; none where a life can't be.
struct Worth {
    name: String,
    job: Job,
    naming: Naming,
    own: Bounds,
    parts: Vec<[Option<Bounds>; 2]>,
}

/// What is known of a job's least cost: proved, or as far as a bounded walk tells.
fn least(job: &Job) -> Result<Option<Bounds>, Failure> {
    Bounds::of_job(job.text().as_bytes())
}

/// The job with this part's life of another length. What is left of the one that is in stays, or is as much as the life.
fn with_life(job: &Job, at: usize, life: u64) -> Job {
    let mut other = job.clone();
    let part = &mut other.parts[at];
    (part.life, part.left) = (life, part.left.min(life));
    other
}

impl Worth {
    fn of(name: String, job: Job, text: &[u8], naming: Naming) -> Result<Worth, Failure> {
        let own = Bounds::of_job(text)?.unwrap_or(Bounds::NoPlan);
        let mut parts = Vec::new();
        for (at, part) in job.parts.iter().enumerate() {
            let shorter = if part.life > 1 { least(&with_life(&job, at, part.life - 1))? } else { None };
            let longer = if part.life < LONGEST { least(&with_life(&job, at, part.life + 1))? } else { None };
            parts.push([shorter, longer]);
        }
        Ok(Worth { name, job, naming, own, parts })
    }

    /// 6 where no plan keeps the lives, 7 where the cheapest plan is not known.
    fn result(&self) -> u32 {
        match self.own {
            Bounds::Cheapest(_) => 0,
            Bounds::Between { .. } => 7,
            Bounds::NoPlan => 6,
        }
    }

    /// The first sentence.
    fn words(&self) -> String {
        let parts = counted(self.parts.len() as u64, "part");
        match self.own {
            Bounds::Cheapest(least) => {
                format!("the cheapest plan costs {} (proved); what a step of each of {parts} is worth", grouped(least))
            }
            Bounds::Between { floor, best: Some(best) } => {
                format!(
                    "the cheapest plan costs {} to {}; what a step of each of {parts} is worth, as far as it is known",
                    grouped(floor),
                    grouped(best)
                )
            }
            Bounds::Between { floor, best: None } => {
                format!(
                    "no plan is known, and none costs less than {}; what a step of each of {parts} is worth, as far as it is known",
                    grouped(floor)
                )
            }
            Bounds::NoPlan => "no plan keeps the lives; what a step of each part would change".to_string(),
        }
    }

    /// The table for people.
    fn text(&self) -> String {
        let row = |(at, bounds): (usize, &[Option<Bounds>; 2])| {
            let [shorter, longer] = bounds.map(|bounds| bounds.map_or("-".to_string(), |bounds| self.difference(&bounds)));
            vec![self.naming.part(at as u64 + 1), self.job.parts[at].life.to_string(), shorter, longer]
        };
        let heads = vec![if self.naming.has_names() { "<part" } else { "part" }, "life", "a step less", "a step more"];
        let table = Table { title: String::new(), heads, rows: self.parts.iter().enumerate().map(row).collect() };
        format!("{}: {} ({})\n{}\n", self.name, self.words(), self.result(), table.text().trim_end())
    }

    /// By how much the least cost is another: a number, or from one to another where it is not known.
    fn difference(&self, other: &Bounds) -> String {
        let (Some((low, high)), Some((least, most))) = (ends(&self.own), ends(other)) else {
            return match (self.own, other) {
                (_, Bounds::NoPlan) => "no plan".to_string(),
                (Bounds::NoPlan, Bounds::Cheapest(least)) => format!("a plan for {}", grouped(*least)),
                (Bounds::NoPlan, _) => "a plan".to_string(),
                _ => "not known".to_string(),
            };
        };
        match least == most && low == high {
            true => signed(low, least),
            false => format!("{} to {}", signed(high, least), signed(low, most)),
        }
    }

    /// The same for programs.
    fn json(&self) -> Vec<(&'static str, Value)> {
        let known = |bounds: &Option<Bounds>| bounds.map_or(Value::Null, |bounds| bounds.json());
        let part = |(at, [shorter, longer]): (usize, &[Option<Bounds>; 2])| {
            Value::object([
                ("part", Value::Number(at as u64 + 1)),
                ("name", Value::maybe(self.naming.name(at as u64 + 1))),
                ("life", Value::Number(self.job.parts[at].life)),
                ("shorter", known(shorter)),
                ("longer", known(longer)),
            ])
        };
        vec![
            ("job", Value::text(&self.name)),
            ("result", Value::Number(u64::from(self.result()))),
            ("words", Value::text(self.words())),
            ("fault", Value::Null),
            ("bounds", self.own.json()),
            ("parts", Value::list(self.parts.iter().enumerate().map(part))),
        ]
    }
}

/// The least and the most that the least cost can be, where a plan is known.
fn ends(bounds: &Bounds) -> Option<(u64, u64)> {
    match *bounds {
        Bounds::Cheapest(least) => Some((least, least)),
        Bounds::Between { floor, best } => best.map(|best| (floor, best)),
        Bounds::NoPlan => None,
    }
}
