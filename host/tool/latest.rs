//! `latest`: the foreman's habit at given stops: each part changed at the last one that still serves. Why each change was made, whether other changes at
//! these stops cost less, and what the choice of stops costs.

use crate::arguments::LatestOrder;
use crate::calls::{self, Reply};
use crate::costs::Costs;
use crate::failure::{status_of, Failure, Fault};
use crate::files::{self, Input};
use crate::json::Value;
use crate::naming::Naming;
use crate::numbers::{counted, grouped};
use crate::standing::Bounds;
use crate::tables::Table;
use crate::texts::{self, Job, Plan};
use crate::verdicts::headed;
use crate::{faults, list, output, standard_output};

/// Changes the parts at the stops, writes the plan where it is to go, and says what it is.
pub fn run(order: &LatestOrder) -> Result<u8, Failure> {
    let job = files::read(&order.job)?;
    let stops = match (&order.plan, &order.stops) {
        (_, Some(steps)) => Input { name: "--stops".to_string(), bytes: stops_text(steps) },
        (Some(plan), None) => files::read(plan)?,
        (None, None) => Input { name: "--stops".to_string(), bytes: Vec::new() },
    };
    if let Some(path) = &order.output {
        let inputs: Vec<_> = [Some(&*order.job), order.plan.as_deref()].into_iter().flatten().collect();
        files::not_among(path, &inputs)?;
        files::ready(path)?;
    }
    let reply = calls::latest(&job.bytes, &stops.bytes)?;
    if reply.text != 0 || !matches!(reply.result, 0 | 6) {
        let refusal = faults::refusal(&reply, &job, Some(&stops));
        return Err(if order.stops.is_some() { in_steps(refusal) } else { refusal });
    }
    let naming = Naming::read(&order.naming)?;
    let habit = Habit::of(&job, &stops, reply, naming)?;
    let plan = habit.plan_text.as_deref().zip(order.output.as_ref());
    if let Some((text, path)) = plan {
        files::write(path, text)?;
    }
    let said = if order.json { Value::object(headed("latest", habit.json())).document() } else { habit.text() };
    match order.output.as_ref().is_some_and(|path| files::is_standard(path)) {
        true => output::say(&said),
        false => standard_output::write(said.as_bytes())?,
    }
    Ok(status_of(habit.result))
}

/// The plan text that has these stops and no change.
fn stops_text(steps: &[u64]) -> Vec<u8> {
    let stops: String = steps.iter().map(|step| format!("stop={step}\ncount=0\n")).collect();
    format!("cost=0\nstops={}\n{stops}", steps.len()).into_bytes()
}

/// A change and what forced it: the stop after it, none for the end, and by how many running steps that would have been too late.
struct Reason {
    step: u64,
    part: u64,
    next: Option<u64>,
    late: u64,
}

/// A refusal of stops that were given by their steps: the step is named, and no line, which nobody wrote.
fn in_steps(refusal: Failure) -> Failure {
    let Failure { status, message, fault } = refusal;
    let step = fault.as_ref().and_then(|fault| fault.shown.strip_prefix("stop="));
    let message = match (step, &fault) {
        (Some(step), Some(Fault { words, result, .. })) => {
            format!("--stops: {} ({result})\n", words.replacen("stop", &format!("step {step}"), 1))
        }
        _ => message,
    };
    Failure { status, message, fault }
}

/// What the habit makes of the stops.
struct Habit {
    name: String,
    job: Job,
    naming: Naming,
    result: u32,
    /// The habit's plan, and its text, where the stops serve.
    plan: Plan,
    plan_text: Option<Vec<u8>>,
    costs: Costs,
    /// The least cost of any changes at these stops, where it is known.
    least: Option<u64>,
    bounds: Option<Bounds>,
    /// Where the stops do not serve: the part that fails even if every part is changed at every stop, and the step that it was due by.
    hindrance: Option<(u64, u64)>,
}

impl Habit {
    fn of(input: &Input, stops: &Input, reply: Reply, naming: Naming) -> Result<Habit, Failure> {
        let job = texts::job(&input.bytes);
        naming.check(&job)?;
        let plan_text = reply.plan_text().map(<[u8]>::to_vec);
        let given = texts::plan(&stops.bytes);
        let plan = plan_text.as_deref().map_or(given.clone(), texts::plan);
        let costs = Costs::of(&job, &plan, reply.value("cost"));
        let (least, hindrance) = match plan_text {
            Some(_) => (least_at(&job, &plan, costs.fees)?, None),
            None => (None, hindrance(input, &job, &given)?),
        };
        let bounds = Bounds::of_job(&input.bytes)?;
        let name = input.name.clone();
        Ok(Habit { name, job, naming, result: reply.result, plan, plan_text, costs, least, bounds, hindrance })
    }

    /// Why each change was made, by step and part.
    fn reasons(&self) -> Vec<Reason> {
        let Habit { job, plan, .. } = self;
        let mut reasons = Vec::new();
        for part in 1..=job.parts.len() as u64 {
            for life in job.lives(plan, part).iter().filter(|life| life.to < job.end()) {
                let next = plan.stops.iter().map(|stop| stop.step).find(|step| *step > life.to);
                let used = life.before + job.runs(life.from, next.unwrap_or(job.end()));
                reasons.push(Reason { step: life.to, part, next, late: used.saturating_sub(life.life) });
            }
        }
        reasons.sort_by_key(|reason| (reason.step, reason.part));
        reasons
    }

    /// The first sentence.
    fn words(&self) -> String {
        let Habit { plan, costs, naming, .. } = self;
        match (self.result, self.hindrance) {
            (0, _) => {
                let (stops, changes) = (counted(plan.stops.len() as u64, "stop"), counted(plan.change_count(), "change"));
                let (span, sums) = (costs.span(), costs.sums());
                format!("changed as late as these stops allow, the parts cost {span} ({sums}), with {stops} and {changes}")
            }
            (_, Some((part, due))) => {
                let next = plan.stops.iter().map(|stop| stop.step).find(|step| *step > due);
                let after = next
                    .map_or("no stop comes after that".to_string(), |step| format!("the next stop after that is {}", naming.step(step)));
                format!("these stops can't keep part {}: it is due by step {}, and {after}", naming.part(part), naming.step(due))
            }
            _ => "these stops can't keep some part".to_string(),
        }
    }

    /// Whether other changes at these stops cost less.
    fn others(&self) -> Option<String> {
        let total = self.costs.total();
        match self.least.filter(|_| self.result == 0) {
            Some(least) if least < total => {
                Some(format!("other changes at these stops cost {} less: {}", grouped(total - least), grouped(least)))
            }
            Some(_) if self.never_rises() => Some(
                "no changes at these stops cost less: no price rises from stop to stop, and no part holds another (proved)".to_string(),
            ),
            Some(_) => Some("no changes at these stops cost less (proved)".to_string()),
            None if self.result == 0 => Some("whether other changes at these stops cost less would take a longer walk to tell".to_string()),
            None => None,
        }
    }

    /// What the choice of stops costs.
    fn choice(&self) -> Option<String> {
        let total = self.costs.total();
        match (self.result, self.bounds?) {
            (0, Bounds::Cheapest(least)) if least < total => {
                Some(format!("the cheapest plan costs {}, {} less", grouped(least), grouped(total - least)))
            }
            (0, bounds) => bounds.words(total),
            (_, Bounds::NoPlan) => Some("no other stops would do: no plan keeps the lives".to_string()),
            (_, Bounds::Cheapest(least)) => Some(format!("other stops would: the cheapest plan costs {}", grouped(least))),
            (_, Bounds::Between { best, .. }) => {
                best.map(|best| format!("other stops would: there is a plan that costs {}", grouped(best)))
            }
        }
    }

    /// Whether no part's price rises from one of the stops to the next, and no part has a holder.
    fn never_rises(&self) -> bool {
        let Habit { job, plan, .. } = self;
        let falls = |part: u64| {
            let prices: Vec<Option<u64>> = plan.stops.iter().map(|stop| job.price(part, stop.step)).collect();
            prices.windows(2).all(|pair| matches!(pair, [Some(own), Some(next)] if next <= own))
        };
        job.parts.iter().all(|part| part.holders.is_empty()) && (1..=job.parts.len() as u64).all(falls)
    }

    /// All of it for people.
    fn text(&self) -> String {
        let mut text = format!("{}: {} ({})\n", self.name, self.words(), self.result);
        for words in [self.others(), self.choice()].into_iter().flatten() {
            text += &format!("    {words}\n");
        }
        let reasons = self.reasons();
        if self.result != 0 || reasons.is_empty() {
            return text;
        }
        let row = |reason: &Reason| vec![self.naming.step(reason.step), self.naming.part(reason.part), self.why(reason)];
        let table = Table {
            title: "\nWhy each change was made".to_string(),
            heads: vec!["step", if self.naming.has_names() { "<part" } else { "part" }, "<why"],
            rows: reasons.iter().map(row).collect(),
        };
        text + table.text().trim_end() + "\n"
    }

    /// What forced a change.
    fn why(&self, reason: &Reason) -> String {
        let late = format!("{} too late", counted(reason.late, "running step"));
        match reason.next {
            Some(next) => format!("the next stop ({}) would be {late}", self.naming.step(next)),
            None => format!("the end would be {late}"),
        }
    }

    /// The same for programs.
    fn json(&self) -> Vec<(&'static str, Value)> {
        let served = self.result == 0;
        let reason = |reason: Reason| {
            Value::object([
                ("step", Value::Number(reason.step)),
                ("part", Value::Number(reason.part)),
                ("next", Value::number(reason.next)),
                ("late", Value::Number(reason.late)),
            ])
        };
        let reasons = if served { self.reasons() } else { Vec::new() };
        let failing = |(part, due)| Value::object([("part", Value::Number(part)), ("due", Value::Number(due))]);
        vec![
            ("job", Value::text(&self.name)),
            ("result", Value::Number(u64::from(self.result))),
            ("words", Value::text(self.words())),
            ("fault", Value::Null),
            ("costs", if served { self.costs.json() } else { Value::Null }),
            ("least", Value::number(self.least)),
            ("bounds", self.bounds.map_or(Value::Null, |bounds| bounds.json())),
            ("failing", self.hindrance.map_or(Value::Null, failing)),
            ("reasons", Value::list(reasons.into_iter().map(reason))),
            ("stops", if served { list::stops_json(&self.job, &self.plan, &self.naming) } else { Value::Null }),
            ("text", Value::maybe(self.plan_text.as_ref().map(|text| String::from_utf8_lossy(text).into_owned()))),
        ]
    }
}

/// The least cost of any changes at a plan's stops: that of the job that has these openings alone, at no fee; none where bounded walks don't find it.
fn least_at(job: &Job, plan: &Plan, fees: u64) -> Result<Option<u64>, Failure> {
    let mut alone = job.only_open(|step| plan.stops.iter().any(|stop| stop.step == step));
    alone.openings.iter_mut().for_each(|opening| opening.fee = 0);
    match Bounds::of_job(alone.text().as_bytes())? {
        Some(Bounds::Cheapest(prices)) => Ok(Some(fees + prices)),
        _ => Ok(None),
    }
}

/// Where the stops do not serve: the lowest part that fails even if every part is changed at every stop, as the judge says.
fn hindrance(input: &Input, job: &Job, given: &Plan) -> Result<Option<(u64, u64)>, Failure> {
    let parts: String = (1..=job.parts.len()).map(|part| format!("part={part}\n")).collect();
    let stops: String = given.stops.iter().map(|stop| format!("stop={}\ncount={}\n{parts}", stop.step, job.parts.len())).collect();
    let reply = calls::judge(&input.bytes, format!("cost=0\nstops={}\n{stops}", given.stops.len()).as_bytes())?;
    Ok(reply.value("part").zip(reply.value("due")))
}
