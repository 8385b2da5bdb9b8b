//! `whatif`: the plan of a changed job, what it costs beside the job as it is, and what the plan of before would now cost.

use crate::arguments::{Amount, WhatifOrder};
use crate::calls::{self, Reply};
use crate::costs::{self, Costs};
use crate::failure::{failure, status_of, Failure, USAGE};
use crate::files::{self, Input};
use crate::fronts::MOST;
use crate::json::Value;
use crate::lives::Late;
use crate::naming::Naming;
use crate::numbers::{grouped, joined};
use crate::standing::{self, Bounds};
use crate::texts::{self, Job, Plan};
use crate::verdicts::headed;
use crate::{faults, list, output, standard_output};

/// Plans the job as it is and as it would be, and says how they stand to each other.
pub fn run(order: &WhatifOrder) -> Result<u8, Failure> {
    let input = files::read(&order.job)?;
    if let Some(reply) = calls::job_fault(&input.bytes)? {
        return Err(faults::refusal(&reply, &input, None));
    }
    let given = order.plan.as_ref().map(|plan| files::read(plan)).transpose()?;
    let inputs: Vec<_> = [Some(&*order.job), order.plan.as_deref()].into_iter().flatten().collect();
    for path in order.output.iter().chain(&order.save) {
        files::not_among(path, &inputs)?;
        files::ready(path)?;
    }
    let naming = Naming::read(&order.naming)?;
    let made = Changed::of(&input, given, order, naming)?;
    if let Some(path) = &order.save {
        files::write(path, made.text.as_bytes())?;
    }
    if let Some((path, text)) = order.output.as_ref().zip(made.reply.plan_text()) {
        files::write(path, text)?;
    }
    let said = if order.json { Value::object(headed("whatif", made.json())).document() } else { made.words() };
    match order.output.iter().chain(&order.save).any(|path| files::is_standard(path)) {
        true => output::say(&said),
        false => standard_output::write(said.as_bytes())?,
    }
    Ok(status_of(made.reply.result))
}

/// What the plan of before is in the changed job.
enum Before {
    /// There was none.
    NoPlan,
    /// It keeps every life at this cost.
    Costs(u64),
    /// It stops at these steps, which are closed.
    Closed(Vec<u64>),
    /// It does not keep a part.
    Late(String),
}

/// A job as it would be, with what is known of both.
struct Changed {
    name: String,
    what: String,
    job: Job,
    text: String,
    naming: Naming,
    reply: Reply,
    own: Option<Bounds>,
    /// The plan of before by its name, and what it is now.
    plan_name: String,
    before: Before,
}

impl Changed {
    fn of(input: &Input, given: Option<Input>, order: &WhatifOrder, naming: Naming) -> Result<Changed, Failure> {
        let old = texts::job(&input.bytes);
        naming.check(&old)?;
        let (job, what) = changed(&old, order)?;
        let first = standing::searched(&input.bytes)?;
        let (plan_name, plan) = match given {
            Some(plan) => {
                let reply = calls::judge(&input.bytes, &plan.bytes)?;
                if reply.text != 0 {
                    return Err(faults::refusal(&reply, input, Some(&plan)));
                }
                (format!("plan {}", plan.name), Some(texts::plan(&plan.bytes)))
            }
            None => ("the plan of before".to_string(), first.plan_text().map(texts::plan)),
        };
        let text = job.text();
        let reply = standing::searched(text.as_bytes())?;
        if reply.text != 0 {
            return Err(faults::refusal(&reply, &Input { name: "the changed job".to_string(), bytes: text.into_bytes() }, None));
        }
        let before = plan.map_or(Ok(Before::NoPlan), |plan| now(&job, &text, &plan, &naming))?;
        let own = Bounds::of_reply(&first);
        Ok(Changed { name: input.name.clone(), what, job, text, naming, reply, own, plan_name, before })
    }

    fn plan(&self) -> Option<Plan> {
        self.reply.plan_text().map(texts::plan)
    }

    /// The new plan.
    fn headline(&self) -> String {
        let Some(plan) = self.plan().map(|plan| costs::in_words(&self.job, &plan, true)) else {
            return match self.reply.result {
                6 => "no plan would keep the lives".to_string(),
                _ => "no plan was found within a bounded walk".to_string(),
            };
        };
        match self.reply.result {
            0 => format!("the cheapest plan would cost {plan}; proved"),
            _ => format!("a plan would cost {plan}; no plan would cost less than {}", grouped(self.reply.value("floor").unwrap_or(0))),
        }
    }

    /// How that stands to the job as it is.
    fn difference(&self) -> Option<String> {
        match (self.own?, Bounds::of_reply(&self.reply)?) {
            (Bounds::Cheapest(old), Bounds::Cheapest(new)) if new > old => {
                Some(format!("that is {} more than as it is: {}", grouped(new - old), grouped(old)))
            }
            (Bounds::Cheapest(old), Bounds::Cheapest(new)) if new < old => {
                Some(format!("that is {} less than as it is: {}", grouped(old - new), grouped(old)))
            }
            (Bounds::Cheapest(old), Bounds::Cheapest(_)) => Some(format!("that is as it is: {}", grouped(old))),
            (Bounds::Cheapest(old), _) => Some(format!("as it is the cheapest plan costs {}", grouped(old))),
            (Bounds::Between { floor, best: Some(best) }, _) => {
                Some(format!("as it is the cheapest plan costs {} to {}", grouped(floor), grouped(best)))
            }
            (Bounds::Between { .. }, _) => None,
            (Bounds::NoPlan, _) => Some("as it is no plan keeps the lives".to_string()),
        }
    }

    /// What becomes of the plan of before.
    fn of_before(&self) -> Option<String> {
        match &self.before {
            Before::NoPlan => None,
            Before::Costs(cost) => Some(format!("{} would cost {}", self.plan_name, grouped(*cost))),
            Before::Closed(steps) if steps.len() == 1 => {
                Some(format!("{} stops at step {}, which would be closed", self.plan_name, joined(steps.clone())))
            }
            Before::Closed(steps) => Some(format!("{} stops at steps {}, which would be closed", self.plan_name, joined(steps.clone()))),
            Before::Late(words) => Some(format!("{} would not do: {words}", self.plan_name)),
        }
    }

    /// All of it for people.
    fn words(&self) -> String {
        let mut text = format!("{}: {}: {} ({})\n", self.name, self.what, self.headline(), self.reply.result);
        for words in [self.difference(), self.of_before()].into_iter().flatten() {
            text += &format!("    {words}\n");
        }
        text
    }

    /// The same for programs.
    fn json(&self) -> Vec<(&'static str, Value)> {
        let plan = self.plan();
        let cost = match &self.before {
            Before::Costs(cost) => Some(*cost),
            _ => None,
        };
        let closed = match &self.before {
            Before::Closed(steps) => steps.clone(),
            _ => Vec::new(),
        };
        let before =
            Value::object([("cost", Value::number(cost)), ("closed", Value::numbers(closed)), ("words", Value::maybe(self.of_before()))]);
        vec![
            ("job", Value::text(&self.name)),
            ("result", Value::Number(u64::from(self.reply.result))),
            ("words", Value::text(format!("{}: {}", self.what, self.headline()))),
            ("fault", Value::Null),
            ("as_it_is", self.own.map_or(Value::Null, |own| own.json())),
            ("bounds", Bounds::of_reply(&self.reply).map_or(Value::Null, |bounds| bounds.json())),
            ("costs", plan.as_ref().map_or(Value::Null, |plan| Costs::of(&self.job, plan, Some(plan.cost)).json())),
            ("before", before),
            ("stops", plan.map_or(Value::Null, |plan| list::stops_json(&self.job, &plan, &self.naming))),
            ("text", Value::maybe(self.reply.plan_text().map(|text| String::from_utf8_lossy(text).into_owned()))),
            ("job_text", Value::text(&self.text)),
        ]
    }
}

/// What a plan of the job of before is in the changed one, as the judge says.
fn now(job: &Job, text: &str, plan: &Plan, naming: &Naming) -> Result<Before, Failure> {
    let open = |step: u64| job.openings.iter().any(|opening| opening.step == step);
    let closed: Vec<u64> = plan.stops.iter().map(|stop| stop.step).filter(|step| !open(*step)).collect();
    if !closed.is_empty() {
        return Ok(Before::Closed(closed));
    }
    let reply = calls::judge(text.as_bytes(), plan.text().as_bytes())?;
    Ok(match (reply.value("part"), reply.value("due"), reply.value("cost")) {
        (Some(part), Some(due), _) => Before::Late(Late::named(job, plan, part, due).words(job, naming)),
        (_, _, Some(cost)) => Before::Costs(cost),
        _ => Before::NoPlan,
    })
}

/// The job as the words would have it, and that in words.
fn changed(old: &Job, order: &WhatifOrder) -> Result<(Job, String), Failure> {
    let mut job = old.clone();
    let mut words = Vec::new();
    let known = |part: u64| match part <= old.parts.len() as u64 {
        true => Ok(part as usize - 1),
        false => Err(failure(USAGE, format_args!("the job has {} parts, and no part {part}", old.parts.len()))),
    };
    if let Some(fee) = &order.fee {
        let held = put(fee, job.openings.iter_mut().map(|opening| &mut opening.fee), 0);
        words.push(format!("every fee {fee}{held}"));
    }
    for (part, left) in &order.lefts {
        let own = &mut job.parts[known(*part)?];
        if *left > own.life {
            return Err(failure(USAGE, format_args!("part {part} has a life of {}, and {left} can't be left of it", own.life)));
        }
        own.left = *left;
        words.push(format!("part {part} with {left} left"));
    }
    for (part, price) in &order.prices {
        let own = &mut job.parts[known(*part)?];
        let held = put(price, own.prices.iter_mut().chain(&mut own.lows), 1);
        words.push(format!("part {part}'s prices {price}{held}"));
    }
    for (first, last) in &order.closed {
        if *last > old.horizon {
            return Err(failure(USAGE, format_args!("the job has {} steps, and no step {last}", old.horizon)));
        }
        job = job.only_open(|step| !(*first..=*last).contains(&step));
        words.push(if first == last { format!("step {first} closed") } else { format!("steps {first} to {last} closed") });
    }
    match words.is_empty() {
        true => Err(failure(USAGE, "whatif needs a change: --fee, --left, --price or --close")),
        false => Ok((job, words.join(", "))),
    }
}

/// Puts an amount in place of each of these, from `least` to the most that a text may state; what is said where that holds one of them back.
fn put<'j>(amount: &Amount, all: impl Iterator<Item = &'j mut u64>, least: u64) -> String {
    let (mut low, mut high) = (false, false);
    for own in all {
        let wanted = amount.of(*own);
        let held = wanted.clamp(least as i64, MOST as i64);
        (low, high) = (low || held > wanted, high || held < wanted);
        *own = held as u64;
    }
    let low = if low { format!(", none below {least}") } else { String::new() };
    let high = if high { format!(", none above {}", grouped(MOST)) } else { String::new() };
    low + &high
}

impl Amount {
    /// The amount in place of this one.
    fn of(&self, own: u64) -> i64 {
        match *self {
            Amount::Just(amount) => amount as i64,
            Amount::More(more) => own as i64 + more,
            Amount::Percent(percent) => (own as i64 * (100 + percent) + 50).div_euclid(100),
        }
    }
}

impl std::fmt::Display for Amount {
    fn fmt(&self, f: &mut std::fmt::Formatter<'_>) -> std::fmt::Result {
        match self {
            Amount::Just(amount) => write!(f, "{}", grouped(*amount)),
            Amount::More(more) => write!(f, "{more:+}"),
            Amount::Percent(percent) => write!(f, "{percent:+} %"),
        }
    }
}
