//! `carry`: carries on from a job by work logs, one after the other: what was done, what is left of each part's life, the job that is left, and what it
//! costs to go on.

use crate::arguments::CarryOrder;
use crate::calls::{self, Reply};
use crate::deviations::Followed;
use crate::failure::{failure, status_of, Failure, USAGE};
use crate::files::{self, Input};
use crate::json::Value;
use crate::naming::Naming;
use crate::numbers::{counted, grouped};
use crate::standing::{self, Bounds};
use crate::tables::Table;
use crate::texts::{self, Job, Plan, Stop};
use crate::verdicts::headed;
use crate::{costs, faults, list, output, standard_output};
use std::ffi::OsStr;

/// Carries on, writes the text of the job that is left and its plan where they are to go, and says what was done and what is left.
pub fn run(order: &CarryOrder) -> Result<u8, Failure> {
    let standard = OsStr::new("-");
    // With JSON on standard output the texts do not go there too: they stand in it.
    let apart = |path: &&OsStr| !(order.json && files::is_standard(path));
    let path = order.output.as_deref().or(order.plan.is_none().then_some(standard)).filter(apart);
    let plan_path = order.plan.as_deref().filter(apart);
    if path.zip(plan_path).is_some_and(|(path, plan)| path == plan) {
        return Err(failure(USAGE, "the job that is left and its plan can't both go to one file"));
    }
    ready(order, path.into_iter().chain(plan_path).chain(order.json.then_some(standard)))?;
    let mut carried = Carried::of(files::read(&order.job)?, Naming::read(&order.naming)?);
    for log in &order.logs {
        if carried.refused.is_none() {
            carried.go_on(&files::read(log)?)?;
        }
    }
    carried.naming.check(&carried.left)?;
    carried.look(order)?;
    if let Some(path) = path.filter(|_| carried.refused.is_none()) {
        files::write(path, &carried.text.bytes)?;
    }
    if let Some((path, text)) = plan_path.zip(carried.rest.as_ref().and_then(Reply::plan_text)) {
        files::write(path, text)?;
    }
    match order.json {
        true => standard_output::write(Value::object(headed("carry", carried.json())).document().as_bytes())?,
        false => output::say(&carried.words_and_tables()),
    }
    // A plan that was asked for and is not there is a verdict too.
    let rest = carried.rest.as_ref().filter(|_| carried.planned_on);
    Ok(status_of(carried.result()).max(rest.map_or(0, |rest| status_of(rest.result))))
}

/// Refuses an output that can't be made, or that is one of the inputs.
fn ready<'p>(order: &CarryOrder, outputs: impl Iterator<Item = &'p OsStr>) -> Result<(), Failure> {
    let inputs: Vec<_> = [&order.job].into_iter().chain(&order.logs).chain(&order.planned).map(|path| &**path).collect();
    for path in outputs {
        files::not_among(path, &inputs)?;
        files::ready(path)?;
    }
    Ok(())
}

/// A log that is refused: the result, and the words for it.
struct Refused {
    result: u32,
    words: String,
}

/// How soon a part has to be changed.
#[derive(Debug, Clone, Copy, PartialEq, Eq)]
enum Pressing {
    /// Not at the next opening, if at all.
    No,
    /// The next opening is the last that serves.
    Next,
    /// No opening serves.
    TooLate,
}

/// What the logs so far made of the job.
pub struct Carried {
    pub name: String,
    pub naming: Naming,
    /// The whole job, and its text.
    pub whole: Job,
    pub whole_text: Input,
    /// The step up to which the logs go, all together, and what was done in them.
    pub step: u64,
    pub done: Plan,
    /// The text of the job that is left, and what it says.
    pub text: Input,
    pub left: Job,
    /// The log that was refused, if one was.
    refused: Option<Refused>,
    /// The plan that was followed, if one was given, and the cheapest one of what is left as far as it is known.
    followed: Option<Followed>,
    rest: Option<Reply>,
    /// Whether the plan of what is left was asked for.
    planned_on: bool,
}

impl Carried {
    /// Nothing is done yet.
    pub fn of(text: Input, naming: Naming) -> Carried {
        let whole_text = Input { name: text.name.clone(), bytes: text.bytes.clone() };
        let (name, left) = (text.name.clone(), texts::job(&text.bytes));
        let (step, done, whole) = (0, Plan::default(), left.clone());
        let (refused, followed, rest, planned_on) = (None, None, None, false);
        Carried { name, naming, whole, whole_text, step, done, text, left, refused, followed, rest, planned_on }
    }

    /// Carries on by one more log, against the job that is left by those before; a text at fault is a failure, with its line.
    pub fn go_on(&mut self, log: &Input) -> Result<(), Failure> {
        let reply = calls::carry(&self.text.bytes, &log.bytes)?;
        let done = texts::plan(&log.bytes);
        match reply.result {
            0 => {
                self.done.stops.extend(shifted(&done, self.step));
                self.done.cost += done.cost;
                self.step += texts::pairs(&log.bytes).find(|(key, _)| *key == b"step").map_or(0, |(_, step)| step);
                self.left = texts::job(&reply.lines);
                self.text.bytes = reply.lines;
            }
            10 | 11 => self.refused = Some(Refused { result: reply.result, words: self.refusal(log, &reply, &done) }),
            _ => return Err(faults::log_refusal(&reply, &self.text, log)),
        }
        Ok(())
    }

    /// Looks at what is left: how the plan that was followed stands, and what the cheapest plan of it is.
    fn look(&mut self, order: &CarryOrder) -> Result<(), Failure> {
        if self.refused.is_some() {
            return Ok(());
        }
        self.rest = Some(standing::searched(&self.text.bytes)?);
        self.planned_on = order.plan.is_some();
        self.followed = order.planned.as_ref().map(|path| Followed::read(self, &files::read(path)?)).transpose()?;
        Ok(())
    }

    /// Why a log was refused, where its text has no fault.
    fn refusal(&self, log: &Input, reply: &Reply, done: &Plan) -> String {
        let value = |key: &str| reply.value(key).unwrap_or_default();
        if reply.result == 10 {
            let (part, due) = (self.naming.part(value("part")), self.rest_naming().step(value("due")));
            return format!("{}: part {part} had used more than its life: it was due by step {due}", log.name);
        }
        let (cost, stated) = (value("cost"), done.cost);
        let difference = match stated < cost {
            true => format!("{} too little", grouped(cost - stated)),
            false => format!("{} too much", grouped(stated - cost)),
        };
        format!("{}: what was done costs {}, and {} is stated: {difference}", log.name, grouped(cost), grouped(stated))
    }

    /// The result of the last log.
    pub fn result(&self) -> u32 {
        self.refused.as_ref().map_or(0, |refused| refused.result)
    }

    /// How the steps of the job that is left are called.
    fn rest_naming(&self) -> Naming {
        self.naming.after(self.step)
    }

    /// What is known of the cheapest plan of what is left.
    pub fn bounds(&self) -> Option<Bounds> {
        self.rest.as_ref().and_then(Bounds::of_reply)
    }

    /// The first sentence.
    pub fn words(&self) -> String {
        if let Some(refused) = &self.refused {
            return refused.words.clone();
        }
        let done = format!("{} and {}", counted(self.done.stops.len() as u64, "stop"), counted(self.done.change_count(), "change"));
        let left = format!("{} and {}", counted(self.left.horizon, "step"), counted(self.left.openings.len() as u64, "opening"));
        let step = self.naming.step(self.step);
        format!("{}: up to step {step}, {} was spent on {done}; {left} are left", self.name, grouped(self.done.cost))
    }

    /// What going on costs, where that is not said of the plan that was followed.
    fn further(&self) -> Option<String> {
        let known = self.followed.as_ref().and_then(Followed::remain);
        if !self.planned_on && known.is_some_and(|known| self.bounds() == Some(Bounds::Cheapest(known))) {
            return None;
        }
        let plan = self.rest.as_ref().and_then(Reply::plan_text).map(texts::plan);
        let cost = plan.map(|plan| costs::in_words(&self.left, &plan, self.planned_on));
        Some(match (self.bounds()?, cost) {
            (Bounds::Cheapest(_), Some(cost)) => format!("the cheapest plan of what is left costs {cost}; proved"),
            (Bounds::Between { floor, .. }, Some(cost)) => {
                format!("a plan of what is left costs {cost}; none costs less than {}", grouped(floor))
            }
            (Bounds::Between { floor, .. }, None) => format!("no plan of what is left costs less than {}", grouped(floor)),
            _ => "no plan keeps the lives in what is left".to_string(),
        })
    }

    /// The step by which a part, counted from 1, has to be changed; none where it lasts to the end.
    fn due(&self, part: u64) -> Option<u64> {
        let lives = self.left.lives(&Plan::default(), part);
        lives.first().filter(|life| life.too_long() > 0).map(|life| self.left.due(life))
    }

    /// How soon that is.
    fn pressing(&self, part: u64) -> Pressing {
        let Some(due) = self.due(part) else { return Pressing::No };
        match self.left.openings.iter().filter(|opening| opening.step <= due).count() {
            0 => Pressing::TooLate,
            1 => Pressing::Next,
            _ => Pressing::No,
        }
    }

    /// When a part has to be changed.
    fn change(&self, part: u64) -> String {
        let step = |due| self.rest_naming().step(due);
        match (self.due(part), self.pressing(part)) {
            (None, _) => "lasts to the end".to_string(),
            (Some(due), Pressing::No) => format!("by step {}", step(due)),
            (Some(due), Pressing::Next) => format!("by step {}, at the next opening", step(due)),
            (Some(due), Pressing::TooLate) => format!("by step {}, and there is no opening till then: no plan", step(due)),
        }
    }

    /// What is left of each part's life, with a mark where it is short.
    fn lives(&self) -> Table {
        let row = |(at, own): (usize, &texts::Part)| {
            let part = at as u64 + 1;
            let mark = if self.pressing(part) == Pressing::No { "" } else { "!" };
            vec![self.naming.part(part), own.life.to_string(), own.left.to_string(), mark.to_string(), self.change(part)]
        };
        Table {
            title: "What is left of each part's life".to_string(),
            heads: vec![if self.naming.has_names() { "<part" } else { "part" }, "life", "left", "<", "<change"],
            rows: self.left.parts.iter().enumerate().map(row).collect(),
        }
    }

    /// What was done, stop by stop.
    fn done_table(&self) -> Option<Table> {
        let (job, naming) = (&self.whole, &self.naming);
        let mut rows = Vec::new();
        for stop in &self.done.stops {
            let cost = job.fee(stop.step) + costs::prices(job, stop) + costs::removals(job, stop);
            rows.push(vec![naming.step(stop.step), grouped(cost), naming.parts(stop.parts.iter().copied())]);
        }
        let title = "What was done: parts changed".to_string();
        (!rows.is_empty()).then(|| Table { title, heads: vec!["step", "cost", "<parts"], rows })
    }

    /// All of it for people.
    fn words_and_tables(&self) -> String {
        let mut words = format!("{} ({})\n", self.words(), self.result());
        if self.refused.is_some() {
            return words;
        }
        let followed = self.followed.iter().flat_map(|followed| followed.sentences(self));
        for sentence in followed.chain(self.further()) {
            words += &format!("    {sentence}\n");
        }
        let deviations = self.followed.as_ref().and_then(|followed| followed.table(self));
        let tables: String = self.done_table().into_iter().chain(deviations).chain([self.lives()]).map(|table| table.text()).collect();
        format!("{words}\n{}\n", tables.trim_end())
    }

    /// A part for programs.
    fn part_json(&self, part: u64, own: &texts::Part) -> Value {
        let due = self.due(part);
        Value::object([
            ("part", Value::Number(part)),
            ("name", Value::maybe(self.naming.name(part))),
            ("life", Value::Number(own.life)),
            ("left", Value::Number(own.left)),
            ("due", Value::number(due)),
            ("due_date", Value::maybe(due.and_then(|due| self.rest_naming().date(due)))),
            ("opening", Value::Bool(self.pressing(part) != Pressing::TooLate)),
            ("short", Value::Bool(self.pressing(part) != Pressing::No)),
        ])
    }

    /// The plan of what is left for programs.
    fn rest_json(&self) -> Value {
        let Some(text) = self.rest.as_ref().filter(|_| self.planned_on).and_then(Reply::plan_text) else { return Value::Null };
        let plan = texts::plan(text);
        Value::object([
            ("costs", costs::Costs::of(&self.left, &plan, Some(plan.cost)).json()),
            ("stops", list::stops_json(&self.left, &plan, &self.rest_naming())),
            ("text", Value::text(String::from_utf8_lossy(text))),
        ])
    }

    /// The same for programs.
    fn json(&self) -> Vec<(&'static str, Value)> {
        let served = self.refused.is_none();
        let parts = self.left.parts.iter().enumerate().map(|(at, own)| self.part_json(at as u64 + 1, own));
        vec![
            ("job", Value::text(&self.name)),
            ("result", Value::Number(u64::from(self.result()))),
            ("words", Value::text(self.words())),
            ("fault", Value::Null),
            ("step", Value::Number(self.step)),
            ("cost", Value::Number(self.done.cost)),
            ("stops", Value::Number(self.done.stops.len() as u64)),
            ("changes", Value::Number(self.done.change_count())),
            ("parts", if served { Value::list(parts) } else { Value::Null }),
            ("text", Value::maybe(served.then(|| String::from_utf8_lossy(&self.text.bytes).into_owned()))),
            ("bounds", self.bounds().map_or(Value::Null, |bounds| bounds.json())),
            ("followed", self.followed.as_ref().map_or(Value::Null, |followed| followed.json(self))),
            ("plan", self.rest_json()),
        ]
    }
}

/// The stops of a plan, so many steps later.
pub fn shifted(plan: &Plan, steps: u64) -> impl Iterator<Item = Stop> + '_ {
    plan.stops.iter().map(move |stop| Stop { step: stop.step + steps, parts: stop.parts.clone() })
}
