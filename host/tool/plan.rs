//! `plan`: the cheapest plan of a job.

use crate::arguments::PlanOrder;
use crate::calls::{self, Reply, MOST_WALK};
use crate::costs::{self, Costs};
use crate::failure::{status_of, Failure, CUT};
use crate::files::{self, Input};
use crate::json::Value;
use crate::naming::Naming;
use crate::numbers::{grouped, percent, seconds};
use crate::standing::Bounds;
use crate::texts::{self, Job};
use crate::walks::{self, Search, Walked};
use crate::watch::Ended;
use crate::{faults, list, many, output, standard_output};
use std::ffi::OsStr;

/// Plans, writes the plan text and says what it is.
pub fn run(order: &PlanOrder) -> Result<u8, Failure> {
    if let Some(folder) = &order.into {
        return many::run(order, folder);
    }
    let input = files::read(&order.job)?;
    let standard = OsStr::new("-");
    // With JSON on standard output the plan text does not go there too: it stands in it.
    let path = order.output.as_deref().unwrap_or(standard);
    let path = Some(path).filter(|path| !(order.json && files::is_standard(path)));
    for path in path.into_iter().chain(order.json.then_some(standard)) {
        files::not_among(path, &[&order.job])?;
        files::ready(path)?;
    }
    if let Some(reply) = calls::job_fault(&input.bytes)? {
        return Err(faults::refusal(&reply, &input, None));
    }
    let walk = order.walk.unwrap_or(MOST_WALK);
    let (quiet, once, limit) = (order.quiet, order.once, order.limit);
    let walked = walks::plan(&input.bytes, &walks::Order { walk, search: order.search(), quiet, once, limit })?;
    let job = texts::job(&input.bytes);
    let found = Found { input: &input, job: &job, walk, walked: &walked };
    if let (Some(path), Some(text)) = (path, found.plan_text()) {
        files::write(path, text)?;
    }
    match order.json {
        true => standard_output::write(Value::object(found.json()).document().as_bytes())?,
        false => output::say(&format!("{}: {} ({})\n{}", input.name, found.words(), found.result(), found.note(path)?)),
    }
    Ok(found.status())
}

impl PlanOrder {
    /// Which calls are made.
    pub fn search(&self) -> Search {
        match self.count_nodes {
            true => Search::Counted,
            false => Search::Optimum,
        }
    }
}

/// A job and what was found of its plans.
struct Found<'f> {
    input: &'f Input,
    job: &'f Job,
    walk: u64,
    walked: &'f Walked,
}

impl Found<'_> {
    fn reply(&self) -> Option<&Reply> {
        self.walked.reply.as_ref()
    }

    /// The result: the library's, and 7 for a walk that was ended before it had one.
    fn result(&self) -> u32 {
        self.reply().map_or(7, |reply| reply.result)
    }

    /// The exit status by the result.
    fn status(&self) -> u8 {
        self.reply().map_or(CUT, |reply| status_of(reply.result))
    }

    fn plan_text(&self) -> Option<&[u8]> {
        self.reply()?.plan_text()
    }

    fn value(&self, key: &str) -> Option<u64> {
        self.reply()?.value(key)
    }

    /// The result in words.
    fn words(&self) -> String {
        let walked = self.walked();
        match (self.result(), self.plan_in_words()) {
            (0, Some(plan)) if self.walked.nodes().is_some() => format!("the cheapest plan costs {plan}; proved{walked}"),
            (0, Some(plan)) => format!("the plan costs {plan}; the cheapest possible (proved)"),
            (7, Some(plan)) => format!("{}; the best plan so far costs {plan}; {}{walked}", self.walked.why_short(self.walk), self.gap()),
            (7, None) => format!("{}, and no plan was found so far{walked}", self.walked.why_short(self.walk)),
            _ => "no plan keeps the lives".to_string(),
        }
    }

    /// How far it was walked: the nodes that were counted, or the walk number of the last finished walks where they were ended.
    fn walked(&self) -> String {
        match (self.walked.nodes(), self.result()) {
            (Some(nodes), 0) => format!(", {} nodes were walked", grouped(nodes)),
            (Some(nodes), _) => format!("; {} nodes were walked", grouped(nodes)),
            (None, 7) if self.walked.ended != Ended::ByItself && self.walked.walk > 0 => {
                format!("; walks of {} nodes were finished", grouped(self.walked.walk))
            }
            _ => String::new(),
        }
    }

    /// What could still be saved.
    fn gap(&self) -> String {
        let (cost, floor) = (self.value("cost").unwrap_or(0), self.value("floor").unwrap_or(0));
        let gap = cost.saturating_sub(floor);
        format!("at most {} {} could still be saved, as no plan costs less than {}", grouped(gap), percent(gap, cost), grouped(floor))
    }

    /// The printed plan's cost, stops and changes.
    fn plan_in_words(&self) -> Option<String> {
        Some(costs::in_words(self.job, &texts::plan(self.plan_text()?), true))
    }

    /// Further lines: how long the longest walk would take; where there is no plan, which part stands in its way and that no file was made.
    fn note(&self, path: Option<&OsStr>) -> Result<String, Failure> {
        let named = path.filter(|path| !files::is_standard(path) && self.plan_text().is_none());
        let unwritten = named.map_or(String::new(), |path| format!("    {} is not written\n", files::name_of(path)));
        match self.result() {
            6 => Ok(hindrance(self.input, self.job)? + &unwritten),
            7 => Ok(self.longest() + &unwritten),
            _ => Ok(unwritten),
        }
    }

    /// How long walks with the greatest walk number would take, where these were shorter.
    fn longest(&self) -> String {
        match self.walked.seconds_of(MOST_WALK) {
            Some(time) if self.walked.walk < MOST_WALK => {
                format!("    the greatest walk number, --walk {MOST_WALK}, takes about {} here at most\n", seconds(time))
            }
            Some(_) => "    this is the greatest walk number\n".to_string(),
            None => String::new(),
        }
    }

    /// What programs are told.
    fn json(&self) -> Vec<(&'static str, Value)> {
        let plan = self.plan_text().map(texts::plan);
        let costs = plan.as_ref().map(|plan| Costs::of(self.job, plan, Some(plan.cost)));
        let bounds = self.reply().and_then(Bounds::of_reply);
        vec![
            ("juzvarola", Value::text(env!("CARGO_PKG_VERSION"))),
            ("command", Value::text("plan")),
            ("job", Value::text(&self.input.name)),
            ("result", Value::Number(u64::from(self.result()))),
            ("words", Value::text(self.words())),
            ("fault", Value::Null),
            ("proved", Value::Bool(matches!(self.result(), 0 | 6))),
            ("ended", Value::text(self.walked.ended.name())),
            ("walk", Value::Number(self.walk)),
            ("nodes", Value::number(self.value("nodes"))),
            ("bounds", bounds.map_or(Value::Null, |bounds| bounds.json())),
            ("costs", costs.map_or(Value::Null, |costs| costs.json())),
            ("stops", plan.map_or(Value::Null, |plan| list::stops_json(self.job, &plan, &Naming::default()))),
            ("text", Value::maybe(self.plan_text().map(|text| String::from_utf8_lossy(text).into_owned()))),
        ]
    }
}

/// For a job with no plan: the lowest part that fails even if every part is changed at every opening, as the judge says.
fn hindrance(input: &Input, job: &Job) -> Result<String, Failure> {
    let parts: String = (1..=job.parts.len()).map(|part| format!("part={part}\n")).collect();
    let stops: String = job.openings.iter().map(|opening| format!("stop={}\ncount={}\n{parts}", opening.step, job.parts.len())).collect();
    let plan = format!("cost=0\nstops={}\n{stops}", job.openings.len());
    let reply = calls::judge(&input.bytes, plan.as_bytes())?;
    let (Some(part), Some(due)) = (reply.value("part"), reply.value("due")) else {
        return Ok(String::new());
    };
    let next = job.openings.iter().map(|opening| opening.step).find(|step| *step > due);
    let after = next.map_or("no opening comes after that".to_string(), |step| format!("the next opening after that is step {step}"));
    Ok(format!("    changed at every opening, part {part} has to be changed again by step {due} and can't be: {after}\n"))
}
