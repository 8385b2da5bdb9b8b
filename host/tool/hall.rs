//! `hall`: the cheapest plans of lines that pay one crew, beside those of each line planned alone.

use crate::arguments::HallOrder;
use crate::calls::{self, Reply};
use crate::costs::Costs;
use crate::failure::{failure, reason, status_of, Failure, CANT_CREATE, USAGE};
use crate::files::{self, Input};
use crate::halls::{self, Hall};
use crate::json::Value;
use crate::naming::Naming;
use crate::numbers::{counted, grouped, percent};
use crate::standing;
use crate::tables::Table;
use crate::texts::{self, Plan};
use crate::verdicts::{self, headed, Judged};
use crate::walks::{self, Search, Walked};
use crate::{drawing, faults, list, output, standard_output};
use std::ffi::OsStr;
use std::path::Path;

/// The most that a fee may be.
const MOST_FEE: u64 = 1_000_000;

/// Plans the hall, writes the lines' plans and the picture where they are to go, and says what the hall costs and what planning together saves.
pub fn run(order: &HallOrder) -> Result<u8, Failure> {
    if let Some(path) = order.output.as_deref() {
        files::not_among(path, &[&order.hall])?;
        files::ready(path)?;
        if !(files::is_standard(path) || files::name_of(path).to_lowercase().ends_with(".svg")) {
            return Err(failure(
                USAGE,
                format_args!("{} does not end in .svg; the lines' plans go to --into FOLDER", files::name_of(path)),
            ));
        }
    }
    let input = files::read(&order.hall)?;
    if let Some(reply) = calls::hall_fault(&input.bytes)? {
        return Err(faults::hall_refusal(&reply, &input));
    }
    let planned = Planned::of(&input, order)?;
    if let Some(folder) = order.into.as_ref().filter(|_| !planned.lines.is_empty()) {
        planned.write(folder)?;
    }
    let picture = order.output.as_deref().filter(|_| !planned.lines.is_empty());
    if let Some(path) = picture {
        files::write(path, drawing::hall(&planned).as_bytes())?;
    }
    let unwritten = order.output.iter().chain(&order.into).filter(|_| planned.lines.is_empty());
    let unwritten: String = unwritten.map(|path| format!("    {} is not written\n", files::name_of(path))).collect();
    let said = if order.json { Value::object(headed("hall", planned.json())).document() } else { planned.text() + &unwritten };
    match picture.is_some_and(files::is_standard) {
        true => output::say(&said),
        false => standard_output::write(said.as_bytes())?,
    }
    Ok(status_of(planned.result()))
}

/// A hall with what was found of it.
pub struct Planned {
    pub name: String,
    pub hall: Hall,
    pub naming: Naming,
    walked: Walked,
    walk: u64,
    /// Each line's plan, as the judge weighs it; none where no plans were found.
    pub lines: Vec<Judged>,
    /// Each line's plan where it is planned alone, paying its own calls; none where some line has none that was found.
    pub alone: Vec<Plan>,
    /// Whether each of these is proved to be the cheapest.
    alone_proved: bool,
}

impl Planned {
    /// Plans each line alone, which is soon done, and then all together.
    fn of(input: &Input, order: &HallOrder) -> Result<Planned, Failure> {
        let (hall, naming) = (halls::hall(&input.bytes), Naming::read(&order.naming)?);
        let (alone, alone_proved) = alone(&hall)?;
        let (walk, quiet, limit) = (order.walk, order.quiet, order.limit);
        let walked = walks::plan(&input.bytes, &walks::Order { walk, search: Search::Hall, quiet, once: false, limit })?;
        let mut lines = Vec::new();
        let plans = walked.reply.as_ref().map_or(Vec::new(), plan_texts);
        for (at, text) in plans.into_iter().enumerate().filter(|(at, _)| *at < hall.lines.len()) {
            let name = |what: &str| format!("{what} of line {}", at + 1);
            let job = Input { name: name("job"), bytes: hall.lines[at].1.clone() };
            lines.push(verdicts::judge(&job, &Input { name: name("plan"), bytes: text }, &naming)?);
        }
        Ok(Planned { name: input.name.clone(), hall, naming, walked, walk, lines, alone, alone_proved })
    }

    /// The result: the library's, and 7 for a walk that was ended before it had one.
    pub fn result(&self) -> u32 {
        self.walked.reply.as_ref().map_or(7, |reply| reply.result)
    }

    /// The value of a line of the answer.
    pub fn value(&self, key: &str) -> Option<u64> {
        self.walked.reply.as_ref()?.value(key)
    }

    /// The steps at which the crew is called.
    pub fn calls(&self) -> Vec<u64> {
        halls::steps(self.lines.iter().map(|line| &line.plan))
    }

    /// The steps at which it would be called if each line were planned alone.
    pub fn calls_alone(&self) -> Vec<u64> {
        halls::steps(&self.alone)
    }

    /// What the hall costs, calls included.
    pub fn cost(&self) -> Option<u64> {
        self.value("cost")
    }

    /// What it would cost if each line were planned alone, with a call wherever some line stops.
    pub fn cost_alone(&self) -> Option<u64> {
        let plans = self.alone.iter().map(|plan| plan.cost).sum::<u64>();
        (!self.alone.is_empty()).then(|| plans + self.hall.call * self.calls_alone().len() as u64)
    }

    /// The first sentence.
    fn words(&self) -> String {
        let nodes = self.walked.nodes().map_or(String::new(), |nodes| format!("{} nodes were walked", grouped(nodes)));
        let (floor, short) = (self.value("floor"), self.walked.why_short(self.walk));
        match (self.result(), self.cost()) {
            (0, Some(cost)) => format!("the hall's cheapest plans cost {}, with {}; proved, {nodes}", grouped(cost), self.calls_in_words()),
            (7, Some(cost)) => {
                let gap = cost.saturating_sub(floor.unwrap_or(0));
                let saved = format!("at most {} {} could still be saved", grouped(gap), percent(gap, cost));
                format!("{short}; the best plans so far cost {}, with {}; {saved}; {nodes}", grouped(cost), self.calls_in_words())
            }
            (7, None) => {
                let known = floor.map_or(String::new(), |floor| format!("; none cost less than {}; {nodes}", grouped(floor)));
                format!("{short}, and no plans were found so far{known}")
            }
            _ => "some line has no plan that keeps its parts' lives".to_string(),
        }
    }

    /// The calls and what they cost.
    fn calls_in_words(&self) -> String {
        let calls = self.calls().len() as u64;
        format!("{} of the crew for {}", counted(calls, "call"), grouped(calls * self.hall.call))
    }

    /// What planning each line alone would cost, and what is saved.
    fn saving(&self) -> Option<String> {
        let alone = self.cost_alone()?;
        let about = if self.alone_proved { "" } else { ", as far as that was searched" };
        let calls = counted(self.calls_alone().len() as u64, "call");
        let words = format!("each line planned alone, with its calls, they would cost {} with {calls}{about}", grouped(alone));
        Some(match self.cost() {
            Some(cost) if cost < alone => format!("{words}: {} {} saved", grouped(alone - cost), percent(alone - cost, alone)),
            Some(cost) if cost == alone => format!("{words}: nothing saved"),
            Some(cost) => format!("{words}: {} less", grouped(cost - alone)),
            None => words,
        })
    }

    /// The calls of the crew by line: which parts each changes.
    fn call_table(&self) -> Table {
        let calls = self.calls();
        let mut rows = Vec::new();
        for (at, step) in calls.iter().enumerate() {
            let cells = self.lines.iter().map(|line| halls::parts_at(&line.plan, *step).unwrap_or("-".to_string()));
            rows.push([(at + 1).to_string(), self.naming.step(*step)].into_iter().chain(cells).collect());
        }
        const HEADS: [&str; 4] = ["<line 1", "<line 2", "<line 3", "<line 4"];
        let heads = ["call", "step"].into_iter().chain(HEADS.into_iter().take(self.lines.len())).collect();
        Table { title: "Calls of the crew: parts changed".to_string(), heads, rows }
    }

    /// What each line costs, and what it would cost alone.
    fn line_table(&self) -> Table {
        let own = |plan: Option<&Plan>, of: &dyn Fn(&Plan) -> u64| plan.map_or("-".to_string(), |plan| grouped(of(plan)));
        let stops = |plan: &Plan| plan.stops.len() as u64;
        let mut rows = Vec::new();
        for at in 0..self.hall.lines.len() {
            let (plan, alone) = (self.lines.get(at).map(|line| &line.plan), self.alone.get(at));
            let changes = own(plan, &|plan| plan.change_count());
            let line = vec![(at + 1).to_string(), own(plan, &stops), changes, own(plan, &|plan| plan.cost)];
            rows.push([line, vec![own(alone, &stops), own(alone, &|plan| plan.cost)]].concat());
        }
        let calls = |calls: Vec<u64>, known: bool| match known {
            true => [calls.len().to_string(), grouped(calls.len() as u64 * self.hall.call)],
            false => ["-".to_string(), "-".to_string()],
        };
        let ([count, cost], [count_alone, cost_alone]) =
            (calls(self.calls(), !self.lines.is_empty()), calls(self.calls_alone(), !self.alone.is_empty()));
        rows.push(vec!["calls".to_string(), count, String::new(), cost, count_alone, cost_alone]);
        let sum = |cost: Option<u64>| cost.map_or("-".to_string(), grouped);
        rows.push(vec!["all".to_string(), String::new(), String::new(), sum(self.cost()), String::new(), sum(self.cost_alone())]);
        let heads = vec!["line", "stops", "changes", "cost", "stops alone", "cost alone"];
        Table { title: "Lines".to_string(), heads, rows }
    }

    /// All of it for people.
    fn text(&self) -> String {
        let mut text = format!("{}: {} ({})\n", self.name, self.words(), self.result());
        text += &self.saving().map_or(String::new(), |words| format!("    {words}\n"));
        if self.lines.is_empty() && self.alone.is_empty() {
            return text;
        }
        let calls = if self.lines.is_empty() { String::new() } else { self.call_table().text() };
        format!("{text}\n{calls}{}\n", self.line_table().text().trim_end())
    }

    /// Writes each line's plan into a folder, as line1.txt and so on.
    fn write(&self, folder: &OsStr) -> Result<(), Failure> {
        let made = std::fs::create_dir_all(folder);
        made.map_err(|error| failure(CANT_CREATE, format_args!("{} can't be made: {}", files::name_of(folder), reason(&error))))?;
        for (at, line) in self.lines.iter().enumerate() {
            files::write(Path::new(folder).join(format!("line{}.txt", at + 1)).as_os_str(), line.plan.text().as_bytes())?;
        }
        Ok(())
    }

    /// The same for programs.
    fn json(&self) -> Vec<(&'static str, Value)> {
        let line = |line: &Judged| {
            let Judged { job, plan, costs, .. } = line;
            Value::object([
                ("costs", costs.json()),
                ("stops", list::stops_json(job, plan, &self.naming)),
                ("text", Value::text(plan.text())),
            ])
        };
        let bounds = match (self.result(), self.cost()) {
            (0, cost) => [("cheapest", cost), ("floor", None), ("best", cost)],
            (_, cost) => [("cheapest", None), ("floor", self.value("floor")), ("best", cost)],
        };
        let alone = |plan: &Plan| Value::object([("cost", Value::Number(plan.cost)), ("text", Value::text(plan.text()))]);
        vec![
            ("hall", Value::text(&self.name)),
            ("result", Value::Number(u64::from(self.result()))),
            ("words", Value::text(self.words())),
            ("fault", Value::Null),
            ("ended", Value::text(self.walked.ended.name())),
            ("walk", Value::Number(self.walk)),
            ("nodes", Value::number(self.walked.nodes())),
            ("bounds", Value::object(bounds.map(|(name, cost)| (name, Value::number(cost))))),
            ("call", Value::Number(self.hall.call)),
            ("calls", Value::numbers(self.calls())),
            ("cost", Value::number(self.cost())),
            ("lines", Value::list(self.lines.iter().map(line))),
            ("calls_alone", Value::numbers(self.calls_alone())),
            ("cost_alone", Value::number(self.cost_alone())),
            ("alone_proved", Value::Bool(self.alone_proved)),
            ("alone", Value::list(self.alone.iter().map(alone))),
        ]
    }
}

/// The plan texts of an answer, line by line: the first cost is the hall's.
fn plan_texts(reply: &Reply) -> Vec<Vec<u8>> {
    let starts: Vec<usize> = texts::line_starts(&reply.lines).filter(|start| reply.lines[*start..].starts_with(b"cost=")).skip(1).collect();
    let ends = starts.iter().skip(1).copied().chain([reply.lines.len()]);
    starts.iter().zip(ends).map(|(from, to)| reply.lines[*from..to].to_vec()).collect()
}

/// Each line's plan where it is planned alone and pays a call for each of its stops, at its own cost; and whether each is proved. None where some line
/// has none.
fn alone(hall: &Hall) -> Result<(Vec<Plan>, bool), Failure> {
    let (mut plans, mut proved) = (Vec::new(), true);
    for (job, _) in &hall.lines {
        let mut paying = job.clone();
        // A fee that would be too large with the call leaves all fees as they are.
        if job.openings.iter().all(|opening| opening.fee + hall.call <= MOST_FEE) {
            paying.openings.iter_mut().for_each(|opening| opening.fee += hall.call);
        }
        let reply = standing::searched(paying.text().as_bytes())?;
        let Some(mut plan) = reply.plan_text().map(texts::plan) else { return Ok((Vec::new(), false)) };
        plan.cost = Costs::of(job, &plan, None).total();
        proved &= reply.result == 0;
        plans.push(plan);
    }
    Ok((plans, proved))
}
