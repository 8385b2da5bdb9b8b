//! `front`: the cheapest plan for each number of stops. Found by raising every fee by a number and taking it off again: a plan that is the cheapest where
//! each stop costs so much more is the cheapest of all plans with as many stops, and no plan with another number of stops is further below it than that.

use crate::arguments::{Form, FrontOrder};
use crate::calls;
use crate::failure::{failure, status_of, Failure, USAGE};
use crate::files::{self, Input};
use crate::fronts::{self, Asked, Found, Point, Proof};
use crate::json::Value;
use crate::numbers::{counted, grouped, percent};
use crate::tables::Table;
use crate::texts::{self, Job};
use crate::verdicts::headed;
use crate::watch::Ended;
use crate::{closed, drawing, faults, output, standard_output};
use std::ffi::OsStr;

/// Finds the front, says it, and draws it or writes one of its plans where that is asked for.
pub fn run(order: &FrontOrder) -> Result<u8, Failure> {
    if let Some(path) = order.output.as_deref() {
        files::not_among(path, &[&order.job])?;
        files::ready(path)?;
    }
    let input = files::read(&order.job)?;
    if let Some(reply) = calls::job_fault(&input.bytes)? {
        return Err(faults::refusal(&reply, &input, None));
    }
    let front = Front::of(&input, order)?;
    let written = match (order.take, order.output.as_deref()) {
        (Some(stops), path) => match front.plan_text(stops) {
            Ok(text) => Some((path.unwrap_or(OsStr::new("-")), text)),
            // What was found is said all the same.
            Err(unknown) => return standard_output::write(front.said(order.form).as_bytes()).and(Err(unknown)),
        },
        (None, Some(path)) => Some((path, picture(path, &front)?)),
        (None, None) => None,
    };
    // With JSON on standard output a plan does not go there too: all of them stand in it.
    let written = written.filter(|(path, _)| !(order.form == Form::Json && files::is_standard(path)));
    // An empty plan is the one of doing nothing: where nothing was found, there is no file.
    if let Some((path, text)) = written.as_ref().filter(|_| !front.points.is_empty()) {
        files::write(path, text.as_bytes())?;
    }
    let unwritten = order.output.iter().filter(|path| front.points.is_empty() && !files::is_standard(path));
    let unwritten: String = unwritten.map(|path| format!("    {} is not written\n", files::name_of(path))).collect();
    let said = match order.form {
        Form::Text => front.text() + &order.take.map_or(String::new(), |stops| front.taken(stops)) + &unwritten,
        form => front.said(form),
    };
    match written.is_some_and(|(path, _)| files::is_standard(path) || closed::output()) {
        true => output::say(&said),
        false => standard_output::write(said.as_bytes())?,
    }
    Ok(status_of(front.result))
}

/// The picture, where the file's ending asks for one.
fn picture(path: &OsStr, front: &Front) -> Result<String, Failure> {
    let name = files::name_of(path).to_lowercase();
    match name.ends_with(".svg") || files::is_standard(path) {
        true => Ok(drawing::front(front)),
        false => Err(failure(USAGE, format_args!("{} does not end in .svg; with --take N a plan is written", files::name_of(path)))),
    }
}

/// The cheapest plan for each number of stops, as far as it is known.
pub struct Front {
    pub name: String,
    pub job: Job,
    pub result: u32,
    /// How many calls of the library were made, and why there was no further one, where that was not by itself.
    calls: u64,
    ended: Ended,
    why: Option<String>,
    /// By rising numbers of stops, from the fewest that keep the lives to the most that save something.
    pub points: Vec<Point>,
}

impl Front {
    fn of(input: &Input, order: &FrontOrder) -> Result<Front, Failure> {
        let job = texts::job(&input.bytes);
        let (walk, calls, quiet, limit) = (order.walk, order.calls, order.quiet, order.limit);
        let Found { points, none, calls, ended, after } = fronts::find(&job, &Asked { walk, calls, quiet, limit })?;
        let result = match none {
            true => 6,
            false if !points.is_empty() && points.iter().all(Point::is_proved) && ended == Ended::ByItself => 0,
            false => 7,
        };
        Ok(Front { name: input.name.clone(), job, result, calls, ended, why: ended.words(after), points })
    }

    /// All of it in one of the forms.
    fn said(&self, form: Form) -> String {
        match form {
            Form::Csv => self.csv(),
            Form::Json => Value::object(headed("front", self.json())).document(),
            Form::Text => self.text(),
        }
    }

    /// The point that costs least: the fewest stops of those.
    pub fn cheapest(&self) -> Option<&Point> {
        self.points.iter().filter(|point| point.plan.is_some()).min_by_key(|point| (point.cost(), point.stops))
    }

    /// The first sentence.
    pub fn words(&self) -> String {
        let why = self.why.as_ref().map_or(String::new(), |why| format!("{why}: "));
        let (Some(first), Some(last), Some(least)) = (self.points.first(), self.points.last(), self.cheapest()) else {
            return if self.result == 6 { "no plan keeps the lives".to_string() } else { format!("{why}no plan was found so far") };
        };
        let proved = self.points.iter().filter(|point| point.is_proved()).count() as u64;
        let (cost, stops) = (grouped(least.cost().unwrap_or_default()), counted(least.stops, "stop"));
        if first.stops == last.stops {
            let proved = if least.is_proved() { "proved" } else { "not proved" };
            return format!("{why}another number of stops saves nothing: the cheapest plan has {stops} and costs {cost} ({proved})");
        }
        let all = match proved == self.points.len() as u64 {
            true => "each proved".to_string(),
            false => format!("{proved} of {} proved", self.points.len()),
        };
        format!(
            "{why}{} to {} stops, and the cheapest plan for each number ({all}); the least cost, {cost}, has {stops}",
            first.stops, last.stops
        )
    }

    /// The plan text of the point with so many stops.
    fn plan_text(&self, stops: u64) -> Result<String, Failure> {
        if self.points.is_empty() {
            return Ok(String::new());
        }
        let plan = self.points.iter().find(|point| point.stops == stops).and_then(|point| point.plan.as_ref());
        let (first, last) = (self.points.first().map_or(0, |point| point.stops), self.points.last().map_or(0, |point| point.stops));
        let known = if first == last { format!("the one there is has {last}") } else { format!("there are {first} to {last}") };
        plan.map(|plan| plan.text())
            .ok_or_else(|| failure(USAGE, format_args!("no plan with {} is known; {known}", counted(stops, "stop"))))
    }

    /// That the plan which was taken is not proved to be the cheapest, where it is so.
    fn taken(&self, stops: u64) -> String {
        let own = self.points.iter().find(|point| point.stops == stops && !point.is_proved());
        own.and_then(|point| Some((point.cost()?, point.least))).map_or(String::new(), |(cost, least)| {
            let gap = cost.saturating_sub(least);
            let saved = format!("at most {} {} could still be saved", grouped(gap), percent(gap, cost));
            format!("    the plan with {} is not proved to be the cheapest with as many: {saved}\n", counted(stops, "stop"))
        })
    }

    /// The table for people.
    fn text(&self) -> String {
        let removals = self.job.has_removals();
        let row = |point: &Point| {
            let costs = point.plan.as_ref().map(|plan| point.costs(&self.job, plan));
            let number = |of: &dyn Fn(&crate::costs::Costs) -> String| costs.as_ref().map_or("-".to_string(), of);
            let mut row = vec![point.stops.to_string(), number(&|costs| costs.span()), number(&|costs| grouped(costs.fees))];
            row.push(number(&|costs| crate::numbers::span(costs.low_parts(), costs.parts)));
            row.extend(removals.then(|| number(&|costs| grouped(costs.removals))));
            row.push(point.plan.as_ref().map_or("-".to_string(), |plan| plan.change_count().to_string()));
            row.push(point.plan.as_ref().map_or("-".to_string(), |plan| self.job.all_left(plan).to_string()));
            row.push(self.standing(point));
            row
        };
        let mut heads = vec!["stops", "cost", "fees", "parts"];
        heads.extend(removals.then_some("removals"));
        heads.extend(["changes", "life left", "<"]);
        let table = Table { title: String::new(), heads, rows: self.points.iter().map(row).collect() };
        let table = if self.points.is_empty() { String::new() } else { table.text().trim_end().to_string() + "\n" };
        format!("{}: {} ({})\n{table}", self.name, self.words(), self.result)
    }

    /// How a point stands: the cheapest of all, proved, or not less than.
    fn standing(&self, point: &Point) -> String {
        let least = self.cheapest().is_some_and(|least| least.stops == point.stops);
        let known = match (point.proof, point.cost()) {
            (Some(Proof::Fees), _) => "proved".to_string(),
            (Some(Proof::Spans), _) => "proved by spans".to_string(),
            (None, Some(_)) => format!("not proved: none costs less than {}", grouped(point.least)),
            (None, None) => format!("no plan found; none costs less than {}", grouped(point.least)),
        };
        if least {
            format!("{known}; the cheapest of all")
        } else {
            known
        }
    }

    /// The same as comma-separated values.
    fn csv(&self) -> String {
        let mut text = "stops,cost,low,fees,parts,removals,changes,life_left,least,proved\n".to_string();
        for point in &self.points {
            let cells = point.plan.as_ref().map(|plan| {
                let costs = point.costs(&self.job, plan);
                let (changes, left) = (plan.change_count(), self.job.all_left(plan));
                [costs.total(), costs.at_low(), costs.fees, costs.parts, costs.removals, changes, left].map(|number| number.to_string())
            });
            let proved = if point.is_proved() { "yes" } else { "no" };
            text += &format!("{},{},{},{proved}\n", point.stops, cells.unwrap_or_default().join(","), point.least);
        }
        text
    }

    /// The same for programs.
    fn json(&self) -> Vec<(&'static str, Value)> {
        let point = |point: &Point| {
            let plan = point.plan.as_ref();
            Value::object([
                ("stops", Value::Number(point.stops)),
                ("costs", plan.map_or(Value::Null, |plan| point.costs(&self.job, plan).json())),
                ("changes", Value::number(plan.map(|plan| plan.change_count()))),
                ("left", Value::number(plan.map(|plan| self.job.all_left(plan)))),
                ("least", Value::Number(point.least)),
                ("proved", Value::Bool(point.is_proved())),
                ("proof", Value::maybe(point.proof.map(|proof| proof.name().to_string()))),
                ("text", Value::maybe(plan.map(|plan| plan.text()))),
            ])
        };
        vec![
            ("job", Value::text(&self.name)),
            ("result", Value::Number(u64::from(self.result))),
            ("words", Value::text(self.words())),
            ("fault", Value::Null),
            ("ended", Value::text(self.ended.name())),
            ("calls", Value::Number(self.calls)),
            ("cheapest", Value::number(self.cheapest().map(|point| point.stops))),
            ("points", Value::list(self.points.iter().map(point))),
        ]
    }
}
