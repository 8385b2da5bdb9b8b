//! `list`: what to buy and when, for the buyer; when the line stops, for production.

use crate::arguments::{Form, ListOrder};
use crate::costs::{low_prices, low_prices_of_part, prices, prices_of_part, removals, removals_of_part};
use crate::csv;
use crate::failure::{status_of, Failure};
use crate::json::Value;
use crate::naming::Naming;
use crate::numbers::{grouped, joined, span};
use crate::tables::Table;
use crate::texts::{Job, Plan};
use crate::verdicts::{self, Judged};
use crate::{output, standard_output};

/// Judges the plan, then writes its lists to standard output. The verdict stands in the lists; where these go elsewhere it is said beside them.
pub fn run(order: &ListOrder) -> Result<u8, Failure> {
    let judged = verdicts::stand_files(&order.pair, &Naming::read(&order.naming)?)?;
    let text = match order.form {
        Form::Csv => csv::list(&judged, order.every),
        Form::Json => Value::object(verdicts::headed("list", json(&judged, order.every))).document(),
        Form::Text => lists(&judged, order.every),
    };
    if order.form == Form::Csv || (order.form == Form::Text && !standard_output::is_terminal()) {
        output::say(&judged.message());
    }
    standard_output::write(text.as_bytes())?;
    Ok(status_of(judged.result))
}

/// All lists as plain text, the verdict on top.
fn lists(judged: &Judged, every: Option<u64>) -> String {
    let mut text = format!("Plan {} of job {}\n{} (result {})\n", judged.plan_name, judged.job_name, judged.words, judged.result);
    text += &judged.standing().map_or(String::new(), |standing| format!("{standing}\n"));
    text += &judged.naming.date(1).map_or(String::new(), |date| format!("step 1 begins on {date}\n"));
    text += "\n";
    for table in [buy(judged), by_stop(judged)].into_iter().chain(every.map(|steps| by_period(judged, steps))) {
        text += &table.text();
    }
    let removed = removed(judged).map_or(String::new(), |table| table.text());
    text + &stops(judged).text() + &removed + &left(judged).text() + &costs(judged)
}

/// A part's price at a step, from a low end to a high one where it is a band, or a dash where the job's text gives it in a form that is not read here.
pub fn price(job: &Job, part: u64, step: u64) -> String {
    job.price(part, step).zip(job.low_price(part, step)).map_or("-".to_string(), |(high, low)| span(low, high))
}

/// The heads of amounts of a job: one, or the low and the high ends where some price is a band.
fn amounts(job: &Job) -> &'static [&'static str] {
    if job.has_bands() {
        &["low", "high"]
    } else {
        &["prices"]
    }
}

/// The cells under these heads.
fn ends(job: &Job, low: u64, high: u64) -> Vec<String> {
    let own = if job.has_bands() { vec![low, high] } else { vec![high] };
    own.into_iter().map(grouped).collect()
}

/// How many of each part, what they cost, and when.
fn buy(judged: &Judged) -> Table {
    let Judged { job, plan, naming, .. } = judged;
    let mut rows: Vec<Vec<String>> = Vec::new();
    let cells = |part: String, order: String, count: u64, sums: Vec<String>, steps: String| {
        let order = naming.has_names().then_some(order);
        [part].into_iter().chain(order).chain([count.to_string()]).chain(sums).chain([steps]).collect()
    };
    for part in 1..=job.parts.len() as u64 {
        let steps = plan.changes(part);
        let sums = ends(job, low_prices_of_part(job, plan, part), prices_of_part(job, plan, part));
        rows.push(cells(naming.part(part), naming.order(part).unwrap_or_default(), steps.len() as u64, sums, naming.steps(steps)));
    }
    let sums = ends(job, judged.costs.low_parts(), judged.costs.parts);
    rows.push(cells("all".to_string(), String::new(), plan.change_count(), sums, String::new()));
    let mut heads = if naming.has_names() { vec!["<part", "<order"] } else { vec!["part"] };
    heads.extend(["count"].iter().chain(amounts(job)).chain(&["<at steps"]));
    Table { title: "Parts to buy".to_string(), heads, rows }
}

/// What is bought for each stop, part by part.
fn by_stop(judged: &Judged) -> Table {
    let Judged { job, plan, naming, .. } = judged;
    let mut rows = Vec::new();
    for stop in &plan.stops {
        let each = stop.parts.iter().map(|part| format!("{} at {}", naming.part(*part), price(job, *part, stop.step)));
        let (each, sums) = (each.collect::<Vec<String>>(), ends(job, low_prices(job, stop), prices(job, stop)));
        rows.push([vec![naming.step(stop.step), stop.parts.len().to_string()], sums, vec![each.join(", ")]].concat());
    }
    let heads = [&["step", "count"], amounts(job), &["<part at its price"]].concat();
    Table { title: "Parts by stop".to_string(), heads, rows }
}

/// The first and last step of each period of so many steps.
pub fn periods(job: &Job, every: u64) -> Vec<(u64, u64)> {
    let steps = every.max(1);
    (0..job.horizon.div_ceil(steps)).map(|at| (at * steps + 1, ((at + 1) * steps).min(job.horizon))).collect()
}

/// What of a part, or of all, is bought in a period: how many, and their prices at the low and at the high ends.
#[derive(Debug, Clone, Copy, Default)]
pub struct Bought {
    pub count: u64,
    pub low: u64,
    pub high: u64,
}

/// What of a part is bought in a period.
pub fn bought(job: &Job, plan: &Plan, part: u64, (from, to): (u64, u64)) -> Bought {
    let steps: Vec<u64> = plan.changes(part).into_iter().filter(|step| (from..=to).contains(step)).collect();
    let sum = |price: &dyn Fn(u64) -> Option<u64>| steps.iter().filter_map(|step| price(*step)).sum();
    Bought { count: steps.len() as u64, low: sum(&|step| job.low_price(part, step)), high: sum(&|step| job.price(part, step)) }
}

/// What is bought in each period: how many of which part.
fn by_period(judged: &Judged, every: u64) -> Table {
    let Judged { job, plan, naming, .. } = judged;
    let mut rows = Vec::new();
    for period in periods(job, every) {
        let parts: Vec<(u64, Bought)> = (1..=job.parts.len() as u64).map(|part| (part, bought(job, plan, part, period))).collect();
        let some = parts.iter().filter(|(_, own)| own.count > 0);
        let each: Vec<String> = some.map(|(part, own)| format!("{} of part {}", own.count, naming.part(*part))).collect();
        let sum = |of: &dyn Fn(&Bought) -> u64| parts.iter().map(|(_, own)| of(own)).sum::<u64>();
        let count = sum(&|own| own.count).to_string();
        let steps = format!("{} to {}", naming.step(period.0), naming.step(period.1));
        rows.push([vec![steps, count], ends(job, sum(&|own| own.low), sum(&|own| own.high)), vec![each.join(", ")]].concat());
    }
    let heads = [&["steps", "count"], amounts(job), &["<which"]].concat();
    Table { title: format!("Parts by periods of {every} steps"), heads, rows }
}

/// The stops with their fees, and how long the line runs before each and after the last.
fn stops(judged: &Judged) -> Table {
    let Judged { job, plan, naming, .. } = judged;
    let mut rows = Vec::new();
    let mut before = 0;
    for (at, stop) in plan.stops.iter().enumerate() {
        let runs = job.runs(before, stop.step);
        rows.push(vec![
            (at + 1).to_string(),
            naming.step(stop.step),
            runs.to_string(),
            grouped(job.fee(stop.step)),
            naming.parts(stop.parts.iter().copied()),
        ]);
        before = stop.step;
    }
    let runs = job.runs(before, job.horizon);
    rows.push(vec!["end".to_string(), naming.step(job.horizon), runs.to_string(), String::new(), String::new()]);
    let heads = vec!["stop", "step", "running steps before", "fee", "<parts changed"];
    Table { title: "Stops of the line".to_string(), heads, rows }
}

/// What comes out at each stop: the parts changed and those that hold them, and what that costs. None where no part has a removal or a holder.
fn removed(judged: &Judged) -> Option<Table> {
    let Judged { job, plan, naming, .. } = judged;
    job.has_removals().then_some(())?;
    let mut rows = Vec::new();
    for stop in &plan.stops {
        let out = job.removed(stop);
        rows.push(vec![naming.step(stop.step), out.len().to_string(), grouped(removals(job, stop)), joined(out)]);
    }
    Some(Table { title: "Parts that come out".to_string(), heads: vec!["step", "count", "removals", "<parts"], rows })
}

/// What is left of each part's life after the last step: what the plan leaves behind.
fn left(judged: &Judged) -> Table {
    let Judged { job, plan, naming, .. } = judged;
    let left = |part: u64| job.left_at_end(plan, part);
    let mut rows = Vec::new();
    for (at, own) in job.parts.iter().enumerate() {
        let part = at as u64 + 1;
        rows.push(vec![naming.part(part), own.life.to_string(), left(part).to_string()]);
    }
    rows.push(vec!["all".to_string(), job.parts.iter().map(|part| part.life).sum::<u64>().to_string(), job.all_left(plan).to_string()]);
    let heads = vec![if naming.has_names() { "<part" } else { "part" }, "life", "left"];
    Table { title: format!("Life left after step {}", naming.step(job.horizon)), heads, rows }
}

/// Fees, prices, their sum, and the floor where the cheapest plan is not known; at the low and the high ends where prices are bands.
fn costs(judged: &Judged) -> String {
    let costs = &judged.costs;
    let mut rows = vec![("fees", costs.fees, costs.fees), ("parts", costs.low_parts(), costs.parts)];
    rows.extend(costs.further().map(|(name, amount)| (name, amount, amount)));
    rows.push(("total", costs.at_low(), costs.total()));
    let cells = |(name, low, high): (&str, u64, u64)| [vec![name.to_string()], ends(&judged.job, low, high)].concat();
    let mut rows: Vec<Vec<String>> = rows.into_iter().map(cells).collect();
    let empty = if judged.job.has_bands() { vec![String::new()] } else { Vec::new() };
    rows.extend(judged.floor().map(|floor| [vec!["floor".to_string()], empty, vec![grouped(floor)]].concat()));
    let heads = if judged.job.has_bands() { vec!["<of", "low", "high"] } else { vec!["<of", "amount"] };
    Table { title: "Costs".to_string(), heads, rows }.text().trim_end().to_string() + "\n"
}

/// The stops for programs.
pub fn stops_json(job: &Job, plan: &Plan, naming: &Naming) -> Value {
    let mut before = 0;
    let mut stops = Vec::new();
    for stop in &plan.stops {
        let changes = stop.parts.iter().map(|part| {
            let (price, low) = (job.price(*part, stop.step), job.low_price(*part, stop.step));
            Value::object([("part", Value::Number(*part)), ("price", Value::number(price)), ("low", Value::number(low))])
        });
        stops.push(Value::object([
            ("step", Value::Number(stop.step)),
            ("date", Value::maybe(naming.date(stop.step))),
            ("running", Value::Number(job.runs(before, stop.step))),
            ("fee", Value::Number(job.fee(stop.step))),
            ("changes", Value::list(changes)),
            ("out", Value::numbers(job.removed(stop))),
            ("removals", Value::Number(removals(job, stop))),
        ]));
        before = stop.step;
    }
    Value::List(stops)
}

/// All lists for programs.
fn json(judged: &Judged, every: Option<u64>) -> Vec<(&'static str, Value)> {
    let Judged { job, plan, naming, .. } = judged;
    let part = |part: u64| {
        Value::object([
            ("part", Value::Number(part)),
            ("name", Value::maybe(naming.name(part))),
            ("order", Value::maybe(naming.order(part))),
            ("count", Value::Number(plan.changes(part).len() as u64)),
            ("prices", Value::Number(prices_of_part(job, plan, part))),
            ("low", Value::Number(low_prices_of_part(job, plan, part))),
            ("removals", Value::Number(removals_of_part(job, plan, part))),
            ("steps", Value::numbers(plan.changes(part))),
            ("left", Value::Number(job.left_at_end(plan, part))),
        ])
    };
    let period = |(from, to): (u64, u64)| {
        let all = (1..=job.parts.len() as u64).map(|part| (part, bought(job, plan, part, (from, to))));
        let parts = all.filter(|(_, own)| own.count > 0).map(|(part, Bought { count, low, high })| {
            let members = [("part", part), ("count", count), ("prices", high), ("low", low)];
            Value::object(members.map(|(name, number)| (name, Value::Number(number))))
        });
        Value::object([
            ("from", Value::Number(from)),
            ("to", Value::Number(to)),
            ("date", Value::maybe(naming.date(from))),
            ("parts", Value::list(parts)),
        ])
    };
    let mut members = judged.json();
    members.extend([
        ("standing", Value::maybe(judged.standing())),
        ("bounds", judged.bounds.map_or(Value::Null, |bounds| bounds.json())),
        ("stops", stops_json(job, plan, naming)),
        ("parts", Value::list((1..=job.parts.len() as u64).map(part))),
        ("periods", every.map_or(Value::Null, |every| Value::list(periods(job, every).into_iter().map(period)))),
    ]);
    members
}
