//! The lists as comma-separated values: one head, one row for each thing, told apart by the first column.

use crate::costs::{low_prices_of_part, prices_of_part};
use crate::list::{bought, periods, Bought};
use crate::naming::Naming;
use crate::texts::{Job, Plan};
use crate::verdicts::Judged;

/// The columns. `from` and `to` are a period's steps, `running` the running steps since the stop before.
const HEAD: &str = "record,step,from,to,part,count,price,amount,running";

/// The rows whose amounts are the same at both ends of the prices.
const ONE_END: [&str; 5] = ["stop", "removal", "fees", "removals", "other"];

/// A row; what is missing is left empty.
#[derive(Default)]
struct Row {
    record: &'static str,
    step: Option<u64>,
    period: Option<(u64, u64)>,
    part: Option<u64>,
    count: Option<u64>,
    price: Option<u64>,
    amount: Option<u64>,
    running: Option<u64>,
    /// The amount at the low ends of the prices, where that is another.
    low: Option<u64>,
}

impl Row {
    /// The row's line. Where steps have dates there is a column `date`, that of the step or of the period's first; where parts have names, `name` and
    /// `order`; where prices are bands, `low` and `high`: the amount at both ends.
    fn text(&self, naming: &Naming, bands: bool) -> String {
        let (from, to) = (self.period.map(|period| period.0), self.period.map(|period| period.1));
        let cells = [self.step, from, to, self.part, self.count, self.price, self.amount, self.running];
        let mut cells = cells.map(|cell| cell.map_or(String::new(), |number| number.to_string())).to_vec();
        if naming.has_dates() {
            cells.push(self.step.or(from).and_then(|step| naming.date(step)).unwrap_or_default());
        }
        if naming.has_names() {
            cells.push(quoted(self.part.and_then(|part| naming.name(part))));
            cells.push(quoted(self.part.and_then(|part| naming.order(part))));
        }
        if bands && (self.low.is_some() || ONE_END.contains(&self.record)) {
            cells.extend([self.low.or(self.amount), self.amount].map(|end| end.map_or(String::new(), |end| end.to_string())));
        } else if bands {
            cells.extend([String::new(), String::new()]);
        }
        format!("{},{}\n", self.record, cells.join(","))
    }
}

/// The heads of all columns.
fn head(naming: &Naming, bands: bool) -> String {
    let dates = if naming.has_dates() { ",date" } else { "" };
    let names = if naming.has_names() { ",name,order" } else { "" };
    let ends = if bands { ",low,high" } else { "" };
    format!("{HEAD}{dates}{names}{ends}\n")
}

/// A cell of words: in quotes where it has a comma, quotes or line ends. One that a spreadsheet would take for a formula gets an apostrophe first.
fn quoted(words: Option<String>) -> String {
    let words = words.unwrap_or_default();
    let words = if words.starts_with(['=', '+', '-', '@']) { format!("'{words}") } else { words };
    match words.contains([',', '"', '\n', '\r', ';']) {
        true => format!("\"{}\"", words.replace('"', "\"\"")),
        false => words,
    }
}

/// The whole list.
pub fn list(judged: &Judged, every: Option<u64>) -> String {
    let Judged { job, plan, .. } = judged;
    let mut rows = vec![Row { record: "result", count: Some(u64::from(judged.result)), ..Row::default() }];
    rows.extend(changes(job, plan, every));
    rows.extend(stops(job, plan, every));
    rows.extend(removals(job, plan, every));
    rows.extend(every.into_iter().flat_map(|steps| by_period(job, plan, steps)));
    rows.extend((1..=job.parts.len() as u64).map(|part| {
        let (count, amount) = (Some(plan.changes(part).len() as u64), Some(prices_of_part(job, plan, part)));
        Row { record: "part", part: Some(part), count, amount, low: Some(low_prices_of_part(job, plan, part)), ..Row::default() }
    }));
    rows.extend((1..=job.parts.len() as u64).map(|part| {
        let running = Some(job.left_at_end(plan, part));
        Row { record: "left", step: Some(job.horizon), part: Some(part), running, ..Row::default() }
    }));
    let costs = &judged.costs;
    let sum = |record, amount| Row { record, amount, ..Row::default() };
    rows.extend([sum("fees", Some(costs.fees)), Row { low: Some(costs.low_parts()), ..sum("parts", Some(costs.parts)) }]);
    rows.extend(judged.costs.further().map(|(name, amount)| sum(name, Some(amount))));
    rows.extend([Row { low: costs.low, ..sum("total", Some(costs.total())) }, sum("stated", Some(plan.cost))]);
    rows.extend(judged.costs.low.map(|low| sum("low", Some(low))));
    rows.extend(judged.floor().map(|floor| sum("floor", Some(floor))));
    let bands = job.has_bands();
    rows.iter().fold(head(&judged.naming, bands), |text, row| text + &row.text(&judged.naming, bands))
}

/// The period of a step.
fn period(job: &Job, every: Option<u64>, step: u64) -> Option<(u64, u64)> {
    periods(job, every?).into_iter().find(|(from, to)| (*from..=*to).contains(&step))
}

/// A row for each change.
fn changes(job: &Job, plan: &Plan, every: Option<u64>) -> Vec<Row> {
    let mut rows = Vec::new();
    for stop in &plan.stops {
        for part in &stop.parts {
            let price = job.price(*part, stop.step);
            let period = period(job, every, stop.step);
            rows.push(Row {
                record: "change",
                step: Some(stop.step),
                period,
                part: Some(*part),
                count: Some(1),
                price,
                amount: price,
                running: None,
                low: job.low_price(*part, stop.step),
            });
        }
    }
    rows
}

/// A row for each stop, its fee the amount, and one for the end.
fn stops(job: &Job, plan: &Plan, every: Option<u64>) -> Vec<Row> {
    let mut rows = Vec::new();
    let mut before = 0;
    for stop in &plan.stops {
        let running = Some(job.runs(before, stop.step));
        let (count, amount) = (Some(stop.parts.len() as u64), Some(job.fee(stop.step)));
        rows.push(Row {
            record: "stop",
            step: Some(stop.step),
            period: period(job, every, stop.step),
            count,
            amount,
            running,
            ..Row::default()
        });
        before = stop.step;
    }
    let running = Some(job.runs(before, job.horizon));
    rows.push(Row { record: "end", step: Some(job.horizon), running, ..Row::default() });
    rows
}

/// A row for each removal that costs something: each part that comes out at a stop, once.
fn removals(job: &Job, plan: &Plan, every: Option<u64>) -> Vec<Row> {
    let mut rows = Vec::new();
    for stop in &plan.stops {
        for part in job.removed(stop).into_iter().filter(|part| job.removal(*part) > 0) {
            let (step, period) = (Some(stop.step), period(job, every, stop.step));
            rows.push(Row {
                record: "removal",
                step,
                period,
                part: Some(part),
                count: Some(1),
                amount: Some(job.removal(part)),
                ..Row::default()
            });
        }
    }
    rows
}

/// A row for each part of which something is bought in a period.
fn by_period(job: &Job, plan: &Plan, every: u64) -> Vec<Row> {
    let mut rows = Vec::new();
    for period in periods(job, every) {
        for part in 1..=job.parts.len() as u64 {
            let Bought { count, low, high } = bought(job, plan, part, period);
            if count > 0 {
                rows.push(Row {
                    record: "period",
                    period: Some(period),
                    part: Some(part),
                    count: Some(count),
                    amount: Some(high),
                    low: Some(low),
                    ..Row::default()
                });
            }
        }
    }
    rows
}
