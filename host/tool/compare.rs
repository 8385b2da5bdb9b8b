//! `compare`: two plans of a job side by side.

use crate::arguments::CompareOrder;
use crate::failure::{status_of, Failure};
use crate::files::{self, Input};
use crate::json::Value;
use crate::naming::Naming;
use crate::numbers::{grouped, signed, span};
use crate::standing::Bounds;
use crate::tables::Table;
use crate::texts::Plan;
use crate::verdicts::{self, Judged};
use crate::{output, standard_output};

/// What two plans do at a step at which they differ: the parts that each changes, if it stops there.
pub type Difference = (u64, [Option<Vec<u64>>; 2]);

/// Judges both plans, then says what each costs and where they differ. The exit status is the worse verdict's.
pub fn run(order: &CompareOrder) -> Result<u8, Failure> {
    let naming = Naming::read(&order.naming)?;
    let [first, second] = &order.pairs;
    let job = files::read(&first.job)?;
    let own = Some(&second.job).filter(|job| **job != first.job).map(|job| files::read(job)).transpose()?;
    let stand = |job: &Input, plan| Ok(Judged { bounds: Bounds::of_job(&job.bytes)?, ..verdicts::judge_plan(job, plan, &naming)? });
    let pair = [stand(&job, &first.plan)?, stand(own.as_ref().unwrap_or(&job), &second.plan)?];
    let both = Both { one_job: own.is_none(), first: &pair[0], second: &pair[1] };
    if order.json {
        standard_output::write(Value::object(verdicts::headed("compare", json(&both))).document().as_bytes())?;
    } else {
        if !standard_output::is_terminal() {
            output::say(&(both.first.message() + &both.second.message()));
        }
        standard_output::write(text(&both).as_bytes())?;
    }
    Ok(status_of(both.first.result).max(status_of(both.second.result)))
}

/// Two plans, and whether they are of one job.
struct Both<'p> {
    one_job: bool,
    first: &'p Judged,
    second: &'p Judged,
}

impl Both<'_> {
    /// From what least to what most the second plan costs more than the first, over all prices within the bands; none where there are no bands, or
    /// where a plan does not keep the lives. A price that both plans pay is the same in both, where they are of one job.
    fn range(&self) -> Option<(i64, i64)> {
        let Both { first, second, .. } = self;
        let served = |judged: &Judged| matches!(judged.result, 0 | 11);
        if !(served(first) && served(second) && (first.job.has_bands() || second.job.has_bands())) {
            return None;
        }
        if !self.one_job {
            let (own, other) = (&first.costs, &second.costs);
            return Some((other.at_low() as i64 - own.total() as i64, other.total() as i64 - own.at_low() as i64));
        }
        let besides = |judged: &Judged| judged.costs.total() as i64 - judged.costs.parts as i64;
        let ((low, high), (own_low, own_high)) = (only(second, first), only(first, second));
        let more = besides(second) - besides(first);
        Some((more + low - own_high, more + high - own_low))
    }

    /// Whether one of them is cheaper at every price within the bands.
    fn at_every_price(&self) -> Option<String> {
        let by = |least: i64, most: i64| span(least.unsigned_abs(), most.unsigned_abs());
        let signed = |number: i64| if number == 0 { "0".to_string() } else { format!("{number:+}") };
        let differ = |least: i64, most: i64| format!("B less A is {} to {}", signed(least), signed(most));
        Some(match self.range()? {
            (0, 0) => "Both cost the same at every price within the bands.".to_string(),
            (least, most) if least > 0 => format!("A is cheaper at every price within the bands, by {}.", by(least, most)),
            (least, most) if most < 0 => format!("B is cheaper at every price within the bands, by {}.", by(most, least)),
            (0, most) => format!("A is dearer at no price within the bands: {}.", differ(0, most)),
            (least, 0) => format!("B is dearer at no price within the bands: {}.", differ(least, 0)),
            (least, most) => format!("Which is cheaper depends on the prices within the bands: {}.", differ(least, most)),
        })
    }
}

/// The prices of the changes that a plan makes and the other does not, at both ends.
fn only(judged: &Judged, other: &Judged) -> (i64, i64) {
    let Judged { job, plan, .. } = judged;
    let (mut low, mut high) = (0, 0);
    for part in 1..=job.parts.len() as u64 {
        let others = other.plan.changes(part);
        for step in plan.changes(part).into_iter().filter(|step| !others.contains(step)) {
            low += job.low_price(part, step).unwrap_or(0) as i64;
            high += job.price(part, step).unwrap_or(0) as i64;
        }
    }
    (low, high)
}

/// Verdicts, costs and differences.
fn text(both: &Both) -> String {
    let Both { first, second, .. } = both;
    let verdict =
        |letter: &str, judged: &Judged| format!("{letter}  {}: {} (result {})\n", judged.plan_name, judged.sentence(), judged.result);
    let of = match both.one_job {
        true => format!("Two plans of job {}\n", first.job_name),
        false => format!("A plan of job {}, and one of job {}\n", first.job_name, second.job_name),
    };
    let prices = both.at_every_price().map_or(String::new(), |words| format!("{words}\n"));
    let head = format!("{of}{}{}{prices}\n", verdict("A", first), verdict("B", second));
    head + &costs(first, second).text() + &differ(first, second)
}

/// The costs side by side, with what the second has more.
fn costs(first: &Judged, second: &Judged) -> Table {
    let of = |judged: &Judged| {
        let (plan, costs) = (&judged.plan, &judged.costs);
        [plan.stops.len() as u64, plan.change_count(), costs.fees, costs.parts, costs.removals, costs.other, costs.total(), plan.cost]
    };
    let (firsts, seconds) = (of(first), of(second));
    let names = ["stops", "changes", "fees", "parts", "removals", "other", "total", "stated cost"];
    let mut rows = Vec::new();
    for ((name, first), second) in names.into_iter().zip(firsts).zip(seconds) {
        if !["removals", "other"].contains(&name) || first + second > 0 {
            rows.push(vec![name.to_string(), grouped(first), grouped(second), signed(first, second)]);
        }
    }
    if first.costs.low.or(second.costs.low).is_some() {
        let (own, other) = (first.costs.at_low(), second.costs.at_low());
        rows.push(vec!["at low prices".to_string(), grouped(own), grouped(other), signed(own, other)]);
    }
    if first.floor().is_some() || second.floor().is_some() {
        let floor = |judged: &Judged| judged.floor().map_or(String::new(), grouped);
        rows.push(vec!["floor".to_string(), floor(first), floor(second), String::new()]);
    }
    Table { title: "Costs".to_string(), heads: vec!["<of", "A", "B", "B less A"], rows }
}

/// The steps at which the plans do not do the same.
pub fn differences(first: &Plan, second: &Plan) -> Vec<Difference> {
    let parts = |plan: &Plan, step: u64| plan.stops.iter().find(|stop| stop.step == step).map(|stop| stop.parts.clone());
    let mut steps: Vec<u64> = first.stops.iter().chain(&second.stops).map(|stop| stop.step).collect();
    steps.sort_unstable();
    steps.dedup();
    steps.into_iter().map(|step| (step, [parts(first, step), parts(second, step)])).filter(|(_, [own, other])| own != other).collect()
}

/// The same in words.
fn differ(first: &Judged, second: &Judged) -> String {
    let naming = &first.naming;
    let said = |parts: &Option<Vec<u64>>| match parts {
        Some(parts) if parts.is_empty() => "a stop, none".to_string(),
        Some(parts) => naming.parts(parts.iter().copied()),
        None => "no stop".to_string(),
    };
    let all = differences(&first.plan, &second.plan);
    if all.is_empty() {
        return "They stop and change at the same steps.\n".to_string();
    }
    let rows = all.iter().map(|(step, [own, other])| vec![naming.step(*step), said(own), said(other)]).collect();
    let table = Table { title: "Where they differ: parts changed".to_string(), heads: vec!["step", "<A", "<B"], rows };
    table.text().trim_end().to_string() + "\n"
}

/// The comparison for programs.
fn json(both: &Both) -> Vec<(&'static str, Value)> {
    let Both { first, second, .. } = both;
    let plan = |judged: &Judged| {
        let mut members = judged.json();
        members.push(("standing", Value::maybe(judged.standing())));
        members.push(("bounds", judged.bounds.map_or(Value::Null, |bounds| bounds.json())));
        Value::Object(members)
    };
    let parts = |parts: Option<Vec<u64>>| parts.map_or(Value::Null, Value::numbers);
    let difference = |(step, [own, other]): Difference| {
        Value::object([
            ("step", Value::Number(step)),
            ("date", Value::maybe(first.naming.date(step))),
            ("a", parts(own)),
            ("b", parts(other)),
        ])
    };
    let range = |(least, most)| Value::object([("least", Value::Signed(least)), ("most", Value::Signed(most))]);
    let worse: &Judged = if status_of(first.result) >= status_of(second.result) { first } else { second };
    vec![
        ("job", Value::text(&first.job_name)),
        ("result", Value::Number(u64::from(worse.result))),
        ("words", Value::text(format!("{}: {}", worse.plan_name, worse.sentence()))),
        ("fault", Value::Null),
        ("bounds", first.bounds.map_or(Value::Null, |bounds| bounds.json())),
        ("plans", Value::list([plan(first), plan(second)])),
        ("differences", Value::list(differences(&first.plan, &second.plan).into_iter().map(difference))),
        ("range", both.range().map_or(Value::Null, range)),
    ]
}
