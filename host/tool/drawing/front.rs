//! A front as a picture: a column for each number of stops, which is what its cheapest plan costs.

use super::labels::file_name;
use super::marks::Marks;
use super::sheet::EDGE;
use crate::costs::Costs;
use crate::front::Front;
use crate::fronts::Point;
use crate::numbers::{counted, grouped, signed};

/// The width of a column.
const COLUMN: f64 = 72.0;
/// How far one column begins behind the other.
const PLACE: f64 = 112.0;
/// The height of the dearest column.
const HEIGHT: f64 = 300.0;
/// The line that columns stand on.
const FLOOR: f64 = 420.0;
/// Where the first column begins.
const LEFT: f64 = 110.0;
/// The least width.
const LEAST: f64 = 760.0;

/// The whole picture.
pub fn svg(front: &Front) -> String {
    let from = front.cheapest().map_or(String::new(), |least| format!(": the least cost has {}", counted(least.stops, "stop")));
    let proved = if front.result == 0 { "; each plan is proved the cheapest with as many" } else { "" };
    let verdict = format!("Job {}{from}{proved}", file_name(&front.name));
    let own = LEFT + PLACE * front.points.len() as f64 + 30.0;
    let width = own.max(LEAST).max(2.0 * EDGE + verdict.chars().count() as f64 * 7.8);
    let mut marks = Marks::sheet((width, FLOOR + 118.0), &format!("Cost by the number of stops: {}", front.words()));
    marks.words("title", (EDGE, 30.0), "What each number of stops costs");
    marks.words("verdict", (EDGE, 52.0), &verdict);
    for (words, y) in [("stops", 20.0), ("changes", 37.0), ("life left", 54.0)] {
        marks.words("small end", (LEFT - 14.0, FLOOR + y), words);
    }
    for (at, point) in front.points.iter().enumerate() {
        column(&mut marks, front, point, LEFT + PLACE * at as f64);
    }
    marks.line("tick", (LEFT - 6.0, FLOOR), (LEFT + PLACE * front.points.len() as f64 - PLACE + COLUMN + 6.0, FLOOR), &[]);
    legend(&mut marks, front);
    marks.text()
}

/// A column: fees, removals and parts one on the other, hatched down to what is proved; its cost above, and what it is more than the cheapest.
fn column(marks: &mut Marks, front: &Front, point: &Point, left: f64) {
    let middle = left + COLUMN / 2.0;
    marks.words("step", (middle, FLOOR + 20.0), &point.stops.to_string());
    let Some(plan) = &point.plan else {
        marks.words("small middle", (middle, FLOOR - 8.0), "no plan");
        return;
    };
    let costs = point.costs(&front.job, plan);
    let dearest = front.points.iter().filter_map(Point::cost).max().unwrap_or(1).max(1);
    let scale = HEIGHT / dearest as f64;
    let top = pieces(marks, &costs, point.stops, (left, scale));
    if !point.is_proved() {
        let open = costs.total().saturating_sub(point.least) as f64 * scale;
        let more = [("data-stops", point.stops.to_string()), ("data-least", point.least.to_string())];
        let tip = format!("not proved: none costs less than {}", grouped(point.least));
        marks.rectangle("open", (left - 5.0, top), (COLUMN + 10.0, open.max(3.0)), &more, &tip);
    }
    let least = front.cheapest().and_then(Point::cost).unwrap_or(0);
    let more = if costs.total() == least { "the cheapest".to_string() } else { signed(least, costs.total()) };
    marks.words("step", (middle, top - 22.0), &grouped(costs.total()));
    marks.words("small middle", (middle, top - 7.0), &more);
    marks.words("small middle", (middle, FLOOR + 37.0), &plan.change_count().to_string());
    marks.words("small middle", (middle, FLOOR + 54.0), &front.job.all_left(plan).to_string());
}

/// The pieces of a column, each as high as what it costs; where the uppermost ends.
fn pieces(marks: &mut Marks, costs: &Costs, stops: u64, (left, scale): (f64, f64)) -> f64 {
    let mut y = FLOOR;
    let all = [("fees", costs.fees), ("removals", costs.removals), ("other", costs.other), ("parts", costs.parts)];
    for (name, amount) in all.into_iter().filter(|(_, amount)| *amount > 0) {
        let high = amount as f64 * scale;
        y -= high;
        let more = [("data-of", name.to_string()), ("data-amount", amount.to_string()), ("data-stops", stops.to_string())];
        let tip = format!("{}: {name} {}", counted(stops, "stop"), grouped(amount));
        marks.rectangle(&format!("sum {name}"), (left, y), (COLUMN, high), &more, &tip);
        if high > 16.0 {
            let class = if name == "fees" { "small middle light" } else { "small middle" };
            marks.words(class, (left + COLUMN / 2.0, y + high / 2.0 + 4.0), &grouped(amount));
        }
    }
    y
}

/// What the colours mean.
fn legend(marks: &mut Marks, front: &Front) {
    let mut x = EDGE;
    let y = FLOOR + 96.0;
    let open = front.points.iter().any(|point| !point.is_proved());
    let all = [
        ("fees", "fees", true),
        ("removals", "removals", front.job.has_removals()),
        ("parts", "parts", true),
        ("open", "between what is proved and the plan found", open),
    ];
    for (class, words, _) in all.into_iter().filter(|(_, _, occurs)| *occurs) {
        let class = if class == "open" { class.to_string() } else { format!("sum-key {class}") };
        marks.rectangle(&class, (x, y - 11.0), (28.0, 13.0), &[], "");
        marks.words("small", (x + 34.0, y), words);
        x += 50.0 + words.len() as f64 * 6.2;
    }
}
