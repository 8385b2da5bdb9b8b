//! What stands beneath the rows: costs, and what the marks mean.

use super::labels::lines;
use super::marks::Marks;
use super::sheet::{Sheet, EDGE, LINE};
use crate::numbers::{grouped, span};
use crate::standing::Bounds;
use crate::verdicts::Judged;

/// The costs in words and how the plan stands, in lines for a sheet of this width.
pub fn costs(judged: &Judged, width: f64) -> Vec<String> {
    let costs = &judged.costs;
    let mut words = vec![format!("Fees {}", grouped(costs.fees)), format!("Parts {}", span(costs.low_parts(), costs.parts))];
    words.extend((costs.removals > 0).then(|| format!("Removals {}", grouped(costs.removals))));
    words.extend((costs.other > 0).then(|| format!("Other {}", grouped(costs.other))));
    words.push(format!("Total {}", costs.span()));
    words.extend(
        judged.past.map(|past| format!("Spent {}, to go on {}", grouped(past.spent), grouped(costs.total().saturating_sub(past.spent)))),
    );
    words.extend(Some(judged.plan.cost).filter(|stated| *stated != costs.total()).map(|stated| format!("Stated {}", grouped(stated))));
    words.extend(judged.standing().map(|standing| capital(&standing)));
    lines(words.iter().map(String::as_str), "  \u{b7}  ", width - 2.0 * EDGE, 10.4)
}

/// Costs and legend beneath.
pub fn foot(marks: &mut Marks, sheet: &Sheet, judged: &Judged) {
    marks.lines("cost", (EDGE, sheet.foot + 62.0), LINE, &costs(judged, sheet.width));
    bar(marks, sheet, judged);
    legend(marks, &keys(judged), (EDGE, sheet.width - EDGE), sheet.foot + sheet.costs + 118.0);
}

/// The height of the bar of costs.
const BAR: f64 = 15.0;

/// The costs as one bar, as wide as the calendar: fees, removals, parts; hatched from the low ends of the prices to the high ones; a mark where the
/// cheapest plan would end.
fn bar(marks: &mut Marks, sheet: &Sheet, judged: &Judged) {
    let costs = &judged.costs;
    let (top, left) = (sheet.foot + sheet.costs + 73.0, EDGE);
    let scale = (sheet.right - left) / costs.total().max(1) as f64;
    let own = [("fees", costs.fees), ("removals", costs.removals), ("other", costs.other), ("parts", costs.low_parts())];
    let band = [("band", costs.total().saturating_sub(costs.at_low()))];
    let mut x = left;
    for (name, amount) in own.into_iter().chain(band).filter(|(_, amount)| *amount > 0) {
        let width = amount as f64 * scale;
        let more = [("data-of", name.to_string()), ("data-amount", amount.to_string())];
        marks.rectangle(&format!("sum {name}"), (x, top), (width, BAR), &more, &format!("{name}: {}", grouped(amount)));
        if name == "band" {
            marks.rectangle("hatch", (x, top), (width, BAR), &[], "");
        }
        let words = format!("{name} {}", grouped(amount));
        if width > words.len() as f64 * 6.6 + 8.0 && name != "band" {
            marks.words(if name == "fees" { "sum-words light" } else { "sum-words" }, (x + 5.0, top + 11.5), &words);
        }
        x += width;
    }
    if let Some(least) = cheaper(judged) {
        let x = left + least as f64 * scale;
        marks.line("cheapest", (x, top - 3.0), (x, top + BAR + 3.0), &[("data-amount", least.to_string())]);
    }
}

/// What the cheapest plan costs, where this one is not it.
fn cheaper(judged: &Judged) -> Option<u64> {
    match judged.bounds? {
        Bounds::Cheapest(least) => Some(least).filter(|least| *least < judged.costs.total()),
        _ => None,
    }
}

/// Words that begin a sentence.
fn capital(words: &str) -> String {
    let mut letters = words.chars();
    letters.next().map_or(String::new(), |first| first.to_uppercase().collect::<String>() + letters.as_str())
}

/// A mark of the legend: how it is drawn at a place, and what it means.
pub type Key = (fn(&mut Marks, f64, f64), &'static str);

/// What these marks mean, in lines from the left edge to the right one.
pub fn legend(marks: &mut Marks, keys: &[Key], (left, right): (f64, f64), top: f64) {
    let (mut x, mut y) = (left, top);
    for (draw, words) in keys {
        let width = 34.0 + words.len() as f64 * 6.2 + 16.0;
        if x + width > right && x > left {
            (x, y) = (left, y + 19.0);
        }
        draw(marks, x, y);
        marks.words("small", (x + 34.0, y), words);
        x += width;
    }
}

/// The marks that occur.
fn keys(judged: &Judged) -> Vec<Key> {
    let Judged { job, costs, .. } = judged;
    let all: [(bool, Key); 10] = [
        (true, LIFE),
        (true, CHANGE),
        (has_back(judged), BACK),
        (true, (stop_key, "stop")),
        (true, (opening_key, "opening not used")),
        (!job.idles.is_empty(), IDLE),
        (judged.past.is_some(), (done_key, "what was done")),
        (costs.at_low() < costs.total(), (band_key, "from low to high prices")),
        (cheaper(judged).is_some(), (cheapest_key, "cost of the cheapest plan")),
        (judged.result == 10, (late_key, "past its life")),
    ];
    all.into_iter().filter(|(occurs, _)| *occurs).map(|(_, key)| key).collect()
}

/// The marks that a hall has too.
pub const LIFE: Key = (life_key, "a life, filling as the part wears (used/life in running steps)");
pub const CHANGE: Key = (change_key, "part changed");
pub const BACK: Key = (back_key, "part out and back in");
pub const IDLE: Key = (idle_key, "idle: no wear");

/// Whether a part comes out at a stop and goes back in.
pub fn has_back(judged: &Judged) -> bool {
    judged.plan.stops.iter().any(|stop| !judged.job.put_back(stop).is_empty())
}

/// A rectangle of the legend.
fn block(marks: &mut Marks, class: &str, (x, y): (f64, f64), more: &[(&str, String)]) {
    marks.rectangle(class, (x, y - 11.0), (28.0, 13.0), more, "");
}

/// A life, half worn.
fn life_key(marks: &mut Marks, x: f64, y: f64) {
    block(marks, "life-key", (x, y), &[("fill", "#fff".to_string()), ("stroke", "#000".to_string())]);
    marks.polygon("wear", &[(x, y + 2.0), (x + 28.0, y - 9.0), (x + 28.0, y + 2.0)], &[]);
}

/// The corners of a mark on a row.
fn corners(x: f64, y: f64) -> [(f64, f64); 4] {
    [(x + 14.0, y - 10.0), (x + 20.0, y - 4.0), (x + 14.0, y + 2.0), (x + 8.0, y - 4.0)]
}

/// The mark of a change.
fn change_key(marks: &mut Marks, x: f64, y: f64) {
    marks.polygon("change-key", &corners(x, y), &[]);
}

/// The mark of a part that comes out and goes back in.
fn back_key(marks: &mut Marks, x: f64, y: f64) {
    marks.polygon("back-key", &corners(x, y), &[("fill", "#fff".to_string()), ("stroke", "#000".to_string())]);
}

/// A stop's line.
fn stop_key(marks: &mut Marks, x: f64, y: f64) {
    marks.line("lead", (x + 14.0, y - 12.0), (x + 14.0, y + 3.0), &[]);
}

/// The tick of an opening that is not used.
fn opening_key(marks: &mut Marks, x: f64, y: f64) {
    marks.line("opening-key", (x + 14.0, y - 9.0), (x + 14.0, y), &[("stroke", "#777".to_string())]);
}

/// Idle steps.
fn idle_key(marks: &mut Marks, x: f64, y: f64) {
    for fill in ["#d9d9d9", "url(#hatch)"] {
        block(marks, "idle-key", (x, y), &[("fill", fill.to_string())]);
    }
}

/// What was done.
fn done_key(marks: &mut Marks, x: f64, y: f64) {
    block(marks, "worn", (x, y), &[("stroke", "#000".to_string())]);
}

/// From the low ends of the prices to the high ones.
fn band_key(marks: &mut Marks, x: f64, y: f64) {
    block(marks, "band-key", (x, y), &[]);
    block(marks, "hatch", (x, y), &[]);
}

/// Where the cheapest plan's cost ends.
fn cheapest_key(marks: &mut Marks, x: f64, y: f64) {
    marks.line("cheapest-key", (x + 14.0, y - 13.0), (x + 14.0, y + 4.0), &[]);
}

/// What goes past a life.
fn late_key(marks: &mut Marks, x: f64, y: f64) {
    block(marks, "late-key", (x, y), &[]);
}
