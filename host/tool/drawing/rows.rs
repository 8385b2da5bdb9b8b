//! The rows: each part's lives as bars that fill as the part wears.

use super::labels::cut;
use super::marks::Marks;
use super::sheet::Sheet;
use crate::costs::{low_prices_of_part, prices_of_part, removals_of_part};
use crate::lives::Life;
use crate::numbers::{counted, grouped, runs, span};
use crate::texts::{Job, Plan};
use crate::verdicts::Judged;

/// Rows lower than this have room for two lines of words only.
const LOW: f64 = 46.0;

/// A part's lives as bars, with a dotted line where a stop leaves it in.
pub fn bars(marks: &mut Marks, sheet: &Sheet, job: &Job, plan: &Plan, part: u64) {
    for life in job.lives(plan, part) {
        bar(marks, sheet, job, part, &life);
    }
    for stop in plan.stops.iter().filter(|stop| !stop.parts.contains(&part)) {
        let (x, y) = (sheet.x(stop.step), sheet.y(part) + sheet.margin());
        marks.line("across", (x, y), (x, y + sheet.bar()), &[]);
    }
}

/// The most letters of a name that are shown.
const NAME: usize = 17;

/// The words of a part's row: its name, which parts hold it, what is used of each life, and what its changes cost.
pub fn words(marks: &mut Marks, sheet: &Sheet, judged: &Judged, part: u64) {
    let Judged { job, plan, naming, .. } = judged;
    let middle = sheet.y(part) + sheet.row / 2.0;
    let Some(own) = (part as usize).checked_sub(1).and_then(|at| job.parts.get(at)) else { return };
    marks.words(
        "part",
        (16.0, middle - 1.0),
        &naming.name(part).map_or(format!("Part {part}"), |name| format!("{part} {}", cut(&name, NAME))),
    );
    let behind = if own.holders.is_empty() { String::new() } else { format!("behind {}", runs(&own.holders)) };
    let life = format!("life {}, left {}", own.life, own.left);
    // Where rows are low the two stand side by side, if they can.
    let beside = sheet.row < LOW && !behind.is_empty() && behind.len() + life.len() <= 30;
    let lines = if beside { [format!("{life}, {behind}"), String::new()] } else { [life, behind] };
    two_lines(marks, (16.0, middle), &lines);
    for life in job.lives(plan, part) {
        used(marks, sheet, job, part, &life);
    }
    let count = plan.changes(part).len() as u64;
    marks.words("part", (sheet.right + 12.0, middle - 1.0), &counted(count, "change"));
    two_lines(marks, (sheet.right + 12.0, middle), &amounts(job, plan, part, sheet.row));
}

/// What a part's changes cost, in the lines that a row of this height has room for.
pub fn amounts(job: &Job, plan: &Plan, part: u64, row: f64) -> [String; 2] {
    let prices = span(low_prices_of_part(job, plan, part), prices_of_part(job, plan, part));
    match removals_of_part(job, plan, part) {
        0 => [format!("prices {prices}"), String::new()],
        out if row < LOW => [format!("{prices} + {} removals", grouped(out)), String::new()],
        out => [format!("prices {prices}"), format!("removals {}", grouped(out))],
    }
}

/// Small words beneath a part's or a sum's own; an empty line is left out.
fn two_lines(marks: &mut Marks, (x, middle): (f64, f64), lines: &[String; 2]) {
    for (words, below) in lines.iter().zip([12.0, 24.0]).filter(|(words, _)| !words.is_empty()) {
        marks.words("small", (x, middle + below), words);
    }
}

/// A life: a bar from change to change that fills as the part wears; what goes past the life is black.
fn bar(marks: &mut Marks, sheet: &Sheet, job: &Job, part: u64, life: &Life) {
    let (left, right) = (sheet.x(life.from), sheet.x(life.to));
    let (top, height) = (sheet.y(part) + sheet.margin(), sheet.bar());
    let own = [("data-part", part), ("data-from", life.from), ("data-to", life.to), ("data-used", life.used), ("data-life", life.life)];
    let own: Vec<(&str, String)> = own.map(|(name, value)| (name, value.to_string())).to_vec();
    let tip = format!("part {part}, steps {} to {}: {} of {} used", life.from, life.to, life.used, life.life);
    marks.rectangle("life", (left, top), (right - left, height), &own, &tip);
    for (class, from, to) in sheet.parts_of(life.from, job.due(life).min(life.to)) {
        marks.polygon(class, &wear(sheet, job, life, (from, to), (top, height)), &[]);
    }
    if life.too_long() > 0 {
        let due = sheet.x(job.due(life));
        let more = [("data-part", part.to_string()), ("data-steps", life.too_long().to_string())];
        marks.rectangle("late", (due, top), (right - due, height), &more, &tip);
    }
    marks.line("tick", (left, top), (left, top + height), &[]);
}

/// What is used of a life, and how much it is late, where there is room.
fn used(marks: &mut Marks, sheet: &Sheet, job: &Job, part: u64, life: &Life) {
    let (left, due, right) = (sheet.x(life.from), sheet.x(job.due(life)), sheet.x(life.to));
    let y = sheet.y(part) + sheet.margin() + 12.0;
    let used = format!("{}/{}", life.used, life.life);
    if due - left >= used.len() as f64 * 6.8 + 10.0 {
        marks.words_on_white("used", (left + 7.0, y), &used);
    }
    let late = [format!("{} late", life.too_long()), format!("+{}", life.too_long())];
    let fits = |words: &&String| right - due >= words.len() as f64 * 7.4 + 6.0;
    if let Some(words) = late.iter().find(fits).filter(|_| life.too_long() > 0) {
        marks.words("late-words", (due + 4.0, y), words);
    }
}

/// How far the part is worn from a step of a life to another: level on idle steps, full at the life's end.
fn wear(sheet: &Sheet, job: &Job, life: &Life, (from, to): (u64, u64), (top, height): (f64, f64)) -> Vec<(f64, f64)> {
    let bottom = top + height;
    let level = |step: u64| {
        let used = (life.before + job.runs(life.from, step)).min(life.life) as f64;
        (sheet.x(step), bottom - height * used / life.life.max(1) as f64)
    };
    let mut points = vec![(sheet.x(from), bottom)];
    // Only where the line bends.
    let bends = |step: &u64| *step == from || *step == to || job.idles.contains(step) != job.idles.contains(&(step + 1));
    points.extend((from..=to).filter(bends).map(level));
    points.push((sheet.x(to), bottom));
    points
}
