//! A hall as a picture: one axis of steps, a strip of discs for the calls of the crew with a thin line from each through all lines, and a block of part
//! rows for each line.

use super::calendar::{axis, changes, hatching, idle_steps, stop_lines};
use super::foot::{has_back, legend, Key, BACK, CHANGE, IDLE, LIFE};
use super::labels::spread;
use super::marks::Marks;
use super::rows;
use super::sheet::{Sheet, EDGE};
use crate::hall::Planned;
use crate::numbers::{counted, grouped, percent};
use crate::verdicts::Judged;

/// Title and sums.
const HEAD: f64 = 84.0;
/// The strip of discs, with the calls' steps above.
const STRIP: f64 = 76.0;
/// A line's heading.
const HEADING: f64 = 34.0;
/// A part's row.
const ROW: f64 = 40.0;
/// The axis with its numbers.
const AXIS: f64 = 44.0;
/// The bars of costs, and the legend.
const FOOT: f64 = 128.0;
/// A disc's radius.
const DISC: f64 = 7.0;

/// The whole picture.
pub fn svg(planned: &Planned) -> String {
    let sheets = sheets(planned);
    let Some((first, last)) = sheets.first().zip(sheets.last()) else { return String::new() };
    let (width, height) = (first.width, last.bottom + AXIS + FOOT);
    let words = format!("Calls of the crew and part changes of {}: {}", counted(sheets.len() as u64, "line"), title(planned));
    let mut marks = Marks::sheet((width, height), &words);
    head(&mut marks, planned);
    let job = &planned.lines[0].job;
    axis(&mut marks, &Sheet { strip: first.top, bottom: last.bottom, ..sheets[0] }, job, &planned.naming);
    calls(&mut marks, planned, first, last.bottom);
    for (at, (line, sheet)) in planned.lines.iter().zip(&sheets).enumerate() {
        block(&mut marks, planned, at, line, sheet);
    }
    costs(&mut marks, planned, last);
    marks.text()
}

/// Where each line's block stands: all of one width, beneath each other.
fn sheets(planned: &Planned) -> Vec<Sheet> {
    let own: Vec<Sheet> = planned.lines.iter().map(|line| Sheet::with_rows(line, ROW)).collect();
    let widest = |of: &dyn Fn(&Sheet) -> f64| own.iter().map(of).fold(0.0, f64::max);
    let (left, margin) = (widest(&|sheet| sheet.left), widest(&|sheet| sheet.width - sheet.right));
    let mut y = HEAD + STRIP;
    let mut sheets = Vec::new();
    for (line, sheet) in planned.lines.iter().zip(own) {
        let top = y + HEADING;
        let bottom = top + ROW * line.job.parts.len() as f64;
        let right = left + (sheet.right - sheet.left);
        sheets.push(Sheet { left, right, width: right + margin, strip: top - super::sheet::STRIP, top, bottom, ..sheet });
        y = bottom;
    }
    sheets
}

/// The title.
fn title(planned: &Planned) -> String {
    let lines = counted(planned.lines.len() as u64, "line");
    let calls = counted(planned.calls().len() as u64, "call");
    let cost = planned.cost().map_or(String::new(), grouped);
    format!("A hall of {lines} and one crew: {calls}, {cost} in all")
}

/// The title, and what planning together saves.
fn head(marks: &mut Marks, planned: &Planned) {
    let verdict = match planned.result() {
        0 => "the cheapest possible (proved)".to_string(),
        _ => format!("the best plans so far; none cost less than {}", grouped(planned.value("floor").unwrap_or(0))),
    };
    marks.words("title", (EDGE, 30.0), &title(planned));
    marks.words("verdict", (EDGE, 52.0), &format!("Planned together: {verdict}."));
    let saved = planned.cost().zip(planned.cost_alone()).filter(|(cost, alone)| cost < alone);
    let words = match saved {
        Some((cost, alone)) => format!(
            "Each line planned alone: {} with {}; {} {} saved.",
            grouped(alone),
            counted(planned.calls_alone().len() as u64, "call"),
            grouped(alone - cost),
            percent(alone - cost, alone)
        ),
        None => "Each line planned alone costs no more.".to_string(),
    };
    marks.words("verdict", (EDGE, 71.0), &words);
}

/// The strip: a disc for each call with its step above and a line down through all lines, and a hollow one where only lines planned alone would call.
fn calls(marks: &mut Marks, planned: &Planned, sheet: &Sheet, bottom: f64) {
    let own = planned.calls();
    let y = HEAD + STRIP - 14.0;
    let positions: Vec<f64> = own.iter().map(|step| sheet.x(*step)).collect();
    let dated = planned.naming.has_dates();
    let gap = if dated { 74.0 } else { 26.0 };
    let places = spread(&positions, gap, sheet.left + gap / 2.0 - 12.0, sheet.right + 30.0);
    for ((step, x), place) in own.iter().zip(&positions).zip(&places) {
        marks.line("call-line", (*x, y), (*x, bottom), &[("data-step", step.to_string())]);
        marks.line("lead", (*x, y - DISC), (*place, y - 14.0), &[]);
        marks.words("step", (*place, y - 17.0), &step.to_string());
        planned.naming.date(*step).into_iter().for_each(|date| marks.words("date", (*place, y - 31.0), &date));
        marks.circle("call", (*x, y), DISC, &[("data-step", step.to_string())], &format!("call at step {step}"));
    }
    for step in planned.calls_alone().into_iter().filter(|step| !own.contains(step)) {
        let tip = format!("no call at step {step}: lines planned alone would need one");
        marks.circle("call-alone", (sheet.x(step), y), DISC - 1.0, &[("data-step", step.to_string())], &tip);
    }
    marks.words("small end", (sheet.left - 14.0, y + 4.0), "calls of the crew");
}

/// A line's block: its heading with its cost, and its parts' rows.
fn block(marks: &mut Marks, planned: &Planned, at: usize, line: &Judged, sheet: &Sheet) {
    let Judged { job, plan, .. } = line;
    let alone = planned
        .alone
        .get(at)
        .map_or(String::new(), |plan| format!("; alone {} with {}", grouped(plan.cost), counted(plan.stops.len() as u64, "stop")));
    let words = format!(
        "{}, {}, cost {}{alone}",
        counted(plan.stops.len() as u64, "stop"),
        counted(plan.change_count(), "change"),
        grouped(plan.cost)
    );
    marks.words("part", (EDGE, sheet.top - 10.0), &format!("Line {}", at + 1));
    marks.words_on_white("small", (sheet.left + 4.0, sheet.top - 10.0), &words);
    idle_steps(marks, sheet, job);
    stop_lines(marks, &Sheet { strip: sheet.top, ..*sheet }, plan);
    let parts = 1..=job.parts.len() as u64;
    parts.clone().for_each(|part| rows::bars(marks, sheet, job, plan, part));
    hatching(marks, sheet, job);
    parts.for_each(|part| rows::words(marks, sheet, line, part));
    changes(marks, sheet, job, plan);
}

/// Two bars to one scale: what the hall costs, and what it would cost if each line were planned alone.
fn costs(marks: &mut Marks, planned: &Planned, sheet: &Sheet) {
    let (top, left) = (sheet.bottom + AXIS + 22.0, sheet.left);
    let together = (planned.lines.iter().map(|line| line.plan.cost).collect::<Vec<u64>>(), planned.calls().len(), planned.cost());
    let alone = (planned.alone.iter().map(|plan| plan.cost).collect::<Vec<u64>>(), planned.calls_alone().len(), planned.cost_alone());
    let most = together.2.max(alone.2).unwrap_or(1).max(1);
    let scale = (sheet.right - left) / most as f64;
    for ((name, (lines, calls, all)), y) in [("together", together), ("each alone", alone)].into_iter().zip([top, top + 26.0]) {
        let Some(all) = all else { continue };
        marks.words("small end", (left - 8.0, y + 12.0), &format!("{name} {}", grouped(all)));
        let mut x = left;
        let of_lines = lines
            .into_iter()
            .enumerate()
            .map(|(at, cost)| (format!("line {}", at + 1), if at % 2 == 0 { "sum parts" } else { "sum band" }, cost));
        let of_calls = (counted(calls as u64, "call"), "sum fees", calls as u64 * planned.hall.call);
        for (what, class, cost) in of_lines.chain([of_calls]).filter(|(_, _, cost)| *cost > 0) {
            let width = cost as f64 * scale;
            let words = format!("{what} {}", grouped(cost));
            let more = [("data-of", format!("{name}: {what}")), ("data-amount", cost.to_string())];
            marks.rectangle(class, (x, y), (width, 16.0), &more, &words);
            if width > words.len() as f64 * 6.6 + 8.0 {
                marks.words(if class == "sum fees" { "sum-words light" } else { "sum-words" }, (x + 5.0, y + 12.0), &words);
            }
            x += width;
        }
    }
    legend(marks, &keys(planned), (left, sheet.width - EDGE), top + 74.0);
}

/// The marks that occur.
fn keys(planned: &Planned) -> Vec<Key> {
    let own = planned.calls();
    let all: [(bool, Key); 6] = [
        (true, (call_key, "a call of the crew")),
        (planned.calls_alone().iter().any(|step| !own.contains(step)), (alone_key, "a call that planning each line alone would need")),
        (true, CHANGE),
        (planned.lines.iter().any(has_back), BACK),
        (planned.lines.iter().any(|line| !line.job.idles.is_empty()), IDLE),
        (true, LIFE),
    ];
    all.into_iter().filter(|(occurs, _)| *occurs).map(|(_, key)| key).collect()
}

/// A call's disc.
fn call_key(marks: &mut Marks, x: f64, y: f64) {
    marks.circle("call", (x + 14.0, y - 4.0), DISC, &[], "");
}

/// The hollow disc of a call that is not made.
fn alone_key(marks: &mut Marks, x: f64, y: f64) {
    marks.circle("call-alone", (x + 14.0, y - 4.0), DISC - 1.0, &[], "");
}
