//! The calendar: title and verdict, idle steps, steps, openings and stops; the rows and the foot are files of their own.

use super::foot::foot;
use super::labels::{file_name, lines, round_distance, spread};
use super::marks::Marks;
use super::rows;
use super::sheet::{Sheet, EDGE, LINE, STRIP};
use crate::naming::Naming;
use crate::numbers::{counted, grouped, runs};
use crate::texts::{Job, Plan};
use crate::verdicts::Judged;

/// The least width of a hatched shape.
const HATCHED: f64 = 6.0;

/// The whole picture.
pub fn svg(judged: &Judged) -> String {
    let Judged { job, plan, naming, .. } = judged;
    let sheet = Sheet::of(judged);
    let mut marks = Marks::sheet((sheet.width, sheet.height), &format!("Calendar of stops and part changes: {}", judged.words));
    head(&mut marks, &sheet, judged);
    idle_steps(&mut marks, &sheet, job);
    axis(&mut marks, &sheet, job, naming);
    stop_lines(&mut marks, &sheet, plan);
    let parts = 1..=job.parts.len() as u64;
    parts.clone().for_each(|part| rows::bars(&mut marks, &sheet, job, plan, part));
    hatching(&mut marks, &sheet, job);
    today(&mut marks, &sheet, judged);
    parts.for_each(|part| rows::words(&mut marks, &sheet, judged, part));
    openings(&mut marks, &sheet, job, plan);
    stop_labels(&mut marks, &sheet, judged);
    changes(&mut marks, &sheet, job, plan);
    foot(&mut marks, &sheet, judged);
    marks.text()
}

/// The title.
pub fn title(judged: &Judged) -> String {
    let (job, plan) = (&judged.job, &judged.plan);
    let size = format!("{} over {}", counted(job.parts.len() as u64, "part"), counted(job.horizon, "step"));
    let what = format!("{}, {}", counted(plan.stops.len() as u64, "stop"), counted(plan.change_count(), "change"));
    let done = judged.past.map_or(String::new(), |past| format!("; done up to step {}", judged.naming.step(past.step)));
    format!("Stops and part changes: {size}, {what}{done}")
}

/// The verdict, in lines for a sheet of this width.
pub fn verdict(judged: &Judged, width: f64) -> Vec<String> {
    let (word, letter) = if judged.result == 0 { ("Verdict", 7.8) } else { ("REFUSED", 9.8) };
    lines(format!("{word}: {}{}.", judged.words, others(judged)).split(' '), " ", width - 2.0 * EDGE, letter)
}

/// The title, the verdict beneath it, and whose they are.
fn head(marks: &mut Marks, sheet: &Sheet, judged: &Judged) {
    marks.words("title", (EDGE, 30.0), &title(judged));
    let class = if judged.result == 0 { "verdict" } else { "refused" };
    marks.lines(class, (EDGE, 52.0), LINE, &verdict(judged, sheet.width));
    let from = judged.naming.date(1).map_or(String::new(), |date| format!("; step 1 begins on {date}"));
    let whose = format!("Plan {} of job {}{from}", file_name(&judged.plan_name), file_name(&judged.job_name));
    marks.words("small", (EDGE, 70.0 + sheet.verdict), &whose);
}

/// The parts that are not kept besides the one that the verdict names, which is the lowest.
fn others(judged: &Judged) -> String {
    let failing: Vec<u64> = judged.failing().iter().map(|late| late.part).collect();
    match failing.get(1..).filter(|_| judged.result == 10) {
        None | Some([]) => String::new(),
        Some([one]) => format!("; nor is part {one}"),
        Some(rest) => format!("; nor are parts {}", runs(rest)),
    }
}

/// Runs of idle steps: the step before the first, and the last.
fn idle_runs(job: &Job) -> Vec<(u64, u64)> {
    let mut runs: Vec<(u64, u64)> = Vec::new();
    for idle in &job.idles {
        match runs.last_mut() {
            Some((_, last)) if *last + 1 == *idle => *last = *idle,
            _ => runs.push((idle.saturating_sub(1), *idle)),
        }
    }
    runs
}

/// Idle steps shaded over the height of all rows.
pub fn idle_steps(marks: &mut Marks, sheet: &Sheet, job: &Job) {
    let top = sheet.strip + STRIP;
    for (before, last) in idle_runs(job) {
        let size = (sheet.x(last) - sheet.x(before), sheet.bottom - top);
        let more = [("data-from", (before + 1).to_string()), ("data-to", last.to_string())];
        marks.rectangle("idle", (sheet.x(before), top), size, &more, &format!("idle: steps {} to {last}", before + 1));
    }
}

/// The hatching of idle steps, which shows on the bars too; single days of a year are too narrow for it.
pub fn hatching(marks: &mut Marks, sheet: &Sheet, job: &Job) {
    let top = sheet.strip + STRIP;
    for (before, last) in idle_runs(job) {
        let width = sheet.x(last) - sheet.x(before);
        if width >= HATCHED {
            marks.rectangle("hatch", (sheet.x(before), top), (width, sheet.bottom - top), &[], "");
        }
    }
}

/// Steps with their numbers beneath the rows, and the calendar's frame.
pub fn axis(marks: &mut Marks, sheet: &Sheet, job: &Job, naming: &Naming) {
    let distance = round_distance(sheet.step, if naming.has_dates() { 72.0 } else { 32.0 });
    let small = round_distance(sheet.step, 5.0);
    for step in (0..=job.end()).filter(|step| step % small == 0) {
        let long = step % distance == 0;
        let x = sheet.x(step);
        marks.line("tick", (x, sheet.bottom), (x, sheet.bottom + if long { 8.0 } else { 4.0 }), &[]);
        if long && step > 0 && step < job.end() && job.end() - step >= distance / 2 {
            marks.words("small middle", (x, sheet.bottom + 21.0), &step.to_string());
            let beneath = naming.date(step).into_iter().chain(beside(sheet, naming, step));
            for (date, line) in beneath.zip([34.0, 48.0]) {
                marks.words("small middle", (x, sheet.bottom + line), &date);
            }
            marks.line("grid", (x, sheet.top), (x, sheet.bottom), &[]);
        }
    }
    marks.words("small end", (sheet.left - 8.0, sheet.bottom + 21.0), "step");
    let line = if naming.has_dates() { 48.0 } else { 34.0 };
    if sheet.past > 0 || naming.whole(0).is_some() {
        marks.words("small end", (sheet.left - 8.0, sheet.bottom + line), if sheet.past > 0 { "from today" } else { "of the whole" });
    }
    marks.words("small", (sheet.right + 4.0, sheet.bottom + 21.0), &format!("end: after {}", job.horizon));
    marks.rectangle("frame", (sheet.left, sheet.strip), (sheet.right - sheet.left, sheet.bottom - sheet.strip), &[], "");
}

/// A step's other number: the one that it has in the plan that goes on, or in the whole of which the job is left.
fn beside(sheet: &Sheet, naming: &Naming, step: u64) -> Option<String> {
    match sheet.past {
        0 => naming.whole(step).map(|whole| whole.to_string()),
        past => {
            Some(step.saturating_sub(past)).filter(|later| *later > 0 && *later as f64 * sheet.step > 34.0).map(|later| format!("+{later}"))
        }
    }
}

/// A line for today, behind the last step that was done.
fn today(marks: &mut Marks, sheet: &Sheet, judged: &Judged) {
    let Some(past) = judged.past else { return };
    let (x, line) = (sheet.x(past.step), if judged.naming.has_dates() { 48.0 } else { 34.0 });
    marks.line("today", (x, sheet.strip), (x, sheet.bottom + 9.0), &[("data-step", past.step.to_string())]);
    marks.words("today-words", (x, sheet.bottom + line), "today");
}

/// The stops as lines from the strip down through all rows.
pub fn stop_lines(marks: &mut Marks, sheet: &Sheet, plan: &Plan) {
    for stop in &plan.stops {
        let x = sheet.x(stop.step);
        marks.line(&sheet.class("stop", stop.step), (x, sheet.strip), (x, sheet.bottom), &[("data-step", stop.step.to_string())]);
    }
}

/// The openings in their strip: those not used as light ticks.
fn openings(marks: &mut Marks, sheet: &Sheet, job: &Job, plan: &Plan) {
    marks.words("small end", (sheet.left - 8.0, sheet.strip + 10.0), "openings");
    marks.rectangle("frame", (sheet.left, sheet.strip), (sheet.right - sheet.left, STRIP), &[], "");
    for opening in &job.openings {
        let x = sheet.x(opening.step);
        if !plan.stops.iter().any(|stop| stop.step == opening.step) {
            let more = [("data-step", opening.step.to_string())];
            marks.line("opening", (x, sheet.strip + 3.0), (x, sheet.strip + STRIP), &more);
        }
    }
}

/// Each stop's step and fee above its line, moved aside where they would stand on each other.
fn stop_labels(marks: &mut Marks, sheet: &Sheet, judged: &Judged) {
    let Judged { job, plan, naming, .. } = judged;
    let positions: Vec<f64> = plan.stops.iter().map(|stop| sheet.x(stop.step)).collect();
    let half = sheet.label / 2.0;
    let places = spread(&positions, sheet.label, sheet.left - 12.0 + half, sheet.right + 60.0 - half);
    let bend = sheet.strip - 14.0;
    for ((stop, x), place) in plan.stops.iter().zip(&positions).zip(&places) {
        marks.line("lead", (*x, sheet.strip), (*place, bend), &[]);
        let fee = grouped(job.fee(stop.step));
        if sheet.upwards {
            let date = naming.date(stop.step).map_or(String::new(), |date| format!(" ({date})"));
            marks.words_upwards(&sheet.class("up", stop.step), (place + 4.0, bend - 3.0), &format!("{}{date}: {fee}", stop.step));
        } else {
            let class = |class| sheet.class(class, stop.step);
            naming.date(stop.step).into_iter().for_each(|date| marks.words(&class("date"), (*place, bend - 32.0), &date));
            marks.words(&class("step"), (*place, bend - 18.0), &stop.step.to_string());
            marks.words(&class("fee"), (*place, bend - 4.0), &fee);
        }
    }
    let (first, second) = if sheet.upwards { ("stop at step:", "its fee") } else { ("stop at step", "its fee") };
    marks.words("small end", (sheet.left - 16.0, bend - 18.0), first);
    marks.words("small end", (sheet.left - 16.0, bend - 4.0), second);
}

/// A mark on the row of each part that is changed at a stop, and a hollow one where a part comes out and stays in use.
pub fn changes(marks: &mut Marks, sheet: &Sheet, job: &Job, plan: &Plan) {
    for stop in &plan.stops {
        let changed = stop.parts.iter().map(|part| ("change", *part));
        for (class, part) in changed.chain(job.put_back(stop).into_iter().map(|part| ("back", part))) {
            let (x, y) = (sheet.x(stop.step), sheet.y(part) + sheet.row / 2.0);
            let size = (sheet.row * 0.16).clamp(4.5, 7.0);
            let points = [(x, y - size), (x + size, y), (x, y + size), (x - size, y)];
            let more = [("data-part", part.to_string()), ("data-step", stop.step.to_string())];
            marks.polygon(&sheet.class(class, stop.step), &points, &more);
        }
    }
}
