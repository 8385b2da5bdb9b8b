//! The sheet: how large it is and where things stand on it.

use super::{calendar, foot, rows};
use crate::numbers::grouped;
use crate::verdicts::Judged;

/// The width of the calendar itself; the sheet is wider by its margins.
const CALENDAR: f64 = 1100.0;
/// The left margin, and what it is where parts have names or stand behind others.
const LEFT: f64 = 132.0;
const WIDE_LEFT: f64 = 226.0;
/// The least right margin.
const RIGHT: f64 = 128.0;
/// Title and verdict, where that has one line.
const HEAD: f64 = 78.0;
/// The strip that shows the openings.
pub const STRIP: f64 = 12.0;
/// The axis with its numbers, and a line of dates.
const AXIS: f64 = 34.0;
const DATES: f64 = 14.0;
/// Costs with their bar, and the legend, where the costs have one line.
const FOOT: f64 = 118.0;
/// Each further line of the verdict or of the costs.
pub const LINE: f64 = 18.0;
/// What is left free at the sheet's left and right edges.
pub const EDGE: f64 = 16.0;
/// The width of a digit in a label, of a date, and of a letter in small words.
const DIGIT: f64 = 7.2;
const DATE: f64 = 66.0;
const SMALL: f64 = 6.8;

/// Sizes and places, in units of the picture.
pub struct Sheet {
    pub width: f64,
    pub height: f64,
    /// The calendar's left and right edges.
    pub left: f64,
    pub right: f64,
    /// The top of the strip of openings, of the rows, and the bottom of the rows.
    pub strip: f64,
    pub top: f64,
    pub bottom: f64,
    pub row: f64,
    pub step: f64,
    /// Where the foot begins.
    pub foot: f64,
    /// How far down the lines of the verdict, and those of the costs, move what stands beneath them.
    pub verdict: f64,
    pub costs: f64,
    /// How far apart the stops' labels must be, and whether they run upwards.
    pub label: f64,
    pub upwards: bool,
    /// The step up to which all was done.
    pub past: u64,
}

impl Sheet {
    /// The sheet for a plan of a job.
    pub fn of(judged: &Judged) -> Sheet {
        let row = match judged.job.parts.len() {
            0..=6 => 58.0,
            7..=10 => 46.0,
            _ => 36.0,
        };
        Sheet::with_rows(judged, row)
    }

    /// The sheet with rows of this height.
    pub fn with_rows(judged: &Judged, row: f64) -> Sheet {
        let Judged { job, plan, naming, .. } = judged;
        let digits = plan.stops.iter().map(|stop| grouped(job.fee(stop.step)).len().max(stop.step.to_string().len())).max().unwrap_or(1);
        let dated = |more: f64| if naming.has_dates() { more } else { 0.0 };
        let level = (digits as f64 * DIGIT).max(dated(DATE)) + 10.0;
        let upwards = level * plan.stops.len() as f64 > CALENDAR;
        let band = if upwards { (digits + 6) as f64 * DIGIT + 20.0 + dated(DATE + 2.0 * DIGIT) } else { 48.0 + dated(DATES) };
        let wide = naming.has_names() || job.parts.iter().any(|part| !part.holders.is_empty());
        let left = if wide { WIDE_LEFT } else { LEFT };
        let amounts = (1..=job.parts.len() as u64).flat_map(|part| rows::amounts(job, plan, part, row));
        let right = amounts.map(|words| words.len() as f64 * SMALL + 28.0).fold(RIGHT, f64::max);
        let width = left + CALENDAR + right;
        let more = |lines: Vec<String>| LINE * lines.len().saturating_sub(1) as f64;
        let (verdict, costs) = (more(calendar::verdict(judged, width)), more(foot::costs(judged, width)));
        let strip = HEAD + verdict + band;
        let top = strip + STRIP + 6.0;
        let bottom = top + row * job.parts.len() as f64;
        // Lines of dates and of other numbers beneath the axis.
        let beneath = dated(DATES) + if judged.past.is_some() || naming.whole(0).is_some() { DATES } else { 0.0 };
        Sheet {
            width,
            height: bottom + AXIS + costs + FOOT + beneath,
            left,
            right: left + CALENDAR,
            strip,
            top,
            bottom,
            row,
            step: CALENDAR / job.end().max(1) as f64,
            foot: bottom + beneath,
            verdict,
            costs,
            label: if upwards { 13.0 } else { level },
            upwards,
            past: judged.past.map_or(0, |past| past.step),
        }
    }

    /// Where a step stands: a change at it, and the end of the column in which it runs.
    pub fn x(&self, step: u64) -> f64 {
        self.left + step as f64 * self.step
    }

    /// What stands from a step to another: what was done, and what is to come.
    pub fn parts_of(&self, from: u64, to: u64) -> Vec<(&'static str, u64, u64)> {
        match self.past {
            past if past <= from => vec![("wear", from, to)],
            past if past >= to => vec![("worn", from, to)],
            past => vec![("worn", from, past), ("wear", past, to)],
        }
    }

    /// A class, with that of what was done where a step is not to come any more.
    pub fn class(&self, class: &str, step: u64) -> String {
        if step <= self.past {
            format!("{class} done")
        } else {
            class.to_string()
        }
    }

    /// The top of the row of a part, counted from 1.
    pub fn y(&self, part: u64) -> f64 {
        self.top + (part.saturating_sub(1)) as f64 * self.row
    }

    /// The free space above and below a bar.
    pub fn margin(&self) -> f64 {
        self.row * 0.14
    }

    /// The height of a bar.
    pub fn bar(&self) -> f64 {
        self.row - 2.0 * self.margin()
    }
}
