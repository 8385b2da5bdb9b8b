//! "The texts": the job's lines with its idle lines, the lines of parts that others hold and of prices by a rule, the plan's lines, and how
//! a plan is printed.

use super::lines::{Fault, Lines, MAX_JOB, MAX_TEXT};
use super::model::{Job, Opening, Part, Plan, Rule};

/// "Job: `horizon` 2..365; `walk` 0..4000000000; `openings` 0..64; for each, `opening` 1..365 and `fee` 0..1000000; `parts` 1..16; for
/// each, `life` 1..1000, `left` 1..1000, then one `price` 1..1000000 per opening." The optional lines stand where the requests put them.
/// "A job text may now have 40,960 bytes".
pub fn read_job(text: &[u8]) -> Result<Job, Fault> {
    let mut lines = Lines::new(text, MAX_JOB)?;
    let (job, _) = read_job_lines(&mut lines)?;
    lines.end()?;
    Ok(job)
}

/// The lines of a job, with what may stand behind them; and its first line, as the place of a fault.
pub fn read_job_lines(lines: &mut Lines) -> Result<(Job, Fault), Fault> {
    let horizon = lines.value("horizon", 2, 365)? as i64;
    let first = lines.fault(0);
    let idles = read_idles(lines, horizon)?;
    // "A job's `walk` line, if it still stands, is checked as before and set aside."
    let walk = if lines.begins("walk=") { Some(lines.value("walk", 0, 4_000_000_000)?) } else { None };

    let count = lines.value("openings", 0, 64)?;
    let mut openings: Vec<Opening> = Vec::new();
    for _ in 0..count {
        let step = lines.value("opening", 1, 365)? as i64;
        // "4: an opening not after the one before, or past the horizon."
        if step > horizon || openings.last().is_some_and(|before| step <= before.step) {
            return Err(lines.fault(4));
        }
        let fee = lines.value("fee", 0, 1_000_000)?;
        openings.push(Opening { step, fee });
    }

    let parts = lines.value("parts", 1, 16)? as usize;
    let parts = (0..parts).map(|own| read_part(lines, own, parts, count)).collect::<Result<Vec<Part>, Fault>>()?;
    Ok((Job { horizon, idles, walk, openings, parts }, first))
}

/// The lines of the part at place `own` of `parts`, with a price for each of `openings`.
fn read_part(lines: &mut Lines, own: usize, parts: usize, openings: u64) -> Result<Part, Fault> {
    let life = lines.value("life", 1, 1000)? as i64;
    // "From here on `left` may be 0".
    let left = lines.value("left", 0, 1000)? as i64;
    // "5: `left` greater than `life`, on the `left` line."
    if left > life {
        return Err(lines.fault(5));
    }
    let covered = lines.begins("removal=");
    let (removal, holders) = if covered { read_cover(lines, own, parts)? } else { (0, Vec::new()) };
    let rule = if lines.begins("base=") { Some(read_rule(lines)?) } else { None };
    let (mut prices, mut lows, mut pairs) = (Vec::new(), Vec::new(), Vec::new());
    for k in 0..openings {
        // "E8's rule gives single prices only".
        let (low, high) = match &rule {
            Some(rule) => (None, rule.price(k)),
            None => read_price(lines)?,
        };
        prices.push(high);
        lows.push(low.unwrap_or(high));
        pairs.push(low.is_some());
    }
    Ok(Part { life, left, covered, removal, holders, rule, prices, lows, pairs })
}

/// "Each price may be a pair `low` and `high`, both 1..1000000". It is one exactly if the next line begins with `low=`. The low end where
/// there is one, and the high end.
fn read_price(lines: &mut Lines) -> Result<(Option<u64>, u64), Fault> {
    if !lines.begins("low=") {
        return Ok((None, lines.value("price", 1, 1_000_000)?));
    }
    let low = lines.value("low", 1, 1_000_000)?;
    let high = lines.value("high", 1, 1_000_000)?;
    // "13 for low above high, on the `high` line after 3".
    if low > high {
        return Err(lines.fault(13));
    }
    Ok((Some(low), high))
}

/// "In place of its `price` lines a part may have `base` 1..1000000, `drop` 0..1000000 and `least` 1..1000000." They are there exactly if
/// the next line begins with `base=`, also where there are no openings and so no `price` lines.
fn read_rule(lines: &mut Lines) -> Result<Rule, Fault> {
    let base = lines.value("base", 1, 1_000_000)?;
    let drop = lines.value("drop", 0, 1_000_000)?;
    let least = lines.value("least", 1, 1_000_000)?;
    Ok(Rule { base, drop, least })
}

/// "After each `left` a job may have `removal` 0..1000000, `inside` 0..15 and that many `holder` lines, 1..16, rising". They are there
/// exactly if the next line begins with `removal=`. The removal, and the places of the holders from 0.
fn read_cover(lines: &mut Lines, own: usize, parts: usize) -> Result<(u64, Vec<usize>), Fault> {
    let removal = lines.value("removal", 0, 1_000_000)?;
    let mut holders: Vec<usize> = Vec::new();
    for _ in 0..lines.value("inside", 0, 15)? {
        let holder = lines.value("holder", 1, 16)? as usize - 1;
        // "12 for a holder that doesn't rise, is above `parts` or is the part itself, on its line after 3".
        if holders.last().is_some_and(|before| holder <= *before) || holder >= parts || holder == own {
            return Err(lines.fault(12));
        }
        holders.push(holder);
    }
    Ok((removal, holders))
}

/// "After `horizon` a job may have `idles` 1..365 and that many `idle` lines, 1..365, rising and within the horizon; without the line no
/// step is idle." The line is there exactly if the next one begins with `idles=`.
fn read_idles(lines: &mut Lines, horizon: i64) -> Result<Vec<i64>, Fault> {
    let mut idles: Vec<i64> = Vec::new();
    if !lines.begins("idles=") {
        return Ok(idles);
    }
    for _ in 0..lines.value("idles", 1, 365)? {
        let step = lines.value("idle", 1, 365)? as i64;
        // "Result 4 also serves an idle line that doesn't rise or is past the horizon."
        if step > horizon || idles.last().is_some_and(|before| step <= *before) {
            return Err(lines.fault(4));
        }
        idles.push(step);
    }
    Ok(idles)
}

/// "Plan: `cost` [..]; `stops` 0..64; for each, `stop` 1..365 and `count` 0..16, then that many `part` 1..16." "The plan's `cost` may now
/// be up to 4000000000." The plan and the cost that it states.
pub fn read_plan(job: &Job, text: &[u8]) -> Result<(Plan, u64), Fault> {
    // "An empty plan text shall mean a plan of no stops and cost 0."
    if text.is_empty() {
        return Ok((no_stops(job), 0));
    }
    read_plan_lines(job, &mut Lines::new(text, MAX_TEXT)?, job.horizon)
}

/// The plan of doing nothing.
fn no_stops(job: &Job) -> Plan {
    let openings = job.openings.len();
    Plan { stops: vec![false; openings], changes: vec![vec![false; openings]; job.parts.len()] }
}

/// The plan lines up to the text's end, with no stop after this step: the plan and the cost that it states.
pub fn read_plan_lines(job: &Job, lines: &mut Lines, last: i64) -> Result<(Plan, u64), Fault> {
    let mut plan = no_stops(job);
    let cost = lines.value("cost", 0, 4_000_000_000)?;

    let mut step_before = 0;
    for _ in 0..lines.value("stops", 0, 64)? {
        let step = lines.value("stop", 1, 365)? as i64;
        // "9: a stop that is no opening or doesn't rise".
        let opening = job.openings.iter().position(|opening| opening.step == step);
        let Some(opening) = opening.filter(|_| step > step_before && step <= last) else {
            return Err(lines.fault(9));
        };
        step_before = step;
        plan.stops[opening] = true;

        let mut part_before = 0;
        for _ in 0..lines.value("count", 0, 16)? {
            let part = lines.value("part", 1, 16)? as usize;
            // "a part that is above `parts` or doesn't rise".
            if part > job.parts.len() || part <= part_before {
                return Err(lines.fault(9));
            }
            part_before = part;
            plan.changes[part - 1][opening] = true;
        }
    }

    lines.end()?;
    Ok((plan, cost))
}

/// The plan lines of a plan as the planner and the latest-time habit print them: "If the job has a `low` line [..], a `costlow` line stands
/// before the plan lines; `costlow` and `cost` are the plan at all low and all high ends."
pub fn printed_lines(job: &Job, plan: &Plan) -> String {
    let low = if job.is_banded() { format!("costlow={}\n", job.at_low_ends().cost(plan)) } else { String::new() };
    low + &plan_lines(job, plan)
}

/// The plan lines of a plan, with its cost.
pub fn plan_lines(job: &Job, plan: &Plan) -> String {
    let stops = || (0..job.openings.len()).filter(|opening| plan.stops[*opening]);
    let mut text = format!("cost={}\nstops={}\n", job.cost(plan), stops().count());
    for opening in stops() {
        let parts: Vec<usize> = (0..job.parts.len()).filter(|part| plan.changes[*part][opening]).collect();
        text += &format!("stop={}\ncount={}\n", job.openings[opening].step, parts.len());
        for part in parts {
            text += &format!("part={}\n", part + 1);
        }
    }
    text
}
