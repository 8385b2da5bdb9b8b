//! Work logs: what was done of a job up to a step.

use super::inputs::{self, Facts};
use super::rng::Rng;
use super::Call;
use juzvarola_checks::reference::model::{Job, Plan};
use juzvarola_checks::reference::texts::{plan_lines, read_job, read_plan};

/// The text of a log: its step, and the part of a plan up to it at its true cost.
pub fn text(job: &Job, plan: &Plan, step: i64) -> Vec<u8> {
    format!("step={step}\n{}", plan_lines(job, &start(job, plan, step))).into_bytes()
}

/// The part of a plan up to a step.
pub fn start(job: &Job, plan: &Plan, step: i64) -> Plan {
    let upto = |set: &Vec<bool>| set.iter().zip(&job.openings).map(|(yes, opening)| *yes && opening.step <= step).collect();
    Plan { stops: upto(&plan.stops), changes: plan.changes.iter().map(upto).collect() }
}

/// The part of a plan from the opening with this place on.
pub fn rest(plan: &Plan, first: usize) -> Plan {
    Plan { stops: plan.stops[first..].to_vec(), changes: plan.changes.iter().map(|own| own[first..].to_vec()).collect() }
}

/// A step that a log may end at; none for a horizon of 2.
pub fn step(rng: &mut Rng, horizon: i64) -> Option<i64> {
    (horizon > 2).then(|| rng.within(1, horizon as u64 - 2) as i64)
}

/// A log of a random plan, which may or may not keep the lives; its cost at times not the true one, its step at times at or past the limits.
pub fn log(rng: &mut Rng, facts: &Facts) -> Vec<u8> {
    let job = read_job(&facts.text()).expect("a job without faults");
    let step = step(rng, job.horizon).unwrap_or(1);
    let (plan, _) = read_plan(&job, &inputs::plan(rng, facts)).expect("a plan without faults");
    let text = String::from_utf8(text(&job, &plan, step)).expect("ASCII");
    match rng.below(16) {
        0 => text.replacen(&format!("step={step}"), &format!("step={}", rng.pick(&[0, job.horizon - 1, job.horizon - 2, 365, 366])), 1),
        1 => text.replacen("cost=", &format!("cost={}", rng.within(1, 9)), 1),
        // A stop after the step, where the plan has one.
        2 => format!("step={step}\n{}", plan_lines(&job, &plan)),
        3 => text.split_inclusive('\n').skip(1).collect(),
        4 => text.split_inclusive('\n').take(1).collect(),
        _ => text,
    }
    .into_bytes()
}

/// The log of random stops and changes of a job, at its true cost; none for a horizon of 2.
pub fn random(rng: &mut Rng, job: &Job) -> Option<Vec<u8>> {
    let step = step(rng, job.horizon)?;
    let often = rng.pick(&[3, 8, 10]);
    let stops: Vec<bool> = job.openings.iter().map(|_| rng.below(10) < often).collect();
    let changes = job.parts.iter().map(|_| stops.iter().map(|stop| *stop && rng.below(10) < often).collect()).collect();
    Some(text(job, &Plan { stops, changes }, step))
}

/// A call to carry on with a job, its log in place of a plan text: job and log with or without faults, now and then a short or a long output.
pub fn call(rng: &mut Rng, facts: &Facts) -> Call {
    let log = log(rng, facts);
    let output = if rng.once_in(20) { rng.pick(&[0, 1, 16_384, 32_768, 40_959, 40_961]) } else { 40_960 };
    let (job, log) = match rng.below(8) {
        0 => (inputs::damaged_job(rng, facts), log),
        1 | 2 => (facts.text(), inputs::damaged(rng, log)),
        _ => (facts.text(), log),
    };
    Call { job, plan: Some(log), walk: 0, output }
}

/// The log of both: "The joined log has the second's steps shifted by the first's, and the costs added."
pub fn joined(first: &str, second: &str) -> String {
    let value = |log: &str, key: &str| -> u64 {
        log.lines().find_map(|line| line.strip_prefix(key)?.strip_prefix('=')?.parse().ok()).expect("a line of the log")
    };
    let sum = |key: &str| value(first, key) + value(second, key);
    let shift = value(first, "step");
    let shifted = |line: &str| match line.strip_prefix("stop=") {
        Some(step) => format!("stop={}\n", step.parse::<u64>().expect("a step") + shift),
        None => format!("{line}\n"),
    };
    let stops = |log: &str| log.lines().skip(3).map(str::to_string).collect::<Vec<String>>();
    let first_stops: String = stops(first).iter().map(|line| format!("{line}\n")).collect();
    let second_stops: String = stops(second).iter().map(|line| shifted(line)).collect();
    format!("step={}\ncost={}\nstops={}\n{first_stops}{second_stops}", sum("step"), sum("cost"), sum("stops"))
}
