//! `plan` of many jobs: a plan for each into one folder, several at a time. A line a job, a summary for spreadsheets; what is done already is left alone,
//! and a job at fault stops nobody.

use crate::arguments::PlanOrder;
use crate::calls::{self, MOST_WALK};
use crate::failure::{failure, status_of, Failure, CANT_CREATE, CUT, USAGE};
use crate::json::Value;
use crate::numbers::{counted, grouped, percent, seconds, span};
use crate::verdicts::headed;
use crate::walks;
use crate::watch::Ended;
use crate::{faults, files, output, signals, standard_output};
use std::collections::BTreeSet;
use std::ffi::{OsStr, OsString};
use std::io::{self, IsTerminal};
use std::path::Path;
use std::sync::atomic::{AtomicUsize, Ordering};
use std::sync::Mutex;
use std::time::Instant;

/// What became of a job.
struct Done {
    job: String,
    /// Where its plan is, if it has one.
    plan: Option<String>,
    status: u8,
    result: Option<u32>,
    cost: Option<u64>,
    floor: Option<u64>,
    nodes: Option<u64>,
    seconds: f64,
    words: String,
}

/// Plans every job.
pub fn run(order: &PlanOrder, folder: &OsStr) -> Result<u8, Failure> {
    let places = places(&order.jobs, folder)?;
    if order.output.is_some() {
        return Err(failure(USAGE, "--into says where the plans go, and -o is for one plan"));
    }
    std::fs::create_dir_all(folder).map_err(|error| {
        failure(CANT_CREATE, format_args!("{} can't be made: {}", files::name_of(folder), crate::failure::reason(&error)))
    })?;
    if let Some(path) = &order.summary {
        files::not_among(path, &order.jobs.iter().map(|job| &**job).collect::<Vec<_>>())?;
        files::ready(path)?;
    }
    signals::catch();
    let all = at_once(order, &places);
    if let Some(path) = &order.summary {
        files::write(path, summary(&all).as_bytes())?;
    }
    let sum = format!(
        "{} of {} planned{}",
        all.iter().filter(|done| done.plan.is_some()).count(),
        counted(all.len() as u64, "job"),
        ended(&all, places.len())
    );
    match order.json {
        true => standard_output::write(Value::object(headed("plan", json(&all, &sum))).document().as_bytes())?,
        // Of one job alone its own line says it all.
        false if places.len() == 1 => {}
        false => output::say(&format!("{sum}\n")),
    }
    Ok(all.iter().map(|done| done.status).max().unwrap_or(0).max(if all.len() < places.len() { CUT } else { 0 }))
}

/// That not all jobs had their turn, where it is so.
fn ended(all: &[Done], jobs: usize) -> String {
    match jobs - all.len() {
        0 => String::new(),
        left => format!("; ended before {} more", counted(left as u64, "job")),
    }
}

/// Each job with the file of its plan: its own name, in the folder. No two may have one name.
fn places(jobs: &[OsString], folder: &OsStr) -> Result<Vec<(OsString, OsString)>, Failure> {
    let mut names = BTreeSet::new();
    let mut places = Vec::new();
    for job in jobs {
        let path = Path::new(job);
        let name = path.file_name().filter(|_| !files::is_standard(job));
        let name = name.ok_or_else(|| failure(USAGE, format_args!("{} has no name that a plan could have", files::name_of(job))))?;
        if !names.insert(name.to_os_string()) {
            return Err(failure(USAGE, format_args!("two jobs are called {}, and their plans would be", files::name_of(name))));
        }
        let place = Path::new(folder).join(name).into_os_string();
        files::not_among(&place, &[job])?;
        places.push((job.clone(), place));
    }
    Ok(places)
}

/// Plans so many jobs at a time, the next one where one is done, until all are or a signal comes; in the jobs' order.
fn at_once(order: &PlanOrder, places: &[(OsString, OsString)]) -> Vec<Done> {
    let next = AtomicUsize::new(0);
    let done: Mutex<Vec<(usize, Done)>> = Mutex::new(Vec::new());
    let shows = !order.quiet && io::stderr().is_terminal();
    std::thread::scope(|scope| {
        for _ in 0..order.at_once.min(places.len() as u64).max(1) {
            scope.spawn(|| loop {
                let at = next.fetch_add(1, Ordering::Relaxed);
                let Some((job, place)) = places.get(at).filter(|_| !signals::came()) else { return };
                let own = one(order, job, place);
                let Ok(mut all) = done.lock() else { return };
                if !order.json {
                    let wiped = if shows { "\r\x1b[K" } else { "" };
                    output::say(&format!("{wiped}{}\n", own.words));
                }
                all.push((at, own));
                if shows {
                    output::say(&bar(all.len(), places.len()));
                }
            });
        }
    });
    if shows {
        output::say("\r\x1b[K");
    }
    let mut all = done.into_inner().unwrap_or_default();
    all.sort_by_key(|(at, _)| *at);
    all.into_iter().map(|(_, own)| own).collect()
}

/// A bar for the whole: `[#####     ] 12 of 24 jobs`.
fn bar(done: usize, all: usize) -> String {
    let full = 20 * done / all.max(1);
    format!("\r[{}{}] {done} of {}\x1b[K", "#".repeat(full), " ".repeat(20 - full), counted(all as u64, "job"))
}

/// Plans a job, or says why not.
fn one(order: &PlanOrder, job: &OsStr, place: &OsStr) -> Done {
    let began = Instant::now();
    let mut done = match planned(order, job, place) {
        Ok(done) => done,
        Err(failed) => {
            let result = failed.fault.as_ref().map(|fault| fault.result);
            let words = failed.message.trim_end().to_string();
            Done {
                job: files::name_of(job),
                plan: None,
                status: failed.status,
                result,
                cost: None,
                floor: None,
                nodes: None,
                seconds: 0.0,
                words,
            }
        }
    };
    done.seconds = began.elapsed().as_secs_f64();
    done
}

fn planned(order: &PlanOrder, job: &OsStr, place: &OsStr) -> Result<Done, Failure> {
    let input = files::read(job)?;
    if let Some(reply) = calls::job_fault(&input.bytes)? {
        return Err(faults::refusal(&reply, &input, None));
    }
    let name = files::name_of(place);
    let none = Done {
        job: input.name.clone(),
        plan: None,
        status: 0,
        result: None,
        cost: None,
        floor: None,
        nodes: None,
        seconds: 0.0,
        words: String::new(),
    };
    if let Some(cost) = done_already(&input.bytes, place)? {
        let words = format!("{}: {name} is a plan of it that costs {}, and is left alone", input.name, grouped(cost));
        return Ok(Done { plan: Some(name), cost: Some(cost), words, ..none });
    }
    let walk = order.walk.unwrap_or(MOST_WALK);
    let (search, once, limit) = (order.search(), order.once, order.limit);
    let walked = walks::plan(&input.bytes, &walks::Order { walk, search, quiet: true, once, limit })?;
    let Some(reply) = walked.reply else {
        let words = format!("{}: ended before a walk was finished (7)", input.name);
        return Ok(Done { status: CUT, result: Some(7), words, ..none });
    };
    let (cost, floor, nodes) = (reply.value("cost"), reply.value("floor"), reply.value("nodes"));
    if let Some(text) = reply.plan_text() {
        files::write(place, text)?;
    }
    let gap = |cost: u64| cost.saturating_sub(floor.unwrap_or(0));
    let costs = |cost: u64| format!("a plan that costs {}", span(reply.value("costlow").unwrap_or(cost), cost));
    let said = match (reply.result, cost) {
        (0, Some(cost)) => format!("{}; the cheapest possible (proved)", costs(cost)),
        (7, Some(cost)) => format!("{}; at most {} {} could still be saved", costs(cost), grouped(gap(cost)), percent(gap(cost), cost)),
        (6, _) => "no plan keeps the lives".to_string(),
        _ => "no plan was found so far".to_string(),
    };
    let why = if walked.ended == Ended::ByItself { "" } else { ", ended" };
    let words = format!("{}: {said} ({}{why}, {})", input.name, reply.result, seconds(walked.all.as_secs_f64()));
    let plan = cost.map(|_| name);
    Ok(Done { plan, status: status_of(reply.result), result: Some(reply.result), cost, floor, nodes, words, ..none })
}

/// The cost of the plan that is there already, if the judge accepts it.
fn done_already(job: &[u8], place: &OsStr) -> Result<Option<u64>, Failure> {
    if !Path::new(place).is_file() {
        return Ok(None);
    }
    let plan = files::read(place)?;
    let reply = calls::judge(job, &plan.bytes)?;
    Ok(reply.value("cost").filter(|_| reply.result == 0 && !plan.bytes.is_empty()))
}

/// The summary for spreadsheets: a row for each job.
fn summary(all: &[Done]) -> String {
    let mut text = "job,plan,status,result,cost,floor,nodes,milliseconds\n".to_string();
    let quoted = |words: &str| {
        if words.contains([',', '"', '\n', '\r']) {
            format!("\"{}\"", words.replace('"', "\"\""))
        } else {
            words.to_string()
        }
    };
    for done in all {
        let number = |value: Option<u64>| value.map_or(String::new(), |value| value.to_string());
        let cells = [
            quoted(&done.job),
            quoted(done.plan.as_deref().unwrap_or("")),
            done.status.to_string(),
            number(done.result.map(u64::from)),
            number(done.cost),
            number(done.floor),
            number(done.nodes),
            ((done.seconds * 1000.0).ceil() as u64).to_string(),
        ];
        text += &format!("{}\n", cells.join(","));
    }
    text
}

/// The same for programs.
fn json(all: &[Done], sum: &str) -> Vec<(&'static str, Value)> {
    let own = |done: &Done| {
        Value::object([
            ("job", Value::text(&done.job)),
            ("plan", Value::maybe(done.plan.clone())),
            ("status", Value::Number(u64::from(done.status))),
            ("result", Value::number(done.result.map(u64::from))),
            ("cost", Value::number(done.cost)),
            ("floor", Value::number(done.floor)),
            ("nodes", Value::number(done.nodes)),
            ("milliseconds", Value::Number((done.seconds * 1000.0).ceil() as u64)),
            ("words", Value::text(&done.words)),
        ])
    };
    let worst = all.iter().filter_map(|done| done.result).max().unwrap_or(0);
    vec![
        ("result", Value::Number(u64::from(worst))),
        ("words", Value::text(sum)),
        ("fault", Value::Null),
        ("jobs", Value::list(all.iter().map(own))),
    ]
}
