//! The library on walks that are too long for the reference: the jobs of TABLE.md, and random jobs against the fast walk in Rust.
#![cfg(feature = "library")]

mod common;
use common::lent::{judged, planned};
use common::{inputs, jobs, rng::Rng, setting};
use juzvarola_checks::fast::{self, Best, Found, Unit};

/// Nodes of a walk, at most.
const LIMIT: u64 = 100_000;

/// The lines of an answer without the changes.
fn lines_of(job: &inputs::Facts, found: Option<Found>) -> String {
    let Some(found) = found else {
        return "result=6\n".to_string();
    };
    let mut lines = format!("result={}\nnodes={}\nfloor={}\n", if found.more { 7 } else { 0 }, found.nodes, found.floor);
    if let Some(Best { cost, stops, .. }) = found.best {
        lines += &format!("cost={cost}\nstops={}\n", stops.count_ones());
        for (k, (step, _)) in job.openings.iter().enumerate() {
            if stops >> k & 1 == 1 {
                lines += &format!("stop={step}\n");
            }
        }
    }
    lines
}

/// The lines of a text that begin with none of the keys.
fn without(text: &str, keys: &[&str]) -> String {
    let stays = |line: &&str| !keys.iter().any(|key| line.starts_with(key));
    text.lines().filter(stays).map(|line| format!("{line}\n")).collect()
}

#[test]
fn library_walks_as_far_as_the_fast_walk() {
    common::with_stack(|| {
        let mut rng = Rng::new(setting("JUZVAROLA_SEED", 9));
        let mut long = 0;
        for number in 0..setting("JUZVAROLA_CASES", 400) {
            let mut job = inputs::facts(&mut rng, if number % 2 == 0 { inputs::MIDDLE } else { inputs::LARGE });
            job.walk = rng.within(LIMIT / 2, LIMIT);
            let text = job.text();
            let found = fast::Job::read(&text, job.walk).solve(if job.is_held() { Unit::Holders } else { Unit::Plain });
            let written = planned(&text, job.walk);
            let kept = without(&written, &["costlow=", "count=", "part="]);
            assert_eq!(kept, lines_of(&job, found), "{}", String::from_utf8_lossy(&text));
            if let Some(at) = written.find("cost=") {
                let cost = found.and_then(|found| found.best).expect("a plan").cost;
                assert_eq!(judged(&text, &written.as_bytes()[at..]), format!("result=0\ncost={cost}\n"));
            }
            long += u64::from(found.is_some_and(|found| found.nodes > LIMIT / 10));
        }
        println!("{long} walks of more than {} nodes", LIMIT / 10);
    });
}

/// Nodes, floor and cost of the jobs of TABLE.md whose walk is short; the plan is one that the judge accepts.
#[test]
fn library_gives_the_table() {
    common::with_stack(|| {
        for row in jobs::up_to(4_000_000).into_iter().filter(|row| inputs::holders_on() || !row.is_held()) {
            let written = planned(&row.text, row.nodes);
            let head = format!("result=0\nnodes={}\nfloor={}\ncost={}\n", row.nodes, row.floor, row.cost);
            assert!(written.starts_with(&head), "{}: {written}", row.name);
            let plan = &written[written.find("cost=").expect("a plan")..];
            assert_eq!(judged(&row.text, plan.as_bytes()), format!("result=0\ncost={}\n", row.cost), "{}", row.name);
        }
    });
}
