//! The fast walk in Rust against the reference and against TABLE.md, so that the benchmark compares like with like.

mod common;
use common::{inputs, jobs, rng::Rng, setting};
use juzvarola_checks::fast::{self, Best, Found, Unit};
use juzvarola_checks::reference::walk::Decision;
use juzvarola_checks::reference::{model, texts};

/// The reference's best plan: cost, stops, removals.
fn best_of(job: &model::Job, (cost, point): (u64, Vec<Decision>)) -> Best {
    let holding = job.holding();
    let mut best = Best { cost, stops: 0, removed: [0; 64] };
    for (k, decision) in point.iter().enumerate() {
        if let Decision::Stop(removed) = decision {
            best.stops |= 1 << k;
            best.removed[k] = holding.iter().zip(removed).fold(0, |bits, (part, removed)| bits | u16::from(*removed) << part);
        }
    }
    best
}

fn by_reference(text: &[u8], walk: u64) -> Option<Found> {
    let job = texts::read_job(text).expect("a job without faults");
    let floor = job.floor()?;
    let walk = job.walk(walk);
    Some(Found { nodes: walk.nodes, more: walk.more, floor, best: walk.best.map(|best| best_of(&job, best)) })
}

/// The forms of the walk that are for this job.
fn units(job: &fast::Job) -> Vec<Unit> {
    let plain = if job.is_plain() { Unit::all() } else { Vec::new() };
    [plain, vec![Unit::Holders]].concat()
}

#[test]
fn fast_walk_is_the_references() {
    common::with_stack(|| {
        let mut rng = Rng::new(setting("JUZVAROLA_SEED", 3));
        let (mut held, mut points) = (0, 0);
        for _ in 0..setting("JUZVAROLA_CASES", 20_000) {
            let facts = inputs::job(&mut rng);
            let text = facts.text();
            let wanted = by_reference(&text, facts.walk);
            let job = fast::Job::read(&text, facts.walk);
            for unit in units(&job) {
                assert_eq!(job.solve(unit), wanted, "{unit:?}\n{}", String::from_utf8_lossy(&text));
            }
            if !job.is_plain() {
                held += 1;
                points += wanted.map_or(0, |found| found.nodes);
            }
        }
        println!("{held} jobs with removals, {points} nodes");
    });
}

#[test]
fn fast_walk_gives_the_table() {
    common::with_stack(|| {
        let jobs = jobs::up_to(20_000_000);
        assert!(jobs.len() >= 25, "only {} jobs", jobs.len());
        for row in jobs {
            let job = fast::Job::read(&row.text, row.nodes);
            for unit in units(&job) {
                let found = job.solve(unit).expect("a plan");
                let cost = found.best.expect("a plan").cost;
                assert_eq!((found.nodes, found.floor, cost), (row.nodes, row.floor, row.cost), "{} {unit:?}", row.name);
                assert!(!found.more || row.nodes == job.walk, "{} {unit:?}", row.name);
            }
        }
    });
}
