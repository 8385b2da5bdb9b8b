//! The study's search for the optimum in Rust against the walk in Rust and TABLE.md, so that the benchmark compares like with like.

mod common;
use common::{inputs, jobs, rng::Rng, setting};
use juzvarola_checks::fast::{Job, Optimum, Search, Unit};

const LIMIT: u64 = 4_000_000_000;

/// The searches: by shares alone, with a lift of few and of many nodes, after a short walk.
fn searches() -> Vec<Search> {
    let of = |(first, lift)| Search { first, lift, limit: LIMIT };
    [(0, 0), (0, 50), (0, 20_000), (100, 0)].map(of).to_vec()
}

#[test]
fn random_jobs_have_the_walks_plan() {
    common::with_stack(|| {
        let mut rng = Rng::new(setting("JUZVAROLA_SEED", 71));
        let (mut alike, mut none) = (0, 0);
        for number in 0..setting("JUZVAROLA_CASES", 4000) {
            let size = if number % 20 == 0 { inputs::MIDDLE } else { inputs::SMALL };
            let facts = inputs::facts(&mut rng, size);
            let job = Job::read(&facts.text(), 200_000);
            let Some(walked) = job.solve(Unit::Holders) else {
                assert!(searches().into_iter().all(|search| job.optimum(search).is_none()), "{facts:?}");
                none += 1;
                continue;
            };
            if walked.more {
                continue;
            }
            for search in searches() {
                let Optimum { floor, best, .. } = job.optimum(search).expect("a plan");
                assert_eq!(best, walked.best, "{search:?} {facts:?}");
                assert!(walked.best.is_some_and(|best| floor <= best.cost), "{search:?} {facts:?}");
            }
            alike += 1;
        }
        println!("{alike} jobs alike, {none} without a plan");
        assert!(alike >= 100);
    });
}

#[test]
fn the_jobs_have_the_tables_cost() {
    common::with_stack(|| {
        for row in jobs::up_to(20_000_000) {
            let best = Job::read(&row.text, LIMIT).optimum(Search { first: 0, lift: 20_000, limit: LIMIT }).and_then(|found| found.best);
            let (best, walked) = (best.expect("a plan"), Job::read(&row.text, row.nodes).solve(Unit::Holders).expect("a plan"));
            match walked.more {
                true => assert!(best.cost <= row.cost, "{}", row.name),
                false => assert_eq!(Some(best), walked.best, "{}", row.name),
            }
        }
    });
}
