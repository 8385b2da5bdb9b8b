//! The library against brute force over all plans of small jobs.
#![cfg(feature = "library")]

mod common;
use common::lent::{judged, planned};
use common::{inputs, rng::Rng, setting};
use juzvarola_checks::reference::{brute, model::Plan, texts};
use juzvarola_host::MOST_WALK;

/// 6 exactly where no plan keeps the lives; else the plan of least cost, by the tie rule, which the judge accepts.
#[test]
fn library_prints_the_least_plan_of_all() {
    common::with_stack(|| {
        let mut rng = Rng::new(setting("JUZVAROLA_SEED", 7));
        for _ in 0..setting("JUZVAROLA_CASES", 3000) {
            let text = inputs::facts(&mut rng, inputs::TINY).text();
            let job = texts::read_job(&text).expect("a job without faults");
            let written = planned(&text, MOST_WALK);
            let Some((cost, plan)) = brute::best_plan(&job) else {
                assert_eq!(written, "result=6\n", "{job:?}");
                continue;
            };
            let lines = texts::plan_lines(&job, &plan);
            assert!(written.starts_with("result=0\nnodes="), "{job:?}");
            assert_eq!(written.find("cost=").map(|at| &written[at..]), Some(lines.as_str()), "{job:?}");
            assert_eq!(judged(&text, lines.as_bytes()), format!("result=0\ncost={cost}\n"), "{job:?}");
        }
    });
}

/// The judge on every plan of small jobs: 0 exactly where the plan keeps the lives, 10 with the due step else.
#[test]
fn library_judges_every_plan_of_small_jobs() {
    common::with_stack(|| {
        let mut rng = Rng::new(setting("JUZVAROLA_SEED", 8));
        for _ in 0..40 {
            let text = inputs::facts(&mut rng, inputs::Size { horizon: 8, openings: 3, parts: 2 }).text();
            let job = texts::read_job(&text).expect("a job without faults");
            let at_stops = |plan: &Plan| plan.changes.iter().flat_map(|c| c.iter().zip(&plan.stops)).all(|(c, s)| *s || !c);
            for plan in brute::all_plans(&job).filter(at_stops) {
                let written = judged(&text, texts::plan_lines(&job, &plan).as_bytes());
                let due = (0..job.parts.len()).find_map(|part| Some((part + 1, job.due(&job.parts[part], &plan.changes[part])?)));
                let wanted = match due {
                    None => format!("result=0\ncost={}\n", job.cost(&plan)),
                    Some((part, due)) => format!("result=10\npart={part}\ndue={due}\n"),
                };
                assert_eq!(written, wanted, "{job:?} {plan:?}");
            }
        }
    });
}
