//! The reference against brute force: all plans of small jobs with all removals, all change sets over all sets of allowed openings.

mod common;
use common::{inputs, rng::Rng, setting};
use juzvarola_checks::reference::walk::Point;
use juzvarola_checks::reference::{brute, model::Job, texts};
use juzvarola_host::MOST_WALK;

fn jobs_of(size: inputs::Size, count: u64) -> impl Iterator<Item = Job> {
    let mut rng = Rng::new(setting("JUZVAROLA_SEED", 2));
    let count = setting("JUZVAROLA_CASES", count);
    let jobs = std::iter::repeat_with(move || {
        let text = inputs::facts(&mut rng, size).text();
        texts::read_job(&text).expect("a job without faults")
    });
    jobs.take(count as usize)
}

fn small_jobs(count: u64) -> impl Iterator<Item = Job> {
    jobs_of(inputs::TINY, count)
}

/// Demands 2 and 3 over all plans: 6 exactly where no plan keeps the lives, else least cost and the tie rule.
#[test]
fn planner_prints_the_least_plan_of_all() {
    let (mut with, mut without, mut held) = (0, 0, 0);
    for job in small_jobs(10_000).chain(jobs_of(inputs::NESTED, 10_000)) {
        held += u64::from(!brute::holding(&job).is_empty());
        let walk = job.walk(MOST_WALK);
        match brute::best_plan(&job) {
            None => {
                assert_eq!((job.floor(), walk.best), (None, None), "{job:?}");
                without += 1;
            }
            Some((cost, plan)) => {
                with += 1;
                let (found, point) = walk.best.expect("a plan is found");
                assert_eq!((found, job.plan_at(&point)), (cost, Some(plan.clone())), "{job:?}");
                assert_eq!((job.cost(&plan), brute::cost(&job, &plan)), (cost, cost), "{job:?}");
                assert!(job.floor().expect("a floor") <= cost, "{job:?}");
                let changed = |k: usize| plan.changes.iter().any(|changes| changes[k]);
                assert!((0..plan.stops.len()).all(|k| plan.stops[k] == changed(k)), "a stop without a change: {job:?}");
            }
        }
    }
    println!("{with} jobs have a plan, {without} have none; {held} have holders");
    assert!(with + without < 20_000 || without >= 50);
}

/// The cost of every plan of small jobs, also of those that keep no life, and what comes out with each part.
#[test]
fn cost_is_that_of_everything_a_chain_leads_to() {
    for job in jobs_of(inputs::Size { horizon: 5, openings: 2, parts: 5 }, 2000) {
        let out: Vec<_> = (0..job.parts.len()).map(|part| job.comes_out(part)).collect();
        assert_eq!((out, job.holding()), (brute::chains(&job), brute::holding(&job)), "{job:?}");
        for plan in brute::all_plans(&job) {
            assert_eq!(job.cost(&plan), brute::cost(&job, &plan), "{job:?} {plan:?}");
        }
    }
}

/// Each point from this one on.
fn all_points(job: &Job, point: &Point, check: &mut impl FnMut(&Point)) {
    check(point);
    job.below(point).iter().for_each(|next| all_points(job, next, check));
}

/// The estimate at every point of small jobs, dropped or not: each part's least price, and E4's term: "For each part, take the least total
/// fee of undecided openings in any change set that keeps it over the yes and undecided openings. The largest of these over the parts is
/// added to a point's estimate." "E4's term uses these same places."
#[test]
fn estimate_is_that_of_all_change_sets() {
    let mut points = 0;
    for job in small_jobs(1000).chain(jobs_of(inputs::NESTED, 1000)) {
        all_points(&job, &[], &mut |point| {
            points += 1;
            assert_eq!(job.estimate(point), brute::estimate(&job, point), "{job:?} {point:?}");
            assert_eq!(job.estimate(point).is_none(), job.old_estimate(point).is_none(), "{job:?} {point:?}");
        });
    }
    println!("{points} points");
}

/// The least price and its choice over every set of allowed openings, the lives against the windows of source document 001, and the due
/// step against a part worn step by step.
#[test]
fn least_price_is_least_of_all_change_sets() {
    for job in small_jobs(300) {
        for (number, part) in job.parts.iter().enumerate() {
            let kept: Vec<_> = brute::all_sets(job.openings.len()).filter(|changes| job.due(part, changes).is_none()).collect();
            for changes in brute::all_sets(job.openings.len()) {
                assert_eq!(job.due(part, &changes), brute::due_by_wear(&job, number, &changes), "{job:?} {changes:?}");
                assert_eq!(kept.contains(&changes), brute::windows_hold(&job, number, &changes), "{job:?} {changes:?}");
            }
            for allowed in brute::all_sets(job.openings.len()) {
                let within = || kept.iter().filter(|changes| changes.iter().zip(&allowed).all(|(changed, may)| *may || !changed));
                let least = within().map(|changes| part.price(changes)).min();
                let choice = within().filter(|changes| Some(part.price(changes)) == least).cloned().reduce(brute::earlier);
                assert_eq!(job.least_of(part, &part.prices, &allowed), least.zip(choice), "{job:?} {allowed:?}");
            }
        }
    }
}
