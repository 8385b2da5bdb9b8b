//! The reference's latest-time habit: its vectors, the papers' cases, and brute force over all change sets at all stops of small jobs.

mod common;
use common::{inputs, latest_cases, rng::Rng, setting, vectors};
use juzvarola_checks::reference::model::{Job, Plan, Set};
use juzvarola_checks::reference::{self, brute, texts};

#[test]
fn reference_gives_every_vector() {
    vectors::given(&vectors::latest(), ("JUZVAROLA_LATEST_VECTORS", 250), |vector| {
        vector.is_given_by(reference::latest(&vector.call.job, vector.second(), vector.call.output))
    });
}

#[test]
fn reference_gives_the_cases() {
    for case in latest_cases::cases() {
        let plan = case.call.plan.as_deref().expect("a plan text");
        let reply = reference::latest(&case.call.job, plan, case.call.output);
        assert!(case.is(reply.line, &reply.bytes), "{}: {}", case.name, reply.bytes.escape_ascii());
    }
}

/// The change sets at the stops that keep a part.
fn kept_at(job: &Job, part: usize, stops: &Set) -> Vec<Set> {
    let at_stops = |changes: &Set| changes.iter().zip(stops).all(|(changed, stop)| *stop || !changed);
    brute::all_sets(stops.len()).filter(|changes| at_stops(changes) && job.due(&job.parts[part], changes).is_none()).collect()
}

/// "No part's price rises from one chosen stop to the next".
fn never_rises(prices: &[u64], stops: &Set) -> bool {
    let chosen: Vec<u64> = prices.iter().zip(stops).filter(|(_, stop)| **stop).map(|(price, _)| *price).collect();
    chosen.windows(2).all(|pair| pair[1] <= pair[0])
}

/// "Each one was forced by the next stop, or T + 1 after the last, being too late": after the change before it.
fn each_is_forced(job: &Job, plan: &Plan, part: usize) -> bool {
    let step = |k: usize| job.openings[k].step;
    let mut before = job.parts[part].first_change();
    let mut forced = true;
    for k in (0..plan.stops.len()).filter(|k| plan.changes[part][*k]) {
        let next = (k + 1..plan.stops.len()).find(|next| plan.stops[*next]).map_or(job.horizon + 1, step);
        forced &= job.distance(before, next) > job.parts[part].life;
        before = step(k);
    }
    forced
}

/// Over all stop sets of small jobs and all change sets at them: 6 exactly where some part has none that keeps it; else the plan keeps every
/// life, each change is forced, and where no price rises each part's changes are those of least price, by the tie rule.
#[test]
fn habit_is_the_least_where_no_price_rises() {
    let mut rng = Rng::new(setting("JUZVAROLA_SEED", 21));
    let (mut served, mut unserved, mut least, mut dearer) = (0, 0, 0, 0);
    for number in 0..setting("JUZVAROLA_CASES", 2000) {
        let mut facts = inputs::facts(&mut rng, inputs::TINY);
        if number % 2 == 0 {
            facts.parts.iter_mut().for_each(inputs::PartFacts::fall);
        }
        let job = texts::read_job(&facts.text()).expect("a job without faults");
        for stops in brute::all_sets(job.openings.len()) {
            let sets: Vec<Vec<Set>> = (0..job.parts.len()).map(|part| kept_at(&job, part, &stops)).collect();
            let Some(plan) = job.latest_plan(&stops) else {
                assert!(sets.iter().any(Vec::is_empty), "{job:?} {stops:?}");
                unserved += 1;
                continue;
            };
            served += 1;
            assert!(plan.stops == stops && job.keeps(&plan), "{job:?} {stops:?}");
            for (part, sets) in sets.iter().enumerate() {
                let price = |changes: &Set| job.parts[part].price(changes);
                let cheapest = sets.iter().map(price).min().expect("the part is kept");
                let choice = sets.iter().filter(|changes| price(changes) == cheapest).cloned().reduce(brute::earlier).expect("one of them");
                assert!(each_is_forced(&job, &plan, part), "{job:?} {plan:?}");
                if never_rises(&job.parts[part].prices, &stops) {
                    assert_eq!(plan.changes[part], choice, "{job:?} {stops:?}");
                    least += 1;
                } else {
                    dearer += u64::from(price(&plan.changes[part]) > cheapest);
                }
            }
        }
    }
    println!(
        "{served} stop sets serve, {unserved} don't; {least} parts whose price never rises, {dearer} changed at more than the least price"
    );
    assert!(served >= 1000 && unserved >= 1000 && least >= 1000 && dearer >= 100);
}
