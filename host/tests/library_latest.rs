//! The library's latest-time habit: its vectors, the papers' cases, random calls against the reference, and brute force over the plans of small jobs.
#![cfg(feature = "library")]

mod common;
use common::lent::{self, compare_latest, judged, latest};
use common::{inputs, latest_cases, rng::Rng, setting, vectors, Call};
use juzvarola_checks::reference::{self, brute, model::Plan, texts};

const CASES: u64 = 60_000;

/// Each result number of the call occurs at least this often in the full run.
const LEAST: u64 = 50;

#[test]
fn library_gives_every_vector() {
    lent::given(vectors::latest(), ("JUZVAROLA_LATEST_VECTORS", 250), |rng, vector| compare_latest(rng, &vector.call, &vector.reply()));
}

#[test]
fn library_gives_the_cases() {
    common::with_stack(|| {
        for case in latest_cases::cases() {
            let mut out = vec![0xAA; case.call.output];
            let plan = case.call.plan.as_deref().expect("a plan text");
            let answer = juzvarola_host::latest(&case.call.job, plan, &mut out);
            let written = &out[..answer.length];
            assert!(case.is(answer.line, written), "{}: {}", case.name, written.escape_ascii());
        }
    });
}

/// A call on two texts: some without a fault, some with one in either, some with an empty plan text.
fn random_call(rng: &mut Rng) -> Call {
    if rng.once_in(10) {
        return inputs::call_on_nothing(rng);
    }
    loop {
        let call = inputs::call(rng);
        if call.plan.is_some() {
            return call;
        }
    }
}

#[test]
fn library_is_the_reference() {
    common::with_stack(|| {
        let mut rng = Rng::new(setting("JUZVAROLA_SEED", 15));
        let cases = setting("JUZVAROLA_CASES", CASES);
        let mut results = [0u64; 14];
        for number in 0..cases {
            let call = random_call(&mut rng);
            let reply = reference::latest(&call.job, call.plan.as_deref().unwrap_or_default(), call.output);
            if let Err(difference) = compare_latest(&mut rng, &call, &reply) {
                panic!("call {number}: {difference}");
            }
            results[reply.result as usize] += 1;
        }
        println!("{cases} calls, 0 differ\nresults: {results:?}");
        if cases >= CASES {
            assert!([0, 1, 2, 3, 4, 5, 6, 8, 9].iter().all(|result| results[*result] >= LEAST));
            assert!(!inputs::holders_on() || results[12] >= LEAST);
            assert_eq!(results[7] + results[10] + results[11], 0);
        }
    });
}

/// Over all stop sets of small jobs without holders whose prices never rise: 6 exactly where no plan with these stops keeps the lives; else
/// no such plan costs less, and the judge accepts what is printed.
#[test]
fn library_prints_the_least_plan_with_these_stops() {
    common::with_stack(|| {
        let mut rng = Rng::new(setting("JUZVAROLA_SEED", 16));
        let (mut served, mut unserved) = (0, 0);
        for _ in 0..setting("JUZVAROLA_CASES", 400) {
            let mut facts = inputs::facts(&mut rng, inputs::Size { horizon: 8, openings: 4, parts: 2 });
            facts.parts.iter_mut().for_each(inputs::PartFacts::fall);
            facts.parts.iter_mut().for_each(|part| part.cover = part.cover.take().map(|(removal, _)| (removal, Vec::new())));
            let text = facts.text();
            let job = texts::read_job(&text).expect("a job without faults");
            let at_stops = |plan: &Plan| plan.changes.iter().flat_map(|c| c.iter().zip(&plan.stops)).all(|(c, s)| *s || !c);
            let kept: Vec<Plan> = brute::all_plans(&job).filter(|plan| at_stops(plan) && job.keeps(plan)).collect();
            for stops in brute::all_sets(job.openings.len()) {
                let none = vec![vec![false; stops.len()]; job.parts.len()];
                let stated = texts::plan_lines(&job, &Plan { stops: stops.clone(), changes: none });
                let written = latest(&text, stated.as_bytes());
                let least = kept.iter().filter(|plan| plan.stops == stops).map(|plan| brute::cost(&job, plan)).min();
                let Some(cost) = least else {
                    assert_eq!(written, "result=6\n", "{job:?} {stops:?}");
                    unserved += 1;
                    continue;
                };
                let lines = written.strip_prefix("result=0\n").expect("the stops serve");
                assert_eq!(lines.lines().next(), Some(format!("cost={cost}").as_str()), "{job:?} {stops:?}");
                assert_eq!(judged(&text, lines.as_bytes()), format!("result=0\ncost={cost}\n"), "{job:?} {stops:?}");
                served += 1;
            }
        }
        println!("{served} stop sets serve, {unserved} don't");
        assert!(served >= 500 && unserved >= 500);
    });
}
