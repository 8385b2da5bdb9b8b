//! The library's hall planner: its vectors, random calls against the reference, and least of all sets of plans of small halls.
#![cfg(feature = "library")]

mod common;
use common::halls::{self, HallFacts};
use common::inputs::{self, Size};
use common::lent::{self, compare_hall, judged, planned};
use common::{damage, rng::Rng, setting, vectors, Call};
use juzvarola_checks::reference::{self, hall::read_hall};
use juzvarola_host::{PlannedHall, MOST_WALK};

const CASES: u64 = 50_000;

/// Each result number of the call occurs at least this often in the full run.
const LEAST: u64 = 50;

/// For all sets of plans of two lines.
const TINY: Size = Size { horizon: 6, openings: 3, parts: 2 };

#[test]
fn library_gives_every_vector() {
    lent::given(vectors::halls(), ("JUZVAROLA_HALL_VECTORS", 150), |rng, vector| compare_hall(rng, &vector.call, &vector.reply()));
}

/// Texts of halls, damaged ones too, with walk numbers that cut and some that do not, and outputs that are too short now and then.
#[test]
fn library_is_the_reference() {
    common::with_stack(|| {
        let mut rng = Rng::new(setting("JUZVAROLA_SEED", 72));
        let cases = setting("JUZVAROLA_CASES", CASES);
        let mut results = [0u64; 15];
        for number in 0..cases {
            let size = if rng.once_in(10) { inputs::SMALL } else { inputs::TINY };
            let walk = rng.pick(&[0, 1, 2, 10, 100, 300, 1000, u64::MAX]);
            // A walk without a limit only where the hall is tiny.
            let (size, walk) = if walk == u64::MAX { (TINY, walk) } else { (size, walk) };
            let call = Call { job: halls::text(&mut rng, size), plan: None, walk, output: damage::room(&mut rng, 16_384) };
            let reply = reference::hall(&call.job, call.walk, call.output);
            if let Err(difference) = compare_hall(&mut rng, &call, &reply) {
                panic!("call {number}: {difference}");
            }
            results[reply.result as usize] += 1;
        }
        println!("{cases} calls, 0 differ\nresults: {results:?}");
        if cases >= CASES {
            assert!([0, 1, 2, 3, 4, 5, 6, 7, 8, 14].iter().all(|result| results[*result] >= LEAST));
        }
    });
}

/// What the library writes for a hall.
fn answer(text: &[u8], walk: u64) -> (u32, String) {
    let mut out = vec![0xAA; 16_384];
    let answer = juzvarola_host::hall(text, walk, &mut out);
    (answer.result, String::from_utf8(out[..answer.length].to_vec()).expect("answers are ASCII"))
}

/// "With result 0, the lines' plans keep every life, no set of plans for the lines that does so costs less with calls included, and if call is 0 the
/// cost is the sum of the lines' own least costs."
#[test]
fn no_set_of_plans_costs_less() {
    common::with_stack(|| {
        let mut rng = Rng::new(setting("JUZVAROLA_SEED", 73));
        let (mut found, mut none) = (0, 0);
        for _ in 0..setting("JUZVAROLA_CASES", 3000) {
            let facts: HallFacts = halls::facts(&mut rng, TINY, 3);
            let text = facts.text();
            let hall = read_hall(&text).expect("a hall without faults");
            let (result, lines) = answer(&text, MOST_WALK);
            let Some(least) = halls::least(&hall) else {
                assert_eq!((result, lines.as_str()), (6, "result=6\n"), "{facts:?}");
                none += 1;
                continue;
            };
            assert_eq!(result, 0, "{facts:?}");
            let mut out = vec![0; 16_384];
            let own = PlannedHall::of(juzvarola_host::hall(&text, MOST_WALK, &mut out), lines.as_bytes());
            assert_eq!((own.cost, own.plans.len()), (Some(least as u32), hall.jobs.len()), "{facts:?} {lines}");
            let mut steps: Vec<u32> = own.plans.iter().flat_map(|plan| plan.stops.iter().map(|stop| stop.step)).collect();
            steps.sort_unstable();
            steps.dedup();
            let sum: u64 = own.plans.iter().map(|plan| u64::from(plan.cost)).sum();
            assert_eq!(sum + facts.call * steps.len() as u64, least, "{facts:?} {lines}");
            for (line, plan) in facts.lines.iter().zip(&own.plans) {
                assert_eq!(judged(&line.text(), plan.text().as_bytes()), format!("result=0\ncost={}\n", plan.cost), "{facts:?} {lines}");
            }
            let alone = facts.lines.iter().map(|line| halls::cost(&planned(&line.text(), MOST_WALK)));
            assert!(facts.call > 0 || alone.sum::<u64>() == least, "{facts:?}");
            found += 1;
        }
        println!("{found} halls with a least cost, {none} without a plan");
        assert!(found >= 1000 && none >= 100);
    });
}

/// A walk that is cut has exactly its number of nodes, and a longer one that ends says what one without a limit says.
#[test]
fn short_walks_are_exact() {
    common::with_stack(|| {
        let mut rng = Rng::new(setting("JUZVAROLA_SEED", 74));
        let mut cut = 0;
        for _ in 0..setting("JUZVAROLA_CASES", 1000) {
            let text = halls::facts(&mut rng, TINY, 3).text();
            let (result, whole) = answer(&text, MOST_WALK);
            if result != 0 {
                continue;
            }
            let nodes: u64 = whole.lines().nth(1).and_then(|line| line.strip_prefix("nodes=")?.parse().ok()).expect("nodes");
            assert_eq!(answer(&text, nodes), (0, whole));
            let limit = rng.below(nodes);
            let (result, short) = answer(&text, limit);
            assert_eq!((result, short.lines().nth(1)), (7, Some(format!("nodes={limit}").as_str())));
            cut += 1;
        }
        assert!(cut >= 400);
    });
}
