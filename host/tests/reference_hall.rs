//! The hall planner by the reference: its vectors, cases worked out by hand, and brute force over all sets of plans of small halls.

mod common;
use common::halls::{self, HallFacts};
use common::inputs::{self, Size};
use common::paper::{text, JOB};
use common::{line_of, rng::Rng, setting, vectors};
use juzvarola_checks::reference::hall::{read_hall, Hall, HallWalk};
use juzvarola_checks::reference::model::{Job, Plan};
use juzvarola_checks::reference::{self, brute};
use juzvarola_host::MOST_WALK;
use std::collections::BTreeSet;

const OUTPUT: usize = 16_384;

/// For all sets of plans of two lines.
const TINY: Size = Size { horizon: 6, openings: 3, parts: 2 };

#[test]
fn reference_gives_every_vector() {
    common::with_stack(|| {
        vectors::given(&vectors::halls(), ("JUZVAROLA_HALL_VECTORS", 150), |vector| {
            vector.is_given_by(reference::hall(&vector.call.job, vector.call.walk, vector.call.output))
        });
    });
}

/// The reply to a hall's text given as words, its lines as words.
fn said(words: &str, walk: u64) -> (u32, u32, String) {
    let reply = reference::hall(&text(words), walk, OUTPUT);
    (reply.result, reply.line, String::from_utf8(reply.bytes).expect("ASCII").trim_end().replace('\n', " "))
}

#[test]
fn cases_by_hand() {
    let plan = "cost=37 stops=2 stop=2 count=1 part=1 stop=4 count=2 part=1 part=2";
    // Without a charge for calls the lines are planned apart; with one both stop where one does.
    let two = |call: u64| format!("machines=2 call={call} {JOB} {JOB}");
    let answer = said(&two(0), MOST_WALK);
    assert_eq!((answer.0, answer.2.ends_with(&format!(" floor=74 cost=74 {plan} {plan}"))), (0, true), "{answer:?}");
    let answer = said(&two(100), MOST_WALK);
    assert_eq!((answer.0, answer.2.ends_with(&format!(" floor=74 cost=274 {plan} {plan}"))), (0, true), "{answer:?}");
    // One line, no opening: one point.
    let still = "horizon=6 openings=0 parts=1 life=7 left=7";
    assert_eq!(
        said(&format!("machines=1 call=9 {still}"), MOST_WALK),
        (0, 0, "result=0 nodes=1 floor=0 cost=0 cost=0 stops=0".to_string())
    );
    assert_eq!(said(&format!("machines=1 call=9 {still}"), 0), (7, 0, "result=7 nodes=0 floor=0".to_string()));
    let never = "horizon=6 openings=0 parts=1 life=6 left=6";
    assert_eq!(said(&format!("machines=2 call=9 {still} {never}"), 0), (6, 0, "result=6".to_string()));
    // 14 on the job's first line, after the job's own faults and before what stands behind it.
    assert_eq!(said(&format!("machines=2 call=9 {still} horizon=7 openings=0 parts=1 life=7 left=7"), 0).0, 14);
    assert_eq!(said(&format!("machines=2 call=9 {still} horizon=7 openings=0 parts=1 life=7 left=7"), 0).1, 8);
    assert_eq!(said(&format!("machines=2 call=9 {still} horizon=7 openings=0 parts=1 life=7 left=8"), 0).0, 5);
    assert_eq!(said(&format!("machines=3 call=9 {still} horizon=7 openings=0 parts=1 life=7 left=7 x"), 0).0, 14);
    assert_eq!(said(&format!("machines=2 call=9 {still} horizon=6 idles=1 idle=1 openings=0 parts=1 life=7 left=7"), 0).0, 14);
    assert_eq!(said(&format!("machines=1 call=9 {still} {still}"), 0), (2, 8, "result=2 text=1 line=8".to_string()));
    assert_eq!(said("machines=5 call=9", 0).0, 3);
    assert_eq!(reference::hall(&vec![b'a'; 65_537], 0, OUTPUT).result, 1);
    assert_eq!(reference::hall(&vec![b'a'; 65_536], 0, OUTPUT).result, 2);
    assert_eq!(reference::hall(b"", 0, OUTPUT - 1).result, 8);
}

/// The plans of a reply's lines, one for each job.
fn plans(hall: &Hall, lines: &str) -> Vec<(Plan, u64)> {
    let mut texts: Vec<String> = Vec::new();
    for line in lines.lines() {
        if line.starts_with("cost=") {
            texts.push(String::new());
        }
        texts.last_mut().expect("a cost line").push_str(&format!("{line}\n"));
    }
    assert_eq!(texts.len(), hall.jobs.len());
    let read = |(job, text): (&Job, &String)| reference::texts::read_plan(job, text.as_bytes()).expect("plan lines");
    hall.jobs.iter().zip(&texts).map(read).collect()
}

/// Least over all sets of plans, every life kept, the cost the lines' own with one call for each step at which some line stops; 6 exactly where
/// some line has no plan; with a call of 0 the sum of the lines' own least costs.
#[test]
fn no_set_of_plans_costs_less() {
    common::with_stack(|| {
        let mut rng = Rng::new(setting("JUZVAROLA_SEED", 51));
        let (mut found, mut none, mut shared) = (0, 0, 0);
        for _ in 0..setting("JUZVAROLA_CASES", 3000) {
            let facts: HallFacts = halls::facts(&mut rng, TINY, 3);
            let hall = read_hall(&facts.text()).expect("a hall without faults");
            let reply = reference::hall(&facts.text(), MOST_WALK, OUTPUT);
            let Some(least) = halls::least(&hall) else {
                assert_eq!(reply.result, 6, "{facts:?}");
                none += 1;
                continue;
            };
            assert_eq!(reply.result, 0, "{facts:?}");
            let text = String::from_utf8(reply.bytes).expect("ASCII");
            let at = text.find("cost=").expect("a cost");
            let (cost, lines) = text[at..].split_once('\n').expect("lines");
            let plans = plans(&hall, lines);
            let stops: BTreeSet<i64> = hall.jobs.iter().zip(&plans).flat_map(|(job, (plan, _))| halls::steps(job, plan)).collect();
            let sum: u64 = plans.iter().map(|(_, cost)| cost).sum();
            assert!(hall.jobs.iter().zip(&plans).all(|(job, (plan, cost))| job.keeps(plan) && job.cost(plan) == *cost), "{facts:?}");
            assert_eq!(sum + hall.call * stops.len() as u64, least, "{facts:?} {text}");
            assert_eq!(cost, format!("cost={least}"));
            let alone = hall.jobs.iter().map(|job| brute::best_plan(job).expect("a plan").0).sum::<u64>();
            assert!(hall.call > 0 || least == alone, "{facts:?}");
            let own: usize = hall.jobs.iter().zip(&plans).map(|(job, (plan, _))| halls::steps(job, plan).len()).sum();
            shared += u64::from(own > stops.len());
            found += 1;
        }
        println!("{found} halls with a least cost, in {shared} of them lines share a call; {none} without a plan");
        assert!(found >= 1000 && none >= 100 && shared >= 100);
    });
}

/// A hall of one line is the line with the call added to each fee: the same least cost. And a walk that is cut has exactly its number of points.
#[test]
fn one_line_and_short_walks() {
    common::with_stack(|| {
        let mut rng = Rng::new(setting("JUZVAROLA_SEED", 52));
        let mut cut = 0;
        for _ in 0..setting("JUZVAROLA_CASES", 1000) {
            let facts = halls::facts(&mut rng, inputs::TINY, 2);
            let hall = read_hall(&facts.text()).expect("a hall without faults");
            let whole = HallWalk::of(&hall, MOST_WALK);
            if hall.estimate(&hall.first_point()).is_none() {
                continue;
            }
            if let [job] = &hall.jobs[..] {
                let mut dearer = job.clone();
                dearer.openings.iter_mut().for_each(|opening| opening.fee += hall.call);
                assert_eq!(whole.best.as_ref().map(|best| best.0), dearer.walk(MOST_WALK).best.map(|best| best.0), "{facts:?}");
            }
            let limit = rng.below(whole.nodes + 2);
            let short = HallWalk::of(&hall, limit);
            assert_eq!((short.nodes, short.more), (limit.min(whole.nodes), limit < whole.nodes), "{facts:?}");
            cut += u64::from(short.more);
        }
        assert!(cut >= 200);
    });
}

/// Every result number occurs, and the line at fault is the line with that number.
#[test]
fn replies_are_consistent() {
    common::with_stack(|| {
        let mut rng = Rng::new(setting("JUZVAROLA_SEED", 53));
        let mut results = [0u64; 15];
        for _ in 0..setting("JUZVAROLA_CASES", 10_000) {
            let text = halls::text(&mut rng, inputs::TINY);
            let output = if rng.once_in(40) { rng.pick(&[0, 16_383, 16_385]) } else { OUTPUT };
            let reply = reference::hall(&text, rng.pick(&[0, 1, 10, 100]), output);
            if reply.line != 0 {
                let fault = &text[reply.fault_start..][..reply.fault_length];
                assert_eq!(fault, line_of(&text, reply.line));
            }
            results[reply.result as usize] += 1;
        }
        println!("results: {results:?}");
        assert!([0, 1, 2, 3, 4, 5, 6, 7, 8, 14].iter().all(|result| results[*result] >= 5));
    });
}
