//! The library's optimum: the planner's own plan wherever that is found, on the jobs of `jobs/`, on those of the vectors and on random ones; the cheapest of
//! all plans of small jobs; the least costs that integer programs found of jobs whose counted walk is hopeless; faults as the planner has them; and what is
//! said where a walk is longer than its number.
#![cfg(feature = "library")]

mod common;
use common::inputs::{self, Size};
use common::lent::{best, judged, planned, Lent};
use common::{damage, jobs, rng::Rng, setting, vectors};
use juzvarola_checks::reference::{brute, texts};
use juzvarola_host::{plan, MOST_WALK};

/// Random jobs.
const CASES: u64 = 100_000;

/// The most nodes of the first walk.
const FIRST: u64 = 131_072;

/// An answer of the planner without its `nodes` and `floor`; none where it is 7.
fn without_walk(answer: &str) -> Option<String> {
    let stays = |line: &&str| !line.starts_with("nodes=") && !line.starts_with("floor=");
    (!answer.starts_with("result=7\n")).then(|| answer.lines().filter(stays).map(|line| format!("{line}\n")).collect())
}

/// The value of an answer's first line with this key.
fn value(answer: &str, key: &str) -> Option<u64> {
    answer.lines().find_map(|line| line.strip_prefix(key)?.strip_prefix('=')?.parse().ok())
}

/// The plan text of an answer.
fn plan_in(answer: &str) -> Option<&str> {
    answer.find("\ncost=").map(|at| &answer[at + 1..])
}

#[test]
fn the_jobs_have_the_planners_plan() {
    common::with_stack(|| {
        for row in jobs::up_to(4_000_000).into_iter().filter(|row| inputs::holders_on() || !row.is_held()) {
            let answer = best(&row.text, MOST_WALK);
            assert_eq!(Some(&answer), without_walk(&planned(&row.text, row.nodes)).as_ref(), "{}", row.name);
            assert_eq!(value(&answer, "cost"), Some(row.cost), "{}", row.name);
        }
    });
}

/// The jobs whose counted walk is too long: the least cost of each is known from integer programs.
#[test]
fn the_hopeless_jobs_have_the_least_cost() {
    common::with_stack(|| {
        let folder = std::path::Path::new(env!("CARGO_MANIFEST_DIR")).join("../jobs");
        for (name, cost) in [
            ("14_full64_4", 2690),
            ("15_full64_8", 3660),
            ("30_t1_holders_d10", 4100),
            ("30_t1_holders_d100", 5180),
            ("33_biweek8_head_d60", 3585),
            ("36_week16_heads_d60", 6520),
            ("38_week8_guard_shutdown", 3570),
        ] {
            let text = std::fs::read(folder.join(format!("{name}.txt"))).expect("a job");
            let answer = best(&text, MOST_WALK);
            assert!(answer.starts_with("result=0\n"), "{name}: {answer}");
            assert_eq!(value(&answer, "cost"), Some(cost), "{name}");
            let plan = plan_in(&answer).expect("a plan");
            assert_eq!(judged(&text, plan.as_bytes()), format!("result=0\ncost={cost}\n"), "{name}");
        }
    });
}

/// Lines of jobs with holders, removals of 0, fees of 0, idle steps, bands and rules.
const KINDS: [&str; 6] = ["\nholder=", "\nremoval=0\n", "\nfee=0\n", "\nidle=", "\nlow=", "\nbase="];

/// How many answers of 0 there were, by kind.
#[derive(Debug, Default)]
struct Seen {
    all: u64,
    /// As `KINDS`.
    kinds: [u64; KINDS.len()],
    /// With parts that hold each other.
    circles: u64,
}

impl Seen {
    fn add(&mut self, facts: &inputs::Facts, text: &[u8]) {
        let text = String::from_utf8_lossy(text);
        self.all += 1;
        KINDS.iter().zip(&mut self.kinds).for_each(|(key, kind)| *kind += u64::from(text.contains(key)));
        self.circles += u64::from(in_a_circle(facts));
    }

    fn least(&self) -> u64 {
        self.kinds.into_iter().chain([self.circles]).min().unwrap_or(0)
    }
}

/// Whether some part is its own holder through others.
fn in_a_circle(facts: &inputs::Facts) -> bool {
    let job = texts::read_job(&facts.text()).expect("a job without faults");
    let chains = brute::chains(&job);
    (0..job.parts.len()).any(|part| (0..job.parts.len()).any(|other| part != other && chains[part][other] && chains[other][part]))
}

/// The planner's plan where the optimum is asked with fewer nodes than the counted walk has, so that only the walks by shares can find it. Whether
/// they did; else their floor is between the planner's and its cost, and the plan in hand is the planner's of as many first nodes.
fn shares_alone(text: &[u8], whole: &str) -> bool {
    let walk = value(whole, "nodes").expect("nodes") - 1;
    let answer = best(text, walk);
    if value(&answer, "result") == Some(7) {
        let floor = value(&answer, "floor");
        assert!(value(whole, "floor") <= floor && floor <= value(whole, "cost"), "{answer}{whole}");
        assert_eq!(plan_in(&answer), plan_in(&planned(text, walk.min(FIRST))), "{}", text.escape_ascii());
        return false;
    }
    assert_eq!(Some(answer), without_walk(whole), "{}", text.escape_ascii());
    true
}

/// With growing walk numbers: once 0 is said, the same bytes are said with every larger one.
#[test]
fn a_larger_walk_number_keeps_a_0() {
    common::with_stack(|| {
        let mut rng = Rng::new(setting("JUZVAROLA_SEED", 65));
        let (mut turned, mut none) = (0, 0);
        for number in 0..setting("JUZVAROLA_CASES", 400) {
            let facts = inputs::facts(&mut rng, if number % 10 == 0 { inputs::MIDDLE } else { inputs::SMALL });
            let text = facts.text();
            let answers: Vec<String> = (0..10).map(|power| best(&text, 4u64.pow(power) - 1)).collect();
            let cut = answers.iter().take_while(|answer| answer.starts_with("result=7\n")).count();
            assert!(answers[cut..].iter().all(|answer| *answer == answers[cut]), "{facts:?}");
            turned += u64::from(cut > 0 && cut < answers.len());
            none += u64::from(answers[0] == "result=6\n");
        }
        println!("{turned} jobs whose 7 turns to a 0 that stays, {none} without a plan");
        assert!(turned >= 100 && none >= 10);
    });
}

#[test]
fn random_jobs_have_the_planners_plan() {
    common::with_stack(|| {
        let mut rng = Rng::new(setting("JUZVAROLA_SEED", 61));
        let (mut alike, mut by_shares, mut none, mut longer, mut hopeless) = (Seen::default(), Seen::default(), 0, 0, 0);
        let cases = setting("JUZVAROLA_CASES", CASES);
        for number in 0..cases {
            let size = match number % 200 {
                0 => inputs::LARGE,
                1..=15 => inputs::MIDDLE,
                _ => inputs::SMALL,
            };
            let facts = inputs::facts(&mut rng, size);
            let text = facts.text();
            let (answer, counted) = (best(&text, 300_000), planned(&text, 300_000));
            match without_walk(&counted) {
                // Its walks by shares may be longer than this number where the planner's is not.
                Some(own) if answer.starts_with("result=7\n") => {
                    let (floor, cost) = (value(&answer, "floor"), value(&own, "cost"));
                    assert!(floor.is_some() && floor <= cost, "{facts:?}");
                    longer += 1;
                }
                Some(own) => {
                    assert_eq!(answer, own, "{facts:?}");
                    match value(&answer, "result") {
                        Some(0) => {
                            alike.add(&facts, &text);
                            if shares_alone(&text, &counted) {
                                by_shares.add(&facts, &text);
                            }
                        }
                        _ => none += 1,
                    }
                }
                None => {
                    let plan = plan_in(&answer);
                    assert!(value(&answer, "result") == Some(7) || plan.is_some(), "{facts:?}");
                    if let Some(plan) = plan {
                        let cost = value(plan, "cost").expect("a cost");
                        assert_eq!(judged(&text, plan.as_bytes()), format!("result=0\ncost={cost}\n"), "{facts:?}");
                        assert!(value(&answer, "floor").is_none_or(|floor| floor <= cost), "{facts:?}");
                    }
                    hopeless += 1;
                }
            }
        }
        println!(
            "{cases} jobs, 0 differ: {none} without a plan, {longer} whose walks by shares are longer, {hopeless} whose counted walk is"
        );
        println!("alike: {alike:?}\nof these by shares alone: {by_shares:?}\nkinds: {KINDS:?}");
        assert!(cases < CASES || alike.least() >= 2000 && by_shares.least() >= 500 && none >= 1000);
    });
}

/// Over all plans of small jobs: 6 exactly where none keeps the lives, else the least cost and the tie rule, also by the walks by shares alone.
#[test]
fn small_jobs_have_the_least_plan_of_all() {
    common::with_stack(|| {
        let mut rng = Rng::new(setting("JUZVAROLA_SEED", 64));
        let (mut seen, mut by_shares, mut ties, mut none) = (0, 0, 0, 0);
        for number in 0..setting("JUZVAROLA_CASES", 4000) {
            let facts = inputs::facts(&mut rng, if number % 2 == 0 { inputs::TINY } else { inputs::NESTED });
            let text = facts.text();
            let job = texts::read_job(&text).expect("a job without faults");
            let (answer, counted) = (best(&text, MOST_WALK), planned(&text, MOST_WALK));
            let Some((cost, plan)) = brute::best_plan(&job) else {
                assert_eq!(answer, "result=6\n", "{facts:?}");
                none += 1;
                continue;
            };
            let lines = texts::plan_lines(&job, &plan);
            assert!(answer.starts_with("result=0\n") && value(&answer, "cost") == Some(cost), "{answer}{facts:?}");
            assert_eq!(plan_in(&answer), Some(lines.as_str()), "{facts:?}");
            by_shares += u64::from(shares_alone(&text, &counted));
            ties += u64::from(brute::least_ways(&job) > 1);
            seen += 1;
        }
        println!("{seen} jobs against all plans, 0 differ; {ties} with several cheapest plans; {by_shares} by shares alone; {none} without a plan");
        assert!(seen >= 1000 && ties >= 100 && by_shares >= 100 && none >= 100);
    });
}

/// The vectors' jobs, with the planner's answer behind `floor`.
#[test]
fn the_vectors_have_the_planners_plan() {
    common::with_stack(|| {
        let (mut alike, mut by_shares, mut faults, mut longer) = (0, 0, 0, 0);
        let vectors = vectors::all();
        vectors::enough(vectors.len(), "JUZVAROLA_VECTORS", 1570);
        for vector in vectors {
            let text = vector.call.job;
            // Not with the walk number of the vector: many of them are cut short by it.
            let (answer, counted) = (best(&text, 300_000), planned(&text, 300_000));
            let Some(own) = without_walk(&counted).filter(|_| !answer.starts_with("result=7\n")) else {
                longer += 1;
                continue;
            };
            assert_eq!(answer, own, "{}", text.escape_ascii());
            match value(&answer, "result") {
                Some(0) => {
                    by_shares += u64::from(shares_alone(&text, &counted));
                    alike += 1;
                }
                _ => faults += 1,
            }
        }
        println!(
            "{alike} vectors' jobs alike, {by_shares} of them by shares alone, {faults} faults and jobs without a plan alike, 0 differ"
        );
        println!("{longer} jobs whose counted walk or whose walks by shares are longer");

        assert!(alike >= 100 && faults >= 100);
    });
}

/// Costs above the greatest cutoff: the counted walk finds them.
#[test]
fn the_dearest_jobs() {
    common::with_stack(|| {
        let mut rng = Rng::new(62);
        for _ in 0..setting("JUZVAROLA_CASES", 200) {
            let mut facts = inputs::facts(&mut rng, Size { horizon: 40, openings: 30, parts: 16 });
            facts.openings.iter_mut().for_each(|(_, fee)| *fee = 1_000_000);
            let text = facts.text();
            if let Some(own) = without_walk(&planned(&text, 100_000)) {
                assert_eq!(best(&text, 2_000_000), own, "{facts:?}");
            }
        }
        // 64 stops at which sixteen parts are changed, each held by another: the dearest that a job can be.
        let mut text = String::from("horizon=64\nopenings=64\n");
        (1..=64).for_each(|step| text += &format!("opening={step}\nfee=1000000\n"));
        text += "parts=16\n";
        for part in 1..=16 {
            text += &format!("life=1\nleft=1\nremoval=1000000\ninside=1\nholder={}\n{}", part % 16 + 1, "price=1000000\n".repeat(64));
        }
        assert_eq!(Some(best(text.as_bytes(), MOST_WALK)), without_walk(&planned(text.as_bytes(), MOST_WALK)));
    });
}

/// A damaged text is refused as the planner refuses it, and a short output is 8; nothing outside the answer is changed.
#[test]
fn faults_are_the_planners() {
    common::with_stack(|| {
        let mut rng = Rng::new(setting("JUZVAROLA_SEED", 63));
        let mut results = [0u64; 14];
        for _ in 0..setting("JUZVAROLA_CASES", 20_000) {
            let facts = inputs::facts(&mut rng, Size { horizon: 20, openings: 6, parts: 4 });
            let text = damage::job(&mut rng, &facts);
            let room = damage::room(&mut rng, 16_384);
            let job = Lent::text(&mut rng, &text);
            let mut out = Lent::output(&mut rng, room);
            let answer = juzvarola_host::optimum(job.part(), MOST_WALK, out.part_mut());
            let mut other = vec![0; room];
            let own = plan(job.part(), MOST_WALK, &mut other);
            assert!(job.has(&[]));
            results[answer.result as usize] += 1;
            if own.result != 0 {
                assert_eq!(answer, own);
                assert!(out.has(&other[..own.length]));
                continue;
            }
            let said = without_walk(std::str::from_utf8(&other[..own.length]).expect("ASCII")).expect("a plan");
            assert_eq!((answer.result, answer.text, answer.line, answer.length), (0, 0, 0, said.len()));
            assert!(out.has(said.as_bytes()));
        }
        println!("results: {results:?}");
        assert!([0, 2, 3, 4, 5, 6, 8].iter().all(|result| results[*result] >= 20), "{results:?}");
    });
}

/// Where a walk is longer than its number: a floor that no plan is below. A larger number that ends gives the plan.
#[test]
fn longer_walks_have_a_floor() {
    common::with_stack(|| {
        let mut cut = 0;
        for row in jobs::up_to(4_000_000).into_iter().filter(|row| inputs::holders_on() || !row.is_held()) {
            let end = best(&row.text, MOST_WALK);
            for walk in [0, 1, 10, 100, 1000, 10_000] {
                let answer = best(&row.text, walk);
                match value(&answer, "result") {
                    Some(7) => {
                        assert!(value(&answer, "floor").expect("a floor") <= row.cost, "{}: {answer}", row.name);
                        cut += 1;
                    }
                    _ => assert_eq!(answer, end, "{}", row.name),
                }
            }
        }
        println!("{cut} answers of 7");
        assert!(cut >= 20);
    });
}
