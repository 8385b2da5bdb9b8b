//! The library's carrying on from a work log: its vectors, random calls against the reference, starts of printed plans planned on by the library
//! to the same total, and two logs against the joined one.
#![cfg(feature = "library")]

mod common;
use common::inputs::{self, Size};
use common::lent::{self, best, carried, compare_carry, planned};
use common::{logs, rng::Rng, setting, vectors};
use juzvarola_checks::reference::{self, carry::read_log, texts};
use juzvarola_host::{Log, MOST_WALK};

const CASES: u64 = 50_000;

/// Each result number of the call occurs at least this often in the full run.
const LEAST: u64 = 20;

/// Lines of jobs with bands, rules, holders, idle steps and a walk number of before.
const KINDS: [&str; 5] = ["\nlow=", "\nbase=", "\nholder=", "\nidle=", "\nwalk="];

#[test]
fn library_gives_every_vector() {
    lent::given(vectors::carries(), ("JUZVAROLA_CARRY_VECTORS", 150), |rng, vector| compare_carry(rng, &vector.call, &vector.reply()));
}

#[test]
fn library_is_the_reference() {
    common::with_stack(|| {
        let mut rng = Rng::new(setting("JUZVAROLA_SEED", 52));
        let cases = setting("JUZVAROLA_CASES", CASES);
        let (mut results, mut kinds, mut large) = ([0u64; 14], [0u64; KINDS.len()], 0);
        for number in 0..cases {
            let facts = inputs::job(&mut rng);
            let call = logs::call(&mut rng, &facts);
            let reply = reference::carry(&call.job, call.plan.as_deref().expect("a log"), call.output);
            if let Err(difference) = compare_carry(&mut rng, &call, &reply) {
                panic!("call {number}: {difference}");
            }
            results[reply.result as usize] += 1;
            if reply.result == 0 {
                let job = String::from_utf8_lossy(&call.job);
                KINDS.iter().zip(&mut kinds).for_each(|(key, kind)| *kind += u64::from(job.contains(key)));
                large += u64::from(facts.openings.len() > 7 || facts.parts.len() > 4);
            }
        }
        println!("{cases} calls, 0 differ\nresults: {results:?}\naccepted with {KINDS:?}: {kinds:?}, larger ones {large}");
        if cases >= CASES {
            assert!([0, 1, 2, 3, 4, 5, 8, 9, 10, 11, 12, 13].iter().all(|result| results[*result] >= LEAST));
            assert_eq!(results[6] + results[7], 0);
            assert!(kinds.iter().all(|kind| *kind >= 1000) && large >= 500);
        }
    });
}

/// "If the log is the start of a plan the planner printed with 0, the least cost of the new job is that plan's remaining cost", and the planner
/// prints exactly the rest.
#[test]
fn starts_of_printed_plans_are_planned_on() {
    common::with_stack(|| {
        let mut rng = Rng::new(setting("JUZVAROLA_SEED", 53));
        let (mut on, mut larger) = (0, 0);
        for number in 0..setting("JUZVAROLA_CASES", 20_000) {
            // Larger jobs by the optimum, as far as it is short: the planner's walk may be long.
            let is_larger = number % 20 == 0;
            let facts = inputs::facts(&mut rng, if is_larger { inputs::MIDDLE } else { inputs::SMALL });
            let printed_for = |text: &[u8]| if is_larger { best(text, 200_000) } else { planned(text, MOST_WALK) };
            let job = texts::read_job(&facts.text()).expect("a job without faults");
            let Some(step) = logs::step(&mut rng, job.horizon) else { continue };
            let printed = printed_for(&facts.text());
            let Some(at) = printed.starts_with("result=0\n").then(|| printed.find("cost=")).flatten() else { continue };
            let (plan, cost) = texts::read_plan(&job, &printed.as_bytes()[at..]).expect("a printed plan");
            let log = logs::text(&job, &plan, step);
            let done = read_log(&job, &log).expect("a log without faults");
            let text = carried(&facts.text(), &log).unwrap_or_else(|| panic!("refused: {facts:?} {}", log.escape_ascii()));
            let rest = texts::read_job(&text).expect("a written text has no fault");
            let printed = printed_for(&text);
            if is_larger && printed.starts_with("result=7\n") {
                continue;
            }
            assert!(printed.starts_with("result=0\n"), "{printed}{facts:?}");
            let at = printed.find("cost=").expect("a plan");
            let (again, least) = texts::read_plan(&rest, &printed.as_bytes()[at..]).expect("a printed plan");
            assert_eq!(done.cost + least, cost, "{facts:?} {}", log.escape_ascii());
            let first = job.openings.len() - rest.openings.len();
            assert_eq!(again, logs::rest(&plan, first));
            on += 1;
            larger += u64::from(is_larger);
        }
        println!("{on} starts of printed plans, {larger} of larger jobs, each planned on to the same total");
        assert!(on >= 5000 && larger >= 200);
    });
}

/// The text that is left where a random log of the job is accepted, and the log.
fn random_log(rng: &mut Rng, text: &[u8]) -> Option<(String, Vec<u8>)> {
    let log = logs::random(rng, &texts::read_job(text).expect("a job without faults"))?;
    let left = carried(text, &log)?;
    Some((String::from_utf8(log).expect("ASCII"), left))
}

/// The text of the log of both, as the wrapper makes it.
fn both_of(first: &str, second: &str) -> String {
    let log = |text: &str| Log::parse(text.as_bytes()).expect("a log");
    log(first).joined(&log(second)).expect("numbers that fit").text()
}

/// "If carrying on by a first log and then by a second is accepted both times, carrying on by the joined log shall be accepted and give the
/// identical job text."
#[test]
fn two_logs_or_one() {
    common::with_stack(|| {
        let mut rng = Rng::new(setting("JUZVAROLA_SEED", 54));
        let (mut both, mut three) = (0, 0);
        let pairs = setting("JUZVAROLA_CASES", 20_000);
        while both < pairs {
            let size = if rng.once_in(8) { Size { horizon: 40, ..inputs::SMALL } } else { inputs::SMALL };
            let facts = inputs::facts(&mut rng, size);
            let Some((first, between)) = random_log(&mut rng, &facts.text()) else { continue };
            let Some((second, last)) = random_log(&mut rng, &between) else { continue };
            let joined = logs::joined(&first, &second);
            assert_eq!(both_of(&first, &second), joined);
            assert_eq!(carried(&facts.text(), joined.as_bytes()), Some(last.clone()), "{facts:?}\n{first}\n{second}");
            both += 1;
            let Some((third, end)) = random_log(&mut rng, &last) else { continue };
            let joined = both_of(&joined, &third);
            assert_eq!(carried(&facts.text(), joined.as_bytes()), Some(end), "{facts:?}\n{first}\n{second}\n{third}");
            three += 1;
        }
        println!("{both} pairs of logs and {three} threes, each as the joined one");
        assert!(three >= pairs / 10);
    });
}

/// The converse of that does not hold: two logs that are each refused for their cost, and the joined one, in which the two wrong costs cancel.
#[test]
fn the_joined_log_alone_may_be_accepted() {
    let job = b"horizon=4\nopenings=1\nopening=1\nfee=1\nparts=1\nlife=9\nleft=9\nprice=1\n";
    let (first, second) = ("step=1\ncost=0\nstops=1\nstop=1\ncount=0\n", "step=1\ncost=1\nstops=0\n");
    assert_eq!(carried(job, first.as_bytes()), None);
    let between = carried(job, first.replace("cost=0", "cost=1").as_bytes()).expect("the true cost");
    assert_eq!(carried(&between, second.as_bytes()), None);
    assert!(carried(job, both_of(first, second).as_bytes()).is_some());
}
