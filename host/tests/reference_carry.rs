//! Carrying on by the reference: its vectors, cases worked out by hand, starts of printed plans planned on to the same total, plans that begin with
//! a log, and two logs against the joined one.

mod common;
use common::inputs::{self, printed_plan};
use common::paper::{altered, text, JOB};
use common::{line_of, logs, rng::Rng, setting, vectors, Call};
use juzvarola_checks::reference::model::Plan;
use juzvarola_checks::reference::{self, brute, carry::read_log, texts, Reply};
use juzvarola_host::MOST_WALK;

const OUTPUT: usize = 40_960;

#[test]
fn reference_gives_every_vector() {
    vectors::given(&vectors::carries(), ("JUZVAROLA_CARRY_VECTORS", 150), |vector| {
        vector.is_given_by(reference::carry(&vector.call.job, vector.second(), vector.call.output))
    });
}

/// The reply to a log of a job, its lines as words.
fn said(job: &str, log: &str) -> (u32, u32, String) {
    let reply = reference::carry(&text(job), &text(log), OUTPUT);
    (reply.result, reply.line, String::from_utf8(reply.bytes).expect("ASCII").trim_end().replace('\n', " "))
}

#[test]
fn cases_by_hand() {
    let two = "cost=15 stops=1 stop=2 count=1 part=1";
    let prices = "price=5 price=5";
    // Part 1 was changed at step 2, so by step 3 one running step of its three is used; part 2 has used three of its four.
    let rest =
        format!("horizon=3 openings=2 opening=1 fee=10 opening=2 fee=10 parts=2 life=3 left=2 {prices} life=4 left=1 price=7 price=7");
    assert_eq!(said(JOB, &format!("step=3 {two}")), (0, 0, rest.clone()));
    assert_eq!(said(&altered("walk=11 ", ""), &format!("step=3 {two}")).2, rest, "the walk line changes nothing");
    // The change at the step itself is done; nothing of the new life is used, and the opening is gone.
    let rest = format!("horizon=4 openings=3 opening=1 fee=10 opening=2 fee=10 opening=3 fee=10 parts=2 life=3 left=3 {prices} price=5 life=4 left=2 price=7 price=7 price=7");
    assert_eq!(said(JOB, &format!("step=2 {two}")), (0, 0, rest));
    // Exactly used up: left 0, where step 1 of the new job runs the part is due at 0.
    let (result, _, used_up) = said(JOB, "step=2 cost=0 stops=0");
    assert!(result == 0 && used_up.contains("life=3 left=0 "), "{used_up}");
    let nothing = reference::judge(&text(&used_up), b"", 16_384);
    assert_eq!(nothing, Reply { result: 10, bytes: b"result=10\npart=1\ndue=0\n".to_vec(), ..Reply::default() });
    assert_eq!(reference::plan(&text(&used_up), MOST_WALK, 16_384).result, 6);
    // One step later more than the life is used; the cost is looked at after that.
    assert_eq!(said(JOB, "step=3 cost=9 stops=0"), (10, 0, "result=10 part=1 due=2".to_string()));
    assert_eq!(said(JOB, "step=2 cost=9 stops=0"), (11, 0, "result=11 cost=0".to_string()));
    // A stop without a change costs its fee.
    assert_eq!(said(JOB, "step=2 cost=0 stops=1 stop=2 count=0"), (11, 0, "result=11 cost=10".to_string()));
    for (log, result, line) in [
        ("", 2, 1),
        ("step=4", 2, 2),
        ("step=5 cost=0 stops=0", 3, 1),
        ("step=0 cost=0 stops=0", 3, 1),
        ("cost=0 stops=0", 2, 1),
        ("step=2 cost=0 stops=1 stop=3 count=0", 9, 4),
        ("step=2 cost=0 stops=0 stop=3", 2, 4),
    ] {
        assert_eq!((said(JOB, log).0, said(JOB, log).1), (result, line), "{log}");
    }
    let short = "horizon=2 openings=0 parts=1 life=9 left=9";
    assert_eq!(said(short, "step=1 cost=0 stops=0").0, 3, "a horizon of 2 admits no step");
    assert_eq!(reference::carry(&text(JOB), b"", OUTPUT - 1).result, 8);
    assert_eq!(reference::carry(&text(JOB), &[b'a'; 32_769], OUTPUT).result, 1);
}

#[test]
fn forms_are_kept() {
    let job = "horizon=9 idles=2 idle=2 idle=8 openings=3 opening=3 fee=1 opening=5 fee=2 opening=8 fee=3 parts=2 \
               life=9 left=6 removal=0 inside=0 low=4 high=6 price=7 low=8 high=8 life=8 left=8 removal=5 inside=1 holder=1 base=9 drop=2 least=6";
    // Steps 1, 3 and 4 run: three of each life are used.
    let rest = "horizon=5 idles=1 idle=4 openings=2 opening=1 fee=2 opening=4 fee=3 parts=2 \
                life=9 left=3 removal=0 inside=0 price=7 low=8 high=8 life=8 left=5 removal=5 inside=1 holder=1 price=7 price=6";
    assert_eq!(said(job, "step=4 cost=0 stops=0").2, rest);
    // Part 2 comes out after part 1, whose removal is 0: fee 1, price 9, removal 5.
    let log = "step=4 cost=15 stops=1 stop=3 count=1 part=2";
    assert_eq!(said(job, log).2, rest.replace("left=5", "left=7"));
    // Six steps of seven run: part 1 is used up. Without step 8 no idle step is left, and no `idles` line.
    let last = "horizon=2 idles=1 idle=1 openings=1 opening=1 fee=3 parts=2 \
                life=9 left=0 removal=0 inside=0 low=8 high=8 life=8 left=2 removal=5 inside=1 holder=1 price=6";
    assert_eq!(said(job, "step=7 cost=0 stops=0").2, last);
    let shorter = job.replace("idles=2 idle=2 idle=8", "idles=1 idle=2");
    assert_eq!(said(&shorter, "step=7 cost=0 stops=0").2, last.replace("idles=1 idle=1 ", ""));
}

/// "If the log is the start of a plan the planner printed with 0, the least cost of the new job is that plan's remaining cost", and the planner
/// prints exactly the rest.
#[test]
fn starts_of_printed_plans_are_planned_on() {
    common::with_stack(|| {
        let mut rng = Rng::new(setting("JUZVAROLA_SEED", 41));
        let mut carried = 0;
        for _ in 0..setting("JUZVAROLA_CASES", 6000) {
            let facts = inputs::facts(&mut rng, inputs::SMALL);
            let job = texts::read_job(&facts.text()).expect("a job without faults");
            if job.walk(3000).more {
                continue;
            }
            let Some(step) = logs::step(&mut rng, job.horizon) else { continue };
            let Some(printed) = printed_plan(&facts.text(), MOST_WALK) else { continue };
            let (plan, cost) = texts::read_plan(&job, &printed).expect("a printed plan");
            let log = logs::text(&job, &plan, step);
            let done = read_log(&job, &log).expect("a log without faults");
            let reply = reference::carry(&facts.text(), &log, OUTPUT);
            assert_eq!(reply.result, 0, "{facts:?} {}", log.escape_ascii());
            let rest = texts::read_job(&reply.bytes).expect("a written text has no fault");
            assert_eq!(rest.text().as_bytes(), reply.bytes);
            let planned = printed_plan(&reply.bytes, MOST_WALK).unwrap_or_else(|| panic!("no plan: {facts:?}"));
            let (on, least) = texts::read_plan(&rest, &planned).expect("a printed plan");
            assert_eq!(done.cost + least, cost, "{facts:?} {}", log.escape_ascii());
            let first = job.openings.len() - rest.openings.len();
            assert_eq!(on, logs::rest(&plan, first));
            carried += 1;
        }
        println!("{carried} starts of printed plans, each planned on to the same total");
        assert!(carried >= 2000);
    });
}

/// For every plan of a small job that begins with the log: it keeps the lives exactly if its rest keeps the new job's, and it costs the log's cost
/// more than its rest. And where the log is refused for a life, no plan that begins with it keeps the lives.
#[test]
fn every_plan_that_begins_with_the_log() {
    common::with_stack(|| {
        let mut rng = Rng::new(setting("JUZVAROLA_SEED", 42));
        let (mut kept, mut broken, mut late) = (0, 0, 0);
        for _ in 0..setting("JUZVAROLA_CASES", 400) {
            let facts = inputs::facts(&mut rng, inputs::Size { horizon: 8, openings: 4, parts: 2 });
            let job = texts::read_job(&facts.text()).expect("a job without faults");
            let Some(step) = logs::step(&mut rng, job.horizon) else { continue };
            let first = job.openings.iter().filter(|opening| opening.step <= step).count();
            let (whole, _) = texts::read_plan(&job, &inputs::plan(&mut rng, &facts)).expect("a plan without faults");
            let done = logs::start(&job, &whole, step);
            let reply = reference::carry(&facts.text(), &logs::text(&job, &whole, step), OUTPUT);
            let begins = |plan: &Plan| {
                plan.stops[..first] == done.stops[..first]
                    && plan.changes.iter().zip(&done.changes).all(|(own, log)| own[..first] == log[..first])
            };
            for plan in brute::all_plans(&job).filter(begins) {
                if reply.result == 10 {
                    assert!(!job.keeps(&plan), "{facts:?} {plan:?}");
                    late += 1;
                    continue;
                }
                let rest = texts::read_job(&reply.bytes).expect("a written text has no fault");
                let on = logs::rest(&plan, first);
                assert_eq!(job.keeps(&plan), rest.keeps(&on), "{facts:?} {plan:?}");
                assert_eq!(job.cost(&plan), job.cost(&done) + rest.cost(&on), "{facts:?} {plan:?}");
                let ends = (job.at_low_ends().cost(&plan), job.at_low_ends().cost(&done) + rest.at_low_ends().cost(&on));
                assert_eq!(ends.0, ends.1, "{facts:?} {plan:?}");
                kept += u64::from(rest.keeps(&on));
                broken += u64::from(!rest.keeps(&on));
            }
        }
        println!("{kept} plans kept, {broken} not; {late} that begin with a log that is refused");
        assert!(kept >= 300 && broken >= 300 && late >= 100);
    });
}

/// "If carrying on by a first log and then by a second is accepted both times, carrying on by the joined log shall be accepted and give the
/// identical job text."
#[test]
fn two_logs_or_one() {
    common::with_stack(|| {
        let mut rng = Rng::new(setting("JUZVAROLA_SEED", 43));
        let mut both = 0;
        for _ in 0..setting("JUZVAROLA_CASES", 20_000) {
            let facts = inputs::facts(&mut rng, inputs::SMALL);
            let job = texts::read_job(&facts.text()).expect("a job without faults");
            let mut log = |job: &reference::model::Job, text: &[u8]| {
                let log = logs::random(&mut rng, job)?;
                let reply = reference::carry(text, &log, OUTPUT);
                (reply.result == 0).then(|| (String::from_utf8(log).expect("ASCII"), reply.bytes))
            };
            let Some((first, between)) = log(&job, &facts.text()) else { continue };
            let Some((second, last)) = log(&texts::read_job(&between).expect("a job"), &between) else { continue };
            let joined = reference::carry(&facts.text(), logs::joined(&first, &second).as_bytes(), OUTPUT);
            assert_eq!(joined, Reply { bytes: last, ..Reply::default() }, "{facts:?}\n{first}\n{second}");
            both += 1;
        }
        println!("{both} pairs of logs, each as the joined one");
        assert!(both >= 2000);
    });
}

/// Every result number occurs, and the line at fault is the line with that number.
#[test]
fn replies_are_consistent() {
    common::with_stack(|| {
        let mut rng = Rng::new(setting("JUZVAROLA_SEED", 44));
        let mut results = [0u64; 14];
        for _ in 0..setting("JUZVAROLA_CASES", 20_000) {
            let facts = inputs::facts(&mut rng, inputs::SMALL);
            let Call { job, plan, output, .. } = logs::call(&mut rng, &facts);
            let log = plan.expect("a log");
            let reply = reference::carry(&job, &log, output);
            let at_fault = if reply.text == 2 { &log } else { &job };
            let fault = &at_fault[reply.fault_start..][..reply.fault_length];
            if reply.line != 0 {
                assert_eq!(fault, line_of(at_fault, reply.line));
            }
            results[reply.result as usize] += 1;
        }
        println!("results: {results:?}");
        assert!([0, 1, 2, 3, 4, 5, 8, 9, 10, 11].iter().all(|result| results[*result] >= 5));
    });
}
