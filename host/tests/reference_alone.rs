//! The reference by itself: the specification's cases, and what must hold of its replies on random calls.

mod common;
use common::{holder_cases, idle_cases, inputs, line_of, paper, rng::Rng, setting};
use juzvarola_checks::reference::{self, Counted, Reply};

const CASES: u64 = 30_000;

#[test]
fn reference_gives_the_papers_cases_the_idle_ones_and_those_with_holders() {
    for case in [paper::cases(), idle_cases::cases(), holder_cases::cases()].concat() {
        let reply = case.call.expected();
        assert!(case.is(reply.line, &reply.bytes), "{}: {}", case.name, reply.bytes.escape_ascii());
    }
}

/// "E6's call gives 12 with line 0 after all text checks."
#[test]
fn count_refuses_holders_after_all_text_checks() {
    let [held, longer] = holder_cases::counted();
    assert_eq!(reference::count(&held, 1), Counted { result: 12, ..Counted::default() });
    let counted = reference::count(&longer, 1);
    assert_eq!((counted.result, counted.text, counted.line, counted.count), (2, 1, 24, 0));
}

fn check(call: &common::Call, reply: &Reply) {
    assert!(reply.bytes.len() <= 16_384, "{call:?}");
    let text = match reply.text {
        1 => &call.job,
        2 => call.plan.as_ref().expect("only the judge has a second text"),
        _ => &Vec::new(),
    };
    let fault = &text[reply.fault_start..][..reply.fault_length];
    assert_eq!(reply.text != 0, matches!(reply.result, 1..=5 | 9 | 12 | 13), "{call:?}");
    assert_eq!(reply.line != 0, matches!(reply.result, 2..=5 | 9 | 12 | 13), "{call:?}");
    if reply.line != 0 {
        assert_eq!(fault, line_of(text, reply.line), "{call:?}");
    } else {
        assert_eq!((reply.fault_start, reply.fault_length), (0, 0), "{call:?}");
    }
    if call.plan.is_none() && reply.result == 0 {
        let plan = inputs::printed_plan(&call.job, call.walk).expect("a plan is printed");
        let judged = reference::judge(&call.job, &plan, 16_384).bytes;
        let cost = line_of(&plan, 1);
        assert_eq!(judged, [b"result=0\n", cost, b"\n"].concat(), "{call:?}");
    }
}

#[test]
fn replies_are_consistent_and_every_result_occurs() {
    common::with_stack(|| {
        let mut rng = Rng::new(setting("JUZVAROLA_SEED", 1));
        let mut results = [[0u64; 14]; 2];
        let mut costly = 0;
        let cases = setting("JUZVAROLA_CASES", CASES);
        for _ in 0..cases {
            let call = inputs::call(&mut rng);
            let reply = call.expected();
            check(&call, &reply);
            costly += u64::from(reply.result == 0 && call.is_costly());
            results[call.plan.is_some() as usize][reply.result as usize] += 1;
        }
        println!("results of the planner: {:?}\nresults of the judge:   {:?}", results[0], results[1]);
        println!("{costly} plans that cost more than 2000000000 are accepted");
        if cases >= CASES {
            assert!(results[0][..9].iter().all(|times| *times >= 5));
            assert!([0, 1, 2, 3, 4, 5, 8, 9, 10, 11].iter().all(|result| results[1][*result] >= 5));
            assert!(!inputs::holders_on() || (results[0][12] >= 5 && results[1][12] >= 5 && costly >= 5));
            assert!(!inputs::bands_on() || (results[0][13] >= 5 && results[1][13] >= 5));
        }
    });
}

/// "An empty plan text shall mean a plan of no stops and cost 0": the reply is the one to that plan, and its cost is the true one.
#[test]
fn an_empty_plan_text_is_doing_nothing() {
    common::with_stack(|| {
        let mut rng = Rng::new(setting("JUZVAROLA_SEED", 8));
        let mut results = [0u64; 14];
        for _ in 0..CASES {
            let call = inputs::call_on_nothing(&mut rng);
            let reply = call.expected();
            let nothing = common::Call { plan: Some(b"cost=0\nstops=0\n".to_vec()), ..call.clone() };
            assert_eq!(reply, nothing.expected(), "{call:?}");
            results[reply.result as usize] += 1;
        }
        println!("results of the judge: {results:?}");
        assert!([0, 1, 2, 3, 4, 5, 8, 10].iter().all(|result| results[*result] >= 5));
        assert_eq!(results[9] + results[11], 0);
    });
}
