//! The library against the reference on random calls: jobs, plans and damaged texts, long and short, with canaries around every buffer.
//! JUZVAROLA_CASES and JUZVAROLA_SEED give other numbers of calls and other calls.
#![cfg(feature = "library")]

mod common;
use common::{inputs, lent, rng::Rng, setting, Call};

const CASES: u64 = 120_000;

/// Each result number of each call occurs at least this often in the full run.
const LEAST: u64 = 50;

#[test]
fn library_is_the_reference() {
    common::with_stack(|| {
        let mut rng = Rng::new(setting("JUZVAROLA_SEED", 5));
        let cases = setting("JUZVAROLA_CASES", CASES);
        let mut results = [[0u64; 14]; 2];
        for number in 0..cases {
            let call = inputs::call(&mut rng);
            let reply = call.expected();
            if let Err(difference) = lent::compare(&mut rng, &call, &reply) {
                panic!("call {number}: {difference}");
            }
            results[call.plan.is_some() as usize][reply.result as usize] += 1;
        }
        println!("{cases} calls, 0 differ\nresults of the planner: {:?}\nresults of the judge:   {:?}", results[0], results[1]);
        if cases >= CASES {
            assert!(results[0][..9].iter().all(|times| *times >= LEAST));
            assert!([0, 1, 2, 3, 4, 5, 8, 9, 10, 11].iter().all(|result| results[1][*result] >= LEAST));
            assert!(!inputs::holders_on() || results.iter().all(|row| row[12] >= LEAST));
        }
    });
}

/// The judge on an empty plan text: the reference's reply, whatever the job and the output.
#[test]
fn library_is_the_reference_on_an_empty_plan_text() {
    common::with_stack(|| {
        let mut rng = Rng::new(setting("JUZVAROLA_SEED", 9));
        let mut results = [0u64; 14];
        for number in 0..CASES / 3 {
            let call = inputs::call_on_nothing(&mut rng);
            let reply = call.expected();
            if let Err(difference) = lent::compare(&mut rng, &call, &reply) {
                panic!("call {number}: {difference}");
            }
            results[reply.result as usize] += 1;
        }
        println!("{} calls, 0 differ\nresults of the judge: {results:?}", CASES / 3);
        assert!([0, 2, 3, 4, 5, 8, 10].iter().all(|result| results[*result] >= LEAST));
    });
}

/// Every beginning of a job text and of a plan text, and every text with one byte replaced, for a job of each kind of line.
#[test]
fn library_is_the_reference_on_every_cut_and_every_byte() {
    common::with_stack(|| {
        let mut rng = Rng::new(6);
        let idles = if inputs::idles_on() { "idles=2 idle=3 idle=6" } else { "" };
        let lines = "walk=11 openings=2 opening=2 fee=10 opening=4 fee=0 parts=1 life=3 left=2 price=5 price=10";
        let job = common::paper::text(&format!("horizon=6 {idles} {lines}"));
        let plan = common::paper::text("cost=25 stops=2 stop=2 count=1 part=1 stop=4 count=1 part=1");
        let mut check = |job: &[u8], plan: Option<&[u8]>| {
            let call = Call { job: job.to_vec(), plan: plan.map(<[u8]>::to_vec), walk: 11, output: 16_384 };
            if let Err(difference) = lent::compare(&mut rng, &call, &call.expected()) {
                panic!("{difference}");
            }
        };
        for length in 0..=job.len() {
            check(&job[..length], None);
            check(&job[..length], Some(&plan));
        }
        for length in 0..=plan.len() {
            check(&job, Some(&plan[..length]));
        }
        for byte in b"\n=0123456789a\0\xff" {
            for place in 0..job.len() {
                let mut other = job.clone();
                other[place] = *byte;
                check(&other, None);
            }
            for place in 0..plan.len() {
                let mut other = plan.clone();
                other[place] = *byte;
                check(&job, Some(&other));
            }
        }
    });
}
