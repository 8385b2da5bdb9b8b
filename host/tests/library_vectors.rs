//! The library gives what every vector and every case of the specification expects.
#![cfg(feature = "library")]

mod common;
use common::paper::{self, Case};
use common::{idle_cases, lent, vectors};

#[test]
fn library_gives_every_vector() {
    lent::given(vectors::all(), ("JUZVAROLA_VECTORS", 1570), |rng, vector| lent::compare(rng, &vector.call, &vector.reply()));
}

#[test]
fn library_gives_the_papers_cases() {
    gives(paper::cases());
}

#[test]
fn library_gives_the_idle_cases() {
    gives(idle_cases::cases());
}

fn gives(cases: Vec<Case>) {
    common::with_stack(move || {
        for case in cases {
            let mut out = vec![0xAA; case.call.output];
            let answer = match &case.call.plan {
                None => juzvarola_host::plan(&case.call.job, case.call.walk, &mut out),
                Some(plan) => juzvarola_host::judge(&case.call.job, plan, &mut out),
            };
            let written = &out[..answer.length];
            assert!(case.is(answer.line, written), "{}: {}", case.name, written.escape_ascii());
        }
    });
}
