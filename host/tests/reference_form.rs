//! The reference's writer gives what every vector expects; what it writes is read back, and an accepted text comes back byte for byte.

mod common;
use common::forms::{self, FormCall};
use common::inputs::{self, Facts};
use common::rng::Rng;
use juzvarola_checks::reference::{texts::read_job, Reply};

#[test]
fn reference_gives_every_form() {
    let vectors = forms::vectors();
    common::vectors::enough(vectors.len(), "JUZVAROLA_FORMS", 200);
    for vector in &vectors {
        let reply = vector.call.expected();
        assert_eq!(Reply { fault_start: 0, fault_length: 0, ..reply }, vector.reply, "{:?}", vector.call);
    }
    for result in [0, 3, 4, 5, 8] {
        assert!(vectors.iter().any(|vector| vector.reply.result == result), "no vector has result {result}");
    }
}

/// The facts that the text of a job without faults states.
fn facts_of(text: &[u8]) -> Facts {
    let job = read_job(text).expect("a job without faults");
    Facts {
        horizon: job.horizon as u64,
        idles: job.idles.iter().map(|step| *step as u64).collect(),
        walk: 0,
        line: job.walk,
        openings: job.openings.iter().map(|opening| (opening.step as u64, opening.fee)).collect(),
        parts: job
            .parts
            .iter()
            .map(|part| inputs::PartFacts {
                life: part.life as u64,
                left: part.left as u64,
                cover: part.covered.then(|| (part.removal, part.holders.iter().map(|holder| *holder as u64 + 1).collect())),
                rule: part.rule,
                prices: part.prices.clone(),
                lows: part.lows.iter().zip(&part.pairs).map(|(low, pair)| pair.then_some(*low)).collect(),
            })
            .collect(),
    }
}

#[test]
fn reference_returns_every_text() {
    let mut rng = Rng::new(21);
    for _ in 0..5_000 {
        // "A byte-for-byte return is owed to texts without the line."
        let text = Facts { line: None, ..inputs::job(&mut rng) }.text();
        let call = FormCall::of(&facts_of(&text), 40_960);
        assert_eq!(call.expected(), Reply { bytes: text, ..Reply::default() });
    }
}
