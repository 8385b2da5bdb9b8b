//! The library's writer on every vector, and against the reference's on random forms, valid and damaged, with canaries around every list and the output.
//! JUZVAROLA_CASES and JUZVAROLA_SEED give other numbers of forms and other forms.
#![cfg(feature = "library")]

mod common;
use common::lent::{self, compare_form};
use common::{forms, rng::Rng, setting};
use juzvarola_checks::reference::texts::read_job;

const CASES: u64 = 100_000;

/// Each result number occurs at least this often in the full run.
const LEAST: u64 = 50;

#[test]
fn library_gives_every_form() {
    lent::given(forms::vectors(), ("JUZVAROLA_FORMS", 200), |rng, vector| compare_form(rng, &vector.call, &vector.reply));
}

#[test]
fn library_writes_what_the_reference_writes() {
    common::with_stack(|| {
        let mut rng = Rng::new(setting("JUZVAROLA_SEED", 8));
        let cases = setting("JUZVAROLA_CASES", CASES);
        let mut results = [0u64; 14];
        for number in 0..cases {
            let call = forms::random(&mut rng);
            let reply = call.expected();
            if let Err(difference) = compare_form(&mut rng, &call, &reply) {
                panic!("form {number}: {difference}");
            }
            // "A written text reads back as the same job".
            if reply.result == 0 {
                let job = read_job(&reply.bytes).expect("a written text has no fault");
                assert_eq!((job.horizon as u32, job.walk, job.parts.len()), (call.horizon, None, call.lists[3].len()));
            }
            results[reply.result as usize] += 1;
        }
        println!("{cases} forms, 0 differ; results: {results:?}");
        if cases >= CASES {
            assert!([0, 3, 4, 5, 8].iter().all(|result| results[*result] >= LEAST));
            assert!(!common::inputs::holders_on() || results[12] >= LEAST);
            assert!(!common::inputs::bands_on() || results[13] >= LEAST);
        }
    });
}
