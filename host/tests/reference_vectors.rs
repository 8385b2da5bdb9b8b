//! The reference gives what every vector expects.

mod common;
use common::{inputs, rng::Rng, vectors, Call};
use juzvarola_checks::reference::{self, Reply};
use std::{fs, path::Path};

#[test]
fn reference_gives_every_vector() {
    common::with_stack(|| {
        vectors::given(&vectors::all(), ("JUZVAROLA_VECTORS", 1570), |vector| vector.is_given_by(vector.call.expected()));
    });
}

/// Points of a walk that counts, at most.
const MOST: u64 = 1_000;

#[test]
fn reference_gives_every_count() {
    common::with_stack(|| {
        vectors::given(&vectors::counts(), ("JUZVAROLA_COUNT_VECTORS", 300), |vector| {
            let counted = reference::count(&vector.job, MOST);
            let fault = &vector.job[counted.fault_start..][..counted.fault_length];
            let numbers = (counted.result, counted.text, counted.line, counted.count, fault);
            let wanted = (vector.result, vector.text, vector.line, u64::from(vector.count).min(MOST), &vector.fault[..]);
            match numbers == wanted {
                true => Ok(()),
                false => Err(format!("{numbers:?}\nnot {wanted:?}\n{}", vector.job.escape_ascii())),
            }
        });
    });
}

/// How many vectors with idle lines the planner and the judge get for each result number.
const IDLE_VECTORS: [[usize; 12]; 2] = [[10, 0, 5, 5, 6, 0, 6, 6, 0, 0, 0, 0], [5, 0, 1, 1, 2, 0, 0, 0, 0, 0, 12, 4]];

/// The most bytes of a job with idle lines.
const SHORT: usize = 500;

/// Whether the idle lines alone make this reply: without them the job has no fault, and the call has another reply. Only 6 is the same
/// without them, since idle steps never wear a part.
fn is_made_by_idles(call: &Call, reply: &Reply) -> bool {
    let lines = call.job.split_inclusive(|byte| *byte == 10);
    let job = lines.filter(|line| !line.starts_with(b"idle")).collect::<Vec<_>>().concat();
    let job_is_shorter = job.len() < call.job.len();
    let other = Call { job, ..call.clone() }.expected();
    job_is_shorter && other.text == 0 && (reply.result == 6 || other.bytes != reply.bytes)
}

#[test]
#[ignore = "writes vectors/idles.txt anew"]
fn write_vectors_with_idles() {
    assert!(inputs::idles_on(), "JUZVAROLA_IDLES=0 gives no idle lines");
    let mut rng = Rng::new(13);
    let mut missing = IDLE_VECTORS;
    let mut file = String::new();
    while missing.iter().flatten().any(|count| *count > 0) {
        let call = Call { output: 16_384, ..inputs::call(&mut rng) };
        if call.is_of_holders() {
            continue;
        }
        let reply = call.expected();
        let count = &mut missing[call.plan.is_some() as usize][reply.result as usize];
        if *count > 0 && call.job.len() <= SHORT && is_made_by_idles(&call, &reply) {
            *count -= 1;
            file += &vectors::line(&call, &reply);
        }
    }
    fs::write(Path::new(env!("CARGO_MANIFEST_DIR")).join("vectors/idles.txt"), file).expect("the file is written");
}
