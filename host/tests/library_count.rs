//! `juzvarola_count`: its vectors, and random jobs against a walk that drops missing points only.
#![cfg(feature = "library")]

mod common;
use common::{inputs, rng::Rng, setting, vectors};
use juzvarola_checks::reference::texts;
use juzvarola_host::{count, judge, plan};
use std::time::Instant;

/// "The count stops at 4000000000".
const CAP: u32 = 4_000_000_000;

/// Points of a walk, at most.
const MOST: u64 = 3_000;

#[test]
fn every_vector_of_the_count() {
    vectors::given(&vectors::counts(), ("JUZVAROLA_COUNT_VECTORS", 300), |vector| {
        let answer = count(&vector.job);
        let same = (answer.result, answer.text, answer.line, answer.count) == (vector.result, vector.text, vector.line, vector.count);
        match same && answer.fault == vector.fault {
            true => Ok(()),
            false => Err(format!("{answer:?}\n{}", vector.job.escape_ascii())),
        }
    });
}

/// Whether a part of an accepted job has a holder.
fn has_holder(text: &[u8]) -> bool {
    text.windows(8).any(|window| window == b"\nholder=")
}

#[test]
fn random_jobs_against_a_walk() {
    common::with_stack(|| {
        let mut rng = Rng::new(setting("JUZVAROLA_SEED", 12));
        let cases = setting("JUZVAROLA_CASES", 4_000);
        let (mut whole, mut several, mut refused) = (0, 0, 0);
        for _ in 0..cases {
            let text = inputs::job(&mut rng).text();
            let job = texts::read_job(&text).expect("a job without faults");
            let answer = count(&text);
            let held = has_holder(&text);
            let result = if held { 12 } else { 0 };
            assert_eq!((answer.result, answer.text, answer.line, answer.fault_start, answer.fault.len()), (result, 0, 0, 0, 0), "{job:?}");
            if held {
                assert_eq!(answer.count, 0, "{job:?}");
                refused += 1;
                continue;
            }
            let points = job.open_points(MOST);
            if points < MOST {
                assert_eq!(u64::from(answer.count), points, "{job:?}");
                whole += 1;
                several += u64::from(points > 1);
            } else {
                assert!(u64::from(answer.count) >= MOST, "{job:?}");
            }
            assert!(job.walk(MOST).nodes <= u64::from(answer.count), "{job:?}");
            assert!(job.floor().is_some() || answer.count == 1, "{job:?}");
        }
        println!("{cases} jobs: {refused} with a holder, {whole} walked whole, {several} of them with more than one point");
        assert!(several * 10 > cases);
    });
}

/// A job of these openings, one a step, whose parts outlast the horizon.
fn idle_parts(openings: u32, parts: u32) -> String {
    let mut text = format!("horizon=365\nopenings={openings}\n");
    (1..=openings).for_each(|step| text += &format!("opening={step}\nfee=1\n"));
    text += &format!("parts={parts}\n");
    (0..parts).for_each(|_| text += &format!("life=1000\nleft=1000\n{}", "price=1\n".repeat(openings as usize)));
    text
}

#[test]
fn nothing_is_dropped() {
    for (openings, expected) in [(0, 1), (1, 3), (29, 1_073_741_823), (30, 2_147_483_647), (31, CAP), (32, CAP), (63, CAP), (64, CAP)] {
        for parts in [1, 16] {
            let text = idle_parts(openings, parts);
            let answer = count(text.as_bytes());
            assert_eq!((answer.result, answer.count), (0, expected), "{openings} openings, {parts} parts");
        }
    }
}

#[test]
fn counts_about_the_cap() {
    let (mut below, mut above) = (0, 0);
    for openings in 28..=36 {
        for life in 3..=16 {
            for left in 1..=life {
                let lives = format!("life={life}\nleft={left}\n");
                let text = idle_parts(openings, 1)
                    .replace("horizon=365", &format!("horizon={openings}"))
                    .replace("life=1000\nleft=1000\n", &lives);
                let counted = count(text.as_bytes()).count;
                let exact = exact(openings, life, left);
                assert_eq!(u128::from(counted), exact.min(u128::from(CAP)), "{openings} openings, {lives}");
                below += u32::from(counted < CAP && exact * 20 >= u128::from(CAP) * 19);
                above += u32::from(counted == CAP && exact * 20 <= u128::from(CAP) * 21);
            }
        }
    }
    println!("within 5 % of the cap: {below} below, {above} above");
    assert!(below > 0 && above > 0);
}

/// The count without a cap of a part with these lives and an opening at each step, over the number decided and the last stop.
fn exact(openings: u32, life: u32, left: u32) -> u128 {
    let reaches = |last: u32, k: u32| k < if last == 0 { left } else { last + life };
    if (0..=openings).any(|k| !reaches(k, k)) {
        return 1;
    }
    let mut row = vec![1; openings as usize + 1];
    for j in (0..openings).rev() {
        for last in 0..=j {
            let declined = if reaches(last, j + 1) { row[last as usize] } else { 1 };
            row[last as usize] = 1 + declined + row[j as usize + 1];
        }
    }
    row[0]
}

#[test]
fn never_fewer_than_the_planner_prints() {
    common::with_stack(|| {
        let mut rng = Rng::new(setting("JUZVAROLA_SEED", 13));
        let mut out = vec![0; 16_384];
        for _ in 0..2_000 {
            let facts = inputs::job(&mut rng);
            let text = facts.text();
            let answer = plan(&text, facts.walk, &mut out);
            let lines = std::str::from_utf8(&out[..answer.length]).expect("ASCII");
            let nodes =
                lines.lines().find_map(|line| line.strip_prefix("nodes=")).map_or(0, |value| value.parse::<u32>().expect("a number"));
            assert!(has_holder(&text) || nodes <= count(&text).count);
        }
    });
}

/// Microseconds a call on the largest job: the count, and the judge with a plan text that is refused at once, which reads the job alone.
#[test]
#[ignore]
fn time_of_the_count() {
    let text = idle_parts(64, 16);
    let mut out = vec![0; 16_384];
    type Timed<'o> = &'o mut dyn FnMut(&[u8]) -> u32;
    let calls: [(&str, Timed); 2] =
        [("the count", &mut |job| count(job).count), ("reading alone", &mut |job| judge(job, b"\n", &mut out).line)];
    for (name, call) in calls {
        let (times, start) = (20_000, Instant::now());
        let sum: u64 = (0..times).map(|_| u64::from(call(std::hint::black_box(text.as_bytes())))).sum();
        println!("{name}: {:.2} microseconds a call ({sum})", start.elapsed().as_secs_f64() * 1e6 / f64::from(times));
    }
}
