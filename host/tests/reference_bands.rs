//! Bands of prices: the plan is the one of the high ends, and for every choice of prices within the bands its cost lies between the two that are
//! printed.

mod common;
use common::inputs::{self, Facts};
use common::rng::Rng;
use common::setting;
use juzvarola_checks::reference::model::{Job, Part};
use juzvarola_checks::reference::{self, texts};

const OUTPUT: usize = 16_384;

/// The job with single prices, its high ends.
fn at_high_ends(facts: &Facts) -> Facts {
    let mut single = facts.clone();
    single.parts.iter_mut().for_each(|part| part.lows = vec![None; part.prices.len()]);
    single
}

/// What is printed without the `costlow` line, and the number of that line.
fn without_low(bytes: &[u8]) -> (String, Option<u64>) {
    let text = String::from_utf8(bytes.to_vec()).expect("answers are ASCII");
    let low = text.lines().find_map(|line| line.strip_prefix("costlow=")).map(|value| value.parse().expect("a number"));
    (text.split_inclusive('\n').filter(|line| !line.starts_with("costlow=")).collect(), low)
}

/// The job with prices chosen within its bands.
fn chosen(rng: &mut Rng, job: &Job) -> Job {
    let manner = rng.below(4);
    let price = |rng: &mut Rng, low: u64, high: u64| match manner {
        0 => low,
        1 => high,
        2 => rng.pick(&[low, high]),
        _ => rng.within(low, high),
    };
    let part = |rng: &mut Rng, part: &Part| {
        let prices = part.lows.iter().zip(&part.prices).map(|(low, high)| price(rng, *low, *high)).collect();
        Part { prices, ..part.clone() }
    };
    Job { parts: job.parts.iter().map(|own| part(rng, own)).collect(), ..job.clone() }
}

/// A `costlow` line stands before `cost` exactly if the job has a `low` line and a plan is printed; the rest is what single prices at the high ends
/// get; both ends are reached, and no choice within the bands goes beyond them.
#[test]
fn plans_lie_between_their_ends() {
    common::with_stack(|| {
        let mut rng = Rng::new(setting("JUZVAROLA_SEED", 31));
        let (mut plans, mut inside, mut empty) = (0, 0, 0);
        for _ in 0..setting("JUZVAROLA_CASES", 6000) {
            let facts = inputs::job(&mut rng);
            let job = texts::read_job(&facts.text()).expect("a job without faults");
            let stops = inputs::plan(&mut rng, &facts);
            for (banded, single) in [
                (reference::plan(&facts.text(), facts.walk, OUTPUT), reference::plan(&at_high_ends(&facts).text(), facts.walk, OUTPUT)),
                (reference::latest(&facts.text(), &stops, OUTPUT), reference::latest(&at_high_ends(&facts).text(), &stops, OUTPUT)),
            ] {
                let (rest, low) = without_low(&banded.bytes);
                assert_eq!(rest.as_bytes(), single.bytes, "{facts:?}");
                let Some(at) = rest.find("cost=") else {
                    assert_eq!(low, None, "{facts:?}");
                    continue;
                };
                assert_eq!(low.is_some(), job.is_banded(), "{facts:?}");
                let Some(low) = low else { continue };
                assert!(String::from_utf8_lossy(&banded.bytes).contains(&format!("\ncostlow={low}\ncost=")), "{facts:?}");
                let (plan, high) = texts::read_plan(&job, &rest.as_bytes()[at..]).expect("a printed plan");
                assert_eq!((job.at_low_ends().cost(&plan), job.cost(&plan)), (low, high), "{facts:?}");
                plans += 1;
                empty += u64::from(low == high);
                for _ in 0..4 {
                    let cost = chosen(&mut rng, &job).cost(&plan);
                    assert!((low..=high).contains(&cost), "{facts:?} {plan:?}");
                    inside += u64::from(low < cost && cost < high);
                }
            }
        }
        println!("{plans} plans with bands, {empty} of them with equal ends; {inside} choices strictly inside");
        assert!(!inputs::bands_on() || (plans >= 1000 && inside >= 500 && empty >= 50));
    });
}

/// The longest text that a form gives, which the reader takes, and with a walk line the longest of all.
#[test]
fn the_longest_text() {
    let steps: Vec<u32> = (1..=365).collect();
    let alike = |count: usize, value: u32| vec![value; count];
    let others = |own: u32| (1..=16).filter(move |other| *other != own);
    let lists = [
        steps.clone(),
        steps[301..].to_vec(),
        alike(64, 1_000_000),
        alike(16, 1000),
        alike(16, 1000),
        alike(16, 1),
        alike(16, 1_000_000),
        alike(16, 15),
        (1..=16).flat_map(others).collect(),
        alike(16, 0),
        vec![],
        vec![],
        vec![],
        alike(1024, 1),
        alike(1024, 1_000_000),
        alike(1024, 1_000_000),
    ];
    let call = common::forms::FormCall { output: 40_960, horizon: 365, lists };
    let text = String::from_utf8(call.expected().bytes).expect("ASCII");
    assert_eq!(text.len(), 33_357);
    let walked = text.replace("\nopenings=", "\nwalk=4000000000\nopenings=");
    assert_eq!(walked.len(), 33_373);
    assert!(texts::read_job(walked.as_bytes()).is_ok());
}
