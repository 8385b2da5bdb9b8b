//! Bands of prices by the library: at any prices within the bands the judge finds the printed plan's cost between the two that are printed, and at
//! the ends exactly these.
#![cfg(feature = "library")]

mod common;
use common::inputs::{self, Facts};
use common::lent::{judged, latest, planned};
use common::rng::Rng;
use common::setting;

/// The value of an answer's line.
fn value(lines: &str, key: &str) -> Option<u64> {
    lines.lines().find_map(|line| line.strip_prefix(key)?.strip_prefix('=')?.parse().ok())
}

/// The job with single prices: the low ends, the high ends, or any within.
fn chosen(rng: &mut Rng, facts: &Facts, manner: u64) -> Facts {
    let mut single = facts.clone();
    for part in &mut single.parts {
        for (price, low) in part.prices.iter_mut().zip(&mut part.lows) {
            let least = low.take().unwrap_or(*price);
            *price = match manner {
                0 => least,
                1 => *price,
                _ => rng.within(least, *price),
            };
        }
    }
    single
}

#[test]
fn plans_lie_between_their_ends() {
    common::with_stack(|| {
        let mut rng = Rng::new(setting("JUZVAROLA_SEED", 32));
        let (mut plans, mut inside) = (0, 0);
        for _ in 0..setting("JUZVAROLA_CASES", 20_000) {
            let facts = inputs::job(&mut rng);
            let stops = inputs::plan(&mut rng, &facts);
            for lines in [planned(&facts.text(), facts.walk), latest(&facts.text(), &stops)] {
                let (Some(low), Some(high)) = (value(&lines, "costlow"), value(&lines, "cost")) else { continue };
                plans += 1;
                let plan = &lines[lines.find("\ncost=").expect("plan lines") + 1..];
                for manner in 0..4 {
                    let verdict = judged(&chosen(&mut rng, &facts, manner).text(), plan.as_bytes());
                    let cost = value(&verdict, "cost").unwrap_or_else(|| panic!("{verdict} {facts:?}"));
                    let ends = [low..=low, high..=high, low..=high, low..=high];
                    assert!(ends[manner as usize].contains(&cost), "{cost} {lines} {facts:?}");
                    inside += u64::from(low < cost && cost < high);
                }
            }
        }
        println!("{plans} plans with bands, {inside} choices strictly inside");
        assert!(!inputs::bands_on() || (plans >= 3000 && inside >= 1000));
    });
}
