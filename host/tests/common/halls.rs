//! Random halls: lines of one horizon and the same idle steps, and the texts that state them.

use super::inputs::{self, Facts, Size};
use super::rng::Rng;
use juzvarola_checks::reference::brute;
use juzvarola_checks::reference::hall::Hall;
use juzvarola_checks::reference::model::{Job, Plan};
use std::collections::{BTreeSet, HashMap};

/// A hall: what a call costs, and its lines.
#[derive(Debug, Clone)]
pub struct HallFacts {
    pub call: u64,
    pub lines: Vec<Facts>,
}

impl HallFacts {
    pub fn text(&self) -> Vec<u8> {
        self.texts(self.lines.iter().map(Facts::text).collect())
    }

    /// The hall's text with this job text in the place of that line's.
    pub fn text_with(&self, line: usize, job: &[u8]) -> Vec<u8> {
        let own = |(at, facts): (usize, &Facts)| if at == line { job.to_vec() } else { facts.text() };
        self.texts(self.lines.iter().enumerate().map(own).collect())
    }

    /// The hall's own lines, and behind them these job texts.
    fn texts(&self, jobs: Vec<Vec<u8>>) -> Vec<u8> {
        let head = format!("machines={}\ncall={}\n", self.lines.len(), self.call).into_bytes();
        [head, jobs.concat()].concat()
    }
}

/// A hall without faults of this many lines at most, each of this size at most.
pub fn facts(rng: &mut Rng, size: Size, most: u64) -> HallFacts {
    let call = rng.pick(&[0, 0, 1, 5, 20, 1000, 1_000_000]);
    let mut lines = vec![inputs::facts(rng, size)];
    for _ in 1..rng.within(1, most) {
        lines.push(beside(rng, size, &lines[0]));
    }
    HallFacts { call, lines }
}

/// Another line of the first one's horizon and idle steps.
fn beside(rng: &mut Rng, size: Size, first: &Facts) -> Facts {
    loop {
        let facts = inputs::facts(rng, size);
        if facts.horizon == first.horizon {
            return Facts { idles: first.idles.clone(), ..facts };
        }
    }
}

/// A hall's text with a fault that only a hall has: another horizon, other idle steps, too many parts or openings, a count that is wrong.
pub fn unlike(rng: &mut Rng, mut hall: HallFacts) -> Vec<u8> {
    let count = hall.lines.len();
    let last = &mut hall.lines[count - 1];
    match rng.below(6) {
        0 => last.horizon += 1,
        1 if last.idles.is_empty() => last.idles = vec![1],
        1 => drop(last.idles.pop()),
        2 => {
            let part = last.parts[0].clone();
            last.parts.resize(16, part);
        }
        3 => hall.call = rng.pick(&[1_000_000, 1_000_001]),
        4 => {
            let text = String::from_utf8(hall.text()).expect("ASCII");
            let other = rng.pick(&[0, count + 1, count - 1, 4, 5]);
            return text.replacen(&format!("machines={count}"), &format!("machines={other}"), 1).into_bytes();
        }
        _ => return [hall.text(), b"horizon=6\n".to_vec()].concat(),
    }
    hall.text()
}

/// A text about a hall: without a fault, with one that only a hall has, damaged, or made long.
pub fn text(rng: &mut Rng, size: Size) -> Vec<u8> {
    let hall = facts(rng, size, 3);
    if rng.once_in(200) {
        let mut text = hall.text();
        text.resize(rng.pick(&[65_536, 65_537, 65_538, 70_000]), b'\n');
        return text;
    }
    match rng.below(6) {
        0 => unlike(rng, hall),
        1 => inputs::damaged(rng, hall.text()),
        _ => hall.text(),
    }
}

/// For each stop set the least cost of plans of a job that keep the lives, without calls.
fn by_stops(job: &Job) -> HashMap<Vec<i64>, u64> {
    let mut least = HashMap::new();
    for plan in brute::all_plans(job).filter(|plan| job.keeps(plan)) {
        let cost = brute::cost(job, &plan);
        let own: &mut u64 = least.entry(steps(job, &plan)).or_insert(cost);
        *own = cost.min(*own);
    }
    least
}

/// The steps at which a plan stops.
pub fn steps(job: &Job, plan: &Plan) -> Vec<i64> {
    job.openings.iter().zip(&plan.stops).filter(|(_, stop)| **stop).map(|(opening, _)| opening.step).collect()
}

/// The least cost of a hall, over all sets of plans for its lines: one call for each step at which some line stops.
pub fn least(hall: &Hall) -> Option<u64> {
    let mut all: HashMap<BTreeSet<i64>, u64> = HashMap::from([(BTreeSet::new(), 0)]);
    for job in &hall.jobs {
        let own = by_stops(job);
        let mut next: HashMap<BTreeSet<i64>, u64> = HashMap::new();
        for (union, sum) in &all {
            for (stops, cost) in &own {
                let union: BTreeSet<i64> = union.iter().chain(stops).copied().collect();
                let best = next.entry(union).or_insert(sum + cost);
                *best = (sum + cost).min(*best);
            }
        }
        all = next;
    }
    all.into_iter().map(|(stops, sum)| sum + hall.call * stops.len() as u64).min()
}

/// The cost that an answer's lines state first.
pub fn cost(lines: &str) -> u64 {
    lines.lines().find_map(|line| line.strip_prefix("cost=")?.parse().ok()).expect("a cost")
}
