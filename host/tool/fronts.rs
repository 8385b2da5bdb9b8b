//! The search for a front: the optimum of the job with every fee raised by a number, for one number after the other; plans near those found; and for the
//! numbers of stops that are the cheapest at no such number, fees raised by spans of openings (`spans`).

use crate::calls::{self, Reply, CUT_SHORT};
use crate::costs::Costs;
use crate::failure::Failure;
use crate::numbers::{counted, grouped};
use crate::spans;
use crate::texts::{self, Job, Part, Plan, Stop};
use crate::watch::{Ended, Watch};
use std::collections::{BTreeMap, BTreeSet};
use std::time::Duration;

/// The most that a fee, a price or a removal may be.
pub const MOST: u64 = 1_000_000;
/// As many times as large at most are amounts made, so that a fee can be raised by less than one.
const FINEST: u64 = 64;
/// The nodes of a walk on the openings near a plan: milliseconds.
const NEAR: u64 = 100_000;
/// Walks by spans have the walk number divided by this.
const SPANS: u64 = 100;
/// How many rounds plans near others are looked for.
const ROUNDS: usize = 3;

/// What is asked for: the walk number of each search, how many calls by spans there may be, whether to show no progress, and to end after some time.
pub struct Asked {
    pub walk: u64,
    pub calls: u64,
    pub quiet: bool,
    pub limit: Option<Duration>,
}

/// How a plan is proved to be the cheapest with so many stops.
#[derive(Debug, Clone, Copy, PartialEq, Eq)]
pub enum Proof {
    /// By raising every fee by one number.
    Fees,
    /// By raising fees span by span.
    Spans,
}

impl Proof {
    /// Its name for programs.
    pub fn name(self) -> &'static str {
        match self {
            Proof::Fees => "fees",
            Proof::Spans => "spans",
        }
    }
}

/// So many stops: the cheapest plan known, what no plan with so many stops costs less than, and how the plan is proved, if it is.
#[derive(Debug, Clone)]
pub struct Point {
    pub stops: u64,
    pub plan: Option<Plan>,
    pub least: u64,
    pub proof: Option<Proof>,
}

impl Point {
    /// What the plan costs.
    pub fn cost(&self) -> Option<u64> {
        self.plan.as_ref().map(|plan| plan.cost)
    }

    /// Whether the plan is proved to be the cheapest with so many stops.
    pub fn is_proved(&self) -> bool {
        self.proof.is_some()
    }

    /// What the plan costs, one by one.
    pub fn costs(&self, job: &Job, plan: &Plan) -> Costs {
        Costs::of(job, plan, Some(plan.cost))
    }
}

/// The points by rising numbers of stops; whether there is no plan at all; how many calls were made, and why and when there was no further one.
pub struct Found {
    pub points: Vec<Point>,
    pub none: bool,
    pub calls: u64,
    pub ended: Ended,
    pub after: Duration,
}

/// What was proved with every fee so much raised: no plan costs less than this, in finer amounts.
struct Proved {
    raised: i64,
    least: u64,
}

/// Why a search comes to no end of its own: it is ended, or something failed.
pub enum Halt {
    Ended(Ended),
    Failed(Failure),
}

impl From<Failure> for Halt {
    fn from(failure: Failure) -> Halt {
        Halt::Failed(failure)
    }
}

/// The search so far.
pub struct Search<'j> {
    pub job: &'j Job,
    asked: &'j Asked,
    /// As many times as large are amounts.
    pub scale: u64,
    /// What divides every fee, price and removal, and so each plan's cost.
    unit: u64,
    /// The least and the most that fees can be raised by.
    pub room: (i64, i64),
    proved: Vec<Proved>,
    /// What no plan with so many stops costs less than, by spans.
    floors: BTreeMap<u64, u64>,
    /// The cheapest plan known for each number of stops.
    plans: BTreeMap<u64, Plan>,
    /// What the fewest stops are at least.
    fewest: Option<u64>,
    /// The most stops that save something, as far as fees were raised and lowered.
    most: Option<u64>,
    /// Whether no plan keeps the lives.
    none: bool,
    /// The sets of openings that were looked at near plans.
    tried: BTreeSet<Vec<u64>>,
    pub calls: u64,
    watch: Watch,
}

/// The points of a job's front, as far as they are found before the search is ended.
pub fn find(job: &Job, asked: &Asked) -> Result<Found, Failure> {
    let mut search = Search::new(job, asked);
    let ended = match search.run() {
        Ok(()) => Ended::ByItself,
        Err(Halt::Ended(ended)) => ended,
        Err(Halt::Failed(failure)) => return Err(failure),
    };
    let points = if search.none { Vec::new() } else { search.all() };
    Ok(Found { points, none: search.none, calls: search.calls, ended, after: search.watch.elapsed() })
}

impl<'j> Search<'j> {
    /// Nothing is searched yet.
    fn new(job: &'j Job, asked: &'j Asked) -> Search<'j> {
        let fees = || job.openings.iter().map(|opening| opening.fee);
        let of_parts = || job.parts.iter().flat_map(|part| part.prices.iter().copied().chain([part.removal]));
        let greatest = fees().chain(of_parts()).max().unwrap_or(1).max(1);
        // Half of the room is left for fees to be raised into.
        let scale = (MOST / 2 / greatest).clamp(1, FINEST);
        let (lowest, highest) = (fees().min().unwrap_or(0) * scale, fees().max().unwrap_or(0) * scale);
        Search {
            job,
            asked,
            scale,
            unit: fees().chain(of_parts()).fold(0, divisor).max(1),
            // With a fee of one left, the fewest of all stops that save as much are taken; without any, walks have nothing to tell stops by.
            room: (1 - lowest as i64, MOST.saturating_sub(highest) as i64),
            proved: Vec::new(),
            floors: BTreeMap::new(),
            plans: BTreeMap::new(),
            fewest: None,
            most: None,
            none: false,
            tried: BTreeSet::new(),
            calls: 0,
            watch: Watch::new(asked.quiet, asked.limit),
        }
    }
}

impl Search<'_> {
    /// All of it.
    fn run(&mut self) -> Result<(), Halt> {
        self.raised(0)?;
        if self.none {
            return Ok(());
        }
        let (least, most) = self.room;
        if let (Some(most), Some(fewest)) = (self.raised(least)?, self.raised(most)?) {
            let own: Vec<u64> = self.plans.keys().copied().collect();
            for pair in own.windows(2).filter(|pair| pair[0] >= fewest && pair[1] <= most) {
                self.between(pair[0], pair[1])?;
            }
        }
        self.find_fewest()?;
        for _ in 0..ROUNDS {
            if !self.near()? {
                break;
            }
        }
        self.settle()
    }

    /// The cheapest plan of a job of this search, with the walk number that was given.
    fn ask(&mut self, job: &Job) -> Result<Reply, Halt> {
        let walk = self.asked.walk;
        self.call(job, move |text| calls::optimum_here(text, walk))
    }

    /// The same by spans, of which there are many: with a part of the walk number.
    pub fn ask_by_spans(&mut self, job: &Job) -> Result<Reply, Halt> {
        let walk = self.asked.walk.div_ceil(SPANS);
        self.call(job, move |text| calls::optimum_here(text, walk))
    }

    /// What a call answers to a job of this search.
    fn call(&mut self, job: &Job, call: impl FnOnce(&[u8]) -> Reply + Send + 'static) -> Result<Reply, Halt> {
        let (text, line) = (job.text(), self.line());
        let answered = self.watch.call(move || call(text.as_bytes()), |elapsed| format!("{elapsed} s, {line}"))?;
        self.calls += 1;
        answered.map_err(Halt::Ended)
    }

    /// How far it is.
    fn line(&self) -> String {
        let calls = counted(self.calls, "call");
        let (Some(first), Some(last)) = (self.plans.keys().next(), self.plans.keys().last()) else { return calls };
        let proved = (*first..=*last).filter(|stops| self.is_proved(*stops)).count();
        let least = self.plans.values().map(|plan| plan.cost).min().unwrap_or(0);
        format!("{calls}: {first} to {last} stops, {proved} of {} proved, least cost {}", last - first + 1, grouped(least))
    }

    /// The cheapest plan with every fee so much raised: how many stops it has. None where a walk was cut or there is no plan.
    fn raised(&mut self, raised: i64) -> Result<Option<u64>, Halt> {
        let reply = self.ask(&self.finer(|_| Some(raised)))?;
        self.none |= reply.result == 6;
        if let Some(least) = bound_of(&reply) {
            self.proved.push(Proved { raised, least });
        }
        let plan = reply.plan_text().map(texts::plan);
        let stops = plan.as_ref().map(|plan| plan.stops.len() as u64);
        self.keep(plan);
        Ok(stops.filter(|_| reply.result == 0))
    }

    /// The job in finer amounts, at the high ends of its prices, with each fee raised by what is said of its place, or made nothing.
    pub fn finer(&self, raised: impl Fn(usize) -> Option<i64>) -> Job {
        let mut job = self.job.clone();
        let finer = |amount: &mut u64| *amount *= self.scale;
        for (at, opening) in job.openings.iter_mut().enumerate() {
            opening.fee = raised(at).map_or(0, |raised| (opening.fee * self.scale).saturating_add_signed(raised).min(MOST));
        }
        for part in &mut job.parts {
            part.prices.iter_mut().chain([&mut part.removal]).for_each(finer);
            *part = Part { lows: part.prices.clone(), bands: 0, rule: None, ..part.clone() };
        }
        job
    }

    /// Keeps a plan at its own cost, where it is the cheapest known with so many stops.
    pub fn keep(&mut self, plan: Option<Plan>) -> bool {
        let Some(mut plan) = plan else { return false };
        plan.cost = Costs::of(self.job, &plan, None).total();
        let stops = plan.stops.len() as u64;
        let better = self.plans.get(&stops).is_none_or(|own| plan.cost < own.cost);
        if better {
            self.plans.insert(stops, plan);
        }
        better
    }

    /// What the cheapest plan known with so many stops costs.
    pub fn cost(&self, stops: u64) -> Option<u64> {
        self.plans.get(&stops).map(|plan| plan.cost)
    }

    /// Between two numbers of stops: where the plans of both cost the same, the cheapest one shows whether there is another in between.
    fn between(&mut self, fewer: u64, more: u64) -> Result<(), Halt> {
        let cost = |stops: u64| self.cost(stops).unwrap_or(0) as i64;
        let steps = more.saturating_sub(fewer);
        if steps < 2 {
            return Ok(());
        }
        let raised = (cost(fewer) - cost(more)) * self.scale as i64 / steps as i64;
        match self.raised(raised.clamp(self.room.0, self.room.1))?.filter(|stops| (fewer + 1..more).contains(stops)) {
            Some(stops) => {
                self.between(fewer, stops)?;
                self.between(stops, more)
            }
            None => Ok(()),
        }
    }

    /// The fewest stops that keep the lives, proved where the walk ends: the stops of the plan that is cheapest where a stop costs more than all changes.
    fn find_fewest(&mut self) -> Result<(), Halt> {
        let mut job = self.job.clone();
        job.openings.iter_mut().for_each(|opening| opening.fee = MOST / 64);
        for part in &mut job.parts {
            part.prices.iter_mut().for_each(|price| *price = 1);
            *part = Part { lows: part.prices.clone(), bands: 0, rule: None, removal: 0, ..part.clone() };
        }
        let reply = self.ask(&job)?;
        self.keep(reply.plan_text().map(texts::plan));
        let known = self.plans.keys().next().copied().unwrap_or(0);
        let least = reply.value("floor").unwrap_or(0) / (MOST / 64);
        self.fewest = Some(if reply.result == 0 { known } else { known.min(least) });
        Ok(())
    }

    /// Looks for plans near those that are known: one stop less than a plan with more, one more than a plan with fewer, another one in place of one.
    /// Only for numbers of stops that are not proved. Whether something was found.
    fn near(&mut self) -> Result<bool, Halt> {
        let (first, last) = (self.plans.keys().next().copied().unwrap_or(0), self.plans.keys().last().copied().unwrap_or(0));
        let mut found = false;
        for stops in first..last {
            if self.is_proved(stops) {
                continue;
            }
            // With the least fee off every fee, so that all of the openings are used where that saves something.
            let cheap = self.finer(|_| Some(self.room.0));
            for open in self.sets_near(stops) {
                if !self.tried.insert(open.clone()) {
                    continue;
                }
                let reply = self.call(&cheap.only_open(|step| open.contains(&step)), |text| calls::plan_here(text, NEAR))?;
                let plan = reply.plan_text().map(texts::plan).filter(|plan| plan.stops.len() as u64 <= stops);
                found |= self.keep(plan);
            }
        }
        Ok(found)
    }

    /// Sets of so many openings near the stops of plans that are known.
    fn sets_near(&self, stops: u64) -> BTreeSet<Vec<u64>> {
        let steps = |stops: u64| self.plans.get(&stops).map(|plan| plan.stops.iter().map(|stop| stop.step).collect::<Vec<u64>>());
        let others =
            |set: &[u64]| self.job.openings.iter().map(|opening| opening.step).filter(|step| !set.contains(step)).collect::<Vec<u64>>();
        let without =
            |set: &[u64], at: usize| set.iter().enumerate().filter(|(own, _)| *own != at).map(|(_, step)| *step).collect::<Vec<u64>>();
        let with = |mut set: Vec<u64>, step: u64| {
            set.push(step);
            set.sort_unstable();
            set
        };
        let mut sets = BTreeSet::new();
        if let Some(more) = steps(stops + 1) {
            sets.extend((0..more.len()).map(|at| without(&more, at)));
        }
        if let Some(fewer) = stops.checked_sub(1).and_then(steps) {
            sets.extend(others(&fewer).into_iter().map(|step| with(fewer.clone(), step)));
        }
        if let Some(own) = steps(stops) {
            for at in 0..own.len() {
                sets.extend(others(&own).into_iter().map(|step| with(without(&own, at), step)));
            }
        }
        sets
    }

    /// Looks by spans for what is not proved yet, each number of stops with its share of the calls.
    fn settle(&mut self) -> Result<(), Halt> {
        let last = self.plans.keys().last().copied().unwrap_or(0);
        let first = self.fewest.unwrap_or(last);
        self.most = Some(last);
        let end = self.calls + self.asked.calls;
        let open: Vec<u64> = (first..=last).filter(|stops| !self.is_proved(*stops)).collect();
        for (at, stops) in open.iter().enumerate() {
            let share = end.saturating_sub(self.calls) / (open.len() - at) as u64;
            spans::settle(self, *stops, share)?;
        }
        Ok(())
    }

    /// A plan with fewer stops, and further ones where they cost least at which nothing is changed: where nothing else is as cheap.
    pub fn pad(&mut self, stops: u64) {
        let padded: Vec<Plan> = self.plans.range(..stops).filter_map(|(_, plan)| padded(self.job, plan, stops)).collect();
        padded.into_iter().for_each(|plan| {
            self.keep(Some(plan));
        });
    }

    /// By how much fees were raised where that proves most for so many stops.
    pub fn best_raise(&self, stops: u64) -> i64 {
        self.proved.iter().max_by_key(|proved| self.bound(proved, stops)).map_or(0, |proved| proved.raised)
    }

    /// Notes what no plan with so many stops costs less than.
    pub fn prove(&mut self, stops: u64, least: u64) {
        let own = self.floors.entry(stops).or_insert(0);
        *own = least.max(*own);
    }

    /// A bound in finer amounts as one of the job's own: costs are multiples of the unit.
    pub fn coarse(&self, least: i64) -> u64 {
        (least.max(0) as u64).div_ceil(self.scale).next_multiple_of(self.unit)
    }

    fn bound(&self, proved: &Proved, stops: u64) -> u64 {
        self.coarse(proved.least as i64 - proved.raised * stops as i64)
    }

    /// What no plan with so many stops costs less than, by raising every fee.
    fn least_by_fees(&self, stops: u64) -> u64 {
        self.proved.iter().map(|proved| self.bound(proved, stops)).max().unwrap_or(0)
    }

    /// What no plan with so many stops costs less than.
    pub fn least(&self, stops: u64) -> u64 {
        self.least_by_fees(stops).max(self.floors.get(&stops).copied().unwrap_or(0))
    }

    fn is_proved(&self, stops: u64) -> bool {
        self.cost(stops).is_some_and(|cost| cost <= self.least(stops))
    }

    fn point(&self, stops: u64) -> Point {
        let (plan, least) = (self.plans.get(&stops).cloned(), self.least(stops));
        let proof = match plan.as_ref().map(|plan| plan.cost) {
            Some(cost) if cost <= self.least_by_fees(stops) => Some(Proof::Fees),
            Some(cost) if cost <= least => Some(Proof::Spans),
            _ => None,
        };
        Point { stops, plan, least, proof }
    }

    /// All points from the fewest stops to the most that save something besides fees.
    fn all(&self) -> Vec<Point> {
        let (Some(first), Some(last)) = (self.plans.keys().next(), self.plans.keys().last()) else { return Vec::new() };
        let (fewest, most) = (self.fewest.unwrap_or(*first), self.most.unwrap_or(*last));
        let mut points: Vec<Point> = (fewest..=most).map(|stops| self.point(stops)).collect();
        let besides = |point: &Point| point.plan.as_ref().map(|plan| plan.cost - Costs::of(self.job, plan, None).fees);
        while let [.., before, last] = &points[..] {
            match besides(before).zip(besides(last)) {
                Some((before, last)) if last >= before => points.pop(),
                _ => break,
            };
        }
        points
    }
}

/// What an answer proves that no plan of the job asked about costs less than.
pub fn bound_of(reply: &Reply) -> Option<u64> {
    reply.value(if reply.result == CUT_SHORT { "floor" } else { "cost" })
}

/// A plan with stops added at which nothing is changed, where they cost least, until it has so many; none where there are not so many openings.
fn padded(job: &Job, plan: &Plan, stops: u64) -> Option<Plan> {
    let more = usize::try_from(stops).ok()?.checked_sub(plan.stops.len())?;
    let mut free: Vec<_> = job.openings.iter().filter(|opening| plan.stops.iter().all(|stop| stop.step != opening.step)).collect();
    free.sort_by_key(|opening| opening.fee);
    let bare = free.get(..more)?.iter().map(|opening| Stop { step: opening.step, parts: Vec::new() });
    let mut plan = plan.clone();
    plan.stops.extend(bare);
    plan.stops.sort_by_key(|stop| stop.step);
    Some(plan)
}

/// The greatest number that divides both.
fn divisor(first: u64, second: u64) -> u64 {
    match second {
        0 => first,
        _ => divisor(second, first % second),
    }
}
