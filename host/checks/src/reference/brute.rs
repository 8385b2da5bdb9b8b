//! Brute force over all plans of a small job: every stop set with every change set of every part, and everything that may be removed.

use super::model::{Job, Plan, Set};
use super::walk::{Decision, Point};

/// Every set of `count` openings.
pub fn all_sets(count: usize) -> impl Iterator<Item = Set> {
    (0..1u64 << count).map(move |bits| (0..count).map(|k| bits >> k & 1 == 1).collect())
}

/// Every plan of the job, also those that keep no life.
pub fn all_plans(job: &Job) -> impl Iterator<Item = Plan> + '_ {
    let openings = job.openings.len();
    let parts = job.parts.len();
    all_sets(openings).flat_map(move |stops| {
        all_sets(openings * parts).map(move |changes| Plan {
            stops: stops.clone(),
            changes: (0..parts).map(|part| changes[part * openings..][..openings].to_vec()).collect(),
        })
    })
}

/// Of two sets the one that has no at the earliest opening where they differ.
pub fn earlier(a: Set, b: Set) -> Set {
    match (0..a.len()).find(|k| a[*k] != b[*k]) {
        Some(k) if a[k] => b,
        _ => a,
    }
}

/// For each part what comes out with it: whatever a chain of holders leads to, link by link.
pub fn chains(job: &Job) -> Vec<Set> {
    let parts = job.parts.len();
    let mut leads: Vec<Set> = (0..parts).map(|i| (0..parts).map(|j| i == j || job.parts[i].holders.contains(&j)).collect()).collect();
    for by in 0..parts {
        for from in 0..parts {
            for to in 0..parts {
                leads[from][to] |= leads[from][by] && leads[by][to];
            }
        }
    }
    leads
}

/// The parts that are somebody's holder.
pub fn holding(job: &Job) -> Vec<usize> {
    let all: std::collections::BTreeSet<usize> = job.parts.iter().flat_map(|part| part.holders.clone()).collect();
    all.into_iter().collect()
}

/// The cost of a plan: fees, prices, and at each opening the removal of everything that a chain from a changed part leads to.
pub fn cost(job: &Job, plan: &Plan) -> u64 {
    let chains = chains(job);
    let mut cost = 0;
    for (k, opening) in job.openings.iter().enumerate() {
        let changed: Vec<usize> = (0..job.parts.len()).filter(|part| plan.changes[*part][k]).collect();
        let out = (0..job.parts.len()).filter(|at| changed.iter().any(|part| chains[*part][*at]));
        cost += if plan.stops[k] { opening.fee } else { 0 };
        cost += changed.iter().map(|part| job.parts[*part].prices[k]).sum::<u64>() + out.map(|at| job.parts[at].removal).sum::<u64>();
    }
    cost
}

/// A stop: the parts changed and the parts removed.
type Stop = (Set, Set);

/// Every way to decide an opening: no stop, or a stop as (4) and (5) of source document 001 have it: what is changed is removed, and so is
/// each holder of what is removed. A part that holds nobody is removed only where it is changed: elsewhere it would be for nothing.
fn ways(job: &Job) -> Vec<Option<Stop>> {
    let parts = job.parts.len();
    let holding = holding(job);
    let allowed = |(changed, removed): &Stop| {
        let held = |i: usize| job.parts[i].holders.iter().all(|j| removed[*j]);
        (0..parts).all(|i| (removed[i] || !changed[i]) && (!removed[i] || held(i)) && (holding.contains(&i) || removed[i] == changed[i]))
    };
    let stops = all_sets(parts).flat_map(|changed| all_sets(parts).map(move |removed| (changed.clone(), removed)));
    [None].into_iter().chain(stops.filter(allowed).map(Some)).collect()
}

/// The ways that keep the lives at least cost, an opening after the other.
struct Least<'j> {
    job: &'j Job,
    ways: Vec<Option<Stop>>,
    cost: Option<u64>,
    found: Vec<Vec<Option<Stop>>>,
}

impl Least<'_> {
    fn cost_of(&self, opening: usize, way: &Option<Stop>) -> u64 {
        let Some((changed, removed)) = way else { return 0 };
        let parts = self.job.parts.iter().zip(changed.iter().zip(removed));
        let more = parts.map(|(part, (changed, removed))| u64::from(*changed) * part.prices[opening] + u64::from(*removed) * part.removal);
        self.job.openings[opening].fee + more.sum::<u64>()
    }

    fn plan(&self, chosen: &[Option<Stop>]) -> Plan {
        let changed = |way: &Option<Stop>, part: usize| way.as_ref().is_some_and(|(changed, _)| changed[part]);
        let changes = |part| chosen.iter().map(|way| changed(way, part)).collect();
        Plan { stops: chosen.iter().map(Option::is_some).collect(), changes: (0..self.job.parts.len()).map(changes).collect() }
    }

    fn complete(&mut self, chosen: &mut Vec<Option<Stop>>, cost: u64) {
        if self.cost.is_some_and(|least| cost > least) {
            return;
        }
        if chosen.len() == self.job.openings.len() {
            if self.job.keeps(&self.plan(chosen)) {
                if self.cost != Some(cost) {
                    self.found.clear();
                }
                self.cost = Some(cost);
                self.found.push(chosen.clone());
            }
            return;
        }
        for at in 0..self.ways.len() {
            let way = self.ways[at].clone();
            let more = self.cost_of(chosen.len(), &way);
            chosen.push(way);
            self.complete(chosen, cost + more);
            chosen.pop();
        }
    }
}

/// What the walk would have decided: for each opening whether it is a stop, and after a yes for each part that holds whether it is removed.
fn decisions(holding: &[usize], chosen: &[Option<Stop>]) -> Vec<bool> {
    let of = |way: &Option<Stop>| match way {
        None => vec![false],
        Some((_, removed)) => [true].into_iter().chain(holding.iter().map(|at| removed[*at])).collect(),
    };
    chosen.iter().flat_map(of).collect()
}

/// The plan to print, with its cost, or none where no plan keeps the lives.
/// "Of two stop sets of equal least cost, the one that makes no stop at the earliest opening where they differ is taken. Within the
/// stops, each part's least-price change set is chosen the same way." "Ties compare stops and removals in walk order."
pub fn best_plan(job: &Job) -> Option<(u64, Plan)> {
    let mut least = Least { job, ways: ways(job), cost: None, found: Vec::new() };
    least.complete(&mut Vec::new(), 0);
    let holding = holding(job);
    let first = least.found.iter().map(|chosen| decisions(&holding, chosen)).min()?;
    let plans: Vec<Plan> =
        least.found.iter().filter(|chosen| decisions(&holding, chosen) == first).map(|chosen| least.plan(chosen)).collect();

    let choice = |part: usize| plans.iter().map(|plan| plan.changes[part].clone()).reduce(earlier);
    let changes: Option<Vec<Set>> = (0..job.parts.len()).map(choice).collect();
    Some((least.cost?, Plan { stops: plans[0].stops.clone(), changes: changes? }))
}

/// In how many ways the least cost can be had.
pub fn least_ways(job: &Job) -> usize {
    let mut least = Least { job, ways: ways(job), cost: None, found: Vec::new() };
    least.complete(&mut Vec::new(), 0);
    least.found.len()
}

/// The change sets that keep the part at a point: at decided openings only at a stop at which nothing that it needs is decided not removed.
pub fn open_changes(job: &Job, part: usize, point: &Point) -> Vec<Set> {
    let (holding, chain) = (holding(job), &chains(job)[part]);
    let shut = |decision: &Decision| match decision {
        Decision::No => true,
        Decision::Stop(removed) => (0..removed.len()).any(|at| !removed[at] && chain[holding[at]]),
    };
    let open = |changes: &Set| !point.iter().zip(changes).any(|(decision, changed)| *changed && shut(decision));
    let kept = |changes: &Set| job.due(&job.parts[part], changes).is_none();
    all_sets(job.openings.len()).filter(|changes| open(changes) && kept(changes)).collect()
}

/// A point's estimate from all change sets: what is decided, each part's least price, and the largest least fee of undecided openings.
pub fn estimate(job: &Job, point: &Point) -> Option<u64> {
    let holding = holding(job);
    let mut sum = 0;
    for (opening, decision) in job.openings.iter().zip(point) {
        if let Decision::Stop(removed) = decision {
            let paid = (0..removed.len()).filter(|at| removed[*at]).map(|at| job.parts[holding[at]].removal);
            sum += opening.fee + paid.sum::<u64>();
        }
    }
    let mut largest = 0;
    for (at, part) in job.parts.iter().enumerate() {
        let more = if holding.contains(&at) { 0 } else { part.removal };
        let open = open_changes(job, at, point);
        let total = |changes: &Set, of: &dyn Fn(usize) -> u64| (0..changes.len()).filter(|k| changes[*k]).map(of).sum::<u64>();
        sum += open.iter().map(|changes| total(changes, &|k| part.prices[k] + more)).min()?;
        let fee = |k: usize| if k < point.len() { 0 } else { job.openings[k].fee };
        largest = largest.max(open.iter().map(|changes| total(changes, &fee)).min()?);
    }
    Some(sum + largest)
}

/// Whether the part is changed at this step.
fn changed_at(job: &Job, changes: &Set, step: i64) -> bool {
    job.openings.iter().zip(changes).any(|(opening, changed)| *changed && opening.step == step)
}

/// Whether each window of source document 001 that ends by step T has a change: constraint (2), from step 1 on R running steps, and
/// constraint (3), from step k + 1 on L running steps for each k of 1 or more. The idle steps after the last of them belong to it.
pub fn windows_hold(job: &Job, part: usize, changes: &Set) -> bool {
    let part = &job.parts[part];
    let running = |first: i64, last: i64| (first..=last).filter(|step| !job.idles.contains(step)).count() as i64;
    let window = |first: i64, life: i64| {
        let mut steps = (first..=job.horizon + 1).take_while(|step| running(first, *step) <= life);
        steps.any(|step| step > job.horizon || changed_at(job, changes, step))
    };
    window(1, part.left) && (1..=job.horizon).all(|k| window(k + 1, part.life))
}

/// The due step of a part, found by wearing it step by step: the one before the first running step that is too many.
pub fn due_by_wear(job: &Job, part: usize, changes: &Set) -> Option<i64> {
    let part = &job.parts[part];
    let mut worn = part.life - part.left;
    for step in 1..=job.horizon + 1 {
        worn += i64::from(!job.idles.contains(&step));
        if worn > part.life {
            return Some(step - 1);
        }
        if changed_at(job, changes, step) {
            worn = 0;
        }
    }
    None
}
