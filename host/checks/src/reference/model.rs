//! The model: jobs, plans, lives and costs.

/// "Stops may be made only at named steps, the openings. A stop costs that opening's fee, once."
#[derive(Debug, Clone, PartialEq, Eq)]
pub struct Opening {
    pub step: i64,
    pub fee: u64,
}

/// "A part has a life L and a first life R ("left")." "From here on `left` may be 0: change before the next running step". What its removal costs, the parts that come out before it, and its price at each
/// opening. "A part without them has removal 0 and no holders".
#[derive(Debug, Clone, PartialEq, Eq)]
pub struct Part {
    pub life: i64,
    pub left: i64,
    /// Whether the lines `removal`, `inside` and `holder` stand.
    pub covered: bool,
    pub removal: u64,
    /// The places of its holders among the parts, from 0, rising.
    pub holders: Vec<usize>,
    /// The rule that its prices were given by, where the lines `base`, `drop` and `least` stand.
    pub rule: Option<Rule>,
    /// The high ends. "The planner's finished plan is the least-cost one at the high ends."
    pub prices: Vec<u64>,
    /// The low ends. "A single price is a band with equal ends."
    pub lows: Vec<u64>,
    /// For each opening whether the price is a pair `low` and `high`.
    pub pairs: Vec<bool>,
}

/// "In place of its `price` lines a part may have `base` 1..1000000, `drop` 0..1000000 and `least` 1..1000000."
#[derive(Debug, Clone, Copy, PartialEq, Eq)]
pub struct Rule {
    pub base: u64,
    pub drop: u64,
    pub least: u64,
}

impl Rule {
    /// "Opening number k, counted from 0, then has price base minus k times drop, or least if that is larger."
    pub fn price(&self, k: u64) -> u64 {
        let fallen = self.base as i64 - k as i64 * self.drop as i64;
        fallen.max(self.least as i64) as u64
    }

    /// "A generator writes the table of prices": those of so many openings.
    pub fn prices(&self, openings: u64) -> Vec<u64> {
        (0..openings).map(|k| self.price(k)).collect()
    }
}

#[derive(Debug, Clone, PartialEq, Eq)]
pub struct Job {
    pub horizon: i64,
    /// The steps that don't run, rising.
    pub idles: Vec<i64>,
    /// The number of the `walk` line, which is set aside; none where no such line stands.
    pub walk: Option<u64>,
    pub openings: Vec<Opening>,
    pub parts: Vec<Part>,
}

/// A set of openings, or of parts: a yes or no for each.
pub type Set = Vec<bool>;

/// "A plan is a set of openings, its stops, and for each part a set of openings at which it is changed."
#[derive(Debug, Clone, PartialEq, Eq)]
pub struct Plan {
    pub stops: Set,
    pub changes: Vec<Set>,
}

impl Part {
    /// "Think of it as last changed at step R − L, which is zero or negative."
    pub fn first_change(&self) -> i64 {
        self.left - self.life
    }
}

impl Job {
    /// How many steps up to this one run, less those before step 1, which all count as running: "for a first life, running steps from 1
    /// on are counted"; "step T + 1 runs".
    pub fn running(&self, step: i64) -> i64 {
        step - self.idles.partition_point(|idle| *idle <= step) as i64
    }

    /// "The distance from one change to the next is the number of running steps after the first up to and including the second."
    pub fn distance(&self, first: i64, second: i64) -> i64 {
        self.running(second) - self.running(first)
    }

    /// The due step of a part with these changes, or none where they keep it.
    /// "A set of changes keeps the part if each change comes at most L steps after the one before, and the last (or R − L if there is
    /// none) plus L is at least T + 1", all in running steps. "Its due step: at its first gap that is too long, the last step at which a
    /// change would still have kept it"; an idle step may be that.
    pub fn due(&self, part: &Part, changes: &Set) -> Option<i64> {
        self.due_by(part, changes, self.horizon + 1)
    }

    /// The due step where the part is to last up to and including this step, after these changes; none where it does.
    pub fn due_by(&self, part: &Part, changes: &Set, end: i64) -> Option<i64> {
        let mut before = part.first_change();
        let changed = self.openings.iter().zip(changes).filter(|(_, changed)| **changed).map(|(opening, _)| opening.step);
        for next in changed.chain([end]) {
            if self.distance(before, next) > part.life {
                return (0..=self.horizon).rev().find(|step| self.distance(before, *step) <= part.life);
            }
            before = next;
        }
        None
    }

    /// "A plan keeps the lives if each part is kept and every change is at a stop."
    pub fn keeps(&self, plan: &Plan) -> bool {
        let kept = |(part, changes)| self.due(part, changes).is_none();
        let at_stops = |changes: &Set| changes.iter().zip(&plan.stops).all(|(changed, stop)| *stop || !changed);
        self.parts.iter().zip(&plan.changes).all(kept) && plan.changes.iter().all(at_stops)
    }

    /// "The fees of its stops".
    pub fn fees(&self, stops: &[bool]) -> u64 {
        self.openings.iter().zip(stops).filter(|(_, stop)| **stop).map(|(opening, _)| opening.fee).sum()
    }

    /// What comes out with a part: "Changing a part removes it and all its holders". "Holders work through chains"; "Holders may run in a
    /// circle; they then come out together".
    pub fn comes_out(&self, part: usize) -> Set {
        let mut out = vec![false; self.parts.len()];
        out[part] = true;
        // The longest chain without a part twice has fewer links than there are parts.
        for _ in &self.parts {
            for at in 0..out.len() {
                if out[at] {
                    self.parts[at].holders.iter().for_each(|holder| out[*holder] = true);
                }
            }
        }
        out
    }

    /// "Each part that is somebody's holder, by rising number".
    pub fn holding(&self) -> Vec<usize> {
        (0..self.parts.len()).filter(|at| self.parts.iter().any(|part| part.holders.contains(at))).collect()
    }

    /// "Each removed part costs its removal once at that stop."
    fn removals(&self, plan: &Plan, opening: usize) -> u64 {
        let changed = (0..self.parts.len()).filter(|part| plan.changes[*part][opening]);
        let out: Vec<Set> = changed.map(|part| self.comes_out(part)).collect();
        let removed = |at: &usize| out.iter().any(|out| out[*at]);
        (0..self.parts.len()).filter(removed).map(|at| self.parts[at].removal).sum()
    }

    /// "The prices of its changes".
    pub fn prices(&self, plan: &Plan) -> u64 {
        self.parts.iter().zip(&plan.changes).map(|(part, changes)| part.price(changes)).sum()
    }

    /// "Its cost is the fees of its stops plus the prices of its changes", and the removals.
    pub fn cost(&self, plan: &Plan) -> u64 {
        let removals = (0..self.openings.len()).map(|opening| self.removals(plan, opening));
        self.fees(&plan.stops) + self.prices(plan) + removals.sum::<u64>()
    }

    /// Whether "the job has a `low` line".
    pub fn is_banded(&self) -> bool {
        self.parts.iter().any(|part| part.pairs.contains(&true))
    }

    /// The same job with the low ends as its prices.
    pub fn at_low_ends(&self) -> Job {
        let low = |part: &Part| Part { prices: part.lows.clone(), ..part.clone() };
        Job { parts: self.parts.iter().map(low).collect(), ..self.clone() }
    }

    /// The change set of least sum of these prices that keeps the part over the allowed openings, with that sum, or none.
    /// Of two of equal price, "the one that makes no stop at the earliest opening where they differ is taken"; "each part's least-price
    /// change set is chosen the same way".
    pub fn least_of(&self, part: &Part, prices: &[u64], allowed: &Set) -> Option<(u64, Set)> {
        let count = self.openings.len();
        // The last change: 0 is the first life, k + 1 is opening k.
        let steps = [part.first_change()].into_iter().chain(self.openings.iter().map(|opening| opening.step));
        let running: Vec<i64> = steps.map(|step| self.running(step)).collect();
        let kept = |last: usize| self.running(self.horizon + 1) - running[last] <= part.life;

        // left[k][last]: the least price of changes at opening k and later that keep the part after `last`; changed[k][last]: whether the
        // one to take changes at opening k.
        let mut left = vec![vec![None; count + 1]; count + 1];
        let mut changed = vec![vec![false; count + 1]; count];
        left[count] = (0..=count).map(|last| kept(last).then_some(0)).collect();
        for k in (0..count).rev() {
            for last in 0..=k {
                let without = left[k + 1][last];
                let in_time = running[k + 1] - running[last] <= part.life;
                let with = left[k + 1][k + 1].filter(|_| allowed[k] && in_time).map(|later: u64| later + prices[k]);
                changed[k][last] = match (without, with) {
                    (Some(without), Some(with)) => with < without,
                    (None, Some(_)) => true,
                    _ => false,
                };
                left[k][last] = if changed[k][last] { with } else { without };
            }
        }

        let price = left[0][0]?;
        let mut changes = vec![false; count];
        let mut last = 0;
        for k in 0..count {
            if changed[k][last] {
                changes[k] = true;
                last = k + 1;
            }
        }
        Some((price, changes))
    }
}

impl Part {
    pub fn price(&self, changes: &Set) -> u64 {
        self.prices.iter().zip(changes).filter(|(_, changed)| **changed).map(|(price, _)| price).sum()
    }
}
