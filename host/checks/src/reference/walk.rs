//! "The walk is counted, so it is fixed."

use super::model::{Job, Part, Plan, Set};

/// What is decided at an opening: no stop, or a stop. "After a yes, the walk decides for each part that is somebody's holder, by rising
/// number": a yes or no for the first of them, those to come undecided.
#[derive(Debug, Clone, PartialEq, Eq)]
pub enum Decision {
    No,
    Stop(Vec<bool>),
}

/// "A point is a yes or no for the first j openings", with the removals decided.
pub type Point = [Decision];

impl Decision {
    fn is_stop(&self) -> bool {
        matches!(self, Decision::Stop(_))
    }
}

/// The stops of a point.
pub fn stops_of(point: &Point) -> Set {
    point.iter().map(Decision::is_stop).collect()
}

impl Job {
    /// The part's places: "a part can be changed only where it and its holders are removed or undecided". A part that holds nobody is
    /// never decided: only its holders count for it.
    pub fn places(&self, part: usize, point: &Point) -> Set {
        let holding = self.holding();
        // Where nobody holds there is no need to look.
        let out = if holding.is_empty() { Vec::new() } else { self.comes_out(part) };
        let open = |decision: &Decision| match decision {
            Decision::No => false,
            Decision::Stop(removed) => holding.iter().zip(removed).all(|(at, removed)| *removed || !out[*at]),
        };
        (0..self.openings.len()).map(|k| point.get(k).is_none_or(open)).collect()
    }

    /// "A part that holds nobody adds its removal to its price."
    pub fn charged(&self, part: usize) -> Vec<u64> {
        let Part { removal, prices, .. } = &self.parts[part];
        let more = if self.holding().contains(&part) { 0 } else { *removal };
        prices.iter().map(|price| price + more).collect()
    }

    /// The fees of its yes openings. "Decided removals are charged".
    fn decided(&self, point: &Point) -> u64 {
        let holding = self.holding();
        let removals = |decision: &Decision| match decision {
            Decision::No => 0,
            Decision::Stop(removed) => {
                holding.iter().zip(removed).filter(|(_, removed)| **removed).map(|(at, _)| self.parts[*at].removal).sum::<u64>()
            }
        };
        self.fees(&stops_of(point)) + point.iter().map(removals).sum::<u64>()
    }

    /// "Its estimate is the fees of its yes openings, plus, for each part, the least price of a change set that keeps it over the yes
    /// openings and all undecided ones. If some part has none, the estimate is missing." This is the estimate before E4.
    pub fn old_estimate(&self, point: &Point) -> Option<u64> {
        let mut sum = self.decided(point);
        for (at, part) in self.parts.iter().enumerate() {
            sum += self.least_of(part, &self.charged(at), &self.places(at, point))?.0;
        }
        Some(sum)
    }

    /// "For each part, take the least total fee of undecided openings in any change set that keeps it over the yes and undecided
    /// openings. The largest of these over the parts is added to a point's estimate." "E4's term uses these same places."
    pub fn estimate(&self, point: &Point) -> Option<u64> {
        let undecided: Vec<u64> =
            self.openings.iter().enumerate().map(|(k, opening)| if k < point.len() { 0 } else { opening.fee }).collect();
        let mut largest = 0;
        for (at, part) in self.parts.iter().enumerate() {
            largest = largest.max(self.least_of(part, &undecided, &self.places(at, point))?.0);
        }
        Some(self.old_estimate(point)? + largest)
    }

    /// The plan of these decisions in which each part has its least-price change set.
    pub fn plan_at(&self, point: &Point) -> Option<Plan> {
        let changes = |(at, part)| Some(self.least_of(part, &self.charged(at), &self.places(at, point))?.1);
        let changes: Option<Vec<Set>> = self.parts.iter().enumerate().map(changes).collect();
        Some(Plan { stops: stops_of(point), changes: changes? })
    }

    /// "The floor is the first point's estimate, at any walk number, 0 included." Missing exactly where the job has no plan.
    pub fn floor(&self) -> Option<u64> {
        self.estimate(&[])
    }

    /// The points below this one, in the walk's order: "no stop at the next opening, then stop"; "not removed first, then removed".
    /// None below a full one.
    pub fn below(&self, point: &Point) -> Vec<Vec<Decision>> {
        let mut above = point.to_vec();
        let next = match above.last() {
            Some(Decision::Stop(removed)) if removed.len() < self.holding().len() => {
                let removed = removed.clone();
                above.pop();
                [false, true].map(|yes| Decision::Stop([&removed[..], &[yes]].concat()))
            }
            _ if above.len() == self.openings.len() => return Vec::new(),
            _ => [Decision::No, Decision::Stop(Vec::new())],
        };
        next.map(|decision| [&above[..], &[decision]].concat()).to_vec()
    }

    /// "The walk begins at the point with nothing decided."
    pub fn walk(&self, limit: u64) -> Walk {
        self.walk_by(limit, Job::estimate)
    }

    /// E6. "the number of points of a walk that drops a point only if its estimate is missing", or `most` where it has more.
    pub fn open_points(&self, most: u64) -> u64 {
        let mut points = 0;
        self.open_from(&[], most, &mut points);
        points
    }

    fn open_from(&self, point: &Point, most: u64, points: &mut u64) {
        if *points == most {
            return;
        }
        *points += 1;
        if self.estimate(point).is_some() {
            self.below(point).iter().for_each(|next| self.open_from(next, most, points));
        }
    }

    /// The same walk by any estimate.
    pub fn walk_by(&self, limit: u64, estimate: Estimate) -> Walk {
        let mut walk = Walk { limit, nodes: 0, more: false, best: None };
        walk.reach(self, estimate, &[]);
        walk
    }
}

/// A point's estimate.
pub type Estimate = fn(&Job, &Point) -> Option<u64>;

/// A walk of at most `limit` points.
pub struct Walk {
    limit: u64,
    /// The points walked.
    pub nodes: u64,
    /// Whether the whole walk has more.
    pub more: bool,
    /// The best full plan so far: its cost and its decisions.
    pub best: Option<(u64, Vec<Decision>)>,
}

impl Walk {
    fn reach(&mut self, job: &Job, estimate: Estimate, point: &Point) {
        // "If the whole walk, the one without a limit, has more, exactly that many are walked."
        if self.nodes == self.limit {
            self.more = true;
            return;
        }
        // "Each point reached counts one."
        self.nodes += 1;
        // "It is dropped if its estimate is missing or is not less than the best full plan so far."
        let Some(found) = estimate(job, point) else {
            return;
        };
        if let Some((best, _)) = &self.best {
            if found >= *best {
                return;
            }
        }
        // "A full point not dropped becomes the best." "Otherwise both points below are walked, the no-stop one first."
        let below = job.below(point);
        if below.is_empty() {
            self.best = Some((found, point.to_vec()));
        }
        for next in below {
            self.reach(job, estimate, &next);
        }
    }
}
