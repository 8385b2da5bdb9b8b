//! The walk of a hall, line by line: each line has the tables and the front of a job with holders, and a level for each number of its
//! openings decided. A node has what the lines' fees, parts and terms come to together.

use super::holders::{Front, Held, Node, MARKS};
use super::walk::INF;
use super::Job;

/// A hall: what a call costs, and the lines' jobs.
#[derive(Debug, Clone, Default)]
pub struct Hall {
    pub call: u64,
    pub jobs: Vec<Job>,
}

/// What a walk of a hall finds.
#[derive(Debug, Clone, PartialEq, Eq)]
pub struct HallFound {
    pub nodes: u64,
    /// Whether the whole walk has more nodes.
    pub more: bool,
    pub floor: u64,
    pub best: Option<HallBest>,
}

/// The best plans: what they cost, calls included, and each line's stops (opening k in bit k).
#[derive(Debug, Clone, PartialEq, Eq)]
pub struct HallBest {
    pub cost: u64,
    pub stops: Vec<u64>,
}

impl Hall {
    /// Reads a hall text that has no fault.
    pub fn read(text: &[u8]) -> Hall {
        let text = std::str::from_utf8(text).expect("ASCII");
        let (head, jobs) = text.split_at(text.find("horizon=").expect("a job"));
        let call = head.lines().find_map(|line| line.strip_prefix("call=")?.parse().ok()).expect("a call's price");
        let starts: Vec<usize> = jobs.match_indices("horizon=").map(|(at, _)| at).collect();
        let ends = starts.iter().skip(1).copied().chain([jobs.len()]);
        Hall { call, jobs: starts.iter().zip(ends).map(|(from, to)| Job::read(&jobs.as_bytes()[*from..to], 0)).collect() }
    }

    /// The walk of at most `limit` nodes, or none where a line has no plan.
    pub fn solve(&self, limit: u64) -> Option<HallFound> {
        match self.jobs.iter().map(|job| job.parts.len()).max() {
            Some(0..=4) | None => walk_hall::<1>(self, limit),
            Some(5..=8) => walk_hall::<2>(self, limit),
            Some(9..=12) => walk_hall::<3>(self, limit),
            Some(_) => walk_hall::<4>(self, limit),
        }
    }
}

/// An opening of a line, in the order of the walk: the line, and how many of its openings come before.
#[derive(Clone, Copy)]
struct Stage {
    line: usize,
    at: usize,
}

/// A line where so many of its openings are decided: the rows of its front, its part sums and its term.
#[derive(Clone, Copy, Default)]
struct Level {
    rows: usize,
    sum: u32,
    term: u32,
}

struct Line<const Q: usize> {
    front: Front<Q>,
    levels: [Level; MARKS],
}

/// The cost where no plan is found yet.
const NO_COST: u64 = u64::MAX;

/// The state of the search: the nodes reached, one more than the limit where one was reached beyond it; the best plans' cost, and their stops.
#[derive(Clone, Copy)]
struct Search {
    count: u64,
    cost: u64,
    mask: u64,
}

impl Search {
    #[inline(always)]
    fn counted(self) -> Search {
        Search { count: self.count + 1, ..self }
    }

    /// A node is reached, and not walked on from.
    #[inline(always)]
    fn reached(self, limit: u64) -> Search {
        if limit < self.count {
            return self;
        }
        self.counted()
    }

    /// Whether a node of this estimate is walked on from.
    #[inline(always)]
    fn opens(self, limit: u64, estimate: u64) -> bool {
        self.count < limit && estimate < self.cost
    }
}

/// A node: steps and stages decided; fees, removals and calls; the lines' part sums and terms; the stops, the latest in the lowest bit.
#[derive(Clone, Copy)]
struct Spot {
    step: usize,
    stage: usize,
    spent: u64,
    sum: u64,
    terms: u64,
    mask: u64,
}

impl Spot {
    /// What no plan below costs less than.
    #[inline(always)]
    fn estimate(self) -> u64 {
        self.spent + self.sum + self.terms
    }
}

/// A stop whose removals are being decided: how many are, the parts that can't be changed there, those removed, and the line's part sums and term.
#[derive(Clone, Copy)]
struct Stop {
    next: usize,
    shut: u32,
    removed: u32,
    sum: u32,
    term: u32,
}

struct Walk<const Q: usize> {
    lines: Vec<Held<Q>>,
    stages: Vec<Stage>,
    /// The first stage of each step, and how many stages there are.
    firsts: Vec<usize>,
    call: u64,
    limit: u64,
}

impl<const Q: usize> Walk<Q> {
    fn new(hall: &Hall, limit: u64) -> Walk<Q> {
        let mut steps: Vec<i32> = hall.jobs.iter().flat_map(|job| job.steps.iter().copied()).collect();
        steps.sort();
        steps.dedup();
        let (mut stages, mut firsts) = (Vec::new(), vec![0]);
        for step in &steps {
            let open = |job: &Job| job.steps.iter().position(|own| own == step);
            stages.extend(hall.jobs.iter().enumerate().filter_map(|(line, job)| Some(Stage { line, at: open(job)? })));
            firsts.push(stages.len());
        }
        Walk { lines: hall.jobs.iter().map(Held::new).collect(), stages, firsts, call: hall.call, limit }
    }

    /// The node of a line at a level, or at a stop behind it.
    #[inline(always)]
    fn node(&self, line: usize, at: usize, rows: usize) -> Node {
        Node { at, rows, next: self.lines[line].removals.len(), owed: false, shut: 0, removed: 0, mask: 0, spent: 0 }
    }

    /// The line of the stage does not stop: the spot is that below, and the line's level is written; whether it has a plan then, and the node is not dropped.
    #[inline(always)]
    fn pass(&self, lines: &mut [Line<Q>], spot: &mut Spot, stage: Stage, state: Search) -> bool {
        let (held, own) = (&self.lines[stage.line], &mut lines[stage.line]);
        let level = own.levels[stage.at];
        let node = self.node(stage.line, stage.at, level.rows);
        let term = held.largest_term(&own.front, level.rows - 1, stage.at + 1, 0..held.leads.len(), 0);
        spot.terms = spot.terms + u64::from(term) - u64::from(level.term);
        if term >= INF || !state.opens(self.limit, spot.estimate()) {
            return false;
        }
        let sum = held.no_sum(&mut own.front, node, true, 0);
        own.levels[stage.at + 1] = Level { rows: level.rows, sum, term };
        spot.stage += 1;
        spot.sum = spot.sum + u64::from(sum) - u64::from(level.sum);
        spot.mask *= 2;
        state.opens(self.limit, spot.estimate())
    }

    /// Walks on from where the crew's call is decided: no call, where each line open at the step passes it, and a call.
    fn at_step(&self, lines: &mut [Line<Q>], spot: Spot, state: Search) -> Search {
        if spot.step + 1 == self.firsts.len() {
            lines.iter_mut().for_each(|line| line.front.best = line.front.removed);
            return Search { cost: spot.estimate(), mask: spot.mask, ..state };
        }
        let mut below = Spot { step: spot.step + 1, ..spot };
        let stages = &self.stages[spot.stage..self.firsts[spot.step + 1]];
        let after = if stages.iter().all(|stage| self.pass(lines, &mut below, *stage, state)) {
            self.at_step(lines, below, state.counted())
        } else {
            state.reached(self.limit)
        };
        let called = Spot { spent: spot.spent + self.call, ..spot };
        if !after.opens(self.limit, called.estimate()) {
            return after.reached(self.limit);
        }
        self.at_line(lines, called, after.counted())
    }

    /// Walks on from within a call: the next line open at the step stops or does not; behind the last one comes the next step.
    fn at_line(&self, lines: &mut [Line<Q>], spot: Spot, state: Search) -> Search {
        if spot.stage == self.firsts[spot.step + 1] {
            return self.at_step(lines, Spot { step: spot.step + 1, ..spot }, state);
        }
        let stage = self.stages[spot.stage];
        let mut below = spot;
        let after = if self.pass(lines, &mut below, stage, state) {
            self.at_line(lines, below, state.counted())
        } else {
            state.reached(self.limit)
        };
        let (held, level) = (&self.lines[stage.line], lines[stage.line].levels[stage.at]);
        let top = held.tops[stage.at + 1];
        let terms = spot.terms + u64::from(top) - u64::from(level.term);
        let stopped = Spot { spent: spot.spent + held.lines.fees[stage.at], terms, mask: spot.mask * 2 + 1, ..spot };
        if !after.opens(self.limit, stopped.estimate()) {
            return after.reached(self.limit);
        }
        self.at_removal(lines, stopped, Stop { next: 0, shut: 0, removed: 0, sum: level.sum, term: top }, after.counted())
    }

    /// Walks on from a stop of the line of the stage: the next removal is not made, or it is; behind the last one comes the next line.
    fn at_removal(&self, lines: &mut [Line<Q>], spot: Spot, stop: Stop, state: Search) -> Search {
        let stage = self.stages[spot.stage];
        let (held, own) = (&self.lines[stage.line], &mut lines[stage.line]);
        let rows = own.levels[stage.at].rows;
        let node = Node { next: stop.next, shut: stop.shut, removed: stop.removed, ..self.node(stage.line, stage.at + 1, rows) };
        if stop.next == held.removals.len() {
            held.settle(&mut own.front, node);
            own.levels[stage.at + 1] = Level { rows: rows + 1, sum: stop.sum, term: stop.term };
            return self.at_line(lines, Spot { stage: spot.stage + 1, ..spot }, state);
        }
        let shut_classes = held.shut_classes[stop.next].iter().copied();
        let term = held.largest_term(&own.front, rows - 1, stage.at + 1, shut_classes, stop.term);
        let due = Spot { terms: spot.terms + u64::from(term) - u64::from(stop.term), ..spot };
        let mut after = state;
        let mut opens = term < INF && state.opens(self.limit, due.estimate());
        if opens {
            let shut = stop.shut | held.shuts[stop.next];
            let sum = held.no_sum(&mut own.front, node, false, shut);
            let below = Spot { sum: due.sum + u64::from(sum) - u64::from(stop.sum), ..due };
            opens = state.opens(self.limit, below.estimate());
            if opens {
                let stays = Stop { next: stop.next + 1, shut, removed: stop.removed * 2, sum, term };
                after = self.at_removal(lines, below, stays, state.counted());
            }
        }
        if !opens {
            after = state.reached(self.limit);
        }
        let out = Spot { spent: spot.spent + held.removals[stop.next], ..spot };
        if !after.opens(self.limit, out.estimate()) {
            return after.reached(self.limit);
        }
        self.at_removal(lines, out, Stop { next: stop.next + 1, removed: stop.removed * 2 + 1, ..stop }, after.counted())
    }

    /// The whole walk, or none where a line has no plan.
    fn walk(&self) -> Option<HallFound> {
        let mut lines: Vec<Line<Q>> = Vec::new();
        let mut root = Spot { step: 0, stage: 0, spent: 0, sum: 0, terms: 0, mask: 0 };
        for held in &self.lines {
            let mut line = Line { front: Front::new(), levels: [Level::default(); MARKS] };
            let (sum, term) = (held.first_sum(&mut line.front), held.tops[0]);
            if term >= INF {
                return None;
            }
            line.levels[0] = Level { rows: 1, sum: sum as u32, term };
            root = Spot { sum: root.sum + sum, terms: root.terms + u64::from(term), ..root };
            lines.push(line);
        }
        let begun = Search { count: 0, cost: NO_COST, mask: 0 };
        let Search { count, cost, mask } = if begun.opens(self.limit, root.estimate()) {
            self.at_step(&mut lines, root, begun.counted())
        } else {
            begun.reached(self.limit)
        };
        let best = || HallBest { cost, stops: self.stops(mask) };
        Some(HallFound {
            nodes: count.min(self.limit),
            more: self.limit < count,
            floor: root.estimate(),
            best: (cost < NO_COST).then(best),
        })
    }

    /// Each line's stops by opening.
    fn stops(&self, mask: u64) -> Vec<u64> {
        let mut stops = vec![0; self.lines.len()];
        for (stage, behind) in self.stages.iter().zip((0..self.stages.len()).rev()) {
            stops[stage.line] |= (mask >> behind & 1) << stage.at;
        }
        stops
    }
}

/// The walk with this many fours for each line.
#[inline(never)]
fn walk_hall<const Q: usize>(hall: &Hall, limit: u64) -> Option<HallFound> {
    Walk::<Q>::new(hall, limit).walk()
}
