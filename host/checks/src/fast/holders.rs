//! The walk of jobs with holders: after a yes it decides what is removed. One function that calls itself serves openings and removals.
//! The least over the rows up to each one is kept for each number of openings decided (a memo), so that a node costs the same however
//! many stops lie behind it. While removals are decided, a part's sum is that before the stop, or that of the no beside it.

use super::lanes::{Lanes, Plain};
use super::walk::{raise, triangle, Search, Tables, INF, MAX_OPENINGS};
use super::{Best, Found, Job, Part};

pub(super) const MARKS: usize = MAX_OPENINGS + 1;
const MAX_PARTS: usize = 16;

type Row<const Q: usize> = [Plain; Q];

impl Job {
    /// The parts that are somebody's holder, rising.
    pub(super) fn holding(&self) -> Vec<usize> {
        (0..self.parts.len()).filter(|p| self.parts.iter().any(|part| part.holders.contains(p))).collect()
    }

    /// For each part the parts that come out with it, as bits.
    pub(super) fn come_out(&self) -> Vec<u32> {
        let bits = |part: &Part| part.holders.iter().fold(0, |bits, holder| bits | 1 << holder);
        let mut out: Vec<u32> = self.parts.iter().enumerate().map(|(p, part)| 1 << p | bits(part)).collect();
        for through in 0..out.len() {
            for p in 0..out.len() {
                if out[p] >> through & 1 == 1 {
                    out[p] |= out[through];
                }
            }
        }
        out
    }

    /// The job with the removal of each part that holds nobody in its prices.
    pub(super) fn charged(&self) -> Job {
        let holding = self.holding();
        let mut job = self.clone();
        for (_, part) in job.parts.iter_mut().enumerate().filter(|(p, _)| !holding.contains(p)) {
            part.prices.iter_mut().for_each(|price| *price += part.removal);
        }
        job
    }
}

/// The tables of a job. A price is at most 2,000,000, so that the lanes sum to less than 2^31: a missing part is told by the term.
pub(super) struct Held<const Q: usize> {
    pub(super) lines: Tables<Plain, Q>,
    /// What the removal of each part that holds somebody costs, by rising number.
    pub(super) removals: Vec<u64>,
    /// For each of them the parts that need it removed, as bits, and the classes of these parts.
    pub(super) shuts: Vec<u32>,
    pub(super) shut_classes: Vec<Vec<usize>>,
    /// A class is the parts that need the same removals, so that they have the same last mark; this is its first part.
    pub(super) leads: Vec<usize>,
    /// `terms[triangle(j) + mark][class]`: where j openings are decided and the mark is the class's last, the largest over its parts of the
    /// least fee of openings that keep the part; INF where one has none.
    terms: Vec<[u32; MAX_PARTS]>,
    /// The largest of them where the last mark of every class is the opening just decided.
    pub(super) tops: Vec<u32>,
}

/// The terms of these classes.
fn class_terms(job: &Job, needs: &[u32], classes: &[u32]) -> Vec<[u32; MAX_PARTS]> {
    let positions: Vec<i32> = job.steps.iter().map(|step| job.running(*step)).collect();
    let mut terms = vec![[0; MAX_PARTS]; triangle(job.steps.len() + 1)];
    for (c, class) in classes.iter().enumerate() {
        let mut own = vec![0; terms.len()];
        for (part, _) in job.parts.iter().zip(needs).filter(|(_, need)| *need == class) {
            raise(&mut own, part, &positions, &job.fees, job.running(job.horizon));
        }
        terms.iter_mut().zip(own).for_each(|(terms, own)| terms[c] = own);
    }
    terms
}

impl<const Q: usize> Held<Q> {
    pub(super) fn new(job: &Job) -> Held<Q> {
        let holding = job.holding();
        let all = holding.iter().fold(0, |bits, p| bits | 1u32 << p);
        let needs: Vec<u32> = job.come_out().iter().map(|out| out & all).collect();
        let mut classes = needs.clone();
        classes.sort();
        classes.dedup();
        let having = |of: &[u32], p: usize| -> Vec<usize> { (0..of.len()).filter(|at| of[*at] >> p & 1 == 1).collect() };
        let terms = class_terms(job, &needs, &classes);
        Held {
            lines: Tables::new(&job.charged()),
            removals: holding.iter().map(|p| u64::from(job.parts[*p].removal)).collect(),
            shuts: holding.iter().map(|p| having(&needs, *p).iter().fold(0, |bits, q| bits | 1u32 << q)).collect(),
            shut_classes: holding.iter().map(|p| having(&classes, *p)).collect(),
            leads: classes.iter().map(|class| needs.iter().position(|need| need == class).expect("a part of the class")).collect(),
            tops: (0..=job.steps.len()).map(|j| terms[triangle(j) + j].into_iter().max().expect("sixteen classes")).collect(),
            terms,
        }
    }
}

/// `least[row][j]`: for each part the least over the rows up to this one of the row and the table's row of its mark at opening j. Each row
/// has the openings from its mark to before `next[row]`.
struct Memo<const Q: usize> {
    least: Vec<[Row<Q>; MARKS]>,
    next: [usize; MARKS],
}

/// The rows of the stops decided, each with its mark: the least price of changes up to one at that mark, INF or more where the part can't
/// be changed there.
struct Rows<const Q: usize> {
    rows: [Row<Q>; MARKS],
    marks: [usize; MARKS],
}

/// What stands behind a node, and the best plan's removals.
pub(super) struct Front<const Q: usize> {
    rows: Rows<Q>,
    /// For each row and class the last mark of the rows up to this one at which the class can be changed.
    lasts: [[u8; MAX_PARTS]; MARKS],
    ends: Memo<Q>,
    reach: Memo<Q>,
    /// The removals decided at each opening that is a stop, the latest in the lowest bit, and those of the best plan.
    pub(super) removed: [u32; MAX_OPENINGS],
    pub(super) best: [u32; MAX_OPENINGS],
}

impl<const Q: usize> Front<Q> {
    /// Before the first opening: one row, of mark 0.
    pub(super) fn new() -> Front<Q> {
        let rows = Rows { rows: [[Plain::splat(0); Q]; MARKS], marks: [0; MARKS] };
        let lasts = [[0; MAX_PARTS]; MARKS];
        let clear = [0; MAX_OPENINGS];
        Front { rows, lasts, ends: Memo::new(), reach: Memo::new(), removed: clear, best: clear }
    }
}

impl<const Q: usize> Memo<Q> {
    fn new() -> Memo<Q> {
        Memo { least: vec![[[Plain::splat(0); Q]; MARKS]; MARKS], next: [0; MARKS] }
    }

    /// The openings of a row, filled up to j; `table` is the one that the memo belongs to.
    #[inline(always)]
    fn at(&mut self, table: &[Row<Q>], rows: &Rows<Q>, row: usize, j: usize) -> &[Row<Q>; MARKS] {
        let mut first = row;
        while first > 0 && self.next[first - 1] <= j {
            first -= 1;
        }
        for row in first..=row {
            if self.next[row] <= j {
                self.deepen(table, rows, row, j);
            }
        }
        &self.least[row]
    }

    /// Gives a row the openings up to j; the row below it has them.
    #[inline(always)]
    fn deepen(&mut self, table: &[Row<Q>], rows: &Rows<Q>, row: usize, j: usize) {
        let mark = rows.marks[row];
        for level in self.next[row]..=j {
            let from = &table[triangle(level) + mark];
            let own: Row<Q> = std::array::from_fn(|q| rows.rows[row][q].plus(from[q]));
            let below = if row == 0 { own } else { self.least[row - 1][level] };
            self.least[row][level] = std::array::from_fn(|q| own[q].least(below[q]));
        }
        self.next[row] = j + 1;
    }
}

/// A node: openings decided, rows of the front, removals decided at the last stop (all of them where none is open), whether that stop's row
/// is owed, the parts that can't be changed there, its removals and the stops (the latest in the lowest bit), fees and removals.
#[derive(Clone, Copy)]
pub(super) struct Node {
    pub(super) at: usize,
    pub(super) rows: usize,
    pub(super) next: usize,
    pub(super) owed: bool,
    pub(super) shut: u32,
    pub(super) removed: u32,
    pub(super) mask: u64,
    pub(super) spent: u64,
}

impl Node {
    /// No stop, or not removed.
    #[inline(always)]
    fn no(self, opening: bool, shut: u32) -> Node {
        if opening {
            Node { at: self.at + 1, mask: self.mask * 2, ..self }
        } else {
            Node { next: self.next + 1, shut, removed: self.removed * 2, ..self }
        }
    }

    /// A stop, or removed.
    #[inline(always)]
    fn yes(self, opening: bool, more: u64) -> Node {
        let spent = self.spent + more;
        if opening {
            Node { at: self.at + 1, mask: self.mask * 2 + 1, next: 0, owed: true, shut: 0, removed: 0, spent, ..self }
        } else {
            Node { next: self.next + 1, removed: self.removed * 2 + 1, spent, ..self }
        }
    }
}

impl<const Q: usize> Held<Q> {
    /// Adds the row of the last stop, all of whose removals are decided.
    #[inline(always)]
    pub(super) fn settle(&self, front: &mut Front<Q>, node: Node) {
        let (row, j) = (node.rows, node.at - 1);
        let found = front.reach.at(&self.lines.reach, &front.rows, row - 1, j)[j];
        let with = |q: usize| found[q].plus(self.lines.prices[j][q]).greatest(Plain::shut(node.shut >> (4 * q), INF));
        front.rows.rows[row] = std::array::from_fn(with);
        front.rows.marks[row] = node.at;
        front.reach.next[row] = node.at;
        front.ends.next[row] = node.at;
        for (class, lead) in self.leads.iter().enumerate() {
            let shut = node.shut >> lead & 1 == 1;
            front.lasts[row][class] = if shut { front.lasts[row - 1][class] } else { node.at as u8 };
        }
        front.removed[j] = node.removed;
    }

    /// A class's term where j openings are decided and its last mark is that of the row.
    #[inline(always)]
    fn class_term(&self, front: &Front<Q>, row: usize, j: usize, class: usize) -> u32 {
        self.terms[triangle(j) + usize::from(front.lasts[row][class])][class]
    }

    /// The largest of these classes' terms and of the one given.
    #[inline(always)]
    pub(super) fn largest_term(&self, front: &Front<Q>, row: usize, j: usize, classes: impl Iterator<Item = usize>, mut term: u32) -> u32 {
        for class in classes {
            term = self.class_term(front, row, j, class).max(term);
        }
        term
    }

    /// The term of the no, or of the not removed; `term` is the node's.
    #[inline(always)]
    fn no_term(&self, front: &Front<Q>, node: Node, opening: bool, term: u32) -> u32 {
        let row = node.rows - 1;
        if opening {
            (0..self.leads.len()).map(|class| self.class_term(front, row, node.at + 1, class)).fold(0, u32::max)
        } else {
            self.shut_classes[node.next].iter().map(|class| self.class_term(front, row, node.at, *class)).fold(term, u32::max)
        }
    }

    /// The part sums of the no, or of the not removed with these parts shut; no part is missing.
    #[inline(always)]
    pub(super) fn no_sum(&self, front: &mut Front<Q>, node: Node, opening: bool, shut: u32) -> u32 {
        let j = if opening { node.at + 1 } else { node.at };
        let least = front.ends.at(&self.lines.ends, &front.rows, node.rows - 1, j);
        let mut sum = Plain::splat(0);
        for (q, beside) in least[j].iter().enumerate() {
            let own = if opening { *beside } else { least[j - 1][q].greatest(beside.least(Plain::shut(shut >> (4 * q), INF))) };
            sum = sum.plus(own);
        }
        sum.sum() as u32
    }

    /// Walks on from a node that is counted and not dropped, with these part sums and this term.
    fn on(&self, front: &mut Front<Q>, limit: u64, mut node: Node, sum: u32, term: u32, state: Search) -> Search {
        let opening = node.next == self.removals.len();
        if opening {
            if node.owed {
                self.settle(front, node);
                node = Node { rows: node.rows + 1, owed: false, ..node };
            }
            if node.at == self.lines.count {
                front.best = front.removed;
                return Search { found: true, cost: node.spent + u64::from(sum), mask: node.mask, ..state };
            }
        }
        let due = self.no_term(front, node, opening, term);
        let mut opens = due < INF && state.opens(limit, node.spent + u64::from(sum) + u64::from(due));
        let mut after = state;
        if opens {
            let shut = if opening { 0 } else { node.shut | self.shuts[node.next] };
            let below = self.no_sum(front, node, opening, shut);
            opens = state.opens(limit, node.spent + u64::from(below) + u64::from(due));
            if opens {
                after = self.on(front, limit, node.no(opening, shut), below, due, state.counted());
            }
        }
        if !opens {
            after = state.reached(limit);
        }
        let (more, term) = if opening { (self.lines.fees[node.at], self.tops[node.at + 1]) } else { (self.removals[node.next], term) };
        let yes = node.yes(opening, more);
        if !after.opens(limit, yes.spent + u64::from(sum) + u64::from(term)) {
            return after.reached(limit);
        }
        self.on(front, limit, yes, sum, term, after.counted())
    }

    /// The part sums before the first opening.
    pub(super) fn first_sum(&self, front: &mut Front<Q>) -> u64 {
        front.ends.at(&self.lines.ends, &front.rows, 0, 0)[0].iter().fold(0, |sum, lanes| sum + lanes.sum())
    }

    /// The walk of at most `limit` nodes, or none where the job has no plan.
    fn walk(&self, limit: u64, holding: &[usize]) -> Option<Found> {
        let mut front = Front::new();
        let term = self.tops[0];
        if term >= INF {
            return None;
        }
        let root = Node { at: 0, rows: 1, next: holding.len(), owed: false, shut: 0, removed: 0, mask: 0, spent: 0 };
        let sum = self.first_sum(&mut front);
        let floor = sum + u64::from(term);
        let begun = Search { count: 0, over: false, found: false, cost: 0, mask: 0 };
        let Search { count, over, found, cost, mask } = if begun.opens(limit, floor) {
            self.on(&mut front, limit, root, sum as u32, term, begun.counted())
        } else {
            begun.reached(limit)
        };
        let best = || self.best(&front, holding, cost, mask);
        Some(Found { nodes: count, more: over, floor, best: found.then(best) })
    }

    /// The best plan: its stops by opening, and the parts that it decides to remove at each, as bits.
    fn best(&self, front: &Front<Q>, holding: &[usize], cost: u64, mask: u64) -> Best {
        let (count, latest) = (self.lines.count, holding.len().wrapping_sub(1));
        let stopped = |k: usize| mask >> (count - 1 - k) & 1 == 1;
        let parts = |k: usize| holding.iter().enumerate().fold(0, |bits, (b, p)| bits | (front.best[k] >> (latest - b) & 1) << p);
        let removed = std::array::from_fn(|k| if k < count && stopped(k) { parts(k) as u16 } else { 0 });
        Best { cost, stops: (0..count).fold(0, |stops, k| stops | u64::from(stopped(k)) << k), removed }
    }
}

/// The walk with this many fours.
#[inline(never)]
pub fn walk_held<const Q: usize>(job: &Job) -> Option<Found> {
    Held::<Q>::new(job).walk(job.walk, &job.holding())
}
