//! The tables and the walk as a loop. Mark 0 is the first life, mark k + 1 a change at opening k.

use super::lanes::Lanes;
use super::{Best, Found, Job, Part};

/// Stands for a missing price. A price that is not missing is at most 64,000,000, and sixteen of them sum to less than this; four of
/// this still fit a lane.
pub const INF: u32 = 1_030_000_000;

pub const MAX_OPENINGS: usize = 64;

/// A price for each part.
pub type Row<V, const Q: usize> = [V; Q];

/// The tables of a job.
pub struct Tables<V, const Q: usize> {
    pub count: usize,
    pub fees: Vec<u64>,
    pub prices: Vec<Row<V, Q>>,
    /// `ends[triangle(j) + mark]`: the least price of changes at opening j and later that keep the part after the mark.
    pub ends: Vec<Row<V, Q>>,
    /// `reach[triangle(j) + mark]`: 0 where opening j is within the life after the mark, else INF.
    pub reach: Vec<Row<V, Q>>,
    /// `terms[triangle(j) + mark]`: where j openings are decided and the mark is that of the last yes, the largest over the parts of the
    /// least fee of openings that keep the part; INF where one has none.
    terms: Vec<u32>,
}

/// Where the marks 0 to j of opening j begin in a table.
#[inline(always)]
pub fn triangle(j: usize) -> usize {
    j * (j + 1) / 2
}

/// Raises the terms to those of a part.
pub fn raise(terms: &mut [u32], part: &Part, positions: &[i32], fees: &[u32], last: i32) {
    let count = positions.len();
    let position = |mark: usize| if mark == 0 { part.left - part.life } else { positions[mark - 1] };
    let mut least: [u32; MAX_OPENINGS + 1] =
        std::array::from_fn(|mark| if mark <= count && position(mark) + part.life > last { 0 } else { INF });
    for j in (0..=count).rev() {
        if j < count {
            let stopped = (least[j + 1] + fees[j]).min(INF);
            for (mark, least) in least[..=j].iter_mut().enumerate() {
                if positions[j] - position(mark) <= part.life {
                    *least = stopped.min(*least);
                }
            }
        }
        for (term, least) in terms[triangle(j)..].iter_mut().zip(&least[..=j]) {
            *term = *least.max(term);
        }
    }
}

impl<V: Lanes, const Q: usize> Tables<V, Q> {
    const LANES: usize = Q * V::COUNT;

    /// Fills the tables. Lanes without a part hold 0, so they add nothing.
    pub fn new(job: &Job) -> Tables<V, Q> {
        let (count, lanes) = (job.steps.len(), Self::LANES);
        let mut prices = vec![0; count * lanes];
        let mut ends = vec![0; triangle(count + 1) * lanes];
        let mut reach = vec![0; triangle(count) * lanes];
        let positions: Vec<i32> = job.steps.iter().map(|step| job.running(*step)).collect();
        let last = job.running(job.horizon);
        let mut terms = vec![0; triangle(count + 1)];
        for (p, part) in job.parts.iter().enumerate() {
            let position = |mark: usize| if mark == 0 { part.left - part.life } else { positions[mark - 1] };
            let at = |j: usize, mark: usize| (triangle(j) + mark) * lanes + p;
            for mark in 0..=count {
                ends[at(count, mark)] = if position(mark) + part.life > last { 0 } else { INF };
            }
            for j in (0..count).rev() {
                prices[j * lanes + p] = part.prices[j];
                let changed = (ends[at(j + 1, j + 1)] + part.prices[j]).min(INF);
                for mark in 0..=j {
                    let within = positions[j] - position(mark) <= part.life;
                    reach[at(j, mark)] = if within { 0 } else { INF };
                    let with = if within { changed } else { INF };
                    ends[at(j, mark)] = with.min(ends[at(j + 1, mark)]);
                }
            }
            raise(&mut terms, part, &positions, &job.fees, last);
        }
        Tables {
            count,
            fees: job.fees.iter().map(|fee| u64::from(*fee)).collect(),
            terms,
            prices: Self::rows(&prices),
            ends: Self::rows(&ends),
            reach: Self::rows(&reach),
        }
    }

    fn rows(table: &[u32]) -> Vec<Row<V, Q>> {
        let row = |row: &[u32]| std::array::from_fn(|q| V::load(&row[q * V::COUNT..]));
        table.chunks_exact(Self::LANES).map(row).collect()
    }
}

/// Each part's least of the row and a sum of two rows.
#[inline(always)]
fn take_least<V: Lanes, const Q: usize>(least: &mut Row<V, Q>, a: &Row<V, Q>, b: &Row<V, Q>) {
    for q in 0..Q {
        least[q] = a[q].plus(b[q]).least(least[q]);
    }
}

/// The sum of the parts, or INF where one is missing.
#[inline(always)]
pub fn total<V: Lanes, const Q: usize>(row: &Row<V, Q>) -> u32 {
    let mut sum = row[0];
    for lanes in &row[1..] {
        sum = sum.plus(*lanes);
    }
    sum.sum().min(u64::from(INF)) as u32
}

/// The rows of the stops decided, each with its mark: the least price of changes up to one at that mark.
pub struct Front<V, const Q: usize> {
    rows: [Row<V, Q>; MAX_OPENINGS + 1],
    marks: [u32; MAX_OPENINGS + 1],
    /// `memo[triangle(j + 1) + n]`: the least sums of the first n rows with `ends` at opening j, where `known[n][j]` says so. Of no rows it is missing.
    memo: Vec<Row<V, Q>>,
    known: [[bool; MAX_OPENINGS + 1]; MAX_OPENINGS + 2],
}

/// The state of a search.
#[derive(Clone, Copy)]
pub struct Search {
    pub count: u64,
    /// A node was reached beyond the limit.
    pub over: bool,
    /// Whether a plan was found, the best one's cost and its decisions, the latest in the lowest bit.
    pub found: bool,
    pub cost: u64,
    pub mask: u64,
}

/// A node whose yes is still to be walked: its part sums, the rows of its front, the fees of its stops.
#[derive(Clone, Copy)]
struct Above {
    sum: u32,
    rows: u32,
    spent: u64,
}

impl<V: Lanes, const Q: usize> Tables<V, Q> {
    /// The sum of the parts' least prices over the stops of the front and openings j and later: the memo learns what it lacks at j, one row
    /// after the other, and the top row's sum is the answer.
    #[inline(always)]
    pub fn bound(&self, front: &mut Front<V, Q>, rows: usize, j: usize) -> u32 {
        let mut n = rows - 1;
        while n > 0 && !front.known[n][j] {
            n -= 1;
        }
        let (ends, level) = (triangle(j), triangle(j + 1));
        let mut sum = 0;
        while n < rows {
            let mut found = front.memo[level + n];
            take_least(&mut found, &front.rows[n], &self.ends[ends + front.marks[n] as usize]);
            front.memo[level + n + 1] = found;
            n += 1;
            front.known[n][j] = true;
            sum = total(&found);
        }
        sum
    }

    /// What is due at least for stops at openings j and later, where the front's last row is that of the last yes.
    #[inline(always)]
    pub fn term(&self, front: &Front<V, Q>, rows: usize, j: usize) -> u64 {
        self.terms[triangle(j) + front.marks[rows - 1] as usize].into()
    }

    /// The same, where the last yes is at the opening before.
    #[inline(always)]
    pub fn top(&self, j: usize) -> u64 {
        self.terms[triangle(j) + j].into()
    }

    /// Adds the row of a stop at opening j. What the memo knew of its place is forgotten.
    #[inline(always)]
    pub fn push(&self, front: &mut Front<V, Q>, rows: usize, j: usize) {
        let mut found = [V::splat(INF); Q];
        for n in (0..rows).rev() {
            take_least(&mut found, &front.rows[n], &self.reach[triangle(j) + front.marks[n] as usize]);
        }
        front.rows[rows] = std::array::from_fn(|q| found[q].plus(self.prices[j][q]));
        front.marks[rows] = j as u32 + 1;
        front.known[rows + 1][j + 1..].fill(false);
    }

    /// The walk of at most `limit` nodes, or none where the job has no plan.
    #[inline(always)]
    pub fn walk<F: Form>(&self, limit: u64) -> Option<Found> {
        let none = [V::splat(0); Q];
        let mut front = Front {
            rows: [none; MAX_OPENINGS + 1],
            marks: [0; MAX_OPENINGS + 1],
            memo: vec![[V::splat(INF); Q]; triangle(self.count + 2)],
            known: [[false; MAX_OPENINGS + 1]; MAX_OPENINGS + 2],
        };
        let sum = self.bound(&mut front, 1, 0);
        if sum == INF {
            return None;
        }
        let floor = u64::from(sum) + self.top(0);
        let Search { count, over, found, cost, mask } = F::search(self, &mut front, limit, sum);
        let stops = || (0..self.count).fold(0, |stops, k| stops | (mask >> (self.count - 1 - k) & 1) << k);
        Some(Found { nodes: count, more: over, floor, best: found.then(|| Best { cost, stops: stops(), removed: [0; MAX_OPENINGS] }) })
    }
}

/// How a walk goes on from the root, with these part sums.
pub trait Form {
    fn search<V: Lanes, const Q: usize>(t: &Tables<V, Q>, front: &mut Front<V, Q>, limit: u64, root: u32) -> Search;
}

/// With a stack of its own.
pub struct Loop;

impl Form for Loop {
    #[inline(always)]
    fn search<V: Lanes, const Q: usize>(t: &Tables<V, Q>, front: &mut Front<V, Q>, limit: u64, root: u32) -> Search {
        let mut above = [Above { sum: 0, rows: 0, spent: 0 }; MAX_OPENINGS];
        let (mut nodes, mut best, mut best_mask) = (0, u64::MAX, 0);
        // The node: part sums, openings decided, decisions (the latest in the lowest bit), fees, term, rows, whether a stop's row is owed.
        let mut sum = root;
        let (mut at, mut mask, mut spent, mut term, mut rows, mut owes) = (0, 0u64, 0, t.top(0), 1, false);
        let over = loop {
            if nodes == limit {
                break true;
            }
            nodes += 1;
            let cost = spent + term + u64::from(sum);
            if sum < INF && cost < best {
                if at < t.count {
                    // On to the no below.
                    if owes {
                        t.push(front, rows, at - 1);
                        (rows, owes) = (rows + 1, false);
                    }
                    above[at] = Above { sum, rows: rows as u32, spent };
                    at += 1;
                    mask *= 2;
                    term = t.term(front, rows, at);
                    // It costs no less with its own part sums, and is missing where its term is: no row needs a look where this drops it.
                    if term < u64::from(INF) && spent + term + u64::from(sum) < best {
                        sum = t.bound(front, rows, at);
                        continue;
                    }
                    if nodes == limit {
                        break true;
                    }
                    nodes += 1;
                } else {
                    (best, best_mask) = (cost, mask);
                }
            }
            // Back to the latest no: its yes comes next, with the same part sums.
            let yes = mask.trailing_ones() as usize;
            if yes >= at {
                break false;
            }
            at -= yes;
            mask = mask >> yes | 1;
            let node = &above[at - 1];
            (rows, sum, spent, term, owes) = (node.rows as usize, node.sum, node.spent + t.fees[at - 1], t.top(at), true);
        };
        Search { count: nodes, over, found: best < u64::MAX, cost: best, mask: best_mask }
    }
}
