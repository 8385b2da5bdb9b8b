//! The study's search for the optimum, to compare the library's speed with: the planner's tree walked by another estimate, in which each part bears shares
//! of the fees and removals, from rising cutoffs until a plan comes out. A lift for each number of openings decided raises the estimate: what any decisions
//! from there on cost at least above it, found from the end backwards by the same walk.

use super::shares::{shares, Numbers, Row, Shares, INF, LANES, MARKS};
use super::{Best, Job, Unit, MAX_OPENINGS};

/// How the optimum is searched for.
#[derive(Debug, Clone, Copy)]
pub struct Search {
    /// The nodes of a counted walk before all else: if it ends within them, nothing else is done.
    pub first: u64,
    /// The nodes of each walk for the lift of a level; without a lift 0.
    pub lift: u64,
    /// The nodes of each further walk.
    pub limit: u64,
}

/// What a search finds: the nodes of all walks, what no plan costs less than, and the best plan if no walk was longer than its limit.
#[derive(Debug, Clone, Copy, PartialEq, Eq)]
pub struct Optimum {
    pub nodes: u64,
    pub floor: u64,
    pub best: Option<Best>,
}

impl Job {
    /// The cheapest plan, or none where the job has no plan.
    pub fn optimum(&self, search: Search) -> Option<Optimum> {
        let mut nodes = 0;
        if search.first > 0 {
            let walked = self.counted(search.first)?;
            if walked.best.is_some() {
                return Some(walked);
            }
            nodes = walked.nodes;
        }
        let numbers = Numbers::new(self);
        let (shares, bound) = shares(&numbers)?;
        let mut walk = Walk::new(&numbers, &shares);
        if search.lift > 0 {
            nodes += walk.raise((bound / 512).max(1), search.lift);
        }
        let (bound, mut gap) = (bound + walk.lift[0], (bound / 256).max(1));
        // Whole shares may have lost a little of the bound.
        let mut floor = walk.estimate();
        while floor < i64::from(INF) {
            walk.run(bound + gap, search.limit);
            nodes += walk.nodes;
            if walk.over || walk.found {
                return Some(Optimum { nodes, floor: floor as u64, best: (!walk.over).then(|| walk.plan(self)) });
            }
            floor = bound + gap;
            gap += gap / 4 + 1;
        }
        // No plan costs less than the greatest cutoff.
        self.counted(search.limit)
    }

    /// The planner's own walk of so many nodes; no plan where it has more.
    fn counted(&self, walk: u64) -> Option<Optimum> {
        let unit = if self.is_plain() { Unit::Plain } else { Unit::Holders };
        let found = Job { walk, ..self.clone() }.solve(unit)?;
        Some(Optimum { nodes: found.nodes, floor: found.floor, best: found.best.filter(|_| !found.more) })
    }
}

#[inline(always)]
fn plus(a: &Row, b: &Row) -> Row {
    let mut sum = [0; LANES];
    (0..LANES).for_each(|q| sum[q] = a[q] + b[q]);
    sum
}

#[inline(always)]
fn least(a: &Row, b: &Row) -> Row {
    let mut least = [0; LANES];
    (0..LANES).for_each(|q| least[q] = if a[q] < b[q] { a[q] } else { b[q] });
    least
}

/// The sum of a row, INF where a price is missing.
#[inline(always)]
fn sum(row: &Row) -> i64 {
    let (mut most, mut sum) = (0, 0);
    for own in row {
        sum += i64::from(*own);
        most = if *own > most { *own } else { most };
    }
    if most >= INF {
        i64::from(INF)
    } else {
        sum
    }
}

/// `least[row][opening]`: for each part the least over the rows up to this one, of the row and the table's row of its mark. Each row has the openings to
/// before `next[row]`.
struct Memo {
    least: Vec<Row>,
    next: [usize; MARKS + 1],
}

/// The rows of the stops decided, each with its mark: the least price of changes up to one there.
struct Rows {
    rows: [Row; MARKS + 1],
    marks: [usize; MARKS + 1],
}

impl Memo {
    fn new() -> Memo {
        Memo { least: vec![[0; LANES]; (MARKS + 1) * MARKS], next: [0; MARKS + 1] }
    }

    #[inline(always)]
    fn at(&mut self, table: &[Row], rows: &Rows, row: usize, opening: usize) -> Row {
        if self.next[row] <= opening {
            let mut first = row;
            while first > 0 && self.next[first - 1] <= opening {
                first -= 1;
            }
            for own in first..=row {
                for x in self.next[own]..=opening {
                    let sum = plus(&rows.rows[own], &table[x * MARKS + rows.marks[own]]);
                    let below = if own == 0 { [INF; LANES] } else { self.least[(own - 1) * MARKS + x] };
                    self.least[own * MARKS + x] = least(&sum, &below);
                }
                self.next[own] = opening + 1;
            }
        }
        self.least[row * MARKS + opening]
    }
}

struct Walk<'n> {
    numbers: &'n Numbers,
    /// `ends[l * MARKS + mark]`: the least price with shares of changes at opening l and later that keep the part after the mark.
    ends: Vec<Row>,
    /// `reach[l * MARKS + mark]`: 0 where opening l is within the life after the mark, else INF.
    reach: Vec<Row>,
    /// `undecided[l][h]`: the shares of removals from the h-th on at opening l.
    undecided: Vec<Vec<Row>>,
    /// For each part that holds another: INF for the parts that need it removed.
    shut: Vec<Row>,
    lift: [i64; MARKS],
    rows: Rows,
    until_end: Memo,
    until_stop: Memo,
    limit: u64,
    cutoff: i64,
    nodes: u64,
    over: bool,
    found: bool,
    stops: u64,
    removed: [u32; MAX_OPENINGS],
    best: (u64, [u32; MAX_OPENINGS]),
}

/// Where a walk stands: openings decided, the last row, and what is paid.
#[derive(Clone, Copy)]
struct Node {
    level: usize,
    row: usize,
    paid: i64,
}

/// A stop whose removals are decided one by one: the first ones, those of them that are removed, and the rows of a change there and of no stop.
struct Stop<'r> {
    node: Node,
    decided: usize,
    removed: u32,
    row: &'r Row,
    beside: &'r Row,
}

impl Walk<'_> {
    fn new<'n>(numbers: &'n Numbers, shares: &Shares) -> Walk<'n> {
        let (none, n, holders) = ([0; LANES], numbers.openings, numbers.removals.len());
        let mut undecided = vec![vec![none; holders + 1]; n];
        for (t, rows) in undecided.iter_mut().enumerate() {
            (0..holders).rev().for_each(|b| rows[b] = plus(&rows[b + 1], &shares[b + 1][t]));
        }
        let shut = numbers.users[1..].iter().map(|users| std::array::from_fn(|q| if users >> q & 1 == 1 { INF } else { 0 })).collect();
        let rows = Rows { rows: [none; MARKS + 1], marks: [0; MARKS + 1] };
        let (ends, reach) = tables(numbers, shares, &undecided);
        Walk {
            numbers,
            ends,
            reach,
            undecided,
            shut,
            lift: [0; MARKS],
            rows,
            until_end: Memo::new(),
            until_stop: Memo::new(),
            limit: 0,
            cutoff: 0,
            nodes: 0,
            over: false,
            found: false,
            stops: 0,
            removed: [0; MAX_OPENINGS],
            best: (0, [0; MAX_OPENINGS]),
        }
    }

    /// Counts a node, if there may be one more; whether it is walked on from.
    #[inline(always)]
    fn opens(&mut self, estimate: i64) -> bool {
        self.over |= self.nodes == self.limit;
        if self.over {
            return false;
        }
        self.nodes += 1;
        estimate < self.cutoff
    }

    #[inline(always)]
    fn least_to_end(&mut self, row: usize, level: usize) -> Row {
        self.until_end.at(&self.ends, &self.rows, row, level)
    }

    /// Walks on from a node that is counted and not dropped.
    fn on(&mut self, node: Node) {
        let Node { level, row, paid } = node;
        if level == self.numbers.openings {
            self.cutoff = paid + sum(&self.least_to_end(row, level));
            self.found = true;
            self.best = (self.stops, self.removed);
            return;
        }
        let beside = self.least_to_end(row, level + 1);
        self.stops &= !(1 << level);
        if self.opens(paid + sum(&beside) + self.lift[level + 1]) {
            self.on(Node { level: level + 1, ..node });
        }
        if self.over {
            return;
        }
        let own = plus(&self.until_stop.at(&self.reach, &self.rows, row, level), &self.numbers.prices[level]);
        self.stops |= 1 << level;
        let node = Node { paid: paid + i64::from(self.numbers.fees[level]), ..node };
        self.stop(Stop { node, decided: 0, removed: 0, row: &own, beside: &beside });
    }

    /// Counts the point of a stop, and decides the next removal.
    fn stop(&mut self, stop: Stop) {
        let Stop { node, decided, removed, row, beside } = stop;
        let Node { level, paid, .. } = node;
        let after = &self.ends[(level + 1) * MARKS + level + 1];
        let here = least(&plus(&plus(row, &self.undecided[level][decided]), after), beside);
        if !self.opens(paid + sum(&here) + self.lift[level + 1]) {
            return;
        }
        if decided == self.numbers.removals.len() {
            let next = node.row + 1;
            (0..LANES).for_each(|q| self.rows.rows[next][q] = row[q].min(INF));
            self.rows.marks[next] = level + 1;
            self.until_end.next[next] = level + 1;
            self.until_stop.next[next] = level + 1;
            self.removed[level] = removed;
            self.on(Node { level: level + 1, row: next, paid });
            return;
        }
        let mut shut = *row;
        (0..LANES).for_each(|q| shut[q] = shut[q].max(self.shut[decided][q]));
        self.stop(Stop { decided: decided + 1, row: &shut, ..stop });
        if !self.over {
            let node = Node { paid: paid + i64::from(self.numbers.removals[decided]), ..node };
            self.stop(Stop { node, decided: decided + 1, removed: removed | 1 << decided, row, beside });
        }
    }

    /// A walk from a cutoff: whatever it finds costs less.
    fn begin(&mut self, cutoff: i64, limit: u64) {
        (self.cutoff, self.limit, self.nodes, self.over, self.found) = (cutoff.min(i64::from(INF)), limit, 0, false, false);
    }

    /// The estimate of the whole job.
    fn estimate(&mut self) -> i64 {
        (self.rows.rows[0], self.rows.marks[0], self.until_end.next[0], self.until_stop.next[0]) = ([0; LANES], 0, 0, 0);
        sum(&self.least_to_end(0, 0)) + self.lift[0]
    }

    /// The walk of the job from a cutoff.
    fn run(&mut self, cutoff: i64, limit: u64) {
        self.begin(cutoff, limit);
        let estimate = self.estimate();
        if self.opens(estimate) {
            self.on(Node { level: 0, row: 0, paid: 0 });
        }
    }

    /// The walk from a level on, with every last change free: by how much any decisions cost more than the estimate, if less than the cutoff.
    fn run_from(&mut self, level: usize, cutoff: i64, limit: u64) {
        self.begin(cutoff, limit);
        let finite = |own: i32| if own < INF { own } else { 0 };
        let ends = &self.ends[level * MARKS..][..=level];
        let top: Row = std::array::from_fn(|q| ends.iter().map(|row| finite(row[q])).max().unwrap_or(0));
        for (mark, end) in ends.iter().enumerate() {
            self.rows.rows[mark] = std::array::from_fn(|q| if end[q] < INF { top[q] - end[q] } else { INF });
            self.rows.marks[mark] = mark;
            self.until_end.next[mark] = level;
            self.until_stop.next[mark] = level;
        }
        self.on(Node { level, row: level, paid: -top.iter().map(|own| i64::from(*own)).sum::<i64>() });
    }

    /// The lifts of all levels, by walks of at most `limit` nodes; the nodes of all of them.
    fn raise(&mut self, step: i64, limit: u64) -> u64 {
        let mut nodes = 0;
        for level in (0..self.numbers.openings).rev() {
            let (mut lift, mut own) = (self.lift[level + 1], 0);
            loop {
                self.run_from(level, lift + step, limit);
                own += self.nodes;
                if self.over {
                    break;
                }
                lift = self.cutoff;
                if self.found || own > limit {
                    break;
                }
            }
            self.lift[level] = lift;
            nodes += own;
        }
        nodes
    }

    /// The plan found.
    fn plan(&self, job: &Job) -> Best {
        let (stops, holding) = (self.best.0, job.holding());
        let parts = |own: u32| holding.iter().enumerate().fold(0, |bits, (b, p)| bits | ((own >> b & 1) as u16) << p);
        let removed = std::array::from_fn(|k| if stops >> k & 1 == 1 { parts(self.best.1[k]) } else { 0 });
        Best { cost: self.cutoff as u64, stops, removed }
    }
}

/// The tables of least prices with shares, and of what is within the lives.
fn tables(numbers: &Numbers, shares: &Shares, undecided: &[Vec<Row>]) -> (Vec<Row>, Vec<Row>) {
    let n = numbers.openings;
    let (mut ends, mut reach) = (vec![[0; LANES]; MARKS * MARKS], vec![[0; LANES]; MARKS * MARKS]);
    for l in (0..=n).rev() {
        for (mark, q) in (0..=l).flat_map(|mark| (0..numbers.parts).map(move |q| (mark, q))) {
            let lasts = numbers.lasts(q, mark, l);
            let out = if lasts { 0 } else { INF };
            if l == n {
                ends[l * MARKS + mark][q] = out;
                continue;
            }
            reach[l * MARKS + mark][q] = out;
            let (no, yes) = (ends[(l + 1) * MARKS + mark][q], ends[(l + 1) * MARKS + l + 1][q]);
            let paid = yes + numbers.prices[l][q] + shares[0][l][q] + undecided[l][0][q];
            ends[l * MARKS + mark][q] = if lasts && yes < INF { no.min(paid) } else { no };
        }
    }
    (ends, reach)
}
