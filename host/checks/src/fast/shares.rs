//! Shares of what parts pay together, by an ascent of whole numbers: how much of each fee and of each removal every part bears at each opening. However
//! they are split, what the parts cost at least by themselves, their shares added to their prices, is no more than what any plan costs.

use super::Job;

pub const LANES: usize = 16;
/// Stands for a missing price.
pub const INF: i32 = 1_000_000_000;
/// The greatest number of openings decided.
pub const MARKS: usize = 65;

/// A number for each part.
pub type Row = [i32; LANES];
/// `shares[thing][opening][part]`.
pub type Shares = Vec<Vec<Row>>;

/// A job's numbers. A thing is what parts pay together: the fee, which is thing 0 and paid by all, and the removal of each part that holds another.
pub struct Numbers {
    pub openings: usize,
    pub parts: usize,
    pub fees: Vec<i32>,
    pub removals: Vec<i32>,
    /// For each thing the parts that pay it, as bits.
    pub users: Vec<u32>,
    /// The prices at each opening; the removal of a part that holds nobody is among them.
    pub prices: Vec<Row>,
    positions: Vec<i32>,
    end: i32,
    lives: Vec<(i32, i32)>,
}

impl Numbers {
    /// The numbers of a job that has no fault.
    pub fn new(job: &Job) -> Numbers {
        let (holding, out, charged) = (job.holding(), job.come_out(), job.charged());
        let needing = |holder: &usize| out.iter().enumerate().fold(0u32, |bits, (q, own)| bits | (own >> holder & 1) << q);
        let lane = |q: usize, t: usize| charged.parts.get(q).map_or(0, |part| part.prices[t] as i32);
        Numbers {
            openings: job.steps.len(),
            parts: job.parts.len(),
            fees: job.fees.iter().map(|fee| *fee as i32).collect(),
            removals: holding.iter().map(|p| job.parts[*p].removal as i32).collect(),
            users: [(1u32 << job.parts.len()) - 1].into_iter().chain(holding.iter().map(needing)).collect(),
            prices: (0..job.steps.len()).map(|t| std::array::from_fn(|q| lane(q, t))).collect(),
            positions: job.steps.iter().map(|step| job.running(*step)).collect(),
            end: job.running(job.horizon) + 1,
            lives: job.parts.iter().map(|part| (part.life, part.left)).collect(),
        }
    }

    /// What a thing costs at an opening.
    pub fn cost(&self, thing: usize, opening: usize) -> i32 {
        if thing == 0 {
            self.fees[opening]
        } else {
            self.removals[thing - 1]
        }
    }

    /// The parts that pay a thing.
    fn paying(&self, thing: usize) -> impl Iterator<Item = usize> + '_ {
        (0..self.parts).filter(move |q| self.users[thing] >> q & 1 == 1)
    }

    /// Whether a part lasts from a mark (0 is its first life, k + 1 a change at opening k) to an opening, or to the end.
    pub fn lasts(&self, part: usize, mark: usize, to: usize) -> bool {
        let (life, left) = self.lives[part];
        let from = if mark == 0 { left - life } else { self.positions[mark - 1] };
        self.positions.get(to).unwrap_or(&self.end) - from <= life
    }

    /// The largest power of two up to 256 that keeps the sums of an ascent below INF / 2.
    fn scale(&self) -> i32 {
        let most = |t: usize| (0..self.parts).map(|q| self.borne(q, t)).max().unwrap_or(0);
        let sum: i64 = (0..self.openings).map(most).sum();
        let mut scale = 256;
        while scale > 1 && sum * i64::from(scale) >= i64::from(INF) / 2 {
            scale /= 2;
        }
        scale
    }

    /// The most that a part may have to bear at an opening.
    fn borne(&self, part: usize, t: usize) -> i64 {
        let things = (0..self.users.len()).filter(|k| self.users[*k] >> part & 1 == 1);
        i64::from(self.prices[t][part]) + things.map(|k| i64::from(self.cost(k, t))).sum::<i64>()
    }
}

/// Rounds at most, and how many without a better table shorten the step.
const ROUNDS: usize = 400;
const PATIENCE: u32 = 15;
/// How much of the last direction a new one keeps, of 16.
const KEPT: i32 = 14;

/// The shares of a job, and what the parts cost at least with them: none where the job has no plan.
pub fn shares(numbers: &Numbers) -> Option<(Shares, i64)> {
    let scale = numbers.scale();
    let mut ascent = Ascent::new(numbers, scale);
    let first = ascent.value()?;
    let (mut step, mut since) = (256, 0);
    for _ in 0..ROUNDS {
        let (bound, best) = (ascent.bound, ascent.bound.max(first));
        if bound >= best + best / 24 || step < 3 {
            break;
        }
        ascent.round(best + best / 24, step)?;
        since = if ascent.bound > bound.max(first) { 0 } else { since + 1 };
        if since == PATIENCE {
            (step, since) = (step * 5 / 8, 0);
        }
    }
    let bound = (ascent.bound + i64::from(scale) - 1) / i64::from(scale);
    Some((ascent.whole(), bound))
}

struct Ascent<'n> {
    numbers: &'n Numbers,
    scale: i32,
    now: Shares,
    best: Shares,
    direction: Shares,
    bound: i64,
    /// The changes of the parts, each by itself, with the shares of now.
    changed: [[bool; LANES]; MARKS],
    /// `reach[t][mark]`: 0 where a part lasts from the mark to opening t, else INF; and the first mark from which one does.
    reach: Vec<Vec<Row>>,
    first: Vec<usize>,
}

impl Ascent<'_> {
    /// Begins with each thing split evenly.
    fn new(numbers: &Numbers, scale: i32) -> Ascent<'_> {
        let none = vec![vec![[0; LANES]; numbers.openings]; numbers.users.len()];
        let mut even = none.clone();
        for (k, own) in even.iter_mut().enumerate() {
            let count = numbers.users[k].count_ones() as i32;
            for (t, row) in own.iter_mut().enumerate() {
                let cost = numbers.cost(k, t) * scale;
                numbers.paying(k).enumerate().for_each(|(at, q)| row[q] = cost / count + i32::from((at as i32) < cost % count));
            }
        }
        let own = |q: usize, mark: usize, t: usize| if q < numbers.parts && numbers.lasts(q, mark, t) { 0 } else { INF };
        let rows = |t: usize| (0..=t).map(|mark| std::array::from_fn(|q| own(q, mark, t))).collect::<Vec<Row>>();
        let reach: Vec<Vec<Row>> = (0..=numbers.openings).map(rows).collect();
        let first = reach.iter().map(|rows| rows.iter().position(|row| row.contains(&0)).unwrap_or(rows.len() - 1)).collect();
        Ascent { numbers, scale, best: even.clone(), now: even, direction: none, bound: -1, changed: [[false; LANES]; MARKS], reach, first }
    }

    /// What the parts cost at least, each by itself, and their changes; none where a part can't be kept.
    fn value(&mut self) -> Option<i64> {
        let n = self.numbers.openings;
        let mut least = [[INF; LANES]; MARKS + 1];
        least[0] = [0; LANES];
        for t in 0..=n {
            let mut row = [INF; LANES];
            for (from, reach) in least.iter().zip(&self.reach[t]).skip(self.first[t]) {
                (0..LANES).for_each(|q| row[q] = row[q].min(from[q] + reach[q]));
            }
            if t < n {
                (0..LANES).for_each(|q| row[q] += self.numbers.prices[t][q] * self.scale);
                self.now.iter().for_each(|own| (0..LANES).for_each(|q| row[q] += own[t][q]));
            }
            least[t + 1] = row.map(|own| own.min(INF));
        }
        self.changed = [[false; LANES]; MARKS];
        (0..self.numbers.parts).map(|q| self.trace(&least, q)).sum()
    }

    /// What a part costs at least, and its changes.
    fn trace(&mut self, least: &[Row; MARKS + 1], q: usize) -> Option<i64> {
        let mut t = self.numbers.openings;
        let cost = least[t + 1][q];
        if cost >= INF {
            return None;
        }
        let mut goal = cost;
        loop {
            let mut mark = t;
            while least[mark][q] != goal || self.reach[t][mark][q] != 0 {
                mark -= 1;
            }
            if mark == 0 {
                return Some(i64::from(cost));
            }
            t = mark - 1;
            self.changed[t][q] = true;
            goal -= self.numbers.prices[t][q] * self.scale + self.now.iter().map(|own| own[t][q]).sum::<i32>();
        }
    }

    /// One round: the value of the table, which is kept if it is the best, and a step towards the target.
    fn round(&mut self, target: i64, step: i64) -> Option<()> {
        let value = self.value()?;
        if value > self.bound {
            self.bound = value;
            self.best.clone_from(&self.now);
        }
        let norm = self.turn();
        if norm > 0 {
            self.go(step * (target - value).max(1) * 4096 / norm);
        }
        Some(())
    }

    /// Turns the direction towards the parts that take each thing, in 1/4096; the square of its length.
    fn turn(&mut self) -> i64 {
        let mut norm = 0;
        for (k, own) in self.direction.iter_mut().enumerate().filter(|(k, _)| self.numbers.users[*k].count_ones() > 1) {
            for (t, row) in own.iter_mut().enumerate().filter(|(t, _)| self.numbers.cost(k, *t) > 0) {
                let (mut sum, mut squares) = (0, 0);
                for q in self.numbers.paying(k) {
                    row[q] = (row[q] * KEPT + if self.changed[t][q] { 4096 * (16 - KEPT) } else { 0 }) / 16;
                    sum += i64::from(row[q]);
                    squares += i64::from(row[q]) * i64::from(row[q]);
                }
                norm += squares - sum * sum / i64::from(self.numbers.users[k].count_ones());
            }
        }
        norm >> 12
    }

    /// Goes so far along the direction, and takes what is then too much evenly from those that have some.
    fn go(&mut self, length: i64) {
        let numbers = self.numbers;
        for (k, own) in self.now.iter_mut().enumerate().filter(|(k, _)| numbers.users[*k].count_ones() > 1) {
            for (t, row) in own.iter_mut().enumerate().filter(|(t, _)| numbers.cost(k, *t) > 0) {
                let moves: Row = self.direction[k][t].map(|own| (length * i64::from(own) / (256 * 4096)).min(i64::from(INF) / 4) as i32);
                if numbers.paying(k).all(|q| moves[q] == 0) {
                    continue;
                }
                numbers.paying(k).for_each(|q| row[q] += moves[q]);
                let sum: i64 = numbers.paying(k).map(|q| i64::from(row[q])).sum();
                level(numbers, k, row, sum - i64::from(numbers.cost(k, t) * self.scale));
            }
        }
    }

    /// The best table in whole amounts, by running sums.
    fn whole(&self) -> Shares {
        let mut whole = self.best.clone();
        for (k, own) in whole.iter_mut().enumerate() {
            for row in own {
                let (mut sum, mut given) = (0, 0);
                for q in self.numbers.paying(k) {
                    sum += row[q];
                    row[q] = (sum + self.scale / 2) / self.scale - given;
                    given += row[q];
                }
            }
        }
        whole
    }
}

/// Takes so much evenly from the parts that bear some of a thing.
fn level(numbers: &Numbers, thing: usize, row: &mut Row, mut excess: i64) {
    while excess > 0 {
        let bearing = numbers.paying(thing).filter(|q| row[*q] > 0).count() as i64;
        let each = (excess + bearing - 1) / bearing;
        for q in numbers.paying(thing) {
            let taken = i64::from(row[q]).min(each).min(excess);
            row[q] -= taken as i32;
            excess -= taken;
        }
    }
}
