//! "One crew call for a whole hall."

use super::calls::{Reply, LEAST_OUTPUT};
use super::lines::{Fault, Lines};
use super::model::Job;
use super::texts::{plan_lines, read_job_lines};
use super::walk::Decision;

/// "It has at most 65,536 bytes, else 1."
const MAX_HALL: usize = 65_536;

/// "A plant with up to four lines pays the crew's journey once for any step at which some line stops."
#[derive(Debug, Clone, PartialEq, Eq)]
pub struct Hall {
    pub call: u64,
    /// The lines' jobs.
    pub jobs: Vec<Job>,
}

/// "The hall planner's text (text 1, its lines counted through) is `machines` 1..4, `call` 0..1000000, then the job texts whole."
pub fn read_hall(text: &[u8]) -> Result<Hall, Fault> {
    let mut lines = Lines::new(text, MAX_HALL)?;
    let machines = lines.value("machines", 1, 4)?;
    let call = lines.value("call", 0, 1_000_000)?;
    let mut hall = Hall { call, jobs: Vec::new() };
    for _ in 0..machines {
        let (job, first) = read_job_lines(&mut lines)?;
        // "14 for a job whose horizon or idles differ from the first job's, or which takes the hall past 16 parts or 64 openings; on that
        // job's first line, after the job's own faults and before any on the lines behind the job."
        hall.jobs.push(job);
        if !hall.fits() {
            return Err(Fault { result: 14, ..first });
        }
    }
    lines.end()?;
    Ok(hall)
}

/// "A point": for each line what it has decided; how many calls there are; how many steps are decided, and after a call at the next step how
/// many of the lines open there have had their turn.
#[derive(Debug, Clone)]
pub struct HallPoint {
    pub lines: Vec<Vec<Decision>>,
    pub calls: u64,
    steps: usize,
    turn: Option<usize>,
}

impl Hall {
    fn fits(&self) -> bool {
        let first = &self.jobs[0];
        let alike = |job: &Job| (job.horizon, &job.idles) == (first.horizon, &first.idles);
        let parts: usize = self.jobs.iter().map(|job| job.parts.len()).sum();
        let openings: usize = self.jobs.iter().map(|job| job.openings.len()).sum();
        self.jobs.iter().all(alike) && parts <= 16 && openings <= 64
    }

    /// "The walk goes by step; at each step with an opening it decides".
    fn steps(&self) -> Vec<i64> {
        let steps: std::collections::BTreeSet<i64> =
            self.jobs.iter().flat_map(|job| job.openings.iter().map(|opening| opening.step)).collect();
        steps.into_iter().collect()
    }

    /// The lines that are open at a step.
    fn open(&self, step: i64) -> Vec<usize> {
        (0..self.jobs.len()).filter(|line| self.jobs[*line].openings.iter().any(|opening| opening.step == step)).collect()
    }

    /// The point with nothing decided.
    pub fn first_point(&self) -> HallPoint {
        HallPoint { lines: vec![Vec::new(); self.jobs.len()], calls: 0, steps: 0, turn: None }
    }

    /// "An estimate is the sum of the lines' estimates and the calls decided."
    pub fn estimate(&self, point: &HallPoint) -> Option<u64> {
        let lines = self.jobs.iter().zip(&point.lines).map(|(job, own)| job.estimate(own)).sum::<Option<u64>>()?;
        Some(lines + point.calls * self.call)
    }

    /// The points below this one, in the walk's order: "it decides call or no call, no first, then after a call each line open there in turn
    /// as before". None below a full one.
    fn below(&self, point: &HallPoint) -> Vec<HallPoint> {
        let Some(step) = self.steps().get(point.steps).copied() else { return Vec::new() };
        let open = self.open(step);
        match point.turn {
            // No call says no for every line open there.
            None => {
                let mut without = HallPoint { steps: point.steps + 1, ..point.clone() };
                open.iter().for_each(|line| without.lines[*line].push(Decision::No));
                vec![without, HallPoint { calls: point.calls + 1, turn: Some(0), ..point.clone() }]
            }
            Some(turn) => {
                let line = open[turn];
                let decided = |own: Vec<Decision>| self.after_turn(point, &open, turn, own);
                self.jobs[line].below(&point.lines[line]).into_iter().map(decided).collect()
            }
        }
    }

    /// The point after a decision of the line whose turn it is: the next line's turn comes when this one has decided its opening whole, and
    /// the next step when all have.
    fn after_turn(&self, point: &HallPoint, open: &[usize], turn: usize, own: Vec<Decision>) -> HallPoint {
        let line = open[turn];
        let whole = match own.last() {
            Some(Decision::Stop(removed)) => removed.len() == self.jobs[line].holding().len(),
            _ => true,
        };
        let mut next = point.clone();
        next.lines[line] = own;
        next.turn = match whole {
            false => Some(turn),
            true => Some(turn + 1).filter(|turn| *turn < open.len()),
        };
        next.steps += usize::from(next.turn.is_none());
        next
    }
}

/// The walk so far: its points, whether the whole walk has more than the limit, and the best full point with its cost.
#[derive(Debug, Default)]
pub struct HallWalk {
    limit: u64,
    pub nodes: u64,
    pub more: bool,
    pub best: Option<(u64, HallPoint)>,
}

impl HallWalk {
    /// The walk of a hall with at most so many points.
    pub fn of(hall: &Hall, limit: u64) -> HallWalk {
        let mut walk = HallWalk { limit, ..HallWalk::default() };
        walk.reach(hall, &hall.first_point());
        walk
    }

    /// "Each point reached counts one. It is dropped if its estimate is missing or is not less than the best full plan so far. A full point
    /// not dropped becomes the best."
    fn reach(&mut self, hall: &Hall, point: &HallPoint) {
        if self.nodes == self.limit {
            self.more = true;
            return;
        }
        self.nodes += 1;
        let Some(found) = hall.estimate(point) else { return };
        if self.best.as_ref().is_some_and(|(best, _)| found >= *best) {
            return;
        }
        let below = hall.below(point);
        if below.is_empty() {
            self.best = Some((found, point.clone()));
        }
        below.iter().for_each(|next| self.reach(hall, next));
    }
}

/// The call, with the walk number of the host and an output of this length. "The result is 6 if some line has no plan. Otherwise 0, or 7
/// exactly if the whole walk has more points than that number, prints `result`, `nodes`, `floor` and, if there is a plan, `cost` with calls
/// included and then each line's plan lines in order, without `costlow`."
pub fn hall(text: &[u8], walk: u64, output: usize) -> Reply {
    if output < LEAST_OUTPUT {
        return Reply::short_output();
    }
    let hall = match read_hall(text) {
        Ok(hall) => hall,
        Err(fault) => return Reply::fault(1, fault),
    };
    let Some(floor) = hall.estimate(&hall.first_point()) else {
        return Reply::new(6, "");
    };
    let walk = HallWalk::of(&hall, walk.min(4_000_000_000));
    let lines = walk.best.map_or(String::new(), |(cost, point)| {
        let plans = hall.jobs.iter().zip(&point.lines);
        let plans = plans.map(|(job, own)| plan_lines(job, &job.plan_at(own).expect("a full point that is not dropped has a plan")));
        format!("cost={cost}\n{}", plans.collect::<String>())
    });
    Reply::new(if walk.more { 7 } else { 0 }, &format!("nodes={}\nfloor={floor}\n{lines}", walk.nodes))
}
