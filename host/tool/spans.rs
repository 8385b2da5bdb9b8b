//! The cheapest plan with exactly so many stops, where raising every fee by one number does not find it: the openings are cut into spans, each with the
//! number of its stops, and each span's fees are raised by a number of its own. A span without stops is closed; of one that is all stops the fees are paid
//! beforehand, so that a stop that changes nothing costs nothing more. A further part, which costs next to nothing at a span's openings and more than
//! anything elsewhere, sees to it that the span has a stop at all. What the library then finds, less what was raised for so many stops and less the further
//! parts, no plan with these numbers of stops costs less than, whatever was raised. A span whose stops are too many or too few is cut in two.

use crate::fronts::{bound_of, Halt, Search, MOST};
use crate::texts::{self, Job, Part, Plan, Stop};

/// No plan keeps the lives.
const NO_PLAN: u32 = 6;
/// How often the fees of the same spans are raised anew.
const ROUNDS: usize = 6;
/// The most parts of a job, and the longest life.
const MOST_PARTS: usize = 16;
const LONGEST: u64 = 1000;

/// Openings from one place to before another, how many of them are stopped at, and by how much their fees are raised.
#[derive(Debug, Clone, Copy)]
struct Span {
    from: usize,
    to: usize,
    stops: u64,
    raised: i64,
}

impl Span {
    fn openings(&self) -> u64 {
        (self.to - self.from) as u64
    }

    /// Whether its stops are not yet known one by one.
    fn is_open(&self) -> bool {
        self.stops > 0 && self.stops < self.openings()
    }

    fn has(&self, at: usize) -> bool {
        (self.from..self.to).contains(&at)
    }

    /// Its two halves, with its stops shared out in each way.
    fn halves(self, middle: usize) -> impl Iterator<Item = [Span; 2]> {
        let (first, second) = (Span { to: middle, ..self }, Span { from: middle, ..self });
        let fewest = self.stops.saturating_sub(second.openings());
        (fewest..=self.stops.min(first.openings()))
            .map(move |stops| [Span { stops, ..first }, Span { stops: self.stops - stops, ..second }])
    }
}

/// All openings in spans, and what no plan with such stops costs less than.
struct Node {
    spans: Vec<Span>,
    least: u64,
}

/// What became of a node.
enum Weighed {
    /// It has no plan that is cheaper than the one known.
    Settled,
    /// Its halves have to be looked at.
    Halved(Vec<Node>),
    /// Its stops are known one by one, and the walk was cut.
    Stuck(u64),
}

/// Proves what no plan with so many stops costs less than, and finds cheaper ones, as far as so many calls go.
pub fn settle(search: &mut Search, stops: u64, calls: u64) -> Result<(), Halt> {
    let whole = Span { from: 0, to: search.job.openings.len(), stops, raised: search.best_raise(stops) };
    let cuts = cuts(search.job);
    let mut open = vec![Node { spans: vec![whole], least: search.least(stops) }];
    let (last, mut stuck) = (search.calls + calls, u64::MAX);
    loop {
        search.pad(stops);
        let best = search.cost(stops).unwrap_or(u64::MAX);
        open.retain(|node| node.least < best);
        let next = (0..open.len()).min_by_key(|at| (open[*at].least, u64::MAX - open[*at].spans.len() as u64));
        let least = next.map_or(best, |at| open[at].least).min(stuck);
        if least < u64::MAX {
            search.prove(stops, least);
        }
        let Some(at) = next.filter(|_| search.calls < last) else { return Ok(()) };
        match weigh(search, open.swap_remove(at), stops, &cuts)? {
            Weighed::Settled => {}
            Weighed::Halved(nodes) => open.extend(nodes),
            Weighed::Stuck(least) => stuck = stuck.min(least),
        }
    }
}

/// Raises the fees of a node's spans as long as that proves more.
fn weigh(search: &mut Search, mut node: Node, stops: u64, cuts: &[usize]) -> Result<Weighed, Halt> {
    node.raise_all(search);
    let mut best = (i64::MIN, node.spans.clone());
    let mut wrong = vec![0; node.spans.len()];
    for _ in 0..ROUNDS {
        let reply = search.ask_by_spans(&node.job(search))?;
        if reply.result == NO_PLAN {
            return Ok(Weighed::Settled);
        }
        let least = node.bound(search, bound_of(&reply).unwrap_or(0));
        node.least = node.least.max(search.coarse(least));
        let plan = reply.plan_text().map(|text| without_further(search.job, texts::plan(text)));
        wrong = node.wrong(search.job, plan.as_ref());
        if let Some(plan) = plan {
            search.keep(Some(node.with_all_stops(search.job, &plan)));
            search.keep(Some(plan));
        }
        if search.cost(stops).is_some_and(|cost| cost <= node.least) {
            return Ok(Weighed::Settled);
        }
        if least > best.0 {
            best = (least, node.spans.clone());
        }
        let aim = search.cost(stops).map_or(least + least / 50, |cost| (cost * search.scale) as i64);
        if !node.raise(&wrong, aim - least, search.room) {
            break;
        }
    }
    node.spans = best.1;
    Ok(node.halved(&wrong, cuts))
}

/// Where spans are cut best: behind the last openings at which the shortest life lets the line stop, so that most of the spans have a stop or two.
fn cuts(job: &Job) -> Vec<usize> {
    let shortest = |of: &dyn Fn(&Part) -> u64| job.parts.iter().map(of).min().unwrap_or(LONGEST);
    let (mut cuts, mut until, mut before) = (Vec::new(), shortest(&|part| part.left), 0);
    while let Some(at) = (before..job.openings.len()).rev().find(|at| job.running(job.openings[*at].step) <= until) {
        until = job.running(job.openings[at].step) + shortest(&|part| part.life).max(1);
        before = at + 1;
        cuts.push(before);
    }
    cuts
}

impl Node {
    /// The span of an opening.
    fn span(&self, at: usize) -> Option<&Span> {
        self.spans.iter().find(|span| span.has(at))
    }

    /// The open spans for which there are further parts, as far as a job may have so many: the longest ones.
    fn held(&self, job: &Job) -> Vec<Span> {
        let mut open: Vec<Span> = self.spans.iter().copied().filter(Span::is_open).collect();
        open.sort_by_key(|span| u64::MAX - span.openings());
        open.truncate(MOST_PARTS.saturating_sub(job.parts.len()));
        open
    }

    /// The job that is asked about.
    fn job(&self, search: &Search) -> Job {
        let raised = |at: usize| self.span(at).filter(|span| span.is_open()).map(|span| span.raised);
        let mut job = search.finer(raised);
        let further: Vec<Part> = self.held(search.job).iter().map(|span| further(&job, span)).collect();
        job.parts.extend(further);
        let closed = |at: usize| self.span(at).is_some_and(|span| span.stops == 0);
        let steps: Vec<u64> = (0..job.openings.len()).filter(|at| !closed(*at)).map(|at| job.openings[at].step).collect();
        job.only_open(|step| steps.contains(&step))
    }

    /// What no plan with such stops costs less than, in finer amounts: without what was raised and the further parts, and with the fees that were paid
    /// beforehand.
    fn bound(&self, search: &Search, least: u64) -> i64 {
        let fees = |span: &Span| search.job.openings[span.from..span.to].iter().map(|opening| opening.fee * search.scale).sum::<u64>();
        let own = |span: &Span| match span.is_open() {
            true => -(span.raised * span.stops as i64),
            false if span.stops > 0 => fees(span) as i64,
            false => 0,
        };
        least as i64 + self.spans.iter().map(own).sum::<i64>() - self.held(search.job).len() as i64
    }

    /// Where each open span has one stop and a further part sees to it, all fees are raised so high that no plan has any stop more: one call is enough.
    fn raise_all(&mut self, search: &Search) {
        let open = self.spans.iter().filter(|span| span.is_open());
        if open.clone().all(|span| span.stops == 1) && open.count() == self.held(search.job).len() {
            self.spans.iter_mut().filter(|span| span.is_open()).for_each(|span| span.raised = search.room.1 / 2);
        }
    }

    /// How many stops too many a plan has in each open span; nothing of a plan that is not known.
    fn wrong(&self, job: &Job, plan: Option<&Plan>) -> Vec<i64> {
        let stops = |span: &Span| {
            let own = |plan: &Plan| {
                let steps = job.openings[span.from..span.to].iter().map(|opening| opening.step);
                steps.filter(|step| plan.stops.iter().any(|stop| stop.step == *step)).count() as i64
            };
            plan.filter(|_| span.is_open()).map_or(0, |plan| own(plan) - span.stops as i64)
        };
        self.spans.iter().map(stops).collect()
    }

    /// A plan with all stops of the spans that are all stops.
    fn with_all_stops(&self, job: &Job, plan: &Plan) -> Plan {
        let mut plan = plan.clone();
        for span in self.spans.iter().filter(|span| span.stops == span.openings()) {
            for opening in &job.openings[span.from..span.to] {
                if plan.stops.iter().all(|stop| stop.step != opening.step) {
                    plan.stops.push(Stop { step: opening.step, parts: Vec::new() });
                }
            }
        }
        plan.stops.sort_by_key(|stop| stop.step);
        plan
    }

    /// Raises the fees of spans with too many stops and lowers those of spans with too few, by as much as would close the gap if nothing else changed;
    /// false where none can be.
    fn raise(&mut self, wrong: &[i64], gap: i64, room: (i64, i64)) -> bool {
        let all: i64 = wrong.iter().map(|wrong| wrong * wrong).sum();
        if all == 0 {
            return false;
        }
        let mut moved = false;
        for (span, wrong) in self.spans.iter_mut().zip(wrong) {
            let by = (gap * wrong / all).abs().max(1) * wrong.signum();
            let raised = (span.raised + by).clamp(room.0, room.1);
            moved |= raised != span.raised;
            span.raised = raised;
        }
        moved
    }

    /// The node with one of its spans cut in two, in each way in which the stops can be shared out: one with several stops, of those one whose stops are
    /// wrong, and of those the longest.
    fn halved(self, wrong: &[i64], cuts: &[usize]) -> Weighed {
        let open = (0..self.spans.len()).filter(|at| self.spans[*at].is_open());
        let by = |at: &usize| (self.spans[*at].stops > 1, wrong[*at] != 0, self.spans[*at].openings());
        let Some(at) = open.max_by_key(by) else { return Weighed::Stuck(self.least) };
        let Span { from, to, .. } = self.spans[at];
        let middle = from.midpoint(to);
        let inside = cuts.iter().copied().filter(|cut| (from + 1..to).contains(cut));
        let middle = inside.min_by_key(|cut| cut.abs_diff(middle)).unwrap_or(middle);
        let node = |halves: [Span; 2]| {
            let mut spans = self.spans.clone();
            spans.splice(at..=at, halves);
            Node { spans, least: self.least }
        };
        Weighed::Halved(self.spans[at].halves(middle).map(node).collect())
    }
}

/// A part that costs next to nothing at a span's openings and more than anything elsewhere, and has to be changed by the last of them, once.
fn further(job: &Job, span: &Span) -> Part {
    let last = job.openings[span.to - 1].step;
    let prices: Vec<u64> = (0..job.openings.len()).map(|at| if span.has(at) { 1 } else { MOST }).collect();
    Part { life: LONGEST, left: job.running(last), lows: prices.clone(), prices, ..Part::default() }
}

/// A plan without further parts.
fn without_further(job: &Job, mut plan: Plan) -> Plan {
    plan.stops.iter_mut().for_each(|stop| stop.parts.retain(|part| *part <= job.parts.len() as u64));
    plan
}
