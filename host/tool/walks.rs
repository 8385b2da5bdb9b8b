//! The search for the cheapest plan of a job, or for the cheapest plans of a hall, made with growing walk numbers: each finished walk leaves the best so
//! far, which is shown and, if the search is interrupted, not lost. By the library's promise the last answer is that of calls with the last number.

use crate::calls::{self, Reply, CUT_SHORT};
use crate::failure::Failure;
use crate::numbers::{grouped, percent, seconds};
use crate::watch::{Ended, Watch};
use std::sync::Arc;
use std::time::{Duration, Instant};

/// How many times as long each walk is as the one before.
const GROWTH: u64 = 4;
/// No counted walk but the last is shorter than this: less than a tenth of a second. Where there are walks by shares too, which are several for each number,
/// a quarter of it.
const SHORTEST: u64 = 4_000_000;
/// As much of the time that is left as a last walk is to take.
const CAREFUL: f64 = 0.9;

/// Which calls are made for each walk number.
#[derive(Debug, Clone, Copy, PartialEq, Eq)]
pub enum Search {
    /// The optimum's, and where that is cut short the planner's own walk.
    Optimum,
    /// The planner's own walk alone, whose nodes are counted.
    Counted,
    /// The hall planner's.
    Hall,
}

/// What is asked for: the calls and their walk number, whether to show no progress, to take the whole number at once, and to end after some time.
pub struct Order {
    pub walk: u64,
    pub search: Search,
    pub quiet: bool,
    pub once: bool,
    pub limit: Option<Duration>,
}

/// A call of the library with a walk number.
type Call = fn(&[u8], u64) -> Reply;

impl Search {
    /// The calls with each walk number, each where the one before was cut short.
    fn calls(self) -> &'static [Call] {
        match self {
            Search::Optimum => &[calls::optimum_here, calls::plan_here],
            Search::Counted => &[calls::plan_here],
            Search::Hall => &[calls::hall_here],
        }
    }

    /// No walk but the last is shorter than this.
    fn shortest(self) -> u64 {
        match self {
            Search::Optimum => SHORTEST / 4,
            _ => SHORTEST,
        }
    }
}

/// What the finished walks say, if any was finished; the last walk number whose walks were all finished, 0 without one, and how long these took alone;
/// when and why there was no other.
pub struct Walked {
    pub reply: Option<Reply>,
    pub walk: u64,
    pub took: Duration,
    pub all: Duration,
    pub ended: Ended,
}

impl Walked {
    /// The nodes of a counted walk, where there is one.
    pub fn nodes(&self) -> Option<u64> {
        self.reply.as_ref()?.value("nodes")
    }

    /// Why the search was given up with this walk number.
    pub fn why_short(&self, most: u64) -> String {
        self.ended.words(self.all).unwrap_or_else(|| format!("the walk is longer than its walk number, {}", grouped(most)))
    }

    /// The seconds that walks of so many nodes take at the speed of the last ones, where these were long enough to tell: before walks by shares the shares
    /// are found.
    pub fn seconds_of(&self, nodes: u64) -> Option<f64> {
        let counted = self.nodes().filter(|walked| *walked >= 1000);
        let walked = counted.or(Some(self.walk).filter(|walk| *walk >= 500_000 && self.nodes().is_none()))?;
        Some(self.took.as_secs_f64() * nodes as f64 / walked as f64)
    }

    /// What the walks said last.
    fn is_cut_short(&self) -> bool {
        self.reply.as_ref().is_some_and(|reply| reply.result == CUT_SHORT)
    }
}

/// Plans an accepted job or hall.
pub fn plan(text: &[u8], order: &Order) -> Result<Walked, Failure> {
    let text: Arc<[u8]> = text.into();
    let mut watch = Watch::new(order.quiet, order.limit);
    let mut walked = Walked { reply: None, walk: 0, took: Duration::ZERO, all: Duration::ZERO, ended: Ended::ByItself };
    let mut walk = first(order);
    let ended = loop {
        let began = Instant::now();
        if let Some(ended) = walk_once(&text, (walk, order), &mut watch, &mut walked)? {
            break ended;
        }
        walked = Walked { walk, took: began.elapsed(), ..walked };
        if !walked.is_cut_short() || walk >= order.walk {
            break Ended::ByItself;
        }
        match next(walk, order, &watch, &walked) {
            Some(longer) => walk = longer,
            None => break Ended::OutOfTime,
        }
    };
    Ok(Walked { ended, all: watch.elapsed(), ..walked })
}

/// The walks with one walk number; why they were not waited for, if so.
fn walk_once(text: &Arc<[u8]>, (walk, order): (u64, &Order), watch: &mut Watch, walked: &mut Walked) -> Result<Option<Ended>, Failure> {
    for call in order.search.calls() {
        let own = Arc::clone(text);
        let reply = match watch.call(move || call(&own, walk), |elapsed| line(elapsed, walked, order.walk))? {
            Ok(reply) => reply,
            Err(ended) => return Ok(Some(ended)),
        };
        walked.reply = Some(if order.search == Search::Optimum { reply.and(walked.reply.as_ref()) } else { reply });
        if !walked.is_cut_short() {
            break;
        }
    }
    Ok(None)
}

/// The first walk number: the given one divided by four as often as it stays long, so that all walks together have at most four thirds of its nodes.
fn first(order: &Order) -> u64 {
    let mut walk = order.walk;
    while !order.once && walk / GROWTH >= order.search.shortest() {
        walk = walk.div_ceil(GROWTH);
    }
    walk
}

/// The next walk number: four times as large, or as large as the time that is left allows; none where that would be hardly any longer.
fn next(walk: u64, order: &Order, watch: &Watch, walked: &Walked) -> Option<u64> {
    let longer = walk.saturating_mul(GROWTH).min(order.walk);
    let Some(left) = watch.left() else { return Some(longer) };
    let rate = walk as f64 / walked.took.as_secs_f64().max(1e-6);
    let possible = (rate * left.as_secs_f64() * CAREFUL) as u64;
    Some(longer.min(possible)).filter(|next| *next > walk + walk / 8 || *next == order.walk)
}

/// The line shown, of less than 80 columns for most walks: the nodes and the best cost are those of the last finished walks.
fn line(elapsed: u64, walked: &Walked, most: u64) -> String {
    let number = |key| walked.reply.as_ref().and_then(|reply| reply.value(key));
    let Some(floor) = number("floor") else {
        return format!("{elapsed} s");
    };
    let nodes = match (walked.nodes(), walked.walk) {
        (Some(nodes), _) => format!(", {} nodes", grouped(nodes)),
        (None, 0) => String::new(),
        (None, walk) => format!(", walks of {} nodes", grouped(walk)),
    };
    let best = match number("cost") {
        Some(best) => {
            format!("best {}, {} {} could be saved", grouped(best), grouped(best - floor.min(best)), percent(best - floor.min(best), best))
        }
        None => format!("no plan yet, none costs less than {}", grouped(floor)),
    };
    let left = walked.seconds_of(most).map_or(String::new(), |whole| format!("; {} at most", seconds(whole)));
    format!("{elapsed} s{nodes}: {best}{left}")
}

#[cfg(test)]
mod tests {
    use super::*;

    fn order(walk: u64, once: bool) -> Order {
        Order { walk, search: Search::Counted, quiet: true, once, limit: None }
    }

    /// All walks together are at most four thirds of the last, and a rounding; the last has the number asked for.
    #[test]
    fn walks_grow_to_the_number_asked_for() {
        for most in [0, 1, 3_999_999, 15_999_999, 16_000_000, 16_000_001, 5_000_000, 200_000_000, 4_000_000_000] {
            let asked = order(most, false);
            let watch = Watch::new(true, None);
            let walked = Walked { reply: None, walk: 0, took: Duration::ZERO, all: Duration::ZERO, ended: Ended::ByItself };
            let mut all = vec![first(&asked)];
            while *all.last().expect("a walk") < most {
                all.push(next(*all.last().expect("a walk"), &asked, &watch, &walked).expect("a longer walk"));
            }
            assert_eq!(all.last(), Some(&most));
            assert!(all.iter().sum::<u64>() * 3 <= most * 4 + 12 * all.len() as u64, "{all:?}");
            assert!(all.len() == 1 || all[0] >= SHORTEST, "{all:?}");
            assert_eq!(first(&order(most, true)), most);
        }
    }
}
