//! How a plan stands to the cheapest one, as far as bounded walks tell.

use crate::calls::{self, Reply};
use crate::failure::Failure;
use crate::json::Value;
use crate::numbers::{grouped, percent};

/// As far as lists, drawings and comparisons walk by themselves: a fraction of a second.
const BOUND: u64 = 10_000_000;

/// The plan that bounded walks find, the cheapest one where they end.
pub fn searched(job: &[u8]) -> Result<Reply, Failure> {
    calls::search(job, BOUND)
}

/// What is known of the cheapest plan of a job.
#[derive(Debug, Clone, Copy, PartialEq, Eq)]
pub enum Bounds {
    /// Its cost, proved.
    Cheapest(u64),
    /// No plan costs less than `floor`, and there is one that costs `best`, if any was found.
    Between { floor: u64, best: Option<u64> },
    /// No plan keeps the lives.
    NoPlan,
}

impl Bounds {
    /// What the planner's or the optimum's answer says.
    pub fn of_reply(reply: &Reply) -> Option<Bounds> {
        match reply.result {
            0 => reply.value("cost").map(Bounds::Cheapest),
            6 => Some(Bounds::NoPlan),
            7 => reply.value("floor").map(|floor| Bounds::Between { floor, best: reply.value("cost") }),
            _ => None,
        }
    }

    /// What bounded walks find for an accepted job.
    pub fn of_job(job: &[u8]) -> Result<Option<Bounds>, Failure> {
        Ok(Bounds::of_reply(&searched(job)?))
    }

    /// The floor, where the cheapest plan is not known: beside a cost that is proved least it would read as something still to be saved.
    pub fn floor(&self) -> Option<u64> {
        match self {
            Bounds::Between { floor, .. } => Some(*floor),
            _ => None,
        }
    }

    /// How a plan stands that keeps every life at this cost.
    pub fn words(&self, cost: u64) -> Option<String> {
        match *self {
            Bounds::Cheapest(least) if cost <= least => Some("the cheapest possible (proved)".to_string()),
            Bounds::Cheapest(least) => Some(format!("{} more than the cheapest", grouped(cost - least))),
            Bounds::Between { floor, best } => {
                let most = cost.saturating_sub(floor);
                let least = best.filter(|best| *best < cost).map_or(String::new(), |best| format!(", at least {}", grouped(cost - best)));
                Some(format!("at most {} {} could still be saved{least}", grouped(most), percent(most, cost)))
            }
            Bounds::NoPlan => None,
        }
    }

    /// The same for programs.
    pub fn json(&self) -> Value {
        let (cheapest, floor, best) = match *self {
            Bounds::Cheapest(least) => (Some(least), None, Some(least)),
            Bounds::Between { floor, best } => (None, Some(floor), best),
            Bounds::NoPlan => (None, None, None),
        };
        Value::object([("cheapest", Value::number(cheapest)), ("floor", Value::number(floor)), ("best", Value::number(best))])
    }
}

#[cfg(test)]
mod tests {
    use super::*;

    /// Each of the three sentences, and what a refused plan gets.
    #[test]
    fn sentences() {
        assert_eq!(Bounds::Cheapest(2505).words(2505).as_deref(), Some("the cheapest possible (proved)"));
        assert_eq!(Bounds::Cheapest(2505).words(3670).as_deref(), Some("1,165 more than the cheapest"));
        let between = Bounds::Between { floor: 1901, best: Some(2842) };
        assert_eq!(between.words(2842).as_deref(), Some("at most 941 (33 %) could still be saved"));
        assert_eq!(between.words(2852).as_deref(), Some("at most 951 (33 %) could still be saved, at least 10"));
        assert_eq!(Bounds::NoPlan.words(5), None);
    }
}
