//! What the hall planner answers, parsed.

use crate::{Answer, Plan};

/// The hall planner's answer with what its lines say.
#[derive(Debug, Clone, PartialEq, Eq)]
pub struct PlannedHall<'t> {
    pub answer: Answer<'t>,
    /// The nodes walked, and the cost that no plans of the lines are below: with results 0 and 7.
    pub nodes: Option<u32>,
    pub floor: Option<u32>,
    /// What the plans cost together, calls included, and a plan for each line: with 0 the cheapest, with 7 the best so far, if there are such.
    pub cost: Option<u32>,
    pub plans: Vec<Plan>,
}

impl<'t> PlannedHall<'t> {
    /// An answer with its lines.
    pub fn of(answer: Answer<'t>, lines: &[u8]) -> PlannedHall<'t> {
        let text = std::str::from_utf8(lines).unwrap_or("");
        let value = |key: &str| text.lines().find_map(|line| line.strip_prefix(key)?.strip_prefix('=')?.parse().ok());
        let planned = matches!(answer.result, 0 | 7);
        // The first cost is the hall's; each further one begins a line's plan.
        let starts: Vec<usize> = text.match_indices("\ncost=").map(|(at, _)| at + 1).skip(1).collect();
        let ends = starts.iter().skip(1).copied().chain([text.len()]);
        let plans = starts.iter().zip(ends).filter(|_| planned).filter_map(|(from, to)| Plan::parse(&text.as_bytes()[*from..to]));
        PlannedHall { nodes: value("nodes"), floor: value("floor"), cost: value("cost"), plans: plans.collect(), answer }
    }
}

#[cfg(test)]
mod tests {
    use super::*;

    /// An answer with these lines, separated by blanks.
    fn of(result: u32, lines: &str) -> PlannedHall<'static> {
        let lines = lines.replace(' ', "\n");
        let answer = Answer { result, text: 0, line: 0, length: lines.len(), fault_start: 0, fault: &[] };
        PlannedHall::of(answer, lines.as_bytes())
    }

    /// The hall's cost is told from its lines', and nothing is read of a refusal.
    #[test]
    fn answers_are_parsed() {
        let planned = of(0, "result=0 nodes=9 floor=5 cost=27 cost=12 stops=1 stop=2 count=1 part=1 cost=5 stops=0 ");
        assert_eq!((planned.nodes, planned.floor, planned.cost), (Some(9), Some(5), Some(27)));
        assert_eq!(planned.plans.iter().map(|plan| (plan.cost, plan.stops.len())).collect::<Vec<_>>(), [(12, 1), (5, 0)]);
        let planned = of(7, "result=7 nodes=9 floor=5 ");
        assert_eq!((planned.floor, planned.cost, planned.plans.len()), (Some(5), None, 0));
        let planned = of(14, "result=14 text=1 line=8 ");
        assert_eq!((planned.nodes, planned.cost, planned.plans.len()), (None, None, 0));
    }
}
