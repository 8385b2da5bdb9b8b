//! Plans as the calls hand them over, parsed: no caller has to read the answer's lines.

use crate::Answer;

/// A stop of a plan: its step, and the parts changed at it, counted from 1.
#[derive(Debug, Clone, PartialEq, Eq)]
pub struct Stop {
    pub step: u32,
    pub parts: Vec<u32>,
}

/// A plan with its cost.
#[derive(Debug, Clone, PartialEq, Eq)]
pub struct Plan {
    pub cost: u32,
    pub stops: Vec<Stop>,
}

impl Plan {
    /// The plan of a text that the planner wrote or the judge accepted; none of any other.
    pub fn parse(text: &[u8]) -> Option<Plan> {
        if text.is_empty() {
            return Some(Plan { cost: 0, stops: Vec::new() });
        }
        let mut lines = std::str::from_utf8(text).ok()?.strip_suffix('\n')?.split('\n');
        let mut value = |key: &str| -> Option<u32> { lines.next()?.strip_prefix(key)?.strip_prefix('=')?.parse().ok() };
        let mut plan = Plan { cost: value("cost")?, stops: Vec::new() };
        for _ in 0..value("stops")? {
            let (step, count) = (value("stop")?, value("count")?);
            let parts = (0..count).map(|_| value("part")).collect::<Option<Vec<u32>>>()?;
            plan.stops.push(Stop { step, parts });
        }
        lines.next().is_none().then_some(plan)
    }

    /// The plan's text, as the judge reads it.
    pub fn text(&self) -> String {
        let stop = |stop: &Stop| {
            let parts: String = stop.parts.iter().map(|part| format!("part={part}\n")).collect();
            format!("stop={}\ncount={}\n{parts}", stop.step, stop.parts.len())
        };
        format!("cost={}\nstops={}\n{}", self.cost, self.stops.len(), self.stops.iter().map(stop).collect::<String>())
    }
}

/// The planner's answer with what its lines say.
#[derive(Debug, Clone, PartialEq, Eq)]
pub struct Planned<'t> {
    pub answer: Answer<'t>,
    /// The nodes walked, and the cost that no plan is below: with results 0 and 7.
    pub nodes: Option<u32>,
    pub floor: Option<u32>,
    /// What the plan costs at the low ends of all prices, where the job has bands; `cost` is at the high ends.
    pub cost_low: Option<u32>,
    /// The cheapest plan with result 0, the best so far with 7, if there is one.
    pub plan: Option<Plan>,
}

impl<'t> Planned<'t> {
    /// An answer with its lines.
    pub fn of(answer: Answer<'t>, lines: &[u8]) -> Planned<'t> {
        let text = std::str::from_utf8(lines).unwrap_or("");
        let value = |key: &str| text.lines().find_map(|line| line.strip_prefix(key)?.strip_prefix('=')?.parse().ok());
        let plan = text.find("cost=").filter(|_| matches!(answer.result, 0 | 7)).and_then(|at| Plan::parse(&lines[at..]));
        Planned { answer, nodes: value("nodes"), floor: value("floor"), cost_low: value("costlow"), plan }
    }
}
