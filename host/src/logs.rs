//! Work logs, and the log of several.

use crate::Plan;

/// A work log: the step up to which it goes, and what was done, with its cost at the high ends of the prices.
#[derive(Debug, Clone, PartialEq, Eq)]
pub struct Log {
    pub step: u32,
    pub done: Plan,
}

impl Log {
    /// The log of a text that was accepted; none of any other.
    pub fn parse(text: &[u8]) -> Option<Log> {
        let at = text.iter().position(|byte| *byte == b'\n')? + 1;
        let step = std::str::from_utf8(&text[..at - 1]).ok()?.strip_prefix("step=")?.parse().ok()?;
        let done = Some(&text[at..]).filter(|lines| !lines.is_empty()).and_then(Plan::parse)?;
        Some(Log { step, done })
    }

    /// The log's text, as it is read to carry on.
    pub fn text(&self) -> String {
        format!("step={}\n{}", self.step, self.done.text())
    }

    /// The log of both, this one first: the next one's steps shifted by this one's, and the costs added. Where carrying on by one and then by the
    /// other is accepted, carrying on by this one is too, and gives the same job text. None where a number would be too large.
    pub fn joined(&self, next: &Log) -> Option<Log> {
        let mut done = Plan { cost: self.done.cost.checked_add(next.done.cost)?, stops: self.done.stops.clone() };
        for stop in &next.done.stops {
            let step = stop.step.checked_add(self.step)?;
            done.stops.push(crate::Stop { step, parts: stop.parts.clone() });
        }
        Some(Log { step: self.step.checked_add(next.step)?, done })
    }
}

#[cfg(test)]
mod tests {
    use super::*;

    #[test]
    fn logs_are_joined() {
        let log = |text: &str| Log::parse(text.replace(' ', "\n").as_bytes());
        let first = log("step=3 cost=15 stops=1 stop=2 count=1 part=1 ").expect("a log");
        let second = log("step=2 cost=22 stops=2 stop=1 count=2 part=1 part=2 stop=2 count=0 ").expect("a log");
        let both = "step=5 cost=37 stops=3 stop=2 count=1 part=1 stop=4 count=2 part=1 part=2 stop=5 count=0 ";
        assert_eq!(first.joined(&second), log(both));
        assert_eq!(log(both).expect("a log").text().replace('\n', " "), both);
        for text in ["", "step=3", "step=3 ", "step=x cost=0 stops=0 ", "cost=0 stops=0 ", "step=3 cost=0 stops=0 more=1 "] {
            assert_eq!(log(text), None, "{text}");
        }
        let large = Log { step: 1, done: Plan { cost: u32::MAX, stops: Vec::new() } };
        assert_eq!(large.joined(&second), None);
    }
}
