//! `count`: how long the walk of a job may become.

use crate::arguments::CountOrder;
use crate::calls;
use crate::failure::{status_of, Failure, Fault};
use crate::json::Value;
use crate::numbers::{grouped, seconds};
use crate::verdicts::headed;
use crate::{faults, files, standard_output};
use std::time::Instant;

/// Where the count stops: that many or more.
const CAP: u32 = 4_000_000_000;
/// As many nodes as are walked to see how fast they go: some hundredths of a second.
const SAMPLE: u64 = 2_000_000;
/// Fewer nodes than this say nothing of the speed; the walk itself is then over at once.
const ENOUGH: u64 = 10_000;
/// About how long a node takes, where a walk is too short to tell: ten nanoseconds.
const USUAL: f64 = 1e-8;

/// What was counted of a job.
struct Counted {
    name: String,
    result: u32,
    count: u32,
    no_plan: bool,
    seconds: f64,
}

/// Counts and says so on standard output.
pub fn run(order: &CountOrder) -> Result<u8, Failure> {
    let input = files::read(&order.job)?;
    let (reply, count) = calls::count(&input.bytes)?;
    if (reply.result, reply.text) == (12, 0) {
        let words = "a part has a holder, and the count is for jobs without holders".to_string();
        let message = format!("{}: {words} ({})\n", input.name, reply.result);
        let fault = Fault { file: input.name, result: reply.result, text: 0, line: 0, words, shown: String::new() };
        return Err(Failure { status: status_of(reply.result), message, fault: Some(fault) });
    }
    if reply.result != 0 {
        return Err(faults::refusal(&reply, &input, None));
    }
    let no_plan = count == 1 && calls::plan(&input.bytes, 0)?.result == 6;
    let seconds = node(&input.bytes, u64::from(count))? * f64::from(count);
    let counted = Counted { name: input.name, result: reply.result, count, no_plan, seconds };
    let text = if order.json {
        Value::object(headed("count", counted.json())).document()
    } else {
        format!("{}: {}\n", counted.name, counted.words())
    };
    standard_output::write(text.as_bytes())?;
    Ok(status_of(reply.result))
}

/// About how many seconds a node of this job's walk takes here.
fn node(job: &[u8], most: u64) -> Result<f64, Failure> {
    let began = Instant::now();
    let reply = calls::plan(job, SAMPLE.min(most))?;
    let walked = reply.value("nodes").unwrap_or(0);
    Ok(if walked < ENOUGH { USUAL } else { began.elapsed().as_secs_f64() / walked as f64 })
}

impl Counted {
    /// The count in words.
    fn words(&self) -> String {
        let nodes = grouped(u64::from(self.count));
        let time = seconds(self.seconds);
        if self.no_plan {
            return "no plan keeps the lives, so there is nothing to walk".to_string();
        }
        if self.count >= CAP {
            return format!("the walk may have {nodes} nodes or more, which take {time} here; the greatest walk number is {nodes}");
        }
        let plural = if self.count == 1 { " node, which takes" } else { " nodes, which take" };
        format!("the walk has at most {nodes}{plural} at most {time} here")
    }

    /// The same for programs.
    fn json(&self) -> Vec<(&'static str, Value)> {
        vec![
            ("job", Value::text(&self.name)),
            ("result", Value::Number(u64::from(self.result))),
            ("words", Value::text(self.words())),
            ("fault", Value::Null),
            ("count", Value::Number(u64::from(self.count))),
            ("or_more", Value::Bool(self.count >= CAP)),
            ("no_plan", Value::Bool(self.no_plan)),
            ("milliseconds", Value::Number((self.seconds * 1000.0).ceil() as u64)),
        ]
    }
}
