//! What the tests share: vectors, random inputs, lent buffers with canaries.
#![allow(dead_code)]

pub mod damage;
pub mod forms;
pub mod halls;
pub mod holder_cases;
pub mod idle_cases;
pub mod inputs;
pub mod jobs;
pub mod json;
pub mod latest_cases;
#[cfg(feature = "library")]
pub mod lent;
pub mod logs;
pub mod paper;
pub mod rng;
#[cfg(feature = "library")]
pub mod tool;
pub mod vectors;
pub mod xml;

use std::thread;

/// Stack for a test that calls the library or walks deep: more than a call needs.
const STACK: usize = 32 << 20;

/// Runs a test on a thread with enough stack (a test's own thread has 2 MB).
pub fn with_stack(test: impl FnOnce() + Send + 'static) {
    let thread = thread::Builder::new().stack_size(STACK).spawn(test).expect("a thread starts");
    if let Err(panic) = thread.join() {
        std::panic::resume_unwind(panic);
    }
}

/// A number from the environment, such as JUZVAROLA_CASES=1000000, or the default.
pub fn setting(name: &str, default: u64) -> u64 {
    std::env::var(name).map_or(default, |value| value.parse().unwrap_or_else(|_| panic!("{name} is no number: {value}")))
}

/// A call, as the tests make it: the planner where there is no plan text.
#[derive(Clone)]
pub struct Call {
    pub job: Vec<u8>,
    pub plan: Option<Vec<u8>>,
    /// The planner's walk number.
    pub walk: u64,
    pub output: usize,
}

/// The line with this number (from 1), cut out by splitting the text; a missing one is empty.
pub fn line_of(text: &[u8], number: u32) -> &[u8] {
    text.split(|byte| *byte == 10).nth(number as usize - 1).unwrap_or_default()
}

/// The number on the walk line of a job text, which calls of before were made with; the largest where there is none.
pub fn walk_of(job: &[u8]) -> u64 {
    let lines = job.split(|byte| *byte == b'\n');
    let number = |line: &[u8]| std::str::from_utf8(line.strip_prefix(b"walk=")?).ok()?.parse().ok();
    lines.filter_map(number).next().unwrap_or(juzvarola_host::MOST_WALK)
}

impl std::fmt::Debug for Call {
    fn fmt(&self, f: &mut std::fmt::Formatter<'_>) -> std::fmt::Result {
        writeln!(f, "{} with an output of {} bytes", if self.plan.is_some() { "judge" } else { "plan" }, self.output)?;
        writeln!(f, "walk number {}", self.walk)?;
        writeln!(f, "--- job ({} bytes)\n{}", self.job.len(), self.job.escape_ascii().to_string().replace("\\n", "\n"))?;
        let plan = self.plan.as_deref().unwrap_or_default();
        writeln!(f, "--- plan ({} bytes)\n{}", plan.len(), plan.escape_ascii().to_string().replace("\\n", "\n"))
    }
}

impl Call {
    /// Whether the plan states a cost that only removals make possible.
    pub fn is_costly(&self) -> bool {
        let plan = self.plan.as_deref().map(String::from_utf8_lossy);
        let cost = plan.as_deref().and_then(|plan| plan.lines().next()?.strip_prefix("cost=")?.parse::<u64>().ok());
        cost.is_some_and(|cost| cost > 2_000_000_000)
    }

    /// Whether removals and holders may move the answer.
    pub fn is_of_holders(&self) -> bool {
        self.is_costly() || String::from_utf8_lossy(&self.job).lines().any(|line| line.starts_with("removal="))
    }

    /// The reference's reply.
    pub fn expected(&self) -> juzvarola_checks::reference::Reply {
        use juzvarola_checks::reference;
        match &self.plan {
            None => reference::plan(&self.job, self.walk, self.output),
            Some(plan) => reference::judge(&self.job, plan, self.output),
        }
    }
}
