//! The library's calls, each on a thread with the stack that it needs.

use crate::failure::{failure, Failure, SOFTWARE, SYSTEM};
use crate::texts;
use juzvarola_host as library;
use std::thread;

/// Twice the stack that the header says will serve every call.
const STACK: usize = 8 << 20;
/// The output that the header asks for.
const OUTPUT: usize = 16_384;
/// The output that the header asks for where a job text is written.
const WRITTEN: usize = 40_960;
/// The greatest walk number.
pub use library::MOST_WALK;
/// A walk is longer than its walk number.
pub const CUT_SHORT: u32 = 7;

/// What a call answered: its numbers, the line at fault, and the lines written.
#[derive(Debug, Clone)]
pub struct Reply {
    pub result: u32,
    pub text: u32,
    pub line: u32,
    pub fault: Vec<u8>,
    pub lines: Vec<u8>,
}

impl Reply {
    /// The value of the answer's first line with this key.
    pub fn value(&self, key: &str) -> Option<u64> {
        texts::pairs(&self.lines).find(|(own, _)| *own == key.as_bytes()).map(|(_, value)| value)
    }

    /// The plan text of an answer of the planner or of the latest-time habit: its lines from `cost` on.
    pub fn plan_text(&self) -> Option<&[u8]> {
        let start = texts::line_starts(&self.lines).find(|start| self.lines[*start..].starts_with(b"cost="))?;
        Some(&self.lines[start..])
    }

    /// What this search for the cheapest plan and one before it say together: the last word, or where both are cut short the higher floor and the
    /// cheaper plan. No nodes are said, since a search has several walks.
    pub fn and(&self, before: Option<&Reply>) -> Reply {
        let mut replies: Vec<&Reply> = [self].into_iter().chain(before).collect();
        replies.retain(|reply| reply.result == self.result);
        let floor = replies.iter().filter_map(|reply| reply.value("floor")).max().filter(|_| self.result == CUT_SHORT);
        let plan = replies.iter().filter_map(|reply| Some((reply.value("cost")?, reply.plan_text()?))).min_by_key(|(cost, _)| *cost);
        let floor = floor.map_or(String::new(), |floor| format!("floor={floor}\n"));
        let lines = [format!("result={}\n{floor}", self.result).as_bytes(), plan.map_or(&[], |(_, text)| text)].concat();
        Reply { lines, ..self.clone() }
    }

    /// The answer's numbers with what was written.
    fn of(answer: library::Answer, mut out: Vec<u8>) -> Reply {
        out.truncate(answer.length);
        Reply { result: answer.result, text: answer.text, line: answer.line, fault: answer.fault.to_vec(), lines: out }
    }
}

/// Starts a thread that a call can be made on; it ends by itself, or with the program.
pub fn start(body: impl FnOnce() + Send + 'static) -> Result<(), Failure> {
    let thread = thread::Builder::new().stack_size(STACK).spawn(body);
    thread.map(|_| ()).map_err(|error| failure(SYSTEM, format_args!("no thread can be started: {error}")))
}

/// Makes the call on a thread of its own and waits for it.
fn on_own_stack<T: Send>(call: impl FnOnce() -> T + Send) -> Result<T, Failure> {
    thread::scope(|scope| {
        let thread = thread::Builder::new().stack_size(STACK).spawn_scoped(scope, call);
        let thread = thread.map_err(|error| failure(SYSTEM, format_args!("no thread can be started: {error}")))?;
        thread.join().map_err(|_| failure(SOFTWARE, "the library did not answer"))
    })
}

/// The planner's call with this walk number, on this thread: here, in `optimum_here` and in `hall_here` the library is given one, and nowhere else.
pub fn plan_here(job: &[u8], walk: u64) -> Reply {
    let mut out = vec![0; OUTPUT];
    let answer = library::plan(job, walk, &mut out);
    Reply::of(answer, out)
}

/// The optimum's call with this walk number, on this thread.
pub fn optimum_here(job: &[u8], walk: u64) -> Reply {
    let mut out = vec![0; OUTPUT];
    let answer = library::optimum(job, walk, &mut out);
    Reply::of(answer, out)
}

/// The hall planner's call with this walk number, on this thread.
pub fn hall_here(text: &[u8], walk: u64) -> Reply {
    let mut out = vec![0; OUTPUT];
    let answer = library::hall(text, walk, &mut out);
    Reply::of(answer, out)
}

/// The planner's call with this walk number.
pub fn plan(job: &[u8], walk: u64) -> Result<Reply, Failure> {
    on_own_stack(|| plan_here(job, walk))
}

/// The fault of a hall text, if it has one: a call that walks nothing.
pub fn hall_fault(text: &[u8]) -> Result<Option<Reply>, Failure> {
    let reply = on_own_stack(|| hall_here(text, 0))?;
    Ok(Some(reply).filter(|reply| reply.text != 0))
}

/// The search for the cheapest plan with this walk number: the optimum's call, and where that is cut short the planner's.
pub fn search(job: &[u8], walk: u64) -> Result<Reply, Failure> {
    on_own_stack(|| match optimum_here(job, walk) {
        best if best.result == CUT_SHORT => plan_here(job, walk).and(Some(&best)),
        best => best,
    })
}

/// The judge's call.
pub fn judge(job: &[u8], plan: &[u8]) -> Result<Reply, Failure> {
    on_own_stack(|| {
        let mut out = vec![0; OUTPUT];
        let answer = library::judge(job, plan, &mut out);
        Reply::of(answer, out)
    })
}

/// The latest-time habit's call.
pub fn latest(job: &[u8], plan: &[u8]) -> Result<Reply, Failure> {
    on_own_stack(|| {
        let mut out = vec![0; OUTPUT];
        let answer = library::latest(job, plan, &mut out);
        Reply::of(answer, out)
    })
}

/// The call that carries on: the text of the job that is left is in its lines.
pub fn carry(job: &[u8], log: &[u8]) -> Result<Reply, Failure> {
    on_own_stack(|| {
        let mut out = vec![0; WRITTEN];
        let answer = library::carry(job, log, &mut out);
        Reply::of(answer, out)
    })
}

/// The count's call: its fault as a reply without lines, and the count.
pub fn count(job: &[u8]) -> Result<(Reply, u32), Failure> {
    on_own_stack(|| {
        let library::Count { result, text, line, count, fault, .. } = library::count(job);
        (Reply { result, text, line, fault: fault.to_vec(), lines: Vec::new() }, count)
    })
}

/// The fault of a job text, if it has one. The count's call reads the text and walks nothing; its refusal of holders is no fault of the text.
pub fn job_fault(job: &[u8]) -> Result<Option<Reply>, Failure> {
    let (reply, _) = count(job)?;
    Ok(Some(reply).filter(|reply| reply.result != 0 && reply.text != 0))
}

/// The writer's call: the job text of a form is in its lines.
pub fn write(form: &library::Form) -> Result<Reply, Failure> {
    on_own_stack(|| {
        let mut out = vec![0; WRITTEN];
        let answer = library::write(form, &mut out);
        Reply::of(answer, out)
    })
}
