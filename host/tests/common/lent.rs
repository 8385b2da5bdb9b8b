//! Lent buffers with canaries on both sides, and the library's calls on them.

use super::forms::FormCall;
use super::rng::Rng;
use super::{vectors, with_stack, Call};
use juzvarola_checks::compared;
use juzvarola_checks::reference::{self, Reply};
use juzvarola_host::Answer;

/// Bytes on each side of a lent buffer.
const MARGIN: usize = 64;

/// A buffer inside a larger one. All bytes are remembered, to see which a call changed.
pub struct Lent {
    now: Vec<u8>,
    before: Vec<u8>,
    start: usize,
    length: usize,
}

impl Lent {
    fn around(rng: &mut Rng, inside: &[u8], canary: impl Fn(u64) -> u8) -> Lent {
        // A start that varies, so that no alignment is relied on.
        let start = MARGIN + rng.below(16) as usize;
        let mut side = |length: usize| -> Vec<u8> { (0..length).map(|_| canary(rng.next())).collect() };
        let now = [side(start), inside.to_vec(), side(MARGIN)].concat();
        Lent { before: now.clone(), now, start, length: inside.len() }
    }

    /// A text between digits and line ends: a reader that goes past its end reads on.
    pub fn text(rng: &mut Rng, text: &[u8]) -> Lent {
        Lent::around(rng, text, |random| b"0123456789\n"[random as usize % 11])
    }

    /// An output of random bytes between random bytes.
    pub fn output(rng: &mut Rng, length: usize) -> Lent {
        let mut inside: Vec<u8> = Vec::with_capacity(length + 8);
        while inside.len() < length {
            inside.extend(rng.next().to_le_bytes());
        }
        Lent::around(rng, &inside[..length], |random| random as u8)
    }

    pub fn part(&self) -> &[u8] {
        &self.now[self.start..][..self.length]
    }

    pub fn part_mut(&mut self) -> &mut [u8] {
        &mut self.now[self.start..][..self.length]
    }

    /// Exactly these bytes were written, at the start, and nothing else was changed.
    pub fn has(&self, written: &[u8]) -> bool {
        let end = self.start + written.len();
        written.len() <= self.length
            && self.now[..self.start] == self.before[..self.start]
            && self.now[self.start..end] == *written
            && self.now[end..] == self.before[end..]
    }
}

/// Makes the call by the library and compares everything it hands over with the reply.
pub fn compare(rng: &mut Rng, call: &Call, reply: &Reply) -> Result<(), String> {
    compare_by(rng, call, reply, |job, plan, out| match call.plan {
        None => juzvarola_host::plan(job, call.walk, out),
        Some(_) => juzvarola_host::judge(job, plan, out),
    })
}

/// The same of the latest-time habit, on the call's texts.
pub fn compare_latest(rng: &mut Rng, call: &Call, reply: &Reply) -> Result<(), String> {
    compare_by(rng, call, reply, juzvarola_host::latest)
}

/// The same of carrying on, by the call's second text as the log.
pub fn compare_carry(rng: &mut Rng, call: &Call, reply: &Reply) -> Result<(), String> {
    compare_by(rng, call, reply, juzvarola_host::carry)
}

/// The same of the hall planner, on the call's first text.
pub fn compare_hall(rng: &mut Rng, call: &Call, reply: &Reply) -> Result<(), String> {
    compare_by(rng, call, reply, |hall, _, out| juzvarola_host::hall(hall, call.walk, out))
}

/// The same of the optimum, whose reply is what the reference makes of the bytes that a first call writes; its number.
pub fn compare_optimum(rng: &mut Rng, call: &Call, most: u64) -> Result<u32, String> {
    let mut out = vec![0xAA; call.output];
    let length = juzvarola_host::optimum(&call.job, call.walk, &mut out).length;
    let reply = reference::optimum(&call.job, call.output, most, &out[..length.min(call.output)]);
    compare_by(rng, call, &reply, |job, _, out| juzvarola_host::optimum(job, call.walk, out))?;
    Ok(reply.result)
}

/// That a call by the library gives every vector; of these there are at least so many, or those of another file, which the variable names.
pub fn given<V: Send + 'static>(
    vectors: Vec<V>,
    kept: (&'static str, usize),
    compare: impl Fn(&mut Rng, &V) -> Result<(), String> + Send + 'static,
) {
    with_stack(move || {
        let mut rng = Rng::new(4);
        vectors::given(&vectors, kept, |vector| compare(&mut rng, vector));
    });
}

fn compare_by(
    rng: &mut Rng,
    call: &Call,
    reply: &Reply,
    by: impl for<'t> Fn(&'t [u8], &'t [u8], &mut [u8]) -> Answer<'t>,
) -> Result<(), String> {
    let job = Lent::text(rng, &call.job);
    let plan = Lent::text(rng, call.plan.as_deref().unwrap_or_default());
    let mut out = Lent::output(rng, call.output);
    let answer = by(job.part(), plan.part(), out.part_mut());
    let wanted = reply.answer([job.part(), plan.part()]);
    if answer != wanted {
        return Err(format!("{answer:?}\nnot {wanted:?}\n{call:?}"));
    }
    if !answer.fault.is_empty() && answer.fault.as_ptr() != wanted.fault.as_ptr() {
        return Err(format!("the line at fault is no part of the caller's text\n{call:?}"));
    }
    if !out.has(&reply.bytes) {
        let written = out.part()[..answer.length].escape_ascii();
        return Err(format!("written: {written}\nnot:     {}\nor a byte outside was changed\n{call:?}", reply.bytes.escape_ascii()));
    }
    if !job.has(&[]) || !plan.has(&[]) {
        return Err(format!("a text was changed\n{call:?}"));
    }
    Ok(())
}

/// Numbers on each side of a list that would do in its place: a writer that reads past its end writes on.
const NUMBERS: usize = 16;

/// Makes the call of the writer by the library and compares everything it hands over with the reply.
pub fn compare_form(rng: &mut Rng, call: &FormCall, reply: &Reply) -> Result<(), String> {
    let around = call.lists.clone().map(|list| [vec![1; NUMBERS], list, vec![1; NUMBERS]].concat());
    let before = around.clone();
    let inside = |at: usize| &around[at][NUMBERS..around[at].len() - NUMBERS];
    let form = compared::form(call.horizon, std::array::from_fn(inside));
    let mut out = Lent::output(rng, call.output);
    let answer = juzvarola_host::write(&form, out.part_mut());
    let wanted = reply.answer_on_no_text();
    if answer != wanted {
        return Err(format!("{answer:?}\nnot {wanted:?}\n{call:?}"));
    }
    if !out.has(&reply.bytes) {
        return Err(format!("not written: {}\nor a byte outside was changed\n{call:?}", reply.bytes.escape_ascii()));
    }
    if around != before {
        return Err(format!("a list was changed\n{call:?}"));
    }
    Ok(())
}

/// Makes the call of the count by the library and compares everything it hands over with the reference's, which walks at most so many points.
pub fn compare_count(rng: &mut Rng, text: &[u8], most: u64) -> Result<u32, String> {
    let job = Lent::text(rng, text);
    let answer = juzvarola_host::count(job.part());
    let reply = reference::count(text, most);
    let wanted = reply.answer(job.part(), most, answer.count);
    if answer != wanted || !job.has(&[]) {
        return Err(format!("{answer:?}\nnot {wanted:?}, or the text was changed\ncount\n{}", text.escape_ascii()));
    }
    Ok(reply.result)
}

/// What a call of the library writes into the shortest output that will do.
fn written<'t>(call: impl Fn(&mut [u8]) -> Answer<'t>) -> String {
    let mut out = vec![0xAA; 16_384];
    let length = call(&mut out).length;
    String::from_utf8(out[..length].to_vec()).expect("answers are ASCII")
}

/// What the library's planner writes with this walk number.
pub fn planned(job: &[u8], walk: u64) -> String {
    written(|out| juzvarola_host::plan(job, walk, out))
}

/// What the library writes for the optimum with this walk number.
pub fn best(job: &[u8], walk: u64) -> String {
    written(|out| juzvarola_host::optimum(job, walk, out))
}

/// What the library writes for the latest-time habit.
pub fn latest(job: &[u8], plan: &[u8]) -> String {
    written(|out| juzvarola_host::latest(job, plan, out))
}

/// What the library writes to carry on by a log: where it is accepted, the text of the job that is left.
pub fn carried(job: &[u8], log: &[u8]) -> Option<Vec<u8>> {
    let mut out = vec![0xAA; 40_960];
    let answer = juzvarola_host::carry(job, log, &mut out);
    out.truncate(answer.length);
    (answer.result == 0).then_some(out)
}

/// What the library's judge writes.
pub fn judged(job: &[u8], plan: &[u8]) -> String {
    written(|out| juzvarola_host::judge(job, plan, out))
}
