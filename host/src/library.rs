//! The static library, as `include/juzvarola.h` declares it, behind safe functions.

use crate::{Answer, Count, Form, Planned, WrongVersion, VERSION};
use std::mem::{offset_of, size_of};
use std::sync::OnceLock;

/// JUZVAROLA_ROOM: the output that the planner and the judge need.
const ROOM: usize = 16_384;

/// `juzvarola_answer`.
#[repr(C)]
struct Numbers {
    result: u32,
    text: u32,
    line: u32,
    length: usize,
    fault_start: usize,
    fault_length: usize,
}

// As C lays it out on 64-bit machines.
const _: () = assert!(size_of::<Numbers>() == 40 && offset_of!(Numbers, length) == 16);

/// `juzvarola_counted`.
#[repr(C)]
struct Counted {
    result: u32,
    text: u32,
    line: u32,
    count: u32,
    fault_start: usize,
    fault_length: usize,
}

const _: () = assert!(size_of::<Counted>() == 32 && offset_of!(Counted, fault_start) == 16);

extern "C" {
    fn juzvarola_plan(job: *const u8, job_len: usize, walk: u64, out: *mut u8, out_len: usize) -> Numbers;
    fn juzvarola_optimum(job: *const u8, job_len: usize, walk: u64, out: *mut u8, out_len: usize) -> Numbers;
    fn juzvarola_hall(text: *const u8, text_len: usize, walk: u64, out: *mut u8, out_len: usize) -> Numbers;
    fn juzvarola_judge(job: *const u8, job_len: usize, plan: *const u8, plan_len: usize, out: *mut u8, out_len: usize) -> Numbers;
    fn juzvarola_latest(job: *const u8, job_len: usize, plan: *const u8, plan_len: usize, out: *mut u8, out_len: usize) -> Numbers;
    fn juzvarola_carry(job: *const u8, job_len: usize, log: *const u8, log_len: usize, out: *mut u8, out_len: usize) -> Numbers;
    fn juzvarola_write(
        horizon: u32,
        idles: *const u32,
        idles_len: usize,
        openings: *const u32,
        openings_len: usize,
        fees: *const u32,
        fees_len: usize,
        lives: *const u32,
        lives_len: usize,
        lefts: *const u32,
        lefts_len: usize,
        covered: *const u32,
        covered_len: usize,
        removals: *const u32,
        removals_len: usize,
        insides: *const u32,
        insides_len: usize,
        holders: *const u32,
        holders_len: usize,
        ruled: *const u32,
        ruled_len: usize,
        bases: *const u32,
        bases_len: usize,
        drops: *const u32,
        drops_len: usize,
        leasts: *const u32,
        leasts_len: usize,
        banded: *const u32,
        banded_len: usize,
        lows: *const u32,
        lows_len: usize,
        prices: *const u32,
        prices_len: usize,
        out: *mut u8,
        out_len: usize,
    ) -> Numbers;
    fn juzvarola_count(job: *const u8, job_len: usize) -> Counted;
    fn juzvarola_version() -> u32;
}

/// The version of the library that is linked.
pub fn version() -> u32 {
    // SAFETY: it takes nothing and answers a number.
    unsafe { juzvarola_version() }
}

/// Whether the library that is linked is the one that the declarations above are of. A program asks this when it starts.
pub fn check_version() -> Result<(), WrongVersion> {
    match version() {
        VERSION => Ok(()),
        linked => Err(WrongVersion { linked }),
    }
}

/// Looks at the version before the first call: with another one the declarations may be wrong, and no call is made.
fn start() {
    static CHECKED: OnceLock<()> = OnceLock::new();
    CHECKED.get_or_init(|| {
        if let Err(wrong) = check_version() {
            panic!("{wrong}");
        }
    });
}

/// Plans a job, walking at most `walk` nodes (a number above `MOST_WALK` counts as that). The answer's lines are the first `length` bytes
/// of `out`.
pub fn plan<'t>(job: &'t [u8], walk: u64, out: &mut [u8]) -> Answer<'t> {
    start();
    // SAFETY: a slice's pointer is not null and is good for its length; `out` is lent alone, so it overlaps no text.
    let numbers = unsafe { juzvarola_plan(job.as_ptr(), job.len(), walk, out.as_mut_ptr(), out.len()) };
    answer(numbers, job, &[])
}

/// The cheapest plan of a job by walks with shares, each of at most `walk` nodes (a number above `MOST_WALK` counts as that): where it is found, the
/// plan that the planner without a limit would print. The answer's lines are the first `length` bytes of `out`.
pub fn optimum<'t>(job: &'t [u8], walk: u64, out: &mut [u8]) -> Answer<'t> {
    start();
    // SAFETY: as for `plan`.
    let numbers = unsafe { juzvarola_optimum(job.as_ptr(), job.len(), walk, out.as_mut_ptr(), out.len()) };
    answer(numbers, job, &[])
}

/// Plans the lines of a hall that pay one crew, walking at most `walk` nodes (a number above `MOST_WALK` counts as that): text 1 is the hall's, its
/// lines counted through. The answer's lines are the first `length` bytes of `out`; `PlannedHall::of` reads them. It needs a thread of 4 MB of stack.
pub fn hall<'t>(text: &'t [u8], walk: u64, out: &mut [u8]) -> Answer<'t> {
    start();
    // SAFETY: as for `plan`.
    let numbers = unsafe { juzvarola_hall(text.as_ptr(), text.len(), walk, out.as_mut_ptr(), out.len()) };
    answer(numbers, text, &[])
}

/// Plans a job, walking at most `walk` nodes, and parses what is answered; the output is lent here.
pub fn plan_parsed(job: &[u8], walk: u64) -> Planned<'_> {
    let mut out = vec![0; ROOM];
    let answer = plan(job, walk, &mut out);
    Planned::of(answer, &out[..answer.length])
}

/// Judges a plan of a job. The answer's lines are the first `length` bytes of `out`.
pub fn judge<'t>(job: &'t [u8], plan: &'t [u8], out: &mut [u8]) -> Answer<'t> {
    start();
    // SAFETY: as for `plan`.
    let numbers = unsafe { juzvarola_judge(job.as_ptr(), job.len(), plan.as_ptr(), plan.len(), out.as_mut_ptr(), out.len()) };
    answer(numbers, job, plan)
}

/// Changes each part of a job at the last stop of a plan that still serves; of the plan only the stops count. The answer's lines are the
/// first `length` bytes of `out`.
pub fn latest<'t>(job: &'t [u8], plan: &'t [u8], out: &mut [u8]) -> Answer<'t> {
    start();
    // SAFETY: as for `plan`.
    let numbers = unsafe { juzvarola_latest(job.as_ptr(), job.len(), plan.as_ptr(), plan.len(), out.as_mut_ptr(), out.len()) };
    answer(numbers, job, plan)
}

/// Carries on from a job by a work log: the first `length` bytes of `out` are the text of the job that is left, with no `result` line before it.
pub fn carry<'t>(job: &'t [u8], log: &'t [u8], out: &mut [u8]) -> Answer<'t> {
    start();
    // SAFETY: as for `plan`.
    let numbers = unsafe { juzvarola_carry(job.as_ptr(), job.len(), log.as_ptr(), log.len(), out.as_mut_ptr(), out.len()) };
    answer(numbers, job, log)
}

/// Writes the job text of a form into `out`: its first `length` bytes. No line at fault is handed over, since there is no text of the caller's.
pub fn write(form: &Form, out: &mut [u8]) -> Answer<'static> {
    let Form { horizon, idles, openings, fees, lives, lefts, covered, removals, insides, holders, .. } = *form;
    let Form { ruled, bases, drops, leasts, banded, lows, prices, .. } = *form;
    start();
    // SAFETY: as for `plan`; the lists are only read.
    let numbers = unsafe {
        juzvarola_write(
            horizon,
            idles.as_ptr(),
            idles.len(),
            openings.as_ptr(),
            openings.len(),
            fees.as_ptr(),
            fees.len(),
            lives.as_ptr(),
            lives.len(),
            lefts.as_ptr(),
            lefts.len(),
            covered.as_ptr(),
            covered.len(),
            removals.as_ptr(),
            removals.len(),
            insides.as_ptr(),
            insides.len(),
            holders.as_ptr(),
            holders.len(),
            ruled.as_ptr(),
            ruled.len(),
            bases.as_ptr(),
            bases.len(),
            drops.as_ptr(),
            drops.len(),
            leasts.as_ptr(),
            leasts.len(),
            banded.as_ptr(),
            banded.len(),
            lows.as_ptr(),
            lows.len(),
            prices.as_ptr(),
            prices.len(),
            out.as_mut_ptr(),
            out.len(),
        )
    };
    answer(numbers, &[], &[])
}

/// How many nodes the walk of a job can have at most.
pub fn count(job: &[u8]) -> Count<'_> {
    start();
    // SAFETY: a slice's pointer is not null and is good for its length.
    let Counted { result, text, line, count, fault_start, fault_length } = unsafe { juzvarola_count(job.as_ptr(), job.len()) };
    Count { result, text, line, count, fault_start, fault: &job[fault_start..][..fault_length] }
}

/// The numbers with the line at fault cut out of its text: the job's, or the second one's. A cut outside the text panics.
fn answer<'t>(numbers: Numbers, job: &'t [u8], second: &'t [u8]) -> Answer<'t> {
    let Numbers { result, text, line, length, fault_start, fault_length } = numbers;
    let at_fault = match text {
        1 => job,
        2 => second,
        _ => &[],
    };
    Answer { result, text, line, length, fault_start, fault: &at_fault[fault_start..][..fault_length] }
}
