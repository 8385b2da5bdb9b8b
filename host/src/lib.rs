//! The host side of Juzvarola: safe wrappers of the proved library.

mod halls;
#[cfg(feature = "library")]
mod library;
pub mod lines;
mod logs;
mod plans;

pub use halls::PlannedHall;
#[cfg(feature = "library")]
pub use library::{carry, check_version, count, hall, judge, latest, optimum, plan, plan_parsed, version, write};
pub use logs::Log;
pub use plans::{Plan, Planned, Stop};

/// The version of the interface that this package is made for, which is its own: as one number, like JUZVAROLA_VERSION of the header.
pub const VERSION: u32 = number(env!("CARGO_PKG_VERSION_MAJOR")) * 1_000_000
    + number(env!("CARGO_PKG_VERSION_MINOR")) * 1000
    + number(env!("CARGO_PKG_VERSION_PATCH"));

/// A number by its digits.
const fn number(digits: &str) -> u32 {
    let (bytes, mut at, mut sum) = (digits.as_bytes(), 0, 0);
    while at < bytes.len() {
        sum = sum * 10 + (bytes[at] - b'0') as u32;
        at += 1;
    }
    sum
}

/// A library of another version than [`VERSION`] is linked: its calls may take other arguments, and none is made.
#[derive(Debug, Clone, Copy, PartialEq, Eq)]
pub struct WrongVersion {
    pub linked: u32,
}

impl std::fmt::Display for WrongVersion {
    fn fmt(&self, f: &mut std::fmt::Formatter<'_>) -> std::fmt::Result {
        let dotted = |number: u32| format!("{}.{}.{}", number / 1_000_000, number / 1000 % 1000, number % 1000);
        write!(f, "the library libjuzvarola is version {}, and this program is made for {}", dotted(self.linked), dotted(VERSION))
    }
}

impl std::error::Error for WrongVersion {}

/// The largest walk number: one above it counts as this.
pub const MOST_WALK: u64 = 4_000_000_000;

/// What a call answers. `'t` is the life of the caller's texts.
#[derive(Debug, Clone, Copy, PartialEq, Eq)]
pub struct Answer<'t> {
    /// The result number, 0 to 14.
    pub result: u32,
    /// The text at fault: 1 the job or the hall, 2 the plan or the log, 0 neither.
    pub text: u32,
    /// The line at fault, counted from 1; 0 if there is none.
    pub line: u32,
    /// The bytes written to the lent output.
    pub length: usize,
    /// Where the line at fault starts in its text; 0 if there is none.
    pub fault_start: usize,
    /// The line at fault, a part of the caller's own text, without its byte 10; empty if there is none.
    pub fault: &'t [u8],
}

/// An order form: the facts of a job as lists of numbers, in the job text's order. The prices stand part by part, one for each opening.
/// A part's lines `removal`, `inside` and `holder` may be left out, and lines `base`, `drop` and `least` may stand in place of its prices.
/// A price may be a band, from a low end to a high one.
#[derive(Debug, Clone, Copy, PartialEq, Eq)]
pub struct Form<'f> {
    pub horizon: u32,
    pub idles: &'f [u32],
    pub openings: &'f [u32],
    pub fees: &'f [u32],
    pub lives: &'f [u32],
    pub lefts: &'f [u32],
    /// For each part 1 where those lines stand, else 0.
    pub covered: &'f [u32],
    /// One for each part that has the lines.
    pub removals: &'f [u32],
    /// How many holders the part has, one for each part that has the lines.
    pub insides: &'f [u32],
    /// The numbers of all holders, part after part.
    pub holders: &'f [u32],
    /// For each part 1 where its prices are given by a rule, else 0.
    pub ruled: &'f [u32],
    /// The price at the first opening, one for each part with a rule.
    pub bases: &'f [u32],
    /// By how much it falls from opening to opening, one for each part with a rule.
    pub drops: &'f [u32],
    /// What it never falls below, one for each part with a rule.
    pub leasts: &'f [u32],
    /// For each of the prices 1 where it is the high end of a band, else 0.
    pub banded: &'f [u32],
    /// The low ends, one for each band.
    pub lows: &'f [u32],
    /// Those of the parts without a rule: single prices and high ends.
    pub prices: &'f [u32],
}

/// What `count` answers. `'t` is the life of the caller's text.
#[derive(Debug, Clone, Copy, PartialEq, Eq)]
pub struct Count<'t> {
    /// The result number, 0 to 5, 12 or 13; 12 with no text at fault says that the job has a holder, and that there is no count of it.
    pub result: u32,
    /// The text at fault: 1 the job, 0 none.
    pub text: u32,
    /// The line at fault, counted from 1; 0 if there is none.
    pub line: u32,
    /// The most nodes that the walk can have; 4000000000 means that many or more. 0 for a refused job.
    pub count: u32,
    /// Where the line at fault starts in the text; 0 if there is none.
    pub fault_start: usize,
    /// The line at fault, a part of the caller's own text, without its byte 10; empty if there is none.
    pub fault: &'t [u8],
}
