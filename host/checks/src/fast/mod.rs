//! The walk as fast as Rust makes it, to compare the library's speed with. It uses the library's algorithm: a table of least prices from
//! each opening on, a stack of rows of least prices up to each stop with a memo of their sums, the parts side by side, the decisions as a mask.
//! Its reader trusts the text, and it shares no code with the reference.

mod hall;
mod holders;
mod lanes;
mod optimum;
mod recursive;
mod shares;
mod walk;

use holders::walk_held;
#[cfg(target_arch = "x86_64")]
use lanes::{Avx2, Sse2};
use lanes::{Lanes, Plain};
use recursive::Recursion;
use walk::{Form, Loop, Tables, MAX_OPENINGS};

pub use hall::{Hall, HallBest, HallFound};
pub use optimum::{Optimum, Search};

/// The facts of a job, for the walk.
#[derive(Debug, Clone, Default)]
pub struct Job {
    pub horizon: i32,
    /// The steps that don't run, rising.
    pub idles: Vec<i32>,
    pub walk: u64,
    pub steps: Vec<i32>,
    pub fees: Vec<u32>,
    pub parts: Vec<Part>,
}

#[derive(Debug, Clone, Default)]
pub struct Part {
    pub life: i32,
    pub left: i32,
    pub removal: u32,
    /// The places of its holders among the parts, from 0.
    pub holders: Vec<usize>,
    pub prices: Vec<u32>,
}

/// What a walk finds.
#[derive(Debug, Clone, Copy, PartialEq, Eq)]
pub struct Found {
    pub nodes: u64,
    /// Whether the whole walk has more nodes.
    pub more: bool,
    pub floor: u64,
    pub best: Option<Best>,
}

/// The best plan: its cost, its stops (opening k in bit k), and the parts decided to be removed at each (part p in bit p).
#[derive(Debug, Clone, Copy, PartialEq, Eq)]
pub struct Best {
    pub cost: u64,
    pub stops: u64,
    pub removed: [u16; MAX_OPENINGS],
}

/// How the parts are computed side by side.
#[derive(Debug, Clone, Copy, PartialEq, Eq)]
pub enum Unit {
    /// Arrays, which the compiler turns into vectors of the machine it builds for; as many fours as the parts need, a walk compiled for each.
    Plain,
    /// The same, the walk a function that calls itself, as the library's does.
    Recursive,
    /// Vectors of four, which every x86-64 machine has.
    Sse2,
    /// Vectors of eight.
    Avx2,
    /// Arrays, the walk that decides removals too: the only one for jobs in which a removal costs something or a part holds another.
    Holders,
}

impl Unit {
    /// The units that this machine has for jobs without removals.
    pub fn all() -> Vec<Unit> {
        let mut units = vec![Unit::Plain, Unit::Recursive];
        #[cfg(target_arch = "x86_64")]
        {
            units.push(Unit::Sse2);
            if std::arch::is_x86_feature_detected!("avx2") {
                units.push(Unit::Avx2);
            }
        }
        units
    }
}

impl Job {
    /// Reads a job text that has no fault, for a walk of at most `walk` nodes.
    pub fn read(text: &[u8], walk: u64) -> Job {
        let mut job = Job { walk, ..Job::default() };
        let (mut base, mut drop) = (0, 0);
        for line in text.split(|byte| *byte == b'\n').filter(|line| !line.is_empty()) {
            let equals = line.iter().position(|byte| *byte == b'=').expect("key=value");
            let value = line[equals + 1..].iter().fold(0u64, |value, digit| value * 10 + u64::from(digit - b'0'));
            match &line[..equals] {
                b"horizon" => job.horizon = value as i32,
                b"idle" => job.idles.push(value as i32),
                b"opening" => job.steps.push(value as i32),
                b"fee" => job.fees.push(value as u32),
                b"life" => job.parts.push(Part { life: value as i32, ..Part::default() }),
                b"left" => job.parts.last_mut().expect("a part").left = value as i32,
                b"removal" => job.parts.last_mut().expect("a part").removal = value as u32,
                b"holder" => job.parts.last_mut().expect("a part").holders.push(value as usize - 1),
                b"price" | b"high" => job.parts.last_mut().expect("a part").prices.push(value as u32),
                b"base" => base = value,
                b"drop" => drop = value,
                b"least" => {
                    let price = |k: u64| base.saturating_sub(k * drop).max(value) as u32;
                    job.parts.last_mut().expect("a part").prices = (0..job.steps.len() as u64).map(price).collect();
                }
                _ => {}
            }
        }
        job
    }

    /// The running steps up to this one: lives are counted in them.
    fn running(&self, step: i32) -> i32 {
        step - self.idles.partition_point(|idle| *idle <= step) as i32
    }

    /// Whether no removal costs anything and no part holds another.
    pub fn is_plain(&self) -> bool {
        self.parts.iter().all(|part| part.removal == 0 && part.holders.is_empty())
    }

    /// The walk with the job's own limit, or none where the job has no plan. The machine must have the unit, and the unit must be for
    /// such a job.
    pub fn solve(&self, unit: Unit) -> Option<Found> {
        assert!(unit == Unit::Holders || (self.is_plain() && Unit::all().contains(&unit)), "{unit:?} is not for this");
        match unit {
            Unit::Plain => self.by_width::<Plain, Loop>(),
            Unit::Recursive => self.by_width::<Plain, Recursion>(),
            #[cfg(target_arch = "x86_64")]
            Unit::Sse2 => self.by_width::<Sse2, Loop>(),
            #[cfg(target_arch = "x86_64")]
            Unit::Avx2 => match self.parts.len() {
                // SAFETY: the machine has AVX2, as asserted.
                0..=8 => unsafe { walk_avx2::<1>(self) },
                // SAFETY: the same.
                _ => unsafe { walk_avx2::<2>(self) },
            },
            Unit::Holders => match self.parts.len() {
                0..=4 => walk_held::<1>(self),
                5..=8 => walk_held::<2>(self),
                9..=12 => walk_held::<3>(self),
                _ => walk_held::<4>(self),
            },
            #[cfg(not(target_arch = "x86_64"))]
            _ => unreachable!("no such machine"),
        }
    }

    /// With as many fours of lanes as the parts need.
    fn by_width<V: Lanes, F: Form>(&self) -> Option<Found> {
        match self.parts.len() {
            0..=4 => walk_wide::<V, F, 1>(self),
            5..=8 => walk_wide::<V, F, 2>(self),
            9..=12 => walk_wide::<V, F, 3>(self),
            _ => walk_wide::<V, F, 4>(self),
        }
    }
}

/// The walk with this many fours, in a function of its own: no other changes how it is compiled.
#[inline(never)]
fn walk_wide<V: Lanes, F: Form, const Q: usize>(job: &Job) -> Option<Found> {
    Tables::<V, Q>::new(job).walk::<F>(job.walk)
}

/// The walk built for machines with AVX2.
#[cfg(target_arch = "x86_64")]
#[target_feature(enable = "avx2,bmi1,bmi2")]
fn walk_avx2<const Q: usize>(job: &Job) -> Option<Found> {
    Tables::<Avx2, Q>::new(job).walk::<Loop>(job.walk)
}
