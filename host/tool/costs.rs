//! What a plan costs, part by part and stop by stop.

use crate::json::Value;
use crate::numbers::{self, counted, grouped};
use crate::texts::{Job, Plan, Stop};

/// The costs of a plan, at the high ends where prices are bands. `removals` is what taking parts out costs, each once a stop; `other` what the judge
/// counts besides, for forms of the job text that this program does not read; `low` what the whole costs at the low ends, where the job has bands.
#[derive(Debug, Clone, Copy, PartialEq, Eq)]
pub struct Costs {
    pub fees: u64,
    pub parts: u64,
    pub removals: u64,
    pub other: u64,
    pub low: Option<u64>,
}

impl Costs {
    /// The costs of a plan; the sum is the judge's where the judge gave one.
    pub fn of(job: &Job, plan: &Plan, judged: Option<u64>) -> Costs {
        let fees = plan.stops.iter().map(|stop| job.fee(stop.step)).sum();
        let parts = plan.stops.iter().map(|stop| prices(job, stop)).sum();
        let removals = plan.stops.iter().map(|stop| removals(job, stop)).sum();
        let other = judged.unwrap_or(0).saturating_sub(fees + parts + removals);
        let lows: u64 = plan.stops.iter().map(|stop| low_prices(job, stop)).sum();
        let low = job.has_bands().then_some(fees + lows + removals + other);
        Costs { fees, parts, removals, other, low }
    }

    pub fn total(&self) -> u64 {
        self.fees + self.parts + self.removals + self.other
    }

    /// The whole at the low ends: what it costs where there are no bands.
    pub fn at_low(&self) -> u64 {
        self.low.unwrap_or(self.total())
    }

    /// The parts at the low ends.
    pub fn low_parts(&self) -> u64 {
        (self.parts + self.at_low()).saturating_sub(self.total())
    }

    /// The whole, from the low ends of the prices to the high ones where these are bands: `2,310 to 2,505`.
    pub fn span(&self) -> String {
        numbers::span(self.at_low(), self.total())
    }

    /// What it is made of: `fees 360, parts 1,950 to 2,145`.
    pub fn sums(&self) -> String {
        let further: String = self.further().map(|(name, amount)| format!(", {name} {}", grouped(amount))).collect();
        format!("fees {}, parts {}{further}", grouped(self.fees), numbers::span(self.low_parts(), self.parts))
    }

    /// The same for programs.
    pub fn json(&self) -> Value {
        let of = |amount| Value::Number(amount);
        Value::object([
            ("fees", of(self.fees)),
            ("parts", of(self.parts)),
            ("removals", of(self.removals)),
            ("other", of(self.other)),
            ("total", of(self.total())),
            ("low", Value::number(self.low)),
        ])
    }

    /// The costs that not every job has, by name, where there are some.
    pub fn further(&self) -> impl Iterator<Item = (&'static str, u64)> {
        [("removals", self.removals), ("other", self.other)].into_iter().filter(|(_, amount)| *amount > 0)
    }
}

/// A plan's cost, from the low ends of the prices to the high ones where these are bands; with what it is made of and how many stops and changes
/// there are, where that is wanted.
pub fn in_words(job: &Job, plan: &Plan, whole: bool) -> String {
    let costs = Costs::of(job, plan, Some(plan.cost));
    match whole {
        false => costs.span(),
        true => {
            let (stops, changes) = (counted(plan.stops.len() as u64, "stop"), counted(plan.change_count(), "change"));
            format!("{} ({}), with {stops} and {changes}", costs.span(), costs.sums())
        }
    }
}

/// The prices of all parts changed at a stop.
pub fn prices(job: &Job, stop: &Stop) -> u64 {
    stop.parts.iter().filter_map(|part| job.price(*part, stop.step)).sum()
}

/// The same at the low ends.
pub fn low_prices(job: &Job, stop: &Stop) -> u64 {
    stop.parts.iter().filter_map(|part| job.low_price(*part, stop.step)).sum()
}

/// What taking parts out costs at a stop: each part that comes out, once.
pub fn removals(job: &Job, stop: &Stop) -> u64 {
    job.removed(stop).into_iter().map(|part| job.removal(part)).sum()
}

/// The prices of all changes of a part.
pub fn prices_of_part(job: &Job, plan: &Plan, part: u64) -> u64 {
    plan.changes(part).into_iter().filter_map(|step| job.price(part, step)).sum()
}

/// The same at the low ends.
pub fn low_prices_of_part(job: &Job, plan: &Plan, part: u64) -> u64 {
    plan.changes(part).into_iter().filter_map(|step| job.low_price(part, step)).sum()
}

/// What taking a part out costs over all stops at which it comes out.
pub fn removals_of_part(job: &Job, plan: &Plan, part: u64) -> u64 {
    let out = plan.stops.iter().filter(|stop| job.removed(stop).contains(&part));
    out.count() as u64 * job.removal(part)
}
