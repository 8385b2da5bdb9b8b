//! How steps and parts are called for people: by numbers, and by dates and names where they were given.

use crate::dates::{Date, Step};
use crate::failure::{Failure, TEXT};
use crate::files;
use crate::output::shown;
use crate::sheets::{self, Cell};
use crate::texts::Job;
use std::collections::BTreeMap;
use std::ffi::OsString;

/// What the words ask for.
#[derive(Debug, Clone, Default)]
pub struct NamingOrder {
    pub from: Option<Date>,
    pub step: Step,
    pub names: Option<OsString>,
    /// The step of the whole that the job begins after, where it is what is left of one.
    pub after: u64,
}

/// A part's name and order number; either may be empty.
#[derive(Debug, Clone, Default, PartialEq, Eq)]
struct Called {
    name: String,
    order: String,
}

/// Dates and names, as far as they were given.
#[derive(Debug, Clone, Default)]
pub struct Naming {
    from: Option<Date>,
    length: Step,
    before: u64,
    parts: BTreeMap<u64, Called>,
    file: String,
}

impl Naming {
    /// Reads the names' file, if there is one.
    pub fn read(order: &NamingOrder) -> Result<Naming, Failure> {
        let mut naming = Naming { from: order.from, length: order.step, before: order.after, ..Naming::default() };
        if let Some(path) = &order.names {
            let input = files::read(path)?;
            naming.parts = names(&input.bytes).map_err(|why| bad(&input.name, &why))?;
            naming.file = input.name;
        }
        Ok(naming)
    }

    /// Refuses a name of a part that the job does not have.
    pub fn check(&self, job: &Job) -> Result<(), Failure> {
        match self.parts.keys().find(|part| **part > job.parts.len() as u64) {
            Some(part) => Err(bad(&self.file, &format!("part {part} is named, and the job has {} parts", job.parts.len()))),
            None => Ok(()),
        }
    }

    /// Whether steps have dates.
    pub fn has_dates(&self) -> bool {
        self.from.is_some()
    }

    /// Whether parts have names.
    pub fn has_names(&self) -> bool {
        !self.parts.is_empty()
    }

    /// The first day of a step.
    pub fn first_day(&self, step: u64) -> Option<Date> {
        self.from.map(|from| from.of_step(self.length, self.before + step))
    }

    /// The same for the job that is left after so many more steps: dates go on, and the whole's numbers stand beside its own.
    pub fn after(&self, steps: u64) -> Naming {
        Naming { before: self.before + steps, ..self.clone() }
    }

    /// A step's number in the whole, where the job is what is left of one.
    pub fn whole(&self, step: u64) -> Option<u64> {
        Some(self.before + step).filter(|_| self.before > 0)
    }

    /// A step's date.
    pub fn date(&self, step: u64) -> Option<String> {
        self.first_day(step).map(|date| date.to_string())
    }

    /// A step by its number, with its number in the whole and its date where there are such: `12 (15 of the whole, 2027-03-22)`.
    pub fn step(&self, step: u64) -> String {
        let whole = self.whole(step).map(|whole| format!("{whole} of the whole"));
        let beside: Vec<String> = whole.into_iter().chain(self.date(step)).collect();
        if beside.is_empty() {
            step.to_string()
        } else {
            format!("{step} ({})", beside.join(", "))
        }
    }

    /// Steps one after the other.
    pub fn steps(&self, steps: impl IntoIterator<Item = u64>) -> String {
        steps.into_iter().map(|step| self.step(step)).collect::<Vec<_>>().join(", ")
    }

    /// A part's name.
    pub fn name(&self, part: u64) -> Option<String> {
        self.parts.get(&part).map(|called| called.name.clone()).filter(|name| !name.is_empty())
    }

    /// A part's order number.
    pub fn order(&self, part: u64) -> Option<String> {
        self.parts.get(&part).map(|called| called.order.clone()).filter(|order| !order.is_empty())
    }

    /// A part by its number, with its name where there is one: `3 Valve seat`.
    pub fn part(&self, part: u64) -> String {
        self.name(part).map_or(part.to_string(), |name| format!("{part} {name}"))
    }

    /// Parts one after the other.
    pub fn parts(&self, parts: impl IntoIterator<Item = u64>) -> String {
        parts.into_iter().map(|part| self.part(part)).collect::<Vec<_>>().join(", ")
    }
}

/// A file of names that is not as it should be: it is at fault as a text is.
fn bad(file: &str, why: &str) -> Failure {
    Failure { status: TEXT, message: format!("{file}: {why}\n"), fault: None }
}

/// The names by part: rows of a part's number, its name, its order number; a first row without a number is the heads'.
fn names(bytes: &[u8]) -> Result<BTreeMap<u64, Called>, String> {
    let mut parts = BTreeMap::new();
    for (at, row) in sheets::rows(bytes)?.into_iter().enumerate() {
        let text = |column: usize| row.get(column).map_or(String::new(), |cell: &Cell| shown(cell.text.as_bytes()));
        match text(0).parse::<u64>() {
            Ok(part) if (1..=16).contains(&part) => {
                if parts.insert(part, Called { name: text(1), order: text(2) }).is_some() {
                    return Err(format!("cell {}: part {part} is named twice", row[0].name()));
                }
            }
            Err(_) if at == 0 => {}
            _ => return Err(format!("cell {}: '{}' is not a part's number, 1 to 16", row[0].name(), text(0))),
        }
    }
    match parts.is_empty() {
        true => Err("no part is named".to_string()),
        false => Ok(parts),
    }
}
