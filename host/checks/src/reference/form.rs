//! "Sales fills in a form and wants the job text written from it. The writer takes the same facts as lists of numbers, in the text's
//! order, and writes the job text [..]. The counts are the lists' lengths."

use super::calls::Reply;
use super::lines::Fault;
use juzvarola_host::Form;

/// "A call that writes one needs that much output, else 8": 40,960 bytes.
pub const LEAST_OUTPUT: usize = 40_960;

/// The job text so far. Its lines are checked as they are written.
#[derive(Default)]
struct Text {
    lines: Vec<String>,
}

impl Text {
    /// A fault of the line written last: "with the line that would have held them".
    fn fault(&self, result: u32) -> Fault {
        Fault { result, line: self.lines.len() as u32, start: 0, length: 0 }
    }

    /// A line with a value of this range. "3: a value outside its range".
    fn put(&mut self, key: &str, value: u64, least: u64, most: u64) -> Result<(), Fault> {
        self.lines.push(format!("{key}={value}\n"));
        if value < least || value > most {
            return Err(self.fault(3));
        }
        Ok(())
    }

    /// A step. "4: [..] not after the one before, or past the horizon."
    fn put_step(&mut self, key: &str, step: u32, before: Option<u32>, horizon: u32) -> Result<(), Fault> {
        self.put(key, u64::from(step), 1, 365)?;
        if step > horizon || before.is_some_and(|before| step <= before) {
            return Err(self.fault(4));
        }
        Ok(())
    }
}

/// The number before place `at`.
fn before(steps: &[u32], at: usize) -> Option<u32> {
    at.checked_sub(1).map(|at| steps[at])
}

/// How many of these stand, a 1 for each that does; none where one is neither 0 nor 1 or there are not as many as this.
fn standing(stands: &[u32], count: usize) -> Option<usize> {
    let told = stands.len() == count && stands.iter().all(|stands| *stands < 2);
    told.then(|| stands.iter().filter(|stands| **stands == 1).count())
}

/// Whether the parts' lists have the lengths that go with the lives and the openings. `covered` says for each part whether its lines
/// stand; a removal and an inside belong to each that has them, and the holders stand part after part. `ruled` says for each part whether
/// its prices are given by a rule, and "E2's writer counts no prices for such a part"; `banded` says for each price counted whether it is a
/// pair, and a low end belongs to each that is.
fn fits(form: &Form) -> bool {
    let parts = form.lives.len();
    let (Some(covered), Some(ruled)) = (standing(form.covered, parts), standing(form.ruled, parts)) else { return false };
    let inside: u64 = form.insides.iter().map(|count| u64::from(*count)).sum();
    form.lefts.len() == parts
        && form.removals.len() == covered
        && form.insides.len() == covered
        && form.holders.len() as u64 == inside
        && [form.bases, form.drops, form.leasts].iter().all(|list| list.len() == ruled)
        && form.prices.len() == (parts - ruled) * form.openings.len()
        && standing(form.banded, form.prices.len()) == Some(form.lows.len())
}

/// The lines of a part's removal and holders. "12 for a holder that doesn't rise, is above `parts` or is the part itself".
fn put_cover(text: &mut Text, form: &Form, part: usize, removal: u32, holders: &[u32]) -> Result<(), Fault> {
    text.put("removal", u64::from(removal), 0, 1_000_000)?;
    text.put("inside", holders.len() as u64, 0, 15)?;
    for (at, holder) in holders.iter().enumerate() {
        text.put("holder", u64::from(*holder), 1, 16)?;
        let number = *holder as usize;
        if before(holders, at).is_some_and(|before| *holder <= before) || number > form.lives.len() || number == part + 1 {
            return Err(text.fault(12));
        }
    }
    Ok(())
}

fn lines(form: &Form) -> Result<Text, Fault> {
    let mut text = Text::default();
    text.put("horizon", u64::from(form.horizon), 2, 365)?;
    // "with no `idles` line if there are none".
    if !form.idles.is_empty() {
        text.put("idles", form.idles.len() as u64, 1, 365)?;
        for (at, step) in form.idles.iter().enumerate() {
            text.put_step("idle", *step, before(form.idles, at), form.horizon)?;
        }
    }

    text.put("openings", form.openings.len() as u64, 0, 64)?;
    // "Fees not as many as openings give 3 on the `openings` line".
    if form.fees.len() != form.openings.len() {
        return Err(text.fault(3));
    }
    for (at, step) in form.openings.iter().enumerate() {
        text.put_step("opening", *step, before(form.openings, at), form.horizon)?;
        text.put("fee", u64::from(form.fees[at]), 0, 1_000_000)?;
    }

    put_parts(&mut text, form)?;
    Ok(text)
}

/// The lines from `parts` on.
fn put_parts(text: &mut Text, form: &Form) -> Result<(), Fault> {
    text.put("parts", form.lives.len() as u64, 1, 16)?;
    // "lefts not as many as lives, prices not parts times openings, or a list added later of a wrong length, on the `parts` line".
    if !fits(form) {
        return Err(text.fault(3));
    }
    let mut covers = form.removals.iter().zip(form.insides);
    let mut rules = form.bases.iter().zip(form.drops).zip(form.leasts);
    let mut holders = form.holders;
    let mut lows = form.lows.iter();
    let mut prices = form.prices.iter().zip(form.banded);
    for (part, life) in form.lives.iter().enumerate() {
        text.put("life", u64::from(*life), 1, 1000)?;
        text.put("left", u64::from(form.lefts[part]), 0, 1000)?;
        // "5: `left` greater than `life`, on the `left` line."
        if form.lefts[part] > *life {
            return Err(text.fault(5));
        }
        if form.covered[part] == 1 {
            let (removal, inside) = covers.next().expect("a removal and an inside for each covered part");
            let (own, rest) = holders.split_at(*inside as usize);
            put_cover(text, form, part, *removal, own)?;
            holders = rest;
        }
        if form.ruled[part] == 1 {
            let ((base, drop), least) = rules.next().expect("a base, a drop and a least for each ruled part");
            text.put("base", u64::from(*base), 1, 1_000_000)?;
            text.put("drop", u64::from(*drop), 0, 1_000_000)?;
            text.put("least", u64::from(*least), 1, 1_000_000)?;
            continue;
        }
        for (price, banded) in prices.by_ref().take(form.openings.len()) {
            let low = if *banded == 1 { lows.next().copied() } else { None };
            put_price(text, *price, low)?;
        }
    }
    Ok(())
}

/// The lines of a price: one, or a pair where it has a low end. "13 for low above high, on the `high` line after 3".
fn put_price(text: &mut Text, price: u32, low: Option<u32>) -> Result<(), Fault> {
    let Some(low) = low else { return text.put("price", u64::from(price), 1, 1_000_000) };
    text.put("low", u64::from(low), 1, 1_000_000)?;
    text.put("high", u64::from(price), 1, 1_000_000)?;
    if low > price {
        return Err(text.fault(13));
    }
    Ok(())
}

/// The writer, with an output of this length. "A call that writes a job text puts no `result` line before it; a refusal there writes the
/// lines above, with `text` 1".
pub fn write(form: &Form, output: usize) -> Reply {
    if output < LEAST_OUTPUT {
        return Reply::short_output();
    }
    match lines(form) {
        Ok(text) => Reply { bytes: text.lines.concat().into_bytes(), ..Reply::default() },
        Err(fault) => Reply::fault(1, fault),
    }
}
