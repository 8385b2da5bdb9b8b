//! Order forms: random ones, valid and damaged, and the vectors.

use super::inputs::{self, Facts, Size};
use super::rng::Rng;
use juzvarola_checks::compared::{self, LISTS as COUNT};
use juzvarola_checks::reference::Reply;
use juzvarola_host::Form;
use std::path::{Path, PathBuf};

/// The lists of a form, in the job text's order.
pub const LISTS: [&str; COUNT] = [
    "idles", "openings", "fees", "lives", "lefts", "covered", "removals", "insides", "holders", "ruled", "bases", "drops", "leasts",
    "banded", "lows", "prices",
];

/// The places of `covered`, of `ruled` and of `banded`.
const COVERED: usize = 5;
const RULED: usize = 9;
const BANDED: usize = 13;

/// A call of the writer, with lists of its own.
#[derive(Debug, Clone, Default)]
pub struct FormCall {
    pub output: usize,
    pub horizon: u32,
    pub lists: [Vec<u32>; COUNT],
}

impl FormCall {
    pub fn form(&self) -> Form<'_> {
        compared::form(self.horizon, self.lists.each_ref().map(Vec::as_slice))
    }

    /// The form that has a job's facts.
    pub fn of(facts: &Facts, output: usize) -> FormCall {
        let numbers = |values: Vec<u64>| values.into_iter().map(|value| value as u32).collect();
        let covers = || facts.parts.iter().filter_map(|part| part.cover.as_ref());
        let rules = || facts.parts.iter().filter_map(|part| part.rule);
        let listed = || facts.parts.iter().filter(|part| part.rule.is_none());
        let lists = [
            numbers(facts.idles.clone()),
            numbers(facts.openings.iter().map(|opening| opening.0).collect()),
            numbers(facts.openings.iter().map(|opening| opening.1).collect()),
            numbers(facts.parts.iter().map(|part| part.life).collect()),
            numbers(facts.parts.iter().map(|part| part.left).collect()),
            numbers(facts.parts.iter().map(|part| u64::from(part.cover.is_some())).collect()),
            numbers(covers().map(|cover| cover.0).collect()),
            numbers(covers().map(|cover| cover.1.len() as u64).collect()),
            numbers(covers().flat_map(|cover| cover.1.clone()).collect()),
            numbers(facts.parts.iter().map(|part| u64::from(part.rule.is_some())).collect()),
            numbers(rules().map(|rule| rule.base).collect()),
            numbers(rules().map(|rule| rule.drop).collect()),
            numbers(rules().map(|rule| rule.least).collect()),
            numbers(listed().flat_map(|part| part.lows.iter().map(|low| u64::from(low.is_some()))).collect()),
            numbers(listed().flat_map(|part| part.lows.iter().flatten().copied()).collect()),
            numbers(listed().flat_map(|part| part.prices.clone()).collect()),
        ];
        FormCall { output, horizon: facts.horizon as u32, lists }
    }

    /// The same form with no lines of removals and holders.
    pub fn without_covers(mut self) -> FormCall {
        let parts = self.lists[3].len();
        self.lists[COVERED..COVERED + 4].iter_mut().for_each(Vec::clear);
        self.lists[COVERED].resize(parts, 0);
        self
    }

    /// The same form with no lines of rules.
    pub fn without_rules(mut self) -> FormCall {
        let parts = self.lists[3].len();
        self.lists[RULED..RULED + 4].iter_mut().for_each(Vec::clear);
        self.lists[RULED].resize(parts, 0);
        self
    }

    /// The same form with single prices only.
    pub fn without_bands(mut self) -> FormCall {
        let prices = self.lists[COUNT - 1].len();
        self.lists[BANDED..BANDED + 2].iter_mut().for_each(Vec::clear);
        self.lists[BANDED].resize(prices, 0);
        self
    }

    /// What the reference writes.
    pub fn expected(&self) -> Reply {
        juzvarola_checks::reference::write(&self.form(), self.output)
    }
}

/// Sizes of random forms, up to the largest job.
const SIZES: [Size; 3] = [
    Size { horizon: 12, openings: 6, parts: 4 },
    Size { horizon: 60, openings: 20, parts: 8 },
    Size { horizon: 365, openings: 64, parts: 16 },
];

/// A number at or beside a limit, or any.
fn value(rng: &mut Rng) -> u32 {
    let limit = rng.pick(&[0, 1, 2, 16, 64, 365, 1000, 1_000_000, 4_000_000_000, u32::MAX]);
    match rng.below(4) {
        0 => rng.next() as u32,
        1 => limit.wrapping_add(1),
        2 => limit.wrapping_sub(1),
        _ => limit,
    }
}

/// Another length of a list: one shorter or longer, one beside a limit, or very long.
fn resize(rng: &mut Rng, list: &mut Vec<u32>) {
    let last = list.last().copied().unwrap_or(1);
    match rng.below(12) {
        0..=3 => list.truncate(list.len().saturating_sub(1)),
        4..=7 => list.push(last.saturating_add(rng.below(2) as u32)),
        8 => list.clear(),
        9 => list.resize(rng.pick(&[1, 15, 16, 17, 63, 64, 65, 364, 365, 366, 1023, 1024, 1025]), last),
        10 => list.extend(list.clone()),
        _ => list.resize(rng.within(1000, 20_000) as usize, last),
    }
}

/// A damage to what the lists say of removals and holders.
fn damage_covers(rng: &mut Rng, call: &mut FormCall) {
    let [_, _, _, lives, _, covered, removals, insides, holders, ..] = &mut call.lists;
    let parts = lives.len() as u32;
    let numbers = [0, 1, 2, 3, parts, parts.wrapping_add(1), 15, 16, 17, u32::MAX];
    match rng.below(6) {
        // One part's lines more or fewer, with a removal and no holder or without them.
        0 if !covered.is_empty() => {
            let part = rng.below(covered.len() as u64) as usize;
            covered[part] ^= 1;
        }
        1 if covered.contains(&0) => {
            let part = covered.iter().position(|stands| *stands == 0).expect("one without lines");
            let before = covered[..part].iter().filter(|stands| **stands == 1).count();
            covered[part] = 1;
            removals.insert(before.min(removals.len()), rng.pick(&[0, 7, 1_000_000, 1_000_001]));
            insides.insert(before.min(insides.len()), 0);
        }
        // One holder more of some part.
        2 | 3 if !insides.is_empty() => {
            let at = rng.below(insides.len() as u64) as usize;
            let before: u64 = insides[..=at].iter().map(|inside| u64::from(*inside)).sum();
            insides[at] = insides[at].wrapping_add(1);
            holders.insert(before.min(holders.len() as u64) as usize, rng.pick(&numbers));
        }
        4 if holders.len() > 1 => {
            let place = rng.below(holders.len() as u64 - 1) as usize;
            holders.swap(place, place + 1);
        }
        _ if !holders.is_empty() => {
            let place = rng.below(holders.len() as u64) as usize;
            holders[place] = rng.pick(&numbers);
        }
        _ => {}
    }
}

/// A damage to what the lists say of rules.
fn damage_rules(rng: &mut Rng, call: &mut FormCall) {
    let openings = call.lists[1].len();
    let [.., ruled, bases, drops, leasts, banded, lows, prices] = &mut call.lists;
    if ruled.is_empty() {
        return;
    }
    let part = rng.below(ruled.len() as u64) as usize;
    let before = ruled[..part].iter().filter(|stands| **stands == 1).count();
    match rng.below(5) {
        // One part's rule more or less, with its lists as they were, or with a rule of its own and no prices.
        0 => ruled[part] ^= 1,
        1 => ruled[part] = rng.pick(&[2, 3, u32::MAX]),
        2 if ruled[part] == 0 => {
            ruled[part] = 1;
            for (list, values) in
                [(bases, [1, 1_000_000, 0, 1_000_001]), (drops, [0, 3, 1_000_000, 1_000_001]), (leasts, [1, 9, 0, u32::MAX])]
            {
                list.insert(before.min(list.len()), rng.pick(&values));
            }
            // At times the prices stay, which are then too many.
            let from = ((part - before) * openings).min(prices.len());
            let to = if rng.once_in(4) { from } else { (from + openings).min(prices.len()) };
            prices.drain(from..to);
            let bands = banded.get(from..to).map_or(0, |own| own.iter().filter(|stands| **stands == 1).count());
            let first = banded.iter().take(from).filter(|stands| **stands == 1).count();
            banded.drain(from.min(banded.len())..to.min(banded.len()));
            lows.drain(first.min(lows.len())..(first + bands).min(lows.len()));
        }
        _ => {
            let list = [bases, drops, leasts].into_iter().nth(rng.below(3) as usize).expect("three lists");
            if !list.is_empty() {
                let place = rng.below(list.len() as u64) as usize;
                list[place] = rng.pick(&[0, 1, 1_000_000, 1_000_001, u32::MAX]);
            }
        }
    }
}

/// A damage to what the lists say of bands.
fn damage_bands(rng: &mut Rng, call: &mut FormCall) {
    let [.., banded, lows, prices] = &mut call.lists;
    if banded.is_empty() {
        return;
    }
    let at = rng.below(banded.len() as u64) as usize;
    let before = banded[..at].iter().filter(|stands| **stands == 1).count();
    match rng.below(6) {
        // One band more or less, with the low ends as they were or with one of its own.
        0 => banded[at] ^= 1,
        1 => banded[at] = rng.pick(&[2, 3, u32::MAX]),
        2 | 3 if banded[at] == 0 => {
            banded[at] = 1;
            let high = prices.get(at).copied().unwrap_or(1);
            lows.insert(before.min(lows.len()), rng.pick(&[1, high, high.saturating_add(1), 0, 1_000_001]));
        }
        _ if before < lows.len() => {
            let high = prices.get(at).copied().unwrap_or(1);
            lows[before] = rng.pick(&[0, 1, high, high.saturating_add(1), 1_000_000, 1_000_001, u32::MAX]);
        }
        _ => {}
    }
}

fn damage(rng: &mut Rng, call: &mut FormCall) {
    if inputs::holders_on() && rng.once_in(4) {
        return damage_covers(rng, call);
    }
    if inputs::rules_on() && rng.once_in(5) {
        return damage_rules(rng, call);
    }
    if inputs::bands_on() && rng.once_in(5) {
        return damage_bands(rng, call);
    }
    let at = rng.below(LISTS.len() as u64) as usize;
    match rng.below(8) {
        0 => call.horizon = value(rng),
        1..=3 => resize(rng, &mut call.lists[at]),
        4 if call.lists[at].len() > 1 => {
            let place = rng.below(call.lists[at].len() as u64 - 1) as usize;
            call.lists[at].swap(place, place + 1);
        }
        5 => {
            let other = rng.below(LISTS.len() as u64) as usize;
            call.lists.swap(at, other);
        }
        // A left above its life, a step past the horizon.
        6 if !call.lists[4].is_empty() => {
            let part = rng.below(call.lists[4].len() as u64) as usize;
            call.lists[4][part] = call.lists[3].get(part).map_or(1, |life| life.saturating_add(1));
        }
        _ => {
            if !call.lists[at].is_empty() {
                let place = rng.below(call.lists[at].len() as u64) as usize;
                call.lists[at][place] = value(rng);
            }
        }
    }
}

/// A random form: about a third have no fault, the others one or more; some outputs are too short.
pub fn random(rng: &mut Rng) -> FormCall {
    let size = match rng.below(40) {
        0 => SIZES[2],
        1..=5 => SIZES[1],
        _ => SIZES[0],
    };
    let facts = inputs::facts(rng, size);
    let output = match rng.below(12) {
        0 => rng.pick(&[0, 1, 100, 16_384, 32_768, 40_958, 40_959]),
        1 => rng.within(40_961, 60_000) as usize,
        _ => 40_960,
    };
    let call = if rng.once_in(3) { FormCall::of(&facts, output) } else { damaged(rng, &facts, output) };
    let call = if inputs::holders_on() { call } else { call.without_covers() };
    let call = if inputs::rules_on() { call } else { call.without_rules() };
    if inputs::bands_on() {
        call
    } else {
        call.without_bands()
    }
}

/// The form that has a job's facts, with one to three damages.
pub fn damaged(rng: &mut Rng, facts: &Facts, output: usize) -> FormCall {
    let mut call = FormCall::of(facts, output);
    for _ in 0..rng.pick(&[1, 1, 1, 2, 3]) {
        damage(rng, &mut call);
    }
    call
}

/// A vector of `vectors/write*.txt`: a call, and what it answers.
pub struct FormVector {
    pub call: FormCall,
    pub reply: Reply,
}

/// A form that does not speak of removals and holders has none, and one that does not speak of rules or of bands has none. It is then of
/// before a job text could have 40,960 bytes, and an output that was long enough is made so long.
fn vector(line: &str) -> FormVector {
    let field = |name: &str| super::vectors::field(line, name);
    let number = |name: &str| field(name).parse::<u32>().expect("a number");
    let list = |name: &str| match if line.contains(&format!(" {name}=")) { field(name) } else { "-" } {
        "-" => Vec::new(),
        values => values.split(',').map(|value| value.parse().expect("a number")).collect(),
    };
    let mut lists = LISTS.map(list);
    for stands in [COVERED, RULED] {
        if !line.contains(&format!(" {}=", LISTS[stands])) {
            lists[stands] = vec![0; lists[3].len()];
        }
    }
    let older = !line.contains(&format!(" {}=", LISTS[BANDED]));
    if older {
        lists[BANDED] = vec![0; lists[COUNT - 1].len()];
    }
    let output = number("out") as usize;
    let output = if older && output >= 32_768 { output.max(40_960) } else { output };
    FormVector {
        call: FormCall { output, horizon: number("horizon"), lists },
        reply: Reply {
            result: number("result"),
            text: number("text"),
            line: number("line"),
            bytes: super::vectors::hex(field("written")),
            ..Reply::default()
        },
    }
}

/// A vector of before the walk number came with the call, without the walk line that the writer wrote then; none where the fault was that line's.
fn without_walk(line: &str) -> Option<FormVector> {
    let FormVector { call, mut reply } = vector(line);
    if !line.contains(" walk=") {
        return Some(FormVector { call, reply });
    }
    let idles = call.lists[0].len() as u32;
    let own = if idles == 0 { 2 } else { 3 + idles };
    let text = String::from_utf8(reply.bytes).expect("answers are ASCII");
    reply.bytes = match reply.result {
        0 => text.split_inclusive('\n').filter(|line| !line.starts_with("walk=")).collect::<String>(),
        8 => text,
        _ if reply.line == own => return None,
        _ => {
            let before = reply.line;
            reply.line -= u32::from(before > own);
            text.replace(&format!("\nline={before}\n"), &format!("\nline={}\n", reply.line))
        }
    }
    .into_bytes();
    Some(FormVector { call, reply })
}

pub fn vectors() -> Vec<FormVector> {
    let folder = Path::new(env!("CARGO_MANIFEST_DIR")).join("vectors");
    let kept = if inputs::holders_on() {
        &["write.txt", "write7.txt", "writewalk10.txt", "write10.txt", "write11.txt"][..]
    } else {
        &["write.txt"]
    };
    let files = match std::env::var("JUZVAROLA_FORMS") {
        Ok(file) => vec![file.into()],
        Err(_) => kept.iter().map(|file| folder.join(file)).collect::<Vec<PathBuf>>(),
    };
    // A form of before `left` could be 0 was refused for that.
    let refused = |vector: &FormVector| vector.reply.result == 3 && vector.call.lists[4].contains(&0);
    let read =
        |file: PathBuf| std::fs::read_to_string(file).expect("the forms' vectors").lines().filter_map(without_walk).collect::<Vec<_>>();
    files.into_iter().flat_map(read).filter(|vector| !refused(vector)).collect()
}
