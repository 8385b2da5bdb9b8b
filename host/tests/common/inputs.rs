//! Random jobs, plans and damaged texts, long and short.

use super::rng::Rng;
use super::{setting, Call};
use juzvarola_checks::reference::{self, model::Rule};
use juzvarola_host::MOST_WALK;
use std::collections::BTreeSet;

const OUTPUT: usize = 16_384;

/// The facts of a job, and the text that states them.
#[derive(Debug, Clone)]
pub struct Facts {
    pub horizon: u64,
    /// The idle steps, rising.
    pub idles: Vec<u64>,
    /// The walk number of the call.
    pub walk: u64,
    /// The number on the walk line, where it stands.
    pub line: Option<u64>,
    /// Step and fee.
    pub openings: Vec<(u64, u64)>,
    pub parts: Vec<PartFacts>,
}

#[derive(Debug, Clone)]
pub struct PartFacts {
    pub life: u64,
    pub left: u64,
    /// The removal and the numbers of the holders, where their lines stand.
    pub cover: Option<(u64, Vec<u64>)>,
    /// The rule that gives the prices, where its lines stand in their place.
    pub rule: Option<Rule>,
    /// The prices, the high ends where they are bands.
    pub prices: Vec<u64>,
    /// For each price its low end where it is a band.
    pub lows: Vec<Option<u64>>,
}

impl Facts {
    pub fn text(&self) -> Vec<u8> {
        self.text_with(&self.idle_lines(), "")
    }

    /// The idle lines, or none where no step is idle.
    fn idle_lines(&self) -> String {
        if self.idles.is_empty() {
            return String::new();
        }
        let lines: String = self.idles.iter().map(|step| format!("idle={step}\n")).collect();
        format!("idles={}\n{lines}", self.idles.len())
    }

    /// The text with these lines after `horizon` and after the walk line, if any.
    fn text_with(&self, after_horizon: &str, after_walk: &str) -> Vec<u8> {
        let walk = self.line.map_or(String::new(), |walk| format!("walk={walk}\n"));
        let mut text = format!("horizon={}\n{after_horizon}{walk}{after_walk}", self.horizon);
        text += &format!("openings={}\n", self.openings.len());
        for (step, fee) in &self.openings {
            text += &format!("opening={step}\nfee={fee}\n");
        }
        text += &format!("parts={}\n", self.parts.len());
        for part in &self.parts {
            text += &format!("life={}\nleft={}\n", part.life, part.left);
            text += &part.cover_lines();
            text += &part.price_lines();
        }
        text.into_bytes()
    }

    /// Whether a removal costs something or a part holds another.
    pub fn is_held(&self) -> bool {
        self.parts.iter().filter_map(|part| part.cover.as_ref()).any(|(removal, holders)| *removal > 0 || !holders.is_empty())
    }

    /// Whether this is the largest job, where all parts at all openings cost more than 2000000000.
    fn is_largest(&self) -> bool {
        self.openings.len() == 64 && self.parts.iter().all(|part| part.cover.as_ref().is_some_and(|(removal, _)| *removal == 1_000_000))
    }

    /// The most running steps between neighbours among step 0, the openings and step T + 1.
    fn longest_gap(&self) -> u64 {
        let steps = [0].into_iter().chain(self.openings.iter().map(|o| o.0)).chain([self.horizon + 1]);
        let running: Vec<u64> = steps.map(|step| step - self.idles.iter().filter(|idle| **idle <= step).count() as u64).collect();
        running.windows(2).map(|pair| pair[1] - pair[0]).max().unwrap_or(1)
    }
}

impl PartFacts {
    fn cover_lines(&self) -> String {
        let Some((removal, holders)) = &self.cover else { return String::new() };
        let lines: String = holders.iter().map(|holder| format!("holder={holder}\n")).collect();
        format!("removal={removal}\ninside={}\n{lines}", holders.len())
    }

    /// The lines of its prices: the rule's where there is one, else one for each opening.
    fn price_lines(&self) -> String {
        match self.rule {
            Some(Rule { base, drop, least }) => format!("base={base}\ndrop={drop}\nleast={least}\n"),
            None => self.prices.iter().zip(&self.lows).map(|(price, low)| price_line(*price, *low)).collect(),
        }
    }

    /// The same part with its prices listed, single ones, the highest first.
    pub fn fall(&mut self) {
        self.rule = None;
        self.lows = vec![None; self.prices.len()];
        self.prices.sort_by(|a, b| b.cmp(a));
    }
}

/// The line of a price, or the two of a band.
fn price_line(price: u64, low: Option<u64>) -> String {
    match low {
        Some(low) => format!("low={low}\nhigh={price}\n"),
        None => format!("price={price}\n"),
    }
}

/// The most of each that a random job has.
#[derive(Clone, Copy)]
pub struct Size {
    pub horizon: u64,
    pub openings: u64,
    pub parts: u64,
}

pub const TINY: Size = Size { horizon: 8, openings: 5, parts: 2 };
/// For all plans with all removals.
pub const NESTED: Size = Size { horizon: 7, openings: 4, parts: 4 };
pub const SMALL: Size = Size { horizon: 14, openings: 7, parts: 4 };
pub const MIDDLE: Size = Size { horizon: 60, openings: 16, parts: 8 };
pub const LARGE: Size = Size { horizon: 365, openings: 64, parts: 16 };

/// Amounts from `least` on in one of several manners: equal, few (so that ties are common), many, the ends of the range, rising, falling.
fn amounts(rng: &mut Rng, count: usize, least: u64) -> Vec<u64> {
    let most = 1_000_000;
    let manner = rng.below(7);
    let equal = rng.within(least, 30);
    let mut amounts: Vec<u64> = (0..count)
        .map(|_| match manner {
            0 => equal,
            1 => rng.within(least, least + 2),
            2 | 3 => rng.within(least, 20),
            4 => rng.within(least, most),
            5 => rng.pick(&[least, most]),
            _ => rng.within(least, 50),
        })
        .collect();
    if manner == 6 {
        amounts.sort();
        if rng.once_in(2) {
            amounts.reverse();
        }
    }
    amounts
}

/// Whether jobs have idle steps: JUZVAROLA_IDLES=0 gives the same random inputs without them.
pub fn idles_on() -> bool {
    setting("JUZVAROLA_IDLES", 1) != 0
}

/// Idle steps of about half of the jobs: all steps, openings, runs, many or few; at times the first and the last.
fn idle_steps(rng: &mut Rng, horizon: u64, openings: &[u64]) -> Vec<u64> {
    if !idles_on() || rng.once_in(2) {
        return Vec::new();
    }
    let mut idles = BTreeSet::new();
    match rng.below(10) {
        0 => idles.extend(1..=horizon),
        1 | 2 => idles.extend(openings.iter().filter(|_| !rng.once_in(3))),
        3..=5 => {
            for _ in 0..rng.within(1, 3) {
                let first = rng.within(1, horizon);
                idles.extend(first..=(first + rng.below(horizon / 3 + 1)).min(horizon));
            }
        }
        6 => idles.extend((1..=horizon).filter(|_| !rng.once_in(3))),
        7 => idles.extend((1..=horizon).filter(|_| rng.once_in(3))),
        _ => idles.extend((0..rng.within(1, 3)).map(|_| rng.within(1, horizon))),
    }
    if rng.once_in(4) {
        idles.extend(1..=rng.within(1, 2));
    }
    if rng.once_in(4) {
        idles.insert(horizon);
    }
    idles.into_iter().collect()
}

/// Whether jobs have removals and holders: JUZVAROLA_HOLDERS=0 gives the same random inputs without them.
pub fn holders_on() -> bool {
    setting("JUZVAROLA_HOLDERS", 1) != 0
}

/// The holders of each part, by number: none, some, many, a chain, a circle of all, a circle of two that holds others, all hold all, trees.
fn holders(rng: &mut Rng, parts: usize) -> Vec<Vec<u64>> {
    let mut order: Vec<usize> = (0..parts).collect();
    (1..parts).for_each(|at| order.swap(at, rng.below(at as u64 + 1) as usize));
    let mut links: BTreeSet<(usize, usize)> = BTreeSet::new();
    let pairs = || (0..parts * parts).map(|pair| (pair / parts, pair % parts));
    let manner = rng.below(9);
    let often = rng.within(1, 4);
    match manner {
        0 => {}
        1 | 2 => links.extend(pairs().filter(|_| rng.below(8) < often)),
        3 | 4 => links.extend(order.windows(2).map(|pair| (pair[0], pair[1]))),
        5 => links.extend((0..parts).map(|at| (order[at], order[(at + 1) % parts]))),
        6 => {
            let circle = parts.min(2);
            links.extend((0..circle).map(|at| (order[at], order[(at + 1) % circle])));
            links.extend((circle..parts).filter(|_| rng.once_in(2)).map(|at| (order[at], order[0])));
        }
        7 => links.extend(pairs()),
        _ => links.extend((1..parts).map(|at| (order[at], order[rng.below(at as u64) as usize]))),
    }
    let own = |part: usize| links.iter().filter(move |(of, by)| *of == part && *by != part).map(|(_, by)| *by as u64 + 1).collect();
    (0..parts).map(own).collect()
}

/// Gives about half of the jobs removals and holders; at times the lines say that there are none.
fn cover(rng: &mut Rng, parts: &mut [PartFacts]) {
    if !holders_on() || rng.once_in(2) {
        return;
    }
    let most = rng.pick(&[0, 0, 1, 5, 20, 1_000_000]);
    let lines = rng.pick(&[2, 4, 1000]);
    let count = parts.len();
    for (part, holders) in parts.iter_mut().zip(holders(rng, count)) {
        let removal = if rng.once_in(4) { 0 } else { rng.within(0, most) };
        let removal = if most == 1_000_000 && rng.once_in(2) { most } else { removal };
        let stand = removal > 0 || !holders.is_empty() || rng.once_in(lines);
        part.cover = stand.then_some((removal, holders));
    }
}

/// Whether jobs have prices by a rule: JUZVAROLA_RULES=0 gives none.
pub fn rules_on() -> bool {
    setting("JUZVAROLA_RULES", 1) != 0
}

/// A rule: prices that don't fall, fall slowly, fall at once to the least, or stay at a least above the base.
fn rule(rng: &mut Rng) -> Rule {
    let most = 1_000_000;
    let base = rng.pick(&[1, 2, 9, 20, 100, 999_999, most]);
    let drop = match rng.below(5) {
        0 => 0,
        1 => rng.pick(&[1, base / 2, base - 1, base, most]),
        _ => rng.within(0, (base / 4).max(2)),
    };
    let least = match rng.below(4) {
        0 => rng.pick(&[1, base, (base + 1).min(most), most]),
        _ => rng.within(1, (base / 2).max(2)),
    };
    Rule { base, drop, least }
}

/// Gives the parts of about a third of the jobs prices by a rule, all of them or some.
fn give_rules(rng: &mut Rng, facts: &mut Facts) {
    if !rules_on() || !rng.once_in(3) {
        return;
    }
    let all = rng.once_in(3);
    let openings = facts.openings.len() as u64;
    for part in &mut facts.parts {
        if all || rng.once_in(2) {
            let rule = rule(rng);
            (part.rule, part.prices) = (Some(rule), rule.prices(openings));
        }
    }
}

/// Whether jobs have bands of prices: JUZVAROLA_BANDS=0 gives none.
pub fn bands_on() -> bool {
    setting("JUZVAROLA_BANDS", 1) != 0
}

/// Gives the prices of about a third of the jobs low ends, all of them or some: anywhere below, at the high end, at 1.
fn give_bands(rng: &mut Rng, parts: &mut [PartFacts]) {
    if !bands_on() || !rng.once_in(3) {
        return;
    }
    let often = rng.pick(&[1, 2, 2, 10]);
    for part in parts.iter_mut().filter(|part| part.rule.is_none()) {
        for (price, low) in part.prices.iter().zip(&mut part.lows) {
            let end = match rng.below(4) {
                0 => rng.pick(&[1, *price]),
                _ => rng.within(1, *price),
            };
            *low = rng.once_in(often).then_some(end);
        }
    }
}

/// A job without faults; most have a plan. Its walk number is the largest, and half of the texts have a walk line.
pub fn facts(rng: &mut Rng, size: Size) -> Facts {
    let horizon = rng.within(2, size.horizon);
    let mut steps: Vec<u64> = (1..=horizon).collect();
    let count = rng.within(0, size.openings.min(horizon)) as usize;
    while steps.len() > count {
        let at = rng.below(steps.len() as u64) as usize;
        steps.remove(at);
    }
    let idles = idle_steps(rng, horizon, &steps);
    let fees = amounts(rng, count, 0);
    let openings: Vec<(u64, u64)> = steps.into_iter().zip(fees).collect();
    let line = rng.once_in(2).then(|| rng.pick(&[0, 1, 11, MOST_WALK]));
    let mut facts = Facts { horizon, idles, walk: MOST_WALK, line, openings, parts: Vec::new() };
    let gap = facts.longest_gap();
    for _ in 0..rng.within(1, size.parts) {
        let life = match rng.below(12) {
            0 => rng.within(1, 1000),
            1 => rng.within(1, horizon),
            2 => rng.within(horizon, horizon + 2),
            _ => rng.within(gap, (gap + horizon / 2).max(gap)),
        };
        let left = match rng.below(8) {
            0 => rng.within(0, life),
            1 => life,
            _ => rng.within(gap.min(life), life),
        };
        facts.parts.push(PartFacts { life, left, cover: None, rule: None, prices: amounts(rng, count, 1), lows: vec![None; count] });
    }
    cover(rng, &mut facts.parts);
    give_rules(rng, &mut facts);
    give_bands(rng, &mut facts.parts);
    facts
}

/// The most points of a walk with removals that the reference walks whole.
const WHOLE: u64 = 300;

/// The same job with a walk number: any up to `most`, the number of points of the whole walk (where that is small) or one beside it.
fn with_walk(rng: &mut Rng, mut facts: Facts, most: u64, whole: bool) -> Facts {
    let walked = |limit| reference::texts::read_job(&facts.text()).expect("a job without faults").walk(limit);
    let whole = whole && !(facts.is_held() && walked(WHOLE).more);
    if whole && rng.once_in(3) {
        return facts;
    }
    if whole && rng.once_in(2) {
        let points = walked(MOST_WALK).nodes;
        facts.walk = rng.within(points - 1, points + 1);
    } else {
        facts.walk = rng.within(0, most);
    }
    facts
}

/// The largest job: 64 openings and 16 parts, which outlast it, all amounts the largest. With removals a plan may cost more than
/// 2000000000.
fn largest(rng: &mut Rng) -> Facts {
    let most = 1_000_000;
    let openings: Vec<(u64, u64)> = (1..=64).map(|step| (step, most)).collect();
    let part = PartFacts { life: 1000, left: rng.within(60, 1000), cover: None, rule: None, prices: vec![most; 64], lows: vec![None; 64] };
    let mut facts =
        Facts { horizon: rng.within(64, 70), idles: Vec::new(), walk: rng.within(0, 80), line: None, openings, parts: vec![part; 16] };
    if holders_on() {
        facts.parts.iter_mut().zip(holders(rng, 16)).for_each(|(part, holders)| part.cover = Some((most, holders)));
    }
    facts
}

/// A job that the reference walks in a short time.
pub fn job(rng: &mut Rng) -> Facts {
    match rng.below(100) {
        0 if rng.once_in(2) => largest(rng),
        0 => {
            let facts = facts(rng, LARGE);
            with_walk(rng, facts, 80, false)
        }
        1..=9 => {
            let facts = facts(rng, MIDDLE);
            with_walk(rng, facts, 200, false)
        }
        _ => {
            let facts = facts(rng, SMALL);
            with_walk(rng, facts, 60, true)
        }
    }
}

/// The plan lines that the planner prints for the job, if there are any.
pub fn printed_plan(job: &[u8], walk: u64) -> Option<Vec<u8>> {
    let bytes = reference::plan(job, walk, OUTPUT).bytes;
    let at = bytes.windows(5).position(|window| window == b"cost=")?;
    Some(bytes[at..].to_vec())
}

/// A plan without faults of the text; `often` of 10 openings are stops, and of 10 parts are changed there. Its cost is true.
fn random_plan(rng: &mut Rng, facts: &Facts, often: u64) -> Vec<u8> {
    let job = reference::texts::read_job(&facts.text()).expect("a job without faults");
    let stops: Vec<bool> = facts.openings.iter().map(|_| rng.below(10) < often).collect();
    let changes = facts.parts.iter().map(|_| stops.iter().map(|stop| *stop && rng.below(10) < often).collect()).collect();
    reference::texts::plan_lines(&job, &reference::model::Plan { stops, changes }).into_bytes()
}

/// A plan text for the job: printed by the planner or random, for the largest job all parts at all openings; its cost at times not the
/// true one.
pub fn plan(rng: &mut Rng, facts: &Facts) -> Vec<u8> {
    let printed = if !facts.is_largest() && rng.once_in(3) { printed_plan(&facts.text(), facts.walk) } else { None };
    let plan = printed.unwrap_or_else(|| {
        let often = if facts.is_largest() { 10 } else { rng.pick(&[5, 8, 9, 10, 10]) };
        random_plan(rng, facts, often)
    });
    if !rng.once_in(4) {
        return plan;
    }
    let cost = [rng.below(100), rng.below(2_000_000_001), 0, 2_000_000_000, rng.below(4_000_000_001), 4_000_000_000][rng.below(6) as usize];
    let rest = plan.iter().position(|byte| *byte == b'\n').expect("a plan has lines");
    [format!("cost={cost}").as_bytes(), &plan[rest..]].concat()
}

const BYTES: &[u8] = b"0123456789==\n\n\r \t-+.,xaeEfo\0\x0b\x7f\x80\xff";

/// Values at the ends of the ranges and of machine numbers.
const VALUES: &[u64] = &[
    0,
    1,
    2,
    15,
    16,
    17,
    63,
    64,
    65,
    364,
    365,
    366,
    999,
    1000,
    1001,
    999999,
    1000000,
    1000001,
    1999999999,
    2000000000,
    2000000001,
    3999999999,
    4000000000,
    4000000001,
    2147483648,
    4294967295,
    4294967296,
    4294967297,
    9999999999,
    10000000000,
    42949672960,
    18446744073709551615,
];

const NO_VALUES: &[&str] = &[
    "",
    "00",
    "01",
    "05",
    "000",
    "0000000001",
    "00000000001",
    "18446744073709551617",
    "-1",
    "+1",
    " 1",
    "1 ",
    "1\r",
    "0x1",
    "1e1",
    "1.0",
    "=1",
    "1=",
    "a",
];

const KEYS: &[&str] = &[
    "horizon", "walk", "openings", "opening", "fee", "parts", "life", "left", "price", "cost", "stops", "stop", "count", "part", "", "Fee",
    " fee", "fee ", "pric", "prices", "result", "removal", "inside", "holder", "base", "drop", "least", "low", "high", "idles", "idle",
];

/// How many of the keys at the end are for idle lines.
const IDLE_KEYS: usize = 2;

/// The bounds of the lines of a text, each with its byte 10.
fn bounds(text: &[u8]) -> Vec<(usize, usize)> {
    let mut bounds = Vec::new();
    let mut start = 0;
    for line in text.split_inclusive(|byte| *byte == b'\n') {
        bounds.push((start, start + line.len()));
        start += line.len();
    }
    bounds
}

fn splice(text: &mut Vec<u8>, from: usize, to: usize, with: &[u8]) {
    text.splice(from..to, with.iter().copied());
}

/// A line: half of the time one with a count, a step or a life, which rules other than its range bind.
fn some_line(rng: &mut Rng, text: &[u8], lines: &[(usize, usize)]) -> (usize, usize) {
    let bound = |line: &&(usize, usize)| !text[line.0..].starts_with(b"price") && !text[line.0..].starts_with(b"fee");
    let bounded: Vec<(usize, usize)> = lines.iter().filter(bound).copied().collect();
    let any = bounded.is_empty() || rng.once_in(2);
    rng.pick(if any { lines } else { &bounded })
}

/// One damage to the text.
pub fn damage(rng: &mut Rng, text: &mut Vec<u8>) {
    let place = rng.below(text.len() as u64 + 1) as usize;
    let byte = rng.pick(BYTES);
    let lines = bounds(text);
    if lines.is_empty() {
        text.push(byte);
        return;
    }
    let (start, end) = some_line(rng, text, &lines);
    // The end of the line's content, without its byte 10.
    let stop = if text[end - 1] == b'\n' { end - 1 } else { end };
    let equals = text[start..stop].iter().position(|byte| *byte == b'=').map(|at| start + at);
    match rng.below(24) {
        // bytes
        0 => splice(text, place, (place + 1).min(text.len()), &[byte]),
        1 => splice(text, place, place, &[byte]),
        2 => splice(text, place, (place + 1).min(text.len()), &[]),
        // ends
        3 => text.truncate(place),
        4 => text.truncate(start),
        5 => text.truncate(stop),
        6 => text.truncate(text.len() - 1),
        7 => text.extend_from_slice(rng.pick(&[&b"\n"[..], b"x", b" ", b"\n\n", b"price=1\n", b"price=1", b"part=1\n", b"=\n", b"\0"])),
        8 => text.extend((0..rng.within(1, 40)).map(|_| rng.pick(BYTES))),
        // lines
        9 => splice(text, start, end, &[]),
        10 => {
            let line = text[start..end].to_vec();
            splice(text, start, start, &line);
        }
        11 => {
            let (other, other_end) = rng.pick(&lines);
            let line = text[other..other_end].to_vec();
            splice(text, start, end, &line);
        }
        12 => splice(text, start, start, b"\n"),
        manner => damage_value(rng, text, manner, (start, equals, stop)),
    }
}

/// A damage to the key or the value of a line with these places of its start, its `=` and its end.
fn damage_value(rng: &mut Rng, text: &mut Vec<u8>, manner: u64, (start, equals, stop): (usize, Option<usize>, usize)) {
    let Some(equals) = equals else { return };
    match manner {
        13 => {
            let keys = if idles_on() { KEYS } else { &KEYS[..KEYS.len() - IDLE_KEYS] };
            splice(text, start, equals, rng.pick(keys).as_bytes());
        }
        14 => splice(text, equals + 1, stop, rng.pick(NO_VALUES).as_bytes()),
        15..=17 => splice(text, equals + 1, stop, rng.pick(VALUES).to_string().as_bytes()),
        _ => nudge(rng, text, equals, stop),
    }
}

/// A value a little larger or smaller.
fn nudge(rng: &mut Rng, text: &mut Vec<u8>, equals: usize, stop: usize) {
    let Some(value) = std::str::from_utf8(&text[equals + 1..stop]).ok().and_then(|digits| digits.parse::<u64>().ok()) else { return };
    let by = rng.within(1, 3);
    let nudged = if rng.once_in(2) { value.saturating_sub(by) } else { value.saturating_add(by) };
    splice(text, equals + 1, stop, nudged.to_string().as_bytes());
}

/// The text made long, to about the most bytes a text may have.
fn lengthened(rng: &mut Rng, mut text: Vec<u8>) -> Vec<u8> {
    let length = rng.pick(&[32_768, 32_769, 40_959, 40_960, 40_961, 40_961, 40_962, 45_000, 65_536, 70_000]);
    let at = rng.pick(&bounds(&text)).0;
    let missing = length - text.len().min(length);
    let fill: Vec<u8> = match rng.below(4) {
        0 => vec![b'0'; missing],
        1 => vec![b'\n'; missing],
        2 => b"price=1\n".iter().copied().cycle().take(missing).collect(),
        _ => (0..missing).map(|_| rng.pick(BYTES)).collect(),
    };
    let at = if rng.once_in(2) { text.len() } else { at };
    splice(&mut text, at, at, &fill);
    text
}

/// A text with one to three damages, at times made long or emptied.
pub fn damaged(rng: &mut Rng, mut text: Vec<u8>) -> Vec<u8> {
    match rng.below(60) {
        0 => return Vec::new(),
        1..=3 => return lengthened(rng, text),
        _ => {}
    }
    for _ in 0..rng.pick(&[1, 1, 1, 1, 2, 3]) {
        damage(rng, &mut text);
    }
    text
}

/// The job's text with a damage to its idle lines.
fn with_damaged_idles(rng: &mut Rng, facts: &Facts) -> Vec<u8> {
    let mut facts = facts.clone();
    if facts.idles.is_empty() {
        facts.idles = (1..=rng.within(1, facts.horizon)).collect();
    }
    let section = facts.idle_lines();
    let mut lines: Vec<String> = section.lines().map(str::to_string).collect();
    let count = facts.idles.len();
    let at = rng.within(1, count as u64) as usize;
    match rng.below(12) {
        0 => lines[0] = "idles=0".to_string(),
        1 => lines[0] = "idles=366".to_string(),
        2 => lines[0] = format!("idles={}", count + 1),
        3 => lines[0] = format!("idles={}", count - 1),
        // An idle line that doesn't rise, or is past the horizon.
        4 => lines[at] = format!("idle={}", rng.below(facts.idles[at - 1] + 1)),
        5 => lines[1..].reverse(),
        6 => lines[at] = format!("idle={}", rng.within(facts.horizon + 1, 367)),
        7 => {
            lines.push(format!("idle={}", rng.within(facts.horizon, 366)));
            lines[0] = format!("idles={}", count + 1);
        }
        // A line missing, or doubled.
        8 => drop(lines.remove(at)),
        9 => lines.insert(at, lines[at].clone()),
        // After `walk`, or twice.
        10 => return facts.text_with("", &section),
        _ => return facts.text_with(&format!("{section}{section}"), ""),
    }
    facts.text_with(&lines.iter().map(|line| format!("{line}\n")).collect::<String>(), "")
}

/// A damage to the lines of a part's removal and holders: the lines of a part with this number among so many parts.
fn damage_cover(rng: &mut Rng, lines: &mut Vec<String>, own: u64, parts: u64) {
    let inside = lines.len() as u64 - 2;
    let at = rng.within(2, (inside + 1).max(2)) as usize;
    let other = |rng: &mut Rng| rng.pick(&[0, 1, own, parts, parts + 1, 16, 17, u64::MAX]);
    match rng.below(14) {
        0 => lines[0] = format!("removal={}", rng.pick(&[1_000_000u64, 1_000_001, 4_294_967_296])),
        1 => lines[1] = format!("inside={}", rng.pick(&[0, 15, 16, 17])),
        2 => lines[1] = format!("inside={}", inside + 1),
        3 => lines[1] = format!("inside={}", inside.saturating_sub(1)),
        // A line missing, doubled or exchanged with the one after it.
        4 => drop(lines.remove(rng.below(lines.len() as u64) as usize)),
        5 => lines.insert(at, lines[at.min(lines.len() - 1)].clone()),
        6 => {
            let first = rng.below(lines.len() as u64 - 1) as usize;
            lines.swap(first, first + 1);
        }
        7 => lines[2..].reverse(),
        // One holder more, or another one: the part itself, one above `parts`, one that doesn't rise, one outside 1 to 16.
        8..=10 => {
            lines.insert(at, format!("holder={}", other(rng)));
            lines[1] = format!("inside={}", inside + 1);
        }
        _ if inside > 0 => lines[at] = format!("holder={}", other(rng)),
        _ => lines.push(format!("holder={}", other(rng))),
    }
}

/// The job's text with a damage to the lines of one part's removal and holders.
fn with_damaged_cover(rng: &mut Rng, facts: &Facts) -> Vec<u8> {
    let mut facts = facts.clone();
    let count = facts.parts.len() as u64;
    let own = rng.below(count);
    let part = &mut facts.parts[own as usize];
    if part.cover.is_none() {
        let holders = (1..=count).filter(|number| *number != own + 1 && rng.once_in(2)).collect();
        part.cover = Some((rng.below(3), holders));
    }
    let section = part.cover_lines();
    let mut lines: Vec<String> = section.lines().map(str::to_string).collect();
    damage_cover(rng, &mut lines, own + 1, count);
    with_lines(&facts, own as usize, &section, &lines)
}

/// A damage to the lines of a part's rule, with a price for each of `openings` to stand in their place or behind them.
fn damage_rule(rng: &mut Rng, lines: &mut Vec<String>, openings: usize) {
    let at = rng.below(3) as usize;
    let value = |key: &str, rng: &mut Rng| format!("{key}={}", rng.pick(&[0, 1, 1_000_000, 1_000_001, 4_294_967_296u64]));
    let prices = |rng: &mut Rng, count: usize| (0..count).map(|_| format!("price={}", rng.within(1, 9))).collect::<Vec<String>>();
    match rng.below(9) {
        0..=2 => lines[at] = value(["base", "drop", "least"][at], rng),
        // A line missing, doubled or exchanged with another.
        3 => drop(lines.remove(at)),
        4 => lines.insert(at, lines[at].clone()),
        5 => lines.swap(at, (at + 1) % 3),
        // Prices behind the rule, some of them in its place, or the rule behind the prices.
        6 => lines.extend(prices(rng, openings.max(1))),
        7 => drop(lines.splice(at..3, prices(rng, openings))),
        _ => drop(lines.splice(0..0, prices(rng, openings.max(1)))),
    }
}

/// The job's text with a damage to the lines of one part's rule.
fn with_damaged_rule(rng: &mut Rng, facts: &Facts) -> Vec<u8> {
    let mut facts = facts.clone();
    let own = rng.below(facts.parts.len() as u64) as usize;
    let rule = facts.parts[own].rule.unwrap_or_else(|| rule(rng));
    facts.parts[own].rule = Some(rule);
    let section = facts.parts[own].price_lines();
    let mut lines: Vec<String> = section.lines().map(str::to_string).collect();
    damage_rule(rng, &mut lines, facts.openings.len());
    with_lines(&facts, own, &section, &lines)
}

/// A damage to the lines of a band.
fn damage_band(rng: &mut Rng, lines: &mut Vec<String>) {
    let at = rng.below(2) as usize;
    let key = ["low", "high"][at];
    match rng.below(9) {
        // A low end above the high one, most often by little.
        0 | 1 => exchange_values(lines),
        2 => lines[at] = format!("{key}={}", rng.pick(&[0, 1, 1_000_000, 1_000_001, 4_294_967_296u64])),
        3 => lines[0] = format!("low={}", rng.within(1, 1_000_000)),
        // A line missing, doubled, exchanged with the other, or another one.
        4 => drop(lines.remove(at)),
        5 => lines.insert(at, lines[at].clone()),
        6 => lines.swap(0, 1),
        7 => lines.push(format!("price={}", rng.within(1, 9))),
        _ => lines[at] = format!("price={}", rng.within(1, 9)),
    }
}

/// The two lines of a band with each other's value.
fn exchange_values(lines: &mut [String]) {
    let value = |line: &str| line.split('=').nth(1).unwrap_or("").to_string();
    let (low, high) = (value(&lines[0]), value(&lines[1]));
    (lines[0], lines[1]) = (format!("low={high}"), format!("high={low}"));
}

/// The job's text with a damage to the lines of one band.
fn with_damaged_band(rng: &mut Rng, facts: &Facts) -> Vec<u8> {
    let mut facts = facts.clone();
    let own = rng.below(facts.parts.len() as u64) as usize;
    let part = &mut facts.parts[own];
    if part.prices.is_empty() {
        return damaged(rng, facts.text());
    }
    part.rule = None;
    let at = rng.below(part.prices.len() as u64) as usize;
    part.lows[at].get_or_insert((part.prices[at] / 2).max(1));
    let section = part.price_lines();
    let own_lines = price_line(part.prices[at], part.lows[at]);
    let mut lines: Vec<String> = own_lines.lines().map(str::to_string).collect();
    damage_band(rng, &mut lines);
    let before: String = part.prices.iter().zip(&part.lows).take(at).map(|(price, low)| price_line(*price, *low)).collect();
    let behind = section[before.len() + own_lines.len()..].lines().map(str::to_string);
    let lines: Vec<String> = before.lines().map(str::to_string).chain(lines).chain(behind).collect();
    with_lines(&facts, own, &section, &lines)
}

/// The job's text with other lines in place of a part's own ones.
fn with_lines(facts: &Facts, part: usize, section: &str, lines: &[String]) -> Vec<u8> {
    let text = String::from_utf8(facts.text()).expect("ASCII");
    // The part's own lines: those after the `life` line with its number.
    let life = text.match_indices("life=").nth(part).expect("a part").0;
    let at = life + text[life..].find(section).expect("its lines");
    let lines: String = lines.iter().map(|line| format!("{line}\n")).collect();
    [&text[..at], &lines, &text[at + section.len()..]].concat().into_bytes()
}

/// The job's text, damaged: in its idle lines once in three, in a part's removal and holders once in six, in its rule or a band once in
/// ten.
pub fn damaged_job(rng: &mut Rng, facts: &Facts) -> Vec<u8> {
    if idles_on() && rng.once_in(3) {
        with_damaged_idles(rng, facts)
    } else if holders_on() && rng.once_in(4) {
        with_damaged_cover(rng, facts)
    } else if rules_on() && rng.once_in(5) {
        with_damaged_rule(rng, facts)
    } else if bands_on() && rng.once_in(4) {
        with_damaged_band(rng, facts)
    } else {
        damaged(rng, facts.text())
    }
}

/// A call of the judge with an empty plan text: the job once in four with a fault, the output now and then short.
pub fn call_on_nothing(rng: &mut Rng) -> Call {
    let facts = job(rng);
    let job = if rng.once_in(4) { damaged_job(rng, &facts) } else { facts.text() };
    let output = if rng.once_in(10) { rng.pick(&[0, 1, 16_383]) } else { OUTPUT };
    Call { job, plan: Some(Vec::new()), walk: 0, output }
}

/// A call: the planner or the judge, on texts with or without faults, now and then with a short or a long output.
pub fn call(rng: &mut Rng) -> Call {
    let call = any_call(rng);
    if holders_on() || !call.is_of_holders() {
        call
    } else {
        self::call(rng)
    }
}

fn any_call(rng: &mut Rng) -> Call {
    let facts = job(rng);
    let output = if rng.once_in(40) { rng.pick(&[0, 1, 100, 16_383, 16_385, 20_000, 40_000]) } else { OUTPUT };
    let text = facts.text();
    let (job, plan) = match rng.below(10) {
        0..=2 => (text, None),
        3 => (damaged_job(rng, &facts), None),
        4 => (damaged_job(rng, &facts), Some(plan(rng, &facts))),
        5..=6 => (text, Some(plan(rng, &facts))),
        7..=8 => {
            let plan = plan(rng, &facts);
            (text, Some(damaged(rng, plan)))
        }
        _ => {
            let plan = plan(rng, &facts);
            (damaged_job(rng, &facts), Some(damaged(rng, plan)))
        }
    };
    Call { job, plan, walk: facts.walk, output }
}
