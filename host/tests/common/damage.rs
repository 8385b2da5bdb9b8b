//! Accepted texts, damaged: what `inputs` does to a text, and on top of it bits, bytes and lines moved, keys misspelt by a letter, values at and one past
//! the limits of their own keys, what other systems put into a text, and two texts spliced.

use super::halls::{self, HallFacts};
use super::inputs::{self, Facts};
use super::rng::Rng;
use super::Call;
use juzvarola_checks::reference::texts::read_job;
use juzvarola_host::lines;

/// What other systems and other alphabets put into a text: NUL, line ends, a byte order mark, letters and digits beyond ASCII.
const FOREIGN: &[&[u8]] = &[
    b"\0",
    b"\0\0\0\0",
    b"\r",
    b"\r\n",
    b"\x0c",
    b"\x1a",
    b"\x7f",
    b"\x80",
    b"\xff",
    b"\xc0\xb1",
    b"\xfe\xff",
    "\u{feff}".as_bytes(),
    "\u{e9}".as_bytes(),
    "\u{ff11}".as_bytes(),
    "\u{661}".as_bytes(),
    "\u{2028}".as_bytes(),
    "\u{a0}".as_bytes(),
];

/// The bytes that a plan text, a job text and a hall text may have at most.
const MOST_BYTES: [usize; 3] = [32_768, 40_960, 65_536];

/// The most nodes of a walk that a damaged job is planned with.
const MOST_NODES: u64 = 400;

/// A value at a limit of its key or one past it; the one before and the one after the limits too where they are numbers.
fn at_limit(rng: &mut Rng, line: &str) -> String {
    let key = line.split('=').next().unwrap_or("");
    let Some(lines::Line { least, most, .. }) = lines::find(key) else { return format!("{line}0") };
    let value = rng.pick(&[*least, least.saturating_sub(1), least + 1, *most, most + 1, most - 1, most + 1]);
    format!("{key}={value}")
}

/// A line in the place of this one.
fn other_line(rng: &mut Rng, line: &str) -> String {
    let Some((key, value)) = line.split_once('=') else { return String::new() };
    match rng.below(18) {
        0..=4 => at_limit(rng, line),
        5 => format!("{key}=0{value}"),
        6 => format!("{key}={:0>10}", value),
        7 => format!("{key}={:0>11}", value),
        8 => format!("{key}={value}{}", rng.below(10)),
        9 => format!("{key}=={value}"),
        10 => format!("{}={value}", key.to_uppercase()),
        11 | 12 => format!("{}={value}", misspelt(rng, key)),
        13..=15 => format!("{key}={}", other_digit(rng, value)),
        16 => spaced(rng, line, key.len()),
        _ => format!("{line}\r"),
    }
}

/// A key with one letter changed, dropped, doubled or exchanged with the next one.
fn misspelt(rng: &mut Rng, key: &str) -> String {
    let mut letters: Vec<char> = key.chars().collect();
    if letters.is_empty() {
        return "=".to_string();
    }
    let at = rng.below(letters.len() as u64) as usize;
    match rng.below(4) {
        0 => letters[at] = rng.pick(b"abcdefghijklmnopqrstuvwxyz") as char,
        1 => drop(letters.remove(at)),
        2 => letters.insert(at, letters[at]),
        _ => {
            let next = (at + 1) % letters.len();
            letters.swap(at, next);
        }
    }
    letters.into_iter().collect()
}

/// A value with one digit changed.
fn other_digit(rng: &mut Rng, value: &str) -> String {
    let at = rng.below(value.len().max(1) as u64) as usize;
    let digit = rng.pick(b"0123456789") as char;
    value.chars().enumerate().map(|(place, own)| if place == at { digit } else { own }).collect()
}

/// A line with a blank at its start, on either side of its `=`, or at its end.
fn spaced(rng: &mut Rng, line: &str, equals: usize) -> String {
    let at = rng.pick(&[0, equals, equals + 1, line.len()]).min(line.len());
    format!("{}{}{}", &line[..at], rng.pick(&[" ", "\t", "  "]), &line[at..])
}

/// One line replaced, dropped, doubled, moved, exchanged with another, split or joined with the next.
fn damage_lines(rng: &mut Rng, text: &str) -> String {
    let mut lines: Vec<String> = text.split_inclusive('\n').map(str::to_string).collect();
    let count = lines.len() as u64;
    let (at, other) = (rng.below(count) as usize, rng.below(count) as usize);
    match rng.below(14) {
        0 => drop(lines.remove(at)),
        1 => lines.insert(at, lines[at].clone()),
        2 => lines.swap(at, other),
        3 if at > 0 => lines.swap(at, at - 1),
        4 => {
            let line = lines.remove(at);
            lines.insert(other.min(lines.len()), line);
        }
        5 => lines.drain(at.min(other)..=at.max(other)).for_each(drop),
        6 => lines[at] = lines[at].replace('=', "=\n"),
        7 => lines[at] = lines[at].replace('\n', ""),
        _ => lines[at] = format!("{}\n", other_line(rng, lines[at].trim_end_matches('\n'))),
    }
    lines.concat()
}

/// One bit, one byte or the text's end: flipped, doubled, removed, foreign, cut.
fn damage_bytes(rng: &mut Rng, mut text: Vec<u8>) -> Vec<u8> {
    let at = rng.below(text.len() as u64) as usize;
    match rng.below(10) {
        0 | 1 => text[at] ^= 1 << rng.below(8),
        2 => text.insert(at, text[at]),
        3 => drop(text.remove(at)),
        4 => text[at] = rng.next() as u8,
        5 | 6 => drop(text.splice(at..at, rng.pick(FOREIGN).iter().copied())),
        7 => text.truncate(at),
        8 => text.truncate(text.len() - 1),
        _ => text = String::from_utf8_lossy(&text).replace('\n', "\r\n").into_bytes(),
    }
    text
}

/// The text with bytes behind it, up to the most bytes of a text or to one more.
fn filled(rng: &mut Rng, mut text: Vec<u8>, most: usize) -> Vec<u8> {
    let fill = rng.pick(&[b'\n', b'0', b' ', 0]);
    text.resize(most + rng.below(2) as usize, fill);
    text
}

/// The beginning of a text and the end of another one, each up to any byte or whole lines.
pub fn spliced(rng: &mut Rng, text: &[u8], other: &[u8]) -> Vec<u8> {
    let whole = rng.once_in(2);
    let mut place = |text: &[u8]| {
        let at = rng.below(text.len() as u64 + 1) as usize;
        let line = text[..at].iter().rposition(|byte| *byte == b'\n').map_or(0, |end| end + 1);
        if whole {
            line
        } else {
            at
        }
    };
    let (first, second) = (place(text), place(other));
    [&text[..first], &other[second..]].concat()
}

/// An accepted text, damaged once, now and then twice.
fn damaged(rng: &mut Rng, text: Vec<u8>) -> Vec<u8> {
    if rng.once_in(200) {
        let most = rng.pick(&MOST_BYTES);
        return filled(rng, text, most);
    }
    let once = |rng: &mut Rng, text: Vec<u8>| match String::from_utf8(text) {
        Ok(text) if !text.is_empty() && !rng.once_in(3) => damage_lines(rng, &text).into_bytes(),
        Ok(text) if text.is_empty() => text.into_bytes(),
        Ok(text) => damage_bytes(rng, text.into_bytes()),
        Err(error) => error.into_bytes(),
    };
    let text = once(rng, text);
    if rng.once_in(6) {
        once(rng, text)
    } else {
        text
    }
}

/// The job's text, damaged.
pub fn job(rng: &mut Rng, facts: &Facts) -> Vec<u8> {
    if rng.once_in(2) {
        damaged(rng, facts.text())
    } else {
        inputs::damaged_job(rng, facts)
    }
}

/// The plan text or the log, damaged.
pub fn plan(rng: &mut Rng, plan: &[u8]) -> Vec<u8> {
    if rng.once_in(2) {
        damaged(rng, plan.to_vec())
    } else {
        inputs::damaged(rng, plan.to_vec())
    }
}

/// The hall's text, damaged: as a hall, in one of its lines, or as any text.
pub fn hall(rng: &mut Rng, hall: &HallFacts) -> Vec<u8> {
    match rng.below(40) {
        0 => filled(rng, hall.text(), MOST_BYTES[2]),
        1..=10 => halls::unlike(rng, hall.clone()),
        11..=20 => damaged(rng, hall.text()),
        _ => {
            let at = rng.below(hall.lines.len() as u64) as usize;
            let line = job(rng, &hall.lines[at]);
            hall.text_with(at, &line)
        }
    }
}

/// Whether a job text may be planned: refused, or of a walk that the reference walks in a short time.
pub fn is_short(job: &[u8], walk: u64) -> bool {
    read_job(job).map_or(true, |job| walk <= MOST_NODES || !job.walk(MOST_NODES).more)
}

/// The length of an output: enough, now and then too short or longer.
pub fn room(rng: &mut Rng, enough: usize) -> usize {
    match rng.below(60) {
        0 => rng.pick(&[0, 1, enough - 1]),
        1 => rng.pick(&[enough + 1, 2 * enough]),
        _ => enough,
    }
}

/// A call of the judge on these texts, of the planner with this walk number where there is no plan.
pub fn call(rng: &mut Rng, job: &[u8], plan: Option<&[u8]>, walk: u64) -> Call {
    Call { job: job.to_vec(), plan: plan.map(<[u8]>::to_vec), walk, output: room(rng, 16_384) }
}
