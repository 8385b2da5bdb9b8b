//! Faults of a text in words, with the line at fault beneath, as compilers do.

use crate::calls::Reply;
use crate::failure::{status_of, Failure, Fault};
use crate::files::Input;
use crate::numbers::grouped;
use crate::output::shown_line;
use crate::{halls, slips, texts};
use juzvarola_host::lines::{self, Line, Stands};

/// The words for a fault by its number, where its line has none of its own.
const WORDS: &[(u32, &str)] = &[
    (2, "the line is not well formed"),
    (3, "the value is outside its range"),
    (4, "the step does not rise or is past the horizon"),
    (8, "the library was lent too short an output"),
    (9, "the plan does not fit the job"),
    (0, "the text is at fault"),
];

/// The failure that a refusal of a job, or of a plan of it, is: its words with the number, and the line at fault as it stands in the caller's file.
pub fn refusal(reply: &Reply, job: &Input, plan: Option<&Input>) -> Failure {
    match plan.filter(|_| reply.text == 2) {
        Some(plan) => failure_in(reply, plan, lines::PLAN),
        None => failure_in(reply, job, lines::JOB),
    }
}

/// The same of a job, or of a work log of it.
pub fn log_refusal(reply: &Reply, job: &Input, log: &Input) -> Failure {
    match reply.text {
        2 => failure_in(reply, log, lines::LOG),
        _ => failure_in(reply, job, lines::JOB),
    }
}

/// The same of a hall's text: its head, or one of the jobs that stand in it.
pub fn hall_refusal(reply: &Reply, hall: &Input) -> Failure {
    let text = &hall.bytes;
    let starts: Vec<usize> = texts::line_starts(text).collect();
    let at = |line: u32| starts.get(line.saturating_sub(1) as usize).copied().unwrap_or(text.len());
    let fault = at(reply.line);
    // The job that the line stands in begins before it; where it is whole, another one begins at the line.
    let begun = halls::job_starts(&text[..fault]);
    let whole = begun.last().is_none_or(|start| ends_before(&text[*start..fault]));
    let machines = texts::pairs(text).find(|(key, _)| *key == b"machines").map_or(0, |(_, machines)| machines);
    let words = match (reply.result, whole) {
        (1, _) => "the text has over 65,536 bytes".to_string(),
        (14, _) => halls::unlike_words(reply, text),
        _ if reply.line <= lines::HALL.len() as u32 => words_for(reply, text, lines::HALL),
        (_, true) if begun.len() as u64 >= machines => format!("the text goes on after its last line: `machines` is {machines}"),
        (_, true) => words_for(&Reply { line: 1, ..reply.clone() }, &text[fault..], lines::JOB),
        (_, false) => {
            let start = begun.last().copied().unwrap_or(fault);
            let before = texts::line_starts(&text[start..fault]).count() as u32;
            words_for(&Reply { line: before + 1, ..reply.clone() }, &text[start..], lines::JOB)
        }
    };
    failure_of(reply, hall, words)
}

/// Whether these lines of a job are all of it.
fn ends_before(lines_of_job: &[u8]) -> bool {
    lines::following(lines::JOB, &texts::pairs(lines_of_job).collect::<Vec<_>>())
        .is_some_and(|may| may.iter().all(|line| line.stands != Stands::Always))
}

/// The failure that a refusal of a text with these lines is.
fn failure_in(reply: &Reply, at_fault: &Input, table: &'static [Line]) -> Failure {
    failure_of(reply, at_fault, words_for(reply, &at_fault.bytes, table))
}

/// The failure that a refusal in these words is.
fn failure_of(reply: &Reply, at_fault: &Input, words: String) -> Failure {
    let shown = shown_line(&reply.fault);
    let mut message = match reply.line {
        0 => format!("{}: {words} ({})\n", at_fault.name, reply.result),
        line => format!("{}:{line}: {words} ({})\n", at_fault.name, reply.result),
    };
    if !shown.is_empty() {
        message += &format!("    {shown}\n");
    }
    let fault = Fault { file: at_fault.name.clone(), result: reply.result, text: reply.text, line: reply.line, words, shown };
    Failure { status: status_of(reply.result), message, fault: Some(fault) }
}

/// What the fault's number means at its line.
fn words_for(reply: &Reply, text: &[u8], table: &'static [Line]) -> String {
    let key = std::str::from_utf8(reply.fault.split(|byte| *byte == b'=').next().unwrap_or(b"")).unwrap_or("");
    match reply.result {
        1 => format!("the text has over {} bytes", if reply.text == 2 { "32,768" } else { "40,960" }),
        2 => shape(reply, text, table),
        number => meaning(number, key),
    }
}

/// What a fault's number means at the line of a key: any but 2, which is about the line's shape.
pub fn meaning(number: u32, key: &str) -> String {
    let own = lines::find(key);
    match (own.and_then(|line| words_of(line.words, number)), own) {
        (Some(words), _) => words.to_string(),
        (None, Some(line)) if number == 3 => format!("{key} is not a number from {} to {}", grouped(line.least), grouped(line.most)),
        _ => for_any(number).to_string(),
    }
}

fn words_of(table: &[(u32, &'static str)], number: u32) -> Option<&'static str> {
    table.iter().find(|(own, _)| *own == number).map(|(_, words)| *words)
}

/// The words for a number at any line; for a number that is not known, those for any fault.
fn for_any(number: u32) -> &'static str {
    words_of(WORDS, number).or_else(|| words_of(WORDS, 0)).unwrap_or_default()
}

/// What is wrong with the shape of a line (number 2): it is missing, too many, cut short, another one, or its value is no number.
fn shape(reply: &Reply, text: &[u8], table: &'static [Line]) -> String {
    let fault = &reply.fault[..];
    let lines = text.split(|byte| *byte == b'\n').count() as u32;
    if let Some(words) = slips::of_text(text, table, reply.line) {
        return words.to_string();
    }
    let Some(may) = may_stand(reply, text, table) else { return for_any(2).to_string() };
    let meant = may.iter().find(|line| fault.starts_with(format!("{}=", line.key).as_bytes()));
    let Some(due) = meant.or(may.last().filter(|line| line.stands == Stands::Always)) else {
        return "the text goes on after its last line".to_string();
    };
    if fault.is_empty() && reply.line >= lines {
        return format!("the text ends, and {} is due", named(due, &may));
    }
    if meant.is_some() && reply.line == lines && well_formed(&fault[due.key.len() + 1..]) {
        return "the last line is not ended by a line feed".to_string();
    }
    // The line that is meant or due before those that may be left out.
    let keys: Vec<&str> = [due.key].into_iter().chain(may.iter().rev().map(|line| line.key)).collect();
    slips::of_line(fault, &keys).unwrap_or_else(|| format!("{} is due here", named(due, &may)))
}

/// The lines that may stand where the library found a fault; it found none in the lines before. None where these are not known here.
fn may_stand(reply: &Reply, text: &[u8], table: &'static [Line]) -> Option<Vec<&'static Line>> {
    let before = texts::line_starts(text).nth(reply.line.saturating_sub(1) as usize).unwrap_or(text.len());
    lines::following(table, &texts::pairs(&text[..before]).collect::<Vec<_>>())
}

/// The line that is due, as a message names it, with those that may stand in its place.
fn named(due: &Line, may: &[&Line]) -> String {
    let others = may.iter().filter(|line| line.stands == Stands::Maybe && line.key != due.key);
    let others: Vec<String> = others.map(|line| format!("`{}=`", line.key)).collect();
    match &others[..] {
        [] => format!("`{}=`", due.key),
        _ => format!("`{}=` (or {})", due.key, others.join(" or ")),
    }
}

/// Whether a value is 1 to 10 digits with no leading zero.
pub fn well_formed(value: &[u8]) -> bool {
    (1..=10).contains(&value.len()) && value.iter().all(u8::is_ascii_digit) && (value.len() == 1 || value[0] != b'0')
}

#[cfg(test)]
mod tests {
    use super::*;

    fn words(result: u32, text: u32, line: u32, fault: &str) -> Failure {
        let reply = Reply { result, text, line, fault: fault.as_bytes().to_vec(), lines: Vec::new() };
        refusal(&reply, &Input { name: "job".to_string(), bytes: format!("horizon=6\n{fault}\n").into_bytes() }, None)
    }

    /// A number that a later library may answer is a text at fault, with its line.
    #[test]
    fn later_numbers_are_texts_at_fault() {
        let failure = words(99, 1, 2, "later=3");
        assert_eq!((failure.status, failure.message.as_str()), (2, "job:2: the text is at fault (99)\n    later=3\n"));
        let failure = words(99, 1, 0, "");
        assert_eq!((failure.status, failure.message.as_str()), (2, "job: the text is at fault (99)\n"));
    }

    /// A value of an unknown key outside its range is said so.
    #[test]
    fn later_keys_have_words_too() {
        assert_eq!(words(3, 1, 2, "later=1000001").message, "job:2: the value is outside its range (3)\n    later=1000001\n");
    }
}
