//! The stops as events of a calendar (iCalendar, RFC 5545): one for each stop, over the days of its step.

use crate::costs::{prices, removals};
use crate::numbers::grouped;
use crate::verdicts::Judged;

/// The most bytes of a line; a longer one goes on in the next, behind a blank.
const LINE: usize = 75;

/// The calendar: the stops still to come. The plan's steps have dates.
pub fn calendar(judged: &Judged) -> String {
    let mut lines = vec!["BEGIN:VCALENDAR".to_string(), "VERSION:2.0".to_string()];
    lines.push(format!("PRODID:-//juzvarola//juzvarola {}//EN", env!("CARGO_PKG_VERSION")));
    let past = judged.past.map_or(0, |past| past.step);
    for at in (0..judged.plan.stops.len()).filter(|at| judged.plan.stops[*at].step > past) {
        lines.extend(event(judged, at));
    }
    lines.push("END:VCALENDAR".to_string());
    lines.iter().map(|line| folded(line)).collect()
}

/// The event of a stop: all days from the first of its step to the first of the next.
fn event(judged: &Judged, at: usize) -> Vec<String> {
    let (job, naming, stop) = (&judged.job, &judged.naming, &judged.plan.stops[at]);
    let day = |step: u64| naming.first_day(step).map_or(String::new(), |date| date.packed());
    let parts = naming.parts(stop.parts.iter().copied());
    let what = if stop.parts.is_empty() { "no part is changed".to_string() } else { format!("change {parts}") };
    let back = job.put_back(stop);
    let mut words = vec![format!("Step {}. Fee {}, prices {}", stop.step, grouped(job.fee(stop.step)), grouped(prices(job, stop)))];
    words.extend((removals(job, stop) > 0).then(|| format!("removals {}", grouped(removals(job, stop)))));
    words.extend((!back.is_empty()).then(|| format!("out and back in: {}", naming.parts(back.iter().copied()))));
    let refused = if judged.result == 10 { " REFUSED: " } else { " " };
    vec![
        "BEGIN:VEVENT".to_string(),
        format!("UID:stop-{}-{}-{:08x}@juzvarola", stop.step, day(1), mark(&format!("{} {}", judged.job_name, judged.plan_name))),
        format!("DTSTAMP:{}T000000Z", day(1)),
        format!("DTSTART;VALUE=DATE:{}", day(stop.step)),
        format!("DTEND;VALUE=DATE:{}", day(stop.step + 1)),
        format!("SUMMARY:{}", escaped(&format!("Stop {}:{refused}{what}", at + 1))),
        format!("DESCRIPTION:{}", escaped(&format!("{}.\n{}", words.join(", "), judged.sentence()))),
        "END:VEVENT".to_string(),
    ]
}

/// A number that tells one pair of names from another.
fn mark(names: &str) -> u32 {
    names.bytes().fold(2_166_136_261, |mark, byte| (mark ^ u32::from(byte)).wrapping_mul(16_777_619))
}

/// A text as a value.
fn escaped(text: &str) -> String {
    text.replace('\\', "\\\\").replace(';', "\\;").replace(',', "\\,").replace('\n', "\\n").replace(|letter: char| letter.is_control(), " ")
}

/// A line with its end, broken where it is too long, and nowhere within a letter.
fn folded(line: &str) -> String {
    let mut out = String::new();
    let mut room = LINE;
    for letter in line.chars() {
        if letter.len_utf8() > room {
            out.push_str("\r\n ");
            room = LINE - 1;
        }
        out.push(letter);
        room -= letter.len_utf8();
    }
    out + "\r\n"
}
