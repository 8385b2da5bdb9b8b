//! One page of HTML with the picture and its lists, to be printed or sent: nothing is fetched and no script is needed. On a small screen the picture keeps
//! a legible size and is moved sideways, by finger or by key.

use super::calendar::{svg, title, verdict};
use super::marks::escaped;
use crate::costs::{low_prices, low_prices_of_part, prices, prices_of_part, removals, removals_of_part};
use crate::numbers::{grouped, span};
use crate::verdicts::Judged;

/// How the page looks. On a small screen the title and the verdict stand above the picture, in place of its own; elsewhere they are only read out.
const STYLE: &str = "\
:root{color-scheme:light}
body{font-family:\"DejaVu Sans\",Verdana,Arial,sans-serif;margin:1.5em;color:#000;background:#fff}
h1{font-size:1.2em;margin:0 0 .4em}
svg{display:block;width:100%;height:auto}
.lists{display:flex;flex-wrap:wrap;align-items:flex-start;gap:2em}
.list{max-width:100%}
table{border-collapse:collapse}caption{text-align:left;font-weight:bold;padding:.4em 0}
th,td{border:1px solid #000;padding:.2em .6em;text-align:right;vertical-align:top}
tbody th{font-weight:normal}th.text,td.text{text-align:left}
tbody span{display:inline-block}.whole{white-space:nowrap}
tr{break-inside:avoid}tr.sums{border-top:3px solid #000}
@page{size:landscape;margin:12mm}
@media screen{.picture,.list{overflow-x:auto}svg{min-width:68rem}}
@media screen and (max-width:50em){body{margin:.8em}table{font-size:.85em}th,td{padding:.2em .4em}td.text{min-width:10em}svg .title,svg .verdict,svg .refused{display:none}}
@media screen and (min-width:50.01em){h1,.read{position:absolute;width:1px;height:1px;overflow:hidden;clip-path:inset(50%)}}
@media print{body{margin:0;font-size:9pt}h1,.read{display:none}svg{max-height:98vh}.lists{break-before:page}}
";

/// The page.
pub fn page(judged: &Judged) -> String {
    let name = escaped(&format!("{} of {}", judged.plan_name, judged.job_name));
    let screen = "<meta name=\"viewport\" content=\"width=device-width, initial-scale=1\"/>";
    let head = format!("<head>\n<meta charset=\"utf-8\"/>\n{screen}\n<title>{name}</title>\n<style>\n{STYLE}</style>\n</head>");
    let words = escaped(&verdict(judged, f64::MAX).concat());
    let top = format!("<h1>{}</h1>\n<p class=\"read\">{words}</p>", escaped(&title(judged)));
    let picture = moved("picture", "Calendar", &svg(judged));
    let lists = format!("<div class=\"lists\">\n{}{}</div>", stops(judged), parts(judged));
    format!("<!DOCTYPE html>\n<html lang=\"en\">\n{head}\n<body>\n<main>\n{top}\n{picture}{lists}\n</main>\n</body>\n</html>\n")
}

/// What is moved sideways where the screen is too small for it.
fn moved(class: &str, name: &str, what: &str) -> String {
    format!("<div class=\"{class}\" role=\"region\" aria-label=\"{}\" tabindex=\"0\">\n{what}</div>\n", escaped(name))
}

/// A column: its head, and whether it has words, which begin at the left.
type Column = (&'static str, bool);

/// A table: its heads, its rows of cells, of which the first is the row's own head, and the row of sums beneath.
fn table(caption: &str, columns: &[Column], rows: &[Vec<String>], sums: &[String]) -> String {
    let class = |text: bool| if text { " class=\"text\"" } else { "" };
    let heads: String = columns.iter().map(|(head, text)| format!("<th scope=\"col\"{}>{}</th>", class(*text), escaped(head))).collect();
    let row = |cells: &[String]| {
        let cell = |(at, (cell, (_, text))): (usize, (&String, &Column))| match at {
            0 => format!("<th scope=\"row\"{}>{cell}</th>", class(*text)),
            _ => format!("<td{}>{cell}</td>", class(*text)),
        };
        cells.iter().zip(columns).enumerate().map(cell).collect::<String>()
    };
    let body: String = rows.iter().map(|cells| format!("<tr>{}</tr>\n", row(cells))).collect();
    let (caption, sums) = (escaped(caption), row(sums));
    let rows = format!("<thead><tr>{heads}</tr></thead>\n<tbody>\n{body}<tr class=\"sums\">{sums}</tr>\n</tbody>");
    moved("list", &caption, &format!("<table>\n<caption>{caption}</caption>\n{rows}\n</table>\n"))
}

/// Names one after the other, in lines that end between two of them; one that is longer than a line is broken, if this class lets it.
fn listed(class: &str, names: impl IntoIterator<Item = String>) -> String {
    let names: Vec<String> = names.into_iter().map(|name| format!("<span{class}>{}", escaped(&name))).collect();
    let ends = names.join(",</span> ");
    if names.is_empty() {
        ends
    } else {
        ends + "</span>"
    }
}

/// The class of steps with their dates, which are short.
const WHOLE: &str = " class=\"whole\"";

/// The stops: how long the line runs before each, what it costs, which parts are changed and which come out and stay in use. The sums stand beneath.
fn stops(judged: &Judged) -> String {
    let Judged { job, plan, naming, costs, .. } = judged;
    let held = job.has_removals();
    let parts = |parts: Vec<u64>| listed("", parts.into_iter().map(|part| naming.part(part)));
    let mut before = 0;
    let mut rows = Vec::new();
    for stop in &plan.stops {
        let done = judged.past.filter(|past| stop.step <= past.step).map_or("", |_| ", done");
        let mut row = vec![
            listed(WHOLE, [naming.step(stop.step) + done]),
            job.runs(before, stop.step).to_string(),
            grouped(job.fee(stop.step)),
            span(low_prices(job, stop), prices(job, stop)),
        ];
        if held {
            row.extend([grouped(removals(job, stop)), parts(job.put_back(stop))]);
        }
        row.push(parts(stop.parts.clone()));
        rows.push(row);
        before = stop.step;
    }
    let mut sums = vec!["all".to_string(), job.runs(0, before).to_string(), grouped(costs.fees), span(costs.low_parts(), costs.parts)];
    if held {
        sums.extend([grouped(costs.removals), String::new()]);
    }
    sums.push(format!("total {}", costs.span()));
    let mut columns = vec![("step", false), ("running steps before", false), ("fee", false), ("prices", false)];
    columns.extend([("removals", false), ("out and back in", true)].into_iter().filter(|_| held));
    columns.push(("parts changed", true));
    table("Stops of the line", &columns, &rows, &sums)
}

/// The parts to buy, and what taking them out costs.
fn parts(judged: &Judged) -> String {
    let Judged { job, plan, naming, costs, .. } = judged;
    let (held, named) = (job.has_removals(), naming.has_names());
    let row = |part: u64| {
        let steps = plan.changes(part);
        let mut row = vec![escaped(&naming.part(part))];
        row.extend(named.then(|| escaped(&naming.order(part).unwrap_or_default())));
        row.extend([steps.len().to_string(), span(low_prices_of_part(job, plan, part), prices_of_part(job, plan, part))]);
        row.extend(held.then(|| grouped(removals_of_part(job, plan, part))));
        row.push(listed(WHOLE, steps.into_iter().map(|step| naming.step(step))));
        row
    };
    let rows: Vec<Vec<String>> = (1..=job.parts.len() as u64).map(row).collect();
    let mut sums = vec!["all".to_string()];
    sums.extend(named.then(String::new));
    sums.extend([plan.change_count().to_string(), span(costs.low_parts(), costs.parts)]);
    sums.extend(held.then(|| grouped(costs.removals)));
    sums.push(String::new());
    let mut columns = vec![("part", named)];
    columns.extend(named.then_some(("order", true)));
    columns.extend([("count", false), ("prices", false)]);
    columns.extend(held.then_some(("removals", false)));
    columns.push(("at steps", true));
    table("Parts to buy", &columns, &rows, &sums)
}
