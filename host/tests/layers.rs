//! `docs/layers.svg`, the picture of the crates, made from `crates.txt`: a crate stands above all that it stands on, and a line leads to each crate below
//! that it does not also reach by way of another. `LAYERS=write cargo test --test layers` draws it anew.

use std::collections::{BTreeMap, BTreeSet};
use std::fs;
use std::path::{Path, PathBuf};

const WIDTH: usize = 1560;
const ROW: usize = 74;
const BOX: usize = 24;
const HEAD: usize = 16;
/// What a letter takes.
const LETTER: usize = 7;
/// A colour for each heading of `crates.txt`, in their order, and again from the first.
const COLOURS: [&str; 13] = [
    "#dbe9f6", "#e3f1d9", "#fdf0cf", "#f9dfd6", "#e7dff3", "#d9f0ee", "#f3e3ea", "#e9e9e1", "#d7e3d2", "#f1e6d2", "#dfe3ea", "#ffffff",
    "#fbe9f7",
];

/// A line of `crates.txt`: its heading, and the crates of the repository that it names.
struct Crate {
    heading: usize,
    on: BTreeSet<String>,
}

fn root() -> PathBuf {
    Path::new(env!("CARGO_MANIFEST_DIR")).join("..")
}

/// `crates.txt`, and its headings.
fn crates() -> (BTreeMap<String, Crate>, Vec<String>) {
    let text = fs::read_to_string(root().join("crates.txt")).expect("crates.txt");
    let (mut found, mut headings) = (BTreeMap::new(), Vec::new());
    for line in text.lines().skip(1) {
        if let Some(heading) = line.strip_prefix("# ") {
            headings.push(heading.to_string());
        } else if let Some((name, on)) = line.split_once(':') {
            let on = on.split_whitespace().map(str::to_string).collect();
            found.insert(name.trim_end_matches(" staticlib").to_string(), Crate { heading: headings.len().saturating_sub(1), on });
        }
    }
    // the kit's own libraries are not drawn
    let names: BTreeSet<String> = found.keys().cloned().collect();
    found.values_mut().for_each(|c| c.on.retain(|other| names.contains(other)));
    (found, headings)
}

/// All that each crate reaches.
fn reached(crates: &BTreeMap<String, Crate>) -> BTreeMap<String, BTreeSet<String>> {
    fn of(name: &str, crates: &BTreeMap<String, Crate>, known: &mut BTreeMap<String, BTreeSet<String>>) -> BTreeSet<String> {
        if let Some(set) = known.get(name) {
            return set.clone();
        }
        let mut set = crates[name].on.clone();
        for other in &crates[name].on {
            set.extend(of(other, crates, known));
        }
        known.insert(name.to_string(), set.clone());
        set
    }
    let mut known = BTreeMap::new();
    crates.keys().for_each(|name| drop(of(name, crates, &mut known)));
    known
}

/// The crates that each stands on and does not also reach by way of another.
fn direct(crates: &BTreeMap<String, Crate>) -> BTreeMap<String, Vec<String>> {
    let reached = reached(crates);
    let of = |c: &Crate| {
        let by_way = |other: &String| c.on.iter().any(|way| reached[way].contains(other));
        c.on.iter().filter(|other| !by_way(other)).cloned().collect()
    };
    crates.iter().map(|(name, c)| (name.clone(), of(c))).collect()
}

/// How high each crate stands: one above the highest that it stands on.
fn height(name: &str, lines: &BTreeMap<String, Vec<String>>) -> usize {
    lines[name].iter().map(|below| height(below, lines) + 1).max().unwrap_or(0)
}

/// The rows from the bottom up, each ordered by where the crates that a crate stands on are.
fn rows(lines: &BTreeMap<String, Vec<String>>) -> Vec<Vec<String>> {
    let mut rows: Vec<Vec<String>> = Vec::new();
    for name in lines.keys() {
        let at = height(name, lines);
        rows.resize(rows.len().max(at + 1), Vec::new());
        rows[at].push(name.clone());
    }
    for at in 1..rows.len() {
        let place: BTreeMap<String, usize> = rows[..at]
            .iter()
            .flat_map(|row| row.iter().enumerate().map(|(i, n)| (n.clone(), (2 * i + 1) * 1000 / (2 * row.len()))))
            .collect();
        rows[at].sort_by_key(|name| {
            let below = &lines[name];
            below.iter().map(|b| place[b]).sum::<usize>() / below.len().max(1)
        });
    }
    rows
}

/// Where each crate's box begins and how wide it is.
fn places(rows: &[Vec<String>]) -> BTreeMap<String, (usize, usize, usize)> {
    let mut found = BTreeMap::new();
    let top = rows.len() - 1;
    for (at, row) in rows.iter().enumerate() {
        let wide = |name: &String| name.len() * LETTER + 14;
        let free = WIDTH.saturating_sub(row.iter().map(wide).sum());
        let gap = free / (row.len() + 1);
        let mut x = gap;
        for name in row {
            found.insert(name.clone(), (x, HEAD + (top - at) * ROW, wide(name)));
            x += wide(name) + gap;
        }
    }
    found
}

/// The picture.
fn picture() -> String {
    let (crates, headings) = crates();
    let lines = direct(&crates);
    let rows = rows(&lines);
    let places = places(&rows);
    let foot = HEAD + rows.len() * ROW;
    let high = foot + 22 * headings.len() + 10;
    let mut text = format!(
        "<svg xmlns=\"http://www.w3.org/2000/svg\" viewBox=\"0 0 {WIDTH} {high}\" font-family=\"DejaVu Sans Mono, monospace\" font-size=\"11\">\n<title>The crates in layers</title>\n<rect width=\"{WIDTH}\" height=\"{high}\" fill=\"#ffffff\"/>\n<g fill=\"none\" stroke=\"#9a9a9a\" stroke-width=\"0.8\">\n"
    );
    for (name, below) in &lines {
        let (x, y, w) = places[name];
        for other in below {
            let (a, b, v) = places[other];
            let (from, to, middle) = (x + w / 2, a + v / 2, (y + BOX + b) / 2);
            text += &format!("<path d=\"M{from} {} C{from} {middle} {to} {middle} {to} {b}\"/>\n", y + BOX);
        }
    }
    text += "</g>\n<g stroke=\"#6b6b6b\" stroke-width=\"0.8\">\n";
    for (name, (x, y, w)) in &places {
        let colour = COLOURS[crates[name].heading % COLOURS.len()];
        text += &format!("<rect x=\"{x}\" y=\"{y}\" width=\"{w}\" height=\"{BOX}\" rx=\"3\" fill=\"{colour}\"/>\n");
    }
    text += "</g>\n<g fill=\"#1d1d1d\" text-anchor=\"middle\">\n";
    for (name, (x, y, w)) in &places {
        text += &format!("<text x=\"{}\" y=\"{}\">{name}</text>\n", x + w / 2, y + BOX - 8);
    }
    text += "</g>\n<g fill=\"#1d1d1d\">\n";
    for (i, heading) in headings.iter().enumerate() {
        let (x, y) = (20, foot + 22 * i);
        let colour = COLOURS[i % COLOURS.len()];
        text += &format!("<rect x=\"{x}\" y=\"{y}\" width=\"14\" height=\"14\" fill=\"{colour}\" stroke=\"#6b6b6b\"/><text x=\"{}\" y=\"{}\">{heading}</text>\n", x + 22, y + 11);
    }
    text + "</g>\n</svg>\n"
}

/// The picture is the one of today's crates.
#[test]
fn the_picture_is_of_todays_crates() {
    let (text, place) = (picture(), root().join("docs/layers.svg"));
    if std::env::var("LAYERS").is_ok_and(|v| v == "write") {
        fs::write(&place, &text).expect("docs/layers.svg");
    }
    assert!(fs::read_to_string(&place).expect("docs/layers.svg") == text, "docs/layers.svg is not of these crates: run with LAYERS=write");
    let (crates, _) = crates();
    assert!(crates.keys().all(|name| text.contains(&format!(">{name}</text>"))), "a crate is missing");
}
