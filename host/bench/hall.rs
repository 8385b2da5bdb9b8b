//! The hall: the library's call beside the Rust walk by line, on halls of two and of four lines, without holders and with them, in one run.

use crate::{timed, Outcome, Timed};
use juzvarola_checks::fast::{Hall, HallBest};

/// The nodes that are walked; no walk of these halls ends before.
const NODES: u64 = 10_000_000;
/// Each is called so often, in turn.
const RUNS: usize = 4;
const OPENINGS: usize = 64;
const PARTS: usize = 16;
const CALL: u32 = 200;

/// A part's life, what is left of its first, and its price.
const LIVES: [[usize; 3]; 8] =
    [[13, 9, 80], [19, 15, 185], [34, 30, 160], [18, 12, 125], [11, 7, 60], [23, 17, 140], [9, 5, 45], [29, 21, 210]];

/// The holders of parts, by their numbers in the line.
const HOLDERS: [&[usize]; 8] = [&[], &[1], &[1, 2], &[], &[4], &[], &[], &[]];

/// A hall of so many lines, which share its 16 parts and 64 openings evenly: of two lines both are open at each second step, of four two at a time.
fn text(lines: usize, held: bool) -> String {
    let (parts, openings) = (PARTS / lines, OPENINGS / lines);
    let mut text = format!("machines={lines}\ncall={CALL}\n");
    for line in 0..lines {
        text += &format!("horizon=64\nopenings={openings}\n");
        for k in 0..openings {
            let step = if lines == 2 { 2 + 2 * k } else { 2 + 2 * (line % 2) + 4 * k };
            text += &format!("opening={step}\nfee={}\n", 40 + 10 * line);
        }
        text += &format!("parts={parts}\n");
        for p in 0..parts {
            let [life, left, price] = LIVES[(line * parts + p) % LIVES.len()];
            text += &format!("life={}\nleft={}\n", life + line, left + line / 2);
            if held {
                let holders: String = HOLDERS[p].iter().map(|holder| format!("holder={holder}\n")).collect();
                text += &format!("removal={}\ninside={}\n{holders}", 20 + 5 * p, HOLDERS[p].len());
            }
            text += &format!("price={}\n", price + 7 * line).repeat(openings);
        }
    }
    text
}

#[cfg(feature = "library")]
fn library(hall: &[u8], walk: u64) -> Timed {
    let mut out = [0; 16_384];
    let (time, answer) = timed(|| juzvarola_host::hall(hall, walk, &mut out));
    assert_eq!(answer.result, 7);
    let planned = juzvarola_host::PlannedHall::of(answer, &out[..answer.length]);
    let [nodes, floor] = [planned.nodes, planned.floor].map(|value| u64::from(value.expect("a number")));
    (time, Outcome { nodes, floor, cost: planned.cost.map(u64::from) })
}

fn rust(hall: &[u8], walk: u64) -> Timed {
    let (time, found) = timed(|| Hall::read(hall).solve(walk).expect("each line has a plan"));
    (time, Outcome { nodes: found.nodes, floor: found.floor, cost: found.best.map(|HallBest { cost, .. }| cost) })
}

/// The least time of a call with this walk number, of each in turn; all say the same.
fn least(solvers: &[fn(&[u8], u64) -> Timed], hall: &[u8], walk: u64) -> Vec<f64> {
    let mut least = vec![f64::MAX; solvers.len()];
    let mut said = None;
    for _ in 0..RUNS {
        for (solve, least) in solvers.iter().zip(&mut least) {
            let (time, outcome) = solve(hall, walk);
            assert_eq!(*said.get_or_insert(outcome), outcome, "two walks differ");
            *least = least.min(time);
        }
    }
    least
}

/// The table: nanoseconds of each node after the first, which are the whole call's less those of a call with walk number 1.
pub fn table() {
    let solvers: Vec<fn(&[u8], u64) -> Timed> = vec![
        #[cfg(feature = "library")]
        library,
        rust,
    ];
    let there = solvers.len() == 2;
    println!("{}", if there { "| hall | library | Rust | ratio |\n|---|---|---|---|" } else { "| hall | Rust |\n|---|---|" });
    for (lines, held) in [(2, false), (4, false), (2, true), (4, true)] {
        let text = text(lines, held);
        let [first, whole] = [1, NODES].map(|walk| least(&solvers, text.as_bytes(), walk));
        let times: Vec<f64> = first.iter().zip(&whole).map(|(first, whole)| (whole - first) / (NODES - 1) as f64 * 1e9).collect();
        let cells: String = times.iter().map(|time| format!(" {time:.1} |")).collect();
        let ratio = if there { format!(" {:.2} |", times[0] / times[1]) } else { String::new() };
        println!("| {lines} lines{} |{cells}{ratio}", if held { " with holders" } else { "" });
    }
}
