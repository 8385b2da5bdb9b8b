//! Cases of jobs with holders: the plans of tables 2, 3 and 4 of source document 001, and small ones worked out by hand.

use super::paper::{text, Case};
use super::{walk_of, Call};

fn case(name: &'static str, job: &str, plan: Option<&str>, line: u32, answer: &'static str) -> Case {
    Case { name, call: Call { job: text(job), plan: plan.map(text), walk: walk_of(&text(job)), output: 16_384 }, line, answer }
}

/// Table 1 of 001: 50 steps, five parts, this fee.
fn table_1(fee: u32) -> String {
    let part =
        |life: u32, left: u32, price: u32, cover: &str| format!(" life={life} left={left} {cover}{}", format!(" price={price}").repeat(50));
    let openings: String = (1..=50).map(|step| format!(" opening={step} fee={fee}")).collect();
    let parts = [
        part(7, 2, 80, "removal=20 inside=0"),
        part(10, 5, 185, "removal=45 inside=0"),
        part(16, 11, 160, "removal=40 inside=1 holder=1"),
        part(9, 4, 125, "removal=30 inside=2 holder=2 holder=5"),
        part(20, 15, 150, "removal=35 inside=0"),
    ];
    format!("horizon=50 walk=4000000000 openings=50{openings} parts=5{}", parts.concat())
}

/// The lines of a plan with these stops: step and parts changed.
fn plan(cost: u32, stops: &[(u32, &[u32])]) -> String {
    let parts = |parts: &[u32]| parts.iter().map(|part| format!(" part={part}")).collect::<String>();
    let lines: String = stops.iter().map(|(step, own)| format!(" stop={step} count={}{}", own.len(), parts(own))).collect();
    format!("cost={cost} stops={}{lines}", stops.len())
}

const TABLE_2: &[(u32, &[u32])] = &[
    (2, &[1]),
    (4, &[2, 4]),
    (9, &[1, 3]),
    (13, &[2, 4, 5]),
    (16, &[1, 4]),
    (23, &[1, 2, 3]),
    (24, &[4]),
    (30, &[1]),
    (33, &[2, 4, 5]),
    (37, &[1, 3]),
    (42, &[2, 4]),
    (44, &[1]),
];

const TABLE_3: &[(u32, &[u32])] = &[
    (2, &[1]),
    (4, &[1, 2, 4]),
    (10, &[1, 3]),
    (13, &[2, 4, 5]),
    (17, &[1]),
    (22, &[2, 4]),
    (24, &[1, 3]),
    (31, &[1, 2, 4, 5]),
    (38, &[1, 3, 4]),
    (41, &[2]),
    (44, &[1, 4]),
];

const TABLE_4: &[(u32, &[u32])] = &[
    (2, &[1, 2, 4]),
    (9, &[1, 2, 3, 4, 5]),
    (16, &[1, 2, 4]),
    (23, &[1, 2, 3, 4, 5]),
    (30, &[1, 2, 4]),
    (37, &[1, 2, 3, 4, 5]),
    (44, &[1, 2, 4]),
];

fn tables() -> Vec<Case> {
    let judge = |name, fee, cost, stops, answer| case(name, &table_1(fee), Some(&plan(cost, stops)), 0, answer);
    vec![
        judge("table 2", 10, 4100, TABLE_2, "result=0 cost=4100"),
        judge("table 3", 100, 5180, TABLE_3, "result=0 cost=5180"),
        judge("table 4", 1000, 11690, TABLE_4, "result=0 cost=11690"),
        // Without the parts that come out unchanged: 5 at five stops, 2 at two of them.
        judge("table 2 by changes alone", 10, 3835, TABLE_2, "result=11 cost=4100"),
        judge("table 2 at another fee", 100, 4100, TABLE_2, "result=11 cost=5180"),
        judge("table 2 without its last stop", 10, 3990, &TABLE_2[..11], "result=10 part=1 due=44"),
    ]
}

/// The specification's job with removals 1 and 3, part 1 behind part 2, and these holders of part 2.
fn hidden(walk: u32, holders: &str) -> String {
    let openings = "openings=4 opening=2 fee=10 opening=3 fee=10 opening=4 fee=10 opening=5 fee=10 parts=2";
    let first = "life=3 left=2 removal=1 inside=1 holder=2 price=5 price=5 price=5 price=5";
    format!("horizon=6 walk={walk} {openings} {first} life=4 left=4 removal=3 {holders} price=7 price=7 price=7 price=7")
}

fn planned() -> Vec<Case> {
    let plan = |name, job: &str, answer| case(name, job, None, 0, answer);
    let (alone, circle) = ("inside=0", "inside=1 holder=1");
    vec![
        plan(
            "part 1 behind part 2",
            &hidden(17, alone),
            "result=0 nodes=17 floor=39 cost=45 stops=2 stop=2 count=1 part=1 stop=4 count=2 part=1 part=2",
        ),
        plan(
            "walk 15",
            &hidden(15, alone),
            "result=7 nodes=15 floor=39 cost=45 stops=2 stop=2 count=1 part=1 stop=4 count=2 part=1 part=2",
        ),
        plan(
            "walk 11",
            &hidden(11, alone),
            "result=7 nodes=11 floor=39 cost=52 stops=2 stop=2 count=2 part=1 part=2 stop=5 count=2 part=1 part=2",
        ),
        plan("walk 10", &hidden(10, alone), "result=7 nodes=10 floor=39"),
        plan(
            "in a circle",
            &hidden(100, circle),
            "result=0 nodes=23 floor=37 cost=45 stops=2 stop=2 count=1 part=1 stop=4 count=2 part=1 part=2",
        ),
        // A part that holds nobody has its removal in its price: two changes of part 1 and one of part 2.
        plan(
            "removals without holders",
            &hidden(100, alone).replace("inside=1 holder=2", "inside=0"),
            "result=0 nodes=? floor=42 cost=42 stops=2 stop=2 count=1 part=1 stop=4 count=2 part=1 part=2",
        ),
        plan(
            "lines that say nothing",
            &hidden(11, alone).replace("inside=1 holder=2", "inside=0").replace("removal=1", "removal=0").replace("removal=3", "removal=0"),
            "result=0 nodes=11 floor=37 cost=37 stops=2 stop=2 count=1 part=1 stop=4 count=2 part=1 part=2",
        ),
    ]
}

/// Three parts of which the first is changed at step 2: behind the second, which is behind the third.
const CHAIN: &str = "horizon=3 walk=9 openings=1 opening=2 fee=100 parts=3 life=2 left=2 removal=1 inside=1 holder=2 price=7 \
    life=9 left=9 removal=10 inside=1 holder=3 price=7 life=9 left=9 removal=1000 inside=0 price=7";

fn judged() -> Vec<Case> {
    let judge = |name, job: &str, plan: &str, answer| case(name, job, Some(plan), 0, answer);
    let both = "stops=2 stop=2 count=1 part=1 stop=4 count=2 part=1 part=2";
    let one = "stops=1 stop=2 count=1 part=1";
    vec![
        judge("the printed plan", &hidden(0, "inside=0"), &format!("cost=45 {both}"), "result=0 cost=45"),
        judge("without removals", &hidden(0, "inside=0"), &format!("cost=37 {both}"), "result=11 cost=45"),
        judge("in a circle", &hidden(0, "inside=1 holder=1"), &format!("cost=45 {both}"), "result=0 cost=45"),
        judge("a chain", CHAIN, &format!("cost=1118 {one}"), "result=0 cost=1118"),
        judge("a chain by the direct rule", CHAIN, &format!("cost=118 {one}"), "result=11 cost=1118"),
        judge("each part once", CHAIN, "cost=1132 stops=1 stop=2 count=3 part=1 part=2 part=3", "result=0 cost=1132"),
        judge("cost 4000000000", CHAIN, &format!("cost=4000000000 {one}"), "result=11 cost=1118"),
        case("cost 4000000001", CHAIN, Some(&format!("cost=4000000001 {one}")), 1, "result=3 text=2 line=1"),
    ]
}

/// The largest cost: 64 openings, 16 parts, each behind the next in a circle, all amounts 1000000, everything changed everywhere.
fn largest() -> Case {
    let openings: String = (1..=64).map(|step| format!(" opening={step} fee=1000000")).collect();
    let prices = " price=1000000".repeat(64);
    let part = |own: u32| format!(" life=65 left=65 removal=1000000 inside=1 holder={}{prices}", own % 16 + 1);
    let job = format!("horizon=64 walk=1 openings=64{openings} parts=16{}", (1..=16).map(part).collect::<String>());
    let all: Vec<u32> = (1..=16).collect();
    let stops: Vec<(u32, &[u32])> = (1..=64).map(|step| (step, &all[..])).collect();
    case("the largest cost", &job, Some(&plan(2_112_000_000, &stops)), 0, "result=0 cost=2112000000")
}

fn refused() -> Vec<Case> {
    let fault = |name, from: &str, to: &str, line, answer| {
        assert!(CHAIN.contains(from), "{from} is in the job");
        case(name, &CHAIN.replacen(from, to, 1), None, line, answer)
    };
    vec![
        fault("no removal line", "removal=1 ", "", 9, "result=2 text=1 line=9"),
        fault("no inside line", "inside=1 ", "", 10, "result=2 text=1 line=10"),
        fault("a holder too few", "holder=2 ", "", 11, "result=2 text=1 line=11"),
        fault("a holder too many", "inside=1", "inside=0", 11, "result=2 text=1 line=11"),
        fault("removal 1000001", "removal=1 ", "removal=1000001 ", 9, "result=3 text=1 line=9"),
        fault("inside 16", "inside=1", "inside=16", 10, "result=3 text=1 line=10"),
        fault("holder 0", "holder=2", "holder=0", 11, "result=3 text=1 line=11"),
        fault("holder 17", "holder=2", "holder=17", 11, "result=3 text=1 line=11"),
        fault("holder 16 of three parts", "holder=2", "holder=16", 11, "result=12 text=1 line=11"),
        fault("the part itself", "holder=2", "holder=1", 11, "result=12 text=1 line=11"),
        fault("twice", "inside=1 holder=2", "inside=2 holder=2 holder=2", 12, "result=12 text=1 line=12"),
        fault("falling", "inside=1 holder=2", "inside=2 holder=3 holder=2", 12, "result=12 text=1 line=12"),
        fault("12 before a later 3", "holder=2 price=7", "holder=1 price=0", 11, "result=12 text=1 line=11"),
        fault("removal twice", "removal=1 ", "removal=1 removal=1 ", 10, "result=2 text=1 line=10"),
    ]
}

pub fn cases() -> Vec<Case> {
    [tables(), planned(), judged(), vec![largest()], refused()].concat()
}

/// A job with a holder, which the count refuses, and the same with bytes after its last line.
pub fn counted() -> [Vec<u8>; 2] {
    [text(CHAIN), text(&format!("{CHAIN} price=7"))]
}
