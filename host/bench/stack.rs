//! How much stack the library's calls need: the least stack of a thread on which each call returns, found by trying.

use juzvarola_host::Form;
use std::process::{exit, Command, Stdio};
use std::{env, thread};

const KILOBYTE: usize = 1024;
const MOST: usize = 64 * 1024;
const STEP: usize = 4;
/// The most that a fee, a price or a removal may be.
const DEAREST: u32 = 1_000_000;

/// The largest job: 64 openings and 16 parts with the longest numbers. The life says how far the walk goes down.
fn job(life: u32) -> String {
    let mut text = String::from("horizon=365\nopenings=64\n");
    for step in 301..365 {
        text += &format!("opening={step}\nfee=1000000\n");
    }
    text += "parts=16\n";
    for _ in 0..16 {
        text += &format!("life={life}\nleft={life}\n{}", "price=1000000\n".repeat(64));
    }
    text
}

/// The job whose walk goes deepest: 64 openings in a row, sixteen parts that last one step and hold each other. Every stop is made and every part
/// is removed at each, decided one by one: 64 times 17 decisions. All that is paid is this amount.
fn deepest(amount: u32) -> String {
    let mut text = String::from("horizon=64\nopenings=64\n");
    for step in 1..=64 {
        text += &format!("opening={step}\nfee={amount}\n");
    }
    text += "parts=16\n";
    for part in 1..=16 {
        let holders: String = (1..=16).filter(|other| *other != part).map(|other| format!("holder={other}\n")).collect();
        text += &format!("life=1\nleft=1\nremoval={amount}\ninside=15\n{holders}{}", format!("price={amount}\n").repeat(64));
    }
    text
}

/// The hall whose walk goes deepest: that job alone, with a call decided before each stop.
fn deepest_hall() -> String {
    format!("machines=1\ncall={DEAREST}\n{}", deepest(DEAREST))
}

/// A walk number that cuts the counted walk of that job short of its last node, so that its walk by shares, which goes as deep, is made.
const LAST_BUT_ONE: u64 = 2176;

/// The plan of all parts at all openings, from this step on.
fn all_from(first: u32, cost: u32) -> String {
    let parts: String = (1..=16).map(|part| format!("part={part}\n")).collect();
    let stops: String = (first..first + 64).map(|step| format!("stop={step}\ncount=16\n{parts}")).collect();
    format!("cost={cost}\nstops=64\n{stops}")
}

/// A plan of the largest job: all parts at all openings.
fn plan() -> String {
    all_from(301, 1_088_000_000)
}

/// The form of the longest text: every step idle, each part held by all others.
fn longest() -> Form<'static> {
    let steps: &'static [u32] = (1..=365).collect::<Vec<_>>().leak();
    let alike = |count, value| -> &'static [u32] { vec![value; count].leak() };
    Form {
        horizon: 365,
        idles: steps,
        openings: &steps[301..],
        fees: alike(64, 1_000_000),
        lives: alike(16, 1000),
        lefts: alike(16, 1000),
        covered: alike(16, 1),
        removals: alike(16, 1_000_000),
        insides: alike(16, 15),
        holders: (1..=16).flat_map(|part| (1..=16).filter(move |other| *other != part)).collect::<Vec<_>>().leak(),
        ruled: alike(16, 0),
        bases: &[],
        drops: &[],
        leasts: &[],
        banded: alike(1024, 1),
        lows: alike(1024, 1_000_000),
        prices: alike(1024, 1_000_000),
    }
}

/// The calls to try; each is made on a thread of its own.
fn call(name: &str) -> u32 {
    let mut out = vec![0; 40_960];
    match name {
        "plan, no stop" => juzvarola_host::plan(job(1000).as_bytes(), juzvarola_host::MOST_WALK, &mut out).result,
        "plan, one stop" => juzvarola_host::plan(job(364).as_bytes(), juzvarola_host::MOST_WALK, &mut out).result,
        "plan, no plan" => juzvarola_host::plan(job(1).as_bytes(), juzvarola_host::MOST_WALK, &mut out).result,
        "plan, all removed" => juzvarola_host::plan(deepest(DEAREST).as_bytes(), juzvarola_host::MOST_WALK, &mut out).result,
        "plan, a fault" => juzvarola_host::plan(b"horizon=1\n", juzvarola_host::MOST_WALK, &mut out).result,
        "optimum, one stop" => juzvarola_host::optimum(job(364).as_bytes(), juzvarola_host::MOST_WALK, &mut out).result,
        "optimum, all removed" => juzvarola_host::optimum(deepest(DEAREST).as_bytes(), juzvarola_host::MOST_WALK, &mut out).result,
        "optimum, all removed, by shares" => juzvarola_host::optimum(deepest(1).as_bytes(), LAST_BUT_ONE, &mut out).result,
        "hall, all removed" => juzvarola_host::hall(deepest_hall().as_bytes(), juzvarola_host::MOST_WALK, &mut out).result,
        "hall, a fault" => juzvarola_host::hall(b"machines=1\ncall=0\nhorizon=0\n", juzvarola_host::MOST_WALK, &mut out).result,
        "judge, the longest plan" => juzvarola_host::judge(job(1000).as_bytes(), plan().as_bytes(), &mut out).result,
        "judge, all removed" => juzvarola_host::judge(deepest(DEAREST).as_bytes(), all_from(1, 2_112_000_000).as_bytes(), &mut out).result,
        "judge, a fault" => juzvarola_host::judge(job(1000).as_bytes(), b"cost=1\nstops=65\n", &mut out).result,
        "latest, the longest plan" => juzvarola_host::latest(job(1000).as_bytes(), plan().as_bytes(), &mut out).result,
        "latest, all removed" => juzvarola_host::latest(deepest(DEAREST).as_bytes(), all_from(1, 0).as_bytes(), &mut out).result,
        "latest, a fault" => juzvarola_host::latest(job(1000).as_bytes(), b"cost=1\nstops=65\n", &mut out).result,
        "carry, the longest text" => juzvarola_host::carry(job(1000).as_bytes(), b"step=1\ncost=0\nstops=0\n", &mut out).result,
        "carry, a fault" => juzvarola_host::carry(job(1000).as_bytes(), b"step=1\ncost=0\nstops=65\n", &mut out).result,
        "write, the longest text" => juzvarola_host::write(&longest(), &mut out).result,
        "write, a fault" => juzvarola_host::write(&Form { horizon: 1, ..longest() }, &mut out).result,
        "count, the longest walk" => juzvarola_host::count(job(1000).as_bytes()).result,
        "count, a fault" => juzvarola_host::count(b"horizon=1\n").result,
        _ => unreachable!("no such call"),
    }
}

const CALLS: &[(&str, u32)] = &[
    ("plan, no stop", 0),
    ("plan, one stop", 0),
    ("plan, no plan", 6),
    ("plan, all removed", 0),
    ("plan, a fault", 3),
    ("optimum, one stop", 0),
    ("optimum, all removed", 0),
    ("optimum, all removed, by shares", 7),
    ("hall, all removed", 0),
    ("hall, a fault", 3),
    ("judge, the longest plan", 0),
    ("judge, all removed", 0),
    ("judge, a fault", 3),
    ("latest, the longest plan", 0),
    ("latest, all removed", 0),
    ("latest, a fault", 3),
    ("carry, the longest text", 0),
    ("carry, a fault", 3),
    ("write, the longest text", 0),
    ("write, a fault", 3),
    ("count, the longest walk", 0),
    ("count, a fault", 3),
];

/// Makes the call in a process of its own, on a thread with this stack; says whether it returned.
fn returns(name: &str, kilobytes: usize) -> bool {
    let program = env::current_exe().expect("this program");
    let mut command = Command::new(program);
    command.args([name, &kilobytes.to_string()]).stderr(Stdio::null());
    command.status().expect("a process starts").success()
}

/// The least stack, in steps, on which the call returns.
fn least(name: &str) -> usize {
    let (mut too_few, mut enough) = (0, MOST);
    while enough - too_few > STEP {
        let middle = (too_few + enough) / 2 / STEP * STEP;
        if returns(name, middle) {
            enough = middle;
        } else {
            too_few = middle;
        }
    }
    enough
}

fn main() {
    let arguments: Vec<String> = env::args().skip(1).collect();
    if let [name, kilobytes] = &arguments[..] {
        let name = name.clone();
        let stack = kilobytes.parse::<usize>().expect("kilobytes") * KILOBYTE;
        let wanted = CALLS.iter().find(|(call, _)| *call == name).expect("a call").1;
        let thread = thread::Builder::new().stack_size(stack).spawn(move || call(&name)).expect("a thread starts");
        exit(if thread.join().is_ok_and(|result| result == wanted) { 0 } else { 1 });
    }
    for (name, _) in CALLS {
        if returns(name, MOST) {
            println!("{name}: {} KB", least(name));
        } else {
            println!("{name}: fails with {MOST} KB");
        }
    }
}
