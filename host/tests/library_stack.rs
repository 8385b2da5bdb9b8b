//! The calls on a thread with the stack that the header promises to be enough, at the limits: an overflow ends the test with the process.
#![cfg(feature = "library")]

use juzvarola_host::{carry, count, hall, judge, latest, optimum, plan, write, Form, MOST_WALK};
use std::thread;

/// "Less than 1.5 MB".
const STACK: usize = 3 << 19;
/// Of the hall planner's call, "less than 3.5 MB".
const HALL_STACK: usize = 7 << 19;

/// 64 openings in a row and sixteen parts that last one step, held by these parts: every stop is made and, where a part holds another, every
/// removal is decided, 64 times 17 decisions.
fn job(holders: impl Fn(u32) -> Vec<u32>) -> String {
    let mut text = String::from("horizon=64\nopenings=64\n");
    (1..=64).for_each(|step| text += &format!("opening={step}\nfee=1000000\n"));
    text += "parts=16\n";
    for part in 1..=16 {
        let own = holders(part);
        let lines: String = own.iter().map(|holder| format!("holder={holder}\n")).collect();
        text += &format!("life=1\nleft=1\nremoval=1000000\ninside={}\n{lines}{}", own.len(), "price=1000000\n".repeat(64));
    }
    text
}

/// Each part is held by the next, and the last by the first.
fn circle(part: u32) -> Vec<u32> {
    vec![part % 16 + 1]
}

/// Each part is held by all others.
fn all(part: u32) -> Vec<u32> {
    (1..=16).filter(|other| *other != part).collect()
}

fn on_that_stack(call: impl FnOnce() + Send + 'static) {
    on_stack(STACK, call);
}

fn on_stack(size: usize, call: impl FnOnce() + Send + 'static) {
    let thread = thread::Builder::new().stack_size(size).spawn(call).expect("a thread starts");
    thread.join().expect("the call returns");
}

#[test]
fn the_deepest_searches_fit() {
    for text in [job(circle), job(all), job(|_| Vec::new())] {
        on_that_stack(move || {
            let mut out = vec![0; 16_384];
            let answer = plan(text.as_bytes(), MOST_WALK, &mut out);
            assert_eq!(answer.result, 0);
            let lines = String::from_utf8(out[..answer.length].to_vec()).expect("text");
            assert!(lines.contains("\ncost=2112000000\nstops=64\n"), "{}", &lines[..80]);
            let plan = &lines[lines.find("cost=").expect("a plan")..];
            let mut judged = vec![0; 16_384];
            let answer = judge(text.as_bytes(), plan.as_bytes(), &mut judged);
            assert_eq!((answer.result, &judged[..answer.length]), (0, &b"result=0\ncost=2112000000\n"[..]));
            let answer = optimum(text.as_bytes(), MOST_WALK, &mut judged);
            assert_eq!((answer.result, &judged[..answer.length]), (0, [b"result=0\n", plan.as_bytes()].concat().as_slice()));
            let answer = latest(text.as_bytes(), plan.as_bytes(), &mut judged);
            assert_eq!((answer.result, &judged[..answer.length]), (0, [b"result=0\n", plan.as_bytes()].concat().as_slice()));
            // A job with a holder has no count.
            let counted = count(text.as_bytes());
            assert_eq!((counted.result, counted.count), if text.contains("holder=") { (12, 0) } else { (0, 129) });
        });
    }
}

/// A hall of one line as deep, where a call is decided before each stop: 64 times 18 decisions, the most that a text allows.
#[test]
fn the_deepest_halls_fit() {
    for text in [job(circle), job(all), job(|_| Vec::new())] {
        on_stack(HALL_STACK, move || {
            let mut out = vec![0; 16_384];
            let text = format!("machines=1\ncall=1000000\n{text}");
            let answer = hall(text.as_bytes(), MOST_WALK, &mut out);
            assert_eq!(answer.result, 0);
            let lines = String::from_utf8(out[..answer.length].to_vec()).expect("text");
            assert!(lines.contains("\ncost=2176000000\ncost=2112000000\nstops=64\n"), "{}", &lines[..80]);
        });
    }
}

/// Walks by shares that go as deep, cut short with the counted walk at its last node but one.
#[test]
fn the_deepest_walks_by_shares_fit() {
    for (text, nodes) in [(job(circle), 2177), (job(all), 2177)] {
        on_that_stack(move || {
            let text = text.replace("1000000", "1");
            let mut out = vec![0; 16_384];
            let answer = plan(text.as_bytes(), MOST_WALK, &mut out);
            assert!(answer.result == 0 && out.starts_with(format!("result=0\nnodes={nodes}\n").as_bytes()));
            let answer = optimum(text.as_bytes(), nodes - 1, &mut out);
            let lines = String::from_utf8(out[..answer.length].to_vec()).expect("text");
            let floor = lines.strip_prefix("result=7\nfloor=").and_then(|line| line.trim_end().parse::<u64>().ok());
            assert!(answer.result == 7 && floor.is_some_and(|floor| floor <= 2112), "{lines}");
        });
    }
}

#[test]
fn the_longest_text_fits() {
    on_that_stack(|| {
        let steps: Vec<u32> = (1..=365).collect();
        let alike = |count: usize, value: u32| vec![value; count];
        let holders: Vec<u32> = (1..=16).flat_map(all).collect();
        let mut out = vec![0; 40_960];
        let form = Form {
            horizon: 365,
            idles: &steps,
            openings: &steps[301..],
            fees: &alike(64, 1_000_000),
            lives: &alike(16, 1000),
            lefts: &alike(16, 1000),
            covered: &alike(16, 1),
            removals: &alike(16, 1_000_000),
            insides: &alike(16, 15),
            holders: &holders,
            ruled: &alike(16, 0),
            bases: &[],
            drops: &[],
            leasts: &[],
            banded: &alike(1024, 1),
            lows: &alike(1024, 1_000_000),
            prices: &alike(1024, 1_000_000),
        };
        let answer = write(&form, &mut out);
        assert_eq!((answer.result, answer.length), (0, 33_357));
        let mut rest = vec![0; 40_960];
        let answer = carry(&out[..answer.length], b"step=1\ncost=0\nstops=0\n", &mut rest);
        assert_eq!((answer.result, &rest[..12]), (0, &b"horizon=364\n"[..]));
    });
}
