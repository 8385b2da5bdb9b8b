//! Texts, lists and outputs of any length: a terabyte of zeros, of which no page is there before it is read, is refused for its length, and a terabyte to write
//! to is used as far as the answer goes.
#![cfg(feature = "library")]

use juzvarola_host::{carry, count, hall, judge, latest, optimum, plan, write, Answer, Form, MOST_WALK};
use std::ffi::c_void;

extern "C" {
    fn mmap(at: *mut c_void, length: usize, may: i32, flags: i32, file: i32, offset: i64) -> *mut c_void;
}

const TERABYTE: usize = 1 << 40;
/// To read and write; memory of this process alone, that is no file and that no room is kept for.
const READ_WRITE: i32 = 3;
const PRIVATE: i32 = 0x4022;

const JOB: &[u8] = b"horizon=4\nopenings=1\nopening=2\nfee=1\nparts=1\nlife=3\nleft=2\nprice=5\n";
const PLAN: &[u8] = b"cost=6\nstops=1\nstop=2\ncount=1\npart=1\n";

/// A terabyte of zeros; none where the system does not give so much without keeping room for it.
fn zeros() -> Option<&'static mut [u8]> {
    // SAFETY: new memory of the process, which is never given back.
    unsafe {
        let at = mmap(std::ptr::null_mut(), TERABYTE, READ_WRITE, PRIVATE, -1, 0);
        (at as isize != -1).then(|| std::slice::from_raw_parts_mut(at.cast(), TERABYTE))
    }
}

/// The result, the text and the line of an answer.
fn numbers(answer: Answer) -> (u32, u32, u32) {
    (answer.result, answer.text, answer.line)
}

#[test]
fn texts_of_any_length() {
    let Some(text) = zeros() else { return eprintln!("left out: no terabyte to read") };
    let text: &[u8] = text;
    let mut out = vec![0; 40_960];
    assert_eq!(numbers(plan(text, MOST_WALK, &mut out)), (1, 1, 0));
    assert_eq!(numbers(optimum(text, MOST_WALK, &mut out)), (1, 1, 0));
    assert_eq!(numbers(hall(text, MOST_WALK, &mut out)), (1, 1, 0));
    assert_eq!(count(text).result, 1);
    for call in [judge, latest, carry] {
        assert_eq!(numbers(call(text, text, &mut out)), (1, 1, 0));
        assert_eq!(numbers(call(JOB, text, &mut out)), (1, 2, 0));
    }
}

#[test]
fn outputs_of_any_length() {
    let Some(out) = zeros() else { return eprintln!("left out: no terabyte to write to") };
    let log = b"step=1\ncost=0\nstops=0\n";
    let answers =
        [plan(JOB, MOST_WALK, out), optimum(JOB, MOST_WALK, out), judge(JOB, PLAN, out), latest(JOB, PLAN, out), carry(JOB, log, out)];
    assert_eq!(answers.map(numbers), [(0, 0, 0); 5]);
    let longest = answers.iter().map(|answer| answer.length).max().unwrap_or(0);
    assert!(out.starts_with(b"horizon=3\n") && out[longest..1 << 20].iter().all(|byte| *byte == 0));
}

/// A form of one part, with a list that has a terabyte in the place of each of its lists in turn: what it is refused for.
#[test]
fn lists_of_any_length() {
    let Some(bytes) = zeros() else { return eprintln!("left out: no terabyte to read") };
    // SAFETY: the same bytes, which only are read from here on.
    let long: &[u32] = unsafe { std::slice::from_raw_parts(bytes.as_ptr().cast(), TERABYTE / 4) };
    let mut out = vec![0; 40_960];
    for (at, line) in [2, 2, 2, 5, 5, 5, 5, 5, 5, 5, 5, 5, 5, 5, 5, 5].into_iter().enumerate() {
        let own: [&[u32]; 16] = [&[], &[2], &[1], &[3], &[2], &[0], &[], &[], &[], &[0], &[], &[], &[], &[0], &[], &[5]];
        let list = |place: usize| if place == at { long } else { own[place] };
        let form = Form {
            horizon: 4,
            idles: list(0),
            openings: list(1),
            fees: list(2),
            lives: list(3),
            lefts: list(4),
            covered: list(5),
            removals: list(6),
            insides: list(7),
            holders: list(8),
            ruled: list(9),
            bases: list(10),
            drops: list(11),
            leasts: list(12),
            banded: list(13),
            lows: list(14),
            prices: list(15),
        };
        assert_eq!(numbers(write(&form, &mut out)), (3, 1, line), "list {at}");
    }
}
