//! The words for each fault: what its number means at its line.
#![cfg(feature = "library")]

mod common;
use common::paper::{altered, text, JOB};
use common::tool::Folder;

/// A job and a plan of it.
const PLAN: &str = "cost=37 stops=2 stop=2 count=1 part=1 stop=4 count=2 part=1 part=2";

/// What the judge says on standard error of these texts; the exit status must be 2.
fn said(job: &[u8], plan: &[u8]) -> String {
    let folder = Folder::new();
    folder.write("job.txt", job);
    folder.write("plan.txt", plan);
    let ran = folder.run(&["judge", "job.txt", "plan.txt"]);
    assert_eq!((ran.status, ran.out.as_str()), (2, ""), "{}", ran.err);
    ran.err
}

/// The same of a job with the first `old` replaced.
fn of_job(old: &str, new: &str) -> String {
    said(&text(&altered(old, new)), b"")
}

/// The same of a plan with the first `old` replaced.
fn of_plan(old: &str, new: &str) -> String {
    assert!(PLAN.contains(old));
    said(&text(JOB), &text(&PLAN.replacen(old, new, 1)))
}

#[test]
fn values_outside_their_range() {
    let cases = [
        ("horizon=6", "horizon=366", "job.txt:1: horizon is not a number from 2 to 365 (3)\n    horizon=366\n"),
        ("walk=11", "walk=4000000001", "job.txt:2: walk is not a number from 0 to 4,000,000,000 (3)\n    walk=4000000001\n"),
        ("openings=4", "openings=65", "job.txt:3: openings is not a number from 0 to 64 (3)\n    openings=65\n"),
        ("opening=2", "opening=0", "job.txt:4: opening is not a number from 1 to 365 (3)\n    opening=0\n"),
        ("fee=10", "fee=1000001", "job.txt:5: fee is not a number from 0 to 1,000,000 (3)\n    fee=1000001\n"),
        ("parts=2", "parts=17", "job.txt:12: parts is not a number from 1 to 16 (3)\n    parts=17\n"),
        ("life=3", "life=1001", "job.txt:13: life is not a number from 1 to 1,000 (3)\n    life=1001\n"),
        ("left=2", "left=1001", "job.txt:14: left is not a number from 0 to 1,000 (3)\n    left=1001\n"),
        ("left=2", "left=2 removal=1000001 inside=0", "job.txt:15: removal is not a number from 0 to 1,000,000 (3)\n    removal=1000001\n"),
        ("left=2", "left=2 removal=0 inside=16", "job.txt:16: inside is not a number from 0 to 15 (3)\n    inside=16\n"),
        ("left=2", "left=2 removal=0 inside=1 holder=17", "job.txt:17: holder is not a number from 1 to 16 (3)\n    holder=17\n"),
        ("left=2", "left=2 base=0", "job.txt:15: base is not a number from 1 to 1,000,000 (3)\n    base=0\n"),
        ("left=2", "left=2 base=1 drop=1000001", "job.txt:16: drop is not a number from 0 to 1,000,000 (3)\n    drop=1000001\n"),
        ("left=2", "left=2 base=1 drop=0 least=0", "job.txt:17: least is not a number from 1 to 1,000,000 (3)\n    least=0\n"),
        ("price=5", "low=0 high=5", "job.txt:15: low is not a number from 1 to 1,000,000 (3)\n    low=0\n"),
        ("price=5", "low=9 high=1000001", "job.txt:16: high is not a number from 1 to 1,000,000 (3)\n    high=1000001\n"),
        ("price=5", "price=0", "job.txt:15: price is not a number from 1 to 1,000,000 (3)\n    price=0\n"),
        ("horizon=6", "horizon=6 idles=0", "job.txt:2: idles is not a number from 1 to 365 (3)\n    idles=0\n"),
        ("horizon=6", "horizon=6 idles=1 idle=366", "job.txt:3: idle is not a number from 1 to 365 (3)\n    idle=366\n"),
    ];
    for (old, new, words) in cases {
        assert_eq!(of_job(old, new), words);
    }
    let cases = [
        ("cost=37", "cost=4000000001", "plan.txt:1: cost is not a number from 0 to "),
        ("stops=2", "stops=65", "plan.txt:2: stops is not a number from 0 to 64 (3)\n    stops=65\n"),
        ("stop=2", "stop=366", "plan.txt:3: stop is not a number from 1 to 365 (3)\n    stop=366\n"),
        ("count=1", "count=17", "plan.txt:4: count is not a number from 0 to 16 (3)\n    count=17\n"),
        ("part=1", "part=0", "plan.txt:5: part is not a number from 1 to 16 (3)\n    part=0\n"),
    ];
    for (old, new, words) in cases {
        assert!(of_plan(old, new).starts_with(words), "{}", of_plan(old, new));
    }
}

#[test]
fn steps_lives_stops_and_parts() {
    let opening = "opening does not come after the opening before, or is past the horizon (4)";
    assert_eq!(of_job("opening=3", "opening=2"), format!("job.txt:6: {opening}\n    opening=2\n"));
    assert_eq!(of_job("opening=5", "opening=7"), format!("job.txt:10: {opening}\n    opening=7\n"));
    let idle = "idle does not come after the idle step before, or is past the horizon (4)";
    assert_eq!(of_job("horizon=6", "horizon=6 idles=1 idle=7"), format!("job.txt:3: {idle}\n    idle=7\n"));
    assert_eq!(of_job("left=2", "left=4"), "job.txt:14: left is greater than life (5)\n    left=4\n");
    let holder = "holder is above the job's number of parts, is the part itself, or does not come after the holder before (12)";
    for (number, inside) in [(1, "inside=1 holder=1"), (3, "inside=1 holder=3"), (2, "inside=2 holder=2 holder=2")] {
        let line = if inside.starts_with("inside=2") { 18 } else { 17 };
        let words = of_job("left=2", &format!("left=2 removal=4 {inside}"));
        assert_eq!(words, format!("job.txt:{line}: {holder}\n    holder={number}\n"));
    }
    let band = "the price's low end is above its high end (13)";
    assert_eq!(of_job("price=5", "low=6 high=5"), format!("job.txt:16: {band}\n    high=5\n"));
    let stop = "stop is no opening of the job, or does not come after the stop before (9)";
    assert_eq!(of_plan("stop=2", "stop=1"), format!("plan.txt:3: {stop}\n    stop=1\n"));
    let part = "part is above the job's number of parts, or does not come after the part before (9)";
    assert_eq!(of_plan("part=1", "part=3"), format!("plan.txt:5: {part}\n    part=3\n"));
}

#[test]
fn lines_that_are_not_well_formed() {
    let digits = "is not 1 to 10 digits without a leading zero (2)";
    assert_eq!(of_job("price=5", "price=05"), format!("job.txt:15: price {digits}\n    price=05\n"));
    assert_eq!(of_job("fee=10", "fee="), format!("job.txt:5: fee {digits}\n    fee=\n"));
    assert_eq!(of_job("fee=10", "fee=12345678901"), format!("job.txt:5: fee {digits}\n    fee=12345678901\n"));
    assert_eq!(of_job("horizon=6", "horizon=6 idles=x"), format!("job.txt:2: idles {digits}\n    idles=x\n"));
    assert_eq!(of_plan("part=1", "part=1x"), format!("plan.txt:5: part {digits}\n    part=1x\n"));
    assert_eq!(of_job("walk=11", "work=11"), "job.txt:2: `openings=` (or `idles=`) is due here (2)\n    work=11\n");
    assert_eq!(of_job("fee=10 opening=3", "opening=3"), "job.txt:5: `fee=` is due here (2)\n    opening=3\n");
    assert_eq!(of_job("openings=4", "openings=5"), "job.txt:12: `opening=` is due here (2)\n    parts=2\n");
    assert_eq!(of_job("price=5 life=4", "life=4"), "job.txt:18: `price=` (or `low=`) is due here (2)\n    life=4\n");
    assert_eq!(
        of_job("left=2", "left=2 inside=0"),
        "job.txt:15: `price=` (or `removal=` or `base=` or `low=`) is due here (2)\n    inside=0\n"
    );
    assert_eq!(
        of_job("left=2", "left=2 removal=1 inside=0 least=1"),
        "job.txt:17: `price=` (or `base=` or `low=`) is due here (2)\n    least=1\n"
    );
    assert_eq!(of_job("price=5", "low=5"), "job.txt:16: `high=` is due here (2)\n    price=5\n");
    assert_eq!(of_job("price=5", "high=5"), "job.txt:15: `price=` (or `removal=` or `base=` or `low=`) is due here (2)\n    high=5\n");
    assert_eq!(of_job("left=2", "left=2 base=x"), format!("job.txt:15: base {digits}\n    base=x\n"));
    assert_eq!(of_job("left=2", "left=2 base=1"), "job.txt:16: `drop=` is due here (2)\n    price=5\n");
    assert_eq!(of_job("left=2", "left=2 base=1 drop=1 least=1"), "job.txt:18: `life=` is due here (2)\n    price=5\n");
    assert_eq!(of_job("left=2", "left=2 removal=x"), format!("job.txt:15: removal {digits}\n    removal=x\n"));
    assert_eq!(of_job("left=2", "left=2 removal=1"), "job.txt:16: `inside=` is due here (2)\n    price=5\n");
    assert_eq!(of_job("left=2", "left=2 removal=1 inside=1"), "job.txt:17: `holder=` is due here (2)\n    price=5\n");
    assert_eq!(of_plan("stops=2", "stops=3"), "plan.txt:9: the text ends, and `stop=` is due (2)\n".replace(":9:", ":10:"));
    assert_eq!(of_plan("count=2", "count=3"), "plan.txt:10: the text ends, and `part=` is due (2)\n");
    assert_eq!(of_plan("stops=2", "stops=1"), "plan.txt:6: the text goes on after its last line (2)\n    stop=4\n");
    assert_eq!(of_job("parts=2", "parts=1"), "job.txt:19: the text goes on after its last line (2)\n    life=4\n");
}

#[test]
fn ends_of_texts_and_of_lines() {
    let job = text(JOB);
    let short = &job[..job.len() - 1];
    assert_eq!(said(short, b""), "job.txt:24: the last line is not ended by a line feed (2)\n    price=7\n");
    assert_eq!(said(&job[..job.len() - 8], b""), "job.txt:24: the text ends, and `price=` (or `low=`) is due (2)\n");
    assert_eq!(said(b"", b""), "job.txt:1: the text ends, and `horizon=` is due (2)\n");
    let nothing = "the plan is one empty line; doing nothing is a file of no bytes, or the lines cost=0 and stops=0 (2)";
    assert_eq!(said(&job, b"\n"), format!("plan.txt:1: {nothing}\n"));
    let windows = String::from_utf8(job.clone()).expect("text").replace('\n', "\r\n");
    let words =
        "job.txt:1: the line ends with a carriage return, as Windows writes it; a line feed alone ends a line (2)\n    horizon=6\\x0d\n";
    assert_eq!(said(windows.as_bytes(), b""), words);
    let marked = [b"\xef\xbb\xbf", &job[..]].concat();
    assert!(said(&marked, b"").starts_with("job.txt:1: the text begins with a byte order mark"));
    assert_eq!(said(&[&job[..], b"\n"].concat(), b""), "job.txt:25: the text goes on after its last line (2)\n");
}

#[test]
fn long_texts_and_odd_bytes() {
    assert_eq!(said(&[b'a'; 40_961], b""), "job.txt: the text has over 40,960 bytes (1)\n");
    assert_eq!(said(&[b'a'; 40_960], b""), format!("job.txt:1: `horizon=` is due here (2)\n    {} .. (40960 bytes)\n", "a".repeat(160)));
    assert_eq!(said(&text(JOB), &[b'a'; 32_769]), "plan.txt: the text has over 32,768 bytes (1)\n");
    let line = [&[b'z'; 400][..], b"\n"].concat();
    assert_eq!(said(&line, b""), format!("job.txt:1: `horizon=` is due here (2)\n    {} .. (400 bytes)\n", "z".repeat(160)));
    let words = "job.txt:1: `horizon=` is due here (2)\n    \\x1b[2J\\x00\\xff\u{e9}\n";
    assert_eq!(said(b"\x1b[2J\0\xff\xc3\xa9\n", b""), words);
}

/// A job whose first `old` line is this one; what is said of it, without the file's name, the line's number and the fault's.
fn slip(old: &str, new: &str) -> String {
    let job = String::from_utf8(text(JOB)).expect("text").replacen(&format!("{old}\n"), &format!("{new}\n"), 1);
    let words = said(job.as_bytes(), b"");
    let first = words.lines().next().expect("words");
    first.splitn(3, ':').nth(2).and_then(|rest| rest.strip_suffix(" (2)")).unwrap_or_else(|| panic!("{words}")).trim_start().to_string()
}

#[test]
fn slips_are_named_for_what_they_are() {
    let whole = "(prices and fees are whole numbers, for example of cents)";
    let cases = [
        ("fee=10", "fee=10 ", "a blank stands at the line's end".to_string()),
        ("fee=10", "fee=10\t", "a blank stands at the line's end".to_string()),
        ("fee=10", " fee=10", "a blank stands before `fee`".to_string()),
        ("fee=10", "fee = 10", "blanks stand around `=`, and there are none: fee=value".to_string()),
        ("fee=10", "fee= 10", "blanks stand around `=`, and there are none: fee=value".to_string()),
        ("fee=10", "fee: 10", "`=` stands between `fee` and its value: fee=value".to_string()),
        ("fee=10", "fee 10", "`=` stands between `fee` and its value: fee=value".to_string()),
        ("fee=10", "fee=10,", "a comma stands at the line's end".to_string()),
        ("fee=10", "fee=1,000", format!("a comma stands in the value of `fee`, which is digits alone {whole}")),
        ("price=5", "price=12.50", format!("price is not a whole number {whole}")),
        ("price=5", "price=12,50", format!("a comma stands in the value of `price`, which is digits alone {whole}")),
        ("price=5", "price=-5", "price has a sign, and is digits alone".to_string()),
        ("fee=10", "fee=\"10\"", "quotes stand around the value of `fee`, and the texts have none".to_string()),
        ("fee=10", "\"fee=10\"", "quotes stand around `fee`, and the texts have none".to_string()),
        ("fee=10", "\"fee\"=10", "quotes stand around `fee`, and the texts have none".to_string()),
        ("fee=10", "Fee=10", "`fee` is written in small letters".to_string()),
        ("horizon=6", "HORIZON=6", "`horizon` is written in small letters".to_string()),
        ("fee=10", "# the fee", "this is a comment, and the texts have none".to_string()),
        ("fee=10", "fee=10 # the fee", "a comment stands behind the value, and the texts have none".to_string()),
        ("fee=10", "", "the line is empty, and no line may be".to_string()),
        ("fee=10", "   ", "the line has only blanks".to_string()),
        ("walk=11", "Idles=1", "`idles` is written in small letters".to_string()),
        ("walk=11", "Walk=11", "`walk` is written in small letters".to_string()),
        ("walk=11", "Openings=4", "`openings` is written in small letters".to_string()),
        ("left=2", "left=2\nRemoval=1", "`removal` is written in small letters".to_string()),
        ("left=2", "left=2\nbase: 9", "`=` stands between `base` and its value: base=value".to_string()),
        ("fee=10", "fees=10", "`fee=` is due here".to_string()),
    ];
    for (old, new, words) in cases {
        assert_eq!(slip(old, new), words, "{new:?}");
    }
}

#[test]
fn texts_of_another_kind_are_named() {
    let (job, plan) = (text(JOB), text(PLAN));
    let exchanged = "are the two files exchanged? (2)";
    assert_eq!(said(&plan, &job), format!("job.txt:1: this is a plan, and a job is due; {exchanged}\n    cost=37\n"));
    assert_eq!(said(&job, &job), format!("plan.txt:1: this is a job, and a plan is due; {exchanged}\n    horizon=6\n"));
    let answer = [b"result=0\nnodes=11\nfloor=37\n", &plan[..]].concat();
    assert_eq!(
        said(&job, &answer),
        "plan.txt:1: this is a planner's whole answer; the plan is its lines from `cost=` on (2)\n    result=0\n"
    );
    assert_eq!(said(&answer, &plan), "job.txt:1: this is a planner's answer, and a job is due (2)\n    result=0\n");
    for order in [u16::to_le_bytes, u16::to_be_bytes] {
        let wide = |mark: &str| {
            String::from_utf8(job.clone()).map(|job| (mark.to_string() + &job).encode_utf16().flat_map(order).collect::<Vec<u8>>())
        };
        for text in [wide("\u{feff}").expect("text"), wide("").expect("text")] {
            assert!(said(&text, b"").starts_with("job.txt:1: the text is UTF-16, as some editors save it"), "{}", said(&text, b""));
        }
    }
}
