//! `carry`: the job that is left after one work log or several, what is left of each part's life, and logs that are refused.
#![cfg(feature = "library")]

mod common;
use common::json::{read, Json};
use common::paper::{text, JOB};
use common::tool::Folder;

/// The log of the job's first three steps, and one of the two steps of the rest that can be in a log.
const FIRST: &str = "step=3 cost=15 stops=1 stop=2 count=1 part=1";
const SECOND: &str = "step=1 cost=22 stops=1 stop=1 count=2 part=1 part=2";
const BOTH: &str = "step=4 cost=37 stops=2 stop=2 count=1 part=1 stop=4 count=2 part=1 part=2";

/// A folder with the papers' job and these logs.
fn folder() -> Folder {
    let folder = Folder::new();
    folder.write("a job.txt", &text(JOB));
    for (name, log) in [("first.txt", FIRST), ("second.txt", SECOND), ("both.txt", BOTH)] {
        folder.write(name, &text(log));
    }
    folder
}

#[test]
fn what_is_left_in_words() {
    let folder = folder();
    let ran = folder.run(&["carry", "a job.txt", "first.txt", "-o", "rest.txt"]);
    let words = "\
a job.txt: up to step 3, 15 was spent on 1 stop and 1 change; 3 steps and 2 openings are left (0)
    the cheapest plan of what is left costs 22; proved

What was done: parts changed
  step  cost  parts
     2    15  1

What is left of each part's life
  part  life  left     change
     1     3     2     by step 2 (5 of the whole)
     2     4     1  !  by step 1 (4 of the whole), at the next opening
";
    assert_eq!((ran.status, ran.out.as_str(), ran.err.as_str()), (0, "", words));
    let rest = "horizon=3 openings=2 opening=1 fee=10 opening=2 fee=10 parts=2 life=3 left=2 price=5 price=5 life=4 left=1 price=7 price=7";
    assert_eq!(folder.read("rest.txt").into_bytes(), text(rest));
    let planned = folder.run(&["plan", "rest.txt"]);
    assert_eq!((planned.status, planned.out.into_bytes()), (0, text("cost=22 stops=1 stop=1 count=2 part=1 part=2")));
    // To standard output, with dates.
    let ran = folder.run(&["carry", "a job.txt", "first.txt", "--from", "2027-01-04"]);
    assert_eq!((ran.status, ran.out.into_bytes()), (0, text(rest)));
    assert!(ran.err.contains("     1     3     2     by step 2 (5 of the whole, 2027-01-08)\n"), "{}", ran.err);
}

#[test]
fn two_logs_are_as_one() {
    let folder = folder();
    let two = folder.run(&["carry", "a job.txt", "first.txt", "second.txt"]);
    let one = folder.run(&["carry", "a job.txt", "both.txt"]);
    assert_eq!((two.status, one.status), (0, 0));
    assert_eq!(two.out, one.out);
    assert_eq!(two.err, one.err);
    assert!(one.err.contains("     1     3     3    lasts to the end\n"), "{}", one.err);
}

#[test]
fn logs_that_are_refused() {
    let folder = folder();
    folder.write("late.txt", &text("step=3 cost=0 stops=0"));
    folder.write("dear.txt", &text("step=3 cost=16 stops=1 stop=2 count=1 part=1"));
    folder.write("late too.txt", &text("step=1 cost=0 stops=0"));
    for (logs, words) in [
        (&["late.txt"][..], "late.txt: part 1 had used more than its life: it was due by step 2 (10)\n"),
        (&["dear.txt"], "dear.txt: what was done costs 15, and 16 is stated: 1 too much (11)\n"),
        (&["first.txt", "dear.txt"], "dear.txt:1: step is not a number from 1 to two less than the job's horizon (3)\n    step=3\n"),
        (&["first.txt", "late too.txt", "late too.txt"], "late too.txt:1: step is not a number from 1 to"),
    ] {
        let words_given: Vec<&str> = ["carry", "a job.txt", "-o", "rest.txt"].iter().chain(logs).copied().collect();
        let ran = folder.run(&words_given);
        assert!(ran.err.starts_with(words), "{ran:?}");
        assert_eq!((ran.status, ran.out.as_str()), (if words.ends_with("(10)\n") || words.ends_with("(11)\n") { 1 } else { 2 }, ""));
        assert!(!folder.names().contains(&"rest.txt".to_string()), "no file is made");
    }
}

#[test]
fn faults_and_words() {
    let folder = folder();
    folder.write("plan.txt", &text("cost=15 stops=1 stop=2 count=1 part=1"));
    folder.write("after.txt", &text("step=2 cost=10 stops=1 stop=3 count=0"));
    folder.write("empty.txt", b"");
    for (words, status, said) in [
        (&["carry", "a job.txt"][..], 64, "carry takes 2 files or more, not 1"),
        (&["carry", "a job.txt", "first.txt", "-o", "first.txt"], 64, "would be written over"),
        (&["carry", "a job.txt", "not there"], 66, "not there can't be read"),
        (&["carry", "first.txt", "a job.txt"], 2, "first.txt:1: this is a work log, and a job is due; are the two files exchanged? (2)"),
        (&["carry", "a job.txt", "a job.txt"], 2, "a job.txt:1: this is a job, and a work log is due"),
        (&["carry", "a job.txt", "plan.txt"], 2, "plan.txt:1: this is a plan, and a work log is due"),
        (&["carry", "a job.txt", "empty.txt"], 2, "empty.txt:1: the text ends, and `step=` is due (2)"),
        (&["carry", "a job.txt", "after.txt"], 2, "after.txt:4: stop is no opening of the job, or does not come after the stop before (9)"),
        (&["judge", "a job.txt", "first.txt"], 2, "first.txt:1: this is a work log, and a plan is due"),
    ] {
        let ran = folder.run(words);
        assert_eq!((ran.status, ran.out.as_str()), (status, ""), "{ran:?}");
        assert!(ran.err.contains(said), "{ran:?}");
    }
}

#[test]
fn the_same_for_programs() {
    let folder = folder();
    let ran = folder.run(&["carry", "a job.txt", "first.txt", "--json"]);
    let answer = read(&ran.out);
    assert_eq!((ran.status, answer.at("result").number(), answer.at("step").number(), answer.at("cost").number()), (0, 0, 3, 15));
    assert_eq!(answer.at("parts").list()[1].at("due").number(), 1);
    assert!(answer.at("text").text().starts_with("horizon=3\n"));
    folder.write("late.txt", &text("step=3 cost=0 stops=0"));
    let ran = folder.run(&["carry", "a job.txt", "late.txt", "--json"]);
    let answer = read(&ran.out);
    assert_eq!((ran.status, answer.at("result").number()), (1, 10));
    assert_eq!(answer.at("text"), &Json::Null);
    let ran = folder.run(&["carry", "a job.txt", "a job.txt", "--json"]);
    assert_eq!(read(&ran.out).at("fault").at("text").number(), 2);
}

/// The plan of the whole job, and logs that followed it or did not.
const PLANNED: &str = "cost=37 stops=2 stop=2 count=1 part=1 stop=4 count=2 part=1 part=2";

#[test]
fn the_plan_that_was_followed() {
    let folder = folder();
    folder.write("plan.txt", &text(PLANNED));
    let ran = folder.run(&["carry", "a job.txt", "first.txt", "--planned", "plan.txt", "-o", "rest.txt"]);
    assert_eq!(ran.status, 0);
    assert!(ran.err.contains("left (0)\n    as planned so far: 22 remain, the cheapest possible (proved)\n\nWhat was done"), "{}", ran.err);
    // More was changed than planned, and a stop was made besides: the rest of the plan still does.
    folder.write("more.txt", &text("step=3 cost=32 stops=2 stop=2 count=2 part=1 part=2 stop=3 count=0"));
    let ran = folder.run(&["carry", "a job.txt", "more.txt", "--planned", "plan.txt", "-o", "rest.txt"]);
    let words = "\
    not as planned at 2 steps: 15 was planned up to here, and 32 was spent
    the rest of the plan would still do: 22 remain, the cheapest possible (proved)

What was done: parts changed
  step  cost  parts
     2    22  1, 2
     3    10

Where it was not as planned: parts changed
  step  planned  done          deviation
     2  1        1, 2          changed besides: 2
     3  no stop  a stop, none  stopped besides
";
    assert!(ran.err.contains(words), "{}", ran.err);
    // Less was changed: the rest of the plan comes too late, in steps of the whole.
    let job = "horizon=6 openings=3 opening=1 fee=1 opening=3 fee=1 opening=5 fee=1 parts=1 life=4 left=3 price=9 price=9 price=9";
    folder.write("one.txt", &text(job));
    folder.write("early.txt", &text("cost=20 stops=2 stop=1 count=1 part=1 stop=5 count=1 part=1"));
    folder.write("none.txt", &text("step=2 cost=0 stops=0"));
    let ran = folder.run(&["carry", "one.txt", "none.txt", "--planned", "early.txt", "-o", "rest.txt"]);
    let words = "the rest of the plan will not do any more: part 1 is not kept: it is due by step 3 and changed only at step 5, 2 running steps too late";
    assert!(ran.err.contains(words) && ran.err.contains("     1  1        no stop  not stopped\n"), "{}", ran.err);
}

#[test]
fn planned_on_at_once() {
    let folder = folder();
    folder.write("plan.txt", &text(PLANNED));
    let ran = folder.run(&["carry", "a job.txt", "first.txt", "--plan", "next.txt"]);
    assert_eq!((ran.status, ran.out.as_str()), (0, ""), "the job goes nowhere without -o");
    let words = "    the cheapest plan of what is left costs 22 (fees 10, parts 12), with 1 stop and 2 changes; proved\n";
    assert!(ran.err.contains(words), "{}", ran.err);
    assert_eq!(folder.read("next.txt").into_bytes(), text("cost=22 stops=1 stop=1 count=2 part=1 part=2"));
    assert!(!folder.names().contains(&"rest.txt".to_string()));
    let ran = folder.run(&["carry", "a job.txt", "first.txt", "--plan", "-", "-o", "rest.txt"]);
    assert_eq!((ran.status, ran.out.into_bytes()), (0, text("cost=22 stops=1 stop=1 count=2 part=1 part=2")));
    let ran = folder.run(&["carry", "a job.txt", "first.txt", "--planned", "plan.txt", "--plan", "next.txt", "--json"]);
    let answer = read(&ran.out);
    assert_eq!(answer.at("followed").at("remain").number(), 22);
    assert_eq!((answer.at("bounds").at("cheapest").number(), answer.at("plan").at("costs").at("total").number()), (22, 22));
    assert_eq!(answer.at("parts").list().iter().map(|part| part.at("short") == &Json::Bool(true)).collect::<Vec<_>>(), [false, true]);
    // The steps of the whole stand beside those of the rest.
    folder.run(&["carry", "a job.txt", "first.txt", "-o", "rest.txt"]);
    let ran = folder.run(&["list", "rest.txt", "next.txt", "--after", "3", "--from", "2027-01-04"]);
    assert!(ran.out.contains("1 (4 of the whole, 2027-01-07)"), "{}", ran.out);
    // Nothing that keeps the lives is left.
    folder.write("tight.txt", &text("horizon=6 openings=1 opening=1 fee=1 parts=1 life=4 left=3 price=9"));
    folder.write("none.txt", &text("step=2 cost=0 stops=0"));
    let ran = folder.run(&["carry", "tight.txt", "none.txt", "--plan", "next2.txt", "-o", "rest2.txt"]);
    assert_eq!(ran.status, 1, "{ran:?}");
    assert!(
        ran.err.contains("    no plan keeps the lives in what is left\n") && ran.err.contains("no opening till then: no plan"),
        "{}",
        ran.err
    );
    assert!(folder.names().contains(&"rest2.txt".to_string()) && !folder.names().contains(&"next2.txt".to_string()));
}

#[test]
fn faults_of_the_plan_that_was_followed() {
    let folder = folder();
    folder.write("bad.txt", &text("cost=15 stops=1 stop=6 count=0"));
    let ran = folder.run(&["carry", "a job.txt", "first.txt", "--planned", "bad.txt"]);
    assert_eq!(ran.status, 2, "{ran:?}");
    assert!(ran.err.starts_with("bad.txt:3: stop is no opening"), "{}", ran.err);
    let ran = folder.run(&["carry", "a job.txt", "first.txt", "-o", "-", "--plan", "-"]);
    assert_eq!((ran.status, ran.err.as_str()), (64, "juzvarola: the job that is left and its plan can't both go to one file\n"));
    let ran = folder.run(&["carry", "a job.txt", "first.txt", "--planned", "bad.txt", "--plan", "bad.txt"]);
    assert_eq!(ran.status, 64, "{ran:?}");
}
