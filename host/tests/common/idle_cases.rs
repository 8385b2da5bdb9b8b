//! Cases of jobs with idle steps, worked out by hand.

use super::paper::{text, Case};
use super::{walk_of, Call};

/// The specification's job with steps 3 and 4 idle: openings 2, 3 and 4 come after two running steps, 5 after three.
const JOB: &str = "horizon=6 idles=2 idle=3 idle=4 walk=9 openings=4 opening=2 fee=10 opening=3 fee=10 opening=4 fee=10 \
    opening=5 fee=10 parts=2 life=3 left=2 price=5 price=5 price=5 price=5 life=4 left=4 price=7 price=7 price=7 price=7";

/// Eight steps, of which 5, 6 and 7 are idle.
const LATE: &str = "horizon=8 idles=3 idle=5 idle=6 idle=7 walk=9 openings=2 opening=2 fee=1 opening=8 fee=1 parts=1 \
    life=2 left=2 price=3 price=3";

/// Steps 1 and 2 are idle: the opening comes before the first running step.
const EARLY: &str = "horizon=4 idles=2 idle=1 idle=2 walk=9 openings=1 opening=2 fee=3 parts=1 life=3 left=1 price=4";

/// No step runs but T + 1.
const STILL: &str = "horizon=3 idles=3 idle=1 idle=2 idle=3 walk=9 openings=1 opening=2 fee=5 parts=1 life=1 left=1 price=4";

fn case(name: &'static str, job: &str, plan: Option<&str>, line: u32, answer: &'static str) -> Case {
    Case { name, call: Call { job: text(job), plan: plan.map(text), walk: walk_of(&text(job)), output: 16_384 }, line, answer }
}

/// The job with the first `old` replaced.
fn altered(job: &str, old: &str, new: &str) -> String {
    assert!(job.contains(old), "{old} is in the job");
    job.replacen(old, new, 1)
}

fn planned() -> Vec<Case> {
    let plan = |name, job: &str, answer| case(name, job, None, 0, answer);
    let first = "horizon=6 idles=3 idle=1 idle=2 idle=3 walk=9 openings=1 opening=4 fee=10 parts=1 life=3 left=1 price=5";
    vec![
        plan("an idle opening is the stop", JOB, "result=0 nodes=9 floor=22 cost=22 stops=1 stop=4 count=2 part=1 part=2"),
        plan("walk 8", &altered(JOB, "walk=9", "walk=8"), "result=7 nodes=8 floor=22 cost=22 stops=1 stop=4 count=2 part=1 part=2"),
        plan("walk 5", &altered(JOB, "walk=9", "walk=5"), "result=7 nodes=5 floor=22"),
        plan("a first life over idle steps", first, "result=0 nodes=3 floor=15 cost=15 stops=1 stop=4 count=1 part=1"),
        plan("one idle step fewer", &altered(first, "idles=3 idle=1", "idles=2"), "result=6"),
        plan("an opening before the first running step", EARLY, "result=0 nodes=3 floor=7 cost=7 stops=1 stop=2 count=1 part=1"),
        plan("all steps idle", STILL, "result=0 nodes=3 floor=0 cost=0 stops=0"),
        plan("step T + 1 runs", "horizon=5 idles=2 idle=4 idle=5 walk=9 openings=0 parts=1 life=3 left=3", "result=6"),
        plan(
            "life 4",
            "horizon=5 idles=2 idle=4 idle=5 walk=9 openings=0 parts=1 life=4 left=4",
            "result=0 nodes=1 floor=0 cost=0 stops=0",
        ),
    ]
}

fn judged() -> Vec<Case> {
    let judge = |name, job: &str, plan: &str, answer| case(name, job, Some(plan), 0, answer);
    let none = "cost=0 stops=0";
    let both = "cost=37 stops=2 stop=2 count=1 part=1 stop=4 count=2 part=1 part=2";
    vec![
        judge("the printed plan", JOB, "cost=22 stops=1 stop=4 count=2 part=1 part=2", "result=0 cost=22"),
        judge("the printed plan with cost 21", JOB, "cost=21 stops=1 stop=4 count=2 part=1 part=2", "result=11 cost=22"),
        judge("changes at a distance of 0", JOB, both, "result=0 cost=37"),
        judge("no stop", JOB, none, "result=10 part=1 due=4"),
        judge("part 2 is due at the last step", JOB, "cost=15 stops=1 stop=3 count=1 part=1", "result=10 part=2 due=6"),
        judge("an idle step is due before the end", LATE, "cost=4 stops=1 stop=2 count=1 part=1", "result=10 part=1 due=7"),
        judge("and before a late change", LATE, "cost=8 stops=2 stop=2 count=1 part=1 stop=8 count=1 part=1", "result=10 part=1 due=7"),
        judge("a first life is due after idle steps", EARLY, none, "result=10 part=1 due=3"),
        judge("changed before the first running step", EARLY, "cost=7 stops=1 stop=2 count=1 part=1", "result=0 cost=7"),
        judge("all steps idle", STILL, "cost=9 stops=1 stop=2 count=1 part=1", "result=0 cost=9"),
        judge("all steps idle, no stop", STILL, none, "result=0 cost=0"),
        judge(
            "the last step is idle and due",
            "horizon=5 idles=2 idle=4 idle=5 walk=9 openings=0 parts=1 life=3 left=3",
            none,
            "result=10 part=1 due=5",
        ),
    ]
}

fn refused() -> Vec<Case> {
    let fault = |name, new: &str, line, answer| case(name, &altered(JOB, "idles=2 idle=3 idle=4", new), None, line, answer);
    vec![
        fault("idles 0", "idles=0", 2, "result=3 text=1 line=2"),
        fault("idles 366", "idles=366 idle=3 idle=4", 2, "result=3 text=1 line=2"),
        fault("idles 02", "idles=02 idle=3 idle=4", 2, "result=2 text=1 line=2"),
        fault("idles without a number", "idles= idle=3 idle=4", 2, "result=2 text=1 line=2"),
        fault("idle without idles", "idle=3", 2, "result=2 text=1 line=2"),
        fault("an idle line is missing", "idles=2 idle=3", 4, "result=2 text=1 line=4"),
        fault("an idle line too many", "idles=2 idle=3 idle=4 idle=5", 5, "result=2 text=1 line=5"),
        fault("idle lines twice", "idles=1 idle=3 idles=1 idle=4", 4, "result=2 text=1 line=4"),
        fault("an idle line that doesn't rise", "idles=2 idle=3 idle=3", 4, "result=4 text=1 line=4"),
        fault("an idle line that falls", "idles=2 idle=3 idle=2", 4, "result=4 text=1 line=4"),
        fault("past the horizon", "idles=2 idle=3 idle=7", 4, "result=4 text=1 line=4"),
        fault("more idle lines than steps", "idles=7 idle=1 idle=2 idle=3 idle=4 idle=5 idle=6 idle=7", 9, "result=4 text=1 line=9"),
        fault("idle 0", "idles=2 idle=3 idle=0", 4, "result=3 text=1 line=4"),
        fault("idle 366", "idles=2 idle=3 idle=366", 4, "result=3 text=1 line=4"),
        case(
            "idle lines after walk",
            &altered(JOB, "idles=2 idle=3 idle=4 walk=9", "walk=9 idles=1 idle=3"),
            None,
            3,
            "result=2 text=1 line=3",
        ),
    ]
}

pub fn cases() -> Vec<Case> {
    [planned(), judged(), refused()].concat()
}
