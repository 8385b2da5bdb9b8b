//! Cases of the latest-time habit, worked out by hand.

use super::paper::{altered, text, Case, JOB};
use super::Call;

pub fn cases() -> Vec<Case> {
    let case = |name, job: &str, plan: &str, line, answer| {
        let call = Call { job: text(job), plan: Some(text(plan)), walk: 0, output: 16_384 };
        Case { name, call, line, answer }
    };
    let bare = "cost=0 stops=2 stop=2 count=0 stop=4 count=0";
    let all = "cost=0 stops=4 stop=2 count=0 stop=3 count=0 stop=4 count=0 stop=5 count=0";
    vec![
        case("the planner's stops", JOB, bare, 0, "result=0 cost=37 stops=2 stop=2 count=1 part=1 stop=4 count=2 part=1 part=2"),
        case(
            "stops 2 and 5",
            JOB,
            "cost=0 stops=2 stop=2 count=0 stop=5 count=0",
            0,
            "result=0 cost=44 stops=2 stop=2 count=2 part=1 part=2 stop=5 count=2 part=1 part=2",
        ),
        case(
            "all stops: one of them without a change",
            JOB,
            all,
            0,
            "result=0 cost=57 stops=4 stop=2 count=1 part=1 stop=3 count=0 stop=4 count=1 part=2 stop=5 count=1 part=1",
        ),
        case("part 1 is due at 2", JOB, "cost=0 stops=2 stop=3 count=0 stop=4 count=0", 0, "result=6"),
        case("an empty plan text", JOB, "", 0, "result=6"),
        case("an empty plan text that serves", "horizon=6 walk=11 openings=0 parts=1 life=7 left=7", "", 0, "result=0 cost=0 stops=0"),
        case("a fault of the job text", &altered("left=2", "left=4"), bare, 14, "result=5 text=1 line=14"),
        case("a part line that is set aside is checked", JOB, "cost=0 stops=1 stop=2 count=1 part=3", 5, "result=9 text=2 line=5"),
        case(
            "a price that rises",
            &altered("price=5 price=5 price=5 price=5", "price=5 price=5 price=5 price=9"),
            all,
            0,
            "result=0 cost=61 stops=4 stop=2 count=1 part=1 stop=3 count=0 stop=4 count=1 part=2 stop=5 count=1 part=1",
        ),
        case(
            "stops at one position: the last is taken",
            "horizon=4 idles=1 idle=3 walk=0 openings=2 opening=2 fee=0 opening=3 fee=0 parts=1 life=2 left=2 price=5 price=5",
            "cost=9 stops=2 stop=2 count=1 part=1 stop=3 count=0",
            0,
            "result=0 cost=5 stops=2 stop=2 count=0 stop=3 count=1 part=1",
        ),
    ]
}
