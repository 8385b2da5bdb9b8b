//! The cases that the specification gives.

use super::{walk_of, Call};

#[derive(Clone)]
pub struct Case {
    pub name: &'static str,
    pub call: Call,
    pub line: u32,
    /// The answer's lines, separated by spaces; `nodes=?` stands for any number of points.
    pub answer: &'static str,
}

impl Case {
    /// Whether a call that handed over this line and these bytes is what the case expects.
    pub fn is(&self, line: u32, bytes: &[u8]) -> bool {
        let bytes = std::str::from_utf8(bytes).expect("answers are ASCII");
        let Some(lines) = bytes.strip_suffix('\n') else { return false };
        let wanted: Vec<&str> = self.answer.split(' ').collect();
        let lines: Vec<&str> = lines.split('\n').collect();
        let same = |(line, wanted): (&&str, &&str)| line == wanted || (*wanted == "nodes=?" && line.starts_with("nodes="));
        line == self.line && lines.len() == wanted.len() && lines.iter().zip(&wanted).all(same)
    }
}

pub const JOB: &str = "horizon=6 walk=11 openings=4 opening=2 fee=10 opening=3 fee=10 opening=4 fee=10 opening=5 fee=10 parts=2 \
    life=3 left=2 price=5 price=5 price=5 price=5 life=4 left=4 price=7 price=7 price=7 price=7";

const PLANNED: &str = "result=0 nodes=11 floor=37 cost=37 stops=2 stop=2 count=1 part=1 stop=4 count=2 part=1 part=2";

/// The same plan, cut at 10 nodes.
const CUT: &str = "result=7 nodes=10 floor=37 cost=37 stops=2 stop=2 count=1 part=1 stop=4 count=2 part=1 part=2";

/// The text of these lines.
pub fn text(lines: &str) -> Vec<u8> {
    lines.split_whitespace().map(|line| format!("{line}\n")).collect::<String>().into_bytes()
}

/// The job with the first `old` replaced.
pub fn altered(old: &str, new: &str) -> String {
    assert!(JOB.contains(old), "{old} is in the job");
    JOB.replacen(old, new, 1)
}

pub fn cases() -> Vec<Case> {
    let walked =
        |name, walk, job: &str, line, answer| Case { name, call: Call { job: text(job), plan: None, walk, output: 16_384 }, line, answer };
    let plan = |name, job: &str, line, answer| walked(name, walk_of(&text(job)), job, line, answer);
    let judge = |name, lines: &str, answer| {
        let call = Call { job: text(JOB), plan: Some(text(lines)), walk: 0, output: 16_384 };
        Case { name, call, line: 0, answer }
    };
    vec![
        plan("the job", JOB, 0, PLANNED),
        walked("walk 10", 10, JOB, 0, CUT),
        walked("walk 8", 8, JOB, 0, "result=7 nodes=8 floor=37 cost=44 stops=2 stop=2 count=2 part=1 part=2 stop=5 count=2 part=1 part=2"),
        walked("walk 6", 6, JOB, 0, "result=7 nodes=6 floor=37"),
        walked("no walk line", 11, &altered("walk=11 ", ""), 0, PLANNED),
        walked("no walk line, walk 10", 10, &altered("walk=11 ", ""), 0, CUT),
        walked("another walk line", 11, &altered("walk=11", "walk=0"), 0, PLANNED),
        walked("a walk number above the limit", 4_294_967_296 + 6, JOB, 0, PLANNED),
        walked("the largest number", u64::MAX, JOB, 0, PLANNED),
        walked("a walk line out of range", 11, &altered("walk=11", "walk=4000000001"), 2, "result=3 text=1 line=2"),
        walked("a walk line that is none", 11, &altered("walk=11", "walk=011"), 2, "result=2 text=1 line=2"),
        walked("two walk lines", 11, &altered("walk=11", "walk=11 walk=11"), 3, "result=2 text=1 line=3"),
        plan("left 1 for part 1", &altered("left=2", "left=1"), 0, "result=6"),
        plan(
            "all fees 0",
            &JOB.replace("fee=10", "fee=0"),
            0,
            "result=0 nodes=? floor=17 cost=17 stops=2 stop=2 count=1 part=1 stop=4 count=2 part=1 part=2",
        ),
        plan("left 4 for part 1", &altered("left=2", "left=4"), 14, "result=5 text=1 line=14"),
        plan("second opening 2", &altered("opening=3", "opening=2"), 6, "result=4 text=1 line=6"),
        judge(
            "part 1 at 2, parts 1 and 2 at 3",
            "cost=37 stops=2 stop=2 count=1 part=1 stop=3 count=2 part=1 part=2",
            "result=10 part=1 due=6",
        ),
        judge("the printed plan with cost 36", "cost=36 stops=2 stop=2 count=1 part=1 stop=4 count=2 part=1 part=2", "result=11 cost=37"),
        judge("the printed plan", "cost=37 stops=2 stop=2 count=1 part=1 stop=4 count=2 part=1 part=2", "result=0 cost=37"),
        judge("an empty plan text", "", "result=10 part=1 due=2"),
        plan("no openings, life 7", "horizon=6 walk=11 openings=0 parts=1 life=7 left=7", 0, "result=0 nodes=1 floor=0 cost=0 stops=0"),
        plan("no openings, life 6", "horizon=6 walk=11 openings=0 parts=1 life=6 left=6", 0, "result=6"),
        plan("opening 366", &altered("opening=3", "opening=366"), 6, "result=3 text=1 line=6"),
        plan("price 05", &altered("price=5", "price=05"), 15, "result=2 text=1 line=15"),
    ]
}
