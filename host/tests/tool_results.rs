//! Plans and verdicts as the program says them, against the reference: exit status, words, the line at fault, the plan text.
#![cfg(feature = "library")]

mod common;
use common::paper::{altered, text, JOB};
use common::rng::Rng;
use common::tool::{number_after, plain, Folder, Ran};
use common::{inputs, jobs, setting};
use juzvarola_checks::reference::{self, Reply};

/// The exit status by the kind of result.
fn status_of(result: u32) -> i32 {
    match result {
        0 => 0,
        6 | 10 | 11 => 1,
        7 => 3,
        _ => 2,
    }
}

/// The plan lines of the planner's reply.
fn plan_lines(reply: &Reply) -> String {
    let lines = String::from_utf8(reply.bytes.clone()).expect("answers are text");
    lines.find("cost=").map_or(String::new(), |at| lines[at..].to_string())
}

/// The value of a line of a reply.
fn value(reply: &Reply, key: &str) -> Option<u64> {
    let lines = std::str::from_utf8(&reply.bytes).expect("answers are text");
    lines.lines().find_map(|line| line.strip_prefix(&format!("{key}="))?.parse().ok())
}

/// How the program shows a line: what is no text as \xNN, cut after 160 characters.
fn as_shown(line: &[u8]) -> String {
    let mut shown = String::new();
    for chunk in line.utf8_chunks() {
        let escaped = |bytes: &[u8]| bytes.iter().map(|byte| format!("\\x{byte:02x}")).collect::<String>();
        chunk
            .valid()
            .chars()
            .for_each(|letter| shown += &if letter.is_control() { escaped(letter.to_string().as_bytes()) } else { letter.to_string() });
        shown += &escaped(chunk.invalid());
    }
    shown.chars().take(160).collect()
}

/// That a refusal names file, line and number, and shows the line.
fn check_refusal(ran: &Ran, reply: &Reply, at_fault: &[u8], name: &str) {
    let place = if reply.line == 0 { format!("{name}: ") } else { format!("{name}:{}: ", reply.line) };
    let mut lines = ran.err.lines();
    let first = lines.next().unwrap_or("");
    assert!(
        first.starts_with(&place) && first.ends_with(&format!(" ({})", reply.result)),
        "{first:?} is not of {place:?} and {}",
        reply.result
    );
    let fault = &at_fault[reply.fault_start..][..reply.fault_length];
    let shown = lines.next().map(|line| line.strip_prefix("    ").expect("the line is set in"));
    match shown {
        None => assert!(fault.is_empty(), "{:?} shows no line", ran.err),
        Some(shown) => assert!(!fault.is_empty() && shown.starts_with(&as_shown(fault)), "{shown:?} is not {:?}", as_shown(fault)),
    }
    assert_eq!(lines.next(), None);
}

/// One random call: the program's status and words are those of the reference's reply.
fn check(folder: &Folder, call: &common::Call) -> u32 {
    let reply = common::Call { output: 16_384, ..call.clone() }.expected();
    folder.write("a job.txt", &call.job);
    let ran = match &call.plan {
        None => folder.run(&["plan", "a job.txt", "--count-nodes", "--walk", &call.walk.to_string()]),
        Some(plan) => {
            folder.write("its plan.txt", plan);
            folder.run(&["judge", "a job.txt", "its plan.txt"])
        }
    };
    assert_eq!(ran.status, status_of(reply.result), "{reply:?}\n{ran:?}\n{call:?}");
    match reply.text {
        1 => check_refusal(&ran, &reply, &call.job, "a job.txt"),
        2 => check_refusal(&ran, &reply, call.plan.as_deref().unwrap_or_default(), "its plan.txt"),
        _ if call.plan.is_some() => assert!(ran.out.ends_with(&format!(" ({})\n", reply.result)) && ran.err.is_empty(), "{ran:?}"),
        _ => assert!(ran.err.contains(&format!(" ({})\n", reply.result)), "{ran:?}"),
    }
    if call.plan.is_none() || reply.text != 0 {
        assert_eq!(ran.out, if call.plan.is_none() { plan_lines(&reply) } else { String::new() });
    }
    if call.plan.is_none() && matches!(reply.result, 0 | 7) {
        let (nodes, floor) = (value(&reply, "nodes").expect("nodes"), value(&reply, "floor").expect("floor"));
        assert!(plain(&ran.err).contains(&format!("{nodes} nodes were walked (")), "{ran:?}");
        let cost = value(&reply, "cost").filter(|_| reply.result == 7);
        assert_eq!(number_after(&ran.err, "no plan costs less than "), cost.map(|_| floor), "{ran:?}");
        assert_eq!(number_after(&ran.err, "at most ").filter(|_| cost.is_some()), cost.map(|cost| cost - floor), "{ran:?}");
        assert_eq!(ran.err.contains("; proved, "), reply.result == 0, "{ran:?}");
        check_search(folder, call, &reply);
    }
    reply.result
}

/// Without the counted walk alone the plan is the reference's where that is the cheapest, and else it or the cheapest one, and the floor is no lower.
fn check_search(folder: &Folder, call: &common::Call, reply: &Reply) {
    let ran = folder.run(&["plan", "a job.txt", "--walk", &call.walk.to_string()]);
    let (floor, cost) = (value(reply, "floor").expect("a floor"), value(reply, "cost"));
    assert!(!ran.err.contains("nodes were walked"), "{ran:?}");
    if ran.status == 3 {
        assert_eq!((reply.result, &ran.out), (7, &plan_lines(reply)), "{call:?}");
        let own = number_after(&ran.err, "no plan costs less than ").filter(|_| cost.is_some());
        assert!(own.is_none_or(|own| floor <= own && Some(own) <= cost), "{ran:?}\n{call:?}");
        assert_eq!(number_after(&ran.err, "at most ").filter(|_| cost.is_some()), cost.zip(own).map(|(cost, own)| cost - own), "{ran:?}");
        return;
    }
    assert!(ran.status == 0 && ran.err.contains("; the cheapest possible (proved) (0)\n"), "{ran:?}\n{call:?}");
    let least = number_after(&ran.out, "cost=").expect("a cost");
    assert!(floor <= least && cost.is_none_or(|cost| least <= cost), "{ran:?}\n{call:?}");
    assert!(reply.result == 7 || ran.out == plan_lines(reply), "{ran:?}\n{call:?}");
    folder.write("its plan.txt", ran.out.as_bytes());
    assert_eq!(folder.run(&["judge", "a job.txt", "its plan.txt"]).status, 0, "{call:?}");
}

#[test]
fn program_says_what_the_reference_says() {
    common::with_stack(|| {
        let folder = Folder::new();
        let mut rng = Rng::new(setting("JUZVAROLA_SEED", 21));
        let cases = setting("JUZVAROLA_CASES", 1500);
        let mut results = [0u64; 14];
        for _ in 0..cases {
            results[check(&folder, &inputs::call(&mut rng)) as usize] += 1;
        }
        println!("{cases} runs, 0 differ\nresults: {results:?}");
        assert!(cases < 1500 || [0, 2, 3, 4, 5, 6, 7, 9, 10, 11].iter().all(|result| results[*result] > 0), "{results:?}");
        assert!(cases < 1500 || !inputs::holders_on() || results[12] > 0, "{results:?}");
    });
}

#[test]
fn plans_of_jobs_are_those_of_the_table() {
    let folder = Folder::new();
    for row in jobs::up_to(20_000) {
        folder.write("job.txt", &row.text);
        let ran = folder.run(&["plan", "job.txt", "-o", "best.txt"]);
        assert_eq!((ran.status, ran.out.as_str()), (0, ""), "{}", ran.err);
        assert_eq!(number_after(&ran.err, ": the plan costs "), Some(row.cost), "{}", row.name);
        assert!(ran.err.ends_with("; the cheapest possible (proved) (0)\n"), "{}", ran.err);
        let ran = folder.run(&["plan", "job.txt", "--count-nodes", "-o", "plan.txt"]);
        assert_eq!((ran.status, ran.out.as_str()), (0, ""), "{}", ran.err);
        assert_eq!(folder.read("plan.txt"), folder.read("best.txt"), "{}", row.name);
        assert_eq!(number_after(&ran.err, "the cheapest plan costs "), Some(row.cost), "{}", row.name);
        let words = plain(&ran.err);
        assert!(
            words.contains(&format!("; proved, {} nodes were walked (0)", row.nodes)) && !words.contains("no plan costs less"),
            "{words}"
        );
        let fees = number_after(&ran.err, "(fees ").expect("fees");
        let parts = number_after(&ran.err, ", parts ").expect("parts");
        assert_eq!(fees + parts, row.cost);
        let judged = folder.run(&["judge", "job.txt", "plan.txt"]);
        assert_eq!(judged.status, 0);
        assert_eq!(number_after(&judged.out, "the cost is true: "), Some(row.cost));
    }
}

/// How many running steps a part is past its life, worn step by step: from its due step to its next change, or to the step after the last.
fn worn_too_long(job: &[u8], plan: &[u8], part: usize) -> Option<u64> {
    let job = reference::texts::read_job(job).ok()?;
    let (plan, _) = reference::texts::read_plan(&job, plan).ok()?;
    let own = &job.parts[part - 1];
    let mut worn = own.life - own.left;
    for step in 1..=job.horizon + 1 {
        worn += i64::from(!job.idles.contains(&step));
        let changed = job.openings.iter().zip(&plan.changes[part - 1]).any(|(opening, changed)| opening.step == step && *changed);
        if (changed || step > job.horizon) && worn > own.life {
            return Some((worn - own.life) as u64);
        }
        worn = if changed { 0 } else { worn };
    }
    None
}

#[test]
fn lateness_is_worn_step_by_step() {
    common::with_stack(|| {
        let folder = Folder::new();
        let mut rng = Rng::new(22);
        let mut late = 0;
        while late < 250 {
            let facts = inputs::job(&mut rng);
            let (job, plan) = (facts.text(), inputs::plan(&mut rng, &facts));
            let reply = reference::judge(&job, &plan, 16_384);
            if reply.result != 10 {
                continue;
            }
            late += 1;
            folder.write("job", &job);
            folder.write("plan", &plan);
            let ran = folder.run(&["judge", "job", "plan"]);
            let (part, due) = (value(&reply, "part").expect("part"), value(&reply, "due").expect("due"));
            assert!(ran.out.contains(&format!("part {part} is not kept: it is due by step {due} ")), "{ran:?}");
            let said: Vec<&str> = ran.out.split(" running step").next().expect("words").rsplit(' ').collect();
            assert_eq!(plain(said[0]).parse().ok(), worn_too_long(&job, &plan, part as usize), "{ran:?}");
            let all = folder.run(&["judge", "job", "plan", "-v"]);
            let failing = (1..=facts.parts.len())
                .filter(|part| worn_too_long(&job, &plan, *part).is_some())
                .map(|part| format!("part {part} is not kept"));
            let named: Vec<String> = all
                .out
                .lines()
                .map(|line| line[line.find("part ").expect("a part")..].split(':').next().expect("words").to_string())
                .collect();
            assert_eq!(named, failing.collect::<Vec<_>>(), "every part that fails: {all:?}");
        }
    });
}

/// Runs `plan` on a job of these lines, into a file; says whether the file is there.
fn plan_of(lines: &str, walk: &str) -> (Ran, bool) {
    let folder = Folder::new();
    folder.write("job.txt", &text(lines));
    let ran = folder.run(&["plan", "job.txt", "--walk", walk, "-o", "plan.txt"]);
    let counted = folder.run(&["plan", "job.txt", "--walk", walk, "--count-nodes"]);
    assert_eq!(ran.status, counted.status);
    let same = format!("; {walk} nodes were walked (7)");
    assert!(
        ran.status != 3
            || counted.err.contains(&same) && counted.err.replace(&same, " (7)").starts_with(ran.err.lines().next().expect("words"))
    );
    (ran, folder.names().contains(&"plan.txt".to_string()))
}

#[test]
fn cut_walks_and_hopeless_jobs() {
    let (ran, made) = plan_of(JOB, "8");
    assert_eq!((ran.status, made), (3, true));
    let words =
        "the walk is longer than its walk number, 8; the best plan so far costs 44 (fees 20, parts 24), with 2 stops and 4 changes; \
                 at most 7 (16 %) could still be saved, as no plan costs less than 37 (7)";
    assert!(ran.err.contains(words), "{}", ran.err);
    let (ran, made) = plan_of(JOB, "6");
    assert_eq!((ran.status, made), (3, false));
    assert!(ran.err.contains("no plan was found so far") && ran.err.contains("plan.txt is not written"), "{}", ran.err);
    let (ran, made) = plan_of(&altered("left=2", "left=1"), "11");
    assert_eq!((ran.status, made), (1, false));
    assert!(ran.err.contains("no plan keeps the lives (6)"), "{}", ran.err);
    assert!(
        ran.err.contains("part 1 has to be changed again by step 1 and can't be: the next opening after that is step 2"),
        "{}",
        ran.err
    );
}

/// The judge's words on a plan of the specification's job.
fn verdict(plan: &str) -> (i32, String) {
    let folder = Folder::new();
    folder.write("job.txt", &text(JOB));
    folder.write("plan.txt", &text(plan));
    let ran = folder.run(&["judge", "job.txt", "plan.txt"]);
    assert_eq!(ran.err, "");
    (ran.status, ran.out)
}

#[test]
fn verdicts_in_words() {
    let best = "stops=2 stop=2 count=1 part=1 stop=4 count=2 part=1 part=2";
    let (status, words) = verdict(&format!("cost=37 {best}"));
    assert_eq!((status, words.as_str()), (0, "plan.txt: every part's life is kept and the cost is true: 37 (0)\n"));
    let (status, words) = verdict(&format!("cost=36 {best}"));
    assert_eq!(
        (status, words.as_str()),
        (1, "plan.txt: every part's life is kept, but the plan costs 37 and states 36: 1 too little (11)\n")
    );
    let (status, words) = verdict(&format!("cost=2037 {best}"));
    assert_eq!(
        (status, words.as_str()),
        (1, "plan.txt: every part's life is kept, but the plan costs 37 and states 2,037: 2,000 too much (11)\n")
    );
    let (status, words) = verdict("cost=0 stops=2 stop=2 count=1 part=1 stop=3 count=2 part=1 part=2");
    let late = "it is due by step 6 and not changed any more; at the end, after step 6, that is 1 running step too late";
    assert_eq!((status, words), (1, format!("plan.txt: part 1 is not kept: {late} (10)\n")));
    let (status, words) = verdict("cost=0 stops=1 stop=4 count=1 part=1");
    assert_eq!(
        (status, words.as_str()),
        (1, "plan.txt: part 1 is not kept: it is due by step 2 and changed only at step 4, 2 running steps too late (10)\n")
    );
    let (status, words) = verdict("");
    assert_eq!(status, 1);
    assert!(words.contains("part 1 is not kept: it is due by step 2 and not changed any more"), "{words}");
}

#[test]
fn counts() {
    let folder = Folder::new();
    folder.write("job.txt", &text(JOB));
    let ran = folder.run(&["count", "job.txt"]);
    let words = "job.txt: the walk has at most 17 nodes, which take at most 0.1 s here\n";
    assert_eq!((ran.status, ran.out.as_str(), ran.err.as_str()), (0, words, ""));
    folder.write("job.txt", &common::tool::job("14_full64_4"));
    let out = folder.run(&["count", "job.txt"]).out;
    assert!(out.starts_with("job.txt: the walk may have 4,000,000,000 nodes or more, which take "), "{out}");
    assert!(out.contains(" s here; ") || out.contains(" min here; "), "{out}");
    folder.write("job.txt", &text(&altered("left=2", "left=4")));
    let ran = folder.run(&["count", "job.txt"]);
    assert_eq!((ran.status, ran.out.as_str(), ran.err.as_str()), (2, "", "job.txt:14: left is greater than life (5)\n    left=4\n"));
}

/// A count of 1 says "no plan" where it means it: not for a job that needs no stop.
#[test]
fn counts_of_one() {
    let folder = Folder::new();
    for (lines, words) in [
        (altered("left=2", "left=1"), "no plan keeps the lives, so there is nothing to walk"),
        ("horizon=6 walk=11 openings=0 parts=1 life=6 left=6".to_string(), "no plan keeps the lives, so there is nothing to walk"),
        ("horizon=6 walk=11 openings=0 parts=1 life=7 left=7".to_string(), "the walk has at most 1 node, which takes at most 0.1 s here"),
    ] {
        folder.write("job.txt", &text(&lines));
        let ran = folder.run(&["count", "job.txt"]);
        assert_eq!((ran.status, ran.out), (0, format!("job.txt: {words}\n")), "{lines}");
    }
}

/// What the longest walk would take, where this one was cut short.
#[test]
fn a_longer_walk_is_offered() {
    let folder = Folder::new();
    folder.write("job.txt", &common::tool::job("14_full64_4"));
    folder.write("hard.txt", &common::tool::hard());
    let words = "    the greatest walk number, --walk 4000000000, takes about ";
    for order in [&["plan", "job.txt", "--walk", "5000000", "--count-nodes"][..], &["plan", "hard.txt", "--walk", "500000"]] {
        let ran = folder.run(order);
        assert!(
            ran.status == 3 && ran.err.lines().nth(1).is_some_and(|line| line.starts_with(words) && line.ends_with(" here at most")),
            "{ran:?}"
        );
    }
}

#[test]
fn jobs_are_checked() {
    let folder = Folder::new();
    folder.write("job.txt", &common::tool::job("38_week8_guard_shutdown"));
    let ran = folder.run(&["check", "job.txt"]);
    let words = "job.txt: a job without faults: 52 steps, 52 openings, 8 parts, 3 idle steps, 7 parts behind others (0)\n";
    assert_eq!((ran.status, ran.out.as_str(), ran.err.as_str()), (0, words, ""));
    folder.write("job.txt", &text(&altered("left=2", "left=4")));
    let ran = folder.run(&["check", "job.txt"]);
    assert_eq!((ran.status, ran.out.as_str(), ran.err.as_str()), (2, "", "job.txt:14: left is greater than life (5)\n    left=4\n"));
}
