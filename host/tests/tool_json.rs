//! Answers as JSON: well formed whatever the names are, with the keys of juzvarola-json(5), and the same numbers as the other answers.
#![cfg(feature = "library")]

mod common;
use common::inputs;
use common::json::{read, Json};
use common::paper::{altered, text, JOB};
use common::rng::Rng;
use common::tool::{job, Folder};
use juzvarola_checks::reference::texts::{read_job, read_plan};

/// The keys of each command's object, in alphabetical order. They are stable: a key may be added, and none is taken away or renamed.
const PLAN: &[&str] =
    &["bounds", "command", "costs", "ended", "fault", "job", "juzvarola", "nodes", "proved", "result", "stops", "text", "walk", "words"];
const JUDGE: &[&str] = &["command", "costs", "failing", "fault", "job", "juzvarola", "kept", "plan", "result", "stated", "words"];
const LIST: &[&str] = &[
    "bounds",
    "command",
    "costs",
    "failing",
    "fault",
    "job",
    "juzvarola",
    "kept",
    "parts",
    "periods",
    "plan",
    "result",
    "standing",
    "stated",
    "stops",
    "words",
];
const COMPARE: &[&str] = &["bounds", "command", "differences", "fault", "job", "juzvarola", "plans", "range", "result", "words"];
const COUNT: &[&str] = &["command", "count", "fault", "job", "juzvarola", "milliseconds", "no_plan", "or_more", "result", "words"];
const REFUSED: &[&str] = &["command", "fault", "juzvarola", "result", "words"];

/// A name that JSON must escape.
const NAME: &str = "a \"job\" \\ \u{1}\n\u{e4}.txt";

/// Runs the words with --json; its status and its object, with nothing said beside it.
fn run(folder: &Folder, words: &[&str], keys: &[&str]) -> (i32, Json) {
    let ran = folder.run(&[words, &["--json"]].concat());
    assert_eq!(ran.err, "", "{words:?}");
    let json = read(&ran.out);
    assert_eq!(json.names(), keys, "{words:?}");
    assert_eq!((json.at("command").text(), json.at("juzvarola").text()), (words[0], env!("CARGO_PKG_VERSION")));
    (ran.status, json)
}

/// A folder with the specification's job and its plan.
fn folder() -> Folder {
    let folder = Folder::new();
    folder.write(NAME, &text(JOB));
    folder.write("plan", &text("cost=37 stops=2 stop=2 count=1 part=1 stop=4 count=2 part=1 part=2"));
    folder
}

#[test]
fn answers_have_their_keys() {
    let folder = folder();
    let (status, json) = run(&folder, &["plan", NAME, "--count-nodes"], PLAN);
    assert_eq!((status, json.at("result").number(), json.at("nodes").number(), json.at("proved")), (0, 0, 11, &Json::Bool(true)));
    let (status, json) = run(&folder, &["plan", NAME], PLAN);
    assert_eq!((status, json.at("result").number(), json.at("nodes"), json.at("proved")), (0, 0, &Json::Null, &Json::Bool(true)));
    assert_eq!((json.at("costs").at("total").number(), json.at("text").text()), (37, folder.read("plan").as_str()));
    assert_eq!(json.at("stops").list()[1].at("changes").list()[1].at("price").number(), 7);
    assert_eq!((json.at("bounds").at("cheapest").number(), json.at("bounds").at("floor")), (37, &Json::Null));
    let (status, json) = run(&folder, &["judge", NAME, "plan"], JUDGE);
    assert_eq!((status, json.at("stated").number(), json.at("failing").list().len()), (0, 37, 0));
    let (status, json) = run(&folder, &["judge", NAME, "/dev/null"], JUDGE);
    let failing: Vec<u64> = json.at("failing").list().iter().map(|part| part.at("part").number()).collect();
    assert_eq!((status, json.at("result").number(), json.at("kept"), failing), (1, 10, &Json::Bool(false), vec![1, 2]));
    let (status, json) = run(&folder, &["list", NAME, "plan", "--every", "3", "--from", "2027-01-04"], LIST);
    assert_eq!((status, json.at("standing").text()), (0, "the cheapest possible (proved)"));
    assert_eq!(json.at("stops").list()[0].at("date").text(), "2027-01-05");
    assert_eq!(json.at("periods").list()[1].at("parts").list()[1].at("count").number(), 1);
    let (status, json) = run(&folder, &["compare", NAME, "plan", "/dev/null"], COMPARE);
    assert_eq!((status, json.at("plans").list()[1].at("result").number(), json.at("result").number()), (1, 10, 10));
    assert_eq!((json.at("differences").list()[0].at("a").list().len(), json.at("differences").list()[0].at("b")), (1, &Json::Null));
    let (status, json) = run(&folder, &["count", NAME], COUNT);
    assert_eq!((status, json.at("count").number(), json.at("or_more")), (0, 17, &Json::Bool(false)));
}

#[test]
fn texts_at_fault_are_told_too() {
    let folder = folder();
    folder.write("bad", &text(&altered("left=2", "left=4")));
    for words in
        [&["plan", "bad"][..], &["judge", "bad", "plan"], &["list", "bad", "plan"], &["compare", "bad", "plan", "plan"], &["count", "bad"]]
    {
        let (status, json) = run(&folder, words, REFUSED);
        let fault = json.at("fault");
        assert_eq!((status, json.at("result").number(), json.at("words").text()), (2, 5, "left is greater than life"));
        assert_eq!((fault.at("file").text(), fault.at("line").number(), fault.at("shown").text()), ("bad", 14, "left=4"));
    }
    folder.write("held", &job("38_week8_guard_shutdown"));
    let (status, json) = run(&folder, &["count", "held"], REFUSED);
    assert_eq!((status, json.at("result").number(), json.at("fault").at("line").number()), (2, 12, 0));
    let ran = folder.run(&["plan", "not there", "--json"]);
    assert_eq!((ran.status, ran.out.as_str()), (66, ""), "what is no answer is said on standard error");
}

#[test]
fn walks_cut_short_and_hopeless_jobs() {
    let folder = folder();
    let (status, json) = run(&folder, &["plan", NAME, "--walk", "8", "-o", "cut"], PLAN);
    assert_eq!((status, json.at("result").number(), json.at("proved"), json.at("ended").text()), (3, 7, &Json::Bool(false), "by itself"));
    assert_eq!((json.at("bounds").at("floor").number(), json.at("bounds").at("best").number(), json.at("walk").number()), (37, 44, 8));
    assert_eq!(json.at("text").text(), folder.read("cut"));
    let (_, again) = run(&folder, &["plan", NAME, "--walk", "8", "-o", "-"], PLAN);
    assert_eq!(again.at("text"), json.at("text"), "standard output gets one answer");
    let (status, json) = run(&folder, &["plan", NAME, "--walk", "6"], PLAN);
    assert_eq!((status, json.at("costs"), json.at("stops"), json.at("text")), (3, &Json::Null, &Json::Null, &Json::Null));
    folder.write("hopeless", &text(&altered("left=2", "left=1")));
    let (status, json) = run(&folder, &["plan", "hopeless"], PLAN);
    assert_eq!((status, json.at("result").number(), json.at("proved")), (1, 6, &Json::Bool(true)));
}

/// The lists' numbers against the reference's sums.
#[test]
fn lists_add_up() {
    common::with_stack(|| {
        let folder = Folder::new();
        let mut rng = Rng::new(71);
        let mut seen = 0;
        while seen < 60 {
            let facts = inputs::job(&mut rng);
            let plan = inputs::plan(&mut rng, &facts);
            let job = read_job(&facts.text()).expect("a job");
            let Ok((read, stated)) = read_plan(&job, &plan) else { continue };
            seen += 1;
            folder.write("job", &facts.text());
            folder.write("plan", &plan);
            let (_, json) = run(&folder, &["list", "job", "plan", "--every", "5"], LIST);
            let sum = |of: &Json, key: &str| of.list().iter().map(|own| own.at(key).number()).sum::<u64>();
            let (stops, parts, costs) = (json.at("stops"), json.at("parts"), json.at("costs"));
            assert_eq!((costs.at("total").number(), json.at("stated").number()), (job.cost(&read), stated));
            assert_eq!((sum(stops, "fee"), sum(parts, "prices")), (job.fees(&read.stops), job.prices(&read)));
            let removals = job.cost(&read) - job.fees(&read.stops) - job.prices(&read);
            let low = job.is_banded().then(|| job.at_low_ends().cost(&read));
            let said = json.at("costs").at("low");
            assert!(low.map_or(said == &Json::Null, |low| said.number() == low), "{low:?} {said:?}");
            assert_eq!((sum(stops, "removals"), sum(parts, "removals"), costs.at("removals").number()), (removals, removals, removals));
            let by_period: u64 = json.at("periods").list().iter().map(|period| sum(period.at("parts"), "count")).sum();
            assert_eq!(by_period, sum(parts, "count"));
        }
    });
}
