//! `latest`: the habit's plan at given stops, why each change was made, whether other changes cost less, what the stops cost.
#![cfg(feature = "library")]

mod common;
use common::inputs::{self, printed_plan};
use common::json::{read, Json};
use common::paper::{altered, text, JOB};
use common::rng::Rng;
use common::tool::{job, plain, Folder};
use juzvarola_checks::reference::model::{Job, Plan, Set};
use juzvarola_checks::reference::{self, texts};

/// A folder with this job.
fn folder(job: &[u8]) -> Folder {
    let folder = Folder::new();
    folder.write("a job.txt", job);
    folder
}

#[test]
fn the_habit_in_words() {
    let folder = folder(&text(JOB));
    let ran = folder.run(&["latest", "a job.txt", "--stops", "2,3,4,5", "-o", "habit.txt"]);
    let words = "\
a job.txt: changed as late as these stops allow, the parts cost 57 (fees 40, parts 17), with 4 stops and 3 changes (0)
    no changes at these stops cost less: no price rises from stop to stop, and no part holds another (proved)
    the cheapest plan costs 37, 20 less

Why each change was made
  step  part  why
     2     1  the next stop (3) would be 1 running step too late
     4     2  the next stop (5) would be 1 running step too late
     5     1  the end would be 2 running steps too late
";
    assert_eq!((ran.status, ran.out.as_str(), ran.err.as_str()), (0, words, ""));
    let plan = "cost=57 stops=4 stop=2 count=1 part=1 stop=3 count=0 stop=4 count=1 part=2 stop=5 count=1 part=1";
    assert_eq!(folder.read("habit.txt").into_bytes(), text(plan));
    // The stops of a plan, whose cost and changes are set aside; the plan to standard output.
    let ran = folder.run(&["latest", "a job.txt", "habit.txt", "-o", "-"]);
    assert_eq!((ran.status, ran.out.into_bytes(), ran.err.as_str()), (0, text(plan), words));
    assert_eq!(folder.run(&["judge", "a job.txt", "habit.txt"]).status, 0);
}

#[test]
fn stops_that_do_not_serve() {
    let folder = folder(&text(JOB));
    let ran = folder.run(&["latest", "a job.txt", "--stops", "3,4"]);
    let words = "a job.txt: these stops can't keep part 1: it is due by step 2, and the next stop after that is 3 (6)\n";
    assert_eq!((ran.status, ran.out.as_str()), (1, format!("{words}    other stops would: the cheapest plan costs 37\n").as_str()));
    let ran = folder.run(&["latest", "a job.txt", "--stops="]);
    assert!(ran.status == 1 && ran.out.contains("it is due by step 2, and no stop comes after that (6)\n"), "{ran:?}");
    folder.write("a job.txt", &text(&altered("left=2", "left=1")));
    let ran = folder.run(&["latest", "a job.txt", "--stops", "2,3,4,5", "-o", "none"]);
    assert!(ran.status == 1 && ran.out.ends_with("    no other stops would do: no plan keeps the lives\n"), "{ran:?}");
    assert_eq!(folder.names(), ["a job.txt"], "no file is made");
}

#[test]
fn faults_and_words() {
    let folder = folder(&text(JOB));
    for (words, status, said) in [
        (
            &["latest", "a job.txt", "--stops", "2,6"][..],
            2,
            "--stops: step 6 is no opening of the job, or does not come after the stop before (9)",
        ),
        (
            &["latest", "a job.txt", "--stops", "4,2"],
            2,
            "--stops: step 2 is no opening of the job, or does not come after the stop before (9)",
        ),
        (
            &["latest", "a job.txt", "--stops", "2;4"],
            64,
            "--stops takes steps from 1 to 365 with commas between them, such as 2,10,18, not '2;4'",
        ),
        (&["latest", "a job.txt"], 64, "latest takes 2 files, or one with --stops, not 1"),
        (&["latest", "a job.txt", "plan", "--stops", "2"], 64, "latest takes one file, not 2"),
        (&["latest", "a job.txt", "--stops", "2", "-o", "a job.txt"], 64, "would be written over"),
        (&["latest", "not there", "--stops", "2"], 66, "not there can't be read"),
    ] {
        let ran = folder.run(words);
        assert_eq!((ran.status, ran.out.as_str()), (status, ""), "{ran:?}");
        assert!(ran.err.contains(said), "{ran:?}");
    }
    let ran = folder.run(&["latest", "a job.txt", "--stops", "2,4", "--from", "2027-01-04"]);
    assert!(ran.out.contains("  2 (2027-01-05)     1  the next stop (4 (2027-01-07)) would be "), "{}", ran.out);
}

/// A price that rises: the habit pays it, and cheaper changes at the same stops are named.
#[test]
fn cheaper_changes_are_named() {
    let folder = folder(&text(&altered("price=5 price=5 price=5 price=5", "price=5 price=5 price=5 price=9")));
    let ran = folder.run(&["latest", "a job.txt", "--stops", "2,3,4,5"]);
    assert!(
        ran.out.contains("the parts cost 61 ") && ran.out.contains("\n    other changes at these stops cost 4 less: 57\n"),
        "{}",
        ran.out
    );
}

const KEYS: &[&str] =
    &["bounds", "command", "costs", "failing", "fault", "job", "juzvarola", "least", "reasons", "result", "stops", "text", "words"];

#[test]
fn the_same_for_programs() {
    let folder = folder(&text(JOB));
    let ran = folder.run(&["latest", "a job.txt", "--stops", "2,4", "--json"]);
    let json = read(&ran.out);
    assert_eq!((ran.status, json.names(), json.at("command").text()), (0, KEYS.to_vec(), "latest"));
    assert_eq!((json.at("costs").at("total").number(), json.at("least").number(), json.at("bounds").at("cheapest").number()), (37, 37, 37));
    let reasons: Vec<(u64, u64, u64)> =
        json.at("reasons").list().iter().map(|own| (own.at("step").number(), own.at("part").number(), own.at("late").number())).collect();
    assert_eq!(reasons, [(2, 1, 2), (4, 1, 2), (4, 2, 3)]);
    let ran = folder.run(&["latest", "a job.txt", "--stops", "3", "--json"]);
    let json = read(&ran.out);
    assert_eq!((ran.status, json.at("result").number(), json.at("costs"), json.at("text")), (1, 6, &Json::Null, &Json::Null));
    assert_eq!((json.at("failing").at("part").number(), json.at("failing").at("due").number()), (1, 2));
}

/// The least cost of changes at these stops, each part by itself where no part comes out with another.
fn least(job: &Job, stops: &Set) -> u64 {
    let own = |(part, prices): (&reference::model::Part, Vec<u64>)| job.least_of(part, &prices, stops).expect("the stops serve").0;
    job.fees(stops) + job.parts.iter().enumerate().map(|(at, part)| own((part, job.charged(at)))).sum::<u64>()
}

/// Plans, sums and reasons of random jobs against the reference.
#[test]
fn random_stops() {
    common::with_stack(|| {
        let folder = Folder::new();
        let mut rng = Rng::new(81);
        let (mut served, mut cheaper) = (0, 0);
        for _ in 0..300 {
            let facts = inputs::facts(&mut rng, inputs::SMALL);
            let own = texts::read_job(&facts.text()).expect("a job without faults");
            folder.write("job", &facts.text());
            let printed = printed_plan(&facts.text(), facts.walk).filter(|_| rng.once_in(2));
            let stops: Set = match printed {
                Some(plan) => texts::read_plan(&own, &plan).expect("a printed plan").0.stops,
                None => own.openings.iter().map(|_| !rng.once_in(3)).collect(),
            };
            let none = vec![vec![false; stops.len()]; own.parts.len()];
            folder.write("stops", texts::plan_lines(&own, &Plan { stops: stops.clone(), changes: none }).as_bytes());
            let ran = folder.run(&["latest", "job", "stops", "-o", "habit"]);
            let Some(habit) = own.latest_plan(&stops) else {
                assert!(ran.status == 1 && ran.out.contains("(6)\n"), "{ran:?}");
                continue;
            };
            served += 1;
            assert_eq!((ran.status, folder.read("habit")), (0, texts::plan_lines(&own, &habit)), "{ran:?}");
            let changes: usize = habit.changes.iter().map(|part| part.iter().filter(|changed| **changed).count()).sum();
            assert_eq!(ran.out.matches(" too late\n").count(), changes, "{}", ran.out);
            assert!(!ran.out.contains(" 0 running steps too late"), "{}", ran.out);
            if own.holding().is_empty() {
                let (cost, least) = (own.cost(&habit), least(&own, &stops));
                let said = plain(&ran.out).contains(&format!("other changes at these stops cost {} less: {least}\n", cost - least));
                assert_eq!((said, ran.out.contains("no changes at these stops cost less")), (cost > least, cost == least), "{}", ran.out);
                cheaper += u64::from(cost > least);
            }
        }
        assert!(served >= 100 && cheaper >= 10, "{served} {cheaper}");
    });
}

/// A job of a realistic size, its stops those of the cheapest plan.
#[test]
fn the_stops_of_the_cheapest_plan() {
    let folder = folder(&job("13_shutdown"));
    assert_eq!(folder.run(&["plan", "a job.txt", "-o", "plan"]).status, 0);
    let ran = folder.run(&["latest", "a job.txt", "plan"]);
    assert!(ran.status == 0 && ran.out.contains("no changes at these stops cost less: no price rises"), "{}", ran.out);
    assert!(ran.out.contains("    the cheapest possible (proved)\n"), "{}", ran.out);
}
