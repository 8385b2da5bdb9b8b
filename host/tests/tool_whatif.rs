//! `worth` and `whatif`: what a step of a part's life is worth, and the plan of a changed job.
#![cfg(feature = "library")]

mod common;
use common::inputs;
use common::json::{read, Json};
use common::paper::{altered, text, JOB};
use common::rng::Rng;
use common::tool::{plain, Folder};
use juzvarola_checks::reference::model::Job;
use juzvarola_checks::reference::texts::read_job;
use juzvarola_host::MOST_WALK;

/// A folder with this job.
fn folder(job: &[u8]) -> Folder {
    let folder = Folder::new();
    folder.write("a job.txt", job);
    folder
}

/// The least cost by the reference, or none.
fn least(job: &Job) -> Option<u64> {
    job.walk(MOST_WALK).best.map(|best| best.0)
}

#[test]
fn worth_in_words() {
    let folder = folder(&text(JOB));
    let ran = folder.run(&["worth", "a job.txt"]);
    let words = "\
a job.txt: the cheapest plan costs 37 (proved); what a step of each of 2 parts is worth (0)

  part  life  a step less  a step more
     1     3          +15            0
     2     4           +7            0
";
    assert_eq!((ran.status, ran.out.as_str(), ran.err.as_str()), (0, words, ""));
    let none = folder.run(&["worth", "not there"]);
    assert_eq!(none.status, 66);
    folder.write("bad", b"horizon=1\n");
    assert_eq!(folder.run(&["worth", "bad"]).status, 2);
    folder.write("never", &text(&altered("left=2", "left=1")));
    let never = folder.run(&["worth", "never"]);
    assert!(never.status == 1 && never.out.contains("no plan keeps the lives; "), "{never:?}");
}

/// Every cell of the table against the reference, by the answer for programs.
#[test]
fn worth_is_the_least_cost_of_other_lives() {
    common::with_stack(|| {
        let folder = Folder::new();
        let mut rng = Rng::new(91);
        let (mut more, mut less) = (0, 0);
        for _ in 0..60 {
            let facts = inputs::facts(&mut rng, inputs::TINY);
            let own = read_job(&facts.text()).expect("a job without faults");
            folder.write("job", &facts.text());
            let json = read(&folder.run(&["worth", "job", "--json"]).out);
            let cost = |bounds: &Json| {
                if bounds == &Json::Null || bounds.at("cheapest") == &Json::Null {
                    None
                } else {
                    Some(bounds.at("cheapest").number())
                }
            };
            assert_eq!(cost(json.at("bounds")), least(&own), "{facts:?}");
            for (at, part) in json.at("parts").list().iter().enumerate() {
                for (key, life) in [("shorter", own.parts[at].life - 1), ("longer", own.parts[at].life + 1)] {
                    if !(1..=1000).contains(&life) {
                        assert_eq!(part.at(key), &Json::Null);
                        continue;
                    }
                    let mut other = own.clone();
                    (other.parts[at].life, other.parts[at].left) = (life, other.parts[at].left.min(life));
                    assert_eq!(cost(part.at(key)), least(&other), "{key} {facts:?}");
                    more += u64::from(key == "longer" && least(&other) < least(&own));
                    less += u64::from(key == "shorter" && least(&other) != least(&own));
                }
            }
        }
        assert!(more >= 5 && less >= 5, "{more} {less}");
    });
}

#[test]
fn whatif_in_words() {
    let folder = folder(&text(JOB));
    let said = |words: &[&str]| {
        let ran = folder.run(&[&["whatif", "a job.txt"], words].concat());
        (ran.status, ran.out)
    };
    let all = "the cheapest plan would cost 57 (fees 40, parts 17), with 2 stops and 3 changes; proved (0)";
    let (status, out) = said(&["--fee", "20"]);
    assert_eq!(
        (status, out),
        (0, format!("a job.txt: every fee 20: {all}\n    that is 20 more than as it is: 37\n    the plan of before would cost 57\n"))
    );
    assert!(said(&["--fee", "+100%"]).1.contains(&format!("every fee +100 %: {all}")));
    assert!(said(&["--fee=-10"]).1.contains("every fee -10: the cheapest plan would cost 17 "));
    let (status, out) = said(&["--close", "2-3"]);
    assert!(status == 1 && out.contains("steps 2 to 3 closed: no plan would keep the lives (6)\n"), "{out}");
    assert!(out.ends_with("    the plan of before stops at step 2, which would be closed\n"), "{out}");
    let (status, out) = said(&["--left", "1=1"]);
    assert!(status == 1 && out.contains("part 1 with 1 left: no plan would keep the lives (6)"), "{out}");
    assert!(out.contains("the plan of before would not do: part 1 is not kept: it is due by step 1 "), "{out}");
    let (_, out) = said(&["--price", "2=+10%", "--price", "1=-2", "--close", "5"]);
    assert!(out.starts_with("a job.txt: part 2's prices +10 %, part 1's prices -2, step 5 closed: the cheapest plan would cost "), "{out}");
    let (_, out) = said(&["--fee", "-20", "--price", "1=0", "--price", "2=+999999"]);
    let held = "every fee -20, none below 0, part 1's prices 0, none below 1, part 2's prices +999999, none above 1,000,000: ";
    assert!(out.starts_with(&format!("a job.txt: {held}")), "what is held back is said: {out}");
}

#[test]
fn files_and_faults_of_whatif() {
    let folder = folder(&text(JOB));
    folder.write("all", &text("cost=0 stops=1 stop=2 count=2 part=1 part=2"));
    let ran = folder.run(&["whatif", "a job.txt", "all", "--fee", "1", "-o", "plan", "--save", "job"]);
    assert!(ran.status == 0 && ran.out.contains("    plan all would not do: part 1 is not kept"), "{ran:?}");
    assert_eq!(folder.run(&["judge", "job", "plan"]).status, 0);
    assert_eq!(folder.read("job"), String::from_utf8(text(JOB)).expect("text").replace("walk=11\n", "").replace("fee=10", "fee=1"));
    for (words, status, said) in [
        (&["whatif", "a job.txt"][..], 64, "whatif needs a change: --fee, --left, --price or --close"),
        (&["whatif", "a job.txt", "--left", "3=1"], 64, "the job has 2 parts, and no part 3"),
        (&["whatif", "a job.txt", "--left", "1=4"], 64, "part 1 has a life of 3, and 4 can't be left of it"),
        (&["whatif", "a job.txt", "--close", "5-2"], 64, "--close takes a step or steps, such as 20 or 20-22, not '5-2'"),
        (&["whatif", "a job.txt", "--close", "5-9"], 64, "the job has 6 steps, and no step 9"),
        (&["whatif", "a job.txt", "--fee", "10%"], 64, "--fee takes an amount such as 120, +10, -5 or +10%, not '10%'"),
        (&["whatif", "a job.txt", "a job.txt", "--fee", "1"], 2, "this is a job, and a plan is due"),
        (&["whatif", "a", "b", "c", "--fee", "1"], 64, "whatif takes one file or 2, not 3"),
    ] {
        let ran = folder.run(words);
        assert_eq!((ran.status, ran.out.as_str()), (status, ""), "{ran:?}");
        assert!(ran.err.contains(said), "{ran:?}");
    }
}

/// The new plan of random changes is the cheapest of the changed job, by the reference.
#[test]
fn random_changes() {
    common::with_stack(|| {
        let folder = Folder::new();
        let mut rng = Rng::new(92);
        let mut found = 0;
        for _ in 0..120 {
            let facts = inputs::facts(&mut rng, inputs::SMALL);
            let mut own = read_job(&facts.text()).expect("a job without faults");
            folder.write("job", &facts.text());
            let (fee, part) = (rng.below(30), rng.below(own.parts.len() as u64) as usize);
            own.openings.iter_mut().for_each(|opening| opening.fee = fee);
            own.parts[part].prices.iter_mut().for_each(|price| *price = (*price + 7).min(1_000_000));
            let words = [format!("--fee={fee}"), format!("--price={}=+7", part + 1)];
            let ran = folder.run(&["whatif", "job", &words[0], &words[1], "--save", "changed", "-o", "plan"]);
            let changed = read_job(folder.read("changed").as_bytes()).expect("the library wrote it");
            assert_eq!(
                (changed.openings.clone(), changed.parts[part].prices.clone()),
                (own.openings.clone(), own.parts[part].prices.clone())
            );
            if own.walk(3000).more {
                continue;
            }
            match least(&own) {
                // From the low ends of the prices where some are bands.
                Some(cost) => {
                    let (said, ends) = (plain(&ran.out), [format!("plan would cost {cost} ("), format!(" to {cost} (fees")]);
                    assert!(ends.iter().any(|own| said.contains(own)), "{ran:?}");
                }
                None => assert!(ran.out.contains("no plan would keep the lives (6)"), "{ran:?}"),
            }
            found += u64::from(ran.status == 0);
        }
        assert!(found >= 50, "{found}");
    });
}

const WORTH: &[&str] = &["bounds", "command", "fault", "job", "juzvarola", "parts", "result", "words"];
const WHATIF: &[&str] =
    &["as_it_is", "before", "bounds", "command", "costs", "fault", "job", "job_text", "juzvarola", "result", "stops", "text", "words"];

#[test]
fn the_same_for_programs() {
    let folder = folder(&text(JOB));
    let json = read(&folder.run(&["worth", "a job.txt", "--json"]).out);
    assert_eq!((json.names(), json.at("parts").list().len()), (WORTH.to_vec(), 2));
    let json = read(&folder.run(&["whatif", "a job.txt", "--fee", "20", "--json"]).out);
    assert_eq!(json.names(), WHATIF.to_vec());
    assert_eq!((json.at("as_it_is").at("cheapest").number(), json.at("bounds").at("cheapest").number()), (37, 57));
    assert_eq!((json.at("before").at("cost").number(), json.at("costs").at("total").number()), (57, 57));
}
