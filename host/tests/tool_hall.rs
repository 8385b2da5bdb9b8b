//! Halls: joined from the lines' jobs, planned together beside each line alone, drawn, and refused where they don't fit.
#![cfg(feature = "library")]

mod common;
use common::json::{read, Json};
use common::paper::{text, JOB};
use common::tool::Folder;
use common::xml;

/// A line's job over half a year of weeks: its openings, what each costs, and for each part its life, what is left of it and its price.
fn line(openings: &[u64], fee: u64, parts: &[(u64, u64, u64)]) -> Vec<u8> {
    let mut text = format!("horizon=26 idles=2 idle=13 idle=14 openings={} ", openings.len());
    openings.iter().for_each(|step| text += &format!("opening={step} fee={fee} "));
    text += &format!("parts={} ", parts.len());
    for (life, left, price) in parts {
        text += &format!("life={life} left={left} {}", format!("price={price} ").repeat(openings.len()));
    }
    common::paper::text(&text)
}

/// A folder with the jobs of three lines, and the hall of them.
fn folder() -> Folder {
    let folder = Folder::new();
    folder.write("one.txt", &line(&[3, 6, 9, 13, 17, 20, 23], 40, &[(8, 5, 60), (12, 9, 90), (20, 11, 160)]));
    folder.write("two.txt", &line(&[4, 6, 10, 13, 17, 21], 30, &[(9, 6, 75), (14, 7, 110)]));
    folder.write("three.txt", &line(&[3, 8, 9, 13, 18, 20, 24], 50, &[(10, 9, 80), (16, 12, 140)]));
    let ran = folder.run(&["join", "one.txt", "two.txt", "three.txt", "--call", "150", "-o", "hall.txt"]);
    assert_eq!((ran.status, ran.out.as_str(), ran.err.as_str()), (0, "", "a hall of 3 lines, with 150 for each call of the crew (0)\n"));
    folder
}

const SAID: &str = "\
    each line planned alone, with its calls, they would cost 2,725 with 7 calls: 170 (6.2 %) saved

Calls of the crew: parts changed
  call  step  line 1   line 2  line 3
     1     3  1        -       1
     2     6  1, 2, 3  1, 2    -
     3    13  1        1       1, 2
     4    20  1, 2     -       1
     5    21  -        1, 2    -

Lines
   line  stops  changes   cost  stops alone  cost alone
      1      4        7    740            4         740
      2      3        5    535            3         535
      3      3        4    530            2         400
  calls      5             750            7       1,050
    all                  2,555                    2,725
";

#[test]
fn a_hall_is_joined_and_planned() {
    let folder = folder();
    let texts = ["one.txt", "two.txt", "three.txt"].map(|name| folder.read(name)).concat();
    assert_eq!(folder.read("hall.txt"), format!("machines=3\ncall=150\n{texts}"));
    let ran = folder.run(&["hall", "hall.txt", "--into", "plans"]);
    assert_eq!((ran.status, ran.err.as_str()), (0, ""));
    let head = "hall.txt: the hall's cheapest plans cost 2,555, with 5 calls of the crew for 750; proved, ";
    assert!(ran.out.starts_with(head) && ran.out.ends_with(SAID), "{}", ran.out);
    for (job, plan) in [("one.txt", "plans/line1.txt"), ("two.txt", "plans/line2.txt"), ("three.txt", "plans/line3.txt")] {
        assert_eq!(folder.run(&["judge", job, plan]).status, 0);
    }
    // With dates of steps.
    let ran = folder.run(&["hall", "hall.txt", "--from", "2027-01-04", "--step", "week"]);
    assert!(ran.out.contains("     1   3 (2027-01-18)  1        -       1\n"), "{}", ran.out);
    // By standard input and output.
    let ran = folder.shell("\"$juzvarola\" join one.txt two.txt three.txt --call 150 2>/dev/null | \"$juzvarola\" hall -");
    assert!(ran.status == 0 && ran.out.ends_with(SAID), "{ran:?}");
    // Lines that stop alike save nothing by being planned together.
    folder.write("job.txt", &text(JOB));
    folder.run(&["join", "job.txt", "job.txt", "--call", "100", "-o", "alike.txt"]);
    let ran = folder.run(&["hall", "alike.txt"]);
    assert!(ran.out.contains("they would cost 274 with 2 calls: nothing saved\n"), "{}", ran.out);
}

#[test]
fn the_same_for_programs() {
    let folder = folder();
    let ran = folder.run(&["hall", "hall.txt", "--json"]);
    let answer = read(&ran.out);
    let number = |key: &str| answer.at(key).number();
    assert_eq!((ran.status, number("result"), number("cost"), number("cost_alone"), number("call")), (0, 0, 2555, 2725, 150));
    let calls: Vec<u64> = answer.at("calls").list().iter().map(Json::number).collect();
    assert_eq!((calls, answer.at("calls_alone").list().len()), (vec![3, 6, 13, 20, 21], 7));
    let own: u64 = answer.at("lines").list().iter().map(|line| line.at("costs").at("total").number()).sum();
    assert_eq!(own + 5 * 150, 2555);
    assert_eq!(answer.at("bounds").at("cheapest").number(), 2555);
    // A walk that is cut has what planning alone costs.
    let ran = folder.run(&["hall", "hall.txt", "--walk", "0", "--json"]);
    let answer = read(&ran.out);
    assert_eq!((ran.status, answer.at("result").number(), answer.at("cost")), (3, 7, &Json::Null));
    assert_eq!((answer.at("cost_alone").number(), answer.at("lines").list().len()), (2725, 0));
    let ran = folder.run(&["hall", "hall.txt", "--walk", "0", "-o", "cut.svg"]);
    assert!(ran.out.contains("no plans were found so far") && ran.out.contains("they would cost 2,725 with 7 calls\n"), "{}", ran.out);
    assert!(ran.out.ends_with("    cut.svg is not written\n"), "{}", ran.out);
    assert!(!folder.names().contains(&"cut.svg".to_string()));
}

#[test]
fn joining_is_told_to_programs() {
    let folder = folder();
    let ran = folder.run(&["join", "one.txt", "two.txt", "three.txt", "--call", "150", "--json"]);
    let answer = read(&ran.out);
    assert_eq!((ran.status, ran.err.as_str(), answer.at("text").text()), (0, "", folder.read("hall.txt").as_str()));
    let number = |key: &str| answer.at(key).number();
    assert_eq!((number("result"), number("call"), number("parts"), number("openings"), answer.at("jobs").list().len()), (0, 150, 7, 20, 3));
    folder.write("other.txt", &text(JOB));
    let ran = folder.run(&["join", "one.txt", "other.txt", "--call", "1", "--json", "-o", "none.txt"]);
    let answer = read(&ran.out);
    assert_eq!((ran.status, ran.err.as_str(), answer.at("result").number()), (2, "", 14));
    assert_eq!((answer.at("fault").at("file").text(), answer.at("words").text()), ("other.txt", "`horizon` is 6, and 26 in one.txt"));
    assert!(!folder.names().contains(&"none.txt".to_string()));
}

#[test]
fn the_hall_is_drawn() {
    let folder = folder();
    let ran = folder.run(&["hall", "hall.txt", "-o", "hall.svg"]);
    assert_eq!((ran.status, ran.err.as_str()), (0, ""));
    let checked = folder.shell("xmllint --noout hall.svg");
    assert_eq!((checked.status, checked.err.as_str()), (0, ""), "xmllint (Debian: libxml2-utils) finds no fault");
    let elements = xml::elements(&folder.read("hall.svg"));
    let steps = |class: &str| {
        let own = elements.iter().filter(|element| element.is(class) && element.get("data-step").is_some());
        own.map(|element| element.number("data-step") as u64).collect::<Vec<_>>()
    };
    assert_eq!((steps("call"), steps("call-line")), (vec![3, 6, 13, 20, 21], vec![3, 6, 13, 20, 21]));
    let hollow = steps("call-alone");
    assert!(!hollow.is_empty() && hollow.iter().all(|step| !steps("call").contains(step)), "{hollow:?}");
    assert_eq!(elements.iter().filter(|element| element.is("change")).count(), 16);
    // A disc stands above the stops at its step, and each bar is as long as what it stands for.
    let x = |class: &str, name: &str, step: u64| {
        let own = elements.iter().filter(|element| element.is(class) && element.get("data-step") == Some(&step.to_string()));
        own.map(|element| element.number(name)).collect::<Vec<_>>()
    };
    for step in steps("call") {
        let disc = x("call", "cx", step)[0];
        assert!(x("stop", "x1", step).iter().all(|stop| (stop - disc).abs() < 0.02) && !x("stop", "x1", step).is_empty(), "step {step}");
    }
    let ran = folder.run(&["hall", "hall.txt", "-o", "hall.png"]);
    assert_eq!(ran.status, 64, "{ran:?}");
}

/// The sums stand in words and as two bars to one scale.
#[test]
fn the_saving_is_drawn() {
    let folder = folder();
    folder.run(&["hall", "hall.txt", "-o", "hall.svg"]);
    let elements = xml::elements(&folder.read("hall.svg"));
    let sums: Vec<_> = elements.iter().filter(|element| element.is("sum")).collect();
    let sum = |name: &str| {
        sums.iter()
            .filter(|own| own.get("data-of").is_some_and(|of| of.starts_with(name)))
            .map(|own| own.number("data-amount"))
            .sum::<f64>()
    };
    assert_eq!((sum("together"), sum("each alone")), (2555.0, 2725.0));
    let words: String = elements.iter().filter(|element| element.name == "text").map(|element| element.text.clone() + "\n").collect();
    for own in [
        "A hall of 3 lines and one crew: 5 calls, 2,555 in all",
        "2,725 with 7 calls; 170 (6.2 %) saved",
        "Line 3\n",
        "cost 530; alone 400 with 2 stops",
    ] {
        assert!(words.contains(own), "{words}");
    }
    let scales: Vec<f64> = sums.iter().map(|own| own.number("width") / own.number("data-amount")).collect();
    assert!(scales.iter().all(|own| (own - scales[0]).abs() < 0.001), "{scales:?}");
}

/// A job that does not fit is named, with the key at which it differs: by its file where it is joined, by its line in a hall.
#[test]
fn jobs_that_do_not_fit() {
    let folder = folder();
    let one = folder.read("one.txt");
    let parts = |count: usize| line(&[13], 5, &vec![(30, 30, 1); count]);
    let openings = |count: u64| line(&(1..=count).collect::<Vec<_>>()[..], 5, &[(30, 30, 1)]);
    for (other, words) in [
        (one.replace("horizon=26", "horizon=25").into_bytes(), "`horizon` is 25, and 26 in "),
        (one.replace("idle=14", "idle=15").into_bytes(), "`idle` steps are 13, 15, and 13, 14 in "),
        (one.replace("idles=2\nidle=13\nidle=14\n", "").into_bytes(), "`idle` steps are none, and 13, 14 in "),
        (parts(14), "`parts` are 17 with those of the lines before, and a hall has at most 16"),
        (openings(26).repeat(1), "`openings` are"),
    ] {
        folder.write("other.txt", &other);
        let files =
            if words == "`openings` are" { vec!["one.txt", "other.txt", "other.txt", "other.txt"] } else { vec!["one.txt", "other.txt"] };
        let ran = folder.run(&[&["join"], &files[..], &["--call", "1", "-o", "bad.txt"]].concat());
        assert_eq!((ran.status, ran.out.as_str()), (2, ""), "{ran:?}");
        assert!(ran.err.starts_with(&format!("other.txt: {words}")) && ran.err.ends_with(" (14)\n"), "{}", ran.err);
        assert!(!folder.names().contains(&"bad.txt".to_string()));
        let texts: Vec<u8> = files.iter().flat_map(|name| std::fs::read(folder.0.join(name)).expect("a job")).collect();
        folder.write("hall.txt", &[format!("machines={}\ncall=1\n", files.len()).into_bytes(), texts].concat());
        let ran = folder.run(&["hall", "hall.txt"]);
        let number = if files.len() == 4 { 4 } else { 2 };
        assert_eq!(ran.status, 2, "{ran:?}");
        assert!(ran.err.contains(&format!(": line {number}: {words}")) && ran.err.contains(" (14)\n    horizon="), "{}", ran.err);
    }
}

/// The program's words for a hall's text, with its first line.
fn refused(hall: &str) -> String {
    let folder = Folder::new();
    folder.write("hall.txt", &text(hall));
    let ran = folder.run(&["hall", "hall.txt"]);
    assert_eq!((ran.status, ran.out.as_str()), (2, ""), "{ran:?}");
    ran.err
}

#[test]
fn faults_of_a_hall() {
    let still = "horizon=6 openings=0 parts=1 life=7 left=7";
    for (hall, said) in [
        ("machines=5 call=9".to_string(), "hall.txt:1: machines is not a number from 1 to 4 (3)\n    machines=5\n"),
        ("machines=2".to_string(), "hall.txt:2: the text ends, and `call=` is due (2)\n"),
        ("machines=1 call=1000001".to_string(), "hall.txt:2: call is not a number from 0 to 1,000,000 (3)\n"),
        (format!("machines=2 call=9 {still}"), "hall.txt:8: the text ends, and `horizon=` is due (2)\n"),
        (
            format!("machines=1 call=9 {still} {still}"),
            "hall.txt:8: the text goes on after its last line: `machines` is 1 (2)\n    horizon=6\n",
        ),
        (
            format!("machines=2 call=9 {still} {}", still.replace("left=7", "left=8")),
            "hall.txt:12: left is greater than life (5)\n    left=8\n",
        ),
        (
            format!("machines=2 call=9 {still} {}", still.replace("openings=0", "openings=65")),
            "hall.txt:9: openings is not a number from 0 to 64 (3)\n",
        ),
        (
            format!("machines=2 call=9 {still} {}", still.replace("openings=0 parts=1", "openings=0")),
            "hall.txt:10: `parts=` is due here (2)\n    life=7\n",
        ),
        (format!("machines=2 call=9 {still} parts=1"), "hall.txt:8: `horizon=` is due here (2)\n    parts=1\n"),
        (still.to_string(), "hall.txt:1: this is a job, and a hall is due"),
    ] {
        let err = refused(&hall);
        assert!(err.starts_with(said), "{err}");
    }
}

#[test]
fn halls_without_an_answer() {
    let (folder, still) = (Folder::new(), "horizon=6 openings=0 parts=1 life=7 left=7");
    folder.write("hall.txt", &[b'a'; 65_537]);
    assert_eq!(folder.run(&["hall", "hall.txt"]).err, "hall.txt: the text has over 65,536 bytes (1)\n");
    let ran = folder.run(&["hall", "hall.txt", "--json"]);
    assert_eq!((ran.status, read(&ran.out).at("result").number()), (2, 1));
    // Some line has no plan.
    folder.write("none.txt", &text(&format!("machines=2 call=9 {still} {}", still.replace('7', "6"))));
    let ran = folder.run(&["hall", "none.txt", "-o", "none.svg"]);
    assert_eq!(
        (ran.status, ran.out.as_str()),
        (1, "none.txt: some line has no plan that keeps its parts' lives (6)\n    none.svg is not written\n")
    );
    assert_eq!(folder.run(&["judge", "none.txt", "hall.txt"]).err, "none.txt:1: this is a hall, and a job is due (2)\n    machines=2\n");
    for (words, said) in [
        (&["join", "a.txt"][..], "join needs --call N"),
        (&["join", "--call", "3"], "join takes one file or more, not 0"),
        (&["join", "a", "b", "c", "d", "e", "--call", "3"], "a hall has at most 4 lines, not 5"),
        (&["hall"], "hall takes one file, not 0"),
    ] {
        let ran = folder.run(words);
        assert!(ran.status == 64 && ran.err.contains(said), "{ran:?}");
    }
}
