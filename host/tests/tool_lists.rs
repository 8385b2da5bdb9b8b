//! The lists and the comparison of plans, against sums of the reference.
#![cfg(feature = "library")]

mod common;
use common::inputs::{self, Facts};
use common::paper::{text, JOB};
use common::rng::Rng;
use common::tool::{hard, job, number_after, plain, Folder};
use juzvarola_checks::reference::model::{Job, Plan};
use juzvarola_checks::reference::texts::{read_job, read_plan};

/// A row of comma-separated values by its columns' names.
struct Row(Vec<(String, String)>);

impl Row {
    fn get(&self, column: &str) -> &str {
        self.0.iter().find(|(own, _)| own == column).map(|(_, value)| value.as_str()).expect("a column")
    }

    fn number(&self, column: &str) -> u64 {
        self.get(column).parse().unwrap_or_else(|_| panic!("{column} of a {}: {:?}", self.get("record"), self.get(column)))
    }
}

fn rows(csv: &str) -> Vec<Row> {
    let mut lines = csv.lines();
    let heads: Vec<&str> = lines.next().expect("a head").split(',').collect();
    let row = |line: &str| {
        let cells: Vec<&str> = line.split(',').collect();
        assert_eq!(cells.len(), heads.len(), "{line}");
        Row(heads.iter().zip(cells).map(|(head, cell)| (head.to_string(), cell.to_string())).collect())
    };
    lines.map(row).collect()
}

/// The sum of a column over the rows of a kind.
fn sum(rows: &[Row], record: &str, column: &str) -> u64 {
    rows.iter().filter(|row| row.get("record") == record).map(|row| row.number(column)).sum()
}

/// The one row of a kind.
fn amount(rows: &[Row], record: &str) -> u64 {
    let own: Vec<&Row> = rows.iter().filter(|row| row.get("record") == record).collect();
    assert_eq!(own.len(), 1, "{record}");
    own[0].number("amount")
}

/// An accepted plan of a random job, read by the reference too.
fn example(rng: &mut Rng) -> (Facts, Vec<u8>, Job, Plan) {
    loop {
        let facts = inputs::job(rng);
        let plan = inputs::plan(rng, &facts);
        let job = read_job(&facts.text()).expect("a job without faults");
        if let Ok((read, _)) = read_plan(&job, &plan) {
            return (facts, plan, job, read);
        }
    }
}

/// Checks the rows of a list by the reference's reading of the plan.
fn check_rows(rows: &[Row], job: &Job, plan: &Plan, every: u64) {
    let (fees, prices, cost) = (job.fees(&plan.stops), job.prices(plan), job.cost(plan));
    assert_eq!((amount(rows, "fees"), amount(rows, "parts"), amount(rows, "total")), (fees, prices, cost));
    assert_eq!((sum(rows, "removal", "amount"), sum(rows, "removals", "amount")), (cost - fees - prices, cost - fees - prices));
    assert!(!rows.iter().any(|row| row.get("record") == "other"));
    assert_eq!(sum(rows, "low", "amount"), if job.is_banded() { job.at_low_ends().cost(plan) } else { 0 });
    let changes: usize = plan.changes.iter().map(|own| own.iter().filter(|changed| **changed).count()).sum();
    for record in ["change", "period", "part"] {
        assert_eq!((sum(rows, record, "count"), sum(rows, record, "amount")), (changes as u64, prices), "{record}");
    }
    assert_eq!((sum(rows, "stop", "count"), sum(rows, "stop", "amount")), (changes as u64, fees));
    assert_eq!(sum(rows, "stop", "running") + sum(rows, "end", "running"), job.running(job.horizon) as u64);
    for row in rows.iter().filter(|row| row.get("record") == "change") {
        let (step, part) = (row.number("step"), row.number("part") as usize - 1);
        let opening = job.openings.iter().position(|opening| opening.step as u64 == step).expect("an opening");
        assert!(plan.changes[part][opening]);
        assert_eq!(row.number("price"), job.parts[part].prices[opening]);
        assert_eq!(row.number("from"), (step - 1) / every * every + 1);
        assert_eq!(row.number("to"), (row.number("from") + every - 1).min(job.horizon as u64));
    }
    for row in rows.iter().filter(|row| row.get("record") == "period") {
        let (part, steps) = (row.number("part") as usize - 1, row.number("from")..=row.number("to"));
        let own =
            job.openings.iter().zip(&plan.changes[part]).filter(|(opening, changed)| **changed && steps.contains(&(opening.step as u64)));
        assert_eq!(row.number("count"), own.count() as u64);
    }
}

#[test]
fn comma_separated_values_add_up() {
    common::with_stack(|| {
        let folder = Folder::new();
        let mut rng = Rng::new(31);
        for _ in 0..200 {
            let (facts, plan, job, read) = example(&mut rng);
            folder.write("job", &facts.text());
            folder.write("plan", &plan);
            let every = rng.within(1, 40);
            let ran = folder.run(&["list", "job", "plan", "--csv", "--every", &every.to_string()]);
            let judged = folder.run(&["judge", "job", "plan"]);
            let words = judged.out.rsplit_once(" (").expect("a verdict").0;
            assert!(ran.status == judged.status && ran.err.starts_with(words), "{ran:?} {judged:?}");
            check_rows(&rows(&ran.out), &job, &read, every);
        }
    });
}

/// All lists of the specification's plan.
const LISTS: &str = "\
Plan plan.txt of job job.txt
every part's life is kept and the cost is true: 37 (result 0)
the cheapest possible (proved)

Parts to buy
  part  count  prices  at steps
     1      2      10  2, 4
     2      1       7  4
   all      3      17

Parts by stop
  step  count  prices  part at its price
     2      1       5  1 at 5
     4      2      12  1 at 5, 2 at 7

Parts by periods of 3 steps
   steps  count  prices  which
  1 to 3      1       5  1 of part 1
  4 to 6      2      12  1 of part 1, 1 of part 2

Stops of the line
  stop  step  running steps before  fee  parts changed
     1     2                     2   10  1
     2     4                     2   10  1, 2
   end     6                     2

Life left after step 6
  part  life  left
     1     3     1
     2     4     2
   all     7     3

Costs
  of     amount
  fees       20
  parts      17
  total      37
";

#[test]
fn lists_of_the_specifications_plan() {
    let folder = Folder::new();
    folder.write("job.txt", &text(JOB));
    folder.write("plan.txt", &text("cost=37 stops=2 stop=2 count=1 part=1 stop=4 count=2 part=1 part=2"));
    let ran = folder.run(&["list", "job.txt", "plan.txt", "--every", "3"]);
    assert_eq!((ran.status, ran.out.as_str()), (0, LISTS));
    assert_eq!(ran.err, "plan.txt: every part's life is kept and the cost is true: 37; the cheapest possible (proved) (0)\n");
}

#[test]
fn a_refused_plan_is_listed_with_its_verdict() {
    let folder = Folder::new();
    folder.write("job.txt", &text(JOB));
    folder.write("plan.txt", b"");
    let ran = folder.run(&["list", "job.txt", "plan.txt"]);
    assert_eq!(ran.status, 1);
    assert!(ran.out.contains("part 1 is not kept: it is due by step 2") && ran.out.contains("(result 10)"), "{}", ran.out);
    assert!(ran.out.contains("   end     6                     6\n"), "{}", ran.out);
    folder.write("plan.txt", b"cost=1\n");
    let ran = folder.run(&["list", "job.txt", "plan.txt"]);
    assert_eq!((ran.status, ran.out.as_str()), (2, ""));
}

#[test]
fn long_lists_are_broken_and_lose_nothing() {
    let folder = Folder::new();
    folder.write("job.txt", &job("16_full64_16"));
    assert_eq!(folder.run(&["plan", "job.txt", "-o", "plan.txt"]).status, 0);
    let ran = folder.run(&["list", "job.txt", "plan.txt", "--every", "16"]);
    assert!(ran.out.lines().all(|line| line.chars().count() <= 110), "{}", ran.out);
    let stops = folder.read("plan.txt").lines().filter(|line| line.starts_with("part=")).count();
    let section = ran.out.split("Parts by stop").nth(1).and_then(|rest| rest.split("\n\n").next()).expect("the section");
    assert_eq!(section.matches(" at ").count() - 1, stops, "each change once, and the head: {section}");
}

/// That plan beside another.
const COMPARISON: &str = "\
Two plans of job job.txt
A  best.txt: every part's life is kept and the cost is true: 37; the cheapest possible (proved) (result 0)
B  other.txt: every part's life is kept and the cost is true: 44; 7 more than the cheapest (result 0)

Costs
  of            A   B  B less A
  stops         2   2         0
  changes       3   4        +1
  fees         20  20         0
  parts        17  24        +7
  total        37  44        +7
  stated cost  37  44        +7

Where they differ: parts changed
  step  A     B
     2  1     1, 2
     4  1, 2  no stop
     5  no stop  1, 2
";

#[test]
fn comparisons() {
    let folder = Folder::new();
    folder.write("job.txt", &text(JOB));
    folder.write("best.txt", &text("cost=37 stops=2 stop=2 count=1 part=1 stop=4 count=2 part=1 part=2"));
    folder.write("other.txt", &text("cost=44 stops=2 stop=2 count=2 part=1 part=2 stop=5 count=2 part=1 part=2"));
    let ran = folder.run(&["compare", "job.txt", "best.txt", "other.txt"]);
    let columns = |text: &str| text.lines().map(|line| line.split_whitespace().collect::<Vec<_>>().join(" ")).collect::<Vec<_>>();
    assert_eq!((ran.status, columns(&ran.out)), (0, columns(COMPARISON)), "{}", ran.out);
    assert_eq!(ran.err.lines().count(), 2);
    let same = folder.run(&["compare", "job.txt", "best.txt", "best.txt"]);
    assert!(same.out.ends_with("They stop and change at the same steps.\n"), "{}", same.out);
    folder.write("nothing.txt", b"");
    let ran = folder.run(&["compare", "job.txt", "nothing.txt", "best.txt"]);
    assert_eq!(ran.status, 1);
    assert!(plain(&ran.out).contains("(result 10)"), "{}", ran.out);
    folder.write("fault.txt", b"cost=0\nstops=1\nstop=1\n");
    let ran = folder.run(&["compare", "job.txt", "best.txt", "fault.txt"]);
    assert_eq!((ran.status, ran.out.as_str()), (2, ""));
    assert!(ran.err.contains("fault.txt:3: stop is no opening"), "{}", ran.err);
}

/// Where short walks do not find the cheapest plan, the list says what could still be saved, and the floor.
#[test]
fn what_could_still_be_saved() {
    let folder = Folder::new();
    folder.write("job.txt", &hard());
    assert_eq!(folder.run(&["plan", "job.txt", "--walk", "500000", "-o", "plan.txt"]).status, 3);
    let ran = folder.run(&["list", "job.txt", "plan.txt"]);
    let saved = number_after(&ran.out, "at most ").expect("what could be saved");
    let (total, floor) = (number_after(&ran.out, "  total ").expect("a total"), number_after(&ran.out, "  floor ").expect("a floor"));
    assert_eq!((ran.status, saved), (0, total - floor), "{}", ran.out);
    let share = format!("at most {saved} ({:.1} %) could still be saved", saved as f64 * 100.0 / total as f64);
    assert!(plain(&ran.out).contains(&share), "{}", ran.out);
    folder.write("nothing.txt", b"");
    let ran = folder.run(&["compare", "job.txt", "plan.txt", "nothing.txt"]);
    assert!(ran.out.contains("floor") && ran.out.matches("could still be saved").count() == 1, "{}", ran.out);
}

/// On a terminal the verdict is shown once; where the list goes elsewhere it is said beside it too.
#[test]
fn the_verdict_stands_once_on_a_terminal() {
    let folder = Folder::new();
    folder.write("job.txt", &text(JOB));
    folder.write("plan.txt", &text("cost=37 stops=2 stop=2 count=1 part=1 stop=4 count=2 part=1 part=2"));
    for (words, verdicts) in [
        ("list job.txt plan.txt", 1),
        ("judge job.txt plan.txt", 1),
        ("compare job.txt plan.txt plan.txt", 2),
        ("list job.txt plan.txt --csv", 1),
    ] {
        let ran = folder.shell(&format!("script -qec '\"$juzvarola\" {words}' /dev/null"));
        assert_eq!((ran.status, ran.out.matches("every part's life is kept").count()), (0, verdicts), "{words}: {ran:?}");
    }
    let ran = folder.shell("\"$juzvarola\" judge job.txt plan.txt > v.txt");
    assert_eq!(
        (ran.err.as_str(), folder.read("v.txt").as_str()),
        ("", "plan.txt: every part's life is kept and the cost is true: 37 (0)\n")
    );
    let ran = folder.run(&["draw", "job.txt", "plan.txt", "-o", "-"]);
    assert!(ran.out.starts_with("<?xml") && ran.err.starts_with("plan.txt: every part's life is kept"), "{}", ran.err);
}

/// Dates and names in all lists; the columns of the values grow by them.
#[test]
fn dates_and_names() {
    let folder = Folder::new();
    folder.write("job.txt", &text(JOB));
    folder.write("plan.txt", &text("cost=37 stops=2 stop=2 count=1 part=1 stop=4 count=2 part=1 part=2"));
    folder.write("names.csv", "\u{feff}1;\"Seal; lower\";S-1\r\n2;=Ring;\r\n".as_bytes());
    let dated = ["--from", "2027-01-31", "--step", "month", "--names", "names.csv"];
    let ran = folder.run(&[&["list", "job.txt", "plan.txt", "--every", "3"], &dated[..]].concat());
    assert_eq!(ran.status, 0, "{ran:?}");
    for words in [
        "2 (2027-02-28), 4 (2027-04-30)",
        "1 Seal; lower",
        "S-1",
        "1 (2027-01-31) to 3 (2027-03-31)",
        "1 of part 2 =Ring",
        "step 1 begins on 2027-01-31",
    ] {
        assert!(ran.out.contains(words), "{words}: {}", ran.out);
    }
    let ran = folder.run(&[&["list", "job.txt", "plan.txt", "--csv"], &dated[..]].concat());
    assert!(ran.out.starts_with("record,step,from,to,part,count,price,amount,running,date,name,order\n"), "{}", ran.out);
    assert!(ran.out.contains("\nchange,2,,,1,1,5,5,,2027-02-28,\"Seal; lower\",S-1\n"), "{}", ran.out);
    assert!(ran.out.contains("\nchange,4,,,2,1,7,7,,2027-04-30,'=Ring,\n"), "a formula is none: {}", ran.out);
    let ran = folder.run(&[&["compare", "job.txt", "plan.txt", "/dev/null"], &dated[..]].concat());
    assert!(
        ran.out.contains("2 (2027-02-28)  1 Seal; lower")
            && ran.out.contains("part 1 Seal; lower is not kept: it is due by step 2 (2027-02-28)"),
        "{}",
        ran.out
    );
    folder.write("odd.csv", b"1,\x1b[2Jred\n");
    let ran = folder.run(&["list", "job.txt", "plan.txt", "--names", "odd.csv"]);
    assert!(ran.out.contains("1 \\x1b[2Jred"), "what could harm a terminal is shown as such: {}", ran.out);
    for (names, words) in [
        ("17,x\n", "cell A1: '17' is not a part's number"),
        ("1,x\n1,y\n", "cell A2: part 1 is named twice"),
        ("3,x\n", "part 3 is named, and the job has 2 parts"),
        ("", "no part is named"),
        ("part,name,order\n", "no part is named"),
    ] {
        folder.write("bad.csv", names.as_bytes());
        let ran = folder.run(&["list", "job.txt", "plan.txt", "--names", "bad.csv"]);
        assert!(ran.status == 2 && ran.err.starts_with(&format!("bad.csv: {words}")), "{ran:?}");
    }
}

/// The stops for a calendar program: an event for each stop, lines of at most 75 bytes that end as the standard says.
#[test]
fn calendars() {
    let folder = Folder::new();
    folder.write("job.txt", &job("13_shutdown"));
    assert_eq!(folder.run(&["plan", "job.txt", "-o", "plan.txt"]).status, 0);
    folder.write(
        "names.csv",
        "1,\"A name, with \u{e4} comma; and more of it, so that the line must be broken somewhere in it\"\n".as_bytes(),
    );
    let ran =
        folder.run(&["draw", "job.txt", "plan.txt", "-o", "plan.ics", "--from", "2027-01-04", "--step", "week", "--names", "names.csv"]);
    assert_eq!(ran.status, 0, "{ran:?}");
    let text = folder.read("plan.ics");
    assert!(text.ends_with("\r\n") && text.split("\r\n").all(|line| line.len() <= 75 && !line.contains('\n')), "{text}");
    let whole = text.replace("\r\n ", "");
    let lines: Vec<&str> = whole.split("\r\n").collect();
    let stops = folder.read("plan.txt").lines().filter(|line| line.starts_with("stop=")).count();
    for (line, count) in [("BEGIN:VEVENT", stops), ("END:VEVENT", stops), ("BEGIN:VCALENDAR", 1), ("END:VCALENDAR", 1), ("VERSION:2.0", 1)]
    {
        assert_eq!(lines.iter().filter(|own| **own == line).count(), count, "{line}");
    }
    assert!(lines.contains(&"DTSTART;VALUE=DATE:20270125") && lines.contains(&"DTEND;VALUE=DATE:20270201"), "{whole}");
    assert!(whole.contains("SUMMARY:Stop 1: change 1 A name\\, with \u{e4} comma\\; and more"), "{whole}");
    let ran = folder.run(&["draw", "job.txt", "plan.txt", "-o", "plan.ics"]);
    assert!(ran.status == 64 && ran.err.contains("needs --from DATE"), "{ran:?}");
}

/// The specification's job with a band for each price of part 1, and its plan.
fn banded() -> Folder {
    let folder = Folder::new();
    folder.write("job.txt", &text(&JOB.replace("price=5", "low=3 high=5")));
    folder.write("plan.txt", &text("cost=37 stops=2 stop=2 count=1 part=1 stop=4 count=2 part=1 part=2"));
    folder
}

/// Prices from-to: both ends in every list and headline.
#[test]
fn bands_are_listed() {
    let folder = banded();
    let ran = folder.run(&["judge", "job.txt", "plan.txt"]);
    assert_eq!(ran.out, "plan.txt: every part's life is kept and the cost is true: 33 to 37 (0)\n");
    let ran = folder.run(&["list", "job.txt", "plan.txt", "--every", "3"]);
    for words in [
        "  part  count  low  high  at steps\n     1      2    6    10  2, 4\n",
        "     4      2   10    12  1 at 3 to 5, 2 at 7\n",
        "  4 to 6      2   10    12  1 of part 1, 1 of part 2\n",
        "  of     low  high\n  fees    20    20\n  parts   13    17\n  total   33    37\n",
    ] {
        assert!(ran.out.contains(words), "{}", ran.out);
    }
    let ran = folder.run(&["list", "job.txt", "plan.txt", "--every", "3", "--csv"]);
    for row in [
        "record,step,from,to,part,count,price,amount,running,low,high",
        "change,2,1,3,1,1,5,5,,3,5",
        "change,4,4,6,2,1,7,7,,7,7",
        "stop,2,1,3,,1,,10,2,10,10",
        "period,,4,6,1,1,,5,,3,5",
        "part,,,,1,2,,10,,6,10",
        "left,6,,,2,,,,2,,",
        "parts,,,,,,,17,,13,17",
        "total,,,,,,,37,,33,37",
        "stated,,,,,,,37,,,",
    ] {
        assert!(ran.out.lines().any(|line| line == row), "{row}\n{}", ran.out);
    }
    let ran = folder.run(&["latest", "job.txt", "plan.txt"]);
    assert!(ran.out.contains("the parts cost 33 to 37 (fees 20, parts 13 to 17), with 2 stops and 3 changes (0)\n"), "{}", ran.out);
    let ran = folder.run(&["whatif", "job.txt", "--fee", "+1"]);
    assert!(ran.out.contains("would cost 35 to 39 (fees 22, parts 13 to 17)"), "{}", ran.out);
}

/// Whether a plan is cheaper at every price within the bands: a price that both pay is the same in both.
#[test]
fn plans_are_compared_at_every_price() {
    let folder = banded();
    let compared = |plan: &str| {
        folder.write("other.txt", &text(plan));
        folder.run(&["compare", "job.txt", "plan.txt", "other.txt"])
    };
    let ran = compared("cost=44 stops=2 stop=2 count=2 part=1 part=2 stop=5 count=2 part=1 part=2");
    assert!(ran.status == 0 && ran.out.contains("\nA is cheaper at every price within the bands, by 5 to 9.\n"), "{ran:?}");
    let ran = compared("cost=37 stops=2 stop=2 count=1 part=1 stop=4 count=2 part=1 part=2");
    assert!(ran.status == 0 && ran.out.contains("\nBoth cost the same at every price within the bands.\n"), "{ran:?}");
    let one = "horizon=6 openings=2 opening=2 fee=10 opening=3 fee=10 parts=1 life=5 left=3 low=3 high=5 low=3 high=5";
    folder.write("one.txt", &text(one));
    folder.write("early.txt", &text("cost=15 stops=1 stop=2 count=1 part=1"));
    folder.write("later.txt", &text("cost=15 stops=1 stop=3 count=1 part=1"));
    let ran = folder.run(&["compare", "one.txt", "early.txt", "later.txt"]);
    let words = "\nWhich is cheaper depends on the prices within the bands: B less A is -2 to +2.\n";
    assert!(ran.status == 0 && ran.out.contains(words), "{ran:?}");
    // A plan that does not keep the lives is no cheaper.
    folder.write("other.txt", b"");
    let ran = folder.run(&["compare", "job.txt", "plan.txt", "other.txt"]);
    assert!(ran.status == 1 && !ran.out.contains("within the bands"), "{ran:?}");
}

/// Two jobs, such as two suppliers' prices: each plan is judged with its own.
#[test]
fn plans_of_two_jobs_are_compared() {
    let folder = banded();
    folder.write("dear.txt", &text(&JOB.replace("price=5", "low=6 high=9")));
    folder.write("dear plan.txt", &text("cost=45 stops=2 stop=2 count=1 part=1 stop=4 count=2 part=1 part=2"));
    let ran = folder.run(&["compare", "job.txt", "plan.txt", "dear.txt", "dear plan.txt"]);
    assert_eq!(ran.status, 0, "{ran:?}");
    assert!(ran.out.starts_with("A plan of job job.txt, and one of job dear.txt\nA  plan.txt: "), "{}", ran.out);
    assert!(ran.out.contains("A is cheaper at every price within the bands, by 2 to 12.\n"), "{}", ran.out);
    assert!(
        ran.out.contains("  at low prices  33  39        +6\n") && ran.out.ends_with("They stop and change at the same steps.\n"),
        "{}",
        ran.out
    );
    let ran = folder.run(&["compare", "job.txt", "plan.txt", "dear.txt", "plan.txt"]);
    assert!(ran.status == 1 && ran.out.contains("the plan costs 45 and states 37"), "{}", ran.out);
}
