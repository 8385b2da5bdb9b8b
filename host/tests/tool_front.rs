//! `front`: the cheapest plan for each number of stops, beside all plans of small jobs; its table, picture and plans; the paper's own front.
#![cfg(feature = "library")]

mod common;
use common::inputs::{self, Size};
use common::json::{read, Json};
use common::paper::{text, JOB};
use common::tool::{job, Folder, Ran};
use common::{lent, rng::Rng, setting, xml};
use juzvarola_checks::reference::brute;
use juzvarola_checks::reference::texts::{read_job, read_plan};
use juzvarola_host::MOST_WALK;
use std::collections::BTreeMap;

/// Small enough for all plans.
const TINY: Size = Size { horizon: 12, openings: 4, parts: 2 };

/// For each number of stops the least cost of all plans that keep the lives.
fn least(text: &[u8]) -> BTreeMap<u64, u64> {
    let job = read_job(text).expect("a job without faults");
    let mut least = BTreeMap::new();
    for plan in brute::all_plans(&job).filter(|plan| job.keeps(plan)) {
        let (stops, cost) = (plan.stops.iter().filter(|stop| **stop).count() as u64, brute::cost(&job, &plan));
        let own = least.entry(stops).or_insert(cost);
        *own = cost.min(*own);
    }
    least
}

/// Each point of small jobs is a plan that the judge accepts, with as many stops, and proved: none of all plans with as many costs less.
#[test]
fn points_are_the_cheapest_of_all_plans() {
    let (folder, mut rng) = (Folder::new(), Rng::new(setting("JUZVAROLA_SEED", 71)));
    let (mut points, mut none) = (0, 0);
    for _ in 0..setting("JUZVAROLA_CASES", 80) {
        let facts = inputs::facts(&mut rng, TINY);
        folder.write("job.txt", &facts.text());
        let (ran, all) = (folder.run(&["front", "job.txt", "--json"]), least(&facts.text()));
        if all.is_empty() {
            let answer = read(&ran.out);
            assert_eq!((ran.status, answer.at("result").number(), answer.at("points").list().len()), (1, 6, 0), "{facts:?}");
            none += 1;
            continue;
        }
        points += proved(&folder, &ran, &all).len();
    }
    println!("{points} points, {none} jobs without a plan");
    assert!(points >= 60);
}

/// That each point of this answer is proved and costs as little as any plan with as many stops: the points.
fn proved(folder: &Folder, ran: &Ran, all: &BTreeMap<u64, u64>) -> Vec<Json> {
    let answer = read(&ran.out);
    assert_eq!((ran.status, answer.at("result").number()), (0, 0), "{ran:?}");
    let own = answer.at("points").list();
    assert_eq!(Some(own[0].at("stops").number()), all.keys().next().copied(), "the fewest stops: {}", ran.out);
    for point in own {
        assert_eq!(point.at("proved"), &Json::Bool(true), "{}", ran.out);
        assert_eq!(point.at("costs").at("total").number(), all[&point.at("stops").number()], "{}", ran.out);
        folder.write("plan.txt", point.at("text").text().as_bytes());
        assert_eq!(folder.run(&["judge", "job.txt", "plan.txt"]).status, 0, "{}", ran.out);
    }
    assert_eq!(all.get(&answer.at("cheapest").number()), all.values().min(), "{}", ran.out);
    own.to_vec()
}

/// A job of some openings with their fees, and of parts: each one's life, what is left of it, its removal, and its price at each opening.
#[derive(Debug)]
struct Drawn {
    horizon: u64,
    openings: Vec<(u64, u64)>,
    parts: Vec<(u64, u64, u64, Vec<u64>)>,
}

impl Drawn {
    fn random(rng: &mut Rng) -> Drawn {
        let even = rng.once_in(2);
        let mut step = 0;
        let mut opening = |rng: &mut Rng| {
            step += 1 + rng.below(2);
            (step, if even { 40 } else { 20 + rng.below(50) })
        };
        let openings: Vec<(u64, u64)> = (0..9).map(|_| opening(rng)).collect();
        let part = |rng: &mut Rng| {
            let (life, price, removal) = (3 + rng.below(6), 20 + rng.below(150), if rng.once_in(3) { rng.below(40) } else { 0 });
            let prices = openings.iter().map(|_| price + if even { 0 } else { rng.below(30) }).collect();
            (life, life - rng.below(2), removal, prices)
        };
        let parts = (0..4).map(|_| part(rng)).collect();
        Drawn { horizon: step + 2, openings, parts }
    }

    /// Its text with these of its openings alone, at their fees or at none.
    fn text(&self, open: u64, fees: bool) -> Vec<u8> {
        let own = |at: usize| open >> at & 1 == 1;
        let mut text = format!("horizon={}\nopenings={}\n", self.horizon, open.count_ones());
        for (_, (step, fee)) in self.openings.iter().enumerate().filter(|(at, _)| own(*at)) {
            text += &format!("opening={step}\nfee={}\n", if fees { *fee } else { 0 });
        }
        text += &format!("parts={}\n", self.parts.len());
        for (life, left, removal, prices) in &self.parts {
            text += &format!("life={life}\nleft={left}\nremoval={removal}\ninside=0\n");
            text.extend(prices.iter().enumerate().filter(|(at, _)| own(*at)).map(|(_, price)| format!("price={price}\n")));
        }
        text.into_bytes()
    }

    /// For each number of stops the least cost of all plans, from the least cost of the changes at each set of stops.
    fn least(&self) -> BTreeMap<u64, u64> {
        let mut least = BTreeMap::new();
        for open in 1..1 << self.openings.len() {
            let answer = lent::planned(&self.text(open, false), MOST_WALK);
            let changes = answer.lines().find_map(|line| line.strip_prefix("cost="));
            let Some(changes) = changes.map(|changes| changes.parse::<u64>().expect("a cost")) else { continue };
            let fees: u64 = self.openings.iter().enumerate().filter(|(at, _)| open >> at & 1 == 1).map(|(_, (_, fee))| fee).sum();
            let own = least.entry(u64::from(open.count_ones())).or_insert(u64::MAX);
            *own = (*own).min(changes + fees);
        }
        least
    }
}

/// The same of larger jobs, by all sets of stops: some numbers of stops are the cheapest at no fee, and are proved by spans; without calls for that no plan
/// is below their bounds.
#[test]
fn points_are_the_cheapest_at_all_sets_of_stops() {
    common::with_stack(|| {
        let (folder, mut rng) = (Folder::new(), Rng::new(setting("JUZVAROLA_SEED", 75)));
        let (mut points, mut by_spans, mut open) = (0, 0, 0);
        for _ in 0..setting("JUZVAROLA_CASES", 60) {
            let drawn = Drawn::random(&mut rng);
            let all = drawn.least();
            folder.write("job.txt", &drawn.text((1 << drawn.openings.len()) - 1, true));
            if all.is_empty() {
                continue;
            }
            let own = proved(&folder, &folder.run(&["front", "job.txt", "--json"]), &all);
            by_spans += own.iter().filter(|point| point.at("proof").text() == "spans").count();
            points += own.len();
            open += not_proved(&folder, &all);
        }
        println!("{points} points, {by_spans} of them proved by spans, {open} not without");
        assert!(points >= 60 && by_spans >= 2 && by_spans == open, "some are proved by spans alone");
    });
}

/// How many points are not proved without calls by spans: no plan is below their bounds, and their plans cost no less.
fn not_proved(folder: &Folder, all: &BTreeMap<u64, u64>) -> usize {
    let ran = folder.run(&["front", "job.txt", "--json", "--calls", "0"]);
    let answer = read(&ran.out);
    let open: Vec<&Json> = answer.at("points").list().iter().filter(|point| point.at("proved") == &Json::Bool(false)).collect();
    let (status, result) = if open.is_empty() { (0, 0) } else { (3, 7) };
    assert_eq!((ran.status, answer.at("result").number()), (status, result), "{}", ran.out);
    for point in &open {
        let least = all[&point.at("stops").number()];
        assert!(point.at("least").number() <= least, "{}", ran.out);
        assert!(point.at("text") == &Json::Null || point.at("costs").at("total").number() >= least, "{}", ran.out);
    }
    open.len()
}

const TABLE: &str = "\
job.txt: 6 to 7 stops, and the cheapest plan for each number (each proved); the least cost, 2,505, has 7 stops (0)

  stops   cost  fees  parts  changes  life left
      6  2,560   300  2,260       23         59  proved
      7  2,505   360  2,145       22         64  proved; the cheapest of all
";

#[test]
fn the_front_of_a_year() {
    let folder = Folder::new();
    folder.write("job.txt", &job("13_shutdown"));
    let ran = folder.run(&["front", "job.txt"]);
    assert_eq!((ran.status, ran.out.as_str(), ran.err.as_str()), (0, TABLE, ""));
    let ran = folder.run(&["front", "job.txt", "--csv"]);
    let csv = "stops,cost,low,fees,parts,removals,changes,life_left,least,proved\n6,2560,2560,300,2260,0,23,59,2560,yes\n7,2505,2505,360,2145,0,22,64,2505,yes\n";
    assert_eq!((ran.status, ran.out.as_str()), (0, csv));
    // A plan of the front is a plan of the job, with so many stops at its true cost.
    let ran = folder.run(&["front", "job.txt", "--take", "6", "-o", "six.txt"]);
    assert_eq!((ran.status, ran.out.as_str()), (0, TABLE));
    assert!(folder.read("six.txt").starts_with("cost=2560\nstops=6\n"));
    assert_eq!(folder.run(&["judge", "job.txt", "six.txt"]).status, 0);
    let ran = folder.run(&["front", "job.txt", "--take", "7"]);
    let job = read_job(folder.read("job.txt").as_bytes()).expect("a job");
    assert_eq!((ran.status, read_plan(&job, ran.out.as_bytes()).expect("a plan").1, ran.err.as_str()), (0, 2505, TABLE));
    let ran = folder.run(&["front", "job.txt", "--take", "7", "--json"]);
    assert_eq!((ran.status, read(&ran.out).at("cheapest").number()), (0, 7), "standard output gets one answer");
    let ran = folder.run(&["front", "job.txt", "--take", "8", "-o", "eight.txt"]);
    assert_eq!(
        (ran.status, ran.out.as_str(), ran.err.as_str()),
        (64, TABLE, "juzvarola: no plan with 8 stops is known; there are 6 to 7\n")
    );
    assert!(!folder.names().contains(&"eight.txt".to_string()));
}

/// What changes and removals cost at 7 to 12 stops, by a table of what is left of each part's life, step by step; 13 stops save nothing more. Of these
/// source document 001 has 4690, 4080 and 3980 beside its figure 1, and names the points in between: of its seven points this text leaves six.
const PAPER: [u64; 6] = [4690, 4640, 4455, 4220, 4080, 3980];

#[test]
fn the_front_of_the_paper() {
    let folder = Folder::new();
    folder.write("job.txt", &job("30_t1_holders_d100"));
    let ran = folder.run(&["front", "job.txt", "--json", "--walk", "5000000", "--calls", "0"]);
    let answer = read(&ran.out);
    let points = answer.at("points").list();
    assert_eq!(points.iter().map(|point| point.at("stops").number()).collect::<Vec<_>>(), [7, 8, 9, 10, 11, 12], "{}", ran.out);
    for (point, besides) in points.iter().zip(PAPER) {
        let (cost, least) = (point.at("costs").at("total").number(), besides + 100 * point.at("stops").number());
        assert!(point.at("least").number() <= least && least <= cost, "{}", ran.out);
        assert!(point.at("proved") == &Json::Bool(false) || cost == least, "{}", ran.out);
        let near = if [7, 11, 12].contains(&point.at("stops").number()) { 0 } else { 50 };
        assert!(cost <= least + near, "{}", ran.out);
    }
    // A plan that is not proved is called such, and written all the same.
    let ran = folder.run(&["front", "job.txt", "--walk", "5000000", "--calls", "0", "--take", "9", "-o", "plan.txt"]);
    let words = "    the plan with 9 stops is not proved to be the cheapest with as many: at most ";
    assert!(ran.status == 3 && ran.out.contains(words), "{ran:?}");
    assert_eq!(folder.run(&["judge", "job.txt", "plan.txt"]).status, 0);
}

#[test]
fn the_front_is_drawn() {
    let folder = Folder::new();
    folder.write("job.txt", &job("13_shutdown"));
    let ran = folder.run(&["front", "job.txt", "-o", "front.svg"]);
    assert_eq!((ran.status, ran.out.as_str()), (0, TABLE));
    let picture = folder.read("front.svg");
    let elements = xml::elements(&picture);
    let pieces: Vec<_> = elements.iter().filter(|element| element.is("sum")).collect();
    let sum = |stops: &str| {
        pieces.iter().filter(|piece| piece.get("data-stops") == Some(stops)).map(|piece| piece.number("data-amount")).sum::<f64>()
    };
    assert_eq!((sum("6"), sum("7")), (2560.0, 2505.0));
    let scale: Vec<f64> = pieces.iter().map(|piece| piece.number("height") / piece.number("data-amount")).collect();
    assert!(scale.iter().all(|own| (own - scale[0]).abs() < 0.001), "to one scale: {scale:?}");
    let words: Vec<&str> = elements.iter().filter(|element| element.name == "text").map(|element| element.text.as_str()).collect();
    assert!(["2,560", "2,505", "+55", "the cheapest", "64"].iter().all(|own| words.contains(own)), "{words:?}");
    assert_eq!(folder.run(&["front", "job.txt", "-o", "front.png"]).status, 64);
    let ran = folder.run(&["front", "job.txt", "-o", "-"]);
    assert_eq!((ran.status, ran.out == picture, ran.err.as_str()), (0, true, TABLE));
}

#[test]
fn faults_and_words() {
    let folder = Folder::new();
    folder.write("job.txt", &text(JOB));
    folder.write("bad.txt", &text(&JOB.replace("left=2", "left=4")));
    folder.write("none.txt", &text(&JOB.replace("left=2", "left=1")));
    for (words, status, said) in [
        (&["front"][..], 64, "front takes one file, not 0"),
        (&["front", "job.txt", "--take", "65"], 64, "--take takes a number of stops, from 0 to 64"),
        (&["front", "job.txt", "-o", "job.txt", "--take", "2"], 64, "would be written over"),
        (&["front", "bad.txt"], 2, "bad.txt:14: left is greater than life (5)"),
        (&["front", "not there"], 66, "not there can't be read"),
    ] {
        let ran = folder.run(words);
        assert_eq!((ran.status, ran.out.as_str()), (status, ""), "{ran:?}");
        assert!(ran.err.contains(said), "{ran:?}");
    }
    let ran = folder.run(&["front", "job.txt"]);
    assert!(
        ran.out.starts_with("job.txt: another number of stops saves nothing: the cheapest plan has 2 stops and costs 37 (proved) (0)\n"),
        "{ran:?}"
    );
    let ran = folder.run(&["front", "none.txt", "--take", "2", "-o", "plan.txt"]);
    assert_eq!((ran.status, ran.out.as_str()), (1, "none.txt: no plan keeps the lives (6)\n    plan.txt is not written\n"));
    assert!(!folder.names().contains(&"plan.txt".to_string()));
    let ran = folder.shell("\"$juzvarola\" front job.txt >&-");
    assert_eq!((ran.status, ran.err.as_str()), (74, "juzvarola: standard output is closed: nothing is written\n"));
    let ran = folder.run(&["front", "bad.txt", "--json"]);
    assert_eq!((ran.status, read(&ran.out).at("result").number()), (2, 5));
}
