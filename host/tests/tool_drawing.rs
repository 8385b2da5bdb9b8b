//! The drawings, parsed: every life, stop, opening, idle step and cost is there, in its place, and nothing is fetched.
#![cfg(feature = "library")]

mod common;
use common::inputs;
use common::paper::{text, JOB};
use common::rng::Rng;
use common::tool::{job, number_after, plain, year, Folder};
use common::xml::{elements, Element};
use juzvarola_checks::reference::model::{Job, Plan};
use juzvarola_checks::reference::texts::{read_job, read_plan};

/// A drawing with what it is of.
struct Drawn {
    elements: Vec<Element>,
    job: Job,
    plan: Plan,
    stated: u64,
    /// The cost of the cheapest plan, where a short walk finds it.
    least: Option<u64>,
}

impl Drawn {
    /// The elements of a class.
    fn all(&self, class: &str) -> Vec<&Element> {
        self.elements.iter().filter(|element| element.is(class)).collect()
    }

    /// All words that are shown, one text to a line.
    fn words(&self) -> String {
        let texts = self.elements.iter().filter(|element| element.name == "text");
        texts.map(|element| element.text.clone() + "\n").collect()
    }

    /// Where a step stands, by the frame of the calendar.
    fn x(&self, step: i64) -> f64 {
        let frame = self.all("frame")[0];
        frame.number("x") + frame.number("width") * step as f64 / (self.job.horizon + 1) as f64
    }

    /// The steps of the plan's stops, or of the openings not used.
    fn steps(&self, stops: bool) -> Vec<i64> {
        let own = self.job.openings.iter().zip(&self.plan.stops).filter(|(_, stop)| **stop == stops);
        own.map(|(opening, _)| opening.step).collect()
    }
}

/// Draws in a file of this name and parses it.
fn draw(job: &[u8], plan: &[u8], name: &str) -> Drawn {
    let folder = Folder::new();
    folder.write("job.txt", job);
    folder.write("plan.txt", plan);
    let ran = folder.run(&["draw", "job.txt", "plan.txt", "-o", name]);
    assert!((0..=1).contains(&ran.status), "{ran:?}");
    let judged = folder.run(&["judge", "job.txt", "plan.txt"]);
    assert_eq!((ran.status, ran.err.as_str()), (judged.status, ""), "the verdict goes to standard output");
    let words = judged.out.rsplit_once(" (").expect("a verdict").0;
    assert!(ran.out.starts_with(words) && ran.out.lines().count() == 1, "{ran:?} {judged:?}");
    let checked = folder.shell(&format!("xmllint --noout '{name}'"));
    assert_eq!((checked.status, checked.err.as_str()), (0, ""), "xmllint (Debian: libxml2-utils) finds no fault");
    let picture = folder.read(name);
    let bare = picture.replace("xmlns=\"http://www.w3.org/2000/svg\"", "");
    assert!(!["<script", "http", "href", "@import", "src="].iter().any(|word| bare.contains(word)), "nothing is fetched or run");
    let planned = folder.run(&["plan", "job.txt", "--walk", "10000000", "--once"]);
    let least = Some(planned.out).filter(|_| planned.status == 0).and_then(|text| number_after(&text, "cost="));
    let job = read_job(job).expect("an accepted job");
    let (plan, stated) = read_plan(&job, plan).expect("an accepted plan");
    Drawn { elements: elements(&picture), job, plan, stated, least }
}

fn close(first: f64, second: f64) -> bool {
    (first - second).abs() < 0.02
}

/// Each part's lives from change to change, with what is used of each, and the black part where it is too much.
fn check_lives(drawn: &Drawn) {
    let (bars, late) = (drawn.all("life"), drawn.all("late"));
    let mut expected = 0;
    let mut too_long = 0;
    for (part, own) in drawn.job.parts.iter().enumerate() {
        let changes =
            drawn.job.openings.iter().zip(&drawn.plan.changes[part]).filter(|(_, changed)| **changed).map(|(opening, _)| opening.step);
        let (mut from, mut before) = (0, own.first_change());
        let mut height = None;
        for to in changes.chain([drawn.job.horizon + 1]) {
            let used = drawn.job.distance(before, to);
            let name = (part + 1).to_string();
            let bar = bars
                .iter()
                .find(|bar| bar.get("data-part") == Some(&name) && bar.number("data-to") == to as f64)
                .expect("a bar for each life");
            assert_eq!(
                (bar.number("data-from"), bar.number("data-used"), bar.number("data-life")),
                (from as f64, used as f64, own.life as f64)
            );
            assert!(close(bar.number("x"), drawn.x(from)) && close(bar.number("x") + bar.number("width"), drawn.x(to)), "{bar:?}");
            assert!(height.is_none_or(|y| y == bar.number("y")), "a part's bars stand in one row");
            height = Some(bar.number("y"));
            if used > own.life {
                too_long += 1;
                let black = late
                    .iter()
                    .find(|black| black.number("y") == bar.number("y") && close(black.number("x") + black.number("width"), drawn.x(to)));
                assert_eq!(black.expect("what is too much is black").number("data-steps"), (used - own.life) as f64);
            }
            expected += 1;
            (from, before) = (to, to);
        }
    }
    assert_eq!((bars.len(), late.len()), (expected, too_long));
}

/// The wear's shape: it ends as high as the life is used, at most full.
fn check_wear(drawn: &Drawn) {
    let bars = drawn.all("life");
    let shapes: Vec<&Element> = drawn.all("wear").into_iter().take(bars.len()).collect();
    for (bar, shape) in bars.iter().zip(shapes) {
        let points: Vec<(f64, f64)> = shape
            .get("points")
            .expect("points")
            .split(' ')
            .map(|point| point.split_once(',').expect("a point"))
            .map(|(x, y)| (x.parse().expect("x"), y.parse().expect("y")))
            .collect();
        let highest = points.iter().map(|point| point.1).fold(f64::MAX, f64::min);
        let (y, height) = (bar.number("y"), bar.number("height"));
        let used = (bar.number("data-used") / bar.number("data-life")).min(1.0);
        assert!(close(highest, y + height * (1.0 - used)), "{bar:?} {shape:?}");
        let middle: Vec<(f64, f64)> = points[1..points.len() - 1].to_vec();
        assert!(middle.windows(2).all(|pair| pair[1].0 >= pair[0].0 && pair[1].1 <= pair[0].1), "wear never falls: {shape:?}");
    }
}

/// Stops, openings not used, changes and idle steps.
fn check_marks(drawn: &Drawn) {
    for (class, steps) in [("stop", drawn.steps(true)), ("opening", drawn.steps(false))] {
        let lines = drawn.all(class);
        assert_eq!(lines.iter().map(|line| line.number("data-step") as i64).collect::<Vec<_>>(), steps, "{class}");
        assert!(
            lines.iter().zip(&steps).all(|(line, step)| close(line.number("x1"), drawn.x(*step)) && line.get("x1") == line.get("x2")),
            "{class}"
        );
    }
    let changes: usize = drawn.plan.changes.iter().flatten().filter(|changed| **changed).count();
    assert_eq!(drawn.all("change").len(), changes);
    check_hollow(drawn);
    let idle: Vec<i64> = drawn.all("idle").iter().flat_map(|run| run.number("data-from") as i64..=run.number("data-to") as i64).collect();
    assert_eq!(idle, drawn.job.idles);
    for run in drawn.all("idle") {
        assert!(close(run.number("x"), drawn.x(run.number("data-from") as i64 - 1)));
        assert!(close(run.number("x") + run.number("width"), drawn.x(run.number("data-to") as i64)));
    }
}

/// A hollow mark for each part that comes out at a stop and stays in use, on its row, and "behind" under each part that has holders.
fn check_hollow(drawn: &Drawn) {
    let mut expected = Vec::new();
    for (at, opening) in drawn.job.openings.iter().enumerate() {
        let changed: Vec<usize> = (0..drawn.job.parts.len()).filter(|part| drawn.plan.changes[*part][at]).collect();
        let mut out = changed.clone();
        let mut next = 0;
        while let Some(part) = out.get(next).copied() {
            out.extend(drawn.job.parts[part].holders.clone().into_iter().filter(|holder| !out.contains(holder)).collect::<Vec<_>>());
            next += 1;
        }
        out.sort_unstable();
        expected.extend(out.into_iter().filter(|part| !changed.contains(part)).map(|part| (opening.step, part + 1)));
    }
    let marks: Vec<(i64, usize)> =
        drawn.all("back").iter().map(|mark| (mark.number("data-step") as i64, mark.number("data-part") as usize)).collect();
    assert_eq!(marks, expected);
    let held = drawn.job.parts.iter().filter(|part| !part.holders.is_empty()).count();
    assert_eq!(drawn.words().matches("behind ").count(), held);
}

/// Fees above their stops, costs beneath, and all words on the sheet.
fn check_words(drawn: &Drawn) {
    let words = plain(&drawn.words());
    let (fees, prices, cost) = (drawn.job.fees(&drawn.plan.stops), drawn.job.prices(&drawn.plan), drawn.job.cost(&drawn.plan));
    let removals = match cost - fees - prices {
        0 => String::new(),
        removals => format!(" \u{b7} Removals {removals}"),
    };
    let low = drawn.job.at_low_ends().cost(&drawn.plan);
    let span = |low: u64, high: u64| if low < high { format!("{low} to {high}") } else { high.to_string() };
    let (parts, total) = (span(low + prices - cost, prices), span(low, cost));
    let line = format!("Fees {fees} \u{b7} Parts {parts}{removals} \u{b7} Total {total}").replace(" \u{b7} ", "  \u{b7}  ");
    assert!(words.contains(&line), "{words}");
    check_bar(drawn, fees, cost - low);
    assert_eq!(words.contains("Stated "), cost != drawn.stated);
    check_standing(drawn, &words, cost);
    let labels: Vec<(String, String)> = match drawn.all("up") {
        up if up.is_empty() => {
            drawn.all("step").iter().zip(drawn.all("fee")).map(|(step, fee)| (step.text.clone(), fee.text.clone())).collect()
        }
        up => up
            .iter()
            .map(|label| label.text.split_once(": ").map(|(step, fee)| (step.to_string(), fee.to_string())).expect("a label"))
            .collect(),
    };
    let stops = drawn.job.openings.iter().zip(&drawn.plan.stops).filter(|(_, stop)| **stop);
    let expected: Vec<(String, String)> = stops.map(|(opening, _)| (opening.step.to_string(), opening.fee.to_string())).collect();
    assert_eq!(labels.into_iter().map(|(step, fee)| (step, plain(&fee))).collect::<Vec<_>>(), expected);
    let sheet = drawn.elements.iter().find(|element| element.name == "svg").expect("a picture");
    on_the_sheet(&drawn.elements, sheet);
}

/// All words are seen whole: they end before the sheet does.
fn on_the_sheet(elements: &[Element], sheet: &Element) {
    const LETTERS: [(&str, f64); 6] = [("title", 11.6), ("refused", 9.4), ("verdict", 7.2), ("cost", 9.9), ("part", 9.0), ("step", 7.6)];
    for element in elements.iter().filter(|element| element.name == "text" && element.get("x").is_some()) {
        let (x, y) = (element.number("x"), element.number("y"));
        let letter = LETTERS.iter().find(|(class, _)| element.is(class)).map_or(6.2, |(_, width)| *width);
        let width = element.text.chars().count() as f64 * letter;
        let middle = ["middle", "step", "date", "fee", "today-words"].iter().any(|class| element.is(class));
        let left = x - if element.is("end") { width } else { width / 2.0 * f64::from(middle) };
        let inside = left >= 0.0 && left + width < sheet.number("width") && (0.0..sheet.number("height")).contains(&y);
        assert!(inside, "on the sheet: {element:?}");
    }
}

/// The bar of costs: its pieces, side by side, are the costs; hatched is what the prices' bands are wide.
fn check_bar(drawn: &Drawn, fees: u64, band: u64) {
    let pieces = drawn.all("sum");
    let amount = |of: &str| {
        pieces.iter().filter(|piece| piece.get("data-of") == Some(of)).map(|piece| piece.number("data-amount") as u64).sum::<u64>()
    };
    let cost = drawn.job.cost(&drawn.plan);
    assert_eq!((amount("fees"), amount("band")), (fees, band));
    assert_eq!(pieces.iter().map(|piece| piece.number("data-amount") as u64).sum::<u64>(), cost);
    let end = |piece: &Element| piece.number("x") + piece.number("width");
    for (at, piece) in pieces.iter().enumerate() {
        assert!(at == 0 || close(piece.number("x"), end(pieces[at - 1])), "side by side: {piece:?}");
        let whole = end(pieces[pieces.len() - 1]) - pieces[0].number("x");
        assert!((piece.number("width") - whole * piece.number("data-amount") / cost as f64).abs() < 0.1, "to one scale: {piece:?}");
    }
    let least = drawn.least.filter(|least| *least < cost);
    assert_eq!(
        drawn.all("cheapest").iter().map(|mark| mark.number("data-amount") as u64).collect::<Vec<_>>(),
        least.into_iter().collect::<Vec<_>>()
    );
}

/// How the plan stands to the cheapest one: by the program's own plan of the job, which these jobs' walks find; nothing where a life is not kept.
fn check_standing(drawn: &Drawn, words: &str, cost: u64) {
    let refused = words.contains("REFUSED: part ");
    let least = drawn.least.filter(|_| !refused);
    assert_eq!(words.contains("The cheapest possible (proved)"), least == Some(cost), "{words}");
    let more = least.filter(|least| *least < cost).map(|least| format!("{} more than the cheapest", cost - least));
    assert!(more.is_none_or(|more| words.contains(&more)), "{words}");
    assert_eq!(words.contains(" could still be saved"), !refused && drawn.least.is_none(), "{words}");
    assert!(!words.contains("No plan costs less"), "no floor under a proved cost: {words}");
}

/// Labels of stops do not stand on each other.
fn check_labels(drawn: &Drawn) {
    let up = drawn.all("up");
    let places: Vec<f64> = match up.is_empty() {
        true => drawn.all("step").iter().map(|label| label.number("x")).collect(),
        false => up
            .iter()
            .map(|label| {
                label.get("transform").and_then(|turn| turn.strip_prefix("translate(")?.split(' ').next()?.parse().ok()).expect("a place")
            })
            .collect(),
    };
    let widest = drawn.all("fee").iter().chain(&drawn.all("step")).map(|label| label.text.len() as f64 * 6.8).fold(0.0, f64::max);
    let least = if up.is_empty() { widest } else { 11.0 };
    assert!(places.windows(2).all(|pair| pair[1] - pair[0] >= least), "{places:?} are {least} apart");
}

fn check(drawn: &Drawn) {
    check_lives(drawn);
    check_wear(drawn);
    check_marks(drawn);
    check_words(drawn);
    check_labels(drawn);
}

/// The plan that the program makes of a job.
fn planned(job: &[u8]) -> Vec<u8> {
    let ran = Folder::new().run_on(&["plan", "-"], job);
    assert_eq!(ran.status, 0, "{}", ran.err);
    ran.out.into_bytes()
}

#[test]
fn pictures_of_jobs() {
    common::with_stack(|| {
        for text in [job("00_example"), job("01_rm12_d10"), job("13_shutdown"), job("10_biweek16_d60"), year(4), year(16)] {
            for name in ["plan.svg", "plan.html", "plan.HTM"] {
                check(&draw(&text, &planned(&text), name));
            }
        }
    });
}

#[test]
fn pictures_of_random_plans() {
    common::with_stack(|| {
        let mut rng = Rng::new(41);
        let mut drawn = 0;
        while drawn < 250 {
            let facts = match drawn % 10 {
                0 => inputs::facts(&mut rng, inputs::LARGE),
                1 => inputs::facts(&mut rng, inputs::MIDDLE),
                _ => inputs::job(&mut rng),
            };
            let plan = if drawn % 10 < 2 { every_opening(&facts, drawn) } else { inputs::plan(&mut rng, &facts) };
            if read_plan(&read_job(&facts.text()).expect("a job"), &plan).is_ok() {
                check(&draw(&facts.text(), &plan, if drawn % 2 == 0 { "a picture.svg" } else { "a page.html" }));
                drawn += 1;
            }
        }
    });
}

/// A plan that stops at every opening, and changes one part there.
fn every_opening(facts: &inputs::Facts, from: usize) -> Vec<u8> {
    let part = |at: usize| (from + at) % facts.parts.len() + 1;
    let stops = facts.openings.iter().enumerate().map(|(at, opening)| format!("stop={}\ncount=1\npart={}\n", opening.0, part(at)));
    format!("cost=0\nstops={}\n{}", facts.openings.len(), stops.collect::<String>()).into_bytes()
}

#[test]
fn a_refused_plan_is_drawn_with_its_verdict() {
    let plan = text("cost=37 stops=2 stop=2 count=1 part=1 stop=3 count=2 part=1 part=2");
    for name in ["late.svg", "late.html"] {
        let drawn = draw(&text(JOB), &plan, name);
        assert!(drawn.words().contains("REFUSED: part 1 is not kept: it is due by step 6"), "{}", drawn.words());
        assert_eq!(drawn.all("late").len(), 1);
        check(&drawn);
    }
    let drawn = draw(&text(JOB), &planned(&text(JOB)), "kept.svg");
    assert!(drawn.words().contains("Verdict: every part's life is kept and the cost is true: 37."), "{}", drawn.words());
    assert!(drawn.words().contains("Total 37  \u{b7}  The cheapest possible (proved)"), "{}", drawn.words());
    assert_eq!(drawn.all("late").len(), 0);
    let drawn = draw(&text(JOB), b"", "nothing.svg");
    assert!(drawn.words().replace('\n', " ").contains("too late; nor is part 2."), "every part that fails is named: {}", drawn.words());
}

/// Removals stand in the page's tables, so that fees, prices and removals add up to the total.
#[test]
fn tables_of_a_page_add_up() {
    let text = job("38_week8_guard_shutdown");
    let folder = Folder::new();
    folder.write("job.txt", &text);
    assert_eq!(folder.run(&["plan", "job.txt", "--walk", "20000000", "--count-nodes", "-o", "plan.txt"]).status, 3);
    let drawn = draw(&text, folder.read("plan.txt").as_bytes(), "page.html");
    let cells: Vec<&str> = cells(&drawn.elements).map(|element| element.text.as_str()).collect();
    let number = |cell: &str| plain(cell).parse::<u64>().unwrap_or_else(|_| panic!("{cell:?} is a number"));
    let (stops, parts) = (drawn.steps(true).len(), drawn.job.parts.len());
    assert_eq!(cells.len(), (stops + 1) * 7 + (parts + 1) * 5);
    let rows: Vec<&[&str]> = cells[..(stops + 1) * 7].chunks(7).collect();
    for column in 2..=4 {
        let sum: u64 = rows[..stops].iter().map(|row| number(row[column])).sum();
        assert_eq!(number(rows[stops][column]), sum, "column {column}");
    }
    let total: u64 = (2..=4).map(|column| number(rows[stops][column])).sum();
    assert_eq!((rows[stops][6], total), (format!("total {}", cells_grouped(total)).as_str(), drawn.job.cost(&drawn.plan)));
    let rows: Vec<&[&str]> = cells[(stops + 1) * 7..].chunks(5).collect();
    for column in 1..=3 {
        let sum: u64 = rows[..parts].iter().map(|row| number(row[column])).sum();
        assert_eq!(number(rows[parts][column]), sum, "column {column}");
    }
    assert!(drawn.all("back").len() > 10 && drawn.words().contains("behind 2"), "holders are drawn");
}

/// The cells of a page's tables, with the head of each row.
fn cells(elements: &[Element]) -> impl Iterator<Item = &Element> {
    elements.iter().filter(|element| matches!(element.name.as_str(), "td" | "th") && element.within.iter().any(|name| name == "tbody"))
}

/// A number below a million with its comma.
fn cells_grouped(number: u64) -> String {
    if number < 1000 {
        number.to_string()
    } else {
        format!("{},{:03}", number / 1000, number % 1000)
    }
}

/// Names that cannot be told from numbers, that have quotes, commas and letters of other alphabets; dates of weeks.
#[test]
fn names_and_dates_are_drawn() {
    let text = job("13_shutdown");
    let folder = Folder::new();
    folder.write("job.txt", &text);
    folder.write("plan.txt", &planned(&text));
    folder.write("names.csv", "part,name,order\n1,\"Valve, <seat> & \"\"ring\"\"\",VS-204\n3,D\u{fc}se,\n".as_bytes());
    for name in ["a.svg", "a.html"] {
        let ran =
            folder.run(&["draw", "job.txt", "plan.txt", "-o", name, "--from", "2027-01-04", "--step", "week", "--names", "names.csv"]);
        assert_eq!(ran.status, 0, "{ran:?}");
        let words: String = elements(&folder.read(name)).into_iter().map(|element| element.text + "\n").collect();
        assert!(words.contains("\n1 Valve, <seat> &") && words.contains("3 D\u{fc}se\n") && words.contains("Part 2\n"), "{words}");
        assert!(words.contains("2027-01-25") && words.contains("step 1 begins on 2027-01-04"), "{words}");
    }
    assert!(folder.read("a.html").contains("<td class=\"text\">VS-204</td>"));
}

#[test]
fn names_are_escaped() {
    let folder = Folder::new();
    let (job, plan) = ("<job> & \"it's\" \u{e4}", "plan\u{1}\n]]>.txt");
    folder.write(job, &text(JOB));
    folder.write(plan, &planned(&text(JOB)));
    for name in ["a.svg", "a.html"] {
        assert_eq!(folder.run(&["draw", job, plan, "-o", name]).status, 0);
        let words: String = elements(&folder.read(name)).into_iter().map(|element| element.text).collect();
        assert!(words.contains("of job <job> & \"it's\" \u{e4}"), "{words}");
    }
    let long = "n".repeat(250);
    folder.write(&long, &text(JOB));
    assert_eq!(folder.run(&["draw", &long, plan, "-o", "a.svg"]).status, 0);
    assert!(folder.read("a.svg").contains(&format!(" of job {}..<", "n".repeat(80))));
}

#[test]
fn pages_have_their_lists() {
    let text = year(16);
    let plan = planned(&text);
    let drawn = draw(&text, &plan, "page.html");
    let stops = drawn.steps(true).len();
    assert_eq!(cells(&drawn.elements).count(), (stops + 1) * 5 + (16 + 1) * 4, "with the sums beneath");
    assert!(drawn.elements.iter().any(|element| element.name == "meta" && element.get("charset") == Some("utf-8")));
}

/// A page is read by those who don't see it, and moved by keys: its language, one title, the picture's words, the heads of columns and rows, and a name
/// for each region that is wider than a small screen. What is only read out hides nothing of the picture.
#[test]
fn pages_are_read_without_seeing_them() {
    let text = job("13_shutdown");
    let drawn = draw(&text, &planned(&text), "page.html");
    let all = |name: &str| drawn.elements.iter().filter(|element| element.name == name).collect::<Vec<_>>();
    assert_eq!(all("html")[0].get("lang"), Some("en"));
    assert!(all("meta").iter().any(|meta| meta.get("name") == Some("viewport") && meta.get("content").is_some()));
    assert_eq!((all("main").len(), all("h1").len(), all("title")[0].text.as_str()), (1, 1, "plan.txt of job.txt"));
    let title = drawn.all("title");
    assert_eq!((title.len(), &title[0].text), (1, &all("h1")[0].text));
    let (read, verdict) = (drawn.all("read"), drawn.all("verdict"));
    assert_eq!((read.len(), &read[0].text, verdict.len()), (1, &verdict[0].text, 1));
    let svg = all("svg")[0];
    assert_eq!(svg.get("role"), Some("img"));
    assert!(svg.get("aria-label").is_some_and(|label| label.contains("every part's life is kept and the cost is true: 2,505")));
    let heads = |scope: &str| all("th").into_iter().filter(|head| head.get("scope") == Some(scope)).count();
    assert_eq!((heads("col"), heads("row"), all("th").len()), (5 + 4, 8 + 7, 5 + 4 + 8 + 7));
    let regions: Vec<Option<&str>> =
        drawn.elements.iter().filter(|element| element.get("role") == Some("region")).map(|region| region.get("aria-label")).collect();
    assert_eq!(regions, [Some("Calendar"), Some("Stops of the line"), Some("Parts to buy")]);
    assert!(drawn.elements.iter().filter(|element| element.get("tabindex") == Some("0")).count() == 3 && all("caption").len() == 2);
}

/// Sixteen parts that hold each other, prices from-to and fees of seven digits, long names, and every second part past its life.
#[test]
fn the_longest_words_have_room() {
    let openings: Vec<u64> = (1..=20).map(|at| 18 * at).collect();
    let mut text = "horizon=365\nidles=2\nidle=100\nidle=101\nopenings=20\n".to_string();
    openings.iter().for_each(|step| text += &format!("opening={step}\nfee=1000000\n"));
    text += "parts=16\n";
    for part in 1..=16 {
        let holder = if part == 1 { "inside=0\n".to_string() } else { format!("inside=1\nholder={}\n", part - 1) };
        text += &format!("life=40\nleft=38\nremoval=123456\n{holder}{}", "low=800000\nhigh=1000000\n".repeat(20));
    }
    let changed: String = (1..=16).step_by(2).map(|part| format!("part={part}\n")).collect();
    let stops: String = openings.iter().map(|step| format!("stop={step}\ncount=8\n{changed}")).collect();
    let folder = Folder::new();
    folder.write("job.txt", text.as_bytes());
    folder.write("plan.txt", format!("cost=123456789\nstops=20\n{stops}").as_bytes());
    let name = "of the filling carousel, upper guide, left hand side, stainless, with two seals";
    let names: String = (1..=16).map(|part| format!("{part},\"Ring {part} {name}\",R-{part}\n")).collect();
    folder.write("names.csv", names.as_bytes());
    for file in ["a.svg", "a.html"] {
        let ran = folder.run(&["draw", "job.txt", "plan.txt", "-o", file, "--from", "2027-01-01", "--names", "names.csv"]);
        assert_eq!((ran.status, ran.err.as_str()), (1, ""), "{ran:?}");
        let drawn = elements(&folder.read(file));
        let refused: Vec<&Element> = drawn.iter().filter(|element| element.is("refused")).collect();
        let words = refused.iter().map(|line| line.text.as_str()).collect::<Vec<_>>().join(" ");
        assert!(refused.len() > 1 && words.ends_with("too late; nor are parts 4, 6, 8, 10, 12, 14, 16."), "{words}");
        on_the_sheet(&drawn, drawn.iter().find(|element| element.name == "svg").expect("a picture"));
    }
}

/// A front's words have room however long its job's name is, and a hall's legend has what its picture has.
#[test]
fn fronts_and_halls_have_room_for_their_words() {
    let folder = Folder::new();
    let name = "A very long name of a job, filling line seven, winter half year, after the overhaul of 2026.txt";
    folder.write(name, &job("13_shutdown"));
    assert_eq!(folder.run(&["front", name, "-o", "front.svg"]).status, 0);
    let hall = std::path::Path::new(env!("CARGO_MANIFEST_DIR")).join("../examples/hall/hall.txt");
    folder.write("hall.txt", &std::fs::read(hall).expect("the example"));
    let date = ["--from", "2027-01-04", "--step", "week"];
    assert_eq!(folder.run(&[&["hall", "hall.txt", "-o", "hall.svg"], &date[..]].concat()).status, 0);
    for file in ["front.svg", "hall.svg"] {
        let drawn = elements(&folder.read(file));
        on_the_sheet(&drawn, &drawn[0]);
        assert_eq!((drawn[0].name.as_str(), drawn[0].get("role")), ("svg", Some("img")));
        let words: Vec<&str> = drawn.iter().map(|element| element.text.as_str()).collect();
        let legend = ["a call of the crew", "a call that planning each line alone would need", "part changed", "idle: no wear"];
        assert!(file == "front.svg" || legend.iter().all(|mark| words.contains(mark)), "{words:?}");
    }
}

/// A year's job, a log of its first twenty steps, and the plan of what is left.
fn done() -> Folder {
    let folder = Folder::new();
    folder.write("job.txt", &job("13_shutdown"));
    let log = "step=20 cost=940 stops=3 stop=4 count=2 part=1 part=3 stop=10 count=3 part=1 part=2 part=4 stop=16 count=4 part=1 part=2 part=3 part=5";
    folder.write("log.txt", &text(log));
    assert_eq!(folder.run(&["carry", "job.txt", "log.txt", "--plan", "next.txt", "-o", "rest.txt"]).status, 0);
    folder
}

/// What was done is grey and before a line for today; behind it stand the steps from today on, and the sums of both.
#[test]
fn what_was_done_is_grey() {
    let folder = done();
    for name in ["past.svg", "past.html"] {
        let ran = folder.run(&["draw", "job.txt", "next.txt", "--log", "log.txt", "-o", name]);
        assert_eq!((ran.status, ran.err.as_str()), (0, ""), "{ran:?}");
        assert!(ran.out.contains("cost is true: 2,505; to go on so is the cheapest possible (proved) (0)"), "{}", ran.out);
        let drawn = elements(&folder.read(name));
        let all = |class: &str| drawn.iter().filter(|element| element.is(class)).collect::<Vec<_>>();
        let steps = |class: &str, done: bool| {
            let own = all(class).into_iter().filter(|element| element.is("done") == done);
            own.map(|element| element.number("data-step") as u64).collect::<Vec<_>>()
        };
        assert_eq!((steps("stop", true), steps("stop", false)), (vec![4, 10, 16], vec![24, 30, 36, 44]));
        assert_eq!((steps("change", true).len(), steps("change", false).len()), (9, 13));
        let today = all("today")[0];
        assert_eq!(today.number("data-step"), 20.0);
        let x = today.number("x1");
        let ends = |shape: &&Element, past: bool| {
            let points = shape.get("points").expect("points").split([',', ' ']).step_by(2).map(|at| at.parse::<f64>().expect("a place"));
            points.into_iter().all(|at| if past { at <= x + 0.02 } else { at >= x - 0.02 })
        };
        let worn: Vec<&Element> = all("worn").into_iter().filter(|shape| shape.name == "polygon").collect();
        assert!(worn.len() >= 6 && worn.iter().all(|shape| ends(shape, true)), "grey is before today");
        // The legend's own shape is the last.
        let wear = all("wear");
        assert!(wear.len() >= 7 && wear[..wear.len() - 1].iter().all(|shape| ends(shape, false)), "blue is behind it");
        let words: String = drawn.iter().map(|element| element.text.clone() + "\n").collect();
        assert!(
            ["done up to step 20", "\ntoday\n", "\n+10\n", "Spent 940, to go on 1,565"].iter().all(|own| words.contains(own)),
            "{words}"
        );
    }
}

/// The job that is left alone, with the steps of the whole beneath; its stops for a calendar program have the whole's dates.
#[test]
fn what_is_left_has_the_steps_of_the_whole() {
    let folder = done();
    let ran = folder.run(&["draw", "rest.txt", "next.txt", "-o", "rest.svg", "--after", "20"]);
    let words: String = elements(&folder.read("rest.svg")).into_iter().map(|element| element.text + "\n").collect();
    assert!(ran.status == 0 && words.contains("of the whole\n") && words.contains("\n52\n"), "{words}");
    let date = ["--from", "2027-01-04", "--step", "week"];
    assert_eq!(folder.run(&[&["draw", "rest.txt", "next.txt", "-o", "rest.ics", "--after", "20"], &date[..]].concat()).status, 0);
    assert_eq!(folder.run(&[&["draw", "job.txt", "next.txt", "--log", "log.txt", "-o", "past.ics"], &date[..]].concat()).status, 0);
    let starts = |name: &str| folder.read(name).lines().filter(|line| line.starts_with("DTSTART")).map(str::to_string).collect::<Vec<_>>();
    assert_eq!(starts("rest.ics"), starts("past.ics"));
    assert_eq!(starts("rest.ics")[0], "DTSTART;VALUE=DATE:20270614");
}

/// A log that is refused, and a plan that is none of the job that is left, are not drawn.
#[test]
fn what_was_not_done_is_not_drawn() {
    let folder = Folder::new();
    folder.write("job.txt", &text(JOB));
    folder.write("log.txt", &text("step=3 cost=16 stops=1 stop=2 count=1 part=1"));
    folder.write("plan.txt", &text("cost=22 stops=1 stop=1 count=2 part=1 part=2"));
    let ran = folder.run(&["draw", "job.txt", "plan.txt", "--log", "log.txt", "-o", "a.svg"]);
    assert_eq!((ran.status, ran.err.as_str()), (1, "log.txt: what was done costs 15, and 16 is stated: 1 too much (11)\n"));
    folder.write("log.txt", &text("step=3 cost=15 stops=1 stop=2 count=1 part=1"));
    folder.write("plan.txt", &text("cost=22 stops=1 stop=4 count=2 part=1 part=2"));
    let ran = folder.run(&["draw", "job.txt", "plan.txt", "--log", "log.txt", "-o", "a.svg"]);
    assert!(ran.status == 2 && ran.err.starts_with("plan.txt:3: stop is no opening"), "{ran:?}");
    assert!(!folder.names().contains(&"a.svg".to_string()));
}
