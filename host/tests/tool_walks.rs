//! Long walks: progress, seen on a terminal (made by `script`), interruptions and limits of time. Nothing found is lost, and what is shown is never part of
//! the answer.
#![cfg(feature = "library")]

mod common;
use common::json::{read, Json};
use common::tool::{hard, job, number_after, Folder, Ran, PROGRAM};
use std::process::{Command, Stdio};
use std::time::{Duration, Instant};

/// What comes before each line of progress.
const LINE: &str = "\r";

/// Two jobs: one whose counted walk has many more nodes than any walk number, and one of which that is true of the walks by shares too.
fn folder() -> Folder {
    let folder = Folder::new();
    folder.write("job", &job("14_full64_4"));
    folder.write("hard", &hard());
    folder
}

/// Runs the words with a terminal for all output.
fn on_terminal(folder: &Folder, words: &str) -> Ran {
    let ran = folder.shell(&format!("script -qec '\"$juzvarola\" {words}' /dev/null"));
    assert!(!ran.err.contains("not found"), "script (Debian: bsdutils) makes the terminal: {}", ran.err);
    ran
}

/// What is said, without the times, which differ.
fn without_times(words: &str) -> String {
    words.lines().filter(|line| !line.contains(" takes about ")).map(|line| line.trim_end().to_string() + "\n").collect()
}

/// Progress on a terminal of walks with these numbers, the same answer without it, and the bytes of calls with the last number alone.
fn progress(order: &str, numbers: &[u64], why: &str) {
    let folder = folder();
    let words: Vec<&str> = order.split(' ').collect();
    let ran = on_terminal(&folder, &format!("{order} -o shown"));
    assert_eq!(ran.status, 3, "{ran:?}");
    let lines: Vec<&str> = ran.out.split(LINE).filter(|line| line.contains(" nodes: ")).collect();
    assert!(lines.len() >= 2, "{ran:?}");
    let nodes: Vec<u64> = lines.iter().map(|line| number_after(line, " s, ").expect("nodes")).collect();
    assert!(nodes.iter().all(|nodes| numbers.contains(nodes)) && nodes.is_sorted(), "those of finished walks: {nodes:?}");
    for line in lines {
        assert!(line.contains("best ") && line.contains(" could be saved; ") && line.contains(" at most"), "{line:?}");
        assert!(line.split('\u{1b}').next().expect("a line").len() < 90, "{line:?}");
    }
    let last = ran.out.rsplit("\u{1b}[K").next().expect("the answer");
    assert!(last.starts_with(&format!("{}: {why}; the best plan so far", words[1])), "the line is wiped: {ran:?}");
    assert_eq!(last.contains(" nodes were walked (7)"), order.contains("--count-nodes"), "the last walk's answer: {last:?}");
    let quiet = on_terminal(&folder, &format!("{order} --quiet -o quiet"));
    assert_eq!((quiet.status, quiet.out.contains('\u{1b}')), (3, false), "{quiet:?}");
    assert_eq!(without_times(&quiet.out), without_times(last));
    let once = folder.run(&[&words[..], &["--once"]].concat());
    assert_eq!((once.status, &once.out), (3, &folder.read("quiet")), "the bytes of calls with that number");
    assert_eq!((without_times(&once.err), folder.read("shown")), (without_times(last), folder.read("quiet")));
}

#[test]
fn long_walks_show_progress_and_answer_the_same() {
    let why = "the walk is longer than its walk number, 200,000,000";
    progress("plan job --walk 200000000 --count-nodes", &[12_500_000, 50_000_000], why);
    progress("plan hard --walk 64000000", &[1_000_000, 4_000_000, 16_000_000], "the walk is longer than its walk number, 64,000,000");
}

/// By CPU time, so that other work on the machine does not count: all walks together take at most 1.4 of those with the last number, with walks by shares,
/// whose lifts are found anew for each number, at most 1.6.
#[test]
fn growing_walks_take_little_more_than_one_call() {
    let folder = folder();
    let took = |words: &str| {
        let ran = folder.shell(&format!("bash -c 'TIMEFORMAT=%U; time \"$juzvarola\" plan {words} -o plan' 2>&1 | tail -n 1"));
        ran.out.trim().parse::<f64>().unwrap_or_else(|_| panic!("a time: {ran:?}"))
    };
    for (words, most) in [("job --walk 80000000 --count-nodes", 1.4), ("hard --walk 32000000", 1.6)] {
        let (mut once, mut growing) = (f64::MAX, f64::MAX);
        // The least of some rounds, since other work moves CPU times too.
        for _ in 0..8 {
            (once, growing) = (once.min(took(&format!("{words} --once"))), growing.min(took(words)));
            if growing <= once * (most - 0.04) {
                break;
            }
        }
        assert!(growing <= once * most, "{words}: {growing} s and {once} s");
    }
}

#[test]
fn short_walks_show_nothing() {
    let folder = Folder::new();
    folder.write("job", &job("13_shutdown"));
    let ran = on_terminal(&folder, "plan job -o plan");
    assert_eq!((ran.status, ran.out.contains('\u{1b}'), ran.out.lines().count()), (0, false, 1), "{ran:?}");
}

/// Sends a signal to a long search once some walks are finished, and waits for its end, which comes long before the search's own. On a busy machine the
/// first walks may take their time: then they are given more.
fn interrupted(folder: &Folder, signal: &str, words: &[&str]) -> Ran {
    let mut last = None;
    for seconds in [3, 9, 27] {
        let ran = interrupted_after(folder, signal, words, seconds);
        let found = ran.err.contains(" nodes were ") || ran.out.contains(" nodes were ") || ran.out.contains(" stops, and the cheapest ");
        last = Some(ran);
        if found || words.contains(&"--once") {
            break;
        }
    }
    last.expect("a run")
}

/// The same after so many seconds.
fn interrupted_after(folder: &Folder, signal: &str, words: &[&str], seconds: u64) -> Ran {
    // The tests themselves may run where signals are ignored, as under nohup.
    let mut command = Command::new("env");
    command.args(["--default-signal=HUP,INT,TERM", PROGRAM]).args(words);
    command.current_dir(&folder.0).stdin(Stdio::null()).stdout(Stdio::piped()).stderr(Stdio::piped());
    let child = command.spawn().expect("env (Debian: coreutils) runs the program");
    std::thread::sleep(Duration::from_secs(seconds));
    let sent = Command::new("kill").args([signal, &child.id().to_string()]).status().expect("kill runs");
    assert!(sent.success(), "it still walks");
    let began = Instant::now();
    let output = child.wait_with_output().expect("it ends");
    assert!(began.elapsed() < Duration::from_secs(10), "it ends at once");
    let text = |bytes: Vec<u8>| String::from_utf8(bytes).expect("text");
    Ran { status: output.status.code().unwrap_or(-1), out: text(output.stdout), err: text(output.stderr) }
}

/// The plan of an interrupted search is that of the last finished walks, and the judge accepts it.
fn keeps_the_best_plan(folder: &Folder, signal: &str, words: &[&str]) {
    let ran = interrupted(folder, signal, &[words, &["--walk", "4000000000", "-o", "plan"]].concat());
    assert_eq!((ran.status, ran.out.as_str()), (3, ""), "{ran:?}");
    let begun = format!("{}: interrupted after ", words[1]);
    assert!(ran.err.starts_with(&begun) && ran.err.contains("; the best plan so far costs ") && ran.err.contains(" (7)\n"), "{ran:?}");
    let said = ran.err.split(" nodes were ").next().expect("words");
    let walked = said.rsplit(' ').next().expect("nodes").replace(',', "");
    let once = folder.run(&[words, &["--walk", &walked, "--once"]].concat());
    assert_eq!((once.status, once.out), (3, folder.read("plan")), "the plan of the last finished walks, {walked} nodes");
    assert_eq!(folder.run(&["judge", words[1], "plan"]).status, 0, "which the judge accepts");
    std::fs::remove_file(folder.0.join("plan")).expect("the plan");
}

#[test]
fn interrupted_walks_write_the_best_plan_so_far() {
    let folder = folder();
    for signal in ["-INT", "-TERM", "-HUP"] {
        keeps_the_best_plan(&folder, signal, &["plan", "hard"]);
    }
    keeps_the_best_plan(&folder, "-INT", &["plan", "job", "--count-nodes"]);
    let ran = interrupted(&folder, "-INT", &["plan", "hard", "--walk", "4000000000"]);
    assert!(ran.status == 3 && ran.out.starts_with("cost="), "standard output gets it too: {ran:?}");
    let ran = interrupted(&folder, "-INT", &["plan", "hard", "--walk", "4000000000", "--once", "-o", "plan"]);
    assert!(ran.status == 3 && ran.err.contains("and no plan was found so far") && ran.err.contains("plan is not written"), "{ran:?}");
    assert_eq!(folder.names(), ["hard", "job"]);
}

#[test]
fn limits_of_time_are_kept() {
    let folder = folder();
    for words in [&["plan", "hard"][..], &["plan", "job", "--count-nodes"]] {
        let began = Instant::now();
        let ran = folder.run(&[words, &["--walk", "4000000000", "--for", "5s", "-o", "plan"]].concat());
        assert!(began.elapsed() < Duration::from_secs(15), "{:?}", began.elapsed());
        let begun = format!("{}: out of time after ", words[1]);
        assert!(ran.status == 3 && ran.err.starts_with(&begun) && ran.err.contains(" could still be saved"), "{ran:?}");
        assert_eq!(folder.run(&["judge", words[1], "plan"]).status, 0);
    }
    let ran = folder.run(&["plan", "hard", "--walk", "1000", "--for", "2s", "-o", "plan"]);
    assert!(ran.err.starts_with("hard: the walk is longer than its walk number, 1,000"), "a short walk needs no limit: {ran:?}");
}

/// The lines of progress on a terminal that have these words, and the answer behind the last of them.
fn shown<'r>(ran: &'r Ran, words: &str) -> (Vec<&'r str>, &'r str) {
    let lines: Vec<&str> = ran.out.split(LINE).filter(|line| line.contains(words)).collect();
    for line in &lines {
        assert!(line.split('\u{1b}').next().expect("a line").len() < 90, "{line:?}");
    }
    (lines, ran.out.rsplit("\u{1b}[K").next().expect("the answer"))
}

#[test]
fn halls_show_progress_and_keep_the_best_plans() {
    let folder = folder();
    assert_eq!(folder.run(&["join", "hard", "--call", "5", "-o", "hall"]).status, 0);
    let order = "hall hall --walk 100000000";
    let ran = on_terminal(&folder, &format!("{order} --into shown"));
    let (lines, last) = shown(&ran, " nodes: ");
    assert!(ran.status == 3 && !lines.is_empty(), "{ran:?}");
    assert!(
        last.starts_with("hall: the walk is longer than its walk number, 100,000,000; the best plans so far cost "),
        "the line is wiped: {ran:?}"
    );
    assert!(last.contains(" could still be saved; 100,000,000 nodes were walked (7)"), "{last:?}");
    let quiet = on_terminal(&folder, &format!("{order} --quiet --into quiet"));
    assert_eq!((quiet.status, quiet.out.as_str()), (3, last), "and without progress the same");
    assert_eq!(folder.read("quiet/line1.txt"), folder.read("shown/line1.txt"));
    // What the last finished walk found is said and written where the search is ended, by a signal or by its time.
    let long = ["hall", "hall", "--walk", "4000000000"];
    let ran = interrupted(&folder, "-INT", &[&long[..], &["--into", "kept"]].concat());
    assert!(
        ran.status == 3 && ran.out.starts_with("hall: interrupted after ") && ran.out.contains("; the best plans so far cost "),
        "{ran:?}"
    );
    assert_eq!(folder.run(&["judge", "hard", "kept/line1.txt"]).status, 0);
    let ran = folder.run(&[&long[..], &["--for", "4s", "--json"]].concat());
    let answer = read(&ran.out);
    assert_eq!((ran.status, answer.at("result").number(), answer.at("ended").text()), (3, 7, "out of time"));
}

/// A front's search on a terminal, ended by its time: after so many seconds that something was found, however busy the machine is.
fn front_in_time(folder: &Folder) -> Ran {
    let in_time = |seconds: u64| on_terminal(folder, &format!("front hard --walk 1000000 --for {seconds}s"));
    [6, 20].into_iter().map(in_time).find(|ran| ran.out.contains(" calls: ")).unwrap_or_else(|| in_time(60))
}

#[test]
fn fronts_show_progress_and_say_what_is_proved() {
    let folder = folder();
    let ran = front_in_time(&folder);
    let (lines, last) = shown(&ran, " calls: ");
    assert!(ran.status == 3 && !lines.is_empty() && lines.iter().all(|line| line.contains(" proved, least cost ")), "{ran:?}");
    assert!(
        last.starts_with("hard: out of time after ") && last.contains(" stops, and the cheapest plan for each number ("),
        "wiped: {ran:?}"
    );
    assert!(!on_terminal(&folder, "front hard --walk 1000000 --for 3s --quiet").out.contains('\u{1b}'));
    let ran = interrupted(&folder, "-TERM", &["front", "hard", "--walk", "1000000"]);
    assert!(ran.status == 3 && ran.out.starts_with("hard: interrupted after ") && ran.out.contains("none costs less than "), "{ran:?}");
    let ran = folder.run(&["front", "hard", "--walk", "1000000", "--for", "6s", "--json"]);
    let answer = read(&ran.out);
    assert_eq!((ran.status, answer.at("result").number(), answer.at("ended").text()), (3, 7, "out of time"));
    for point in answer.at("points").list().iter().filter(|point| point.at("text") != &Json::Null) {
        folder.write("plan", point.at("text").text().as_bytes());
        assert_eq!(folder.run(&["judge", "hard", "plan"]).status, 0);
        assert!(point.at("least").number() <= point.at("costs").at("total").number());
    }
    // Before anything is found there is nothing to say.
    let ran = folder.run(&["front", "hard", "--walk", "4000000000", "--for", "1s", "--take", "9", "-o", "nine"]);
    let (begun, end) = ("hard: out of time after 1.", ": no plan was found so far (7)\n    nine is not written\n");
    assert!(ran.status == 3 && ran.out.starts_with(begun) && ran.out.ends_with(end), "{ran:?}");
    assert!(!folder.names().contains(&"nine".to_string()));
}
