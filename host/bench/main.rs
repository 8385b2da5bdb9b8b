//! Time a node of the library and of the walk in Rust, on the jobs of `jobs/`, in one run: the microseconds of a call with walk number 1
//! (reading, tables, one node), and the nanoseconds of each node after the first, which are the whole call's less those.
//! `bench [--walk N] [NAME ..]`: N nodes at most in place of those of TABLE.md; NAME picks the jobs whose names begin with it.
//! `bench --optimum [NAME ..]`: the optimum instead. `bench --first [NAME ..]`: how long its first walk should be. `bench --hall`: the hall.

mod hall;
mod optimum;

use juzvarola_checks::fast::{self, Unit};
use std::hint::black_box;
use std::path::{Path, PathBuf};
use std::{env, fs, process, thread};

/// A job is repeated until it took this long, three times at least; one that takes longer by itself is run once.
const SECONDS: f64 = 1.0;

/// The call with walk number 1 is repeated as often as the job, and this often at least.
const FIRST_RUNS: u64 = 200;

/// What a solver says of a job, as far as TABLE.md has it.
#[derive(Debug, Clone, Copy, PartialEq, Eq)]
struct Outcome {
    nodes: u64,
    floor: u64,
    cost: Option<u64>,
}

/// The CPU seconds of a call, and what it says.
type Timed = (f64, Outcome);

type Solver = (String, fn(&[u8], u64) -> Timed);

#[cfg(feature = "library")]
fn library(job: &[u8], walk: u64) -> Timed {
    let mut out = [0; 16_384];
    let (time, answer) = timed(|| juzvarola_host::plan(job, walk, &mut out));
    assert!(matches!(answer.result, 0 | 7), "result {}", answer.result);
    let lines = std::str::from_utf8(&out[..answer.length]).expect("answers are ASCII");
    let value = |key: &str| {
        let mut values = lines.lines().filter_map(|line| line.strip_prefix(key)?.strip_prefix('='));
        values.next().map(|value| value.parse::<u64>().expect("a number"))
    };
    (time, Outcome { nodes: value("nodes").expect("nodes"), floor: value("floor").expect("a floor"), cost: value("cost") })
}

fn rust(job: &[u8], walk: u64, unit: Unit) -> Timed {
    let (time, found) = timed(|| fast::Job::read(job, walk).solve(unit).expect("the job has a plan"));
    (time, Outcome { nodes: found.nodes, floor: found.floor, cost: found.best.map(|best| best.cost) })
}

/// The solvers of jobs without holders, or with them.
fn solvers(held: bool) -> Vec<Solver> {
    let mut solvers: Vec<Solver> = Vec::new();
    #[cfg(feature = "library")]
    solvers.push(("library".into(), library));
    for unit in if held { vec![Unit::Holders] } else { Unit::all() } {
        let solve: fn(&[u8], u64) -> Timed = match unit {
            Unit::Plain => |job, walk| rust(job, walk, Unit::Plain),
            Unit::Recursive => |job, walk| rust(job, walk, Unit::Recursive),
            Unit::Sse2 => |job, walk| rust(job, walk, Unit::Sse2),
            Unit::Avx2 => |job, walk| rust(job, walk, Unit::Avx2),
            Unit::Holders => |job, walk| rust(job, walk, Unit::Holders),
        };
        solvers.push((format!("{unit:?}"), solve));
    }
    solvers
}

/// The places of the solvers that the library, which is the first, is compared with.
fn beside(solvers: &[Solver]) -> Vec<usize> {
    let there = solvers[0].0 == "library";
    (1..solvers.len()).filter(|at| there && ["Plain", "Recursive", "Holders"].contains(&solvers[*at].0.as_str())).collect()
}

/// The CPU time of this thread in seconds: other programs on the machine count little.
fn cpu_seconds() -> f64 {
    #[repr(C)]
    struct Time {
        seconds: i64,
        nanoseconds: i64,
    }
    extern "C" {
        fn clock_gettime(clock: i32, time: *mut Time) -> i32;
    }
    const THREAD_CPU_TIME: i32 = 3;
    let mut time = Time { seconds: 0, nanoseconds: 0 };
    // SAFETY: the C library's function fills the struct, which is `struct timespec` of 64-bit Linux.
    let status = unsafe { clock_gettime(THREAD_CPU_TIME, &mut time) };
    assert_eq!(status, 0, "clock_gettime");
    time.seconds as f64 + time.nanoseconds as f64 * 1e-9
}

fn timed<T>(call: impl FnOnce() -> T) -> (f64, T) {
    let start = cpu_seconds();
    let value = call();
    (cpu_seconds() - start, value)
}

/// The row of TABLE.md: nodes, floor and cost of the whole walk.
fn expected(table: &str, name: &str) -> Option<Outcome> {
    let row = table.lines().find(|line| line.starts_with(&format!("| {name} |")))?;
    let cells: Vec<u64> = row.split('|').skip(2).filter_map(|cell| cell.trim().parse().ok()).collect();
    Some(Outcome { nodes: cells[0], floor: cells[1], cost: Some(cells[2]) })
}

/// Runs the solvers in turn with walk number 1 and in turn with the whole walk, so that each has the same one before it both times.
/// The least times of each, and the outcomes.
fn measure(solvers: &[Solver], job: &[u8], walk: u64) -> [Vec<Timed>; 2] {
    let walks = [1, walk];
    let mut least = walks.map(|walk| solvers.iter().map(|(_, solve)| solve(job, walk)).collect::<Vec<Timed>>());
    let longest = least[1].iter().map(|(time, _)| *time).fold(1e-7, f64::max);
    let runs = if longest > SECONDS { 0 } else { ((SECONDS / longest) as u64).clamp(2, 1000) };
    for run in 0..runs.max(FIRST_RUNS) {
        let repeated = if run < runs { &walks[..] } else { &walks[..1] };
        for (least, walk) in least.iter_mut().zip(repeated) {
            for (least, (_, solve)) in least.iter_mut().zip(solvers) {
                let (time, outcome) = solve(job, *walk);
                assert_eq!(outcome, least.1, "two runs differ");
                least.0 = least.0.min(time);
            }
        }
    }
    least
}

/// How many solvers say something else; each is named.
fn differing(name: &str, solvers: &[Solver], measured: &[Timed], reference: Outcome) -> usize {
    let mut wrong = 0;
    for ((solver, _), (_, outcome)) in solvers.iter().zip(measured) {
        if *outcome != reference {
            eprintln!("{name}: {solver} says {outcome:?}, not {reference:?}");
            wrong += 1;
        }
    }
    wrong
}

fn print_heads(solvers: &[Solver]) {
    let heads: String = solvers.iter().map(|(name, _)| format!(" {name}: walk=1, µs | ns/node |")).collect();
    let ratios: String = beside(solvers).iter().map(|at| format!(" library / {} |", solvers[*at].0)).collect();
    println!("| job | nodes |{heads}{ratios}\n|---|---|{}", "---|".repeat(2 * solvers.len() + beside(solvers).len()));
}

/// The row of a job: `first` are the calls with walk number 1, `whole` those with all nodes.
fn print_row(name: &str, nodes: u64, solvers: &[Solver], first: &[Timed], whole: &[Timed]) {
    let times: Vec<f64> = first.iter().zip(whole).map(|(first, whole)| (whole.0 - first.0) / (nodes - 1) as f64).collect();
    let cells: String = first.iter().zip(&times).map(|(first, time)| format!(" {:.1} | {:.2} |", first.0 * 1e6, time * 1e9)).collect();
    let ratios: String = beside(solvers).iter().map(|at| format!(" {:.2} |", times[0] / times[*at])).collect();
    println!("| {name} | {nodes} |{cells}{ratios}");
}

fn stem(file: &Path) -> String {
    file.file_stem().expect("a name").to_string_lossy().into_owned()
}

fn jobs(folder: &Path, names: &[String]) -> Vec<PathBuf> {
    let entries = fs::read_dir(folder).unwrap_or_else(|error| panic!("{}: {error}", folder.display()));
    let mut files: Vec<PathBuf> = entries.map(|entry| entry.expect("an entry").path()).collect();
    files.retain(|file| file.extension().is_some_and(|extension| extension == "txt"));
    files.retain(|file| names.is_empty() || names.iter().any(|name| stem(file).starts_with(name)));
    files.sort();
    files
}

fn run() {
    let mut names: Vec<String> = env::args().skip(1).collect();
    let mut walk = None;
    let folder = Path::new(env!("CARGO_MANIFEST_DIR")).join("../../jobs");
    // Once so much was freed at one time, the C library keeps what is freed: else some calls would pay for fresh pages, and some not.
    drop(black_box(vec![0u8; 16 << 20]));
    match names.first().map(String::as_str) {
        Some("--optimum") => return optimum::table(&folder, &names[1..]),
        Some("--hall") => return hall::table(),
        Some("--first") => return optimum::first_walks(&folder, &names[1..]),
        _ => {}
    }
    if let Some(at) = names.iter().position(|name| name == "--walk") {
        walk = Some(names.get(at + 1).and_then(|number| number.parse().ok()).expect("--walk N"));
        names.drain(at..at + 2);
    }
    let table = fs::read_to_string(folder.join("TABLE.md")).expect("TABLE.md");
    let mut wrong = 0;
    for held in [false, true] {
        let of_kind = |file: &PathBuf| fs::read_to_string(file).expect("a job").contains("\nholder=") == held;
        let files: Vec<PathBuf> = jobs(&folder, &names).into_iter().filter(of_kind).collect();
        if !files.is_empty() {
            wrong += compare(&solvers(held), &files, &table, walk);
            println!();
        }
    }
    if wrong > 0 {
        eprintln!("{wrong} outcomes differ");
        process::exit(1);
    }
}

/// The table of these jobs; how many outcomes differ.
fn compare(solvers: &[Solver], files: &[PathBuf], table: &str, walk: Option<u64>) -> usize {
    print_heads(solvers);
    let mut wrong = 0;
    for file in files {
        let name = stem(file);
        let job = fs::read(file).expect("a job");
        let wanted = expected(table, &name).expect("a row of TABLE.md");
        let [first, measured] = measure(solvers, &job, walk.unwrap_or(wanted.nodes).min(wanted.nodes));
        let whole = walk.is_none_or(|walk| walk >= wanted.nodes);
        let reference = if whole { wanted } else { measured[0].1 };
        wrong += differing(&name, solvers, &first, first[0].1) + differing(&name, solvers, &measured, reference);
        print_row(&name, reference.nodes, solvers, &first, &measured);
    }
    wrong
}

fn main() {
    let thread = thread::Builder::new().stack_size(32 << 20).spawn(run).expect("a thread starts");
    if thread.join().is_err() {
        process::exit(1);
    }
}
