//! The optimum: the library's call beside the study's search in Rust, on all jobs of `jobs/`, in one run; and how long all jobs take by a counted walk of so
//! many nodes before the walks by shares.

use crate::{jobs, stem, timed};
use juzvarola_checks::fast::{Job, Search};
use std::fs;
use std::path::Path;

/// A job is repeated until it took this long; one that takes longer by itself is run once.
const SECONDS: f64 = 0.2;
/// The library's own first walk.
const FIRST: u64 = 131_072;
/// The nodes of each walk for a lift.
const LIFT: u64 = 20_000;
const LIMIT: u64 = 4_000_000_000;

/// A search with its name: what a job takes, and its least cost.
type Solver<'s> = (&'s str, &'s dyn Fn(&[u8]) -> (f64, u64));

#[cfg(feature = "library")]
fn library(job: &[u8]) -> (f64, u64) {
    let mut out = [0; 16_384];
    let (time, answer) = timed(|| juzvarola_host::optimum(job, LIMIT, &mut out));
    assert_eq!(answer.result, 0);
    let lines = std::str::from_utf8(&out[..answer.length]).expect("answers are ASCII");
    let cost = lines.lines().find_map(|line| line.strip_prefix("cost=")?.parse().ok());
    (time, cost.expect("a cost"))
}

/// The same by the search in Rust.
fn rust(job: &[u8], search: Search) -> (f64, u64) {
    let (time, found) = timed(|| Job::read(job, LIMIT).optimum(search).expect("the job has a plan"));
    (time, found.best.expect("a walk of so many nodes ends").cost)
}

/// The least time of each solver, in turn; all find one cost.
fn measure(solvers: &[Solver], name: &str, job: &[u8]) -> (Vec<f64>, u64) {
    let mut least = vec![f64::MAX; solvers.len()];
    let (mut cost, mut spent) = (None, 0.0);
    while spent < SECONDS {
        for ((solver, solve), least) in solvers.iter().zip(&mut least) {
            let (time, own) = solve(job);
            assert_eq!(*cost.get_or_insert(own), own, "{name}: {solver} finds another cost");
            *least = least.min(time);
            spent += time;
        }
        spent += 1e-4;
    }
    (least, cost.expect("a cost"))
}

/// The table of the library beside the study: with its lift, without, and without but with the library's first walk.
pub fn table(folder: &Path, names: &[String]) {
    let search = |first: u64, lift: u64| Search { first, lift, limit: LIMIT };
    let (lifted, shares, first) =
        (|job: &[u8]| rust(job, search(0, LIFT)), |job: &[u8]| rust(job, search(0, 0)), |job: &[u8]| rust(job, search(FIRST, 0)));
    let mut solvers: Vec<Solver> = Vec::new();
    #[cfg(feature = "library")]
    solvers.push(("library", &library));
    let (with, without, as_library) = ("Rust, lift", "Rust, no lift", "Rust, no lift, first walk");
    solvers.extend::<[Solver; 3]>([(with, &lifted), (without, &shares), (as_library, &first)]);
    let there = solvers[0].0 == "library";
    let heads: String = solvers.iter().map(|(name, _)| format!(" {name}: ms |")).collect();
    let ratios: String = solvers[1..].iter().filter(|_| there).map(|(name, _)| format!(" library / {name} |")).collect();
    let columns = solvers.len() + if there { solvers.len() - 1 } else { 0 };
    println!("| job | cost |{heads}{ratios}\n|---|---|{}", "---|".repeat(columns));
    let mut all = vec![0.0; solvers.len()];
    for file in jobs(folder, names) {
        let (name, job) = (stem(&file), fs::read(&file).expect("a job"));
        let (times, cost) = measure(&solvers, &name, &job);
        print_row(&name, &cost.to_string(), &times, there);
        all.iter_mut().zip(times).for_each(|(all, own)| *all += own);
    }
    print_row("all", "", &all, there);
}

fn print_row(name: &str, cost: &str, times: &[f64], there: bool) {
    let cells: String = times.iter().map(|time| format!(" {:.2} |", time * 1e3)).collect();
    let ratios: String = times[1..].iter().filter(|_| there).map(|time| format!(" {:.2} |", times[0] / time)).collect();
    println!("| {name} | {cost} |{cells}{ratios}");
}

/// How long the jobs take by the search in Rust where the first walk has so many nodes, without a lift and with it.
pub fn first_walks(folder: &Path, names: &[String]) {
    println!("| nodes of the first walk | no lift: ms | lift: ms | jobs that end in it |\n|---|---|---|---|");
    let files: Vec<(String, Vec<u8>)> = jobs(folder, names).iter().map(|file| (stem(file), fs::read(file).expect("a job"))).collect();
    for first in [0, 256, 1024, 4096, 16_384, 65_536, 131_072, 262_144, 1_048_576, 4_194_304] {
        let (mut sums, mut ended) = ([0.0; 2], 0);
        for (name, job) in &files {
            let [without, with] = [0, LIFT].map(|lift| move |job: &[u8]| rust(job, Search { first, lift, limit: LIMIT }));
            let (times, _) = measure(&[("without", &without), ("with", &with)], name, job);
            sums.iter_mut().zip(times).for_each(|(sum, time)| *sum += time);
            let nodes = Job::read(job, LIMIT).optimum(Search { first, lift: 0, limit: 1 }).map_or(0, |found| found.nodes);
            ended += usize::from(first > 0 && nodes <= first);
        }
        println!("| {first} | {:.1} | {:.1} | {ended} of {} |", sums[0] * 1e3, sums[1] * 1e3, files.len());
    }
}
