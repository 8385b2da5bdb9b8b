//! The program's words: help, version, commands and options that do not exist, files that are too many or too few.
#![cfg(feature = "library")]

mod common;
use common::tool::{Folder, Ran};

const COMMANDS: [&str; 16] = [
    "plan",
    "judge",
    "latest",
    "carry",
    "list",
    "draw",
    "compare",
    "count",
    "worth",
    "whatif",
    "front",
    "join",
    "hall",
    "write",
    "check",
    "completion",
];

/// A usage error: status 64, these words on standard error, nothing on standard output.
fn refused(words: &[&str], message: &str) {
    let Ran { status, out, err } = Folder::new().run(words);
    assert_eq!((status, out.as_str()), (64, ""), "{words:?}: {err}");
    assert!(err.contains(message), "{words:?}: {err:?} has no {message:?}");
}

#[test]
fn help_and_version() {
    let folder = Folder::new();
    for words in [&["--help"][..], &["-h"], &["help"]] {
        let Ran { status, out, err } = folder.run(words);
        assert_eq!((status, err.as_str()), (0, ""));
        assert!(COMMANDS.iter().all(|command| out.contains(&format!("\n  {command} "))), "{out}");
    }
    for command in COMMANDS {
        let asked = [folder.run(&[command, "--help"]), folder.run(&["help", command]), folder.run(&[command, "no file", "-h"])];
        for Ran { status, out, err } in asked {
            assert_eq!((status, err.as_str()), (0, ""));
            assert!(out.starts_with(&format!("usage: juzvarola {command}")), "{out}");
            assert!(out.contains("exit status:"), "{out}");
        }
    }
    let Ran { status, out, err } = folder.run(&["--version"]);
    assert_eq!((status, out, err), (0, format!("juzvarola {}\n", env!("CARGO_PKG_VERSION")), String::new()));
}

#[test]
fn help_fits_a_terminal() {
    let folder = Folder::new();
    assert!(folder.run(&["help"]).out.lines().all(|line| line.chars().count() <= 86));
    for command in COMMANDS {
        let out = folder.run(&["help", command]).out;
        assert!(out.lines().all(|line| line.chars().count() <= 80), "{out}");
    }
}

#[test]
fn unknown_words_are_errors_with_a_hint() {
    refused(&[], "usage: juzvarola COMMAND");
    refused(&["pln"], "no command 'pln'; did you mean 'plan'?");
    refused(&["judeg", "a", "b"], "did you mean 'judge'?");
    refused(&["help", "drwa"], "did you mean 'draw'?");
    refused(&["frobnicate"], "no command 'frobnicate'; juzvarola --help lists what there is");
    refused(&["--verison"], "no command '--verison'");
    refused(&["list", "a", "b", "--cvs"], "no option '--cvs'; did you mean '--csv'?");
    refused(&["plan", "a", "--every", "3"], "no option '--every'");
    refused(&["judge", "a", "b", "-x"], "no option '-x'");
    refused(&["pl\u{1b}[31man"], "no command 'pl\\x1b[31man'");
}

#[test]
fn files_and_values_are_counted() {
    refused(&["plan"], "plan takes one file, not 0");
    refused(&["plan", "a", "b"], "plan takes one file, not 2");
    refused(&["judge", "a"], "judge takes 2 files, not 1");
    refused(&["compare", "a", "b"], "compare takes 3 files or 4, not 2");
    refused(&["judge", "-", "-"], "standard input (-) can be read for one file only");
    refused(&["plan", "a", "-o"], "-o needs a value");
    refused(&["draw", "a", "b"], "draw needs -o FILE");
    refused(&["draw", "a", "b", "-o", "c.png"], "ends neither in .svg nor in .html nor in .ics");
    refused(&["list", "a", "b", "--csv", "--json"], "give one of them");
    refused(&["list", "a", "b", "--step", "week"], "needs --from DATE");
    for date in ["2027-02-29", "04.01.2027", "2027-1-4"] {
        refused(&["list", "a", "b", "--from", date], "--from takes a date such as 2027-01-04");
    }
    refused(&["list", "a", "b", "--from", "2027-01-04", "--step", "year"], "--step takes day, week or month");
    refused(&["plan", "a", "--for", "soon"], "--for takes a time such as 60s, 5m or 1h");
    refused(&["plan", "a", "--walk", "4000000001"], "--walk takes a number of nodes from 0 to 4000000000");
    refused(&["list", "-", "b", "--names", "-"], "standard input (-) can be read for one file only");
    refused(&["list", "a", "b", "--csv=yes"], "--csv takes no value");
    refused(
        &["front", "a", "-o", "a.svg", "--take", "2", "--output=b"],
        "--output is given twice, and one of them would count for nothing",
    );
    refused(&["whatif", "a", "--fee", "10", "--fee", "+10%"], "--fee is given twice");
    for steps in ["0", "366", "x", "-1", ""] {
        refused(&["list", "a", "b", "--every", steps], "--every takes a number of steps from 1 to 365");
    }
}

#[test]
fn options_stand_anywhere_and_end_at_two_dashes() {
    let folder = Folder::new();
    folder.write("--job", &common::tool::job("00_example"));
    for words in [&["plan", "-o", "a", "--", "--job"][..], &["plan", "./--job", "--output=a"], &["plan", "-oa", "-q", "./--job"]] {
        let ran = folder.run(words);
        assert_eq!((ran.status, ran.out.as_str()), (0, ""), "{}", ran.err);
        assert!(folder.read("a").starts_with("cost=37\n"));
        std::fs::remove_file(folder.0.join("a")).expect("the plan");
    }
}

/// bash completes commands, options and files by the program's own script.
#[test]
fn words_are_completed() {
    let folder = Folder::new();
    folder.write("a job.txt", b"");
    let complete = |words: &str| {
        let count = words.split('|').count();
        let list = words.split('|').map(|word| format!("'{word}' ")).collect::<String>();
        let line = format!("bash -c 'eval \"$(\"$juzvarola\" completion)\"; COMP_WORDS=(juzvarola \"$@\"); COMP_CWORD={count}; _juzvarola; printf \"%s\\n\" \"${{COMPREPLY[@]}}\"' x {list}");
        let ran = folder.shell(&line);
        assert_eq!(ran.status, 0, "{ran:?}");
        ran.out.lines().map(str::to_string).collect::<Vec<_>>()
    };
    assert_eq!(complete("co"), ["compare", "count", "completion"]);
    assert_eq!(complete("list|--e"), ["--every"]);
    assert_eq!(complete("list|a|b|--step|w"), ["week"]);
    assert_eq!(complete("plan|--q"), ["--quiet"]);
    assert_eq!(complete("plan|a"), ["a job.txt"]);
}
