//! Files as people have them: pipes, folders, full disks, names with spaces. A clear message and status, and nothing half-written.
#![cfg(feature = "library")]

mod common;
use common::tool::{hard, job, Folder, Ran};
use std::fs;
use std::os::unix::fs::{symlink, PermissionsExt};

/// A folder with a job and a plan of it.
fn folder() -> Folder {
    let folder = Folder::new();
    folder.write("a job.txt", &job("13_shutdown"));
    let ran = folder.run(&["plan", "a job.txt", "-o", "its plan.txt"]);
    assert_eq!((ran.status, ran.out.as_str()), (0, ""), "{}", ran.err);
    folder
}

/// That it failed so, with these words on standard error, and left the folder as it was.
fn failed(folder: &Folder, before: &[String], ran: &Ran, status: i32, words: &str) {
    assert_eq!(ran.status, status, "{ran:?}");
    assert!(ran.err.contains(words), "{ran:?}");
    assert!(!ran.err.contains("panicked") && !ran.err.contains("os error"), "{ran:?}");
    assert_eq!(folder.names(), before, "nothing is left behind");
}

#[test]
fn standard_input_and_pipes() {
    let folder = folder();
    let text = job("13_shutdown");
    let ran = folder.run_on(&["plan", "-"], &text);
    assert_eq!((ran.status, ran.out), (0, folder.read("its plan.txt")));
    assert!(ran.err.starts_with("<stdin>: the plan costs 2,505 "), "{}", ran.err);
    let ran = folder.run_on(&["plan", "-"], &text[..20]);
    assert!(ran.err.starts_with("<stdin>:3: "), "{}", ran.err);
    let ran = folder.shell(r#""$juzvarola" plan 'a job.txt' 2>/dev/null | "$juzvarola" judge 'a job.txt' -"#);
    assert_eq!(ran.status, 0);
    assert!(ran.out.starts_with("<stdin>: every part's life is kept"), "{}", ran.out);
    let ran = folder.shell(r#""$juzvarola" judge - 'its plan.txt' < 'a job.txt'"#);
    assert_eq!(ran.status, 0);
    let ran = folder.shell(r#""$juzvarola" draw 'a job.txt' 'its plan.txt' -o - 2>/dev/null | head -c 5"#);
    assert_eq!(ran.out, "<?xml");
}

#[test]
fn inputs_that_are_not_there() {
    let folder = folder();
    let before = folder.names();
    fs::create_dir(folder.0.join("a folder")).expect("a folder");
    let with_folder = folder.names();
    for command in [&["plan", "none"][..], &["judge", "none", "its plan.txt"], &["judge", "a job.txt", "none"], &["count", "none"]] {
        let ran = folder.run(command);
        failed(&folder, &with_folder, &ran, 66, "none can't be read: No such file or directory");
        assert_eq!(ran.out, "");
    }
    for command in [
        &["list", "a job.txt", "none"][..],
        &["compare", "a job.txt", "its plan.txt", "none"],
        &["draw", "a job.txt", "none", "-o", "x.svg"],
    ] {
        failed(&folder, &with_folder, &folder.run(command), 66, "none can't be read");
    }
    failed(&folder, &with_folder, &folder.run(&["plan", "a folder"]), 66, "a folder is a folder, not a file");
    failed(&folder, &with_folder, &folder.run(&["judge", "a job.txt", "a folder"]), 66, "a folder is a folder, not a file");
    failed(&folder, &with_folder, &folder.run(&["plan", "a job.txt/x"]), 66, "a job.txt/x can't be read");
    assert_ne!(before, with_folder);
}

#[test]
fn outputs_that_cannot_be_written() {
    let folder = folder();
    fs::create_dir(folder.0.join("a folder.svg")).expect("a folder");
    let before = folder.names();
    let full = "No space left on device";
    failed(&folder, &before, &folder.run(&["plan", "a job.txt", "-o", "/dev/full"]), 74, full);
    failed(&folder, &before, &folder.run(&["draw", "a job.txt", "its plan.txt", "-o", "/dev/full"]), 74, full);
    for words in [
        "plan 'a job.txt'",
        "list 'a job.txt' 'its plan.txt'",
        "count 'a job.txt'",
        "--help",
        "compare 'a job.txt' 'its plan.txt' /dev/null",
    ] {
        failed(&folder, &before, &folder.shell(&format!("\"$juzvarola\" {words} > /dev/full")), 74, full);
        failed(&folder, &before, &folder.shell(&format!("\"$juzvarola\" {words} >&-")), 74, "standard output is closed");
    }
    failed(&folder, &before, &folder.run(&["draw", "a job.txt", "its plan.txt", "-o", "a folder.svg"]), 73, "is a folder, not a file");
    let ran = folder.shell("\"$juzvarola\" draw 'a job.txt' 'its plan.txt' -o /dev/null >&-");
    assert!(ran.status == 0 && ran.err.contains("every part's life is kept"), "the verdict goes where somebody hears: {ran:?}");
    failed(&folder, &before, &folder.run(&["plan", "a job.txt", "-o", "."]), 73, ". is a folder");
    failed(&folder, &before, &folder.run(&["plan", "a job.txt", "-o", "no such/plan"]), 73, "can't be made: No such file");
    failed(&folder, &before, &folder.run(&["plan", "a job.txt", "-o", "a job.txt/plan"]), 73, "can't be made: Not a directory");
    failed(&folder, &before, &folder.run(&["plan", "a job.txt", "-o", ""]), 73, "can't be made");
}

/// What can be known beforehand is said before the walks: these take minutes.
#[test]
fn outputs_are_looked_at_before_a_long_walk() {
    let folder = folder();
    folder.write("long.txt", &hard());
    let before = folder.names();
    failed(&folder, &before, &folder.run(&["plan", "long.txt", "-o", "no such/plan"]), 73, "can't be made: No such file");
    failed(&folder, &before, &folder.run(&["plan", "long.txt", "-o", "long.txt/plan"]), 73, "can't be made: Not a directory");
    failed(&folder, &before, &folder.shell("\"$juzvarola\" plan long.txt >&-"), 74, "standard output is closed");
}

/// A temporary name that is taken is left alone.
#[test]
fn temporary_names_that_are_taken() {
    let folder = folder();
    let line = "for number in 0 1 2; do echo mine > .juzvarola.$$.$number.tmp; done; exec \"$juzvarola\" plan 'a job.txt' -o new";
    let ran = folder.shell(line);
    assert_eq!(ran.status, 0, "{ran:?}");
    let taken: Vec<String> = folder.names().into_iter().filter(|name| name.starts_with(".juzvarola")).collect();
    assert!(taken.len() == 3 && taken.iter().all(|name| folder.read(name) == "mine\n"), "{taken:?}");
    assert_eq!(folder.read("new"), folder.read("its plan.txt"));
}

#[test]
fn a_reader_that_goes_away() {
    let folder = folder();
    let before = folder.names();
    for words in [&["plan", "-"][..], &["list", "-", "its plan.txt"], &["draw", "-", "its plan.txt", "-o", "-"], &["count", "-"]] {
        let ran = folder.run_unread(words, &job("13_shutdown"));
        failed(&folder, &before, &ran, 74, "standard output can't be written: Broken pipe");
    }
}

#[test]
fn a_disk_that_fills_up_leaves_the_old_file() {
    let folder = folder();
    folder.write("old.svg", b"the old picture");
    let before = folder.names();
    let line = r#"trap '' XFSZ; ulimit -f 2; exec "$juzvarola" draw 'a job.txt' 'its plan.txt' -o"#;
    failed(&folder, &before, &folder.shell(&format!("{line} new.svg")), 74, "new.svg can't be written: File too large");
    failed(&folder, &before, &folder.shell(&format!("{line} old.svg")), 74, "old.svg can't be written: File too large");
    assert_eq!(folder.read("old.svg"), "the old picture");
}

#[test]
fn outputs_replace_files_whole() {
    let folder = folder();
    let before = folder.names();
    let plan = folder.read("its plan.txt");
    folder.write("its plan.txt", &[b'x'; 100_000]);
    fs::set_permissions(folder.0.join("its plan.txt"), fs::Permissions::from_mode(0o640)).expect("permissions");
    assert_eq!(folder.run(&["plan", "a job.txt", "-o", "its plan.txt"]).status, 0);
    assert_eq!((folder.read("its plan.txt"), folder.names()), (plan.clone(), before));
    let mode = fs::metadata(folder.0.join("its plan.txt")).expect("the plan").permissions().mode();
    assert_eq!(mode & 0o777, 0o640, "its permissions stay");
    symlink("its plan.txt", folder.0.join("link")).expect("a link");
    symlink("not there yet", folder.0.join("other link")).expect("a link");
    folder.write("its plan.txt", b"old");
    for link in ["link", "other link"] {
        assert_eq!(folder.run(&["plan", "a job.txt", "-o", link]).status, 0);
        assert!(fs::symlink_metadata(folder.0.join(link)).expect("the link").is_symlink(), "a link stays one");
    }
    assert_eq!((folder.read("its plan.txt"), folder.read("not there yet")), (plan.clone(), plan));
}

#[test]
fn an_input_is_not_written_over() {
    let folder = folder();
    let (before, text) = (folder.names(), folder.read("a job.txt"));
    failed(
        &folder,
        &before,
        &folder.run(&["plan", "a job.txt", "-o", "./a job.txt"]),
        64,
        "would be written over a job.txt, which is read",
    );
    folder.write("plan.svg", folder.read("its plan.txt").as_bytes());
    let before = folder.names();
    failed(&folder, &before, &folder.run(&["draw", "a job.txt", "plan.svg", "-o", "plan.svg"]), 64, "would be written over plan.svg");
    assert_eq!(folder.read("a job.txt"), text);
}

#[test]
fn a_faulty_job_makes_no_file() {
    let folder = folder();
    folder.write("bad.txt", b"horizon=6\n");
    let before = folder.names();
    failed(&folder, &before, &folder.run(&["plan", "bad.txt", "-o", "plan"]), 2, "bad.txt:2: the text ends");
    failed(&folder, &before, &folder.run(&["draw", "bad.txt", "its plan.txt", "-o", "x.html"]), 2, "bad.txt:2: the text ends");
}

#[test]
fn huge_inputs() {
    let folder = folder();
    fs::File::create(folder.0.join("huge")).and_then(|file| file.set_len(8 << 30)).expect("a huge file");
    let before = folder.names();
    let (words, of_plan) = ("the text has over 40,960 bytes (1)", "the text has over 32,768 bytes (1)");
    failed(&folder, &before, &folder.run(&["plan", "huge"]), 2, &format!("huge: {words}"));
    failed(&folder, &before, &folder.run(&["judge", "a job.txt", "huge"]), 2, &format!("huge: {of_plan}"));
    failed(&folder, &before, &folder.run(&["count", "/dev/zero"]), 2, &format!("/dev/zero: {words}"));
    failed(&folder, &before, &folder.run_on(&["plan", "-"], &vec![b'x'; 3 << 20]), 2, &format!("<stdin>: {words}"));
}

#[test]
fn odd_names() {
    let folder = folder();
    for name in ["with  two spaces", "-dash", "quote'\"<&>.txt", "\u{e4}\u{f6}.txt", "line\nfeed"] {
        folder.write(name, folder.read("a job.txt").as_bytes());
        let ran = folder.run(&["plan", "-o", "--", "--", name]);
        assert_eq!((ran.status, ran.out.as_str()), (0, ""), "{}", ran.err);
        assert_eq!(ran.err.lines().count(), 1, "one line whatever the name: {}", ran.err);
    }
}
