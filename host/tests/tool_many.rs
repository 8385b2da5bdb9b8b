//! `plan` of many jobs into one folder: a plan for each, a line a job, a summary, what is done already left alone, faults that stop nobody; and over
//! several machines, as the man page has it.
#![cfg(feature = "library")]

mod common;
use common::jobs;
use common::json::{read, Json};
use common::paper::{altered, text, JOB};
use common::tool::{plain, Folder};

#[test]
fn every_job_gets_its_plan() {
    let folder = Folder::new();
    std::fs::create_dir(folder.0.join("jobs")).expect("a folder");
    let rows = jobs::up_to(20_000);
    for row in &rows {
        folder.write(&format!("jobs/{}.txt", row.name), &row.text);
    }
    let ran = folder.shell("\"$juzvarola\" plan jobs/*.txt --into 'the plans' -j 4 --summary all.csv");
    assert_eq!((ran.status, ran.out.as_str()), (0, ""), "{ran:?}");
    assert_eq!(ran.err.lines().count(), rows.len() + 1);
    assert!(ran.err.ends_with(&format!("{} of {} jobs planned\n", rows.len(), rows.len())), "{ran:?}");
    let summary = folder.read("all.csv");
    assert_eq!(summary.lines().next(), Some("job,plan,status,result,cost,floor,nodes,milliseconds"));
    for row in &rows {
        assert!(
            plain(&ran.err)
                .contains(&format!("jobs/{}.txt: a plan that costs {}; the cheapest possible (proved) (0, ", row.name, row.cost)),
            "{}",
            ran.err
        );
        let line = format!("jobs/{}.txt,the plans/{}.txt,0,0,{},,,", row.name, row.name, row.cost);
        assert!(summary.contains(&line), "{line}\n{summary}");
        assert_eq!(folder.run(&["judge", &format!("jobs/{}.txt", row.name), &format!("the plans/{}.txt", row.name)]).status, 0);
    }
}

#[test]
fn nodes_are_counted_where_that_is_asked_for() {
    let folder = Folder::new();
    let rows = jobs::up_to(20_000);
    for row in &rows {
        folder.write(&row.name, &row.text);
    }
    let ran = folder.shell("\"$juzvarola\" plan * --into plans --count-nodes -j 4 --summary all.csv");
    assert_eq!((ran.status, ran.out.as_str()), (0, ""), "{ran:?}");
    let summary = folder.read("all.csv");
    for row in &rows {
        let line = format!("\n{},plans/{},0,0,{},{},{},", row.name, row.name, row.cost, row.floor, row.nodes);
        assert!(summary.contains(&line), "{line}\n{summary}");
    }
}

#[test]
fn what_is_done_is_left_alone_and_faults_stop_nobody() {
    let folder = Folder::new();
    folder.write("a", &text(JOB));
    folder.write("b", &text(&altered("left=2", "left=4")));
    folder.write("c", &text(&altered("left=2", "left=1")));
    folder.write("d", &text(JOB));
    std::fs::create_dir(folder.0.join("plans")).expect("a folder");
    // One that the judge accepts, though it is not the cheapest; one that it does not.
    folder.write("plans/a", &text("cost=44 stops=2 stop=2 count=2 part=1 part=2 stop=5 count=2 part=1 part=2"));
    folder.write("plans/d", &text("cost=1 stops=0"));
    let ran = folder.run(&["plan", "a", "b", "c", "d", "not there", "--into", "plans"]);
    assert_eq!((ran.status, ran.out.as_str()), (66, ""), "{ran:?}");
    for words in [
        "a: plans/a is a plan of it that costs 44, and is left alone\n",
        "b:14: left is greater than life (5)\n    left=4\n",
        "c: no plan keeps the lives (6, ",
        "d: a plan that costs 37; the cheapest possible (proved) (0, ",
        "not there can't be read",
        "\n2 of 5 jobs planned\n",
    ] {
        assert!(ran.err.contains(words), "{words:?} {}", ran.err);
    }
    assert!(folder.read("plans/a").starts_with("cost=44\n") && folder.read("plans/d").starts_with("cost=37\n"));
    assert_eq!(folder.run(&["plan", "a", "c", "--into", "plans"]).status, 1);
    assert_eq!(folder.run(&["plan", "a", "d", "--into", "new", "--walk", "8"]).status, 3);
}

#[test]
fn words_and_json() {
    let folder = Folder::new();
    folder.write("a", &text(JOB));
    std::fs::create_dir(folder.0.join("other")).expect("a folder");
    folder.write("other/a", &text(JOB));
    for (words, said) in [
        (&["plan", "a", "other/a", "--into", "x"][..], "two jobs are called a, and their plans would be"),
        (&["plan", "a", "--into", "."], "would be written over"),
        (&["plan", "a", "other/a"], "plan takes one file, not 2"),
        (&["plan", "a", "-j", "2"], "-j and --summary are for many jobs, and need --into FOLDER"),
        (&["plan", "a", "--into", "x", "-o", "y"], "--into says where the plans go, and -o is for one plan"),
        (&["plan", "a", "--into", "x", "-j0"], "-j takes how many at a time, from 1 to 256, not '0'"),
        (&["plan", "--into", "x"], "plan takes one file or more, not 0"),
    ] {
        let ran = folder.run(words);
        assert_eq!((ran.status, ran.out.as_str()), (64, ""), "{ran:?}");
        assert!(ran.err.contains(said), "{ran:?}");
    }
    let ran = folder.run(&["plan", "a", "--into", "plans", "-j2", "--json"]);
    let json = read(&ran.out);
    assert_eq!((ran.status, ran.err.as_str(), json.at("jobs").list().len()), (0, "", 1));
    let own = &json.at("jobs").list()[0];
    assert_eq!((own.at("cost").number(), own.at("plan").text(), own.at("nodes")), (37, "plans/a", &Json::Null));
}

/// In place of ssh: each machine is a folder, which is its home.
const SSH: &str = "\
#!/bin/sh
while [ $# -gt 0 ]; do case $1 in -l | -p | -o) shift 2 ;; -*) shift ;; *) break ;; esac; done
HOME=$machines/$1; export HOME; shift
[ \"$1\" != -- ] || shift
mkdir -p \"$HOME\"; cd \"$HOME\"; echo \"$*\" >> said
exec sh -c \"$*\"
";

/// The recipe of the man page that begins with this word, as it is printed.
fn recipe(word: &str) -> String {
    let page = include_str!("../man/juzvarola.1");
    let blocks = page.split(".nf\n").skip(1).filter_map(|block| block.split(".fi\n").next());
    let own = blocks.filter(|block| block.starts_with(word)).collect::<Vec<_>>();
    assert_eq!(own.len(), 1, "one recipe");
    own[0].replace("\\-", "-").replace("\\e", "\\")
}

#[test]
fn many_machines_plan_by_the_man_pages_recipe() {
    let folder = Folder::new();
    if folder.shell("command -v parallel rsync").out.lines().count() < 2 {
        println!("left out: parallel and rsync (Debian: parallel, rsync) are not installed");
        return;
    }
    for name in ["jobs", "bin", "home", "home/.parallel", "machines"] {
        std::fs::create_dir(folder.0.join(name)).expect("a folder");
    }
    folder.write("home/.parallel/will-cite", b"");
    folder.write("bin/ssh", SSH.as_bytes());
    let rows = jobs::up_to(20_000);
    for row in &rows {
        folder.write(&format!("jobs/{}.txt", row.name), &row.text);
    }
    folder.write("jobs/bad.txt", &text(&altered("left=2", "left=4")));
    let begin = "ln -s \"$juzvarola\" bin/juzvarola; chmod +x bin/ssh; export PATH=\"$PWD/bin:$PATH\" HOME=\"$PWD/home\" machines=\"$PWD/machines\"; set -e\n";
    let lines = recipe("parallel");
    let (plan, table) = lines.split_at(lines.find("awk").expect("two commands"));
    let ran = folder.shell(&format!("{begin}{plan}"));
    assert_eq!((ran.status, ran.out.as_str()), (1, ""), "one job is at fault: {ran:?}");
    assert!(ran.err.contains("jobs/bad.txt:14: left is greater than life (5)"), "{ran:?}");
    assert_eq!(folder.shell(table).status, 0);
    let summary = folder.read("plans.csv");
    assert_eq!(summary.lines().count(), rows.len() + 2, "{summary}");
    assert!(summary.contains("\njobs/bad.txt,,2,5,,,,"), "{summary}");
    for row in &rows {
        assert!(summary.contains(&format!("\njobs/{0}.txt,plans/{0}.txt,0,0,{1},,,", row.name, row.cost)), "{summary}");
        assert_eq!(folder.run(&["judge", &format!("jobs/{}.txt", row.name), &format!("plans/{}.txt", row.name)]).status, 0);
    }
    for machine in ["one", "two"] {
        assert!(folder.read(&format!("machines/{machine}/said")).contains("rsync --server"), "both plan");
        let left = folder.shell(&format!("find machines/{machine} -name '*.txt'"));
        assert_eq!(left.out, "", "nothing is left there");
    }
}
