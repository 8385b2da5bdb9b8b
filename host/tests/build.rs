//! The build can't lie: what rests on an older source is made anew, and a program that is linked with a library of another version says so and makes no call.
#![cfg(feature = "library")]

mod common;
use common::tool::Folder;
use juzvarola_host::{check_version, version, VERSION};
use std::path::Path;
use std::process::{Command, Output};

/// This folder.
fn host() -> &'static Path {
    Path::new(env!("CARGO_MANIFEST_DIR"))
}

/// Runs a command in this folder.
fn run(command: &mut Command) -> Output {
    command.current_dir(host()).output().expect("the command runs")
}

#[test]
fn one_version_stands_everywhere() {
    let header = std::fs::read_to_string(host().join("../include/juzvarola.h")).expect("the header");
    let macros = ["MAJOR", "MINOR", "PATCH"].map(|part| {
        let line = format!("#define JUZVAROLA_VERSION_{part} ");
        header.lines().find_map(|own| own.strip_prefix(&line)?.parse::<u32>().ok()).unwrap_or_else(|| panic!("{line}"))
    });
    assert_eq!(format!("{}.{}.{}", macros[0], macros[1], macros[2]), env!("CARGO_PKG_VERSION"));
    assert_eq!(macros[0] * 1_000_000 + macros[1] * 1000 + macros[2], VERSION);
    assert_eq!((version(), check_version()), (VERSION, Ok(())), "the library's own, by its promise");
}

/// "No memory is allocated": of the C library the calls need three functions that move bytes, and nothing else.
#[test]
fn nothing_is_allocated() {
    let nm = |word: &str| {
        let listed = run(Command::new("nm").args([word, "--format=posix", "../target/staticlib/libjuzvarola.a"]));
        let text = String::from_utf8(listed.stdout).expect("text");
        text.lines().filter_map(|line| line.split_once(' ')).map(|(name, rest)| (name.to_string(), rest.to_string())).collect::<Vec<_>>()
    };
    let needed: Vec<String> = nm("--undefined-only").into_iter().map(|(name, _)| name).collect();
    assert_eq!(needed, ["memcpy", "memmove", "memset"]);
    // And nothing is kept: no byte of the library can be written.
    let kinds = nm("--defined-only").into_iter().filter_map(|(_, rest)| rest.chars().next());
    let writable: Vec<char> = kinds.filter(|kind| "BbDdCcGgSs".contains(*kind)).collect();
    assert!(writable.is_empty(), "{writable:?}");
}

/// Every file under crates/, but for what rt keeps in each crate's out/, and crates.txt, is something that library and programs are made from.
#[test]
fn every_source_is_made_from() {
    let printed = run(Command::new("make").args(["-pnq", "library"]));
    let rules = String::from_utf8(printed.stdout).expect("text");
    for target in ["../target/staticlib/libjuzvarola.a", "../target/bin/planner"] {
        let rule = rules.lines().find(|line| line.starts_with(&format!("{target}:"))).unwrap_or_else(|| panic!("a rule for {target}"));
        let sources: std::collections::HashSet<&str> = rule.split_whitespace().collect();
        let mut folders = vec![Path::new("../crates").to_path_buf()];
        let mut files = vec!["../crates.txt".to_string()];
        while let Some(folder) = folders.pop() {
            for entry in std::fs::read_dir(host().join(&folder)).expect("a folder").flatten() {
                let path = folder.join(entry.file_name());
                match entry.path().is_dir() {
                    true if entry.file_name() == "out" => (),
                    true => folders.push(path),
                    false => files.push(path.to_string_lossy().into_owned()),
                }
            }
        }
        let missing: Vec<&String> = files.iter().filter(|file| !sources.contains(file.as_str())).collect();
        assert!(files.len() > 500 && missing.is_empty(), "{target} does not rest on {missing:?}");
    }
}

/// One line a crate, all that the prover says in a file, which is named where something fails. A stand-in for rt says what rt says, and puts the library where rt puts it.
#[test]
fn the_build_is_quiet() {
    let folder = Folder::new();
    let root = folder.0.join("root");
    std::fs::create_dir_all(root.join("host")).expect("a folder");
    std::fs::create_dir_all(root.join("crates/juzvarola/out")).expect("a folder");
    std::fs::copy(host().join("prove.sh"), root.join("host/prove.sh")).expect("the script");
    std::fs::write(root.join("crates.txt"), "# none\nlines:\nmodel: lines\njuzvarola staticlib: model lines\nother: lines\n")
        .expect("the crates");
    let stand_in = "#!/bin/sh\n[ $1 = lib ] && [ -d out ] || exit 2\necho fn model::read: proved\necho long words of the prover\n\
         echo 'library lines: modules loaded=9 checked=0'\necho 'crate model: modules loaded=3 checked=31'\necho 'logic=proved functions=4 sum=0'\n\
         echo 'crate juzvarola: modules loaded=0 checked=9'\n[ -e ../../../fail ] && { echo logic=not-proved; exit 1; }\n\
         echo 'logic=proved functions=1 sum=0'\necho made > out/libjuzvarola.a\n";
    std::fs::write(folder.0.join("rt"), stand_in).expect("a stand-in");
    let prove = |words: &str| folder.shell(&format!("chmod +x rt; RT=\"$PWD/rt\" ./root/host/prove.sh {words}"));
    // How long a crate took is left out.
    let untimed = |said: &str| said.lines().map(|line| format!("{}\n", line.split(", ").next().unwrap_or_default())).collect::<String>();
    let ran = prove("juzvarola");
    assert!(ran.out.starts_with("1 of 3: model, ") && ran.out.contains(" s\n2 of 3: juzvarola, "), "{ran:?}");
    let lines = "1 of 3: model\n2 of 3: juzvarola\n1 of 3 unchanged\n3 crates proved: target/staticlib/libjuzvarola.a\n";
    assert_eq!((ran.status, untimed(&ran.out).as_str(), ran.err.as_str()), (0, lines, ""));
    assert!(folder.read("root/target/log/make.log").contains("long words of the prover\n"));
    assert_eq!(folder.read("root/target/staticlib/libjuzvarola.a"), "made\n");
    folder.write("fail", b"");
    let ran = prove("juzvarola");
    assert_eq!((ran.status, untimed(&ran.out).as_str()), (1, "1 of 3: model\njuzvarola NOT PROVED\n"));
    assert_eq!(ran.err, "What the prover said is in target/log/make.log\n");
}

/// The order form as a struct: the header's own function, compiled as C and as C++ with every warning an error.
#[test]
fn forms_from_c_and_from_cpp() {
    let folder = Folder::new();
    let archive = host().join("../target/staticlib/libjuzvarola.a");
    for compiler in ["cc -x c -std=c11 -pedantic", "c++ -x c++ -std=c++17"] {
        let words = format!(
            "{compiler} -O2 -Wall -Wextra -Werror -I'{}' -o form '{}' -x none '{}' && ./form",
            host().join("../include").display(),
            host().join("tests/form.c").display(),
            archive.display()
        );
        let ran = folder.shell(&words);
        assert_eq!((ran.status, ran.out.as_str()), (0, "ok\n"), "{compiler}: {ran:?}");
    }
}

/// A program that is built against a library of another version refuses to work.
#[test]
fn another_version_is_refused() {
    let folder = Folder::new();
    let header = std::fs::read_to_string(host().join("../include/juzvarola.h")).expect("the header");
    let declared = |line: &str| Some(line.split_once('(')?.0.rsplit(' ').next()?.to_string()).filter(|name| name.starts_with("juzvarola_"));
    let calls: Vec<String> = header.lines().filter(|line| !line.starts_with([' ', '/', '#'])).filter_map(declared).collect();
    assert!(calls.len() >= 5 && calls.contains(&"juzvarola_version".to_string()), "{calls:?}");
    let stubs = calls.iter().filter(|name| *name != "juzvarola_version").map(|name| format!("void {name}(void) {{}}\n"));
    folder.write("stub.c", format!("unsigned juzvarola_version(void) {{ return 7000; }}\n{}", stubs.collect::<String>()).as_bytes());
    let made = folder.shell("cc -c stub.c && ar rc libjuzvarola.a stub.o");
    assert_eq!(made.status, 0, "{made:?}");
    let built = run(Command::new(env!("CARGO"))
        .args(["build", "--quiet", "--bin", "juzvarola", "--target-dir", "target/other-version", "--config", "profile.dev.opt-level=0"])
        .env("JUZVAROLA_LIBRARY_DIR", &folder.0));
    assert!(built.status.success(), "{}", String::from_utf8_lossy(&built.stderr));
    let ran = run(Command::new(host().join("target/other-version/debug/juzvarola")).args(["plan", "../jobs/00_example.txt"]));
    let words =
        format!("juzvarola: the library libjuzvarola is version 0.7.0, and this program is made for {}\n", env!("CARGO_PKG_VERSION"));
    assert_eq!((ran.status.code(), String::from_utf8_lossy(&ran.stderr).into_owned(), ran.stdout.len()), (Some(70), words, 0));
}
