// Links the proved library, where the feature `library` is on; refuses one that is older than what it is proved from.
use std::path::{Path, PathBuf};
use std::time::SystemTime;
use std::{env, fs, process};

const ARCHIVE: &str = "libjuzvarola.a";

fn main() {
    println!("cargo:rerun-if-changed=build.rs");
    println!("cargo:rerun-if-env-changed=JUZVAROLA_LIBRARY_DIR");
    if env::var_os("CARGO_FEATURE_LIBRARY").is_none() {
        return;
    }
    let folder = match env::var_os("JUZVAROLA_LIBRARY_DIR") {
        Some(folder) => PathBuf::from(folder),
        None => own_library(),
    };
    println!("cargo:rerun-if-changed={}", folder.join(ARCHIVE).display());
    println!("cargo:rustc-link-search=native={}", folder.display());
    println!("cargo:rustc-link-lib=static=juzvarola");
}

/// The folder of this repository's own library, which must be there and be no older than any file under `crates/`, but for what `rt` keeps in each crate's `out/`.
fn own_library() -> PathBuf {
    let host = env::var("CARGO_MANIFEST_DIR").expect("cargo names the crate's folder");
    let root = Path::new(&host).join("..");
    let folder = root.join("target/staticlib");
    let archive = folder.join(ARCHIVE);
    let mut sources: Vec<PathBuf> = entries(&root.join("crates")).iter().flat_map(|own| entries(own)).collect();
    sources.push(root.join("crates.txt"));
    sources.iter().for_each(|source| println!("cargo:rerun-if-changed={}", source.display()));
    let Some(made) = time_of(&archive) else {
        refuse(&format!("The static library is missing: {}", archive.display()));
    };
    if let Some(newer) = sources.iter().find_map(|source| newer_than(source, made)) {
        refuse(&format!("{} is newer than the static library {}", newer.display(), archive.display()));
    }
    folder
}

/// When a file was last written.
fn time_of(path: &Path) -> Option<SystemTime> {
    fs::metadata(path).and_then(|found| found.modified()).ok()
}

/// What stands in a folder, but for a folder `out`.
fn entries(folder: &Path) -> Vec<PathBuf> {
    let found = fs::read_dir(folder).into_iter().flatten().flatten();
    found.map(|entry| entry.path()).filter(|path| !path.ends_with("out")).collect()
}

/// A file here or within that was written after this time.
fn newer_than(path: &Path, time: SystemTime) -> Option<PathBuf> {
    match path.is_dir() {
        true => entries(path).iter().find_map(|entry| newer_than(entry, time)),
        false => time_of(path).filter(|own| *own > time).map(|_| path.to_path_buf()),
    }
}

fn refuse(why: &str) -> ! {
    eprintln!("{why}");
    eprintln!("Make it with `make library` in this folder (it proves what has changed),");
    eprintln!("or leave it out: `cargo test --no-default-features` tests the reference alone.");
    process::exit(1);
}
