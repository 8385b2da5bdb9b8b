//! The program `juzvarola`, run as a person runs it, in a folder of its own.

use std::fs;
use std::io::Write;
use std::path::{Path, PathBuf};
use std::process::{Command, Output, Stdio};
use std::sync::atomic::{AtomicU32, Ordering};

pub const PROGRAM: &str = env!("CARGO_BIN_EXE_juzvarola");

/// A folder that is gone after the test.
pub struct Folder(pub PathBuf);

/// What the program left: its exit status and what it wrote.
#[derive(Debug)]
pub struct Ran {
    pub status: i32,
    pub out: String,
    pub err: String,
}

impl Folder {
    /// A new folder, whose name has a space.
    pub fn new() -> Folder {
        static NUMBER: AtomicU32 = AtomicU32::new(0);
        let number = NUMBER.fetch_add(1, Ordering::Relaxed);
        let path = std::env::temp_dir().join(format!("juzvarola test {} {number}", std::process::id()));
        fs::create_dir(&path).expect("a folder for the test");
        Folder(path)
    }

    /// A file in it.
    pub fn write(&self, name: &str, bytes: &[u8]) {
        fs::write(self.0.join(name), bytes).expect("a file for the test");
    }

    /// What a file in it has.
    pub fn read(&self, name: &str) -> String {
        String::from_utf8(fs::read(self.0.join(name)).unwrap_or_else(|error| panic!("{name}: {error}"))).expect("text")
    }

    /// The names of all that is in it, in order.
    pub fn names(&self) -> Vec<String> {
        let entries = fs::read_dir(&self.0).expect("the test's folder");
        let mut names: Vec<String> = entries.map(|entry| entry.expect("an entry").file_name().to_string_lossy().into_owned()).collect();
        names.sort();
        names
    }

    /// Runs the program in it with these words.
    pub fn run(&self, words: &[&str]) -> Ran {
        ran(Command::new(PROGRAM).args(words).current_dir(&self.0).stdin(Stdio::null()).output().expect("the program runs"))
    }

    /// Runs it with this on standard input.
    pub fn run_on(&self, words: &[&str], input: &[u8]) -> Ran {
        let mut command = Command::new(PROGRAM);
        command.args(words).current_dir(&self.0).stdin(Stdio::piped()).stdout(Stdio::piped()).stderr(Stdio::piped());
        let mut child = command.spawn().expect("the program runs");
        // A program that has read enough may end before it was given all.
        let _ = child.stdin.take().expect("its input").write_all(input);
        ran(child.wait_with_output().expect("the program ends"))
    }

    /// Runs it with this on standard input, while nobody reads its output any more.
    pub fn run_unread(&self, words: &[&str], input: &[u8]) -> Ran {
        let mut command = Command::new(PROGRAM);
        command.args(words).current_dir(&self.0).stdin(Stdio::piped()).stdout(Stdio::piped()).stderr(Stdio::piped());
        let mut child = command.spawn().expect("the program runs");
        // It can't write before it has read.
        drop(child.stdout.take());
        let _ = child.stdin.take().expect("its input").write_all(input);
        ran(child.wait_with_output().expect("the program ends"))
    }

    /// Runs a line of shell in it, in which the program is "$juzvarola".
    pub fn shell(&self, line: &str) -> Ran {
        let mut command = Command::new("sh");
        command.args(["-c", line]).env("juzvarola", PROGRAM).current_dir(&self.0).stdin(Stdio::null());
        ran(command.output().expect("a shell runs"))
    }
}

impl Drop for Folder {
    fn drop(&mut self) {
        let _ = fs::remove_dir_all(&self.0);
    }
}

fn ran(output: Output) -> Ran {
    let text = |bytes: Vec<u8>| String::from_utf8(bytes).expect("the program writes text");
    Ran { status: output.status.code().unwrap_or(-1), out: text(output.stdout), err: text(output.stderr) }
}

/// A job of `jobs/`.
pub fn job(name: &str) -> Vec<u8> {
    fs::read(Path::new(env!("CARGO_MANIFEST_DIR")).join("../jobs").join(format!("{name}.txt"))).expect("a job of jobs/")
}

/// A job of `host/jobs/` whose cheapest plan is not found by any walk number: two filling heads of eight parts each, with hardly anything to pay together.
pub fn hard() -> Vec<u8> {
    fs::read(Path::new(env!("CARGO_MANIFEST_DIR")).join("jobs/heads16.txt")).expect("a job of host/jobs/")
}

/// A job of `host/jobs/`: a year of days.
pub fn year(parts: u32) -> Vec<u8> {
    fs::read(Path::new(env!("CARGO_MANIFEST_DIR")).join(format!("jobs/year{parts}.txt"))).expect("a job of host/jobs/")
}

/// A text without the commas between thousands.
pub fn plain(text: &str) -> String {
    let bytes = text.as_bytes();
    let digit = |at: usize| bytes.get(at).is_some_and(u8::is_ascii_digit);
    let comma = |at: usize| bytes[at] == b',' && at > 0 && digit(at - 1) && digit(at + 1);
    text.char_indices().filter(|(at, _)| !comma(*at)).map(|(_, letter)| letter).collect()
}

/// The first number after these words.
pub fn number_after(text: &str, words: &str) -> Option<u64> {
    let text = plain(text);
    let rest = &text[text.find(words)? + words.len()..];
    let digits: String = rest.chars().skip_while(|letter| !letter.is_ascii_digit()).take_while(char::is_ascii_digit).collect();
    digits.parse().ok()
}
