//! The vectors of `vectors/`; its `README.md` has the format.

use super::{inputs, walk_of, Call};
use juzvarola_checks::reference::Reply;
use std::path::{Path, PathBuf};

pub struct Vector {
    pub call: Call,
    pub result: u32,
    pub line: u32,
    pub bytes: Vec<u8>,
    pub fault: Vec<u8>,
}

impl Vector {
    /// The number of the text at fault, from the line `text` of the expected bytes; 0 if there is none.
    pub fn text(&self) -> u32 {
        let lines = std::str::from_utf8(&self.bytes).expect("answers are ASCII").lines();
        lines.filter_map(|line| line.strip_prefix("text=")).map(|value| value.parse().expect("a number")).next().unwrap_or(0)
    }

    /// The call's second text, the plan or the log; empty where there is none.
    pub fn second(&self) -> &[u8] {
        self.call.plan.as_deref().unwrap_or_default()
    }

    /// Whether this is the reply that the vector expects, or where they differ.
    pub fn is_given_by(&self, reply: Reply) -> Result<(), String> {
        let (own, text) = (self.reply(), if reply.text == 2 { self.second() } else { &self.call.job });
        match reply == own && text[reply.fault_start..][..reply.fault_length] == self.fault {
            true => Ok(()),
            false => Err(format!("{reply:?}\nnot {own:?}\n{:?}", self.call)),
        }
    }

    /// What the vector expects, as a reply.
    pub fn reply(&self) -> Reply {
        let text: &[u8] = if self.text() == 2 { self.second() } else { &self.call.job };
        Reply {
            result: self.result,
            text: self.text(),
            line: self.line,
            bytes: self.bytes.clone(),
            fault_start: if self.line == 0 { 0 } else { start_of(text, self.line) },
            fault_length: self.fault.len(),
        }
    }
}

/// Where the line with this number starts; 0 if it is missing.
fn start_of(text: &[u8], line: u32) -> usize {
    let before = text.split_inclusive(|byte| *byte == 10).take(line as usize - 1).map(<[u8]>::len).sum();
    if before < text.len() {
        before
    } else {
        0
    }
}

pub fn hex(field: &str) -> Vec<u8> {
    if field == "-" {
        return Vec::new();
    }
    assert!(field.len().is_multiple_of(2), "half a byte");
    (0..field.len()).step_by(2).map(|at| u8::from_str_radix(&field[at..at + 2], 16).expect("hex")).collect()
}

/// The value of a field `name=value`.
pub fn field<'l>(line: &'l str, name: &str) -> &'l str {
    let found = line.split(' ').find_map(|field| field.strip_prefix(name)?.strip_prefix('='));
    found.unwrap_or_else(|| panic!("a vector has no {name}"))
}

/// A vector whose fields have names, or one whose fields stand in order.
fn vector(line: &str) -> Vector {
    let fields: Vec<&str> = line.split(' ').collect();
    let judge = match fields[0] {
        "plan" | "hall" => false,
        "judge" | "latest" | "carry" => true,
        other => panic!("no call: {other}"),
    };
    let (names, places) = (["out", "result", "line", "job", "plan", "written", "fault"], [1, 2, 3, 4, 5, 6, 7]);
    let named = fields[1].starts_with("out=");
    let plan = |name: &str| named && name == "plan" && !judge;
    let [output, result, at, job, plan, bytes, fault] = std::array::from_fn(|n| match named {
        _ if plan(names[n]) => "-",
        true => field(line, names[n]),
        false => fields[places[n]],
    });
    let number = |value: &str| value.parse::<u32>().expect("a number");
    // A call of before the walk number came with it is made with the number of the text's walk line.
    let own = fields.iter().find_map(|field| field.strip_prefix("walk="));
    let walk = own.map_or_else(|| walk_of(&hex(job)), |walk| walk.parse().expect("a number"));
    Vector {
        call: Call { job: hex(job), plan: judge.then(|| hex(plan)), walk, output: number(output) as usize },
        result: number(result),
        line: number(at),
        bytes: hex(bytes),
        fault: hex(fault),
    }
}

fn hex_of(bytes: &[u8]) -> String {
    if bytes.is_empty() {
        return "-".to_string();
    }
    bytes.iter().map(|byte| format!("{byte:02x}")).collect()
}

/// The line of a call with the reference's reply.
pub fn line(call: &Call, reply: &Reply) -> String {
    let plan = call.plan.as_deref().unwrap_or_default();
    let at_fault = if reply.text == 2 { plan } else { &call.job };
    let fault = &at_fault[reply.fault_start..][..reply.fault_length];
    let texts = [&call.job, plan, &reply.bytes, fault].map(hex_of).join(" ");
    let name = if call.plan.is_some() { "judge" } else { "plan" };
    format!("{name} {} {} {} {texts}\n", call.output, reply.result, reply.line)
}

/// That as many vectors were read as this folder has at least; of another file, which this variable names, one.
pub fn enough(vectors: usize, variable: &str, least: usize) {
    let least = if std::env::var_os(variable).is_some() { 1 } else { least };
    assert!(vectors >= least, "only {vectors} vectors");
}

/// That every vector is given as it says: each difference is printed. Of these there are at least so many, or those of another file, which the variable
/// names.
pub fn given<V>(vectors: &[V], (variable, least): (&str, usize), mut compare: impl FnMut(&V) -> Result<(), String>) {
    enough(vectors.len(), variable, least);
    let mut differ = 0;
    for (number, vector) in vectors.iter().enumerate() {
        if let Err(difference) = compare(vector) {
            println!("vector {}: {difference}", number + 1);
            differ += 1;
        }
    }
    println!("{} vectors, {differ} differ", vectors.len());
    assert_eq!(differ, 0);
}

/// Whether a call of before the walk number came with it was refused for want of the walk line: the text has none, and `openings` stood in its place.
fn wants_walk(job: &[u8], result: u32, fault: &[u8]) -> bool {
    result == 2 && fault.starts_with(b"openings=") && !job.split(|byte| *byte == b'\n').any(|line| line.starts_with(b"walk="))
}

/// Whether a call of before a job text could have 40,960 bytes was refused for its length, and is not any more.
fn was_too_long(job: &[u8], result: u32, text: u32) -> bool {
    result == 1 && text == 1 && job.len() <= 40_960
}

/// Whether a call of before `left` could be 0 was refused for that.
fn wants_left(result: u32, fault: &[u8]) -> bool {
    result == 3 && fault == b"left=0"
}

/// The vectors of the planner and the judge: of every file in `vectors/` that ends in `.txt`, other calls' aside. Without
/// holders only those that they leave alone.
pub fn all() -> Vec<Vector> {
    let files = match std::env::var("JUZVAROLA_VECTORS") {
        Ok(file) => vec![file.into()],
        Err(_) => kept(),
    };
    let read = |file: PathBuf| std::fs::read_to_string(file).expect("a file").lines().map(vector).collect::<Vec<_>>();
    let all = files.into_iter().flat_map(read).filter(|vector| !wants_walk(&vector.call.job, vector.result, &vector.fault));
    let all =
        all.filter(|vector| !was_too_long(&vector.call.job, vector.result, vector.text()) && !wants_left(vector.result, &vector.fault));
    all.filter(|vector| inputs::holders_on() || !vector.call.is_of_holders()).collect()
}

/// The files of `vectors/` with calls of the planner and the judge.
fn kept() -> Vec<PathBuf> {
    let folder = Path::new(env!("CARGO_MANIFEST_DIR")).join("vectors");
    let mut files: Vec<_> = std::fs::read_dir(folder).expect("the vectors").map(|entry| entry.expect("an entry").path()).collect();
    files.retain(|file| {
        let stem = file.file_stem().expect("a name").to_string_lossy();
        let other = ["write", "count", "latest", "carry", "hall"].iter().any(|call| stem.starts_with(call));
        file.extension().is_some_and(|extension| extension == "txt") && !other
    });
    files.sort();
    files
}

/// The vectors of the latest-time habit: `vectors/latest9.txt` and `vectors/latest11.txt`. Without holders only those that they leave alone.
pub fn latest() -> Vec<Vector> {
    let folder = Path::new(env!("CARGO_MANIFEST_DIR")).join("vectors");
    let files = match std::env::var("JUZVAROLA_LATEST_VECTORS") {
        Ok(file) => vec![file.into()],
        Err(_) => ["latest9.txt", "latest11.txt"].map(|file| folder.join(file)).to_vec(),
    };
    let read = |file: PathBuf| std::fs::read_to_string(file).expect("a file").lines().map(vector).collect::<Vec<_>>();
    let vectors = files.into_iter().flat_map(read).filter(|vector| !was_too_long(&vector.call.job, vector.result, vector.text()));
    let vectors = vectors.filter(|vector| !wants_left(vector.result, &vector.fault));
    vectors.filter(|vector| inputs::holders_on() || !vector.call.is_of_holders()).collect()
}

/// The vectors of carrying on: `vectors/carry12.txt`.
pub fn carries() -> Vec<Vector> {
    let kept = Path::new(env!("CARGO_MANIFEST_DIR")).join("vectors/carry12.txt");
    let file = std::env::var("JUZVAROLA_CARRY_VECTORS").map_or(kept, PathBuf::from);
    std::fs::read_to_string(file).expect("a file").lines().map(vector).collect()
}

/// The vectors of the hall planner: `vectors/hall14.txt`.
pub fn halls() -> Vec<Vector> {
    let kept = Path::new(env!("CARGO_MANIFEST_DIR")).join("vectors/hall14.txt");
    let file = std::env::var("JUZVAROLA_HALL_VECTORS").map_or(kept, PathBuf::from);
    std::fs::read_to_string(file).expect("a file").lines().map(vector).collect()
}

/// A vector of the count: a job, what it answers, and the line at fault.
pub struct CountVector {
    pub job: Vec<u8>,
    pub result: u32,
    pub text: u32,
    pub line: u32,
    pub count: u32,
    pub fault: Vec<u8>,
}

/// The vectors of the count: `vectors/count.txt`, and with holders `vectors/count7.txt`.
pub fn counts() -> Vec<CountVector> {
    let folder = Path::new(env!("CARGO_MANIFEST_DIR")).join("vectors");
    let kept = if inputs::holders_on() { &["count.txt", "count7.txt", "count14.txt"][..] } else { &["count.txt"] };
    let files: Vec<PathBuf> = match std::env::var("JUZVAROLA_COUNT_VECTORS") {
        Ok(file) => vec![file.into()],
        Err(_) => kept.iter().map(|file| folder.join(file)).collect(),
    };
    let vector = |line: &str| {
        let number = |name: &str| field(line, name).parse::<u32>().expect("a number");
        let (result, text, at, count) = (number("result"), number("text"), number("line"), number("count"));
        CountVector { job: hex(field(line, "job")), result, text, line: at, count, fault: hex(field(line, "fault")) }
    };
    let read = |file: PathBuf| std::fs::read_to_string(file).expect("a file").lines().map(vector).collect::<Vec<_>>();
    files
        .into_iter()
        .flat_map(read)
        .filter(|vector| {
            !wants_walk(&vector.job, vector.result, &vector.fault)
                && !was_too_long(&vector.job, vector.result, vector.text)
                && !wants_left(vector.result, &vector.fault)
        })
        .collect()
}
