//! The proved programs `planner`, `optimum`, `hall` and `judge` with ends that are closed, full, slow, gone or no files, with inputs up to a limit and far
//! beyond it, stopped in the middle and ended by signals; `juzvarola` beside them where `tool_files` does not do it. A whole answer, or the answer to what
//! could be read; an exit status that is the promised one.
#![cfg(feature = "library")]

mod common;
use common::tool::{hard, job, Folder, PROGRAM};
use juzvarola_checks::reference;
use juzvarola_host::MOST_WALK;
use std::fs::{File, OpenOptions};
use std::io::{self, Read, Write};
use std::os::unix::process::ExitStatusExt;
use std::path::{Path, PathBuf};
use std::process::{Child, Command, Stdio};
use std::sync::mpsc;
use std::thread::{self, sleep};
use std::time::Duration;

const EMPTY_JOB: &str = "result=2\ntext=1\nline=1\n";
const TOO_LONG: &str = "result=1\ntext=1\nline=0\n";
const OUTPUT: usize = 16_384;

/// What a pipe takes before a writer waits; a smaller one only makes it wait sooner.
const PIPE: usize = 65_536;

/// A proved program, where it is built; a test without it says so and leaves it out.
fn program(name: &str) -> Option<PathBuf> {
    let path = Path::new(env!("CARGO_MANIFEST_DIR")).join("../target/bin").join(name);
    if !path.is_file() {
        eprintln!("left out: {name} is not built; `./prove.sh {name}` in this folder builds it");
    }
    path.is_file().then_some(path)
}

/// A hall of one line: its text is a job's behind two lines of its own.
fn hall_of(job: &[u8]) -> Vec<u8> {
    [b"machines=1\ncall=7\n", job].concat()
}

/// The job with the longest plan: 64 openings in a row, sixteen parts that last one step.
fn longest() -> Vec<u8> {
    let openings: String = (1..=64).map(|step| format!("opening={step}\nfee=1\n")).collect();
    let parts = format!("life=1\nleft=1\n{}", "price=1\n".repeat(64)).repeat(16);
    format!("horizon=64\nopenings=64\n{openings}parts=16\n{parts}").into_bytes()
}

/// A program that reads a text from standard input and answers it.
struct Reader {
    path: PathBuf,
    words: &'static [&'static str],
    /// The most bytes of its text.
    most: usize,
    /// Its text for a job.
    text: fn(&[u8]) -> Vec<u8>,
    /// What it writes for a text.
    answer: fn(&[u8]) -> Vec<u8>,
}

/// The answer of the planner.
fn planned(text: &[u8]) -> Vec<u8> {
    reference::plan(text, MOST_WALK, OUTPUT).bytes
}

/// What the program writes for a job without faults: the plan alone.
fn plan_alone(text: &[u8]) -> Vec<u8> {
    let answer = planned(text);
    let plan = answer.windows(5).position(|window| window == b"cost=").expect("a plan");
    answer[plan..].to_vec()
}

/// The answer of the optimum, which is short for these jobs: the planner's without its nodes and its floor.
fn best(text: &[u8]) -> Vec<u8> {
    let answer = planned(text);
    let lines = answer.split_inclusive(|byte| *byte == b'\n');
    lines.filter(|line| !line.starts_with(b"nodes=") && !line.starts_with(b"floor=")).flatten().copied().collect()
}

/// The answer of the hall planner.
fn hall_planned(text: &[u8]) -> Vec<u8> {
    reference::hall(text, MOST_WALK, OUTPUT).bytes
}

impl Reader {
    fn start(&self, input: Stdio, output: Stdio) -> Child {
        Command::new(&self.path).args(self.words).stdin(input).stdout(output).stderr(Stdio::null()).spawn().expect("the program runs")
    }
}

/// The proved programs that read standard input, as far as they are built.
fn proved_readers() -> Vec<Reader> {
    type Own = (&'static str, usize, fn(&[u8]) -> Vec<u8>, fn(&[u8]) -> Vec<u8>);
    let own: [Own; 3] =
        [("planner", 40_960, <[u8]>::to_vec, planned), ("optimum", 40_960, <[u8]>::to_vec, best), ("hall", 65_536, hall_of, hall_planned)];
    own.into_iter().filter_map(|(name, most, text, answer)| Some(Reader { path: program(name)?, words: &[], most, text, answer })).collect()
}

/// These and the tool.
fn readers() -> Vec<Reader> {
    let tool = Reader { path: PROGRAM.into(), words: &["plan", "-"], most: 40_960, text: <[u8]>::to_vec, answer: plan_alone };
    proved_readers().into_iter().chain([tool]).collect()
}

/// A folder with a job and its plan under the judge's names.
fn judged() -> Folder {
    let folder = Folder::new();
    folder.write("job.txt", &job("00_example"));
    folder.write("plan.txt", b"cost=37\nstops=2\nstop=2\ncount=1\npart=1\nstop=4\ncount=2\npart=1\npart=2\n");
    folder
}

/// Stops the process, waits until it is stopped (or has ended), and lets it go on.
fn interrupt(child: &Child) {
    let signal = |name: &str| {
        let sent = Command::new("kill").args([name, &child.id().to_string()]).status().expect("kill runs");
        assert!(sent.success(), "kill {name}");
    };
    let state = || std::fs::read_to_string(format!("/proc/{}/stat", child.id())).expect("the process is there");
    signal("-STOP");
    while ![") T ", ") Z "].iter().any(|own| state().contains(own)) {
        sleep(Duration::from_millis(1));
    }
    signal("-CONT");
    sleep(Duration::from_millis(20));
}

fn ended_well(mut child: Child) {
    assert_eq!(child.wait().expect("the program ends").code(), Some(0));
}

#[test]
fn inputs_that_are_closed_or_no_files() {
    let folder = judged();
    for reader in proved_readers() {
        for input in ["<&-", "< /dev/null", "< ."] {
            let ran = folder.shell(&format!("'{}' {input}", reader.path.display()));
            assert_eq!((ran.status, ran.out.as_str(), ran.err.as_str()), (0, EMPTY_JOB, ""), "{:?} {input}", reader.path);
        }
    }
    if let Some(judge) = program("judge") {
        // The judge's files then get the descriptors that are free.
        let ran = folder.shell(&format!("'{}' <&-", judge.display()));
        assert_eq!((ran.status, ran.out.as_str()), (0, "result=0\ncost=37\n"));
    }
    for words in ["plan -", "judge - plan.txt", "judge job.txt -", "count -", "list job.txt -", "compare job.txt plan.txt -"] {
        let ran = folder.shell(&format!("\"$juzvarola\" {words} <&-"));
        assert_eq!((ran.status, ran.out.as_str(), ran.err.as_str()), (66, "", "juzvarola: standard input is closed\n"), "{words}");
        let ran = folder.shell(&format!("\"$juzvarola\" {words} < ."));
        assert!(ran.status == 66 && ran.err.starts_with("juzvarola: standard input can't be read: Is a directory"), "{words}: {ran:?}");
    }
}

/// The proved programs end with status 0 whatever the result: that an answer can't be written they say on standard error, as their pages say.
#[test]
fn answers_that_cannot_be_written() {
    let folder = judged();
    folder.write("hall.txt", &hall_of(&job("00_example")));
    let texts = || (folder.names(), folder.read("job.txt"), folder.read("plan.txt"));
    let before = texts();
    for (name, input) in [("planner", "job.txt"), ("optimum", "job.txt"), ("hall", "hall.txt"), ("judge", "/dev/null")] {
        let Some(program) = program(name) else { continue };
        for (output, why) in
            [("> /dev/full", "No space left on device"), (">&-", "Bad file descriptor"), ("<&- >&-", "Bad file descriptor")]
        {
            let ran = folder.shell(&format!("'{}' < {input} {output}", program.display()));
            let said = format!("{name}: the answer can't be written: {why}\n");
            assert_eq!((ran.status, ran.out.as_str(), ran.err), (0, "", said), "{program:?} {output}");
        }
        let ran = folder.shell(&format!("'{}' <&- >&- 2>&-", program.display()));
        assert_eq!((ran.status, ran.out.as_str(), ran.err.as_str()), (0, "", ""), "{program:?}");
        let (reader, writer) = io::pipe().expect("a pipe");
        let mut command = Command::new(program);
        let text = if input == "/dev/null" { "job.txt" } else { input };
        command.current_dir(&folder.0).stdin(File::open(folder.0.join(text)).expect("its text")).stdout(writer).stderr(Stdio::piped());
        drop(reader);
        let ran = command.spawn().and_then(Child::wait_with_output).expect("the program runs");
        let said = format!("{name}: the answer can't be written: Broken pipe\n");
        assert_eq!((ran.status.code(), String::from_utf8_lossy(&ran.stderr).into_owned()), (Some(0), said), "{command:?}");
    }
    assert_eq!(texts(), before, "the files are as they were");
}

#[test]
fn an_input_that_comes_byte_by_byte() {
    for reader in readers() {
        let text = (reader.text)(&job("00_example"));
        let mut child = reader.start(Stdio::piped(), Stdio::piped());
        let mut input = child.stdin.take().expect("its input");
        for (place, byte) in text.iter().enumerate() {
            input.write_all(&[*byte]).expect("the program reads on");
            sleep(Duration::from_micros(if place % 20 == 0 { 20_000 } else { 200 }));
            if place % 50 == 0 {
                interrupt(&child);
            }
        }
        drop(input);
        let output = child.wait_with_output().expect("the program ends");
        assert_eq!((output.status.code(), output.stdout), (Some(0), (reader.answer)(&text)), "{:?}", reader.path);
    }
}

/// Reads all: as many bytes at once as `step` says for what was read so far, with pauses.
fn read_slowly(mut from: impl Read, step: impl Fn(usize) -> usize) -> Vec<u8> {
    let mut read = Vec::new();
    let mut bytes = vec![0; PIPE];
    loop {
        let most = step(read.len());
        let got = from.read(&mut bytes[..most]).expect("a pipe is read");
        if got == 0 {
            return read;
        }
        read.extend_from_slice(&bytes[..got]);
        sleep(Duration::from_millis(1));
    }
}

/// A pipe that is full but for a page, so that the answer is written in pieces, and stopped while it waits.
#[test]
fn an_output_that_is_read_slowly() {
    for reader in readers() {
        let text = (reader.text)(&longest());
        let answer = (reader.answer)(&text);
        assert!(answer.len() > 8_000);
        let (from, mut to) = io::pipe().expect("a pipe");
        let filled = PIPE - 4_096;
        let path = reader.path.clone();
        let input = text.clone();
        let (waits, waiting) = mpsc::channel();
        let writing = thread::spawn(move || {
            to.write_all(&vec![b'x'; filled]).expect("the pipe takes it");
            let mut child = reader.start(Stdio::piped(), to.into());
            child.stdin.take().expect("its input").write_all(&input).expect("the program reads all");
            sleep(Duration::from_millis(300));
            interrupt(&child);
            interrupt(&child);
            let _ = waits.send(());
            ended_well(child);
        });
        // A pipe that takes less than usual is not even full yet, and must be read.
        let _ = waiting.recv_timeout(Duration::from_secs(5));
        let read = read_slowly(from, |so_far| if so_far < filled { 4_096 } else { 61 });
        writing.join().expect("the program ended well");
        assert_eq!(read[filled..], answer, "{path:?}");
    }
}

/// A file that grows while it is read: the answer to what was there.
#[test]
fn an_input_that_grows() {
    let folder = Folder::new();
    for reader in proved_readers() {
        let text = (reader.text)(&job("00_example"));
        let answers: Vec<Vec<u8>> = (0..=text.len()).map(|length| (reader.answer)(&text[..length])).collect();
        for round in 0..40 {
            folder.write("job", b"");
            let child = reader.start(File::open(folder.0.join("job")).expect("the file").into(), Stdio::piped());
            let mut file = OpenOptions::new().append(true).open(folder.0.join("job")).expect("the file");
            text.chunks(1 + round % 9).for_each(|bytes| file.write_all(bytes).expect("the file grows"));
            let output = child.wait_with_output().expect("the program ends");
            assert!(output.status.code() == Some(0) && answers.contains(&output.stdout), "{}", output.stdout.escape_ascii());
        }
    }
}

/// Texts of no bytes, of as many as may be, of one more and of far more: as the reference answers them, from a file and through a pipe.
#[test]
fn inputs_at_their_limits() {
    let folder = Folder::new();
    for reader in proved_readers() {
        let text = (reader.text)(&job("00_example"));
        for length in [0, 1, text.len() - 1, text.len(), text.len() + 1, reader.most, reader.most + 1, 2 * reader.most] {
            let mut bytes = text.clone();
            bytes.resize(length, b'\n');
            folder.write("text", &bytes);
            let wanted = String::from_utf8((reader.answer)(&bytes)).expect("ASCII");
            for line in [format!("'{}' < text", reader.path.display()), format!("cat text | '{}'", reader.path.display())] {
                let ran = folder.shell(&line);
                assert_eq!((ran.status, ran.out, ran.err.as_str()), (0, wanted.clone(), ""), "{line}, {length} bytes");
            }
        }
        for input in ["< /dev/zero", "< huge"] {
            File::create(folder.0.join("huge")).and_then(|file| file.set_len(100 << 20)).expect("a huge file");
            let ran = folder.shell(&format!("'{}' {input}", reader.path.display()));
            assert_eq!((ran.status, ran.out.as_str(), ran.err.as_str()), (0, TOO_LONG, ""), "{:?} {input}", reader.path);
        }
        // Who writes to it is told that nobody reads on.
        let ran = folder.shell(&format!("head -c 100000000 /dev/zero | '{}'", reader.path.display()));
        assert_eq!((ran.status, ran.out.as_str(), ran.err.as_str()), (0, TOO_LONG, ""), "{:?}", reader.path);
    }
}

/// The judge's files: of as many bytes as may be and of one more, far longer ones, folders, and a pipe.
#[test]
fn files_at_their_limits() {
    let Some(judge) = program("judge") else { return };
    let (text, plan) = (job("00_example"), judged().read("plan.txt").into_bytes());
    let judge = |folder: &Folder, before: &str| folder.shell(&format!("{before}'{}'", judge.display()));
    let long = |text: &[u8], length: usize| [text, &vec![b'\n'; length - text.len()]].concat();
    let cases = [
        (Vec::new(), plan.clone()),
        (text.clone(), Vec::new()),
        (long(&text, 40_960), plan.clone()),
        (long(&text, 40_961), plan.clone()),
        (text.clone(), long(&plan, 32_768)),
        (text.clone(), long(&plan, 32_769)),
        (long(&text, 100 << 20), plan.clone()),
        (text.clone(), long(&plan, 100 << 20)),
    ];
    for (job, plan) in cases {
        let folder = Folder::new();
        folder.write("job.txt", &job);
        folder.write("plan.txt", &plan);
        let wanted = String::from_utf8(reference::judge(&job, &plan, OUTPUT).bytes).expect("ASCII");
        let ran = judge(&folder, "");
        assert_eq!((ran.status, ran.out, ran.err.as_str()), (0, wanted, ""), "{} and {} bytes", job.len(), plan.len());
    }
    let nothing = String::from_utf8(reference::judge(&text, b"", OUTPUT).bytes).expect("ASCII");
    for (before, wanted) in [
        ("mkdir job.txt plan.txt; ", EMPTY_JOB.to_string()),
        ("cp \"$OLDPWD/job.txt\" .; mkdir plan.txt; ", nothing.clone()),
        ("cp \"$OLDPWD/job.txt\" .; ", nothing),
        ("ln -s /dev/zero job.txt; ", TOO_LONG.to_string()),
        ("mkfifo job.txt; cp \"$OLDPWD/plan.txt\" .; cat \"$OLDPWD/job.txt\" > job.txt & ", "result=0\ncost=37\n".to_string()),
    ] {
        let folder = judged();
        let ran = judge(&folder, &format!("mkdir in; cd in; {before}"));
        assert_eq!((ran.status, ran.out, ran.err.as_str()), (0, wanted, ""), "{before}");
    }
}

/// A long walk is ended by a signal, as any program is: nothing was written.
#[test]
fn long_walks_are_ended_by_signals() {
    let folder = Folder::new();
    for reader in proved_readers() {
        folder.write("text", &(reader.text)(&hard()));
        for (name, number) in [("-INT", 2), ("-TERM", 15), ("-HUP", 1)] {
            // The tests themselves may run where signals are ignored, as under nohup.
            let mut command = Command::new("env");
            command.args(["--default-signal=HUP,INT,TERM"]).arg(&reader.path);
            command.stdin(File::open(folder.0.join("text")).expect("the text")).stdout(Stdio::piped()).stderr(Stdio::piped());
            let child = command.spawn().expect("the program runs");
            sleep(Duration::from_millis(500));
            let sent = Command::new("kill").args([name, &child.id().to_string()]).status().expect("kill runs");
            assert!(sent.success(), "{:?} had ended before {name}", reader.path);
            let output = child.wait_with_output().expect("the program ends");
            let left = (output.status.signal(), output.stdout.len(), output.stderr.len());
            assert_eq!(left, (Some(number), 0, 0), "{:?} {name}", reader.path);
        }
    }
}
