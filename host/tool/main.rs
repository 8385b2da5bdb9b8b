//! The program `juzvarola`: plans, judges, lists, draws and compares, for the people who act on a plan. Every answer is the library's.

mod arguments;
mod calls;
mod carry;
mod check;
mod closed;
mod compare;
mod completion;
mod costs;
mod count;
mod csv;
mod dates;
mod deviations;
mod draw;
mod drawing;
mod failure;
mod faults;
mod files;
mod front;
mod fronts;
mod hall;
mod halls;
mod help;
mod ics;
mod join;
mod json;
mod judge;
mod latest;
mod list;
mod lives;
mod many;
mod naming;
mod numbers;
mod output;
mod past;
mod plan;
mod sheets;
mod signals;
mod slips;
mod spans;
mod standard_output;
mod standing;
mod tables;
mod texts;
mod verdicts;
mod walks;
mod watch;
mod whatif;
mod worth;
mod write;

use arguments::Command;
use failure::Failure;
use std::env;
use std::ffi::OsString;
use std::process::ExitCode;

/// Runs the command that the words name. The exit status says what kind of result it had.
fn main() -> ExitCode {
    let words: Vec<OsString> = env::args_os().skip(1).collect();
    let status = run(&words).unwrap_or_else(|failure| {
        output::say(&failure.message);
        failure.status
    });
    ExitCode::from(status)
}

/// Reads the words and makes the command; its exit status, or what went wrong. Who asked for JSON is told of a text at fault so too.
fn run(words: &[OsString]) -> Result<u8, Failure> {
    juzvarola_host::check_version().map_err(|wrong| failure::failure(failure::SOFTWARE, wrong))?;
    let command = arguments::read(words)?;
    let asked = command.json();
    match (make(command), asked) {
        (Err(Failure { status, fault: Some(fault), .. }), Some(name)) => {
            standard_output::write(fault.json(name).document().as_bytes())?;
            Ok(status)
        }
        (made, _) => made,
    }
}

/// Makes the command.
fn make(command: Command) -> Result<u8, Failure> {
    match command {
        Command::Print(text) => standard_output::write(text.as_bytes()).map(|()| 0),
        Command::Plan(order) => plan::run(&order),
        Command::Judge(order) => judge::run(&order),
        Command::Latest(order) => latest::run(&order),
        Command::Carry(order) => carry::run(&order),
        Command::List(order) => list::run(&order),
        Command::Draw(order) => draw::run(&order),
        Command::Compare(order) => compare::run(&order),
        Command::Count(order) => count::run(&order),
        Command::Worth(order) => worth::run(&order),
        Command::Whatif(order) => whatif::run(&order),
        Command::Front(order) => front::run(&order),
        Command::Join(order) => join::run(&order),
        Command::Hall(order) => hall::run(&order),
        Command::Write(order) => write::run(&order),
        Command::Check(job) => check::run(&job),
    }
}
