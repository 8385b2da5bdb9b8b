//! Exit statuses, and what is said where a command can't go on.

use crate::json::Value;
use std::fmt::Display;
use std::io;

/// The library's verdict is against the plan or the calendar: 6, 10 and 11.
pub const VERDICT: u8 = 1;
/// A text is at fault: 1 to 5, 9 and every number after 11.
pub const TEXT: u8 = 2;
/// The walk was longer than its number: 7.
pub const CUT: u8 = 3;

// As sysexits.h has them.
pub const USAGE: u8 = 64;
pub const NO_INPUT: u8 = 66;
pub const SOFTWARE: u8 = 70;
pub const SYSTEM: u8 = 71;
pub const CANT_CREATE: u8 = 73;
pub const INPUT_OUTPUT: u8 = 74;

/// Why a command ends early: the exit status, the words for standard error, and for a text at fault what programs are told of it.
#[derive(Debug)]
pub struct Failure {
    pub status: u8,
    pub message: String,
    pub fault: Option<Fault>,
}

/// A text at fault, as the library says: its file, the result, the text's number and the line, the words, and the line as it is shown.
#[derive(Debug)]
pub struct Fault {
    pub file: String,
    pub result: u32,
    pub text: u32,
    pub line: u32,
    pub words: String,
    pub shown: String,
}

impl Fault {
    /// What programs are told in place of an answer.
    pub fn json(&self, command: &str) -> Value {
        let place = Value::object([
            ("file", Value::text(&self.file)),
            ("text", Value::Number(u64::from(self.text))),
            ("line", Value::Number(u64::from(self.line))),
            ("shown", Value::text(&self.shown)),
        ]);
        let result = Value::Number(u64::from(self.result));
        let version = Value::text(env!("CARGO_PKG_VERSION"));
        Value::object([
            ("juzvarola", version),
            ("command", Value::text(command)),
            ("result", result),
            ("words", Value::text(&self.words)),
            ("fault", place),
        ])
    }
}

/// A failure of the tool itself, with its name before the words, as programs do.
pub fn failure(status: u8, words: impl Display) -> Failure {
    Failure { status, message: format!("juzvarola: {words}\n"), fault: None }
}

/// The system's reason without its number, which says nothing to people.
pub fn reason(error: &io::Error) -> String {
    let words = error.to_string();
    match words.rfind(" (os error ") {
        Some(at) => words[..at].to_string(),
        None => words,
    }
}

/// The exit status by the kind of a result number.
pub fn status_of(result: u32) -> u8 {
    match result {
        0 => 0,
        6 | 10 | 11 => VERDICT,
        7 => CUT,
        8 => SOFTWARE,
        _ => TEXT,
    }
}
