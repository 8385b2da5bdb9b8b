//! Standard output, which may be closed, a pipe that nobody reads any more, or a full disk.

use crate::closed;
use crate::failure::{failure, reason, Failure, INPUT_OUTPUT};
use std::io::{self, IsTerminal, Write};

/// Refuses a standard output that is closed.
pub fn ready() -> Result<(), Failure> {
    if closed::output() {
        return Err(failure(INPUT_OUTPUT, "standard output is closed: nothing is written"));
    }
    Ok(())
}

/// Writes it all to standard output, or says why not.
pub fn write(bytes: &[u8]) -> Result<(), Failure> {
    ready()?;
    let mut out = io::stdout().lock();
    let written = out.write_all(bytes).and_then(|()| out.flush());
    written.map_err(|error| failure(INPUT_OUTPUT, format_args!("standard output can't be written: {}", reason(&error))))
}

/// Whether somebody reads it as it comes.
pub fn is_terminal() -> bool {
    io::stdout().is_terminal()
}
