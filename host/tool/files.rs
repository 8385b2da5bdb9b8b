//! Files: inputs read whole, outputs written whole or not at all.

use crate::closed;
use crate::failure::{failure, reason, Failure, CANT_CREATE, INPUT_OUTPUT, NO_INPUT, USAGE};
use crate::output::shown;
use crate::standard_output;
use std::ffi::OsStr;
use std::fmt::Display;
use std::fs::{self, File, OpenOptions};
use std::io::{self, Read, Write};
use std::os::unix::ffi::OsStrExt;
use std::os::unix::fs::MetadataExt;
use std::path::{Path, PathBuf};
use std::process;

/// More bytes than any text may have: what a longer input has beyond them changes no answer.
const MOST: u64 = 1 << 20;

/// A text with the name that its messages go by.
pub struct Input {
    pub name: String,
    pub bytes: Vec<u8>,
}

/// Whether this names standard input or output.
pub fn is_standard(path: &OsStr) -> bool {
    path == "-"
}

/// A path as messages show it.
pub fn name_of(path: &OsStr) -> String {
    shown(path.as_bytes())
}

/// Reads a file, or standard input for `-`. A text that can't be read is an error of the tool, and not an empty text.
pub fn read(path: &OsStr) -> Result<Input, Failure> {
    let mut bytes = Vec::new();
    if is_standard(path) {
        if closed::input() {
            return Err(failure(NO_INPUT, "standard input is closed"));
        }
        let read = io::stdin().lock().take(MOST).read_to_end(&mut bytes);
        read.map_err(|error| failure(NO_INPUT, format_args!("standard input can't be read: {}", reason(&error))))?;
        return Ok(Input { name: "<stdin>".to_string(), bytes });
    }
    let name = name_of(path);
    let read = File::open(path).and_then(|file| file.take(MOST).read_to_end(&mut bytes));
    match read {
        Ok(_) => Ok(Input { name, bytes }),
        Err(_) if Path::new(path).is_dir() => Err(failure(NO_INPUT, format_args!("{name} is a folder, not a file"))),
        Err(error) => Err(failure(NO_INPUT, format_args!("{name} can't be read: {}", reason(&error)))),
    }
}

/// Refuses an output that is one of the inputs: its text would be gone.
pub fn not_among(path: &OsStr, inputs: &[&OsStr]) -> Result<(), Failure> {
    let place = |path: &OsStr| fs::metadata(path).ok().filter(|found| found.is_file()).map(|found| (found.dev(), found.ino()));
    let own = place(path);
    match inputs.iter().find(|input| own.is_some() && !is_standard(input) && place(input) == own) {
        Some(input) => Err(failure(USAGE, format_args!("{} would be written over {}, which is read", name_of(path), name_of(input)))),
        None => Ok(()),
    }
}

/// How an output is written.
enum Way {
    /// To standard output.
    Standard,
    /// Where it is: a device, a pipe.
    InPlace,
    /// Beside the file, which is then replaced: its real place, and its permissions where it is already there.
    Replaced(PathBuf, Option<fs::Permissions>),
}

/// Whether an output can be made, as far as that can be told beforehand: nobody wants to know after a long walk.
pub fn ready(path: &OsStr) -> Result<(), Failure> {
    match way(path)? {
        Way::Standard => standard_output::ready(),
        Way::InPlace => Ok(()),
        Way::Replaced(real, _) => match fs::metadata(folder_of(&real)) {
            Ok(found) if found.is_dir() => Ok(()),
            Ok(_) => Err(cant_make(path, "Not a directory")),
            Err(error) => Err(cant_make(path, reason(&error))),
        },
    }
}

/// Writes a file: a regular one under a temporary name that is then renamed, anything else (a device, a pipe) in place; `-` is standard
/// output.
pub fn write(path: &OsStr, bytes: &[u8]) -> Result<(), Failure> {
    match way(path)? {
        Way::Standard => standard_output::write(bytes),
        Way::InPlace => {
            let mut file = OpenOptions::new().write(true).open(path).map_err(|error| cant_make(path, reason(&error)))?;
            file.write_all(bytes).map_err(|error| cant_write(path, reason(&error)))
        }
        Way::Replaced(real, permissions) => replace(path, &real, bytes, permissions),
    }
}

/// How this output is to be written, or why it can't be.
fn way(path: &OsStr) -> Result<Way, Failure> {
    if is_standard(path) {
        return Ok(Way::Standard);
    }
    let place = Path::new(path);
    match fs::metadata(place) {
        Ok(found) if found.is_dir() => Err(failure(CANT_CREATE, format_args!("{} is a folder, not a file", name_of(path)))),
        Ok(found) if found.is_file() => {
            // A file that may not be written is not replaced either.
            let opened = OpenOptions::new().write(true).open(place).and_then(|_| fs::canonicalize(place));
            opened.map(|real| Way::Replaced(real, Some(found.permissions()))).map_err(|error| cant_make(path, reason(&error)))
        }
        Ok(_) => Ok(Way::InPlace),
        Err(error) if error.kind() != io::ErrorKind::NotFound => Err(cant_make(path, reason(&error))),
        Err(_) if place.file_name().is_none() || path.as_bytes().ends_with(b"/") => Err(cant_make(path, "it names no file")),
        Err(_) => Ok(Way::Replaced(behind_links(place), None)),
    }
}

/// Where a name leads that does not exist: a link to a file that is not there yet is followed.
fn behind_links(place: &Path) -> PathBuf {
    match fs::read_link(place) {
        Ok(target) => folder_of(place).join(target),
        Err(_) => place.to_path_buf(),
    }
}

/// The folder that a file is in.
fn folder_of(place: &Path) -> &Path {
    place.parent().filter(|folder| !folder.as_os_str().is_empty()).unwrap_or(Path::new("."))
}

fn cant_make(path: &OsStr, why: impl Display) -> Failure {
    failure(CANT_CREATE, format_args!("{} can't be made: {why}", name_of(path)))
}

fn cant_write(path: &OsStr, why: impl Display) -> Failure {
    failure(INPUT_OUTPUT, format_args!("{} can't be written: {why}", name_of(path)))
}

/// A new file under a name that nothing has yet.
fn temporary(folder: &Path) -> io::Result<(PathBuf, File)> {
    let mut made = Err(io::ErrorKind::AlreadyExists.into());
    for number in 0..100 {
        let name = folder.join(format!(".juzvarola.{}.{number}.tmp", process::id()));
        made = OpenOptions::new().write(true).create_new(true).open(&name).map(|file| (name, file));
        if !matches!(&made, Err(error) if error.kind() == io::ErrorKind::AlreadyExists) {
            return made;
        }
    }
    made
}

/// Writes beside the file and renames; whatever fails, the file stays as it was and nothing half-written is left.
fn replace(path: &OsStr, real: &Path, bytes: &[u8], permissions: Option<fs::Permissions>) -> Result<(), Failure> {
    let (name, mut file) = temporary(folder_of(real)).map_err(|error| cant_make(path, reason(&error)))?;
    let own = |file: &File| permissions.map_or(Ok(()), |own| file.set_permissions(own));
    let written = file.write_all(bytes).and_then(|()| own(&file)).and_then(|()| file.sync_all());
    drop(file);
    written.and_then(|()| fs::rename(&name, real)).map_err(|error| {
        let _ = fs::remove_file(&name);
        cant_write(path, reason(&error))
    })
}
