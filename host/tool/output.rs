//! Words for standard error, and bytes of a caller's as they may be shown.

use std::io::{self, Write};

/// As much of a caller's line as is shown.
const SHOWN: usize = 160;

/// Says it on standard error. Where nobody hears there is nobody to tell.
pub fn say(words: &str) {
    let _ = io::stderr().write_all(words.as_bytes());
}

/// Bytes as they stand, but for control characters and bytes that are no text, which could harm a terminal: these as `\x1b`.
pub fn shown(bytes: &[u8]) -> String {
    let mut text = String::new();
    for chunk in bytes.utf8_chunks() {
        for character in chunk.valid().chars() {
            if character.is_control() {
                text.extend(character.to_string().bytes().map(|byte| format!("\\x{byte:02x}")));
            } else {
                text.push(character);
            }
        }
        text.extend(chunk.invalid().iter().map(|byte| format!("\\x{byte:02x}")));
    }
    text
}

/// A caller's line for a message, cut where it is longer than anybody reads.
pub fn shown_line(bytes: &[u8]) -> String {
    let line = shown(bytes);
    match line.char_indices().nth(SHOWN) {
        Some((at, _)) => format!("{} .. ({} bytes)", &line[..at], bytes.len()),
        None => line,
    }
}
