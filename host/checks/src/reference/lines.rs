//! "Key=value lines in this order, each ended by byte 10, the last too."

/// "A text has at most 32,768 bytes."
pub const MAX_TEXT: usize = 32_768;

/// "A job text may now have 40,960 bytes".
pub const MAX_JOB: usize = 40_960;

/// A fault of a text: its result number, its line from 1 (0 for number 1), and the line at fault as it stands in the text.
#[derive(Debug, Clone, Copy, PartialEq, Eq)]
pub struct Fault {
    pub result: u32,
    pub line: u32,
    pub start: usize,
    pub length: usize,
}

/// Reads a text line by line.
pub struct Lines<'t> {
    text: &'t [u8],
    /// The start of the next line.
    next: usize,
    /// The number of the latest line, 0 before the first.
    line: u32,
    /// The latest line: its start and its length without byte 10; both 0 if it is missing.
    start: usize,
    length: usize,
}

impl<'t> Lines<'t> {
    /// A text of at most so many bytes. "1: over" that many.
    pub fn new(text: &'t [u8], most: usize) -> Result<Lines<'t>, Fault> {
        let lines = Lines { text, next: 0, line: 0, start: 0, length: 0 };
        if text.len() > most {
            return Err(lines.fault(1));
        }
        Ok(lines)
    }

    /// The given fault at the latest line.
    pub fn fault(&self, result: u32) -> Fault {
        Fault { result, line: self.line, start: self.start, length: self.length }
    }

    /// Goes to the next line; says whether it is there and ended by byte 10.
    /// "The line at fault, as it stands in its own text, up to its byte 10 or the text's end"; "a missing line has the number it would
    /// have had".
    fn advance(&mut self) -> bool {
        self.line += 1;
        let rest = &self.text[self.next..];
        match rest.iter().position(|byte| *byte == 10) {
            Some(length) => {
                self.start = self.next;
                self.length = length;
                self.next += length + 1;
                true
            }
            None => {
                self.start = if rest.is_empty() { 0 } else { self.next };
                self.length = rest.len();
                self.next = self.text.len();
                false
            }
        }
    }

    /// Whether the next line begins with these bytes.
    pub fn begins(&self, bytes: &str) -> bool {
        self.text[self.next..].starts_with(bytes.as_bytes())
    }

    /// The value of the next line, which has this key and this range.
    /// "2: wrong key, bad digits, text ends early"; "3: a value outside its range above".
    pub fn value(&mut self, key: &str, least: u64, most: u64) -> Result<u64, Fault> {
        if !self.advance() {
            return Err(self.fault(2));
        }
        let line = &self.text[self.start..self.start + self.length];
        let digits = line.strip_prefix(key.as_bytes()).and_then(|rest| rest.strip_prefix(b"="));
        let Some(value) = digits.and_then(number) else {
            return Err(self.fault(2));
        };
        if value < least || value > most {
            return Err(self.fault(3));
        }
        Ok(value)
    }

    /// No byte is left. "Bytes after the last line are the line after it."
    pub fn end(&mut self) -> Result<(), Fault> {
        if self.next == self.text.len() {
            return Ok(());
        }
        self.advance();
        Err(self.fault(2))
    }
}

/// "A value is 1 to 10 digits with no leading zero, "0" itself allowed."
fn number(digits: &[u8]) -> Option<u64> {
    if digits.is_empty() || digits.len() > 10 || !digits.iter().all(u8::is_ascii_digit) {
        return None;
    }
    if digits[0] == b'0' && digits.len() > 1 {
        return None;
    }
    Some(digits.iter().fold(0, |value, digit| value * 10 + u64::from(digit - b'0')))
}
