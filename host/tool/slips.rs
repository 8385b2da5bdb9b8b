//! Slips that people make when they write a text, named for what they are.

use juzvarola_host::lines::Line;

/// A slip of the whole text: another encoding, or a text of another kind than one with these lines.
pub fn of_text(text: &[u8], table: &[Line], line: u32) -> Option<&'static str> {
    if line != 1 {
        return None;
    }
    let first = text.split(|byte| *byte == b'\n').next().unwrap_or(b"");
    let begins = |words: &str| first.starts_with(words.as_bytes());
    let wide = [b"\xff\xfe", b"\xfe\xff"].iter().any(|mark| text.starts_with(*mark)) || (text.len() > 3 && text[..4].contains(&0));
    match table[0].key {
        _ if wide => Some("the text is UTF-16, as some editors save it; save it as UTF-8 or as plain text"),
        _ if text.starts_with(b"\xef\xbb\xbf") => {
            Some("the text begins with a byte order mark, as Windows writes it; it begins with its first line")
        }
        "machines" if begins("horizon=") => Some("this is a job, and a hall is due: `juzvarola join` makes one of the lines' jobs"),
        "horizon" if begins("machines=") => Some("this is a hall, and a job is due"),
        "cost" if text == b"\n" || text == b"\r\n" => {
            Some("the plan is one empty line; doing nothing is a file of no bytes, or the lines cost=0 and stops=0")
        }
        "cost" if begins("horizon=") => Some("this is a job, and a plan is due; are the two files exchanged?"),
        "cost" if begins("step=") => Some("this is a work log, and a plan is due: its lines from `cost=` on"),
        "cost" if begins("result=") => Some("this is a planner's whole answer; the plan is its lines from `cost=` on"),
        "step" if begins("horizon=") => Some("this is a job, and a work log is due; are the two files exchanged?"),
        "step" if begins("cost=") => {
            Some("this is a plan, and a work log is due: a line `step=`, and then what was done as a plan's lines")
        }
        "horizon" if begins("cost=") => Some("this is a plan, and a job is due; are the two files exchanged?"),
        "horizon" if begins("step=") => Some("this is a work log, and a job is due; are the two files exchanged?"),
        "horizon" if begins("result=") => Some("this is a planner's answer, and a job is due"),
        _ => None,
    }
}

/// A slip of a line on which one of these keys is due; none where it is just another line.
pub fn of_line(line: &[u8], keys: &[&str]) -> Option<String> {
    if line.ends_with(b"\r") {
        return Some("the line ends with a carriage return, as Windows writes it; a line feed alone ends a line".to_string());
    }
    let text = String::from_utf8_lossy(line);
    let bare = text.trim();
    if ["#", "//", ";", "--", "%"].iter().any(|mark| bare.starts_with(mark)) {
        return Some("this is a comment, and the texts have none".to_string());
    }
    if bare.is_empty() {
        return Some(if text.is_empty() { "the line is empty, and no line may be" } else { "the line has only blanks" }.to_string());
    }
    keys.iter().find_map(|key| of_key(&text, bare, key))
}

/// A slip of a line that is meant for this key.
fn of_key(text: &str, bare: &str, key: &str) -> Option<String> {
    let unquoted = bare.trim_start_matches(['"', '\'', '\u{201c}']);
    let head = unquoted.get(..key.len()).filter(|head| head.eq_ignore_ascii_case(key))?;
    let rest = &unquoted[key.len()..];
    let sign = rest.trim_start().chars().next()?;
    if unquoted != bare {
        return Some(format!("quotes stand around `{key}`, and the texts have none"));
    }
    if !['=', ':'].contains(&sign) && sign != '\u{ff1d}' && !rest.starts_with([' ', '\t', '"', '\'']) {
        return None;
    }
    if head != key {
        return Some(format!("`{key}` is written in small letters"));
    }
    if rest.starts_with(['"', '\'']) {
        return Some(format!("quotes stand around `{key}`, and the texts have none"));
    }
    if sign != '=' {
        return Some(format!("`=` stands between `{key}` and its value: {key}=value"));
    }
    let value = rest.trim_start()[1..].to_string();
    let blank = |text: &str| text.starts_with([' ', '\t']);
    if blank(rest) || blank(&value) {
        return Some(format!("blanks stand around `=`, and there are none: {key}=value"));
    }
    if blank(text) {
        return Some(format!("a blank stands before `{key}`"));
    }
    if text.ends_with([' ', '\t']) {
        return Some("a blank stands at the line's end".to_string());
    }
    Some(of_value(&value, key))
}

/// What is wrong with a value that is no number as the texts have them.
fn of_value(value: &str, key: &str) -> String {
    let digits = |text: &str| !text.is_empty() && text.bytes().all(|byte| byte.is_ascii_digit());
    let whole = "prices and fees are whole numbers, for example of cents";
    let parts = |mark: char| value.split(mark).collect::<Vec<_>>();
    if value.starts_with(['"', '\'', '\u{201c}']) {
        return format!("quotes stand around the value of `{key}`, and the texts have none");
    }
    if let Some((number, rest)) = value.split_once([' ', '\t']) {
        if digits(number) && rest.trim_start().starts_with(['#', '/', ';', '-']) {
            return "a comment stands behind the value, and the texts have none".to_string();
        }
    }
    if let [number, ""] = &parts(',')[..] {
        if digits(number) {
            return "a comma stands at the line's end".to_string();
        }
    }
    if value.contains(',') && parts(',').iter().all(|part| digits(part)) {
        return format!("a comma stands in the value of `{key}`, which is digits alone ({whole})");
    }
    if value.contains('.') && parts('.').len() == 2 && parts('.').iter().all(|part| digits(part) || part.is_empty()) {
        return format!("{key} is not a whole number ({whole})");
    }
    if value.starts_with(['-', '+']) && digits(&value[1..]) {
        return format!("{key} has a sign, and is digits alone");
    }
    format!("{key} is not 1 to 10 digits without a leading zero")
}
