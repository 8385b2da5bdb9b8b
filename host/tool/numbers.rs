//! Numbers as people read them.

/// A number with a comma between its thousands.
pub fn grouped(number: u64) -> String {
    let digits = number.to_string();
    let mut text = String::new();
    for (at, digit) in digits.chars().enumerate() {
        if at > 0 && (digits.len() - at).is_multiple_of(3) {
            text.push(',');
        }
        text.push(digit);
    }
    text
}

/// A difference with its sign: `+1,000`, `-5`, `0`.
pub fn signed(first: u64, second: u64) -> String {
    match second.cmp(&first) {
        std::cmp::Ordering::Equal => "0".to_string(),
        std::cmp::Ordering::Greater => format!("+{}", grouped(second - first)),
        std::cmp::Ordering::Less => format!("-{}", grouped(first - second)),
    }
}

/// A number, or from a low end to a high one: `2,310 to 2,505`.
pub fn span(low: u64, high: u64) -> String {
    if low < high {
        format!("{} to {}", grouped(low), grouped(high))
    } else {
        grouped(high)
    }
}

/// A number with its noun, in the plural where there is not just one: `1 stop`, `2 stops`.
pub fn counted(number: u64, noun: &str) -> String {
    format!("{} {noun}{}", grouped(number), if number == 1 { "" } else { "s" })
}

/// Numbers one after the other: `1, 2, 5`.
pub fn joined(numbers: impl IntoIterator<Item = u64>) -> String {
    let words: Vec<String> = numbers.into_iter().map(|number| number.to_string()).collect();
    words.join(", ")
}

/// How much a number is of another: `(33 %)`, `(0.4 %)`.
pub fn percent(number: u64, of: u64) -> String {
    let share = if of == 0 { 0.0 } else { number as f64 * 100.0 / of as f64 };
    if share == 0.0 || share >= 9.95 {
        format!("({share:.0} %)")
    } else {
        format!("({share:.1} %)")
    }
}

/// About so many seconds, as people say it: `0.2 s`, `40 s`, `3 min`.
pub fn seconds(seconds: f64) -> String {
    match seconds {
        under if under < 0.1 => "0.1 s".to_string(),
        under if under < 9.95 => format!("{under:.1} s"),
        under if under < 99.5 => format!("{under:.0} s"),
        more => format!("{:.0} min", more / 60.0),
    }
}

/// Rising numbers, three and more in a row as the first and the last: `1-4, 6`.
pub fn runs(numbers: &[u64]) -> String {
    let mut words: Vec<String> = Vec::new();
    let mut rest = numbers;
    while let Some((first, _)) = rest.split_first() {
        let length = rest.iter().zip(*first..).take_while(|(own, due)| *own == due).count();
        let length = if length < 3 { 1 } else { length };
        words.push(if length == 1 { first.to_string() } else { format!("{first}-{}", rest[length - 1]) });
        rest = &rest[length..];
    }
    words.join(", ")
}
