//! Dates of steps: the first step's date, and a day, a week or a month for each step.

/// A date of the calendar in use.
#[derive(Debug, Clone, Copy, PartialEq, Eq, PartialOrd, Ord)]
pub struct Date {
    pub year: u64,
    pub month: u64,
    pub day: u64,
}

/// How long a step is.
#[derive(Debug, Clone, Copy, PartialEq, Eq, Default)]
pub enum Step {
    #[default]
    Day,
    Week,
    Month,
}

impl Step {
    /// By its name.
    pub fn read(word: &str) -> Option<Step> {
        match word {
            "day" => Some(Step::Day),
            "week" => Some(Step::Week),
            "month" => Some(Step::Month),
            _ => None,
        }
    }
}

fn leap(year: u64) -> bool {
    year.is_multiple_of(4) && (!year.is_multiple_of(100) || year.is_multiple_of(400))
}

/// The days of a month.
fn days_of(year: u64, month: u64) -> u64 {
    match month {
        2 if leap(year) => 29,
        2 => 28,
        4 | 6 | 9 | 11 => 30,
        _ => 31,
    }
}

impl Date {
    /// A date as `2027-01-04`, from the year 1000 to 9000.
    pub fn read(word: &str) -> Option<Date> {
        let shaped = word.len() == 10
            && word.bytes().enumerate().all(|(at, byte)| if at == 4 || at == 7 { byte == b'-' } else { byte.is_ascii_digit() });
        if !shaped {
            return None;
        }
        let date = Date { year: word[..4].parse().ok()?, month: word[5..7].parse().ok()?, day: word[8..].parse().ok()? };
        let known = (1000..=9000).contains(&date.year)
            && (1..=12).contains(&date.month)
            && (1..=days_of(date.year, date.month)).contains(&date.day);
        known.then_some(date)
    }

    /// The date so many days later.
    pub fn days_later(self, days: u64) -> Date {
        let mut date = Date { day: self.day + days, ..self };
        while date.day > days_of(date.year, date.month) {
            date.day -= days_of(date.year, date.month);
            date = if date.month == 12 { Date { year: date.year + 1, month: 1, ..date } } else { Date { month: date.month + 1, ..date } };
        }
        date
    }

    /// The same day so many months later, or the month's last.
    pub fn months_later(self, months: u64) -> Date {
        let all = self.month - 1 + months;
        let (year, month) = (self.year + all / 12, all % 12 + 1);
        Date { year, month, day: self.day.min(days_of(year, month)) }
    }

    /// The first day of a step, counted from 1, where this is that of step 1.
    pub fn of_step(self, length: Step, step: u64) -> Date {
        let before = step.saturating_sub(1);
        match length {
            Step::Day => self.days_later(before),
            Step::Week => self.days_later(before * 7),
            Step::Month => self.months_later(before),
        }
    }

    /// As `20270104`.
    pub fn packed(self) -> String {
        format!("{:04}{:02}{:02}", self.year, self.month, self.day)
    }
}

impl std::fmt::Display for Date {
    fn fmt(&self, f: &mut std::fmt::Formatter<'_>) -> std::fmt::Result {
        write!(f, "{:04}-{:02}-{:02}", self.year, self.month, self.day)
    }
}

#[cfg(test)]
mod tests {
    use super::*;

    fn of(from: &str, length: Step, step: u64) -> String {
        Date::read(from).expect("a date").of_step(length, step).to_string()
    }

    /// Days and weeks pass leap days and years' ends; months keep their day where there is one.
    #[test]
    fn steps_have_dates() {
        assert_eq!(of("2027-01-04", Step::Week, 1), "2027-01-04");
        assert_eq!(of("2027-01-04", Step::Week, 52), "2027-12-27");
        assert_eq!(of("2028-02-28", Step::Day, 2), "2028-02-29");
        assert_eq!(of("2027-02-28", Step::Day, 2), "2027-03-01");
        assert_eq!(of("2027-12-31", Step::Day, 366), "2028-12-30");
        assert_eq!(of("2027-01-31", Step::Month, 2), "2027-02-28");
        assert_eq!(of("2027-01-31", Step::Month, 14), "2028-02-29");
        assert_eq!(of("2027-11-30", Step::Month, 3), "2028-01-30");
    }

    /// What is no date is none.
    #[test]
    fn words_that_are_no_dates() {
        for word in [
            "2027-02-29",
            "2027-13-01",
            "2027-00-10",
            "27-01-04",
            "2027/01/04",
            "2027-1-4",
            "0000-01-01",
            "2027-01-041",
            "2027-0x-01",
            "2027-01-0\u{e9}",
        ] {
            assert_eq!(Date::read(word), None, "{word}");
        }
    }
}
