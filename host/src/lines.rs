//! The lines of the texts, in one table: each line's key, its range, what may follow it, how many there are, and the words for its faults. By it
//! the program names what is due and what is wrong, and the tests find the limits.

/// A line of a text.
#[derive(Debug, Clone, Copy)]
pub struct Line {
    pub key: &'static str,
    /// The least and the most of its values.
    pub least: u64,
    pub most: u64,
    /// The keys of the lines that may follow, in their order; an empty one is the text's end.
    pub next: &'static [&'static str],
    pub stands: Stands,
    /// How many there are, where a count says it.
    pub counted: Option<Counted>,
    /// What a fault's number means here, where the number alone does not say it.
    pub words: &'static [(u32, &'static str)],
}

/// A count of lines.
#[derive(Debug, Clone, Copy)]
pub struct Counted {
    /// The line whose value says how many there are.
    by: &'static str,
    /// The line since which they are counted.
    since: &'static str,
    /// The lines that are counted: these keys.
    keys: &'static [&'static str],
}

/// Whether a line has to stand where it may.
#[derive(Debug, Clone, Copy, PartialEq, Eq)]
pub enum Stands {
    Always,
    /// It may be left out.
    Maybe,
    /// It may still stand, and nobody is told to write it.
    Still,
}

/// The text's end among the lines that may follow.
pub const END: &str = "";

const fn line(key: &'static str, (least, most): (u64, u64), next: &'static [&'static str]) -> Line {
    Line { key, least, most, next, stands: Stands::Always, counted: None, words: &[] }
}

impl Line {
    const fn standing(self, stands: Stands) -> Line {
        Line { stands, ..self }
    }

    const fn counted(self, by: &'static str, since: &'static str, keys: &'static [&'static str]) -> Line {
        Line { counted: Some(Counted { by, since, keys }), ..self }
    }

    const fn words(self, words: &'static [(u32, &'static str)]) -> Line {
        Line { words, ..self }
    }
}

const STEP: (u64, u64) = (1, 365);
const AMOUNT: (u64, u64) = (0, 1_000_000);
const PRICE: (u64, u64) = (1, 1_000_000);

/// The lines that end an opening's price.
const PRICES: &[&str] = &["price", "high"];

/// The lines of a job text, the first one first.
pub const JOB: &[Line] = &[
    line("horizon", (2, 365), &["idles", "walk", "openings"]),
    line("idles", STEP, &["idle"]).standing(Stands::Maybe),
    line("idle", STEP, &["idle", "walk", "openings"])
        .counted("idles", "idles", &["idle"])
        .words(&[(4, "idle does not come after the idle step before, or is past the horizon")]),
    line("walk", (0, 4_000_000_000), &["openings"]).standing(Stands::Still),
    line("openings", (0, 64), &["opening", "parts"]),
    line("opening", STEP, &["fee"])
        .counted("openings", "openings", &["opening"])
        .words(&[(4, "opening does not come after the opening before, or is past the horizon")]),
    line("fee", AMOUNT, &["opening", "parts"]),
    line("parts", (1, 16), &["life"]),
    line("life", (1, 1000), &["left"]).counted("parts", "parts", &["life"]),
    line("left", (0, 1000), &["removal", "base", "low", "price", "life", END]).words(&[(5, "left is greater than life")]),
    line("removal", AMOUNT, &["inside"]).standing(Stands::Maybe),
    line("inside", (0, 15), &["holder", "base", "low", "price", "life", END]),
    line("holder", (1, 16), &["holder", "base", "low", "price", "life", END])
        .counted("inside", "inside", &["holder"])
        .words(&[(12, "holder is above the job's number of parts, is the part itself, or does not come after the holder before")]),
    line("base", PRICE, &["drop"]).standing(Stands::Maybe),
    line("drop", AMOUNT, &["least"]),
    line("least", PRICE, &["life", END]),
    line("low", PRICE, &["high"]).standing(Stands::Maybe).counted("openings", "life", PRICES),
    line("high", PRICE, &["low", "price", "life", END]).words(&[(13, "the price's low end is above its high end")]),
    line("price", PRICE, &["low", "price", "life", END]).counted("openings", "life", PRICES),
];

/// The lines of a work log, the first one first: a step, and then a plan's.
pub const LOG: &[Line] = &[
    line("step", (1, 363), &["cost"]).words(&[(3, "step is not a number from 1 to two less than the job's horizon")]),
    line("cost", (0, 4_000_000_000), &["stops"]),
    line("stops", (0, 64), &["stop", END]),
    line("stop", STEP, &["count"])
        .counted("stops", "stops", &["stop"])
        .words(&[(9, "stop is no opening of the job, or does not come after the stop before")]),
    line("count", (0, 16), &["part", "stop", END]),
    line("part", (1, 16), &["part", "stop", END])
        .counted("count", "count", &["part"])
        .words(&[(9, "part is above the job's number of parts, or does not come after the part before")]),
];

/// The lines of a hall's text before its jobs, the first one first.
pub const HALL: &[Line] = &[line("machines", (1, 4), &["call"]), line("call", AMOUNT, &[END])];

/// The lines of a plan text, the first one first.
pub const PLAN: &[Line] = LOG.split_at(1).1;

/// The line with this key, of any text.
pub fn find(key: &str) -> Option<&'static Line> {
    JOB.iter().chain(LOG).chain(HALL).find(|line| line.key == key)
}

/// The keys that may stand behind these lines of a text, in their order: those that may be left out, and last the one that is due or the text's end.
/// None where the last line is not one of the table's.
pub fn following(table: &'static [Line], before: &[(&[u8], u64)]) -> Option<Vec<&'static Line>> {
    let own = |key: &[u8]| table.iter().find(|line| line.key.as_bytes() == key);
    let Some((last, _)) = before.last() else { return Some(vec![&table[0]]) };
    let mut may = Vec::new();
    for key in own(last)?.next {
        let Some(line) = own(key.as_bytes()) else { return Some(may) };
        if line.counted.is_some_and(|counted| !counted.more(before)) {
            continue;
        }
        may.push(line);
        if line.stands == Stands::Always {
            return Some(may);
        }
    }
    None
}

impl Counted {
    /// Whether fewer stand than there are to be.
    fn more(&self, before: &[(&[u8], u64)]) -> bool {
        let is = |own: &[u8], key: &str| own == key.as_bytes();
        let due = before.iter().rev().find(|(own, _)| is(own, self.by)).map_or(0, |(_, value)| *value);
        let behind = before.iter().rev().take_while(|(own, _)| !is(own, self.since));
        let seen = behind.filter(|(own, _)| self.keys.iter().any(|key| is(own, key))).count();
        (seen as u64) < due
    }
}

#[cfg(test)]
mod tests {
    use super::*;

    /// Every key stands once, and what follows is in the same table.
    #[test]
    fn what_follows_is_in_the_table() {
        for table in [JOB, PLAN, LOG, HALL] {
            for line in table {
                assert_eq!(table.iter().filter(|own| own.key == line.key).count(), 1, "{}", line.key);
                let known = |key: &&&str| **key == END || table.iter().any(|own| own.key == **key);
                assert_eq!(line.next.iter().filter(known).count(), line.next.len(), "{}", line.key);
                assert!(line.least < line.most, "{}", line.key);
            }
        }
    }

    /// What may stand behind these lines.
    fn behind(lines: &str) -> Vec<&'static str> {
        let pairs: Vec<(&[u8], u64)> = lines
            .split_whitespace()
            .filter_map(|line| line.split_once('='))
            .map(|(key, value)| (key.as_bytes(), value.parse().expect("a number")))
            .collect();
        following(JOB, &pairs).expect("a line of the table").iter().map(|line| line.key).collect()
    }

    #[test]
    fn counts_say_what_is_due() {
        let none: &[&str] = &[];
        let cases: &[(&str, &[&str])] = &[
            ("", &["horizon"]),
            ("horizon=6", &["idles", "walk", "openings"]),
            ("horizon=6 idles=2 idle=1", &["idle"]),
            ("horizon=6 idles=1 idle=1", &["walk", "openings"]),
            ("openings=1 opening=2 fee=3", &["parts"]),
            ("openings=2 opening=2 fee=3", &["opening"]),
            ("openings=1 parts=1 life=3 left=2", &["removal", "base", "low", "price"]),
            ("openings=0 parts=2 life=3 left=2", &["removal", "base", "life"]),
            ("openings=0 parts=1 life=3 left=2", &["removal", "base"]),
            ("openings=1 parts=2 life=3 left=2 price=4 life=3 left=2", &["removal", "base", "low", "price"]),
            ("openings=1 parts=2 life=3 left=2 removal=0 inside=1 holder=2", &["base", "low", "price"]),
            ("openings=1 parts=2 life=3 left=2 base=9 drop=1 least=1", &["life"]),
            ("openings=1 parts=1 life=3 left=2 base=9 drop=1 least=1", none),
            ("openings=2 parts=1 life=3 left=2 price=9", &["low", "price"]),
            ("openings=2 parts=1 life=3 left=2 low=1", &["high"]),
            ("openings=2 parts=1 life=3 left=2 low=1 high=9", &["low", "price"]),
            ("openings=2 parts=2 life=3 left=2 low=1 high=9 price=3", &["life"]),
        ];
        for (lines, keys) in cases {
            assert_eq!(behind(lines), *keys, "{lines}");
        }
        assert!(following(JOB, &[(b"later", 3)]).is_none());
    }
}
