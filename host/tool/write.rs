//! `write`: a job text from a spreadsheet's table. The layout is that of juzvarola-table(5).

use crate::arguments::WriteOrder;
use crate::calls;
use crate::failure::{status_of, Failure, TEXT};
use crate::faults::meaning;
use crate::output::shown;
use crate::sheets::{self, Cell};
use crate::{files, output};
use juzvarola_host::Form;

/// Reads the table, has the library write the text, and writes it to its file.
pub fn run(order: &WriteOrder) -> Result<u8, Failure> {
    let input = files::read(&order.table)?;
    files::not_among(&order.output, &[&order.table])?;
    files::ready(&order.output)?;
    let bad = |why: String| Failure { status: TEXT, message: format!("{}: {why}\n", input.name), fault: None };
    let table = Table::read(&input.bytes).map_err(bad)?;
    let reply = table.write()?;
    if reply.result != 0 {
        let message = format!("{}: {} ({})\n", input.name, table.fault(reply.result, reply.line), reply.result);
        return Err(Failure { status: status_of(reply.result), message, fault: None });
    }
    files::write(&order.output, &reply.lines)?;
    if !files::is_standard(&order.output) {
        output::say(&format!("{}: {} lines are written to {} (0)\n", input.name, table.lines().len(), files::name_of(&order.output)));
    }
    Ok(0)
}

/// A number and the cell that it stands in.
#[derive(Debug, Clone)]
struct Entry {
    number: u32,
    cell: String,
}

/// A part's row.
#[derive(Debug, Clone)]
struct Part {
    life: Entry,
    left: Entry,
    /// Where the part has lines of removal: what taking it out costs, and its holders.
    removal: Option<(Entry, Vec<Entry>)>,
    /// Where a rule gives the prices: base, drop and least.
    rule: Option<[Entry; 3]>,
    prices: Vec<Price>,
}

/// A price, or the high end of a band with its low end.
#[derive(Debug, Clone)]
struct Price {
    low: Option<Entry>,
    high: Entry,
}

/// The words of a rule's cells, each before its number.
const RULE: [&str; 3] = ["base", "drop", "least"];

/// The table's numbers.
#[derive(Debug)]
struct Table {
    horizon: Entry,
    idles: Vec<Entry>,
    openings: Vec<Entry>,
    fees: Vec<Entry>,
    parts: Vec<Part>,
}

/// A cell's number. A number that is too large for any value is as good as the largest: it is outside its range.
fn entry(cell: &Cell, key: &str) -> Result<Entry, String> {
    let digits = !cell.text.is_empty() && cell.text.bytes().all(|byte| byte.is_ascii_digit());
    if !digits {
        let what = if cell.text.is_empty() {
            "the cell is empty".to_string()
        } else {
            format!("'{}' is not a whole number", shown(cell.text.as_bytes()))
        };
        return Err(format!("cell {}: {key}: {what}", cell.name()));
    }
    Ok(Entry { number: cell.text.parse().unwrap_or(u32::MAX), cell: cell.name() })
}

/// A cell's price: a number, or two with the word `to` between them.
fn price(cell: &Cell) -> Result<Price, String> {
    let words: Vec<&str> = cell.text.split_whitespace().collect();
    let number = |text: &str, key: &str| entry(&Cell { text: text.to_string(), ..cell.clone() }, key);
    match words[..] {
        [low, to, high] if to.eq_ignore_ascii_case("to") => Ok(Price { low: Some(number(low, "low")?), high: number(high, "high")? }),
        _ => Ok(Price { low: None, high: entry(cell, "price")? }),
    }
}

/// One entry for each opening: a single one stands for all.
fn each<T: Clone>(entries: Vec<T>, openings: usize) -> Vec<T> {
    match &entries[..] {
        [one] => vec![one.clone(); openings],
        _ => entries,
    }
}

impl Table {
    /// Reads the rows: those with a name first, then those of the parts.
    fn read(bytes: &[u8]) -> Result<Table, String> {
        let rows = sheets::rows(bytes)?;
        let parts_at = rows.iter().position(|row| row[0].text.eq_ignore_ascii_case("part"));
        let parts_at = parts_at.ok_or("there is no row that begins with `part`, the heads of the parts' rows")?;
        let named = |name: &str| -> Result<Option<&Vec<Cell>>, String> {
            let mut own = rows[..parts_at].iter().filter(|row| row[0].text.eq_ignore_ascii_case(name));
            match (own.next(), own.next()) {
                (_, Some(second)) => Err(format!("cell {}: there is another row `{name}` above", second[0].name())),
                (first, None) => Ok(first),
            }
        };
        let known = ["horizon", "idle", "opening", "fee"];
        let other = rows[..parts_at].iter().find(|row| !known.iter().any(|name| row[0].text.eq_ignore_ascii_case(name)));
        if let Some(row) = other {
            return Err(format!(
                "cell {}: '{}' is none of horizon, idle, opening, fee, part",
                row[0].name(),
                shown(row[0].text.as_bytes())
            ));
        }
        let list = |name: &str| -> Result<Vec<Entry>, String> {
            named(name)?.map_or(Ok(Vec::new()), |row| row[1..].iter().map(|cell| entry(cell, name)).collect())
        };
        let one = |name: &str| -> Result<Option<Entry>, String> {
            match (named(name)?, &list(name)?[..]) {
                (None, _) => Ok(None),
                (Some(_), [own]) => Ok(Some(own.clone())),
                (Some(row), _) => Err(format!("cell {}: `{name}` has one number behind it", row[0].name())),
            }
        };
        let openings = list("opening")?;
        Ok(Table {
            horizon: one("horizon")?.ok_or("there is no row `horizon`")?,
            idles: list("idle")?,
            fees: each(list("fee")?, openings.len()),
            parts: rows[parts_at + 1..].iter().enumerate().map(|(at, row)| part(row, at + 1, openings.len())).collect::<Result<_, _>>()?,
            openings,
        })
    }

    /// Has the library write the text.
    fn write(&self) -> Result<calls::Reply, Failure> {
        let numbers = |entries: &[Entry]| -> Vec<u32> { entries.iter().map(|entry| entry.number).collect() };
        let covers: Vec<&(Entry, Vec<Entry>)> = self.parts.iter().filter_map(|part| part.removal.as_ref()).collect();
        let prices: Vec<&Price> = self.parts.iter().flat_map(|part| &part.prices).collect();
        let rules = |at: usize| -> Vec<u32> { self.parts.iter().filter_map(|part| Some(part.rule.as_ref()?[at].number)).collect() };
        calls::write(&Form {
            horizon: self.horizon.number,
            idles: &numbers(&self.idles),
            openings: &numbers(&self.openings),
            fees: &numbers(&self.fees),
            lives: &self.parts.iter().map(|part| part.life.number).collect::<Vec<_>>(),
            lefts: &self.parts.iter().map(|part| part.left.number).collect::<Vec<_>>(),
            covered: &self.parts.iter().map(|part| u32::from(part.removal.is_some())).collect::<Vec<_>>(),
            removals: &covers.iter().map(|(removal, _)| removal.number).collect::<Vec<_>>(),
            insides: &covers.iter().map(|(_, holders)| holders.len() as u32).collect::<Vec<_>>(),
            holders: &covers.iter().flat_map(|(_, holders)| numbers(holders)).collect::<Vec<_>>(),
            ruled: &self.parts.iter().map(|part| u32::from(part.rule.is_some())).collect::<Vec<_>>(),
            bases: &rules(0),
            drops: &rules(1),
            leasts: &rules(2),
            banded: &prices.iter().map(|price| u32::from(price.low.is_some())).collect::<Vec<_>>(),
            lows: &prices.iter().filter_map(|price| Some(price.low.as_ref()?.number)).collect::<Vec<_>>(),
            prices: &prices.iter().map(|price| price.high.number).collect::<Vec<_>>(),
        })
    }

    /// The lines of the text: the key of each, and the cell that its value stands in; a count has none.
    fn lines(&self) -> Vec<(&'static str, &str)> {
        fn each<'e>(key: &'static str, entries: &'e [Entry]) -> impl Iterator<Item = (&'static str, &'e str)> {
            entries.iter().map(move |entry| (key, entry.cell.as_str()))
        }
        let mut lines = vec![("horizon", self.horizon.cell.as_str())];
        if !self.idles.is_empty() {
            lines.push(("idles", ""));
            lines.extend(each("idle", &self.idles));
        }
        lines.push(("openings", ""));
        for (at, opening) in self.openings.iter().enumerate() {
            lines.extend([("opening", opening.cell.as_str()), ("fee", self.fees.get(at).map_or("", |fee| &fee.cell))]);
        }
        lines.push(("parts", ""));
        for part in &self.parts {
            lines.extend([("life", part.life.cell.as_str()), ("left", &part.left.cell)]);
            if let Some((removal, holders)) = &part.removal {
                lines.extend([("removal", removal.cell.as_str()), ("inside", "")]);
                lines.extend(each("holder", holders));
            }
            for (key, entry) in RULE.into_iter().zip(part.rule.iter().flatten()) {
                lines.push((key, entry.cell.as_str()));
            }
            for Price { low, high } in &part.prices {
                lines.extend(low.iter().map(|low| ("low", low.cell.as_str())));
                lines.push((if low.is_some() { "high" } else { "price" }, high.cell.as_str()));
            }
        }
        lines
    }

    /// What is wrong, by the cell and by the line of the text that would have held it.
    fn fault(&self, result: u32, line: u32) -> String {
        let (key, cell) = self.lines().get(line.saturating_sub(1) as usize).copied().unwrap_or(("", ""));
        let words = match (result, key) {
            (3, "openings") if self.fees.len() != self.openings.len() => {
                format!("there are {} openings and {} fees", self.openings.len(), self.fees.len())
            }
            (3, "parts") => match self.parts.iter().position(|part| part.rule.is_none() && part.prices.len() != self.openings.len()) {
                Some(at) => {
                    format!("part {} has {} prices, and there are {} openings", at + 1, self.parts[at].prices.len(), self.openings.len())
                }
                None => meaning(result, key),
            },
            _ => meaning(result, key),
        };
        let place = if cell.is_empty() { String::new() } else { format!("cell {cell}: ") };
        format!("{place}{words}; line {line} of the text")
    }
}

/// The rule of these cells, which begin with the word `base`: base, drop and least, each word with its number behind it.
fn rule(cells: &[Cell]) -> Result<[Entry; 3], String> {
    let due = |at: usize| -> Result<&Cell, String> {
        cells
            .get(at)
            .ok_or_else(|| format!("cell {}: a rule is the cells base, drop and least, each with its number behind it", cells[0].name()))
    };
    let own = |at: usize| -> Result<Entry, String> {
        let word = due(2 * at)?;
        if !word.text.eq_ignore_ascii_case(RULE[at]) {
            return Err(format!("cell {}: the word `{}` is due here", word.name(), RULE[at]));
        }
        entry(due(2 * at + 1)?, RULE[at])
    };
    let rule = [own(0)?, own(1)?, own(2)?];
    match cells.get(6) {
        Some(cell) => Err(format!("cell {}: nothing stands behind a rule", cell.name())),
        None => Ok(rule),
    }
}

/// A part's row: number, life, left, removal, holders, prices or the rule that gives them.
fn part(row: &[Cell], number: usize, openings: usize) -> Result<Part, String> {
    let missing = |column: usize| Cell { row: row[0].row, column: column + 1, text: String::new() };
    let cell = |column: usize| row.get(column).cloned().unwrap_or_else(|| missing(column));
    if entry(&cell(0), "part")?.number as usize != number {
        return Err(format!("cell {}: part {number} is due here", row[0].name()));
    }
    let (removal, inside) = (cell(3), cell(4));
    let holders = inside.text.split([' ', ',', ';']).filter(|word| !word.is_empty());
    let holders: Vec<Entry> =
        holders.map(|word| entry(&Cell { text: word.to_string(), ..inside.clone() }, "holders")).collect::<Result<_, _>>()?;
    let cover = match (removal.text.is_empty(), holders.is_empty()) {
        (true, true) => None,
        (true, false) => Some((Entry { number: 0, cell: removal.name() }, holders)),
        (false, _) => Some((entry(&removal, "removal")?, holders)),
    };
    let behind = row.get(5..).unwrap_or_default();
    let ruled = behind.first().is_some_and(|cell| cell.text.eq_ignore_ascii_case(RULE[0]));
    let rule = if ruled { Some(rule(behind)?) } else { None };
    let prices = if ruled { &[][..] } else { behind };
    let prices: Vec<Price> = prices.iter().map(price).collect::<Result<_, _>>()?;
    Ok(Part { life: entry(&cell(1), "life")?, left: entry(&cell(2), "left")?, removal: cover, rule, prices: each(prices, openings) })
}
