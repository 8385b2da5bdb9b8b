//! Tables in plain text: columns as wide as they must be.

/// Where the last column is broken.
const WRAP: usize = 60;

/// A table: its heading, its columns' heads, and rows of as many cells. Numbers stand to the right; a head that begins with `<` is of a
/// column of words.
pub struct Table {
    pub title: String,
    pub heads: Vec<&'static str>,
    pub rows: Vec<Vec<String>>,
}

impl Table {
    /// The table's lines, with an empty one after them.
    pub fn text(&self) -> String {
        let heads: Vec<String> = self.heads.iter().map(|head| head.trim_start_matches('<').to_string()).collect();
        let rows: Vec<Vec<String>> = self.rows.iter().flat_map(|row| wrapped(row)).collect();
        let widths: Vec<usize> = (0..heads.len()).map(|column| width(&heads, &rows, column)).collect();
        let mut text = format!("{}\n", self.title);
        for row in std::iter::once(&heads).chain(&rows) {
            text += &self.line(row, &widths);
        }
        text + "\n"
    }

    /// One line of it.
    fn line(&self, row: &[String], widths: &[usize]) -> String {
        let mut line = String::new();
        for ((cell, width), head) in row.iter().zip(widths).zip(&self.heads) {
            let space = " ".repeat(width.saturating_sub(cell.chars().count()));
            line += if head.starts_with('<') { "  " } else { &space };
            line += if head.starts_with('<') { "" } else { "  " };
            line += cell;
            line += if head.starts_with('<') { &space } else { "" };
        }
        line.trim_end().to_string() + "\n"
    }
}

/// How wide a column is.
fn width(heads: &[String], rows: &[Vec<String>], column: usize) -> usize {
    std::iter::once(heads)
        .chain(rows.iter().map(Vec::as_slice))
        .filter_map(|row| row.get(column))
        .map(|cell| cell.chars().count())
        .max()
        .unwrap_or(0)
}

/// A row whose last cell is broken after a comma where it is too long: further lines have the other cells empty.
fn wrapped(row: &[String]) -> Vec<Vec<String>> {
    let Some((last, others)) = row.split_last() else { return Vec::new() };
    let mut lines = vec![String::new()];
    for item in last.split_inclusive(", ") {
        let line = lines.last().map_or(0, |line| line.chars().count());
        if line > 0 && line + item.trim_end().chars().count() > WRAP {
            lines.push(String::new());
        }
        lines.last_mut().into_iter().for_each(|line| line.push_str(item));
    }
    let cells = |at: usize| others.iter().map(move |cell| if at == 0 { cell.clone() } else { String::new() });
    lines.into_iter().enumerate().map(|(at, line)| cells(at).chain([line.trim_end().to_string()]).collect()).collect()
}
