//! Tables as spreadsheets save them: cells separated by commas, semicolons or tabs, quoted where they must be.

/// A cell: its row and column, counted from 1, and what it has, without the blanks around it.
#[derive(Debug, Clone, PartialEq, Eq)]
pub struct Cell {
    pub row: usize,
    pub column: usize,
    pub text: String,
}

impl Cell {
    /// As spreadsheets call it: `B12`.
    pub fn name(&self) -> String {
        place(self.row, self.column)
    }
}

/// A cell's name by its row and column, counted from 1.
pub fn place(row: usize, column: usize) -> String {
    let mut letters = String::new();
    let mut rest = column;
    while rest > 0 {
        letters.insert(0, char::from(b'A' + ((rest - 1) % 26) as u8));
        rest = (rest - 1) / 26;
    }
    format!("{letters}{row}")
}

/// The rows that have something in them; empty cells behind a row's last one are left out. The fault is a sentence.
pub fn rows(bytes: &[u8]) -> Result<Vec<Vec<Cell>>, String> {
    if bytes.starts_with(b"\xff\xfe") || bytes.starts_with(b"\xfe\xff") || bytes.contains(&0) {
        return Err("the table is not plain text (UTF-16, or a spreadsheet's own format): save it as CSV in UTF-8".to_string());
    }
    let bytes = bytes.strip_prefix(b"\xef\xbb\xbf").unwrap_or(bytes);
    let text = std::str::from_utf8(bytes).map_err(|_| "the table is not UTF-8: save it as CSV in UTF-8".to_string())?;
    let between = separator(text);
    let mut reader = Reader { rest: text.chars().peekable(), between, row: 1 };
    let mut rows = Vec::new();
    while let Some(row) = reader.row()? {
        let last = row.iter().rposition(|cell| !cell.text.is_empty());
        rows.extend(last.map(|last| row[..=last].to_vec()));
    }
    Ok(rows)
}

/// What separates the cells: of comma, semicolon and tab the one that the first row with any of them has most often, outside quotes.
fn separator(text: &str) -> char {
    for line in text.lines() {
        let mut quoted = false;
        let mut counts = [(0, ','), (0, ';'), (0, '\t')];
        for letter in line.chars() {
            quoted ^= letter == '"';
            counts.iter_mut().filter(|(_, own)| !quoted && *own == letter).for_each(|(count, _)| *count += 1);
        }
        let most = counts.iter().rev().max_by_key(|(count, _)| *count).copied();
        if let Some((1.., own)) = most {
            return own;
        }
    }
    ','
}

struct Reader<'t> {
    rest: std::iter::Peekable<std::str::Chars<'t>>,
    between: char,
    row: usize,
}

impl Reader<'_> {
    /// The next row; none at the end.
    fn row(&mut self) -> Result<Option<Vec<Cell>>, String> {
        if self.rest.peek().is_none() {
            return Ok(None);
        }
        let (row, mut cells) = (self.row, Vec::new());
        loop {
            let text = self.cell(row, cells.len() + 1)?;
            cells.push(Cell { row, column: cells.len() + 1, text: text.trim().to_string() });
            match self.rest.next() {
                Some(letter) if letter == self.between => {}
                Some('\r') => {
                    self.rest.next_if_eq(&'\n');
                    break;
                }
                _ => break,
            }
        }
        self.row += 1;
        Ok(Some(cells))
    }

    /// The next cell, up to what ends it, which is left.
    fn cell(&mut self, row: usize, column: usize) -> Result<String, String> {
        let between = self.between;
        let ends = |letter: &char| *letter == between || *letter == '\n' || *letter == '\r';
        let mut text = String::new();
        if self.rest.next_if_eq(&'"').is_some() {
            loop {
                match self.rest.next() {
                    Some('"') if self.rest.next_if_eq(&'"').is_some() => text.push('"'),
                    Some('"') => break,
                    Some(letter) => text.push(letter),
                    None => return Err(format!("cell {}: the quotes do not end", place(row, column))),
                }
            }
        }
        while let Some(letter) = self.rest.next_if(|letter| !ends(letter)) {
            text.push(letter);
        }
        Ok(text)
    }
}

#[cfg(test)]
mod tests {
    use super::*;

    fn texts(table: &str) -> Vec<Vec<String>> {
        let rows = rows(table.as_bytes()).expect("a table");
        rows.into_iter().map(|row| row.into_iter().map(|cell| cell.text).collect()).collect()
    }

    /// Separators, quotes, line ends and byte order marks as spreadsheets write them.
    #[test]
    fn tables_as_spreadsheets_save_them() {
        let plain = texts("a,b\n1,\"2, and \"\"3\"\"\"\n");
        assert_eq!(plain, [vec!["a", "b"], vec!["1", "2, and \"3\""]]);
        assert_eq!(texts("\u{feff}a;b\r\n1;2,5\r\n"), [vec!["a", "b"], vec!["1", "2,5"]]);
        assert_eq!(texts("a\tb\n\n,\n 1 \t\t\n"), [vec!["a", "b"], vec![","], vec!["1"]]);
        assert_eq!(texts(""), Vec::<Vec<String>>::new());
        assert_eq!(rows(b"a,\"b").expect_err("quotes"), "cell B1: the quotes do not end");
        assert!(rows(b"\xff\xfea\0").is_err() && rows(b"\xe9").is_err());
    }

    /// Names of cells; rows without anything count.
    #[test]
    fn cells_have_names() {
        assert_eq!((place(1, 1), place(12, 26), place(3, 27), place(1, 703)), ("A1".into(), "Z12".into(), "AA3".into(), "AAA1".into()));
        let rows = rows(b"a\n\n\nb,c\n").expect("a table");
        assert_eq!(rows[1][1].name(), "B4");
    }
}
