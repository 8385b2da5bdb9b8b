//! The jobs of `jobs/` and what TABLE.md says of them.

use std::fs;
use std::path::Path;

pub struct Row {
    pub name: String,
    pub text: Vec<u8>,
    pub nodes: u64,
    pub floor: u64,
    pub cost: u64,
}

impl Row {
    /// Whether a part has holders.
    pub fn is_held(&self) -> bool {
        self.text.windows(8).any(|window| window == b"\nholder=")
    }
}

/// The jobs whose walk has at most this many nodes.
pub fn up_to(nodes: u64) -> Vec<Row> {
    let folder = Path::new(env!("CARGO_MANIFEST_DIR")).join("../jobs");
    let table = fs::read_to_string(folder.join("TABLE.md")).expect("TABLE.md");
    let row = |line: &str| {
        let cells: Vec<&str> = line.split('|').map(str::trim).collect();
        let number = |at: usize| cells.get(at)?.parse::<u64>().ok();
        let (nodes, floor, cost) = (number(2)?, number(3)?, number(4)?);
        let name = cells[1].to_string();
        let text = fs::read(folder.join(format!("{name}.txt"))).expect("a job");
        Some(Row { name, text, nodes, floor, cost })
    };
    table.lines().filter_map(row).filter(|row| row.nodes <= nodes).collect()
}
