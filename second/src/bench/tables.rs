//! Tables as plain aligned text, and the numbers in them.

use std::io::{self, Write};

use super::Pair;

/// The proved program may need so many times as much as the second one.
const BAR: f64 = 1.5;

/// Rows under their columns, the first column to the left, the others to the right.
#[derive(Clone, Debug)]
pub struct Table {
    rows: Vec<Vec<String>>,
}

impl Table {
    pub fn new(columns: &[&str]) -> Table {
        Table {
            rows: vec![columns.iter().map(|column| column.to_string()).collect()],
        }
    }

    pub fn row(&mut self, cells: Vec<String>) {
        self.rows.push(cells);
    }

    /// Prints the table under a heading, after an empty line, and at once.
    pub fn print(&self, heading: &str, out: &mut impl Write) -> io::Result<()> {
        writeln!(out, "\n{heading}")?;
        for row in &self.rows {
            for (column, cell) in row.iter().enumerate() {
                let width = self.width(column);
                match column {
                    0 => write!(out, "  {cell:width$}")?,
                    _ => write!(out, "  {cell:>width$}")?,
                }
            }
            writeln!(out)?;
        }
        out.flush()
    }

    fn width(&self, column: usize) -> usize {
        let cells = self.rows.iter().filter_map(|row| row.get(column));
        cells.map(|cell| cell.chars().count()).max().unwrap_or(0)
    }
}

/// A number with its digits in groups of three: 37,888.
pub fn grouped(number: u64) -> String {
    let digits = number.to_string();
    let mut grouped = String::new();
    for (index, digit) in digits.chars().enumerate() {
        if index > 0 && (digits.len() - index).is_multiple_of(3) {
            grouped.push(',');
        }
        grouped.push(digit);
    }
    grouped
}

/// So many times as much as the other, with two decimals.
pub fn ratio(one: u64, other: u64) -> String {
    format!("{:.2}", one as f64 / other as f64)
}

/// The share of each of so many, to the nearest whole number.
pub fn share(total: u64, count: u64) -> u64 {
    (total + count / 2).checked_div(count).unwrap_or(0)
}

/// Both numbers, their ratio, and the bar beside it.
pub fn beside(measured: Pair<u64>) -> [String; 4] {
    [
        grouped(measured.proved),
        grouped(measured.second),
        ratio(measured.proved, measured.second),
        format!("{BAR:.2}"),
    ]
}
