//! Tables in Markdown: words to the left, numbers to the right.

use std::fmt;

/// A table whose first columns hold words and whose other columns hold numbers.
pub struct Table {
    words: usize,
    rows: Vec<Vec<String>>,
}

impl Table {
    /// A table without rows: how many columns hold words, and the heads of all columns.
    pub fn new(words: usize, heads: &[&str]) -> Table {
        Table {
            words,
            rows: vec![heads.iter().map(|head| head.to_string()).collect()],
        }
    }

    /// Appends a row.
    pub fn row(&mut self, columns: Vec<String>) {
        self.rows.push(columns);
    }

    /// How many characters the longest text of a column has.
    fn width(&self, column: usize) -> usize {
        self.rows
            .iter()
            .map(|row| row[column].chars().count())
            .max()
            .unwrap_or(0)
    }

    /// One line: each text in its column.
    fn line(&self, row: &[String]) -> String {
        let mut line = String::from("|");
        for (column, text) in row.iter().enumerate() {
            let width = self.width(column);
            line += &if column < self.words {
                format!(" {text:<width$} |")
            } else {
                format!(" {text:>width$} |")
            };
        }
        line
    }

    /// The line below the heads, which tells the side of each column.
    fn rule(&self) -> String {
        let mut line = String::from("|");
        for column in 0..self.rows[0].len() {
            line += &"-".repeat(self.width(column) + 1);
            line += if column < self.words { "-|" } else { ":|" };
        }
        line
    }
}

impl fmt::Display for Table {
    fn fmt(&self, out: &mut fmt::Formatter) -> fmt::Result {
        writeln!(out, "{}", self.line(&self.rows[0]))?;
        writeln!(out, "{}", self.rule())?;
        self.rows[1..]
            .iter()
            .try_for_each(|row| writeln!(out, "{}", self.line(row)))
    }
}
