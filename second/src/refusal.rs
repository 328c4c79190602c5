//! The refusal list: a number from 1 to 15, a line, and a column.

/// A refusal holds its number, its line and its column alone.
#[derive(Clone, Copy, Debug, PartialEq, Eq)]
pub struct Refusal {
    pub number: u64,
    pub line: u64,
    pub column: u64,
}

impl Refusal {
    /// What is printed of a refused table.
    pub fn text(&self) -> String {
        format!("refused {} at line {} column {}", self.number, self.line, self.column)
    }
}

/// A refusal of a table text, at a byte of one of its lines.
pub fn at(number: u64, line: usize, column: usize) -> Refusal {
    Refusal { number, line: line as u64, column: column as u64 }
}

/// A refusal outside the lines of a table text: line 0, column 0.
pub fn whole(number: u64) -> Refusal {
    at(number, 0, 0)
}
