//! What is wrong with a table's line, and at which column: bytes of the line as it stands, counted from 1.

use crate::line::{before_comment, is_blank, kind_of, Sizes};

/// What is wrong with a line.
pub enum Fault {
    NoKind,
    /// Repeated, too early or too late.
    Misplaced,
    /// N is out of its range.
    Range,
    /// `.p` differs from the cube lines read.
    Promise,
    /// One row too many, made by this byte of those that are not blank, counted from 0.
    Rows(usize),
}

impl Fault {
    pub fn number(&self) -> u64 {
        match self {
            Fault::NoKind | Fault::Misplaced => 2,
            Fault::Range => 3,
            Fault::Promise => 4,
            Fault::Rows(_) => 6,
        }
    }

    /// The column of this fault in the line that has it.
    pub fn column(&self, line: &[u8], sizes: Sizes) -> usize {
        match self {
            Fault::NoKind => column_of_no_kind(line, sizes),
            Fault::Misplaced | Fault::Promise => columns_where(line, is_solid)[0],
            Fault::Range => columns_where(line, u8::is_ascii_digit)[0],
            Fault::Rows(place) => columns_where(line, is_solid)[*place],
        }
    }
}

fn is_solid(byte: &u8) -> bool {
    !is_blank(byte)
}

/// The columns of all bytes of a sort.
fn columns_where(line: &[u8], is_meant: fn(&u8) -> bool) -> Vec<usize> {
    (1..=line.len()).filter(|column| is_meant(&line[column - 1])).collect()
}

/// The first byte with which no good line goes on, or one past a line that merely ends too soon.
/// What begins a beginning of a good line begins that line too, so the first byte is found by halving.
fn column_of_no_kind(line: &[u8], sizes: Sizes) -> usize {
    let (kept, tails) = (without_end(line), tails(sizes));
    let lengths: Vec<usize> = (1..=kept.len()).collect();
    let good = lengths.partition_point(|length| begins_a_good_line(&kept[..*length], &tails, sizes));
    if good == kept.len() {
        line.len() + 1
    } else {
        good + 1
    }
}

/// A line without its comment and the blanks at its end; those in front stay, as columns count them.
fn without_end(line: &[u8]) -> &[u8] {
    let kept = before_comment(line);
    let last = kept.iter().rposition(is_solid);
    &kept[..last.map_or(0, |place| place + 1)]
}

/// Whether some good line begins so: one of the tails makes it a line of a kind.
fn begins_a_good_line(beginning: &[u8], tails: &[Vec<u8>], sizes: Sizes) -> bool {
    tails.iter().any(|tail| kind_of(&[beginning, tail].concat(), sizes).is_some())
}

/// Every end of one short good line of each sort, the empty end too.
///
/// They are enough to end any beginning of a good line. Up to its letters, the short line of the same letters has the
/// rest. In the blanks before N that is `1`; N once begun, and blanks at the end, need nothing more. A cube line may
/// have `0` at every place, so the line of zeros has as many as are missing, with its blank or, once blanks have
/// come, without it.
fn tails(sizes: Sizes) -> Vec<Vec<u8>> {
    let mut short = [".i 1", ".o 1", ".p 1", ".e", ".end"].map(str::to_string).to_vec();
    short.extend(sizes.map(|(inputs, outputs)| format!("{} {}", "0".repeat(inputs), "0".repeat(outputs))));
    let ends = |line: &String| -> Vec<Vec<u8>> { (0..=line.len()).map(|from| line[from..].into()).collect() };
    short.iter().flat_map(ends).collect()
}
