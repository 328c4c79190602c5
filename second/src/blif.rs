//! BLIF: the writer, and the reader of the same subset.

use crate::cubes::{Expression, Variable};
use crate::image::in_listing_order;
use crate::network::{Lent, Network, MOST_VARIABLES};
use std::collections::{BTreeMap, BTreeSet};

/// The text of a network: divisors in the image's order and numbering, then outputs.
pub fn write(network: &Network) -> String {
    let ordered = in_listing_order(network);
    let names = |kind: char, many: usize| (0..many).map(|i| format!(" {kind}{i}")).collect::<String>();
    let (inputs, outputs) = (names('x', ordered.inputs), names('y', ordered.outputs.len()));
    let mut text = format!(".model net\n.inputs{inputs}\n.outputs{outputs}\n");
    text.extend(ordered.divisors.iter().enumerate().map(|(i, node)| block(node, 'x', ordered.inputs + i)));
    text.extend(ordered.outputs.iter().enumerate().map(|(j, node)| block(node, 'y', j)));
    text + ".end\n"
}

/// The block of one node: the variables that its cubes read, its own name, a row for each cube.
fn block(node: &Expression, kind: char, number: usize) -> String {
    let literals = node.iter().flat_map(|cube| cube.literals());
    let reads: BTreeSet<Variable> = literals.map(|l| l.variable()).collect();
    let names: String = reads.iter().map(|v| format!(" {}", v.plain().text())).collect();
    let blank = if reads.is_empty() { "" } else { " " };
    let mut text = format!(".names{names} {kind}{number}\n");
    for cube in node {
        text.extend(reads.iter().map(|v| cube.mark(*v)));
        text += blank;
        text += "1\n";
    }
    text
}

/// A name in a text. Every output comes after every variable, so that the names of a block's line ascend.
#[derive(Clone, Copy, PartialEq, Eq, PartialOrd, Ord)]
enum Name {
    X(u64),
    Y(u64),
}

/// A block that keeps the form; a row is held without its output.
struct Block<'a> {
    reads: Vec<u64>,
    defines: Name,
    rows: Vec<&'a [u8]>,
}

/// A text whose lines keep the form; what its numbers leave out is still to be seen.
struct Form<'a> {
    inputs: u64,
    outputs: u64,
    blocks: Vec<Block<'a>>,
}

/// The network of a text, or the number of its refusal.
pub fn read(text: &[u8]) -> Result<Network, u64> {
    let unbroken = without_breaks(text);
    let form = form_of(&unbroken).ok_or(14u64)?;
    let variables = form.variables();
    if has_gap(&variables) || !form.puts_out_only_outputs() {
        return Err(14);
    }
    if !form.defines_each_once(&variables) {
        return Err(15);
    }
    form.network(variables.len()).ok_or(10)
}

/// Each backslash right before an LF goes with it. What the two sides of a break make together is no new break.
fn without_breaks(text: &[u8]) -> Vec<u8> {
    let mut kept = Vec::with_capacity(text.len());
    let mut left = text;
    loop {
        match left {
            [b'\\', b'\n', rest @ ..] => left = rest,
            [byte, rest @ ..] => {
                kept.push(*byte);
                left = rest;
            }
            [] => return kept,
        }
    }
}

/// None where a line is missing, out of its place or not of the form.
fn form_of(text: &[u8]) -> Option<Form<'_>> {
    let whole = text.strip_suffix(b"\n").unwrap_or(text);
    let lines: Vec<&[u8]> = whole.split(|byte| *byte == b'\n').collect();
    let [model, inputs, outputs, blocks @ .., b".end"] = lines.as_slice() else {
        return None;
    };
    let [name] = words_after(b".model", model)?[..] else {
        return None;
    };
    let is_word = !name.is_empty() && !name.iter().any(|byte| b"\t\r".contains(byte));
    let inputs = counted(&names_after(b".inputs", inputs)?, Name::X)?;
    let outputs = counted(&names_after(b".outputs", outputs)?, Name::Y)?;
    let blocks = blocks_of(blocks).filter(|_| is_word)?;
    Some(Form { inputs, outputs, blocks })
}

/// The words after a line's first, which is the one given; blanks that are not single make empty words.
fn words_after<'a>(first: &[u8], line: &'a [u8]) -> Option<Vec<&'a [u8]>> {
    let mut words = line.split(|byte| *byte == b' ');
    (words.next() == Some(first)).then(|| words.collect())
}

fn names_after(first: &[u8], line: &[u8]) -> Option<Vec<Name>> {
    words_after(first, line)?.into_iter().map(name_of).collect()
}

fn name_of(word: &[u8]) -> Option<Name> {
    match word {
        [b'x', digits @ ..] => number_of(digits).map(Name::X),
        [b'y', digits @ ..] => number_of(digits).map(Name::Y),
        _ => None,
    }
}

/// A number without leading zero. One past 64 bits is held as the greatest: no text names all smaller numbers,
/// so that it stands above a gap in any case.
fn number_of(digits: &[u8]) -> Option<u64> {
    let is_number = match digits {
        [] | [b'0', _, ..] => false,
        _ => digits.iter().all(u8::is_ascii_digit),
    };
    let up = |sum: u64, digit: &u8| sum.saturating_mul(10).saturating_add(u64::from(digit - b'0'));
    is_number.then(|| digits.iter().fold(0, up))
}

/// How many names there are, if they are those of a kind from 0 on.
fn counted(names: &[Name], kind: fn(u64) -> Name) -> Option<u64> {
    let many = names.len() as u64;
    names.iter().copied().eq((0..many).map(kind)).then_some(many)
}

/// A line that names begins a block, any other is a row of the block that it stands in.
fn blocks_of<'a>(lines: &[&'a [u8]]) -> Option<Vec<Block<'a>>> {
    let mut blocks: Vec<Block> = Vec::new();
    for line in lines {
        if let Some(names) = names_after(b".names", line) {
            blocks.push(empty_block(&names)?);
        } else {
            let block = blocks.last_mut()?;
            block.rows.push(row_of(line, block.reads.len())?);
        }
    }
    blocks.iter().all(Block::uses_all_it_reads).then_some(blocks)
}

/// The block of a line whose names ascend, all but the last being variables.
fn empty_block<'a>(names: &[Name]) -> Option<Block<'a>> {
    let (defines, reads) = names.split_last()?;
    let number = |name: &Name| match name {
        Name::X(number) => Some(*number),
        Name::Y(_) => None,
    };
    let reads = reads.iter().map(number).collect::<Option<Vec<u64>>>()?;
    let ascend = names.windows(2).all(|two| two[0] < two[1]);
    ascend.then_some(Block { reads, defines: *defines, rows: Vec::new() })
}

/// One of `0 1 -` for each name that is read, a space and `1`; only `1` where none is read.
fn row_of(line: &[u8], reads: usize) -> Option<&[u8]> {
    let end: &[u8] = if reads == 0 { b"1" } else { b" 1" };
    let row = line.strip_suffix(end)?;
    let fits = row.len() == reads && row.iter().all(|mark| b"01-".contains(mark));
    fits.then_some(row)
}

/// Some smaller number is not in the set.
fn has_gap(numbers: &BTreeSet<u64>) -> bool {
    numbers.last().is_some_and(|last| *last >= numbers.len() as u64)
}

impl Block<'_> {
    fn uses_all_it_reads(&self) -> bool {
        (0..self.reads.len()).all(|place| self.rows.iter().any(|row| row[place] != b'-'))
    }

    /// The words of its rows, while no variable is past the masks.
    fn words(&self) -> Vec<u64> {
        let mask = |row: &[u8], mark: u8| {
            let places = self.reads.iter().zip(row).filter(|(_, own)| **own == mark);
            places.map(|(variable, _)| 1u64 << variable).sum()
        };
        self.rows.iter().flat_map(|row| [mask(row, b'1'), mask(row, b'0')]).collect()
    }
}

impl Form<'_> {
    /// Every x that stands in the text.
    fn variables(&self) -> BTreeSet<u64> {
        let mut all: BTreeSet<u64> = (0..self.inputs).collect();
        for block in &self.blocks {
            all.extend(&block.reads);
            if let Name::X(number) = block.defines {
                all.insert(number);
            }
        }
        all
    }

    fn puts_out_only_outputs(&self) -> bool {
        self.blocks.iter().all(|block| block.defines < Name::Y(self.outputs))
    }

    /// The line of inputs defines those, and a block its own name.
    fn defines_each_once(&self, variables: &BTreeSet<u64>) -> bool {
        let mut times: BTreeMap<Name, usize> = BTreeMap::new();
        let inputs = (0..self.inputs).map(Name::X);
        for name in inputs.chain(self.blocks.iter().map(|block| block.defines)) {
            *times.entry(name).or_default() += 1;
        }
        let outputs = (0..self.outputs).map(Name::Y);
        let mut all = variables.iter().copied().map(Name::X).chain(outputs);
        all.all(|name| times.get(&name) == Some(&1))
    }

    /// The network of so many variables, or none if it breaks a rule or a limit.
    fn network(mut self, variables: usize) -> Option<Network> {
        if variables > MOST_VARIABLES {
            return None;
        }
        self.blocks.sort_by_key(|block| (block.defines < Name::Y(0), block.defines));
        let lent = Lent {
            n: self.inputs,
            m: self.outputs,
            k: variables as u64 - self.inputs,
            counts: self.blocks.iter().map(|block| block.rows.len() as u64).collect(),
            words: self.blocks.iter().flat_map(Block::words).collect(),
        };
        lent.network()
    }
}
