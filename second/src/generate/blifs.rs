//! Random BLIF texts: written ones in other orders, spoiled ones, and ones at the limits.

use super::blif_damage::{overdo, spoil_bytes, undefine, unform, unline};
use super::networks::{good, large};
use super::random::Random;
use crate::blif;
use crate::extract::run;
use crate::network::{Network, MOST_CUBES};
use crate::protocol::MOST_LINE;

pub type Line = Vec<u8>;

/// A block: the names of its line, and its rows without their outputs.
#[derive(Clone)]
pub struct Block {
    pub names: Vec<String>,
    pub rows: Vec<Vec<u8>>,
}

/// The parts of a text, which need not keep the form.
pub struct Draft {
    pub model: Vec<u8>,
    pub inputs: Vec<String>,
    pub outputs: Vec<String>,
    pub blocks: Vec<Block>,
}

/// As many bytes as a request that reads them has room for.
const MOST_BYTES: usize = (MOST_LINE - 10) / 2;

/// Anything that may be read as BLIF.
pub fn text(r: &mut Random) -> Vec<u8> {
    let mut text = match r.below(400) {
        0..=9 => blif::write(&network(r)).into_bytes(),
        10..=69 => drafted(r, |_, _| ()),
        70..=124 => drafted(r, unform),
        125..=174 => drafted(r, undefine),
        175..=219 => drafted(r, overdo),
        220..=259 => drafted(r, two_compete),
        260..=319 => spoiled_lines(r),
        320..=339 => spoiled_bytes(r),
        340..=364 => soup(r),
        365..=391 => at_a_limit(r),
        392..=395 => noise(r),
        _ => long(r),
    };
    text.truncate(MOST_BYTES);
    text
}

/// A network to write, of any size; mostly with divisors.
fn network(r: &mut Random) -> Network {
    if r.one_in(40) {
        return large(r).network().unwrap_or_else(|| good(r));
    }
    let mut network = good(r);
    if network.divisors.is_empty() && r.one_in(2) {
        run(&mut network, 3);
    }
    network
}

fn drafted(r: &mut Random, change: impl Fn(&mut Random, &mut Draft)) -> Vec<u8> {
    let mut draft = rearranged(r);
    change(r, &mut draft);
    let lines = lines_of(&draft);
    finished(r, &lines)
}

/// Two reasons for a refusal, of which one comes first whatever stands earlier in the text.
fn two_compete(r: &mut Random, draft: &mut Draft) {
    match r.below(4) {
        0 => {
            unform(r, draft);
            undefine(r, draft);
        }
        1 => {
            unform(r, draft);
            overdo(r, draft);
        }
        _ => {
            undefine(r, draft);
            overdo(r, draft);
        }
    }
}

fn spoiled_lines(r: &mut Random) -> Vec<u8> {
    let mut draft = rearranged(r);
    if r.one_in(4) {
        undefine(r, &mut draft);
    }
    let mut lines = lines_of(&draft);
    unline(r, &mut lines);
    finished(r, &lines)
}

fn spoiled_bytes(r: &mut Random) -> Vec<u8> {
    let mut text = drafted(r, |_, _| ());
    spoil_bytes(r, &mut text);
    text
}

/// The parts of what the writer makes of a network, in any order, under any model name.
fn rearranged(r: &mut Random) -> Draft {
    let mut draft = draft(&network(r));
    if r.one_in(2) {
        r.shuffle(&mut draft.blocks);
    }
    if r.one_in(2) {
        draft.blocks.iter_mut().for_each(|block| r.shuffle(&mut block.rows));
    }
    if r.one_in(2) {
        draft.model = model(r);
    }
    draft
}

fn draft(network: &Network) -> Draft {
    let text = blif::write(network);
    let lines: Vec<&str> = text.lines().collect();
    let names = |line: &str| line.split(' ').skip(1).map(str::to_string).collect::<Vec<String>>();
    let mut blocks: Vec<Block> = Vec::new();
    for line in &lines[3..lines.len() - 1] {
        match blocks.last_mut() {
            Some(block) if !line.starts_with('.') => {
                let reads = block.names.len() - 1;
                block.rows.push(line.as_bytes()[..reads].to_vec());
            }
            _ => blocks.push(Block { names: names(line), rows: Vec::new() }),
        }
    }
    Draft { model: b"net".to_vec(), inputs: names(lines[1]), outputs: names(lines[2]), blocks }
}

/// A name that ends in a backslash needs a break after it.
fn model(r: &mut Random) -> Vec<u8> {
    let names: [&[u8]; 18] = [
        b"m",
        b"x0",
        b".end",
        b".model",
        b".inputs",
        b"#",
        b"a#b",
        b"a\\b",
        b"\\\\a",
        b"a\\\\\n",
        b"\\\\\n",
        b"\\\\\\\n",
        b"\0",
        b"\x0b\x0c",
        b"\xff\x80",
        b"\xc2\xa0",
        b"\"net\"",
        b"1-1",
    ];
    match r.below(20) {
        0 => vec![b'n'; r.between(1, 3_000)],
        _ => names[r.below(names.len())].to_vec(),
    }
}

fn lines_of(draft: &Draft) -> Vec<Line> {
    let headed = |first: &str, names: &[String]| {
        let words: Vec<&str> = std::iter::once(first).chain(names.iter().map(String::as_str)).collect();
        words.join(" ").into_bytes()
    };
    let mut lines = vec![[b".model ", draft.model.as_slice()].concat()];
    lines.push(headed(".inputs", &draft.inputs));
    lines.push(headed(".outputs", &draft.outputs));
    for block in &draft.blocks {
        lines.push(headed(".names", &block.names));
        let line = |row: &Vec<u8>| if row.is_empty() { b"1".to_vec() } else { [row.as_slice(), b" 1"].concat() };
        lines.extend(block.rows.iter().map(line));
    }
    lines.push(b".end".to_vec());
    lines
}

/// The text of the lines, with its last LF or without, its lines broken or not.
fn finished(r: &mut Random, lines: &[Line]) -> Vec<u8> {
    let mut text = lines.join(&b'\n');
    if !r.one_in(3) {
        text.push(b'\n');
    }
    match r.below(5) {
        0 => {
            let every = r.pick(&[1, 2, 5, 20, 100]);
            broken(r, &text, every)
        }
        1 => {
            let few = 1 + text.len() / r.between(1, 3);
            broken(r, &text, few)
        }
        _ => text,
    }
}

/// Breaks at about one in so many places, also before the first byte and after the last, several in a row too.
fn broken(r: &mut Random, text: &[u8], one_in: usize) -> Vec<u8> {
    let at_ends = r.one_in(3);
    let one_in = one_in.max(text.len() / 8_000);
    let mut new = Vec::new();
    for place in 0..=text.len() {
        let is_end = place == 0 || place == text.len();
        if r.one_in(one_in) || (is_end && at_ends) {
            let many = if r.one_in(4) { r.between(2, 4) } else { 1 };
            new.extend(b"\\\n".repeat(many));
        }
        new.extend(text.get(place));
    }
    new
}

/// A draft of so many inputs, outputs and divisors, each with one or two rows of all that it reads.
fn sized(r: &mut Random, inputs: usize, outputs: usize, divisors: usize) -> Draft {
    let names = |kind: char, many: usize| (0..many).map(|i| format!("{kind}{i}")).collect::<Vec<String>>();
    let variables = inputs + divisors;
    let mut blocks: Vec<Block> = Vec::new();
    for own in inputs..variables {
        blocks.push(small_block(r, own, format!("x{own}")));
    }
    for own in names('y', outputs) {
        blocks.push(small_block(r, variables, own));
    }
    if r.one_in(2) {
        r.shuffle(&mut blocks);
    }
    Draft { model: b"net".to_vec(), inputs: names('x', inputs), outputs: names('y', outputs), blocks }
}

/// A block that reads a few of so many variables.
fn small_block(r: &mut Random, variables: usize, own: String) -> Block {
    let many = r.below(4).min(variables);
    let mut reads: Vec<usize> = (0..many).map(|_| r.below(variables)).collect();
    reads.sort();
    reads.dedup();
    let mut rows = vec![vec![b'1'; reads.len()]; r.below(2)];
    if !reads.is_empty() {
        let row: Vec<u8> = reads.iter().map(|_| r.pick(b"01")).collect();
        rows = vec![row];
        if r.one_in(2) {
            let mut other = rows[0].clone();
            other[0] ^= 1;
            rows.push(other);
        }
    }
    let names = reads.iter().map(|v| format!("x{v}")).chain([own]);
    Block { names: names.collect(), rows }
}

/// At the limits of inputs, outputs, variables, cubes and literals.
fn at_a_limit(r: &mut Random) -> Vec<u8> {
    let mut draft = match r.below(9) {
        0 | 1 => {
            let (inputs, outputs, divisors) = (r.between(31, 34), r.between(1, 3), r.below(3));
            sized(r, inputs, outputs, divisors)
        }
        2 | 3 => {
            let (inputs, outputs, divisors) = (r.between(1, 5), r.between(31, 34), r.below(3));
            sized(r, inputs, outputs, divisors)
        }
        4 | 5 => {
            let (inputs, variables) = (r.between(1, 33), r.between(63, 66));
            let outputs = r.between(1, 3);
            sized(r, inputs, outputs, variables - inputs)
        }
        6 | 7 => many_rows(r),
        _ => many_literals(r),
    };
    if r.one_in(6) {
        undefine(r, &mut draft);
    }
    let lines = lines_of(&draft);
    finished(r, &lines)
}

/// Distinct rows that have all of so many variables: none contains another.
fn full_rows(many: usize, variables: usize) -> Vec<Vec<u8>> {
    let mark = |row: usize, place: usize| if (row >> place.min(12)) & 1 == 1 { b'1' } else { b'0' };
    (0..many).map(|row| (0..variables).map(|place| mark(row, place)).collect()).collect()
}

/// The block reads just the names given, in rows of them all.
fn read_all(block: &mut Block, reads: &[String], rows: Vec<Vec<u8>>) {
    let own = block.names.pop();
    block.names = reads.iter().cloned().chain(own).collect();
    block.rows = rows;
}

/// About 1,088 cubes in one to three outputs.
fn many_rows(r: &mut Random) -> Draft {
    let outputs = r.between(1, 3);
    let mut draft = sized(r, 11, outputs, 0);
    let first = r.between(0, 500);
    let own = draft.blocks.iter().skip(1).map(|block| block.rows.len()).sum::<usize>();
    let left = r.between(MOST_CUBES - 2, MOST_CUBES + 3) - own;
    let mut rows = full_rows(first + left, 11).split_off(first);
    r.shuffle(&mut rows);
    read_all(&mut draft.blocks[0], &draft.inputs, rows);
    draft
}

/// About 32,768 literals in nine outputs.
fn many_literals(r: &mut Random) -> Draft {
    let mut draft = sized(r, 32, 9, 0);
    for block in &mut draft.blocks {
        let is_last = block.names.last().is_some_and(|own| own == "y8");
        let (rows, reads) = if is_last { (1, r.below(3)) } else { (128, 32) };
        read_all(block, &draft.inputs[..reads], full_rows(rows, reads));
    }
    draft
}

/// Long texts: of breaks, of one long word or line, or of very many blocks.
fn long(r: &mut Random) -> Vec<u8> {
    let many = r.pick(&[1_000, 10_000, 60_000]);
    let mut draft = sized(r, 3, 2, 2);
    match r.below(6) {
        0 => draft.model = [b"\\\n".repeat(many).as_slice(), b"m"].concat(),
        1 => draft.model = vec![r.pick(b"n\\#\xff"); many],
        2 => draft.blocks[0].names[0] += &"0".repeat(many),
        3 => draft.blocks[0].rows.push(vec![b'-'; many]),
        4 => draft = sized(r, 3, 2, many / 20),
        _ => {
            draft = sized(r, many / 10, 2, 0);
            read_all(&mut draft.blocks[0], &draft.inputs, full_rows(1, many / 10));
        }
    }
    if r.one_in(4) {
        undefine(r, &mut draft);
    }
    lines_of(&draft).join(&b'\n')
}

const SOUP: [&str; 22] = [
    ".names y0",
    ".names y0\n1",
    ".names y0\n1\n1",
    ".names x0 y0\n1 1",
    ".names x0 y0\n1 1\n0 1",
    ".names x0 y0\n0 1\n0 1",
    ".names x0 y0\n- 1\n1 1",
    ".names x0 x1 y0\n1- 1\n-0 1",
    ".names x0 x1 y0\n1- 1\n10 1",
    ".names x1 y0\n0 1",
    ".names x2 y0\n1 1",
    ".names x0 x3 y0\n11 1",
    ".names y1",
    ".names x0\n1",
    ".names x1",
    ".names x2",
    ".names x0 x1\n0 1",
    ".names x0 x2\n1 1",
    ".names x1 x2\n1 1\n1 1",
    ".names x2 x3\n0 1",
    ".names x3 x4\n1 1",
    ".names x4\n1",
];

/// A head, and blocks taken at random from what might stand below it.
fn soup(r: &mut Random) -> Vec<u8> {
    let inputs = r.pick(&[".inputs x0", ".inputs x0", ".inputs x0 x1", ".inputs x0 x1", ".inputs"]);
    let outputs = r.pick(&[".outputs y0", ".outputs y0", ".outputs y0", ".outputs y0 y1", ".outputs"]);
    let mut lines: Vec<Line> = [".model m", inputs, outputs].map(|line| line.as_bytes().to_vec()).to_vec();
    for _ in 0..r.between(0, 5) {
        lines.push(SOUP[r.below(SOUP.len())].as_bytes().to_vec());
    }
    lines.push(b".end".to_vec());
    finished(r, &lines)
}

/// Any bytes, or any of those that a text is made of.
fn noise(r: &mut Random) -> Vec<u8> {
    let many = r.below(60);
    let alphabet = b".modelinputsnamesend xy01-\\\n";
    let any = r.one_in(2);
    (0..many).map(|_| if any { r.word() as u8 } else { r.pick(alphabet) }).collect()
}
