//! Table texts that are mostly refused, at columns of every sort.

use super::random::Random;
use super::tables::{messy, Line};

/// Good lines, then the one to refuse, then whatever follows.
pub fn text(r: &mut Random) -> Vec<u8> {
    let mut lines = match r.below(24) {
        0..=11 => no_kind(r, stray),
        12..=15 => no_kind(r, cut),
        16 | 17 => misplaced(r),
        18 => early_end(r),
        19 | 20 => out_of_range(r),
        21 => broken_promise(r),
        _ => brimful(r),
    };
    let last = lines.pop().unwrap_or_default();
    let mut text = Vec::new();
    for line in &lines {
        put(r, line, &mut text);
        text.push(b'\n');
    }
    if r.one_in(40) {
        text.extend(vec![b' '; r.between(240, 300)]);
    }
    messy(r, &last, &mut text);
    text.extend([b"".as_slice(), b"\n", b"\n.e", b"\n.end\n", b"\nx\n.e\n"][r.below(5)]);
    text
}

fn put(r: &mut Random, line: &[u8], text: &mut Vec<u8>) {
    if r.one_in(4) {
        messy(r, line, text);
    } else {
        text.extend(line);
    }
}

fn size(r: &mut Random) -> usize {
    if r.one_in(4) {
        r.between(7, 32)
    } else {
        r.between(1, 6)
    }
}

fn marks(r: &mut Random, many: usize, of: &[u8]) -> Line {
    (0..many).map(|_| r.pick(of)).collect()
}

fn cube_line(r: &mut Random, inputs: usize, outputs: usize) -> Line {
    [marks(r, inputs, b"01-"), marks(r, outputs, b"01")].join(&b' ')
}

fn number_line(letter: u8, number: &[u8]) -> Line {
    [&[b'.', letter, b' '], number].concat()
}

fn sized(letter: u8, size: usize) -> Line {
    number_line(letter, size.to_string().as_bytes())
}

fn some_digits(r: &mut Random, most: usize) -> Line {
    let many = r.between(1, most);
    marks(r, many, b"0123456789")
}

/// Any line of a kind, or one with a digit or two more than that.
fn some_line(r: &mut Random, inputs: usize, outputs: usize) -> Line {
    match r.below(9) {
        0..=3 => number_line(r.pick(b"iop"), &some_digits(r, 7)),
        4 => b".e".to_vec(),
        5 => b".end".to_vec(),
        _ => cube_line(r, inputs, outputs),
    }
}

fn add_cubes(r: &mut Random, lines: &mut Vec<Line>, many: usize, sizes: (usize, usize)) {
    (0..many).for_each(|_| lines.push(cube_line(r, sizes.0, sizes.1)));
}

/// Good lines before the one to refuse: both sizes and some cubes, or one size, or none.
fn beginning(r: &mut Random, inputs: usize, outputs: usize) -> Vec<Line> {
    let mut lines = vec![sized(b'i', inputs), sized(b'o', outputs)];
    r.shuffle(&mut lines);
    let has_both = !r.one_in(3);
    if !has_both {
        lines.truncate(r.below(2));
    }
    if r.one_in(3) {
        lines.insert(r.below(lines.len() + 1), sized(b'p', r.below(5)));
    }
    if has_both {
        let many = r.below(4);
        add_cubes(r, &mut lines, many, (inputs, outputs));
    }
    lines
}

/// A line alone, with so many blanks that it is about as long as a text may be.
pub fn wide(r: &mut Random) -> Vec<u8> {
    let mut line = some_line(r, 1, 1);
    match r.below(3) {
        0 => stray(r, &mut line),
        1 => cut(r, &mut line),
        _ => (),
    }
    let mut places: Vec<usize> = (0..line.len()).filter(|place| line[*place] == b' ').collect();
    places.extend([0, line.len()]);
    let (place, whole) = (r.pick(&places), r.pick(&[65_535, 65_536, 65_536, 65_537]));
    line.splice(place..place, vec![b' '; whole - line.len()]);
    line
}

/// A line that was of a kind, changed.
fn no_kind(r: &mut Random, change: fn(&mut Random, &mut Line)) -> Vec<Line> {
    let (inputs, outputs) = (size(r), size(r));
    let mut lines = beginning(r, inputs, outputs);
    let mut line = some_line(r, inputs, outputs);
    change(r, &mut line);
    lines.push(line);
    lines
}

/// A byte that mostly no good line holds there, at any place of it or after its end.
fn stray(r: &mut Random, line: &mut Line) {
    let at = r.below(line.len());
    let byte = r.pick(b"xE2.-01 \t\r#~|ined\x00\x0b\x0c\x7f\x80\xa0\xff");
    match r.below(8) {
        0 | 1 => line[at] = byte,
        2 | 3 => line.insert(at, byte),
        4 => {
            line.remove(at);
        }
        5 => line.insert(at, line[at]),
        6 => {
            line.truncate(at);
            line.push(byte);
        }
        _ => {
            line.extend([b"".as_slice(), b" ", b"  ", b"\t"][r.below(4)]);
            line.push(byte);
        }
    }
}

/// The beginning of a good line alone.
fn cut(r: &mut Random, line: &mut Line) {
    line.truncate(r.between(1, line.len() - 1));
}

/// A size or a number of cube lines once more, or after a cube.
fn misplaced(r: &mut Random) -> Vec<Line> {
    let (inputs, outputs) = (size(r), size(r));
    let many = r.below(4);
    let mut lines = vec![sized(b'i', inputs), sized(b'o', outputs)];
    if many == 0 || r.one_in(2) {
        lines.push(sized(b'p', many));
    }
    r.shuffle(&mut lines);
    add_cubes(r, &mut lines, many, (inputs, outputs));
    lines.push(number_line(r.pick(b"iop"), &some_digits(r, 5)));
    lines
}

/// `.e` while a size is missing.
fn early_end(r: &mut Random) -> Vec<Line> {
    let given = r.pick(&[b"".as_slice(), b"i", b"o", b"p", b"ip", b"po"]);
    let mut lines: Vec<Line> = given.iter().map(|letter| sized(*letter, size(r))).collect();
    lines.push(if r.one_in(2) { b".e".to_vec() } else { b".end".to_vec() });
    lines
}

const SIDES: [&str; 14] =
    ["0", "00", "00000", "33", "033", "00033", "34", "64", "65", "100", "99999", "32768", "32", "00032"];
const PROMISES: [&str; 6] = ["32769", "32770", "40000", "65536", "99999", "32768"];

/// A number past what its line allows, after some of the other head lines.
fn out_of_range(r: &mut Random) -> Vec<Line> {
    let mut letters = *b"iop";
    r.shuffle(&mut letters);
    let before = r.below(3);
    let mut lines: Vec<Line> = letters[..before].iter().map(|letter| sized(*letter, size(r))).collect();
    let number = if letters[before] == b'p' { r.pick(&PROMISES) } else { r.pick(&SIDES) };
    lines.push(number_line(letters[before], number.as_bytes()));
    lines
}

/// `.p` of a good table, one or more off.
fn broken_promise(r: &mut Random) -> Vec<Line> {
    let (inputs, outputs, many) = (size(r), size(r), r.below(5));
    let wrong = r.pick(&[many + 1, many + 7, 32_768, many.saturating_sub(1), 0]);
    let mut lines = vec![sized(b'i', inputs), sized(b'o', outputs), sized(b'p', wrong)];
    r.shuffle(&mut lines);
    add_cubes(r, &mut lines, many, (inputs, outputs));
    lines.push(if r.one_in(2) { b".e".to_vec() } else { b".end".to_vec() });
    lines
}

/// A table with little room left for rows, and a cube line that mostly has more.
fn brimful(r: &mut Random) -> Vec<Line> {
    let (inputs, outputs) = (r.between(1, 9), r.between(16, 32));
    let left = r.below(outputs);
    let mut lines = vec![sized(b'i', inputs), sized(b'o', outputs)];
    let rows = 1_024 - left;
    (0..rows / outputs).for_each(|_| lines.push(with_rows(r, inputs, outputs, outputs)));
    lines.push(with_rows(r, inputs, outputs, rows % outputs));
    r.shuffle(&mut lines[2..]);
    let many = r.between(left, outputs);
    lines.push(with_rows(r, inputs, outputs, many));
    lines
}

/// A cube line that makes so many rows.
fn with_rows(r: &mut Random, inputs: usize, outputs: usize, rows: usize) -> Line {
    let mut own: Line = (0..outputs).map(|place| if place < rows { b'1' } else { b'0' }).collect();
    r.shuffle(&mut own);
    [marks(r, inputs, b"01-"), own].join(&b' ')
}
