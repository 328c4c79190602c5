//! Random table texts: good ones, spoiled ones, and ones at the limits.

use super::columns;
use super::expressions::{cube, cubes, first_variables, from_kit, kit, pool, unions};
use super::random::Random;
use crate::cubes::Cube;

pub type Line = Vec<u8>;

/// Any table text. A heavy one has hundreds of rows to extract from.
pub fn text(r: &mut Random) -> Vec<u8> {
    match r.below(400) {
        0..=139 => finished(r, |_, _| ()),
        140..=194 => finished(r, spoil),
        195..=204 => finished(r, |r, lines| {
            spoil(r, lines);
            spoil(r, lines);
        }),
        205..=214 => soup(r),
        215..=369 => columns::text(r),
        370..=394 => edge(r),
        395 | 396 => long(r),
        397 => columns::wide(r),
        _ => heavy(r),
    }
}

/// A small table, changed and then put into a text.
fn finished(r: &mut Random, change: impl Fn(&mut Random, &mut Vec<Line>)) -> Vec<u8> {
    let inputs = if r.one_in(12) { r.between(11, 32) } else { r.between(1, 10) };
    let outputs = if r.one_in(12) { r.between(5, 32) } else { r.between(1, 4) };
    let mut lines = small(r, inputs, outputs);
    change(r, &mut lines);
    assemble(r, &lines)
}

/// The input part of a cube line.
fn input_part(cube: &Cube, inputs: usize) -> Line {
    first_variables(inputs).into_iter().map(|v| cube.mark(v) as u8).collect()
}

fn cube_line(cube: &Cube, inputs: usize, marks: &[bool]) -> Line {
    let mut line = input_part(cube, inputs);
    line.push(b' ');
    line.extend(marks.iter().map(|mark| if *mark { b'1' } else { b'0' }));
    line
}

/// Cube lines with much in common, some repeated or contained in others.
fn cube_lines(r: &mut Random, inputs: usize, outputs: usize) -> Vec<Line> {
    let among = first_variables(inputs.max(1));
    let (shared, kit) = (pool(r, &among), kit(r, &among));
    let mut lines = Vec::new();
    for output in 0..outputs.min(5) {
        let own = match r.below(5) {
            0 => unions(r, &shared, 6),
            1 => cubes(r, &among, 8),
            _ => from_kit(r, &kit),
        };
        for cube in own {
            let marks: Vec<bool> = (0..outputs).map(|o| o == output || r.one_in(4)).collect();
            lines.push(cube_line(&cube, inputs, &marks));
        }
    }
    if r.one_in(3) {
        lines.push(cube_line(&cube(r, &among, 3), inputs, &vec![false; outputs]));
    }
    if !lines.is_empty() && r.one_in(3) {
        let again = lines[r.below(lines.len())].clone();
        lines.push(again);
    }
    r.shuffle(&mut lines);
    lines
}

/// The lines of a good table with the cube lines given.
fn around(r: &mut Random, inputs: usize, outputs: usize, cube_lines: Vec<Line>) -> Vec<Line> {
    let mut lines: Vec<Line> = vec![format!(".i {inputs}").into_bytes(), format!(".o {outputs}").into_bytes()];
    if r.one_in(3) {
        lines.push(format!(".p {}", cube_lines.len()).into_bytes());
    }
    if r.one_in(3) {
        r.shuffle(&mut lines);
    }
    lines.extend(cube_lines);
    lines.push(if r.one_in(3) { b".end".to_vec() } else { b".e".to_vec() });
    lines
}

fn small(r: &mut Random, inputs: usize, outputs: usize) -> Vec<Line> {
    let own = cube_lines(r, inputs, outputs);
    around(r, inputs, outputs, own)
}

/// The text of the lines: plain, with CR, or with blanks and comments.
fn assemble(r: &mut Random, lines: &[Line]) -> Vec<u8> {
    let style = r.below(4);
    let mut text = Vec::new();
    for line in lines {
        match style {
            0 | 1 => text.extend(line),
            2 => text.extend([line.as_slice(), b"\r"].concat()),
            _ => messy(r, line, &mut text),
        }
        text.push(b'\n');
    }
    if r.one_in(3) {
        text.pop();
    }
    if r.one_in(8) {
        text.extend(b"\n1-1 0\n.i 9\nnot read");
    }
    text
}

fn blanks(r: &mut Random, least: usize) -> Vec<u8> {
    let many = r.between(least, least + 2);
    (0..many).map(|_| r.pick(b" \t\r")).collect()
}

/// A line with blanks and comments that change nothing.
pub fn messy(r: &mut Random, line: &[u8], text: &mut Vec<u8>) {
    if r.one_in(5) {
        text.extend([b"".as_slice(), b"# .e", b" \t", b"\r", b"#"][r.below(5)]);
        text.push(b'\n');
    }
    text.extend(blanks(r, 0));
    for byte in line {
        if *byte == b' ' {
            text.extend(blanks(r, 1));
        } else {
            text.push(*byte);
        }
    }
    text.extend(blanks(r, 0));
    if r.one_in(4) {
        text.extend([b"#".as_slice(), b"# 01- .i 4", b"##", b"#\0\xff\x80"][r.below(4)]);
    }
}

const NUMBERS: [&str; 26] = [
    "0", "1", "2", "31", "32", "33", "34", "40", "99999", "32767", "32768", "32769", "65536", "00004", "000004",
    "00000", "00032", "00033", "000001", "", "4x", "-1", "+3", "4 5", "0x4", "4.",
];

const JUNK: [&[u8]; 38] = [
    b".type fd",
    b".ilb a b",
    b".i",
    b".o",
    b".p",
    b".",
    b"..",
    b"e",
    b".e 5",
    b".e#x",
    b".end#",
    b".ende",
    b".E",
    b".END",
    b".I 4",
    b".i4",
    b"1",
    b"0 1",
    b"- -",
    b"01-",
    b".p4",
    b"\0",
    b"\xff",
    b"|",
    b"~",
    b".i 4#",
    b".o 1 #",
    b".i #4",
    b"1 1#1",
    b"\x0b",
    b"\x0c",
    b"\xc2\xa0",
    b". i 4",
    b".e.",
    b".en",
    b"10 1 1",
    b"10  ",
    b" .e",
];

/// Breaks a rule on table texts, or comes close to it.
fn spoil(r: &mut Random, lines: &mut Vec<Line>) {
    let at = r.below(lines.len());
    match r.below(17) {
        0 => {
            lines.remove(at.min(2));
        }
        1 => repeat_dot_line(r, lines),
        2 => {
            let moved = lines.remove(r.below(lines.len().min(3)));
            let place = r.below(lines.len() + 1);
            lines.insert(place, moved);
        }
        3 | 4 => change_number(r, lines),
        5 => wrong_promise(r, lines),
        6 => {
            lines.pop();
        }
        7 | 8 => change_byte(r, &mut lines[at]),
        9 | 10 => lines.insert(at, JUNK[r.below(JUNK.len())].to_vec()),
        11 => lines.swap(at, 0),
        12 => {
            let again = lines[at].clone();
            lines.insert(at, again);
        }
        13 => lines[at].retain(|byte| *byte != b' '),
        14 => lines[at].extend(b" 1"),
        15 => change_last(r, &mut lines[at]),
        _ => {
            lines.truncate(at);
        }
    }
    if lines.is_empty() {
        lines.push(b".e".to_vec());
    }
}

fn repeat_dot_line(r: &mut Random, lines: &mut Vec<Line>) {
    let dotted: Vec<Line> = lines.iter().filter(|line| line.starts_with(b".")).cloned().collect();
    if let Some(last) = dotted.len().checked_sub(1) {
        let mut again = dotted[r.between(0, last)].clone();
        if r.one_in(2) && again.len() > 3 {
            again.truncate(3);
            again.extend(NUMBERS[r.below(NUMBERS.len())].bytes());
        }
        let place = r.below(lines.len() + 1);
        lines.insert(place, again);
    }
}

fn change_number(r: &mut Random, lines: &mut [Line]) {
    let many = lines.len().min(3);
    let line = &mut lines[r.below(many)];
    line.truncate(3);
    line.extend(NUMBERS[r.below(NUMBERS.len())].bytes());
}

/// A `.p` that is one off, or far off, at some place of the head.
fn wrong_promise(r: &mut Random, lines: &mut Vec<Line>) {
    lines.retain(|line| !line.starts_with(b".p"));
    let right = lines.iter().filter(|line| !line.starts_with(b".")).count();
    let wrong = [right + 1, right.saturating_sub(1), 32_768, 32_769, right, 0][r.below(6)];
    let place = r.below(lines.len().min(3) + 1);
    lines.insert(place, format!(".p {wrong}").into_bytes());
}

/// Another last byte, which in a cube line is an output's.
fn change_last(r: &mut Random, line: &mut Line) {
    line.pop();
    line.push(r.pick(b"-~2|01"));
}

fn change_byte(r: &mut Random, line: &mut Line) {
    let byte = r.pick(b"01-~2.#x |ie\t\r\x00\x80\xff\x0b");
    let place = r.below(line.len() + 1);
    match r.below(3) {
        0 if place < line.len() => line[place] = byte,
        1 if place < line.len() => {
            line.remove(place);
        }
        _ => line.insert(place, byte),
    }
}

/// Lines taken at random from all that might stand in a table.
fn soup(r: &mut Random) -> Vec<u8> {
    let good: [&[u8]; 8] = [b".i 2", b".o 1", b".i 2", b".o 1", b"1- 1", b"01 1", b"-- 0", b".e"];
    let mut lines: Vec<Line> = Vec::new();
    for _ in 0..r.between(0, 9) {
        let line = if r.one_in(4) { JUNK[r.below(JUNK.len())] } else { good[r.below(good.len())] };
        lines.push(line.to_vec());
    }
    assemble(r, &lines)
}

/// At the limits of inputs, outputs and rows, at little cost.
fn edge(r: &mut Random) -> Vec<u8> {
    let (inputs, outputs) = [(32, 1), (33, 1), (1, 32), (2, 33), (32, 32), (33, 33), (0, 1), (1, 0)][r.below(8)];
    let mut lines = match r.below(3) {
        0 => many_marks(r, 32, 0),
        1 => {
            let more = r.below(4);
            many_marks(r, 32, more)
        }
        _ => small(r, inputs, outputs),
    };
    if r.one_in(4) {
        spoil(r, &mut lines);
    }
    assemble(r, &lines)
}

/// So many cube lines that put out everything, and a last one with some marks.
fn many_marks(r: &mut Random, full: usize, more: usize) -> Vec<Line> {
    let inputs = r.between(5, 8);
    let among = first_variables(inputs);
    let mut own: Vec<Line> = Vec::new();
    for _ in 0..full {
        own.push(cube_line(&cube(r, &among, inputs), inputs, &[true; 32]));
    }
    let marks: Vec<bool> = (0..32).map(|place| place < more).collect();
    own.push(cube_line(&cube(r, &among, 3), inputs, &marks));
    around(r, inputs, 32, own)
}

/// Long texts of little content: padded to the limit, or of very many lines.
fn long(r: &mut Random) -> Vec<u8> {
    let mut lines = small(r, 3, 2);
    if r.one_in(3) {
        spoil(r, &mut lines);
    }
    let text = assemble(r, &lines);
    let whole = [65_535, 65_536, 65_536, 65_537, 65_537, 65_540, 131_069][r.below(7)];
    let room = whole - text.len();
    let before = match r.below(3) {
        0 => vec![b'\n'; room],
        1 => [vec![b'#'; room - 1], vec![b'\n']].concat(),
        _ => return [text, b"\n# ".to_vec(), vec![b'.'; room - 3]].concat(),
    };
    [before, text].concat()
}

/// Several hundred rows and more, up to one past the limit.
fn heavy(r: &mut Random) -> Vec<u8> {
    let rows = [300, 500, 1_024, 1_024, 1_025, 1_026][r.below(6)];
    let inputs = r.between(10, 14);
    let among = first_variables(inputs);
    let shared = [pool(r, &among), pool(r, &among), pool(r, &among)].concat();
    let mut own: Vec<Line> = Vec::new();
    let whole_setting = r.one_in(2);
    while own.len() < rows {
        let bits = own.len() as u64;
        let next = match whole_setting {
            true => vec![Cube::from_masks(bits & 0x3ff, !bits & 0x3ff)],
            false => unions(r, &shared, 1),
        };
        own.extend(next.iter().map(|c| cube_line(c, inputs, &[true])));
    }
    r.shuffle(&mut own);
    let lines = around(r, inputs, 1, own);
    assemble(r, &lines)
}
