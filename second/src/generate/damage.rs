//! Lines that are no request, or nearly one.

use super::random::Random;
use crate::protocol::MOST_LINE;

/// A line with one thing changed, so that it mostly fits no operation.
pub fn damaged(r: &mut Random, mut line: Vec<u8>) -> Vec<u8> {
    let at = r.below(line.len());
    match r.below(14) {
        0 => line[at] = r.pick(b"0123456789abcdefABCDEF;- xg"),
        1 => line[at] = any_byte(r),
        2 => line.truncate(at),
        3 => {
            line.remove(at);
        }
        4 => line.insert(at, r.pick(b"0123456789abcdef")),
        5 => insert_at_blank(r, &mut line, b" "),
        6 => insert_at_blank(r, &mut line, b" ;"),
        7 => insert_at_blank(r, &mut line, b" 0"),
        8 => insert_at_blank(r, &mut line, b" 10000000000000000"),
        9 => insert_at_blank(r, &mut line, b" 01"),
        10 => remove_word(r, &mut line),
        11 => line.push(r.pick(b" \t\r;0-")),
        12 => line.insert(0, b' '),
        _ => {
            let name = line.iter().position(|byte| *byte == b' ').unwrap_or(0);
            line[name..].make_ascii_uppercase();
        }
    }
    line
}

fn any_byte(r: &mut Random) -> u8 {
    match r.word() as u8 {
        b'\n' => b'\r',
        other => other,
    }
}

/// Puts something in before one of the blanks, or at the end.
fn insert_at_blank(r: &mut Random, line: &mut Vec<u8>, new: &[u8]) {
    let mut places: Vec<usize> = (0..line.len()).filter(|place| line[*place] == b' ').collect();
    places.push(line.len());
    let place = r.pick(&places);
    line.splice(place..place, new.iter().copied());
}

fn remove_word(r: &mut Random, line: &mut Vec<u8>) {
    let mut words: Vec<&[u8]> = line.split(|byte| *byte == b' ').collect();
    words.remove(r.below(words.len()));
    *line = words.join(&b' ');
}

const LINES: [&[u8]; 51] = [
    b"",
    b" ",
    b";",
    b"; ;",
    b"-",
    b"0",
    b"quit",
    b"Table -",
    b"table",
    b"table ",
    b"table - -",
    b"table -;",
    b"table ; -",
    b"table - ;",
    b"table 0",
    b"table 0g",
    b"table 2E65",
    b"table -2e",
    b"tables -",
    b"read",
    b"read -",
    b"report",
    b"report -",
    b"divide",
    b"divide ; ; ; ;",
    b"divide ; ; ; ; ;",
    b"divide ; ; ;",
    b"divide ;;;;",
    b"cokernels ; ;",
    b"cokernels ;",
    b"cokernels ; ; 0 0",
    b"factored ; ; -",
    b"factored ; ;",
    b"factored ; ; 00",
    b"factored ; ; - -",
    b"literals ; 1 1 0 ; ;",
    b"literals ; 1 1 ; ;",
    b"literals 1 1 0 ; ;",
    b"evaluate ; 1 1 0 ; ;",
    b"evaluate 0 0 ; 1 1 0 ; ;",
    b"extract ; 1 1 0 ; ;",
    b"write ; 1 1 0 ; ; ; -",
    b"write ; 1 1 0 ; ; ;",
    b"write-blif",
    b"write-blif ; 1 1 0 ; ; ; -",
    b"write-blif ; 1 1 0 ; ; ;",
    b"write_blif ; 1 1 0 ; ; ; -",
    b"read-blif",
    b"read-blif -",
    b"read-blif - -",
    b"ok",
];

/// Lines that name no operation, lines of few words, noise, and long lines.
pub fn other(r: &mut Random) -> Vec<u8> {
    match r.below(300) {
        0..=199 => LINES[r.below(LINES.len())].to_vec(),
        200..=279 => {
            let many = r.below(60);
            (0..many).map(|_| any_byte(r)).collect()
        }
        280..=289 => too_many_words(r),
        290..=296 => nearly_text(r),
        _ => at_the_longest(r),
    }
}

/// 96 or 97 counts, 2,176 or 2,177 words.
fn too_many_words(r: &mut Random) -> Vec<u8> {
    let counts = r.between(95, 97);
    let words = r.pick(&[0, 2_175, 2_176, 2_177, 2_178]);
    let head = r.pick(&["literals", "evaluate 1", "extract 1"]);
    format!("{head} ; 1 1 0 ;{} ;{}", " 0".repeat(counts), " 0".repeat(words)).into_bytes()
}

/// Words that are no number, or just one.
fn nearly_text(r: &mut Random) -> Vec<u8> {
    let number = r.pick(&["ffffffffffffffff", "10000000000000000", "00", "0x1", "+1", "-1", "A", "", "\u{663}"]);
    let line = match r.below(4) {
        0 => format!("cokernels ; {number} 0 ;"),
        1 => format!("evaluate {number} ; 1 1 0 ; 1 ; 1 0"),
        2 => format!("extract {number} ; 1 1 0 ; 1 ; 1 0"),
        _ => format!("literals ; 1 1 0 ; 0 {number} ;"),
    };
    line.into_bytes()
}

/// A line of about the greatest length, on either side of it.
fn at_the_longest(r: &mut Random) -> Vec<u8> {
    let over = r.below(2);
    let line = match r.below(3) {
        0 => format!("cokernels ; ; 1{}", " 0".repeat((MOST_LINE - 16) / 2 + over)),
        1 => format!("cokernels ; ; 10{}", " 0".repeat((MOST_LINE - 16) / 2 + over)),
        _ => format!("table {}", "0a".repeat((MOST_LINE - 6) / 2 + over)),
    };
    line.into_bytes()
}
