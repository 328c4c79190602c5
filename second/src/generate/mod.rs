//! Request lines from a seed: good ones, damaged ones and limit cases.

mod blif_damage;
mod blifs;
mod columns;
mod damage;
mod expressions;
mod images;
mod networks;
mod random;
mod rooms;
mod tables;

use crate::cokernel::cokernels;
use crate::compare::OTHER;
use crate::cubes::{is_over_long, lent_expression, without_dropped, Cube, Expression};
use crate::divide::divide;
use crate::network::Lent;
use crate::protocol::{bytes_text, lent_words, number_text, MOST_LINE};
use crate::{blif, factor, image};
pub use random::Random;

/// The operations, and lines that name none.
pub const KINDS: [&str; 13] = [
    "table",
    "divide",
    "cokernels",
    "factored",
    "literals",
    "evaluate",
    "extract",
    "write",
    "read",
    "write-blif",
    "read-blif",
    "report",
    OTHER,
];

/// So many requests, spread over the kinds named, or over all.
pub fn requests<'a>(seed: u64, count: u64, names: &'a [&'a str]) -> impl Iterator<Item = Vec<u8>> + 'a {
    let names = if names.is_empty() { &KINDS } else { names };
    let mut seeds = Random::new(seed);
    (0..count).map(move |_| {
        let mut r = Random::new(seeds.word());
        let name = names[r.below(names.len())];
        request(&mut r, name)
    })
}

fn request(r: &mut Random, name: &str) -> Vec<u8> {
    let line = match name {
        "table" | "report" => format!("{name} {}", bytes_text(&tables::text(r))),
        "read" => format!("read {}", bytes_text(&images::image(r))),
        "divide" => divide_line(r),
        "cokernels" => cokernels_line(r),
        "factored" => factored_line(r),
        "literals" => network_line("literals", &networks::handed_in(r)),
        "evaluate" => evaluate_line(r),
        "extract" => extract_line(r),
        "write" => write_line(r),
        "write-blif" => write_blif_line(r),
        "read-blif" => format!("read-blif {}", bytes_text(&blifs::text(r))),
        _ => return damage::other(r),
    };
    if r.one_in(16) {
        damage::damaged(r, line.into_bytes())
    } else {
        line.into_bytes()
    }
}

/// Groups after the operation's own words, an empty one leaving no blank.
fn line_of(head: &str, groups: &[Vec<String>]) -> String {
    let mut words = vec![head.to_string()];
    for group in groups {
        words.push(";".to_string());
        words.extend(group.iter().cloned());
    }
    words.join(" ")
}

fn texts(numbers: &[u64]) -> Vec<String> {
    numbers.iter().copied().map(number_text).collect()
}

/// F and D: mostly a product with a rest, so that there is something to find.
fn dividend_and_divisor(r: &mut Random) -> (Expression, Expression) {
    let among = expressions::some_variables(r, 2, 9);
    let half = among.len() / 2;
    let d = expressions::expression(r, &among[..half.max(1)], 7);
    match r.below(12) {
        0 => (expressions::expression(r, &among, 8), d),
        1 => (expressions::expression(r, &among, 8), Expression::from([Cube::default()])),
        2 => (expressions::expression(r, &among, 8), Expression::new()),
        3 => (d.clone(), d),
        4 => {
            let f = expressions::expression(r, &among, 9);
            let common = cokernels(&f, 200).and_then(|all| all.into_iter().nth(r.below(4)));
            let by = Expression::from([common.unwrap_or_default()]);
            let kernel = divide(&f, &by).0;
            (f, if r.one_in(2) { kernel } else { by })
        }
        _ => {
            let q = expressions::cubes(r, &among[half..], 5);
            let own: Vec<Cube> = d.iter().cloned().collect();
            let mut all = expressions::product(&q, &own);
            if r.one_in(2) {
                all.extend(expressions::cubes(r, &among, 4));
            }
            (without_dropped(all), d)
        }
    }
}

fn divide_line(r: &mut Random) -> String {
    let (f, d) = if r.one_in(120) { long_division(r) } else { dividend_and_divisor(r) };
    let (mut f, mut d) = (expressions::lent(r, &f), expressions::lent(r, &d));
    match r.below(18) {
        0 | 1 => expressions::spoil(r, &mut f),
        2 | 3 => expressions::spoil(r, &mut d),
        4 => {
            expressions::spoil(r, &mut f);
            expressions::spoil(r, &mut d);
        }
        _ => (),
    }
    let (quotient, remainder) = match (lent_or_none(&f), lent_or_none(&d)) {
        (Some(f), Some(d)) => divide(&f, &d),
        _ => Default::default(),
    };
    let rooms = [rooms::words(r, quotient.len()), rooms::words(r, remainder.len())];
    line_of("divide", &[texts(&f), texts(&d), texts(&rooms[0]), texts(&rooms[1])])
}

/// Expressions of about 1,024 cubes.
fn long_division(r: &mut Random) -> (Expression, Expression) {
    let many = r.between(1_023, 1_025);
    let long = expressions::two_hot(r, many);
    let among = expressions::first_variables(6);
    match r.below(3) {
        0 => (long, expressions::expression(r, &among, 3)),
        1 => (expressions::expression(r, &among, 9), long),
        _ => (long.clone(), long),
    }
}

fn lent_or_none(words: &[u64]) -> Option<Expression> {
    lent_expression(words).filter(|_| !is_over_long(words))
}

/// The words of one expression, spoiled now and then.
fn single(r: &mut Random) -> Vec<u64> {
    let f = match r.below(120) {
        0 => {
            let many = r.between(1_023, 1_025);
            expressions::two_hot(r, many)
        }
        1..=20 => {
            let among = expressions::some_variables(r, 5, 20);
            expressions::expression(r, &among, 16)
        }
        _ => {
            let among = expressions::some_variables(r, 1, 8);
            expressions::expression(r, &among, 9)
        }
    };
    let mut words = expressions::lent(r, &f);
    if r.one_in(6) {
        expressions::spoil(r, &mut words);
    }
    words
}

/// Now and then every minterm of a few variables, which has thousands of co-kernels.
fn cokernels_line(r: &mut Random) -> String {
    let (f, most) = if r.one_in(150) {
        let all = expressions::all_minterms(r.between(6, 8));
        (expressions::lent(r, &all), 10_000)
    } else {
        (single(r), 400)
    };
    let found = lent_or_none(&f).map(|f| cokernels(&f, most).map_or(60, |all| all.len()));
    let room = rooms::words(r, found.unwrap_or(2));
    line_of("cokernels", &[texts(&f), texts(&room)])
}

fn factored_line(r: &mut Random) -> String {
    let f = single(r);
    let length = lent_or_none(&f).map(|f| factor::text(&f).len());
    let room = rooms::bytes(r, length.unwrap_or(3));
    line_of("factored", &[texts(&f), vec![bytes_text(&room)]])
}

fn network_line(head: &str, net: &Lent) -> String {
    format!("{head} ; {}", lent_words(net).join(" "))
}

fn evaluate_line(r: &mut Random) -> String {
    let net = networks::handed_in(r);
    let setting = match r.below(4) {
        0 => r.word(),
        1 => u64::MAX,
        _ => r.word() & 0xff,
    };
    network_line(&format!("evaluate {setting:x}"), &net)
}

/// Long networks are asked for few steps.
fn extract_line(r: &mut Random) -> String {
    if r.one_in(60) {
        let steps = r.between(1, 12);
        return network_line(&format!("extract {steps:x}"), &networks::wide(r));
    }
    let net = networks::handed_in(r);
    let is_long = net.words.len() > 600;
    let steps = match r.below(10) {
        0 => 0,
        1 => 1,
        2..=4 => r.between(1, 5) as u64,
        _ if is_long => r.between(1, 8) as u64,
        5 => u64::MAX,
        6 => r.word(),
        _ => 64,
    };
    network_line(&format!("extract {steps:x}"), &net)
}

fn write_line(r: &mut Random) -> String {
    let net = networks::handed_in(r);
    let length = net.network().map(|network| image::write(&network).len());
    let room = rooms::bytes(r, length.unwrap_or(4));
    format!("{} ; {}", network_line("write", &net), bytes_text(&room))
}

/// A text is longer than its image, so that long rooms would not fit into a line.
fn write_blif_line(r: &mut Random) -> String {
    let net = if r.one_in(40) { networks::large(r) } else { networks::handed_in(r) };
    let length = net.network().map(|network| blif::write(&network).len());
    let head = network_line("write-blif", &net);
    let mut room = if r.one_in(16) { Vec::new() } else { rooms::bytes(r, length.unwrap_or(50)) };
    room.truncate((MOST_LINE - head.len() - 3) / 2);
    format!("{head} ; {}", bytes_text(&room))
}
