//! The line protocol: one request a line, one answer a line.

use crate::cokernel::cokernels;
use crate::cubes::{is_over_long, lent_expression, words_of, Cube, Expression};
use crate::divide::divide;
use crate::extract::{run, Divisor, Step};
use crate::network::{Lent, Network};
use crate::refusal::{whole, Refusal};
use crate::{blif, factor, image, report, table};
use std::io::{self, BufRead, Write};

pub const MOST_LINE: usize = 262_144;
pub const NO_REQUEST: &str = "no request";
pub const MOST_COUNTS: usize = 96;
pub const MOST_WORDS: usize = 2_176;

/// The words of an answer, put one blank apart at the end.
type Answer = Vec<String>;

/// Answers every line until the input ends.
pub fn serve(mut requests: impl BufRead, mut answers: impl Write) -> io::Result<()> {
    let mut line = Vec::new();
    while requests.read_until(b'\n', &mut line)? > 0 {
        if line.last() == Some(&b'\n') {
            line.pop();
        }
        answers.write_all(answer(&line).as_bytes())?;
        answers.write_all(b"\n")?;
        line.clear();
    }
    answers.flush()
}

/// The answer to one line, both without their LF.
pub fn answer(line: &[u8]) -> String {
    let fits = line.len() <= MOST_LINE;
    let text = std::str::from_utf8(line).ok().filter(|_| fits);
    text.and_then(respond).map_or(NO_REQUEST.to_string(), |words| words.join(" "))
}

/// None where the line fits no operation.
fn respond(line: &str) -> Option<Answer> {
    let groups = groups_of(line)?;
    let (head, rest) = groups.split_first()?;
    match (head.as_slice(), rest) {
        (["table", text], []) => Some(table_answer(table::read(&bytes_of(text)?))),
        (["divide"], [f, d, q, r]) => {
            Some(divide_answer(&numbers_of(f)?, &numbers_of(d)?, numbers_of(q)?, numbers_of(r)?))
        }
        (["cokernels"], [f, room]) => Some(cokernels_answer(&numbers_of(f)?, numbers_of(room)?)),
        (["factored"], [f, room]) => Some(factored_answer(&numbers_of(f)?, room_of(room)?)),
        (["literals"], [sizes, counts, words]) => {
            let network = lent_of(sizes, counts, words)?.network();
            Some(number_answer(network.map(|net| net.literal_count() as u64)))
        }
        (["evaluate", setting], [sizes, counts, words]) => {
            let setting = number_of(setting)?;
            let network = lent_of(sizes, counts, words)?.network();
            Some(number_answer(network.map(|net| net.evaluate(setting))))
        }
        (["extract", steps], [sizes, counts, words]) => {
            let steps = number_of(steps)?;
            Some(extract_answer(steps, lent_of(sizes, counts, words)?.network()))
        }
        (["write"], [sizes, counts, words, room]) => {
            let room = room_of(room)?;
            Some(write_answer(lent_of(sizes, counts, words)?.network(), room))
        }
        (["write-blif"], [sizes, counts, words, room]) => {
            let room = room_of(room)?;
            Some(write_blif_answer(lent_of(sizes, counts, words)?.network(), room))
        }
        (["read", bytes], []) => Some(network_answer(image::read(&bytes_of(bytes)?).map_err(whole))),
        (["read-blif", text], []) => Some(network_answer(blif::read(&bytes_of(text)?).map_err(whole))),
        (["report", text], []) => {
            let printed = report::report(&bytes_of(text)?);
            Some(vec![word("ok"), word(";"), bytes_text(printed.as_bytes())])
        }
        _ => None,
    }
}

/// Words one blank apart, in groups parted by a lone `;`.
fn groups_of(line: &str) -> Option<Vec<Vec<&str>>> {
    let words: Vec<&str> = line.split(' ').collect();
    if words.contains(&"") {
        return None;
    }
    Some(words.split(|word| *word == ";").map(<[&str]>::to_vec).collect())
}

/// A number: lower-case hex, no leading zero, at most 16 digits.
fn number_of(text: &str) -> Option<u64> {
    let is_digit = |c: char| matches!(c, '0'..='9' | 'a'..='f');
    let fits = (1..=16).contains(&text.len()) && text.chars().all(is_digit);
    let fits = fits && (text == "0" || !text.starts_with('0'));
    u64::from_str_radix(text, 16).ok().filter(|_| fits)
}

fn numbers_of(group: &[&str]) -> Option<Vec<u64>> {
    group.iter().map(|text| number_of(text)).collect()
}

/// Bytes: two hex digits for each, `-` for none.
fn bytes_of(text: &str) -> Option<Vec<u8>> {
    if text == "-" {
        return Some(Vec::new());
    }
    let digit = |c: u8| match c {
        b'0'..=b'9' => Some(c - b'0'),
        b'a'..=b'f' => Some(c - b'a' + 10),
        _ => None,
    };
    let byte = |two: &[u8]| match two {
        [high, low] => Some(16 * digit(*high)? + digit(*low)?),
        _ => None,
    };
    text.as_bytes().chunks(2).map(byte).collect()
}

/// A group that is one word of bytes.
fn room_of(group: &[&str]) -> Option<Vec<u8>> {
    match group {
        [only] => bytes_of(only),
        _ => None,
    }
}

fn lent_of(sizes: &[&str], counts: &[&str], words: &[&str]) -> Option<Lent> {
    let [n, m, k] = numbers_of(sizes)?[..] else {
        return None;
    };
    let counts = numbers_of(counts).filter(|all| all.len() <= MOST_COUNTS)?;
    let words = numbers_of(words).filter(|all| all.len() <= MOST_WORDS)?;
    Some(Lent { n, m, k, counts, words })
}

fn word(text: &str) -> String {
    text.to_string()
}

pub fn number_text(number: u64) -> String {
    format!("{number:x}")
}

pub fn bytes_text(bytes: &[u8]) -> String {
    if bytes.is_empty() {
        return word("-");
    }
    bytes.iter().map(|byte| format!("{byte:02x}")).collect()
}

/// The words of NET, one blank apart where it stands in a line.
pub fn lent_words(net: &Lent) -> Vec<String> {
    let mut all: Vec<String> = [net.n, net.m, net.k].map(number_text).to_vec();
    for group in [&net.counts, &net.words] {
        all.push(word(";"));
        all.extend(group.iter().copied().map(number_text));
    }
    all
}

fn refused(refusal: Refusal) -> Answer {
    vec![word("refused"), number_text(refusal.number), number_text(refusal.line)]
}

fn push_words(answer: &mut Answer, room: &[u64]) {
    answer.push(word(";"));
    answer.extend(room.iter().copied().map(number_text));
}

fn push_bytes(answer: &mut Answer, room: &[u8]) {
    answer.push(word(";"));
    answer.push(bytes_text(room));
}

fn network_answer(result: Result<Network, Refusal>) -> Answer {
    match result {
        Ok(network) => {
            let mut answer = vec![word("ok"), word(";")];
            answer.extend(lent_words(&network.lent()));
            answer
        }
        Err(refusal) => refused(refusal),
    }
}

/// A table's refusal alone says its column.
fn table_answer(result: Result<Network, Refusal>) -> Answer {
    let column = result.as_ref().err().map(|refusal| number_text(refusal.column));
    let mut answer = network_answer(result);
    answer.extend(column);
    answer
}

fn number_answer(result: Option<u64>) -> Answer {
    match result {
        Some(number) => vec![word("ok"), number_text(number)],
        None => refused(whole(10)),
    }
}

/// The result's words at the front of the room, the rest unchanged.
fn fill<T: Copy>(room: &mut [T], result: &[T]) {
    room[..result.len()].copy_from_slice(result);
}

/// Refusals in turn: 6 for either, 7 for either, 8, 9.
fn quotient_of(f: &[u64], d: &[u64], places: [usize; 2]) -> Result<(Expression, Expression), u64> {
    if is_over_long(f) || is_over_long(d) {
        return Err(6);
    }
    let (Some(f), Some(d)) = (lent_expression(f), lent_expression(d)) else {
        return Err(7);
    };
    if d.is_empty() {
        return Err(8);
    }
    let (quotient, remainder) = divide(&f, &d);
    if quotient.len() > places[0] || remainder.len() > places[1] {
        return Err(9);
    }
    Ok((quotient, remainder))
}

fn divide_answer(f: &[u64], d: &[u64], mut q: Vec<u64>, mut r: Vec<u64>) -> Answer {
    let mut answer = match quotient_of(f, d, [q.len() / 2, r.len() / 2]) {
        Ok((quotient, remainder)) => {
            fill(&mut q, &words_of(&quotient));
            fill(&mut r, &words_of(&remainder));
            vec![word("ok"), number_text(quotient.len() as u64), number_text(remainder.len() as u64)]
        }
        Err(number) => refused(whole(number)),
    };
    push_words(&mut answer, &q);
    push_words(&mut answer, &r);
    answer
}

/// Refusals of a single expression in turn: 6, 7.
fn single(f: &[u64]) -> Result<Expression, u64> {
    if is_over_long(f) {
        return Err(6);
    }
    lent_expression(f).ok_or(7)
}

fn cokernels_answer(f: &[u64], mut room: Vec<u64>) -> Answer {
    let result = single(f).and_then(|f| cokernels(&f, room.len() / 2).ok_or(9));
    let mut answer = match result {
        Ok(found) => {
            fill(&mut room, &words_of(&found));
            vec![word("ok"), number_text(found.len() as u64)]
        }
        Err(number) => refused(whole(number)),
    };
    push_words(&mut answer, &room);
    answer
}

/// Bytes put into the lent room, or 9.
fn bytes_answer(result: Result<Vec<u8>, u64>, mut room: Vec<u8>) -> Answer {
    let short = |bytes: Vec<u8>| if bytes.len() > room.len() { Err(9) } else { Ok(bytes) };
    let mut answer = match result.and_then(short) {
        Ok(bytes) => {
            fill(&mut room, &bytes);
            vec![word("ok"), number_text(bytes.len() as u64)]
        }
        Err(number) => refused(whole(number)),
    };
    push_bytes(&mut answer, &room);
    answer
}

fn factored_answer(f: &[u64], room: Vec<u8>) -> Answer {
    bytes_answer(single(f).map(|f| factor::text(&f).into_bytes()), room)
}

fn write_answer(network: Option<Network>, room: Vec<u8>) -> Answer {
    bytes_answer(network.map(|net| image::write(&net)).ok_or(10), room)
}

fn write_blif_answer(network: Option<Network>, room: Vec<u8>) -> Answer {
    bytes_answer(network.map(|net| blif::write(&net).into_bytes()).ok_or(10), room)
}

fn extract_answer(steps: u64, network: Option<Network>) -> Answer {
    let Some(mut network) = network else {
        return refused(whole(10));
    };
    let (stop, made) = run(&mut network, steps);
    let mut answer = vec![word("ok"), word(stop.text()), word(";")];
    answer.extend(lent_words(&network.lent()));
    for step in &made {
        answer.push(word(";"));
        answer.extend(step_words(step));
    }
    answer
}

fn step_words(step: &Step) -> Vec<String> {
    let joined = |part: &Cube| {
        let numbers: Vec<String> = part.literals().iter().map(|l| number_text(l.0.into())).collect();
        numbers.join(".")
    };
    let mut words = match &step.divisor {
        Divisor::Pair(one, other) => vec![word("pair"), number_text(one.0.into()), number_text(other.0.into())],
        Divisor::Sum(one, other) => vec![word("sum"), joined(one), joined(other)],
    };
    words.push(number_text(step.weight as u64));
    words.push(number_text(step.uses as u64));
    words
}
