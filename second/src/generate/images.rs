//! Random images: written ones, cut ones, and ones of bad fields.

use super::networks::good;
use super::random::Random;
use crate::image::{in_listing_order, Bits};
use crate::network::Network;

/// The fields of an image, which need not be in range or in order.
struct Draft {
    edition: usize,
    n: usize,
    m: usize,
    k: usize,
    nodes: Vec<Vec<Vec<usize>>>,
    /// The place among all fields of one that is written otherwise.
    wrong: Option<usize>,
    by: usize,
}

/// The hand-worked image of four inputs.
const WORKED: [u8; 14] = [0x11, 0x80, 0x10, 0x04, 0x04, 0x00, 0x10, 0x40, 0x08, 0x10, 0x41, 0x00, 0x83, 0x08];

/// Anything that may be read as an image.
pub fn image(r: &mut Random) -> Vec<u8> {
    match r.below(400) {
        0..=89 => crate::image::write(&good(r)),
        90..=239 => {
            let mut draft = draft(&good(r));
            spoil(r, &mut draft);
            if r.one_in(4) {
                spoil(r, &mut draft);
            }
            let (mut bytes, padding) = pack(&draft);
            if r.one_in(6) {
                spoil_bytes(r, &mut bytes, padding);
            }
            bytes
        }
        240..=339 => {
            let (mut bytes, padding) = pack(&draft(&good(r)));
            spoil_bytes(r, &mut bytes, padding);
            bytes
        }
        340..=364 => {
            let mut bytes = WORKED.to_vec();
            spoil_bytes(r, &mut bytes, 0);
            bytes
        }
        365..=379 => noise(r),
        380..=387 => one_count(r),
        388..=397 => many_cubes(r),
        _ => many_literals(r),
    }
}

/// The fields of a network's image.
fn draft(network: &Network) -> Draft {
    let ordered = in_listing_order(network);
    let nodes = ordered.divisors.iter().chain(&ordered.outputs);
    let literals = |cube: &crate::cubes::Cube| cube.literals().iter().map(|l| usize::from(l.0)).collect();
    Draft {
        edition: 1,
        n: ordered.inputs,
        m: ordered.outputs.len(),
        k: ordered.divisors.len(),
        nodes: nodes.map(|node| node.iter().map(literals).collect()).collect(),
        wrong: None,
        by: 0,
    }
}

/// The bytes of the fields, and how many padding bits they end in.
fn pack(draft: &Draft) -> (Vec<u8>, usize) {
    let mut fields: Vec<(usize, usize)> = vec![(draft.edition, 4), (draft.n - 1, 5), (draft.m - 1, 5), (draft.k, 6)];
    for node in &draft.nodes {
        fields.push((node.len(), 11));
        for cube in node {
            fields.push((cube.len(), 7));
            fields.extend(cube.iter().map(|literal| (*literal, 7)));
        }
    }
    if let Some(wrong) = draft.wrong {
        let place = wrong % fields.len();
        fields[place].0 = fields[place].0.wrapping_add(draft.by) % (1 << fields[place].1);
    }
    let mut bits = Bits::default();
    fields.iter().for_each(|(value, width)| bits.put(*value, *width));
    (bits.bytes(), (8 - bits.len() % 8) % 8)
}

/// Puts a field out of range, or the fields out of order.
fn spoil(r: &mut Random, draft: &mut Draft) {
    let at = r.below(draft.nodes.len());
    match r.below(15) {
        0 => draft.edition = r.pick(&[0, 2, 3, 9, 15]),
        1 => draft.k = (65 - draft.n).min(63),
        2 | 3 => {
            draft.wrong = Some(r.below(200));
            draft.by = r.pick(&[1, 2, 3, 64, 127, 1_023, 1_087, 2_047, 30]);
        }
        4 => r.shuffle(&mut draft.nodes[at]),
        5 => swap_divisors(r, draft),
        6 => add_node_literal(r, draft, at),
        14 => {
            let first = at.min(draft.k / 2);
            add_node_literal(r, draft, first);
        }
        7 => {
            let again = draft.nodes[at].first().cloned();
            draft.nodes[at].extend(again);
        }
        8 => add_containing(r, draft, at),
        _ => spoil_cube(r, draft, at),
    }
}

/// Two divisors in each other's places, though their readers stay as they are.
fn swap_divisors(r: &mut Random, draft: &mut Draft) {
    if draft.k > 1 && draft.nodes.len() >= draft.k {
        let (one, other) = (r.below(draft.k), r.below(draft.k));
        draft.nodes.swap(one, other);
    }
}

/// A cube of one literal, in its place by order: it may be of a later divisor,
/// of the divisor itself or of no variable.
fn add_node_literal(r: &mut Random, draft: &mut Draft, at: usize) {
    let variables = (draft.n + draft.k).min(63);
    let least = if r.one_in(2) { 0 } else { draft.n.min(variables) };
    let literal = r.between(2 * least, 2 * variables + 1);
    draft.nodes[at].push(vec![literal]);
    draft.nodes[at].sort();
}

/// A cube that contains another one, in its place by order.
fn add_containing(r: &mut Random, draft: &mut Draft, at: usize) {
    let mut more = draft.nodes[at].first().cloned().unwrap_or_default();
    let literal = r.below(2 * (draft.n + draft.k).min(64));
    more.push(literal);
    more.sort();
    more.dedup();
    draft.nodes[at].push(more);
    draft.nodes[at].sort();
}

/// Repeats, turns round, negates or raises literals of one cube.
fn spoil_cube(r: &mut Random, draft: &mut Draft, at: usize) {
    let most = 2 * (draft.n + draft.k).min(64);
    if draft.nodes[at].is_empty() {
        draft.nodes[at].push(vec![0, 0]);
        return;
    }
    let place = r.below(draft.nodes[at].len());
    let cube = &mut draft.nodes[at][place];
    let literal = r.below(most);
    match r.below(7) {
        0 => cube.push(literal),
        1 => cube.insert(0, literal),
        2 => cube.reverse(),
        3 => cube.extend(cube.last().copied()),
        4 => cube.extend(cube.first().map(|first| first ^ 1)),
        5 => cube.push(most.min(127)),
        _ => {
            cube.extend(cube.first().map(|first| first ^ 1));
            r.shuffle(cube);
        }
    }
}

/// Cuts, lengthens or flips the bytes themselves.
fn spoil_bytes(r: &mut Random, bytes: &mut Vec<u8>, padding: usize) {
    let at = r.below(bytes.len().max(1));
    match r.below(6) {
        0 | 1 => bytes.truncate(at),
        2 => bytes.extend(vec![r.pick(&[0, 0, 1, 0x80, 0xff]); r.between(1, 3)]),
        3 if padding > 0 => {
            if let Some(last) = bytes.last_mut() {
                *last |= 1 << r.below(padding);
            }
        }
        _ => {
            if let Some(byte) = bytes.get_mut(at) {
                *byte ^= 1 << r.below(8);
            }
        }
    }
}

/// Any bytes, mostly after an edition of 1.
fn noise(r: &mut Random) -> Vec<u8> {
    let many = r.below(40);
    let mut bytes: Vec<u8> = (0..many).map(|_| r.word() as u8 & r.word() as u8).collect();
    if let Some(first) = bytes.first_mut() {
        *first = (*first & 0x0f) | if r.one_in(6) { *first & 0xf0 } else { 0x10 };
    }
    bytes
}

/// A header and a first count at its limit, and little after them.
fn one_count(r: &mut Random) -> Vec<u8> {
    let mut bits = Bits::default();
    [(1, 4), (r.below(32), 5), (r.below(32), 5), (0, 6)].iter().for_each(|(value, width)| bits.put(*value, *width));
    bits.put(r.pick(&[1_087, 1_088, 1_089, 1_090, 2_047]), 11);
    let mut bytes = bits.bytes();
    bytes.extend(vec![0; r.below(12)]);
    bytes
}

/// Cubes of one literal over all outputs, around 1,088 in all.
fn many_cubes(r: &mut Random) -> Vec<u8> {
    let whole = r.between(1_086, 1_091);
    let (m, n) = (r.between(24, 32), 32);
    let mut nodes = vec![Vec::new(); m];
    for place in 0..whole {
        nodes[place % m].push(vec![place / m]);
    }
    let mut draft = Draft { edition: 1, n, m, k: 0, nodes, wrong: None, by: 0 };
    if r.one_in(4) {
        let at = r.below(m);
        r.shuffle(&mut draft.nodes[at]);
    }
    if r.one_in(4) {
        draft.nodes[0] = vec![vec![0]; r.pick(&[1_087, 1_088, 1_089])];
    }
    let (mut bytes, padding) = pack(&draft);
    if r.one_in(5) {
        spoil_bytes(r, &mut bytes, padding);
    }
    bytes
}

/// Around 32,768 literals as written: distinct cubes of all inputs, in order,
/// or with literals repeated.
fn many_literals(r: &mut Random) -> Vec<u8> {
    let ways: Vec<usize> = (0..1_024).collect();
    let cube = |way: &usize| (0..32).map(|v| 2 * v + (way >> (31 - v).min(10)) % 2).collect::<Vec<usize>>();
    let mut long: Vec<Vec<usize>> = ways.iter().map(cube).collect();
    long.sort();
    if r.one_in(4) {
        long[500] = vec![3; 32];
    }
    let more = vec![vec![0]; r.below(2)];
    let draft = Draft { edition: 1, n: 32, m: 2, k: 0, nodes: vec![long, more], wrong: None, by: 0 };
    pack(&draft).0
}
