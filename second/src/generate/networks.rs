//! Random networks, and what is handed in for one but is none.

use super::expressions::{cubes, expression, first_variables, from_kit, kit, pool, unions};
use super::random::Random;
use crate::cubes::{without_dropped, Cube, Expression, Literal, Variable};
use crate::extract::run;
use crate::network::{Lent, Network, MOST_CUBES};

/// Masks by node, which need not be cubes.
struct Draft {
    n: u64,
    m: u64,
    k: u64,
    nodes: Vec<Vec<(u64, u64)>>,
}

/// Anything that may be handed in for a network.
pub fn handed_in(r: &mut Random) -> Lent {
    match r.below(400) {
        0..=259 => {
            let network = good(r);
            lend(r, &network)
        }
        260..=329 => {
            let mut draft = draft(&good(r));
            spoil(r, &mut draft);
            flat(&draft)
        }
        330..=389 => {
            let network = good(r);
            let mut lent = lend(r, &network);
            spoil_numbers(r, &mut lent);
            lent
        }
        390..=395 => {
            let network = many_variables(r);
            lend(r, &network)
        }
        396..=397 => wide(r),
        398 => full_of_literals(r),
        _ => one_long_node(r),
    }
}

/// Something at the limits of variables, cubes or literals.
pub fn large(r: &mut Random) -> Lent {
    match r.below(4) {
        0 => {
            let network = many_variables(r);
            lend(r, &network)
        }
        1 => wide(r),
        2 => full_of_literals(r),
        _ => one_long_node(r),
    }
}

/// A network that keeps all rules: outputs and divisors from random cubes,
/// after some steps, its divisors numbered in any order.
pub fn good(r: &mut Random) -> Network {
    let inputs = if r.one_in(10) { r.between(11, 32) } else { r.pick(&[1, 2, 3, 4, 5, 6, 6, 7, 7, 8, 8, 9, 10]) };
    let outputs = if r.one_in(10) { r.between(4, 32) } else { r.between(1, 3) };
    let wild = if r.one_in(2) { r.between(0, 5) } else { 0 };
    let divisors: Vec<Expression> = (0..wild).map(|d| expression(r, &first_variables(inputs + d), 5)).collect();
    let among = first_variables(inputs + wild);
    let (shared, kit) = (pool(r, &among), kit(r, &among));
    let node = |r: &mut Random| match r.below(6) {
        0 => without_dropped(cubes(r, &among, 8)),
        1 => without_dropped(unions(r, &shared, 8)),
        _ => without_dropped(from_kit(r, &kit)),
    };
    let outputs = (0..outputs).map(|_| node(r)).collect();
    let mut network = Network { inputs, outputs, divisors };
    if r.one_in(4) {
        run(&mut network, r.between(1, 4) as u64);
    }
    if r.one_in(2) {
        network = permuted(r, &network);
    }
    network
}

/// The network with its divisors numbered in another order.
pub fn permuted(r: &mut Random, network: &Network) -> Network {
    let mut order: Vec<usize> = (0..network.divisors.len()).collect();
    r.shuffle(&mut order);
    let place = |v: Variable| match usize::from(v.0).checked_sub(network.inputs) {
        None => v,
        Some(old) => Variable((network.inputs + order[old]) as u8),
    };
    let mut new = network.renumbered(place);
    let moved = new.divisors.clone();
    for (old, divisor) in moved.into_iter().enumerate() {
        new.divisors[order[old]] = divisor;
    }
    new
}

fn draft(network: &Network) -> Draft {
    let node = |e: &Expression| e.iter().map(Cube::masks).collect();
    Draft {
        n: network.inputs as u64,
        m: network.outputs.len() as u64,
        k: network.divisors.len() as u64,
        nodes: network.nodes().map(node).collect(),
    }
}

fn flat(draft: &Draft) -> Lent {
    Lent {
        n: draft.n,
        m: draft.m,
        k: draft.k,
        counts: draft.nodes.iter().map(|node| node.len() as u64).collect(),
        words: draft.nodes.iter().flatten().flat_map(|(plain, negated)| [*plain, *negated]).collect(),
    }
}

/// A good network, its cubes in whatever order, its unused slots filled or the
/// last zeros left out.
pub fn lend(r: &mut Random, network: &Network) -> Lent {
    let mut draft = draft(network);
    if r.one_in(2) {
        draft.nodes.iter_mut().for_each(|node| r.shuffle(node));
    }
    let mut lent = flat(&draft);
    match r.below(6) {
        0 => {
            let (counts, words) = (r.below(4), r.below(6));
            lent.counts.extend((0..counts).map(|_| r.word() >> r.below(64)));
            lent.words.extend((0..words).map(|_| r.word()));
        }
        1 => {
            for list in [&mut lent.counts, &mut lent.words] {
                while list.last() == Some(&0) {
                    list.pop();
                }
            }
        }
        2 if r.one_in(12) => {
            lent.counts.resize(96, u64::MAX);
            lent.words.resize(2_176, 7);
        }
        _ => (),
    }
    lent.counts.truncate(96);
    lent.words.truncate(2_176);
    lent
}

/// Breaks a rule on cubes, expressions or divisors in one node.
fn spoil(r: &mut Random, draft: &mut Draft) {
    let at = r.below(draft.nodes.len());
    let variables = (draft.n + draft.k) as usize;
    let bit = 1u64 << r.below(variables);
    match r.below(8) {
        0 => match draft.nodes[at].first_mut() {
            Some(first) => *first = (first.0 | bit, first.1 | bit),
            None => draft.nodes[at].push((bit, bit)),
        },
        1 => change_cube(r, &mut draft.nodes[at], |cube| cube),
        2 => {
            let more = 1u64 << r.below(64);
            change_cube(r, &mut draft.nodes[at], |(plain, negated)| (plain | (more & !negated), negated));
        }
        3 => change_cube(r, &mut draft.nodes[at], |(plain, negated)| (plain & plain.wrapping_sub(1), negated)),
        4 => {
            let over = 1u64 << r.between(variables.min(63), (variables + 1).min(63));
            draft.nodes[at].push(if r.one_in(2) { (over, 0) } else { (0, over) });
        }
        5 => draft.nodes[at].push((0, 0)),
        _ => read_in_a_ring(r, draft),
    }
}

/// Adds a copy of one of the node's cubes, changed.
fn change_cube(r: &mut Random, node: &mut Vec<(u64, u64)>, change: impl Fn((u64, u64)) -> (u64, u64)) {
    let old = if node.is_empty() { (1, 0) } else { node[r.below(node.len())] };
    let place = r.below(node.len() + 1);
    node.insert(place, change(old));
}

/// Makes some divisors read each other, in a ring where there are enough.
fn read_in_a_ring(r: &mut Random, draft: &mut Draft) {
    if draft.k == 0 {
        draft.k = 1;
        draft.nodes.push(Vec::new());
    }
    let many = r.between(1, draft.k.min(4) as usize);
    let mut ring: Vec<usize> = (0..draft.k as usize).collect();
    r.shuffle(&mut ring);
    ring.truncate(many);
    if r.one_in(4) {
        ring.push(0);
    }
    let input = 1u64 << r.below(draft.n as usize);
    for place in 0..ring.len() {
        let (one, next) = (ring[place], ring[(place + 1) % ring.len()]);
        let read = 1u64 << ((draft.n as usize + next) % 64);
        let cube = if r.one_in(2) { (read, input) } else { (input, read) };
        draft.nodes[draft.m as usize + one].push(cube);
    }
}

/// Sizes and counts that break a limit, up to the greatest numbers.
fn spoil_numbers(r: &mut Random, lent: &mut Lent) {
    let huge = r.pick(&[1 << 32, 1 << 63, u64::MAX, u64::MAX - 1, (1 << 32) + 1, 0x8000_0000, 256]);
    let count = r.below(lent.counts.len().max(1));
    lent.counts.resize(lent.counts.len().max(1), 0);
    match r.below(12) {
        0 => lent.n = r.pick(&[0, 33, 64, huge]),
        1 => lent.m = r.pick(&[0, 33, 97, huge]),
        2 => lent.k = 65u64.wrapping_sub(lent.n),
        3 => lent.k = r.pick(&[64, 65, huge, 0u64.wrapping_sub(lent.n)]),
        4 => lent.counts[count] = r.pick(&[1_088, 1_089, 1_090, 2_176, huge]),
        5 => {
            lent.counts[count] = u64::MAX - r.below(3) as u64;
            lent.counts.push(r.below(5) as u64);
        }
        6 => lent.counts[count] = lent.counts[count].wrapping_sub(1),
        7 => lent.counts[count] = lent.counts[count].wrapping_add(1),
        8 => lent.n = lent.n.saturating_sub(1),
        9 => lent.k += 1,
        10 => lent.words.truncate(r.below(lent.words.len() + 1)),
        _ => (lent.n, lent.m, lent.k) = (huge, huge, huge),
    }
    lent.counts.truncate(96);
}

/// 62 to 64 variables, with steps still to be made.
fn many_variables(r: &mut Random) -> Network {
    let inputs = r.between(28, 32);
    let variables = r.between(62, 64);
    let among = first_variables(inputs);
    let divisors = (inputs..variables).map(|_| expression(r, &among, 2)).collect();
    let kit = kit(r, &first_variables(variables));
    let outputs = (0..r.between(1, 3)).map(|_| without_dropped(from_kit(r, &kit))).collect();
    let mut network = Network { inputs, outputs, divisors };
    if r.one_in(3) {
        network = permuted(r, &network);
    }
    network
}

/// So many distinct cubes of the same length, none of which contains another.
fn same_length(r: &mut Random, many: usize, variables: usize, length: usize) -> Expression {
    let mut made = Expression::new();
    let mut among = first_variables(variables);
    while made.len() < many {
        r.shuffle(&mut among);
        let way = |v: &Variable, r: &mut Random| if r.one_in(2) { v.negated() } else { v.plain() };
        let literals: Vec<Literal> = among[..length].iter().map(|v| way(v, r)).collect();
        made.insert(Cube::of(literals));
    }
    made
}

/// About 1,088 cubes over all outputs: *rows* comes at once or soon, or does
/// not come where a sum of many uses is best, or *numbers* comes before it.
pub fn wide(r: &mut Random) -> Lent {
    let inputs = r.between(24, 32);
    let length = r.between(5, 7);
    let mut outputs: Vec<Expression> = (0..32).map(|_| same_length(r, 34, inputs, length)).collect();
    if r.one_in(2) {
        let uses = r.between(1, 3);
        outputs[..uses].iter_mut().for_each(|node| add_twins(r, node, inputs));
    }
    for _ in 0..r.below(4) {
        outputs[31].pop_last();
    }
    let divisors = if r.one_in(4) { 64 - inputs } else { 0 };
    let network = Network { inputs, outputs, divisors: vec![Expression::new(); divisors] };
    let mut lent = lend(r, &network);
    if r.one_in(6) {
        lent.counts[31] += r.between(1, 4) as u64;
    }
    lent
}

/// Two cubes of a long base in place of two others, so that the sum of their
/// parts weighs most.
fn add_twins(r: &mut Random, node: &mut Expression, inputs: usize) {
    node.pop_first();
    node.pop_first();
    let base = same_length(r, 1, inputs - 2, 20);
    for cube in base {
        for part in [inputs - 2, inputs - 1] {
            node.insert(cube.join(&Cube::of([Variable(part as u8).plain()])));
        }
    }
}

/// 32,768 literals, or one more.
fn full_of_literals(r: &mut Random) -> Lent {
    let mut outputs: Vec<Expression> = (0..8).map(|_| same_length(r, 128, 32, 32)).collect();
    let more = r.below(3);
    outputs.push(same_length(r, more, 32, 1));
    lend(r, &Network { inputs: 32, outputs, divisors: Vec::new() })
}

/// One node of 1,025 to 1,088 cubes.
fn one_long_node(r: &mut Random) -> Lent {
    let many = r.between(1_025, MOST_CUBES);
    let length = r.between(8, 11);
    let outputs = vec![same_length(r, many, 12, length)];
    lend(r, &Network { inputs: 12, outputs, divisors: Vec::new() })
}
