//! Fast extract: candidates, weights, steps and runs.

use crate::cubes::{Cube, Expression, Literal, Variable};
use crate::network::{Network, MOST_CUBES, MOST_VARIABLES};
use std::cmp::Reverse;
use std::collections::HashMap;

/// A pair or a sum, the smaller literal or part first. The order
/// is that of ties: pairs before sums, then the first, then the second.
#[derive(Clone, Debug, PartialEq, Eq, PartialOrd, Ord)]
pub enum Divisor {
    Pair(Literal, Literal),
    Sum(Cube, Cube),
}

/// A divisor with its weight and the number of its uses.
#[derive(Clone, Debug, PartialEq, Eq)]
pub struct Step {
    pub divisor: Divisor,
    pub weight: i64,
    pub uses: usize,
}

/// Why a run stopped.
#[derive(Clone, Copy, Debug, PartialEq, Eq)]
pub enum Stop {
    Done,
    Asked,
    Numbers,
    Rows,
}

impl Stop {
    pub fn text(self) -> &'static str {
        match self {
            Stop::Done => "done",
            Stop::Asked => "asked",
            Stop::Numbers => "numbers",
            Stop::Rows => "rows",
        }
    }
}

impl Divisor {
    /// The expression of the node that holds the divisor.
    pub fn node(&self) -> Expression {
        match self {
            Divisor::Pair(one, other) => Expression::from([Cube::of([*one, *other])]),
            Divisor::Sum(one, other) => Expression::from([one.clone(), other.clone()]),
        }
    }
}

/// Every divisor of a network with its weight, in no order.
pub fn divisors(network: &Network) -> Vec<Step> {
    let mut all = pairs(network);
    all.extend(sums(network));
    all
}

/// Counts, for every two literals, the cubes of all nodes that have both.
fn pairs(network: &Network) -> Vec<Step> {
    let mut uses = vec![[0usize; 128]; 128];
    for cube in network.nodes().flatten() {
        for (place, one) in cube.literals().iter().enumerate() {
            for other in &cube.literals()[place + 1..] {
                uses[usize::from(one.0)][usize::from(other.0)] += 1;
            }
        }
    }
    let numbers = || (0..128u8).map(Literal);
    let places = numbers().flat_map(|one| numbers().map(move |other| (one, other)));
    let counted = places.map(|(one, other)| (one, other, uses[usize::from(one.0)][usize::from(other.0)]));
    let met = counted.filter(|(_, _, uses)| *uses > 0);
    met.map(|(one, other, uses)| Step { divisor: Divisor::Pair(one, other), weight: uses as i64 - 2, uses }).collect()
}

/// A sum's uses are the bases, in all nodes, that two cubes of one node share
/// and beyond which they hold its parts.
fn sums(network: &Network) -> Vec<Step> {
    let mut bases: HashMap<(Cube, Cube), (usize, usize)> = HashMap::new();
    for node in network.nodes() {
        let cubes: Vec<&Cube> = node.iter().collect();
        for (place, one) in cubes.iter().enumerate() {
            for other in &cubes[place + 1..] {
                if let Some((first, second)) = parts(one, other) {
                    let base = one.size() - first.size();
                    let key = if first < second { (first, second) } else { (second, first) };
                    let sum = bases.entry(key).or_default();
                    sum.0 += 1;
                    sum.1 += base;
                }
            }
        }
    }
    let step = |((first, second), (uses, in_bases)): ((Cube, Cube), (usize, usize))| {
        let s = (first.size() + second.size()) as i64;
        let weight = in_bases as i64 + uses as i64 * (s - 1) - s;
        Step { divisor: Divisor::Sum(first, second), weight, uses }
    };
    bases.into_iter().map(step).collect()
}

/// How many times two cubes of one node make a sum.
pub fn partners(network: &Network) -> usize {
    sums(network).iter().map(|step| step.uses).sum()
}

/// What two cubes hold beyond their base, unless a part is too long.
fn parts(one: &Cube, other: &Cube) -> Option<(Cube, Cube)> {
    let first = few_beyond(one, other)?;
    let second = few_beyond(other, one)?;
    Some((first, second))
}

/// The literals of one cube that the other has not, if one or two.
fn few_beyond(one: &Cube, other: &Cube) -> Option<Cube> {
    if one.size() > other.size() + 1 || other.size() > one.size() + 1 {
        return None;
    }
    let mut theirs = other.literals().iter().peekable();
    let mut beyond: [Literal; 2] = [Literal(0); 2];
    let mut many = 0;
    for literal in one.literals() {
        while theirs.next_if(|l| *l < literal).is_some() {}
        if theirs.peek() == Some(&literal) {
            continue;
        }
        if many == 2 {
            return None;
        }
        beyond[many] = *literal;
        many += 1;
    }
    (many > 0).then(|| Cube::of(beyond[..many].iter().copied()))
}

/// The divisor of the greatest weight, the first of them on a tie.
fn best(network: &Network) -> Option<Step> {
    let all = divisors(network).into_iter();
    all.max_by(|a, b| (a.weight, Reverse(&a.divisor)).cmp(&(b.weight, Reverse(&b.divisor))))
}

/// The network's cubes once the step is made.
fn cubes_after(network: &Network, step: &Step) -> usize {
    match step.divisor {
        Divisor::Pair(..) => network.cube_count() + 1,
        Divisor::Sum(..) => network.cube_count() + 2 - step.uses,
    }
}

/// Makes a step: a new node holds the divisor, and its literal replaces the
/// divisor in every use.
fn take(network: &mut Network, divisor: &Divisor) {
    let new = Cube::of([Variable(network.variables() as u8).plain()]);
    for node in network.nodes_mut() {
        *node = match divisor {
            Divisor::Pair(one, other) => with_pair_replaced(node, &Cube::of([*one, *other]), &new),
            Divisor::Sum(one, other) => with_sum_replaced(node, one, other, &new),
        };
    }
    network.divisors.push(divisor.node());
}

fn with_pair_replaced(node: &Expression, pair: &Cube, new: &Cube) -> Expression {
    let replace = |cube: &Cube| if pair.is_within(cube) { cube.less(pair).join(new) } else { cube.clone() };
    node.iter().map(replace).collect()
}

fn with_sum_replaced(node: &Expression, one: &Cube, other: &Cube, new: &Cube) -> Expression {
    let mut replaced = node.clone();
    for cube in node.iter().filter(|cube| one.is_within(cube)) {
        let base = cube.less(one);
        let partner = base.join(other);
        if base.is_apart_from(other) && node.contains(&partner) {
            replaced.remove(cube);
            replaced.remove(&partner);
            replaced.insert(base.join(new));
        }
    }
    replaced
}

/// A run of so many steps: why it stopped, and the steps made.
pub fn run(network: &mut Network, steps: u64) -> (Stop, Vec<Step>) {
    let mut made: Vec<Step> = Vec::new();
    loop {
        let Some(step) = best(network).filter(|step| step.weight > 0) else {
            return (Stop::Done, made);
        };
        if made.len() as u64 == steps {
            return (Stop::Asked, made);
        }
        if network.variables() == MOST_VARIABLES {
            return (Stop::Numbers, made);
        }
        if cubes_after(network, &step) > MOST_CUBES {
            return (Stop::Rows, made);
        }
        take(network, &step.divisor);
        made.push(step);
    }
}
