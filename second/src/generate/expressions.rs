//! Random cubes and expressions, and lent words that hold none.

use super::random::Random;
use crate::cubes::{without_dropped, words_of, Cube, Expression, Literal, Variable};

/// The variables from 0 on.
pub fn first_variables(many: usize) -> Vec<Variable> {
    (0..many as u8).map(Variable).collect()
}

/// Mostly the first few variables, sometimes ones from all over the 64.
pub fn some_variables(r: &mut Random, least: usize, most: usize) -> Vec<Variable> {
    let many = r.between(least, most);
    let mut all = first_variables(64);
    if r.one_in(4) {
        r.shuffle(&mut all);
    }
    all.truncate(many);
    all
}

pub fn literal(r: &mut Random, among: &[Variable]) -> Literal {
    let variable = r.pick(among);
    if r.one_in(3) {
        variable.negated()
    } else {
        variable.plain()
    }
}

/// A cube of at most so many literals.
pub fn cube(r: &mut Random, among: &[Variable], most: usize) -> Cube {
    let many = r.between(0, most);
    (0..many).map(|_| literal(r, among)).fold(Cube::default(), |so_far, l| {
        if so_far.has(l.opposite()) {
            so_far
        } else {
            so_far.join(&Cube::of([l]))
        }
    })
}

/// Small cubes whose unions have much in common.
pub fn pool(r: &mut Random, among: &[Variable]) -> Vec<Cube> {
    let many = r.between(2, 6);
    let mut small: Vec<Cube> = (0..many).map(|_| cube(r, among, 2)).collect();
    small.retain(|c| c.size() > 0);
    small.push(Cube::of([literal(r, among)]));
    small
}

/// Unions of one to three cubes of the pool.
pub fn unions(r: &mut Random, pool: &[Cube], many: usize) -> Vec<Cube> {
    let mut made = Vec::new();
    for _ in 0..many {
        let times = r.between(1, 3);
        let union = (0..times).fold(Cube::default(), |so_far, _| so_far.join(&pool[r.below(pool.len())]));
        made.push(union);
    }
    made.retain(|c| !c.is_both_ways());
    made
}

/// Parts and bases that several nodes share, so that steps are to be made.
pub struct Kit {
    parts: Vec<Cube>,
    bases: Vec<Cube>,
}

/// A cube of just so many literals, or fewer where a variable came twice.
fn sized_cube(r: &mut Random, among: &[Variable], least: usize, most: usize) -> Cube {
    let many = r.between(least, most);
    let mut all = among.to_vec();
    r.shuffle(&mut all);
    let way = |v: &Variable, r: &mut Random| if r.one_in(3) { v.negated() } else { v.plain() };
    let literals: Vec<Literal> = all.iter().take(many).map(|v| way(v, r)).collect();
    Cube::of(literals)
}

pub fn kit(r: &mut Random, among: &[Variable]) -> Kit {
    let (parts, bases, longest) = (r.between(2, 7), r.between(1, 6), r.between(1, 4));
    let shortest = r.between(0, longest);
    Kit {
        parts: (0..parts).map(|_| sized_cube(r, among, 1, 2)).collect(),
        bases: (0..bases).map(|_| sized_cube(r, among, shortest, longest)).collect(),
    }
}

/// Some bases, each beside some of the parts.
pub fn from_kit(r: &mut Random, kit: &Kit) -> Vec<Cube> {
    let mut made = Vec::new();
    for _ in 0..r.between(1, 6) {
        let base = &kit.bases[r.below(kit.bases.len())];
        let few = if r.one_in(3) { 1 } else { 3 };
        let beside: Vec<Cube> = kit.parts.iter().filter(|_| r.below(4) < few).cloned().collect();
        made.extend(product(std::slice::from_ref(base), &beside));
    }
    made
}

/// Every union of a cube of the one list with a cube of the other.
pub fn product(one: &[Cube], other: &[Cube]) -> Vec<Cube> {
    let all = one.iter().flat_map(|a| other.iter().map(move |b| a.join(b)));
    all.filter(|c| !c.is_both_ways()).collect()
}

/// Some of the cubes that hold each of a few variables, beside a base.
fn minterms(r: &mut Random, among: &[Variable]) -> Vec<Cube> {
    let few: Vec<Variable> = among.iter().copied().take(r.between(1, 4)).collect();
    let base = cube(r, among, 2);
    let mut all = vec![Cube::default()];
    for v in few {
        let ways = [Cube::of([v.plain()]), Cube::of([v.negated()])];
        all = product(&all, &ways);
    }
    all.retain(|_| !r.one_in(4));
    product(&all, &[base])
}

/// Every cube that holds each of the first so many variables.
pub fn all_minterms(many: usize) -> Expression {
    let mut all = vec![Cube::default()];
    for v in first_variables(many) {
        let ways = [Cube::of([v.plain()]), Cube::of([v.negated()])];
        all = product(&all, &ways);
    }
    all.into_iter().collect()
}

/// Cubes in no order, of which some may contain others.
pub fn cubes(r: &mut Random, among: &[Variable], most: usize) -> Vec<Cube> {
    match r.below(14) {
        0 => vec![Cube::default(); r.below(2)],
        1..=3 => {
            let literals = r.between(1, among.len().min(7));
            (0..r.between(0, most)).map(|_| cube(r, among, literals)).collect()
        }
        4..=7 => {
            let small = pool(r, among);
            let many = r.between(1, most);
            unions(r, &small, many)
        }
        8..=9 => {
            let (one, other) = (pool(r, among), pool(r, among));
            let mut all = product(&one[..one.len().min(3)], &other[..other.len().min(3)]);
            all.push(cube(r, among, 3));
            all
        }
        10..=12 => dense(r, among, most),
        _ => minterms(r, among),
    }
}

/// Long cubes over few variables, mostly plain: three of them have less in
/// common than any two.
fn dense(r: &mut Random, among: &[Variable], most: usize) -> Vec<Cube> {
    let length = r.between(among.len() / 2, among.len()).min(8);
    let mut made = Vec::new();
    for _ in 0..r.between(1, most) {
        let mut all = among.to_vec();
        r.shuffle(&mut all);
        let way = |v: &Variable, r: &mut Random| if r.one_in(6) { v.negated() } else { v.plain() };
        let literals: Vec<Literal> = all[..length].iter().map(|v| way(v, r)).collect();
        made.push(Cube::of(literals));
    }
    made
}

pub fn expression(r: &mut Random, among: &[Variable], most: usize) -> Expression {
    without_dropped(cubes(r, among, most))
}

/// So many cubes of two literals each, one variable always the same way.
pub fn two_hot(r: &mut Random, many: usize) -> Expression {
    let ways = if r.one_in(2) { 0 } else { r.word() };
    let way = |v: Variable| if (ways >> v.0) & 1 == 1 { v.negated() } else { v.plain() };
    let all = first_variables(64);
    let twos = all.iter().flat_map(|a| all.iter().filter(move |b| *b > a).map(move |b| (*a, *b)));
    twos.take(many).map(|(a, b)| Cube::of([way(a), way(b)])).collect()
}

/// The words of an expression, its cubes in whatever order.
pub fn lent(r: &mut Random, expression: &Expression) -> Vec<u64> {
    if r.one_in(3) {
        return words_of(expression);
    }
    let mut masks: Vec<(u64, u64)> = expression.iter().map(Cube::masks).collect();
    r.shuffle(&mut masks);
    masks.into_iter().flat_map(|(plain, negated)| [plain, negated]).collect()
}

/// Words that break a rule on expressions, or come close to it.
pub fn spoil(r: &mut Random, words: &mut Vec<u64>) {
    match r.below(10) {
        0 => words.push(r.word() % 64),
        1 => {
            words.pop();
        }
        2 | 3 => spoil_one(r, words),
        4 => words.extend([0, 0]),
        5 => {
            let many = r.between(2_047, 2_052);
            words.resize(many, 0);
        }
        _ => add_cube(r, words),
    }
}

/// A variable both ways in one of the cubes.
fn spoil_one(r: &mut Random, words: &mut Vec<u64>) {
    let bit = 1u64 << r.below(64);
    if words.len() < 2 {
        words.extend([bit, bit]);
        return;
    }
    let place = 2 * r.below(words.len() / 2);
    words[place] |= bit;
    words[place + 1] |= bit;
}

/// A cube that equals, contains or is contained in one of the others.
fn add_cube(r: &mut Random, words: &mut Vec<u64>) {
    if words.len() < 2 {
        words.extend([0, 0, 0, 0]);
        return;
    }
    let place = 2 * r.below(words.len() / 2);
    let (mut plain, mut negated) = (words[place], words[place + 1]);
    let bit = 1u64 << r.below(64);
    match r.below(3) {
        0 => (),
        1 if negated & bit == 0 => plain |= bit,
        1 => negated |= bit,
        _ if plain != 0 => plain &= plain - 1,
        _ => negated &= negated.wrapping_sub(1),
    }
    let at = 2 * r.below(words.len() / 2 + 1);
    words.splice(at..at, [plain, negated]);
}
