//! Short ways to write cubes, expressions and networks in tests.
#![allow(dead_code)]

use second::cubes::{without_dropped, Cube, Expression, Literal, Variable};
use second::generate::Random;
use second::network::Network;

/// A cube from letters, variables in order from `a`, `'` for negated.
pub fn cube_of(text: &str, letters: &str) -> Cube {
    let mut literals: Vec<Literal> = Vec::new();
    for c in text.chars() {
        match letters.find(c) {
            Some(place) => literals.push(Variable(place as u8).plain()),
            None if c == '\'' => {
                let last = literals.pop().expect("a letter before the mark");
                literals.push(last.opposite());
            }
            None => assert_eq!(c, '1', "a letter, a mark or the constant"),
        }
    }
    Cube::of(literals)
}

/// An expression such as `ab'+c`, over the letters given.
pub fn over(letters: &str, text: &str) -> Expression {
    text.split('+').filter(|t| !t.is_empty()).map(|t| cube_of(t, letters)).collect()
}

pub fn expression(text: &str) -> Expression {
    over("abcdefghijklmnopqrstuvwxyz", text)
}

pub fn single(inputs: usize, f: Expression) -> Network {
    Network { inputs, outputs: vec![f], divisors: Vec::new() }
}

/// Any expression over the first few variables.
pub fn random_expression(r: &mut Random, variables: usize, most: usize) -> Expression {
    let many = r.below(most + 1);
    let mut cubes = Vec::new();
    for _ in 0..many {
        let ways: Vec<usize> = (0..variables).map(|_| r.below(4)).collect();
        let literals = ways.iter().enumerate().filter_map(|(v, way)| match way {
            0 => Some(Variable(v as u8).plain()),
            1 => Some(Variable(v as u8).negated()),
            _ => None,
        });
        cubes.push(Cube::of(literals));
    }
    without_dropped(cubes)
}

pub fn random_network(r: &mut Random, inputs: usize) -> Network {
    let outputs = r.between(1, 3);
    let most = r.between(2, 40);
    let shared = random_expression(r, inputs.div_ceil(2), 4);
    let node = |r: &mut Random| {
        let own = random_expression(r, inputs, most);
        if r.one_in(2) {
            return own;
        }
        let few = own.iter().take(4);
        let unions = few.flat_map(|a| shared.iter().map(move |b| a.join(b)));
        without_dropped(unions.filter(|c| !c.is_both_ways()))
    };
    Network { inputs, outputs: (0..outputs).map(|_| node(r)).collect(), divisors: Vec::new() }
}

/// Every cube over so many variables.
pub fn all_cubes(variables: usize) -> Vec<Cube> {
    let mut all = vec![Cube::default()];
    for v in (0..variables as u8).map(Variable) {
        let with = |way: Literal| -> Vec<Cube> { all.iter().map(|c| c.join(&Cube::of([way]))).collect() };
        all = [all.clone(), with(v.plain()), with(v.negated())].concat();
    }
    all
}
