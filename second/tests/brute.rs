//! Small random inputs held against the definitions.

mod common;

use common::{all_cubes, random_expression, random_network};
use second::cokernel::cokernels;
use second::cubes::{Cube, Expression, Literal, Variable};
use second::divide::divide;
use second::extract::{divisors, run, Divisor, Step, Stop};
use second::generate::Random;
use second::network::{Network, MOST_CUBES};
use second::{factor, image};
use std::collections::BTreeSet;

#[test]
fn cokernels_by_the_definition() {
    let r = &mut Random::new(1);
    let all = all_cubes(4);
    for _ in 0..400 {
        let f = random_expression(r, 4, 9);
        let is_cokernel = |c: &&Cube| {
            let holders: Vec<&Cube> = f.iter().filter(|cube| c.is_within(cube)).collect();
            let common = holders
                .iter()
                .skip(1)
                .fold(holders.first().cloned().cloned(), |so_far, cube| so_far.map(|sum: Cube| sum.meet(cube)));
            holders.len() >= 2 && common.as_ref() == Some(*c)
        };
        let expected: Expression = all.iter().filter(is_cokernel).cloned().collect();
        assert_eq!(cokernels(&f, expected.len()), Some(expected.clone()));
        if !expected.is_empty() {
            assert_eq!(cokernels(&f, expected.len() - 1), None);
        }
    }
}

#[test]
fn division_by_the_definition() {
    let r = &mut Random::new(2);
    let all = all_cubes(4);
    let mut met = 0;
    for _ in 0..600 {
        let few = r.pick(&[2, 4]);
        let d = random_expression(r, few, 3);
        let mut f = random_expression(r, 4, 9);
        if r.one_in(2) {
            let q = random_expression(r, 4, 4);
            f.extend(q.iter().flat_map(|q| d.iter().map(move |d| q.join(d))).filter(|c| !c.is_both_ways()));
            f = second::cubes::without_dropped(f);
        }
        if d.is_empty() {
            continue;
        }
        let belongs = |q: &&Cube| d.iter().all(|d| q.is_apart_from(d) && f.contains(&q.join(d)));
        let quotient: Expression = all.iter().filter(belongs).cloned().collect();
        let unions: BTreeSet<Cube> = quotient.iter().flat_map(|q| d.iter().map(|d| q.join(d))).collect();
        let remainder: Expression = f.iter().filter(|c| !unions.contains(c)).cloned().collect();
        assert_eq!(f.len(), quotient.len() * d.len() + remainder.len());
        met += usize::from(quotient.len() > 1);
        assert_eq!(divide(&f, &d), (quotient, remainder));
    }
    assert!(met > 30, "few quotients to find: {met}");
}

/// Reads a factored text and multiplies it out, repetitions kept.
struct Reader<'a> {
    left: &'a [u8],
}

impl Reader<'_> {
    fn eat(&mut self, byte: u8) -> bool {
        let here = self.left.first() == Some(&byte);
        if here {
            self.left = &self.left[1..];
        }
        here
    }

    fn sum(&mut self) -> Vec<Vec<Literal>> {
        let mut all = self.product();
        while self.eat(b'+') {
            all.extend(self.product());
        }
        all
    }

    fn product(&mut self) -> Vec<Vec<Literal>> {
        let mut all = self.factor();
        while self.eat(b'*') {
            let next = self.factor();
            all = all.iter().flat_map(|a| next.iter().map(move |b| [a.clone(), b.clone()].concat())).collect();
        }
        all
    }

    fn factor(&mut self) -> Vec<Vec<Literal>> {
        if self.eat(b'(') {
            let inner = self.sum();
            assert!(self.eat(b')'));
            return inner;
        }
        if self.eat(b'0') {
            return vec![];
        }
        if self.eat(b'1') {
            return vec![vec![]];
        }
        assert!(self.eat(b'x'));
        let digits = self.left.iter().take_while(|c| c.is_ascii_digit()).count();
        let number: u8 = std::str::from_utf8(&self.left[..digits]).unwrap().parse().unwrap();
        self.left = &self.left[digits..];
        let variable = Variable(number);
        vec![vec![if self.eat(b'\'') { variable.negated() } else { variable.plain() }]]
    }
}

#[test]
fn factored_texts_multiply_out() {
    let r = &mut Random::new(3);
    for _ in 0..600 {
        let variables = r.between(1, 12);
        let f = random_expression(r, variables, 14);
        let text = factor::text(&f);
        let mut reader = Reader { left: text.as_bytes() };
        let products = reader.sum();
        assert!(reader.left.is_empty(), "{text}");
        assert_eq!(products.len(), f.len(), "{text}");
        let cubes: Expression = products.iter().map(|p| Cube::of(p.iter().copied())).collect();
        assert!(products.iter().all(|p| Cube::of(p.iter().copied()).size() == p.len()));
        assert_eq!(cubes, f, "{text}");
    }
}

/// The uses of a sum by bases: those beside the first part that also stand
/// beside the second.
fn weight_by_bases(network: &Network, one: &Cube, other: &Cube) -> (i64, usize) {
    let beside = |node: &Expression, part: &Cube| -> Expression {
        node.iter().filter(|c| part.is_within(c)).map(|c| c.less(part)).collect()
    };
    let bases: Vec<Cube> = network
        .nodes()
        .flat_map(|node| &beside(node, one) & &beside(node, other))
        .filter(|base| base.is_apart_from(one) && base.is_apart_from(other))
        .collect();
    let s = (one.size() + other.size()) as i64;
    let inside: usize = bases.iter().map(Cube::size).sum();
    (inside as i64 + bases.len() as i64 * (s - 1) - s, bases.len())
}

/// Every divisor over the network's literals, by its definition.
fn divisors_by_definition(network: &Network) -> Vec<Step> {
    let literals: Vec<Literal> = (0..2 * network.variables() as u8).map(Literal).collect();
    let mut found = Vec::new();
    let mut parts: Expression = literals.iter().map(|l| Cube::of([*l])).collect();
    for (place, one) in literals.iter().enumerate() {
        for other in literals[place + 1..].iter().filter(|other| **other != one.opposite()) {
            let pair = Cube::of([*one, *other]);
            let uses = network.nodes().flatten().filter(|c| pair.is_within(c)).count();
            if uses > 0 {
                found.push(Step { divisor: Divisor::Pair(*one, *other), weight: uses as i64 - 2, uses });
            }
            parts.insert(pair);
        }
    }
    for (place, one) in parts.iter().enumerate() {
        for other in parts.iter().skip(place + 1).filter(|other| other.is_apart_from(one)) {
            let (weight, uses) = weight_by_bases(network, one, other);
            if uses > 0 {
                found.push(Step { divisor: Divisor::Sum(one.clone(), other.clone()), weight, uses });
            }
        }
    }
    found
}

#[test]
fn divisors_and_weights_by_the_definition() {
    let r = &mut Random::new(4);
    for _ in 0..60 {
        let inputs = r.between(1, 4);
        let mut network = random_network(r, inputs);
        run(&mut network, r.below(3) as u64);
        let mut found = divisors(&network);
        found.sort_by(|a, b| a.divisor.cmp(&b.divisor));
        assert_eq!(found, divisors_by_definition(&network));
    }
}

#[test]
fn steps_take_the_greatest_weight_and_keep_every_answer() {
    let r = &mut Random::new(5);
    let mut steps = 0;
    for _ in 0..250 {
        let inputs = r.between(1, 10);
        let start = random_network(r, inputs);
        let settings = 1u64 << inputs;
        let answers: Vec<u64> = (0..settings).map(|s| start.evaluate(s)).collect();
        let mut network = start.clone();
        loop {
            let before = network.literal_count() as i64;
            let mut all = divisors(&network);
            all.sort_by_key(|step| (-step.weight, step.divisor.clone()));
            let (stop, made) = run(&mut network, 1);
            let Some(step) = made.first() else {
                assert_eq!(stop, Stop::Done);
                assert!(all.first().is_none_or(|best| best.weight <= 0));
                break;
            };
            steps += 1;
            assert_eq!(step, &all[0]);
            assert_eq!(network.literal_count() as i64, before - step.weight);
            assert_eq!(network.lent().network().as_ref(), Some(&network));
        }
        assert!((0..settings).all(|s| network.evaluate(s) == answers[s as usize]));
    }
    assert!(steps > 300, "few steps made: {steps}");
}

#[test]
fn evaluation_by_the_cubes() {
    let r = &mut Random::new(6);
    for _ in 0..200 {
        let inputs = r.between(1, 6);
        let network = random_network(r, inputs);
        let setting = r.word();
        for (place, node) in network.outputs.iter().enumerate() {
            let is_one = node.iter().any(|cube| {
                let (plain, negated) = cube.masks();
                setting & plain == plain && setting & negated == 0
            });
            assert_eq!((network.evaluate(setting) >> place) & 1 == 1, is_one);
        }
        assert_eq!(network.evaluate(setting) >> network.outputs.len(), 0);
    }
}

#[test]
fn a_run_may_be_made_in_two() {
    let r = &mut Random::new(7);
    for _ in 0..150 {
        let inputs = r.between(3, 9);
        let start = random_network(r, inputs);
        let (s, t) = (r.below(4) as u64, r.below(4) as u64);
        let mut once = start.clone();
        let (stop, steps) = run(&mut once, s + t);
        let mut twice = start;
        let (_, first) = run(&mut twice, s);
        let (last, second) = run(&mut twice, t);
        assert_eq!((&twice, [first, second].concat()), (&once, steps));
        if t > 0 {
            assert_eq!(last, stop);
        }
    }
}

#[test]
fn images_come_back() {
    let r = &mut Random::new(8);
    for _ in 0..200 {
        let inputs = r.between(1, 9);
        let mut network = random_network(r, inputs);
        run(&mut network, r.below(8) as u64);
        let bytes = image::write(&network);
        let back = image::read(&bytes).unwrap();
        assert_eq!(back, image::in_listing_order(&network));
        assert_eq!(image::write(&back), bytes);
        assert_eq!(back.literal_count(), network.literal_count());
        for setting in 0..32 {
            assert_eq!(back.evaluate(setting), network.evaluate(setting));
        }
        let cut = r.below(bytes.len());
        assert_eq!(image::read(&bytes[..cut]), Err(11));
        assert_eq!(image::read(&[bytes, vec![0]].concat()), Err(11));
    }
}

#[test]
fn what_is_read_is_what_would_be_written() {
    let r = &mut Random::new(9);
    let mut read = 0;
    for _ in 0..300 {
        let inputs = r.between(1, 5);
        let mut network = random_network(r, inputs);
        run(&mut network, 3);
        let mut bytes = image::write(&network);
        for place in 0..8 * bytes.len() {
            bytes[place / 8] ^= 1 << (place % 8);
            if let Ok(back) = image::read(&bytes) {
                read += 1;
                assert_eq!(image::write(&back), bytes);
                assert_eq!(back.lent().network(), Some(back));
            }
            bytes[place / 8] ^= 1 << (place % 8);
        }
    }
    assert!(read > 300, "few images read: {read}");
}

#[test]
fn too_many_cubes_stop_a_run() {
    let r = &mut Random::new(10);
    let mut outputs = vec![Expression::new(); 32];
    for node in &mut outputs {
        while node.len() < 34 {
            let mut variables: Vec<Variable> = (0..32).map(Variable).collect();
            r.shuffle(&mut variables);
            node.insert(Cube::of(variables[..6].iter().map(|v| v.plain())));
        }
    }
    outputs[0].pop_last();
    let mut network = Network { inputs: 32, outputs, divisors: Vec::new() };
    let (stop, steps) = run(&mut network, 64);
    assert_eq!((stop, steps.len(), network.cube_count()), (Stop::Rows, 1, MOST_CUBES));
    assert!(matches!(steps[0].divisor, Divisor::Pair(..)));
    assert_eq!(run(&mut network, 0).0, Stop::Asked);
}
