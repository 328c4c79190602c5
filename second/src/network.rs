//! Networks: their rules, literal count and evaluation.

use crate::cubes::{expression_of, sets_of_words, words_of, Cube, Expression, Literal, Variable};
use std::collections::{BTreeMap, BTreeSet};

pub const MOST_SIDE: u64 = 32;
pub const MOST_VARIABLES: usize = 64;
pub const MOST_CUBES: usize = 1_088;
pub const MOST_LITERALS: usize = 32_768;

/// One expression for each output and for each divisor.
#[derive(Clone, Debug, PartialEq, Eq)]
pub struct Network {
    pub inputs: usize,
    pub outputs: Vec<Expression>,
    pub divisors: Vec<Expression>,
}

/// A network as handed in: counts of the outputs, then of the divisors, and
/// two words for each cube in that order. What is not given is 0.
#[derive(Clone, Debug, PartialEq, Eq)]
pub struct Lent {
    pub n: u64,
    pub m: u64,
    pub k: u64,
    pub counts: Vec<u64>,
    pub words: Vec<u64>,
}

impl Network {
    /// The outputs, then the divisors by number.
    pub fn nodes(&self) -> impl Iterator<Item = &Expression> {
        self.outputs.iter().chain(&self.divisors)
    }

    pub fn nodes_mut(&mut self) -> impl Iterator<Item = &mut Expression> {
        self.outputs.iter_mut().chain(&mut self.divisors)
    }

    pub fn variables(&self) -> usize {
        self.inputs + self.divisors.len()
    }

    pub fn cube_count(&self) -> usize {
        self.nodes().map(BTreeSet::len).sum()
    }

    /// Over all expressions, divisors included.
    pub fn literal_count(&self) -> usize {
        self.nodes().flatten().map(Cube::size).sum()
    }

    /// The divisors, counted from 0, that a node's cubes name.
    pub fn divisors_in(&self, node: &Expression) -> BTreeSet<usize> {
        let literals = node.iter().flat_map(|cube| cube.literals());
        let numbers = literals.map(|l| usize::from(l.variable().0));
        numbers.filter_map(|v| v.checked_sub(self.inputs)).collect()
    }

    /// Some divisor reads itself, at once or through others.
    pub fn has_cycle(&self) -> bool {
        let reads: Vec<_> = self.divisors.iter().map(|d| self.divisors_in(d)).collect();
        (0..reads.len()).any(|start| {
            let mut reached = BTreeSet::new();
            let mut ahead = vec![start];
            while let Some(divisor) = ahead.pop() {
                let fresh = reads[divisor].iter().filter(|d| reached.insert(**d));
                ahead.extend(fresh.copied().collect::<Vec<_>>());
            }
            reached.contains(&start)
        })
    }

    /// The outputs' values on one setting, output j being bit j.
    pub fn evaluate(&self, setting: u64) -> u64 {
        let mut known = BTreeMap::new();
        let mut answer = 0;
        for (place, node) in self.outputs.iter().enumerate() {
            if self.node_value(node, setting, &mut known) {
                answer += 1u64 << place;
            }
        }
        answer
    }

    fn node_value(&self, node: &Expression, setting: u64, known: &mut BTreeMap<Variable, bool>) -> bool {
        node.iter().any(|cube| {
            let mut literals = cube.literals().iter();
            literals.all(|l| self.variable_value(l.variable(), setting, known) != l.is_negated())
        })
    }

    fn variable_value(&self, v: Variable, setting: u64, known: &mut BTreeMap<Variable, bool>) -> bool {
        let Some(divisor) = usize::from(v.0).checked_sub(self.inputs) else {
            return (setting >> v.0) & 1 == 1;
        };
        if let Some(value) = known.get(&v) {
            return *value;
        }
        let value = self.node_value(&self.divisors[divisor], setting, known);
        known.insert(v, value);
        value
    }

    /// The same network with every literal's variable renumbered.
    pub fn renumbered(&self, new: impl Fn(Variable) -> Variable) -> Network {
        let literal =
            |l: &Literal| if l.is_negated() { new(l.variable()).negated() } else { new(l.variable()).plain() };
        let cube = |c: &Cube| Cube::of(c.literals().iter().map(literal));
        let node = |e: &Expression| e.iter().map(cube).collect::<Expression>();
        Network {
            inputs: self.inputs,
            outputs: self.outputs.iter().map(node).collect(),
            divisors: self.divisors.iter().map(node).collect(),
        }
    }

    pub fn lent(&self) -> Lent {
        Lent {
            n: self.inputs as u64,
            m: self.outputs.len() as u64,
            k: self.divisors.len() as u64,
            counts: self.nodes().map(|node| node.len() as u64).collect(),
            words: self.nodes().flat_map(words_of).collect(),
        }
    }
}

impl Lent {
    /// The network, or none if it breaks a rule or a limit.
    pub fn network(&self) -> Option<Network> {
        let inputs = side(self.n)?;
        let outputs = side(self.m)?;
        let divisors = usize::try_from(self.k).ok().filter(|k| *k <= MOST_VARIABLES - inputs)?;
        let mut nodes = self.nodes(outputs + divisors)?;
        let network = Network { inputs, divisors: nodes.split_off(outputs), outputs: nodes };
        let known = |c: &Cube| c.literals().iter().all(|l| usize::from(l.variable().0) < network.variables());
        let keeps =
            network.nodes().flatten().all(known) && network.literal_count() <= MOST_LITERALS && !network.has_cycle();
        keeps.then_some(network)
    }

    /// Each node's cubes, as long as all counts together keep the limit.
    fn nodes(&self, many: usize) -> Option<Vec<Expression>> {
        let counts: Vec<u64> = (0..many).map(|i| self.counts.get(i).copied().unwrap_or(0)).collect();
        let sum = counts.iter().try_fold(0u64, |sum, count| sum.checked_add(*count))?;
        if sum > MOST_CUBES as u64 {
            return None;
        }
        let mut slots = self.words.clone();
        slots.resize(2 * MOST_CUBES, 0);
        let mut left = slots.as_slice();
        let mut nodes = Vec::new();
        for count in counts {
            let (own, later) = left.split_at(2 * count as usize);
            nodes.push(expression_of(sets_of_words(own))?);
            left = later;
        }
        Some(nodes)
    }
}

/// A number of inputs or outputs, 1 to 32.
fn side(number: u64) -> Option<usize> {
    (1..=MOST_SIDE).contains(&number).then_some(number as usize)
}
