//! The network image: writer and reader.

use crate::cubes::{Cube, Literal, Variable};
use crate::network::{Network, MOST_CUBES, MOST_LITERALS, MOST_VARIABLES};
use std::collections::BTreeSet;

/// Fields as bits, the most significant first.
#[derive(Default)]
pub struct Bits(Vec<bool>);

impl Bits {
    pub fn put(&mut self, value: usize, width: usize) {
        for place in (0..width).rev() {
            self.0.push((value >> place) & 1 == 1);
        }
    }

    pub fn len(&self) -> usize {
        self.0.len()
    }

    pub fn is_empty(&self) -> bool {
        self.0.is_empty()
    }

    /// The bytes, with zero bits up to the last one's end.
    pub fn bytes(&self) -> Vec<u8> {
        let byte = |bits: &[bool]| (0..8).fold(0, |sum, i| 2 * sum + u8::from(bits.get(i) == Some(&true)));
        self.0.chunks(8).map(byte).collect()
    }
}

/// The divisors in the image's order: of those that read listed ones alone,
/// the smallest comes next.
pub fn listing(network: &Network) -> Vec<usize> {
    let mut listed: Vec<usize> = Vec::new();
    let ready = |d: &usize, listed: &[usize]| {
        let own = network.divisors_in(&network.divisors[*d]);
        !listed.contains(d) && own.iter().all(|o| listed.contains(o))
    };
    while let Some(next) = (0..network.divisors.len()).find(|d| ready(d, &listed)) {
        listed.push(next);
    }
    listed
}

/// The network with its divisors numbered as listed.
pub fn in_listing_order(network: &Network) -> Network {
    let order = listing(network);
    let place = |v: Variable| match usize::from(v.0).checked_sub(network.inputs) {
        None => v,
        Some(old) => {
            let rank = order.iter().position(|d| *d == old).expect("every divisor is listed");
            Variable((network.inputs + rank) as u8)
        }
    };
    let new = network.renumbered(place);
    let divisors = order.iter().map(|d| new.divisors[*d].clone()).collect();
    Network { divisors, ..new }
}

/// The image of a network.
pub fn write(network: &Network) -> Vec<u8> {
    let ordered = in_listing_order(network);
    let mut bits = Bits::default();
    bits.put(1, 4);
    bits.put(ordered.inputs - 1, 5);
    bits.put(ordered.outputs.len() - 1, 5);
    bits.put(ordered.divisors.len(), 6);
    for node in ordered.divisors.iter().chain(&ordered.outputs) {
        bits.put(node.len(), 11);
        for cube in node {
            bits.put(cube.size(), 7);
            cube.literals().iter().for_each(|l| bits.put(usize::from(l.0), 7));
        }
    }
    bits.bytes()
}

/// An image's fields as written: its divisors, then its outputs, each cube a
/// list of literals in whatever order.
struct Fields {
    inputs: usize,
    outputs: usize,
    divisors: usize,
    nodes: Vec<Vec<Vec<Literal>>>,
}

/// The bits of an image and how many of them have been read.
struct Cursor {
    bits: Vec<bool>,
    read: usize,
}

impl Cursor {
    fn over(image: &[u8]) -> Cursor {
        let bits = image.iter().flat_map(|byte| (0..8).rev().map(move |i| (byte >> i) & 1 == 1));
        Cursor { bits: bits.collect(), read: 0 }
    }

    /// A field with any bit missing is not met: the image ends early.
    fn field(&mut self, width: usize) -> Result<usize, u64> {
        let own = self.bits.get(self.read..self.read + width).ok_or(11u64)?;
        self.read += width;
        Ok(own.iter().fold(0, |sum, bit| 2 * sum + usize::from(*bit)))
    }

    /// A field that is out of range above `most`.
    fn field_up_to(&mut self, width: usize, most: usize) -> Result<usize, u64> {
        let value = self.field(width)?;
        if value > most {
            return Err(12);
        }
        Ok(value)
    }

    /// No whole byte is left over, and no padding bit is set.
    fn is_at_end(&self) -> bool {
        let rest = &self.bits[self.read..];
        rest.len() < 8 && !rest.contains(&true)
    }
}

/// The network of an image, or the number of its refusal.
pub fn read(image: &[u8]) -> Result<Network, u64> {
    let mut cursor = Cursor::over(image);
    let fields = read_fields(&mut cursor)?;
    if !cursor.is_at_end() {
        return Err(11);
    }
    let cubes = || fields.nodes.iter().flatten();
    if cubes().count() > MOST_CUBES || cubes().map(Vec::len).sum::<usize>() > MOST_LITERALS {
        return Err(12);
    }
    if !fields.are_in_order() {
        return Err(13);
    }
    Ok(fields.network())
}

fn read_fields(cursor: &mut Cursor) -> Result<Fields, u64> {
    if cursor.field(4)? != 1 {
        return Err(12);
    }
    let inputs = 1 + cursor.field(5)?;
    let outputs = 1 + cursor.field(5)?;
    let divisors = cursor.field_up_to(6, MOST_VARIABLES - inputs)?;
    let mut nodes = Vec::new();
    for _ in 0..divisors + outputs {
        let cubes = cursor.field_up_to(11, MOST_CUBES)?;
        let node = (0..cubes).map(|_| read_cube(cursor, inputs + divisors));
        nodes.push(node.collect::<Result<Vec<_>, u64>>()?);
    }
    Ok(Fields { inputs, outputs, divisors, nodes })
}

/// A cube's literals as written; one whose opposite came before is refused.
fn read_cube(cursor: &mut Cursor, variables: usize) -> Result<Vec<Literal>, u64> {
    let many = cursor.field_up_to(7, variables)?;
    let mut literals: Vec<Literal> = Vec::new();
    for _ in 0..many {
        let literal = Literal(cursor.field_up_to(7, 2 * variables - 1)? as u8);
        if literals.contains(&literal.opposite()) {
            return Err(12);
        }
        literals.push(literal);
    }
    Ok(literals)
}

fn is_ascending<T: PartialOrd>(list: &[T]) -> bool {
    list.windows(2).all(|two| two[0] < two[1])
}

impl Fields {
    /// Literals ascend, cubes ascend and none contains another, and a divisor
    /// reads only those before it.
    fn are_in_order(&self) -> bool {
        let ascend = self.nodes.iter().all(|node| is_ascending(node) && node.iter().all(|cube| is_ascending(cube)));
        ascend && self.nodes.iter().all(|node| is_free_of_containment(node)) && self.reads_only_earlier()
    }

    fn reads_only_earlier(&self) -> bool {
        let mut divisors = self.nodes[..self.divisors].iter().enumerate();
        divisors.all(|(place, node)| {
            let mut literals = node.iter().flatten();
            literals.all(|l| usize::from(l.variable().0) < self.inputs + place)
        })
    }

    fn network(self) -> Network {
        let node = |cubes: &Vec<Vec<Literal>>| cubes.iter().map(|c| Cube::of(c.iter().copied())).collect();
        let (divisors, outputs) = self.nodes.split_at(self.divisors);
        debug_assert_eq!(outputs.len(), self.outputs);
        Network {
            inputs: self.inputs,
            outputs: outputs.iter().map(node).collect(),
            divisors: divisors.iter().map(node).collect(),
        }
    }
}

fn is_free_of_containment(node: &[Vec<Literal>]) -> bool {
    let sets: Vec<BTreeSet<Literal>> = node.iter().map(|cube| cube.iter().copied().collect()).collect();
    let holds = |place: usize| {
        let others = sets.iter().enumerate().filter(|(other, _)| *other != place);
        others.map(|(_, set)| set).any(|set| set.is_subset(&sets[place]))
    };
    !(0..sets.len()).any(holds)
}
