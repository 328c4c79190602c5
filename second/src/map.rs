//! What the shop's program shows of a network: a line for each node.

use crate::cubes::{Cube, Expression};
use crate::factor;
use crate::network::Network;
use std::collections::BTreeSet;

/// The sizes, then each divisor and each output with its factored text and its literals.
pub fn show(network: &Network) -> String {
    let (n, m, k) = (network.inputs, network.outputs.len(), network.divisors.len());
    let mut shown = format!("inputs {n} outputs {m} divisors {k} literals {}\n", network.literal_count());
    let line = |name: String, node: &Expression| {
        let literals: usize = node.iter().map(Cube::size).sum();
        format!("{name} = {} literals {literals}\n", factor::text(node))
    };
    shown.extend(network.divisors.iter().enumerate().map(|(i, node)| line(format!("x{}", n + i), node)));
    shown.extend(network.outputs.iter().enumerate().map(|(j, node)| line(format!("y{j}"), node)));
    shown
}

/// Each divisor with the outputs that hang on it, then each output with the divisors that it hangs on.
pub fn map(network: &Network) -> String {
    let hangs: Vec<_> = network.outputs.iter().map(|node| reached(network, node)).collect();
    let line = |name: String, node: &Expression, others: Vec<String>| {
        let others = if others.is_empty() { "none".to_string() } else { others.join(" ") };
        format!("{name} {} {others}\n", factor::text(node))
    };
    let mut drawn = String::new();
    for (i, node) in network.divisors.iter().enumerate() {
        let on = (0..hangs.len()).filter(|j| hangs[*j].contains(&i));
        drawn += &line(format!("x{}", network.inputs + i), node, on.map(|j| format!("y{j}")).collect());
    }
    for (j, node) in network.outputs.iter().enumerate() {
        let on = hangs[j].iter().map(|i| format!("x{}", network.inputs + i));
        drawn += &line(format!("y{j}"), node, on.collect());
    }
    drawn
}

/// The divisors, counted from 0, that a node reads at once or through others.
fn reached(network: &Network, node: &Expression) -> BTreeSet<usize> {
    let mut found = BTreeSet::new();
    let mut ahead = vec![node];
    while let Some(next) = ahead.pop() {
        let fresh = network.divisors_in(next).into_iter().filter(|d| found.insert(*d));
        ahead.extend(fresh.map(|d| &network.divisors[d]).collect::<Vec<_>>());
    }
    found
}
