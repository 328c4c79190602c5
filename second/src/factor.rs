//! The factored text.

use crate::cubes::{Cube, Expression, Literal};
use crate::divide::divide;
use std::collections::BTreeMap;

/// The text of an expression.
pub fn text(f: &Expression) -> String {
    if f.is_empty() {
        return "0".to_string();
    }
    let Some(literal) = commonest(f) else {
        let cubes: Vec<String> = f.iter().map(Cube::text).collect();
        return cubes.join("+");
    };
    let (quotient, remainder) = divide(f, &Expression::from([Cube::of([literal])]));
    let mut written = format!("{}*({})", literal.text(), text(&quotient));
    if !remainder.is_empty() {
        written.push('+');
        written.push_str(&text(&remainder));
    }
    written
}

/// The literal in most cubes, the smallest on a tie, if it is in two or more.
fn commonest(f: &Expression) -> Option<Literal> {
    let mut counts: BTreeMap<Literal, usize> = BTreeMap::new();
    for literal in f.iter().flat_map(|cube| cube.literals()) {
        *counts.entry(*literal).or_default() += 1;
    }
    let most = counts.values().copied().max().filter(|most| *most >= 2)?;
    counts.into_iter().find(|(_, count)| *count == most).map(|(literal, _)| literal)
}
