//! Weak division.

use crate::cubes::{Cube, Expression};

/// Quotient and remainder of F by D, where D has cubes.
///
/// Where q is apart from d and makes a cube of F together with it, q is just
/// that cube less d. The quotient is what all cubes of
/// D have in common of these.
pub fn divide(f: &Expression, d: &Expression) -> (Expression, Expression) {
    let around = |part: &Cube| -> Expression {
        let holders = f.iter().filter(|cube| part.is_within(cube));
        holders.map(|cube| cube.less(part)).collect()
    };
    let shared = d.iter().map(around).reduce(|one, other| &one & &other);
    let quotient = shared.unwrap_or_default();
    let unions: Expression = quotient.iter().flat_map(|q| d.iter().map(|part| q.join(part))).collect();
    let remainder = f - &unions;
    (quotient, remainder)
}
