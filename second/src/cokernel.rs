//! Co-kernels as the closure of meets.

use crate::cubes::{Cube, Expression};

/// Every co-kernel of F, or none if there are more than `most`.
///
/// The common literals of any two or more cubes of F are a co-kernel, and each
/// co-kernel is such a meet: so the meets of two cubes are taken, and then met
/// with further cubes until nothing new comes.
pub fn cokernels(f: &Expression, most: usize) -> Option<Expression> {
    let mut found = Expression::new();
    let mut fresh: Vec<Cube> = Vec::new();
    for (place, one) in f.iter().enumerate() {
        for other in f.iter().skip(place + 1) {
            note(one.meet(other), &mut found, &mut fresh);
        }
        if found.len() > most {
            return None;
        }
    }
    while let Some(cube) = fresh.pop() {
        for other in f {
            note(cube.meet(other), &mut found, &mut fresh);
        }
        if found.len() > most {
            return None;
        }
    }
    Some(found)
}

/// Keeps a meet that was not there yet.
fn note(meet: Cube, found: &mut Expression, fresh: &mut Vec<Cube>) {
    if !found.contains(&meet) {
        found.insert(meet.clone());
        fresh.push(meet);
    }
}
