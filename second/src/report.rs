//! What the program prints for a table text.

use crate::cubes::Literal;
use crate::extract::{run, Divisor};
use crate::table;

/// The program asks for so many steps.
pub const STEPS: u64 = 64;

/// The report, every line ended by LF.
pub fn report(text: &[u8]) -> String {
    let mut network = match table::read(text) {
        Ok(network) => network,
        Err(refusal) => return refusal.text() + "\n",
    };
    let first = network.variables();
    let mut now = network.literal_count() as i64;
    let mut printed = format!("start {now}\n");
    let (stop, steps) = run(&mut network, STEPS);
    for (made, step) in steps.iter().enumerate() {
        now -= step.weight;
        let name = format!("x{}", first + made);
        printed += &format!("{name} = {} weight {} now {now}\n", divisor_text(&step.divisor), step.weight);
    }
    printed + &format!("end {} {}\n", network.literal_count(), stop.text())
}

fn divisor_text(divisor: &Divisor) -> String {
    let pair = |one: &Literal, other: &Literal| format!("{}*{}", one.text(), other.text());
    match divisor {
        Divisor::Pair(one, other) => pair(one, other),
        Divisor::Sum(one, other) => format!("{} + {}", one.text(), other.text()),
    }
}
