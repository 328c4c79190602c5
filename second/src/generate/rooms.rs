//! Lent buffers: too short, exact, too long, with whatever content.

use super::random::Random;

/// Words for a result of so many cubes.
pub fn words(r: &mut Random, places: usize) -> Vec<u64> {
    let exact = 2 * places;
    let many = match r.below(10) {
        0..=3 => exact,
        4 => exact + 1,
        5 => exact + 2,
        6 => exact + r.below(9),
        7 => exact.saturating_sub(1),
        8 => exact.saturating_sub(2),
        _ => r.below(exact + 1),
    };
    let content = r.below(4);
    (0..many).map(|_| word(r, content)).collect()
}

fn word(r: &mut Random, content: usize) -> u64 {
    match content {
        0 => 0,
        1 => r.below(10) as u64,
        2 => r.word() >> r.below(64),
        _ => u64::MAX,
    }
}

/// Bytes for a result of so many.
pub fn bytes(r: &mut Random, exact: usize) -> Vec<u8> {
    let many = match r.below(9) {
        0..=3 => exact,
        4 => exact + 1,
        5 => exact + r.below(9),
        6 => exact.saturating_sub(1),
        7 => r.below(exact + 1),
        _ => 2 * exact,
    };
    let content = r.below(3);
    (0..many).map(|_| word(r, content) as u8).collect()
}
