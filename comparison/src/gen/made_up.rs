//! Writer states that no open call gave.

use crate::rng::Rng;

/// A made-up state for a buffer of a length, sound or not.
pub fn state(rng: &mut Rng, length: usize) -> Vec<u64> {
    let length = length as u64;
    let position = match rng.below(8) {
        0 => 0,
        1 => length,
        2 => length + 1,
        3 => length.saturating_sub(14),
        4 => length.saturating_sub(13),
        5 => u64::MAX - rng.below(20) as u64,
        6 => rng.pick(&[1 << 32, 1 << 63, (1 << 32) + 8]),
        _ => rng.below(length as usize + 1) as u64,
    };
    let pages = rng.pick(&[0, 1, 7, 1023, 1024, 1025, 1 << 32, (1 << 32) + 1, u64::MAX, u64::from(u32::MAX), 0, 0]);
    let limit = 262_144;
    let shapes = rng.pick(&[0, 5, limit - 1, limit, limit + 1, 1 << 32, (1 << 32) + 2, u64::MAX, 0, 0]);
    let closed = rng.pick(&[0, 0, 0, 0, 0, 0, 1, 2, 256, 1 << 32, 1 << 63, u64::MAX]);
    vec![position, pages, shapes, closed]
}

/// A state with fewer or more than four words.
pub fn words(rng: &mut Rng, state: &[u64]) -> Vec<u64> {
    let mut words = state.to_vec();
    match rng.below(8) {
        0 => words.truncate(rng.below(4)),
        1 => words.extend_from_slice(&[rng.word(), 0][..1 + rng.below(2)]),
        _ => {}
    }
    words
}
