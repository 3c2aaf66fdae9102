//! Damage to a file as a whole: its first and end blocks, and its bytes.

use crate::gen::fields::{block, Parts};
use crate::rng::Rng;

/// Damage to the first block, the end block, or what follows.
pub fn frame(rng: &mut Rng, parts: &mut Parts) {
    match rng.below(12) {
        0 => parts.first = block(2, rng.pick(&[0, 2, 3, 4, 0x0101]), &[1, 0]),
        1 => parts.first = block(2, 1, &rng.pick(&[[0, 0], [2, 0], [0, 1], [1, 1], [255, 255]])),
        2 => parts.first = block(3, 1, &[1, 0, 0]),
        3 => parts.first = block(rng.pick(&[0, 1]), 1, &[1, 0]),
        4 => parts.first = Vec::new(),
        5 => parts.end_kind = rng.pick(&[0, 1, 2, 4, 0x0300, u16::MAX]),
        6 => parts.end_pages = parts.end_pages.wrapping_add(rng.pick(&[1, u32::MAX, 0x0001_0000])),
        7 => parts.end_shapes = parts.end_shapes.wrapping_add(rng.pick(&[1, u32::MAX, 0x0100_0000])),
        8 => parts.end_extra = vec![0; 1 + rng.below(3)],
        9 | 10 => parts.tail = vec![0; 1 + rng.below(9)],
        _ => {
            let first = parts.first.clone();
            parts.tail = first;
        }
    }
}

/// Swaps two page blocks, if there are two, or doubles one.
pub fn pages(rng: &mut Rng, parts: &mut Parts) {
    let count = parts.pages.len();
    if count < 1 {
        return;
    }
    let (a, b) = (rng.below(count), rng.below(count));
    match rng.below(3) {
        0 => parts.pages.swap(a, b),
        1 => {
            let twice = parts.pages[a].clone();
            parts.pages.insert(b, twice);
        }
        _ => {
            parts.pages.remove(a);
        }
    }
}

/// Damage to the bytes.
pub fn bytes(rng: &mut Rng, file: &mut Vec<u8>) {
    if file.is_empty() {
        file.push(rng.word() as u8);
        return;
    }
    let (a, b) = (rng.below(file.len()), rng.below(file.len()));
    match rng.below(6) {
        0 => file.truncate(a),
        1 => file.extend_from_slice(&rng.word().to_le_bytes()[..1 + rng.below(8)]),
        2 => file.swap(a, b),
        3 => file[a] = rng.word() as u8,
        4 => {
            file.remove(a);
        }
        _ => {
            for _ in 0..1 + rng.below(3) {
                let place = rng.below(file.len());
                file[place] ^= 1 << rng.below(8);
            }
        }
    }
}
