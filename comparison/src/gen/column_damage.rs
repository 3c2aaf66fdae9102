//! Damage to the bytes of a column.

use crate::rng::Rng;

/// Changes some bits.
fn flip(rng: &mut Rng, bytes: &mut [u8]) {
    for _ in 0..1 + rng.below(3) {
        if !bytes.is_empty() {
            let place = rng.below(bytes.len());
            bytes[place] ^= 1 << rng.below(8);
        }
    }
}

/// Adds some bytes, zero or not.
fn extend(rng: &mut Rng, bytes: &mut Vec<u8>) {
    let zero = rng.once_in(2);
    for _ in 0..1 + rng.below(9) {
        bytes.push(if zero { 0 } else { rng.word() as u8 });
    }
}

/// The first byte becomes another width, permitted or not.
fn width(rng: &mut Rng, bytes: &mut [u8]) {
    let other = match rng.below(4) {
        0 => rng.pick(&[65, 66, 127, 128, 255]),
        1 => 64,
        2 => rng.below(65) as u8,
        _ => 65 + rng.below(191) as u8,
    };
    if let Some(first) = bytes.first_mut() {
        *first = other;
    }
}

/// The column after one damage.
pub fn damaged(rng: &mut Rng, column: &[u8]) -> Vec<u8> {
    let mut bytes = column.to_vec();
    match rng.below(7) {
        0 => flip(rng, &mut bytes),
        1 => bytes.truncate(rng.below(column.len() + 1)),
        2 => extend(rng, &mut bytes),
        3 => width(rng, &mut bytes),
        4 => {
            if let Some(last) = bytes.last_mut() {
                *last |= 0x80 >> rng.below(3);
            }
        }
        5 => bytes.truncate(column.len().saturating_sub(1)),
        _ => {
            flip(rng, &mut bytes);
            bytes.truncate(bytes.len().saturating_sub(rng.below(3)));
            extend(rng, &mut bytes);
        }
    }
    bytes
}
