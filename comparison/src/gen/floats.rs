//! Bit patterns of floats for the generators: special ones, and neighbours in
//! the order of values.

use crate::rng::Rng;

pub const SIGN: u64 = 1 << 63;
pub const INFINITY: u64 = 0x7FF0_0000_0000_0000;
pub const GREATEST: u64 = 0x7FEF_FFFF_FFFF_FFFF;
/// The greatest subnormal value.
pub const SUBNORMAL: u64 = 0x000F_FFFF_FFFF_FFFF;

/// Patterns that are easily got wrong, all finite.
pub const FINITE: [u64; 22] = [
    0,
    SIGN,
    1,
    SIGN | 1,
    2,
    0x000F_FFFF_FFFF_FFFF,
    0x800F_FFFF_FFFF_FFFF,
    0x0010_0000_0000_0000,
    0x8010_0000_0000_0000,
    0x3FE0_0000_0000_0000,
    0x3FF0_0000_0000_0000,
    0xBFF0_0000_0000_0000,
    0x3FEF_FFFF_FFFF_FFFF,
    0x3FF0_0000_0000_0001,
    0x4170_0000_0000_0000,
    0xC170_0000_0000_0000,
    0x4170_0000_1000_0000,
    0x4340_0000_0000_0000,
    GREATEST,
    SIGN | GREATEST,
    0x7FE0_0000_0000_0000,
    0x4024_0000_0000_0000,
];

/// Patterns that are not finite.
pub const NOT_FINITE: [u64; 8] = [
    INFINITY,
    SIGN | INFINITY,
    0x7FF8_0000_0000_0000,
    0xFFF8_0000_0000_0000,
    0x7FF0_0000_0000_0001,
    0xFFF0_0000_0000_0001,
    u64::MAX,
    0x7FFF_FFFF_FFFF_FFFF,
];

/// A pattern is that of a finite float.
pub fn finite(pattern: u64) -> bool {
    pattern & INFINITY != INFINITY
}

/// The rank of a pattern in the order of values.
pub fn rank(pattern: u64) -> i64 {
    let low = (pattern & !SIGN) as i64;
    if pattern & SIGN == 0 {
        low
    } else {
        -low
    }
}

/// The pattern some ranks further up (or down); past the greatest it runs
/// into what is not finite.
pub fn moved(pattern: u64, by: i64) -> u64 {
    let rank = rank(pattern).saturating_add(by);
    if rank < 0 {
        SIGN | rank.unsigned_abs()
    } else {
        rank as u64
    }
}

/// A finite pattern of any sort.
pub fn any_finite(rng: &mut Rng) -> u64 {
    match rng.below(6) {
        0 => rng.pick(&FINITE),
        1 => ((rng.within(-4000, 4000)) as f64 / 4.0).to_bits(),
        2 => (rng.within(-20, 20) as f64).to_bits(),
        3 => {
            let near = rng.pick(&FINITE);
            let near = moved(near, rng.within(-3, 3));
            if finite(near) {
                near
            } else {
                0
            }
        }
        _ => {
            let pattern = rng.word();
            if finite(pattern) {
                pattern
            } else {
                pattern & !INFINITY
            }
        }
    }
}

/// A pattern about zero, of either sign: zero, a subnormal, the least values
/// that are none; seldom the greatest.
pub fn about_zero(rng: &mut Rng) -> u64 {
    let low = match rng.below(40) {
        0 => GREATEST,
        1..=11 => 0,
        12..=23 => 1 + rng.below(3) as u64,
        24..=29 => 1 + rng.word() % SUBNORMAL,
        30..=34 => SUBNORMAL - rng.below(2) as u64,
        _ => SUBNORMAL + 1 + rng.below(2) as u64,
    };
    low | (rng.word() & SIGN)
}
