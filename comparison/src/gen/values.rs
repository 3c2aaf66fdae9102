//! The values of columns: every sort that the rules of the column tell apart.

use crate::gen::encode::{marker, step_by};
use crate::gen::floats::{FINITE, NOT_FINITE, SIGN};
use crate::rng::Rng;

/// The sorts of values, in turn.
pub const SORTS: [&str; 13] = [
    "random patterns",
    "smooth walk",
    "steps at a marker",
    "steps at markers of all widths",
    "tie of two widths",
    "special patterns",
    "constant",
    "jumps between pieces",
    "whole numbers",
    "two in turn",
    "counting round the end",
    "two steps in turn",
    "few steps at the best width's marker",
];

/// How many values: mostly few, at times the limits.
pub fn length(rng: &mut Rng) -> usize {
    match rng.below(200) {
        0 => 2048,
        1 => 2049,
        2 => 2040 + rng.below(30),
        3..=12 => 0,
        13..=25 => 1,
        26..=45 => 2,
        46..=55 => 60 + rng.below(240),
        _ => 3 + rng.below(26),
    }
}

/// Values of a sort.
pub fn values(rng: &mut Rng, sort: usize, count: usize) -> Vec<u64> {
    match sort % SORTS.len() {
        0 => (0..count).map(|_| rng.word()).collect(),
        1 => walk(rng, count, 0),
        2 => {
            let width = rng.below(65) as u32;
            by_steps(rng, count, &|rng| near_marker(rng, width))
        }
        3 => by_steps(rng, count, &|rng| {
            let width = rng.below(65) as u32;
            near_marker(rng, width)
        }),
        4 => tie(rng, count),
        5 => (0..count).map(|_| special(rng)).collect(),
        6 => vec![special(rng); count],
        7 => walk(rng, count, 7),
        8 => (0..count).map(|_| (rng.within(-300, 300) as f64).to_bits()).collect(),
        9 => {
            let pair = [special(rng), special(rng)];
            (0..count).map(|k| pair[k % 2]).collect()
        }
        10 => {
            let start = 0u64.wrapping_sub(rng.below(count + 1) as u64);
            (0..count).map(|k| start.wrapping_add(k as u64)).collect()
        }
        11 => {
            let steps = [near_any(rng), near_any(rng)];
            by_steps(rng, count, &|rng| steps[rng.below(2)])
        }
        _ => few_at_marker(rng),
    }
}

/// So many values that a step or two at the marker of a width, or beside it,
/// are cheaper in full than one bit more for all.
fn few_at_marker(rng: &mut Rng) -> Vec<u64> {
    let width = 1 + rng.below(62) as u32;
    let steps = 63 + rng.below(80);
    let below = |rng: &mut Rng| marker(width) - 1 - rng.below(2).min(width as usize - 1) as u64;
    let mut list: Vec<u64> = (0..steps).map(|_| below(rng)).collect();
    for _ in 0..1 + rng.below(2) {
        let place = rng.below(steps);
        list[place] = marker(width) + rng.pick(&[0, 0, 0, 1]);
    }
    from_steps(special(rng), &list)
}

/// Values from a first one and the zigzag numbers of the steps.
fn from_steps(first: u64, steps: &[u64]) -> Vec<u64> {
    let mut values = vec![first];
    for z in steps {
        values.push(step_by(values[values.len() - 1], *z));
    }
    values
}

/// A special pattern, finite or not.
fn special(rng: &mut Rng) -> u64 {
    match rng.below(5) {
        0 => rng.pick(&NOT_FINITE),
        1 => rng.word(),
        2 => rng.pick(&FINITE) ^ SIGN,
        _ => rng.pick(&FINITE),
    }
}

/// A walk of floats with small steps; once in `jumps` values (if not 0) it
/// goes on somewhere else.
fn walk(rng: &mut Rng, count: usize, jumps: usize) -> Vec<u64> {
    let scale = rng.pick(&[1e-9, 0.001, 0.1, 1.0, 100.0]);
    let mut here = rng.within(-180, 180) as f64 + 0.125;
    let mut values = Vec::new();
    for _ in 0..count {
        if jumps > 0 && rng.once_in(jumps) {
            here = rng.within(-100_000, 100_000) as f64 * 0.37;
        }
        here += rng.within(-50, 50) as f64 * scale;
        values.push(here.to_bits());
    }
    values
}

/// A zigzag number at or beside the marker of a width.
fn near_marker(rng: &mut Rng, width: u32) -> u64 {
    let beside = rng.within(-3, 3);
    marker(width).wrapping_add(beside as u64)
}

/// The same for a width of any size.
fn near_any(rng: &mut Rng) -> u64 {
    let width = rng.below(65) as u32;
    near_marker(rng, width)
}

/// Values made by zigzag numbers of their steps.
fn by_steps(rng: &mut Rng, count: usize, z: &dyn Fn(&mut Rng) -> u64) -> Vec<u64> {
    let mut here = special(rng);
    let mut values = Vec::new();
    for _ in 0..count {
        values.push(here);
        let next = z(rng);
        here = step_by(here, next);
    }
    values
}

/// Values for which two widths take the same room: of N - 1 steps, so many
/// need the greater width that (n2 - n1)(N - 1) = 64 × their number; at times
/// one more or one less, so that the tie is just missed.
fn tie(rng: &mut Rng, count: usize) -> Vec<u64> {
    let less = 1 + rng.below(40) as u32;
    let by = rng.pick(&[1, 2, 4, 8, 16]);
    let more = less + by;
    let group = 64 / by as usize;
    let steps = group * (1 + count / 200);
    let mut wide = steps * by as usize / 64;
    match rng.below(4) {
        0 => wide += 1,
        1 => wide = wide.saturating_sub(1),
        _ => {}
    }
    let mut list: Vec<u64> = Vec::new();
    for k in 0..steps {
        let width = if k < wide { more } else { less };
        list.push(marker(width).wrapping_sub(1 + rng.below(2).min(width as usize - 1) as u64));
    }
    for k in (1..list.len()).rev() {
        list.swap(k, rng.below(k + 1));
    }
    from_steps(special(rng), &list)
}
