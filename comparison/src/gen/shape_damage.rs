//! Damage to the shapes of a page that gives 12, 13, 14 or 15.

use crate::gen::floats::{NOT_FINITE, SIGN};
use crate::gen::rings::{flat, Vertex};
use crate::gen::shapes::{shape, Ground, Shape, Sort};
use crate::rng::Rng;

/// Coordinates off the grid: halves, one past each end, large, tiny, beside
/// whole numbers.
const OFF_GRID: [f64; 14] = [
    0.5,
    -0.5,
    1.5,
    -2.5,
    16_777_215.5,
    16_777_217.0,
    -16_777_217.0,
    16_777_216.000_000_004,
    4_294_967_296.0,
    1e300,
    -9_223_372_036_854_775_808.0,
    5e-324,
    0.999_999_999_999_999_9,
    2.000_000_000_000_000_4,
];

/// Coordinates off the grid by so little that a machine may take them for 0.
const OFF_BY_LITTLE: [f64; 6] = [
    5e-324,
    -5e-324,
    1e-310,
    -2.225_073_858_507_201e-308,
    2.225_073_858_507_201_4e-308,
    -2.225_073_858_507_201_4e-308,
];

/// The number of a shape of one of the types; one is added if there is none.
fn find(rng: &mut Rng, shapes: &mut Vec<Shape>, kinds: &[u8]) -> usize {
    let at: Vec<usize> = (0..shapes.len()).filter(|k| kinds.contains(&shapes[*k].kind)).collect();
    if !at.is_empty() {
        return rng.pick(&at);
    }
    let kind = rng.pick(kinds);
    let ground = Ground { centre: (0, 0), sort: Sort::Plain };
    let place = rng.below(shapes.len() + 1);
    let one = shape(rng, kind, &ground);
    shapes.insert(place, one);
    place
}

/// One of the two coordinates.
fn side(vertex: &mut Vertex, x: bool) -> &mut u64 {
    if x {
        &mut vertex.0
    } else {
        &mut vertex.1
    }
}

/// 12: a coordinate that is not finite.
fn not_finite(rng: &mut Rng, shapes: &mut Vec<Shape>) {
    let at = find(rng, shapes, &[1, 2, 3, 4, 5, 6]);
    let part = rng.below(shapes[at].parts.len());
    let place = rng.below(shapes[at].parts[part].len());
    let vertex = &mut shapes[at].parts[part][place];
    *side(vertex, rng.once_in(2)) = rng.pick(&NOT_FINITE);
}

/// 13: a ring not closed: by a value, by one pattern, or by the sign of zero.
fn not_closed(rng: &mut Rng, shapes: &mut Vec<Shape>) {
    let at = find(rng, shapes, &[3, 6]);
    let ring = rng.below(shapes[at].parts.len());
    let ring = &mut shapes[at].parts[ring];
    let x = rng.once_in(2);
    let last = ring.len() - 1;
    match rng.below(3) {
        0 => {
            *side(&mut ring[0], x) = 0;
            *side(&mut ring[last], x) = SIGN;
        }
        1 => *side(&mut ring[last], x) ^= 1,
        _ => {
            let now = f64::from_bits(*side(&mut ring[last], x));
            *side(&mut ring[last], x) = (if now == 3.0 { 4.0f64 } else { 3.0 }).to_bits();
        }
    }
}

/// 14: a MultiPolygon's coordinate is one of those that are off the grid; the
/// ring stays closed.
fn off_grid(rng: &mut Rng, shapes: &mut Vec<Shape>, those: &[f64]) {
    let at = find(rng, shapes, &[6]);
    let ring = rng.below(shapes[at].parts.len());
    let ring = &mut shapes[at].parts[ring];
    let x = rng.once_in(2);
    let pattern = rng.pick(those).to_bits();
    let place = rng.below(ring.len());
    let last = ring.len() - 1;
    *side(&mut ring[place], x) = pattern;
    if place == 0 || place == last {
        *side(&mut ring[0], x) = pattern;
        *side(&mut ring[last], x) = pattern;
    }
}

/// 15: a ring with turn zero, or a first ring the other way round.
fn bad_turn(rng: &mut Rng, shapes: &mut Vec<Shape>) {
    let at = find(rng, shapes, &[6]);
    let parts = &mut shapes[at].parts;
    match rng.below(3) {
        0 => parts[0].reverse(),
        1 => {
            let place = rng.below(parts.len());
            parts[place] = flat(rng);
        }
        _ => parts.push(flat(rng)),
    }
}

/// 14 by a subnormal, or by the least value that is none.
pub fn off_by_little(rng: &mut Rng, shapes: &mut Vec<Shape>) {
    off_grid(rng, shapes, &OFF_BY_LITTLE);
}

/// The damage that gives a number from 12 to 15 (others do nothing). A page
/// may grow by one shape.
pub fn damage(rng: &mut Rng, shapes: &mut Vec<Shape>, number: usize) {
    match number {
        12 => not_finite(rng, shapes),
        13 => not_closed(rng, shapes),
        14 => off_grid(rng, shapes, &OFF_GRID),
        15 => bad_turn(rng, shapes),
        _ => {}
    }
}
