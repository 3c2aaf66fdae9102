//! Queries for a file: about its vertices and boxes, touching exactly and
//! missing by one unit in the last place, and malformed ones.

use crate::gen::fields::block;
use crate::gen::floats::{any_finite, moved, rank, GREATEST, NOT_FINITE, SIGN};
use crate::gen::shapes::Shape;
use crate::rng::Rng;

/// The kind of a query block.
const KIND: u16 = 4;

/// What the queries for a file lie about: boxes as least x, least y, greatest
/// x, greatest y. A vertex is a box too.
pub struct Landmarks {
    pub boxes: Vec<[u64; 4]>,
}

/// The block of a query of so many floats.
pub fn query_block(floats: &[u64]) -> Vec<u8> {
    let mut body = Vec::new();
    for float in floats {
        body.extend_from_slice(&float.to_le_bytes());
    }
    block(body.len() as u32, KIND, &body)
}

/// The box of some vertices.
fn box_of(vertices: &[(u64, u64)]) -> Option<[u64; 4]> {
    let first = vertices.first()?;
    let mut found = [first.0, first.1, first.0, first.1];
    for (x, y) in vertices {
        for (axis, value) in [*x, *y].iter().enumerate() {
            if rank(*value) < rank(found[axis]) {
                found[axis] = *value;
            }
            if rank(*value) > rank(found[axis + 2]) {
                found[axis + 2] = *value;
            }
        }
    }
    Some(found)
}

/// The landmarks of pages of shapes: page boxes, shape boxes, some vertices.
pub fn landmarks(rng: &mut Rng, pages: &[Vec<Shape>]) -> Landmarks {
    let mut boxes = Vec::new();
    for page in pages.iter().take(12) {
        let all: Vec<(u64, u64)> = page.iter().flat_map(|shape| shape.parts.iter().flatten().copied()).collect();
        boxes.extend(box_of(&all));
        for shape in page.iter().take(8) {
            let own: Vec<(u64, u64)> = shape.parts.iter().flatten().copied().collect();
            boxes.extend(box_of(&own));
        }
        if !all.is_empty() {
            let (x, y) = rng.pick(&all);
            boxes.push([x, y, x, y]);
        }
    }
    if boxes.is_empty() {
        let (x, y) = (any_finite(rng), any_finite(rng));
        boxes.push([x, y, x, y]);
    }
    Landmarks { boxes }
}

/// A spot at a corner of a box, or beside it by one unit.
fn spot(rng: &mut Rng, b: [u64; 4]) -> Vec<u8> {
    let mut x = b[2 * rng.below(2)];
    let mut y = b[1 + 2 * rng.below(2)];
    match rng.below(4) {
        0 => x = moved(x, rng.pick(&[-1, 1])),
        1 => y = moved(y, rng.pick(&[-1, 1])),
        _ => {}
    }
    if rank(x) == 0 && rng.once_in(2) {
        x ^= SIGN;
    }
    if rank(y) == 0 && rng.once_in(2) {
        y ^= SIGN;
    }
    query_block(&[x, y])
}

/// A window along one side of a box: touching it exactly, or missing it by
/// one unit; in the other axis it covers the box or only just touches.
fn beside(rng: &mut Rng, b: [u64; 4]) -> Vec<u8> {
    let mut w = b;
    let axis = rng.below(2);
    let gap = rng.below(2) as i64;
    let reach = rng.pick(&[0, 1, 1 << 50]);
    if rng.once_in(2) {
        w[axis] = moved(b[axis + 2], gap);
        w[axis + 2] = moved(w[axis], reach);
    } else {
        w[axis + 2] = moved(b[axis], -gap);
        w[axis] = moved(w[axis + 2], -reach);
    }
    let other = 1 - axis;
    if rng.once_in(3) {
        w[other] = b[other + 2];
    }
    query_block(&w)
}

/// A window between two landmarks, in order.
fn between(rng: &mut Rng, a: [u64; 4], b: [u64; 4]) -> Vec<u8> {
    let mut w = [a[0], a[1], b[2], b[3]];
    for axis in 0..2 {
        if rank(w[axis]) > rank(w[axis + 2]) {
            w.swap(axis, axis + 2);
        }
        for side in [axis, axis + 2] {
            if rank(w[side]) == 0 && rng.once_in(2) {
                w[side] ^= SIGN;
            }
        }
    }
    query_block(&w)
}

/// A query that must be refused: not finite, or reversed by one unit or more.
fn refused(rng: &mut Rng, b: [u64; 4]) -> Vec<u8> {
    let mut w = b;
    if rng.once_in(2) {
        w[rng.below(4)] = rng.pick(&NOT_FINITE);
        let spot = rng.once_in(2);
        return query_block(if spot { &w[..2] } else { &w });
    }
    let axis = rng.below(2);
    w[axis] = moved(w[axis + 2], rng.pick(&[1, 1, 1 << 40]));
    query_block(&w)
}

/// A malformed block.
fn malformed(rng: &mut Rng, b: [u64; 4]) -> Vec<u8> {
    let floats = rng.pick(&[0, 2, 4]);
    let mut bytes = query_block(&b[..floats]);
    match rng.below(6) {
        0 => bytes.truncate(rng.below(bytes.len())),
        1 => bytes.extend_from_slice(&[0; 9][..1 + rng.below(9)]),
        2 => bytes[4 + rng.below(2)] ^= 1 << rng.below(8),
        3 => bytes[rng.below(4)] ^= 1 << rng.below(8),
        4 => bytes = query_block(&[b[0]; 6][..rng.pick(&[1, 3, 5, 6])]),
        _ => bytes = rng.word().to_le_bytes()[..rng.below(9)].to_vec(),
    }
    bytes
}

/// A query about the landmarks.
pub fn query(rng: &mut Rng, landmarks: &Landmarks) -> Vec<u8> {
    let a = rng.pick(&landmarks.boxes);
    let b = rng.pick(&landmarks.boxes);
    match rng.below(16) {
        0 | 1 => query_block(&[]),
        2..=5 => spot(rng, a),
        6..=8 => beside(rng, a),
        9 => query_block(&a),
        10 => between(rng, a, b),
        11 => query_block(&[SIGN | GREATEST, SIGN | GREATEST, GREATEST, GREATEST]),
        12 => query_block(&[any_finite(rng), any_finite(rng)]),
        13 => {
            let zeros = [0, SIGN];
            query_block(&[rng.pick(&zeros), rng.pick(&zeros), rng.pick(&zeros), rng.pick(&zeros)])
        }
        14 => refused(rng, a),
        _ => malformed(rng, a),
    }
}
