//! Pages of sound shapes: mostly small, at times at the limits.

use crate::gen::floats::any_finite;
use crate::gen::shapes::{ground, shape, Ground, Shape, Sort};
use crate::rng::Rng;

/// The most vertices and shapes of a page.
pub const MOST_VERTICES: usize = 2048;
pub const MOST_SHAPES: usize = 256;

/// Shapes of all types, a few.
fn mixed(rng: &mut Rng, ground: &Ground, count: usize) -> Vec<Shape> {
    let mut shapes = Vec::new();
    let mut vertices = 0;
    while shapes.len() < count {
        let kind = rng.below(7) as u8;
        let one = shape(rng, kind, ground);
        vertices += one.vertices();
        if vertices > MOST_VERTICES {
            break;
        }
        shapes.push(one);
    }
    if shapes.is_empty() {
        shapes.push(shape(rng, 0, ground));
    }
    shapes
}

/// One vertex of a long list: a slow walk.
fn walked(rng: &mut Rng, k: usize) -> (u64, u64) {
    let x = k as f64 * 0.01 + rng.below(5) as f64 * 0.001;
    (x.to_bits(), (50.0 - x).to_bits())
}

/// Exactly 2,048 vertices: a line, many points, or 256 shapes.
pub fn full(rng: &mut Rng) -> Vec<Shape> {
    let all: Vec<(u64, u64)> = (0..MOST_VERTICES).map(|k| walked(rng, k)).collect();
    let register = rng.word() as u32;
    match rng.below(3) {
        0 => vec![Shape { register, kind: 2, parts: vec![all] }],
        1 => vec![Shape { register, kind: 4, parts: all.iter().map(|vertex| vec![*vertex]).collect() }],
        _ => all.chunks(8).map(|part| Shape { register, kind: 2, parts: vec![part.to_vec()] }).collect(),
    }
}

/// 256 shapes of few vertices or none.
fn many(rng: &mut Rng, ground: &Ground) -> Vec<Shape> {
    let empty = rng.once_in(4);
    let mut shapes = Vec::new();
    for _ in 0..MOST_SHAPES {
        let kind = if empty { 0 } else { rng.below(3) as u8 };
        shapes.push(shape(rng, kind, ground));
    }
    shapes
}

/// A Point at each of some equal or nearly equal values: ties of the box.
fn ties(rng: &mut Rng) -> Vec<Shape> {
    let values = [0, 1 << 63, 0, 1 << 63, any_finite(rng)];
    let mut shapes = Vec::new();
    for _ in 0..2 + rng.below(4) {
        let vertex = (rng.pick(&values), rng.pick(&values));
        shapes.push(Shape { register: 5, kind: 1, parts: vec![vec![vertex]] });
    }
    shapes
}

/// A sound page.
pub fn page(rng: &mut Rng) -> Vec<Shape> {
    let ground = ground(rng);
    match rng.below(120) {
        0 => full(rng),
        1 => many(rng, &ground),
        2..=15 => (0..1 + rng.below(3)).map(|_| shape(rng, 0, &ground)).collect(),
        16..=25 => ties(rng),
        26..=27 => {
            let count = 20 + rng.below(60);
            mixed(rng, &ground, count)
        }
        28..=60 => {
            let kind = rng.below(7) as u8;
            vec![shape(rng, kind, &ground)]
        }
        _ => {
            let count = 1 + rng.below(5);
            mixed(rng, &ground, count)
        }
    }
}

/// A small sound page: never at the limits.
pub fn small(rng: &mut Rng) -> Vec<Shape> {
    if rng.once_in(8) {
        return ties(rng);
    }
    let ground = ground(rng);
    let count = 1 + rng.below(4);
    mixed(rng, &ground, count)
}

/// A small sound page about zero. MultiPolygons are seldom in it, as their
/// whole numbers would decide its box; now and then it has no vertex.
pub fn tiny(rng: &mut Rng) -> Vec<Shape> {
    let ground = Ground { centre: (0, 0), sort: Sort::Tiny };
    let kinds: &[u8] = match rng.below(10) {
        0 => &[0],
        1 => &[1, 4, 6],
        _ => &[0, 1, 1, 2, 3, 4, 5],
    };
    let mut shapes = Vec::new();
    for _ in 0..1 + rng.below(3) {
        let kind = rng.pick(kinds);
        shapes.push(shape(rng, kind, &ground));
    }
    shapes
}
