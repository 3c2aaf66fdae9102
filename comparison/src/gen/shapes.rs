//! Sound shapes of every type.

use crate::calls::Lists;
use crate::gen::floats::{about_zero, any_finite};
use crate::gen::rings::{self, Vertex};
use crate::rng::Rng;

/// One shape: register, type, parts of vertices.
#[derive(Clone, Debug, PartialEq, Eq)]
pub struct Shape {
    pub register: u32,
    pub kind: u8,
    pub parts: Vec<Vec<Vertex>>,
}

/// Which coordinates there are: whole numbers and quarters about a centre,
/// any finite floats, or values about zero, mostly subnormal.
#[derive(Clone, Copy, Debug, PartialEq, Eq)]
pub enum Sort {
    Plain,
    Wild,
    Tiny,
}

/// How the coordinates of a page lie.
#[derive(Clone, Copy, Debug)]
pub struct Ground {
    pub centre: (i64, i64),
    pub sort: Sort,
}

impl Shape {
    /// How many vertices it has.
    pub fn vertices(&self) -> usize {
        self.parts.iter().map(|part| part.len()).sum()
    }
}

/// A ground for a page: whole numbers and quarters about a centre, or any
/// finite floats.
pub fn ground(rng: &mut Rng) -> Ground {
    Ground {
        centre: (rng.within(-6, 6) * 40, rng.within(-6, 6) * 40),
        sort: if rng.once_in(4) { Sort::Wild } else { Sort::Plain },
    }
}

/// A vertex on a ground.
fn vertex(rng: &mut Rng, ground: &Ground) -> Vertex {
    match ground.sort {
        Sort::Wild => return (any_finite(rng), any_finite(rng)),
        Sort::Tiny => return (about_zero(rng), about_zero(rng)),
        Sort::Plain => {}
    }
    let x = ground.centre.0 as f64 + rng.within(-60, 60) as f64 / 4.0;
    let y = ground.centre.1 as f64 + rng.within(-60, 60) as f64 / 4.0;
    (x.to_bits(), y.to_bits())
}

/// A line of at least two vertices; mostly a walk, as a real line is.
fn line(rng: &mut Rng, ground: &Ground, count: usize) -> Vec<Vertex> {
    let mut list = vec![vertex(rng, ground)];
    while list.len() < count.max(2) {
        if ground.sort != Sort::Plain {
            list.push(vertex(rng, ground));
            continue;
        }
        let (x, y) = list[list.len() - 1];
        let x = f64::from_bits(x) + rng.within(-8, 8) as f64 * 0.03;
        let y = f64::from_bits(y) + rng.within(-8, 8) as f64 * 0.03;
        list.push((x.to_bits(), y.to_bits()));
    }
    list
}

/// A closed line.
fn ring(rng: &mut Rng, ground: &Ground) -> Vec<Vertex> {
    let count = 3 + rng.below(4);
    let mut list = line(rng, ground, count);
    list.push(list[0]);
    list
}

/// A shape of a type.
pub fn shape(rng: &mut Rng, kind: u8, ground: &Ground) -> Shape {
    let few = 1 + rng.below(3);
    let parts = match kind {
        0 => Vec::new(),
        1 => vec![vec![vertex(rng, ground)]],
        2 => {
            let count = 2 + rng.below(6);
            vec![line(rng, ground, count)]
        }
        3 => (0..few).map(|_| ring(rng, ground)).collect(),
        4 => (0..few + 1).map(|_| vec![vertex(rng, ground)]).collect(),
        5 => (0..few)
            .map(|_| {
                let count = 2 + rng.below(4);
                line(rng, ground, count)
            })
            .collect(),
        _ => rings::multi_polygon(rng, ground.centre),
    };
    let register = rng.pick(&[0, 1, 101, 102, u32::MAX, 0x8000_0000]) ^ rng.below(3) as u32;
    Shape { register, kind, parts }
}

/// The lists of a page of shapes.
pub fn lists(shapes: &[Shape]) -> Lists {
    let mut lists = Lists::default();
    for shape in shapes {
        lists.registers.push(shape.register);
        lists.types.push(shape.kind);
        lists.counts.push(shape.parts.len() as u16);
        for part in &shape.parts {
            lists.lens.push(part.len() as u16);
            lists.xs.extend(part.iter().map(|vertex| vertex.0));
            lists.ys.extend(part.iter().map(|vertex| vertex.1));
        }
    }
    lists
}
