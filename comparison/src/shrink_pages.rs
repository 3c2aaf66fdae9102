//! Smaller page calls: a shape, a part or a vertex dropped from all lists at
//! once. The same is used for the pages of files.

use crate::call::{slice, Call};
use crate::calls::Lists;
use crate::gen::rings::Vertex;
use crate::gen::shapes::{lists, Shape};

/// The shapes that lists make, if their sums are right.
pub fn shapes_of(lists: &Lists) -> Option<Vec<Shape>> {
    if lists.types.len() != lists.registers.len() || lists.counts.len() != lists.registers.len() {
        return None;
    }
    let mut lens = lists.lens.iter();
    let mut vertices = lists.xs.iter().copied().zip(lists.ys.iter().copied());
    let mut shapes = Vec::new();
    for (k, register) in lists.registers.iter().enumerate() {
        let mut parts = Vec::new();
        for _ in 0..lists.counts[k] {
            let length = usize::from(*lens.next()?);
            let part: Vec<(u64, u64)> = vertices.by_ref().take(length).collect();
            if part.len() != length {
                return None;
            }
            parts.push(part);
        }
        shapes.push(Shape { register: *register, kind: lists.types[k], parts });
    }
    if lens.next().is_some() || vertices.next().is_some() || lists.xs.len() != lists.ys.len() {
        return None;
    }
    Some(shapes)
}

/// The pages that are smaller by one step of a turn: half the shapes, one
/// shape, one part, one vertex, one value made 0.
pub fn smaller(shapes: &[Shape], turn: usize) -> Option<Vec<Vec<Shape>>> {
    let half = shapes.len() / 2;
    let list = match turn {
        0 => vec![shapes[..half].to_vec(), shapes[half..].to_vec()],
        1 => (0..shapes.len()).map(|k| [&shapes[..k], &shapes[k + 1..]].concat()).collect(),
        2 => each_part(shapes, &|shape, part| {
            shape.parts.remove(part);
        }),
        3 => each_vertex(shapes, &|part, vertex| {
            part.remove(vertex);
        }),
        4 => each_vertex(shapes, &|part, vertex| part[vertex].0 = 0),
        5 => each_vertex(shapes, &|part, vertex| part[vertex].1 = 0),
        _ => return None,
    };
    Some(list.into_iter().filter(|page| page.as_slice() != shapes).collect())
}

/// The shapes with one part changed, for each part.
fn each_part(shapes: &[Shape], change: &dyn Fn(&mut Shape, usize)) -> Vec<Vec<Shape>> {
    let mut list = Vec::new();
    for shape in 0..shapes.len() {
        for part in 0..shapes[shape].parts.len() {
            let mut page = shapes.to_vec();
            change(&mut page[shape], part);
            list.push(page);
        }
    }
    list
}

/// A change to one vertex of a part.
type Change = dyn Fn(&mut Vec<Vertex>, usize);

/// The shapes with one vertex changed, for each vertex (of at most 200).
fn each_vertex(shapes: &[Shape], change: &Change) -> Vec<Vec<Shape>> {
    let mut list = Vec::new();
    for shape in 0..shapes.len() {
        for part in 0..shapes[shape].parts.len() {
            for vertex in 0..shapes[shape].parts[part].len() {
                if list.len() == 200 {
                    return list;
                }
                let mut page = shapes.to_vec();
                change(&mut page[shape].parts[part], vertex);
                list.push(page);
            }
        }
    }
    list
}

/// The candidates of a turn; none when there are no more turns.
pub fn candidates(call: &Call, turn: usize) -> Option<Vec<Call>> {
    let own = Lists {
        registers: call.list(2),
        types: call.list(3),
        counts: call.list(4),
        lens: call.list(5),
        xs: call.list(6),
        ys: call.list(7),
    };
    let shapes = shapes_of(&own)?;
    let mut list = Vec::new();
    for page in smaller(&shapes, turn)? {
        let lists = lists(&page);
        let mut args = call.args[..2].to_vec();
        args.extend([slice(&lists.registers), slice(&lists.types), slice(&lists.counts)]);
        args.extend([slice(&lists.lens), slice(&lists.xs), slice(&lists.ys)]);
        list.push(Call { service: call.service, args });
    }
    Some(list)
}
