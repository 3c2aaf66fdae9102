//! Shapes: the limits of a page's counts and rules 11 to 16 over a page's
//! lists. Each rule is a function that says whether the page keeps it.

use crate::boxes::{bounds_of, finite, same_in_value, Bounds};
use crate::column::MOST_VALUES;
use crate::table::{row_of, MULTI_POLYGON};

/// "Page: 1 to 256 shapes."
pub const MOST_SHAPES: usize = 256;

/// The limits on g, v and p: g from 1 to 256, v at most 2,048, "p <= v, and
/// p = 0 only if v = 0" (else 6).
pub fn counts_in_limits(g: usize, v: usize, p: usize) -> bool {
    if g < 1 || g > MOST_SHAPES {
        return false;
    }
    if v > MOST_VALUES {
        return false;
    }
    if p > v {
        return false;
    }
    !(p == 0 && v != 0)
}

/// The lists of a page that say how its vertices make shapes.
#[derive(Clone, Copy, Debug)]
pub struct Lists<'a> {
    pub types: &'a [u8],
    pub part_counts: &'a [u16],
    pub part_lengths: &'a [u16],
}

/// One part of a page: its shape's number in the page and type, whether it is
/// the first of its shape, and its vertices (from, and the first one not in
/// it).
#[derive(Clone, Copy, Debug, PartialEq, Eq)]
pub struct Part {
    pub shape: usize,
    pub kind: u8,
    pub first: bool,
    pub from: usize,
    pub to: usize,
}

/// All parts of a page in order. (Lists that break rule 11 give as many parts
/// as there are lengths for.)
pub fn parts_of(lists: &Lists) -> Vec<Part> {
    let mut parts = Vec::new();
    let mut lengths = lists.part_lengths.iter();
    let mut from: usize = 0;
    for (shape, (kind, count)) in lists.types.iter().zip(lists.part_counts).enumerate() {
        for k in 0..*count {
            let length = match lengths.next() {
                Some(length) => length,
                None => {
                    return parts;
                }
            };
            let to = from.saturating_add(usize::from(*length));
            parts.push(Part {
                shape,
                kind: *kind,
                first: k == 0,
                from,
                to,
            });
            from = to;
        }
    }
    parts
}

/// The values of one part, or of any stretch; empty if it is not all there.
pub fn stretch(values: &[u64], from: usize, to: usize) -> &[u64] {
    values.get(from..to).unwrap_or(&[])
}

/// Rule 11: "type over 6, or part counts and lengths against the table or
/// sums". v is the number of vertices of the page.
pub fn rule_11(lists: &Lists, v: usize) -> bool {
    let mut rows = Vec::new();
    for kind in lists.types {
        match row_of(*kind) {
            None => return false,
            Some(row) => rows.push(row),
        }
    }
    if rows.len() != lists.part_counts.len() {
        return false;
    }
    let mut parts: usize = 0;
    for count in lists.part_counts {
        parts += usize::from(*count);
    }
    if parts != lists.part_lengths.len() {
        return false;
    }
    let mut vertices: usize = 0;
    for length in lists.part_lengths {
        vertices += usize::from(*length);
    }
    if vertices != v {
        return false;
    }
    for (row, count) in rows.iter().zip(lists.part_counts) {
        let count = usize::from(*count);
        if count < row.least_parts || count > row.most_parts {
            return false;
        }
    }
    for part in parts_of(lists) {
        let row = match row_of(part.kind) {
            Some(row) => row,
            None => {
                return false;
            }
        };
        let length = part.to - part.from;
        if length < row.least_vertices || length > row.most_vertices {
            return false;
        }
    }
    true
}

/// Rule 12: "All coordinates are finite."
pub fn rule_12(xs: &[u64], ys: &[u64]) -> bool {
    xs.iter().all(|x| finite(*x)) && ys.iter().all(|y| finite(*y))
}

/// Rule 13: parts that the table calls closed are. "Closed: first and last
/// vertex have the same bit patterns."
pub fn rule_13(lists: &Lists, xs: &[u64], ys: &[u64]) -> bool {
    for part in parts_of(lists) {
        let closed = match row_of(part.kind) {
            None => false,
            Some(row) => row.closed,
        };
        if !closed {
            continue;
        }
        let px = stretch(xs, part.from, part.to);
        let py = stretch(ys, part.from, part.to);
        if px.first() != px.last() || py.first() != py.last() {
            return false;
        }
    }
    true
}

/// A coordinate on grid as a whole number: "its value, in decimetres, is a
/// whole number from -2^24 to 2^24 (-0 is 0)"; nothing if it is off grid.
pub fn on_grid(pattern: u64) -> Option<i128> {
    if !finite(pattern) {
        return None;
    }
    let value = f64::from_bits(pattern);
    if value < -16_777_216.0 || value > 16_777_216.0 {
        return None;
    }
    let whole = value as i32;
    if f64::from(whole) != value {
        return None;
    }
    Some(i128::from(whole))
}

/// Rule 14: "MultiPolygon only: every coordinate is on grid".
pub fn rule_14(lists: &Lists, xs: &[u64], ys: &[u64]) -> bool {
    for part in parts_of(lists) {
        if part.kind != MULTI_POLYGON {
            continue;
        }
        let px = stretch(xs, part.from, part.to);
        let py = stretch(ys, part.from, part.to);
        if px.iter().chain(py).any(|c| on_grid(*c).is_none()) {
            return false;
        }
    }
    true
}

/// "A ring's turn is the sum of x(i)y(i+1) - x(i+1)y(i) over its edges, as
/// whole numbers"; nothing if a coordinate is off grid.
pub fn turn(xs: &[u64], ys: &[u64]) -> Option<i128> {
    let mut x = Vec::new();
    for pattern in xs {
        x.push(on_grid(*pattern)?);
    }
    let mut y = Vec::new();
    for pattern in ys {
        y.push(on_grid(*pattern)?);
    }
    let count = x.len().min(y.len());
    let mut sum: i128 = 0;
    for i in 1..count {
        sum += x[i - 1] * y[i] - x[i] * y[i - 1];
    }
    Some(sum)
}

/// Rule 15: of a MultiPolygon, "negative is clockwise, zero is refused. The
/// first ring is clockwise."
pub fn rule_15(lists: &Lists, xs: &[u64], ys: &[u64]) -> bool {
    for part in parts_of(lists) {
        if part.kind != MULTI_POLYGON {
            continue;
        }
        let px = stretch(xs, part.from, part.to);
        let py = stretch(ys, part.from, part.to);
        let turn = match turn(px, py) {
            Some(turn) => turn,
            None => {
                return false;
            }
        };
        if turn == 0 {
            return false;
        }
        if part.first && turn > 0 {
            return false;
        }
    }
    true
}

/// Rule 16: the page box is, in value, the box of the page's vertices. A page
/// without vertices has none (its box form is rule 7).
pub fn rule_16(bounds: &Bounds, xs: &[u64], ys: &[u64]) -> bool {
    match bounds_of(xs, ys) {
        None => true,
        Some(own) => same_in_value(bounds, &own),
    }
}

/// Rules 12 to 15 in order, "each rule over the page before the next": the
/// first one broken.
pub fn rules_12_to_15(lists: &Lists, xs: &[u64], ys: &[u64]) -> Result<(), u8> {
    if !rule_12(xs, ys) {
        return Err(12);
    }
    if !rule_13(lists, xs, ys) {
        return Err(13);
    }
    if !rule_14(lists, xs, ys) {
        return Err(14);
    }
    if !rule_15(lists, xs, ys) {
        return Err(15);
    }
    Ok(())
}
