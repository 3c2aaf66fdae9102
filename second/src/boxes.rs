//! Boxes: the order of finite values, boxes of vertices, boxes that meet.

/// "A box is four floats: least x, least y, greatest x, greatest y", here as
/// their bit patterns.
#[derive(Clone, Copy, Debug, PartialEq, Eq)]
pub struct Bounds {
    pub least_x: u64,
    pub least_y: u64,
    pub greatest_x: u64,
    pub greatest_y: u64,
}

/// The box of a page without vertices: all zero bytes.
pub const NO_BOUNDS: Bounds = Bounds {
    least_x: 0,
    least_y: 0,
    greatest_x: 0,
    greatest_y: 0,
};

/// Whether a pattern is that of a finite 64-bit float: its exponent is not
/// all ones (IEEE 754).
pub fn finite(pattern: u64) -> bool {
    (pattern >> 52) & 0x7FF != 0x7FF
}

/// "A pattern with sign bit 0 has as its rank its low 63 bits, with sign bit
/// 1 minus those; values compare as ranks. So both zeros are equal."
pub fn rank(pattern: u64) -> i128 {
    let low = i128::from(pattern & 0x7FFF_FFFF_FFFF_FFFF);
    if pattern >> 63 == 0 {
        low
    } else {
        -low
    }
}

/// The four floats are finite.
pub fn all_finite(b: &Bounds) -> bool {
    finite(b.least_x) && finite(b.least_y) && finite(b.greatest_x) && finite(b.greatest_y)
}

/// Least over greatest, in x or in y.
pub fn reversed(b: &Bounds) -> bool {
    rank(b.least_x) > rank(b.greatest_x) || rank(b.least_y) > rank(b.greatest_y)
}

/// The box of vertices; none if there is no vertex. "Among equal values the
/// writer stores the first met in the page."
pub fn bounds_of(xs: &[u64], ys: &[u64]) -> Option<Bounds> {
    Some(Bounds {
        least_x: first_least(xs)?,
        least_y: first_least(ys)?,
        greatest_x: first_greatest(xs)?,
        greatest_y: first_greatest(ys)?,
    })
}

/// The first of the least values.
fn first_least(values: &[u64]) -> Option<u64> {
    let mut best = *values.first()?;
    for value in values {
        if rank(*value) < rank(best) {
            best = *value;
        }
    }
    Some(best)
}

/// The first of the greatest values.
fn first_greatest(values: &[u64]) -> Option<u64> {
    let mut best = *values.first()?;
    for value in values {
        if rank(*value) > rank(best) {
            best = *value;
        }
    }
    Some(best)
}

/// The two boxes are the same in value.
pub fn same_in_value(a: &Bounds, b: &Bounds) -> bool {
    rank(a.least_x) == rank(b.least_x)
        && rank(a.least_y) == rank(b.least_y)
        && rank(a.greatest_x) == rank(b.greatest_x)
        && rank(a.greatest_y) == rank(b.greatest_y)
}

/// "Two boxes meet if they share a point, edges included."
pub fn meet(a: &Bounds, b: &Bounds) -> bool {
    rank(a.least_x) <= rank(b.greatest_x)
        && rank(b.least_x) <= rank(a.greatest_x)
        && rank(a.least_y) <= rank(b.greatest_y)
        && rank(b.least_y) <= rank(a.greatest_y)
}
