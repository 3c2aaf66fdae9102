//! Rings on the grid for MultiPolygons, and their turn.

use crate::gen::floats::SIGN;
use crate::rng::Rng;

/// One vertex as two bit patterns.
pub type Vertex = (u64, u64);

/// A ring of whole numbers, closed.
type Whole = Vec<(i64, i64)>;

/// The greatest coordinate on grid.
pub const GRID: i64 = 1 << 24;

/// The turn of a ring of whole numbers.
fn turn(ring: &[(i64, i64)]) -> i128 {
    let mut sum = 0;
    for k in 1..ring.len() {
        let (a, b) = (ring[k - 1], ring[k]);
        sum += i128::from(a.0) * i128::from(b.1) - i128::from(b.0) * i128::from(a.1);
    }
    sum
}

/// Within the grid.
fn clamp(whole: i64) -> i64 {
    whole.clamp(-GRID, GRID)
}

/// A ring of random points about a centre.
fn about(rng: &mut Rng, centre: (i64, i64)) -> Whole {
    let reach = rng.pick(&[1, 3, 10, 1000, GRID]);
    let mut ring = Vec::new();
    for _ in 0..3 + rng.below(4) {
        let x = clamp(centre.0 + rng.within(-reach, reach));
        let y = clamp(centre.1 + rng.within(-reach, reach));
        ring.push((x, y));
    }
    ring.push(ring[0]);
    ring
}

/// A ring far out whose turn is 1 or -1 or another small number.
fn thin(rng: &mut Rng) -> Whole {
    let far = GRID - rng.within(0, 3);
    let a = (-far, -far + 1);
    let b = (far, far);
    let c = (rng.within(-2, 2), rng.within(-2, 2));
    let mut ring = vec![a, b, c, a];
    if rng.once_in(2) {
        ring.reverse();
    }
    ring
}

/// A ring that goes round the whole grid many times one way, makes a small
/// triangle, and goes back: its sums pass far over 2^53 on the way to a small
/// turn.
fn wound(rng: &mut Rng) -> Whole {
    let corners = [(-GRID, -GRID), (-GRID, GRID), (GRID, GRID), (GRID, -GRID)];
    let rounds = 5 + rng.below(8);
    let mut way = Vec::new();
    for _ in 0..rounds {
        way.extend_from_slice(&corners);
    }
    way.push(corners[0]);
    let mut ring = way.clone();
    let (x, y) = corners[0];
    let odd = rng.within(1, 4);
    ring.extend_from_slice(&[(x + 1, y), (x + 1, y + odd), (x, y)]);
    way.reverse();
    ring.extend_from_slice(&way);
    ring
}

/// A ring of any sort with a turn that is not zero.
fn whole(rng: &mut Rng, centre: (i64, i64)) -> Whole {
    for _ in 0..8 {
        let ring = match rng.below(24) {
            0 => thin(rng),
            1 => wound(rng),
            _ => about(rng, centre),
        };
        if turn(&ring) != 0 {
            return ring;
        }
    }
    vec![(0, 0), (0, 5), (5, 0), (0, 0)]
}

/// The patterns of a ring; some inner zeros become -0, and at times both ends.
fn patterns(rng: &mut Rng, ring: &[(i64, i64)]) -> Vec<Vertex> {
    let mut list: Vec<Vertex> = Vec::new();
    for (x, y) in ring {
        let mut vertex = ((*x as f64).to_bits(), (*y as f64).to_bits());
        if vertex.0 == 0 && rng.once_in(4) {
            vertex.0 = SIGN;
        }
        if vertex.1 == 0 && rng.once_in(4) {
            vertex.1 = SIGN;
        }
        list.push(vertex);
    }
    if let Some(last) = list.pop() {
        list.push(list.first().copied().unwrap_or(last));
    }
    list
}

/// The rings of a MultiPolygon: the first clockwise, the others either way.
pub fn multi_polygon(rng: &mut Rng, centre: (i64, i64)) -> Vec<Vec<Vertex>> {
    let mut rings = Vec::new();
    for k in 0..1 + rng.below(4) {
        let mut ring = whole(rng, centre);
        if (k == 0) == (turn(&ring) > 0) && (k == 0 || rng.once_in(2)) {
            ring.reverse();
        }
        rings.push(patterns(rng, &ring));
    }
    rings
}

/// A ring with turn zero: all on one line, or there and back, or eight-shaped.
pub fn flat(rng: &mut Rng) -> Vec<Vertex> {
    let far = rng.pick(&[1, 7, GRID]);
    let ring = match rng.below(4) {
        0 => vec![(0, 0), (far, far), (-far, -far), (0, 0)],
        1 => vec![(far, far); 4],
        2 => vec![(0, 0), (far, 0), (far, far), (0, 0), (far, far), (far, 0), (0, 0)],
        _ => vec![(-far, 0), (0, far), (0, -far), (far, 0), (0, far), (0, -far), (-far, 0)],
    };
    if turn(&ring) == 0 {
        patterns(rng, &ring)
    } else {
        patterns(rng, &[(1, 1), (2, 2), (3, 3), (1, 1)])
    }
}
