//! Fetches from a file: places of all shapes or some, at and past the end,
//! huge ones; rooms exactly enough, one short in each, more.

use crate::calls::{fetch, FetchRooms};
use crate::rng::Rng;
use crate::sink::{Sink, Stop};

/// The places to fetch from a file of so many shapes.
fn places(rng: &mut Rng, shapes: u64, most: usize) -> Vec<u64> {
    let mut places: Vec<u64> = if shapes as usize <= most {
        (0..shapes).collect()
    } else {
        (0..most).map(|_| rng.below(shapes as usize) as u64).collect()
    };
    places.push(shapes);
    if shapes > 0 {
        places.push(shapes - 1);
    }
    let inside = rng.below(shapes as usize + 1) as u64;
    places.push(rng.pick(&[shapes + 1, u64::MAX, 1 << 32, (1 << 32) + inside, 1 << 63, u64::from(u32::MAX)]));
    places
}

/// The parts and vertices of the shape at a place, as second/ says; nothing
/// if it is refused.
fn sizes(file: &[u8], place: u64) -> (usize, usize) {
    let (mut lens, mut xs, mut ys) = (vec![0; 2048], vec![0; 2048], vec![0; 2048]);
    match second::fetch::fetch(file, place, &mut lens, &mut xs, &mut ys) {
        Ok(fetched) => (fetched.parts, fetched.vertices),
        Err(_) => (2, 3),
    }
}

/// The rooms of a fetch: exact, one short in one of them, more, or none.
fn rooms(rng: &mut Rng, parts: usize, vertices: usize) -> FetchRooms {
    let mut rooms = FetchRooms { about: 4, lens: parts, xs: vertices, ys: vertices };
    match rng.below(10) {
        0 => rooms.about = rng.below(4),
        1 => rooms.lens = parts.saturating_sub(1),
        2 => rooms.xs = vertices.saturating_sub(1),
        3 => rooms.ys = vertices.saturating_sub(1),
        4 => rooms = FetchRooms { about: 0, lens: 0, xs: 0, ys: 0 },
        5 => {
            rooms.about += rng.below(3);
            rooms.lens += rng.below(3);
            rooms.xs += rng.below(3);
            rooms.ys += rng.below(3);
        }
        _ => {}
    }
    rooms
}

/// Fetches of a file.
pub fn fetches(sink: &mut dyn Sink, rng: &mut Rng, file: &[u8], shapes: u64, most: usize) -> Result<(), Stop> {
    for place in places(rng, shapes, most) {
        let (parts, vertices) = sizes(file, place);
        sink.call(fetch(file, place, rooms(rng, parts, vertices)))?;
    }
    Ok(())
}
