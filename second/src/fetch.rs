//! The fetching of one shape.

use crate::contents::contents;
use crate::frame::{frame, lists_of};
use crate::refusal::{refused, Refusal};
use crate::shapes::{parts_of, stretch};

/// What fetch says of a shape besides what it writes: register, type, and how
/// many part lengths and vertices it wrote.
#[derive(Clone, Copy, Debug, PartialEq, Eq)]
pub struct Fetched {
    pub register: u32,
    pub kind: u8,
    pub parts: usize,
    pub vertices: usize,
}

/// "Fetch: frame, 17, contents of its page, 2." Writes the part lengths and
/// the patterns to the start of the lent rooms.
pub fn fetch(
    file: &[u8],
    place: u64,
    room_lengths: &mut [u16],
    room_xs: &mut [u64],
    room_ys: &mut [u64],
) -> Result<Fetched, Refusal> {
    let frame = frame(file)?;
    for page in &frame.pages {
        for (shape, (register, kind)) in page.registers.iter().zip(&page.types).enumerate() {
            if u64::from(page.first_place) + shape as u64 != place {
                continue;
            }
            let coordinates = contents(page)?;
            let mut lengths = Vec::new();
            let mut xs = Vec::new();
            let mut ys = Vec::new();
            for part in parts_of(&lists_of(page)) {
                if part.shape == shape {
                    lengths.push((part.to - part.from) as u16);
                    xs.extend_from_slice(stretch(&coordinates.xs, part.from, part.to));
                    ys.extend_from_slice(stretch(&coordinates.ys, part.from, part.to));
                }
            }
            let (start_lengths, start_xs, start_ys) = match (
                room_lengths.get_mut(..lengths.len()),
                room_xs.get_mut(..xs.len()),
                room_ys.get_mut(..ys.len()),
            ) {
                (Some(lengths), Some(xs), Some(ys)) => (lengths, xs, ys),
                _ => return Err(refused(2)),
            };
            start_lengths.copy_from_slice(&lengths);
            start_xs.copy_from_slice(&xs);
            start_ys.copy_from_slice(&ys);
            return Ok(Fetched {
                register: *register,
                kind: *kind,
                parts: lengths.len(),
                vertices: xs.len(),
            });
        }
    }
    Err(refused(17))
}
