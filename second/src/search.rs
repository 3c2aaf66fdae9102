//! The search and the count-only search.

use crate::boxes::{bounds_of, Bounds};
use crate::contents::{contents, Coordinates};
use crate::frame::{frame, lists_of, Page};
use crate::query::{finite_and_in_order, meets, Query};
use crate::refusal::{refused, Refusal};
use crate::shapes::{parts_of, stretch, Part};

/// One hit: "place register type".
#[derive(Clone, Copy, Debug, PartialEq, Eq)]
pub struct Hit {
    pub place: u32,
    pub register: u32,
    pub kind: u8,
}

/// The hits of a query and "M all shapes in the file".
#[derive(Clone, Debug, PartialEq, Eq)]
pub struct Hits {
    pub hits: Vec<Hit>,
    pub shapes: u32,
}

/// The box of a page for the search: none if it has no vertex.
fn page_bounds<'a>(page: &'a Page) -> Option<&'a Bounds> {
    if page.vertices == 0 {
        None
    } else {
        Some(&page.bounds)
    }
}

/// The box of one shape, out of all parts of its page: none if it has no
/// vertex. The shape's vertices are gathered from all of its parts.
fn shape_bounds(parts: &[Part], coordinates: &Coordinates, shape: usize) -> Option<Bounds> {
    let mut xs = Vec::new();
    let mut ys = Vec::new();
    for part in parts {
        if part.shape == shape {
            xs.extend_from_slice(stretch(&coordinates.xs, part.from, part.to));
            ys.extend_from_slice(stretch(&coordinates.ys, part.from, part.to));
        }
    }
    bounds_of(&xs, &ys)
}

/// All hits in order of place: "1, frame, contents of each page whose box
/// meets the query, in order".
pub fn hits(file: &[u8], query: &Query) -> Result<Hits, Refusal> {
    if !finite_and_in_order(query) {
        return Err(refused(1));
    }
    let frame = frame(file)?;
    let mut hits = Vec::new();
    for page in &frame.pages {
        if !meets(query, page_bounds(page)) {
            continue;
        }
        let coordinates = contents(page)?;
        let parts = parts_of(&lists_of(page));
        for (shape, (register, kind)) in page.registers.iter().zip(&page.types).enumerate() {
            let bounds = shape_bounds(&parts, &coordinates, shape);
            if meets(query, bounds.as_ref()) {
                hits.push(Hit {
                    place: page.first_place + shape as u32,
                    register: *register,
                    kind: *kind,
                });
            }
        }
    }
    Ok(Hits {
        hits,
        shapes: frame.shapes,
    })
}

/// The search: "1, frame, contents of each page whose box meets the query, in
/// order, then 2". "Search writes the places of the hits" to the start of the
/// room and gives their number.
pub fn search(file: &[u8], query: &Query, room: &mut [u32]) -> Result<usize, Refusal> {
    let found = hits(file, query)?;
    let count = found.hits.len();
    let start = match room.get_mut(..count) {
        Some(start) => start,
        None => {
            return Err(refused(2));
        }
    };
    for (place, hit) in start.iter_mut().zip(&found.hits) {
        *place = hit.place;
    }
    Ok(count)
}

/// "A count-only search gives the number of hits and never 2."
pub fn count(file: &[u8], query: &Query) -> Result<usize, Refusal> {
    Ok(hits(file, query)?.hits.len())
}
