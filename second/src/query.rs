//! Queries and the query block (kind 4).

use crate::boxes::{all_finite, meet, reversed, Bounds};
use crate::numbers::{u16_at, u32_at, u64_at};
use crate::refusal::{refused, Refusal};

/// "A query is everything, a spot with its two coordinates, or a window with
/// four", here as bit patterns.
#[derive(Clone, Copy, Debug, PartialEq, Eq)]
pub enum Query {
    Everything,
    Spot { x: u64, y: u64 },
    Window(Bounds),
}

/// The kind of a query block.
const QUERY_KIND: u16 = 4;

/// The query as a box: none for everything. "A spot is a window of one
/// point."
pub fn window_of(query: &Query) -> Option<Bounds> {
    match query {
        Query::Everything => None,
        Query::Spot { x, y } => Some(Bounds {
            least_x: *x,
            least_y: *y,
            greatest_x: *x,
            greatest_y: *y,
        }),
        Query::Window(window) => Some(*window),
    }
}

/// "Its coordinates are finite and least <= greatest" (else 1).
pub fn finite_and_in_order(query: &Query) -> bool {
    match window_of(query) {
        None => true,
        Some(window) => all_finite(&window) && !reversed(&window),
    }
}

/// Whether a shape or a page meets the query. "A shape with no vertex meets
/// only the query for everything; so does a page with no vertex."
pub fn meets(query: &Query, bounds: Option<&Bounds>) -> bool {
    match (window_of(query), bounds) {
        (None, _) => true,
        (Some(_), None) => false,
        (Some(window), Some(bounds)) => meet(&window, bounds),
    }
}

/// The query block at the start of an input and the bytes after it: "kind 4;
/// body empty, 16 or 32 bytes of floats for everything, spot, window". None
/// for "an input too short for its query block, or another kind or length".
/// Only the form is judged here, not the floats.
pub fn split_block(input: &[u8]) -> Option<(Query, &[u8])> {
    let length = u32_at(input, 0)?;
    let kind = u16_at(input, 4)?;
    if kind != QUERY_KIND {
        return None;
    }
    let query = match length {
        0 => Query::Everything,
        16 => Query::Spot {
            x: u64_at(input, 6)?,
            y: u64_at(input, 14)?,
        },
        32 => Query::Window(Bounds {
            least_x: u64_at(input, 6)?,
            least_y: u64_at(input, 14)?,
            greatest_x: u64_at(input, 22)?,
            greatest_y: u64_at(input, 30)?,
        }),
        _ => return None,
    };
    let rest = input.get(6 + length as usize..)?;
    Some((query, rest))
}

/// "The query as exactly its block": 1 if its form is wrong, bytes follow it,
/// or the query is not finite or reversed.
pub fn parse(block: &[u8]) -> Result<Query, Refusal> {
    match split_block(block) {
        Some((query, rest)) if rest.is_empty() && finite_and_in_order(&query) => Ok(query),
        _ => Err(refused(1)),
    }
}
