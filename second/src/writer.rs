//! The file writer: open, page, close. "The state goes in and is handed
//! back."

use crate::boxes::{bounds_of, NO_BOUNDS};
use crate::column::bytes_of;
use crate::frame::{EDITION, END_KIND, FIRST_KIND, MOST_PAGES, PAGE_KIND};
use crate::refusal::{refused, Refusal};
use crate::shapes::{counts_in_limits, rule_11, rules_12_to_15, Lists};

/// "a writer's state with over 1,024 pages or 262,144 shapes" is 3.
pub const MOST_FILE_SHAPES: u32 = 262_144;

/// The writer's state.
#[derive(Clone, Copy, Debug, PartialEq, Eq)]
pub struct State {
    pub position: usize,
    pub pages: u32,
    pub shapes: u32,
    pub closed: bool,
}

/// A refused step: the refusal and the state unchanged.
#[derive(Clone, Copy, Debug, PartialEq, Eq)]
pub struct RefusedStep {
    pub refusal: Refusal,
    pub state: State,
}

/// What a page is made of.
#[derive(Clone, Copy, Debug)]
pub struct PageInput<'a> {
    pub registers: &'a [u32],
    pub types: &'a [u8],
    pub part_counts: &'a [u16],
    pub part_lengths: &'a [u16],
    pub xs: &'a [u64],
    pub ys: &'a [u64],
}

/// A block: length of the body, kind, body.
fn block(kind: u16, body: &[u8]) -> Vec<u8> {
    let mut bytes = Vec::new();
    bytes.extend_from_slice(&(body.len() as u32).to_le_bytes());
    bytes.extend_from_slice(&kind.to_le_bytes());
    bytes.extend_from_slice(body);
    bytes
}

/// Puts bytes into the buffer from a position; the position after them, or 2
/// if they do not fit. "A position past the buffer is 2."
fn put(buffer: &mut [u8], position: usize, bytes: &[u8]) -> Result<usize, u8> {
    let after = position.checked_add(bytes.len()).ok_or(2u8)?;
    match buffer.get_mut(position..after) {
        None => Err(2),
        Some(space) => {
            space.copy_from_slice(bytes);
            Ok(after)
        }
    }
}

/// "Writer: open (2)". Writes the first block.
pub fn open(buffer: &mut [u8]) -> Result<State, Refusal> {
    let first = block(FIRST_KIND, &EDITION.to_le_bytes());
    let position = put(buffer, 0, &first).map_err(refused)?;
    Ok(State {
        position,
        pages: 0,
        shapes: 0,
        closed: false,
    })
}

/// The body of a page block, its counts and rules being good.
fn page_body(input: &PageInput) -> Vec<u8> {
    let bounds = bounds_of(input.xs, input.ys).unwrap_or(NO_BOUNDS);
    let x_column = bytes_of(input.xs);
    let y_column = bytes_of(input.ys);
    let mut body = Vec::new();
    body.extend_from_slice(&(input.registers.len() as u16).to_le_bytes());
    body.extend_from_slice(&(input.xs.len() as u16).to_le_bytes());
    body.extend_from_slice(&(input.part_lengths.len() as u16).to_le_bytes());
    body.extend_from_slice(&bounds.least_x.to_le_bytes());
    body.extend_from_slice(&bounds.least_y.to_le_bytes());
    body.extend_from_slice(&bounds.greatest_x.to_le_bytes());
    body.extend_from_slice(&bounds.greatest_y.to_le_bytes());
    for register in input.registers {
        body.extend_from_slice(&register.to_le_bytes());
    }
    body.extend_from_slice(input.types);
    for count in input.part_counts {
        body.extend_from_slice(&count.to_le_bytes());
    }
    for length in input.part_lengths {
        body.extend_from_slice(&length.to_le_bytes());
    }
    body.extend_from_slice(&(x_column.len() as u32).to_le_bytes());
    body.extend_from_slice(&(y_column.len() as u32).to_le_bytes());
    body.extend_from_slice(&x_column);
    body.extend_from_slice(&y_column);
    body
}

/// The state after a page, or the number of the refusal: "page (18, 3, 6, 11,
/// 12, 13, 14, 15, 2)". 3 is judged on the state that comes in.
fn try_page(state: State, buffer: &mut [u8], input: &PageInput) -> Result<State, u8> {
    if state.closed {
        return Err(18);
    }
    if state.pages >= MOST_PAGES || state.shapes > MOST_FILE_SHAPES {
        return Err(3);
    }
    let g = input.registers.len();
    let v = input.xs.len();
    let p = input.part_lengths.len();
    if input.types.len() != g || input.part_counts.len() != g || input.ys.len() != v {
        return Err(6);
    }
    if !counts_in_limits(g, v, p) {
        return Err(6);
    }
    let lists = Lists {
        types: input.types,
        part_counts: input.part_counts,
        part_lengths: input.part_lengths,
    };
    if !rule_11(&lists, v) {
        return Err(11);
    }
    rules_12_to_15(&lists, input.xs, input.ys)?;
    let position = put(buffer, state.position, &block(PAGE_KIND, &page_body(input)))?;
    Ok(State {
        position,
        pages: state.pages + 1,
        shapes: state.shapes + g as u32,
        closed: false,
    })
}

/// Writes one page from the state's position; a refused step hands the state
/// back unchanged.
pub fn page(state: State, buffer: &mut [u8], input: &PageInput) -> Result<State, RefusedStep> {
    try_page(state, buffer, input).map_err(|number| RefusedStep {
        refusal: refused(number),
        state,
    })
}

/// The state after the end block, or the number of the refusal: "close (18,
/// 3, 2)".
fn try_close(state: State, buffer: &mut [u8]) -> Result<State, u8> {
    if state.closed {
        return Err(18);
    }
    if state.pages > MOST_PAGES || state.shapes > MOST_FILE_SHAPES {
        return Err(3);
    }
    let mut body = Vec::new();
    body.extend_from_slice(&state.pages.to_le_bytes());
    body.extend_from_slice(&state.shapes.to_le_bytes());
    let position = put(buffer, state.position, &block(END_KIND, &body))?;
    Ok(State {
        position,
        pages: state.pages,
        shapes: state.shapes,
        closed: true,
    })
}

/// Writes the end block; a refused step hands the state back unchanged.
pub fn close(state: State, buffer: &mut [u8]) -> Result<State, RefusedStep> {
    try_close(state, buffer).map_err(|number| RefusedStep {
        refusal: refused(number),
        state,
    })
}
