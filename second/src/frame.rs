//! The frame of a file: its blocks, block by block.

use crate::boxes::{all_finite, reversed, Bounds, NO_BOUNDS};
use crate::numbers::{bytes_at, u16_at, u32_at, u64_at};
use crate::refusal::{refused_at, Refusal};
use crate::shapes::{counts_in_limits, Lists};

/// "File: 0 to 1,024 pages."
pub const MOST_PAGES: u32 = 1024;

/// The kinds of blocks in a file.
pub const FIRST_KIND: u16 = 1;
pub const PAGE_KIND: u16 = 2;
pub const END_KIND: u16 = 3;

/// "edition (u16) = 1".
pub const EDITION: u16 = 1;

/// "Each block: length of the body (u32), kind (u16), body."
struct Block<'a> {
    kind: u16,
    body: &'a [u8],
    after: usize,
}

/// A page block whose frame has passed.
#[derive(Clone, Debug)]
pub struct Page<'a> {
    /// The number of the page in the file, from 0.
    pub number: u32,
    /// The place in the file of its first shape.
    pub first_place: u32,
    pub vertices: usize,
    pub bounds: Bounds,
    pub registers: Vec<u32>,
    pub types: Vec<u8>,
    pub part_counts: Vec<u16>,
    pub part_lengths: Vec<u16>,
    /// "A column is read as the part of the page that holds it."
    pub x_column: &'a [u8],
    pub y_column: &'a [u8],
}

/// The lists of a page that say how its vertices make shapes.
pub fn lists_of<'a>(page: &'a Page) -> Lists<'a> {
    Lists {
        types: &page.types,
        part_counts: &page.part_counts,
        part_lengths: &page.part_lengths,
    }
}

/// A file whose frame has passed.
#[derive(Clone, Debug)]
pub struct Frame<'a> {
    pub pages: Vec<Page<'a>>,
    pub shapes: u32,
}

/// The block at a place: "six bytes and the body present (4)".
fn block_at(file: &[u8], at: usize) -> Result<Block<'_>, u8> {
    let length = u32_at(file, at).ok_or(4u8)?;
    let kind = u16_at(file, at + 4).ok_or(4u8)?;
    let length = usize::try_from(length).map_err(|_| 4u8)?;
    let body = bytes_at(file, at + 6, length).ok_or(4u8)?;
    Ok(Block {
        kind,
        body,
        after: at + 6 + length,
    })
}

/// The first block after its presence: "kind (5), then for the first block
/// length 2 (4), edition (5)".
fn first_block(block: &Block) -> Result<(), u8> {
    if block.kind != FIRST_KIND {
        return Err(5);
    }
    if block.body.len() != 2 {
        return Err(4);
    }
    if u16_at(block.body, 0) != Some(EDITION) {
        return Err(5);
    }
    Ok(())
}

/// A page block after presence and kind: "for a page 3, at least 38 bytes
/// (4), counts (6), exact length (4), box form (7)".
fn page_block(body: &[u8], number: u32, first_place: u32) -> Result<Page<'_>, u8> {
    if number >= MOST_PAGES {
        return Err(3);
    }
    if body.len() < 38 {
        return Err(4);
    }
    let g = usize::from(u16_at(body, 0).ok_or(4u8)?);
    let v = usize::from(u16_at(body, 2).ok_or(4u8)?);
    let p = usize::from(u16_at(body, 4).ok_or(4u8)?);
    if !counts_in_limits(g, v, p) {
        return Err(6);
    }
    // Where each list starts: registers, types, part counts, part lengths,
    // the two byte lengths, the columns.
    let registers_at = 38;
    let types_at = registers_at + 4 * g;
    let counts_at = types_at + g;
    let lengths_at = counts_at + 2 * g;
    let cx_at = lengths_at + 2 * p;
    let columns_at = cx_at + 8;
    if body.len() < columns_at {
        return Err(4);
    }
    let cx = u32_at(body, cx_at).ok_or(4u8)?;
    let cy = u32_at(body, cx_at + 4).ok_or(4u8)?;
    let wanted = columns_at as u128 + u128::from(cx) + u128::from(cy);
    if body.len() as u128 != wanted {
        return Err(4);
    }
    let bounds = Bounds {
        least_x: u64_at(body, 6).ok_or(4u8)?,
        least_y: u64_at(body, 14).ok_or(4u8)?,
        greatest_x: u64_at(body, 22).ok_or(4u8)?,
        greatest_y: u64_at(body, 30).ok_or(4u8)?,
    };
    if !box_form(&bounds, v) {
        return Err(7);
    }
    let mut registers = Vec::new();
    let mut types = Vec::new();
    let mut part_counts = Vec::new();
    for k in 0..g {
        registers.push(u32_at(body, registers_at + 4 * k).ok_or(4u8)?);
        types.push(*body.get(types_at + k).ok_or(4u8)?);
        part_counts.push(u16_at(body, counts_at + 2 * k).ok_or(4u8)?);
    }
    let mut part_lengths = Vec::new();
    for k in 0..p {
        part_lengths.push(u16_at(body, lengths_at + 2 * k).ok_or(4u8)?);
    }
    Ok(Page {
        number,
        first_place,
        vertices: v,
        bounds,
        registers,
        types,
        part_counts,
        part_lengths,
        x_column: bytes_at(body, columns_at, cx as usize).ok_or(4u8)?,
        y_column: bytes_at(body, columns_at + cx as usize, cy as usize).ok_or(4u8)?,
    })
}

/// The form of a page box: finite and not reversed, and "all zero bytes if
/// v = 0".
fn box_form(bounds: &Bounds, v: usize) -> bool {
    if v == 0 {
        return *bounds == NO_BOUNDS;
    }
    all_finite(bounds) && !reversed(bounds)
}

/// The end block after presence and kind: "length 8 (4), counts (6), nothing
/// after (4)".
fn end_block(block: &Block, file: &[u8], pages: u32, shapes: u32) -> Result<(), u8> {
    if block.body.len() != 8 {
        return Err(4);
    }
    if u32_at(block.body, 0) != Some(pages) || u32_at(block.body, 4) != Some(shapes) {
        return Err(6);
    }
    if block.after != file.len() {
        return Err(4);
    }
    Ok(())
}

/// The frame of a whole file. "The page number is, for a frame refusal, the
/// number of page blocks passed before it."
pub fn frame(file: &[u8]) -> Result<Frame<'_>, Refusal> {
    let first = block_at(file, 0).map_err(|number| refused_at(number, 0))?;
    first_block(&first).map_err(|number| refused_at(number, 0))?;
    let mut at = first.after;
    let mut pages: Vec<Page> = Vec::new();
    let mut shapes: u32 = 0;
    loop {
        let passed = pages.len() as u32; // at most 1,024
        let block = block_at(file, at).map_err(|number| refused_at(number, passed))?;
        match block.kind {
            PAGE_KIND => {
                let page = page_block(block.body, passed, shapes)
                    .map_err(|number| refused_at(number, passed))?;
                shapes += page.types.len() as u32; // at most 256 a page
                pages.push(page);
            }
            END_KIND => {
                end_block(&block, file, passed, shapes)
                    .map_err(|number| refused_at(number, passed))?;
                return Ok(Frame { pages, shapes });
            }
            _ => return Err(refused_at(5, passed)),
        }
        at = block.after;
    }
}
