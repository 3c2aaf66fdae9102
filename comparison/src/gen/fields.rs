//! A file taken apart into fields, each of which a case may change by itself,
//! and put together again as bytes.

use crate::gen::encode::encode;
use crate::gen::floats::{finite, rank};
use crate::gen::shapes::{lists, Shape};
use crate::rng::Rng;

/// The fields of a page block.
#[derive(Clone, Debug)]
pub struct Fields {
    pub kind: u16,
    /// What the block says of its length, if that is not the truth.
    pub said: Option<u32>,
    pub g: u16,
    pub v: u16,
    pub p: u16,
    pub bounds: [u64; 4],
    pub registers: Vec<u32>,
    pub types: Vec<u8>,
    pub counts: Vec<u16>,
    pub lens: Vec<u16>,
    pub cx: u32,
    pub cy: u32,
    pub x: Vec<u8>,
    pub y: Vec<u8>,
    /// Bytes after the y column.
    pub extra: Vec<u8>,
    /// The body ends here, if before its end.
    pub cut: Option<usize>,
}

/// A block: length, kind, body.
pub fn block(said: u32, kind: u16, body: &[u8]) -> Vec<u8> {
    let mut bytes = Vec::with_capacity(6 + body.len());
    bytes.extend_from_slice(&said.to_le_bytes());
    bytes.extend_from_slice(&kind.to_le_bytes());
    bytes.extend_from_slice(body);
    bytes
}

/// The first of the least and the first of the greatest finite values.
fn ends(values: &[u64]) -> (u64, u64) {
    let mut found: Option<(u64, u64)> = None;
    for value in values.iter().copied().filter(|value| finite(*value)) {
        found = Some(match found {
            None => (value, value),
            Some((least, greatest)) => (
                if rank(value) < rank(least) { value } else { least },
                if rank(value) > rank(greatest) { value } else { greatest },
            ),
        });
    }
    found.unwrap_or((0, 0))
}

/// A column as the writer would make it, or at times in another permitted
/// form.
fn column(rng: &mut Rng, values: &[u64]) -> Vec<u8> {
    if rng.once_in(4) {
        let width = rng.below(65) as u32;
        let salt = rng.word() | 1;
        return encode(values, width, &|k| (salt.wrapping_mul(k as u64) >> 9) % 5 == 0);
    }
    second::column::bytes_of(values)
}

impl Fields {
    /// The sound fields of a page of shapes. The box is that of the finite
    /// coordinates, so that a case may have put others in.
    pub fn of(rng: &mut Rng, shapes: &[Shape]) -> Fields {
        let lists = lists(shapes);
        let (least_x, greatest_x) = ends(&lists.xs);
        let (least_y, greatest_y) = ends(&lists.ys);
        let (x, y) = (column(rng, &lists.xs), column(rng, &lists.ys));
        Fields {
            kind: 2,
            said: None,
            g: lists.registers.len() as u16,
            v: lists.xs.len() as u16,
            p: lists.lens.len() as u16,
            bounds: [least_x, least_y, greatest_x, greatest_y],
            registers: lists.registers,
            types: lists.types,
            counts: lists.counts,
            lens: lists.lens,
            cx: x.len() as u32,
            cy: y.len() as u32,
            x,
            y,
            extra: Vec::new(),
            cut: None,
        }
    }

    /// The page block's bytes.
    pub fn bytes(&self) -> Vec<u8> {
        let mut body = Vec::new();
        for count in [self.g, self.v, self.p] {
            body.extend_from_slice(&count.to_le_bytes());
        }
        for pattern in self.bounds {
            body.extend_from_slice(&pattern.to_le_bytes());
        }
        for register in &self.registers {
            body.extend_from_slice(&register.to_le_bytes());
        }
        body.extend_from_slice(&self.types);
        for number in self.counts.iter().chain(&self.lens) {
            body.extend_from_slice(&number.to_le_bytes());
        }
        body.extend_from_slice(&self.cx.to_le_bytes());
        body.extend_from_slice(&self.cy.to_le_bytes());
        body.extend_from_slice(&self.x);
        body.extend_from_slice(&self.y);
        body.extend_from_slice(&self.extra);
        if let Some(cut) = self.cut {
            body.truncate(cut);
        }
        block(self.said.unwrap_or(body.len() as u32), self.kind, &body)
    }
}

/// A file in parts.
#[derive(Clone, Debug)]
pub struct Parts {
    pub first: Vec<u8>,
    pub pages: Vec<Fields>,
    pub end_kind: u16,
    pub end_pages: u32,
    pub end_shapes: u32,
    pub end_extra: Vec<u8>,
    pub tail: Vec<u8>,
}

impl Parts {
    /// The sound parts of pages.
    pub fn of(pages: Vec<Fields>) -> Parts {
        Parts {
            first: block(2, 1, &[1, 0]),
            end_kind: 3,
            end_pages: pages.len() as u32,
            end_shapes: pages.iter().map(|page| u32::from(page.g)).sum(),
            pages,
            end_extra: Vec::new(),
            tail: Vec::new(),
        }
    }

    /// The end block's bytes.
    fn end(&self) -> Vec<u8> {
        let mut body = Vec::new();
        body.extend_from_slice(&self.end_pages.to_le_bytes());
        body.extend_from_slice(&self.end_shapes.to_le_bytes());
        body.extend_from_slice(&self.end_extra);
        block(body.len() as u32, self.end_kind, &body)
    }

    /// The file's bytes.
    pub fn bytes(&self) -> Vec<u8> {
        let mut bytes = self.first.clone();
        for page in &self.pages {
            bytes.extend_from_slice(&page.bytes());
        }
        bytes.extend_from_slice(&self.end());
        bytes.extend_from_slice(&self.tail);
        bytes
    }
}
