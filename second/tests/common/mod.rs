//! What the tests share: a small writer of whole files, the sample file, a
//! source of numbers.
#![allow(dead_code)]

use second::writer::{self, PageInput};

/// One shape: register, type, parts of patterns.
#[derive(Clone, Debug)]
pub struct Shape {
    pub register: u32,
    pub kind: u8,
    pub parts: Vec<Vec<(u64, u64)>>,
}

/// A shape from floats.
pub fn shape(register: u32, kind: u8, parts: &[&[(f64, f64)]]) -> Shape {
    Shape {
        register,
        kind,
        parts: parts
            .iter()
            .map(|part| part.iter().map(|(x, y)| (x.to_bits(), y.to_bits())).collect())
            .collect(),
    }
}

/// The lists of a page.
#[derive(Clone, Debug, Default)]
pub struct PageLists {
    pub registers: Vec<u32>,
    pub types: Vec<u8>,
    pub part_counts: Vec<u16>,
    pub part_lengths: Vec<u16>,
    pub xs: Vec<u64>,
    pub ys: Vec<u64>,
}

/// The lists of some shapes.
pub fn lists(shapes: &[Shape]) -> PageLists {
    let mut lists = PageLists::default();
    for shape in shapes {
        lists.registers.push(shape.register);
        lists.types.push(shape.kind);
        lists.part_counts.push(shape.parts.len() as u16);
        for part in &shape.parts {
            lists.part_lengths.push(part.len() as u16);
            for (x, y) in part {
                lists.xs.push(*x);
                lists.ys.push(*y);
            }
        }
    }
    lists
}

impl PageLists {
    pub fn input(&self) -> PageInput<'_> {
        PageInput {
            registers: &self.registers,
            types: &self.types,
            part_counts: &self.part_counts,
            part_lengths: &self.part_lengths,
            xs: &self.xs,
            ys: &self.ys,
        }
    }
}

/// A whole file by the writer.
pub fn written(pages: &[Vec<Shape>]) -> Vec<u8> {
    let mut buffer = vec![0xAAu8; 1 << 20];
    let mut state = writer::open(&mut buffer).unwrap();
    for shapes in pages {
        let lists = lists(shapes);
        state = writer::page(state, &mut buffer, &lists.input()).unwrap();
    }
    state = writer::close(state, &mut buffer).unwrap();
    assert!(buffer[state.position..].iter().all(|byte| *byte == 0xAA));
    buffer.truncate(state.position);
    buffer
}

/// The document's sample pages.
pub fn sample_pages() -> Vec<Vec<Shape>> {
    vec![
        vec![
            shape(
                101,
                3,
                &[&[(0.0, 0.0), (0.0, 10.0), (10.0, 10.0), (10.0, 0.0), (0.0, 0.0)]],
            ),
            shape(102, 1, &[&[(20.0, 5.0)]]),
        ],
        vec![
            shape(101, 2, &[&[(-5.0, -5.0), (-1.0, -1.0)]]),
            shape(103, 0, &[]),
        ],
    ]
}

/// The document's sample file.
pub fn sample() -> Vec<u8> {
    written(&sample_pages())
}

/// A query block.
pub fn query_block(floats: &[f64]) -> Vec<u8> {
    let mut bytes = Vec::new();
    bytes.extend_from_slice(&((floats.len() * 8) as u32).to_le_bytes());
    bytes.extend_from_slice(&4u16.to_le_bytes());
    for float in floats {
        bytes.extend_from_slice(&float.to_bits().to_le_bytes());
    }
    bytes
}

/// A plain source of numbers that only look like chance.
pub struct Numbers(pub u64);

impl Numbers {
    pub fn next(&mut self) -> u64 {
        self.0 = self
            .0
            .wrapping_mul(6364136223846793005)
            .wrapping_add(1442695040888963407);
        let mut x = self.0;
        x ^= x >> 33;
        x = x.wrapping_mul(0xff51afd7ed558ccd);
        x ^ (x >> 29)
    }

    pub fn below(&mut self, limit: u64) -> u64 {
        self.next() % limit
    }
}
