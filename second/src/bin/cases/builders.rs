//! Builders of test files, on their own: they use nothing of the library
//! except the kinds' numbers written out here once more. Columns are made at
//! width 0 (every value in full) unless a case asks for another width.

/// The bytes of the first block: length 2, kind 1, edition 1.
pub const FIRST: [u8; 8] = [2, 0, 0, 0, 1, 0, 1, 0];

/// The bit pattern of minus zero.
pub const MINUS_ZERO: u64 = 0x8000_0000_0000_0000;

/// One vertex.
pub type Vertex = (f64, f64);

/// One shape as a case says it.
#[derive(Clone)]
pub struct Shape {
    pub register: u32,
    pub kind: u8,
    pub parts: Vec<Vec<Vertex>>,
}

/// A shape of any type.
pub fn shape(register: u32, kind: u8, parts: &[&[Vertex]]) -> Shape {
    Shape {
        register,
        kind,
        parts: parts.iter().map(|part| part.to_vec()).collect(),
    }
}

/// Type 0.
pub fn empty(register: u32) -> Shape {
    shape(register, 0, &[])
}

/// Type 1.
pub fn point(register: u32, x: f64, y: f64) -> Shape {
    shape(register, 1, &[&[(x, y)]])
}

/// Type 2.
pub fn line(register: u32, vertices: &[Vertex]) -> Shape {
    shape(register, 2, &[vertices])
}

/// Type 3.
pub fn polygon(register: u32, rings: &[&[Vertex]]) -> Shape {
    shape(register, 3, rings)
}

/// Type 4, one part for each vertex.
pub fn multipoint(register: u32, vertices: &[Vertex]) -> Shape {
    Shape {
        register,
        kind: 4,
        parts: vertices.iter().map(|vertex| vec![*vertex]).collect(),
    }
}

/// Type 5.
pub fn multiline(register: u32, parts: &[&[Vertex]]) -> Shape {
    shape(register, 5, parts)
}

/// Type 6.
pub fn multipolygon(register: u32, rings: &[&[Vertex]]) -> Shape {
    shape(register, 6, rings)
}

/// A square ring with corner (x, y) and the given side, clockwise.
pub fn clockwise(x: f64, y: f64, side: f64) -> Vec<Vertex> {
    vec![(x, y), (x, y + side), (x + side, y + side), (x + side, y), (x, y)]
}

/// The same square the other way round.
pub fn other_way(x: f64, y: f64, side: f64) -> Vec<Vertex> {
    vec![(x, y), (x + side, y), (x + side, y + side), (x, y + side), (x, y)]
}

/// The fields of a page body, each of which a case may change by itself.
#[derive(Clone)]
pub struct Page {
    pub g: u16,
    pub v: u16,
    pub p: u16,
    pub bounds: [u64; 4],
    pub registers: Vec<u32>,
    pub types: Vec<u8>,
    pub part_counts: Vec<u16>,
    pub part_lengths: Vec<u16>,
    pub cx: u32,
    pub cy: u32,
    pub x: Vec<u8>,
    pub y: Vec<u8>,
}

/// A column with every value in full: width 0, then the values.
pub fn full_column(values: &[u64]) -> Vec<u8> {
    let mut bytes = Vec::new();
    if values.is_empty() {
        return bytes;
    }
    bytes.push(0);
    for value in values {
        bytes.extend_from_slice(&value.to_le_bytes());
    }
    bytes
}

/// A column at a given width; a value is stored in full where its step does
/// not fit or where `full` says so (in order of the later values).
pub fn width_column(values: &[u64], width: u32, full: &[bool]) -> Vec<u8> {
    let mut bits: Vec<u8> = Vec::new();
    for k in 0..8 {
        bits.push(((width >> k) & 1) as u8);
    }
    for k in 0..64 {
        bits.push(((values[0] >> k) & 1) as u8);
    }
    let marker: u128 = (1u128 << width) - 1;
    for i in 1..values.len() {
        let s = values[i].wrapping_sub(values[i - 1]) as i64 as i128;
        let z = if s >= 0 { 2 * s } else { -2 * s - 1 } as u128;
        let forced = full.get(i - 1).copied().unwrap_or(false);
        if z < marker && !forced {
            for k in 0..width {
                bits.push(((z >> k) & 1) as u8);
            }
        } else {
            for _ in 0..width {
                bits.push(1);
            }
            for k in 0..64 {
                bits.push(((values[i] >> k) & 1) as u8);
            }
        }
    }
    let mut bytes = vec![0u8; (bits.len() + 7) / 8];
    for (k, bit) in bits.iter().enumerate() {
        bytes[k / 8] |= bit << (k % 8);
    }
    bytes
}

/// The sound page of some shapes: all fields right, columns in full. The box
/// is made of the finite coordinates only, so that a case may put others in.
pub fn page(shapes: &[Shape]) -> Page {
    let mut registers = Vec::new();
    let mut types = Vec::new();
    let mut part_counts = Vec::new();
    let mut part_lengths = Vec::new();
    let mut xs: Vec<f64> = Vec::new();
    let mut ys: Vec<f64> = Vec::new();
    for shape in shapes {
        registers.push(shape.register);
        types.push(shape.kind);
        part_counts.push(shape.parts.len() as u16);
        for part in &shape.parts {
            part_lengths.push(part.len() as u16);
            for (x, y) in part {
                xs.push(*x);
                ys.push(*y);
            }
        }
    }
    let (least_x, greatest_x) = least_and_greatest(&xs);
    let (least_y, greatest_y) = least_and_greatest(&ys);
    let x = full_column(&patterns(&xs));
    let y = full_column(&patterns(&ys));
    Page {
        g: shapes.len() as u16,
        v: xs.len() as u16,
        p: part_lengths.len() as u16,
        bounds: [least_x, least_y, greatest_x, greatest_y],
        registers,
        types,
        part_counts,
        part_lengths,
        cx: x.len() as u32,
        cy: y.len() as u32,
        x,
        y,
    }
}

/// Floats as bit patterns.
pub fn patterns(values: &[f64]) -> Vec<u64> {
    values.iter().map(|value| value.to_bits()).collect()
}

/// The first least and first greatest of the finite values; zeros for none.
fn least_and_greatest(values: &[f64]) -> (u64, u64) {
    let finite: Vec<f64> = values.iter().copied().filter(|v| v.is_finite()).collect();
    let first = match finite.first() {
        Some(first) => first,
        None => {
            return (0, 0);
        }
    };
    let mut least = *first;
    let mut greatest = *first;
    for value in finite {
        if value < least {
            least = value;
        }
        if value > greatest {
            greatest = value;
        }
    }
    (least.to_bits(), greatest.to_bits())
}

impl Page {
    /// The page with another box.
    pub fn with_bounds(mut self, bounds: [u64; 4]) -> Page {
        self.bounds = bounds;
        self
    }

    /// The page with one of its four box floats changed.
    pub fn with_bound(mut self, which: usize, pattern: u64) -> Page {
        self.bounds[which] = pattern;
        self
    }

    /// The page with another x column and its byte length.
    pub fn with_x(mut self, x: &[u8]) -> Page {
        self.x = x.to_vec();
        self.cx = x.len() as u32;
        self
    }

    /// The page with another y column and its byte length.
    pub fn with_y(mut self, y: &[u8]) -> Page {
        self.y = y.to_vec();
        self.cy = y.len() as u32;
        self
    }

    /// The page with other counts g, v, p.
    pub fn with_counts(mut self, g: u16, v: u16, p: u16) -> Page {
        self.g = g;
        self.v = v;
        self.p = p;
        self
    }

    /// The page with other types.
    pub fn with_types(mut self, types: &[u8]) -> Page {
        self.types = types.to_vec();
        self
    }

    /// The page with other part counts.
    pub fn with_part_counts(mut self, part_counts: &[u16]) -> Page {
        self.part_counts = part_counts.to_vec();
        self
    }

    /// The page with other part lengths (as many as before, or with p to
    /// match).
    pub fn with_part_lengths(mut self, part_lengths: &[u16]) -> Page {
        self.part_lengths = part_lengths.to_vec();
        self
    }

    /// The page with other byte lengths cx, cy.
    pub fn with_cx_cy(mut self, cx: u32, cy: u32) -> Page {
        self.cx = cx;
        self.cy = cy;
        self
    }

    /// The body of the page.
    pub fn body(&self) -> Vec<u8> {
        let mut body = Vec::new();
        for count in [self.g, self.v, self.p] {
            body.extend_from_slice(&count.to_le_bytes());
        }
        for pattern in self.bounds {
            body.extend_from_slice(&pattern.to_le_bytes());
        }
        for register in &self.registers {
            body.extend_from_slice(&register.to_le_bytes());
        }
        body.extend_from_slice(&self.types);
        for count in &self.part_counts {
            body.extend_from_slice(&count.to_le_bytes());
        }
        for length in &self.part_lengths {
            body.extend_from_slice(&length.to_le_bytes());
        }
        body.extend_from_slice(&self.cx.to_le_bytes());
        body.extend_from_slice(&self.cy.to_le_bytes());
        body.extend_from_slice(&self.x);
        body.extend_from_slice(&self.y);
        body
    }

    /// The page as a block of kind 2.
    pub fn block(&self) -> Vec<u8> {
        block(2, &self.body())
    }
}

/// A block with the length of its body.
pub fn block(kind: u16, body: &[u8]) -> Vec<u8> {
    block_saying(body.len() as u32, kind, body)
}

/// A block that says any length.
pub fn block_saying(length: u32, kind: u16, body: &[u8]) -> Vec<u8> {
    let mut bytes = Vec::new();
    bytes.extend_from_slice(&length.to_le_bytes());
    bytes.extend_from_slice(&kind.to_le_bytes());
    bytes.extend_from_slice(body);
    bytes
}

/// The end block.
pub fn end(pages: u32, shapes: u32) -> Vec<u8> {
    let mut body = Vec::new();
    body.extend_from_slice(&pages.to_le_bytes());
    body.extend_from_slice(&shapes.to_le_bytes());
    block(3, &body)
}

/// Bytes one after the other.
pub fn join(pieces: &[&[u8]]) -> Vec<u8> {
    pieces.concat()
}

/// A file of pages with the first block and the right end block.
pub fn file(pages: &[&Page]) -> Vec<u8> {
    let mut bytes = FIRST.to_vec();
    let mut shapes: u32 = 0;
    for page in pages {
        bytes.extend_from_slice(&page.block());
        shapes += u32::from(page.g);
    }
    bytes.extend_from_slice(&end(pages.len() as u32, shapes));
    bytes
}

/// A sound page of one shape, a Point.
pub fn good() -> Page {
    page(&[point(7, 1.0, 2.0)])
}

/// A sound page of three shapes: a LineString, an empty one and a Point.
pub fn good_three() -> Page {
    page(&[
        line(11, &[(-3.0, 4.5), (2.5, -1.0), (6.0, 0.25)]),
        empty(12),
        point(13, 5.0, 5.0),
    ])
}

/// A sound page of one shape without a vertex.
pub fn none() -> Page {
    page(&[empty(9)])
}
