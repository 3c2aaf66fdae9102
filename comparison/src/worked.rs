//! The worked numbers of document 01 that are not marked P, as calls: the
//! sample file and its queries, the limits of vertices, the grid. Last the
//! greatest index there is, which no small case has.

use crate::call::Call;
use crate::calls::{check, column_read, column_step, column_write, count, fetch, page, search, FetchRooms};
use crate::gen::fields::{Fields, Parts};
use crate::gen::floats::SIGN;
use crate::gen::queries::query_block;
use crate::gen::shapes::{lists, Shape};
use crate::rng::Rng;

/// A shape of floats.
fn shape(register: u32, kind: u8, parts: &[&[(f64, f64)]]) -> Shape {
    let patterns = |part: &&[(f64, f64)]| part.iter().map(|(x, y)| (x.to_bits(), y.to_bits())).collect();
    Shape { register, kind, parts: parts.iter().map(patterns).collect() }
}

/// The pages of the sample file.
pub fn sample_pages() -> Vec<Vec<Shape>> {
    let ring: &[(f64, f64)] = &[(0.0, 0.0), (0.0, 10.0), (10.0, 10.0), (10.0, 0.0), (0.0, 0.0)];
    vec![
        vec![shape(101, 3, &[ring]), shape(102, 1, &[&[(20.0, 5.0)]])],
        vec![shape(101, 2, &[&[(-5.0, -5.0), (-1.0, -1.0)]]), shape(103, 0, &[])],
    ]
}

/// A file of pages, its columns in any permitted form.
fn file(pages: &[Vec<Shape>]) -> Vec<u8> {
    let mut rng = Rng::of_case(1, 1, 1);
    Parts::of(pages.iter().map(|page| Fields::of(&mut rng, page)).collect()).bytes()
}

/// The sample file and its queries.
fn sample() -> Vec<Call> {
    let file = file(&sample_pages());
    let bits = |list: &[f64]| query_block(&list.iter().map(|float| float.to_bits()).collect::<Vec<u64>>());
    let queries = [
        bits(&[]),
        bits(&[10.0, 10.0]),
        bits(&[10.5, 5.0]),
        query_block(&[SIGN, 0]),
        bits(&[0.0, 0.0, 10.0, 10.0]),
    ];
    let mut calls = vec![check(&file)];
    for query in queries {
        calls.push(count(&query, &file));
        calls.push(search(&query, &file, 4));
    }
    for place in 0..5 {
        calls.push(fetch(&file, place, FetchRooms { about: 4, lens: 1, xs: 5, ys: 5 }));
    }
    calls
}

/// 2,048 vertices pass; 2,049 give 3 for a column call and 6 for a page.
fn limits() -> Vec<Call> {
    let values: Vec<u64> = (0..2049).collect();
    let column = second::column::bytes_of(&values[..2048]);
    let mut calls = vec![
        column_write(&values[..2048], column.len()),
        column_write(&values, column.len() + 9),
        column_read(&column, 2048, 2048),
        column_read(&column, 2049, 1),
        column_step(&column, 2048, &[0; 4]),
        column_step(&column, 2049, &[0; 4]),
    ];
    for vertices in [2048, 2049] {
        let line = Shape { register: 1, kind: 2, parts: vec![vec![(0, 0); vertices]] };
        calls.push(page(&[8, 0, 0, 0], &[0xB7; 700], &lists(std::slice::from_ref(&line))));
        calls.push(check(&file(&[vec![line]])));
    }
    calls
}

/// Grid 2^24 passes, 2^24 + 1 and 0.5 give 14; for the writer and the check.
fn grid() -> Vec<Call> {
    let mut calls = Vec::new();
    for far in [16_777_216.0, -16_777_216.0, 16_777_217.0, -16_777_217.0, 0.5] {
        let ring: &[(f64, f64)] = &[(0.0, 0.0), (0.0, far), (far, 0.0), (0.0, 0.0)];
        let shapes = vec![shape(7, 6, &[ring])];
        calls.push(page(&[8, 0, 0, 0], &[0xB7; 200], &lists(&shapes)));
        calls.push(check(&file(&[shapes])));
    }
    calls
}

/// Of 2,048 values the last byte cut, a byte left over and the fill bit set: a
/// column stepped over value 2,041 and from its end, and a page's x and y. The
/// values are equal, so at width 1 each entry is one bit: that of value 2,041
/// is the first of the last byte, and that of the last is bit 2,118.
fn greatest_index() -> Vec<Call> {
    let column = crate::gen::encode::encode(&[0; 2048], 1, &|_| false);
    let (cut, over) = (column[..264].to_vec(), [&column[..], &[0]].concat());
    let mut filled = column.clone();
    filled[264] |= 0x80;
    let line = Shape { register: 1, kind: 2, parts: vec![vec![(0, 0); 2048]] };
    let mut calls = Vec::new();
    for bad in [cut, over, filled] {
        calls.push(column_step(&bad, 2048, &[2112, 2041, 1, 0]));
        calls.push(column_step(&bad, 2048, &[2119, 2048, 1, 0]));
        for x in [true, false] {
            let mut fields = Fields::of(&mut Rng::of_case(1, 1, 1), std::slice::from_ref(&line));
            let (bytes, length) = if x { (&mut fields.x, &mut fields.cx) } else { (&mut fields.y, &mut fields.cy) };
            *bytes = bad.clone();
            *length = bad.len() as u32;
            calls.push(check(&Parts::of(vec![fields]).bytes()));
        }
    }
    calls
}

/// All worked calls.
pub fn calls() -> Vec<Call> {
    [sample(), limits(), grid(), greatest_index()].concat()
}
