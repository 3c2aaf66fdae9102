//! Files of about 1,024 pages: the last that passes, the 1,025th page in all
//! its forms, and faults far back.

use crate::calls::check;
use crate::gen::fetch_cases::fetches;
use crate::gen::field_damage;
use crate::gen::fields::{Fields, Parts};
use crate::gen::file_cases::ask;
use crate::gen::plan::PAGE_FAULTS;
use crate::gen::queries::{landmarks, query, query_block};
use crate::gen::shapes::{ground, shape, Shape};
use crate::rng::Rng;
use crate::sink::{Sink, Stop};

/// A small page: an empty shape, now and then a Point.
fn tiny(rng: &mut Rng, seldom: usize) -> Vec<Shape> {
    let ground = ground(rng);
    let kind = if rng.once_in(seldom) { 1 } else { 0 };
    vec![shape(rng, kind, &ground)]
}

/// What is done to the last page block of a file.
fn last(rng: &mut Rng, parts: &mut Parts) {
    let page = match parts.pages.last_mut() {
        Some(page) => page,
        None => return,
    };
    match rng.below(6) {
        0 => page.cut = Some(rng.below(38)),
        1 => page.cut = Some(0),
        2 => page.said = Some(u32::MAX),
        3 => page.kind = rng.pick(&[1, 3, 4]),
        4 => {
            let number = rng.pick(&PAGE_FAULTS);
            field_damage::damage(rng, page, number);
        }
        _ => {}
    }
}

/// The parts of a file of so many pages.
fn parts(rng: &mut Rng, count: usize, shapes: &mut Vec<Vec<Shape>>) -> Parts {
    let seldom = rng.pick(&[5, 50, 1000]);
    for _ in 0..count {
        shapes.push(tiny(rng, seldom));
    }
    Parts::of(shapes.iter().map(|page| Fields::of(rng, page)).collect())
}

/// The case of one turn.
pub fn case(sink: &mut dyn Sink, rng: &mut Rng, turn: u64) -> Result<(), Stop> {
    let mut shapes = Vec::new();
    let count = match turn % 4 {
        0 | 2 => 1025,
        1 => 1024,
        _ => 1000 + rng.below(24),
    };
    sink.kind(match count {
        1025 => "file: 1,025 pages",
        1024 => "file: 1,024 pages",
        _ => "file: 1,000 to 1,023 pages",
    });
    let mut parts = parts(rng, count, &mut shapes);
    if turn % 4 == 2 {
        last(rng, &mut parts);
    }
    if turn % 4 == 3 {
        let page = rng.below(count);
        let number = rng.pick(&PAGE_FAULTS);
        field_damage::damage(rng, &mut parts.pages[page], number);
    }
    let file = parts.bytes();
    let marks = landmarks(rng, &shapes);
    sink.call(check(&file))?;
    ask(sink, rng, &query_block(&[]), &file)?;
    for _ in 0..2 {
        let block = query(rng, &marks);
        ask(sink, rng, &block, &file)?;
    }
    fetches(sink, rng, &file, count as u64, 2)
}
