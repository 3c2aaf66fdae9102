//! The cases of files and writer runs about zero: which of the zeros or the
//! subnormals of either sign it is decides the box, the query or the fault.
//! A machine that takes subnormals for zero gives other answers.

use crate::calls::check;
use crate::gen::draft::draft;
use crate::gen::fetch_cases::fetches;
use crate::gen::file_cases::ask;
use crate::gen::floats::{about_zero, rank};
use crate::gen::plan::Plan;
use crate::gen::queries::{landmarks, query, query_block};
use crate::gen::run_cases::written;
use crate::rng::Rng;
use crate::sink::{Sink, Stop};

/// What is wrong, in turn; 0 for nothing.
const FAULTS: [usize; 8] = [0, 16, 0, 7, 0, 16, 14, 13];

/// The plan of an index: one fault or none, on one of a few pages.
fn plan(rng: &mut Rng, index: u64) -> Plan {
    let number = FAULTS[(index % FAULTS.len() as u64) as usize];
    let pages = 1 + rng.below(3);
    let (kind, faults) = match number {
        0 => (String::from("tiny: sound"), Vec::new()),
        _ => (format!("tiny: fault {number}"), vec![(number, rng.below(pages))]),
    };
    Plan { kind, pages, faults, tiny: true, ..Plan::default() }
}

/// A query about zero: a spot, a window, or a window that may be reversed.
fn near(rng: &mut Rng) -> Vec<u8> {
    let mut w = [about_zero(rng), about_zero(rng), about_zero(rng), about_zero(rng)];
    let sort = rng.below(3);
    for axis in 0..2 {
        if sort == 1 && rank(w[axis]) > rank(w[axis + 2]) {
            w.swap(axis, axis + 2);
        }
    }
    query_block(if sort == 0 { &w[..2] } else { &w })
}

/// The case of one index.
pub fn case(sink: &mut dyn Sink, rng: &mut Rng, index: u64) -> Result<(), Stop> {
    let plan = plan(rng, index);
    sink.kind(&plan.kind);
    let draft = draft(rng, &plan);
    let marks = landmarks(rng, &draft.shapes);
    sink.call(check(&draft.bytes))?;
    for turn in 0..8 {
        let block = if turn % 2 == 0 { query(rng, &marks) } else { near(rng) };
        ask(sink, rng, &block, &draft.bytes)?;
    }
    let shapes = draft.parts.pages.iter().map(|page| u64::from(page.g)).sum();
    fetches(sink, rng, &draft.bytes, shapes, 3)?;
    written(sink, rng, draft.shapes, 3000)
}
