//! The cases of a file: the full check, several queries for the count and the
//! search, and fetches.

use crate::calls::{check, count, search};
use crate::gen::draft::draft;
use crate::gen::fetch_cases::fetches;
use crate::gen::giant;
use crate::gen::plan::plan;
use crate::gen::queries::{landmarks, query, query_block, Landmarks};
use crate::rng::Rng;
use crate::sink::{Sink, Stop};

/// The case of one index.
pub fn case(sink: &mut dyn Sink, rng: &mut Rng, index: u64) -> Result<(), Stop> {
    if index % 200 == 7 {
        return giant::case(sink, rng, index / 200);
    }
    let plan = plan(rng, index);
    sink.kind(&plan.kind);
    let draft = draft(rng, &plan);
    let marks = landmarks(rng, &draft.shapes);
    let large = draft.bytes.len() > 6000;
    sink.call(check(&draft.bytes))?;
    for _ in 0..if large { 3 } else { 8 } {
        let block = query(rng, &marks);
        ask(sink, rng, &block, &draft.bytes)?;
    }
    let shapes = draft.parts.pages.iter().map(|page| u64::from(page.g)).sum();
    fetches(sink, rng, &draft.bytes, shapes, if large { 2 } else { 6 })?;
    if index % 100 == 11 && draft.bytes.len() < 500 {
        sink.kind("file: cut at every length");
        cuts(sink, rng, &draft.bytes, &marks)?;
    }
    Ok(())
}

/// One query, for the count and for the search with a room exactly enough or
/// another.
pub fn ask(sink: &mut dyn Sink, rng: &mut Rng, block: &[u8], file: &[u8]) -> Result<(), Stop> {
    let outcome = sink.call(count(block, file))?;
    let hits = if outcome.good() { outcome.low() as usize } else { rng.below(4) };
    let room = match rng.below(6) {
        0 => hits.saturating_sub(1),
        1 => hits + 1 + rng.below(4),
        2 => 0,
        _ => hits,
    };
    sink.call(search(block, file, room)).map(|_| ())
}

/// The file cut at every length, and longer by each of some bytes.
fn cuts(sink: &mut dyn Sink, rng: &mut Rng, file: &[u8], marks: &Landmarks) -> Result<(), Stop> {
    for length in 0..file.len() {
        sink.call(check(&file[..length]))?;
        if rng.once_in(8) {
            let block = query(rng, marks);
            ask(sink, rng, &block, &file[..length])?;
        }
    }
    let mut longer = file.to_vec();
    for byte in [0, 1, 255, 0, 0, 0, 2, 0, 3] {
        longer.push(byte);
        sink.call(check(&longer))?;
        ask(sink, rng, &query_block(&[]), &longer)?;
    }
    Ok(())
}
