//! The cases of a column: written with all rooms, read back, read in other
//! permitted forms, read damaged and refused at each site, and given value by
//! value.

use crate::calls::{column_read, column_write};
use crate::gen::aimed;
use crate::gen::column_damage::damaged;
use crate::gen::encode::encode;
use crate::gen::step_cases;
use crate::gen::values::{length, values, SORTS};
use crate::rng::Rng;
use crate::sink::{Sink, Stop};
use crate::sites::{FROM_START, SITES};

/// The case of one index.
pub fn case(sink: &mut dyn Sink, rng: &mut Rng, index: u64) -> Result<(), Stop> {
    let sort = (index % SORTS.len() as u64) as usize;
    let count = length(rng);
    let list = values(rng, sort, count);
    sink.kind(&format!("column: {}", SORTS[sort]));
    let column = written(sink, rng, &list)?;
    reads(sink, rng, &column, list.len())?;
    other_forms(sink, rng, &list)?;
    let most = if list.len() > 300 { 1 } else { 4 };
    for _ in 0..most {
        let bad = damaged(rng, &column);
        read(sink, &bad, list.len() as u64, list.len())?;
        if list.len() < 300 && rng.once_in(2) {
            step_cases::run(sink, &bad, list.len() as u64)?;
        }
    }
    at_a_site(sink, rng, &list, index)?;
    if list.len() < 300 || rng.once_in(8) {
        step_cases::run(sink, &column, list.len() as u64)?;
    }
    if index % 50 == 3 && column.len() < 120 {
        sink.kind("column: cut at every length");
        for length in 0..column.len() {
            read(sink, &column[..length], list.len() as u64, list.len())?;
        }
    }
    step_cases::made_up(sink, rng, &column, list.len())
}

/// The values in a form that is refused at a site, the sites in turn: read,
/// and given value by value.
fn at_a_site(sink: &mut dyn Sink, rng: &mut Rng, list: &[u64], index: u64) -> Result<(), Stop> {
    let list = &list[..list.len().min(2048)];
    let bad = aimed::column(rng, list, SITES[index as usize % FROM_START]);
    read(sink, &bad, list.len() as u64, list.len())?;
    if list.len() < 300 || rng.once_in(8) {
        step_cases::run(sink, &bad, list.len() as u64)?;
    }
    Ok(())
}

/// Writes the values with several rooms; the column's bytes (for too many
/// values, those of the first 2,048).
fn written(sink: &mut dyn Sink, rng: &mut Rng, list: &[u64]) -> Result<Vec<u8>, Stop> {
    let fits = &list[..list.len().min(2048)];
    let column = second::column::bytes_of(fits);
    let exact = column.len();
    let other = match rng.below(4) {
        0 => 0,
        1 => exact + 1,
        2 => rng.below(exact + 1),
        _ => exact + 1 + rng.below(30),
    };
    for room in [exact, exact.saturating_sub(1), other] {
        sink.call(column_write(list, room))?;
    }
    Ok(column)
}

/// One read.
fn read(sink: &mut dyn Sink, column: &[u8], n: u64, room: usize) -> Result<(), Stop> {
    sink.call(column_read(column, n, room)).map(|_| ())
}

/// Reads of a sound column: each number of values near, and the rooms.
fn reads(sink: &mut dyn Sink, rng: &mut Rng, column: &[u8], count: usize) -> Result<(), Stop> {
    let n = count as u64;
    read(sink, column, n, count)?;
    read(sink, column, n, count + 1 + rng.below(4))?;
    read(sink, column, n, count.saturating_sub(1))?;
    read(sink, column, n + 1, count + 1)?;
    read(sink, column, n.saturating_sub(1), count)?;
    match rng.below(4) {
        0 => read(sink, column, 0, count),
        1 => read(sink, column, 2049, 2049),
        2 => read(sink, column, rng.pick(&[1 << 32, u64::MAX, (1 << 32) + n, 1 << 63]), count),
        _ => read(sink, column, n + 2, count + 2),
    }
}

/// Reads of the same values at other widths, some of them in full where a
/// step would have fitted.
fn other_forms(sink: &mut dyn Sink, rng: &mut Rng, list: &[u64]) -> Result<(), Stop> {
    let list = &list[..list.len().min(2048)];
    let turns = if list.len() > 300 { 1 } else { 3 };
    for _ in 0..turns {
        let any = rng.below(65) as u32;
        let width = rng.pick(&[0, 1, 2, 63, 64, any, any, any]);
        let salt = rng.word() | 1;
        let seldom = rng.below(4) as u64;
        let form = encode(list, width, &|k| seldom > 0 && (salt.wrapping_mul(k as u64) >> 7) % (seldom + 1) == 0);
        read(sink, &form, list.len() as u64, list.len())?;
        let bad = damaged(rng, &form);
        read(sink, &bad, list.len() as u64, list.len())?;
    }
    Ok(())
}
