//! The column reader that gives one value a call: runs from the fresh
//! position to the last answer, and made-up positions.

use crate::calls::column_step;
use crate::rng::Rng;
use crate::sink::{Sink, Stop};

/// A run from the fresh position until an answer gives no value.
pub fn run(sink: &mut dyn Sink, column: &[u8], n: u64) -> Result<(), Stop> {
    let mut position = vec![0u64; 4];
    loop {
        let outcome = sink.call(column_step(column, n, &position))?;
        if outcome.word != 1 {
            return Ok(());
        }
        position = outcome.list::<u64>(2);
    }
}

/// A made-up bit place for a column of so many bits.
fn place(rng: &mut Rng, bits: u64) -> u64 {
    match rng.below(10) {
        0 => 72,
        1 => bits,
        2 => bits + 1,
        3 => bits.saturating_sub(rng.below(9) as u64),
        4 => u64::MAX - rng.below(70) as u64,
        5 => rng.pick(&[1 << 32, 1 << 61, 1 << 63, (1 << 32) + 72]),
        6 => bits.saturating_sub(64 + rng.below(20) as u64),
        _ => rng.below(bits as usize + 1) as u64,
    }
}

/// A made-up position.
fn position(rng: &mut Rng, bits: u64, count: u64) -> Vec<u64> {
    let given = match rng.below(8) {
        0 => 0,
        1 => count,
        2 => count + 1,
        3 => count.saturating_sub(1),
        4 => rng.pick(&[u64::MAX, 1 << 32, 1 << 63, 2048]),
        _ => 1 + rng.below(count as usize + 1) as u64,
    };
    let width = match rng.below(8) {
        0 => rng.pick(&[65, 66, 128, 255, 256, 1 << 32, (1 << 32) + 3, u64::MAX]),
        1 => 64,
        2 => 0,
        _ => rng.below(65) as u64,
    };
    vec![place(rng, bits), given, width, rng.word()]
}

/// Steps from made-up positions; at times with too few or more words, or
/// another number of values.
pub fn made_up(sink: &mut dyn Sink, rng: &mut Rng, column: &[u8], count: usize) -> Result<(), Stop> {
    let bits = 8 * column.len() as u64;
    for _ in 0..6 {
        let mut words = position(rng, bits, count as u64);
        let n = match rng.below(8) {
            0 => 0,
            1 => rng.pick(&[2048, 2049, 1 << 32, u64::MAX]),
            2 => count as u64 + 1,
            _ => count as u64,
        };
        match rng.below(12) {
            0 => words.truncate(rng.below(4)),
            1 => words.push(rng.word()),
            _ => {}
        }
        sink.call(column_step(column, n, &words))?;
    }
    Ok(())
}
