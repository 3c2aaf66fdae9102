//! Smaller column calls: one value or half of them dropped, the bytes and the
//! rooms changed to match.

use crate::call::{room, slice, Arg, Call};
use crate::gen::encode::encode;
use crate::signature::Service;
use second::step::{step, Answer, FRESH};

/// The ranges to drop in a turn from a list: halves, quarters, and so on.
fn ranges(count: usize, turn: usize) -> Option<Vec<(usize, usize)>> {
    let run = count.checked_shr(turn as u32 + 1)?;
    if run == 0 {
        return None;
    }
    Some((0..count / run).map(|k| (k * run, (k + 1) * run)).collect())
}

/// The list without a range.
fn without(list: &[u64], range: (usize, usize)) -> Vec<u64> {
    let mut rest = list.to_vec();
    rest.drain(range.0..range.1);
    rest
}

/// A write of fewer values, the room as much over or under what is needed.
fn write(call: &Call, range: (usize, usize)) -> Call {
    let values = call.list::<u64>(0);
    let rest = without(&values, range);
    let size = |list: &[u64]| second::column::bytes_of(&list[..list.len().min(2048)]).len();
    let over = call.bytes(1).len() as i64 - size(&values) as i64;
    let bytes = (size(&rest) as i64 + over).max(0) as usize;
    Call { service: Service::ColumnWrite, args: vec![slice(&rest), room::<u8>(bytes)] }
}

/// The values that the entries of a column say, as far as they go.
fn values_given(column: &[u8], n: usize) -> Vec<u64> {
    let mut values = Vec::new();
    let mut position = FRESH;
    while let Answer::Value { value, position: next } = step(column, n, position) {
        values.push(value);
        position = next;
    }
    values
}

/// A read of fewer values at the same width; with a fill bit set if the
/// column's fill was wrong.
fn read(call: &Call, values: &[u64], range: (usize, usize)) -> Call {
    let rest = without(values, range);
    let mut column = encode(&rest, u32::from(call.bytes(0)[0].min(64)), &|_| false);
    let fault = second::column::values_of(call.bytes(0), values.len()).err();
    let fill = fault.map_or(false, |fault| fault.number == 10);
    if let (true, Some(last)) = (fill, column.last_mut()) {
        *last |= 0x80;
    }
    let dropped = range.1 - range.0;
    let elements = (call.bytes(2).len() / 8).saturating_sub(dropped);
    Call {
        service: Service::ColumnRead,
        args: vec![Arg::Slice(column), Arg::Number(rest.len() as u64), room::<u64>(elements)],
    }
}

/// The candidates of a turn; none when there are no more turns.
pub fn candidates(call: &Call, turn: usize) -> Option<Vec<Call>> {
    if call.service == Service::ColumnWrite {
        let count = call.bytes(0).len() / 8;
        return Some(ranges(count, turn)?.into_iter().map(|range| write(call, range)).collect());
    }
    if call.number(1) > 2048 || call.bytes(0).is_empty() {
        return None;
    }
    let values = values_given(call.bytes(0), call.number(1) as usize);
    Some(ranges(values.len(), turn)?.into_iter().map(|range| read(call, &values, range)).collect())
}
