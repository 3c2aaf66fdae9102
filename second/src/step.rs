//! The column reader that "gives one value a call. The position is handed
//! back with each answer."

use crate::bits;
use crate::column::{marker, step_from_zigzag, value_after, MOST_VALUES, MOST_WIDTH};
use crate::refusal::{fault, refused, refused_alone, ColumnFault, Refusal};

/// "A position holds bit place, values given, width and last value."
#[derive(Clone, Copy, Debug, PartialEq, Eq)]
pub struct Position {
    pub place: u64,
    pub given: u64,
    pub width: u64,
    pub last: u64,
}

/// The fresh position: nothing given.
pub const FRESH: Position = Position {
    place: 0,
    given: 0,
    width: 0,
    last: 0,
};

/// One answer of the step; the position is handed back with each.
#[derive(Clone, Copy, Debug, PartialEq, Eq)]
pub enum Answer {
    Value { value: u64, position: Position },
    End { position: Position },
    Refused { refusal: Refusal, position: Position },
}

/// One value a call, over the column's bytes, N and a position. "An answer
/// that gives no value hands the position back unchanged."
pub fn step(bytes: &[u8], n: usize, position: Position) -> Answer {
    if n > MOST_VALUES {
        return Answer::Refused {
            refusal: refused(3),
            position,
        };
    }
    let answer = if position.given == 0 {
        step_first(bytes, n)
    } else {
        step_later(bytes, n, position)
    };
    match answer {
        Ok(Some(next)) => Answer::Value {
            value: next.last,
            position: next,
        },
        Ok(None) => Answer::End { position },
        Err(fault) => Answer::Refused {
            refusal: refused_alone(fault),
            position,
        },
    }
}

/// "With none given it starts at the first bit": the width and the first
/// pattern, or the end of a column of no values. 8 is judged if there is a
/// first byte, and any byte with N = 0 gives 9. The index is 0 throughout: for
/// 8, for the first value that lacks bits, and for N = 0.
fn step_first(bytes: &[u8], n: usize) -> Result<Option<Position>, ColumnFault> {
    if n == 0 {
        return if bytes.is_empty() {
            Ok(None)
        } else {
            Err(fault(9, n))
        };
    }
    let width = bits::field(bytes, 0, 8).ok_or(fault(9, 0))?;
    if width > u64::from(MOST_WIDTH) {
        return Err(fault(8, 0));
    }
    let value = bits::field(bytes, 8, 64).ok_or(fault(9, 0))?;
    Ok(Some(Position {
        place: 72,
        given: 1,
        width,
        last: value,
    }))
}

/// "Any other is taken as it stands: after 3, in this order, a width over 64
/// gives 8, a place past the bytes 9, and with N or more given only the rules
/// of the end (9, 10) remain." The header says the index: "0 with 8, the
/// number of values given where bits are lacking for the next one, the lesser
/// of that number and n where the place lies past the bytes, and n with bytes
/// left over and with 10".
fn step_later(bytes: &[u8], n: usize, position: Position) -> Result<Option<Position>, ColumnFault> {
    if position.width > u64::from(MOST_WIDTH) {
        return Err(fault(8, 0));
    }
    if u128::from(position.place) > bits::bit_count(bytes) {
        return Err(fault(9, position.given.min(n as u64) as usize));
    }
    if u128::from(position.given) >= n as u128 {
        bits::end_rules(bytes, u128::from(position.place)).map_err(|number| fault(number, n))?;
        return Ok(None);
    }
    let index = position.given as usize; // of the next value, below n
    let width = u128::from(position.width);
    let mut place = u128::from(position.place);
    let entry = bits::field(bytes, place, width).ok_or(fault(9, index))?;
    place += width;
    let value = if u128::from(entry) == marker(position.width as u32) {
        let full = bits::field(bytes, place, 64).ok_or(fault(9, index))?;
        place += 64;
        full
    } else {
        value_after(position.last, step_from_zigzag(entry))
    };
    // The place is at most 8 times the length of a slice in memory, and a
    // slice is shorter than 2^63 bytes; a place that does not fit in 64 bits
    // would need a slice of 2^61 bytes or more.
    let place = u64::try_from(place).map_err(|_| fault(9, index))?;
    Ok(Some(Position {
        place,
        given: position.given + 1,
        width: position.width,
        last: value,
    }))
}
