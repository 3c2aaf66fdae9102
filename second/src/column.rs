//! The coordinate column: its writer and its reader.

use crate::bits;
use crate::refusal::{fault, refused, refused_alone, ColumnFault, Refusal};

/// "Column and page: at most 2,048 vertices."
pub const MOST_VALUES: usize = 2048;

/// The greatest width.
pub const MOST_WIDTH: u32 = 64;

/// "The marker is 2^n - 1."
pub fn marker(n: u32) -> u128 {
    (1u128 << n.min(MOST_WIDTH)) - 1
}

/// "The step from one value to the next is the difference of the two
/// patterns, wrapped at 64 bits and read as two's complement."
pub fn step_of(from: u64, to: u64) -> i128 {
    i128::from(to.wrapping_sub(from) as i64)
}

/// "Zigzag z: step s >= 0 gives 2s, s < 0 gives -2s - 1."
pub fn zigzag(s: i128) -> u128 {
    if s >= 0 {
        (2 * s) as u128
    } else {
        (-2 * s - 1) as u128
    }
}

/// The step that a zigzag number stands for: even z is z/2, odd z is
/// -(z + 1)/2.
pub fn step_from_zigzag(z: u64) -> i128 {
    let z = i128::from(z);
    if z % 2 == 0 {
        z / 2
    } else {
        -((z + 1) / 2)
    }
}

/// The value one step after another, wrapped at 64 bits.
pub fn value_after(value: u64, s: i128) -> u64 {
    value.wrapping_add(s as i64 as u64)
}

/// "S(n) = n(N-1) + 64 × (number of steps with z >= 2^n - 1)."
pub fn s_of(values: &[u64], n: u32) -> u128 {
    let mut total: u128 = 0;
    for pair in values.windows(2) {
        total += u128::from(n);
        if zigzag(step_of(pair[0], pair[1])) >= marker(n) {
            total += 64;
        }
    }
    total
}

/// "The writer takes the n from 0 to 64 with least S(n), the smallest n on a
/// tie."
pub fn best_width(values: &[u64]) -> u32 {
    let mut best = 0;
    let mut least = s_of(values, 0);
    for n in 1..=MOST_WIDTH {
        let size = s_of(values, n);
        if size < least {
            least = size;
            best = n;
        }
    }
    best
}

/// The bits of a column at width n. "Otherwise: width n in 8 bits (0 to 64),
/// the first pattern in 64 bits, then one entry for each later value."
fn column_bits(values: &[u64], n: u32) -> Vec<bool> {
    let mut list = Vec::new();
    let first = match values.first() {
        Some(first) => first,
        None => {
            return list; // "N = 0: no bytes at all."
        }
    };
    bits::push_field(&mut list, u64::from(n), 8);
    bits::push_field(&mut list, *first, 64);
    for pair in values.windows(2) {
        let z = zigzag(step_of(pair[0], pair[1]));
        if z < marker(n) {
            bits::push_field(&mut list, z as u64, n);
        } else {
            bits::push_field(&mut list, marker(n) as u64, n);
            bits::push_field(&mut list, pair[1], 64);
        }
    }
    list
}

/// The bytes that the writer makes of a list of values.
pub fn bytes_of(values: &[u64]) -> Vec<u8> {
    bits::to_bytes(&column_bits(values, best_width(values)))
}

/// Column write: 3, 2. Fills the start of the room, the rest stays; gives the
/// number of bytes.
pub fn write(values: &[u64], room: &mut [u8]) -> Result<usize, Refusal> {
    if values.len() > MOST_VALUES {
        return Err(refused(3));
    }
    let bytes = bytes_of(values);
    match room.get_mut(..bytes.len()) {
        None => Err(refused(2)),
        Some(start) => {
            start.copy_from_slice(&bytes);
            Ok(bytes.len())
        }
    }
}

/// The values of a column of n values, or 8, 9 or 10 in that order. "With
/// N = 0, any byte gives 9 and never 8." The index is "0 for 8, N for bytes
/// left over or fill bits, otherwise the value that lacked bits".
pub fn values_of(bytes: &[u8], n: usize) -> Result<Vec<u64>, ColumnFault> {
    let mut values = Vec::new();
    if n == 0 {
        // Bytes left over: the index is N, which is 0.
        return if bytes.is_empty() {
            Ok(values)
        } else {
            Err(fault(9, n))
        };
    }
    let width = match bits::field(bytes, 0, 8) {
        Some(width) => width,
        None => {
            return Err(fault(9, 0));
        }
    };
    if width > u64::from(MOST_WIDTH) {
        return Err(fault(8, 0));
    }
    let width = width as u32;
    let mut place: u128 = 8;
    let first = match bits::field(bytes, place, 64) {
        Some(first) => first,
        None => {
            return Err(fault(9, 0));
        }
    };
    place += 64;
    values.push(first);
    let mut last = first;
    while values.len() < n {
        let index = values.len(); // of the value worked on
        let entry = match bits::field(bytes, place, u128::from(width)) {
            Some(entry) => entry,
            None => {
                return Err(fault(9, index));
            }
        };
        place += u128::from(width);
        if u128::from(entry) == marker(width) {
            let full = match bits::field(bytes, place, 64) {
                Some(full) => full,
                None => {
                    return Err(fault(9, index));
                }
            };
            place += 64;
            last = full;
        } else {
            last = value_after(last, step_from_zigzag(entry));
        }
        values.push(last);
    }
    bits::end_rules(bytes, place).map_err(|number| fault(number, n))?;
    Ok(values)
}

/// Column read: "3, 2, then 8 (if N > 0 and there is a first byte), 9, 10".
/// Fills the start of the room, the rest stays. 8, 9 and 10 have the index of
/// `values_of`; "other refusals give index 0".
pub fn read(bytes: &[u8], n: usize, room: &mut [u64]) -> Result<(), Refusal> {
    if n > MOST_VALUES {
        return Err(refused(3));
    }
    let start = match room.get_mut(..n) {
        Some(start) => start,
        None => {
            return Err(refused(2));
        }
    };
    let values = values_of(bytes, n).map_err(refused_alone)?;
    start.copy_from_slice(&values);
    Ok(())
}
