//! Columns: round trips, the step against the read, made-up positions.

mod common;

use common::Numbers;
use second::bits::{push_field, to_bytes};
use second::column::{bytes_of, marker, read, step_of, write, zigzag};
use second::refusal::{fault, refused, refused_alone, Column, Refusal};
use second::step::{step, Answer, Position, FRESH};

/// Values of many sorts.
fn some_values(numbers: &mut Numbers) -> Vec<u64> {
    let count = numbers.below(12);
    let size = numbers.below(65);
    let mut values = Vec::new();
    let mut last = numbers.next();
    for _ in 0..count {
        let step = if size == 0 { 0 } else { numbers.next() >> (64 - size) };
        last = match numbers.below(4) {
            0 => last.wrapping_add(step),
            1 => last.wrapping_sub(step),
            2 => last,
            _ => numbers.next(),
        };
        values.push(last);
    }
    values
}

/// Runs the steps to their last answer: the values before it, and it.
fn steps(bytes: &[u8], n: usize) -> (Vec<u64>, Option<Refusal>) {
    let mut position = FRESH;
    let mut values = Vec::new();
    loop {
        match step(bytes, n, position) {
            Answer::Value { value, position: next } => {
                assert_eq!(next.last, value);
                assert_eq!(next.given, position.given + 1);
                values.push(value);
                position = next;
            }
            Answer::End { position: same } => {
                assert_eq!(same, position);
                return (values, None);
            }
            Answer::Refused { refusal, position: same } => {
                assert_eq!(same, position);
                return (values, Some(refusal));
            }
        }
    }
}

/// The last answer of the steps is that of the read with room for N, the index
/// included.
fn same_answer(bytes: &[u8], n: usize) {
    let mut room = vec![0x1234u64; n];
    let answer = read(bytes, n, &mut room);
    let (values, last) = steps(bytes, n);
    match answer {
        Ok(()) => {
            assert_eq!(last, None);
            assert_eq!(values, room);
        }
        Err(refusal) => {
            assert_eq!(last, Some(refusal));
            assert!(room.iter().all(|value| *value == 0x1234));
        }
    }
}

#[test]
fn round_trips_and_steps() {
    let mut numbers = Numbers(1);
    for _ in 0..1500 {
        let values = some_values(&mut numbers);
        let mut room = vec![0u8; 200];
        let size = write(&values, &mut room).unwrap();
        room.truncate(size);
        assert_eq!(bytes_of(&values), room);
        let (back, last) = steps(&room, values.len());
        assert_eq!((back, last), (values.clone(), None));
        same_answer(&room, values.len());
        same_answer(&room, values.len() + 1);
        same_answer(&room, values.len().saturating_sub(1));
        // Damage: one byte changed, one less, one more.
        if size > 0 {
            let at = numbers.below(size as u64) as usize;
            let mut damaged = room.clone();
            damaged[at] ^= 1 << numbers.below(8);
            same_answer(&damaged, values.len());
            same_answer(&room[..at], values.len());
            let tight = write(&values, &mut vec![0u8; size - 1]);
            assert_eq!(tight, Err(refused(2)));
        }
        let mut longer = room.clone();
        longer.push(numbers.next() as u8);
        same_answer(&longer, values.len());
    }
}

/// "2 comes exactly when no permitted width would fit": no width gives fewer
/// bytes.
#[test]
fn no_width_is_shorter() {
    let mut numbers = Numbers(2);
    for _ in 0..300 {
        let values = some_values(&mut numbers);
        if values.is_empty() {
            continue;
        }
        let least = bytes_of(&values).len();
        for n in 0..=64u32 {
            let mut list = Vec::new();
            push_field(&mut list, u64::from(n), 8);
            push_field(&mut list, values[0], 64);
            for pair in values.windows(2) {
                let z = zigzag(step_of(pair[0], pair[1]));
                if z < marker(n) {
                    push_field(&mut list, z as u64, n);
                } else {
                    push_field(&mut list, u64::MAX, n);
                    push_field(&mut list, pair[1], 64);
                }
            }
            let bytes = to_bytes(&list);
            assert!(least <= bytes.len());
            let mut back = vec![0; values.len()];
            assert_eq!(read(&bytes, values.len(), &mut back), Ok(()));
            assert_eq!(back, values);
        }
    }
}

#[test]
fn order_of_the_read() {
    assert_eq!(read(&[0x41], 2049, &mut []), Err(refused(3)));
    assert_eq!(read(&[0x41], 2, &mut [0]), Err(refused(2)));
    assert_eq!(read(&[0x41], 2, &mut [0, 0]), Err(refused_alone(fault(8, 0))));
    assert_eq!(read(&[], 2, &mut [0, 0]), Err(refused_alone(fault(9, 0))));
    assert_eq!(read(&[0x41], 0, &mut []), Err(refused_alone(fault(9, 0))));
}

/// The refusal of a step from a position, as number and index; none if it is
/// not refused. The position is handed back unchanged; "where a call reads one
/// column alone" there is no page and no column.
fn step_refusal(bytes: &[u8], n: usize, position: Position) -> Option<(u8, u32)> {
    match step(bytes, n, position) {
        Answer::Refused { refusal, position: same } => {
            assert_eq!(same, position);
            assert_eq!((refusal.page, refusal.column), (0, Column::None));
            Some((refusal.number, refusal.index))
        }
        _ => None,
    }
}

/// A position that was made up.
fn at(place: u64, given: u64, width: u64) -> Position {
    Position {
        place,
        given,
        width,
        last: 5,
    }
}

#[test]
fn made_up_positions() {
    let bytes = [2, 0, 0, 0, 0, 0, 0, 0, 0, 2];
    let refusal = |n: usize, position: Position| step_refusal(&bytes, n, position);
    // 3, then 8, then 9.
    assert_eq!(refusal(2049, at(1000, 1, 65)), Some((3, 0)));
    assert_eq!(refusal(2, at(1000, 1, 65)), Some((8, 0)));
    assert_eq!(refusal(2, at(1000, 9, 65)), Some((8, 0)));
    assert_eq!(refusal(2, at(81, 1, 2)), Some((9, 1)));
    assert_eq!(refusal(2, at(81, 2, 2)), Some((9, 2)));
    assert_eq!(refusal(2, at(u64::MAX, u64::MAX, 64)), Some((9, 2)));
    assert_eq!(refusal(2, at(80, 1, 2)), Some((9, 1)));
    // None given starts at the first bit whatever the rest.
    assert_eq!(
        step(&bytes, 2, at(u64::MAX, 0, u64::MAX)),
        Answer::Value {
            value: 0,
            position: Position { place: 72, given: 1, width: 2, last: 0 }
        }
    );
    // With N or more given only the end remains.
    assert_eq!(refusal(2, at(72, 2, 2)), Some((9, 2)));
    assert_eq!(refusal(2, at(73, 2, 2)), Some((10, 2)));
    assert_eq!(step(&bytes, 2, at(74, 2, 2)), Answer::End { position: at(74, 2, 2) });
    assert_eq!(step(&bytes, 2, at(80, 7, 0)), Answer::End { position: at(80, 7, 0) });
    assert_eq!(step(&bytes, 0, at(80, 1, 0)), Answer::End { position: at(80, 1, 0) });
    assert_eq!(refusal(0, at(0, 0, 0)), Some((9, 0)));
    // A place at the end with width 0 still needs 64 bits.
    assert_eq!(refusal(3, at(80, 1, 0)), Some((9, 1)));
    // An entry from the middle: 1 bit at bit 73 is a one, the marker.
    assert_eq!(refusal(3, at(73, 1, 1)), Some((9, 1)));
    // 1 bit at bit 72 is a zero: the same value again.
    assert_eq!(
        step(&bytes, 3, at(72, 1, 1)),
        Answer::Value { value: 5, position: at(73, 2, 1) }
    );
}

/// The header on positions other than the fresh one: "the index is 0 with 8,
/// the number of values given where bits are lacking for the next one, the
/// lesser of that number and n where the place lies past the bytes, and n with
/// bytes left over and with 10". The column has 80 bits; bit 73 is a one.
#[test]
fn index_of_made_up_positions() {
    let bytes = [2, 0, 0, 0, 0, 0, 0, 0, 0, 2];
    let refusal = |n: usize, position: Position| step_refusal(&bytes, n, position);
    // 8: 0, however many are given.
    assert_eq!(refusal(5, at(72, 3, 65)), Some((8, 0)));
    assert_eq!(refusal(5, at(72, 5, 65)), Some((8, 0)));
    assert_eq!(refusal(5, at(81, 3, u64::MAX)), Some((8, 0)));
    assert_eq!(refusal(0, at(81, u64::MAX, 65)), Some((8, 0)));
    // Bits lacking: the number given. No bit left of an entry, one of two bits
    // left, 62 of 64 lacking, no bit behind a marker, a full value cut.
    assert_eq!(refusal(5, at(80, 4, 2)), Some((9, 4)));
    assert_eq!(refusal(5, at(79, 3, 2)), Some((9, 3)));
    assert_eq!(refusal(5, at(78, 2, 64)), Some((9, 2)));
    assert_eq!(refusal(5, at(73, 4, 1)), Some((9, 4)));
    assert_eq!(refusal(5, at(20, 3, 0)), Some((9, 3)));
    assert_eq!(refusal(2048, at(80, 2047, 0)), Some((9, 2047)));
    // The place past the bytes: the lesser of the number given and n.
    assert_eq!(refusal(5, at(81, 3, 2)), Some((9, 3)));
    assert_eq!(refusal(5, at(81, 4, 0)), Some((9, 4)));
    assert_eq!(refusal(5, at(81, 5, 0)), Some((9, 5)));
    assert_eq!(refusal(5, at(81, 6, 0)), Some((9, 5)));
    assert_eq!(refusal(0, at(81, 7, 2)), Some((9, 0)));
    assert_eq!(refusal(2048, at(81, 2047, 0)), Some((9, 2047)));
    assert_eq!(refusal(2048, at(81, 2049, 0)), Some((9, 2048)));
    assert_eq!(refusal(2048, at(u64::MAX, 1 << 32, 64)), Some((9, 2048)));
    assert_eq!(refusal(2048, at(u64::MAX, u64::MAX, 64)), Some((9, 2048)));
    // Bytes left over, and 10: n, however many are given.
    assert_eq!(refusal(2, at(72, 100, 2)), Some((9, 2)));
    assert_eq!(refusal(2, at(0, u64::MAX, 2)), Some((9, 2)));
    assert_eq!(refusal(0, at(72, 7, 2)), Some((9, 0)));
    assert_eq!(refusal(2, at(73, 100, 2)), Some((10, 2)));
    assert_eq!(refusal(2048, at(73, (1 << 32) + 3000, 2)), Some((10, 2048)));
    assert_eq!(refusal(0, at(73, 7, 2)), Some((10, 0)));
    // None given: as from the fresh position, whatever the rest.
    for position in [FRESH, at(1000, 0, 65), at(72, 0, 2)] {
        assert_eq!(step_refusal(&[65], 5, position), Some((8, 0)));
        assert_eq!(step_refusal(&[], 5, position), Some((9, 0)));
        assert_eq!(step_refusal(&[2, 0], 5, position), Some((9, 0)));
        assert_eq!(step_refusal(&[65], 0, position), Some((9, 0)));
        assert_eq!(step_refusal(&[65], 2049, position), Some((3, 0)));
    }
}
