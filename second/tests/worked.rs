//! The worked numbers of the document.

mod common;

use common::*;
use second::boxes::Bounds;
use second::check::{full_check, Sound};
use second::column::{best_width, read, s_of, write, zigzag, step_of};
use second::programs::list_text;
use second::query::Query;
use second::refusal::{fault, refused, refused_alone};
use second::search::{count, search};
use second::shapes::{on_grid, turn};
use second::writer;

/// The bytes the column writer makes.
fn bytes(values: &[u64]) -> Vec<u8> {
    let mut room = vec![0x55u8; 1 + 8 * values.len() + 3];
    let size = write(values, &mut room).unwrap();
    assert!(size <= 1 + 8 * values.len());
    assert!(room[size..].iter().all(|byte| *byte == 0x55));
    room.truncate(size);
    let mut back = vec![7u64; values.len() + 1];
    read(&room, values.len(), &mut back).unwrap();
    assert_eq!(&back[..values.len()], values);
    assert_eq!(back[values.len()], 7);
    room
}

/// A column of a width, eight zero bytes and some more.
fn column(width: u8, more: &[u8]) -> Vec<u8> {
    let mut bytes = vec![width, 0, 0, 0, 0, 0, 0, 0, 0];
    bytes.extend_from_slice(more);
    bytes
}

#[test]
fn no_values() {
    assert_eq!(bytes(&[]), vec![]);
    assert_eq!(read(&[0], 0, &mut []), Err(refused_alone(fault(9, 0))));
    assert_eq!(read(&[0x41], 0, &mut []), Err(refused_alone(fault(9, 0))));
}

#[test]
fn written_columns() {
    assert_eq!(bytes(&[0]), column(0, &[]));
    assert_eq!(bytes(&[0, 1]), column(2, &[2]));
    assert_eq!(
        bytes(&[1.0f64.to_bits(); 5]),
        vec![1, 0, 0, 0, 0, 0, 0, 0xF0, 0x3F, 0]
    );
    assert_eq!(zigzag(step_of(0, u64::MAX)), 1);
    assert_eq!(bytes(&[0, u64::MAX]), column(2, &[1]));
    assert_eq!(
        bytes(&[0, 1 << 40, (1 << 40) + 1]),
        column(2, &[3, 0, 0, 0, 0, 4, 0, 0, 8])
    );
}

#[test]
fn widths() {
    let values = [0, (1u64 << 62) - 1];
    assert_eq!(best_width(&values), 63);
    assert_eq!(72 + s_of(&values, 63), 135);
    let values = [1u64 << 62, 0];
    assert_eq!(best_width(&values), 0);
    assert_eq!(72 + s_of(&values, 0), 136);
    assert_eq!(s_of(&values, 0), s_of(&values, 64));
    let values = [0, 1u64 << 63];
    assert_eq!(zigzag(step_of(values[0], values[1])), u128::from(u64::MAX));
    assert_eq!(best_width(&values), 0);
}

#[test]
fn read_columns() {
    let mut room = [9u64; 3];
    read(&column(3, &[2]), 2, &mut room).unwrap();
    assert_eq!(room, [0, 1, 9]);
    let mut room = [9u64; 2];
    let answer = |number: u8, index: usize| Err(refused_alone(fault(number, index)));
    assert_eq!(read(&column(2, &[6]), 2, &mut room), answer(10, 2));
    assert_eq!(read(&column(0x41, &[0]), 2, &mut room), answer(8, 0));
    assert_eq!(read(&column(2, &[]), 2, &mut room), answer(9, 1));
    assert_eq!(room, [9, 9]);
}

#[test]
fn sample_file() {
    let file = sample();
    assert_eq!(full_check(&file), Ok(Sound { pages: 2, shapes: 4 }));
    let mut input = query_block(&[0.0, 0.0, 10.0, 10.0]);
    input.extend_from_slice(&file);
    assert_eq!(list_text(&input), "0 101 3\nhits 1 of 4\n");
    let spot = |x: f64, y: f64| Query::Spot {
        x: x.to_bits(),
        y: y.to_bits(),
    };
    let mut room = [77u32; 5];
    assert_eq!(search(&file, &spot(10.0, 10.0), &mut room), Ok(1));
    assert_eq!(room, [0, 77, 77, 77, 77]);
    assert_eq!(count(&file, &spot(10.5, 5.0)), Ok(0));
    assert_eq!(search(&file, &spot(-0.0, 0.0), &mut room), Ok(1));
    assert_eq!(room, [0, 77, 77, 77, 77]);
    assert_eq!(search(&file, &Query::Everything, &mut room), Ok(4));
    assert_eq!(room, [0, 1, 2, 3, 77]);
    let window = Query::Window(Bounds {
        least_x: 0,
        least_y: 0,
        greatest_x: 10.0f64.to_bits(),
        greatest_y: 10.0f64.to_bits(),
    });
    assert_eq!(count(&file, &window), Ok(1));
    let ring = lists(&sample_pages()[0][..1]);
    assert_eq!(turn(&ring.xs, &ring.ys), Some(-200));
}

#[test]
fn vertices_2048_and_2049() {
    let long = vec![0u64; 2049];
    let mut room = vec![0u8; 20_000];
    assert!(write(&long[..2048], &mut room).is_ok());
    assert_eq!(write(&long, &mut room), Err(refused(3)));
    assert_eq!(write(&long, &mut []), Err(refused(3)));
    let mut back = vec![0u64; 2049];
    assert_eq!(read(&room, 2049, &mut back), Err(refused(3)));
    assert_eq!(read(&[], 2049, &mut []), Err(refused(3)));
    let mut buffer = vec![0u8; 70_000];
    let state = writer::open(&mut buffer).unwrap();
    let mut page = lists(&[shape(1, 2, &[&vec![(0.0, 0.0); 2048]])]);
    assert!(writer::page(state, &mut buffer, &page.input()).is_ok());
    page = lists(&[shape(1, 2, &[&vec![(0.0, 0.0); 2049]])]);
    let refusal = writer::page(state, &mut buffer, &page.input()).unwrap_err();
    assert_eq!(refusal.refusal, refused(6));
    assert_eq!(refusal.state, state);
}

#[test]
fn grid() {
    assert_eq!(on_grid(16_777_216.0f64.to_bits()), Some(1 << 24));
    assert_eq!(on_grid((-16_777_216.0f64).to_bits()), Some(-(1 << 24)));
    assert_eq!(on_grid(16_777_217.0f64.to_bits()), None);
    assert_eq!(on_grid((-16_777_217.0f64).to_bits()), None);
    assert_eq!(on_grid(0.5f64.to_bits()), None);
    assert_eq!(on_grid((-0.0f64).to_bits()), Some(0));
    assert_eq!(on_grid(f64::NAN.to_bits()), None);
    assert_eq!(on_grid(f64::INFINITY.to_bits()), None);
}
