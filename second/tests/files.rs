//! Files: writer, check, search, fetch, query blocks, the programs, and
//! damaged bytes.

mod common;

use common::*;
use second::check::full_check;
use second::fetch::{fetch, Fetched};
use second::programs::{list_text, sound_text};
use second::query::{parse, Query};
use second::refusal::{fault, refused, refused_in, Column};
use second::search::{count, search};
use second::writer::{self, State};

/// Fetch with ample rooms.
fn fetched(file: &[u8], place: u64) -> Result<(Fetched, Vec<u16>, Vec<u64>, Vec<u64>), u8> {
    let mut lengths = vec![0u16; 2048];
    let mut xs = vec![0u64; 2048];
    let mut ys = vec![0u64; 2048];
    match fetch(file, place, &mut lengths, &mut xs, &mut ys) {
        Ok(found) => {
            lengths.truncate(found.parts);
            xs.truncate(found.vertices);
            ys.truncate(found.vertices);
            Ok((found, lengths, xs, ys))
        }
        Err(refusal) => Err(refusal.number),
    }
}

/// Shapes of many sorts that keep the rules.
fn some_shape(numbers: &mut Numbers) -> Shape {
    let kind = numbers.below(7) as u8;
    let mut parts = Vec::new();
    let part_count = match kind {
        0 => 0,
        1 | 2 => 1,
        _ => 1 + numbers.below(3),
    };
    for k in 0..part_count {
        let x = numbers.below(40) as f64 - 20.0;
        let y = numbers.below(40) as f64 - 20.0;
        let side = 1.0 + numbers.below(5) as f64;
        let part: Vec<(f64, f64)> = match kind {
            1 | 4 => vec![(x, y)],
            2 | 5 => vec![(x, y), (x + side * 0.3, y - 0.1), (-x, y)],
            _ if k == 0 || numbers.below(2) == 0 => {
                vec![(x, y), (x, y + side), (x + side, y), (x, y)]
            }
            _ => vec![(x, y), (x + side, y), (x, y + side), (x, y)],
        };
        parts.push(part.iter().map(|(x, y)| (x.to_bits(), y.to_bits())).collect());
    }
    Shape {
        register: numbers.next() as u32,
        kind,
        parts,
    }
}

/// Files of several pages.
fn some_pages(numbers: &mut Numbers) -> Vec<Vec<Shape>> {
    let mut pages = Vec::new();
    for _ in 0..numbers.below(4) {
        let mut shapes = Vec::new();
        for _ in 0..1 + numbers.below(5) {
            shapes.push(some_shape(numbers));
        }
        pages.push(shapes);
    }
    pages
}

/// Whether a shape's box meets a window, said with floats.
fn float_meets(shape: &Shape, window: &[f64; 4]) -> bool {
    let vertices: Vec<(f64, f64)> = shape
        .parts
        .iter()
        .flatten()
        .map(|(x, y)| (f64::from_bits(*x), f64::from_bits(*y)))
        .collect();
    if vertices.is_empty() {
        return false;
    }
    let least_x = vertices.iter().map(|v| v.0).fold(f64::INFINITY, f64::min);
    let least_y = vertices.iter().map(|v| v.1).fold(f64::INFINITY, f64::min);
    let greatest_x = vertices.iter().map(|v| v.0).fold(f64::NEG_INFINITY, f64::max);
    let greatest_y = vertices.iter().map(|v| v.1).fold(f64::NEG_INFINITY, f64::max);
    least_x <= window[2] && window[0] <= greatest_x && least_y <= window[3] && window[1] <= greatest_y
}

#[test]
fn written_files_check_fetch_and_search() {
    let mut numbers = Numbers(3);
    for _ in 0..200 {
        let pages = some_pages(&mut numbers);
        let file = written(&pages);
        let all: Vec<&Shape> = pages.iter().flatten().collect();
        let sound = full_check(&file).unwrap();
        assert_eq!(sound.pages as usize, pages.len());
        assert_eq!(sound.shapes as usize, all.len());
        for (place, shape) in all.iter().enumerate() {
            let (found, lengths, xs, ys) = fetched(&file, place as u64).unwrap();
            assert_eq!((found.register, found.kind), (shape.register, shape.kind));
            let own = lists(std::slice::from_ref(*shape));
            assert_eq!(lengths, own.part_lengths);
            assert_eq!(xs, own.xs);
            assert_eq!(ys, own.ys);
        }
        assert_eq!(fetched(&file, all.len() as u64).unwrap_err(), 17);
        assert_eq!(fetched(&file, u64::MAX).unwrap_err(), 17);
        let x = numbers.below(40) as f64 - 20.0;
        let y = numbers.below(40) as f64 - 20.0;
        let window = [x, y, x + numbers.below(9) as f64, y + numbers.below(9) as f64];
        let query = parse(&query_block(&window)).unwrap();
        let mut wanted = Vec::new();
        for (place, shape) in all.iter().enumerate() {
            if float_meets(shape, &window) {
                wanted.push(place as u32);
            }
        }
        let mut room = vec![0u32; all.len()];
        let found = search(&file, &query, &mut room).unwrap();
        assert_eq!(&room[..found], &wanted[..]);
        assert_eq!(count(&file, &query), Ok(found));
        assert_eq!(count(&file, &Query::Everything), Ok(all.len()));
        if found > 0 {
            let mut small = vec![9u32; found - 1];
            assert_eq!(search(&file, &query, &mut small), Err(refused(2)));
            assert!(small.iter().all(|place| *place == 9));
        }
    }
}

/// Any bytes: nothing panics, and the services agree on the frame.
#[test]
fn damaged_files() {
    let mut numbers = Numbers(4);
    for _ in 0..300 {
        let mut file = written(&some_pages(&mut numbers));
        for _ in 0..10 {
            let at = numbers.below(file.len() as u64) as usize;
            file[at] = match numbers.below(3) {
                0 => numbers.next() as u8,
                1 => 0,
                _ => file[at] ^ (1 << numbers.below(8)),
            };
            let answer = full_check(&file);
            let everything = count(&file, &Query::Everything);
            match answer {
                Ok(sound) => assert_eq!(everything, Ok(sound.shapes as usize)),
                Err(refusal) => assert_eq!(everything, Err(refusal)),
            }
            let _ = fetched(&file, numbers.below(8));
            let _ = list_text(&file);
        }
        let cut = numbers.below(file.len() as u64) as usize;
        assert!(full_check(&file[..cut]).is_err());
    }
    for length in 0..200usize {
        let bytes: Vec<u8> = (0..length).map(|_| numbers.next() as u8).collect();
        assert!(full_check(&bytes).is_err());
        let _ = list_text(&bytes);
    }
}

/// Damaged contents of a page that isn't opened aren't reported.
#[test]
fn unopened_page() {
    let mut file = sample();
    let width_of_y = refused_in(fault(8, 0), 1, Column::Y);
    // The y column is the last of page 1's bytes; its width byte: the page
    // has v = 2. The end block has 14 bytes.
    let at = (0..file.len() - 14)
        .rev()
        .find(|at| {
            let mut damaged = file.clone();
            damaged[*at] = 65;
            full_check(&damaged) == Err(width_of_y)
        })
        .unwrap();
    file[at] = 65;
    let spot = parse(&query_block(&[10.0, 10.0])).unwrap();
    assert_eq!(count(&file, &spot), Ok(1));
    let spot = parse(&query_block(&[-5.0, -5.0])).unwrap();
    assert_eq!(count(&file, &spot), Err(width_of_y));
    assert_eq!(fetched(&file, 0).unwrap().0.register, 101);
    assert_eq!(fetched(&file, 3).unwrap_err(), 8);
    assert_eq!(fetched(&file, 4).unwrap_err(), 17);
}

#[test]
fn query_blocks() {
    assert_eq!(parse(&query_block(&[])), Ok(Query::Everything));
    assert!(parse(&query_block(&[1.0, 2.0])).is_ok());
    assert!(parse(&query_block(&[1.0, 2.0, 1.0, 2.0])).is_ok());
    assert!(parse(&query_block(&[0.0, 0.0, -0.0, -0.0])).is_ok());
    for floats in [
        vec![1.0],
        vec![1.0, 2.0, 3.0],
        vec![1.0; 5],
        vec![f64::NAN, 0.0],
        vec![0.0, f64::INFINITY],
        vec![2.0, 0.0, 1.0, 0.0],
        vec![0.0, 2.0, 0.0, 1.0],
        vec![0.0, 0.0, f64::INFINITY, 0.0],
    ] {
        assert_eq!(parse(&query_block(&floats)), Err(refused(1)));
    }
    let good = query_block(&[1.0, 2.0]);
    for cut in 0..good.len() {
        assert_eq!(parse(&good[..cut]), Err(refused(1)));
    }
    let mut longer = good.clone();
    longer.push(0);
    assert_eq!(parse(&longer), Err(refused(1)));
    let mut other = good.clone();
    other[4] = 3;
    assert_eq!(parse(&other), Err(refused(1)));
    other[4] = 4;
    other[5] = 1;
    assert_eq!(parse(&other), Err(refused(1)));
}

#[test]
fn listing() {
    let join = |block: Vec<u8>, file: &[u8]| [&block[..], file].concat();
    let file = sample();
    assert_eq!(
        list_text(&join(query_block(&[]), &file)),
        "0 101 3\n1 102 1\n2 101 2\n3 103 0\nhits 4 of 4\n"
    );
    assert_eq!(
        list_text(&join(query_block(&[10.5, 5.0]), &file)),
        "hits 0 of 4\n"
    );
    assert_eq!(list_text(&[]), "refused 1 page 0\n");
    assert_eq!(list_text(&query_block(&[])), "refused 4 page 0\n");
    // Form 1, size 3, floats 1, frame.
    let big = vec![0u8; 40_961];
    let full = vec![0u8; 40_960];
    assert_eq!(list_text(&join(query_block(&[1.0]), &big)), "refused 1 page 0\n");
    assert_eq!(
        list_text(&join(query_block(&[f64::NAN, 1.0]), &big)),
        "refused 3 page 0\n"
    );
    assert_eq!(
        list_text(&join(query_block(&[f64::NAN, 1.0]), &full)),
        "refused 1 page 0\n"
    );
    assert_eq!(list_text(&join(query_block(&[1.0, 1.0]), &full)), "refused 5 page 0\n");
    // 4,096 hits have room, 4,097 have not.
    let page: Vec<Shape> = (0..256).map(|k| shape(k, 0, &[])).collect();
    let mut pages = vec![page; 16];
    let file = written(&pages);
    let text = list_text(&join(query_block(&[]), &file));
    assert!(text.ends_with("4095 255 0\nhits 4096 of 4096\n"));
    assert_eq!(
        list_text(&join(query_block(&[1.0, 1.0]), &file)),
        "hits 0 of 4096\n"
    );
    pages.push(vec![shape(1, 0, &[])]);
    let file = written(&pages);
    assert_eq!(list_text(&join(query_block(&[]), &file)), "refused 2 page 0\n");
    assert_eq!(sound_text(&file), "sound 17 pages 4097 shapes\n");
}

#[test]
fn writer_order() {
    let mut buffer = vec![0x33u8; 4000];
    assert_eq!(writer::open(&mut buffer[..7]), Err(refused(2)));
    assert!(buffer.iter().all(|byte| *byte == 0x33));
    let fresh = writer::open(&mut buffer).unwrap();
    assert_eq!(
        fresh,
        State { position: 8, pages: 0, shapes: 0, closed: false }
    );
    assert_eq!(buffer[..9], [2, 0, 0, 0, 1, 0, 1, 0, 0x33]);
    let good = lists(&[shape(1, 1, &[&[(1.0, 2.0)]])]);
    let bad = lists(&[]);
    let kept = buffer.clone();
    let mut refusal = |state: State, page: &PageLists| {
        let answer = writer::page(state, &mut buffer, &page.input());
        assert_eq!(buffer, kept);
        let refused = answer.unwrap_err();
        assert_eq!(refused.state, state);
        assert_eq!(refused.refusal.page, 0);
        assert_eq!((refused.refusal.column, refused.refusal.index), (Column::None, 0));
        refused.refusal.number
    };
    let state = |position: usize, pages: u32, shapes: u32, closed: bool| State {
        position,
        pages,
        shapes,
        closed,
    };
    assert_eq!(refusal(state(8, 2000, 0, true), &bad), 18);
    assert_eq!(refusal(state(8, 1024, 0, false), &bad), 3);
    assert_eq!(refusal(state(8, 0, 262_145, false), &bad), 3);
    assert_eq!(refusal(state(usize::MAX, 0, 0, false), &bad), 6);
    assert_eq!(refusal(state(usize::MAX, 0, 0, false), &good), 2);
    assert_eq!(refusal(state(4001, 0, 0, false), &good), 2);
    assert_eq!(refusal(state(4000, 1023, 262_144, false), &good), 2);
    let mut unequal = good.clone();
    unequal.ys.push(0);
    assert_eq!(refusal(fresh, &unequal), 6);
    let mut unequal = good.clone();
    unequal.types.push(0);
    assert_eq!(refusal(fresh, &unequal), 6);
    let mut unequal = good.clone();
    unequal.part_counts.push(0);
    assert_eq!(refusal(fresh, &unequal), 6);
    let mut unequal = good.clone();
    unequal.registers.push(0);
    assert_eq!(refusal(fresh, &unequal), 6);
    let mut wrong = good.clone();
    wrong.types[0] = 2;
    assert_eq!(refusal(fresh, &wrong), 11);
    let mut wrong = good.clone();
    wrong.ys[0] = f64::NAN.to_bits();
    assert_eq!(refusal(fresh, &wrong), 12);
    let ring = lists(&[shape(1, 6, &[&[(0.0, 0.0), (0.5, 0.0), (0.0, 1.0), (-0.0, 0.0)]])]);
    assert_eq!(refusal(fresh, &ring), 13);
    let ring = lists(&[shape(1, 6, &[&[(0.0, 0.0), (0.5, 0.0), (0.0, 1.0), (0.0, 0.0)]])]);
    assert_eq!(refusal(fresh, &ring), 14);
    let ring = lists(&[shape(1, 6, &[&[(0.0, 0.0), (5.0, 0.0), (0.0, 1.0), (0.0, 0.0)]])]);
    assert_eq!(refusal(state(usize::MAX, 0, 0, false), &ring), 15);
    let after = writer::page(fresh, &mut buffer, &good.input()).unwrap();
    assert_eq!(after, state(8 + 79, 1, 1, false));
    let closed = writer::close(after, &mut buffer).unwrap();
    assert_eq!(closed, state(8 + 79 + 14, 1, 1, true));
    assert_eq!(full_check(&buffer[..closed.position]).unwrap().shapes, 1);
    let mut close = |state: State| writer::close(state, &mut buffer).unwrap_err().refusal.number;
    assert_eq!(close(state(8, 2000, 0, true)), 18);
    assert_eq!(close(state(8, 1025, 0, false)), 3);
    assert_eq!(close(state(8, 0, 262_145, false)), 3);
    assert_eq!(close(state(3987, 1024, 262_144, false)), 2);
    assert_eq!(close(state(usize::MAX, 0, 0, false)), 2);
    assert!(writer::close(state(3986, 1024, 262_144, false), &mut buffer).is_ok());
}

/// "Among equal values the writer stores the first met in the page."
#[test]
fn first_met_zero() {
    let file = written(&[vec![shape(1, 2, &[&[(-0.0, 0.0), (0.0, -0.0)]])]]);
    let minus = (-0.0f64).to_bits().to_le_bytes();
    assert_eq!(file[20..28], minus);
    assert_eq!(file[28..36], [0; 8]);
    assert_eq!(file[36..44], minus);
    assert_eq!(file[44..52], [0; 8]);
}
