//! Ticket 4, "Say where in the page": the index that a column's refusal has,
//! the column that a page's has, and the programs' lines. Columns, indexes and
//! lines are worked out by hand.

mod common;

use common::*;
use second::check::full_check;
use second::column::{read, values_of};
use second::fetch::fetch;
use second::programs::{list_text, sound_text};
use second::query::Query;
use second::refusal::{refused, refused_at, Column, ColumnFault, Refusal};
use second::search::{count, search};
use second::step::{step, Answer, FRESH};

/// A column that is refused: its bytes, N, the number and the index.
type Faulty = (Vec<u8>, usize, u8, u32);

/// A column of a width, eight zero bytes and some more.
fn column(width: u8, more: &[u8]) -> Vec<u8> {
    let mut bytes = vec![width, 0, 0, 0, 0, 0, 0, 0, 0];
    bytes.extend_from_slice(more);
    bytes
}

/// The document's column of 0, 2^40, 2^40 + 1. Its values end at the bits 72,
/// 138 and 140 of 144; bit 139 is a one.
const WORKED: [u8; 18] = [2, 0, 0, 0, 0, 0, 0, 0, 0, 3, 0, 0, 0, 0, 4, 0, 0, 8];

/// "0 for 8".
fn widths_over_64() -> Vec<Faulty> {
    vec![
        (column(0x41, &[0]), 2, 8, 0),
        (vec![65], 1, 8, 0),
        (vec![65], 7, 8, 0),
        (column(66, &[]), 1, 8, 0),
        (vec![255; 100], 2048, 8, 0),
    ]
}

/// "The value that lacked bits": the first, whose width byte is missing or
/// whose pattern is missing or cut.
fn first_values_cut() -> Vec<Faulty> {
    vec![
        // The width byte is missing.
        (vec![], 1, 9, 0),
        (vec![], 2, 9, 0),
        (vec![], 2048, 9, 0),
        // The pattern is missing.
        (vec![0], 1, 9, 0),
        (vec![2], 2, 9, 0),
        (vec![64], 9, 9, 0),
        // The pattern has 56 bits of its 64, and 8.
        (vec![0, 0, 0, 0, 0, 0, 0, 0], 1, 9, 0),
        (vec![2, 0, 0, 0, 0, 0, 0, 0], 2, 9, 0),
        (vec![2, 255], 5, 9, 0),
    ]
}

/// "The value that lacked bits": a later one, whose n bits are missing or cut.
fn entries_cut() -> Vec<Faulty> {
    vec![
        // The document's 02 00x8: nothing of value 1.
        (column(2, &[]), 2, 9, 1),
        (column(2, &[]), 2048, 9, 1),
        // 8 bits: 2 for each of the values 1 to 4, none for value 5.
        (column(2, &[0]), 6, 9, 5),
        (column(2, &[0]), 7, 9, 5),
        // 8 bits: 3 for each of the values 1 and 2, 2 bits for value 3.
        (column(3, &[0]), 4, 9, 3),
        (column(3, &[0]), 5, 9, 3),
        // 8 bits of 9; 56 bits of 64.
        (column(9, &[2]), 2, 9, 1),
        (column(64, &[2, 0, 0, 0, 0, 0, 0]), 2, 9, 1),
        (column(64, &[2, 0, 0, 0, 0, 0, 0]), 3, 9, 1),
        // All ones, but only 8 of the marker's 9 bits.
        (column(9, &[255]), 2, 9, 1),
        // 16 bits at width 5: 5 for each of the values 1 to 3, 1 for value 4.
        (column(5, &[0, 0]), 5, 9, 4),
        // Behind a full value: 4 bits for the values 3 and 4, none for 5.
        (WORKED.to_vec(), 6, 9, 5),
        (WORKED.to_vec(), 2048, 9, 5),
    ]
}

/// "The value that lacked bits": a later one, whose 64 bits behind a marker
/// are missing or cut.
fn full_values_cut() -> Vec<Faulty> {
    vec![
        // The marker 3 in 2 bits, then 6 bits of 64, then 62.
        (column(2, &[3]), 2, 9, 1),
        (column(2, &[7, 0, 0, 0, 0, 0, 0, 0]), 2, 9, 1),
        (column(2, &[7, 0, 0, 0, 0, 0, 0, 0]), 9, 9, 1),
        // A step (2), then the marker (3): 2 + 4 × 3 = 14, then 4 bits of 64.
        (column(2, &[14]), 3, 9, 2),
        (column(2, &[14]), 9, 9, 2),
        // Three steps of 0, then the marker, then nothing.
        (column(2, &[0xC0]), 5, 9, 4),
        // The marker in 1 bit, then 63 bits of 64.
        (column(1, &[1, 0, 0, 0, 0, 0, 0, 0]), 3, 9, 1),
        // The marker in 8 bits, then nothing; in 64 bits, then nothing.
        (column(8, &[255]), 2, 9, 1),
        (column(64, &[255; 8]), 2, 9, 1),
        // At width 0 every value is in full: none of value 1; 56 bits of
        // value 2 (8 + 64 + 64 + 64 bits are 25 bytes, here 24).
        (column(0, &[]), 2, 9, 1),
        (vec![0; 24], 4, 9, 2),
        // Value 1 ends at bit 138, and 17 bytes are 136 bits.
        (WORKED[..17].to_vec(), 3, 9, 1),
    ]
}

/// "N for bytes left over or fill bits", "with N = 0, any byte gives 9".
fn ends_wrong() -> Vec<Faulty> {
    vec![
        // Bytes left over.
        (column(2, &[2, 0]), 2, 9, 2),
        (column(0, &[0]), 1, 9, 1),
        (column(64, &[255]), 1, 9, 1),
        (column(8, &[2, 4, 0]), 3, 9, 3),
        (column(1, &[0, 0]), 9, 9, 9),
        (WORKED.to_vec(), 1, 9, 1),
        // Bytes left over and fill bits: 9 before 10.
        (column(2, &[6, 0]), 2, 9, 2),
        (column(2, &[2, 255]), 2, 9, 2),
        // Fill bits.
        (column(2, &[6]), 2, 10, 2),
        (column(2, &[0x82]), 2, 10, 2),
        (column(1, &[0x10]), 5, 10, 5),
        (column(1, &[0x80]), 8, 10, 8),
        (WORKED.to_vec(), 2, 10, 2),
        // No values.
        (vec![0], 0, 9, 0),
        (vec![0x41], 0, 9, 0),
        (vec![255; 20], 0, 9, 0),
        (WORKED.to_vec(), 0, 9, 0),
    ]
}

/// Columns of 2,048 values. Width 1 and steps of 0: value k ends at bit 72 + k,
/// the last at 2,119 of 2,120 bits.
fn long_columns() -> Vec<Faulty> {
    let mut filled = column(1, &[0; 256]);
    filled[264] = 0x80;
    vec![
        // 264 bytes are 2,112 bits: value 2,040 ends there.
        (column(1, &[0; 255]), 2048, 9, 2041),
        (column(1, &[0; 257]), 2048, 9, 2048),
        (filled, 2048, 10, 2048),
        // In full: 1 + 8 × 2,048 bytes, and one less, one more.
        (vec![0; 16_384], 2048, 9, 2047),
        (vec![0; 16_386], 2048, 9, 2048),
    ]
}

/// All of the above.
fn faulty_columns() -> Vec<Faulty> {
    [
        widths_over_64(),
        first_values_cut(),
        entries_cut(),
        full_values_cut(),
        ends_wrong(),
        long_columns(),
    ]
    .concat()
}

/// The last answer of the steps from the fresh position, if it is a refusal.
fn last_of_steps(bytes: &[u8], n: usize) -> Option<Refusal> {
    let mut position = FRESH;
    loop {
        match step(bytes, n, position) {
            Answer::Value { position: next, .. } => position = next,
            Answer::End { .. } => return None,
            Answer::Refused { refusal, .. } => return Some(refusal),
        }
    }
}

/// The read and the steps of one column alone: its index, page 0, no column.
#[test]
fn columns_by_hand() {
    for (bytes, n, number, index) in faulty_columns() {
        let wanted = Refusal {
            number,
            page: 0,
            column: Column::None,
            index,
        };
        let mut room = vec![7u64; n + 1];
        assert_eq!(read(&bytes, n, &mut room), Err(wanted), "{bytes:?} {n}");
        assert!(room.iter().all(|value| *value == 7));
        assert_eq!(values_of(&bytes, n), Err(ColumnFault { number, index }));
        assert_eq!(last_of_steps(&bytes, n), Some(wanted));
    }
}

/// The columns beside the faulty ones are sound.
#[test]
fn columns_that_are_sound() {
    assert_eq!(values_of(&[], 0), Ok(vec![]));
    assert_eq!(values_of(&column(64, &[]), 1), Ok(vec![0]));
    assert_eq!(values_of(&column(2, &[2]), 2), Ok(vec![0, 1]));
    assert_eq!(values_of(&column(2, &[0]), 5), Ok(vec![0; 5]));
    assert_eq!(values_of(&column(1, &[0]), 9), Ok(vec![0; 9]));
    let high = 1u64 << 40;
    assert_eq!(values_of(&WORKED, 3), Ok(vec![0, high, high + 1]));
    assert_eq!(values_of(&WORKED, 5), Ok(vec![0, high, high + 1, high + 1, high + 1]));
    assert_eq!(values_of(&column(1, &[0; 256]), 2048), Ok(vec![0; 2048]));
    assert_eq!(values_of(&[0; 16_385], 2048), Ok(vec![0; 2048]));
}

/// "Other refusals give index 0 and no column": 3 and 2 of a column call.
#[test]
fn other_refusals_of_a_column() {
    let nowhere = |number: u8| Refusal {
        number,
        page: 0,
        column: Column::None,
        index: 0,
    };
    assert_eq!(refused(3), nowhere(3));
    for (bytes, n, _, _) in faulty_columns() {
        assert_eq!(read(&bytes, 2049, &mut [0; 2049]), Err(nowhere(3)));
        assert_eq!(last_of_steps(&bytes, 2049), Some(nowhere(3)));
        if n > 0 {
            assert_eq!(read(&bytes, n, &mut vec![0; n - 1]), Err(nowhere(2)));
        }
    }
}

/// A page block of one MultiPoint with n vertices, or one empty shape for
/// n = 0, whose columns are any bytes. The box is all zero bytes.
fn page_of(n: usize, x: &[u8], y: &[u8]) -> Vec<u8> {
    let mut body = Vec::new();
    for count in [1, n as u16, n as u16] {
        body.extend_from_slice(&count.to_le_bytes());
    }
    body.extend_from_slice(&[0; 32]);
    body.extend_from_slice(&77u32.to_le_bytes());
    body.push(if n == 0 { 0 } else { 4 });
    body.extend_from_slice(&(n as u16).to_le_bytes());
    for _ in 0..n {
        body.extend_from_slice(&1u16.to_le_bytes());
    }
    body.extend_from_slice(&(x.len() as u32).to_le_bytes());
    body.extend_from_slice(&(y.len() as u32).to_le_bytes());
    body.extend_from_slice(x);
    body.extend_from_slice(y);
    block(2, &body)
}

/// A block: length of the body, kind, body.
fn block(kind: u16, body: &[u8]) -> Vec<u8> {
    let mut bytes = Vec::new();
    bytes.extend_from_slice(&(body.len() as u32).to_le_bytes());
    bytes.extend_from_slice(&kind.to_le_bytes());
    bytes.extend_from_slice(body);
    bytes
}

/// A file of page blocks of one shape each.
fn file_of(pages: &[&[u8]]) -> Vec<u8> {
    let count = (pages.len() as u32).to_le_bytes();
    let end = block(3, &[count, count].concat());
    [&block(1, &[1, 0]), &pages.concat(), &end].map(|piece| &piece[..]).concat()
}

/// A sound column of n zeros, every value in full.
fn zeros(n: usize) -> Vec<u8> {
    vec![0; if n == 0 { 0 } else { 1 + 8 * n }]
}

/// Fetch with ample rooms: its refusal.
fn fetch_refusal(file: &[u8], place: u64) -> Option<Refusal> {
    let mut lengths = [0; 2048];
    let mut xs = [0; 2048];
    let mut ys = [0; 2048];
    fetch(file, place, &mut lengths, &mut xs, &mut ys).err()
}

/// Full check, count, search, fetch and both programs give one refusal of the
/// page's contents, and its line.
fn all_refuse(file: &[u8], wanted: Refusal, line: &str) {
    let everything = Query::Everything;
    assert_eq!(full_check(file), Err(wanted));
    assert_eq!(count(file, &everything), Err(wanted));
    assert_eq!(search(file, &everything, &mut [0; 8]), Err(wanted));
    assert_eq!(search(file, &everything, &mut []), Err(wanted));
    assert_eq!(fetch_refusal(file, u64::from(wanted.page)), Some(wanted));
    assert_eq!(sound_text(file), line);
    assert_eq!(list_text(&[&query_block(&[]), file].concat()), line);
}

/// "Page contents, full check, search and fetch pass it on with the column, x
/// or y." Each faulty column as x and as y, on page 0, and on page 1 with one
/// more faulty page behind it.
#[test]
fn columns_in_pages() {
    let good = page_of(1, &zeros(1), &zeros(1));
    let later = page_of(2, &[65], &[65]);
    for (bytes, n, number, index) in faulty_columns() {
        let in_x = page_of(n, &bytes, &zeros(n));
        let in_y = page_of(n, &zeros(n), &bytes);
        for (faulty, column, letter) in [(in_x, Column::X, "x"), (in_y, Column::Y, "y")] {
            for (page, file) in [
                (0, file_of(&[&faulty, &good])),
                (1, file_of(&[&good, &faulty, &later])),
            ] {
                let wanted = Refusal {
                    number,
                    page,
                    column,
                    index,
                };
                let line = format!("refused {number} page {page} column {letter} value {index}\n");
                all_refuse(&file, wanted, &line);
                // The sound page is fetched, and a place not there is 17.
                assert_eq!(fetch_refusal(&file, 1 - u64::from(page)), None);
                assert_eq!(fetch_refusal(&file, 3), Some(refused(17)));
            }
        }
    }
}

/// The x column is judged before the y column, whatever their numbers; each
/// line in full.
#[test]
fn x_before_y() {
    let line = |x: &[u8], y: &[u8]| sound_text(&file_of(&[&page_of(2, x, y)]));
    let good = column(2, &[0]);
    let width = column(65, &[0]);
    let cut = column(2, &[]);
    let long = column(2, &[0, 0]);
    let fill = column(2, &[4]);
    assert_eq!(line(&good, &good), "sound 1 pages 1 shapes\n");
    assert_eq!(line(&fill, &width), "refused 10 page 0 column x value 2\n");
    assert_eq!(line(&long, &cut), "refused 9 page 0 column x value 2\n");
    assert_eq!(line(&cut, &long), "refused 9 page 0 column x value 1\n");
    assert_eq!(line(&width, &fill), "refused 8 page 0 column x value 0\n");
    assert_eq!(line(&[], &[65]), "refused 9 page 0 column x value 0\n");
    assert_eq!(line(&good, &width), "refused 8 page 0 column y value 0\n");
    assert_eq!(line(&good, &[]), "refused 9 page 0 column y value 0\n");
    assert_eq!(line(&good, &cut), "refused 9 page 0 column y value 1\n");
    assert_eq!(line(&good, &long), "refused 9 page 0 column y value 2\n");
    assert_eq!(line(&good, &fill), "refused 10 page 0 column y value 2\n");
}

/// "Other refusals give index 0 and no column", and their lines stay: 11
/// before a faulty column, 12 to 16 behind two sound ones.
#[test]
fn other_refusals_of_contents() {
    let nowhere = |number: u8, page: u32| Refusal {
        number,
        page,
        column: Column::None,
        index: 0,
    };
    assert_eq!(refused_at(11, 3), nowhere(11, 3));
    let good = page_of(1, &zeros(1), &zeros(1));
    // The type is the byte behind 6 of the block, 38 and 4 of the register.
    let with_type = |kind: u8, mut page: Vec<u8>| {
        page[48] = kind;
        page
    };
    let file = file_of(&[&good, &with_type(7, page_of(2, &[65], &[2]))]);
    all_refuse(&file, nowhere(11, 1), "refused 11 page 1\n");
    let file = file_of(&[&with_type(1, page_of(0, &[0], &[0]))]);
    all_refuse(&file, nowhere(11, 0), "refused 11 page 0\n");
    // The pattern of infinity, as x and as y of vertex 1.
    let mut infinite = zeros(2);
    infinite[15..17].copy_from_slice(&[0xF0, 0x7F]);
    let file = file_of(&[&page_of(2, &infinite, &zeros(2))]);
    all_refuse(&file, nowhere(12, 0), "refused 12 page 0\n");
    let file = file_of(&[&good, &page_of(2, &zeros(2), &infinite)]);
    all_refuse(&file, nowhere(12, 1), "refused 12 page 1\n");
    // x = 1.0: the box of zeros differs.
    let one = column(0, &1.0f64.to_bits().to_le_bytes());
    let file = file_of(&[&good, &page_of(2, &one, &zeros(2))]);
    all_refuse(&file, nowhere(16, 1), "refused 16 page 1\n");
    // Rings: a LineString of four vertices whose type is made another.
    let ring = |kind: u8, x: &[f64; 4], y: &[f64; 4]| {
        let whole = written(&[vec![shape(77, 2, &[&[
            (x[0], y[0]),
            (x[1], y[1]),
            (x[2], y[2]),
            (x[3], y[3]),
        ]])]]);
        let page = &whole[8..whole.len() - 14];
        file_of(&[&good, &with_type(kind, page.to_vec())])
    };
    let zero = [0.0; 4];
    let open = ring(3, &[0.0, 1.0, 2.0, 3.0], &zero);
    all_refuse(&open, nowhere(13, 1), "refused 13 page 1\n");
    let off_grid = ring(6, &[0.0, 0.5, 1.0, 0.0], &zero);
    all_refuse(&off_grid, nowhere(14, 1), "refused 14 page 1\n");
    let no_turn = ring(6, &[0.0, 1.0, 2.0, 0.0], &zero);
    all_refuse(&no_turn, nowhere(15, 1), "refused 15 page 1\n");
}

/// The same of the frame, of queries, of rooms and of sizes: a faulty column
/// in the file doesn't show.
#[test]
fn other_refusals_of_files() {
    let faulty = page_of(2, &[65], &[65]);
    let file = file_of(&[&faulty]);
    let cut = &file[..file.len() - 1];
    assert_eq!(full_check(cut), Err(refused_at(4, 1)));
    assert_eq!(count(cut, &Query::Everything), Err(refused_at(4, 1)));
    assert_eq!(fetch_refusal(cut, 0), Some(refused_at(4, 1)));
    assert_eq!(sound_text(cut), "refused 4 page 1\n");
    assert_eq!(fetch_refusal(&file, 1), Some(refused(17)));
    let nan = f64::NAN.to_bits();
    let query = Query::Spot { x: nan, y: 0 };
    assert_eq!(count(&file, &query), Err(refused(1)));
    assert_eq!(
        list_text(&[&query_block(&[f64::NAN, 0.0]), &file[..]].concat()),
        "refused 1 page 0\n"
    );
    let mut big = file.clone();
    big.resize(40_961, 0);
    assert_eq!(sound_text(&big), "refused 3 page 0\n");
    let sound = file_of(&[&page_of(2, &zeros(2), &zeros(2))]);
    assert_eq!(search(&sound, &Query::Everything, &mut []), Err(refused(2)));
    // A page that isn't opened: its box is (0, 0) alone.
    let query = Query::Spot { x: 1.0f64.to_bits(), y: 0 };
    assert_eq!(count(&file, &query), Ok(0));
}

/// The two programs themselves print the line.
#[test]
fn programs_print_it() {
    use std::io::Write;
    use std::process::{Command, Stdio};
    let printed = |program: &str, input: &[u8]| {
        let mut child = Command::new(program)
            .stdin(Stdio::piped())
            .stdout(Stdio::piped())
            .spawn()
            .unwrap();
        child.stdin.take().unwrap().write_all(input).unwrap();
        let output = child.wait_with_output().unwrap();
        assert!(output.status.success());
        String::from_utf8(output.stdout).unwrap()
    };
    let good = page_of(1, &zeros(1), &zeros(1));
    let file = file_of(&[&good, &page_of(6, &column(2, &[0, 0]), &column(2, &[0]))]);
    let line = "refused 9 page 1 column y value 5\n";
    assert_eq!(printed(env!("CARGO_BIN_EXE_sound"), &file), line);
    let input = [&query_block(&[0.0, 0.0]), &file[..]].concat();
    assert_eq!(printed(env!("CARGO_BIN_EXE_list"), &input), line);
}

/// What the document says of a column of n values, said another way. If zero
/// bytes without end stood behind it, each value would end at some bit: the
/// first one that ends behind the column's last bit lacks bits. Nothing for a
/// sound column.
fn said_another_way(bytes: &[u8], n: usize) -> Option<(u8, u32)> {
    let all = 8 * bytes.len();
    if n == 0 {
        return if all == 0 { None } else { Some((9, 0)) };
    }
    let one = |k: usize| bytes.get(k / 8).is_some_and(|byte| byte >> (k % 8) & 1 == 1);
    let width = usize::from(*bytes.first().unwrap_or(&0));
    if width > 64 {
        return Some((8, 0));
    }
    let mut ends = vec![72];
    for k in 1..n {
        let start = ends[k - 1];
        let marked = (start..start + width).all(one); // at width 0 always
        ends.push(start + width + if marked { 64 } else { 0 });
    }
    if let Some(index) = ends.iter().position(|end| *end > all) {
        return Some((9, index as u32));
    }
    if all - ends[n - 1] >= 8 {
        return Some((9, n as u32));
    }
    if (ends[n - 1]..all).any(one) {
        return Some((10, n as u32));
    }
    None
}

/// The other way agrees with what was worked out by hand.
#[test]
fn said_another_way_by_hand() {
    for (bytes, n, number, index) in faulty_columns() {
        assert_eq!(said_another_way(&bytes, n), Some((number, index)));
    }
    assert_eq!(said_another_way(&WORKED, 3), None);
    assert_eq!(said_another_way(&[], 0), None);
}

/// A sound column of 1 to 20 values at some width, some of them behind a
/// marker, and its N.
fn some_column(numbers: &mut Numbers) -> (Vec<u8>, usize) {
    use second::bits::{push_field, to_bytes};
    let n = 1 + numbers.below(20) as usize;
    let widths = if numbers.below(2) == 0 { 9 } else { 65 };
    let width = numbers.below(widths) as u32;
    let mut list = Vec::new();
    push_field(&mut list, u64::from(width), 8);
    push_field(&mut list, numbers.next(), 64);
    for _ in 1..n {
        let entry = numbers.next();
        let ones = if width == 0 { 0 } else { u64::MAX >> (64 - width) };
        let entry = if numbers.below(4) == 0 { ones } else { entry & ones };
        push_field(&mut list, entry, width);
        if entry == ones {
            push_field(&mut list, numbers.next(), 64);
        }
    }
    (to_bytes(&list), n)
}

/// Damage of one sort to a column or to its N.
fn damaged(numbers: &mut Numbers, mut bytes: Vec<u8>, n: usize) -> (Vec<u8>, usize) {
    let at = numbers.below(bytes.len() as u64) as usize;
    match numbers.below(8) {
        0 => bytes.truncate(at),
        1 => bytes.truncate(bytes.len() - 1),
        2 => bytes.push(numbers.next() as u8),
        3 => bytes.extend_from_slice(&[0; 3]),
        4 => bytes[at] ^= 1 << numbers.below(8),
        5 => *bytes.last_mut().unwrap() |= 0x80,
        6 => bytes[0] = numbers.below(80) as u8,
        _ => return (bytes, numbers.below(24) as usize),
    }
    (bytes, n)
}

/// Over many damaged columns: the read, the steps from a fresh position ("the
/// last answer has the index that the read of the column has"), and the column
/// in a page all give the index said another way.
#[test]
fn many_damaged_columns() {
    let mut numbers = Numbers(5);
    let mut seen = [0usize; 7];
    for round in 0..6000 {
        let (bytes, n) = some_column(&mut numbers);
        assert_eq!(said_another_way(&bytes, n), None);
        let (bytes, n) = damaged(&mut numbers, bytes, n);
        let wanted = said_another_way(&bytes, n);
        let in_column = |page: u32, column: Column| {
            wanted.map(|(number, index)| Refusal {
                number,
                page,
                column,
                index,
            })
        };
        let alone = in_column(0, Column::None);
        assert_eq!(read(&bytes, n, &mut vec![0; n]).err(), alone);
        assert_eq!(last_of_steps(&bytes, n), alone);
        let sort = match wanted {
            None => 0,
            Some((8, _)) => 1,
            Some((9, _)) if n == 0 => 2,
            Some((9, 0)) => 3,
            Some((9, index)) if (index as usize) < n => 4,
            Some((9, _)) => 5,
            Some(_) => 6,
        };
        seen[sort] += 1;
        if wanted.is_none() || round % 8 != 0 {
            continue;
        }
        let good = page_of(1, &zeros(1), &zeros(1));
        let file = file_of(&[&good, &page_of(n, &bytes, &zeros(n))]);
        assert_eq!(full_check(&file).err(), in_column(1, Column::X));
        let file = file_of(&[&page_of(n, &zeros(n), &bytes), &good]);
        assert_eq!(full_check(&file).err(), in_column(0, Column::Y));
    }
    assert!(seen.iter().all(|times| *times >= 20), "{seen:?}");
}
