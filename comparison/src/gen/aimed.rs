//! Columns made to be refused at a site: of the same values, in a form that
//! has the site where it can be had.

use crate::gen::encode::{encode, marker, zigzag};
use crate::rng::Rng;
use crate::sites::Site;

/// The lengths at which a column of a width is cut inside an entry, and those
/// at which it is cut behind a marker.
fn cuts(values: &[u64], width: u32, full: &dyn Fn(usize) -> bool) -> (Vec<usize>, Vec<usize>) {
    let (mut entries, mut marked) = (Vec::new(), Vec::new());
    let mut place = 72;
    for k in 1..values.len() {
        let behind = place + width as usize;
        let whole = zigzag(values[k - 1], values[k]) < marker(width) && !full(k);
        let end = if whole { behind } else { behind + 64 };
        entries.extend((place + 7) / 8..(behind + 7) / 8);
        marked.extend((behind + 7) / 8..(end + 7) / 8);
        place = end;
    }
    (entries, marked)
}

/// The column of the values cut inside an entry, or behind a marker; whole
/// where there is no such cut.
fn cut(rng: &mut Rng, values: &[u64], behind: bool) -> Vec<u8> {
    let any = rng.below(65) as u32;
    let width = if behind { rng.pick(&[0, 1, any, any]) } else { any.max(1) };
    let salt = rng.word() | 1;
    let full = |k: usize| (salt.wrapping_mul(k as u64) >> 9) % 3 == 0;
    let mut column = encode(values, width, &full);
    let (entries, marked) = cuts(values, width, &full);
    let lengths = if behind { marked } else { entries };
    if !lengths.is_empty() {
        column.truncate(rng.pick(&lengths));
    }
    column
}

/// The column with a fill bit set, at a width at which it has one; whole
/// where none is found.
fn filled(rng: &mut Rng, values: &[u64]) -> Vec<u8> {
    let mut column = second::column::bytes_of(values);
    for _ in 0..12 {
        let mut other = column.clone();
        if let Some(last) = other.last_mut() {
            *last |= 0x80 >> rng.below(2);
        }
        if second::column::values_of(&other, values.len()).map_err(|fault| fault.number) == Err(10) {
            return other;
        }
        column = encode(values, 1 + rng.below(63) as u32, &|_| false);
    }
    column
}

/// A column of the values that is refused at a site (any of a column read
/// from its start), if they are enough for it.
pub fn column(rng: &mut Rng, values: &[u64], site: Site) -> Vec<u8> {
    let mut column = second::column::bytes_of(values);
    match site {
        Site::WidthOver => {
            if let Some(first) = column.first_mut() {
                *first = rng.pick(&[65, 66, 128, 255]);
            }
        }
        Site::NoWidth => column.clear(),
        Site::FirstCut => column.truncate(1 + rng.below(8)),
        Site::EntryCut => return cut(rng, values, false),
        Site::MarkedCut => return cut(rng, values, true),
        Site::Fill => return filled(rng, values),
        _ => column.extend((0..1 + rng.below(3)).map(|_| rng.pick(&[0, 0, 255]))),
    }
    column
}
