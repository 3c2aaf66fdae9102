//! Damage to one page's fields that gives 4 to 11 or 16.

use crate::gen::fields::Fields;
use crate::gen::floats::{finite, moved, rank, NOT_FINITE, SIGN};
use crate::rng::Rng;

/// 4: a length that does not fit.
fn length(rng: &mut Rng, page: &mut Fields) {
    let body = page.bytes().len() - 6;
    match rng.below(8) {
        0 => page.said = Some(body as u32 + 1 + rng.below(3) as u32),
        1 => page.said = Some(body as u32 - 1 - rng.below(body - 1) as u32),
        2 => page.said = Some(rng.pick(&[u32::MAX, u32::MAX - 5, 0x8000_0000, 0])),
        3 => page.cx = page.cx.wrapping_add(rng.pick(&[1, u32::MAX, 0x8000_0000, 256])),
        4 => page.cy = page.cy.wrapping_add(rng.pick(&[1, u32::MAX, 0x8000_0000, 256])),
        5 => page.extra = vec![0; 1 + rng.below(3)],
        6 => page.cut = Some(rng.below(body)),
        _ => {
            page.cx = page.cx.wrapping_add(0x8000_0000);
            page.cy = page.cy.wrapping_add(0x8000_0000);
        }
    }
}

/// 6: counts out of their limits.
fn counts(rng: &mut Rng, page: &mut Fields) {
    match rng.below(6) {
        0 => page.g = 0,
        1 => page.g = rng.pick(&[257, 258, 0x8000, u16::MAX, 512]),
        2 => page.v = rng.pick(&[2049, 2050, 4096, 0x8000, u16::MAX]),
        3 => page.p = page.v.wrapping_add(1),
        4 => {
            page.p = 0;
            page.v = page.v.max(1);
        }
        _ => {
            page.v = 0;
            page.p = page.p.max(1);
        }
    }
}

/// 7: a box that is not finite or reversed, or not zero where v = 0.
fn box_form(rng: &mut Rng, page: &mut Fields) {
    let which = rng.below(4);
    if page.v == 0 {
        page.bounds[which] = rng.pick(&[SIGN, SIGN, 1, 1 << 56, 0xFF, u64::MAX]);
        return;
    }
    if rng.once_in(2) {
        page.bounds[which] = rng.pick(&NOT_FINITE);
        return;
    }
    let axis = which % 2;
    let by = rng.pick(&[1, 1, 1 << 40]);
    if rng.once_in(2) {
        page.bounds[axis] = moved(page.bounds[axis + 2], by);
    } else {
        page.bounds[axis + 2] = moved(page.bounds[axis], -by);
    }
}

/// A change to a column's bytes.
type Change = dyn Fn(&mut Rng, &mut Vec<u8>);

/// The x or the y column with its byte length, changed.
fn column(rng: &mut Rng, page: &mut Fields, change: &Change) {
    if rng.once_in(2) {
        change(rng, &mut page.x);
        page.cx = page.x.len() as u32;
    } else {
        change(rng, &mut page.y);
        page.cy = page.y.len() as u32;
    }
}

/// 8: a width over 64.
fn width(rng: &mut Rng, bytes: &mut Vec<u8>) {
    let width = rng.pick(&[65, 66, 128, 255]);
    match bytes.first_mut() {
        Some(first) => *first = width,
        None => bytes.push(width),
    }
}

/// 9: bits missing, or whole bytes too many.
fn bits(rng: &mut Rng, bytes: &mut Vec<u8>) {
    if rng.once_in(2) && !bytes.is_empty() {
        let less = 1 + rng.below(bytes.len().min(12));
        bytes.truncate(bytes.len() - less);
    } else {
        for _ in 0..1 + rng.below(3) {
            bytes.push(rng.pick(&[0, 0, 255]));
        }
    }
}

/// 10: fill bits not zero (if the last byte has any).
fn fill(rng: &mut Rng, bytes: &mut [u8]) {
    if let Some(last) = bytes.last_mut() {
        *last |= 0x80 >> rng.below(2);
    }
}

/// One of a list, by chance.
fn one<'a, T>(rng: &mut Rng, list: &'a mut [T]) -> Option<&'a mut T> {
    let place = rng.below(list.len());
    list.get_mut(place)
}

/// 11: a type over 6, or counts and lengths against the table or the sums.
fn lists(rng: &mut Rng, page: &mut Fields) {
    let by = rng.pick(&[1, u16::MAX, 2]);
    match rng.below(7) {
        0 => *one(rng, &mut page.types).unwrap_or(&mut 0) = rng.pick(&[7, 8, 128, 255]),
        1 => *one(rng, &mut page.types).unwrap_or(&mut 0) = rng.pick(&[0, 1, 2, 3, 4, 5, 6]),
        2 => {
            let count = rng.below(page.counts.len());
            page.counts[count] = page.counts[count].wrapping_add(by);
        }
        3 => {
            if let Some(length) = one(rng, &mut page.lens) {
                *length = length.wrapping_add(by);
            }
        }
        4 => {
            // A part of no vertices over, which changes no sum.
            page.lens.push(0);
            page.p = page.p.wrapping_add(1);
        }
        5 => {
            let (a, b) = (rng.below(page.counts.len()), rng.below(page.counts.len()));
            page.counts[a] = page.counts[a].wrapping_add(by);
            page.counts[b] = page.counts[b].wrapping_sub(by);
        }
        _ => {
            let (a, b) = (rng.below(page.lens.len()), rng.below(page.lens.len()));
            if let Some(length) = page.lens.get_mut(a) {
                *length = length.wrapping_add(by);
            }
            if let Some(length) = page.lens.get_mut(b) {
                *length = length.wrapping_sub(by);
            }
        }
    }
}

/// 16: a box of good form that is not that of the vertices; at times only a
/// zero's sign is changed, which is sound.
fn box_value(rng: &mut Rng, page: &mut Fields) {
    let which = rng.below(4);
    let now = page.bounds[which];
    if rank(now) == 0 && rng.once_in(3) {
        page.bounds[which] = now ^ SIGN;
        return;
    }
    let out = if which < 2 { -1 } else { 1 };
    let by = rng.pick(&[out, out, out * 1000, -out]);
    let next = moved(now, by);
    if finite(next) {
        page.bounds[which] = next;
    }
}

/// The damage that gives a number (those of the shapes do nothing).
pub fn damage(rng: &mut Rng, page: &mut Fields, number: usize) {
    match number {
        4 => length(rng, page),
        5 => page.kind = rng.pick(&[0, 1, 3, 4, 5, 0x0102, 0x0200, u16::MAX]),
        6 => counts(rng, page),
        7 => box_form(rng, page),
        8 => column(rng, page, &width),
        9 => column(rng, page, &bits),
        10 => column(rng, page, &|rng, bytes| fill(rng, bytes)),
        11 => lists(rng, page),
        16 => box_value(rng, page),
        _ => {}
    }
}
