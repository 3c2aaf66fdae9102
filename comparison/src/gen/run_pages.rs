//! Pages for the writer: sound ones, and ones that must be refused with each
//! number.

use crate::calls::Lists;
use crate::gen::pages;
use crate::gen::shape_damage;
use crate::gen::shapes::{lists, Shape};
use crate::rng::Rng;

/// The numbers that a page itself can be refused with.
pub const NUMBERS: [usize; 6] = [6, 11, 12, 13, 14, 15];

/// Lists with too many vertices or shapes, or none.
fn out_of_limits(rng: &mut Rng, sound: &Lists) -> Lists {
    let mut wrong = sound.clone();
    match rng.below(5) {
        0 => wrong = Lists::default(),
        1 => {
            let more = 257;
            wrong = Lists {
                registers: vec![9; more],
                types: vec![0; more],
                counts: vec![0; more],
                ..Lists::default()
            };
        }
        2 => {
            wrong.lens = vec![2049];
            wrong.xs = vec![0; 2049];
            wrong.ys = vec![0; 2049];
            wrong.registers = vec![1];
            wrong.types = vec![2];
            wrong.counts = vec![1];
        }
        3 => wrong.lens = vec![1; wrong.xs.len() + 1],
        _ => {
            wrong.lens = Vec::new();
            wrong.xs.push(0);
            wrong.ys.push(0);
        }
    }
    wrong
}

/// A slice longer or shorter by one.
fn resized<T: Copy + Default>(rng: &mut Rng, list: &mut Vec<T>) {
    if rng.once_in(2) || list.pop().is_none() {
        list.push(T::default());
    }
}

/// Slices of unequal length.
fn unequal(rng: &mut Rng, sound: &Lists) -> Lists {
    let mut wrong = sound.clone();
    match rng.below(5) {
        0 => resized(rng, &mut wrong.registers),
        1 => resized(rng, &mut wrong.types),
        2 => resized(rng, &mut wrong.counts),
        3 => resized(rng, &mut wrong.xs),
        _ => resized(rng, &mut wrong.ys),
    }
    wrong
}

/// Types, counts or lengths against the table or the sums.
fn against_table(rng: &mut Rng, sound: &Lists) -> Lists {
    let mut wrong = sound.clone();
    let by = rng.pick(&[1, u16::MAX, 3, 0x8000]);
    let shape = rng.below(wrong.types.len());
    match rng.below(5) {
        0 => wrong.types[shape] = rng.pick(&[7, 8, 255]),
        1 => wrong.types[shape] = rng.below(7) as u8,
        2 => wrong.counts[shape] = wrong.counts[shape].wrapping_add(by),
        3 => {
            let length = rng.below(wrong.lens.len());
            if let Some(length) = wrong.lens.get_mut(length) {
                *length = length.wrapping_add(by);
            }
        }
        _ => {
            if !wrong.lens.is_empty() {
                let (a, b) = (rng.below(wrong.lens.len()), rng.below(wrong.lens.len()));
                wrong.lens[a] = wrong.lens[a].wrapping_add(by);
                wrong.lens[b] = wrong.lens[b].wrapping_sub(by);
            }
        }
    }
    wrong
}

/// A sound page; `small` keeps it away from the limits.
pub fn sound(rng: &mut Rng, small: bool) -> Vec<Shape> {
    if small {
        pages::small(rng)
    } else {
        pages::page(rng)
    }
}

/// Lists meant to be refused with a number; two faults now and then.
pub fn refused(rng: &mut Rng, number: usize) -> Lists {
    let mut shapes = pages::small(rng);
    shape_damage::damage(rng, &mut shapes, number);
    if rng.once_in(4) {
        let other = rng.pick(&NUMBERS);
        shape_damage::damage(rng, &mut shapes, other);
    }
    let sound = lists(&shapes);
    match number {
        6 if rng.once_in(2) => out_of_limits(rng, &sound),
        6 => unequal(rng, &sound),
        11 => against_table(rng, &sound),
        _ => sound,
    }
}
