//! Rules got wrong on purpose, for the broken variants of the mirror.

use crate::face::refusal_word;
use crate::gen::encode::{marker, zigzag};
use second::bits::{push_field, to_bytes};
use second::boxes::{Bounds, NO_BOUNDS};
use second::column::values_of;
use second::contents::contents;
use second::frame::{frame, lists_of, Page};
use second::query::{parse, window_of};
use second::refusal::{refused_at, refused_in, Column, Refusal};
use second::shapes::{self, parts_of, stretch, Lists};

/// A column in which a step equal to the marker is stored as a step.
pub fn marker_as_step(values: &[u64], width: u32) -> Vec<u8> {
    let mut list = Vec::new();
    push_field(&mut list, u64::from(width), 8);
    push_field(&mut list, values[0], 64);
    for pair in values.windows(2) {
        let z = zigzag(pair[0], pair[1]);
        push_field(&mut list, z.min(marker(width)), width);
        if z > marker(width) {
            push_field(&mut list, pair[1], 64);
        }
    }
    to_bytes(&list)
}

/// Rules 12 to 16 over a page in some form.
pub type Rules = dyn Fn(&Lists, &[u64], &[u64], &Bounds) -> Result<(), u8>;

/// A page's contents with other rules.
fn judge(page: &Page, rules: &Rules) -> Result<(), Refusal> {
    let lists = lists_of(page);
    if !shapes::rule_11(&lists, page.vertices) {
        return Err(refused_at(11, page.number));
    }
    let in_column = |column| move |fault| refused_in(fault, page.number, column);
    let xs = values_of(page.x_column, page.vertices).map_err(in_column(Column::X))?;
    let ys = values_of(page.y_column, page.vertices).map_err(in_column(Column::Y))?;
    rules(&lists, &xs, &ys, &page.bounds).map_err(|number| refused_at(number, page.number))
}

/// The full check with other rules.
pub fn check_with(file: &[u8], rules: &Rules) -> Option<u64> {
    let frame = match frame(file) {
        Ok(frame) => frame,
        Err(refusal) => return Some(refusal_word(refusal)),
    };
    for page in &frame.pages {
        if let Err(refusal) = judge(page, rules) {
            return Some(refusal_word(refusal));
        }
    }
    Some(u64::from(frame.shapes))
}

/// 16, as it should be.
fn box_rule(xs: &[u64], ys: &[u64], bounds: &Bounds) -> Result<(), u8> {
    if shapes::rule_16(bounds, xs, ys) {
        Ok(())
    } else {
        Err(16)
    }
}

/// The turn is summed in floats.
pub fn turn_in_floats(lists: &Lists, xs: &[u64], ys: &[u64], bounds: &Bounds) -> Result<(), u8> {
    match shapes::rules_12_to_15(lists, xs, ys) {
        Err(15) | Ok(()) => {}
        Err(number) => return Err(number),
    }
    for part in parts_of(lists).iter().filter(|part| part.kind == 6) {
        let x: Vec<f64> = stretch(xs, part.from, part.to).iter().map(|c| f64::from_bits(*c)).collect();
        let y: Vec<f64> = stretch(ys, part.from, part.to).iter().map(|c| f64::from_bits(*c)).collect();
        let mut turn = 0.0;
        for k in 1..x.len() {
            turn += x[k - 1] * y[k] - x[k] * y[k - 1];
        }
        if turn == 0.0 || (part.first && turn > 0.0) {
            return Err(15);
        }
    }
    box_rule(xs, ys, bounds)
}

/// The page box is compared by patterns.
pub fn box_by_pattern(lists: &Lists, xs: &[u64], ys: &[u64], bounds: &Bounds) -> Result<(), u8> {
    shapes::rules_12_to_15(lists, xs, ys)?;
    if *bounds == second::boxes::bounds_of(xs, ys).unwrap_or(NO_BOUNDS) {
        Ok(())
    } else {
        Err(16)
    }
}

/// A ring is closed if its ends are equal in value.
pub fn closed_by_value(lists: &Lists, xs: &[u64], ys: &[u64], bounds: &Bounds) -> Result<(), u8> {
    let plain = |list: &[u64]| -> Vec<u64> { list.iter().map(|c| if c << 1 == 0 { 0 } else { *c }).collect() };
    shapes::rules_12_to_15(lists, &plain(xs), &plain(ys))?;
    box_rule(xs, ys, bounds)
}

/// 14 is judged before 13.
pub fn swapped(lists: &Lists, xs: &[u64], ys: &[u64], bounds: &Bounds) -> Result<(), u8> {
    if shapes::rule_12(xs, ys) && !shapes::rule_14(lists, xs, ys) {
        return Err(14);
    }
    shapes::rules_12_to_15(lists, xs, ys)?;
    box_rule(xs, ys, bounds)
}

/// Two boxes meet by some order.
fn meet(a: &Bounds, b: &Bounds, order: &dyn Fn(u64, u64) -> bool) -> bool {
    order(a.least_x, b.greatest_x)
        && order(b.least_x, a.greatest_x)
        && order(a.least_y, b.greatest_y)
        && order(b.least_y, a.greatest_y)
}

/// The shapes of a page that a window meets by some order.
fn hits(page: &Page, window: &Bounds, order: &dyn Fn(u64, u64) -> bool) -> Result<u64, Refusal> {
    let own = contents(page)?;
    let parts = parts_of(&lists_of(page));
    let mut count = 0;
    for shape in 0..page.types.len() {
        let mut xs = Vec::new();
        let mut ys = Vec::new();
        for part in parts.iter().filter(|part| part.shape == shape) {
            xs.extend_from_slice(stretch(&own.xs, part.from, part.to));
            ys.extend_from_slice(stretch(&own.ys, part.from, part.to));
        }
        if let Some(bounds) = second::boxes::bounds_of(&xs, &ys) {
            count += u64::from(meet(window, &bounds, order));
        }
    }
    Ok(count)
}

/// The count with another order of values for the shapes' boxes; none for
/// what is left to the mirror.
pub fn count_by(query: &[u8], file: &[u8], order: &dyn Fn(u64, u64) -> bool) -> Option<u64> {
    let window = window_of(&parse(query).ok()?)?;
    let frame = frame(file).ok()?;
    let mut count = 0;
    for page in &frame.pages {
        if page.vertices > 0 && second::boxes::meet(&window, &page.bounds) {
            match hits(page, &window, order) {
                Ok(found) => count += found,
                Err(refusal) => return Some(refusal_word(refusal)),
            }
        }
    }
    Some(count)
}

/// The count that opens the first page only and takes the others by their
/// page box.
pub fn count_by_page_box(query: &[u8], file: &[u8]) -> Option<u64> {
    let window = window_of(&parse(query).ok()?)?;
    let frame = frame(file).ok()?;
    let order = |a, b| second::boxes::rank(a) <= second::boxes::rank(b);
    let mut count = 0;
    for page in &frame.pages {
        if page.vertices == 0 || !second::boxes::meet(&window, &page.bounds) {
            continue;
        }
        if page.number > 0 {
            count += page.types.len() as u64;
            continue;
        }
        match hits(page, &window, &order) {
            Ok(found) => count += found,
            Err(refusal) => return Some(refusal_word(refusal)),
        }
    }
    Some(count)
}
