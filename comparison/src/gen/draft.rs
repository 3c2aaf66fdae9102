//! A file drawn up by a plan: its shapes, its parts and its bytes.

use crate::gen::fields::{Fields, Parts};
use crate::gen::floats::SIGN;
use crate::gen::pages;
use crate::gen::plan::Plan;
use crate::gen::shapes::{ground, lists, shape, Shape};
use crate::gen::{aimed, field_damage, file_damage, shape_damage};
use crate::rng::Rng;
use crate::sites::Site;

/// The draft.
pub struct Draft {
    pub shapes: Vec<Vec<Shape>>,
    pub parts: Parts,
    pub bytes: Vec<u8>,
}

/// The pages of a plan, with the faults that lie in shapes.
fn shapes(rng: &mut Rng, plan: &Plan) -> Vec<Vec<Shape>> {
    let mut all: Vec<Vec<Shape>> = Vec::new();
    for page in 0..plan.pages {
        let faulty = plan.faults.iter().any(|fault| fault.1 == page);
        all.push(match (plan.tiny, faulty) {
            (true, _) => pages::tiny(rng),
            (false, true) => pages::small(rng),
            (false, false) => pages::page(rng),
        });
    }
    for (number, page) in &plan.faults {
        if let Some(page) = all.get_mut(*page) {
            match (plan.tiny, *number) {
                (true, 14) => shape_damage::off_by_little(rng, page),
                _ => shape_damage::damage(rng, page, *number),
            }
            if *number == 10 {
                page.push(line(rng));
            }
        }
    }
    if let Some((page, ..)) = plan.stop {
        all[page] = enough(rng);
    }
    all
}

/// A line, of two vertices at least.
fn line(rng: &mut Rng) -> Shape {
    let ground = ground(rng);
    shape(rng, 2, &ground)
}

/// A page with vertices enough for every site of a column: now and then with
/// as many as there can be.
fn enough(rng: &mut Rng) -> Vec<Shape> {
    if rng.once_in(6) {
        return pages::full(rng);
    }
    let mut page = pages::small(rng);
    page.push(line(rng));
    page
}

/// Puts a column that is refused at a site in the place of a page's own.
fn stop(rng: &mut Rng, fields: &mut Fields, shapes: &[Shape], column: usize, site: Site) {
    let lists = lists(shapes);
    if column == 1 {
        fields.x = aimed::column(rng, &lists.xs, site);
        fields.cx = fields.x.len() as u32;
    } else {
        fields.y = aimed::column(rng, &lists.ys, site);
        fields.cy = fields.y.len() as u32;
    }
}

/// A column has fill bits: one of them set gives 10.
fn has_fill(column: &[u8], count: usize) -> bool {
    let mut filled = column.to_vec();
    if let Some(last) = filled.last_mut() {
        *last |= 0x80;
    }
    second::column::values_of(&filled, count).map_err(|fault| fault.number) == Err(10)
}

/// The page's fields in a form in which both columns have fill bits, if one
/// is found: without them 10 could not come.
fn with_fill(rng: &mut Rng, fields: &Fields, shapes: &[Shape]) -> Fields {
    let mut fields = fields.clone();
    for _ in 0..12 {
        let count = usize::from(fields.v);
        if has_fill(&fields.x, count) && has_fill(&fields.y, count) {
            break;
        }
        fields = Fields::of(rng, shapes);
    }
    fields
}

/// Zeros in the box of a page with vertices change their sign now and then:
/// the box stays the same in value.
fn zero_signs(rng: &mut Rng, fields: &mut Fields) {
    if fields.v == 0 {
        return;
    }
    for bound in &mut fields.bounds {
        if *bound << 1 == 0 && rng.once_in(3) {
            *bound ^= SIGN;
        }
    }
}

/// The draft of a plan.
pub fn draft(rng: &mut Rng, plan: &Plan) -> Draft {
    let shapes = shapes(rng, plan);
    let mut fields: Vec<Fields> = shapes.iter().map(|page| Fields::of(rng, page)).collect();
    for (number, page) in &plan.faults {
        if let Some(one) = fields.get_mut(*page) {
            if *number == 10 {
                *one = with_fill(rng, one, &shapes[*page]);
            }
        }
    }
    if let Some((page, column, site)) = plan.stop {
        stop(rng, &mut fields[page], &shapes[page], column, site);
    }
    for one in &mut fields {
        zero_signs(rng, one);
    }
    let mut parts = Parts::of(fields);
    for (number, page) in &plan.faults {
        if let Some(one) = parts.pages.get_mut(*page) {
            field_damage::damage(rng, one, *number);
        }
    }
    for _ in 0..plan.swaps {
        file_damage::pages(rng, &mut parts);
    }
    for _ in 0..plan.frame {
        file_damage::frame(rng, &mut parts);
    }
    let mut bytes = parts.bytes();
    for _ in 0..plan.bytes {
        file_damage::bytes(rng, &mut bytes);
    }
    Draft { shapes, parts, bytes }
}
