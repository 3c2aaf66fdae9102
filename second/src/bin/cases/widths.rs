//! Every width from 0 to 64: sound columns, and the same cut, too long, and
//! with a fill bit. The column under test is in x.

use crate::builders::*;
use crate::list::Cases;

/// A page of one LineString with given x patterns and x column; the box of x
/// is given.
fn page_with(values: &[u64], column: &[u8], least: u64, greatest: u64) -> Page {
    let vertices: Vec<Vertex> = values.iter().map(|x| (f64::from_bits(*x), 3.0)).collect();
    let y = 3.0f64.to_bits();
    page(&[line(1, &vertices)])
        .with_x(column)
        .with_bounds([least, y, greatest, y])
}

/// The index of the value of 10, 1000, 1001, 1000 that lacks bits if the last
/// byte of their column is cut off. Where the last value takes 8 bits or more
/// (in full at widths 0 and 1, as a step from width 8 on) it is that one, 3.
/// For the others, the bits at which the values 0 to 3 end and the bits left:
/// width 2: 72, 138, 140, 142, left 136; 3: 72, 139, 142, 145, left 144;
/// 4: 72, 140, 144, 148, left 144; 5: 72, 141, 146, 151, left 144;
/// 6: 72, 142, 148, 154, left 152; 7: 72, 143, 150, 157, left 152.
fn cut_value(width: u32) -> u32 {
    match width {
        2 => 1,
        5 => 2,
        _ => 3,
    }
}

/// All cases of this file.
pub fn all(cases: &mut Cases) {
    for width in 0..=64u32 {
        // The greatest step that fits, and the one back: 1, 2^(n-1), 1. At
        // width 64 the middle one is minus zero.
        let middle = if width == 0 { 1 } else { 1u64 << (width - 1) };
        let values = [1, middle, 1];
        let column = width_column(&values, width, &[]);
        let (least, greatest) = if width == 64 { (middle, 1) } else { (1, middle) };
        cases.add(
            &format!("width-{width:02}-greatest-step"),
            file(&[&page_with(&values, &column, least, greatest)]),
            "sound 1 pages 1 shapes",
        );
        // Full values where steps would fit, and a step after them: it goes
        // on from the full value.
        let values = [10, 1000, 1001, 1000];
        let column = width_column(&values, width, &[true, false, false]);
        cases.add(
            &format!("width-{width:02}-on-from-a-full-value"),
            file(&[&page_with(&values, &column, 10, 1001)]),
            "sound 1 pages 1 shapes",
        );
        let column = width_column(&values, width, &[true, true, true]);
        cases.add(
            &format!("width-{width:02}-all-full"),
            file(&[&page_with(&values, &column, 10, 1001)]),
            "sound 1 pages 1 shapes",
        );
        // The same four values, each as a step where it fits.
        let column = width_column(&values, width, &[]);
        cases.add(
            &format!("width-{width:02}-four"),
            file(&[&page_with(&values, &column, 10, 1001)]),
            "sound 1 pages 1 shapes",
        );
        cases.add(
            &format!("width-{width:02}-09-cut"),
            file(&[&page_with(&values, &column[..column.len() - 1], 10, 1001)]),
            &format!("refused 9 page 0 column x value {}", cut_value(width)),
        );
        let long = join(&[&column, &[0]]);
        cases.add(
            &format!("width-{width:02}-09-long"),
            file(&[&page_with(&values, &long, 10, 1001)]),
            "refused 9 page 0 column x value 4",
        );
        // 72 + 3n + 64 × (full values) bits: no fill bits if n is a multiple
        // of 8.
        if width % 8 != 0 {
            let mut filled = column.clone();
            filled[column.len() - 1] |= 0x80;
            cases.add(
                &format!("width-{width:02}-10-fill"),
                file(&[&page_with(&values, &filled, 10, 1001)]),
                "refused 10 page 0 column x value 4",
            );
        }
    }
}
