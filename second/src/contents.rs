//! The contents of a page whose frame has passed.

use crate::column;
use crate::frame::{lists_of, Page};
use crate::refusal::{refused_at, refused_in, Column, Refusal};
use crate::shapes::{rule_11, rule_16, rules_12_to_15};

/// The coordinates of a page, as bit patterns.
#[derive(Clone, Debug, PartialEq, Eq)]
pub struct Coordinates {
    pub xs: Vec<u64>,
    pub ys: Vec<u64>,
}

/// "Page contents, each rule over the page before the next: 11, x column, y
/// column, 12, 13, 14, 15, 16." The coordinates, or the first rule broken with
/// the page number ("for page contents in a file, that page") and, if it is
/// one of a column, with the column and the index.
pub fn contents(page: &Page) -> Result<Coordinates, Refusal> {
    let lists = lists_of(page);
    if !rule_11(&lists, page.vertices) {
        return Err(refused_at(11, page.number));
    }
    let xs = column::values_of(page.x_column, page.vertices)
        .map_err(|fault| refused_in(fault, page.number, Column::X))?;
    let ys = column::values_of(page.y_column, page.vertices)
        .map_err(|fault| refused_in(fault, page.number, Column::Y))?;
    rules_12_to_15(&lists, &xs, &ys).map_err(|number| refused_at(number, page.number))?;
    if !rule_16(&page.bounds, &xs, &ys) {
        return Err(refused_at(16, page.number));
    }
    Ok(Coordinates { xs, ys })
}
