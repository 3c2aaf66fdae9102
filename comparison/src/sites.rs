//! Where in a column a refusal by 8, 9 or 10 stands: its site. Each site has
//! its own rule for the index, so each must be reached by itself.
//!
//! The site is found from the bytes and the values that can be read before
//! it, not from the refusal. So the number, the column and the index that
//! second/ says are held against it.

use crate::call::{Call, Outcome};
use crate::signature::Service;
use second::column::values_of;
use second::frame::{frame, Page};
use second::step::{step, Answer, Position, FRESH};

/// A site.
#[derive(Clone, Copy, Debug, PartialEq, Eq, Hash)]
pub enum Site {
    /// A width over 64.
    WidthOver,
    /// No width byte.
    NoWidth,
    /// Bits of the first pattern lacking.
    FirstCut,
    /// Bits of an entry lacking.
    EntryCut,
    /// Bits of the pattern behind a marker lacking.
    MarkedCut,
    /// Bytes left over.
    LeftOver,
    /// Fill bits that are not zero.
    Fill,
    /// A made-up place past the bytes, with values still to give.
    PastInside,
    /// The same with none to give.
    PastEnd,
}

/// All sites; the first seven are those of a column read from its start.
pub const SITES: [Site; 9] = [
    Site::WidthOver,
    Site::NoWidth,
    Site::FirstCut,
    Site::EntryCut,
    Site::MarkedCut,
    Site::LeftOver,
    Site::Fill,
    Site::PastInside,
    Site::PastEnd,
];

/// How many sites a column has that is read from its start.
pub const FROM_START: usize = 7;

/// The columns, as a word tells them.
pub const COLUMNS: [&str; 3] = ["alone", "x", "y"];

impl Site {
    /// Its number among `SITES`.
    pub fn number(self) -> usize {
        self as usize
    }

    /// What it is called.
    pub fn name(self) -> &'static str {
        match self {
            Site::WidthOver => "width over 64",
            Site::NoWidth => "no width byte",
            Site::FirstCut => "first pattern cut",
            Site::EntryCut => "entry cut",
            Site::MarkedCut => "cut behind a marker",
            Site::LeftOver => "bytes left over",
            Site::Fill => "fill bits",
            Site::PastInside => "place past the bytes",
            Site::PastEnd => "the same, none to give",
        }
    }

    /// The number of the refusals at it.
    pub fn refusal(self) -> usize {
        match self {
            Site::WidthOver => 8,
            Site::Fill => 10,
            _ => 9,
        }
    }
}

/// A site with the column that it is in and the index that it has.
#[derive(Clone, Copy, Debug, PartialEq, Eq)]
pub struct Found {
    pub site: Site,
    pub column: usize,
    pub index: u64,
}

impl Found {
    /// A refusal tells just this.
    pub fn told_by(&self, outcome: &Outcome) -> bool {
        outcome.number() == self.site.refusal()
            && outcome.column() == self.column
            && outcome.index() == self.index
    }
}

/// The site and the index of a column of n values at a position from which
/// it is refused by 8, 9 or 10.
fn at_position(column: &[u8], n: u64, position: &Position) -> (Site, u64) {
    let bits = 8 * column.len() as u64;
    let Position { place, given, width, .. } = *position;
    match column.first() {
        Some(_) if given == 0 && n == 0 => (Site::LeftOver, 0),
        None if given == 0 => (Site::NoWidth, 0),
        Some(own) if given == 0 && *own > 64 => (Site::WidthOver, 0),
        _ if given == 0 => (Site::FirstCut, 0),
        _ if width > 64 => (Site::WidthOver, 0),
        _ if place > bits && given < n => (Site::PastInside, given),
        _ if place > bits => (Site::PastEnd, n),
        _ if given < n && bits - place < width => (Site::EntryCut, given),
        _ if given < n => (Site::MarkedCut, given),
        _ if bits - place >= 8 => (Site::LeftOver, n),
        _ => (Site::Fill, n),
    }
}

/// The position of a column's first answer without a value.
fn last_position(column: &[u8], n: usize) -> Position {
    let mut position = FRESH;
    while let Answer::Value { position: next, .. } = step(column, n, position) {
        position = next;
    }
    position
}

/// The site and the index of a column that is refused when it is read.
pub fn of_column(column: &[u8], n: usize) -> (Site, u64) {
    at_position(column, n as u64, &last_position(column, n))
}

/// The site in a page whose x or y column is refused.
fn of_page(page: &Page) -> Found {
    let in_x = values_of(page.x_column, page.vertices).is_err();
    let column = if in_x { page.x_column } else { page.y_column };
    let (site, index) = of_column(column, page.vertices);
    Found { site, column: if in_x { 1 } else { 2 }, index }
}

/// The site of a step's refusal.
fn of_step(call: &Call) -> Option<Found> {
    let words = call.list::<u64>(2);
    let position = Position { place: *words.first()?, given: *words.get(1)?, width: *words.get(2)?, last: 0 };
    let (site, index) = at_position(call.bytes(0), call.number(1), &position);
    Some(Found { site, column: 0, index })
}

/// The site in that page of a file.
pub fn of_file(file: &[u8], page: u32) -> Option<Found> {
    Some(of_page(frame(file).ok()?.pages.get(page as usize)?))
}

/// The site of a call's refusal by 8, 9 or 10; none for other outcomes.
pub fn of_call(call: &Call, outcome: &Outcome) -> Option<Found> {
    if !(8..=10).contains(&outcome.number()) {
        return None;
    }
    match call.service {
        Service::Check | Service::Fetch => of_file(call.bytes(0), outcome.low()),
        Service::Count | Service::Search => of_file(call.bytes(1), outcome.low()),
        Service::ColumnRead => {
            let (site, index) = of_column(call.bytes(0), call.number(1) as usize);
            Some(Found { site, column: 0, index })
        }
        Service::ColumnStep => of_step(call),
        _ => None,
    }
}
