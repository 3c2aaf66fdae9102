//! What is to be wrong with a file, by its index: the plans go in turn
//! through every number on the first, a middle and the last page.

use crate::rng::Rng;
use crate::sites::{Site, COLUMNS, FROM_START, SITES};

/// The numbers of faults that lie in a page.
pub const PAGE_FAULTS: [usize; 13] = [4, 5, 6, 7, 8, 9, 10, 11, 12, 13, 14, 15, 16];

/// A plan.
#[derive(Clone, Debug, Default)]
pub struct Plan {
    pub kind: String,
    pub pages: usize,
    /// Faults of pages: number and page.
    pub faults: Vec<(usize, usize)>,
    /// A column that is refused at a site: page, column (1 x, 2 y), site.
    pub stop: Option<(usize, usize, Site)>,
    /// How many times the first or end block is damaged.
    pub frame: usize,
    /// How many times page blocks are swapped, doubled or dropped.
    pub swaps: usize,
    /// How many times bytes are damaged.
    pub bytes: usize,
    /// The coordinates are about zero.
    pub tiny: bool,
}

/// A number of pages: mostly few.
fn page_count(rng: &mut Rng) -> usize {
    match rng.below(20) {
        0 | 1 => 0,
        2..=8 => 1,
        9..=18 => 2 + rng.below(3),
        _ => 5 + rng.below(8),
    }
}

/// One fault on the first, a middle or the last of three to five pages.
fn single(rng: &mut Rng, turn: usize) -> Plan {
    let number = PAGE_FAULTS[turn % PAGE_FAULTS.len()];
    let pages = 3 + rng.below(3);
    let (place, page) = match (turn / PAGE_FAULTS.len()) % 3 {
        0 => ("first", 0),
        1 => ("middle", 1 + rng.below(pages - 2)),
        _ => ("last", pages - 1),
    };
    let kind = format!("file: fault {number} on the {place} page");
    Plan { kind, pages, faults: vec![(number, page)], ..Plan::default() }
}

/// The x or the y column of one of a few pages refused at a site, in turn.
fn stopped(rng: &mut Rng, turn: usize) -> Plan {
    let site = SITES[turn % FROM_START];
    let column = 1 + turn / FROM_START % 2;
    let pages = 1 + rng.below(3);
    let kind = format!("file: {}, column {}", site.name(), COLUMNS[column]);
    Plan { kind, pages, stop: Some((rng.below(pages), column, site)), ..Plan::default() }
}

/// Two or three faults at once, on the same page or on different ones.
fn several(rng: &mut Rng) -> Plan {
    let pages = 1 + rng.below(3);
    let count = 2 + rng.below(2);
    let page = rng.below(pages);
    let apart = rng.once_in(2);
    let mut faults = Vec::new();
    for _ in 0..count {
        let page = if apart { rng.below(pages) } else { page };
        faults.push((rng.pick(&PAGE_FAULTS), page));
    }
    let frame = rng.below(4) / 3;
    Plan { kind: format!("file: {count} faults at once"), pages, faults, frame, ..Plan::default() }
}

/// Damage to blocks and bytes.
fn rough(rng: &mut Rng) -> Plan {
    let mut plan = Plan { pages: page_count(rng), ..Plan::default() };
    let kind = match rng.below(4) {
        0 => {
            plan.frame = 1 + rng.below(2);
            "file: first or end block damaged"
        }
        1 => {
            plan.swaps = 1;
            plan.pages += 1;
            "file: page blocks swapped, doubled or dropped"
        }
        2 => {
            plan.bytes = 1 + rng.below(2);
            "file: bytes flipped, cut, added or swapped"
        }
        _ => {
            plan.frame = rng.below(2);
            plan.swaps = rng.below(2);
            plan.bytes = rng.below(2);
            plan.faults = vec![(rng.pick(&PAGE_FAULTS), 0)];
            "file: damage of several sorts"
        }
    };
    plan.kind = kind.to_string();
    plan
}

/// The plan of an index.
pub fn plan(rng: &mut Rng, index: u64) -> Plan {
    match index % 4 {
        0 if index % 8 == 4 => stopped(rng, (index / 8) as usize),
        0 => Plan { kind: String::from("file: sound"), pages: page_count(rng), ..Plan::default() },
        1 => single(rng, (index / 4) as usize),
        2 => several(rng),
        _ => rough(rng),
    }
}
