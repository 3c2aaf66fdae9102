//! Broken variants of the mirror that tell a wrong place in the page: the
//! column or the index of a refusal.

use crate::broken::{number, on};
use crate::sites::{of_column, of_file, Site};

/// The variants.
pub const VARIANTS: [&str; 14] = [
    "read-index-one-more",
    "read-n-where-bits-lack",
    "read-last-where-left-over",
    "read-before-marked",
    "read-index-11-bits",
    "read-tells-a-column",
    "step-given-past-n",
    "check-y-told-as-x",
    "check-column-on-11",
    "check-before-marked",
    "check-index-11-bits",
    "count-column-lost",
    "search-index-lost",
    "fetch-n-where-bits-lack",
];

/// Those that only a column of 2,048 values shows.
pub const FULL: [&str; 2] = ["read-index-11-bits", "check-index-11-bits"];

/// The index in a word.
fn index(word: u64) -> u64 {
    word >> 42
}

/// The word with another index.
fn with_index(word: u64, index: u64) -> u64 {
    (word & ((1 << 42) - 1)) | index << 42
}

/// A refusal by 8, 9 or 10.
fn of_bits(word: u64) -> bool {
    (8..=10).contains(&number(word))
}

/// After a column read.
pub fn read(word: u64, column: &[u8], n: usize) -> u64 {
    if !of_bits(word) {
        return word;
    }
    let site = of_column(column, n).0;
    if on("read-index-one-more") {
        return with_index(word, index(word) + 1);
    }
    if on("read-n-where-bits-lack") && number(word) == 9 {
        return with_index(word, n as u64);
    }
    if on("read-last-where-left-over") && site == Site::LeftOver {
        return with_index(word, index(word).saturating_sub(1));
    }
    if on("read-before-marked") && site == Site::MarkedCut {
        return with_index(word, index(word) - 1);
    }
    if on("read-index-11-bits") {
        return with_index(word, index(word) & 0x7FF);
    }
    if on("read-tells-a-column") {
        return word | 1 << 40;
    }
    word
}

/// After a column step: where the place lies past the bytes and n or more are
/// given, that number is told and not n.
pub fn step(word: u64, column: &[u8], position: &[u64]) -> u64 {
    if on("step-given-past-n") && number(word) == 9 && position[1] > 0 && position[0] > 8 * column.len() as u64 {
        return with_index(word, position[1] & 0xFFF);
    }
    word
}

/// After a full check.
pub fn check(word: u64, file: &[u8]) -> u64 {
    if on("check-y-told-as-x") && word >> 40 & 3 == 2 {
        return word ^ 3 << 40;
    }
    if on("check-column-on-11") && number(word) == 11 {
        return word | 1 << 40;
    }
    if on("check-index-11-bits") {
        return with_index(word, index(word) & 0x7FF);
    }
    if on("check-before-marked") && of_bits(word) {
        let found = of_file(file, word as u32);
        if found.map_or(false, |found| found.site == Site::MarkedCut) {
            return with_index(word, index(word) - 1);
        }
    }
    word
}

/// After a count: the index is told without its column.
pub fn count(word: u64) -> u64 {
    if on("count-column-lost") {
        return word & !(3 << 40);
    }
    word
}

/// After a search: the index is lost on its way.
pub fn search(word: u64) -> u64 {
    if on("search-index-lost") {
        return with_index(word, 0);
    }
    word
}

/// After a fetch: where bits lack, the number of values is told.
pub fn fetch(word: u64, file: &[u8]) -> u64 {
    if on("fetch-n-where-bits-lack") && number(word) == 9 {
        let frame = second::frame::frame(file);
        if let Some(page) = frame.ok().as_ref().and_then(|frame| frame.pages.get(word as u32 as usize)) {
            return with_index(word, page.vertices as u64);
        }
    }
    word
}
