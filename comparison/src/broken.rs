//! Broken variants of the mirror, one thing at a time, to see that the
//! comparison finds it. The variant is set by `set`, or for the program by
//! the environment variable COMPARE_BREAK. Those that tell a wrong column or
//! index are in broken_places.rs, those that only another floating-point mode
//! shows in broken_modes.rs.

use crate::broken_modes;
use crate::broken_places;
use crate::broken_rules as rules;
use crate::gen::encode::{marker, zigzag};
use second::writer::PageInput;
use std::sync::atomic::{AtomicUsize, Ordering};

/// The variants; the first is none.
pub const VARIANTS: [&str; 30] = [
    "none",
    "column-tie",
    "column-marker",
    "column-rest",
    "column-past-room",
    "read-fill",
    "read-refused-writes",
    "step-end-moves",
    "step-width-9",
    "check-page-number",
    "check-turn-in-floats",
    "check-writes-lent",
    "check-box-by-pattern",
    "check-closed-by-value",
    "check-14-before-13",
    "check-1025-is-4",
    "count-by-page-box",
    "count-edge-excluded",
    "count-signed-order",
    "search-backwards",
    "search-room-exact-is-2",
    "fetch-place-32-bits",
    "fetch-about-swapped",
    "open-keeps-pages",
    "page-1025-accepted",
    "page-box-first-part",
    "page-box-last-met",
    "page-refused-counts",
    "close-high-bit",
    "close-not-closed",
];

static ACTIVE: AtomicUsize = AtomicUsize::new(0);

/// All variants, those of the modes last.
fn all() -> impl Iterator<Item = &'static str> {
    VARIANTS.iter().chain(&broken_places::VARIANTS).chain(&broken_modes::VARIANTS).copied()
}

/// Sets the variant of a name; false if there is none.
pub fn set(name: &str) -> bool {
    match all().position(|variant| variant == name) {
        Some(number) => {
            ACTIVE.store(number, Ordering::SeqCst);
            true
        }
        None => false,
    }
}

/// Sets the variant that the environment names, if it names one.
pub fn set_from_environment() {
    if let Ok(name) = std::env::var("COMPARE_BREAK") {
        assert!(set(&name), "no variant {name}; there are {:?}", all().collect::<Vec<&str>>());
        println!("mirror broken: {name}");
    }
}

/// The variant is this one.
pub fn on(name: &str) -> bool {
    all().nth(ACTIVE.load(Ordering::SeqCst)) == Some(name)
}

/// The number in a word.
pub fn number(word: u64) -> u64 {
    (word >> 32) & 0xFF
}

/// # Safety
/// The pointer is good for `len` bytes, which may be written to.
pub unsafe fn check(file: *mut u8, len: usize) -> Option<u64> {
    let bytes = std::slice::from_raw_parts(file, len);
    let word = crate::face::check(bytes);
    if on("check-page-number") && number(word) != 0 {
        return Some(word >> 32 << 32);
    }
    if on("check-1025-is-4") && number(word) == 3 {
        return Some((4 << 32) | (word & 0xFFFF_FFFF));
    }
    if on("check-writes-lent") && len > 40 {
        *file.add(len / 2) ^= 1;
        return Some(word);
    }
    if on("check-turn-in-floats") {
        return rules::check_with(bytes, &rules::turn_in_floats);
    }
    if on("check-box-by-pattern") {
        return rules::check_with(bytes, &rules::box_by_pattern);
    }
    if on("check-closed-by-value") {
        return rules::check_with(bytes, &rules::closed_by_value);
    }
    if on("check-14-before-13") {
        return rules::check_with(bytes, &rules::swapped);
    }
    None
}

pub fn count(query: &[u8], file: &[u8]) -> Option<u64> {
    if on("count-by-page-box") {
        return rules::count_by_page_box(query, file);
    }
    if on("count-edge-excluded") {
        return rules::count_by(query, file, &|a, b| second::boxes::rank(a) < second::boxes::rank(b));
    }
    if on("count-signed-order") {
        return rules::count_by(query, file, &|a, b| a as i64 <= b as i64);
    }
    None
}

pub fn search(word: u64, places: &mut [u32]) -> u64 {
    let hits = word as usize;
    if on("search-backwards") && number(word) == 0 {
        places[..hits].reverse();
    }
    if on("search-room-exact-is-2") && number(word) == 0 && hits > 0 && hits == places.len() {
        return 2 << 32;
    }
    word
}

pub fn place(place: u64) -> u64 {
    if on("fetch-place-32-bits") {
        return place & 0xFFFF_FFFF;
    }
    place
}

pub fn fetch(word: u64, about: &mut [u64]) -> u64 {
    if on("fetch-about-swapped") && number(word) == 0 {
        about.swap(2, 3);
    }
    word
}

/// The column with another choice of width, or with a marker kept as a step.
pub fn column_write(values: &[u64], room: &mut [u8]) -> Option<u64> {
    if values.len() > 2048 || values.is_empty() {
        return None;
    }
    let bytes = if on("column-tie") {
        let sizes: Vec<u128> = (0..=64).map(|n| second::column::s_of(values, n)).collect();
        let least = sizes.iter().min()?;
        let width = sizes.iter().rposition(|size| size == least)? as u32;
        crate::gen::encode::encode(values, width, &|_| false)
    } else if on("column-marker") {
        let width = second::column::best_width(values);
        let hit = values.windows(2).any(|pair| zigzag(pair[0], pair[1]) == marker(width) && width > 0);
        if !hit {
            return None;
        }
        rules::marker_as_step(values, width)
    } else {
        return None;
    };
    match room.get_mut(..bytes.len()) {
        None => Some(2 << 32),
        Some(start) => {
            start.copy_from_slice(&bytes);
            Some(bytes.len() as u64)
        }
    }
}

/// # Safety
/// The pointer is good for `len` bytes and one guard byte after them.
pub unsafe fn after_column_write(word: u64, room: *mut u8, len: usize) {
    let written = word as usize;
    if on("column-rest") && number(word) == 0 && written < len {
        *room.add(written) = 0;
    }
    if on("column-past-room") && number(word) == 0 && written == len {
        *room.add(len) = 0;
    }
}

pub fn column_read(word: u64, column: &[u8], n: usize, room: &mut [u64]) -> u64 {
    if on("read-refused-writes") && number(word) > 2 && !room.is_empty() {
        room[0] = 0;
    }
    if on("read-fill") && number(word) == 10 {
        let mut cleared = column.to_vec();
        let last = cleared.len() - 1;
        for keep in (0..8).rev() {
            cleared[last] &= (1u8 << keep).wrapping_sub(1);
            let again = crate::face::column_read(&cleared, n, room);
            if number(again) == 0 {
                return again;
            }
        }
    }
    word
}

pub fn column_step(word: u64, position: &mut [u64]) -> u64 {
    if on("step-end-moves") && word == 0 {
        position[1] = position[1].wrapping_add(1);
    }
    if on("step-width-9") && number(word) == 8 && position[1] > 0 {
        return 9 << 32;
    }
    word
}

pub fn open(word: u64, state: &mut [u64]) -> u64 {
    if on("open-keeps-pages") && word == 0 {
        state[1] = 7;
    }
    word
}

pub fn before_page(state: &mut [u64]) {
    if on("page-1025-accepted") && state.len() >= 4 && state[1] == 1024 {
        state[1] = 1023;
    }
}

/// After a page whose block lies at `before` in the buffer.
pub fn page(word: u64, state: &mut [u64], buffer: &mut [u8], before: usize, input: &PageInput) -> u64 {
    if on("page-refused-counts") && number(word) > 2 && number(word) < 18 {
        state[1] = state[1].wrapping_add(1);
    }
    if word != 0 || input.xs.is_empty() {
        return word;
    }
    let bounds = if on("page-box-first-part") {
        let first = input.part_lengths.first().copied().unwrap_or(0) as usize;
        second::boxes::bounds_of(&input.xs[..first], &input.ys[..first])
    } else if on("page-box-last-met") {
        let back = |list: &[u64]| list.iter().rev().copied().collect::<Vec<u64>>();
        second::boxes::bounds_of(&back(input.xs), &back(input.ys))
    } else {
        None
    };
    if let Some(b) = bounds {
        let bytes = crate::call::bytes_of(&[b.least_x, b.least_y, b.greatest_x, b.greatest_y]);
        buffer[before + 12..before + 44].copy_from_slice(&bytes);
    }
    word
}

pub fn close(word: u64, state: &mut [u64]) -> u64 {
    if on("close-high-bit") && number(word) != 0 {
        return word | 1 << 54;
    }
    if on("close-not-closed") && word == 0 {
        state[3] = 0;
    }
    word
}
