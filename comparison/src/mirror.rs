//! The ten functions of boundary.h over second/ itself, so that the
//! comparison can be tried against an implementation known to be good, and
//! against one that breaks one thing at a time (broken.rs).
//!
//! Every pointer comes from the comparison's guarded memory.
//!
//! second/ compares floats here and there. So that the mirror is good in every
//! floating-point mode, it runs apart, in the default one.

use crate::broken;
use crate::broken_modes;
use crate::broken_places;
use crate::face;
use crate::modes::apart;
use second::writer::PageInput;
use std::slice::{from_raw_parts as lent, from_raw_parts_mut as room};

/// # Safety
/// As boundary.h says: each pointer is good for its number of elements.
#[no_mangle]
pub unsafe extern "C" fn boundary_check(file: *const u8, len: usize) -> u64 {
    let word = apart(|| {
        let word = broken::check(file as *mut u8, len).unwrap_or_else(|| face::check(lent(file, len)));
        broken_places::check(word, lent(file, len))
    });
    broken_modes::check();
    word
}

/// # Safety
/// As above.
#[no_mangle]
pub unsafe extern "C" fn boundary_count(query: *const u8, query_len: usize, file: *const u8, len: usize) -> u64 {
    let (query, file) = (lent(query, query_len), lent(file, len));
    let in_mode = broken_modes::count(query, file);
    let word = || broken::count(query, file).unwrap_or_else(|| face::count(query, file));
    in_mode.unwrap_or_else(|| apart(|| broken_places::count(word())))
}

/// # Safety
/// As above.
#[no_mangle]
pub unsafe extern "C" fn boundary_search(
    query: *const u8,
    query_len: usize,
    file: *const u8,
    len: usize,
    places: *mut u32,
    room_len: usize,
) -> u64 {
    let (query, file, places) = (lent(query, query_len), lent(file, len), room(places, room_len));
    apart(|| {
        let word = face::search(query, file, places);
        broken_places::search(broken::search(word, places))
    })
}

/// # Safety
/// As above.
#[no_mangle]
pub unsafe extern "C" fn boundary_fetch(
    file: *const u8,
    len: usize,
    place: u64,
    about: *mut u64,
    about_room: usize,
    lens: *mut u16,
    lens_room: usize,
    xs: *mut u64,
    xs_room: usize,
    ys: *mut u64,
    ys_room: usize,
) -> u64 {
    broken_modes::fetch();
    let place = broken::place(place);
    let (file, about, lens) = (lent(file, len), room(about, about_room), room(lens, lens_room));
    let (xs, ys) = (room(xs, xs_room), room(ys, ys_room));
    apart(|| {
        let word = face::fetch(file, place, about, lens, xs, ys);
        broken_places::fetch(broken::fetch(word, about), file)
    })
}

/// # Safety
/// As above.
#[no_mangle]
pub unsafe extern "C" fn boundary_column_write(values: *const u64, n: usize, to: *mut u8, room_len: usize) -> u64 {
    let values = lent(values, n);
    apart(|| {
        if let Some(word) = broken::column_write(values, room(to, room_len)) {
            return word;
        }
        let word = face::column_write(values, room(to, room_len));
        broken::after_column_write(word, to, room_len);
        word
    })
}

/// # Safety
/// As above.
#[no_mangle]
pub unsafe extern "C" fn boundary_column_read(
    column: *const u8,
    len: usize,
    n: usize,
    to: *mut u64,
    room_len: usize,
) -> u64 {
    let (column, values) = (lent(column, len), room(to, room_len));
    apart(|| {
        let word = face::column_read(column, n, values);
        broken_places::read(broken::column_read(word, column, n, values), column, n)
    })
}

/// # Safety
/// As above.
#[no_mangle]
pub unsafe extern "C" fn boundary_column_step(
    column: *const u8,
    len: usize,
    n: usize,
    position: *mut u64,
    position_len: usize,
) -> u64 {
    let (column, position) = (lent(column, len), room(position, position_len));
    apart(|| {
        let word = face::column_step(column, n, position);
        broken_places::step(broken::column_step(word, position), column, position)
    })
}

/// # Safety
/// As above.
#[no_mangle]
pub unsafe extern "C" fn boundary_open(state: *mut u64, state_len: usize, buffer: *mut u8, len: usize) -> u64 {
    let (state, buffer) = (room(state, state_len), room(buffer, len));
    let word = apart(|| {
        let word = face::open(state, buffer);
        broken::open(word, state)
    });
    broken_modes::open();
    word
}

/// # Safety
/// As above.
#[no_mangle]
pub unsafe extern "C" fn boundary_page(
    state: *mut u64,
    state_len: usize,
    buffer: *mut u8,
    len: usize,
    registers: *const u32,
    registers_len: usize,
    types: *const u8,
    types_len: usize,
    counts: *const u16,
    counts_len: usize,
    lens: *const u16,
    lens_len: usize,
    xs: *const u64,
    xs_len: usize,
    ys: *const u64,
    ys_len: usize,
) -> u64 {
    let input = PageInput {
        registers: lent(registers, registers_len),
        types: lent(types, types_len),
        part_counts: lent(counts, counts_len),
        part_lengths: lent(lens, lens_len),
        xs: lent(xs, xs_len),
        ys: lent(ys, ys_len),
    };
    let (state, buffer) = (room(state, state_len), room(buffer, len));
    apart(|| {
        broken::before_page(state);
        let before = state.first().copied().unwrap_or(0) as usize;
        let word = face::page(state, buffer, &input);
        broken::page(word, state, buffer, before, &input)
    })
}

/// # Safety
/// As above.
#[no_mangle]
pub unsafe extern "C" fn boundary_close(state: *mut u64, state_len: usize, buffer: *mut u8, len: usize) -> u64 {
    let (state, buffer) = (room(state, state_len), room(buffer, len));
    apart(|| {
        let word = face::close(state, buffer);
        broken::close(word, state)
    })
}
