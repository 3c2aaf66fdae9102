//! The implementation under test, through its C face: the ten functions of
//! boundary.h, called over guarded memory.

use crate::call::{Arg, Call};
use crate::guarded::Guarded;
use crate::modes::Setting;
use crate::signature::Service;

extern "C" {
    fn boundary_check(file: *const u8, len: usize) -> u64;
    fn boundary_count(query: *const u8, query_len: usize, file: *const u8, len: usize) -> u64;
    fn boundary_search(
        query: *const u8,
        query_len: usize,
        file: *const u8,
        len: usize,
        places: *mut u32,
        room: usize,
    ) -> u64;
    fn boundary_fetch(
        file: *const u8,
        len: usize,
        place: u64,
        about: *mut u64,
        about_room: usize,
        lens: *mut u16,
        lens_room: usize,
        xs: *mut u64,
        xs_room: usize,
        ys: *mut u64,
        ys_room: usize,
    ) -> u64;
    fn boundary_column_write(values: *const u64, n: usize, room: *mut u8, room_len: usize) -> u64;
    fn boundary_column_read(column: *const u8, len: usize, n: usize, room: *mut u64, room_len: usize) -> u64;
    fn boundary_column_step(
        column: *const u8,
        len: usize,
        n: usize,
        position: *mut u64,
        position_len: usize,
    ) -> u64;
    fn boundary_open(writer: *mut u64, writer_len: usize, buffer: *mut u8, len: usize) -> u64;
    fn boundary_page(
        writer: *mut u64,
        writer_len: usize,
        buffer: *mut u8,
        len: usize,
        registers: *const u32,
        registers_len: usize,
        types: *const u8,
        types_len: usize,
        counts: *const u16,
        counts_len: usize,
        lens: *const u16,
        lens_len: usize,
        xs: *const u64,
        xs_len: usize,
        ys: *const u64,
        ys_len: usize,
    ) -> u64;
    fn boundary_close(writer: *mut u64, writer_len: usize, buffer: *mut u8, len: usize) -> u64;
}

/// What the implementation left: its word, the arguments afterwards, the
/// guard bytes that it changed (argument, distance from the slice), and a
/// line each if it changed the floating-point mode or flags.
#[derive(Clone, Debug)]
pub struct Seen {
    pub word: u64,
    pub args: Vec<Arg>,
    pub broken: Vec<(usize, i64)>,
    pub left: Vec<String>,
}

/// The memory of a call: one guarded slice for each argument (an empty one
/// stands for a plain number).
fn lend(call: &Call) -> Vec<Guarded> {
    let mut memory = Vec::new();
    for (k, (arg, param)) in call.args.iter().zip(call.service.params()).enumerate() {
        memory.push(match arg {
            Arg::Slice(bytes) => Guarded::new(bytes, param.size, bytes.len() * 5 + k * 3 + 1),
            Arg::Number(_) => Guarded::new(&[], 1, 0),
        });
    }
    memory
}

/// Calls a service over its memory, of so many elements each. In a mode
/// nothing but this runs: there is no floating-point operation in it.
///
/// # Safety
/// The memory has an entry for each argument, with elements of the sizes in
/// the service's parameters; the slices do not overlap.
unsafe fn call_it(call: &Call, m: &mut [Guarded], n: &[usize]) -> u64 {
    match call.service {
        Service::Check => boundary_check(m[0].pointer(), n[0]),
        Service::Count => boundary_count(m[0].pointer(), n[0], m[1].pointer(), n[1]),
        Service::Search => {
            boundary_search(m[0].pointer(), n[0], m[1].pointer(), n[1], m[2].pointer(), n[2])
        }
        Service::Fetch => call_fetch(call.number(1), m, n),
        Service::ColumnWrite => boundary_column_write(m[0].pointer(), n[0], m[1].pointer(), n[1]),
        Service::ColumnRead => {
            boundary_column_read(m[0].pointer(), n[0], call.number(1) as usize, m[2].pointer(), n[2])
        }
        Service::ColumnStep => {
            boundary_column_step(m[0].pointer(), n[0], call.number(1) as usize, m[2].pointer(), n[2])
        }
        Service::Open => boundary_open(m[0].pointer(), n[0], m[1].pointer(), n[1]),
        Service::Page => call_page(m, n),
        Service::Close => boundary_close(m[0].pointer(), n[0], m[1].pointer(), n[1]),
    }
}

/// The fetch of `call_it`.
unsafe fn call_fetch(place: u64, m: &mut [Guarded], n: &[usize]) -> u64 {
    boundary_fetch(
        m[0].pointer(),
        n[0],
        place,
        m[2].pointer(),
        n[2],
        m[3].pointer(),
        n[3],
        m[4].pointer(),
        n[4],
        m[5].pointer(),
        n[5],
    )
}

/// The page of `call_it`.
unsafe fn call_page(m: &mut [Guarded], n: &[usize]) -> u64 {
    boundary_page(
        m[0].pointer(),
        n[0],
        m[1].pointer(),
        n[1],
        m[2].pointer(),
        n[2],
        m[3].pointer(),
        n[3],
        m[4].pointer(),
        n[4],
        m[5].pointer(),
        n[5],
        m[6].pointer(),
        n[6],
        m[7].pointer(),
        n[7],
    )
}

/// Runs a call on the implementation: as it is, or in a floating-point mode.
pub fn run(call: &Call, setting: Option<&Setting>) -> Seen {
    let mut memory = lend(call);
    let n: Vec<usize> = memory.iter().map(|one| one.elements()).collect();
    let mut word = 0;
    let mut left = Vec::new();
    // `lend` made the memory by the service's own parameters.
    let mut make = || word = unsafe { call_it(call, &mut memory, &n) };
    match setting {
        None => make(),
        Some(setting) => left = setting.around(&mut make),
    }
    let mut args = Vec::new();
    let mut broken = Vec::new();
    for (k, (arg, one)) in call.args.iter().zip(&memory).enumerate() {
        args.push(match arg {
            Arg::Slice(_) => Arg::Slice(one.bytes().to_vec()),
            Arg::Number(number) => Arg::Number(*number),
        });
        broken.extend(one.broken_guards().into_iter().map(|distance| (k, distance)));
    }
    Seen { word, args, broken, left }
}
