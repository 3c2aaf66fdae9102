//! Broken variants of the mirror that only another floating-point mode shows.
//! They are hooks that run in the caller's mode, unlike the rest of the
//! mirror.

use crate::broken::on;
use crate::broken_rules as rules;
use crate::modes::{masked, now, set, within, State, CLEAR};
use std::ptr::{read_volatile, write_volatile};

/// The variants.
pub const VARIANTS: [&str; 4] =
    ["count-in-floats", "check-leaves-a-flag", "open-leaves-the-mode", "fetch-raises-sigfpe"];

extern "C" {
    fn raise(number: i32) -> i32;
}

/// The count with the boxes compared as floats by the machine. Exceptions are
/// masked and the flags put back, so that only the answer can be wrong.
pub fn count(query: &[u8], file: &[u8]) -> Option<u64> {
    if !on("count-in-floats") {
        return None;
    }
    let mut word = None;
    within(masked(now()), &mut || {
        word = rules::count_by(query, file, &|a, b| f64::from_bits(a) <= f64::from_bits(b));
    });
    word
}

/// An inexact division, made by the machine when the program runs.
fn divide() {
    let (mut one, three) = (1.0f64, 3.0f64);
    // Both are there to be read, and the first to be written to.
    unsafe { write_volatile(&mut one, read_volatile(&one) / read_volatile(&three)) };
}

/// After a check: the flag of a division is left. It is made with exceptions
/// masked, so that it cannot end the program.
pub fn check() {
    if on("check-leaves-a-flag") {
        let own = now();
        let left = within(masked(own), &mut divide);
        set(State { control: own.control, flags: left.flags });
    }
}

/// After an open: the default mode is left.
pub fn open() {
    if on("open-leaves-the-mode") {
        set(State { control: CLEAR.control, flags: now().flags });
    }
}

/// Before a fetch: the signal that an unmasked exception gives (Linux number).
pub fn fetch() {
    if on("fetch-raises-sigfpe") {
        unsafe { raise(8) };
    }
}
