//! Floating-point modes: a call made in a mode other than the default, and
//! what it leaves of the mode and of the flags.
//!
//! The answers of an implementation must not depend on the caller's mode, and
//! a call leaves mode and flags as they were. State and call are one piece of
//! assembly: the state is set, the call is made, the state is read, and the
//! one from before is put back. So no other code runs in the mode, and none
//! is moved into it or out of it.

use std::ffi::c_void;

/// The state of the floating-point unit: its control bits, which are the
/// mode, and the flags of the exceptions that have come.
#[derive(Clone, Copy, Debug, PartialEq, Eq)]
pub struct State {
    pub control: u64,
    pub flags: u64,
}

/// One mode: its name, the control bits in which it is not the default, and
/// whether every machine of the sort has it.
struct Mode {
    name: &'static str,
    bits: u64,
    everywhere: bool,
}

/// A function that is handed one pointer.
type Function = extern "C" fn(*mut c_void);

/// x86-64: MXCSR holds both. Bit 6: denormals are zero; 7 to 12: exceptions
/// masked; 13 and 14: rounding; 15: flush to zero; 0 to 5: flags.
#[cfg(target_arch = "x86_64")]
mod machine {
    use super::{Function, Mode, State};
    use std::arch::asm;
    use std::ffi::c_void;

    pub(super) const DEFAULT: u64 = 0x1F80;
    pub(super) const FLAGS: u64 = 0x3F;
    pub(super) const TRAPS: u64 = 0x1F80;
    pub(super) const MODES: [Mode; 7] = [
        Mode { name: "denormals are zero", bits: 0x0040, everywhere: true },
        Mode { name: "flush to zero", bits: 0x8000, everywhere: true },
        Mode { name: "denormals are zero and flush to zero", bits: 0x8040, everywhere: true },
        Mode { name: "round up", bits: 0x4000, everywhere: true },
        Mode { name: "round down", bits: 0x2000, everywhere: true },
        Mode { name: "round to zero", bits: 0x6000, everywhere: true },
        Mode { name: "exceptions unmasked", bits: TRAPS, everywhere: true },
    ];

    /// The word of a state.
    fn word(state: State) -> u32 {
        (state.control | state.flags) as u32
    }

    /// The state of a word.
    fn state(word: u32) -> State {
        State { control: u64::from(word) & !FLAGS, flags: u64::from(word) & FLAGS }
    }

    /// # Safety
    /// The function may be called with the pointer.
    pub(super) unsafe fn within(set: State, function: Function, data: *mut c_void) -> State {
        // What is set, what is left, what was before. r12 and r13 are kept by the function.
        let mut words = [word(set), 0, 0];
        asm!(
            "stmxcsr [r12 + 8]",
            "ldmxcsr [r12]",
            "call r13",
            "stmxcsr [r12 + 4]",
            "ldmxcsr [r12 + 8]",
            in("r12") words.as_mut_ptr(),
            in("r13") function,
            in("rdi") data,
            clobber_abi("C"),
        );
        state(words[1])
    }

    pub(super) fn now() -> State {
        let mut now = 0u32;
        unsafe { asm!("stmxcsr [{}]", in(reg) &mut now as *mut u32, options(nostack, preserves_flags)) };
        state(now)
    }

    pub(super) fn set(state: State) {
        let new = word(state);
        unsafe { asm!("ldmxcsr [{}]", in(reg) &new as *const u32, options(nostack)) };
    }
}

/// aarch64: FPCR is the control, FPSR has the flags. FPCR: bits 0 FIZ and 1
/// AH, of newer machines; 8 to 12 and 15: exceptions trapped, which few have;
/// 22 and 23: rounding; 24: flush to zero. FPSR: bits 0 to 4 and 7. Its bit
/// 27 is not one of the flags: it tells of whole numbers.
#[cfg(target_arch = "aarch64")]
mod machine {
    use super::{Function, Mode, State};
    use std::arch::asm;
    use std::ffi::c_void;

    pub(super) const DEFAULT: u64 = 0;
    pub(super) const FLAGS: u64 = 0x9F;
    pub(super) const TRAPS: u64 = 0x9F00;
    pub(super) const MODES: [Mode; 7] = [
        Mode { name: "flush to zero", bits: 1 << 24, everywhere: true },
        Mode { name: "round up", bits: 1 << 22, everywhere: true },
        Mode { name: "round down", bits: 2 << 22, everywhere: true },
        Mode { name: "round to zero", bits: 3 << 22, everywhere: true },
        Mode { name: "exceptions trapped", bits: TRAPS, everywhere: false },
        Mode { name: "inputs flushed to zero (FIZ)", bits: 1, everywhere: false },
        Mode { name: "alternate handling (AH)", bits: 2, everywhere: false },
    ];

    /// # Safety
    /// The function may be called with the pointer.
    pub(super) unsafe fn within(set: State, function: Function, data: *mut c_void) -> State {
        let State { mut control, mut flags } = set;
        // x20 to x24 are kept by the function.
        asm!(
            "mrs x22, fpcr",
            "mrs x23, fpsr",
            "msr fpcr, x20",
            "msr fpsr, x21",
            "blr x24",
            "mrs x20, fpcr",
            "mrs x21, fpsr",
            "msr fpcr, x22",
            "msr fpsr, x23",
            inout("x20") control,
            inout("x21") flags,
            out("x22") _,
            out("x23") _,
            in("x24") function,
            in("x0") data,
            clobber_abi("C"),
        );
        State { control, flags: flags & FLAGS }
    }

    pub(super) fn now() -> State {
        let (control, flags): (u64, u64);
        unsafe { asm!("mrs {}, fpcr", "mrs {}, fpsr", out(reg) control, out(reg) flags, options(nomem, nostack)) };
        State { control, flags: flags & FLAGS }
    }

    pub(super) fn set(state: State) {
        let State { control, flags } = state;
        unsafe { asm!("msr fpcr, {}", "msr fpsr, {}", in(reg) control, in(reg) flags, options(nostack)) };
    }
}

/// Other machines: there is no mode but the default.
#[cfg(not(any(target_arch = "x86_64", target_arch = "aarch64")))]
mod machine {
    use super::{Function, Mode, State, CLEAR};
    use std::ffi::c_void;

    pub(super) const DEFAULT: u64 = 0;
    pub(super) const FLAGS: u64 = 0;
    pub(super) const TRAPS: u64 = 0;
    pub(super) const MODES: [Mode; 0] = [];

    /// # Safety
    /// The function may be called with the pointer.
    pub(super) unsafe fn within(set: State, function: Function, data: *mut c_void) -> State {
        function(data);
        set
    }

    pub(super) fn now() -> State {
        CLEAR
    }

    pub(super) fn set(_state: State) {}
}

/// This sort of machine has modes that are known here.
pub const KNOWN: bool = !machine::MODES.is_empty();
pub const UNKNOWN: &str = "the floating-point modes of this sort of machine are not known";

/// The default mode with no flag set.
pub const CLEAR: State = State { control: machine::DEFAULT, flags: 0 };

/// The state now.
pub fn now() -> State {
    machine::now()
}

/// Sets a state and leaves it so.
pub fn set(state: State) {
    machine::set(state);
}

/// The state with no exception that would end the program.
pub fn masked(state: State) -> State {
    let rest = state.control & !machine::TRAPS;
    State { control: rest | (machine::DEFAULT & machine::TRAPS), flags: state.flags }
}

/// Calls what the pointer of `within` points to.
extern "C" fn call_back(data: *mut c_void) {
    // `within` hands over a reference that lives as long as the call.
    let run = unsafe { &mut *data.cast::<&mut dyn FnMut()>() };
    run();
}

/// Runs something in a state; the state that it leaves. The one from before
/// is put back.
pub fn within(state: State, mut run: &mut dyn FnMut()) -> State {
    let data: *mut &mut dyn FnMut() = &mut run;
    unsafe { machine::within(state, call_back, data.cast()) }
}

/// Runs something in the default mode; mode and flags stay what they are.
pub fn apart(mut run: impl FnMut() -> u64) -> u64 {
    let mut word = 0;
    within(CLEAR, &mut || word = run());
    word
}

/// How a call is made: in a mode, with all flags clear before it or all set.
#[derive(Clone, Copy, Debug, PartialEq, Eq)]
pub struct Setting {
    name: &'static str,
    control: u64,
    flagged: bool,
}

impl Setting {
    /// Its words, by which `named` finds it.
    pub fn text(&self) -> String {
        format!("{}, flags {}", self.name, if self.flagged { "set" } else { "clear" })
    }

    /// Runs something in it: a line for each thing that it changed.
    pub fn around(&self, run: &mut dyn FnMut()) -> Vec<String> {
        let set = State { control: self.control, flags: if self.flagged { machine::FLAGS } else { 0 } };
        let left = within(set, run);
        let mut lines = Vec::new();
        if left.control != set.control {
            lines.push(format!("floating-point mode changed: from {:#x} to {:#x}", set.control, left.control));
        }
        if left.flags != set.flags {
            lines.push(format!("floating-point flags changed: from {:#x} to {:#x}", set.flags, left.flags));
        }
        lines
    }
}

/// The modes of this machine.
#[derive(Debug)]
pub struct Modes {
    pub settings: Vec<Setting>,
    pub lacking: Vec<&'static str>,
}

/// The machine keeps the bits of a mode.
fn kept(bits: u64) -> bool {
    let control = machine::DEFAULT ^ bits;
    within(State { control, flags: 0 }, &mut || {}).control == control
}

/// The modes that this machine keeps, each with flags clear and set, and all
/// of them at once; an error if it lacks one that it must have.
pub fn find() -> Result<Modes, String> {
    if !KNOWN {
        return Err(String::from(UNKNOWN));
    }
    let mut modes = Modes { settings: Vec::new(), lacking: Vec::new() };
    let mut all = 0;
    for mode in &machine::MODES {
        if kept(mode.bits) {
            all |= mode.bits;
            modes.add(mode.name, mode.bits);
        } else if mode.everywhere {
            return Err(format!("this machine does not keep the mode '{}'", mode.name));
        } else {
            modes.lacking.push(mode.name);
        }
    }
    modes.add("all of these at once", all);
    Ok(modes)
}

impl Modes {
    /// Takes a mode in, with flags clear and set.
    fn add(&mut self, name: &'static str, bits: u64) {
        for flagged in [false, true] {
            self.settings.push(Setting { name, control: machine::DEFAULT ^ bits, flagged });
        }
    }

    /// The setting of some words.
    pub fn named(&self, words: &str) -> Option<Setting> {
        self.settings.iter().copied().find(|setting| setting.text() == words)
    }

    /// Which modes are used and which are not there.
    pub fn text(&self) -> String {
        let used: Vec<&str> = self.settings.iter().step_by(2).map(|setting| setting.name).collect();
        let none = if self.lacking.is_empty() { "none" } else { "" };
        format!("modes: {}\nmodes that this machine lacks: {none}{}", used.join("; "), self.lacking.join("; "))
    }
}
