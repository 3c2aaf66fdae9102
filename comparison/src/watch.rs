//! What is printed and saved if the implementation ends the whole program (a
//! signal) or does not come back: the case, its seed and the call under way.

use crate::call::Call;
use crate::modes::{self, Setting};
use crate::text::case_text;
use std::path::Path;
use std::sync::atomic::{AtomicPtr, Ordering};
use std::sync::Mutex;

/// A case may take so many seconds.
const MOST_SECONDS: u32 = 120;

/// The signals that end a program: illegal instruction, trap, abort, bus
/// error, arithmetic, memory, alarm (Linux numbers).
const SIGNALS: [i32; 7] = [4, 5, 6, 7, 8, 11, 14];

extern "C" {
    fn signal(number: i32, handler: usize) -> usize;
    fn alarm(seconds: u32) -> u32;
    fn _exit(status: i32) -> !;
}

static NAME: Mutex<String> = Mutex::new(String::new());
static FOLDER: Mutex<String> = Mutex::new(String::new());
static CALL: AtomicPtr<Call> = AtomicPtr::new(std::ptr::null_mut());
static SETTING: AtomicPtr<Setting> = AtomicPtr::new(std::ptr::null_mut());

/// Prints and saves the call under way and ends. The signal comes out of the
/// implementation, which holds none of the locks used here, and maybe in
/// another floating-point mode, which not every system puts back for this.
extern "C" fn ended(number: i32) {
    modes::set(modes::CLEAR);
    let name = NAME.try_lock().map(|name| name.clone()).unwrap_or_default();
    let folder = FOLDER.try_lock().map(|folder| folder.clone()).unwrap_or_default();
    let call = CALL.load(Ordering::SeqCst);
    let mut text = format!("# signal {number} in case {name}; the call under way, not shrunk:\n");
    if !call.is_null() {
        // Both set by `about_to_call` to what lives until `called`.
        let setting = unsafe { SETTING.load(Ordering::SeqCst).as_ref() };
        text.push_str(&case_text(unsafe { &*call }, setting));
    }
    println!("{text}");
    let path = Path::new(&folder).join(format!("CASE-{name}-signal.txt"));
    match std::fs::create_dir_all(&folder).and_then(|()| std::fs::write(&path, &text)) {
        Ok(()) => println!("saved to {}", path.display()),
        Err(error) => println!("not saved: {error}"),
    }
    unsafe { _exit(3) }
}

/// Starts watching the signals; cases are saved to a folder.
pub fn start(folder: &Path) {
    if let Ok(mut own) = FOLDER.lock() {
        *own = folder.display().to_string();
    }
    let handler: extern "C" fn(i32) = ended;
    for number in SIGNALS {
        unsafe {
            signal(number, handler as usize);
        }
    }
}

/// A case begins.
pub fn case(name: &str, seed: u64) {
    if let Ok(mut own) = NAME.lock() {
        own.clear();
        own.push_str(&format!("{seed}-{name}"));
    }
    unsafe {
        alarm(MOST_SECONDS);
    }
}

/// A call is about to be made, in a floating-point mode if there is one.
pub fn about_to_call(call: &Call, setting: Option<&Setting>) {
    let setting = setting.map_or(std::ptr::null(), |setting| setting as *const Setting);
    SETTING.store(setting as *mut Setting, Ordering::SeqCst);
    CALL.store(call as *const Call as *mut Call, Ordering::SeqCst);
}

/// It came back.
pub fn called() {
    CALL.store(std::ptr::null_mut(), Ordering::SeqCst);
}
