//! A saved case run again.

use crate::call::Call;
use crate::judge::{judge, word_text};
use crate::modes::{self, Modes, Setting};
use crate::text::{case_text, read_call, read_mode};
use std::path::Path;

/// The floating-point modes to run a case in: all of them if they are handed
/// in, else the one that its text names, else the default.
fn settings(text: &str, all: Option<&Modes>) -> Result<Vec<Option<Setting>>, String> {
    if let Some(modes) = all {
        return Ok(modes.settings.iter().copied().map(Some).collect());
    }
    match read_mode(text) {
        None => Ok(vec![None]),
        Some(words) => match modes::find()?.named(words) {
            Some(setting) => Ok(vec![Some(setting)]),
            None => Err(format!("this machine has no mode '{words}'")),
        },
    }
}

/// Runs the call once and prints what each said; true if there is no
/// difference.
fn once(call: &Call, setting: Option<&Setting>) -> bool {
    println!("{}", case_text(call, setting));
    match judge(call, setting) {
        Ok(outcome) => {
            println!("no difference: {}", word_text(outcome.word));
            true
        }
        Err(difference) => {
            println!("{}", difference.lines.join("\n"));
            false
        }
    }
}

/// Runs the case of a file again; true if there is no difference.
pub fn again(path: &Path, all: Option<&Modes>) -> Result<bool, String> {
    let text = std::fs::read_to_string(path).map_err(|error| format!("{}: {error}", path.display()))?;
    let call = read_call(&text).ok_or(format!("{}: not a saved case", path.display()))?;
    let mut good = true;
    for setting in settings(&text, all)? {
        good &= once(&call, setting.as_ref());
    }
    Ok(good)
}
