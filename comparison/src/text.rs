//! Calls as text: printed in full, saved, and read again. Each element is a
//! hexadecimal number of its full width; lines that start with # are notes.

use crate::call::{Arg, Call};
use crate::modes::Setting;
use crate::signature::Service;

/// How the line of a mode begins.
const MODE: &str = "mode ";

/// Elements as hexadecimal numbers, separated by spaces.
pub fn elements(bytes: &[u8], size: usize) -> String {
    let mut text = String::new();
    for element in bytes.chunks(size.max(1)) {
        if !text.is_empty() {
            text.push(' ');
        }
        for byte in element.iter().rev() {
            text.push_str(&format!("{byte:02x}"));
        }
    }
    if text.is_empty() {
        text.push('-');
    }
    text
}

/// A call in full.
pub fn call_text(call: &Call) -> String {
    let mut text = format!("service {}\n", call.service.name());
    for (arg, param) in call.args.iter().zip(call.service.params()) {
        match arg {
            Arg::Number(number) => text.push_str(&format!("number {} {number}\n", param.name)),
            Arg::Slice(bytes) => {
                let count = bytes.len() / param.size;
                text.push_str(&format!("slice {} elements {count} bytes-each {}\n", param.name, param.size));
                for line in bytes.chunks(32) {
                    text.push_str(&format!("  {}\n", elements(line, param.size)));
                }
            }
        }
    }
    text
}

/// A case in full: the floating-point mode of its call, if it has one, and
/// the call.
pub fn case_text(call: &Call, setting: Option<&Setting>) -> String {
    let mode = setting.map(|setting| format!("{MODE}{}\n", setting.text()));
    mode.unwrap_or_default() + &call_text(call)
}

/// The words of a case's mode; none if it has none.
pub fn read_mode(text: &str) -> Option<&str> {
    text.lines().find_map(|line| line.strip_prefix(MODE))
}

/// The bytes of the elements on a line.
fn line_bytes(line: &str, size: usize, bytes: &mut Vec<u8>) -> Option<()> {
    for word in line.split_whitespace() {
        let number = u64::from_str_radix(word, 16).ok()?;
        if word.len() != 2 * size {
            return None;
        }
        bytes.extend_from_slice(&number.to_le_bytes()[..size]);
    }
    Some(())
}

/// A line that says nothing of the call: a note, its mode, or an empty one.
fn beside(line: &str) -> bool {
    line.starts_with('#') || line.starts_with(MODE) || line.trim().is_empty()
}

/// The call of a case's text; none if it is not one.
pub fn read_call(text: &str) -> Option<Call> {
    let mut lines = text.lines().filter(|line| !beside(line)).peekable();
    let service = Service::named(lines.next()?.strip_prefix("service ")?.trim())?;
    let mut args = Vec::new();
    for param in service.params() {
        let mut words = lines.next()?.split_whitespace();
        let form = words.next()?;
        if words.next()? != param.name {
            return None;
        }
        if form == "number" && param.size == 0 {
            args.push(Arg::Number(words.next()?.parse().ok()?));
            continue;
        }
        if form != "slice" || param.size == 0 {
            return None;
        }
        let mut bytes = Vec::new();
        while let Some(line) = lines.peek() {
            if !line.starts_with(' ') {
                break;
            }
            line_bytes(line, param.size, &mut bytes)?;
            lines.next();
        }
        args.push(Arg::Slice(bytes));
    }
    if lines.next().is_some() {
        return None;
    }
    Some(Call { service, args })
}
