//! Judging one call: the implementation's word and all lent memory against
//! what second/ says.

use crate::call::{Arg, Call, Outcome};
use crate::expected::expected;
use crate::modes::Setting;
use crate::real::{run, Seen};
use crate::text::elements;
use crate::watch;

/// A word in plain words. A bit that should not be there shows in the index.
pub fn word_text(word: u64) -> String {
    if word >> 32 == 0 {
        return format!("{word:#018x} (says {word})");
    }
    let (number, page) = (word >> 32 & 0xFF, word as u32);
    let column = ["none", "x", "y", "3"][(word >> 40 & 3) as usize];
    format!("{word:#018x} (refused {number} page {page} column {column} index {})", word >> 42)
}

/// What differs: line by line, and whether it is the answer (the word or the
/// memory) and not only the floating-point mode or flags.
#[derive(Clone, Debug)]
pub struct Difference {
    pub lines: Vec<String>,
    pub answer: bool,
}

/// The implementation answered just what second/ says.
fn same(must: &Outcome, seen: &Seen) -> bool {
    must.word == seen.word && must.args == seen.args && seen.broken.is_empty()
}

/// What differs, line by line.
fn differences(call: &Call, must: &Outcome, seen: &Seen) -> Vec<String> {
    let mut lines = Vec::new();
    if must.word != seen.word {
        lines.push(format!("word: must be {}, is {}", word_text(must.word), word_text(seen.word)));
    } else {
        lines.push(format!("word: {} from both", word_text(must.word)));
    }
    let params = call.service.params();
    for (k, param) in params.iter().enumerate() {
        if let (Arg::Slice(wanted), Arg::Slice(given)) = (&must.args[k], &seen.args[k]) {
            if wanted != given {
                let sort = if param.writable { "writable" } else { "read-only" };
                lines.push(format!("{} ({sort}), {} bytes an element:", param.name, param.size));
                lines.push(format!("  must be {}", elements(wanted, param.size)));
                lines.push(format!("  is      {}", elements(given, param.size)));
            }
        }
    }
    for (k, distance) in seen.broken.iter().take(8) {
        lines.push(format!("guard byte {distance:+} of {} changed", params[*k].name));
    }
    lines.extend_from_slice(&seen.left);
    lines
}

/// Runs a call both ways: what second/ says, or what differs. Only the
/// implementation's call is made in the floating-point mode, if there is one.
pub fn judge(call: &Call, setting: Option<&Setting>) -> Result<Outcome, Difference> {
    let must = expected(call);
    watch::about_to_call(call, setting);
    let seen = run(call, setting);
    watch::called();
    let answer = !same(&must, &seen);
    if !answer && seen.left.is_empty() {
        return Ok(must);
    }
    Err(Difference { lines: differences(call, &must, &seen), answer })
}
