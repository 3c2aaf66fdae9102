//! What the two programs print for an input. Every line ends with a newline.

use crate::check::full_check;
use crate::query::split_block;
use crate::refusal::{refused, Column, Refusal};
use crate::search::hits;

/// "The programs take files up to 40,960 bytes."
pub const MOST_FILE: usize = 40_960;

/// "The listing program has room for 4,096 hits."
pub const MOST_HITS: usize = 4096;

/// The longest query block: six bytes and 32 bytes of floats.
pub const MOST_QUERY_BLOCK: usize = 38;

/// "A refusal prints one line 'refused R page P'." "For 8, 9 and 10 the
/// programs add ' column x value I' (or y) to the refused line": in a program
/// these three always come from a column of a page, and no other number does.
pub fn refused_line(refusal: &Refusal) -> String {
    let line = format!("refused {} page {}", refusal.number, refusal.page);
    match refusal.column {
        Column::None => format!("{line}\n"),
        Column::X => format!("{line} column x value {}\n", refusal.index),
        Column::Y => format!("{line} column y value {}\n", refusal.index),
    }
}

/// What the full check of the library answers, as a line: "sound P pages M
/// shapes" or the refused line. The size is not judged here.
pub fn check_text(file: &[u8]) -> String {
    match full_check(file) {
        Ok(sound) => format!("sound {} pages {} shapes\n", sound.pages, sound.shapes),
        Err(refusal) => refused_line(&refusal),
    }
}

/// The second program: it "takes a file on standard input, gives 3 for its
/// size first, then runs the full check".
pub fn sound_text(file: &[u8]) -> String {
    if file.len() > MOST_FILE {
        return refused_line(&refused(3));
    }
    check_text(file)
}

/// The lines of the listing program or its refusal: the query block's form
/// (1), the file's size (3), then the order of the search, its room being
/// 4,096 hits (2).
fn try_list(input: &[u8]) -> Result<String, Refusal> {
    let (query, file) = match split_block(input) {
        Some((query, file)) => (query, file),
        None => {
            return Err(refused(1));
        }
    };
    if file.len() > MOST_FILE {
        return Err(refused(3));
    }
    let found = hits(file, &query)?;
    if found.hits.len() > MOST_HITS {
        return Err(refused(2));
    }
    let mut text = String::new();
    for hit in &found.hits {
        text.push_str(&format!("{} {} {}\n", hit.place, hit.register, hit.kind));
    }
    text.push_str(&format!("hits {} of {}\n", found.hits.len(), found.shapes));
    Ok(text)
}

/// The listing program: "a line 'place register type' for each hit, then
/// 'hits H of M'", or the refused line.
pub fn list_text(input: &[u8]) -> String {
    match try_list(input) {
        Ok(text) => text,
        Err(refusal) => refused_line(&refusal),
    }
}

/// Runs a program: reads standard input up to one byte more than `most`,
/// prints the text. Failing input or output ends it with 1.
pub fn run(most: usize, text: fn(&[u8]) -> String) -> std::process::ExitCode {
    use std::io::{Read, Write};
    let mut input = Vec::new();
    let reader = std::io::stdin().lock();
    if reader.take(most as u64 + 1).read_to_end(&mut input).is_err() {
        return std::process::ExitCode::FAILURE;
    }
    let mut out = std::io::stdout().lock();
    if out.write_all(text(&input).as_bytes()).is_err() || out.flush().is_err() {
        return std::process::ExitCode::FAILURE;
    }
    std::process::ExitCode::SUCCESS
}
