//! Writes test files for the program `sound` into a folder: NAME.in, the
//! bytes on standard input, and NAME.out, the line expected. The lines are
//! written by hand; if this library's own checker disagrees with one of them,
//! nothing is written and the program fails. Names that begin with `library-`
//! are for the library's full check only: the program would refuse them by
//! their size.

#[path = "cases/builders.rs"]
mod builders;
#[path = "cases/content_faults.rs"]
mod content_faults;
#[path = "cases/frame_faults.rs"]
mod frame_faults;
#[path = "cases/list.rs"]
mod list;
#[path = "cases/pairs.rs"]
mod pairs;
#[path = "cases/sound_files.rs"]
mod sound_files;
#[path = "cases/widths.rs"]
mod widths;

use second::programs::{check_text, sound_text};
use std::collections::HashSet;
use std::path::Path;
use std::process::ExitCode;

/// The number of cases whose name is not new or whose line this library's
/// checker does not give.
fn disagreements(cases: &list::Cases) -> usize {
    let mut wrong = 0;
    let mut names = HashSet::new();
    for case in &cases.list {
        let given = if case.library {
            check_text(&case.input)
        } else {
            sound_text(&case.input)
        };
        if given != format!("{}\n", case.expected) {
            eprintln!("{}: expected {}, given {}", case.name, case.expected, given);
            wrong += 1;
        }
        if !names.insert(&case.name) {
            eprintln!("{}: this name comes twice", case.name);
            wrong += 1;
        }
        if case.library != case.name.starts_with("library-") {
            eprintln!("{}: wrong name for its sort", case.name);
            wrong += 1;
        }
    }
    wrong
}

/// Writes the two files of each case.
fn write_all(cases: &list::Cases, folder: &Path) -> std::io::Result<()> {
    std::fs::create_dir_all(folder)?;
    for case in &cases.list {
        std::fs::write(folder.join(format!("{}.in", case.name)), &case.input)?;
        std::fs::write(
            folder.join(format!("{}.out", case.name)),
            format!("{}\n", case.expected),
        )?;
    }
    Ok(())
}

fn main() -> ExitCode {
    let folder = match std::env::args_os().nth(1) {
        Some(folder) => folder,
        None => {
            eprintln!("usage: cases FOLDER");
            return ExitCode::FAILURE;
        }
    };
    let mut cases = list::Cases::default();
    sound_files::all(&mut cases);
    frame_faults::all(&mut cases);
    content_faults::all(&mut cases);
    pairs::all(&mut cases);
    widths::all(&mut cases);
    let wrong = disagreements(&cases);
    if wrong > 0 {
        eprintln!("{wrong} disagreements; nothing written");
        return ExitCode::FAILURE;
    }
    if let Err(error) = write_all(&cases, Path::new(&folder)) {
        eprintln!("not written: {error}");
        return ExitCode::FAILURE;
    }
    println!("{} cases", cases.list.len());
    ExitCode::SUCCESS
}
