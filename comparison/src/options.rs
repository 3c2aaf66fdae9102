//! The command line.

use crate::modes;
use std::path::PathBuf;

/// What the program is to do.
#[derive(Debug, PartialEq, Eq)]
pub enum Task {
    Run,
    Again(PathBuf),
    Corpus(PathBuf, PathBuf),
}

/// The options.
#[derive(Debug, PartialEq, Eq)]
pub struct Options {
    pub task: Task,
    pub seed: Option<u64>,
    /// Columns, files, writer runs.
    pub counts: [u64; 3],
    pub save: PathBuf,
    /// The calls are made in floating-point modes other than the default.
    pub modes: bool,
}

/// The default counts, and the ratio of --cases.
pub const COUNTS: [u64; 3] = [20_000, 5_000, 2_000];

/// How to use the program.
pub const USAGE: &str = "\
usage: compare [--seed S] [--columns N] [--files N] [--runs N] [--cases N] [--save DIR] [--modes]
       compare --again FILE [--modes]
       compare --corpus OUT_STDIN OUT_STDOUT [--seed S]
--cases N: N cases in all, columns : files : runs as 20,000 : 5,000 : 2,000
--modes: each call in a floating-point mode other than the default, in turn; with --again, in each of them";

/// So many cases in all, in the default ratio; at least one of each sort.
fn scaled(cases: u64) -> [u64; 3] {
    let all: u64 = COUNTS.iter().sum();
    let mut counts = COUNTS;
    for count in &mut counts {
        *count = ((cases as u128 * *count as u128 / all as u128) as u64).max(1);
    }
    counts
}

/// The value after an option.
fn value(words: &mut dyn Iterator<Item = String>, name: &str) -> Result<String, String> {
    words.next().ok_or(format!("{name} wants a value"))
}

/// The number after an option.
fn number(words: &mut dyn Iterator<Item = String>, name: &str) -> Result<u64, String> {
    let text = value(words, name)?.replace([',', '_'], "");
    text.parse().map_err(|_| format!("{name} wants a whole number"))
}

/// The options of a command line.
pub fn parse(words: &mut dyn Iterator<Item = String>) -> Result<Options, String> {
    let mut options = Options {
        task: Task::Run,
        seed: None,
        counts: COUNTS,
        save: PathBuf::from("target/differences"),
        modes: false,
    };
    while let Some(name) = words.next() {
        match name.as_str() {
            "--seed" => options.seed = Some(number(words, &name)?),
            "--columns" => options.counts[0] = number(words, &name)?,
            "--files" => options.counts[1] = number(words, &name)?,
            "--runs" => options.counts[2] = number(words, &name)?,
            "--cases" => options.counts = scaled(number(words, &name)?),
            "--save" => options.save = PathBuf::from(value(words, &name)?),
            "--modes" if modes::KNOWN => options.modes = true,
            "--modes" => return Err(format!("--modes: {}", modes::UNKNOWN)),
            "--again" => options.task = Task::Again(PathBuf::from(value(words, &name)?)),
            "--corpus" => {
                let input = PathBuf::from(value(words, &name)?);
                options.task = Task::Corpus(input, PathBuf::from(value(words, &name)?));
            }
            _ => return Err(format!("unknown option {name}")),
        }
    }
    if options.modes && matches!(options.task, Task::Corpus(..)) {
        return Err(String::from("--corpus makes no calls: it takes no --modes"));
    }
    Ok(options)
}
