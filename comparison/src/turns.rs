//! A whole run: columns, files, writer runs and cases about zero in turn,
//! until enough differences are seen.

use crate::gen::{column_cases, file_cases, run_cases, tiny_cases};
use crate::rng::Rng;
use crate::session::Session;
use crate::sink::{Sink, Stop};

/// A generator of cases by index.
pub type Generator = fn(&mut dyn Sink, &mut Rng, u64) -> Result<(), Stop>;

/// The sorts of cases that are counted and go into the corpus: name,
/// generator.
pub const SORTS: [(&str, Generator); 3] =
    [("column", column_cases::case), ("file", file_cases::case), ("run", run_cases::case)];

/// The cases about zero: one for every so many files.
const TINY: (&str, Generator) = ("tiny", tiny_cases::case);
const FILES_TO_TINY: u64 = 4;

/// Runs so many cases of each sort, and those about zero.
pub fn run(session: &mut Session, seed: u64, counts: [u64; 3]) {
    let [columns, files, runs] = counts;
    let counts = [columns, files, runs, files / FILES_TO_TINY];
    for (sort, (name, generator)) in SORTS.iter().chain([&TINY]).enumerate() {
        for index in 0..counts[sort] {
            if session.full() {
                return;
            }
            session.begin(name, index);
            let mut rng = Rng::of_case(seed, sort as u64, index);
            // A Stop ends the case only; the session has counted it.
            let _ = generator(session, &mut rng, index);
        }
    }
}
