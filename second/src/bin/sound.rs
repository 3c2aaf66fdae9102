//! The second program: a file on standard input, the full check.

use second::programs::{run, sound_text, MOST_FILE};

fn main() -> std::process::ExitCode {
    run(MOST_FILE, sound_text)
}
