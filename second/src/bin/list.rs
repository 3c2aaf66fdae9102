//! The listing program: a query block and a file on standard input.

use second::programs::{list_text, run, MOST_FILE, MOST_QUERY_BLOCK};

fn main() -> std::process::ExitCode {
    run(MOST_QUERY_BLOCK + MOST_FILE, list_text)
}
