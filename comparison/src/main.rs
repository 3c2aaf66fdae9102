//! The program `compare`: judges the implementation it is linked with against
//! second/. It ends with 0 if nothing differs and every refusal number and
//! every site of 8, 9 and 10 was reached, with 1 otherwise, with 2 for a wrong
//! command line, and with 3 if the implementation ended the program or did not
//! come back.

use comparing::modes::{self, Modes};
use comparing::options::{parse, Options, Task, USAGE};
use comparing::session::Session;
use comparing::{again, corpus, turns, watch};
use std::process::ExitCode;
use std::time::{Instant, SystemTime, UNIX_EPOCH};

/// A seed from the clock.
fn clock_seed() -> u64 {
    match SystemTime::now().duration_since(UNIX_EPOCH) {
        Ok(since) => since.as_nanos() as u64 % 1_000_000_000_000,
        Err(_) => 1,
    }
}

/// The comparison, in floating-point modes if there are any; true if it is
/// good.
fn run(options: &Options, seed: u64, modes: Option<Modes>) -> bool {
    let [columns, files, runs] = options.counts;
    println!("seed {seed}: {columns} columns, {files} files, {runs} writer runs");
    let started = Instant::now();
    let mut session = Session::new(seed, Some(options.save.clone()));
    if let Some(modes) = modes {
        println!("{}", modes.text());
        session.settings = modes.settings;
    }
    turns::run(&mut session, seed, options.counts);
    println!("cases by kind:\n{}", session.tally.kinds_text());
    println!("calls by service and refusal number (0: not refused; .: cannot be given):");
    println!("{}", session.tally.table_text());
    println!("refusals by 8, 9 and 10 by where in the column, and by service and column (.: cannot be):");
    println!("{}", session.tally.sites_text());
    println!("{} calls in {:.1} s", session.tally.calls(), started.elapsed().as_secs_f64());
    println!("{} differing cases", session.differences);
    if session.full() {
        println!("stopped after {} differing cases; the table is not complete", session.most);
        return false;
    }
    let missing = session.tally.missing();
    for line in &missing {
        println!("not good: {line}");
    }
    session.differences == 0 && missing.is_empty()
}

/// Does what the options say; true if it went well.
fn act(options: &Options) -> Result<bool, String> {
    let seed = options.seed.unwrap_or_else(clock_seed);
    let modes = if options.modes { Some(modes::find()?) } else { None };
    match &options.task {
        Task::Run => Ok(run(options, seed, modes)),
        Task::Again(path) => again::again(path, modes.as_ref()),
        Task::Corpus(input, output) => corpus::write(seed, input, output),
    }
}

fn main() -> ExitCode {
    let options = match parse(&mut std::env::args().skip(1)) {
        Ok(options) => options,
        Err(why) => {
            eprintln!("{why}\n{USAGE}");
            return ExitCode::from(2);
        }
    };
    #[cfg(feature = "mirror")]
    comparing::broken::set_from_environment();
    watch::start(&options.save);
    match act(&options) {
        Ok(true) => ExitCode::SUCCESS,
        Ok(false) => ExitCode::from(1),
        Err(why) => {
            eprintln!("{why}");
            ExitCode::from(1)
        }
    }
}
