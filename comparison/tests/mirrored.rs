//! The comparison tried on the mirror: on the good one it finds nothing and
//! reaches every number and site; each broken variant is found, shrunk and saved.

use comparing::broken::{set, VARIANTS};
use comparing::broken_places;
use comparing::judge::judge;
use comparing::modes::{self, Modes, State, CLEAR};
use comparing::options::{parse, Task, COUNTS};
use comparing::session::Session;
use comparing::tally::Tally;
use comparing::text::{read_call, read_mode};
use comparing::turns;
use std::path::{Path, PathBuf};
use std::process::Command;
use std::sync::{Mutex, MutexGuard};

/// The variant is one for the whole program: the tests take turns.
static TURN: Mutex<()> = Mutex::new(());

/// Takes the turn and sets a variant.
fn variant(name: &str) -> MutexGuard<'static, ()> {
    let turn = TURN.lock().unwrap_or_else(|poisoned| poisoned.into_inner());
    assert!(set(name), "no variant {name}");
    turn
}

/// The folder of a name.
fn folder_of(name: &str) -> PathBuf {
    PathBuf::from(env!("CARGO_TARGET_TMPDIR")).join(name)
}

/// A folder of its own, not there yet.
fn folder(name: &str) -> PathBuf {
    let folder = folder_of(name);
    let _ = std::fs::remove_dir_all(&folder);
    folder
}

#[test]
fn the_good_mirror_has_no_difference_and_every_number_and_site_is_reached() {
    let _turn = variant("none");
    let mut session = Session::new(11, Some(folder("none")));
    turns::run(&mut session, 11, [2_000, 1_000, 400]);
    assert_eq!(session.differences, 0);
    assert_eq!(session.tally.missing(), Vec::<String>::new());
}

#[test]
fn too_few_cases_are_not_enough() {
    let _turn = variant("none");
    let mut session = Session::new(11, None);
    turns::run(&mut session, 11, [50, 3, 1]);
    assert_eq!(session.differences, 0);
    let missing = session.tally.missing();
    assert!(missing.contains(&String::from("boundary_check never gave 3")), "{missing:?}");
    let site = String::from("boundary_search never stopped, column y: cut behind a marker");
    assert!(missing.contains(&site), "{missing:?}");
}

#[test]
fn a_place_that_the_call_does_not_have_is_not_good() {
    let call = comparing::calls::column_read(&[2, 0], 5, 5);
    let mut outcome = comparing::expected::expected(&call);
    for (wrong, faults) in [(0, 0), (1 << 40, 1), (1 << 42, 1), (1 << 54, 1)] {
        let mut tally = Tally::default();
        outcome.word ^= wrong;
        tally.call(&call, &outcome);
        outcome.word ^= wrong;
        let told = tally.missing().iter().filter(|line| line.starts_with("second/ tells ")).count();
        assert_eq!(told, faults, "{wrong:#x}");
    }
}

/// How many columns, files and writer runs a broken variant is tried on: those of the service that its name begins with, and no others.
fn tried_on(name: &str) -> [u64; 3] {
    match name.split('-').next() {
        Some("column" | "read" | "step") => [3_000, 0, 0],
        Some("open" | "page" | "close") => [0, 0, 800],
        _ => [0, 1_500, 0],
    }
}

/// The saved cases of a folder.
fn saved_in(folder: &Path) -> Vec<PathBuf> {
    let entries = std::fs::read_dir(folder).expect("the folder of saved cases");
    entries.map(|entry| entry.expect("a saved case").path()).collect()
}

/// Runs a broken variant until its first difference; the saved cases.
fn found(name: &str) -> Vec<PathBuf> {
    let folder = folder(name);
    let mut session = Session::new(3, Some(folder.clone()));
    session.most = 1;
    turns::run(&mut session, 3, tried_on(name));
    assert_eq!(session.differences, 1, "{name} was not found");
    saved_in(&folder)
}

#[test]
fn each_broken_variant_is_found_shrunk_and_saved() {
    for name in VARIANTS.iter().chain(&broken_places::VARIANTS).filter(|name| **name != "none") {
        let _turn = variant(name);
        let saved = found(name);
        assert_eq!(saved.len(), 1, "{name}");
        let text = std::fs::read_to_string(&saved[0]).expect("the saved case");
        let call = read_call(&text).expect("a saved case can be read again");
        let again = judge(&call, None);
        assert!(again.is_err(), "{name}: the saved case still differs");
        assert!(set("none"));
        assert!(judge(&call, None).is_ok(), "{name}: the good mirror has no difference in it");
        let large = *name == "check-1025-is-4" || broken_places::FULL.contains(name);
        if !large {
            assert!(text.len() < 20_000, "{name}: shrunk only to {} bytes of text", text.len());
        }
    }
}

/// The modes of this machine.
fn all_modes() -> Modes {
    modes::find().expect("the modes of this machine")
}

/// How many of a few cases differ, in all modes or in the default one; the
/// first is saved.
fn differing(name: &str, all: bool) -> usize {
    let mut session = Session::new(4, Some(folder(name)));
    session.most = 1;
    if all {
        session.settings = all_modes().settings;
    }
    turns::run(&mut session, 4, [100, 300, 100]);
    session.differences
}

#[test]
fn the_good_mirror_has_no_difference_in_any_mode() {
    let _turn = variant("none");
    assert_eq!(differing("none-in-modes", true), 0);
}

#[test]
fn what_only_a_mode_shows_is_found_in_the_modes_alone() {
    let words = [
        ("count-in-floats", "# word: must be "),
        ("check-leaves-a-flag", "# floating-point flags changed: from 0x0 to "),
        ("open-leaves-the-mode", "# floating-point mode changed: from "),
    ];
    for (name, said) in words {
        let _turn = variant(name);
        assert_eq!(differing(name, false), 0, "{name} is hidden in the default mode");
        assert_eq!(differing(name, true), 1, "{name} was not found");
        let saved = saved_in(&folder_of(name));
        let text = std::fs::read_to_string(&saved[0]).expect("the saved case");
        assert!(text.contains(said), "{name}: {text}");
        let call = read_call(&text).expect("a saved case can be read again");
        let setting = read_mode(&text).and_then(|words| all_modes().named(words));
        let setting = setting.expect("a saved case has its mode");
        assert!(judge(&call, Some(&setting)).is_err(), "{name}: the saved case still differs in its mode");
        assert!(judge(&call, None).is_ok(), "{name}: not in the default mode");
        assert!(set("none"));
        assert!(judge(&call, Some(&setting)).is_ok(), "{name}: the good mirror has no difference in it");
    }
}

#[test]
fn a_state_is_set_for_what_runs_in_it_and_put_back() {
    let before = modes::now();
    let modes = all_modes();
    for setting in &modes.settings {
        let mut inside = CLEAR;
        assert!(setting.around(&mut || inside = modes::now()).is_empty());
        assert_ne!(inside.control, CLEAR.control);
        assert_eq!(inside.flags != 0, setting.text().ends_with("flags set"));
        let left = modes::within(inside, &mut || modes::set(CLEAR));
        assert_eq!(left, CLEAR);
        assert_eq!(modes::within(inside, &mut || assert_eq!(modes::apart(|| 5), 5)), inside);
        assert_eq!(modes::now(), before);
        assert_eq!(modes.named(&setting.text()), Some(*setting));
    }
    let State { control, .. } = before;
    assert_eq!(control, CLEAR.control);
}

/// Runs the program over a broken variant: its status and what it printed.
fn program(name: &str, words: &[&str]) -> (Option<i32>, String) {
    let mut command = Command::new(env!("CARGO_BIN_EXE_compare"));
    let output = command.env("COMPARE_BREAK", name).args(words).output().expect("the program");
    (output.status.code(), String::from_utf8_lossy(&output.stdout).into_owned())
}

#[test]
fn a_call_that_ends_in_sigfpe_is_printed_and_saved_with_its_mode() {
    let folder = folder("sigfpe");
    let save = folder.display().to_string();
    let few = ["--modes", "--seed", "1", "--columns", "0", "--files", "9", "--runs", "0", "--save", &save];
    let (status, printed) = program("fetch-raises-sigfpe", &few);
    assert_eq!(status, Some(3), "{printed}");
    assert!(printed.contains("\nmodes: ") && printed.contains("# signal 8 in case "), "{printed}");
    let saved = saved_in(&folder);
    let text = std::fs::read_to_string(&saved[0]).expect("the saved case");
    assert!(read_call(&text).is_some() && read_mode(&text).is_some(), "{text}");
    let path = saved[0].display().to_string();
    let (status, printed) = program("none", &["--again", &path]);
    assert_eq!((status, printed.matches("no difference").count()), (Some(0), 1), "{printed}");
    let (status, printed) = program("none", &["--again", &path, "--modes"]);
    assert_eq!((status, printed.matches("no difference").count()), (Some(0), all_modes().settings.len()));
}

#[test]
fn guards_are_seen_before_and_after() {
    let _turn = variant("column-past-room");
    let call = comparing::calls::column_write(&[1, 2, 3], second::column::bytes_of(&[1, 2, 3]).len());
    let lines = judge(&call, None).expect_err("a byte past the room is a difference").lines;
    assert!(lines.iter().any(|line| line == "guard byte +0 of room changed"), "{lines:?}");
    let mut guarded = comparing::guarded::Guarded::new(&[5; 10], 1, 3);
    assert!(guarded.broken_guards().is_empty());
    unsafe {
        let first: *mut u8 = guarded.pointer();
        *first.sub(1) ^= 1;
        *first.add(12) ^= 1;
    }
    assert_eq!(guarded.broken_guards(), [-1, 2]);
    assert_eq!(guarded.bytes(), [5; 10]);
}

#[test]
fn the_command_line_is_read() {
    let words = |text: &str| {
        let list: Vec<String> = text.split_whitespace().map(String::from).collect();
        parse(&mut list.into_iter())
    };
    assert_eq!(words("").expect("no options").counts, COUNTS);
    assert_eq!(words("--cases 2700").expect("cases").counts, [2000, 500, 200]);
    assert_eq!(words("--seed 9 --files 1,000").expect("two").counts, [20_000, 1_000, 2_000]);
    let corpus = words("--corpus a b --seed 4").expect("corpus");
    assert_eq!((corpus.task, corpus.seed), (Task::Corpus("a".into(), "b".into()), Some(4)));
    assert!(words("--modes --again a").expect("modes").modes && !words("--again a").expect("no modes").modes);
    assert!(words("--corpus a b --modes").is_err());
    assert!(words("--seed").is_err() && words("--seed x").is_err() && words("--other").is_err());
}
