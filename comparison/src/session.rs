//! A run of the comparison: its counts, its findings, and what is done with
//! a difference (shrunk, printed, saved).

use crate::call::{Call, Outcome};
use crate::judge::{judge, Difference};
use crate::modes::Setting;
use crate::rng::Rng;
use crate::shrink::shrink;
use crate::sink::{Sink, Stop};
use crate::tally::Tally;
use crate::text::case_text;
use crate::watch;
use std::path::PathBuf;

/// The run stops after so many differing cases, if not told otherwise.
pub const MOST_DIFFERENCES: usize = 20;

/// The source of the modes, beside those of the sorts of cases.
const MODES: u64 = 90;

/// The state of a run.
pub struct Session {
    pub tally: Tally,
    pub differences: usize,
    /// The run stops after so many differing cases.
    pub most: usize,
    /// The floating-point modes of the calls, in turn; none for the default.
    pub settings: Vec<Setting>,
    turn: usize,
    seed: u64,
    save: Option<PathBuf>,
    name: String,
    kind: String,
}

impl Session {
    /// A run with a seed. Findings are printed and saved to a folder, or
    /// only counted if there is none.
    pub fn new(seed: u64, save: Option<PathBuf>) -> Session {
        Session {
            tally: Tally::default(),
            differences: 0,
            most: MOST_DIFFERENCES,
            settings: Vec::new(),
            turn: 0,
            seed,
            save,
            name: String::new(),
            kind: String::new(),
        }
    }

    /// A case begins: its sort and index. The index and the seed say in which
    /// mode its first call is made, so that a case has the same modes without
    /// those before it.
    pub fn begin(&mut self, sort: &str, index: u64) {
        self.name = format!("{sort}-{index}");
        self.turn = Rng::of_case(self.seed, MODES, index).below(self.settings.len());
        watch::case(&self.name, self.seed);
    }

    /// The floating-point mode of the next call, if it has one.
    fn setting(&mut self) -> Option<Setting> {
        let setting = self.settings.get(self.turn % self.settings.len().max(1)).copied();
        self.turn += 1;
        setting
    }

    /// Enough differences were seen.
    pub fn full(&self) -> bool {
        self.differences >= self.most
    }

    /// Prints and saves a finding.
    fn report(&mut self, call: &Call, setting: Option<&Setting>, lines: &[String]) {
        self.differences += 1;
        let folder = match &self.save {
            Some(folder) => folder.clone(),
            None => return,
        };
        let mut text = format!("# difference {} in case {} (seed {})\n", self.differences, self.name, self.seed);
        text.push_str(&format!("# kind: {}\n", self.kind));
        for line in lines {
            text.push_str(&format!("# {line}\n"));
        }
        text.push_str(&case_text(call, setting));
        println!("{text}");
        let path = folder.join(format!("CASE-{}-{}.txt", self.seed, self.name));
        let written = std::fs::create_dir_all(&folder).and_then(|()| std::fs::write(&path, &text));
        match written {
            Ok(()) => println!("saved to {}\n", path.display()),
            Err(error) => println!("not saved to {}: {error}\n", path.display()),
        }
    }
}

impl Sink for Session {
    fn call(&mut self, call: Call) -> Result<Outcome, Stop> {
        let setting = self.setting();
        let setting = setting.as_ref();
        match judge(&call, setting) {
            Ok(outcome) => {
                self.tally.call(&call, &outcome);
                Ok(outcome)
            }
            Err(first) => {
                if self.save.is_none() {
                    self.report(&call, setting, &first.lines);
                    return Err(Stop);
                }
                // A wrong answer stays one.
                let as_bad = |other: Difference| other.answer || !first.answer;
                let small = shrink(call, &|call| judge(call, setting).err().map_or(false, as_bad));
                let last = judge(&small, setting).err().unwrap_or(first);
                self.report(&small, setting, &last.lines);
                Err(Stop)
            }
        }
    }

    fn against(&mut self, call: Call, why: String) -> Stop {
        self.report(&call, None, &[why]);
        Stop
    }

    fn kind(&mut self, kind: &str) {
        self.kind = kind.to_string();
        self.tally.case(kind);
    }
}
