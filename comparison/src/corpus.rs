//! The corpus: some hundred small cases from the same generators, with what
//! second/ says of each, in one file of input records and one of text lines.
//!
//! A record: u32 length of what follows, u8 service, then the arguments in
//! the order of boundary.h: a slice as u32 number of elements and then the
//! elements, a plain number as u64; all little-endian. A line: service,
//! refusal number, low 32 bits of the word, column, index (all bits of the
//! word above the column), then each writable slice after the call as bytes in
//! hexadecimal, `-` for an empty one.

use crate::call::{Arg, Call, Outcome};
use crate::expected::expected;
use crate::possible::{can_stop, columns, numbers};
use crate::rng::Rng;
use crate::signature::{Service, SERVICES};
use crate::sink::{Sink, Stop};
use crate::sites::{of_call, Site, COLUMNS, SITES};
use crate::trim::trimmed;
use crate::turns::SORTS;
use crate::worked;
use std::collections::{HashMap, HashSet};
use std::path::Path;

/// The greatest record, and the greatest of the generated ones.
const MOST_RECORD: usize = 60_000;
const SMALL_RECORD: usize = 1_400;

/// So many cases of each service for each number, and for a good answer; for
/// 8, 9 and 10 so many at each site of a column alone, and of a page's.
const EACH: usize = 6;
const EACH_GOOD: usize = 18;
const EACH_ALONE: usize = 4;
const EACH_IN_PAGE: usize = 2;

/// Most elements of a slice, by its name in boundary.h.
fn most_elements(name: &str) -> usize {
    match name {
        "places" | "lens" => 300,
        "about" | "writer" | "position" => 8,
        "xs" | "ys" | "values" => 2_060,
        _ => 20_000,
    }
}

/// What a case is kept for: its service and number, and of 8, 9 and 10 the
/// column and the site.
#[derive(Clone, Copy, Debug, PartialEq, Eq, Hash)]
pub struct Cell {
    pub service: Service,
    pub number: usize,
    pub stop: Option<(usize, Site)>,
}

impl Cell {
    /// The cell of a call.
    fn of(call: &Call, outcome: &Outcome) -> Cell {
        let stop = of_call(call, outcome).map(|found| (found.column, found.site));
        Cell { service: call.service, number: outcome.number(), stop }
    }

    /// How many cases it has at most.
    fn most(&self) -> usize {
        match (self.number, self.stop) {
            (0, _) => EACH_GOOD,
            (_, Some((0, _))) => EACH_ALONE,
            (_, Some(_)) => EACH_IN_PAGE,
            (_, None) => EACH,
        }
    }

    /// How many it should have.
    fn wanted(&self) -> usize {
        match (self.service, self.number) {
            (Service::ColumnWrite, 3) => 1, // 2,049 values are no small case
            (service, number) if too_large(service, number) => 0,
            _ => self.most(),
        }
    }

    /// Its name.
    fn name(&self) -> String {
        let Cell { service, number, stop } = self;
        let at = stop.map(|(column, site)| format!(", column {}, {}", COLUMNS[column], site.name()));
        format!("{} {number}{}", service.name(), at.unwrap_or_default())
    }
}

/// The cells of a service's sites that have a number: none but for 8 to 10.
fn stops(service: Service, number: usize) -> Vec<Cell> {
    let sites = SITES.iter().filter(|site| site.refusal() == number && can_stop(service, **site));
    let each = |site: Site| columns(service).iter().map(move |column| Some((*column, site)));
    sites.flat_map(|site| each(*site)).map(|stop| Cell { service, number, stop }).collect()
}

/// All cells that can be had.
fn cells() -> Vec<Cell> {
    let mut list = Vec::new();
    for service in SERVICES {
        for number in std::iter::once(0).chain(numbers(service).iter().copied()) {
            let stops = stops(service, number);
            let alone = Cell { service, number, stop: None };
            list.extend(if stops.is_empty() { vec![alone] } else { stops });
        }
    }
    list
}

/// The cases gathered.
#[derive(Default)]
pub struct Corpus {
    pub cases: Vec<(Call, Outcome)>,
    reached: HashMap<Cell, usize>,
    records: HashSet<Vec<u8>>,
    this_case: HashSet<Cell>,
}

/// The record of a call, without its length.
pub fn record(call: &Call) -> Vec<u8> {
    let mut bytes = vec![call.service.number() as u8];
    for (arg, param) in call.args.iter().zip(call.service.params()) {
        match arg {
            Arg::Number(number) => bytes.extend_from_slice(&number.to_le_bytes()),
            Arg::Slice(slice) => {
                bytes.extend_from_slice(&((slice.len() / param.size) as u32).to_le_bytes());
                bytes.extend_from_slice(slice);
            }
        }
    }
    bytes
}

/// The line of a call's outcome.
pub fn line(call: &Call, outcome: &Outcome) -> String {
    let mut text = format!("{} {} {}", call.service.number(), outcome.number(), outcome.low());
    text.push_str(&format!(" {} {}", outcome.column(), outcome.index()));
    for (arg, param) in outcome.args.iter().zip(call.service.params()) {
        if let (Arg::Slice(bytes), true) = (arg, param.writable) {
            text.push(' ');
            for byte in bytes {
                text.push_str(&format!("{byte:02x}"));
            }
            if bytes.is_empty() {
                text.push('-');
            }
        }
    }
    text.push('\n');
    text
}

/// All slices are within the sizes of the corpus.
fn within_sizes(call: &Call) -> bool {
    let params = call.service.params();
    params.iter().enumerate().all(|(k, param)| call.bytes(k).len() <= most_elements(param.name) * param.size.max(1))
}

impl Corpus {
    /// Takes a case in, if it is new and not too large.
    fn take(&mut self, call: Call, outcome: Outcome, most: usize) -> bool {
        let record = record(&call);
        if record.len() > most || !within_sizes(&call) || !self.records.insert(record) {
            return false;
        }
        *self.reached.entry(Cell::of(&call, &outcome)).or_insert(0) += 1;
        self.cases.push((call, outcome));
        true
    }

    /// How many cases a cell has.
    fn reached(&self, cell: &Cell) -> usize {
        self.reached.get(cell).copied().unwrap_or(0)
    }

    /// The cells that can be had and no case reaches.
    pub fn missing(&self) -> Vec<Cell> {
        cells().into_iter().filter(|cell| self.reached(cell) == 0).collect()
    }

    /// Every cell that can be had has as many cases as it should.
    fn full(&self) -> bool {
        cells().iter().all(|cell| self.reached(cell) >= cell.wanted())
    }
}

/// A number that only a record over 60,000 bytes can reach: 3 of the services
/// over files needs 1,024 pages of 59 bytes and one more.
pub fn too_large(service: Service, number: usize) -> bool {
    number == 3 && matches!(service, Service::Check | Service::Count | Service::Search | Service::Fetch)
}

impl Sink for Corpus {
    fn call(&mut self, call: Call) -> Result<Outcome, Stop> {
        let outcome = expected(&call);
        let small = trimmed(&call);
        let kept = expected(&small);
        let cell = Cell::of(&small, &kept);
        if self.reached(&cell) < cell.most() && !self.this_case.contains(&cell) {
            let taken = self.take(small, kept, SMALL_RECORD);
            if taken {
                self.this_case.insert(cell);
            }
        }
        Ok(outcome)
    }

    fn against(&mut self, _call: Call, _why: String) -> Stop {
        Stop
    }

    fn kind(&mut self, _kind: &str) {
        self.this_case.clear();
    }
}

/// Gathers the corpus of a seed: the worked cases, then generated ones.
pub fn gather(seed: u64) -> Corpus {
    let mut corpus = Corpus::default();
    for call in worked::calls() {
        let outcome = expected(&call);
        corpus.take(call, outcome, MOST_RECORD);
    }
    for index in 0..4000 {
        for (sort, (_, generator)) in SORTS.iter().enumerate() {
            if corpus.full() {
                return corpus;
            }
            if sort == 1 && index % 200 == 7 {
                continue; // the files of 1,024 pages are too large
            }
            let mut rng = Rng::of_case(seed, sort as u64 + 7, index);
            // A corpus never stops a case.
            let _ = generator(&mut corpus, &mut rng, index);
        }
    }
    corpus
}

/// Writes the corpus; true if it reaches every cell it can.
pub fn write(seed: u64, input: &Path, output: &Path) -> Result<bool, String> {
    let corpus = gather(seed);
    let mut records = Vec::new();
    let mut lines = String::new();
    for (call, outcome) in &corpus.cases {
        let record = record(call);
        records.extend_from_slice(&(record.len() as u32).to_le_bytes());
        records.extend_from_slice(&record);
        lines.push_str(&line(call, outcome));
    }
    std::fs::write(input, &records).map_err(|error| format!("{}: {error}", input.display()))?;
    std::fs::write(output, &lines).map_err(|error| format!("{}: {error}", output.display()))?;
    println!("seed {seed}: {} cases, {} bytes in, {} bytes out", corpus.cases.len(), records.len(), lines.len());
    let mut good = true;
    for cell in corpus.missing() {
        let large = too_large(cell.service, cell.number);
        println!("{}: {}", cell.name(), if large { "left out, over 60,000 bytes" } else { "NOT REACHED" });
        good &= large;
    }
    Ok(good)
}
