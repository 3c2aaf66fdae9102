//! Writer runs: open, pages sound and refused, close, in any mix; after a
//! closed run the file is checked and every shape fetched and held against
//! what was handed in.

use crate::call::{bytes_in, Outcome};
use crate::calls::{check, close, fetch, open, page, FetchRooms, Lists};
use crate::gen::made_up;
use crate::gen::run_pages::{refused, sound, NUMBERS};
use crate::gen::shapes::{lists, Shape};
use crate::rng::Rng;
use crate::sink::{Sink, Stop};

/// A run under way: the state and the buffer as they are handed back, and the
/// shapes accepted since the last open.
struct Run {
    state: Vec<u64>,
    buffer: Vec<u8>,
    shapes: Vec<Shape>,
    opened: bool,
}

impl Run {
    /// Takes over what a call leaves.
    fn take(&mut self, outcome: &Outcome) {
        self.state = outcome.list::<u64>(0);
        self.buffer = bytes_in(&outcome.args, 1).to_vec();
    }

    /// An open call. A refused one leaves what was there.
    fn open(&mut self, sink: &mut dyn Sink) -> Result<(), Stop> {
        let outcome = sink.call(open(&self.state, &self.buffer))?;
        self.take(&outcome);
        if outcome.good() {
            self.shapes.clear();
            self.opened = true;
        }
        Ok(())
    }

    /// A page of shapes.
    fn page(&mut self, sink: &mut dyn Sink, shapes: Vec<Shape>) -> Result<(), Stop> {
        let outcome = sink.call(page(&self.state, &self.buffer, &lists(&shapes)))?;
        self.take(&outcome);
        if outcome.good() {
            self.shapes.extend(shapes);
        }
        Ok(())
    }

    /// A page of lists that should be refused; if it is not, its shapes are
    /// unknown here and the end of the run is not held against them.
    fn wrong(&mut self, sink: &mut dyn Sink, lists: &Lists) -> Result<(), Stop> {
        let outcome = sink.call(page(&self.state, &self.buffer, lists))?;
        self.take(&outcome);
        if outcome.good() {
            self.opened = false;
        }
        Ok(())
    }

    /// A close call, and after a good one the file held against the shapes.
    fn close(&mut self, sink: &mut dyn Sink) -> Result<(), Stop> {
        let outcome = sink.call(close(&self.state, &self.buffer))?;
        self.take(&outcome);
        if outcome.good() && self.opened {
            let end = (self.state[0] as usize).min(self.buffer.len());
            back(sink, &self.buffer[..end], &self.shapes)?;
        }
        Ok(())
    }
}

/// The written file passes the check, and fetch gives every shape as it was
/// handed in.
fn back(sink: &mut dyn Sink, file: &[u8], shapes: &[Shape]) -> Result<(), Stop> {
    let outcome = sink.call(check(file))?;
    if outcome.word != shapes.len() as u64 {
        return Err(sink.against(check(file), format!("the written file of {} shapes", shapes.len())));
    }
    for (place, shape) in shapes.iter().enumerate() {
        let one = lists(std::slice::from_ref(shape));
        let rooms = FetchRooms { about: 4, lens: one.lens.len(), xs: one.xs.len(), ys: one.ys.len() };
        let call = fetch(file, place as u64, rooms);
        let outcome = sink.call(call.clone())?;
        let about = [u64::from(shape.register), u64::from(shape.kind), one.lens.len() as u64, one.xs.len() as u64];
        let same = outcome.word == one.xs.len() as u64
            && outcome.list::<u64>(2) == about
            && outcome.list::<u16>(3) == one.lens
            && outcome.list::<u64>(4) == one.xs
            && outcome.list::<u64>(5) == one.ys;
        if !same {
            return Err(sink.against(call, String::from("not the shape that was handed in")));
        }
    }
    Ok(())
}

/// The length of a buffer: small, or enough for some pages.
fn buffer_length(rng: &mut Rng) -> usize {
    match rng.below(8) {
        0 => rng.below(9),
        1 => rng.below(120),
        2 => 8 + 14 + rng.below(300),
        _ => 1500 + rng.below(3000),
    }
}

/// A call with a made-up state, beside the run: it changes nothing of it.
fn beside(sink: &mut dyn Sink, rng: &mut Rng, buffer: &[u8]) -> Result<(), Stop> {
    let state = made_up::state(rng, buffer.len());
    let words = made_up::words(rng, &state);
    match rng.below(6) {
        0 => sink.call(open(&words, buffer))?,
        1 | 2 => sink.call(close(&words, buffer))?,
        3 => {
            let number = rng.pick(&NUMBERS);
            sink.call(page(&words, buffer, &refused(rng, number)))?
        }
        _ => sink.call(page(&words, buffer, &lists(&sound(rng, true))))?,
    };
    Ok(())
}

/// A run of 1,024 pages and one more.
fn long(sink: &mut dyn Sink, rng: &mut Rng) -> Result<(), Stop> {
    sink.kind("run: 1,024 pages and one more");
    let more = rng.below(2) * 100;
    let mut run = fresh(rng, 1024 * 59 + 22 + more);
    run.open(sink)?;
    let empty = |register| vec![Shape { register, kind: 0, parts: Vec::new() }];
    for register in 0..1025 {
        run.page(sink, empty(register))?;
    }
    run.close(sink)
}

/// A run before its open call.
fn fresh(rng: &mut Rng, length: usize) -> Run {
    Run {
        state: made_up::state(rng, length),
        buffer: (0..length).map(|k| 0xB1 + (k % 13) as u8).collect(),
        shapes: Vec::new(),
        opened: false,
    }
}

/// A run whose buffer is exactly enough for its pages, or one byte short.
fn exact(sink: &mut dyn Sink, rng: &mut Rng) -> Result<(), Stop> {
    sink.kind("run: buffer exactly enough or one short");
    let pages: Vec<Vec<Shape>> = (0..rng.below(4)).map(|_| sound(rng, true)).collect();
    let mut buffer = vec![0; 200_000];
    let mut length = 22;
    for shapes in &pages {
        let outcome = crate::expected::expected(&page(&[0, 0, 0, 0], &buffer, &lists(shapes)));
        length += outcome.list::<u64>(0)[0] as usize;
    }
    buffer.clear();
    length -= rng.below(2);
    written(sink, rng, pages, length)
}

/// A run that writes pages one after the other to a buffer of a length, and
/// closes.
pub fn written(sink: &mut dyn Sink, rng: &mut Rng, pages: Vec<Vec<Shape>>, length: usize) -> Result<(), Stop> {
    let mut run = fresh(rng, length);
    run.open(sink)?;
    for shapes in pages {
        run.page(sink, shapes)?;
    }
    run.close(sink)
}

/// The case of one index.
pub fn case(sink: &mut dyn Sink, rng: &mut Rng, index: u64) -> Result<(), Stop> {
    if index % 400 == 33 {
        return long(sink, rng);
    }
    if index % 5 == 4 {
        return exact(sink, rng);
    }
    let length = buffer_length(rng);
    sink.kind(if length < 500 { "run: any mix, small buffer" } else { "run: any mix" });
    let length = if index % 50 == 7 { 60_000 } else { length };
    let mut run = fresh(rng, length);
    run.open(sink)?;
    for turn in 0..3 + rng.below(10) {
        match rng.below(12) {
            0 => run.close(sink)?,
            1 if turn > 3 => run.open(sink)?,
            2 | 3 => beside(sink, rng, &run.buffer)?,
            4..=6 => {
                let number = NUMBERS[(index as usize + turn) % NUMBERS.len()];
                run.wrong(sink, &refused(rng, number))?;
            }
            _ => run.page(sink, sound(rng, length < 10_000))?,
        }
    }
    run.close(sink)?;
    run.close(sink)?;
    beside(sink, rng, &run.buffer)
}
