//! The ten services of boundary.h as second/ answers them, over Rust slices.
//! second/ decides; only the words and the rooms of the C face are made here.

use second::query;
use second::refusal::{refused, Column, Refusal};
use second::step::{Answer, Position};
use second::writer::{self, PageInput, State};

/// The word of a refusal: the number, the page, the column and the index.
pub fn refusal_word(refusal: Refusal) -> u64 {
    let column: u64 = match refusal.column {
        Column::None => 0,
        Column::X => 1,
        Column::Y => 2,
    };
    let number = u64::from(refusal.number);
    (u64::from(refusal.index) << 42) | (column << 40) | (number << 32) | u64::from(refusal.page)
}

/// The word of an answer: what the call says, or the refusal.
fn word(answer: Result<u32, Refusal>) -> u64 {
    match answer {
        Ok(says) => u64::from(says),
        Err(refusal) => refusal_word(refusal),
    }
}

pub fn check(file: &[u8]) -> u64 {
    word(second::check::full_check(file).map(|sound| sound.shapes))
}

pub fn count(block: &[u8], file: &[u8]) -> u64 {
    let answer = query::parse(block).and_then(|query| second::search::count(file, &query));
    word(answer.map(|hits| hits as u32))
}

pub fn search(block: &[u8], file: &[u8], places: &mut [u32]) -> u64 {
    let answer = query::parse(block).and_then(|query| second::search::search(file, &query, places));
    word(answer.map(|hits| hits as u32))
}

/// `about` is one more room: 2 if it has fewer than four words, judged with
/// the other rooms, after everything else.
pub fn fetch(
    file: &[u8],
    place: u64,
    about: &mut [u64],
    lens: &mut [u16],
    xs: &mut [u64],
    ys: &mut [u64],
) -> u64 {
    if about.len() < 4 {
        let (mut lens, mut xs, mut ys) = (lens.to_vec(), xs.to_vec(), ys.to_vec());
        let answer = second::fetch::fetch(file, place, &mut lens, &mut xs, &mut ys);
        return word(answer.and_then(|_| Err(refused(2))));
    }
    let answer = second::fetch::fetch(file, place, lens, xs, ys);
    if let Ok(fetched) = &answer {
        let words = [
            u64::from(fetched.register),
            u64::from(fetched.kind),
            fetched.parts as u64,
            fetched.vertices as u64,
        ];
        about[..4].copy_from_slice(&words);
    }
    word(answer.map(|fetched| fetched.vertices as u32))
}

pub fn column_write(values: &[u64], room: &mut [u8]) -> u64 {
    word(second::column::write(values, room).map(|bytes| bytes as u32))
}

pub fn column_read(column: &[u8], n: usize, room: &mut [u64]) -> u64 {
    word(second::column::read(column, n, room).map(|()| n as u32))
}

pub fn column_step(column: &[u8], n: usize, position: &mut [u64]) -> u64 {
    if position.len() < 4 {
        return word(Err(refused(2)));
    }
    let given = Position { place: position[0], given: position[1], width: position[2], last: position[3] };
    match second::step::step(column, n, given) {
        Answer::Value { position: next, .. } => {
            position[..4].copy_from_slice(&[next.place, next.given, next.width, next.last]);
            word(Ok(1))
        }
        Answer::End { .. } => word(Ok(0)),
        Answer::Refused { refusal, .. } => word(Err(refusal)),
    }
}

/// State words as second/ takes them. Pages and shapes above what 32 bits
/// hold are over the limit, and stay so as the greatest 32-bit number.
fn state_of(words: &[u64]) -> State {
    State {
        position: words[0] as usize,
        pages: u32::try_from(words[1]).unwrap_or(u32::MAX),
        shapes: u32::try_from(words[2]).unwrap_or(u32::MAX),
        closed: words[3] != 0,
    }
}

/// Leaves the next state in the words; 1 stands for closed.
fn leave(words: &mut [u64], state: State) -> u32 {
    let next = [
        state.position as u64,
        u64::from(state.pages),
        u64::from(state.shapes),
        u64::from(state.closed),
    ];
    words[..4].copy_from_slice(&next);
    0
}

pub fn open(state: &mut [u64], buffer: &mut [u8]) -> u64 {
    if state.len() < 4 {
        return word(Err(refused(2)));
    }
    word(writer::open(buffer).map(|next| leave(state, next)))
}

pub fn page(state: &mut [u64], buffer: &mut [u8], input: &PageInput) -> u64 {
    if state.len() < 4 {
        return word(Err(refused(2)));
    }
    let answer = writer::page(state_of(state), buffer, input);
    word(answer.map(|next| leave(state, next)).map_err(|step| step.refusal))
}

pub fn close(state: &mut [u64], buffer: &mut [u8]) -> u64 {
    if state.len() < 4 {
        return word(Err(refused(2)));
    }
    let answer = writer::close(state_of(state), buffer);
    word(answer.map(|next| leave(state, next)).map_err(|step| step.refusal))
}
