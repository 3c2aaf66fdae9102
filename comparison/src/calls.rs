//! Short ways to make the calls of the ten services.

use crate::call::{room, slice, Arg, Call};
use crate::signature::Service;

/// The lists that make a page for the writer.
#[derive(Clone, Debug, Default, PartialEq, Eq)]
pub struct Lists {
    pub registers: Vec<u32>,
    pub types: Vec<u8>,
    pub counts: Vec<u16>,
    pub lens: Vec<u16>,
    pub xs: Vec<u64>,
    pub ys: Vec<u64>,
}

/// The rooms of a fetch, in elements.
#[derive(Clone, Copy, Debug)]
pub struct FetchRooms {
    pub about: usize,
    pub lens: usize,
    pub xs: usize,
    pub ys: usize,
}

pub fn check(file: &[u8]) -> Call {
    Call::new(Service::Check, vec![slice(file)])
}

pub fn count(query: &[u8], file: &[u8]) -> Call {
    Call::new(Service::Count, vec![slice(query), slice(file)])
}

pub fn search(query: &[u8], file: &[u8], places: usize) -> Call {
    Call::new(Service::Search, vec![slice(query), slice(file), room::<u32>(places)])
}

pub fn fetch(file: &[u8], place: u64, rooms: FetchRooms) -> Call {
    let args = vec![
        slice(file),
        Arg::Number(place),
        room::<u64>(rooms.about),
        room::<u16>(rooms.lens),
        room::<u64>(rooms.xs),
        room::<u64>(rooms.ys),
    ];
    Call::new(Service::Fetch, args)
}

pub fn column_write(values: &[u64], bytes: usize) -> Call {
    Call::new(Service::ColumnWrite, vec![slice(values), room::<u8>(bytes)])
}

pub fn column_read(column: &[u8], n: u64, values: usize) -> Call {
    Call::new(Service::ColumnRead, vec![slice(column), Arg::Number(n), room::<u64>(values)])
}

pub fn column_step(column: &[u8], n: u64, position: &[u64]) -> Call {
    Call::new(Service::ColumnStep, vec![slice(column), Arg::Number(n), slice(position)])
}

pub fn open(state: &[u64], buffer: &[u8]) -> Call {
    Call::new(Service::Open, vec![slice(state), slice(buffer)])
}

pub fn close(state: &[u64], buffer: &[u8]) -> Call {
    Call::new(Service::Close, vec![slice(state), slice(buffer)])
}

pub fn page(state: &[u64], buffer: &[u8], lists: &Lists) -> Call {
    let args = vec![
        slice(state),
        slice(buffer),
        slice(&lists.registers),
        slice(&lists.types),
        slice(&lists.counts),
        slice(&lists.lens),
        slice(&lists.xs),
        slice(&lists.ys),
    ];
    Call::new(Service::Page, args)
}
