//! What second/ says that a call must leave: the word and all arguments.

use crate::call::{slice, Arg, Call, Outcome};
use crate::face;
use crate::signature::Service;
use second::writer::PageInput;

/// The outcome with some of the arguments replaced.
fn outcome(call: &Call, word: u64, changed: Vec<(usize, Arg)>) -> Outcome {
    let mut args = call.args.clone();
    for (k, arg) in changed {
        args[k] = arg;
    }
    Outcome { word, args }
}

/// The outcome of a call.
pub fn expected(call: &Call) -> Outcome {
    match call.service {
        Service::Check => outcome(call, face::check(call.bytes(0)), vec![]),
        Service::Count => outcome(call, face::count(call.bytes(0), call.bytes(1)), vec![]),
        Service::Search => {
            let mut places = call.list::<u32>(2);
            let word = face::search(call.bytes(0), call.bytes(1), &mut places);
            outcome(call, word, vec![(2, slice(&places))])
        }
        Service::Fetch => fetch(call),
        Service::ColumnWrite => {
            let mut room = call.bytes(1).to_vec();
            let word = face::column_write(&call.list::<u64>(0), &mut room);
            outcome(call, word, vec![(1, Arg::Slice(room))])
        }
        Service::ColumnRead => {
            let mut room = call.list::<u64>(2);
            let word = face::column_read(call.bytes(0), call.number(1) as usize, &mut room);
            outcome(call, word, vec![(2, slice(&room))])
        }
        Service::ColumnStep => {
            let mut position = call.list::<u64>(2);
            let word = face::column_step(call.bytes(0), call.number(1) as usize, &mut position);
            outcome(call, word, vec![(2, slice(&position))])
        }
        Service::Open | Service::Page | Service::Close => writer(call),
    }
}

/// The outcome of a fetch.
fn fetch(call: &Call) -> Outcome {
    let mut about = call.list::<u64>(2);
    let mut lens = call.list::<u16>(3);
    let mut xs = call.list::<u64>(4);
    let mut ys = call.list::<u64>(5);
    let word = face::fetch(call.bytes(0), call.number(1), &mut about, &mut lens, &mut xs, &mut ys);
    let changed = vec![(2, slice(&about)), (3, slice(&lens)), (4, slice(&xs)), (5, slice(&ys))];
    outcome(call, word, changed)
}

/// The outcome of the writer's calls.
fn writer(call: &Call) -> Outcome {
    let mut state = call.list::<u64>(0);
    let mut buffer = call.bytes(1).to_vec();
    let word = match call.service {
        Service::Open => face::open(&mut state, &mut buffer),
        Service::Close => face::close(&mut state, &mut buffer),
        _ => {
            let input = PageInput {
                registers: &call.list::<u32>(2),
                types: call.bytes(3),
                part_counts: &call.list::<u16>(4),
                part_lengths: &call.list::<u16>(5),
                xs: &call.list::<u64>(6),
                ys: &call.list::<u64>(7),
            };
            face::page(&mut state, &mut buffer, &input)
        }
    };
    outcome(call, word, vec![(0, slice(&state)), (1, Arg::Slice(buffer))])
}
