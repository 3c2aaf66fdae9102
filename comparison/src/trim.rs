//! Calls of the writer with their buffers cut down to little more than they
//! need, so that the corpus stays small.

use crate::call::{Arg, Call};
use crate::expected::expected;
use crate::signature::Service;

/// The length of buffer that shows what the call does.
fn enough(call: &Call) -> usize {
    let length = call.bytes(1).len();
    let outcome = expected(call);
    if outcome.good() {
        let position = outcome.list::<u64>(0)[0] as usize;
        return (position + 5).min(length);
    }
    if outcome.number() == 2 {
        return length.min(200);
    }
    length.min(30)
}

/// The call with a short buffer; others as they are.
pub fn trimmed(call: &Call) -> Call {
    let mut small = call.clone();
    if matches!(call.service, Service::Open | Service::Page | Service::Close) {
        let length = enough(call);
        if let Arg::Slice(buffer) = &mut small.args[1] {
            buffer.truncate(length);
        }
    }
    small
}
