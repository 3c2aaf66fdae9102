//! Where the generators send their calls: to the comparison, or to the
//! corpus.

use crate::call::{Call, Outcome};

/// The case is over: a difference was found in it (or enough was seen).
#[derive(Clone, Copy, Debug)]
pub struct Stop;

/// A taker of calls.
pub trait Sink {
    /// One call: what second/ says that it leaves.
    fn call(&mut self, call: Call) -> Result<Outcome, Stop>;

    /// A call whose answer, though the same from both, is not what the case
    /// itself knows it must be.
    fn against(&mut self, call: Call, why: String) -> Stop;

    /// The kind of the case that begins.
    fn kind(&mut self, kind: &str);
}
