//! An independent second implementation of the boundary file, written from
//! the document "Extent of the work and exact rules" alone, with Ticket 4 ("Say
//! where in the page") of the document "Tickets"; where both are silent, for
//! positions that were made up, the C header decides. Brute force and plain
//! lists throughout; nothing here tries to be fast.

pub mod bits;
pub mod boxes;
pub mod check;
pub mod column;
pub mod contents;
pub mod fetch;
pub mod frame;
pub mod numbers;
pub mod programs;
pub mod query;
pub mod refusal;
pub mod search;
pub mod shapes;
pub mod step;
pub mod table;
pub mod writer;
