//! Which refusal numbers each service can give by document 01 and boundary.h.
//!
//! How they were found. "Order" of document 01 names them service by service:
//! - Frame: presence 4, kind 5, edition 5, a 1,025th page 3, length 4, counts
//!   6, box form 7. Page contents: 11, the two columns (8, 9, 10; their 3 and
//!   2 cannot come, as 6 has bounded v and nothing is lent), 12 to 16. The
//!   full check is frame and contents: 3 to 16, each of them.
//! - Count-only search: 1 and those of the check; "never 2".
//! - Search: 1, those of the check, then 2.
//! - Fetch: those of the check, 17, and 2.
//! - Column write: 3, 2. Column read: 3, 2, 8, 9, 10.
//! - Column step: "its last answer (end, or 3, 8, 9 or 10)"; boundary.h adds
//!   2 for a position of fewer than four words.
//! - Open: 2. Page: 18, 3, 6, 11, 12, 13, 14, 15, 2. Close: 18, 3, 2.
//!
//! 8, 9 and 10 stand at a site of a column (sites.rs): of x or y where a page
//! is read, of neither where a column is read alone. A place past the bytes
//! can only be handed in, so only the step has it.

use crate::signature::Service;
use crate::sites::Site;

/// The greatest refusal number.
pub const MOST: usize = 18;

const CHECK: [usize; 14] = [3, 4, 5, 6, 7, 8, 9, 10, 11, 12, 13, 14, 15, 16];
const COUNT: [usize; 15] = [1, 3, 4, 5, 6, 7, 8, 9, 10, 11, 12, 13, 14, 15, 16];
const SEARCH: [usize; 16] = [1, 2, 3, 4, 5, 6, 7, 8, 9, 10, 11, 12, 13, 14, 15, 16];
const FETCH: [usize; 16] = [2, 3, 4, 5, 6, 7, 8, 9, 10, 11, 12, 13, 14, 15, 16, 17];

/// The numbers that a service can give.
pub fn numbers(service: Service) -> &'static [usize] {
    match service {
        Service::Check => &CHECK,
        Service::Count => &COUNT,
        Service::Search => &SEARCH,
        Service::Fetch => &FETCH,
        Service::ColumnWrite => &[2, 3],
        Service::ColumnRead | Service::ColumnStep => &[2, 3, 8, 9, 10],
        Service::Open => &[2],
        Service::Page => &[2, 3, 6, 11, 12, 13, 14, 15, 18],
        Service::Close => &[2, 3, 18],
    }
}

/// Whether a service can give a number (0, a good answer, always).
pub fn can_give(service: Service, number: usize) -> bool {
    number == 0 || numbers(service).contains(&number)
}

/// The columns that a service can tell with 8, 9 and 10, as a word has them.
pub fn columns(service: Service) -> &'static [usize] {
    match service {
        Service::Check | Service::Count | Service::Search | Service::Fetch => &[1, 2],
        Service::ColumnRead | Service::ColumnStep => &[0],
        _ => &[],
    }
}

/// Whether a service can refuse at a site.
pub fn can_stop(service: Service, site: Site) -> bool {
    let past = matches!(site, Site::PastInside | Site::PastEnd);
    !columns(service).is_empty() && (!past || service == Service::ColumnStep)
}
