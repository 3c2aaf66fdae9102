//! The ten services of boundary.h: their numbers, names and arguments.

/// A service, in the order of the corpus format.
#[derive(Clone, Copy, Debug, PartialEq, Eq, Hash)]
pub enum Service {
    Check,
    Count,
    Search,
    Fetch,
    ColumnWrite,
    ColumnRead,
    ColumnStep,
    Open,
    Page,
    Close,
}

/// All services by their numbers.
pub const SERVICES: [Service; 10] = [
    Service::Check,
    Service::Count,
    Service::Search,
    Service::Fetch,
    Service::ColumnWrite,
    Service::ColumnRead,
    Service::ColumnStep,
    Service::Open,
    Service::Page,
    Service::Close,
];

/// One argument: its name, the bytes of an element (0 for a plain number),
/// and whether the call may write to it.
pub struct Param {
    pub name: &'static str,
    pub size: usize,
    pub writable: bool,
}

/// A slice that a call only reads.
const fn lent(name: &'static str, size: usize) -> Param {
    Param { name, size, writable: false }
}

/// A slice that a call may write to.
const fn room(name: &'static str, size: usize) -> Param {
    Param { name, size, writable: true }
}

/// A plain number.
const fn number(name: &'static str) -> Param {
    Param { name, size: 0, writable: false }
}

const CHECK: [Param; 1] = [lent("file", 1)];
const COUNT: [Param; 2] = [lent("query", 1), lent("file", 1)];
const SEARCH: [Param; 3] = [lent("query", 1), lent("file", 1), room("places", 4)];
const FETCH: [Param; 6] =
    [lent("file", 1), number("place"), room("about", 8), room("lens", 2), room("xs", 8), room("ys", 8)];
const COLUMN_WRITE: [Param; 2] = [lent("values", 8), room("room", 1)];
const COLUMN_READ: [Param; 3] = [lent("column", 1), number("n"), room("room", 8)];
const COLUMN_STEP: [Param; 3] = [lent("column", 1), number("n"), room("position", 8)];
const STATE: [Param; 2] = [room("writer", 8), room("buffer", 1)];
const PAGE: [Param; 8] = [
    room("writer", 8),
    room("buffer", 1),
    lent("registers", 4),
    lent("types", 1),
    lent("counts", 2),
    lent("lens", 2),
    lent("xs", 8),
    lent("ys", 8),
];

impl Service {
    /// Its number in the corpus format.
    pub fn number(self) -> usize {
        self as usize
    }

    /// Its name in boundary.h.
    pub fn name(self) -> &'static str {
        match self {
            Service::Check => "boundary_check",
            Service::Count => "boundary_count",
            Service::Search => "boundary_search",
            Service::Fetch => "boundary_fetch",
            Service::ColumnWrite => "boundary_column_write",
            Service::ColumnRead => "boundary_column_read",
            Service::ColumnStep => "boundary_column_step",
            Service::Open => "boundary_open",
            Service::Page => "boundary_page",
            Service::Close => "boundary_close",
        }
    }

    /// Its arguments, in the order of boundary.h.
    pub fn params(self) -> &'static [Param] {
        match self {
            Service::Check => &CHECK,
            Service::Count => &COUNT,
            Service::Search => &SEARCH,
            Service::Fetch => &FETCH,
            Service::ColumnWrite => &COLUMN_WRITE,
            Service::ColumnRead => &COLUMN_READ,
            Service::ColumnStep => &COLUMN_STEP,
            Service::Open | Service::Close => &STATE,
            Service::Page => &PAGE,
        }
    }

    /// The service of a name.
    pub fn named(name: &str) -> Option<Service> {
        SERVICES.iter().copied().find(|service| service.name() == name)
    }
}
