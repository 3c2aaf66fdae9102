//! Refusal numbers, and where in the page.

/// The column of a page that was refused: "the column, x or y; other refusals
/// give index 0 and no column".
#[derive(Clone, Copy, Debug, PartialEq, Eq)]
pub enum Column {
    None,
    X,
    Y,
}

/// "Each returns its number and a page number", with the column and the index
/// of the value at which it was refused.
#[derive(Clone, Copy, Debug, PartialEq, Eq)]
pub struct Refusal {
    pub number: u8,
    pub page: u32,
    pub column: Column,
    pub index: u32,
}

/// What the bits of a column are refused for: 8, 9 or 10, and "the index of
/// the value it was working on when it refused: 0 for 8, N for bytes left over
/// or fill bits, otherwise the value that lacked bits".
#[derive(Clone, Copy, Debug, PartialEq, Eq)]
pub struct ColumnFault {
    pub number: u8,
    pub index: u32,
}

/// A column's fault. (An index is at most N, so at most 2,048 in every
/// service.)
pub fn fault(number: u8, index: usize) -> ColumnFault {
    ColumnFault {
        number,
        index: index as u32,
    }
}

/// A refusal whose page number is 0: "in every other case 0".
pub fn refused(number: u8) -> Refusal {
    refused_at(number, 0)
}

/// A refusal with the number of page blocks passed, or of the page itself.
/// "Other refusals give index 0 and no column."
pub fn refused_at(number: u8, page: u32) -> Refusal {
    Refusal {
        number,
        page,
        column: Column::None,
        index: 0,
    }
}

/// A column read alone, not as part of a page: the index, page 0 and no
/// column.
pub fn refused_alone(fault: ColumnFault) -> Refusal {
    refused_in(fault, 0, Column::None)
}

/// A column of a page: "pass it on with the column, x or y".
pub fn refused_in(fault: ColumnFault, page: u32, column: Column) -> Refusal {
    Refusal {
        number: fault.number,
        page,
        column,
        index: fault.index,
    }
}
