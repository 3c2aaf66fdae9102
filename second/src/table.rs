//! The table of types: "one small table that writer and checker share".

use crate::column::MOST_VALUES;

/// One row: least and most parts, least and most vertices in each part,
/// closed or not.
#[derive(Clone, Copy, Debug, PartialEq, Eq)]
pub struct Row {
    pub least_parts: usize,
    pub most_parts: usize,
    pub least_vertices: usize,
    pub most_vertices: usize,
    pub closed: bool,
}

/// "or more" in the document: nothing in a page is over 2,048 anyway.
const OR_MORE: usize = MOST_VALUES;

/// The type number of a Polygon.
pub const POLYGON: u8 = 3;

/// The type number of a MultiPolygon.
pub const MULTI_POLYGON: u8 = 6;

const fn row(
    least_parts: usize,
    most_parts: usize,
    least_vertices: usize,
    most_vertices: usize,
    closed: bool,
) -> Row {
    Row {
        least_parts,
        most_parts,
        least_vertices,
        most_vertices,
        closed,
    }
}

/// The rows by type, 0 to 6.
pub const TABLE: [Row; 7] = [
    row(0, 0, 0, 0, false),             // 0 empty
    row(1, 1, 1, 1, false),             // 1 Point
    row(1, 1, 2, OR_MORE, false),       // 2 LineString
    row(1, OR_MORE, 4, OR_MORE, true),  // 3 Polygon
    row(1, OR_MORE, 1, 1, false),       // 4 MultiPoint
    row(1, OR_MORE, 2, OR_MORE, false), // 5 MultiLineString
    row(1, OR_MORE, 4, OR_MORE, true),  // 6 MultiPolygon
];

/// The row of a type, if the type is not over 6.
pub fn row_of(kind: u8) -> Option<Row> {
    TABLE.get(usize::from(kind)).copied()
}
