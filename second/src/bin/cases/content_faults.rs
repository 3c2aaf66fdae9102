//! Refusals 8 to 16 of page contents, each rule by itself.

use crate::builders::*;
use crate::list::Cases;

const QUIET: u64 = 0x7FF8_0000_0000_0000;

/// A LineString with the patterns 0 and 1 in x and in y, its columns being
/// those of the document: 02 00x8 02.
fn zero_one() -> Page {
    let mut page = page(&[line(5, &[(0.0, 0.0), (1.0, 1.0)])]);
    page.bounds = [0, 0, 1, 1];
    page.with_x(&ZERO_ONE).with_y(&ZERO_ONE)
}

/// The column of 0, 1.
const ZERO_ONE: [u8; 10] = [2, 0, 0, 0, 0, 0, 0, 0, 0, 2];

/// Puts a faulty column in x, and in y, of the page of `zero_one`; the number
/// and the value's index expected.
fn in_x_and_y(cases: &mut Cases, name: &str, column: &[u8], number: u8, index: u32) {
    cases.both(
        &format!("{name}-x"),
        &zero_one().with_x(column),
        &format!("refused {number} page 0 column x value {index}"),
        &format!("refused {number} page 1 column x value {index}"),
    );
    cases.both(
        &format!("{name}-y"),
        &zero_one().with_y(column),
        &format!("refused {number} page 0 column y value {index}"),
        &format!("refused {number} page 1 column y value {index}"),
    );
}

/// Width over 64 (8): value 0.
pub fn width(cases: &mut Cases) {
    for (name, width) in [
        ("08-width-65", 65u8),
        ("08-width-66", 66),
        ("08-width-72", 72),
        ("08-width-127", 127),
        ("08-width-128", 128),
        ("08-width-255", 255),
    ] {
        let mut column = vec![width];
        column.extend_from_slice(&[0; 20]);
        in_x_and_y(cases, name, &column, 8, 0);
    }
    in_x_and_y(
        cases,
        "08-width-65-and-nine-zero-bytes",
        &[0x41, 0, 0, 0, 0, 0, 0, 0, 0, 0],
        8,
        0,
    );
}

/// Too few bits, or a whole byte too many (9): the value that lacks bits, or 2
/// for bytes left over.
pub fn bits(cases: &mut Cases) {
    for (name, column, index) in [
        ("09-no-bytes", vec![], 0),
        ("09-width-alone", vec![2], 0),
        ("09-width-0-alone", vec![0], 0),
        ("09-width-64-alone", vec![64], 0),
        ("09-first-value-cut", vec![2, 0, 0, 0, 0, 0, 0, 0], 0),
        ("09-first-value-only", vec![2, 0, 0, 0, 0, 0, 0, 0, 0], 1),
        ("09-width-0-first-value-only", vec![0, 0, 0, 0, 0, 0, 0, 0, 0], 1),
        (
            "09-width-0-second-value-cut",
            vec![0, 0, 0, 0, 0, 0, 0, 0, 0, 1, 0, 0, 0, 0, 0, 0],
            1,
        ),
        ("09-width-9-entry-cut", vec![9, 0, 0, 0, 0, 0, 0, 0, 0, 2], 1),
        (
            "09-width-64-entry-cut",
            vec![64, 0, 0, 0, 0, 0, 0, 0, 0, 2, 0, 0, 0, 0, 0, 0],
            1,
        ),
        (
            "09-marker-without-value",
            vec![2, 0, 0, 0, 0, 0, 0, 0, 0, 3],
            1,
        ),
        (
            "09-marker-value-cut",
            vec![2, 0, 0, 0, 0, 0, 0, 0, 0, 7, 0, 0, 0, 0, 0, 0, 0],
            1,
        ),
        (
            "09-byte-too-many",
            vec![2, 0, 0, 0, 0, 0, 0, 0, 0, 2, 0],
            2,
        ),
        (
            "09-nine-bytes-too-many",
            vec![2, 0, 0, 0, 0, 0, 0, 0, 0, 2, 0, 0, 0, 0, 0, 0, 0, 0, 0],
            2,
        ),
        (
            "09-byte-too-many-at-a-byte-edge",
            vec![8, 0, 0, 0, 0, 0, 0, 0, 0, 2, 0],
            2,
        ),
        (
            "09-width-0-byte-too-many",
            vec![0, 0, 0, 0, 0, 0, 0, 0, 0, 1, 0, 0, 0, 0, 0, 0, 0, 0],
            2,
        ),
    ] {
        in_x_and_y(cases, name, &column, 9, index);
    }
    // N = 0: bytes left over, so value N, which is 0.
    for (name, column) in [
        ("09-bytes-at-none", vec![0u8]),
        ("09-bytes-at-none-width-65", vec![65]),
        ("09-bytes-at-none-width-255", vec![255]),
        ("09-bytes-at-none-nine", vec![0; 9]),
    ] {
        cases.both(
            &format!("{name}-x"),
            &none().with_x(&column),
            "refused 9 page 0 column x value 0",
            "refused 9 page 1 column x value 0",
        );
        cases.both(
            &format!("{name}-y"),
            &none().with_y(&column),
            "refused 9 page 0 column y value 0",
            "refused 9 page 1 column y value 0",
        );
    }
    // The two columns of one value as they should be, with the edge between
    // them moved: on, x has bytes left over (1); back, x lacks bits for its
    // first value (0).
    cases.both(
        "09-edge-between-columns-one-on",
        &good().with_cx_cy(10, 8),
        "refused 9 page 0 column x value 1",
        "refused 9 page 1 column x value 1",
    );
    cases.both(
        "09-edge-between-columns-one-back",
        &good().with_cx_cy(8, 10),
        "refused 9 page 0 column x value 0",
        "refused 9 page 1 column x value 0",
    );
    cases.both(
        "09-all-bytes-in-x",
        &good().with_cx_cy(18, 0),
        "refused 9 page 0 column x value 1",
        "refused 9 page 1 column x value 1",
    );
    cases.both(
        "09-all-bytes-in-y",
        &good().with_cx_cy(0, 18),
        "refused 9 page 0 column x value 0",
        "refused 9 page 1 column x value 0",
    );
}

/// Fill bits not zero (10): value N, which is 2.
pub fn fill(cases: &mut Cases) {
    for bit in 2..8u8 {
        let mut column = ZERO_ONE;
        column[9] |= 1 << bit;
        in_x_and_y(cases, &format!("10-fill-bit-{bit}"), &column, 10, 2);
    }
    // 72 + 7 bits: one fill bit.
    in_x_and_y(
        cases,
        "10-only-fill-bit",
        &[7, 0, 0, 0, 0, 0, 0, 0, 0, 0x82],
        10,
        2,
    );
    // After a full value: 72 + 2 + 64 bits, the marker, then 1, then a one.
    in_x_and_y(
        cases,
        "10-fill-after-a-full-value",
        &[2, 0, 0, 0, 0, 0, 0, 0, 0, 7, 0, 0, 0, 0, 0, 0, 0, 4],
        10,
        2,
    );
}

/// Types, part counts and lengths against the table or sums (11).
pub fn table(cases: &mut Cases) {
    let a = (1.0, 2.0);
    let b = (3.0, 4.0);
    let c = (5.0, 1.0);
    let square = clockwise(0.0, 0.0, 2.0);
    for (name, kind) in [
        ("11-type-7", 7u8),
        ("11-type-8", 8),
        ("11-type-128", 128),
        ("11-type-255", 255),
    ] {
        cases.both(
            name,
            &good().with_types(&[kind]),
            "refused 11 page 0",
            "refused 11 page 1",
        );
        cases.both(
            &format!("{name}-without-vertices"),
            &none().with_types(&[kind]),
            "refused 11 page 0",
            "refused 11 page 1",
        );
    }
    for (name, shapes) in [
        ("11-empty-with-a-part", vec![shape(1, 0, &[&[a]])]),
        ("11-point-two-parts", vec![shape(1, 1, &[&[a], &[b]])]),
        ("11-point-two-vertices", vec![shape(1, 1, &[&[a, b]])]),
        ("11-line-two-parts", vec![shape(1, 2, &[&[a, b], &[b, c]])]),
        ("11-line-one-vertex", vec![shape(1, 2, &[&[a]])]),
        ("11-polygon-three-vertices", vec![shape(1, 3, &[&[a, b, a]])]),
        ("11-polygon-one-vertex", vec![shape(1, 3, &[&[a]])]),
        (
            "11-polygon-hole-three-vertices",
            vec![shape(1, 3, &[&square, &[a, b, a]])],
        ),
        ("11-multipoint-two-vertices", vec![shape(1, 4, &[&[a, b]])]),
        (
            "11-multipoint-later-part-two-vertices",
            vec![shape(1, 4, &[&[a], &[b, c]])],
        ),
        ("11-multiline-one-vertex", vec![shape(1, 5, &[&[a]])]),
        (
            "11-multiline-later-part-one-vertex",
            vec![shape(1, 5, &[&[a, b], &[c]])],
        ),
        (
            "11-multipolygon-three-vertices",
            vec![shape(1, 6, &[&[a, b, a]])],
        ),
        (
            "11-multipolygon-later-ring-three-vertices",
            vec![shape(1, 6, &[&square, &[a, b, a]])],
        ),
        (
            "11-last-of-three-shapes",
            vec![point(1, 1.0, 1.0), line(2, &[a, b]), line(3, &[c])],
        ),
        (
            "11-lengths-given-to-the-wrong-shapes",
            vec![shape(1, 1, &[&[a, b]]), shape(2, 2, &[&[c]])],
        ),
    ] {
        cases.both(
            name,
            &page(&shapes),
            "refused 11 page 0",
            "refused 11 page 1",
        );
    }
    for (name, kind) in [
        ("11-point-no-part", 1u8),
        ("11-line-no-part", 2),
        ("11-polygon-no-part", 3),
        ("11-multipoint-no-part", 4),
        ("11-multiline-no-part", 5),
        ("11-multipolygon-no-part", 6),
    ] {
        cases.both(
            name,
            &none().with_types(&[kind]),
            "refused 11 page 0",
            "refused 11 page 1",
        );
        cases.both(
            &format!("{name}-beside-a-point"),
            &page(&[point(1, 1.0, 1.0), shape(2, kind, &[])]),
            "refused 11 page 0",
            "refused 11 page 1",
        );
    }
    let two = || page(&[multipoint(1, &[a, b])]);
    let three = || page(&[line(1, &[a, b, c])]);
    for (name, faulty) in [
        ("11-sum-of-counts-less", two().with_part_counts(&[1])),
        ("11-sum-of-counts-more", two().with_part_counts(&[3])),
        ("11-sum-of-counts-0", two().with_part_counts(&[0])),
        ("11-count-65535", two().with_part_counts(&[65535])),
        ("11-sum-of-lengths-less", three().with_part_lengths(&[2])),
        ("11-sum-of-lengths-more", three().with_part_lengths(&[4])),
        ("11-length-0", three().with_part_lengths(&[0])),
        ("11-length-65535", three().with_part_lengths(&[65535])),
        (
            "11-lengths-0-and-2",
            two().with_part_lengths(&[0, 2]),
        ),
        (
            "11-lengths-0-and-4-of-a-polygon",
            {
                let mut faulty = page(&[polygon(1, &[&square])]);
                faulty.p = 2;
                faulty.part_counts = vec![2];
                faulty.part_lengths = vec![0, 5];
                faulty
            },
        ),
        (
            "11-counts-wrap-at-16-bits",
            page(&[multipoint(1, &[a]), multipoint(2, &[b])]).with_part_counts(&[65535, 3]),
        ),
        (
            "11-lengths-wrap-at-16-bits",
            {
                let mut faulty = page(&[multiline(1, &[&[a, b]])]);
                faulty.p = 2;
                faulty.part_counts = vec![2];
                faulty.part_lengths = vec![65534, 4];
                faulty
            },
        ),
        (
            // 32 × 2,048 + 5 parts where p = 5: each count is in the table.
            "11-counts-wrap-at-16-bits-each-in-the-table",
            {
                let five = [a, b, c, a, b];
                let mut shapes = vec![multipoint(0, &five)];
                for k in 1..33 {
                    shapes.push(empty(k));
                }
                let mut counts = vec![2048; 32];
                counts.push(5);
                page(&shapes).with_types(&[4; 33]).with_part_counts(&counts)
            },
        ),
        (
            // 32 × 2,048 + 33 vertices where v = 33: each length is in the
            // table.
            "11-lengths-wrap-at-16-bits-each-in-the-table",
            {
                let mut faulty = page(&[multiline(1, &[&[a; 33]])]);
                faulty.p = 33;
                faulty.part_counts = vec![33];
                faulty.part_lengths = vec![2048; 32];
                faulty.part_lengths.push(33);
                faulty
            },
        ),
        (
            "11-empty-counts-a-part-of-the-next",
            page(&[empty(1), multipoint(2, &[a, b])]).with_part_counts(&[1, 1]),
        ),
    ] {
        cases.both(name, &faulty, "refused 11 page 0", "refused 11 page 1");
    }
}

/// Coordinates not finite (12). The box is that of the finite ones.
pub fn not_finite(cases: &mut Cases) {
    for (what, pattern) in [
        ("nan", QUIET),
        ("nan-minus", QUIET | MINUS_ZERO),
        ("nan-signalling", 0x7FF0_0000_0000_0001),
        ("nan-all-ones", 0xFFFF_FFFF_FFFF_FFFF),
        ("infinite", 0x7FF0_0000_0000_0000),
        ("infinite-minus", 0xFFF0_0000_0000_0000),
    ] {
        for (place, at) in [("first", 0usize), ("middle", 1), ("last", 3)] {
            let base = page(&[
                line(1, &[(1.0, 5.0), (2.0, 6.0), (3.0, 7.0)]),
                point(2, 4.0, 8.0),
            ]);
            let mut xs = patterns(&[1.0, 2.0, 3.0, 4.0]);
            xs[at] = pattern;
            cases.both(
                &format!("12-{what}-{place}-x"),
                &base.clone().with_x(&full_column(&xs)),
                "refused 12 page 0",
                "refused 12 page 1",
            );
            let mut ys = patterns(&[5.0, 6.0, 7.0, 8.0]);
            ys[at] = pattern;
            cases.both(
                &format!("12-{what}-{place}-y"),
                &base.with_y(&full_column(&ys)),
                "refused 12 page 0",
                "refused 12 page 1",
            );
        }
    }
    // Reached by a step: the greatest finite pattern, then one more.
    let greatest = 0x7FEF_FFFF_FFFF_FFFFu64;
    let mut faulty = page(&[line(1, &[(f64::MAX, 0.0), (f64::MAX, 0.0)])]);
    faulty = faulty.with_x(&width_column(&[greatest, greatest + 1], 2, &[]));
    cases.both(
        "12-infinite-by-a-step",
        &faulty,
        "refused 12 page 0",
        "refused 12 page 1",
    );
}

/// Rings not closed (13).
pub fn not_closed(cases: &mut Cases) {
    let square = clockwise(0.0, 0.0, 10.0);
    let hole = other_way(2.0, 2.0, 2.0);
    let open_x = [(0.0, 0.0), (0.0, 10.0), (10.0, 10.0), (10.0, 0.0), (1.0, 0.0)];
    let open_y = [(0.0, 0.0), (0.0, 10.0), (10.0, 10.0), (10.0, 0.0), (0.0, 1.0)];
    let open_four = [(0.0, 0.0), (0.0, 10.0), (10.0, 10.0), (10.0, 0.0)];
    let zero_x = [(0.0, 0.0), (0.0, 10.0), (10.0, 10.0), (10.0, 0.0), (-0.0, 0.0)];
    let zero_y = [(0.0, -0.0), (0.0, 10.0), (10.0, 10.0), (10.0, 0.0), (0.0, 0.0)];
    let one_bit = [
        (1.0, 1.0),
        (1.0, 9.0),
        (9.0, 9.0),
        (f64::from_bits(0x3FF0_0000_0000_0001), 1.0),
    ];
    for (what, kind) in [("polygon", 3u8), ("multipolygon", 6)] {
        for (name, ring) in [
            ("in-x", &open_x[..]),
            ("in-y", &open_y[..]),
            ("four-corners", &open_four[..]),
            ("minus-zero-in-x", &zero_x[..]),
            ("minus-zero-in-y", &zero_y[..]),
            ("by-one-bit", &one_bit[..]),
        ] {
            cases.both(
                &format!("13-{what}-{name}"),
                &page(&[shape(1, kind, &[ring])]),
                "refused 13 page 0",
                "refused 13 page 1",
            );
            cases.both(
                &format!("13-{what}-later-ring-{name}"),
                &page(&[shape(1, kind, &[&square, &hole, ring])]),
                "refused 13 page 0",
                "refused 13 page 1",
            );
        }
        cases.both(
            &format!("13-{what}-later-shape"),
            &page(&[
                point(1, 1.0, 1.0),
                shape(2, kind, &[&square]),
                shape(3, kind, &[&open_y]),
            ]),
            "refused 13 page 0",
            "refused 13 page 1",
        );
        cases.both(
            &format!("13-{what}-two-rings-closed-across"),
            &page(&[shape(
                1,
                kind,
                &[
                    &[(0.0, 0.0), (0.0, 9.0), (9.0, 9.0), (9.0, 0.0)],
                    &[(5.0, 5.0), (6.0, 5.0), (6.0, 6.0), (0.0, 0.0)],
                ],
            )]),
            "refused 13 page 0",
            "refused 13 page 1",
        );
    }
}

/// MultiPolygon off grid (14). The ring stays closed; its second vertex is
/// off.
pub fn off_grid(cases: &mut Cases) {
    for (what, value) in [
        ("half", 0.5),
        ("minus-half", -0.5),
        ("2-24-and-1", 16_777_217.0),
        ("minus-2-24-and-1", -16_777_217.0),
        ("2-24-and-a-bit", f64::from_bits(16_777_216.0f64.to_bits() + 1)),
        ("2-24-less-a-bit", f64::from_bits(16_777_216.0f64.to_bits() - 1)),
        ("2-24-less-half", 16_777_215.5),
        ("2-25", 33_554_432.0),
        ("2-31", 2_147_483_648.0),
        ("2-32", 4_294_967_296.0),
        ("2-63", 9_223_372_036_854_775_808.0),
        ("2-64", 18_446_744_073_709_551_616.0),
        ("least-of-all", f64::from_bits(1)),
        ("minus-least-of-all", f64::from_bits(MINUS_ZERO | 1)),
        ("greatest-of-all", f64::MAX),
        ("minus-greatest-of-all", f64::MIN),
        ("one-and-a-bit", f64::from_bits(0x3FF0_0000_0000_0001)),
        ("tenth", 0.1),
    ] {
        let in_x = [(0.0, 0.0), (value, 10.0), (10.0, 10.0), (10.0, 0.0), (0.0, 0.0)];
        let in_y = [(0.0, 0.0), (0.0, value), (10.0, 10.0), (10.0, 0.0), (0.0, 0.0)];
        cases.both(
            &format!("14-{what}-x"),
            &page(&[multipolygon(1, &[&in_x])]),
            "refused 14 page 0",
            "refused 14 page 1",
        );
        cases.both(
            &format!("14-{what}-y"),
            &page(&[multipolygon(1, &[&in_y])]),
            "refused 14 page 0",
            "refused 14 page 1",
        );
    }
    let square = clockwise(0.0, 0.0, 10.0);
    let hole_off = other_way(2.5, 2.0, 1.0);
    cases.both(
        "14-later-ring",
        &page(&[multipolygon(1, &[&square, &hole_off])]),
        "refused 14 page 0",
        "refused 14 page 1",
    );
    cases.both(
        "14-later-shape",
        &page(&[
            polygon(1, &[&hole_off]),
            multipolygon(2, &[&square]),
            multipolygon(3, &[&clockwise(0.5, 0.5, 1.0)]),
        ]),
        "refused 14 page 0",
        "refused 14 page 1",
    );
    cases.both(
        "14-first-and-last-vertex",
        &page(&[multipolygon(1, &[&clockwise(0.25, 3.0, 4.0)])]),
        "refused 14 page 0",
        "refused 14 page 1",
    );
}

/// Turn zero, or first ring not clockwise (15).
pub fn turns(cases: &mut Cases) {
    let square = clockwise(0.0, 0.0, 10.0);
    let hole = other_way(2.0, 2.0, 2.0);
    let flat = [(0.0, 0.0), (1.0, 1.0), (2.0, 2.0), (0.0, 0.0)];
    let spot = [(3.0, 3.0), (3.0, 3.0), (3.0, 3.0), (3.0, 3.0)];
    let crossed = [(0.0, 0.0), (2.0, 2.0), (2.0, 0.0), (0.0, 2.0), (0.0, 0.0)];
    let far = 16_777_216.0;
    for (name, rings) in [
        ("15-first-ring-other-way", vec![&hole[..]]),
        ("15-turn-zero-flat", vec![&flat[..]]),
        ("15-turn-zero-spot", vec![&spot[..]]),
        ("15-turn-zero-crossed", vec![&crossed[..]]),
        ("15-turn-zero-second-ring", vec![&square[..], &flat[..]]),
        (
            "15-turn-zero-third-ring",
            vec![&square[..], &hole[..], &crossed[..]],
        ),
        (
            "15-turn-zero-later-polygon",
            vec![&square[..], &square[..], &spot[..]],
        ),
        (
            "15-hole-before-its-polygon",
            vec![&hole[..], &square[..]],
        ),
        (
            "15-turn-plus-1-at-the-far-corner",
            vec![&[
                (far, far),
                (far - 1.0, far),
                (far, far - 1.0),
                (far, far),
            ][..]],
        ),
        (
            "15-turn-zero-at-the-far-corner",
            vec![&[
                (far, far),
                (-far, -far),
                (far - 1.0, far - 1.0),
                (far, far),
            ][..]],
        ),
        (
            "15-greatest-square-other-way",
            vec![&[
                (-far, -far),
                (far, -far),
                (far, far),
                (-far, far),
                (-far, -far),
            ][..]],
        ),
    ] {
        cases.both(
            name,
            &page(&[multipolygon(1, &rings)]),
            "refused 15 page 0",
            "refused 15 page 1",
        );
    }
    cases.both(
        "15-later-shape-other-way",
        &page(&[
            polygon(1, &[&hole]),
            multipolygon(2, &[&square, &hole]),
            multipolygon(3, &[&hole]),
        ]),
        "refused 15 page 0",
        "refused 15 page 1",
    );
    cases.both(
        "15-later-shape-turn-zero-later-ring",
        &page(&[
            multipolygon(2, &[&square]),
            multipolygon(3, &[&square, &hole, &flat]),
        ]),
        "refused 15 page 0",
        "refused 15 page 1",
    );
}

/// The page box differs in value from its vertices' box (16).
pub fn box_values(cases: &mut Cases) {
    let base = || {
        page(&[
            line(1, &[(-3.0, -4.0), (2.0, 7.0)]),
            point(2, 5.0, 1.0),
        ])
    };
    // The box: -3, -4, 5, 7. A bit more in the pattern of a negative value
    // makes it less.
    for (which, edge) in ["least-x", "least-y", "greatest-x", "greatest-y"]
        .iter()
        .enumerate()
    {
        let right = base().bounds[which];
        cases.both(
            &format!("16-{edge}-a-bit-away-from-zero"),
            &base().with_bound(which, right + 1),
            "refused 16 page 0",
            "refused 16 page 1",
        );
        cases.both(
            &format!("16-{edge}-a-bit-towards-zero"),
            &base().with_bound(which, right - 1),
            "refused 16 page 0",
            "refused 16 page 1",
        );
        cases.both(
            &format!("16-{edge}-zero"),
            &base().with_bound(which, 0),
            "refused 16 page 0",
            "refused 16 page 1",
        );
    }
    let bounds = |a: f64, b: f64, c: f64, d: f64| {
        [a.to_bits(), b.to_bits(), c.to_bits(), d.to_bits()]
    };
    for (name, faulty) in [
        (
            "16-box-of-the-first-shape",
            base().with_bounds(bounds(-3.0, -4.0, 2.0, 7.0)),
        ),
        (
            "16-box-of-the-last-shape",
            base().with_bounds(bounds(5.0, 1.0, 5.0, 1.0)),
        ),
        (
            "16-box-of-the-first-part",
            page(&[multiline(
                1,
                &[&[(1.0, 1.0), (2.0, 2.0)], &[(3.0, 3.0), (4.0, 4.0)]],
            )])
            .with_bounds(bounds(1.0, 1.0, 2.0, 2.0)),
        ),
        (
            "16-empty-shape-put-zero-in",
            page(&[empty(1), point(2, 5.0, 6.0)]).with_bounds(bounds(0.0, 0.0, 5.0, 6.0)),
        ),
        (
            "16-empty-shape-put-zero-in-negative",
            page(&[point(2, -5.0, -6.0), empty(1)]).with_bounds(bounds(-5.0, -6.0, 0.0, 0.0)),
        ),
        (
            "16-x-and-y-exchanged",
            page(&[line(1, &[(1.0, 5.0), (2.0, 6.0)])]).with_bounds(bounds(5.0, 1.0, 6.0, 2.0)),
        ),
        (
            "16-fields-in-the-order-x-x-y-y",
            page(&[line(1, &[(1.0, 5.0), (2.0, 6.0)])]).with_bounds(bounds(1.0, 2.0, 5.0, 6.0)),
        ),
        (
            "16-signs-turned",
            page(&[point(1, 5.0, 6.0)]).with_bounds(bounds(-5.0, -6.0, -5.0, -6.0)),
        ),
        (
            "16-all-zero",
            page(&[point(1, 5.0, 6.0)]).with_bounds([0; 4]),
        ),
        (
            "16-whole-plane",
            page(&[point(1, 5.0, 6.0)]).with_bounds(bounds(f64::MIN, f64::MIN, f64::MAX, f64::MAX)),
        ),
        (
            "16-least-of-all-where-zero",
            page(&[point(1, 0.0, 0.0)]).with_bounds([0, 0, 1, 0]),
        ),
        (
            "16-minus-least-of-all-where-zero",
            page(&[point(1, 0.0, 0.0)]).with_bounds([MINUS_ZERO | 1, 0, 0, 0]),
        ),
        (
            "16-negatives-in-pattern-order",
            page(&[line(1, &[(-5.0, -5.0), (-1.0, -1.0), (-3.0, -3.0)])])
                .with_bounds(bounds(-5.0, -5.0, -3.0, -3.0)),
        ),
    ] {
        cases.both(name, &faulty, "refused 16 page 0", "refused 16 page 1");
    }
}

/// All cases of this file.
pub fn all(cases: &mut Cases) {
    width(cases);
    bits(cases);
    fill(cases);
    table(cases);
    not_finite(cases);
    not_closed(cases);
    off_grid(cases);
    turns(cases);
    box_values(cases);
}
