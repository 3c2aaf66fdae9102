//! Sound files.

use crate::builders::*;
use crate::list::Cases;
use second::writer;

/// The document's sample file: its two pages.
fn sample_pages() -> (Page, Page) {
    (
        page(&[
            polygon(
                101,
                &[&[(0.0, 0.0), (0.0, 10.0), (10.0, 10.0), (10.0, 0.0), (0.0, 0.0)]],
            ),
            point(102, 20.0, 5.0),
        ]),
        page(&[line(101, &[(-5.0, -5.0), (-1.0, -1.0)]), empty(103)]),
    )
}

/// The same shapes as a file of the library's writer: least columns.
fn written(pages: &[&[Shape]]) -> Vec<u8> {
    let mut buffer = vec![0u8; 65_536];
    let mut state = writer::open(&mut buffer).expect("open");
    for shapes in pages {
        let fields = page(shapes);
        let mut xs = Vec::new();
        let mut ys = Vec::new();
        for shape in *shapes {
            for (x, y) in shape.parts.iter().flatten() {
                xs.push(x.to_bits());
                ys.push(y.to_bits());
            }
        }
        let input = writer::PageInput {
            registers: &fields.registers,
            types: &fields.types,
            part_counts: &fields.part_counts,
            part_lengths: &fields.part_lengths,
            xs: &xs,
            ys: &ys,
        };
        state = writer::page(state, &mut buffer, &input).expect("page");
    }
    state = writer::close(state, &mut buffer).expect("close");
    buffer.truncate(state.position);
    buffer
}

/// The sample file and files without pages or vertices.
fn small(cases: &mut Cases) {
    let (first, second) = sample_pages();
    cases.add(
        "sound-sample-in-full",
        file(&[&first, &second]),
        "sound 2 pages 4 shapes",
    );
    cases.add(
        "sound-sample",
        written(&[
            &[
                polygon(
                    101,
                    &[&[(0.0, 0.0), (0.0, 10.0), (10.0, 10.0), (10.0, 0.0), (0.0, 0.0)]],
                ),
                point(102, 20.0, 5.0),
            ],
            &[line(101, &[(-5.0, -5.0), (-1.0, -1.0)]), empty(103)],
        ]),
        "sound 2 pages 4 shapes",
    );
    cases.add(
        "sound-no-page",
        join(&[&FIRST, &end(0, 0)]),
        "sound 0 pages 0 shapes",
    );
    cases.add("sound-none", file(&[&none()]), "sound 1 pages 1 shapes");
    cases.add(
        "sound-none-twice",
        file(&[&none(), &none()]),
        "sound 2 pages 2 shapes",
    );
    cases.add(
        "sound-none-between",
        file(&[&good(), &none(), &good_three()]),
        "sound 3 pages 5 shapes",
    );
    cases.add("sound-one-point", file(&[&good()]), "sound 1 pages 1 shapes");
    let mut same = good_three();
    same.registers = vec![0xFFFF_FFFF, 0, 0xFFFF_FFFF];
    cases.add(
        "sound-registers-repeated-and-greatest",
        file(&[&same, &same]),
        "sound 2 pages 6 shapes",
    );
    let mut many = FIRST.to_vec();
    for _ in 0..600 {
        many.extend_from_slice(&none().block());
    }
    cases.add(
        "sound-600-pages",
        join(&[&many, &end(600, 600)]),
        "sound 600 pages 600 shapes",
    );
}

/// Every type, by itself and together, in full columns and least ones.
fn types(cases: &mut Cases) {
    let square = clockwise(0.0, 0.0, 10.0);
    let hole = other_way(2.0, 2.0, 2.0);
    let shapes = [
        empty(1),
        point(2, -1.5, 2.25),
        line(3, &[(0.1, 0.2), (0.3, 0.4), (0.1, 0.2)]),
        polygon(4, &[&square, &hole]),
        multipoint(5, &[(1.0, 1.0), (1.0, 1.0), (-7.0, 1e300)]),
        multiline(6, &[&[(0.0, 1.0), (1.0, 0.0)], &[(5.0, 5.0), (6.0, 6.0), (7.0, 5.0)]]),
        multipolygon(7, &[&square, &hole]),
    ];
    let names = [
        "sound-type-0-empty",
        "sound-type-1-point",
        "sound-type-2-line",
        "sound-type-3-polygon",
        "sound-type-4-multipoint",
        "sound-type-5-multiline",
        "sound-type-6-multipolygon",
    ];
    for (name, one) in names.iter().zip(&shapes) {
        cases.add(
            &format!("{name}-in-full"),
            file(&[&page(std::slice::from_ref(one))]),
            "sound 1 pages 1 shapes",
        );
        cases.add(
            name,
            written(&[std::slice::from_ref(one)]),
            "sound 1 pages 1 shapes",
        );
    }
    cases.add(
        "sound-all-types-in-full",
        file(&[&page(&shapes), &page(&shapes)]),
        "sound 2 pages 14 shapes",
    );
    cases.add(
        "sound-all-types",
        written(&[&shapes, &shapes]),
        "sound 2 pages 14 shapes",
    );
    cases.add(
        "sound-line-of-one-place",
        file(&[&page(&[line(1, &[(1.0, 1.0), (1.0, 1.0)])])]),
        "sound 1 pages 1 shapes",
    );
}

/// Limits that pass: 2,048 vertices, 256 shapes.
fn limits(cases: &mut Cases) {
    let long: Vec<Vertex> = (0..2048)
        .map(|k| (f64::from(k) * 0.5, 100.0 - f64::from(k)))
        .collect();
    cases.add(
        "sound-2048-vertices-in-full",
        file(&[&page(&[line(1, &long)])]),
        "sound 1 pages 1 shapes",
    );
    cases.add(
        "sound-2048-vertices",
        written(&[&[line(1, &long)]]),
        "sound 1 pages 1 shapes",
    );
    cases.add(
        "sound-2048-parts-in-full",
        file(&[&page(&[multipoint(1, &long)])]),
        "sound 1 pages 1 shapes",
    );
    cases.add(
        "sound-2048-parts",
        written(&[&[multipoint(1, &long)]]),
        "sound 1 pages 1 shapes",
    );
    let mut points = Vec::new();
    let mut empties = Vec::new();
    let mut eights = Vec::new();
    for k in 0..256u32 {
        points.push(point(k, f64::from(k), 3.0));
        empties.push(empty(k));
        eights.push(line(k, &long[8 * k as usize..8 * k as usize + 8]));
    }
    cases.add(
        "sound-256-points-in-full",
        file(&[&page(&points)]),
        "sound 1 pages 256 shapes",
    );
    cases.add(
        "sound-256-points",
        written(&[&points, &points]),
        "sound 2 pages 512 shapes",
    );
    cases.add(
        "sound-256-empty",
        file(&[&page(&empties), &page(&empties)]),
        "sound 2 pages 512 shapes",
    );
    cases.add(
        "sound-256-lines-2048-vertices",
        file(&[&page(&eights)]),
        "sound 1 pages 256 shapes",
    );
    let mut ring: Vec<Vertex> = Vec::new();
    for k in 0..1024 {
        ring.push((f64::from(k), 1.0));
    }
    for k in 0..1023 {
        ring.push((f64::from(1023 - k), f64::from(0)));
    }
    ring.push((0.0, 1.0));
    cases.add(
        "sound-multipolygon-ring-of-2048",
        file(&[&page(&[multipolygon(1, &[&ring])])]),
        "sound 1 pages 1 shapes",
    );
}

/// Rings, grid and turns that pass.
fn rings(cases: &mut Cases) {
    let far = 16_777_216.0;
    let square = clockwise(0.0, 0.0, 10.0);
    let hole = other_way(2.0, 2.0, 2.0);
    let flat = [(0.0, 0.0), (1.0, 1.0), (2.0, 2.0), (0.0, 0.0)];
    let crossed = [(0.0, 0.0), (2.0, 2.0), (2.0, 0.0), (0.0, 2.0), (0.0, 0.0)];
    let greatest = [
        (-far, -far),
        (-far, far),
        (far, far),
        (far, -far),
        (-far, -far),
    ];
    let least_turn = [
        (far, far),
        (far, far - 1.0),
        (far - 1.0, far),
        (far, far),
    ];
    let least_turn_low = [
        (-far, -far),
        (-far, -far + 1.0),
        (-far + 1.0, -far),
        (-far, -far),
    ];
    let minus_zero = [
        (-0.0, -0.0),
        (-0.0, 5.0),
        (5.0, 5.0),
        (5.0, -0.0),
        (-0.0, -0.0),
    ];
    let far_away = clockwise(100.0, 100.0, 10.0);
    let far_away_hole = other_way(103.0, 103.0, 1.0);
    for (name, kind, parts) in [
        (
            "sound-polygons-with-holes",
            6u8,
            vec![&square[..], &hole[..], &far_away[..], &far_away_hole[..], &far_away_hole[..]],
        ),
        (
            "sound-two-polygons-no-hole",
            6,
            vec![&square[..], &far_away[..]],
        ),
        (
            "sound-second-ring-other-way",
            6,
            vec![&square[..], &hole[..]],
        ),
        ("sound-grid-2-24", 6, vec![&greatest[..]]),
        ("sound-turn-minus-1-far-corner", 6, vec![&least_turn[..]]),
        ("sound-turn-minus-1-low-corner", 6, vec![&least_turn_low[..]]),
        ("sound-minus-zero-on-grid", 6, vec![&minus_zero[..]]),
        (
            "sound-triangle-of-four",
            6,
            vec![&[(0.0, 0.0), (0.0, 1.0), (1.0, 0.0), (0.0, 0.0)][..]],
        ),
        ("sound-polygon-other-way", 3, vec![&hole[..]]),
        ("sound-polygon-turn-zero", 3, vec![&flat[..], &crossed[..]]),
        (
            "sound-polygon-off-grid",
            3,
            vec![&[(0.5, 0.1), (0.5, 1e9), (1e300, 5e-324), (0.5, 0.1)][..]],
        ),
        (
            "sound-polygon-minus-zero-closed",
            3,
            vec![&minus_zero[..]],
        ),
        (
            "sound-polygon-hole-the-same-way",
            3,
            vec![&square[..], &square[..]],
        ),
    ] {
        cases.add(
            &format!("{name}-in-full"),
            file(&[&page(&[shape(1, kind, &parts)])]),
            "sound 1 pages 1 shapes",
        );
        cases.add(
            name,
            written(&[&[shape(1, kind, &parts)]]),
            "sound 1 pages 1 shapes",
        );
    }
    cases.add(
        "sound-line-not-closed-off-grid",
        file(&[&page(&[multiline(
            1,
            &[&[(0.5, 0.5), (1e100, 2.0)], &[(0.0, 0.0), (-0.0, 0.0)]],
        )])]),
        "sound 1 pages 1 shapes",
    );
    cases.add(
        "sound-greatest-and-least-finite",
        file(&[&page(&[multipoint(
            1,
            &[(f64::MAX, f64::MIN), (f64::MIN, f64::MAX), (5e-324, -5e-324)],
        )])]),
        "sound 1 pages 1 shapes",
    );
    cases.add(
        "sound-two-multipolygons",
        file(&[&page(&[
            multipolygon(1, &[&square, &hole]),
            empty(2),
            multipolygon(3, &[&far_away, &far_away_hole]),
        ])]),
        "sound 1 pages 3 shapes",
    );
}

/// Boxes that are equal in value: the zeros.
fn boxes(cases: &mut Cases) {
    let m = MINUS_ZERO;
    let zero = || page(&[point(1, 0.0, 0.0)]);
    let minus = || page(&[point(1, -0.0, -0.0)]);
    for (name, page) in [
        ("sound-box-zero-where-zero", zero()),
        ("sound-box-minus-zero-where-zero", zero().with_bounds([m, m, m, m])),
        ("sound-box-zero-where-minus-zero", minus().with_bounds([0, 0, 0, 0])),
        ("sound-box-minus-zero-where-minus-zero", minus()),
        ("sound-box-least-zero-greatest-minus-zero", zero().with_bounds([0, 0, m, m])),
        ("sound-box-least-minus-zero-greatest-zero", minus().with_bounds([m, m, 0, 0])),
        (
            "sound-box-second-zero-met",
            page(&[line(1, &[(0.0, -0.0), (-0.0, 0.0)])]).with_bounds([m, 0, m, 0]),
        ),
        (
            "sound-box-other-zero-as-greatest",
            page(&[line(1, &[(-5.0, -5.0), (0.0, -0.0)])]).with_bounds([
                (-5.0f64).to_bits(),
                (-5.0f64).to_bits(),
                m,
                0,
            ]),
        ),
        (
            "sound-box-other-zero-as-least",
            page(&[line(1, &[(5.0, 5.0), (0.0, -0.0)])]).with_bounds([
                m,
                0,
                5.0f64.to_bits(),
                5.0f64.to_bits(),
            ]),
        ),
        (
            "sound-box-negative",
            page(&[line(1, &[(-2.0, -4.0), (-1.0, -3.0)])]),
        ),
        (
            "sound-box-with-empty-shape",
            page(&[empty(1), point(2, 5.0, 6.0), empty(3)]),
        ),
        (
            "sound-box-from-later-part",
            page(&[multiline(
                1,
                &[&[(1.0, 1.0), (2.0, 2.0)], &[(-3.0, 9.0), (4.0, -4.0)]],
            )]),
        ),
    ] {
        cases.both(
            name,
            &page,
            match page.g {
                1 => "sound 2 pages 2 shapes",
                _ => "sound 2 pages 4 shapes",
            },
            match page.g {
                1 => "sound 3 pages 3 shapes",
                _ => "sound 3 pages 5 shapes",
            },
        );
    }
}

/// The document's columns as x columns of sound pages: patterns as whole
/// numbers.
fn columns(cases: &mut Cases) {
    let two = || page(&[line(1, &[(0.0, 1.0), (0.0, 1.0)])]);
    let three = || page(&[line(1, &[(0.0, 1.0), (0.0, 1.0), (0.0, 1.0)])]);
    let y = 1.0f64.to_bits();
    for (name, page) in [
        (
            "sound-column-0-1",
            two()
                .with_x(&[2, 0, 0, 0, 0, 0, 0, 0, 0, 2])
                .with_bounds([0, y, 1, y]),
        ),
        (
            "sound-column-0-1-wider",
            two()
                .with_x(&[3, 0, 0, 0, 0, 0, 0, 0, 0, 2])
                .with_bounds([0, y, 1, y]),
        ),
        (
            // The marker 3, then 1 in full: 72 + 2 + 64 bits.
            "sound-column-full-value-where-a-step-fits",
            two()
                .with_x(&[2, 0, 0, 0, 0, 0, 0, 0, 0, 7, 0, 0, 0, 0, 0, 0, 0, 0])
                .with_bounds([0, y, 1, y]),
        ),
        (
            "sound-column-2-40",
            three()
                .with_x(&[2, 0, 0, 0, 0, 0, 0, 0, 0, 3, 0, 0, 0, 0, 4, 0, 0, 8])
                .with_bounds([0, y, (1 << 40) + 1, y]),
        ),
        (
            "sound-column-1-five-times",
            page(&[line(1, &[(1.0, 1.0), (1.0, 1.0), (1.0, 1.0), (1.0, 1.0), (1.0, 1.0)])])
                .with_x(&[1, 0, 0, 0, 0, 0, 0, 0xF0, 0x3F, 0])
                .with_y(&[1, 0, 0, 0, 0, 0, 0, 0xF0, 0x3F, 0]),
        ),
        (
            // The step 2^63 - 1 has z = 2^64 - 2, which fits at width 64: 1,
            // then minus zero.
            "sound-column-width-64-step",
            two()
                .with_x(&[
                    64, 1, 0, 0, 0, 0, 0, 0, 0, 0xFE, 255, 255, 255, 255, 255, 255, 255,
                ])
                .with_bounds([MINUS_ZERO, y, 1, y]),
        ),
        (
            // At width 64 the marker is 2^64 - 1: 1, then 2 in full.
            "sound-column-width-64-full",
            two()
                .with_x(&[
                    64, 1, 0, 0, 0, 0, 0, 0, 0, 255, 255, 255, 255, 255, 255, 255, 255, 2, 0, 0, 0,
                    0, 0, 0, 0,
                ])
                .with_bounds([1, y, 2, y]),
        ),
        (
            // z = 1 is one back: 1, then 0.
            "sound-column-step-minus-1",
            two()
                .with_x(&[2, 1, 0, 0, 0, 0, 0, 0, 0, 1])
                .with_bounds([0, y, 1, y]),
        ),
        (
            // z = 2 is one on: minus zero, then minus the least of all.
            "sound-column-step-from-minus-zero",
            two()
                .with_x(&[2, 0, 0, 0, 0, 0, 0, 0, 0x80, 2])
                .with_bounds([MINUS_ZERO | 1, y, MINUS_ZERO, y]),
        ),
        (
            "sound-column-one-value-width-64",
            page(&[point(1, 0.0, 1.0)]).with_x(&[64, 0, 0, 0, 0, 0, 0, 0, 0]),
        ),
        (
            "sound-column-one-value-width-1",
            page(&[point(1, 0.0, 1.0)]).with_x(&[1, 0, 0, 0, 0, 0, 0, 0, 0]),
        ),
    ] {
        cases.both(
            name,
            &page,
            "sound 2 pages 2 shapes",
            "sound 3 pages 3 shapes",
        );
    }
}

/// All cases of this file.
pub fn all(cases: &mut Cases) {
    small(cases);
    types(cases);
    limits(cases);
    rings(cases);
    boxes(cases);
    columns(cases);
}
