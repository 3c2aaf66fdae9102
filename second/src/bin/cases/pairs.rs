//! Two faults at once: the first in the document's order is given.

use crate::builders::*;
use crate::list::Cases;

const QUIET: u64 = 0x7FF8_0000_0000_0000;

/// Neighbours in the order of the frame, in one block.
fn frame_pairs(cases: &mut Cases) {
    let rest = join(&[&good().block(), &end(1, 1)]);
    // First block: presence (4), kind (5), length (4), edition (5).
    cases.add(
        "pair-first-cut-and-kind",
        block_saying(2, 9, &[1]),
        "refused 4 page 0",
    );
    cases.add(
        "pair-first-cut-and-length-and-edition",
        block_saying(3, 1, &[2, 0]),
        "refused 4 page 0",
    );
    cases.add(
        "pair-first-kind-and-length",
        join(&[&block(9, &[1, 0, 0]), &rest]),
        "refused 5 page 0",
    );
    cases.add(
        "pair-first-kind-and-length-0",
        join(&[&block(2, &[]), &rest]),
        "refused 5 page 0",
    );
    cases.add(
        "pair-first-kind-and-edition",
        join(&[&block(9, &[2, 0]), &rest]),
        "refused 5 page 0",
    );
    cases.add(
        "pair-first-length-and-edition",
        join(&[&block(1, &[2, 0, 0]), &rest]),
        "refused 4 page 0",
    );
    cases.add(
        "pair-first-length-1-and-edition",
        join(&[&block(1, &[2]), &rest]),
        "refused 4 page 0",
    );
    cases.add(
        "pair-first-edition-and-next-cut",
        join(&[&block(1, &[2, 0]), &[1, 2, 3]]),
        "refused 5 page 0",
    );
    // A later block: presence (4), kind (5).
    let body = good().body();
    cases.add(
        "pair-kind-and-cut-first",
        join(&[&FIRST, &block_saying(body.len() as u32 + 1, 9, &body)]),
        "refused 4 page 0",
    );
    cases.add(
        "pair-kind-and-cut-later",
        join(&[
            &FIRST,
            &good().block(),
            &block_saying(body.len() as u32 + 1, 9, &body),
        ]),
        "refused 4 page 1",
    );
    cases.both_blocks(
        "pair-kind-and-length",
        &block(9, &body[..20]),
        "refused 5 page 0",
        "refused 5 page 1",
    );
    cases.both_blocks(
        "pair-kind-and-counts",
        &block(9, &good().with_counts(0, 1, 1).body()),
        "refused 5 page 0",
        "refused 5 page 1",
    );
    // A page: at least 38 bytes (4), counts (6), exact length (4), box (7).
    let bad_counts = good().with_counts(0, 0, 0).body();
    cases.both_blocks(
        "pair-37-bytes-and-counts",
        &block(2, &bad_counts[..37]),
        "refused 4 page 0",
        "refused 4 page 1",
    );
    cases.both_blocks(
        "pair-6-bytes-and-counts",
        &block(2, &bad_counts[..6]),
        "refused 4 page 0",
        "refused 4 page 1",
    );
    cases.both_blocks(
        "pair-counts-and-38-bytes-only",
        &block(2, &bad_counts[..38]),
        "refused 6 page 0",
        "refused 6 page 1",
    );
    cases.both_blocks(
        "pair-counts-and-exact-length",
        &block(2, &join(&[&good().with_counts(1, 1, 2).body(), &[0]])),
        "refused 6 page 0",
        "refused 6 page 1",
    );
    cases.both(
        "pair-counts-and-box",
        &none().with_counts(0, 0, 0).with_bounds([QUIET; 4]),
        "refused 6 page 0",
        "refused 6 page 1",
    );
    cases.both_blocks(
        "pair-exact-length-more-and-box",
        &block(2, &join(&[&good().with_bound(0, QUIET).body(), &[0]])),
        "refused 4 page 0",
        "refused 4 page 1",
    );
    cases.both_blocks(
        "pair-exact-length-less-and-box",
        &block(2, &good().with_bound(2, QUIET).body()[..70]),
        "refused 4 page 0",
        "refused 4 page 1",
    );
    cases.both_blocks(
        "pair-38-bytes-only-and-box",
        &block(2, &good().with_bound(3, QUIET).body()[..38]),
        "refused 4 page 0",
        "refused 4 page 1",
    );
    cases.both_blocks(
        "pair-exact-length-and-box-at-none",
        &block(2, &join(&[&none().with_bound(1, MINUS_ZERO).body(), &[0]])),
        "refused 4 page 0",
        "refused 4 page 1",
    );
    // The end: length 8 (4), counts (6), nothing after (4).
    let two_pages = join(&[&FIRST, &good().block(), &good_three().block()]);
    cases.add(
        "pair-end-cut-and-counts",
        join(&[&two_pages, &end(9, 9)[..13]]),
        "refused 4 page 2",
    );
    cases.add(
        "pair-end-length-9-and-counts",
        join(&[&two_pages, &block(3, &[9, 0, 0, 0, 9, 0, 0, 0, 9])]),
        "refused 4 page 2",
    );
    cases.add(
        "pair-end-length-7-and-counts",
        join(&[&two_pages, &block(3, &[9, 0, 0, 0, 9, 0, 0])]),
        "refused 4 page 2",
    );
    cases.add(
        "pair-end-counts-and-bytes-after",
        join(&[&two_pages, &end(2, 5), &[0]]),
        "refused 6 page 2",
    );
    cases.add(
        "pair-end-pages-and-bytes-after",
        join(&[&two_pages, &end(3, 4), &good().block()]),
        "refused 6 page 2",
    );
    cases.add(
        "pair-end-counts-and-bytes-after-no-page",
        join(&[&FIRST, &end(0, 1), &[0]]),
        "refused 6 page 0",
    );
}

/// Faults of the frame in two blocks: block by block.
fn frame_in_order(cases: &mut Cases) {
    let one = good().block();
    cases.add(
        "pair-box-on-0-then-counts-on-1",
        file(&[
            &good().with_bound(0, QUIET),
            &good().with_counts(1, 1, 2),
        ]),
        "refused 7 page 0",
    );
    cases.add(
        "pair-box-on-0-then-cut",
        join(&[&FIRST, &good().with_bound(0, QUIET).block(), &one[..20]]),
        "refused 7 page 0",
    );
    cases.add(
        "pair-counts-on-0-then-kind",
        join(&[
            &FIRST,
            &good().with_counts(257, 1, 1).block(),
            &block(9, &[]),
        ]),
        "refused 6 page 0",
    );
    cases.add(
        "pair-box-on-1-then-box-on-2",
        file(&[
            &good(),
            &good().with_bound(0, QUIET),
            &good().with_bound(0, QUIET),
        ]),
        "refused 7 page 1",
    );
    cases.add(
        "pair-box-on-1-then-end-counts",
        join(&[&FIRST, &one, &good().with_bound(0, QUIET).block(), &end(9, 9)]),
        "refused 7 page 1",
    );
    cases.add(
        "pair-exact-length-on-0-then-no-end",
        join(&[&FIRST, &good().with_cx_cy(9, 8).block()]),
        "refused 4 page 0",
    );
    cases.add(
        "pair-size-and-first-kind",
        {
            let mut bytes = block(9, &[1, 0]);
            bytes.resize(40_961, 0);
            bytes
        },
        "refused 3 page 0",
    );
}

/// A fault of the frame on page 1 or at the end with a fault of the contents
/// on page 0: the frame comes first.
fn frame_over_contents(cases: &mut Cases) {
    let faulty = good().with_types(&[7]);
    let block_0 = faulty.block();
    let one = good().block();
    let start = join(&[&FIRST, &block_0]);
    cases.add(
        "pair-type-on-0-cut-head-on-1",
        join(&[&start, &one[..5]]),
        "refused 4 page 1",
    );
    cases.add(
        "pair-type-on-0-cut-body-on-1",
        join(&[&start, &one[..60]]),
        "refused 4 page 1",
    );
    cases.add(
        "pair-type-on-0-no-end",
        start.clone(),
        "refused 4 page 1",
    );
    cases.add(
        "pair-type-on-0-kind-on-1",
        join(&[&start, &block(9, &[]), &end(1, 1)]),
        "refused 5 page 1",
    );
    cases.add(
        "pair-type-on-0-37-bytes-on-1",
        join(&[&start, &block(2, &[1; 37]), &end(2, 2)]),
        "refused 4 page 1",
    );
    cases.add(
        "pair-type-on-0-counts-on-1",
        file(&[&faulty, &good().with_counts(1, 1, 2)]),
        "refused 6 page 1",
    );
    cases.add(
        "pair-type-on-0-exact-length-on-1",
        file(&[&faulty, &good().with_cx_cy(9, 10)]),
        "refused 4 page 1",
    );
    cases.add(
        "pair-type-on-0-box-on-1",
        file(&[&faulty, &good().with_bound(0, QUIET)]),
        "refused 7 page 1",
    );
    cases.add(
        "pair-type-on-0-minus-zero-at-none-on-1",
        file(&[&faulty, &none().with_bound(0, MINUS_ZERO)]),
        "refused 7 page 1",
    );
    cases.add(
        "pair-type-on-0-end-length",
        join(&[&start, &one, &block(3, &[2, 0, 0, 0, 2, 0, 0])]),
        "refused 4 page 2",
    );
    cases.add(
        "pair-type-on-0-end-counts",
        join(&[&start, &one, &end(2, 3)]),
        "refused 6 page 2",
    );
    cases.add(
        "pair-type-on-0-byte-after-the-end",
        join(&[&start, &one, &end(2, 2), &[0]]),
        "refused 4 page 2",
    );
    cases.add(
        "pair-box-values-on-0-box-form-on-1",
        file(&[&good().with_bounds([0; 4]), &good().with_bound(0, QUIET)]),
        "refused 7 page 1",
    );
    cases.add(
        "pair-width-on-0-box-form-on-1",
        file(&[
            &good().with_x(&[65; 9]),
            &none().with_bound(3, 1),
        ]),
        "refused 7 page 1",
    );
    cases.both(
        "pair-box-form-and-type-on-one-page",
        &good().with_bound(0, QUIET).with_types(&[7]),
        "refused 7 page 0",
        "refused 7 page 1",
    );
    cases.both(
        "pair-box-form-at-none-and-bytes",
        &none().with_bound(0, MINUS_ZERO).with_x(&[0]),
        "refused 7 page 0",
        "refused 7 page 1",
    );
}

/// Faults of the contents on two pages: page by page.
fn contents_in_order(cases: &mut Cases) {
    cases.add(
        "pair-box-values-on-0-type-on-1",
        file(&[&good().with_bounds([0; 4]), &good().with_types(&[7])]),
        "refused 16 page 0",
    );
    cases.add(
        "pair-type-on-1-width-on-2",
        file(&[
            &good(),
            &good().with_types(&[7]),
            &good().with_x(&[65; 9]),
        ]),
        "refused 11 page 1",
    );
    cases.add(
        "pair-not-finite-on-1-type-on-2",
        file(&[
            &good(),
            &good().with_x(&full_column(&[QUIET])),
            &good().with_types(&[7]),
        ]),
        "refused 12 page 1",
    );
}

/// Neighbours in the order of the contents, on one page: 11, x column, y
/// column, 12, 13, 14, 15, 16.
fn contents_pairs(cases: &mut Cases) {
    // 11 and the columns.
    cases.both(
        "pair-11-and-08-x",
        &good().with_types(&[7]).with_x(&[65; 9]),
        "refused 11 page 0",
        "refused 11 page 1",
    );
    cases.both(
        "pair-11-sums-and-09-x",
        &page(&[line(1, &[(1.0, 1.0), (2.0, 2.0)])])
            .with_part_lengths(&[3])
            .with_x(&[]),
        "refused 11 page 0",
        "refused 11 page 1",
    );
    cases.both(
        "pair-11-at-none-and-09",
        &none().with_types(&[1]).with_x(&[0]),
        "refused 11 page 0",
        "refused 11 page 1",
    );
    // In one column: 8, 9, 10.
    cases.both(
        "pair-08-and-09-width-byte-alone-x",
        &good().with_x(&[65]),
        "refused 8 page 0 column x value 0",
        "refused 8 page 1 column x value 0",
    );
    cases.both(
        "pair-08-and-09-width-byte-alone-y",
        &good().with_y(&[255]),
        "refused 8 page 0 column y value 0",
        "refused 8 page 1 column y value 0",
    );
    cases.both(
        "pair-09-and-10-byte-too-many-and-fill",
        &page(&[line(1, &[(0.0, 1.0), (0.0, 1.0)])])
            .with_x(&[2, 0, 0, 0, 0, 0, 0, 0, 0, 6, 0]),
        "refused 9 page 0 column x value 2",
        "refused 9 page 1 column x value 2",
    );
    cases.both(
        "pair-09-and-10-byte-too-many-not-zero",
        &page(&[line(1, &[(0.0, 1.0), (0.0, 1.0)])])
            .with_x(&[2, 0, 0, 0, 0, 0, 0, 0, 0, 2, 255]),
        "refused 9 page 0 column x value 2",
        "refused 9 page 1 column x value 2",
    );
    // x column before y column.
    let zero_one = || {
        let mut page = page(&[line(5, &[(0.0, 0.0), (1.0, 1.0)])]);
        page.bounds = [0, 0, 1, 1];
        page.with_x(&[2, 0, 0, 0, 0, 0, 0, 0, 0, 2])
            .with_y(&[2, 0, 0, 0, 0, 0, 0, 0, 0, 2])
    };
    cases.both(
        "pair-10-x-and-08-y",
        &zero_one()
            .with_x(&[2, 0, 0, 0, 0, 0, 0, 0, 0, 6])
            .with_y(&[65; 10]),
        "refused 10 page 0 column x value 2",
        "refused 10 page 1 column x value 2",
    );
    cases.both(
        "pair-10-x-and-09-y",
        &zero_one()
            .with_x(&[2, 0, 0, 0, 0, 0, 0, 0, 0, 6])
            .with_y(&[]),
        "refused 10 page 0 column x value 2",
        "refused 10 page 1 column x value 2",
    );
    cases.both(
        "pair-09-x-and-08-y",
        &zero_one().with_x(&[2, 0, 0]).with_y(&[65; 10]),
        "refused 9 page 0 column x value 0",
        "refused 9 page 1 column x value 0",
    );
    cases.both(
        "pair-08-x-and-09-y",
        &zero_one().with_x(&[65]).with_y(&[2]),
        "refused 8 page 0 column x value 0",
        "refused 8 page 1 column x value 0",
    );
    // y column and 12.
    cases.both(
        "pair-10-y-and-12",
        &zero_one()
            .with_x(&full_column(&[QUIET, QUIET]))
            .with_y(&[2, 0, 0, 0, 0, 0, 0, 0, 0, 6]),
        "refused 10 page 0 column y value 2",
        "refused 10 page 1 column y value 2",
    );
    cases.both(
        "pair-09-y-and-12",
        &zero_one().with_x(&full_column(&[QUIET, QUIET])).with_y(&[0]),
        "refused 9 page 0 column y value 0",
        "refused 9 page 1 column y value 0",
    );
    cases.both(
        "pair-08-y-and-12",
        &zero_one().with_x(&full_column(&[QUIET, 0])).with_y(&[66; 20]),
        "refused 8 page 0 column y value 0",
        "refused 8 page 1 column y value 0",
    );
    // 12 and 13: in one ring, and in two shapes the other way round.
    let nan = f64::from_bits(QUIET);
    cases.both(
        "pair-12-and-13-one-ring",
        &page(&[polygon(1, &[&[(0.0, 0.0), (0.0, nan), (5.0, 5.0), (5.0, 0.0)]])]),
        "refused 12 page 0",
        "refused 12 page 1",
    );
    cases.both(
        "pair-13-in-shape-0-12-in-shape-1",
        &page(&[
            polygon(1, &[&[(0.0, 0.0), (0.0, 5.0), (5.0, 5.0), (5.0, 0.0)]]),
            point(2, 1.0, f64::INFINITY),
        ]),
        "refused 12 page 0",
        "refused 12 page 1",
    );
    // A ring closed by one NaN pattern is closed, but not finite.
    cases.both(
        "pair-12-in-the-closing-vertex",
        &page(&[polygon(
            1,
            &[&[(nan, 0.0), (0.0, 5.0), (5.0, 5.0), (nan, 0.0)]],
        )]),
        "refused 12 page 0",
        "refused 12 page 1",
    );
    // 13 and 14.
    cases.both(
        "pair-13-and-14-one-ring",
        &page(&[multipolygon(
            1,
            &[&[(0.0, 0.0), (0.5, 5.0), (5.0, 5.0), (5.0, 0.0)]],
        )]),
        "refused 13 page 0",
        "refused 13 page 1",
    );
    cases.both(
        "pair-14-in-shape-0-13-in-shape-1",
        &page(&[
            multipolygon(1, &[&clockwise(0.5, 0.5, 2.0)]),
            multipolygon(2, &[&[(0.0, 0.0), (0.0, 5.0), (5.0, 5.0), (5.0, 0.0)]]),
        ]),
        "refused 13 page 0",
        "refused 13 page 1",
    );
    cases.both(
        "pair-14-in-shape-0-13-in-a-polygon",
        &page(&[
            multipolygon(1, &[&clockwise(0.5, 0.5, 2.0)]),
            polygon(2, &[&[(0.0, 0.0), (0.0, 5.0), (5.0, 5.0), (5.0, 0.0)]]),
        ]),
        "refused 13 page 0",
        "refused 13 page 1",
    );
    // 14 and 15.
    cases.both(
        "pair-14-and-15-one-ring",
        &page(&[multipolygon(1, &[&other_way(0.5, 0.5, 2.0)])]),
        "refused 14 page 0",
        "refused 14 page 1",
    );
    cases.both(
        "pair-15-in-shape-0-14-in-shape-1",
        &page(&[
            multipolygon(1, &[&other_way(0.0, 0.0, 2.0)]),
            multipolygon(2, &[&clockwise(0.5, 0.5, 2.0)]),
        ]),
        "refused 14 page 0",
        "refused 14 page 1",
    );
    cases.both(
        "pair-15-in-ring-0-14-in-ring-1",
        &page(&[multipolygon(
            1,
            &[&other_way(0.0, 0.0, 2.0), &other_way(0.5, 0.5, 1.0)],
        )]),
        "refused 14 page 0",
        "refused 14 page 1",
    );
    // 15 and 16.
    cases.both(
        "pair-15-and-16",
        &page(&[multipolygon(1, &[&other_way(1.0, 1.0, 2.0)])]).with_bounds([0; 4]),
        "refused 15 page 0",
        "refused 15 page 1",
    );
    cases.both(
        "pair-12-and-16",
        &page(&[point(1, nan, 5.0)]).with_bounds([0; 4]),
        "refused 12 page 0",
        "refused 12 page 1",
    );
    cases.both(
        "pair-13-and-16",
        &page(&[polygon(
            1,
            &[&[(1.0, 1.0), (1.0, 5.0), (5.0, 5.0), (5.0, 1.0)]],
        )])
        .with_bounds([0; 4]),
        "refused 13 page 0",
        "refused 13 page 1",
    );
    cases.both(
        "pair-14-and-16",
        &page(&[multipolygon(1, &[&clockwise(0.5, 0.5, 2.0)])]).with_bounds([0; 4]),
        "refused 14 page 0",
        "refused 14 page 1",
    );
}

/// All cases of this file.
pub fn all(cases: &mut Cases) {
    frame_pairs(cases);
    frame_in_order(cases);
    frame_over_contents(cases);
    contents_in_order(cases);
    contents_pairs(cases);
}
