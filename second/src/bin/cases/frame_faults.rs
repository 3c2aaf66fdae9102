//! Refusals 3 to 7 of the frame, each clause by itself.

use crate::builders::*;
use crate::list::Cases;

/// The first block: presence (4), kind (5), length 2 (4), edition (5).
pub fn first_block(cases: &mut Cases) {
    let rest = join(&[&good().block(), &end(1, 1)]);
    cases.add("04-nothing-at-all", vec![], "refused 4 page 0");
    cases.add("04-first-head-cut-1", FIRST[..1].to_vec(), "refused 4 page 0");
    cases.add("04-first-head-cut-4", FIRST[..4].to_vec(), "refused 4 page 0");
    cases.add("04-first-head-cut-5", FIRST[..5].to_vec(), "refused 4 page 0");
    cases.add("04-first-body-missing", FIRST[..6].to_vec(), "refused 4 page 0");
    cases.add("04-first-body-cut", FIRST[..7].to_vec(), "refused 4 page 0");
    cases.add(
        "04-first-length-past-the-file",
        join(&[&block_saying(1000, 1, &[1, 0]), &rest]),
        "refused 4 page 0",
    );
    cases.add(
        "04-first-length-all-ones",
        join(&[&block_saying(0xFFFF_FFFF, 1, &[1, 0]), &rest]),
        "refused 4 page 0",
    );
    cases.add(
        "04-first-length-wraps-at-32-bits",
        join(&[&block_saying(0xFFFF_FFFC, 1, &[1, 0]), &rest]),
        "refused 4 page 0",
    );
    cases.add(
        "04-first-length-0",
        join(&[&block(1, &[]), &rest]),
        "refused 4 page 0",
    );
    cases.add(
        "04-first-length-1",
        join(&[&block(1, &[1]), &rest]),
        "refused 4 page 0",
    );
    cases.add(
        "04-first-length-3",
        join(&[&block(1, &[1, 0, 0]), &rest]),
        "refused 4 page 0",
    );
    cases.add(
        "04-first-length-4",
        join(&[&block(1, &[1, 0, 0, 0]), &rest]),
        "refused 4 page 0",
    );
    cases.add("04-first-block-only", FIRST.to_vec(), "refused 4 page 0");
    for (name, kind) in [
        ("05-first-kind-0", 0u16),
        ("05-first-kind-2", 2),
        ("05-first-kind-3", 3),
        ("05-first-kind-4", 4),
        ("05-first-kind-256", 256),
        ("05-first-kind-257", 257),
        ("05-first-kind-65535", 65535),
    ] {
        cases.add(
            name,
            join(&[&block(kind, &[1, 0]), &rest]),
            "refused 5 page 0",
        );
    }
    for (name, edition) in [
        ("05-edition-0", [0u8, 0]),
        ("05-edition-2", [2, 0]),
        ("05-edition-256", [0, 1]),
        ("05-edition-257", [1, 1]),
        ("05-edition-65535", [255, 255]),
    ] {
        cases.add(name, join(&[&block(1, &edition), &rest]), "refused 5 page 0");
    }
    cases.add("05-page-block-first", rest.clone(), "refused 5 page 0");
    cases.add("05-end-block-first", end(0, 0), "refused 5 page 0");
    cases.add(
        "05-query-block-in-front",
        join(&[&block(4, &[]), &FIRST, &rest]),
        "refused 5 page 0",
    );
}

/// Later blocks: presence (4), kind (5).
pub fn later_blocks(cases: &mut Cases) {
    let one = good().block();
    let three = good_three().block();
    for (name, count) in [
        ("04-cut-head-1", 1usize),
        ("04-cut-head-3", 3),
        ("04-cut-head", 5),
        ("04-cut-body-all", 6),
        ("04-cut-body-at-7", 7),
        ("04-cut-body-at-40", 40),
    ] {
        cases.add(
            &format!("{name}-first"),
            join(&[&FIRST, &one[..count]]),
            "refused 4 page 0",
        );
        cases.add(
            &format!("{name}-later"),
            join(&[&FIRST, &three, &one[..count]]),
            "refused 4 page 1",
        );
        cases.add(
            &format!("{name}-third"),
            join(&[&FIRST, &three, &three, &one[..count]]),
            "refused 4 page 2",
        );
    }
    cases.add(
        "04-cut-body-last-byte-first",
        join(&[&FIRST, &one[..one.len() - 1]]),
        "refused 4 page 0",
    );
    cases.add(
        "04-cut-body-last-byte-later",
        join(&[&FIRST, &three, &one[..one.len() - 1]]),
        "refused 4 page 1",
    );
    cases.add(
        "04-no-end-block-1-page",
        join(&[&FIRST, &one]),
        "refused 4 page 1",
    );
    cases.add(
        "04-no-end-block-2-pages",
        join(&[&FIRST, &one, &three]),
        "refused 4 page 2",
    );
    let body = good().body();
    cases.both_blocks(
        "04-page-length-all-ones",
        &block_saying(0xFFFF_FFFF, 2, &body),
        "refused 4 page 0",
        "refused 4 page 1",
    );
    cases.both_blocks(
        "04-page-length-past-the-file",
        &block_saying(30_000, 2, &body),
        "refused 4 page 0",
        "refused 4 page 1",
    );
    cases.both_blocks(
        "04-page-length-top-bit",
        &block_saying(0x8000_0000 | body.len() as u32, 2, &body),
        "refused 4 page 0",
        "refused 4 page 1",
    );
    for (name, kind) in [
        ("05-kind-0", 0u16),
        ("05-kind-1", 1),
        ("05-kind-4", 4),
        ("05-kind-5", 5),
        ("05-kind-258", 258),
        ("05-kind-259", 259),
        ("05-kind-512", 512),
        ("05-kind-65535", 65535),
    ] {
        cases.both_blocks(
            name,
            &block(kind, &body),
            "refused 5 page 0",
            "refused 5 page 1",
        );
    }
    cases.both_blocks(
        "05-first-block-again",
        &FIRST,
        "refused 5 page 0",
        "refused 5 page 1",
    );
    cases.both_blocks(
        "05-kind-4-empty-body",
        &block(4, &[]),
        "refused 5 page 0",
        "refused 5 page 1",
    );
    cases.add(
        "05-kind-0-at-the-end",
        join(&[&FIRST, &one, &three, &block(0, &[2, 0, 0, 0, 4, 0, 0, 0])]),
        "refused 5 page 2",
    );
}

/// A page block's lengths (4): at least 38 bytes, exact length.
pub fn page_lengths(cases: &mut Cases) {
    let body = good_three().body();
    for (name, count) in [
        ("04-page-body-0", 0usize),
        ("04-page-body-1", 1),
        ("04-page-body-5", 5),
        ("04-page-body-6", 6),
        ("04-page-body-37", 37),
        ("04-page-body-38", 38),
        ("04-page-body-39", 39),
        ("04-page-ends-in-registers", 49),
        ("04-page-ends-in-types", 52),
        ("04-page-ends-in-part-counts", 58),
        ("04-page-ends-in-part-lengths", 61),
        ("04-page-ends-before-cx", 63),
        ("04-page-ends-in-cx", 65),
        ("04-page-ends-before-cy", 67),
        ("04-page-ends-in-cy", 70),
        ("04-page-ends-after-cy", 71),
        ("04-page-ends-in-x-column", 80),
    ] {
        // g = 3, p = 2: registers from 38, types from 50, part counts from
        // 53, part lengths from 59, cx at 63, cy at 67, columns from 71.
        cases.both_blocks(
            name,
            &block(2, &body[..count]),
            "refused 4 page 0",
            "refused 4 page 1",
        );
    }
    cases.both_blocks(
        "04-page-one-byte-less",
        &block(2, &body[..body.len() - 1]),
        "refused 4 page 0",
        "refused 4 page 1",
    );
    cases.both_blocks(
        "04-page-one-byte-more",
        &block(2, &join(&[&body, &[0]])),
        "refused 4 page 0",
        "refused 4 page 1",
    );
    // Point: both columns have 9 bytes.
    for (name, cx, cy) in [
        ("04-cx-one-more", 10u32, 9u32),
        ("04-cx-one-less", 8, 9),
        ("04-cy-one-more", 9, 10),
        ("04-cy-one-less", 9, 8),
        ("04-cx-cy-zero", 0, 0),
        ("04-cx-all-ones", 0xFFFF_FFFF, 9),
        ("04-cy-all-ones", 9, 0xFFFF_FFFF),
        ("04-cx-cy-all-ones", 0xFFFF_FFFF, 0xFFFF_FFFF),
        ("04-cx-cy-wrap-at-32-bits", 0xFFFF_FFFF, 19),
        ("04-cx-cy-halves-wrap-at-32-bits", 0x8000_0009, 0x8000_0009),
        ("04-cx-cy-no-wrap-at-16-bits", 0x0001_0009, 9),
    ] {
        cases.both(
            name,
            &good().with_cx_cy(cx, cy),
            "refused 4 page 0",
            "refused 4 page 1",
        );
    }
    cases.both_blocks(
        "04-page-none-one-byte-more",
        &block(2, &join(&[&none().body(), &[0]])),
        "refused 4 page 0",
        "refused 4 page 1",
    );
}

/// A page block's counts (6).
pub fn page_counts(cases: &mut Cases) {
    let nobody = Page {
        g: 0,
        v: 0,
        p: 0,
        bounds: [0; 4],
        registers: vec![],
        types: vec![],
        part_counts: vec![],
        part_lengths: vec![],
        cx: 0,
        cy: 0,
        x: vec![],
        y: vec![],
    };
    cases.both("06-g-0", &nobody, "refused 6 page 0", "refused 6 page 1");
    let mut many = Vec::new();
    for k in 0..257 {
        many.push(empty(k));
    }
    cases.both(
        "06-g-257",
        &page(&many),
        "refused 6 page 0",
        "refused 6 page 1",
    );
    let long: Vec<Vertex> = (0..2049).map(|k| (f64::from(k), f64::from(k))).collect();
    cases.both(
        "06-v-2049",
        &page(&[line(1, &long)]),
        "refused 6 page 0",
        "refused 6 page 1",
    );
    let mut two_parts = page(&[multipoint(1, &[(1.0, 2.0)])]).with_counts(1, 1, 2);
    two_parts.part_counts = vec![2];
    two_parts.part_lengths = vec![1, 0];
    cases.both(
        "06-p-over-v",
        &two_parts,
        "refused 6 page 0",
        "refused 6 page 1",
    );
    let mut part_at_none = none().with_counts(1, 0, 1);
    part_at_none.part_lengths = vec![0];
    cases.both(
        "06-p-1-at-none",
        &part_at_none,
        "refused 6 page 0",
        "refused 6 page 1",
    );
    let mut no_part = good().with_counts(1, 1, 0);
    no_part.part_lengths = vec![];
    cases.both(
        "06-p-0-with-a-vertex",
        &no_part,
        "refused 6 page 0",
        "refused 6 page 1",
    );
    for (name, g, v, p) in [
        ("06-g-65535", 65535u16, 1u16, 1u16),
        ("06-g-258", 258, 1, 1),
        ("06-v-65535", 1, 65535, 1),
        ("06-v-2305", 1, 2305, 1),
        ("06-p-65535", 1, 1, 65535),
        ("06-p-257", 1, 1, 257),
        ("06-all-65535", 65535, 65535, 65535),
    ] {
        cases.both(
            name,
            &good().with_counts(g, v, p),
            "refused 6 page 0",
            "refused 6 page 1",
        );
    }
}

/// A page block's box form (7).
pub fn box_form(cases: &mut Cases) {
    let infinite = f64::INFINITY.to_bits();
    let minus_infinite = f64::NEG_INFINITY.to_bits();
    let quiet = 0x7FF8_0000_0000_0000u64;
    let signalling = 0x7FF0_0000_0000_0001u64;
    let minus_quiet = 0xFFF8_0000_0000_0000u64;
    for (which, edge) in ["least-x", "least-y", "greatest-x", "greatest-y"]
        .iter()
        .enumerate()
    {
        for (what, pattern) in [
            ("nan", quiet),
            ("nan-signalling", signalling),
            ("nan-minus", minus_quiet),
            ("infinite", infinite),
            ("infinite-minus", minus_infinite),
        ] {
            cases.both(
                &format!("07-{what}-{edge}"),
                &good_three().with_bound(which, pattern),
                "refused 7 page 0",
                "refused 7 page 1",
            );
        }
        cases.both(
            &format!("07-minus-zero-at-none-{edge}"),
            &none().with_bound(which, MINUS_ZERO),
            "refused 7 page 0",
            "refused 7 page 1",
        );
        cases.both(
            &format!("07-lowest-bit-at-none-{edge}"),
            &none().with_bound(which, 1),
            "refused 7 page 0",
            "refused 7 page 1",
        );
        cases.both(
            &format!("07-nan-at-none-{edge}"),
            &none().with_bound(which, quiet),
            "refused 7 page 0",
            "refused 7 page 1",
        );
    }
    let minus_zeros = none().with_bounds([MINUS_ZERO; 4]);
    cases.both(
        "07-minus-zero-at-none",
        &minus_zeros,
        "refused 7 page 0",
        "refused 7 page 1",
    );
    let ones = none().with_bounds([1.0f64.to_bits(); 4]);
    cases.both(
        "07-box-of-ones-at-none",
        &ones,
        "refused 7 page 0",
        "refused 7 page 1",
    );
    let reversed = |a: f64, b: f64, c: f64, d: f64| {
        good().with_bounds([a.to_bits(), b.to_bits(), c.to_bits(), d.to_bits()])
    };
    for (name, faulty) in [
        ("07-reversed-x", reversed(3.0, 1.0, 2.0, 4.0)),
        ("07-reversed-y", reversed(1.0, 3.0, 4.0, 2.0)),
        ("07-reversed-both", reversed(3.0, 3.0, 2.0, 2.0)),
        ("07-reversed-negative-x", reversed(-1.0, 1.0, -2.0, 1.0)),
        ("07-reversed-negative-y", reversed(1.0, -1.0, 1.0, -2.0)),
        ("07-reversed-signs-x", reversed(1.0, 1.0, -1.0, 1.0)),
        ("07-reversed-signs-y", reversed(1.0, 1.0, 1.0, -1.0)),
        (
            "07-reversed-by-the-least-x",
            good().with_bounds([1, 0, 0, 0]),
        ),
        (
            "07-reversed-by-the-least-y",
            good().with_bounds([0, MINUS_ZERO, 0, MINUS_ZERO | 1]),
        ),
    ] {
        cases.both(name, &faulty, "refused 7 page 0", "refused 7 page 1");
    }
}

/// The end block: length 8 (4), counts (6), nothing after (4).
pub fn end_block(cases: &mut Cases) {
    let one = good().block();
    let three = good_three().block();
    let two_pages = join(&[&FIRST, &one, &three]);
    let right = [2u8, 0, 0, 0, 4, 0, 0, 0];
    for (name, count) in [
        ("04-end-length-0", 0usize),
        ("04-end-length-4", 4),
        ("04-end-length-7", 7),
    ] {
        cases.add(
            name,
            join(&[&two_pages, &block(3, &right[..count])]),
            "refused 4 page 2",
        );
    }
    cases.add(
        "04-end-length-9",
        join(&[&two_pages, &block(3, &[2, 0, 0, 0, 4, 0, 0, 0, 0])]),
        "refused 4 page 2",
    );
    cases.add(
        "04-end-length-16",
        join(&[
            &two_pages,
            &block(3, &[2, 0, 0, 0, 0, 0, 0, 0, 4, 0, 0, 0, 0, 0, 0, 0]),
        ]),
        "refused 4 page 2",
    );
    cases.add(
        "04-end-length-0-no-page",
        join(&[&FIRST, &block(3, &[])]),
        "refused 4 page 0",
    );
    cases.add(
        "04-end-cut-head",
        join(&[&two_pages, &end(2, 4)[..5]]),
        "refused 4 page 2",
    );
    cases.add(
        "04-end-cut-body",
        join(&[&two_pages, &end(2, 4)[..13]]),
        "refused 4 page 2",
    );
    cases.add(
        "04-end-cut-body-no-page",
        join(&[&FIRST, &end(0, 0)[..13]]),
        "refused 4 page 0",
    );
    for (name, pages, shapes) in [
        ("06-end-pages", 3u32, 4u32),
        ("06-end-pages-less", 1, 4),
        ("06-end-pages-0", 0, 4),
        ("06-end-shapes", 2, 5),
        ("06-end-shapes-less", 2, 3),
        ("06-end-shapes-0", 2, 0),
        ("06-end-both-zero", 0, 0),
        ("06-end-swapped", 4, 2),
        ("06-end-pages-second-byte", 0x0000_0102, 4),
        ("06-end-pages-third-byte", 0x0001_0002, 4),
        ("06-end-pages-top-byte", 0x0100_0002, 4),
        ("06-end-shapes-second-byte", 2, 0x0000_0104),
        ("06-end-shapes-third-byte", 2, 0x0001_0004),
        ("06-end-shapes-top-byte", 2, 0x8000_0004),
        ("06-end-big-endian", 0x0200_0000, 0x0400_0000),
    ] {
        cases.add(
            name,
            join(&[&two_pages, &end(pages, shapes)]),
            "refused 6 page 2",
        );
    }
    cases.add(
        "06-end-pages-no-page",
        join(&[&FIRST, &end(1, 0)]),
        "refused 6 page 0",
    );
    cases.add(
        "06-end-shapes-no-page",
        join(&[&FIRST, &end(0, 1)]),
        "refused 6 page 0",
    );
    cases.add(
        "06-end-before-its-page",
        join(&[&FIRST, &end(1, 1), &one]),
        "refused 6 page 0",
    );
    cases.add(
        "04-byte-after-the-end",
        join(&[&two_pages, &end(2, 4), &[0]]),
        "refused 4 page 2",
    );
    cases.add(
        "04-byte-after-the-end-no-page",
        join(&[&FIRST, &end(0, 0), &[0]]),
        "refused 4 page 0",
    );
    cases.add(
        "04-end-block-again",
        join(&[&two_pages, &end(2, 4), &end(2, 4)]),
        "refused 4 page 2",
    );
    cases.add(
        "04-page-after-the-end",
        join(&[&FIRST, &one, &end(1, 1), &three]),
        "refused 4 page 1",
    );
    cases.add(
        "04-file-after-a-file",
        join(&[&two_pages, &end(2, 4), &two_pages, &end(2, 4)]),
        "refused 4 page 2",
    );
}

/// A sound file of two pages with 40,960 bytes, or 40,961 bytes. Page 0 is a
/// MultiPoint of 2,048 parts: 52 + 7 + 4,096 + 2 × 16,385 = 36,925. The first
/// and end blocks have 22 bytes. Page 1 is a LineString and empty shapes:
/// 52 + 7g + 2 + 2 + 16v; for 4,013 bytes g = 3, v = 246 and for 4,014 bytes
/// g = 10, v = 243.
fn sound_of_size(empties: u32, vertices: u32) -> Vec<u8> {
    let mut many = Vec::new();
    for k in 0..2048 {
        many.push((f64::from(k), -f64::from(k)));
    }
    let mut some = Vec::new();
    for k in 0..vertices {
        some.push((f64::from(k), 0.5));
    }
    let mut shapes = vec![line(1, &some)];
    for k in 0..empties {
        shapes.push(empty(k));
    }
    file(&[&page(&[multipoint(1, &many)]), &page(&shapes)])
}

/// The file's size (3).
pub fn size(cases: &mut Cases) {
    cases.add(
        "03-40961-bytes-else-sound",
        sound_of_size(9, 243),
        "refused 3 page 0",
    );
    cases.add_library(
        "library-40961-bytes-sound",
        sound_of_size(9, 243),
        "sound 2 pages 11 shapes",
    );
    cases.add(
        "sound-40960-bytes",
        sound_of_size(2, 246),
        "sound 2 pages 4 shapes",
    );
    cases.add("03-40961-zero-bytes", vec![0; 40_961], "refused 3 page 0");
    cases.add("05-40960-zero-bytes", vec![0; 40_960], "refused 5 page 0");
    let mut follows = file(&[&good()]);
    follows.resize(40_960, 0);
    cases.add("04-40960-bytes-after-the-end", follows.clone(), "refused 4 page 1");
    follows.push(0);
    cases.add("03-40961-bytes-after-the-end", follows, "refused 3 page 0");
    cases.add("03-65536-bytes", vec![0xFF; 65_536], "refused 3 page 0");
    cases.add("03-100000-bytes", vec![0; 100_000], "refused 3 page 0");
}

/// The 1,025th page: for the library only, since the file has over 40,960
/// bytes.
pub fn library(cases: &mut Cases) {
    let one = none().block();
    let mut pages = FIRST.to_vec();
    for _ in 0..1024 {
        pages.extend_from_slice(&one);
    }
    cases.add_library(
        "library-1025",
        join(&[&pages, &one, &end(1025, 1025)]),
        "refused 3 page 1024",
    );
    cases.add_library(
        "library-1024-sound",
        join(&[&pages, &end(1024, 1024)]),
        "sound 1024 pages 1024 shapes",
    );
    cases.add_library(
        "library-1025-cut-head",
        join(&[&pages, &one[..5]]),
        "refused 4 page 1024",
    );
    cases.add_library(
        "library-1025-cut-body",
        join(&[&pages, &one[..one.len() - 1]]),
        "refused 4 page 1024",
    );
    cases.add_library(
        "library-1025-wrong-kind",
        join(&[&pages, &block(9, &none().body()), &end(1025, 1025)]),
        "refused 5 page 1024",
    );
    cases.add_library(
        "library-1025-empty-body",
        join(&[&pages, &block(2, &[]), &end(1025, 1025)]),
        "refused 3 page 1024",
    );
    cases.add_library(
        "library-1025-counts-wrong",
        join(&[
            &pages,
            &none().with_counts(0, 0, 0).block(),
            &end(1025, 1025),
        ]),
        "refused 3 page 1024",
    );
    cases.add_library(
        "library-1025-twice",
        join(&[&pages, &one, &one, &end(1026, 1026)]),
        "refused 3 page 1024",
    );
    let faulty = none().with_types(&[7]).block();
    cases.add_library(
        "library-1025-and-type-7-on-page-0",
        join(&[&FIRST, &faulty, &pages[8..], &end(1025, 1025)]),
        "refused 3 page 1024",
    );
    cases.add_library(
        "library-1024-type-7-on-the-last",
        join(&[&pages[..pages.len() - one.len()], &faulty, &end(1024, 1024)]),
        "refused 11 page 1023",
    );
}

/// All cases of this file.
pub fn all(cases: &mut Cases) {
    first_block(cases);
    later_blocks(cases);
    page_lengths(cases);
    page_counts(cases);
    box_form(cases);
    end_block(cases);
    size(cases);
    library(cases);
}
