//! The generators and the corpus by themselves, with second/ as the judge.

use comparing::call::{bytes_in, bytes_of, list_of, Arg, Call, Outcome};
use comparing::calls::column_read;
use comparing::corpus::{gather, line, record, too_large};
use comparing::expected::expected;
use comparing::face;
use comparing::gen::aimed;
use comparing::gen::draft::draft;
use comparing::gen::encode::encode;
use comparing::gen::plan::{plan, Plan, PAGE_FAULTS};
use comparing::gen::{run_cases, tiny_cases};
use comparing::gen::floats::{SIGN, SUBNORMAL};
use comparing::gen::values::{values, SORTS};
use comparing::judge::word_text;
use comparing::rng::Rng;
use comparing::signature::{Service, SERVICES};
use comparing::sink::{Sink, Stop};
use comparing::sites::{self, Site, FROM_START, SITES};
use comparing::text::{call_text, read_call};
use comparing::worked;

#[test]
fn the_encoder_agrees_with_second_at_its_width() {
    let mut ties = 0;
    for index in 0..600 {
        let mut rng = Rng::of_case(1, 50, index);
        let list = values(&mut rng, index as usize % SORTS.len(), 1 + index as usize % 40);
        let width = second::column::best_width(&list);
        assert_eq!(encode(&list, width, &|_| false), second::column::bytes_of(&list));
        for other in [0, 1, 31, 63, 64] {
            let form = encode(&list, other, &|k| k % 3 == 1);
            assert_eq!(second::column::values_of(&form, list.len()), Ok(list.clone()));
        }
        let least = second::column::s_of(&list, width);
        ties += usize::from((width + 1..=64).any(|n| second::column::s_of(&list, n) == least));
    }
    assert!(ties > 10, "ties of two widths are made: {ties}");
}

#[test]
fn planned_sound_files_are_sound() {
    for index in 0..400 {
        let mut rng = Rng::of_case(2, 51, index);
        let plan = Plan { pages: index as usize % 6, ..Plan::default() };
        let draft = draft(&mut rng, &plan);
        let shapes: usize = draft.shapes.iter().map(|page| page.len()).sum();
        assert_eq!(face::check(&draft.bytes), shapes as u64, "index {index}");
    }
}

#[test]
fn planned_faults_give_their_number_on_their_page() {
    for (turn, number) in PAGE_FAULTS.iter().enumerate() {
        for place in 0..3 {
            let mut exactly = 0;
            for round in 0..40 {
                let index = 4 * (turn + 13 * place + 39 * round) as u64 + 1;
                let mut rng = Rng::of_case(3, 52, index);
                let plan = plan(&mut rng, index);
                assert_eq!(plan.faults[0].0, *number);
                let word = face::check(&draft(&mut rng, &plan).bytes);
                let low = word & 0xFF_FFFF_FFFF; // without column and index
                exactly += usize::from(low == (*number as u64) << 32 | plan.faults[0].1 as u64);
            }
            assert!(exactly >= 8, "number {number} place {place}: {exactly} of 40");
        }
    }
}

#[test]
fn a_call_is_read_from_its_text() {
    let corpus = gather(4);
    for (call, _) in &corpus.cases {
        assert_eq!(read_call(&call_text(call)).as_ref(), Some(call));
    }
    assert_eq!(read_call("service boundary_check\nslice file elements 1 bytes-each 1\n  0g\n"), None);
    assert_eq!(read_call("service boundary_check\nnumber file 3\n"), None);
}

/// A call from its record of the corpus.
fn call_of(mut bytes: &[u8]) -> Call {
    let mut next = |count: usize| {
        let (start, rest) = bytes.split_at(count);
        bytes = rest;
        start.to_vec()
    };
    let service: Service = SERVICES[usize::from(next(1)[0])];
    let mut args = Vec::new();
    for param in service.params() {
        if param.size == 0 {
            args.push(Arg::Number(u64::from_le_bytes(next(8).try_into().expect("eight bytes"))));
        } else {
            let count = u32::from_le_bytes(next(4).try_into().expect("four bytes"));
            args.push(Arg::Slice(next(count as usize * param.size)));
        }
    }
    assert!(bytes.is_empty());
    Call { service, args }
}

#[test]
fn the_corpus_can_be_read_again_and_is_within_its_sizes() {
    let corpus = gather(6);
    assert!(corpus.cases.len() >= 500 && corpus.cases.len() <= 800);
    let (mut input, mut output) = (0, 0);
    for (call, outcome) in &corpus.cases {
        let record = record(call);
        assert!(record.len() <= 60_000);
        assert_eq!(&call_of(&record), call);
        let text = line(call, outcome);
        assert_eq!(text, line(call, &expected(call)));
        assert_eq!(text.trim_end().split(' ').count(), 5 + call.service.params().iter().filter(|p| p.writable).count());
        input += 4 + record.len();
        output += text.len();
    }
    assert!(input < 600_000 && output < 600_000, "{input} in, {output} out");
    assert!(corpus.missing().iter().all(|cell| too_large(cell.service, cell.number)));
    assert_eq!(corpus.missing().len(), 4);
}

#[test]
fn the_same_seed_gives_the_same_cases() {
    let first = gather(4).cases;
    assert_eq!(first, gather(4).cases);
    assert_ne!(first, gather(6).cases);
}

#[test]
fn the_worked_numbers_are_those_of_the_document() {
    let words: Vec<u64> = worked::calls().iter().map(|call| expected(call).word).collect();
    let (three, six, fourteen) = (3 << 32, 6 << 32, 14 << 32);
    // Check; everything, (10,10), (10.5,5), (-0,0), the window, count and search; fetches.
    assert_eq!(words[..11], [4, 4, 4, 1, 1, 0, 0, 1, 1, 1, 1]);
    assert_eq!(words[11..16], [5, 1, 2, 0, 17 << 32]);
    // Column write, read and step of 2,048 and 2,049; page and file of the same.
    assert_eq!([words[17], words[18], words[19], words[20], words[21]], [three, 2048, three, 1, three]);
    assert_eq!(words[22..26], [0, 1, six, six]);
    // The grid: 2^24 both ways, 2^24 + 1 both ways, 0.5; page and file.
    assert_eq!(words[26..36], [0, 1, 0, 1, fourteen, fourteen, fourteen, fourteen, fourteen, fourteen]);
    let window = expected(&worked::calls()[10]);
    assert_eq!(window.list::<u32>(2)[0], 0);
}

/// The word of a refusal on page 0, as boundary.h has it.
const fn told(number: u64, column: u64, index: u64) -> u64 {
    index << 42 | column << 40 | number << 32
}

#[test]
fn the_greatest_index_is_told() {
    let words: Vec<u64> = worked::calls()[36..].iter().map(|call| expected(call).word).collect();
    // Cut in the last byte, a byte left over, a fill bit: two steps, then a file by its x and by its y.
    assert_eq!(words[..4], [told(9, 0, 2041), told(9, 0, 2048), told(9, 1, 2041), told(9, 2, 2041)]);
    assert_eq!(words[4..8], [1, told(9, 0, 2048), told(9, 1, 2048), told(9, 2, 2048)]);
    assert_eq!(words[8..], [1, told(10, 0, 2048), told(10, 1, 2048), told(10, 2, 2048)]);
}

/// The document's column of 0, 2^40, 2^40 + 1: its values end at the bits 72,
/// 138 and 140 of 144.
const WORKED: [u8; 18] = [2, 0, 0, 0, 0, 0, 0, 0, 0, 3, 0, 0, 0, 0, 4, 0, 0, 8];

#[test]
fn a_site_is_found_where_the_column_stops() {
    let mut over = WORKED.to_vec();
    over.push(0);
    let mut filled = WORKED.to_vec();
    filled[17] |= 0x10;
    let cases: [(&[u8], usize, Site, u64); 12] = [
        (&[65; 18], 3, Site::WidthOver, 0),
        (&[], 3, Site::NoWidth, 0),
        (&WORKED[..1], 3, Site::FirstCut, 0),
        (&WORKED[..8], 3, Site::FirstCut, 0),
        (&WORKED[..9], 3, Site::EntryCut, 1),
        (&WORKED[..10], 3, Site::MarkedCut, 1),
        (&WORKED[..17], 3, Site::MarkedCut, 1),
        (&WORKED, 9, Site::EntryCut, 5),
        (&WORKED, 1, Site::LeftOver, 1),
        (&over, 3, Site::LeftOver, 3),
        (&filled, 3, Site::Fill, 3),
        (&[0], 0, Site::LeftOver, 0),
    ];
    for (column, n, site, index) in cases {
        assert_eq!(sites::of_column(column, n), (site, index), "{} bytes of {n}", column.len());
        let read = expected(&column_read(column, n as u64, n));
        assert_eq!(read.word, told(site.refusal() as u64, 0, index), "{} bytes of {n}", column.len());
    }
}

#[test]
fn a_column_aimed_at_a_site_is_refused_there() {
    let mut missed = 0;
    for index in 0..1400 {
        let mut rng = Rng::of_case(8, 53, index);
        let list = values(&mut rng, index as usize % SORTS.len(), 3 + index as usize % 30);
        let site = SITES[index as usize % FROM_START];
        let column = aimed::column(&mut rng, &list, site);
        match second::column::values_of(&column, list.len()) {
            Ok(own) => {
                assert_eq!(own, list, "a column that has no such site is left whole");
                missed += 1;
            }
            Err(_) => assert_eq!(sites::of_column(&column, list.len()).0, site, "index {index}"),
        }
    }
    assert!(missed < 40, "{missed} of 1,400 are not refused");
}

#[test]
fn a_word_is_told_in_full() {
    assert_eq!(word_text(5), "0x0000000000000005 (says 5)");
    assert_eq!(word_text(told(9, 2, 2048) | 7), "0x0020020900000007 (refused 9 page 7 column y index 2048)");
    assert_eq!(word_text(told(11, 0, 0)), "0x0000000b00000000 (refused 11 page 0 column none index 0)");
    // A bit that should not be there, with a number and without one.
    assert_eq!(word_text(told(2, 0, 4096)), "0x0040000200000000 (refused 2 page 0 column none index 4096)");
    assert_eq!(word_text(told(0, 1, 0)), "0x0000010000000000 (refused 0 page 0 column x index 0)");
}

/// A taker of calls whose fetches give one vertex wrong, if told so: what
/// both implementations would say if they were wrong in the same way.
struct WrongFetch {
    wrong: bool,
    fetches: usize,
    against: usize,
}

impl Sink for WrongFetch {
    fn call(&mut self, call: Call) -> Result<Outcome, Stop> {
        let mut outcome = expected(&call);
        if call.service == Service::Fetch {
            self.fetches += 1;
            if let (true, Arg::Slice(xs)) = (self.wrong, &mut outcome.args[4]) {
                if let Some(byte) = xs.first_mut() {
                    *byte ^= 1;
                }
            }
        }
        Ok(outcome)
    }

    fn against(&mut self, _call: Call, _why: String) -> Stop {
        self.against += 1;
        Stop
    }

    fn kind(&mut self, _kind: &str) {}
}

#[test]
fn written_files_are_held_against_the_shapes_handed_in() {
    for wrong in [false, true] {
        let mut sink = WrongFetch { wrong, fetches: 0, against: 0 };
        for index in 0..60 {
            let mut rng = Rng::of_case(5, 2, index);
            let stopped = run_cases::case(&mut sink, &mut rng, index).is_err();
            assert!(wrong || !stopped, "index {index}");
        }
        assert!(sink.fetches > 20, "{} fetches", sink.fetches);
        assert_eq!(sink.against > 20, wrong, "{} findings", sink.against);
    }
}

/// A taker of calls that counts the numbers of the checks, the reversed
/// queries, and the counts and written boxes that turn on a subnormal.
#[derive(Default)]
struct AboutZero {
    checks: [usize; 19],
    reversed: usize,
    counts: usize,
    boxes: usize,
}

/// The pattern that a machine takes for it when it takes subnormals for zero.
fn flushed(pattern: u64) -> u64 {
    if pattern & !SIGN <= SUBNORMAL {
        pattern & SIGN
    } else {
        pattern
    }
}

/// A list with its subnormals taken for zero, as bytes.
fn flushed_bytes(bytes: &[u8]) -> Vec<u8> {
    bytes_of(&list_of::<u64>(bytes).into_iter().map(flushed).collect::<Vec<u64>>())
}

impl Sink for AboutZero {
    fn call(&mut self, call: Call) -> Result<Outcome, Stop> {
        let outcome = expected(&call);
        match call.service {
            Service::Check => self.checks[outcome.number()] += 1,
            Service::Count if call.bytes(0).len() > 6 => {
                let other = [&call.bytes(0)[..6], &flushed_bytes(&call.bytes(0)[6..])].concat();
                let turns = face::count(&other, call.bytes(1)) != outcome.word;
                self.reversed += usize::from(turns && outcome.number() == 1);
                self.counts += usize::from(turns && outcome.good());
            }
            Service::Page if outcome.good() => {
                let at = call.list::<u64>(0)[0] as usize + 12;
                let stored = &bytes_in(&outcome.args, 1)[at..at + 32];
                self.boxes += usize::from(flushed_bytes(stored) != stored);
            }
            _ => {}
        }
        Ok(outcome)
    }

    fn against(&mut self, _call: Call, _why: String) -> Stop {
        Stop
    }

    fn kind(&mut self, _kind: &str) {}
}

#[test]
fn cases_about_zero_turn_on_subnormals() {
    let mut sink = AboutZero::default();
    for index in 0..160 {
        let mut rng = Rng::of_case(7, 3, index);
        assert!(tiny_cases::case(&mut sink, &mut rng, index).is_ok(), "index {index}");
    }
    let checks: Vec<usize> = [0, 7, 13, 14, 16].iter().map(|number| sink.checks[*number]).collect();
    assert!(checks.iter().all(|count| *count >= 10), "{checks:?}");
    let others = [sink.reversed, sink.counts, sink.boxes];
    assert!(others.iter().all(|count| *count >= 60), "{others:?}");
}
