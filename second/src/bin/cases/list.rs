//! The list of cases: names, inputs and the lines expected, written by hand.

use crate::builders::{file, good, Page};

/// One case.
pub struct Case {
    pub name: String,
    pub input: Vec<u8>,
    pub expected: String,
    /// The line is the library's full check, not the program's.
    pub library: bool,
}

/// All cases so far.
#[derive(Default)]
pub struct Cases {
    pub list: Vec<Case>,
}

impl Cases {
    /// A case for the program `sound`.
    pub fn add(&mut self, name: &str, input: Vec<u8>, expected: &str) {
        self.list.push(Case {
            name: name.to_string(),
            input,
            expected: expected.to_string(),
            library: false,
        });
    }

    /// A case for the library's full check only.
    pub fn add_library(&mut self, name: &str, input: Vec<u8>, expected: &str) {
        self.list.push(Case {
            name: name.to_string(),
            input,
            expected: expected.to_string(),
            library: true,
        });
    }

    /// A faulty page as page 0 of two, and as page 1 of three; the two lines
    /// expected.
    pub fn both(
        &mut self,
        name: &str,
        faulty: &Page,
        on_first: &str,
        on_later: &str,
    ) {
        self.add(&format!("{name}-first"), file(&[faulty, &good()]), on_first);
        self.add(
            &format!("{name}-later"),
            file(&[&good(), faulty, &good()]),
            on_later,
        );
    }

    /// A faulty block in place of page 0, and in place of page 1, each with a
    /// sound page and an end block after it.
    pub fn both_blocks(
        &mut self,
        name: &str,
        faulty: &[u8],
        on_first: &str,
        on_later: &str,
    ) {
        use crate::builders::{end, join, FIRST};
        self.add(
            &format!("{name}-first"),
            join(&[&FIRST, faulty, &good().block(), &end(2, 2)]),
            on_first,
        );
        self.add(
            &format!("{name}-later"),
            join(&[&FIRST, &good().block(), faulty, &good().block(), &end(3, 3)]),
            on_later,
        );
    }
}
