//! The full check.

use crate::contents::contents;
use crate::frame::frame;
use crate::refusal::Refusal;

/// What a sound file holds.
#[derive(Clone, Copy, Debug, PartialEq, Eq)]
pub struct Sound {
    pub pages: u32,
    pub shapes: u32,
}

/// "Full check: frame, then each page's contents."
pub fn full_check(file: &[u8]) -> Result<Sound, Refusal> {
    let frame = frame(file)?;
    for page in &frame.pages {
        contents(page)?;
    }
    Ok(Sound {
        pages: frame.pages.len() as u32,
        shapes: frame.shapes,
    })
}
