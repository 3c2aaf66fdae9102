//! Smaller calls over files: pages dropped, and shapes, parts and vertices of
//! pages, with the lengths, counts and boxes changed to match.

use crate::call::{room, Arg, Call};
use crate::calls::Lists;
use crate::gen::fields::{block, Fields};
use crate::rng::Rng;
use crate::shrink_pages::{shapes_of, smaller};
use crate::signature::Service;
use second::numbers::{u16_at, u32_at};

/// The blocks of a file, as far as their lengths fit, and the bytes after.
fn blocks(file: &[u8]) -> (Vec<Vec<u8>>, Vec<u8>) {
    let mut list = Vec::new();
    let mut at = 0;
    while let Some(length) = u32_at(file, at) {
        let end = at + 6 + length as usize;
        if end > file.len() {
            break;
        }
        list.push(file[at..end].to_vec());
        at = end;
    }
    (list, file[at..].to_vec())
}

/// The blocks as a file; if the last of them is a plain end block, its counts
/// change by what was dropped.
fn joined(blocks: &[Vec<u8>], tail: &[u8], pages: u32, shapes: u32) -> Vec<u8> {
    let mut file = Vec::new();
    for (k, one) in blocks.iter().enumerate() {
        if k + 1 == blocks.len() && one.len() == 14 && one[4] == 3 {
            let counts = [
                u32_at(one, 6).unwrap_or(0).wrapping_sub(pages),
                u32_at(one, 10).unwrap_or(0).wrapping_sub(shapes),
            ];
            let body: Vec<u8> = counts.iter().flat_map(|count| count.to_le_bytes()).collect();
            file.extend(block(8, 3, &body));
        } else {
            file.extend_from_slice(one);
        }
    }
    file.extend_from_slice(tail);
    file
}

/// The files without a run of pages: halves first, then one page each.
fn without_pages(file: &[u8], turn: usize) -> Option<Vec<(Vec<u8>, u32)>> {
    let (list, tail) = blocks(file);
    let inner = list.len().saturating_sub(2);
    let run = inner.checked_shr(turn as u32)?;
    if run == 0 {
        return None;
    }
    let mut files = Vec::new();
    for start in (1..=inner).step_by(run) {
        let end = (start + run).min(inner + 1);
        let shapes = list[start..end].iter().map(|page| u32::from(u16_at(page, 6).unwrap_or(0))).sum();
        let rest = [&list[..start], &list[end..]].concat();
        files.push((joined(&rest, &tail, (end - start) as u32, shapes), shapes));
    }
    Some(files)
}

/// The lists of a page block with its columns read; none if it is damaged.
fn lists_of(page: &[u8]) -> Option<Lists> {
    let one = [block(2, 1, &[1, 0]), page.to_vec(), end_of(page)].concat();
    let frame = second::frame::frame(&one).ok()?;
    let page = frame.pages.first()?;
    Some(Lists {
        registers: page.registers.clone(),
        types: page.types.clone(),
        counts: page.part_counts.clone(),
        lens: page.part_lengths.clone(),
        xs: second::column::values_of(page.x_column, page.vertices).ok()?,
        ys: second::column::values_of(page.y_column, page.vertices).ok()?,
    })
}

/// An end block for one page alone.
fn end_of(page: &[u8]) -> Vec<u8> {
    let shapes = u32::from(u16_at(page, 6).unwrap_or(0));
    block(8, 3, &[1u32.to_le_bytes(), shapes.to_le_bytes()].concat())
}

/// The files with one page made smaller by a step of a turn; the box is made
/// anew, or kept as it was.
fn smaller_pages(file: &[u8], turn: usize) -> Option<Vec<(Vec<u8>, u32)>> {
    let (list, tail) = blocks(file);
    let mut files = Vec::new();
    let mut more = false;
    for (k, page) in list.iter().enumerate().take(40) {
        let shapes = match lists_of(page).and_then(|lists| shapes_of(&lists)) {
            Some(shapes) => shapes,
            None => continue,
        };
        for less in smaller(&shapes, turn / 2).unwrap_or_default() {
            let mut fields = Fields::of(&mut Rng::of_case(0, 0, 1), &less);
            if turn % 2 == 1 {
                let kept = &page[12..44];
                fields.bounds = [0, 1, 2, 3].map(|side| crate::call::list_of::<u64>(kept)[side]);
            }
            let mut blocks = list.clone();
            blocks[k] = fields.bytes();
            let dropped = (shapes.len() - less.len()) as u32;
            files.push((joined(&blocks, &tail, 0, dropped), dropped));
        }
        more |= turn < 12;
    }
    if more {
        Some(files)
    } else {
        None
    }
}

/// The hits that second/ counts, if the call isn't refused.
fn hits(query: &[u8], file: &[u8]) -> Option<usize> {
    let query = second::query::parse(query).ok()?;
    second::search::count(file, &query).ok()
}

/// The call over another file; for a search also with the room as much over
/// or under the hits as before, for a fetch also at the place moved along.
fn with_file(call: &Call, file: &[u8], dropped: u32) -> Vec<Call> {
    let at = if matches!(call.service, Service::Check | Service::Fetch) { 0 } else { 1 };
    let mut same = call.clone();
    same.args[at] = Arg::Slice(file.to_vec());
    let mut list = vec![same.clone()];
    if call.service == Service::Search {
        let before = hits(call.bytes(0), call.bytes(1));
        if let (Some(before), Some(now)) = (before, hits(call.bytes(0), file)) {
            let elements = (now + call.bytes(2).len() / 4).saturating_sub(before);
            same.args[2] = room::<u32>(elements);
            list.push(same);
        }
    } else if call.service == Service::Fetch {
        same.args[1] = Arg::Number(call.number(1).saturating_sub(u64::from(dropped)));
        list.push(same);
    }
    list
}

/// The candidates of a turn; none when there are no more turns.
pub fn candidates(call: &Call, turn: usize) -> Option<Vec<Call>> {
    let at = if matches!(call.service, Service::Check | Service::Fetch) { 0 } else { 1 };
    let file = call.bytes(at);
    let page_turns = 11;
    let files = if turn < page_turns {
        without_pages(file, turn).unwrap_or_default()
    } else {
        smaller_pages(file, turn - page_turns)?
    };
    Some(files.iter().flat_map(|(file, dropped)| with_file(call, file, *dropped)).collect())
}
