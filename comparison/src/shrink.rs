//! Makes a differing call smaller, greedily, while it still differs: first by
//! what it means (pages, shapes, vertices, values), then by bare elements.

use crate::call::{Arg, Call};
use crate::shrink_columns;
use crate::shrink_files;
use crate::shrink_pages;
use crate::signature::Service;
use std::time::{Duration, Instant};

/// No case is shrunk for longer.
const MOST_TIME: Duration = Duration::from_secs(5);

/// The work under way.
struct Work<'a> {
    call: Call,
    differs: &'a dyn Fn(&Call) -> bool,
    until: Instant,
}

impl Work<'_> {
    /// Takes a candidate if it still differs.
    fn attempt(&mut self, candidate: Call) -> bool {
        if Instant::now() > self.until || candidate == self.call || !(self.differs)(&candidate) {
            return false;
        }
        self.call = candidate;
        true
    }

    /// Smaller calls by what the call means.
    fn by_meaning(&mut self) -> bool {
        let mut any = false;
        let mut turn = 0;
        loop {
            let list = match self.call.service {
                Service::Check | Service::Count | Service::Search | Service::Fetch => {
                    shrink_files::candidates(&self.call, turn)
                }
                Service::Page => shrink_pages::candidates(&self.call, turn),
                Service::ColumnWrite | Service::ColumnRead => shrink_columns::candidates(&self.call, turn),
                _ => None,
            };
            let list = match list {
                Some(list) if Instant::now() <= self.until => list,
                _ => return any,
            };
            let mut taken = false;
            for candidate in list {
                if self.attempt(candidate) {
                    taken = true;
                    break;
                }
            }
            any |= taken;
            if !taken {
                turn += 1;
            }
        }
    }

    /// Drops runs of elements from each slice, long runs first.
    fn by_elements(&mut self) -> bool {
        let mut any = false;
        for (k, param) in self.call.service.params().iter().enumerate() {
            let mut run = self.call.bytes(k).len() / param.size.max(1);
            while run > 0 && param.size > 0 {
                let mut at = 0;
                while at + run * param.size <= self.call.bytes(k).len() {
                    let mut shorter = self.call.clone();
                    if let Arg::Slice(bytes) = &mut shorter.args[k] {
                        bytes.drain(at..at + run * param.size);
                    }
                    if self.attempt(shorter) {
                        any = true;
                    } else {
                        at += run * param.size;
                    }
                }
                run /= 2;
            }
        }
        any
    }

    /// Makes numbers and elements plainer: 0, else 1, else half.
    fn by_values(&mut self) -> bool {
        let mut any = false;
        for (k, param) in self.call.service.params().iter().enumerate() {
            if let Arg::Number(number) = self.call.args[k] {
                for less in [0, 1, number / 2, number.saturating_sub(1)] {
                    let mut plainer = self.call.clone();
                    plainer.args[k] = Arg::Number(less);
                    any |= less < number && self.attempt(plainer);
                }
                continue;
            }
            if param.size < 2 {
                continue;
            }
            for at in (0..self.call.bytes(k).len()).step_by(param.size) {
                let mut plainer = self.call.clone();
                if let Arg::Slice(bytes) = &mut plainer.args[k] {
                    bytes[at..at + param.size].fill(0);
                }
                any |= self.attempt(plainer);
            }
        }
        any
    }
}

/// The smallest call found that still differs.
pub fn shrink(call: Call, differs: &dyn Fn(&Call) -> bool) -> Call {
    let mut work = Work { call, differs, until: Instant::now() + MOST_TIME };
    loop {
        let mut any = work.by_meaning();
        any |= work.by_elements();
        any |= work.by_values();
        if !any || Instant::now() > work.until {
            return work.call;
        }
    }
}
