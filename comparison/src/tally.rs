//! The counts of a run: cases by kind, calls by service and number, and
//! refusals by service, column and site.

use crate::call::{Call, Outcome};
use crate::judge::word_text;
use crate::possible::{can_give, can_stop, columns, MOST};
use crate::signature::{Service, SERVICES};
use crate::sites::{of_call, Found, COLUMNS, SITES};
use std::collections::BTreeMap;

/// The counts.
#[derive(Default)]
pub struct Tally {
    kinds: BTreeMap<String, u64>,
    reached: [[u64; MOST + 1]; 10],
    stopped: [[[u64; SITES.len()]; COLUMNS.len()]; 10],
    outside: Vec<String>,
}

impl Tally {
    /// One more case of a kind.
    pub fn case(&mut self, kind: &str) {
        if let Some(count) = self.kinds.get_mut(kind) {
            *count += 1;
            return;
        }
        self.kinds.insert(kind.to_string(), 1);
    }

    /// One more call. A number that the service cannot give is kept apart: it
    /// would be a fault of second/.
    pub fn call(&mut self, call: &Call, outcome: &Outcome) {
        let (service, number) = (call.service, outcome.number());
        if !can_give(service, number) {
            self.outside.push(format!("second/ gives {number} for {}", service.name()));
            return;
        }
        self.reached[service.number()][number] += 1;
        self.stop(call, outcome);
    }

    /// Counts the site of a refusal by 8, 9 or 10. What is told that the site
    /// does not have, or without a site, would be a fault of second/ too.
    fn stop(&mut self, call: &Call, outcome: &Outcome) {
        let found = of_call(call, outcome);
        let good = match &found {
            Some(found) => can_stop(call.service, found.site) && found.told_by(outcome),
            None => outcome.column() == 0 && outcome.index() == 0,
        };
        match found {
            Some(Found { site, column, .. }) if good => {
                self.stopped[call.service.number()][column][site.number()] += 1
            }
            None if good => {}
            _ => self.outside.push(format!(
                "second/ tells {} for {}, found {found:?}",
                word_text(outcome.word),
                call.service.name()
            )),
        }
    }

    /// How often a service was refused at a site (by its number) of a column.
    pub fn stopped(&self, service: Service, column: usize, site: usize) -> u64 {
        self.stopped[service.number()][column][site]
    }

    /// How often a service gave a number.
    pub fn reached(&self, service: Service, number: usize) -> u64 {
        self.reached[service.number()][number]
    }

    /// All calls.
    pub fn calls(&self) -> u64 {
        self.reached.iter().flatten().sum()
    }

    /// The numbers that can be given and were not reached, and those that
    /// cannot and were; and the same of the sites.
    pub fn missing(&self) -> Vec<String> {
        let mut lines = self.outside.clone();
        for service in SERVICES {
            for number in 0..=MOST {
                if can_give(service, number) && self.reached(service, number) == 0 {
                    lines.push(format!("{} never gave {number}", service.name()));
                }
            }
            lines.extend(self.not_stopped(service));
        }
        lines
    }

    /// The sites of a service's columns that were not reached.
    fn not_stopped(&self, service: Service) -> Vec<String> {
        let mut lines = Vec::new();
        for column in columns(service) {
            for site in SITES.iter().filter(|site| can_stop(service, **site)) {
                if self.stopped(service, *column, site.number()) == 0 {
                    let (name, site) = (service.name(), site.name());
                    lines.push(format!("{name} never stopped, column {}: {site}", COLUMNS[*column]));
                }
            }
        }
        lines
    }

    /// The cases by kind, a line each.
    pub fn kinds_text(&self) -> String {
        let mut text = String::new();
        for (kind, count) in &self.kinds {
            text.push_str(&format!("{count:>10}  {kind}\n"));
        }
        text
    }

    /// The table of numbers: a row for each, a column for each service; "."
    /// where the service cannot give it.
    pub fn table_text(&self) -> String {
        let mut text = String::from("    no.");
        for service in SERVICES {
            text.push_str(&format!("{:>13}", service.name().trim_start_matches("boundary_")));
        }
        text.push('\n');
        for number in 0..=MOST {
            text.push_str(&format!("{number:>7}"));
            for service in SERVICES {
                let cell = if can_give(service, number) {
                    self.reached(service, number).to_string()
                } else {
                    String::from(".")
                };
                text.push_str(&format!("{cell:>13}"));
            }
            text.push('\n');
        }
        text
    }

    /// The table of sites: a row for each, a column for each column of each
    /// service that can be refused there; "." where it cannot.
    pub fn sites_text(&self) -> String {
        let all = SERVICES.iter().flat_map(|service| columns(*service).iter().map(move |column| (*service, *column)));
        let all: Vec<(Service, usize)> = all.collect();
        let mut text = " ".repeat(24);
        for (service, column) in &all {
            let name = service.name().trim_start_matches("boundary_").trim_start_matches("column_");
            text.push_str(&format!("{:>11}", format!("{name} {}", COLUMNS[*column])));
        }
        text.push('\n');
        for site in SITES {
            text.push_str(&format!("{:<24}", site.name()));
            for (service, column) in &all {
                let cell = match can_stop(*service, site) {
                    true => self.stopped(*service, *column, site.number()).to_string(),
                    false => String::from("."),
                };
                text.push_str(&format!("{cell:>11}"));
            }
            text.push('\n');
        }
        text
    }
}
