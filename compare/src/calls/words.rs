//! Words for what is counted and shown, alike for all calls.

use crate::definition::codes::{states_of, DUTIES, VERDICTS};
use crate::definition::columns::{columns, Column};
use crate::definition::values::Definition;

/// The names under which refusals are counted, each at its number.
#[rustfmt::skip]
pub const REFUSALS: [&str; 10] = [
    "accepted", "refused 1", "refused 2", "refused 3", "refused 4", "refused 5", "refused 6", "refused 7", "refused 8",
    "refused 9",
];

/// The columns of verdicts and duties.
pub const EVENTS: &[&str] = &["explained", "unexplained", "not judged", "none", "Home", "Requester", "lost", "discarded"];

/// The counts of verdicts and duties.
pub fn counts_of(told: impl Iterator<Item = (u8, u8)>) -> Vec<(&'static str, u64)> {
    let mut counts: Vec<(&str, u64)> = VERDICTS.iter().chain(&DUTIES).map(|name| (*name, 0)).collect();
    for (verdict, duty) in told {
        counts[usize::from(verdict)].1 += 1;
        counts[VERDICTS.len() + usize::from(duty)].1 += 1;
    }
    counts
}

/// A byte with the name at its place in a list, if it has one.
pub fn named(byte: u8, names: &[&str]) -> String {
    format!("{byte} {}", names.get(usize::from(byte)).unwrap_or(&"unknown"))
}

/// A set by its byte and the names of its states.
pub fn set(set: u8) -> String {
    format!("{set} {{{}}}", states_of(set).join(" "))
}

/// The names that the columns of a sheet have for an event's bytes.
pub fn names_of(definition: &Definition, event: &[u8]) -> String {
    let name = |column: Column| format!("{} {}", column.name, column.name_in(event).unwrap_or("unknown"));
    columns(definition).into_iter().map(name).collect::<Vec<String>>().join(", ")
}
