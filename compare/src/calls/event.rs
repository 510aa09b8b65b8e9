//! One event judged alone.

use crate::calls::words::{named, names_of, set, REFUSALS};
use crate::cases::events::events;
use crate::cases::wire::{handed_over, next_event};
use crate::definition::codes::{byte, DUTIES, STATES};
use crate::definition::event::alone;
use crate::definition::values::Definition;
use crate::running::call::{Call, Feeding, Right};

/// The call of one event alone: a record of 41 bytes is answered with 16.
pub const CALL: Call = Call {
    name: "event",
    things: "events",
    columns: &[&["accepted", "with a step", "refused 1", "refused 4", "refused 5"]],
    summary: &["accepted", "with a step"],
    random: 1_200_000,
    cases: events,
    feeding: Feeding::OneRun(next_event),
    right,
    given,
    told,
};

/// The right answer: refusal, place, seven sets and seven duties.
fn right(definition: &Definition, record: &[u8]) -> Right {
    let alone = alone(definition, handed_over(record));
    let output = [&[alone.refusal, alone.place][..], &alone.sets, &alone.duties].concat();
    let with_a_step = alone.sets != [0; 7];
    let counts = vec![(REFUSALS[usize::from(alone.refusal)], 1), ("with a step", u64::from(with_a_step))];
    Right::output(output, counts)
}

/// The bytes handed over, each with its name, and what they say where they are an event.
fn given(definition: &Definition, record: &[u8]) -> Vec<String> {
    let bytes = handed_over(record);
    let name = |n: usize| byte::NAMES[..definition.event_bytes()].get(n).copied().unwrap_or("past an event");
    let mut lines: Vec<String> = bytes.iter().enumerate().map(|(n, byte)| format!("byte {n} {}: {byte}", name(n))).collect();
    if bytes.len() == definition.event_bytes() {
        lines.push(names_of(definition, bytes));
    }
    lines
}

/// The answer's bytes with their names.
fn told(_: &Definition, _: &[u8], output: &[u8]) -> Vec<(String, String)> {
    let mut told = vec![("refusal".to_string(), output[0].to_string()), ("place".to_string(), output[1].to_string())];
    told.extend(STATES.iter().zip(&output[2..9]).map(|(state, byte)| (format!("set from {state}"), set(*byte))));
    let duties = STATES.iter().zip(&output[9..]);
    told.extend(duties.map(|(state, byte)| (format!("duty from {state}"), named(*byte, &DUTIES))));
    told
}
