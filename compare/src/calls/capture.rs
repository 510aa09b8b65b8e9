//! A binary capture answered by a program.

use crate::calls::words::{counts_of, EVENTS, REFUSALS};
use crate::cases::captures::captures;
use crate::cases::kinds::{Case, Cases};
use crate::definition::capture::{answer, record_bytes, records_in};
use crate::definition::values::Definition;
use crate::running::arrival::Arrival;
use crate::running::call::{Answer, Call, Feeding, Right};
use crate::running::report::shown;

/// The most bytes of a capture that arrives in every way, as its mark may arrive in pieces.
const SHORT: usize = 8;

/// The call of a capture: a mark and records are answered with lines, and what stops the run is said on standard error.
pub const CALL: Call = Call {
    name: "capture",
    things: "captures",
    // Since Q-6 every pair number is a pair, so that 3 comes at earlier stages alone.
    columns: &[&["events", "accepted", "refused 1", "refused 3", "refused 4", "refused 5", "cut"], EVENTS],
    summary: &["events"],
    random: 120,
    cases: captures,
    feeding: Feeding::RunEach(arrivals),
    right,
    given: |_, _| Vec::new(),
    told,
};

/// The right answer.
fn right(definition: &Definition, capture: &[u8]) -> Right {
    let own = answer(definition, capture);
    let (complaint, status) = (own.message().into_bytes(), i32::from(own.stop.is_some()));
    let outcome = match own.stop {
        None => "accepted",
        Some((0, _)) => "cut",
        Some((number, _)) => REFUSALS[usize::from(number)],
    };
    let mut counts = counts_of(own.told.into_iter());
    let records = records_in(definition, capture).unwrap_or(&[]);
    counts.extend([("events", (records.len() / record_bytes(definition)) as u64), (outcome, 1)]);
    Right { answer: Answer { output: own.output, complaint, status }, other_way: None, counts }
}

/// The ways in which a capture arrives, or the first of them.
fn arrivals(cases: &Cases, number: u64, case: &Case, once: bool) -> Vec<Arrival> {
    use Arrival::{File, Named, Pauses, Pipe};
    let turn = number as usize;
    let arrivals = match cases.kinds[case.kind].name {
        _ if case.input.len() <= SHORT => vec![Pipe, Pauses, File, Named],
        "the samples" => vec![Pipe, Named],
        "marks" | "whole parts" | "long" => vec![[Pipe, File][turn % 2], [Named, Pauses][turn % 2]],
        _ => vec![[Pipe, Named, Pipe, File, Named, Pipe, Pauses][turn % 7]],
    };
    arrivals[..if once { 1 } else { arrivals.len() }].to_vec()
}

/// The lines of an output.
fn told(_: &Definition, _: &[u8], output: &[u8]) -> Vec<(String, String)> {
    let lines = output.split_inclusive(|byte| *byte == b'\n').enumerate();
    lines.map(|(n, line)| (format!("line {}", n + 1), shown(line))).collect()
}
