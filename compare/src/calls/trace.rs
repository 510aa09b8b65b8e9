//! A whole trace judged in one call.

use crate::calls::words::{counts_of, named, names_of, set, EVENTS, REFUSALS};
use crate::cases::traces::traces;
use crate::cases::wire::{lent_in, next_trace, number, trace_answer};
use crate::definition::codes::{DUTIES, VERDICTS};
use crate::definition::event::ACCEPTED;
use crate::definition::histories::enumerate;
use crate::definition::trace::{event_of, judge, whole_events, Lent};
use crate::definition::values::Definition;
use crate::running::call::{Call, Feeding, Right};

/// The most events of a trace whose histories are enumerated.
const MOST_ENUMERATED: usize = 4;

/// How many sets of a table are shown.
const SHOWN_SETS: usize = 32;

/// The call of a whole trace: six lengths and six parts are answered with refusal, place and the four written parts.
pub const CALL: Call = Call {
    name: "trace",
    things: "traces",
    columns: &[
        &["events", "accepted", "refused 1", "refused 2", "refused 3", "refused 4", "refused 5"],
        EVENTS,
        &["by histories", "histories"],
    ],
    summary: &["events", "by histories", "histories"],
    random: 140_000,
    cases: traces,
    feeding: Feeding::OneRun(next_trace),
    right,
    given,
    told,
};

/// The right answer, for short traces by their histories too.
fn right(definition: &Definition, case: &[u8]) -> Right {
    let lent = lent_in(case);
    let judged = judge(definition, &lent);
    let events = whole_events(definition, &lent);
    let mut counts = vec![("events", events as u64), (REFUSALS[usize::from(judged.refusal)], 1)];
    let mut right = Right::output(trace_answer(&judged), vec![]);
    if judged.refusal == ACCEPTED {
        counts.extend(counts_of(judged.lent.verdicts.iter().copied().zip(judged.lent.duties.iter().copied())));
        if events <= MOST_ENUMERATED {
            let (told, histories) = enumerate(definition, &lent);
            right.other_way = Some(("histories", trace_answer(&told)));
            counts.extend([("by histories", 1), ("histories", histories)]);
        }
    }
    Right { counts, ..right }
}

/// The lengths lent, and the events of which there are pairs.
fn given(definition: &Definition, case: &[u8]) -> Vec<String> {
    let lent = lent_in(case);
    let lengths = lent.parts().into_iter().zip(Lent::PARTS);
    let lengths: Vec<String> = lengths.map(|(part, (name, bytes))| format!("{} {name}", part.len() / bytes)).collect();
    let event = |n: usize| {
        let pair = lent.pair(n).map_or("none".to_string(), |pair| pair.to_string());
        let event = event_of(definition, &lent, n);
        format!("event {n} of pair {pair}: {event:?} {}", names_of(definition, event))
    };
    let table = &lent.table[..lent.table.len().min(SHOWN_SETS)];
    let mut lines = vec![format!("lent: {}", lengths.join(", ")), format!("the table begins {table:?}")];
    lines.extend((0..whole_events(definition, &lent)).map(event));
    lines
}

/// The answer's refusal and place, and the bytes of its four parts.
fn told(_: &Definition, case: &[u8], output: &[u8]) -> Vec<(String, String)> {
    let place = number(&output[1..]).to_string();
    let mut told = vec![("refusal".to_string(), output[0].to_string()), ("place".to_string(), place)];
    let mut rest = &output[5..];
    let lent = lent_in(case);
    for (part, (name, _)) in lent.parts().into_iter().zip(Lent::PARTS).skip(2) {
        for (n, byte) in rest[..part.len()].iter().enumerate() {
            let value = match name {
                "verdicts" => named(*byte, &VERDICTS),
                "duties" => named(*byte, &DUTIES),
                _ => set(*byte),
            };
            told.push((format!("{name} at {n}"), value));
        }
        rest = &rest[part.len()..];
    }
    told
}
