//! Every answer that the cache could have given.

use crate::calls::words::{names_of, REFUSALS};
use crate::cases::questions::questions;
use crate::cases::wire::{next_question, number, question_in, LIST_PLACE};
use crate::definition::answers::{answer_bytes, list, BEFORE};
use crate::definition::codes::byte;
use crate::definition::event::ACCEPTED;
use crate::definition::values::Definition;
use crate::running::call::{Call, Feeding, Right};

/// The call of the list of answers: a record of 648 bytes is answered with as many.
pub const CALL: Call = Call {
    name: "answers",
    things: "questions",
    columns: &[&["answers", "accepted", "empty", "refused 4", "refused 5", "refused 9"]],
    summary: &["accepted", "answers"],
    random: 24_000,
    cases: questions,
    feeding: Feeding::OneRun(next_question),
    right,
    given,
    told,
};

/// The right answer: refusal, place in three bytes, which is always 0, count in four, and the lent bytes with those past them.
fn right(definition: &Definition, record: &[u8]) -> Right {
    let (question, room, rest) = question_in(record);
    let own = list(definition, question, room);
    let count = (own.count as u32).to_le_bytes();
    let output = [&[own.refusal, 0, 0, 0], &count[..], &own.room, rest].concat();
    let empty = own.refusal == ACCEPTED && own.count == 0;
    let counts = vec![(REFUSALS[usize::from(own.refusal)], 1), ("answers", own.count as u64), ("empty", u64::from(empty))];
    Right::output(output, counts)
}

/// The bytes of the question, each with its name, and the length of the room.
fn given(_: &Definition, record: &[u8]) -> Vec<String> {
    let (question, room, _) = question_in(record);
    let byte = |(n, name): (usize, &&str)| format!("byte {n} {name}: {}", question[n]);
    let mut lines: Vec<String> = byte::NAMES[..BEFORE].iter().chain([&"state before"]).enumerate().map(byte).collect();
    lines.push(format!("{} bytes lent", room.len()));
    lines
}

/// The numbers of an answer, what it has in the place of each right one, and its bytes past these.
fn told(definition: &Definition, record: &[u8], output: &[u8]) -> Vec<(String, String)> {
    let (question, room, _) = question_in(record);
    let numbers = [("refusal", output[0].into()), ("place", number(output) >> 8), ("count", number(&output[4..]))];
    let mut told: Vec<(String, String)> = numbers.map(|(name, number)| (name.to_string(), number.to_string())).to_vec();
    let listed = list(definition, question, room).count * answer_bytes(definition);
    let (answers, past) = output[LIST_PLACE..].split_at(listed);
    for (n, answer) in answers.chunks(answer_bytes(definition)).enumerate() {
        let event = [&question[..BEFORE], answer].concat();
        told.push((format!("answer {n}"), format!("{answer:?} {}", names_of(definition, &event))));
    }
    told.extend(past.iter().enumerate().map(|(n, byte)| {
        let place = listed + n;
        let name = if place < room.len() { "room" } else { "past the room" };
        (format!("{name} at {place}"), byte.to_string())
    }));
    told
}
