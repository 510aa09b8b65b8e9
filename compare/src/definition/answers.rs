//! Every answer that the cache could have given, listed in a lent room.

use crate::definition::codes::{byte, place_of, STATES, STATE_NOT_SEEN, TAG_NOT_SEEN};
use crate::definition::columns::{columns, Column};
use crate::definition::event::{refusal_within, ACCEPTED};
use crate::definition::rows::Row;
use crate::definition::steps::permitted;
use crate::definition::values::Definition;
use std::collections::BTreeSet;

/// The refusal of a list that is longer than the room lent for it.
pub const NO_ROOM: u8 = 9;

/// The place in a question of the state before; the bytes ahead of it are those that an event begins with.
pub const BEFORE: usize = byte::TAG + 1;
/// How many bytes a question has.
pub const QUESTION_BYTES: usize = BEFORE + 1;

/// What is answered to a question.
#[derive(Clone, Debug, PartialEq, Eq)]
pub struct Listed {
    /// 0 when accepted, else the number of the refusal.
    pub refusal: u8,
    /// How many answers are listed.
    pub count: usize,
    /// The room that was lent, as it is after the call.
    pub room: Vec<u8>,
}

/// The answer to a question, for whose list a room is lent.
pub fn list(definition: &Definition, question: &[u8], room: &[u8]) -> Listed {
    let refused = |refusal| Listed { refusal, count: 0, room: room.to_vec() };
    let refusal = refusal(definition, question);
    if refusal != ACCEPTED {
        return refused(refusal);
    }
    let answers = answers(definition, question);
    let bytes = answers.concat();
    match room.get(bytes.len()..) {
        Some(past) => Listed { refusal, count: answers.len(), room: [&bytes[..], past].concat() },
        None => refused(NO_ROOM),
    }
}

/// The highest value in the range of each byte of a question, whose tag state and state before are always seen.
pub fn limits(definition: &Definition) -> Vec<u8> {
    [&definition.limits[..byte::TAG], &[TAG_NOT_SEEN - 1, STATE_NOT_SEEN - 1]].concat()
}

/// The refusal of a question for what it asks, or 0.
fn refusal(definition: &Definition, question: &[u8]) -> u8 {
    refusal_within(definition, &limits(definition), question)
}

/// All the questions in range.
pub fn all_questions(definition: &Definition) -> Vec<Vec<u8>> {
    let requests = definition.requests.iter().map(|(_, code)| *code).collect();
    let others = limits(definition).into_iter().skip(1).map(|limit| (0..=limit).collect());
    one_at_each_place([requests].into_iter().chain(others))
}

/// How many bytes an answer has, which are those of an event that a question has not.
pub fn answer_bytes(definition: &Definition) -> usize {
    definition.event_bytes() - byte::CHANNEL
}

/// Every answer to a question in range that is permitted, each once and in ascending order.
pub fn answers(definition: &Definition, question: &[u8]) -> Vec<Vec<u8>> {
    let (begin, before) = (&question[..BEFORE], question[BEFORE]);
    let is_permitted = |answer: &Vec<u8>| {
        let event = [begin, answer].concat();
        permitted(definition, &event, event[byte::TAG], before, event[byte::AFTER])
    };
    let is_for = |row: &&Row| row.before.contains(&before) && definition.requests_of(row.table).contains(&begin[byte::REQUEST]);
    let rows = definition.rows.iter().filter(is_for);
    let answers: BTreeSet<Vec<u8>> = rows.flat_map(|row| answers_of(definition, row)).filter(is_permitted).collect();
    answers.into_iter().collect()
}

/// Every answer that has what a row names, and anything in range where the row names nothing.
pub fn answers_of(definition: &Definition, row: &Row) -> Vec<Vec<u8>> {
    one_at_each_place((byte::CHANNEL..definition.event_bytes()).map(|place| match place {
        byte::CHANNEL..=byte::FWD_STATE => vec![row.response.bytes()[place - byte::CHANNEL]],
        byte::FORWARDED | byte::FORWARDED_RESP => vec![row.forward.bytes()[place - byte::FORWARDED]],
        byte::AFTER => row.after.clone(),
        _ => (0..=definition.limits[place]).collect(),
    }))
}

/// All bytes that have one of the values of each place at that place.
fn one_at_each_place(places: impl Iterator<Item = Vec<u8>>) -> Vec<Vec<u8>> {
    places.fold(vec![vec![]], |begun, values| {
        let longer = |bytes: Vec<u8>| values.iter().map(|value| [&bytes[..], &[*value]].concat()).collect::<Vec<Vec<u8>>>();
        begun.into_iter().flat_map(longer).collect()
    })
}

/// The question that words of a sheet ask, the state before being the last, if that is a question in range.
pub fn question_in_words(definition: &Definition, words: &[&str]) -> Option<Vec<u8>> {
    let (before, begin) = words.split_last()?;
    let columns: Vec<Column> = columns(definition).into_iter().filter(|column| column.place <= byte::TAG).collect();
    let mut question = Vec::new();
    for (column, word) in columns.iter().zip(begin) {
        question.extend(column.bytes(word)?);
    }
    question.push(place_of(&STATES, before)?);
    (words.len() == QUESTION_BYTES && refusal(definition, &question) == ACCEPTED).then_some(question)
}

/// The list of a question in the words of a sheet: the names of the columns, and a line for each answer.
pub fn list_in_words(definition: &Definition, question: &[u8]) -> String {
    let columns: Vec<Column> = columns(definition).into_iter().filter(|column| column.place > byte::TAG).collect();
    let names: Vec<&str> = columns.iter().map(|column| column.name).collect();
    let mut text = names.join(",") + "\n";
    for answer in answers(definition, question) {
        let event = [&question[..BEFORE], &answer].concat();
        let words = columns.iter().map(|column| column.name_in(&event).expect("what a row names has a name"));
        text += &(words.collect::<Vec<&str>>().join(",") + "\n");
    }
    text
}
