//! Answers near the rows.

use crate::definition::answers::{all_questions, answers_of, BEFORE};
use crate::definition::codes::{byte, TAG_NOT_SEEN};
use crate::definition::event::has_a_step;
use crate::definition::rows::Row;
use crate::definition::values::Definition;
use std::collections::BTreeSet;

/// The answers in range that are an answer of some row, whatever its table, or differ from one in a single byte.
pub fn near_rows(definition: &Definition) -> Vec<Vec<u8>> {
    let of_rows: BTreeSet<Vec<u8>> = definition.rows.iter().flat_map(|row| taken_by(definition, row)).collect();
    let near: BTreeSet<Vec<u8>> = of_rows.iter().flat_map(|answer| with_another_byte(definition, answer)).collect();
    near.into_iter().collect()
}

/// The answers of a row under some tags.
fn taken_by(definition: &Definition, row: &Row) -> Vec<Vec<u8>> {
    let begin = [definition.requests_of(row.table)[0], row.ret_to_src.unwrap_or(0), 0, 0, TAG_NOT_SEEN];
    let is_taken = |answer: &Vec<u8>| has_a_step(definition, &[&begin[..], answer].concat());
    answers_of(definition, row).into_iter().filter(is_taken).collect()
}

/// An answer with every value in range at each of its places in turn.
fn with_another_byte(definition: &Definition, answer: &[u8]) -> Vec<Vec<u8>> {
    let at = |place: usize| {
        (0..=definition.limits[byte::CHANNEL + place]).map(move |value| [&answer[..place], &[value], &answer[place + 1..]].concat())
    };
    (0..answer.len()).flat_map(at).collect()
}

/// What the events of all questions in range begin with; those that differ in the state before alone begin alike.
pub fn beginnings(definition: &Definition) -> Vec<Vec<u8>> {
    let mut beginnings: Vec<Vec<u8>> = all_questions(definition).iter().map(|question| question[..BEFORE].to_vec()).collect();
    beginnings.dedup();
    beginnings
}

#[cfg(test)]
mod tests {
    use super::*;
    use crate::definition::answers::answers;
    use crate::definition::codes::holds;
    use crate::definition::event::alone;

    /// Of the answers near the rows a list has exactly those that the judgment of one event permits from its state before,
    /// and it has no others.
    #[test]
    fn lists_have_what_is_permitted() {
        let definition = Definition::now();
        let near = near_rows(&definition);
        for begin in beginnings(&definition) {
            let told: Vec<_> = near.iter().map(|answer| alone(&definition, &[&begin[..], answer].concat()).sets).collect();
            for before in 0..7 {
                let after = |answer: &[u8]| answer[byte::AFTER - byte::CHANNEL];
                let permitted = near.iter().zip(&told).filter(|(answer, sets)| holds(sets[before], after(answer)));
                let permitted: Vec<&Vec<u8>> = permitted.map(|(answer, _)| answer).collect();
                let question = [&begin[..], &[before as u8]].concat();
                assert_eq!(answers(&definition, &question).iter().collect::<Vec<_>>(), permitted, "{question:?}");
            }
        }
    }
}
