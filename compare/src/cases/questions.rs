//! Questions for every answer: all of them with rooms around what their lists need, sweeps, and questions drawn with and
//! without damage. The room and the bytes past it hold anything, so that each byte shows whether it was written.

use crate::cases::damage::{byte_outside, request_outside, value_past};
use crate::cases::draw::Draw;
use crate::cases::kinds::{share, Cases, Kind};
use crate::cases::wire::{question_record, LIST_ROOM};
use crate::definition::answers::{all_questions, answer_bytes, answers, limits, QUESTION_BYTES};
use crate::definition::codes::byte;
use crate::definition::values::Definition;
use std::collections::BTreeSet;
use std::sync::Arc;

/// How many rooms every question is tried with.
const ROOMS: usize = 12;
/// How often each byte goes through all its values.
const SWEEPS: usize = 8;
/// How often each choice of bytes is outside range together.
const TIMES_OUTSIDE: usize = 12;
/// How many bytes more than the longest list has are lent at most where each length is tried.
const PAST_LONGEST: usize = 39;

/// A question in range, and how many bytes its list has.
type Known = (Vec<u8>, usize);

/// Makes the question of a number out of those in range, and the length of its room.
type Make = fn(&Definition, &mut Draw, &[Known], usize) -> (Vec<u8>, usize);

/// The cases of the list of answers.
pub fn questions(definition: &Definition, seed: u64, random: u64) -> Cases {
    let with_bytes = |question: Vec<u8>| {
        let bytes = answers(definition, &question).concat().len();
        (question, bytes)
    };
    let known: Arc<Vec<Known>> = Arc::new(all_questions(definition).into_iter().map(with_bytes).collect());
    let longest = known.iter().map(|(_, bytes)| *bytes).max().unwrap_or(0);
    let tenths = |tenths| share(random, tenths, 10) as usize;
    let kind = |name, count: usize, make: Make| {
        let known = Arc::clone(&known);
        Kind::new(name, count as u64, move |definition, draw, n| {
            let (question, length) = make(definition, draw, &known, n as usize);
            (String::new(), question_record(&question, length, &draw.bytes(LIST_ROOM)))
        })
    };
    let kinds = vec![
        kind("every question", known.len() * ROOMS, every_question),
        kind("each byte value", SWEEPS * QUESTION_BYTES * 256, each_byte_value).alike(256),
        kind("several outside", (TIMES_OUTSIDE * 3) << QUESTION_BYTES, several_outside),
        kind("each length of room", 4 * (longest + PAST_LONGEST + 1), each_length),
        kind("drawn", tenths(5), in_range),
        kind("drawn, damaged", tenths(3), damaged),
        kind("anything", tenths(2), anything),
    ];
    Cases { definition: definition.clone(), seed, kinds }
}

/// Any length that a room can have.
fn any_length(draw: &mut Draw) -> usize {
    draw.place(LIST_ROOM + 1)
}

/// Every question with no room, a byte too little, just enough, more up to all there is, and about a byte too little for each answer.
fn every_question(definition: &Definition, draw: &mut Draw, known: &[Known], n: usize) -> (Vec<u8>, usize) {
    let (question, bytes) = known[n / ROOMS].clone();
    let (one, any) = (answer_bytes(definition), draw.place(LIST_ROOM - bytes));
    let (shorter, less) = (bytes - bytes / one, bytes.saturating_sub(1));
    #[rustfmt::skip]
    let rooms: [usize; ROOMS] = [
        0, less, bytes, bytes + 1, bytes + one - 1, bytes + one, bytes + any, LIST_ROOM, shorter.saturating_sub(1), shorter, shorter + 1,
        shorter + draw.place(less.saturating_sub(shorter) + 1),
    ];
    (question, rooms[n % ROOMS])
}

/// A question of which one byte has the value that this part of a sweep is for.
fn each_byte_value(_: &Definition, draw: &mut Draw, known: &[Known], n: usize) -> (Vec<u8>, usize) {
    let (mut question, _) = draw.one_of(known);
    question[n / 256 % QUESTION_BYTES] = (n % 256) as u8;
    let any = any_length(draw);
    (question, draw.one_of(&[0, any, LIST_ROOM]))
}

/// A question of which none, some or all bytes are outside their range, with no room, all there is, or any.
fn several_outside(definition: &Definition, draw: &mut Draw, known: &[Known], n: usize) -> (Vec<u8>, usize) {
    let (mut question, _) = draw.one_of(known);
    for place in (0..QUESTION_BYTES).filter(|place| n >> place & 1 == 1) {
        question[place] = match place {
            byte::REQUEST => request_outside(definition, draw),
            _ => value_past(draw, limits(definition)[place]),
        };
    }
    (question, [0, LIST_ROOM, any_length(draw)][(n >> QUESTION_BYTES) % 3])
}

/// A question with an empty list, the shortest other, a middling or the longest one, and a room of each length.
fn each_length(_: &Definition, draw: &mut Draw, known: &[Known], n: usize) -> (Vec<u8>, usize) {
    let lengths: BTreeSet<usize> = known.iter().map(|(_, bytes)| *bytes).collect();
    let lengths: Vec<usize> = lengths.into_iter().collect();
    let bytes = lengths[[0, 1, lengths.len() / 2, lengths.len() - 1][n % 4]];
    let such: Vec<&Known> = known.iter().filter(|(_, other)| *other == bytes).collect();
    (draw.one_of(&such).0.clone(), n / 4)
}

/// A question in range with any room, or with one of about the bytes of its list.
fn in_range(definition: &Definition, draw: &mut Draw, known: &[Known], _: usize) -> (Vec<u8>, usize) {
    let (question, bytes) = draw.one_of(known);
    let one = answer_bytes(definition);
    let about = (bytes + draw.place(2 * one + 1)).saturating_sub(one);
    let any = any_length(draw);
    (question, draw.one_of(&[about, any]))
}

/// A question of which a byte is outside its range, or two are, with any room or none.
fn damaged(definition: &Definition, draw: &mut Draw, known: &[Known], _: usize) -> (Vec<u8>, usize) {
    let (mut question, _) = draw.one_of(known);
    for _ in 0..draw.one_of(&[1, 1, 2]) {
        match draw.below(3) {
            0 => question[byte::REQUEST] = request_outside(definition, draw),
            _ => byte_outside(draw, &limits(definition), &mut question),
        }
    }
    let any = any_length(draw);
    (question, draw.one_of(&[0, any]))
}

/// A question of which each byte is rarely anything, with a length that may be more than there is.
fn anything(_: &Definition, draw: &mut Draw, known: &[Known], _: usize) -> (Vec<u8>, usize) {
    let (mut question, _) = draw.one_of(known);
    for byte in &mut question {
        if draw.one_in(12) {
            *byte = draw.byte();
        }
    }
    let (any, more) = (any_length(draw), draw.place(65_536));
    (question, draw.one_of(&[any, any, more]))
}
