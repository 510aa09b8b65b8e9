//! One event judged alone.

use crate::definition::codes::{byte, holds_dirty, FWD_STATES_WITH_PD, NDERR, OK, RESPS_WITH_PD};
use crate::definition::steps::{agreeing, set_after};
use crate::definition::values::Definition;

/// The number of what is accepted.
pub const ACCEPTED: u8 = 0;
/// The refusal of a wrong length.
pub const WRONG_LENGTH: u8 = 1;
/// The refusal of a byte outside its range.
pub const OUTSIDE_RANGE: u8 = 4;
/// The refusal of a request that is not judged.
pub const OTHER_REQUEST: u8 = 5;

/// The refusal of as many bytes as an event has, or 0 if they are an event.
pub fn refusal(definition: &Definition, event: &[u8]) -> u8 {
    refusal_within(definition, &definition.limits, event)
}

/// The refusal of bytes that begin with a request, or 0 if each of the others is within its limit and the request is judged.
pub fn refusal_within(definition: &Definition, limits: &[u8], bytes: &[u8]) -> u8 {
    if (1..bytes.len()).any(|n| bytes[n] > limits[n]) {
        OUTSIDE_RANGE
    } else if !is_request(definition, bytes[byte::REQUEST]) {
        OTHER_REQUEST
    } else {
        ACCEPTED
    }
}

/// Whether a byte is a request that is judged.
pub fn is_request(definition: &Definition, request: u8) -> bool {
    definition.requests.iter().any(|(_, code)| *code == request)
}

/// The duty byte of an explained event from a set of states before.
pub fn duty(definition: &Definition, event: &[u8], before: u8) -> u8 {
    if RESPS_WITH_PD.contains(&event[byte::RESP]) {
        1
    } else if FWD_STATES_WITH_PD.contains(&event[byte::FWD_STATE]) {
        2
    } else if event[byte::RESP_ERR] == NDERR && holds_dirty(before) {
        3
    } else if event[byte::RESP_ERR] == OK && holds_dirty(before) && definition.discarding.contains(&event[byte::REQUEST]) {
        4
    } else {
        0
    }
}

/// What is answered about one event alone.
#[derive(Clone, Copy, Debug, Default, PartialEq, Eq)]
pub struct Alone {
    /// 0 when accepted, else the number of the refusal.
    pub refusal: u8,
    /// 1 when accepted, else 0.
    pub place: u8,
    /// The set of states after, for each state before.
    pub sets: [u8; 7],
    /// The duty byte judged from each state before alone.
    pub duties: [u8; 7],
}

/// The answer about bytes handed over as one event.
pub fn alone(definition: &Definition, bytes: &[u8]) -> Alone {
    let refusal = match bytes.len() == definition.event_bytes() {
        true => refusal(definition, bytes),
        false => WRONG_LENGTH,
    };
    let mut answer = Alone { refusal, ..Alone::default() };
    if refusal == ACCEPTED {
        answer.place = 1;
        let rows = agreeing(definition, bytes);
        for before in 0..7 {
            let set = set_after(definition, &rows, bytes, before);
            answer.sets[usize::from(before)] = set;
            if set != 0 {
                answer.duties[usize::from(before)] = duty(definition, bytes, 1 << before);
            }
        }
    }
    answer
}

/// Whether there is a state before from which an event has a step.
pub fn has_a_step(definition: &Definition, event: &[u8]) -> bool {
    alone(definition, event).sets != [0; 7]
}
