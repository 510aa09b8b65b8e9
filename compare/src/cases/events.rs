//! Single events: every combination of the codes that the definition names, those of the two error fields apart, events drawn with
//! and without damage, and events near the rows.

use crate::cases::damage::{byte_outside, request_outside};
use crate::cases::draw::Draw;
use crate::cases::drawn::{any_in_range, byte_in_range, event_by_row, permitted_event};
use crate::cases::kinds::{share, Cases, Kind, Made};
use crate::cases::near::{beginnings, near_rows};
use crate::cases::wire::{event_record, EVENT_ROOM};
use crate::definition::codes::{byte, DERR, STATE_NOT_SEEN};
use crate::definition::columns::{columns, Column};
use crate::definition::rows::Row;
use crate::definition::values::Definition;

/// The values that some bytes of an event, from a place on, go through.
type Choice = (usize, Vec<Vec<u8>>);

/// The cases of one event alone.
pub fn events(definition: &Definition, seed: u64, random: u64) -> Cases {
    let sweep = definition.event_bytes() as u64 * 256;
    let swept = random / (4 * sweep) * sweep;
    let tenths = |tenths| share(random - swept, tenths, 10);
    let forwarding = definition.rows.iter().filter(|row| row.forward.present == 1).count();
    let kinds = vec![
        all_combinations(definition),
        tags_and_tag_ops(definition),
        derr_on_its_forward(definition),
        derr_on_any_forward(definition),
        both_error_fields(definition),
        Kind::new("single-byte sweeps", swept, single_byte).alike(sweep),
        Kind::new("both forward codes", forwarding as u64 * 64, both_forward_codes).alike(64),
        drawn("mutated", tenths(3), mutated),
        drawn("any message", tenths(1), any_message),
        drawn("outside range", tenths(1), outside_range),
        drawn("other requests", tenths(1), other_request),
        drawn("at the limits", tenths(1), limits),
        drawn("any in range", tenths(1), any_in_range),
        drawn("any bytes", tenths(1), |definition, draw| draw.bytes(definition.event_bytes())),
        Kind::new("lengths 0 to 40", tenths(1), any_length),
        near_a_row(definition),
    ];
    Cases { definition: definition.clone(), seed, kinds }
}

/// The case of an event, with other bytes after it that are not handed over.
fn whole(event: Vec<u8>, draw: &mut Draw) -> Made {
    let mut record = event_record(event.len(), &event);
    record[1 + event.len()..].iter_mut().for_each(|byte| *byte = draw.byte());
    (String::new(), record)
}

/// A kind whose events are drawn.
fn drawn(name: &'static str, count: u64, event: fn(&Definition, &mut Draw) -> Vec<u8>) -> Kind {
    Kind::new(name, count, move |definition, draw, _| {
        let event = event(definition, draw);
        whole(event, draw)
    })
}

/// For every question in range each answer near a row; one event is for the seven questions that differ in the state before
/// alone, as its judgment tells of every state before.
fn near_a_row(definition: &Definition) -> Kind {
    let (beginnings, near) = (beginnings(definition), near_rows(definition));
    Kind::new("near a row", (beginnings.len() * near.len()) as u64, move |_, draw, n| {
        let n = n as usize;
        whole([&beginnings[n / near.len()][..], &near[n % near.len()]].concat(), draw)
    })
}

/// What combinations go through: the bytes of every name of a sheet's columns at some places, each once.
fn choices(definition: &Definition, is_chosen: impl Fn(usize) -> bool) -> Vec<Choice> {
    let bytes = |column: Column| {
        let mut values: Vec<Vec<u8>> = column.names.into_iter().map(|(_, bytes)| bytes).collect();
        values.dedup();
        values
    };
    let chosen = columns(definition).into_iter().filter(|column| is_chosen(column.place));
    chosen.map(|column| (column.place, bytes(column))).collect()
}

/// Every combination of what the columns name, the forwarded data's error field apart, which is 0.
fn all_combinations(definition: &Definition) -> Kind {
    let choices = choices(definition, |place| place != byte::FWD_ERR);
    Kind::new("combinations", combinations(&choices), move |d, _, n| {
        (String::new(), event_record(d.event_bytes(), &combination(d, &choices, n)))
    })
}

/// Every request, RetToSrc, tag state, response with its own forward, and TagOp together, without an error; the state after was
/// not seen.
fn tags_and_tag_ops(definition: &Definition) -> Kind {
    let places = [byte::REQUEST, byte::RET_TO_SRC, byte::TAG, byte::CHANNEL, byte::TAG_OP];
    let choices = choices(definition, |place| places.contains(&place));
    Kind::new("tags and TagOps", combinations(&choices), move |definition, draw, n| {
        let mut event = combination(definition, &choices, n);
        forward_as_said(&mut event);
        event[byte::AFTER] = STATE_NOT_SEEN;
        whole(event, draw)
    })
}

/// Lets an event forward what its FwdState says.
fn forward_as_said(event: &mut [u8]) {
    let fwd_state = event[byte::FWD_STATE];
    (event[byte::FORWARDED], event[byte::FORWARDED_RESP]) = (u8::from(fwd_state != 0), fwd_state);
}

/// Every combination of a response that forwards with its own forward, which has DERR.
fn derr_on_its_forward(definition: &Definition) -> Kind {
    let mut choices = choices(definition, |place| place != byte::FWD_ERR && place != byte::FORWARDED);
    let responses = choices.iter_mut().filter(|(place, _)| *place == byte::CHANNEL);
    responses.for_each(|(_, responses)| responses.retain(|response| response[byte::FWD_STATE - byte::CHANNEL] != 0));
    Kind::new("DERR on its forward", with_fwd_err(definition, &choices), move |definition, draw, n| {
        let mut event = combination(definition, &choices, n);
        forward_as_said(&mut event);
        event[byte::FWD_ERR] = DERR;
        whole(event, draw)
    })
}

/// Every combination of a response with any forward, which has DERR; the state after was not seen.
fn derr_on_any_forward(definition: &Definition) -> Kind {
    let mut choices = choices(definition, |place| place != byte::FWD_ERR && place != byte::AFTER);
    let forwards = choices.iter_mut().filter(|(place, _)| *place == byte::FORWARDED);
    forwards.for_each(|(_, forwards)| forwards.retain(|forward| forward[0] == 1));
    Kind::new("DERR on any forward", with_fwd_err(definition, &choices), move |definition, draw, n| {
        let mut event = combination(definition, &choices, n);
        (event[byte::AFTER], event[byte::FWD_ERR]) = (STATE_NOT_SEEN, DERR);
        whole(event, draw)
    })
}

/// Every request, RetToSrc, tag state, response, TagOp, RespErr, forward and error of the forward together, the other flags being 0;
/// the state after was not seen.
fn both_error_fields(definition: &Definition) -> Kind {
    let others = [byte::DO_NOT_GO_TO_SD, byte::EXCL, byte::AFTER];
    let choices = choices(definition, |place| !others.contains(&place));
    Kind::new("both error fields", with_fwd_err(definition, &choices), move |definition, draw, n| {
        let mut event = combination(definition, &choices, n);
        event[byte::AFTER] = STATE_NOT_SEEN;
        whole(event, draw)
    })
}

/// How many combinations there are where an event has a byte for the error of the forwarded data, and else none.
fn with_fwd_err(definition: &Definition, choices: &[Choice]) -> u64 {
    u64::from(definition.has_fwd_err()) * combinations(choices)
}

/// How many combinations there are.
fn combinations(choices: &[Choice]) -> u64 {
    choices.iter().map(|(_, values)| values.len() as u64).product()
}

/// The combination of this number.
fn combination(definition: &Definition, choices: &[Choice], number: u64) -> Vec<u8> {
    let mut event = vec![0; definition.event_bytes()];
    let mut rest = number as usize;
    for (place, values) in choices {
        let value = &values[rest % values.len()];
        event[*place..place + value.len()].copy_from_slice(value);
        rest /= values.len();
    }
    event
}

/// A permitted event of which one byte has the value that this part of a sweep is for.
fn single_byte(definition: &Definition, draw: &mut Draw, n: u64) -> Made {
    let mut event = permitted_event(definition, draw);
    let place = (n / 256) as usize % event.len();
    event[place] = (n % 256) as u8;
    whole(event, draw)
}

/// An event that follows a row with a forward, but has any FwdState and any Resp of the forwarded data.
fn both_forward_codes(definition: &Definition, draw: &mut Draw, n: u64) -> Made {
    let forwarding: Vec<&Row> = definition.rows.iter().filter(|row| row.forward.present == 1).collect();
    let mut event = event_by_row(definition, draw, forwarding[n as usize / 64], false);
    event[byte::FWD_STATE] = (n / 8 % 8) as u8;
    event[byte::FORWARDED_RESP] = (n % 8) as u8;
    whole(event, draw)
}

/// A permitted event of which one to three bytes hold anything in range.
fn mutated(definition: &Definition, draw: &mut Draw) -> Vec<u8> {
    let mut event = permitted_event(definition, draw);
    for _ in 0..draw.one_of(&[1, 1, 2, 3]) {
        let n = draw.place(event.len());
        event[n] = byte_in_range(definition, draw, n);
    }
    event
}

/// A permitted event of which channel, opcode, Resp, FwdState and all bytes about the forward hold anything in range.
fn any_message(definition: &Definition, draw: &mut Draw) -> Vec<u8> {
    let mut event = permitted_event(definition, draw);
    for n in (byte::CHANNEL..=byte::FWD_STATE).chain(byte::FORWARDED..event.len()).filter(|n| *n != byte::AFTER) {
        event[n] = byte_in_range(definition, draw, n);
    }
    event
}

/// A permitted event of which up to three bytes are past their limit, by one or far.
fn outside_range(definition: &Definition, draw: &mut Draw) -> Vec<u8> {
    let mut event = permitted_event(definition, draw);
    for _ in 0..1 + draw.below(3) {
        byte_outside(draw, &definition.limits, &mut event);
    }
    event
}

/// An event with a request that is not judged, in a quarter of the cases with a byte outside its range besides.
fn other_request(definition: &Definition, draw: &mut Draw) -> Vec<u8> {
    let mut event = match draw.below(2) {
        0 => permitted_event(definition, draw),
        _ => any_in_range(definition, draw),
    };
    if draw.one_in(4) {
        byte_outside(draw, &definition.limits, &mut event);
    }
    event[byte::REQUEST] = request_outside(definition, draw);
    event
}

/// An event with every byte at an end of its range, one of them just past it in half of the cases.
fn limits(definition: &Definition, draw: &mut Draw) -> Vec<u8> {
    let mut event = any_in_range(definition, draw);
    for (byte, limit) in event.iter_mut().zip(&definition.limits).skip(1) {
        *byte = draw.one_of(&[0, *limit]);
    }
    if draw.one_in(2) {
        let n = 1 + draw.place(event.len() - 1);
        event[n] = definition.limits[n] + 1;
    }
    event
}

/// Any length, of a room that begins with events or not, so that reading other than the length says would show.
fn any_length(definition: &Definition, draw: &mut Draw, n: u64) -> Made {
    let length = n as usize % (EVENT_ROOM + 1);
    let mut room = draw.bytes(EVENT_ROOM);
    let kept = match draw.below(3) {
        0 => 2 * definition.event_bytes(),
        1 => length.min(definition.event_bytes()),
        _ => 0,
    };
    let events = [permitted_event(definition, draw), permitted_event(definition, draw)].concat();
    room[..kept].copy_from_slice(&events[..kept]);
    (String::new(), event_record(length, &room))
}
