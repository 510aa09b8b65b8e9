//! Damage to what is handed over, written once for every call that has that part.

use crate::cases::draw::Draw;
use crate::definition::event::is_request;
use crate::definition::trace::{whole_events, Lent};
use crate::definition::values::Definition;

/// What is done to a trace, or to one of its events.
#[derive(Clone, Copy, Debug, PartialEq, Eq)]
pub enum Damage {
    /// A part has a length that doesn't fit the others.
    Length,
    /// Some sets are above 127.
    Sets,
    /// The event's pair number is not below the table's length.
    Pair,
    /// A byte of the event is outside its range.
    Byte,
    /// The event's request is not judged.
    Request,
}

impl Damage {
    /// The damage that is done to an event.
    pub const TO_EVENT: [Damage; 3] = [Damage::Pair, Damage::Byte, Damage::Request];

    /// The damage that can be done to an event over a table of so many pairs, which may have all pair numbers that there are.
    pub fn to_event_over(table: usize) -> Vec<Damage> {
        let has_all = table > usize::from(u16::MAX);
        Damage::TO_EVENT.into_iter().filter(|damage| *damage != Damage::Pair || !has_all).collect()
    }
}

/// Does damage to a trace, at an event where it is done to one.
pub fn damage(definition: &Definition, draw: &mut Draw, lent: &mut Lent, event: usize, damage: Damage) {
    let bytes = definition.event_bytes();
    match damage {
        Damage::Length => other_part_length(definition, draw, lent),
        Damage::Sets => (0..draw.one_of(&[1, 1, 2, 3])).for_each(|_| bad_set(draw, &mut lent.table)),
        Damage::Pair => {
            let pair = pair_outside(draw, lent.table.len());
            lent.set_pair(event, pair);
        }
        Damage::Byte => byte_outside(draw, &definition.limits, &mut lent.events[event * bytes..][..bytes]),
        Damage::Request => lent.events[event * bytes] = request_outside(definition, draw),
    }
}

/// Puts a value past its limit into some byte after the first.
pub fn byte_outside(draw: &mut Draw, limits: &[u8], bytes: &mut [u8]) {
    let n = 1 + draw.place(bytes.len() - 1);
    bytes[n] = value_past(draw, limits[n]);
}

/// A value just past a limit, or far past it.
pub fn value_past(draw: &mut Draw, limit: u8) -> u8 {
    match draw.below(4) {
        0 | 1 => limit + 1,
        2 => 255,
        _ => limit + 1 + draw.below(255 - u64::from(limit)) as u8,
    }
}

/// A request that is not judged, often near one that is.
pub fn request_outside(definition: &Definition, draw: &mut Draw) -> u8 {
    loop {
        let near = draw.one_of(&definition.requests).1;
        let request = match draw.below(5) {
            0 => near - 1,
            1 => near + 1,
            2 => near + 32 * (1 + draw.below(7) as u8),
            3 => draw.one_of(&[0, 3, 7, 8, 9, 10, 11, 23, 255]),
            _ => draw.byte(),
        };
        if !is_request(definition, request) {
            return request;
        }
    }
}

/// The requests that are not judged, but are one less or one more than one that is, or 32 more.
pub fn requests_just_outside(definition: &Definition) -> Vec<u8> {
    let near = |request: u8| [request.checked_add(1), request.checked_sub(1), request.checked_sub(32)];
    let is_near = |request: u8| near(request).into_iter().flatten().any(|other| is_request(definition, other));
    (0..=255).filter(|request| !is_request(definition, *request) && is_near(*request)).collect()
}

/// A pair number that is not below the length of a table, which doesn't have all pair numbers that there are.
fn pair_outside(draw: &mut Draw, table: usize) -> u16 {
    let (length, last) = (table as u64, u64::from(u16::MAX));
    assert!(length <= last, "a table of {table} pairs has all pair numbers");
    let pair = match draw.below(6) {
        0 | 1 => length,
        2 => length + 1,
        3 => last,
        // As a low byte alone it might be below.
        4 => 256 * (length / 256 + 1 + draw.below(200)) + draw.below(length.max(1)) % 256,
        _ => length + draw.below(last + 1 - length),
    };
    pair.min(last) as u16
}

/// Puts a byte above 127 in the place of some set of a table that is not empty.
fn bad_set(draw: &mut Draw, table: &mut [u8]) {
    let pair = draw.place(table.len());
    table[pair] = match draw.below(4) {
        0 => 128,
        1 => 255,
        2 => table[pair] | 128,
        _ => 128 + draw.below(128) as u8,
    };
}

/// Gives one part of a trace, the table aside, a length that doesn't fit the others.
fn other_part_length(definition: &Definition, draw: &mut Draw, lent: &mut Lent) {
    let n = whole_events(definition, lent);
    let bytes = definition.event_bytes();
    let other = other_length(draw, n);
    let (part, length) = match draw.below(6) {
        0 if n > 0 && draw.one_in(2) => (0, n * bytes - 1 - draw.place(bytes - 1)),
        0 => (0, n * bytes + 1 + draw.place(bytes - 1)),
        1 => (0, other * bytes),
        2 => (1, other),
        part => (part as usize, other),
    };
    resize_part(draw, lent, part, length);
}

/// A length other than n: none, or more or fewer by one or by a few.
pub fn other_length(draw: &mut Draw, n: usize) -> usize {
    loop {
        let other = match draw.below(5) {
            0 => 0,
            1 => n + 1,
            2 => n.saturating_sub(1),
            3 => n + 1 + draw.place(n + 3),
            _ => draw.place(n + 1),
        };
        if other != n {
            return other;
        }
    }
}

/// Gives a part of a trace so many things, of which further pair numbers are the last one or 0, and others anything.
pub fn resize_part(draw: &mut Draw, lent: &mut Lent, part: usize, length: usize) {
    let bytes = length * Lent::PARTS[part].1;
    let last = lent.pairs.len().checked_sub(2).map_or([0, 0], |last| [lent.pairs[last], lent.pairs[last + 1]]);
    let part_bytes = &mut lent.parts_mut()[part];
    part_bytes.truncate(bytes);
    while part_bytes.len() < bytes {
        match part {
            1 => part_bytes.extend(last),
            _ => part_bytes.push(draw.byte()),
        }
    }
}

/// Any byte, often one that means something in a sheet.
pub fn any_byte(draw: &mut Draw) -> u8 {
    match draw.below(3) {
        0 => draw.byte(),
        _ => draw.one_of(b"\r\r\n\n,,0129/:SCDIU_-? \"\0\x7f\xff"),
    }
}

/// Does damage to some bytes, whatever they are; one of the ends of lines may be put in.
pub fn damage_bytes(draw: &mut Draw, bytes: &mut Vec<u8>, ends: &[&[u8]]) {
    let place = draw.place(bytes.len() + 1);
    match draw.below(7) {
        0 => bytes.insert(place, any_byte(draw)),
        1 if place < bytes.len() => drop(bytes.remove(place)),
        2 if place < bytes.len() => bytes[place] = any_byte(draw),
        3 if place + 1 < bytes.len() => bytes.swap(place, place + 1),
        4 => bytes.truncate(place),
        5 => drop(bytes.splice(place..place, draw.one_of(ends).iter().copied())),
        _ => bytes.extend_from_within(place..),
    }
}

/// Cuts bytes by fewer than a record has, and tells by how many.
pub fn cut(draw: &mut Draw, bytes: &mut Vec<u8>, record: usize) -> usize {
    let cut = 1 + draw.place(record - 1);
    bytes.truncate(bytes.len() - cut);
    cut
}

#[cfg(test)]
mod tests {
    use super::*;
    use std::collections::BTreeSet;

    /// A pair number outside is not below the table's length, for every length but that of a table that has them all.
    #[test]
    fn pairs_outside() {
        let mut draw = Draw::new(1, 1);
        for table in [0, 1, 255, 256, 4_095, 4_096, 65_279, 65_280, 65_534, 65_535] {
            assert!((0..200).all(|_| usize::from(pair_outside(&mut draw, table)) >= table), "{table}");
            assert_eq!(Damage::to_event_over(table), Damage::TO_EVENT, "{table}");
        }
        assert_eq!(Damage::to_event_over(65_536), [Damage::Byte, Damage::Request]);
    }

    /// The requests just outside are those by hand, and they come where one is drawn.
    #[test]
    fn requests_outside() {
        let definition = Definition::at_stage(4).unwrap();
        let by_hand = [0, 3, 5, 6, 8, 11, 17, 19, 23, 33, 34, 36, 39, 41, 42, 50, 52, 53, 54];
        assert_eq!(requests_just_outside(&definition), by_hand);
        let mut draw = Draw::new(1, 1);
        let drawn: BTreeSet<u8> = (0..3_000).map(|_| request_outside(&definition, &mut draw)).collect();
        assert!(by_hand.iter().all(|request| drawn.contains(request)), "{drawn:?}");
        assert!([1, 2, 4, 7, 9, 10, 18, 20, 21, 22].iter().all(|request| !drawn.contains(request)), "{drawn:?}");
    }
}
