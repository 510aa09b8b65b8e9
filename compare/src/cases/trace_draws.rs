//! Whole traces drawn at random: good ones, damaged ones, and ones that hold anything.

use crate::cases::damage::{damage, Damage};
use crate::cases::draw::Draw;
use crate::cases::drawn::{any_in_range, explained_event, lively_pair, stray_event};
use crate::definition::codes::ALL_STATES;
use crate::definition::steps::step;
use crate::definition::trace::Lent;
use crate::definition::values::Definition;
use Damage::{Byte, Length, Pair, Request, Sets};

/// What a trace without damage is drawn to be.
pub struct Shape<'a> {
    /// How many events it has.
    pub events: usize,
    /// The pairs that its events are of, each as often as it is to be likely.
    pub used: &'a [usize],
    /// How many of a thousand events are strays, which need not be explained.
    pub strays: u64,
    /// How many of a thousand other events leave a line that is there where it is, if they can.
    pub keeping: u64,
}

/// A trace without damage that starts from a table of sets, and whose other buffers hold anything.
pub fn trace_from(definition: &Definition, draw: &mut Draw, shape: &Shape, table: Vec<u8>) -> Lent {
    let mut sets = table.clone();
    let mut lent = Lent { table, ..Lent::default() };
    for _ in 0..shape.events {
        // Without pairs there are events all the same, which are refused.
        let pair = if shape.used.is_empty() { 0 } else { lively_pair(draw, shape.used, &sets) };
        let set = sets.get(pair).copied().unwrap_or(ALL_STATES);
        let event = match draw.below(1_000) < shape.strays {
            true => stray_event(definition, draw, set),
            false => {
                let keeping = draw.below(1_000) < shape.keeping;
                explained_event(definition, draw, set, keeping)
            }
        };
        if let Some(set) = sets.get_mut(pair) {
            *set = step(definition, &event, *set);
        }
        lent.push(pair as u16, &event, [draw.byte(), draw.byte(), draw.byte()]);
    }
    lent
}

/// A table of so many starting sets: none, one state, all of them or any.
pub fn starting_sets(draw: &mut Draw, pairs: usize) -> Vec<u8> {
    let set = |_| match draw.below(12) {
        0 => 0,
        1..=3 => 1 << draw.below(7),
        4..=6 => ALL_STATES,
        _ => draw.below(128) as u8,
    };
    (0..pairs).map(set).collect()
}

/// Some pairs of a table that has some, often fewer than were asked for.
pub fn some_pairs(draw: &mut Draw, table: usize, count: usize) -> Vec<usize> {
    (0..count).map(|_| draw.place(table)).collect()
}

/// A trace without damage over all the pairs of a small table.
pub fn small_trace(definition: &Definition, draw: &mut Draw, events: usize, pairs: usize) -> Lent {
    let used: Vec<usize> = (0..pairs).collect();
    let table = starting_sets(draw, pairs);
    trace_from(definition, draw, &Shape { events, used: &used, strays: 0, keeping: 700 }, table)
}

/// A trace without damage, of which up to so many pairs of the table have events.
fn good(definition: &Definition, draw: &mut Draw, events: usize, table: usize, pairs: usize, strays: u64) -> Lent {
    let used = some_pairs(draw, table, pairs);
    let table = starting_sets(draw, table);
    let keeping = draw.one_of(&[500, 700, 900, 970]);
    trace_from(definition, draw, &Shape { events, used: &used, strays, keeping }, table)
}

/// A trace of up to 64 events over up to eight pairs of a table that may have more.
pub fn long(definition: &Definition, draw: &mut Draw) -> Lent {
    let (events, pairs) = (draw.place(65), 1 + draw.place(8));
    let table = pairs + draw.one_of(&[0, 0, 0, 1, 3, 20, 300]);
    let strays = draw.one_of(&[0, 0, 20, 50, 100, 400]);
    good(definition, draw, events, table, pairs, strays)
}

/// A trace of up to four events, mostly of one pair or two.
pub fn short(definition: &Definition, draw: &mut Draw) -> Lent {
    let events = draw.one_of(&[0, 1, 2, 2, 3, 3, 3, 4, 4, 4, 4, 4]);
    let pairs = draw.one_of(&[1, 1, 1, 1, 2, 2, 3, 8]);
    let table = pairs + draw.one_of(&[0, 0, 0, 1, 5]);
    let strays = draw.one_of(&[0, 50, 150, 400]);
    good(definition, draw, events, table, pairs, strays)
}

/// A trace of a few events, rarely up to 64, and how many it has.
pub fn to_be_damaged(definition: &Definition, draw: &mut Draw) -> (Lent, usize) {
    let events = 1 + if draw.one_in(12) { draw.place(64) } else { draw.place(8) };
    let table = 1 + if draw.one_in(12) { draw.place(300) } else { draw.place(6) };
    let strays = draw.one_of(&[0, 100]);
    (good(definition, draw, events, table, 4, strays), events)
}

/// A trace with damage of two kinds or more: to one event, to several, to sets and events, or to a length besides.
pub fn several_damages(definition: &Definition, draw: &mut Draw) -> Lent {
    let (mut lent, n) = to_be_damaged(definition, draw);
    let (one, any) = (draw.place(n), draw.one_of(&Damage::TO_EVENT));
    let other = draw.one_of(&Damage::TO_EVENT.into_iter().filter(|other| *other != any).collect::<Vec<Damage>>());
    let early = draw.place((n / 2).max(1));
    // Each damage with the event that it is done to.
    let damages = match draw.below(10) {
        0 => vec![(one, Pair), (one, Byte)],
        1 => vec![(one, Byte), (one, Request)],
        2 => vec![(one, Pair), (one, Request)],
        3 => vec![(one, Pair), (one, Byte), (one, Request)],
        4 => vec![(one, Sets), (one, any)],
        5 => vec![(one, Sets), (one, Length)],
        6 => vec![(one, any), (one, Length)],
        7 | 8 => vec![(early, any), (n - 1, other)],
        _ => (0..2 + draw.below(4)).map(|_| (draw.place(n), draw.one_of(&Damage::TO_EVENT))).collect(),
    };
    for (event, what) in damages {
        damage(definition, draw, &mut lent, event, what);
    }
    lent
}

/// Up to so many events that hold anything in range or any bytes, mostly of so many pairs or of one more.
pub fn any_events(definition: &Definition, draw: &mut Draw, most: usize, pairs: u64) -> Lent {
    let in_range = draw.one_in(2);
    let mut lent = Lent::default();
    for _ in 0..draw.place(most + 1) {
        let event = match in_range {
            true => any_in_range(definition, draw),
            false => draw.bytes(definition.event_bytes()),
        };
        let pair = if draw.one_in(8) { draw.below(u64::from(u16::MAX) + 1) } else { draw.below(pairs + 1) };
        lent.push(pair as u16, &event, [draw.byte(), draw.byte(), draw.byte()]);
    }
    lent
}

/// A trace of a few events in which the sets, the pair numbers and the bytes of events hold much or anything.
pub fn anything(definition: &Definition, draw: &mut Draw) -> Lent {
    let pairs = draw.below(4);
    let mut lent = any_events(definition, draw, 4, pairs);
    lent.table = (0..pairs).map(|_| if draw.one_in(8) { draw.byte() } else { draw.below(128) as u8 }).collect();
    if draw.one_in(10) {
        damage(definition, draw, &mut lent, 0, Length);
    }
    lent
}

/// A trace of up to 64 events over up to eight pairs of a table of any length, every second one with one damage.
pub fn large(definition: &Definition, draw: &mut Draw) -> Lent {
    let (events, table, pairs) = (1 + draw.place(64), 1 + draw.place(definition.most_pairs), 1 + draw.place(8));
    let strays = draw.one_of(&[0, 50, 100]);
    let mut lent = good(definition, draw, events, table, pairs, strays);
    if draw.one_in(2) {
        let what = draw.one_of(&[&[Sets, Length], &Damage::to_event_over(table)[..]].concat());
        let event = draw.place(events);
        damage(definition, draw, &mut lent, event, what);
    }
    lent
}
