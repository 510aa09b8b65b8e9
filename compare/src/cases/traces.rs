//! The cases of a whole trace: sweeps, lengths, limits, and traces drawn with and without damage.

use crate::cases::damage::{damage, resize_part, Damage};
use crate::cases::draw::Draw;
use crate::cases::drawn::event_by_row;
use crate::cases::kinds::{share, Cases, Kind, Made};
use crate::cases::limits::{at_the_limits, bad_sets_far_back, high_pair_numbers, pairs_alike_in_part, too_many_pairs};
use crate::cases::trace_draws::{anything, large, long, several_damages, short, small_trace, to_be_damaged};
use crate::cases::wire::trace_case;
use crate::definition::codes::{byte, ALL_STATES, RESP_ERRS};
use crate::definition::rows::{Row, NDERR_ROW};
use crate::definition::trace::Lent;
use crate::definition::values::Definition;
use std::ops::Range;
use Damage::{Byte, Length, Pair, Request, Sets};

/// The cases of a whole trace.
pub fn traces(definition: &Definition, seed: u64, random: u64) -> Cases {
    let bytes = definition.event_bytes();
    let all: Vec<u16> = (0..256).collect();
    let lengths = wrong_lengths(bytes);
    let forward_errors = usize::from(definition.has_fwd_err()) * forwarding_rows(definition).len() * RESP_ERRS.len() * SETS;
    let twentieths = |parts| share(random, parts, 20);
    let kinds = vec![
        // What varies in a small trace, its number of events, its number of pairs, the places, the values.
        sweep("each byte value", 4, 2..3, bytes, all.clone(), |bytes, lent, draw, place, value| {
            lent.events[draw.place(4) * bytes + place] = value as u8
        })
        .alike(256),
        sweep("each set value", 2, 3..4, 3, all, |_, lent, _, place, value| lent.table[place] = value as u8).alike(256),
        Kind::new("every set", (definition.requests.len() * RESP_ERRS.len() * SETS) as u64, every_set),
        Kind::new("every forward error", forward_errors as u64, every_forward_error),
        sweep("many pair numbers", 2, 0..10, 2, PAIRS_TRIED.to_vec(), |_, lent, _, place, value| lent.set_pair(place, value)),
        Kind::new("many lengths", lengths.len() as u64, move |d, draw, n| length_case(d, draw, n, &lengths[n as usize])),
        Kind::new("other event lengths", 2 * MOST_OTHERS, other_event_length),
        at_the_limits(definition),
        drawn("up to 64 events", twentieths(6), long),
        drawn("up to 4 events", twentieths(7), short),
        damaged("bad sets", twentieths(1), Sets),
        damaged("bad pair numbers", twentieths(1), Pair),
        damaged("bad bytes", twentieths(1), Byte),
        damaged("bad requests", twentieths(1), Request),
        drawn("several damages", twentieths(1), several_damages),
        damaged("bad lengths", twentieths(1), Length),
        drawn("anything", twentieths(1), anything),
        high_pair_numbers(definition),
        bad_sets_far_back(definition),
        too_many_pairs(definition),
        pairs_alike_in_part(definition),
        drawn("large tables", share(random, 1, 2_000), large),
    ];
    Cases { definition: definition.clone(), seed, kinds }
}

/// How many sets of states there are.
const SETS: usize = ALL_STATES as usize + 1;

/// The pair numbers that are tried, some of which have a low byte that is a good number.
#[rustfmt::skip]
const PAIRS_TRIED: [u16; 43] = [
    0, 1, 2, 3, 4, 5, 6, 7, 8, 9, 10, 11, 16, 127, 128, 254, 255, 256, 257, 258, 259, 260, 264, 511, 512, 513, 1_024,
    4_094, 4_095, 4_096, 4_097, 8_192, 16_384, 32_767, 32_768, 32_769, 61_440, 65_024, 65_279, 65_280, 65_281, 65_534,
    65_535,
];

/// Puts a value at a place of a trace whose events have so many bytes.
type Vary = fn(usize, &mut Lent, &mut Draw, usize, u16);

/// Small traces of so many events, over tables of so many pairs, in which something varies at some places through some values.
fn sweep(name: &'static str, events: usize, tables: Range<usize>, places: usize, values: Vec<u16>, vary: Vary) -> Kind {
    let tried = values.len();
    let count = tables.len() * places * tried;
    let make = move |definition: &Definition, draw: &mut Draw, n: u64| {
        let n = n as usize;
        let mut lent = small_trace(definition, draw, events, tables.start + n / tried / places);
        vary(definition.event_bytes(), &mut lent, draw, n / tried % places, values[n % tried]);
        (String::new(), trace_case(&lent))
    };
    Kind::new(name, count as u64, make)
}

/// A trace in which a pair of any set gives the answer of NDERR to any request twice, with any RespErr.
fn every_set(definition: &Definition, draw: &mut Draw, n: u64) -> Made {
    let (rest, set) = (n as usize / SETS, n as usize % SETS);
    let row = definition.rows.iter().find(|row| row.table == NDERR_ROW).expect("NDERR has a row");
    let mut event = event_by_row(definition, draw, row, false);
    event[byte::REQUEST] = definition.requests[rest / RESP_ERRS.len()].1;
    event[byte::RESP_ERR] = (rest % RESP_ERRS.len()) as u8;
    let mut lent = Lent { table: vec![set as u8], ..Lent::default() };
    (0..2).for_each(|_| lent.push(0, &event, [draw.byte(), draw.byte(), draw.byte()]));
    (String::new(), trace_case(&lent))
}

/// The rows that forward data.
fn forwarding_rows(definition: &Definition) -> Vec<&Row> {
    definition.rows.iter().filter(|row| row.forward.present == 1).collect()
}

/// A trace in which a pair of any set gives an answer with a forward twice, the forward having any error.
fn every_forward_error(definition: &Definition, draw: &mut Draw, n: u64) -> Made {
    let (rows, errors) = (forwarding_rows(definition), RESP_ERRS.len());
    let (rest, row) = (n as usize / rows.len(), n as usize % rows.len());
    let mut event = event_by_row(definition, draw, rows[row], false);
    event[byte::FWD_ERR] = (rest % errors) as u8;
    let mut lent = Lent { table: vec![(rest / errors) as u8], ..Lent::default() };
    (0..2).for_each(|_| lent.push(0, &event, [draw.byte(), draw.byte(), draw.byte()]));
    (String::new(), trace_case(&lent))
}

/// The most events of a trace whose events have a byte fewer or more than they should.
const MOST_OTHERS: u64 = 48;

/// A trace without damage but for its events, which have a byte fewer each, or a byte more.
fn other_event_length(definition: &Definition, draw: &mut Draw, n: u64) -> Made {
    let (events, bytes) = (1 + n as usize / 2, definition.event_bytes());
    let mut lent = small_trace(definition, draw, events, 3);
    let others = lent.events.chunks(bytes).map(|event| match n % 2 {
        0 => event[..bytes - 1].to_vec(),
        _ => [event, &[0]].concat(),
    });
    lent.events = others.collect::<Vec<Vec<u8>>>().concat();
    (String::new(), trace_case(&lent))
}

/// A kind whose traces are drawn.
fn drawn(name: &'static str, count: u64, trace: fn(&Definition, &mut Draw) -> Lent) -> Kind {
    Kind::new(name, count, move |definition, draw, _| (String::new(), trace_case(&trace(definition, draw))))
}

/// A kind whose traces are drawn with one damage.
fn damaged(name: &'static str, count: u64, what: Damage) -> Kind {
    Kind::new(name, count, move |definition, draw, _| {
        let (mut lent, events) = to_be_damaged(definition, draw);
        let event = draw.place(events);
        damage(definition, draw, &mut lent, event, what);
        (String::new(), trace_case(&lent))
    })
}

/// How many events a trace is drawn with, and the bytes of events, pair numbers, verdicts, duties and after-sets it then has.
type Lengths = (usize, [usize; 5]);

/// All the wrong lengths that small traces are given.
fn wrong_lengths(bytes: usize) -> Vec<Lengths> {
    let mut all = Vec::new();
    for n in 0..=4 {
        let right = [n * bytes, n, n, n, n];
        let mut add = |lengths: [usize; 5]| all.extend((lengths != right).then_some((n, lengths)));
        for rest in 1..bytes {
            add([n * bytes + rest, n, n, n, n]);
            add([n * bytes + rest, n + 1, n + 1, n + 1, n + 1]);
        }
        for whole in 0..=n + 2 {
            add([whole * bytes, n, n, n, n]);
        }
        for part in 1..5 {
            for length in 0..=2 * n + 3 {
                let mut lengths = right;
                lengths[part] = length;
                add(lengths);
            }
        }
        let near = [n.saturating_sub(1), n, n + 1];
        for number in 0..81 {
            let [pairs, verdicts, duties, after_sets] = [1, 3, 9, 27].map(|weight| near[number / weight % 3]);
            add([n * bytes, pairs, verdicts, duties, after_sets]);
        }
    }
    all
}

/// A trace with wrong lengths, every second one with a bad set and a bad last event besides.
fn length_case(definition: &Definition, draw: &mut Draw, n: u64, (drawn, lengths): &Lengths) -> Made {
    let mut lent = small_trace(definition, draw, *drawn, 2);
    if n % 2 == 1 {
        lent.table[1] = 200;
        if *drawn > 0 {
            damage(definition, draw, &mut lent, drawn - 1, Byte);
        }
    }
    for (part, length) in [0, 1, 3, 4, 5].into_iter().zip(lengths) {
        resize_part(draw, &mut lent, part, *length);
    }
    (String::new(), trace_case(&lent))
}
