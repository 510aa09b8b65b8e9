//! Whole traces at the limits and over them: many events, large tables, high pair numbers, and bad sets far back.

use crate::cases::alike::alike_pairs;
use crate::cases::damage::{damage, resize_part, Damage};
use crate::cases::draw::Draw;
use crate::cases::kinds::{Kind, Made};
use crate::cases::trace_draws::{some_pairs, starting_sets, trace_from, Shape};
use crate::cases::wire::{trace_case, trace_rooms};
use crate::definition::codes::ALL_STATES;
use crate::definition::trace::Lent;
use crate::definition::values::{Definition, PAIRS_BEFORE_Q6};
use AtLimit::{Event, More, Number, OneFewer, Set};
use Damage::{Byte, Pair, Request};
use Place::{At, First, Last, Middle};

/// A place among some things.
#[derive(Clone, Copy, Debug)]
enum Place {
    First,
    Middle,
    Last,
    At(usize),
}

impl Place {
    /// Its number where there are so many things.
    fn of(self, things: usize) -> usize {
        match self {
            First => 0,
            Middle => things / 2,
            Last => things - 1,
            At(place) => place,
        }
    }
}

/// What is wrong with a trace at the limits, besides being over them.
#[derive(Clone, Copy, Debug)]
enum AtLimit {
    /// A set is above 127.
    Set(Place),
    /// An event is damaged.
    Event(Place, Damage),
    /// An event has this pair number, which may be a good one.
    Number(Place, u16),
    /// A part has so many things more.
    More(usize, usize),
    /// A part has one thing fewer.
    OneFewer(usize),
}

/// Numbers of events and of pairs, each with each, and what is wrong besides.
type Limits = (Vec<usize>, Vec<usize>, Vec<AtLimit>);

/// A kind of traces at some limits.
fn at_limits(name: &'static str, limits: Vec<Limits>) -> Kind {
    let mut list = Vec::new();
    for (events, pairs, wrongs) in limits {
        for events in events {
            list.extend(pairs.iter().map(|pairs| (events, *pairs, wrongs.clone())));
        }
    }
    Kind::new(name, list.len() as u64, move |definition, draw, n| {
        let (events, pairs, wrongs) = &list[n as usize];
        limit_case(definition, draw, *events, *pairs, wrongs)
    })
}

/// A trace at the limits, half of its events over a few pairs and half over all of them.
fn limit_case(definition: &Definition, draw: &mut Draw, events: usize, pairs: usize, wrongs: &[AtLimit]) -> Made {
    let mut used: Vec<usize> = (0..pairs).collect();
    if pairs > 0 {
        let few = [vec![0, pairs - 1], some_pairs(draw, pairs, 6)].concat();
        used.extend((0..pairs).map(|_| draw.one_of(&few)));
    }
    let table = starting_sets(draw, pairs);
    let mut lent = trace_from(definition, draw, &Shape { events, used: &used, strays: 5, keeping: 900 }, table);
    for wrong in wrongs {
        match *wrong {
            Set(place) => lent.table[place.of(pairs)] = draw.one_of(&[128, 255]),
            Event(place, what) => damage(definition, draw, &mut lent, place.of(events), what),
            Number(place, pair) => lent.set_pair(place.of(events), pair),
            More(part, more) => {
                let length = lent.parts()[part].len() / Lent::PARTS[part].1 + more;
                resize_part(draw, &mut lent, part, length);
            }
            OneFewer(part) => resize_part(draw, &mut lent, part, events - 1),
        }
    }
    (format!("{events} events, {pairs} pairs, {wrongs:?}"), trace_case(&lent))
}

/// The traces with as many events and pairs as there can be, one fewer and one more.
pub fn at_the_limits(definition: &Definition) -> Kind {
    at_limits("at the limits", [many_things(definition), wrong_at_limits(definition)].concat())
}

/// Numbers of events and of pairs round the limits, those of before Q-6 among them.
fn many_things(definition: &Definition) -> Vec<Limits> {
    let (events, pairs, rooms) = (definition.most_events, definition.most_pairs, trace_rooms(definition));
    let in_room = rooms[0] / definition.event_bytes();
    let round = |length: usize| [length - 1, length, length + 1];
    let mut tables = [round(PAIRS_BEFORE_Q6), round(pairs / 2), round(pairs)].concat();
    tables.sort_unstable();
    tables.dedup();
    vec![
        (vec![0, 1, SOME, events], tables, vec![]),
        (vec![0, 1, events], vec![0, 1], vec![]),
        (vec![events - 1, events + 1], [&[0, 1], &round(pairs)[..]].concat(), vec![]),
        (vec![events], vec![8, 300, rooms[2]], vec![]),
        (vec![in_room], vec![1, in_room], vec![]),
        (vec![0], vec![rooms[2]], vec![]),
    ]
}

/// As many events as there can be over a table that is as long as it can be, and something wrong.
fn wrong_at_limits(definition: &Definition) -> Vec<Limits> {
    let (events, pairs, bytes) = (definition.most_events, definition.most_pairs, definition.event_bytes());
    let room = trace_rooms(definition)[0];
    let mut lines = vec![
        (vec![0, events, events + 1], vec![pairs, pairs + 1], vec![Set(Last)]),
        (vec![events], vec![pairs], vec![Event(Last, Byte), Set(Last)]),
        (vec![events], vec![pairs], vec![OneFewer(5), Set(Last)]),
        (vec![events], vec![pairs], vec![OneFewer(5), Event(Last, Byte)]),
        (vec![events], vec![pairs - 1], vec![Number(Last, (pairs - 1) as u16)]),
        (vec![room / bytes], vec![pairs], vec![More(0, room % bytes)]),
    ];
    for what in Damage::TO_EVENT {
        let table = if what == Pair { lacking_some(definition) } else { pairs };
        lines.push((vec![events, events + 1], vec![table], vec![Event(Last, what)]));
        lines.push((vec![events], vec![table], vec![Event(Middle, what)]));
    }
    let mut wrongs = vec![Set(First), Set(Middle), Number(Last, u16::MAX), More(0, 1), More(0, bytes - 1)];
    wrongs.extend([1, 3, 4, 5].iter().flat_map(|part| [OneFewer(*part), More(*part, 1)]));
    lines.extend(wrongs.into_iter().map(|wrong| (vec![events], vec![pairs], vec![wrong])));
    lines
}

/// The most pairs that a table can have and still lack a pair number.
fn lacking_some(definition: &Definition) -> usize {
    definition.most_pairs.min(u16::MAX.into())
}

/// How many events a trace has that has some.
const SOME: usize = 64;
/// How many events a trace has that has a few.
const FEW: usize = 5;

/// Pair numbers that tables just have and just lack.
const NUMBERS: [u16; 12] = [0, 255, 256, 4_095, 4_096, 4_097, 9_999, 10_000, 32_767, 32_768, 65_534, 65_535];

/// The traces in which an event has a pair number that the table just has or just lacks, with what else can be wrong with events, or
/// that it would have if a part of the number were the whole.
pub fn high_pair_numbers(definition: &Definition) -> Kind {
    let pairs = definition.most_pairs;
    let mut lines = Vec::new();
    for number in NUMBERS {
        let length = usize::from(number);
        let beside: [&[AtLimit]; 8] = [
            &[Number(First, number)],
            &[Number(Middle, number)],
            &[Number(Last, number)],
            &[Number(Middle, number), Event(Middle, Byte)],
            &[Number(Middle, number), Event(Middle, Request)],
            &[Number(Middle, number), Event(Middle, Byte), Event(Middle, Request)],
            &[Number(Last, number), Event(First, Byte)],
            &[Number(First, number), Event(Last, Request)],
        ];
        lines.extend(beside.map(|wrongs| (vec![FEW], vec![length, length + 1], wrongs.to_vec())));
        lines.push((vec![FEW], vec![PAIRS_BEFORE_Q6, pairs / 2], vec![Number(Middle, number)]));
    }
    lines.iter_mut().for_each(|(_, tables, _): &mut Limits| tables.retain(|table| *table <= pairs));
    at_limits("high pair numbers", lines)
}

/// The traces with a bad set at the first place of a large table, round the pairs of before Q-6, far back and at the last place, with
/// what else can be wrong.
pub fn bad_sets_far_back(definition: &Definition) -> Kind {
    let pairs = definition.most_pairs;
    let round = |place: usize| [place - 1, place];
    let mut places = [[0, 1], round(256), round(PAIRS_BEFORE_Q6), round(pairs / 2), round(pairs - 1)].concat();
    places.sort_unstable();
    places.retain(|place| *place < pairs);
    places.dedup();
    let mut lines = Vec::new();
    for place in places {
        let bad = Set(At(place));
        lines.push((vec![0, FEW], vec![pairs], vec![bad]));
        lines.push((vec![FEW], vec![place + 1], vec![Set(Last)]));
        lines.push((vec![FEW], vec![lacking_some(definition).max(place + 1)], vec![bad, Number(First, u16::MAX)]));
        let beside = [Set(Last), Event(First, Byte), Event(First, Request), More(0, 1), OneFewer(3)];
        lines.extend(beside.map(|wrong| (vec![FEW], vec![pairs], vec![bad, wrong])));
        lines.push((vec![FEW], vec![pairs], vec![bad, Event(First, Byte), Event(Last, Request), OneFewer(1)]));
        // One pair more is told before any bad set.
        lines.push((vec![FEW], vec![pairs + 1], vec![bad]));
    }
    at_limits("bad sets far back", lines)
}

/// The traces with one pair more than there can be, in which something else is wrong too, or much is.
pub fn too_many_pairs(definition: &Definition) -> Kind {
    let (events, pairs) = (definition.most_events, definition.most_pairs);
    let sets = [Set(First), Set(At(pairs - 1)), Set(Last)];
    let to_events = Damage::to_event_over(pairs + 1).into_iter().flat_map(|what| [Event(First, what), Event(Last, what)]);
    let lengths = [OneFewer(1), More(3, 1), OneFewer(4), More(5, 1), More(0, 1)];
    let all: Vec<AtLimit> = sets.into_iter().chain(to_events).chain(lengths).collect();
    let mut lines: Vec<Limits> = all.iter().map(|wrong| (vec![1, FEW], vec![pairs + 1], vec![*wrong])).collect();
    lines.push((vec![1, FEW, SOME, events, events + 1], vec![pairs + 1], all));
    lines.push((vec![0], vec![pairs + 1], sets.to_vec()));
    at_limits("too many pairs", lines)
}

/// How many traces there are over each group of pairs that are alike.
const OVER_ALIKE: usize = 6;

/// The traces over pairs whose numbers are alike in part.
pub fn pairs_alike_in_part(definition: &Definition) -> Kind {
    let groups = alike_pairs(definition);
    let count = OVER_ALIKE * groups.len();
    Kind::new("pairs alike in part", count as u64, move |definition, draw, n| {
        let (how, pairs) = &groups[n as usize / OVER_ALIKE];
        let turn = n as usize % OVER_ALIKE;
        // The histories of a short trace are enumerated too.
        let events = [4, SOME, 3 * SOME][turn % 3];
        let length = if turn % 2 == 0 { definition.most_pairs } else { 1 + pairs.iter().max().expect("a group has pairs") };
        let table = if turn < 3 { vec![ALL_STATES; length] } else { starting_sets(draw, length) };
        let lent = trace_from(definition, draw, &Shape { events, used: pairs, strays: 10, keeping: 900 }, table);
        (format!("{how}, {events} events, {length} pairs"), trace_case(&lent))
    })
}
