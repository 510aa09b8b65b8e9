//! Captures that go through marks, lengths, pair numbers, parts, refusals and cuts, and captures drawn with and without damage.

use crate::cases::alike::alike_pairs;
use crate::cases::damage::{cut, damage, requests_just_outside, Damage};
use crate::cases::draw::Draw;
use crate::cases::drawn::event_by_row;
use crate::cases::kinds::{share, Cases, Gathered, Kind, Made};
use crate::cases::trace_draws::{any_events, some_pairs, trace_from, Shape};
use crate::definition::capture::{of_sheet, of_trace, record_bytes};
use crate::definition::codes::{byte, ALL_STATES, RESP_ERRS, STATE_NOT_SEEN, TAG_NOT_SEEN};
use crate::definition::trace::Lent;
use crate::definition::values::{Definition, PAIRS_BEFORE_Q6};

/// The sheets of the samples, by name.
const SAMPLES: [(&str, &[u8]); 12] = [
    ("example.csv", include_bytes!("../../../samples/example.csv")),
    ("morning.csv", include_bytes!("../../../samples/morning.csv")),
    ("lost_year.csv", include_bytes!("../../../samples/lost_year.csv")),
    ("discarded.csv", include_bytes!("../../../samples/discarded.csv")),
    ("lost.csv", include_bytes!("../../../samples/lost.csv")),
    ("dirty_tags.csv", include_bytes!("../../../samples/dirty_tags.csv")),
    ("forwarded_error.csv", include_bytes!("../../../samples/forwarded_error.csv")),
    ("high_pairs.csv", include_bytes!("../../../samples/high_pairs.csv")),
    ("refused-3.csv", include_bytes!("../../../samples/refused-3.csv")),
    ("refused-6.csv", include_bytes!("../../../samples/refused-6.csv")),
    ("refused-7.csv", include_bytes!("../../../samples/refused-7.csv")),
    ("refused-8.csv", include_bytes!("../../../samples/refused-8.csv")),
];

/// The example's event that hands the duty to Home, as it was before Q-5.
const TO_HOME: [u8; 14] = [1, 0, 0, 0, 0, 1, 1, 5, 0, 0, 0, 0, 0, 7];
/// The example's event that is unexplained after that one, as it was before Q-5.
const UNEXPLAINED: [u8; 14] = [2, 0, 0, 0, 0, 1, 1, 3, 0, 0, 0, 0, 0, 7];

/// How many bytes an event had before Q-5.
const OLD_BYTES: usize = 14;
/// How many records old captures have: of 17 with 16 bytes each, the length is a multiple of 17 too.
const OLD_COUNTS: [usize; 10] = [1, 2, 3, 15, 16, 17, 18, 34, 51, 4_097];
/// Marks that are no mark, whatever follows.
#[rustfmt::skip]
const OTHER_MARKS: [&[u8]; 18] = [
    b"CHI\x0e", b"CHI\x10", b"CHI\x11", b"CHI\x00", b"CHI\x8f", b"CHI\xf0", b"CHI15", b"CHIF", b"CHI ", b"CHI\n",
    b"chi\x0f", b"IHC\x0f", b"\x0fIHC", b"CHIE\x0f", b"\0CHI\x0f", b"\nCHI\x0f", b"\xef\xbb\xbfCHI\x0f", b"CCHI\x0f",
];

/// Pair numbers of all lengths, many of which were no pairs before Q-6.
#[rustfmt::skip]
const PAIRS: [u16; 25] = [
    0, 1, 255, 256, 257, 3_840, 4_094, 4_095, 4_096, 4_097, 4_351, 8_191, 9_999, 10_000, 12_288, 18_499, 32_767, 32_768,
    32_769, 61_440, 61_441, 65_279, 65_280, 65_534, 65_535,
];

/// Long captures: how many events, of up to how many pairs, and how many of a thousand events are strays.
#[rustfmt::skip]
const LONG: [(usize, usize, u64); 7] = [
    (10_000, 1, 0), (9_999, 3, 0), (10_001, 12, 1), (10_007, 300, 4), (12_000, 2_000, 25), (10_240, 6_000, 40),
    (66_000, 12_000, 20),
];

/// The cases of a capture.
pub fn captures(definition: &Definition, seed: u64, random: u64) -> Cases {
    let mut draw = Draw::new(seed, 1);
    let used = some_pairs(&mut draw, definition.most_pairs, 2_500);
    let whole = good(definition, &mut draw, 3 * definition.most_events + 10, &used, 40, 500);
    let mut sweeping = Sweeping { definition: definition.clone(), draw, whole, captures: Gathered::default() };
    let swept = SWEEPS.map(|(name, sweep)| {
        sweep(&mut sweeping);
        sweeping.captures.kind(name)
    });
    let mut kinds = Vec::from(swept);
    kinds.extend([
        Kind::new("drawn", share(random, 4, 10), |d, draw, n| drawn(d, draw, n, false, false)),
        Kind::new("drawn, damaged", share(random, 3, 10), |d, draw, n| drawn(d, draw, n, true, false)),
        Kind::new("drawn, cut", share(random, 2, 10), |d, draw, n| drawn(d, draw, n, n % 4 == 0, true)),
        Kind::new("anything", share(random, 1, 10), |d, draw, _| few_of_anything(d, draw)),
    ]);
    Cases { definition: definition.clone(), seed, kinds }
}

/// What the swept captures are made from.
struct Sweeping {
    definition: Definition,
    draw: Draw,
    /// A trace of more than three parts, of which most captures are beginnings.
    whole: Lent,
    captures: Gathered,
}

/// Adds the captures of a kind.
type Sweep = fn(&mut Sweeping);

/// The kinds whose captures are gathered one after another.
const SWEEPS: [(&str, Sweep); 10] = [
    ("the samples", Sweeping::samples),
    ("marks", Sweeping::marks),
    ("0 to 40 bytes", Sweeping::lengths),
    ("pair numbers", Sweeping::pair_numbers),
    ("pairs alike in part", Sweeping::pairs_alike_in_part),
    ("both error fields", Sweeping::error_fields),
    ("whole parts", Sweeping::whole_parts),
    ("refusals", Sweeping::refusals),
    ("cut records", Sweeping::cuts),
    ("long", Sweeping::long),
];

impl Sweeping {
    /// Numbers of events round the borders of parts.
    fn round_borders(&self) -> [usize; 7] {
        let part = self.definition.most_events;
        [part - 1, part, part + 1, 2 * part - 1, 2 * part, 2 * part + 1, 3 * part]
    }

    /// Adds the capture of the first events of the whole trace, some of them damaged, and tells how it was damaged.
    fn add(&mut self, events: usize, damages: &[(usize, Damage)], cut_at: Option<usize>) {
        let mut lent = self.whole.clone();
        lent.pairs.truncate(2 * events);
        let mut how = format!("{events} events");
        for (event, what) in damages {
            damage(&self.definition, &mut self.draw, &mut lent, *event, *what);
            how += &format!(", damage of event {event}: {what:?}");
        }
        let mut capture = of_trace(&self.definition, &lent);
        if let Some(bytes) = cut_at {
            capture.truncate(self.definition.capture_mark.len() + (events - 1) * record_bytes(&self.definition) + bytes);
            how += &format!(", the last one cut after {bytes} bytes");
        }
        self.captures.add(how, capture);
    }

    /// Adds the captures of the samples' sheets.
    fn samples(&mut self) {
        SAMPLES.iter().for_each(|(name, sheet)| self.captures.add(*name, of_sheet(&self.definition, sheet).0));
    }

    /// Adds captures with another mark, a cut one or none, old ones, and inputs of other kinds.
    fn marks(&mut self) {
        let mark = self.definition.capture_mark;
        let whole = of_trace(&self.definition, &self.first(3));
        let records = &whole[mark.len()..];
        for end in 0..=mark.len() {
            self.captures.add(format!("the first {end} bytes of the mark"), mark[..end].to_vec());
            self.captures.add(format!("the first {end} bytes of the mark and records"), [&mark[..end], records].concat());
            self.captures.add(format!("the mark without its first {end} bytes and records"), whole[end..].to_vec());
        }
        for (place, right) in mark.iter().enumerate() {
            for other in [0, 255, right ^ 1, right ^ 32, right ^ 128, right + 1, right - 1] {
                let mut other_mark = mark.to_vec();
                other_mark[place] = other;
                self.captures.add(format!("byte {place} of the mark is {other}"), [&other_mark[..], records].concat());
            }
        }
        for other in OTHER_MARKS {
            self.captures.add(format!("\"{}\" for the mark", other.escape_ascii()), [other, records].concat());
            self.captures.add(format!("\"{}\" alone", other.escape_ascii()), other.to_vec());
        }
        self.captures.add("the mark twice", [mark, &whole].concat());
        self.captures.add("the mark after the records", [records, mark].concat());
        self.captures.add("the mark again after the records", [&whole, mark].concat());
        self.captures.add("a sheet for a capture", SAMPLES[0].1.to_vec());
        self.old_captures();
    }

    /// Adds captures of records as they were before Q-5, without a mark, behind the right one, and behind one of their own length.
    fn old_captures(&mut self) {
        for count in OLD_COUNTS {
            let lent = self.first(count);
            let pairs = lent.pairs.chunks(2);
            let events = lent.events.chunks(self.definition.event_bytes());
            let old: Vec<u8> = pairs.zip(events).flat_map(|(pair, event)| [pair, &event[..OLD_BYTES]].concat()).collect();
            for mark in [&b""[..], self.definition.capture_mark, &[b'C', b'H', b'I', OLD_BYTES as u8]] {
                self.captures.add(format!("{count} old records behind \"{}\"", mark.escape_ascii()), [mark, &old].concat());
            }
        }
    }

    /// The first events of the whole trace.
    fn first(&self, events: usize) -> Lent {
        let mut lent = self.whole.clone();
        lent.pairs.truncate(2 * events);
        lent.events.truncate(events * self.definition.event_bytes());
        lent
    }

    /// The capture of some records.
    fn capture_of(&self, records: Vec<u8>) -> Vec<u8> {
        [self.definition.capture_mark, &records].concat()
    }

    /// A record of a pair's event, which has bytes of 0 behind those of before Q-5.
    fn record_of(&self, pair: u16, event: &[u8]) -> Vec<u8> {
        let mut record = [&pair.to_le_bytes()[..], event].concat();
        record.resize(record_bytes(&self.definition), 0);
        record
    }

    /// Adds the first bytes of the mark and three records.
    fn lengths(&mut self) {
        let three = self.capture_of([TO_HOME, UNEXPLAINED, TO_HOME].map(|event| self.record_of(7, &event)).concat());
        (0..=40).for_each(|length| self.captures.add(format!("{length} bytes"), three[..length].to_vec()));
    }

    /// Adds captures in which a pair comes among others that a part of its number is the number of, and one of all pairs.
    fn pair_numbers(&mut self) {
        for pair in PAIRS {
            let parts = [pair & 255, pair >> 8, pair % PAIRS_BEFORE_Q6 as u16, pair & (u16::MAX >> 1)];
            let pairs = [&parts[..2], &[pair], &parts[2..]].concat();
            let before = pairs.into_iter().flat_map(|pair| self.record_of(pair, &TO_HOME)).collect();
            let capture = self.capture_of([before, self.record_of(pair, &UNEXPLAINED)].concat());
            self.captures.add(format!("pair {pair}"), capture);
        }
        let pairs = || (0..self.definition.most_pairs).map(|pair| pair as u16);
        let there = pairs().flat_map(|pair| self.record_of(pair, &TO_HOME));
        let back = pairs().rev().flat_map(|pair| self.record_of(pair, &UNEXPLAINED));
        let capture = self.capture_of(there.chain(back).collect());
        self.captures.add("all pairs, there and back", capture);
    }

    /// Adds captures over pairs whose numbers are alike in part, a short one and one of more than a part.
    fn pairs_alike_in_part(&mut self) {
        for (how, pairs) in alike_pairs(&self.definition) {
            for events in [100, self.definition.most_events + 100] {
                let lent = good(&self.definition, &mut self.draw, events, &pairs, 2, 970);
                self.captures.add(format!("{how}, {events} events"), of_trace(&self.definition, &lent));
            }
        }
    }

    /// Adds a capture in which both error fields of each row's answer go through their values together, each time for a pair of its
    /// own; tags and state after were not seen.
    fn error_fields(&mut self) {
        let (rows, errors) = (self.definition.rows.clone(), RESP_ERRS.len());
        let mut records = Vec::new();
        for n in 0..usize::from(self.definition.has_fwd_err()) * rows.len() * errors * errors {
            let mut event = event_by_row(&self.definition, &mut self.draw, &rows[n / (errors * errors)], false);
            (event[byte::TAG], event[byte::AFTER]) = (TAG_NOT_SEEN, STATE_NOT_SEEN);
            (event[byte::RESP_ERR], event[byte::FWD_ERR]) = ((n / errors % errors) as u8, (n % errors) as u8);
            records.extend(self.record_of(n as u16, &event));
        }
        let capture = self.capture_of(records);
        self.captures.add("every row with every error", capture);
    }

    /// Adds captures of as many events as fill a part or several, or one fewer or more.
    fn whole_parts(&mut self) {
        self.round_borders().into_iter().for_each(|events| self.add(events, &[], None));
    }

    /// Adds captures in which one event is refused, or two are, or each byte of one is, or its request is just outside.
    fn refusals(&mut self) {
        let (part, damages) = (self.definition.most_events, Damage::to_event_over(self.definition.most_pairs));
        let events = [&[0, 1, 17, part - 2][..], &self.round_borders()].concat();
        for (turn, event) in events.into_iter().enumerate() {
            for (n, what) in damages.iter().enumerate() {
                let after = [0, 3, 200][(turn + n) % 3];
                self.add((event + 1 + after).min(self.whole.pairs.len() / 2), &[(event, *what)], None);
            }
        }
        for (first, second) in [(3, 3), (3, 4), (part - 1, part), (part + 5, 2 * part)] {
            for (n, one) in damages.iter().enumerate() {
                let other = damages[(n + 1) % damages.len()];
                self.add(second + 2, &[(first, *one), (second, other)], None);
            }
        }
        let five = of_trace(&self.definition, &self.first(5));
        let event_3 = self.definition.capture_mark.len() + 3 * record_bytes(&self.definition) + 2;
        let with = |n: usize, value: u8| {
            let mut capture = five.clone();
            capture[event_3 + n] = value;
            capture
        };
        for (n, limit) in self.definition.limits.iter().enumerate().skip(1) {
            self.captures.add(format!("byte {n} of event 3 is past its limit"), with(n, limit + 1));
        }
        for request in requests_just_outside(&self.definition) {
            self.captures.add(format!("request {request} in event 3"), with(byte::REQUEST, request));
        }
    }

    /// Adds captures that end within a record, some with an event that is refused in the same part or in one before.
    fn cuts(&mut self) {
        let (part, record) = (self.definition.most_events, record_bytes(&self.definition));
        let damages = Damage::to_event_over(self.definition.most_pairs);
        for events in [&[3, 100, part - 2][..], &self.round_borders()].concat() {
            [1, 2 + events % 13, record - 1].iter().for_each(|rest| self.add(events + 1, &[], Some(*rest)));
        }
        let refused = [(2, 5), (part - 2, part - 1), (part - 1, part), (7, part + 4), (part + 2, part + 4), (part, 2 * part)];
        for (n, (event, events)) in refused.into_iter().enumerate() {
            self.add(events + 1, &[(event, damages[n % damages.len()])], Some(9));
        }
    }

    /// Adds long captures; the last event of one has a number of more than 16 bits.
    fn long(&mut self) {
        for (events, count, strays) in LONG {
            let used = some_pairs(&mut self.draw, self.definition.most_pairs, count);
            let lent = good(&self.definition, &mut self.draw, events, &used, strays, 900);
            self.captures.add(format!("{events} events of up to {count} pairs"), of_trace(&self.definition, &lent));
        }
    }
}

/// The events of a capture without damage, every pair of which starts from any state.
fn good(definition: &Definition, draw: &mut Draw, events: usize, used: &[usize], strays: u64, keeping: u64) -> Lent {
    let table = vec![ALL_STATES; definition.most_pairs];
    trace_from(definition, draw, &Shape { events, used, strays, keeping }, table)
}

/// A capture drawn at random, with damage or cut if that is asked for, one of several parts among many short ones.
fn drawn(definition: &Definition, draw: &mut Draw, n: u64, damaged: bool, is_cut: bool) -> Made {
    let (part, is_long) = (definition.most_events, n % 12 == 5);
    let events = if is_long { part + 1 + draw.place(6_000) } else { 1 + draw.place(60) };
    let count = if is_long { draw.one_of(&[10, 300, 3_000]) } else { draw.one_of(&[1, 2, 3, 5, 9, 20]) };
    let below = draw.one_of(&[10, 1_000, definition.most_pairs, definition.most_pairs]);
    let used = some_pairs(draw, below, count);
    let strays = draw.one_of(&[0, 20, 100, 300]);
    let mut lent = good(definition, draw, events, &used, strays, 500);
    let mut how = format!("{events} events");
    // Half of the long ones are damaged in a later part alone.
    let first = if n % 24 == 5 { part } else { 0 };
    for _ in 0..usize::from(damaged) * draw.one_of(&[1, 1, 2, 3]) {
        let (event, what) = (first + draw.place(events - first), draw.one_of(&Damage::to_event_over(definition.most_pairs)));
        damage(definition, draw, &mut lent, event, what);
        how += &format!(", damage of event {event}: {what:?}");
    }
    let mut capture = of_trace(definition, &lent);
    if is_cut {
        how += &format!(", cut by {} bytes", cut(draw, &mut capture, record_bytes(definition)));
    }
    (how, capture)
}

/// A few records that hold any event in range, or any bytes, with some bytes more in a quarter of the cases, and with anything for a
/// byte of the mark in a sixth.
fn few_of_anything(definition: &Definition, draw: &mut Draw) -> Made {
    let mut capture = of_trace(definition, &any_events(definition, draw, 8, 3));
    if draw.one_in(4) {
        let more = draw.place(record_bytes(definition));
        capture.extend(draw.bytes(more));
    }
    if draw.one_in(6) && !definition.capture_mark.is_empty() {
        capture[draw.place(definition.capture_mark.len())] = draw.byte();
    }
    (String::new(), capture)
}
