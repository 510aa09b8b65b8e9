//! Every refusal with its number and place, and no buffer changed.

mod common;

use common::{Lent, HIGHEST, IN_ERROR, LAST_PAIR, OLD_MOST_PAIRS, REQUESTS, SHEET};
use korehyumo::{
    judge_event, Event, EventNumber, Judge, PairNumber, Refusal, StateSet, MOST_EVENTS, MOST_PAIRS,
};

/// How many bytes an event had before its last byte was added.
const OLD_BYTES: usize = 14;

/// The definition's example with a table of five pairs.
fn example() -> Lent {
    Lent::new(&SHEET, &[4; 4], &[127; 5])
}

/// Asserts that a trace is refused for its lengths.
fn refused_for_lengths(lent: &Lent) {
    lent.refused(Refusal::Lengths, 1, 0);
}

/// A wrong length of each buffer with an element for each event, alone and before other faults.
#[test]
fn lengths() {
    for length in [0, 1, 3, 5, 8, 4 * Event::BYTES, MOST_EVENTS, 5_000] {
        let mut wrong = [example(), example(), example(), example()];
        wrong[0].pairs.resize(length, 4);
        wrong[1].verdicts.resize(length, 9);
        wrong[2].duties.resize(length, 9);
        wrong[3].afters.resize(length, 9);
        for mut lent in wrong {
            refused_for_lengths(&lent);
            lent.table[0] = 128;
            lent.events[0] = 0;
            lent.events[1] = 2;
            refused_for_lengths(&lent);
        }
    }
}

/// Event bytes that are not whole events, or events of another number than the other buffers have.
#[test]
fn lengths_of_events() {
    for bytes in (0..=5 * Event::BYTES).filter(|bytes| *bytes != 4 * Event::BYTES) {
        let mut lent = example();
        lent.events.resize(bytes, 0);
        refused_for_lengths(&lent);
    }
}

/// Traces of old events, one byte shorter each: refused whatever their number.
#[test]
fn lengths_of_old_events() {
    let old = IN_ERROR[..OLD_BYTES].repeat(MOST_EVENTS);
    for n in 1..=MOST_EVENTS {
        let mut lent = Lent::new(&vec![IN_ERROR; n], &vec![0; n], &[127]);
        lent.events = old[..n * OLD_BYTES].to_vec();
        refused_for_lengths(&lent);
    }
}

/// More events, or more pairs, than there can be; up to the most of each a trace is accepted.
#[test]
fn lengths_over_the_most() {
    let sized = |events: usize, pairs: usize| {
        Lent::new(&vec![IN_ERROR; events], &vec![0; events], &vec![127; pairs])
    };
    let old_most = usize::from(OLD_MOST_PAIRS);
    for pairs in [1, old_most, old_most + 1, MOST_PAIRS - 1, MOST_PAIRS] {
        for events in [0, 1, MOST_EVENTS] {
            assert_eq!(sized(events, pairs).judge(), Ok(events));
        }
    }
    for (events, pairs) in [
        (MOST_EVENTS + 1, MOST_PAIRS),
        (MOST_EVENTS, MOST_PAIRS + 1),
        (MOST_EVENTS + 1, MOST_PAIRS + 1),
        (MOST_EVENTS + 1, 1),
        (0, MOST_PAIRS + 1),
        (1, MOST_PAIRS + 1),
        (1, 2 * MOST_PAIRS),
    ] {
        refused_for_lengths(&sized(events, pairs));
    }
}

/// All buffers empty, and all but one.
#[test]
fn empty_slices() {
    let empty = Lent::new(&[], &[], &[]);
    assert_eq!(empty.clone().judge(), Ok(0));
    let mut alone = vec![empty; 5];
    alone[0].events = SHEET[0].to_vec();
    alone[1].pairs = vec![0];
    alone[2].verdicts = vec![7];
    alone[3].duties = vec![7];
    alone[4].afters = vec![7];
    alone.iter().for_each(refused_for_lengths);
    Lent::new(&SHEET, &[0; 4], &[]).refused(Refusal::Pair(EventNumber(0)), 3, 0);
}

/// A set above 127: the lowest such pair is refused, before any event.
#[test]
fn sets() {
    for set in 128..=255 {
        let mut lent = example();
        lent.table[3] = set;
        lent.table[4] = 255;
        lent.refused(Refusal::Set(PairNumber(3)), 2, 3);
        lent.pairs[0] = 5;
        lent.events[0] = 0;
        lent.events[4] = 4;
        lent.refused(Refusal::Set(PairNumber(3)), 2, 3);
    }
    Lent::new(&[], &[], &[127, 128]).refused(Refusal::Set(PairNumber(1)), 2, 1);
}

/// A set above 127 high in the largest table: the lowest such pair is refused, with events and without.
#[test]
fn sets_of_high_pairs() {
    let refused = |pair: u16, table: &[u8]| {
        let refusal = Refusal::Set(PairNumber(pair));
        Lent::new(&[], &[], table).refused(refusal, 2, u64::from(pair));
        Lent::new(&SHEET, &[pair; 4], table).refused(refusal, 2, u64::from(pair));
    };
    let mut table = vec![127; MOST_PAIRS];
    for pair in [LAST_PAIR, LAST_PAIR - 1, OLD_MOST_PAIRS, OLD_MOST_PAIRS - 1] {
        table[usize::from(pair)] = 128;
        refused(pair, &table);
    }
}

/// A pair number past the table: refused before the event's bytes and before any later event.
#[test]
fn pairs() {
    for pair in [5, 6, 255, 256, 260, OLD_MOST_PAIRS, LAST_PAIR] {
        for event in 0..4 {
            let refusal = Refusal::Pair(EventNumber(event as u64));
            let mut lent = example();
            lent.pairs[event] = pair;
            lent.refused(refusal, 3, event as u64);
            lent.events[event * Event::BYTES] = 0;
            lent.events[event * Event::BYTES + 13] = 8;
            lent.pairs[3] = pair;
            lent.refused(refusal, 3, event as u64);
        }
    }
}

/// The first pair past a large table is refused, the last pair of it is not.
#[test]
fn pairs_past_large_tables() {
    for pair in [
        OLD_MOST_PAIRS - 1,
        OLD_MOST_PAIRS,
        OLD_MOST_PAIRS + 1,
        LAST_PAIR - 1,
        LAST_PAIR,
    ] {
        let without = vec![127; usize::from(pair)];
        Lent::new(&SHEET, &[0, 0, pair, 0], &without).refused(Refusal::Pair(EventNumber(2)), 3, 2);
        let with = [&without[..], &[127]].concat();
        assert_eq!(Lent::new(&SHEET, &[0, 0, pair, 0], &with).judge(), Ok(4));
    }
}

/// A byte above its highest value: refused before the event's request and before any later event.
#[test]
fn ranges() {
    for event in 0..4 {
        let refusal = Refusal::Range(EventNumber(event as u64));
        for (byte, highest) in HIGHEST.iter().enumerate().skip(1) {
            let mut lent = example();
            lent.events[event * Event::BYTES + byte] = *highest;
            assert_eq!(lent.clone().judge(), Ok(4));
            lent.events[event * Event::BYTES + byte] = highest + 1;
            lent.refused(refusal, 4, event as u64);
            lent.events[event * Event::BYTES] = 0;
            if event < 3 {
                lent.pairs[event + 1] = 5;
            }
            lent.refused(refusal, 4, event as u64);
        }
    }
}

/// A request that is not one of the ten: refused before any later event.
#[test]
fn requests() {
    for event in 0..4 {
        for request in 0..=255 {
            let mut lent = example();
            lent.events[event * Event::BYTES] = request;
            if REQUESTS.contains(&request) {
                assert_eq!(lent.judge(), Ok(4));
                continue;
            }
            if event < 3 {
                lent.pairs[event + 1] = 5;
            }
            lent.refused(Refusal::Request(EventNumber(event as u64)), 5, event as u64);
        }
    }
}

/// Refusals at the last event of the longest trace.
#[test]
fn last_event() {
    let last = MOST_EVENTS - 1;
    let number = EventNumber(last as u64);
    let mut lent = Lent::new(&[IN_ERROR; MOST_EVENTS], &[0; MOST_EVENTS], &[127]);
    lent.events[last * Event::BYTES] = 3;
    lent.refused(Refusal::Request(number), 5, 4_095);
    lent.events[last * Event::BYTES + 14] = 4;
    lent.refused(Refusal::Range(number), 4, 4_095);
    lent.pairs[last] = 1;
    lent.refused(Refusal::Pair(number), 3, 4_095);
}

/// Refusals of one event alone, all at place 0.
#[test]
fn alone() {
    let refused = |bytes: &[u8], refusal: Refusal, number: u8| {
        assert_eq!(judge_event(bytes), Err(refusal));
        assert_eq!((refusal.number(), refusal.place()), (number, 0));
    };
    for length in (0..40).filter(|length| *length != Event::BYTES) {
        refused(&vec![1; length], Refusal::Lengths, 1);
    }
    refused(&[0; 70_000], Refusal::Lengths, 1);
    for event in SHEET {
        refused(&event[..OLD_BYTES], Refusal::Lengths, 1);
    }
    let first = EventNumber(0);
    for (byte, highest) in HIGHEST.iter().enumerate().skip(1) {
        let mut event = SHEET[0];
        event[byte] = *highest;
        assert!(judge_event(event).is_ok());
        event[byte] = highest + 1;
        refused(&event, Refusal::Range(first), 4);
        event[0] = 0;
        refused(&event, Refusal::Range(first), 4);
    }
    for request in (0..=255).filter(|request| !REQUESTS.contains(request)) {
        let mut event = SHEET[0];
        event[0] = request;
        refused(&event, Refusal::Request(first), 5);
    }
}

/// A refused trace leaves the sets of a `Judge` as they were, and the next trace starts from them.
#[test]
fn by_name() -> Result<(), Refusal> {
    let [gave_up, again, ..] = SHEET.map(Event::from);
    let mut judge = Judge::new(2)?;
    let findings = judge.judge(&[(PairNumber(1), gave_up)])?;
    assert_eq!(findings[0].to_string(), "explained,Home,I SC");

    let mut bytes = SHEET[1];
    bytes[0] = 3;
    let refused = [
        (PairNumber(0), gave_up),
        (PairNumber(1), Event::from(bytes)),
    ];
    assert_eq!(judge.judge(&refused), Err(Refusal::Request(EventNumber(1))));
    bytes[13] = 8;
    let refused = [
        (PairNumber(0), gave_up),
        (PairNumber(1), Event::from(bytes)),
    ];
    assert_eq!(judge.judge(&refused), Err(Refusal::Range(EventNumber(1))));
    let refused = [(PairNumber(0), gave_up), (PairNumber(2), again)];
    assert_eq!(judge.judge(&refused), Err(Refusal::Pair(EventNumber(1))));
    assert!(judge.sets().map(StateSet::bits).eq([127, 33]));

    let findings = judge.judge(&[(PairNumber(1), again)])?;
    assert_eq!(findings[0].to_string(), "explained,none,I SC");
    Ok(())
}
