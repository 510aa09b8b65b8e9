//! Accepted traces: the definition's example, several pairs, no events, high pairs, and the most events and pairs.

mod common;

use common::{Lent, IN_ERROR, LAST_PAIR, OLD_MOST_PAIRS, SHEET};
use korehyumo::{
    Event, EventNumber, Judge, PairNumber, Refusal, StateSet, MOST_EVENTS, MOST_PAIRS,
};

/// The example as a trace of one pair.
#[test]
fn the_example() {
    let mut lent = Lent::new(&SHEET, &[0; 4], &[127]);
    assert_eq!(lent.judge(), Ok(4));
    assert_eq!(lent.verdicts, [0, 0, 1, 2]);
    assert_eq!(lent.duties, [1, 0, 0, 0]);
    assert_eq!(lent.afters, [33, 33, 0, 0]);
    assert_eq!(lent.table, [0]);
    assert_eq!(lent.events, SHEET.concat());
    assert_eq!(lent.pairs, [0; 4]);
}

/// The example cut into traces of one to four events each: always the same answers.
#[test]
fn the_example_in_parts() -> Result<(), Refusal> {
    let lines = [
        "explained,Home,I SC",
        "explained,none,I SC",
        "unexplained,none,",
        "not judged,none,",
    ];
    let trace = SHEET.map(|bytes| (PairNumber(0), Event::from(bytes)));
    for part in 1..=4 {
        let mut judge = Judge::new(1)?;
        let mut told = Vec::new();
        for events in trace.chunks(part) {
            told.extend(
                judge
                    .judge(events)?
                    .iter()
                    .map(|finding| finding.to_string()),
            );
        }
        assert_eq!(told, lines);
        assert_eq!(judge.set_of(PairNumber(0)), Some(StateSet::EMPTY));
    }
    Ok(())
}

/// An event of one pair doesn't change another.
#[test]
fn pairs_do_not_meddle() {
    let mut lent = Lent::new(&SHEET, &[3, 1, 3, 1], &[127, 127, 9, 8, 0]);
    assert_eq!(lent.judge(), Ok(4));
    assert_eq!(lent.verdicts, [0, 0, 1, 0]);
    assert_eq!(lent.duties, [1, 0, 0, 0]);
    assert_eq!(lent.afters, [33, 33, 0, 1]);
    assert_eq!(lent.table, [127, 1, 9, 0, 0]);
}

/// A trace without events is accepted and changes no table, even one without pairs.
#[test]
fn no_events() -> Result<(), Refusal> {
    for table in [&[][..], &[0], &[0, 5, 127]] {
        let mut lent = Lent::new(&[], &[], table);
        assert_eq!(lent.judge(), Ok(0));
        assert_eq!(lent.table, table);
    }
    assert_eq!(Judge::new(0)?.judge(&[])?, []);
    let mut judge = Judge::new(2)?;
    assert_eq!(judge.judge(&[])?, []);
    assert!(judge.sets().eq([StateSet::ALL; 2]));
    Ok(())
}

/// The most events and pairs. The first error meets a line in UD, the others meet it in I.
#[test]
fn most_events_and_pairs() {
    let pairs = [LAST_PAIR; MOST_EVENTS];
    let mut lent = Lent::new(&[IN_ERROR; MOST_EVENTS], &pairs, &[8; MOST_PAIRS]);
    assert_eq!(lent.judge(), Ok(MOST_EVENTS));
    assert_eq!(lent.verdicts, [0; MOST_EVENTS]);
    assert_eq!(lent.duties[0], 3);
    assert_eq!(lent.duties[1..], [0; MOST_EVENTS - 1]);
    assert_eq!(lent.afters, [1; MOST_EVENTS]);
    assert_eq!(lent.table.pop(), Some(1));
    assert_eq!(lent.table, [8; MOST_PAIRS - 1]);
}

/// One event of each high pair: judged on its own set, which alone changes.
#[test]
fn high_pairs() -> Result<(), Refusal> {
    let mut judge = Judge::new(MOST_PAIRS)?;
    for pair in [OLD_MOST_PAIRS - 1, OLD_MOST_PAIRS, LAST_PAIR].map(PairNumber) {
        let findings = judge.judge(&[(pair, Event::from(SHEET[0]))])?;
        assert_eq!(findings[0].to_string(), "explained,Home,I SC");
        assert_eq!(judge.set_of(pair).unwrap().to_string(), "I SC");
    }
    let changed: Vec<usize> = judge
        .sets()
        .enumerate()
        .filter(|(_, set)| *set != StateSet::ALL)
        .map(|(pair, _)| pair)
        .collect();
    assert_eq!(changed, [4_095, 4_096, 65_535]);
    Ok(())
}

/// Every `u16` is a pair of the largest table: each is judged once, and no set is left as it was.
#[test]
fn every_pair() {
    let mut table = vec![8; MOST_PAIRS];
    let numbers: Vec<u16> = (0..=LAST_PAIR).collect();
    for part in numbers.chunks(MOST_EVENTS) {
        let mut lent = Lent::new(&[IN_ERROR; MOST_EVENTS], part, &table);
        assert_eq!(lent.judge(), Ok(MOST_EVENTS));
        assert_eq!(lent.duties, [3; MOST_EVENTS]);
        table = lent.table;
    }
    assert_eq!(table, [1; MOST_PAIRS]);
}

/// Pairs that are equal modulo 4,096 do not share a set: every second one is lost, and those between are judged on.
#[test]
fn pairs_alike_do_not_meddle() {
    let [gave_up, _, kept, _] = SHEET;
    for first in [0, 1, OLD_MOST_PAIRS - 1] {
        let alike: Vec<u16> = (first..=LAST_PAIR)
            .step_by(usize::from(OLD_MOST_PAIRS))
            .collect();
        let mut table = vec![127; MOST_PAIRS];
        for (k, pair) in alike.iter().enumerate() {
            table[usize::from(*pair)] = if k % 2 == 0 { 64 } else { 32 };
        }
        let events = [[kept; 16], [gave_up; 16]].concat();
        let mut lent = Lent::new(&events, &alike.repeat(2), &table);
        assert_eq!(lent.judge(), Ok(32));
        assert_eq!(lent.verdicts, [[0, 1].repeat(8), [0, 2].repeat(8)].concat());
        assert_eq!(lent.duties, [[0, 0].repeat(8), [1, 0].repeat(8)].concat());
        assert_eq!(lent.afters, [[64, 0].repeat(8), [33, 0].repeat(8)].concat());
        for (k, pair) in alike.iter().enumerate() {
            table[usize::from(*pair)] = if k % 2 == 0 { 33 } else { 0 };
        }
        assert_eq!(lent.table, table);
    }
}

/// The most events and pairs with `Judge`, and one event too many.
#[test]
fn most_by_name() -> Result<(), Refusal> {
    assert_eq!((MOST_EVENTS, MOST_PAIRS), (4_096, 65_536));
    let last = PairNumber(LAST_PAIR);
    let event = (last, Event::from(IN_ERROR));
    let mut judge = Judge::new(MOST_PAIRS)?;
    let too_many = [event; MOST_EVENTS + 1];
    assert_eq!(judge.judge(&too_many), Err(Refusal::Lengths));
    assert_eq!(judge.set_of(last), Some(StateSet::ALL));
    assert_eq!(judge.sets().len(), MOST_PAIRS);

    let findings = judge.judge(&[event; MOST_EVENTS])?;
    assert_eq!(findings.len(), MOST_EVENTS);
    assert_eq!(findings[0].to_string(), "explained,lost,I");
    assert!(findings[1..]
        .iter()
        .all(|finding| finding.to_string() == "explained,none,I"));
    assert_eq!(judge.set_of(last).unwrap().to_string(), "I");
    assert_eq!(judge.set_of(PairNumber(65_534)), Some(StateSet::ALL));
    Ok(())
}

/// A judge of one pair fewer than the most has no last pair; a judge of one more is refused.
#[test]
fn numbers_of_pairs() -> Result<(), Refusal> {
    let last = PairNumber(65_535);
    let event = Event::from(IN_ERROR);
    let mut judge = Judge::new(65_535)?;
    assert_eq!(judge.sets().len(), 65_535);
    assert_eq!(judge.set_of(last), None);
    let refused = judge.judge(&[(PairNumber(65_534), event), (last, event)]);
    assert_eq!(refused, Err(Refusal::Pair(EventNumber(1))));
    assert_eq!(judge.set_of(PairNumber(65_534)), Some(StateSet::ALL));

    let mut judge = Judge::new(65_536)?;
    assert_eq!(judge.set_of(last), Some(StateSet::ALL));
    assert_eq!(judge.judge(&[(last, event)])?.len(), 1);

    assert_eq!(Judge::new(65_537).err(), Some(Refusal::Lengths));
    assert_eq!(Judge::new(usize::MAX).err(), Some(Refusal::Lengths));
    let endless = std::iter::repeat(StateSet::EMPTY);
    assert_eq!(Judge::with_sets(endless).err(), Some(Refusal::Lengths));
    Ok(())
}
