//! A whole trace judged, set by set.

use crate::definition::codes::{ALL_STATES, EXPLAINED, NOT_JUDGED, UNEXPLAINED};
use crate::definition::event::{duty, refusal, ACCEPTED, WRONG_LENGTH};
use crate::definition::steps::step;
use crate::definition::values::Definition;

/// The refusal of a set above 127.
pub const NO_SET: u8 = 2;
/// The refusal of a pair number that is not below the table's length.
pub const NO_PAIR: u8 = 3;

/// All that is lent for a whole trace.
#[derive(Clone, Debug, Default, PartialEq, Eq)]
pub struct Lent {
    /// The bytes of the events.
    pub events: Vec<u8>,
    /// The pair numbers, two bytes each, the low one first.
    pub pairs: Vec<u8>,
    /// The table of sets, one byte a pair.
    pub table: Vec<u8>,
    /// The verdict bytes, one an event.
    pub verdicts: Vec<u8>,
    /// The duty bytes, one an event.
    pub duties: Vec<u8>,
    /// The after-set bytes, one an event.
    pub after_sets: Vec<u8>,
}

impl Lent {
    /// What each part is, and how many bytes a thing of it has.
    pub const PARTS: [(&'static str, usize); 6] =
        [("bytes of events", 1), ("pair numbers", 2), ("table", 1), ("verdicts", 1), ("duties", 1), ("after-sets", 1)];

    /// The parts, in the order of their names.
    pub fn parts(&self) -> [&Vec<u8>; 6] {
        [&self.events, &self.pairs, &self.table, &self.verdicts, &self.duties, &self.after_sets]
    }

    /// The parts to be changed, in the order of their names.
    pub fn parts_mut(&mut self) -> [&mut Vec<u8>; 6] {
        let Lent { events, pairs, table, verdicts, duties, after_sets } = self;
        [events, pairs, table, verdicts, duties, after_sets]
    }

    /// The pair of an event, if a number was lent for it.
    pub fn pair(&self, event: usize) -> Option<usize> {
        let bytes = self.pairs.get(2 * event..2 * event + 2)?;
        Some(usize::from(bytes[0]) + 256 * usize::from(bytes[1]))
    }

    /// Gives an event this pair number.
    pub fn set_pair(&mut self, event: usize, pair: u16) {
        self.pairs[2 * event..2 * event + 2].copy_from_slice(&pair.to_le_bytes());
    }

    /// Adds an event of a pair, and room for what is told of it.
    pub fn push(&mut self, pair: u16, event: &[u8], room: [u8; 3]) {
        self.pairs.extend(pair.to_le_bytes());
        self.events.extend(event);
        self.verdicts.push(room[0]);
        self.duties.push(room[1]);
        self.after_sets.push(room[2]);
    }
}

/// What is answered about a whole trace.
#[derive(Clone, Debug, PartialEq, Eq)]
pub struct Judged {
    /// 0 when accepted, else the number of the refusal.
    pub refusal: u8,
    /// The place that goes with it.
    pub place: usize,
    /// What was lent, as it is after the call.
    pub lent: Lent,
}

/// The answer about a whole trace.
pub fn judge(definition: &Definition, lent: &Lent) -> Judged {
    let mut lent = lent.clone();
    let (refusal, place) = refused(definition, &lent);
    if refusal == ACCEPTED {
        for n in 0..place {
            let pair = lent.pair(n).expect("an accepted trace has a pair number for each event");
            let told = judge_event(definition, event_of(definition, &lent, n), lent.table[pair]);
            [lent.verdicts[n], lent.duties[n], lent.after_sets[n]] = told;
            lent.table[pair] = told[2];
        }
    }
    Judged { refusal, place, lent }
}

/// The verdict, the duty and the set after an event whose pair had this set before it.
pub fn judge_event(definition: &Definition, event: &[u8], before: u8) -> [u8; 3] {
    let after = step(definition, event, before);
    if before == 0 {
        [NOT_JUDGED, 0, 0]
    } else if after == 0 {
        [UNEXPLAINED, 0, 0]
    } else {
        [EXPLAINED, duty(definition, event, before), after]
    }
}

/// The number and the place of a trace's refusal, or 0 and the number of its events if it is accepted.
pub fn refused(definition: &Definition, lent: &Lent) -> (u8, usize) {
    if lengths_are_wrong(definition, lent) {
        return (WRONG_LENGTH, 0);
    }
    if let Some(pair) = lent.table.iter().position(|set| *set > ALL_STATES) {
        return (NO_SET, pair);
    }
    let n = whole_events(definition, lent);
    for event in 0..n {
        if lent.pair(event).is_none_or(|pair| pair >= lent.table.len()) {
            return (NO_PAIR, event);
        }
        match refusal(definition, event_of(definition, lent, event)) {
            ACCEPTED => {}
            number => return (number, event),
        }
    }
    (ACCEPTED, n)
}

/// Whether anything lent has a length that it must not have.
fn lengths_are_wrong(definition: &Definition, lent: &Lent) -> bool {
    let n = whole_events(definition, lent);
    lent.events.len() % definition.event_bytes() != 0
        || n > definition.most_events
        || lent.table.len() > definition.most_pairs
        || lent.pairs.len() != 2 * n
        || [&lent.verdicts, &lent.duties, &lent.after_sets].iter().any(|part| part.len() != n)
}

/// How many whole events are lent.
pub fn whole_events(definition: &Definition, lent: &Lent) -> usize {
    lent.events.len() / definition.event_bytes()
}

/// The bytes of a whole event.
pub fn event_of<'a>(definition: &Definition, lent: &'a Lent, event: usize) -> &'a [u8] {
    &lent.events[event * definition.event_bytes()..][..definition.event_bytes()]
}
