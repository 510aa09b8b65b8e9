//! A binary capture answered part by part, as the examples of the archive answer it: docs/API.md has their words.

use crate::definition::codes::{ALL_STATES, UNEXPLAINED};
use crate::definition::event::{ACCEPTED, WRONG_LENGTH};
use crate::definition::sheet::{each_event, lines};
use crate::definition::trace::{event_of, judge, Judged, Lent};
use crate::definition::values::Definition;

/// What a capture is answered with.
#[derive(Clone, Debug, Default, PartialEq, Eq)]
pub struct Answered {
    /// The whole output.
    pub output: Vec<u8>,
    /// The number of the refusal that stopped the run, or 0 where the capture ends within an event, and that event.
    pub stop: Option<(u8, usize)>,
    /// The verdict and the duty of each judged event.
    pub told: Vec<(u8, u8)>,
}

impl Answered {
    /// What is said on standard error.
    pub fn message(&self) -> String {
        match self.stop {
            None => String::new(),
            Some((0, event)) => format!("capture: it ends within event {event}\n"),
            Some((number, event)) => format!("capture: refused with {number} at event {event}\n"),
        }
    }
}

/// How many bytes a record has, which are a pair's number, low byte first, and its event.
pub fn record_bytes(definition: &Definition) -> usize {
    2 + definition.event_bytes()
}

/// The records of a capture, the last of which may be cut, if the capture begins with the whole mark.
pub fn records_in<'a>(definition: &Definition, capture: &'a [u8]) -> Option<&'a [u8]> {
    capture.strip_prefix(definition.capture_mark)
}

/// The answer to a whole capture, of which as many events as a trace can have are judged at a time.
pub fn answer(definition: &Definition, capture: &[u8]) -> Answered {
    answer_by(definition, capture, |lent| judge(definition, lent))
}

/// The answer to a whole capture by the judgment of each part, which is lent a table of as many pairs as there can be.
pub fn answer_by<J>(definition: &Definition, capture: &[u8], mut judge: J) -> Answered
where
    J: FnMut(&Lent) -> Judged,
{
    let mut answered = Answered::default();
    let Some(records) = records_in(definition, capture) else {
        // What has no mark, or another, may hold events of another length.
        answered.stop = Some((WRONG_LENGTH, 0));
        return answered;
    };
    let mut table = vec![ALL_STATES; definition.most_pairs];
    let record = record_bytes(definition);
    for part in records.chunks(definition.most_events * record) {
        let first = answered.told.len();
        if part.len() % record != 0 {
            answered.stop = Some((0, first + part.len() / record));
            return answered;
        }
        let judged = judge(&lent(part, record, table));
        if judged.refusal != ACCEPTED {
            answered.stop = Some((judged.refusal, first + judged.place));
            return answered;
        }
        tell(&mut answered, &judged.lent);
        table = judged.lent.table;
    }
    let count = |verdict: u8| answered.told.iter().filter(|told| told.0 == verdict).count();
    let last = format!("{} events: {} explained, {} unexplained, {} not judged\n", answered.told.len(), count(0), count(1), count(2));
    answered.output.extend(last.as_bytes());
    answered
}

/// Tells of the events of a part what an operator has to know.
fn tell(answered: &mut Answered, judged: &Lent) {
    for (n, (verdict, duty)) in judged.verdicts.iter().zip(&judged.duties).enumerate() {
        let what = match (*verdict, *duty) {
            (UNEXPLAINED, _) => "unexplained",
            (_, 1) => "Home holds the duty",
            (_, 2) => "the Requester holds the duty",
            (_, 3) => "the duty is lost",
            // Q-4 names no words for a capture; these are those of the examples.
            (_, 4) => "the line is discarded",
            _ => "",
        };
        if !what.is_empty() {
            let pair = judged.pair(n).expect("a judged event has a pair");
            answered.output.extend(format!("event {}, pair {pair}: {what}\n", answered.told.len()).as_bytes());
        }
        answered.told.push((*verdict, *duty));
    }
}

/// What is lent for the whole records of a part.
fn lent(part: &[u8], record: usize, table: Vec<u8>) -> Lent {
    let mut lent = Lent { table, ..Lent::default() };
    for record in part.chunks(record) {
        lent.push(u16::from_le_bytes([record[0], record[1]]), &record[2..], [0; 3]);
    }
    lent
}

/// The capture of a trace's events.
pub fn of_trace(definition: &Definition, lent: &Lent) -> Vec<u8> {
    let mut capture = definition.capture_mark.to_vec();
    for n in 0..lent.pairs.len() / 2 {
        capture.extend(&lent.pairs[2 * n..2 * n + 2]);
        capture.extend(event_of(definition, lent, n));
    }
    capture
}

/// The capture of a bench sheet's lines up to the first that is refused, and the number and line of its refusal.
pub fn of_sheet(definition: &Definition, sheet: &[u8]) -> (Vec<u8>, Option<(u8, usize)>) {
    let mut capture = definition.capture_mark.to_vec();
    let refusal = each_event(definition, &lines(sheet), |pair, event| {
        capture.extend((pair as u16).to_le_bytes());
        capture.extend(event);
    });
    (capture, refusal)
}
